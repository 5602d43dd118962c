#!/usr/bin/env python3
"""Plays the rows of this folder with an interpreter, and tells which of them agree.

usage: conformance/run.py [-v] [--screen-only] [--writable-code] [--only WORDS] COMMAND...
       conformance/run.py --write FOLDER

Each row is played by `COMMAND STORY`, for each of its versions. --write plays nothing: it writes the stories and inputs
of all rows, and a list of these plays with what is wanted of them, rows.json. README.md describes the rows.
"""

from __future__ import annotations

import argparse
import collections
import json
import os
import pathlib
import re
import shutil
import subprocess
import sys
import tempfile
from collections.abc import Callable
from dataclasses import dataclass, field
from typing import NamedTuple

from ending import end_with, workers

# A play that is not over then has no end: none takes a second where nothing else runs.
SECONDS = 120
FOLDER = pathlib.Path(__file__).resolve().parent

# The words of the header that a row may set: their addresses, and what they are where it does not.
FIELDS = {
    "release": (0x02, 0),
    "high": (0x04, 0x0800),
    "start": (0x06, 0x0800),
    "dictionary": (0x08, 0),
    "objects": (0x0A, 0x0100),
    "globals": (0x0C, 0x0400),
    "static": (0x0E, 0x0800),
    "flags2": (0x10, 0),
    "abbreviations": (0x18, 0x0040),
    "length": (0x1A, 0),
    "checksum": (0x1C, 0),
    "alphabet": (0x34, 0),
    "extension": (0x36, 0),
}

LEAST_LENGTH = 0x1000
PACKED = {3: 2, 4: 4, 5: 4, 8: 8}
END = re.compile(r"quit|input|read failed|refused \d+|(fault|limit) \d+ at [0-9a-f]{5,}")
LAST_LINE = re.compile(r"zkit: (refused \d+|(fault|limit) \d+ at [0-9a-f]{5,}|read failed|write failed|out of memory)")
# A status line of version 3 with an empty line behind it, as dfrotz shows it where a read begins.
STATUS_LINE = re.compile(r"^.*Score: \d+ +Moves: \d+\n(\n|$)", re.M)
STATUS = {"quit": 0, "input": 0, "refused": 1, "fault": 2, "limit": 3, "read": 4}


@dataclass
class Row:
    """One row, with the file and line that it stands at."""

    name: str
    place: str
    section: str = ""
    choice: bool = False
    versions: list[int] = field(default_factory=list)
    fields: dict[str, int] = field(default_factory=dict)  # words of the header, by their names
    size: int | None = None  # in bytes, where the row gives it
    memory: list[tuple[int, list[str]]] = field(default_factory=list)  # addresses, each with tokens
    input: bytes = b""  # what stands on standard input
    upper: bool = False  # the status line and the upper window are shown
    save: bool = False  # there is a file for the saved game
    undo: int | None = None  # how many states there are to go back to, where the row says it
    screen: str = ""
    script: str | None = None  # what the transcript gets, where the row says it
    end: str = ""
    assembly: list[str] = field(default_factory=list)  # the comments of its bytes
    said: set[str] = field(default_factory=set)  # the words of its lines

    def ended(self) -> tuple[int, str]:
        """The status that it ends with, and the last line on standard error, if there is one."""
        status = STATUS[self.end.split()[0]]
        return status, "" if status == 0 else f"zkit: {self.end}"

    def options(self, path: str) -> list[str]:
        """The options of zkit's that it asks for, with its files beside the story."""
        words = ["--upper"] * self.upper
        if self.script is not None:
            words += ["--script", path + ".script"]
        if self.save:
            words += ["--save", path + ".save"]
        if self.undo is not None:
            words += ["--undo", str(self.undo)]
        return words


class Seen(NamedTuple):
    """What is seen of a play: the screen, the transcript where the row looks at it, and the end in words."""

    screen: str
    script: str | None
    end: str

    def __str__(self) -> str:
        texts = self.screen if self.script is None else (self.screen, self.script)
        return f"{texts!r} {self.end}"


class Played(NamedTuple):
    """What came of a row: `agrees`, `differs`, `crashed` or `hung`, and what was wanted and came."""

    result: str
    what: str


# How many rows of each chapter came to what.
Counts = dict[str, collections.Counter[str]]


class BadRow(Exception):
    """A row that is not written as README.md says."""


def unquote(text: str) -> bytes:
    """The bytes of a text in double quotes: UTF-8, \\n for a new line, \\t for a tab, \\x and digits for others."""
    if len(text) < 2 or text[0] != '"' or text[-1] != '"':
        raise BadRow("a screen, a transcript or an input is a text in double quotes")
    signs = {"n": b"\n", "t": b"\t", '"': b'"', "\\": b"\\"}
    plain, *others = re.split(r"\\(x[0-9A-Fa-f]{2}|.)", text[1:-1])
    made = plain.encode()
    for sign, plain in zip(others[::2], others[1::2]):
        made += bytes.fromhex(sign[1:]) if len(sign) == 3 else signs[sign]
        made += plain.encode()
    return made


# What a line of a row says, by its first word: a field of the row, and how the others are read.
WORDS: dict[str, Callable[[str], object]] = {
    "section": str,
    "choice": lambda rest: True,
    "upper": lambda rest: True,
    "save": lambda rest: True,
    "undo": int,
    "versions": lambda rest: [int(version) for version in rest.split()],
    "size": lambda rest: int(rest, 16),
    "screen": lambda rest: unquote(rest).decode(),
    "script": lambda rest: unquote(rest).decode(),
    "end": str,
}


def read_line(row: Row, word: str, rest: str) -> None:
    """Takes a line of a row: its first word, and the others."""
    if word in WORDS:
        setattr(row, word, WORDS[word](rest))
        row.said.add(word)
    elif word == "header":
        name, value = rest.split()
        row.fields[name] = int(value, 16)
        if name not in FIELDS:
            raise BadRow(f"no field {name}")
    elif word == "at":
        address, _, bytes_there = rest.partition(":")
        row.memory.append((int(address, 16), bytes_there.split()))
    elif word == "input":
        text, *times = re.split(r" times (?=\d+$)", rest)
        row.input += unquote(text) * int(times[0] if times else 1)
    elif row.memory:
        row.memory[-1][1].extend([word] + rest.split())
    else:
        raise BadRow(f"no line may begin with {word}")


def read_rows(path: pathlib.Path) -> list[Row]:
    """The rows of a file."""
    rows: list[Row] = []
    for number, line in enumerate(path.read_text(encoding="utf-8").splitlines(), 1):
        place = f"{path.name}:{number}"
        stripped = line.strip()
        if not stripped or stripped.startswith("#"):
            continue
        word, _, rest = stripped.partition(" ")
        if word == "row":
            rows.append(Row(rest, place))
            continue
        if word not in ("input", "screen", "script"):
            # What follows a semicolon is a comment.
            stripped, _, comment = stripped.partition(";")
            word, _, rest = stripped.strip().partition(" ")
            if line[0].isspace():
                rows[-1].assembly.append(comment.strip())
        try:
            read_line(rows[-1], word, rest.strip())
        except (BadRow, ValueError, KeyError, IndexError) as error:
            sys.exit(f"{place}: {error}")
    for row in rows:
        look_at(row)
    return rows


def all_rows() -> list[tuple[str, Row]]:
    """The rows of this folder, each with its chapter."""
    return [(path.stem, row) for path in sorted(FOLDER.glob("*.rows")) for row in read_rows(path)]


def look_at(row: Row) -> None:
    """Ends the script where a row that was read lacks something, or has no story."""
    if not (row.section and row.versions and row.end and "screen" in row.said):
        sys.exit(f"{row.place}: section, versions, screen and end are needed")
    if not END.fullmatch(row.end):
        sys.exit(f"{row.place}: a row does not end with {row.end}")
    try:
        for version in row.versions:
            story(row, version)
    except (BadRow, ValueError, KeyError) as error:
        sys.exit(f"{row.place}: {error}")


def token_bytes(token: str, version: int) -> bytes:
    """The bytes that a token stands for."""
    if token.startswith("<"):  # <0900>: the packed address of 0900
        packed, rest = divmod(int(token[1:-1], 16), PACKED[version])
        if rest:
            raise BadRow(f"{token} has no packed address")
        return packed.to_bytes(2, "big")
    if token == "{key}":  # the length of a key in a dictionary
        return bytes([4 if version <= 3 else 6])
    if token.startswith("{"):  # {2}: a routine's head with 2 local variables of value 0
        count = int(token[1:-1])
        return bytes([count]) + (bytes(2 * count) if version <= 4 else b"")
    return bytes.fromhex(token)


def story(row: Row, version: int, writable_code: bool = False) -> bytes:
    """The bytes of a row's story; writable code has it all in dynamic memory, unless the row says else."""
    image = bytearray(LEAST_LENGTH)
    image[0] = version
    image[0x12:0x18] = b"000000"
    for name, (at, value) in FIELDS.items():
        image[at:at + 2] = row.fields.get(name, value).to_bytes(2, "big")
    for address, tokens in row.memory:
        content = b"".join(token_bytes(token, version) for token in tokens)
        end = address + len(content)
        if end > len(image):
            image.extend(bytes(end + -end % 8 - len(image)))
        image[address:end] = content
    if row.size is not None:
        image = image[:row.size].ljust(row.size, b"\0")
    if writable_code and "static" not in row.fields:
        image[0x0E:0x10] = min(len(image), 0xFFFF).to_bytes(2, "big")
    return bytes(image)


def write(row: Row, version: int, writable: bool, number: int, folder: pathlib.Path) -> dict[str, object]:
    """Writes the files of a play, and answers what rows.json has of it: its files and options, and what is wanted."""
    made, lines = f"row-{number}.story", f"row-{number}.input"
    (folder / made).write_bytes(story(row, version, writable))
    (folder / lines).write_bytes(row.input)
    name = f"{row.place} {row.name} (version {version}{', writable code' if writable else ''})"
    options: dict[str, object] = {"upper": row.upper}
    if row.undo is not None:
        options["undo"] = row.undo
    status, line = row.ended()
    wanted = {"screen": row.screen, "script": row.script, "status": status, "line": line}
    return {"name": name, "story": made, "input": lines, "save": row.save, "options": options, **wanted}


def write_all(folder: pathlib.Path) -> None:
    """Writes the plays of all rows in both of their ways, so that one process can play them all."""
    ways = [(row, it, writable) for _, row in all_rows() for it in row.versions for writable in (False, True)]
    plays = [write(*way, number, folder) for number, way in enumerate(ways)]
    (folder / "rows.json").write_text(json.dumps(plays), encoding="utf-8")


def tidy(text: str) -> str:
    """A screen without what terminals add: spaces at a line's end, empty lines at both ends, status lines."""
    lines = "\n".join(line.rstrip() for line in text.split("\n"))
    return STATUS_LINE.sub("", lines).strip("\n")


def play(row: Row, version: int, options: argparse.Namespace, folder: str) -> Played:
    """Plays a row in a folder of its own, and answers what came of it."""
    with tempfile.TemporaryDirectory(dir=folder) as place:
        path = os.path.join(place, f"{row.place.replace(':', '-')}.z{version}")
        pathlib.Path(path).write_bytes(story(row, version, options.writable_code))
        words = [*options.command, *row.options(path), path]
        try:
            done = subprocess.run(words, input=row.input, capture_output=True, timeout=SECONDS, check=False)
        except subprocess.TimeoutExpired:
            return Played("hung", f"no end within {SECONDS} s")
        if done.returncode < 0:
            return Played("crashed", f"ended by signal {-done.returncode}")
        script = None if row.script is None else pathlib.Path(path + ".script").read_text("utf-8", "replace")
    return judged(row, done, script, options.screen_only)


def judged(row: Row, done: subprocess.CompletedProcess[bytes], script: str | None, screen_only: bool) -> Played:
    """What came of a row by a play that has ended, with what its transcript got."""
    screen = done.stdout.decode("utf-8", "replace")
    if screen_only:
        came, wanted = Seen(tidy(screen), None, ""), Seen(tidy(row.screen), None, "")
    else:
        errors = done.stderr.decode("utf-8", "replace").splitlines()
        # Other lines are in words.
        last = errors[-1] if errors and LAST_LINE.fullmatch(errors[-1]) else ""
        if done.returncode not in range(7):
            return Played("crashed", f"status {done.returncode}, {last}")
        came = Seen(screen, script, f"status {done.returncode}, {last or 'no last line'}")
        status, line = row.ended()
        wanted = Seen(row.screen, row.script, f"status {status}, {line or 'no last line'}")
    return Played("agrees", "") if came == wanted else Played("differs", f"wanted {wanted}\n        came   {came}")


def table(title: str, counts: Counts) -> None:
    """Prints the rows of each chapter by their results."""
    print(f"{title:24}  agree  differ  crashed  hung")
    for chapter, count in [*counts.items(), ("all", sum(counts.values(), collections.Counter[str]()))]:
        numbers = [count[result] for result in ("agrees", "differs", "crashed", "hung")]
        print("{:24}  {:5}  {:6}  {:7}  {:4}".format(chapter, *numbers))


def read_options() -> argparse.Namespace:
    """What the command line says."""
    words = argparse.ArgumentParser(prog="conformance/run.py", description=__doc__.split("\n")[0])
    words.add_argument("-v", action="store_true", help="name each row that differs")
    screens = "compare the screens alone, of the rows that end with quit and ask for no option of zkit's"
    words.add_argument("--screen-only", action="store_true", help=screens)
    writable = "raise the static base to the story's end, in rows that do not name it"
    words.add_argument("--writable-code", action="store_true", help=writable)
    words.add_argument("--only", default="", help="play only rows whose name or file has these words")
    words.add_argument("--write", type=pathlib.Path, metavar="FOLDER", help="play nothing: write the rows as files")
    words.add_argument("command", nargs=argparse.REMAINDER, metavar="COMMAND", help="the interpreter")
    options = words.parse_args()
    if options.write:
        return options
    if not options.command:
        words.error("the interpreter's command is missing")
    if not shutil.which(options.command[0]):
        words.error(f"there is no program {options.command[0]}")
    return options


def play_all(rows: list[tuple[str, Row]], options: argparse.Namespace) -> tuple[Counts, Counts]:
    """Plays rows, each with its chapter, names those that differ where that is asked for, and counts them.

    Those by the Standard are counted apart from those on choices.
    """
    plain: Counts = {}
    choices: Counts = {}
    with tempfile.TemporaryDirectory() as folder, workers(4) as pool:
        jobs = [[(it, pool.submit(play, row, it, options, folder)) for it in row.versions] for _, row in rows]
        for (chapter, row), plays in zip(rows, jobs):
            results = []
            for version, job in plays:
                played = job.result()
                results.append(played.result)
                if options.v and played.result != "agrees":
                    print(f"{row.place} {row.name} (version {version}): {played.result}\n        {played.what}")
            counts = choices if row.choice else plain
            worst = next((it for it in ("crashed", "hung", "differs") if it in results), "agrees")
            counts.setdefault(chapter, collections.Counter())[worst] += 1
    return plain, choices


def main() -> None:
    """Plays the rows that are asked for, and tells how many agree."""
    options = read_options()
    if options.write:
        write_all(options.write)
        sys.exit(0)
    named = [(chapter, row) for chapter, row in all_rows() if options.only in f"{chapter} {row.name}"]
    if not named:
        sys.exit(f"conformance/run.py: no row has these words in its file or name: {options.only}")
    plain_ones = [(chapter, row) for chapter, row in named if row.end == "quit" and not row.options("")]
    chosen = plain_ones if options.screen_only else named
    plain, choices = play_all(chosen, options)
    table("by the Standard", plain)
    print()
    table("choices of zkit", choices)
    left_out = len(named) - len(chosen)
    if left_out:
        print(f"\n{left_out} rows that do not end with quit, or ask for an option of zkit's, were left out")
    # Another interpreter may choose as it likes.
    counted = [plain] if options.screen_only else [plain, choices]
    bad = any(set(count) - {"agrees"} for counts in counted for count in counts.values())
    sys.exit(1 if bad else 0)


if __name__ == "__main__":
    end_with(main)

#!/usr/bin/env python3
"""Reads the files `*.cases`, and runs what stands in them: words of the program, with what has to come of them.

usage: conformance/case_files.py FILE FOLDER

writes the stories and other files of a file to a folder. README.md describes the lines. `program.py`, `sessions.py` and
`failures.py` run what stands in them.
"""

from __future__ import annotations

import contextlib
import os
import re
import sys
from collections.abc import Iterator
from dataclasses import dataclass, field, replace
from pathlib import Path

from cases import ANY, DEVICES, EXAMPLES, SOME, Ended, Program, Wanted, begins, has, same, text_of
from ending import end_with
from run import BadRow, unquote

CODE = 0x40
STATUS = {"quit": 0, "refused": 1, "fault": 2, "limit": 3, "read": 4, "write": 4}
END = re.compile(r"quit|(read|write) failed|refused \d|(fault|limit) \d+ at [0-9a-f]{5}")
WRITE_FAILED = "zkit: write failed"
HEXADECIMAL = re.compile(r"(?:[0-9A-Fa-f]{2})+")
QUOTED = r'"(?:[^"\\]|\\.)*"'
WORD = rf"{QUOTED}|\{{[^{{}}]*\}}|[^\s\"{{}}]+"
WORDS = re.compile(rf"(?:\s*(?:{WORD})(?!\S))*\s*")
NAMED = re.compile(rf"({QUOTED}|[^\s\":]+):(?:\s+(.*))?")
REDIRECTION = re.compile(r"[0-2]?[<>](&[-012]|[\w/.]+)")
# The words of lines that stand before what comes of a run, the first of which may stand more than once; all of which
# this is so; and those of which one has to stand there.
MANY_BEFORE = {"write", "link", "folder", "rights", "run"}
BEFORE = {*MANY_BEFORE, "output", "error-output", "room"}
OFTEN = {*MANY_BEFORE, "holds"}
ENDINGS = {"end", "status", "usage", "screen", "errors", "last", "told", "holds"}
# What a command takes, as its message on usage says it.
TAKES = {
    "play": "[OPTIONS] <STORY>",
    "info": "[OPTIONS] <STORY>...",
    "disasm": "[OPTIONS] <STORY>",
    "check": "[OPTIONS] <STORY>...",
    "test": "[OPTIONS] <PATH>...",
    "cover": "[OPTIONS] <FILE>...",
    "unpack": "<FILE> <OUT>",
}


@dataclass
class Run:
    """A run of the program, or several ones that all come to the same."""

    place: str  # of its first line
    words: list[str] = field(default_factory=list)  # those of each run, as they are written
    said: set[str] = field(default_factory=set)  # the first words of its lines
    before: dict[str, bytes] = field(default_factory=dict)  # files that are written before it
    links: dict[str, str] = field(default_factory=dict)  # and links with what they lead to
    folders: list[str] = field(default_factory=list)  # and folders that are made
    rights: dict[str, int] = field(default_factory=dict)  # and what may be done with some of these
    typed: bytes = b""
    redirected: str = ""  # as by a shell
    output: list[str] = field(default_factory=list)  # what fails in the place of standard output, in turn,
    error_output: list[str] = field(default_factory=list)  # or of standard error
    room: int | None = None  # how long a file may get
    status: int = 0
    usage: str | None = None  # what is wrong with the words, where that is told with the usage
    screen: object = ""
    errors: object = ""
    told: str = ""  # the lines of errors before the last, where they are said,
    last: str = ""  # and that one
    holds: dict[str, object] = field(default_factory=dict)  # what files hold after it, None for one that is not there


# A case: its name, and the runs that stand in it.
Case = tuple[str, list[Run]]


def header(version: int) -> bytes:
    """The header of a story whose code stands behind it."""
    return bytes([version, 0, 0, 0, 0, CODE, 0, CODE]) + bytes(7) + bytes([CODE, 0, 0]) + b"000000" + bytes(40)


def words_of(text: str) -> list[str]:
    """The words of a text: those in quotes, those in braces, and others."""
    if not WORDS.fullmatch(text):
        raise BadRow("a quote or a brace is not closed, or stands in a word")
    return re.findall(WORD, text)


def word_bytes(word: str) -> bytes:
    """The bytes of a word of a command line."""
    return unquote(word) if word.startswith('"') else word.encode()


def name_and_rest(text: str) -> tuple[str, list[str]]:
    """The name that a text begins with, and the words behind its colon."""
    found = NAMED.fullmatch(text)
    if not found:
        raise BadRow("a name and a colon are needed")
    return text_of(word_bytes(found[1])), words_of(found[2] or "")


class Book:
    """What a file has: the files of its runs, texts by their names, and cases."""

    def __init__(self, path: Path) -> None:
        self.path = path
        self.files: dict[str, bytes] = {}
        self.texts: dict[str, bytes] = {}
        self.cases: list[Case] = []
        self.in_case = False
        self.open: Run | None = None
        for number, line in self.lines():
            try:
                self.take(line, f"{path.name}:{number}")
            except (BadRow, ValueError, KeyError, OSError) as error:
                sys.exit(f"{path.name}:{number}: {error}")
        if empty := next((name for name, runs in self.cases if not runs), None):
            sys.exit(f"{path.name}: nothing is run: case {empty}")

    def lines(self) -> Iterator[tuple[int, str]]:
        """The lines that are no comments, each with those behind it that begin with a space, and an empty one."""
        number, whole = 0, ""
        for at, line in enumerate([*self.path.read_text(encoding="utf-8").split("\n"), ""], 1):
            if line.startswith(" ") and line.strip() and whole:
                whole += line.rstrip()
            elif not line.startswith("#"):
                yield number, whole
                number, whole = at, line.rstrip()
        yield number, whole

    def take(self, line: str, place: str) -> None:
        """Takes a line; an empty one ends what is said of a run."""
        word, _, rest = line.partition(" ")
        if not line:
            self.close()
        elif self.open is None and word in ("story", "file", "text"):
            name, words = name_and_rest(rest)
            version = int(name[-1]) if re.search(r"\.z\d$", name) else 3
            self.add(word, name, self.read_bytes(words, header(version) if word == "story" else b""))
        elif self.open is None and word == "from":
            name, words = name_and_rest(rest)
            other = Book(self.path.with_name(name))
            for it in words:
                self.add("file" if it in other.files else "text", it, other.named(it))
        elif self.open is None and word == "case":
            self.in_case = True
            self.cases.append((rest, []))
        else:
            self.open = self.open or Run(place)
            self.take_of_run(self.open, word, rest)

    def add(self, kind: str, name: str, content: bytes) -> None:
        """Adds a text or a file."""
        if name in self.files or name in self.texts:
            raise BadRow(f"{name} stands twice")
        (self.texts if kind == "text" else self.files)[name] = content

    def take_of_run(self, run: Run, word: str, rest: str) -> None:
        """Takes a line on a run."""
        if word in run.said - OFTEN or word in BEFORE and run.said - BEFORE:
            raise BadRow(f"{word} stands twice, or behind what comes of a run that no empty line ends")
        run.said.add(word)
        is_named = word in ("write", "link", "rights", "holds")
        name, words = name_and_rest(rest) if is_named else ("", words_of(rest))
        if word == "run":
            run.words.append(rest)
        elif word == "write":
            run.before[name] = self.read_bytes(words)
        elif word == "link":
            run.links[name] = text_of(b" ".join(word_bytes(it) for it in words))
        elif word == "folder":
            run.folders.append(text_of(word_bytes(rest)))
        elif word == "rights":
            run.rights[name] = int(" ".join(words), 8)
        elif word == "holds":
            run.holds[name] = None if words == ["nothing"] else self.read_wanted(words)
        elif word == "input":
            run.typed = self.read_bytes(words)
        elif word == "redirect" and all(REDIRECTION.fullmatch(it) for it in words):
            run.redirected = rest
        elif word in ("output", "error-output") and words and set(words) <= {*DEVICES}:
            setattr(run, word.replace("-", "_"), words)
        elif word == "room":
            run.room = int(rest)
        else:
            self.take_of_end(run, word, words, rest)

    def take_of_end(self, run: Run, word: str, words: list[str], rest: str) -> None:
        """Takes a line on what comes of a run."""
        if word == "status":
            run.status = int(rest)
        elif word in ("screen", "errors"):
            setattr(run, word, self.read_wanted(words))
        elif word in ("usage", "last", "told"):
            setattr(run, word, text_of(self.read_bytes(words)))
        elif word == "end" and END.fullmatch(rest):
            run.status = STATUS[rest.split()[0]]
            run.last = f"zkit: {rest}" if run.status else ""
        else:
            raise BadRow(f"no such line may stand here: {word} {rest}")

    def close(self) -> None:
        """Adds what was said of a run: to the case that is open, or as a case for each of its command lines."""
        run, self.open = self.open, None
        if run is None:
            return
        if not run.words or not run.said & ENDINGS or run.told and not run.last:
            raise BadRow("the lines above lack a run, what comes of it, or the last line behind what is told")
        if len(run.said & {"end", "errors", "last", "usage"}) > 1 or len(run.said & {"end", "status", "usage"}) > 1:
            raise BadRow("the lines above say twice how a run ends")
        if run.errors is ANY or run.errors is SOME:
            raise BadRow("the words of standard error are needed")
        if run.error_output and run.said & {"end", "errors", "last", "usage"}:
            raise BadRow("nothing is seen of a standard error that fails: only the status is")
        if run.last:
            run.errors = f"{run.told}\n{run.last}\n" if run.told else f"{run.last}\n"
        if self.in_case:
            self.cases[-1][1].append(run)
        else:
            self.cases += [(it, [replace(run, words=[it])]) for it in run.words]

    def read_bytes(self, words: list[str], before: bytes = b"") -> bytes:
        """The bytes that words stand for: hexadecimal ones, texts, names in braces, and code that prints a text.

        They stand behind others, or where `@` and an address says.
        """
        made, said, at = bytearray(before), b"", len(before)
        rest = iter(words)
        for word in rest:
            if word.startswith("@"):
                at = int(word[1:], 16)
                continue
            if word == "less":
                at = len(made) - int(next(rest, ""))
                del made[at:]
                continue
            if word == "times" and said:
                said *= int(next(rest, "")) - 1
            elif word == "print":
                said = b"".join(bytes((0xE5, 0x7F, 13 if it == 10 else it)) for it in unquote(next(rest, "")))
            elif word.startswith("{"):
                said = self.named(word[1:-1])
            elif word.startswith('"'):
                said = unquote(word)
            elif HEXADECIMAL.fullmatch(word):
                said = bytes.fromhex(word)
            else:
                raise BadRow(f"these are no bytes: {word}")
            made.extend(bytes(max(0, at + len(said) - len(made))))
            made[at:at + len(said)] = said
            at += len(said)
        return bytes(made)

    def named(self, name: str) -> bytes:
        """What a name in braces stands for: a text, a file, or a file of the examples."""
        if name.startswith("examples/"):
            return (EXAMPLES.parent / name).read_bytes()
        if name not in self.texts and name not in self.files:
            raise BadRow(f"there is no {name}")
        return self.texts[name] if name in self.texts else self.files[name]

    def read_wanted(self, words: list[str]) -> object:
        """What is wanted of a text: it all, a part of it, or less."""
        if not words or words in (["has"], ["begins"]):
            raise BadRow("a text is needed")
        if words in (["anything"], ["something"]):
            return ANY if words == ["anything"] else SOME
        if words[:1] == ["has"]:
            return has(*(text_of(self.read_bytes([it])) for it in words[1:]))
        if words[:1] == ["begins"]:
            return begins(text_of(self.read_bytes(words[1:])))
        return text_of(self.read_bytes(words))


def usage_of(words: str, wrong: str) -> str:
    """What is told where something is wrong with the words of a run."""
    command = words.split(" ")[0]
    takes = f"{command} {TAKES[command]}" if command in TAKES else "<COMMAND>"
    return f"error: {wrong}\n\nUsage: zkit {takes}\n\nFor more information, try '--help'.\n"


def wanted_of(run: Run, words: str, device: str) -> Wanted:
    """What has to come of a run, where a device fails if one is named."""
    if run.output and run.last == WRITE_FAILED:
        told = f"{run.told}\n" if run.told else ""
        reason = f"zkit: the screen: {DEVICES[device]}\n" if DEVICES[device] else ""
        return run.status, "", f"{told}{reason}{run.last}\n"
    if run.usage is not None:
        return 1, run.screen, usage_of(words, run.usage)
    return run.status, run.screen, run.errors


class Written(Program):
    """The program, with cases that stand in a file."""

    def run_book(self, book: Book) -> None:
        """Runs the cases of a file."""
        (self.folder / "examples").symlink_to(EXAMPLES)
        self.known.add("examples")
        for _, runs in book.cases:
            self.look_for_files(runs)
        of_rights = [name for name, runs in book.cases if any(it.rights for it in runs)]
        if self.without_rights is None and of_rights:
            self.left_out("the user nobody can't start the program", f"{len(of_rights)} cases of files without rights")
        for name, runs in book.cases:
            if self.without_rights is not None or not any(it.rights for it in runs):
                self.case(name, self.check_runs, runs)

    def look_for_files(self, runs: list[Run]) -> None:
        """Ends the script where a run names a file with a dot in its name that is not there, nor named by its case."""
        named = {name for run in runs for name in (*run.before, *run.links, *run.holds)}
        for run in runs:
            for word in [it for words in run.words for it in words_of(words)]:
                name = os.path.normpath(word)
                if "." in name and word[0] not in '-"' and name not in named and not (self.folder / name).exists():
                    sys.exit(f"{run.place}: there is no file {word}")

    def check_runs(self, runs: list[Run]) -> None:
        """Does the runs of a case. No file is left but those that it names, and these hold what was said last."""
        held: dict[str, object] = {}
        links: set[str] = set()
        for run in runs:
            for name in run.folders:
                (self.folder / name).mkdir(parents=True)
            for name, target in run.links.items():
                (self.folder / name).symlink_to(target)
                links.add(name)
            for words, device in [(it, to) for it in run.words for to in run.output or run.error_output or [""]]:
                place = f"{run.place} {words}" + f" to {device}" * bool(device)
                self.write(run.before)
                held.update({name: text_of(content) for name, content in run.before.items()})
                same(wanted_of(run, words, device), self.come_of(run, words, device), place)
                held.update(run.holds)
                for name, content in held.items():
                    there = self.read(name)
                    same(content, there if there is None else text_of(there), f"{place}: {name}")
                same([], [it for it in self.left() if it not in {*held, *links}], f"{place}: left")

    def come_of(self, run: Run, words: str, device: str) -> Ended:
        """Does a run, where a device fails if one is named, and some files have not the rights that they have else."""
        with contextlib.ExitStack() as until_then:
            stream = "stdout" if run.output else "stderr"
            how = self.failing(device, stream, until_then) if device else {}
            if run.room is not None:
                how |= self.within(run.room)
            if run.rights:
                how |= self.without_rights or {}
            for name, mode in run.rights.items():
                path = self.folder / name
                until_then.callback(path.chmod, path.stat().st_mode)
                path.chmod(mode)
            redirected = f"{run.redirected} {how.pop('redirected', '')}".strip()
            came = self.run([word_bytes(it) for it in words_of(words)], run.typed, redirected, **how)
        return came

    def left(self) -> list[str]:
        """The paths of the files in the folder that were not there at first."""
        paths = [path for it in self.new() for path in (self.folder / it, *(self.folder / it).rglob("*"))]
        return [str(path.relative_to(self.folder)) for path in paths if not path.is_dir()]


def main() -> int:
    """Writes the files that a file has."""
    if len(sys.argv) != 3:
        sys.exit(__doc__)
    for name, content in Book(Path(sys.argv[1])).files.items():
        Path(sys.argv[2], name).write_bytes(content)
    return 0


if __name__ == "__main__":
    end_with(main)

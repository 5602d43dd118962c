#!/usr/bin/env python3
"""Plays stories with long texts by the library for C, and looks whether turns that end in their middle change anything.

usage: conformance/sliced.py PROGRAM

Each story prints a text of some ten thousand letters, or as many characters of a table, by one instruction. The
library, dist/libzkit.so.1, plays it in turns of few instructions, or with little room for text: the screen, the
transcript, the last line and the status have to be those of PROGRAM, which plays it at once.
"""

from __future__ import annotations

import contextlib
import ctypes
import io
import subprocess
import sys
import tempfile
from pathlib import Path

import embedded
import hostile
import play
from ending import end_with

PLACES = {
    **hostile.PLACES,
    "screen and transcript": bytes.fromhex("f37f02"),
    "upper and transcript": bytes.fromhex("f37f02 ea7f19 eb7f01"),
    "table in a table": bytes.fromhex("f34f030900 f34f030c00"),
}
SAYINGS: dict[str, tuple[int, ...]] = {
    **hostile.SAYINGS,
    "all": (6, 0, 4, 7, 8, 5, 6, 9, 5, 7, 10, 5, 6, 3, 1, 11, 12, 0, 0, 5, 13),
}
TEXT = 0x4000  # all of it are abbreviations, whose text is at TEXTS
USES, WORDS = 20, 700  # how many words they have
ROUTINE = 0x600
CLOSE = bytes.fromhex("f33ffffd f33ffffd")  # the newest tables of stream 3
LOWER, READ = bytes.fromhex("eb7f00"), bytes.fromhex("f67f0100")
ROWS = bytes.fromhex("fe03") + hostile.words_of((hostile.TABLE + 2, 70, 60))
# rows as long as they can be, of which no two are one part
LONG_ROWS = b"\xfe\x00" + hostile.words_of((0, 65_535, USES, 1))
TURNS = ((1, 1 << 20), (3, 1 << 20), (1_000_000_000, 64))
TIME, MOST_TURNS = 6, 20_000


class Sliced(embedded.Game):
    """A game whose turns have few instructions, and whose text is collected."""

    def __init__(self, story: bytes, most: int, room: int) -> None:
        library = play.load(play.LIBRARY)
        library.zkit_turn_for.argtypes = [ctypes.c_void_p, ctypes.c_uint32]
        super().__init__(library, story, {"room": room, "upper": 1}, None)
        self.most, self.turns, self.shown = most, 0, b""

    def turn(self) -> int:
        asked = TIME if self.turns < MOST_TURNS else play.STOPPED
        while asked == TIME and self.turns < MOST_TURNS:
            asked = self.call("turn_for", self.most)
            self.shown += self.text()
            self.script += self.text("transcript")
            self.turns += 1
        return asked


def instructions(version: int) -> dict[str, bytes]:
    """The instructions that print the text: by its address, in line, with a new line and a return, and in rows."""
    text = hostile.text_of((1, 0), USES)
    address, routine = (hostile.words_of([at // hostile.UNITS[version]]) for at in (TEXT, ROUTINE))
    prints = {
        "print_paddr": b"\x8d" + address,
        "print": b"\xb2" + text,
        "print_ret": b"\xe0\x3f" + routine + b"\x10",
        "print_ret, which can't return": b"\xb3" + text,
    }
    if version >= 5:
        prints["print_table"] = b"\xfe\x00" + hostile.words_of((hostile.TEXTS, 500, 40, 8))
    return prints


def story(version: int, place: bytes, saying: tuple[int, ...], prints: bytes) -> bytes:
    """A story that prints so, shows what a table has got then, reads a character and ends."""
    after = CLOSE + (LOWER if version > 3 else b"") + (ROWS if version >= 5 else b"") + (READ if version > 3 else b"")
    text = hostile.text_of((1, 0), USES)
    pieces = ((hostile.TEXTS, hostile.text_of(saying, WORDS)), (TEXT, text), (ROUTINE, b"\0\xb3" + text))
    return hostile.story(version, place + prints + after, hostile.abbreviations(hostile.TEXTS), *pieces)


def by_program(program: str, path: Path) -> tuple[bytes, bytes, str, int]:
    """What the program shows, what the transcript gets, the last line and the status."""
    script = path.with_suffix(".script")
    script.unlink(missing_ok=True)
    words = [program, "play", "--upper", "--script", str(script), str(path)]
    done = subprocess.run(words, input=b"x\n", capture_output=True)
    last = done.stderr.decode().splitlines()[-1:]
    return done.stdout, script.read_bytes() if script.exists() else b"", "".join(last), done.returncode


def by_library(data: bytes, most: int, room: int) -> tuple[tuple[bytes, bytes, str, int], int]:
    """The same of the library, and in how many turns."""
    game = Sliced(data, most, room)
    with contextlib.redirect_stderr(io.StringIO()) as told:
        status = game.play(iter([b"x\n"]))
    game.call("close")
    return (game.shown, game.script, told.getvalue().strip(), status), game.turns


def is_same(program: str, name: str, data: bytes, folder: Path) -> bool:
    """Plays a story in each way, and tells where they differ."""
    path = folder / "story"
    path.write_bytes(data)
    wanted = by_program(program, path)
    for most, room in TURNS:
        came, turns = by_library(data, most, room)
        if came != wanted:
            print(f"{name} in turns of {most} with room for {room}: other than {program}", file=sys.stderr)
            return False
        if most == 1 and turns < USES and wanted[3] == 0 and "nowhere" not in name:
            print(f"{name} in turns of 1: it does not pause in its text", file=sys.stderr)
            return False
    return True


def main() -> int:
    """Plays them all."""
    if len(sys.argv) != 2:
        sys.exit(str(__doc__).splitlines()[2])
    stories = {
        f"{saying} by {opcode} to {place} in version {version}": story(version, PLACES[place], SAYINGS[saying], prints)
        for version in hostile.LENGTHS
        for place in PLACES
        for saying in SAYINGS
        for opcode, prints in instructions(version).items()
    }
    for place, begin in PLACES.items():
        stories[f"long rows to {place}"] = story(5, begin, SAYINGS["letters"], LONG_ROWS)
    with tempfile.TemporaryDirectory() as folder:
        bad = sum(not is_same(sys.argv[1], name, data, Path(folder)) for name, data in stories.items())
    print(f"{len(stories)} stories with long texts: {bad} differ in turns")
    return 1 if bad else 0


if __name__ == "__main__":
    end_with(main)

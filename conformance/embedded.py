#!/usr/bin/env python3
"""Plays a story by the library for C, with the words that `conformance/run.py` gives a command.

usage: conformance/run.py conformance/embedded.py [--library FILE]

The library is dist/libzkit.so.1, or FILE. examples/embed/play.py plays; what is here are the options of `zkit play`,
of which the example has none, and its last line.
"""

from __future__ import annotations

import argparse
import ctypes
import pathlib
import sys
from collections.abc import Iterator

TOP = pathlib.Path(__file__).resolve().parent.parent
sys.dont_write_bytecode = True
sys.path.insert(0, str(TOP / "examples/embed"))

import play  # noqa: E402: it stands in the folder that was just named
from ending import end_with  # noqa: E402

FAULT, LIMIT, OUT_OF_MEMORY = 2, 3, 5
SETTINGS = {"seed": 1, "frames": 1024, "words": 16384, "undo": 16, "steps": 10_000_000}


class Game(play.Game):
    """A story whose saved game is kept in a file, if one is named, and whose transcript is collected."""

    def __init__(self, library: ctypes.CDLL, story: bytes, settings: dict[str, int], save: pathlib.Path | None) -> None:
        super().__init__(library, story, settings)
        self.save = save
        self.script = b""

    def turn(self) -> int:
        asked = super().turn()
        self.script += self.text("transcript")
        return asked

    def keep(self) -> None:
        if self.save is None:
            self.call("saved", 0)
            return
        super().keep()
        if self.saved is not None:
            self.save.write_bytes(self.saved)

    def answer(self, asked: int, lines: Iterator[bytes]) -> bool:
        if asked == play.RESTORE and self.save and self.save.exists():
            self.saved = self.save.read_bytes()
        return super().answer(asked, lines)

    def report(self) -> int:
        """Tells why the story has stopped, as the last line of `zkit play` does, and answers its status."""
        status = self.call("status")
        if status in (FAULT, LIMIT):
            word = "fault" if status == FAULT else "limit"
            print(f"zkit: {word} {self.call('reason')} at {self.call('address'):05x}", file=sys.stderr)
        if status == OUT_OF_MEMORY:
            print("zkit: out of memory", file=sys.stderr)
        return 0 if status == play.QUIT else status


def main() -> int:
    """Plays the story that the command line names, and answers the status."""
    parser = argparse.ArgumentParser(description=__doc__, formatter_class=argparse.RawDescriptionHelpFormatter)
    parser.add_argument("--library", type=pathlib.Path, default=play.LIBRARY)
    for name, value in SETTINGS.items():
        parser.add_argument("--" + name, type=int, default=value)
    parser.add_argument("--upper", action="store_const", const=1, default=0)
    parser.add_argument("--save", type=pathlib.Path)
    parser.add_argument("--script", type=pathlib.Path)
    parser.add_argument("story", type=pathlib.Path)
    words = parser.parse_args()
    settings = {name: getattr(words, name) for name in (*SETTINGS, "upper")}
    game = Game(play.load(words.library), words.story.read_bytes(), settings, words.save)
    if game.refused:
        print(f"zkit: refused {game.refused}", file=sys.stderr)
        return 1
    status = game.play(iter(sys.stdin.buffer))
    if words.script:
        words.script.write_bytes(game.script)
    game.call("close")
    return status


if __name__ == "__main__":
    end_with(main)

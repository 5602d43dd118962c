#!/usr/bin/env python3
"""Plays a story by the library's shared object: lines of standard input answer it, standard output has its text.

usage: play.py STORY <LINES

The shared object is dist/libzkit.so.1, so nothing has to be compiled. The last saved game is kept in memory. The status
is that of `zkit play`.
"""

from __future__ import annotations

import ctypes
import os
import pathlib
import sys
from collections.abc import Callable, Iterator

LIBRARY = pathlib.Path(__file__).resolve().parent.parent.parent / "dist/libzkit.so.1"
STOPPED, LINE, CHARACTER, SAVE, RESTORE, ROOM, TIME, MEMORY = range(8)
QUIT = 1
OUT_OF_MEMORY = 5
LONGEST_LINE = 65_535


class ReadFailed(Exception):
    """A line of the input is too long."""


class Options(ctypes.Structure):
    """What `zkit.h` declares as `zkit_options`: its size, and the fields that `zkit_defaults` sets."""

    _fields_ = [("size", ctypes.c_size_t), ("seed", ctypes.c_uint64)] + [
        (name, ctypes.c_uint32) for name in ("frames", "words", "undo", "steps", "room", "upper")
    ]


def load(path: pathlib.Path) -> ctypes.CDLL:
    """The library, with the types of its functions."""
    library = ctypes.CDLL(str(path))
    game, number, size = ctypes.c_void_p, ctypes.c_uint32, ctypes.c_size_t
    content: list[type] = [ctypes.c_char_p, size]
    options, reason = ctypes.POINTER(Options), ctypes.POINTER(number)
    functions: list[tuple[str, type | None, list[type]]] = [
        ("defaults", None, [options]),
        ("open", game, [*content, options, reason]),
        ("close", None, [game]),
        ("turn", number, [game]),
        ("text", size, [game, *content]),
        ("transcript", size, [game, *content]),
        ("line", number, [game, *content]),
        ("character", number, [game, number]),
        ("image", number, [game, *content, ctypes.POINTER(size)]),
        ("saved", number, [game, number]),
        ("restore", number, [game, *content]),
        ("restore_none", number, [game]),
        ("status", number, [game]),
        ("reason", number, [game]),
        ("address", number, [game]),
        ("text_of_reason", size, [number, number, *content]),
        ("text_of_open", size, [number, *content]),
    ]
    for name, result, parameters in functions:
        function = getattr(library, "zkit_" + name)
        function.restype, function.argtypes = result, parameters
    return library


class Game:
    """A story that is played. Where it can't be opened, `refused` is the reason."""

    def __init__(self, library: ctypes.CDLL, story: bytes, settings: dict[str, int]) -> None:
        self.library = library
        self.saved: bytes | None = None
        options = Options(size=ctypes.sizeof(Options))
        library.zkit_defaults(ctypes.byref(options))
        for name, value in settings.items():
            setattr(options, name, value)
        reason = ctypes.c_uint32()
        self.handle = library.zkit_open(story, len(story), ctypes.byref(options), ctypes.byref(reason))
        self.refused = reason.value

    def call(self, name: str, *words: object) -> int:
        """Calls a function of the library on the game."""
        function: Callable[..., int] = getattr(self.library, "zkit_" + name)
        return function(self.handle, *words)

    def words(self, what: str, *numbers: int) -> str:
        """The words for a status and its reason, or for why the story is not opened."""
        buffer = ctypes.create_string_buffer(256)
        count = getattr(self.library, "zkit_text_of_" + what)(*numbers, buffer, len(buffer))
        return buffer.raw[:count].decode()

    def text(self, call: str = "text") -> bytes:
        """The text that was shown and not taken yet, or that of the transcript."""
        parts = []
        buffer = ctypes.create_string_buffer(4096)
        while count := self.call(call, buffer, len(buffer)):
            parts.append(buffer.raw[:count])
        return b"".join(parts)

    def keep(self) -> None:
        """Keeps the saved game that waits for it."""
        length = ctypes.c_size_t()
        self.call("image", None, 0, ctypes.byref(length))
        buffer = ctypes.create_string_buffer(length.value)
        kept = self.call("image", buffer, len(buffer), ctypes.byref(length)) == 0
        if kept:
            self.saved = buffer.raw
        self.call("saved", kept)

    def answer(self, asked: int, lines: Iterator[bytes]) -> bool:
        """Answers what the story asks for, and says whether there was an answer."""
        if asked == ROOM:
            return True
        if asked == SAVE:
            self.keep()
        elif asked == RESTORE and self.saved is not None:
            self.call("restore", self.saved, len(self.saved))
        elif asked == RESTORE:
            self.call("restore_none")
        else:
            line = next(lines, None)
            if line is None:
                return False
            if line.endswith(b"\n"):
                line = line[:-1].removesuffix(b"\r")
            if len(line) > LONGEST_LINE:
                raise ReadFailed
            if asked == LINE:
                self.call("line", line, len(line))
            else:
                self.call("character", ord((line.decode(errors="replace") or "\n")[0]))
        return True

    def play(self, lines: Iterator[bytes]) -> int:
        """Plays the story up to its stop, or as far as there are lines, and answers the status of `zkit play`."""
        try:
            while asked := self.turn():
                if asked == MEMORY:
                    print("play.py: out of memory", file=sys.stderr)
                    return OUT_OF_MEMORY
                if not self.answer(asked, lines):
                    break
        except ReadFailed:
            print("zkit: read failed", file=sys.stderr)
            return 4
        return self.report()

    def turn(self) -> int:
        """Runs the story on, shows its text, and answers what it asks for."""
        asked = self.call("turn")
        sys.stdout.buffer.write(self.text())
        sys.stdout.buffer.flush()
        return asked

    def report(self) -> int:
        """Tells why the story has stopped, and answers the status of `zkit play`."""
        status, reason, address = (self.call(name) for name in ("status", "reason", "address"))
        if status not in (0, QUIT):
            words = self.words("reason", status, reason)
            print(f"play.py: {words}, at {address:05x}", file=sys.stderr)
        return 0 if status == QUIT else status


def main() -> int:
    """Plays the story that the command line names, and answers the status."""
    if len(sys.argv) != 2:
        sys.exit(__doc__)
    game = Game(load(LIBRARY), pathlib.Path(sys.argv[1]).read_bytes(), {})
    if game.refused:
        print(f"play.py: not opened: {game.words('open', game.refused)}", file=sys.stderr)
        return 1
    status = game.play(iter(sys.stdin.buffer))
    game.call("close")
    return status


if __name__ == "__main__":
    try:
        sys.exit(main())
    except OSError as error:
        words = f"{error.filename}: {error.strerror}" if error.filename else str(error)
        print(f"play.py: {words}", file=sys.stderr)
        # what standard output does not take is not tried once more
        os.dup2(os.open(os.devnull, os.O_WRONLY), 1)
        sys.exit(4)
    except KeyboardInterrupt:
        sys.exit("play.py: stopped")

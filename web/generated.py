#!/usr/bin/env python3
"""Makes stories at random, with lines of input, for comparisons of one interpreter with another.

usage: generated.py FOLDER COUNT [FIRST]

Story number n is the same each time: n.story and n.input, from FIRST on. Of four stories one is the game of examples
with some bytes changed, two are stories of conformance with some bytes changed, and one is random code.
"""

from __future__ import annotations

import pathlib
import random
import sys

TOP = pathlib.Path(__file__).resolve().parent.parent
sys.dont_write_bytecode = True
sys.path.insert(0, str(TOP / "conformance"))

import case_files  # noqa: E402: these stand in the folders that were just named
import run  # noqa: E402

EXAMPLES = TOP / "examples"
VERSIONS = (3, 4, 5, 8)
LENGTH, CODE = 0x1000, 0x40
OBJECTS, GLOBALS, STATIC = 0x400, 0x600, 0x800
LINES = [b"look", b"inventory", b"save", b"restore", b"undo", b"open the bag", b"north", b"a", b"", "Skærvø".encode()]


def changed(story: bytes, first: int, most: int, dice: random.Random) -> bytes:
    """A story with at most so many bytes changed from an address on."""
    image = bytearray(story)
    for _ in range(dice.randint(1, most)):
        image[dice.randrange(first, len(image))] = dice.randrange(256)
    return bytes(image)


def game(dice: random.Random) -> tuple[bytes, bytes]:
    """The game with some bytes changed, and the lines of its walkthrough or of its saves."""
    story = (EXAMPLES / f"lighthouse.z{dice.choice(VERSIONS)}").read_bytes()
    lines = EXAMPLES / dice.choice(["lighthouse.walkthrough", "lighthouse.saves"])
    return changed(story, 1, 12, dice), lines.read_bytes()


def row(rows: list[run.Row], dice: random.Random) -> tuple[bytes, bytes]:
    """A story of conformance with some bytes changed near those that it gives, and its input."""
    chosen = dice.choice(rows)
    image = bytearray(run.story(chosen, dice.choice(chosen.versions), dice.random() < 0.5))
    places = [at for at in range(1, len(image)) if image[at]] or [1]
    for _ in range(dice.randint(1, 6)):
        at = min(dice.choice(places) + dice.randint(0, 2), len(image) - 1)
        image[at] = dice.randrange(256)
    return bytes(image), chosen.input


def code(dice: random.Random) -> tuple[bytes, bytes]:
    """A story of random bytes."""
    content, version = dice.randbytes(LENGTH - CODE), dice.choice(VERSIONS)
    start, dictionary = (dice.randrange(CODE, LENGTH) for _ in range(2))
    words = b"".join(it.to_bytes(2, "big") for it in (start, dictionary, OBJECTS, GLOBALS, STATIC))
    header = case_files.header(version)
    return header[:0x06] + words + header[0x06 + len(words):] + content, b""


def made(number: int, rows: list[run.Row]) -> tuple[bytes, bytes]:
    """A story by its number, and its input."""
    dice = random.Random(number)
    kind = number % 4
    story, lines = game(dice) if kind == 0 else code(dice) if kind == 1 else row(rows, dice)
    more = [dice.choice(LINES) + b"\n" for _ in range(dice.randint(0, 20))]
    return story, lines + b"".join(more)


def main() -> int:
    """Writes the stories."""
    if len(sys.argv) not in (3, 4):
        sys.exit(__doc__)
    folder, count = pathlib.Path(sys.argv[1]), int(sys.argv[2])
    first = int(sys.argv[3]) if len(sys.argv) == 4 else 0
    rows = [row for _, row in run.all_rows() if len(row.input) < 10_000]
    for number in range(first, first + count):
        story, lines = made(number, rows)
        (folder / f"{number}.story").write_bytes(story)
        (folder / f"{number}.input").write_bytes(lines)
    return 0


if __name__ == "__main__":
    sys.exit(main())

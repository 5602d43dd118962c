#!/usr/bin/env python3
"""Makes stories whose single instructions ask for as much work as a story can.

usage: conformance/hostile.py FOLDER [STORY ..]

FOLDER gets a story for each kind of work, each place where text can go and each of the greatest lengths, as
`letters.upper.z3`. Each does nothing but that work, and ends. Others, as `shifts.names.z3` and `strings.z8`, have
names, code, texts and properties that are long to list. Where stories are named, these alone are written.
"""

from __future__ import annotations

import itertools
import sys
from collections.abc import Iterable
from pathlib import Path

from ending import end_with

LENGTHS = {3: 131_072, 4: 262_144, 5: 262_144, 8: 524_288}
UNITS = {3: 2, 4: 4, 5: 4, 8: 8}

ABBREVIATIONS = 0x40
GLOBALS = 0x100
OBJECTS = 0x2E0
CODE = 0x400
TABLE = 0x800
NESTED = 0xA00
TEXTS = 0x1000
STATIC = 0xFFE0

# Bytes at an address.
Piece = tuple[int, bytes]

# Where text can go, by the instructions that see to it.
PLACES = {
    "screen": b"",
    "nowhere": bytes.fromhex("f33fffff"),
    "transcript": bytes.fromhex("f33fffff f37f02"),
    "upper": bytes.fromhex("ea7f19 eb7f01"),
    "table": bytes.fromhex(f"f34f03 {TABLE:04x}"),
}

# What the text of an abbreviation says over and over, in Z-characters.
SAYINGS = {
    "letters": (6, 7, 8),
    "nulls": (5, 6, 0, 0),
    "lines": (5, 7, 6),
    "shifts": (4, 4, 4),
}


def words_of(words: Iterable[int]) -> bytes:
    """Words as the story has them."""
    return b"".join(word.to_bytes(2, "big") for word in words)


def text_of(characters: tuple[int, ...], count: int) -> bytes:
    """A text of so many words that says Z-characters over and over."""
    said = itertools.cycle(characters)
    words = [next(said) << 10 | next(said) << 5 | next(said) for _ in range(count)]
    words[-1] |= 0x8000
    return words_of(words)


def abbreviations(address: int, step: int = 0) -> Piece:
    """All abbreviations with the text at an address, or each one with that so many bytes behind the one before."""
    return ABBREVIATIONS, words_of((address + number * step) // 2 for number in range(96))


def story(version: int, code: bytes, *pieces: Piece) -> bytes:
    """A story of the greatest length that runs some code and ends, with nothing else in it but some pieces."""
    data = bytearray(LENGTHS[version])
    header = words_of((0xFFFE, CODE, OBJECTS, OBJECTS, GLOBALS, STATIC))
    own = ((0, bytes([version])), (4, header), (24, words_of([ABBREVIATIONS])), (CODE, code + b"\xba"))
    for at, some in (*own, *pieces):
        data[at:at + len(some)] = some
    return bytes(data)


def printing(version: int, place: str, address: int) -> bytes:
    """Instructions that see to where text goes, and `print_paddr` of the text at an address."""
    return PLACES[place] + b"\x8d" + words_of([address // UNITS[version]])


def long_text(version: int, place: str, saying: str) -> bytes:
    """A text of half the story's length, all of it abbreviations, whose text has the other half."""
    middle = LENGTHS[version] // 2
    first = text_of(SAYINGS[saying], (middle - TEXTS) // 2)
    second = text_of((1, 0), (LENGTHS[version] - middle) // 2)
    return story(version, printing(version, place, middle), abbreviations(TEXTS), (TEXTS, first), (middle, second))


def long_check(version: int, saying: str) -> bytes:
    """A text of all abbreviations: 95 are as long as the story, and the last names another, so that none is shown."""
    names = [part for number in range(96) for part in (number // 32 + 1, number % 32)]
    long = (TEXTS, text_of(SAYINGS[saying], (LENGTHS[version] - TEXTS) // 2))
    last = ((ABBREVIATIONS + 2 * 95, words_of([NESTED // 2])), (NESTED, text_of((1, 6, 6), 1)))
    code, uses = printing(version, "screen", TABLE), (TABLE, text_of(tuple(names), 64))
    return story(version, code, abbreviations(TEXTS, 2), *last, long, uses)


def long_rows(version: int, place: str) -> bytes:
    """As many and as long rows of `print_table` as there may be, one over the other."""
    width = 60_000
    operands = words_of((TEXTS, width, 65_535, 65_536 - width))
    return story(version, PLACES[place] + bytes.fromhex("fe00") + operands, (TEXTS, b"x" * (STATIC - TEXTS)))


def long_names(version: int, saying: str) -> bytes:
    """Objects with a name of 255 words of abbreviations as long as the story. The first is in the status line."""
    first, length, pointer = (62, 9, 7) if version == 3 else (126, 14, 12)
    names = [(at + pointer, words_of([TABLE])) for at in range(OBJECTS + first, CODE - length + 1, length)]
    text = (TEXTS, text_of(SAYINGS[saying], (LENGTHS[version] - TEXTS) // 2))
    name = (TABLE, b"\xff" + text_of((1, 0), 255))
    return story(version, b"", abbreviations(TEXTS), (GLOBALS, words_of([1])), *names, name, text)


def long_print(version: int, saying: str) -> bytes:
    """Code that prints a text of all abbreviations, whose text has half the story's length or more."""
    # a word names no address further on
    middle = min(LENGTHS[version] // 2, 2 * 0xFFFF)
    code = b"\xb2" + text_of((1, 0), (middle - CODE) // 2 - 1)
    text = text_of(SAYINGS[saying], (LENGTHS[version] - middle) // 2)
    return story(version, code, abbreviations(middle), (middle, text))


def same_instruction(version: int, instruction: bytes) -> bytes:
    """Code that is one instruction over and over, up to the story's end."""
    return story(version, instruction * ((LENGTHS[version] - CODE - 2) // len(instruction)))


def printed_strings(version: int, has_end: bool) -> bytes:
    """Half a story of `print_paddr` of one text, which has the other half: up to the story's end, or without an end."""
    middle = LENGTHS[version] // 2
    code = (b"\x8d" + words_of([middle // UNITS[version]])) * ((middle - CODE - 2) // 3)
    end = (LENGTHS[version] - 2, b"\x80\0" if has_end else b"\0\0")
    return story(version, code, end)


def shared_properties(version: int, has_end: bool) -> bytes:
    """As many objects as there may be, each in the one before, on one property list up to the end of data."""
    first, length, pointer = (62, 9, 7) if version == 3 else (126, 14, 12)
    count = 255 if version == 3 else 3_000
    entries = bytearray(count * length)
    table = OBJECTS + first + len(entries)
    for at in range(0, len(entries), length):
        number = at // length + 1
        links = bytes((number - 1, 0, number % count + 1)) if version == 3 else words_of((number - 1, 0, number + 1))
        entries[at + pointer - len(links):at + pointer + 2] = links + words_of([table])
    list_of = b"\0" + b"\x1f\0" * ((STATIC - table - 1) // 2) + (b"\0" if has_end else b"")
    code = b"\xba"
    pieces = ((OBJECTS + first, bytes(entries)), (table, list_of[:0x10000 - table]))
    data = bytearray(story(version, b"", *pieces))
    if not has_end:
        # each address of data begins a property
        data[table + len(list_of):0x10000] = b"\x1f" * (0x10000 - table - len(list_of))
    data[0x40:0x41] = code
    data[6:8] = words_of([0x40])
    return bytes(data)


def all_stories() -> dict[str, bytes]:
    """The stories by their names."""
    stories: dict[str, bytes] = {}
    for version in LENGTHS:
        for place in PLACES:
            for saying in SAYINGS:
                stories[f"{saying}.{place}.z{version}"] = long_text(version, place, saying)
            if version >= 5:
                stories[f"rows.{place}.z{version}"] = long_rows(version, place)
        for saying in SAYINGS:
            stories[f"{saying}.check.z{version}"] = long_check(version, saying)
            stories[f"{saying}.names.z{version}"] = long_names(version, saying)
            stories[f"{saying}.code.z{version}"] = long_print(version, saying)
        for name, instruction in (("short", b"\xb4"), ("refused", b"\xbc"), ("letter", b"\xb2\x98\xe8")):
            stories[f"{name}.instructions.z{version}"] = same_instruction(version, instruction)
        for end, has_end in (("end", True), ("endless", False)):
            stories[f"{end}.strings.z{version}"] = printed_strings(version, has_end)
            stories[f"{end}.properties.z{version}"] = shared_properties(version, has_end)
    return stories


def main() -> None:
    """Writes the stories."""
    if len(sys.argv) < 2 or sys.argv[1].startswith("-"):
        sys.exit(str(__doc__).splitlines()[2])
    folder, stories = Path(sys.argv[1]), all_stories()
    if unknown := [name for name in sys.argv[2:] if name not in stories]:
        sys.exit(f"hostile.py: there is no story {', '.join(unknown)}")
    folder.mkdir(parents=True, exist_ok=True)
    for name in sys.argv[2:] or stories:
        (folder / name).write_bytes(stories[name])


if __name__ == "__main__":
    end_with(main)

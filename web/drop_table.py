#!/usr/bin/env python3
"""Drops the table of functions from a WebAssembly module that has none in it.

usage: drop_table.py FROM TO

The linker makes an empty table all the same, with indices of 64 bits, which wasm-opt and older engines refuse.
"""

from __future__ import annotations

import pathlib
import sys
from collections.abc import Iterator

HEAD = 8
TABLES, ELEMENTS = 4, 9


def number_at(module: bytes, at: int) -> tuple[int, int]:
    """The number at a place, seven bits in each byte, the low ones first; and the place after it."""
    value = shift = 0
    while module[at] & 0x80:
        value |= (module[at] & 0x7F) << shift
        shift += 7
        at += 1
    return value | module[at] << shift, at + 1


def sections(module: bytes) -> Iterator[tuple[int, bytes]]:
    """The module's sections, each with its number."""
    at = HEAD
    while at < len(module):
        size, content = number_at(module, at + 1)
        yield module[at], module[at:content + size]
        at = content + size


def main() -> int:
    """Writes the module without its tables."""
    if len(sys.argv) != 3:
        sys.exit(__doc__)
    module = pathlib.Path(sys.argv[1]).read_bytes()
    found = list(sections(module))
    if any(number == ELEMENTS for number, _ in found):
        sys.exit(f"{sys.argv[1]}: there are functions in its table")
    kept = b"".join(section for number, section in found if number != TABLES)
    pathlib.Path(sys.argv[2]).write_bytes(module[:HEAD] + kept)
    return 0


if __name__ == "__main__":
    sys.exit(main())

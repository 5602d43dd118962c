"""Coverage files, as `zkit play --cover` and `zkit test --cover` write them."""

from __future__ import annotations

import re
from collections.abc import Iterable
from pathlib import Path

from zkit._files import MOST_TEXT, read, write
from zkit.story import Story

ADDRESS = re.compile(r"[0-9A-Fa-f]{5,}")
# of the header: where the serial number is, where the length of the file, and the unit of that length by the version
SERIAL, LENGTH, HEADER = 0x12, 0x1A, 0x40
UNITS = {3: 2, 4: 4, 5: 4, 8: 8}


class CoverError(Exception):
    """A file is no coverage file of the story."""


class CoverFile:
    """A coverage file, with what it has already. It is made if it is not there; OSError tells why it can't be used."""

    def __init__(self, path: Path, story: Story) -> None:
        self._path = path
        self._story = story_line(story)
        self._addresses: set[int] = set()
        if path.exists():
            self._addresses = self._read(len(bytes(story)))
        # now, and not after an hour, if it can't be written
        self.add(())

    def add(self, addresses: Iterable[int]) -> None:
        """Adds the addresses of instructions, and writes the file."""
        self._addresses.update(addresses)
        lines = [self._story, *(f"{address:05x}" for address in sorted(self._addresses))]
        write(self._path, "".join(line + "\n" for line in lines))

    def _read(self, length: int) -> set[int]:
        try:
            story, *lines = read(self._path, MOST_TEXT).decode("utf-8").replace("\r\n", "\n").split("\n")
        except UnicodeDecodeError:
            raise self._error() from None
        words = [line.strip() for line in lines if line.strip() and line != story]
        if not story.startswith("story ") or not all(map(ADDRESS.fullmatch, words)):
            raise self._error()
        if story != self._story:
            raise CoverError(f"{self._path}: it is of another story, or of another build of this one")
        addresses = {int(word, 16) for word in words}
        if max(addresses, default=0) >= length:
            raise self._error()
        return addresses

    def _error(self) -> CoverError:
        return CoverError(f"{self._path}: not a coverage file")


def story_line(story: Story) -> str:
    """The line that names a story: its serial number, the sum of its bytes, and the length of its file."""
    content = bytes(story)
    serial = "".join(chr(byte) if 32 < byte < 127 else "?" for byte in content[SERIAL:SERIAL + 6])
    stated = UNITS[story.version] * int.from_bytes(content[LENGTH:LENGTH + 2], "big")
    summed = sum(content[HEADER:stated or None]) % 0x1_0000
    return f"story {serial} {summed:04x} {len(content)}"

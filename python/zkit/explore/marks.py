"""Which instructions were run, by the marks of games."""

from __future__ import annotations

import re
from collections.abc import Sequence
from typing import Union

from zkit.explore.plays import STEPS

MARK = re.compile(b"\1")
# Numbers of instructions count as the same that are so near.
NEAR = 8


class Marks:
    """The addresses of all instructions that were run so far."""

    def __init__(self, length: int) -> None:
        self._length = length
        # in the order in which they came
        self.addresses: dict[int, None] = {}
        # a byte for each address of the story, 1 where nothing was run: numbers are compared fastest
        self._missing = int.from_bytes(b"\1" * length, "little")
        # by the number of instructions, the turns that were looked at
        self._looked = bytearray(STEPS // NEAR + 1)

    def may_be_new(self, steps: int) -> bool:
        """Whether no turn of about so many instructions was looked at before: most others run what was run before.

        It counts as looked at from now on."""
        about = min(steps, STEPS) // NEAR
        is_first = not self._looked[about]
        self._looked[about] = 1
        return is_first

    def add(self, marks: Union[bytes, bytearray]) -> tuple[int, ...]:
        """Adds the marks of a game, and returns the addresses that are new."""
        new = self._missing & int.from_bytes(marks[:marks.rfind(1) + 1], "little")
        if not new:
            return ()
        self._missing ^= new
        found = tuple([mark.start() for mark in MARK.finditer(new.to_bytes(self._length, "little"))])
        self.addresses.update(dict.fromkeys(found))
        return found

    def know(self, addresses: Sequence[int]) -> None:
        """Takes instructions as run."""
        marks = bytearray(max(addresses, default=-1) + 1)
        for address in addresses:
            marks[address] = 1
        self.add(marks)

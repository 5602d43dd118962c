"""The part of the work that one of several processes does."""

from __future__ import annotations

from dataclasses import dataclass
from typing import Optional

SEEDS = 2**64
# Runs whose seeds are near each other have no job in common.
BETWEEN_SEEDS = 1_000_003


@dataclass(frozen=True)
class Part:
    """One of several parts, by its number from 0 on."""

    number: int
    count: int

    def seed(self, seed: int) -> int:
        """The seed of this part; the first one has the seed of the whole."""
        return (seed + BETWEEN_SEEDS * self.number) % SEEDS

    def turns(self, turns: Optional[int]) -> Optional[int]:
        """How many of all turns this part takes."""
        return None if turns is None else turns // self.count + (self.number < turns % self.count)


WHOLE = Part(0, 1)

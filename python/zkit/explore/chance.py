"""Random choices that are the same for a seed with every version of Python."""

from __future__ import annotations

import random
from collections.abc import Sequence
from typing import Generic, TypeVar

Item = TypeVar("Item")


class Chance:
    """A stream of random choices. Only `random.Random.random` is used, which never changes for a seed."""

    def __init__(self, seed: int) -> None:
        self._random = random.Random(seed).random

    def below(self, count: int) -> int:
        """A number from 0 to one less than `count`."""
        return int(self._random() * count)

    def happens(self, share: float) -> bool:
        """True in this share of all cases."""
        return self._random() < share

    def pick(self, items: Sequence[Item]) -> Item:
        """One of the items."""
        return items[int(self._random() * len(items))]

    def shuffled(self, items: Sequence[Item]) -> list[Item]:
        """The items in another order."""
        mixed = list(items)
        for index in range(len(mixed) - 1, 0, -1):
            other = self.below(index + 1)
            mixed[index], mixed[other] = mixed[other], mixed[index]
        return mixed


class Deck(Generic[Item]):
    """Items that are drawn in a random order, each of them once before any comes again."""

    def __init__(self, chance: Chance, items: Sequence[Item]) -> None:
        self._chance = chance
        self._items = list(items)
        self._left: list[Item] = []

    def __len__(self) -> int:
        return len(self._items)

    def draw(self) -> Item:
        """The next item. There must be one."""
        if not self._left:
            self._left = self._chance.shuffled(self._items)
        return self._left.pop()

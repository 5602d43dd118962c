"""Trees of objects: which thing is where, and what it has become."""

from __future__ import annotations

from collections import Counter

from zkit.game import Game

# how many bytes an entry of the object table has (Standard, section 12.3)
ENTRY_OF_VERSION_3, ENTRY = 9, 14
MOST = 200_000


class Trees:
    """All trees of an exploration so far, as hashes of the object table."""

    def __init__(self) -> None:
        self._hashes: set[int] = set()
        self._counts: Counter[str] = Counter()
        self._table = (0, 0)

    def is_new(self, game: Game, place: str) -> bool:
        """Whether a tree was not seen yet, and makes the number of those at its place a power of two.

        Each thing that is taken makes another tree: so only few of them count."""
        if self._table == (0, 0):
            self._table = _table_of(game)
        tree = game.hash(*self._table)
        if tree in self._hashes:
            return False
        if len(self._hashes) >= MOST:
            self._hashes.clear()
        self._hashes.add(tree)
        self._counts[place] += 1
        count = self._counts[place]
        return count & (count - 1) == 0


def _table_of(game: Game) -> tuple[int, int]:
    """Where the entries of all objects are, and how many bytes they have."""
    objects = game.objects
    if not len(objects):
        return 0, 1
    length = ENTRY_OF_VERSION_3 if game.story.version == 3 else ENTRY
    first = objects[1].address
    return first, objects[len(objects)].address + length - first

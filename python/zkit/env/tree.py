"""The object tree of a game, read from its memory at once (Standard, section 12)."""

from __future__ import annotations

from dataclasses import dataclass

from zkit.game import Game

OBJECTS, GLOBALS, STATIC = 0x0A, 0x0C, 0x0E
Parents = tuple[int, ...]


@dataclass(frozen=True)
class Layout:
    """Where the objects and the global variables of a story lie.

    count    how many objects there are
    first    the address of the first object's entry
    entry    how many bytes an entry has
    parent   where the parent's number begins in an entry
    width    how many bytes that has
    globals  the address of the global variables
    static   where dynamic memory ends
    """

    count: int
    first: int
    entry: int
    parent: int
    width: int
    globals: int
    static: int

    def parents(self, memory: bytes) -> Parents:
        """The number of the parent of each object, that of object 1 first."""
        start, end = self.first + self.parent, self.first + self.entry * self.count
        if self.width == 1:
            return tuple(memory[start:end:self.entry])
        high, low = memory[start:end:self.entry], memory[start + 1:end:self.entry]
        return tuple([256 * one + other for one, other in zip(high, low)])

    def world(self, memory: bytes) -> bytes:
        """The attributes and the parent of each object."""
        return b"".join([
            memory[start:start + self.parent + self.width]
            for start in range(self.first, self.first + self.entry * self.count, self.entry)
        ])


def layout_of(game: Game) -> Layout:
    """The layout of a game's story."""
    count, begin = len(game.objects), game.word(OBJECTS)
    first, entry, parent, width = (begin + 62, 9, 4, 1) if game.story.version == 3 else (begin + 126, 14, 6, 2)
    return Layout(count, first, entry, parent, width, game.word(GLOBALS), game.word(STATIC))


def chain(parents: Parents, number: int) -> list[int]:
    """The parent of an object, its parent, and so on."""
    found: list[int] = []
    while 1 <= number <= len(parents) and parents[number - 1] and parents[number - 1] not in found:
        number = parents[number - 1]
        found.append(number)
    return found


def within(parents: Parents, number: int) -> list[int]:
    """All objects that are in another one, by whatever way, in the order of their numbers."""
    return [it for it in range(1, len(parents) + 1) if it != number and number in chain(parents, it)]

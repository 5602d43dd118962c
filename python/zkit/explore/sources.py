"""Where the lines of an episode come from."""

from __future__ import annotations

from collections import deque
from typing import Optional, Protocol

from zkit.explore.chance import Chance
from zkit.explore.lines import Writer
from zkit.explore.parts import WHOLE, Part
from zkit.explore.player import Player
from zkit.explore.pool import Rest
from zkit.replies import Awaits

MUTATIONS = 0.1


class Source(Protocol):
    """Gives a line for a play, or None if there are no more."""

    def line(self, player: Player) -> Optional[str]:
        """The next line."""


class Free:
    """Lines made of words, and keys where the story awaits a character, without an end."""

    def __init__(self, writer: Writer) -> None:
        self._writer = writer

    def line(self, player: Player) -> str:
        """The next line."""
        if player.reply.awaits is Awaits.CHARACTER:
            return self._writer.key(player.text)
        return self._writer.line(player.sight, player.text, player.lines[-1] if player.lines else "")


class Sweep:
    """Each verb once, in the forms of `Writer.sweep`. It comes to its end even if the story awaits characters only."""

    def __init__(self, writer: Writer, sight: list[str], part: Part = WHOLE) -> None:
        self._free = Free(writer)
        self._lines = writer.sweep(sight, part)
        self.is_over = False

    def line(self, player: Player) -> Optional[str]:
        """The next line."""
        line = next(self._lines, None)
        self.is_over = line is None
        if line is not None and player.reply.awaits is Awaits.CHARACTER:
            return self._free.line(player)
        return line


class Following:
    """The lines of a walkthrough from a state on, with mutations: the first at once. After its end, any lines.

    A mutation leaves out a line, doubles it, puts another one in its place, or another one before it."""

    def __init__(self, writer: Writer, chance: Chance) -> None:
        self._free = Free(writer)
        self._chance = chance
        self._ahead: deque[str] = deque()
        self._is_first = True

    def line(self, player: Player) -> Optional[str]:
        """The next line."""
        if not self._ahead and player.rest is not None:
            if self._is_first or self._chance.happens(MUTATIONS):
                self._mutate(player, player.rest)
            self._is_first = False
        if self._ahead:
            return self._ahead.popleft()
        rest = player.rest
        if rest is None:
            return self._free.line(player)
        player.rest = rest.after(1)
        return rest.line

    def _mutate(self, player: Player, rest: Rest) -> None:
        way = self._chance.below(4)
        if way == 1:
            self._ahead.extend((rest.line, rest.line))
        elif way > 1:
            self._ahead.append(self._free.line(player))
        player.rest = rest if way == 3 else rest.after(1)

"""Kept states: where the explorer goes on from."""

from __future__ import annotations

from dataclasses import dataclass
from typing import Optional

from zkit.explore.chance import Chance
from zkit.explore.plays import Trail
from zkit.game import Game
from zkit.story import Story

MOST = 2_000
TRIED = 6


@dataclass(frozen=True)
class Rest:
    """The lines of a walkthrough that come after a state: at least one."""

    lines: tuple[str, ...]
    next: int = 0

    @property
    def line(self) -> str:
        """The next line."""
        return self.lines[self.next]

    def after(self, count: int) -> Optional[Rest]:
        """What comes after so many lines."""
        return Rest(self.lines, self.next + count) if self.next + count < len(self.lines) else None


@dataclass
class State:
    """A kept state.

    kept    the snapshot
    saved   the saved game of the play so far
    trail   how to come here from the start
    text    the end of the newest text
    sight   nouns in the newest texts
    worth   how much is to be expected here; what is found from here adds to it
    rest    the lines of a walkthrough that comes by here
    used    how often the explorer went on from here
    """

    kept: bytes
    saved: Optional[bytes]
    trail: Trail
    text: str
    place: str
    sight: list[str]
    worth: int
    rest: Optional[Rest] = None
    used: int = 0

    def open(self, story: Story) -> Game:
        """A game that goes on from here."""
        game = Game.from_snapshot(story, self.kept, coverage=True)
        game.saved = self.saved
        return game

    def score(self) -> float:
        """How good it is to go on from here."""
        return (1 + self.worth) / (1 + self.used)


class Pool:
    """Kept states, as many as fit."""

    def __init__(self, chance: Chance) -> None:
        self._chance = chance
        self.states: list[State] = []

    def __len__(self) -> int:
        return len(self.states)

    def add(self, state: State) -> None:
        """Keeps a state. If there are too many, another one goes that has little score."""
        if len(self.states) < MOST:
            self.states.append(state)
            return
        places = [self._chance.below(MOST) for _ in range(TRIED)]
        self.states[min(places, key=lambda place: self.states[place].score())] = state

    def choose(self) -> State:
        """A state with much score, of a few that are drawn."""
        drawn = [self._chance.pick(self.states) for _ in range(TRIED)]
        state = max(drawn, key=State.score)
        state.used += 1
        return state

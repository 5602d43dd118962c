"""A play that the explorer goes on with: the game, its lines, and what is in sight."""

from __future__ import annotations

from dataclasses import dataclass
from typing import Optional

from zkit.explore.plays import Trail, answer, waits
from zkit.explore.pool import Rest, State
from zkit.explore.seen import place_of
from zkit.explore.vocabulary import Vocabulary
from zkit.game import Game
from zkit.replies import Reply

MOST_IN_SIGHT = 24
END_OF_TEXT = 400
# the place as long as the story has told none
START = "(start)"


@dataclass
class Player:
    """A play from a kept state, or from the start."""

    game: Game
    reply: Reply
    vocabulary: Vocabulary
    seed: int
    lines: list[str]
    text: str
    place: str
    sight: list[str]
    rest: Optional[Rest] = None
    # the lines of the newest reply that were not seen before
    news: tuple[str, ...] = ()
    # the addresses of the instructions that its turn was the first to run, and whether the marks were looked at since
    ran: tuple[int, ...] = ()
    is_looked_at: bool = False
    has_new_tree: bool = False

    @classmethod
    def fresh(cls, game: Game, reply: Reply, vocabulary: Vocabulary, seed: int) -> Player:
        """A play that has just begun."""
        player = cls(game, reply, vocabulary, seed, [], "", START, [])
        player._look(reply)
        return player

    @classmethod
    def at(cls, state: State, game: Game, vocabulary: Vocabulary) -> Player:
        """A play from a kept state on."""
        trail = state.trail
        return cls(
            game, game.reply, vocabulary, trail.seed, list(trail.lines), state.text, state.place, state.sight,
            state.rest,
        )

    @property
    def trail(self) -> Trail:
        """How the play came here from the start."""
        return Trail(self.seed, tuple(self.lines))

    def send(self, line: str) -> None:
        """Takes a turn."""
        self.is_looked_at = False
        self.lines.append(line)
        self._look(answer(self.game, line))

    def can_go_on(self) -> bool:
        """Whether the story awaits another line."""
        return waits(self.reply)

    def state(self, worth: int) -> State:
        """The state to keep, where the story awaits a line."""
        return State(
            self.game.snapshot(undo=True), self.game.saved, self.trail, self.text, self.place, self.sight, worth,
            self.rest,
        )

    def _look(self, reply: Reply) -> None:
        self.reply, self.text = reply, reply.text[-END_OF_TEXT:]
        self.place = place_of(reply, self.place)
        # the newest words first
        found = self.vocabulary.sight(reply.text)
        if found:
            self.sight = list(dict.fromkeys([*found, *self.sight]))[:MOST_IN_SIGHT]

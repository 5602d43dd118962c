"""Plays of a story under the limits of the explorer, and again from the start."""

from __future__ import annotations

from collections.abc import Iterable
from dataclasses import dataclass

from zkit.errors import TooMuchText
from zkit.game import LONGEST_TEXT, Game
from zkit.replies import Awaits, Key, Reply, Stop, StopKind
from zkit.story import Story

STEPS = 1_000_000
UNDO = 1


@dataclass(frozen=True)
class Trail:
    """The lines of a play, and the seed of its random numbers."""

    seed: int
    lines: tuple[str, ...]


def begin(story: Story, seed: int) -> tuple[Game, Reply]:
    """A fresh game, with its opening. The game is closed if the opening shows too much text."""
    try:
        game = Game(story, seed=seed, steps=STEPS, undo=UNDO, coverage=True)
    except TooMuchText:
        return Game(story, seed=seed, steps=1, undo=UNDO, coverage=True), _endless()
    return game, game.reply


def answer(game: Game, line: str) -> Reply:
    """Answers a line as `zkit test` does: where a character is awaited, by the first one, or by Enter."""
    try:
        if game.reply.awaits is Awaits.CHARACTER:
            return game.send_key(line[0] if line else Key.ENTER)
        return game.send(line)
    except TooMuchText:
        return _endless()


def waits(reply: Reply) -> bool:
    """Whether a story awaits a line or a character."""
    return reply.awaits in (Awaits.LINE, Awaits.CHARACTER)


def replay(story: Story, trail: Trail) -> Iterable[Reply]:
    """The replies of a whole play, with the opening first, as far as the story awaits lines."""
    game, reply = begin(story, trail.seed)
    with game:
        yield reply
        for line in trail.lines:
            if not waits(reply):
                return
            reply = answer(game, line)
            yield reply


def _endless() -> Reply:
    words = f"more than {LONGEST_TEXT:,} bytes of text in one turn"
    return Reply("", (), None, Awaits.NOTHING, Stop(StopKind.TOO_MUCH_TEXT, 0, 0, words))

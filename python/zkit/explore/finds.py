"""Finds: each cause once, with the shortest play that shows it."""

from __future__ import annotations

from collections.abc import Iterable
from dataclasses import dataclass, field
from typing import Optional

from zkit.explore.causes import Cause, Kind, Sign, Wanted, is_looping, signs
from zkit.explore.plays import Trail, replay
from zkit.explore.shorten import Lines, Shortener
from zkit.story import Story

# of Inform's library, in a story that was compiled with -D
DEBUGGING_VERBS = frozenset((
    "abstract", "actions", "changes", "daemons", "glklist", "gonear", "goto", "messages", "purloin", "random",
    "routines", "scope", "showdict", "showheap", "showobj", "showverb", "timers", "trace", "tree",
))


@dataclass
class Find:
    """Something that was found.

    sign            what it is, as its shortest play shows it
    trail           the lines that lead to it from the start
    turn            the turn that found it
    times           how often it was seen
    is_shortest     whether no line can be left out
    follows_errors  whether the library tells errors before that are no part of it
    file            the name of the walkthrough that was written for it
    where           the open routines with their lines of the source, innermost first
    """

    sign: Sign
    trail: Trail
    turn: int
    times: int = 1
    is_shortest: bool = False
    follows_errors: bool = False
    file: Optional[str] = None
    where: list[str] = field(default_factory=list)

    @property
    def is_debugging(self) -> bool:
        """Whether it needs a debugging verb, which the players of a finished game do not have."""
        return any(line.split(" ", 1)[0] in DEBUGGING_VERBS for line in self.trail.lines)


class Finds:
    """All finds of a story."""

    def __init__(self, story: Story, wanted: Wanted) -> None:
        self._story = story
        self._wanted = wanted
        self._known: dict[Cause, Find] = {}
        self.all: list[Find] = []
        # what other processes have found, with how often it was seen here
        self._others: list[Find] = []
        # signs that a play from the start did not show again
        self.lost = 0

    @property
    def times(self) -> list[tuple[Cause, int]]:
        """How often each find was seen here, those of other processes too."""
        return [(find.sign.cause, find.times) for find in [*self.all, *self._others]]

    def learn(self, find: Find) -> None:
        """Takes a find of another process as known."""
        if find.sign.cause not in self._known:
            self._known[find.sign.cause] = find
            self._others.append(find)

    def add(self, sign: Sign, trail: Trail, turn: int) -> None:
        """Counts a sign that is known, and makes a find of a new one."""
        known = self._known.get(sign.cause)
        if known is not None:
            known.times += 1
            return
        find = Find(sign, trail, turn)
        # first, so that it is there if the rest is interrupted
        self.all.append(find)
        self._known[sign.cause] = find
        if not self._shorten(find):
            self.all.remove(find)
            self.lost += 1
        elif same := self._same(find):
            self.all.remove(find)
            self._known[sign.cause] = same
            same.times += 1

    def _shorten(self, find: Find) -> bool:
        """Makes the trail of a find short, and returns whether a play from the start shows it at all."""
        cause, seed = find.sign.cause, find.trail.seed

        def play(lines: Lines) -> Optional[Lines]:
            for index, reply in enumerate(replay(self._story, Trail(seed, lines))):
                if any(_is_same(sign.cause, cause) for sign in signs(reply, self._wanted)):
                    return lines[:index]
            return None

        shown = play(find.trail.lines)
        if shown is None:
            return False
        shortener = Shortener(play, shown)
        try:
            find.is_shortest = shortener.run()
        finally:
            find.trail = Trail(seed, shortener.lines)
            self._look_again(find)
        return True

    def _look_again(self, find: Find) -> None:
        """Sets what the shortest play of a find shows."""
        replies = [signs(reply, self._wanted) for reply in replay(self._story, find.trail)]
        last = [sign for sign in replies[-1] if _is_same(sign.cause, find.sign.cause)]
        find.sign = last[0] if last else find.sign
        earlier = [sign for found in replies[:-1] for sign in found] + _others(replies[-1], find.sign)
        find.follows_errors = any(sign.cause.kind is Kind.ERROR for sign in earlier)

    def _same(self, find: Find) -> Optional[Find]:
        """An earlier find with the same cause, as the shortest plays show: the same lines, or the same loop."""
        for other in self.all:
            if other is not find and _key(other) == _key(find):
                return other
        return next((other for other in self._others if is_one(other, find)), None)


def _others(found: Iterable[Sign], sign: Sign) -> list[Sign]:
    """Errors in the last reply of a find that is no error itself."""
    return [] if sign.cause.kind is Kind.ERROR else [other for other in found if other is not sign]


def _is_same(cause: Cause, wanted: Cause) -> bool:
    """Whether two causes are one. Where a loop was stopped says nothing: it is any loop."""
    return cause == wanted or (is_looping(cause) and is_looping(wanted) and cause.kind is wanted.kind)


def is_one(find: Find, other: Find) -> bool:
    """Whether two finds of different processes are one. These play with different seeds: only the lines count."""
    if find.sign.cause.kind is Kind.ERROR:
        return other.sign.cause == find.sign.cause or (
            other.sign.cause.kind is Kind.ERROR and other.trail.lines == find.trail.lines
        )
    return _key(find) == _key(other)


def _key(find: Find) -> tuple[object, ...]:
    """What two finds have in common that are one: for errors the lines, for loops the verb that leads into them."""
    cause = find.sign.cause
    if is_looping(cause):
        return cause.kind, (find.trail.lines or ("",))[-1].split(" ")[0]
    if cause.kind is Kind.ERROR:
        return cause.kind, find.trail
    return (cause,)

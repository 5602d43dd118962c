"""The explorer: plays a story by itself, and collects finds."""

from __future__ import annotations

import time
from collections import Counter, deque
from collections.abc import Callable, Collection, Iterable, Iterator, Sequence
from contextlib import contextmanager
from dataclasses import dataclass
from typing import Optional

from zkit.explore.causes import Cause, Kind, Wanted, signs
from zkit.explore.chance import Chance
from zkit.explore.explored import Share
from zkit.explore.finds import Find, Finds
from zkit.explore.grammar import grammar_of
from zkit.explore.leads import Lead
from zkit.explore.lines import Writer
from zkit.explore.parts import WHOLE, Part
from zkit.explore.player import Player
from zkit.explore.plays import Trail, begin
from zkit.explore.pool import Pool, Rest, State
from zkit.explore.seen import Seen
from zkit.explore.sources import Following, Free, Source, Sweep
from zkit.explore.vocabulary import vocabulary_of
from zkit.story import Story

TURNS_OF_EPISODE = 16
# what is to be expected of a state; one where only the objects' tree is new has none of this
WORTH_OF_PLACE = 6
WORTH_OF_TEXT = 1
WORTH_OF_CODE = 1
# so many episodes try each verb once, and so many of those at a state of a walkthrough follow it
SWEEPS = 0.33
FOLLOWED = 0.6
# A line or a verb that went past a limit so often is rarely typed again: each time costs as much as hundreds of turns.
MOST_LIMITS_OF_LINE = 1
MOST_LIMITS_OF_VERB = 4
AGAIN = 0.02
STOPPING = (Kind.LIMIT, Kind.ENDLESS)
# Turns that follow leads are at most this share of the others; leads that must wait too long are dropped.
FOLLOWING_LEADS = 0.25
MOST_LEADS = 500
MOST_REACHED = 2_000


@dataclass(frozen=True)
class Settings:
    """How a story is explored.

    turns    the most turns, or None for as many as the time allows
    seconds  the most time, or None for as much as the turns take
    part     of the verbs that are tried where all processes begin, or None for none of them
    """

    seed: int = 1
    turns: Optional[int] = None
    seconds: Optional[float] = None
    wanted: Wanted = Wanted()
    part: Optional[Part] = WHOLE


class Explorer:
    """Plays a story by itself, until the turns or the time are over."""

    def __init__(
        self,
        story: Story,
        settings: Settings,
        told: Callable[[Explorer], None] = lambda _: None,
        kept: Callable[[Lead], None] = lambda _: None,
    ) -> None:
        self.settings = settings
        self.turns = 0
        self.seen = Seen(len(bytes(story)))
        self.is_interrupted = False
        self._story = story
        self._told = told
        self._tell_kept = kept
        self._finds = Finds(story, settings.wanted)
        self._chance = Chance(settings.seed)
        self._vocabulary = vocabulary_of(story)
        self._writer = Writer(self._chance, self._vocabulary, grammar_of(story))
        self._pool = Pool(self._chance)
        self._sweeps: deque[tuple[State, Sweep]] = deque()
        self._has_swept = False
        # places of which no state was kept yet
        self._places: set[str] = set()
        self._limits: Counter[str] = Counter()
        # what other processes have kept, the states that were made of it, and the turns that it took
        self._leads: deque[Lead] = deque(maxlen=MOST_LEADS)
        self._reached: dict[Trail, State] = {}
        self._turns_of_leads = 0
        self._end = float("inf")

    @property
    def seed(self) -> int:
        """The seed of the exploration."""
        return self.settings.seed

    @property
    def places(self) -> Collection[str]:
        """The names of all places, in the order in which they were found."""
        return self.seen.places

    @property
    def texts(self) -> int:
        """How many lines of text the story has shown."""
        return len(self.seen.lines)

    @property
    def ran(self) -> Collection[int]:
        """The addresses of all instructions that were run, in the order in which they were first run."""
        return self.seen.marks.addresses

    @property
    def is_broken(self) -> bool:
        """Whether nobody could go on: never, for one process."""
        return False

    @property
    def jobs(self) -> Sequence[Share]:
        """The parts of other processes: none."""
        return ()

    @property
    def finds(self) -> list[Find]:
        """What was found."""
        return self._finds.all

    @property
    def lost(self) -> int:
        """How many finds a play from the start did not show again."""
        return self._finds.lost

    @property
    def kept(self) -> int:
        """How many states are kept."""
        return len(self._pool)

    @property
    def times(self) -> list[tuple[Cause, int]]:
        """How often each cause was seen, also those that another process has found."""
        return self._finds.times

    def learn(self, find: Find) -> None:
        """Takes what another process has found as known."""
        if find.sign.cause.kind in STOPPING and find.trail.lines:
            self._note_limit(find.trail.lines[-1])
        self._finds.learn(find)

    def offer(self, lead: Lead) -> None:
        """Takes a lead of another process, to follow it some time, if something there was not seen yet."""
        if lead.is_news(self.seen):
            self._leads.append(lead)

    def run(self, walkthroughs: Iterable[Trail] = (), leads: Iterable[Lead] = ()) -> None:
        """Explores the story, walkthroughs and leads first. Ctrl-C ends it; what was found so far stays."""
        if self.settings.seconds is not None:
            self._end = time.monotonic() + self.settings.seconds
        try:
            for trail in (Trail(self.settings.seed, ()), *walkthroughs):
                self._walk(trail)
            for lead in leads:
                self._follow(lead.trail)
            while self._pool.states and not self._is_over():
                self._follow_leads()
                self._episode()
                self._told(self)
        except KeyboardInterrupt:
            self.is_interrupted = True

    def _is_over(self) -> bool:
        most = self.settings.turns
        return (most is not None and self.turns >= most) or time.monotonic() >= self._end

    # ---- plays

    def _walk(self, trail: Trail) -> None:
        """Plays a walkthrough from the start, and keeps each state on the way."""
        game, reply = begin(self._story, trail.seed)
        player = Player.fresh(game, reply, self._vocabulary, trail.seed)
        with self._playing(player):
            player.rest = Rest(trail.lines) if trail.lines else None
            self._look(player)
            while player.can_go_on():
                self._keep(player, self.settings.part)
                if player.rest is None or self._is_over():
                    return
                line, player.rest = player.rest.line, player.rest.after(1)
                self._turn(player, line)

    def _episode(self) -> None:
        """Goes on from a kept state for some turns."""
        state, source = self._next()
        player = Player.at(state, state.open(self._story), self._vocabulary)
        with self._playing(player):
            for _ in range(TURNS_OF_EPISODE):
                line = source.line(player)
                if line is None or self._is_over():
                    break
                if self._is_costly(line):
                    continue
                self._turn(player, line)
                if not player.can_go_on():
                    break
                worth = self._worth(player)
                if worth or player.has_new_tree:
                    state.worth += min(worth, 1)
                    self._keep(player)

    def _follow_leads(self) -> None:
        """Goes to states of other processes, as long as that takes a small share of all turns."""
        while self._leads and self._turns_of_leads <= FOLLOWING_LEADS * self.turns and not self._is_over():
            self._follow(self._leads.popleft().trail)

    def _follow(self, trail: Trail) -> None:
        """Goes to a state of another process, from the nearest one that was reached, and keeps it."""
        player = self._nearest(trail)
        with self._playing(player):
            for line in trail.lines[len(player.lines):]:
                if not player.can_go_on():
                    return
                player.send(line)
                self._turns_of_leads += 1
                self._look(player)
            if player.can_go_on():
                if len(self._reached) >= MOST_REACHED:
                    self._reached.clear()
                self._reached[trail] = self._keep(player, None)

    @contextmanager
    def _playing(self, player: Player) -> Iterator[None]:
        """A play. At its end its marks count, also those that no turn has looked at."""
        with player.game:
            try:
                yield
            finally:
                if not player.is_looked_at:
                    self.seen.marks.add(player.game.coverage)

    def _nearest(self, trail: Trail) -> Player:
        """A play at the last state on a trail that was reached, or at the start."""
        for count in range(len(trail.lines), 0, -1):
            state = self._reached.get(Trail(trail.seed, trail.lines[:count]))
            if state is not None:
                return Player.at(state, state.open(self._story), self._vocabulary)
        game, reply = begin(self._story, trail.seed)
        return Player.fresh(game, reply, self._vocabulary, trail.seed)

    def _next(self) -> tuple[State, Source]:
        """Where the next episode begins, and where its lines come from."""
        while self._sweeps and self._sweeps[0][1].is_over:
            self._sweeps.popleft()
            self._has_swept = True
        if self._sweeps and (not self._has_swept or self._chance.happens(SWEEPS)):
            return self._sweeps[0]
        state = self._pool.choose()
        if state.rest is not None and self._chance.happens(FOLLOWED):
            return state, Following(self._writer, self._chance)
        return state, Free(self._writer)

    def _turn(self, player: Player, line: str) -> None:
        """Takes a turn."""
        player.send(line)
        self.turns += 1
        self._look(player)

    def _look(self, player: Player) -> None:
        """Looks at the newest reply: for finds, and for what is new."""
        line = player.lines[-1] if player.lines else ""
        for sign in signs(player.reply, self.settings.wanted):
            if sign.cause.kind in STOPPING:
                self._note_limit(line)
            self._finds.add(sign, player.trail, self.turns)
        if self.seen.has_new_place(player.place):
            self._places.add(player.place)
        player.news = tuple(self.seen.new_lines(player.reply, line))
        player.ran = self._first_run(player)
        player.has_new_tree = self.seen.trees.is_new(player.game, player.place)

    def _first_run(self, player: Player) -> tuple[int, ...]:
        """The instructions that the newest turn was the first to run. A look takes long: so few turns get one."""
        may_be_new = self.seen.marks.may_be_new(player.game.place.steps)
        player.is_looked_at = may_be_new or bool(player.news)
        return self.seen.marks.add(player.game.coverage) if player.is_looked_at else ()

    def _note_limit(self, line: str) -> None:
        """Counts a line that has gone past a limit, and its verb."""
        self._limits.update((line, _verb(line)))

    def _is_costly(self, line: str) -> bool:
        """Whether to leave out a line, since it or its verb has gone past limits before."""
        limits = self._limits
        if limits[line] < MOST_LIMITS_OF_LINE and limits[_verb(line)] < MOST_LIMITS_OF_VERB:
            return False
        return not self._chance.happens(AGAIN)

    def _keep(self, player: Player, part: Optional[Part] = WHOLE) -> State:
        """Keeps the state of a play. The first one at a place is worth more, and gets a sweep, or a part of one.

        Where there is no part, another process does all that, and knows the state."""
        is_first = player.place in self._places
        state = player.state(self._worth(player))
        self._pool.add(state)
        self._places.discard(player.place)
        if part is not None:
            self._tell_kept(Lead(player.trail, player.place, player.news, player.ran))
            if is_first:
                self._sweeps.append((state, Sweep(self._writer, state.sight, part)))
        return state

    def _worth(self, player: Player) -> int:
        """How much is new in the newest turn."""
        if player.place in self._places:
            return WORTH_OF_PLACE
        return WORTH_OF_TEXT * bool(player.news) + WORTH_OF_CODE * bool(player.ran)


def _verb(line: str) -> str:
    return line.split(" ", 1)[0] + " .."

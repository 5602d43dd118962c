"""What an exploration on a cluster has found so far, and the tasks that come next."""

from __future__ import annotations

import time

from zkit.explore.chance import Chance
from zkit.explore.explored import Share
from zkit.explore.explorer import Settings
from zkit.explore.lead_pool import LeadPool
from zkit.explore.merged import Merged
from zkit.explore.messages import lead_in
from zkit.explore.parts import Part
from zkit.explore.plays import Trail
from zkit.explore.tasks import Task, unpacked

TURNS_OF_TASK = 2_000
SECONDS_OF_TASK = 10.0
PATIENCE = 60.0
LEADS_OF_TASK = 30
# A task says what is known; what is more than that is found again.
MOST_TEXTS = 20_000


class Plan:
    """Makes tasks, and merges what they tell. The first tasks share the verbs that are tried at the start."""

    def __init__(self, settings: Settings, trails: tuple[Trail, ...], workers: int) -> None:
        self.merged = Merged(settings.seed, [])
        self._settings = settings
        self._trails = trails
        self._first = max(workers, 1)
        self._leads = LeadPool(Chance(settings.seed))
        # turns that no task has yet
        self._left = settings.turns
        self._turns = TURNS_OF_TASK
        if settings.turns is not None:
            self._turns = max(min(TURNS_OF_TASK, -(-settings.turns // self._first)), 1)
        self._end = float("inf") if settings.seconds is None else time.monotonic() + settings.seconds

    def is_over(self) -> bool:
        """Whether no task is given out any more."""
        merged = self.merged
        return merged.is_interrupted or merged.is_broken or self._left == 0 or time.monotonic() >= self._end

    def is_late(self) -> bool:
        """Whether the tasks that were given out should have ended long ago."""
        return time.monotonic() >= self._end + PATIENCE

    def next(self) -> tuple[Share, Task]:
        """The next task."""
        number = len(self.merged.jobs)
        share = Share(number + 1, Part(number, number + 1).seed(self._settings.seed))
        self.merged.jobs.append(share)
        turns = self._turns
        if self._left is not None:
            turns = min(turns, self._left)
            self._left -= turns
        part = Part(number, self._first) if number < self._first else None
        seconds = min(SECONDS_OF_TASK, max(self._end - time.monotonic(), 0))
        return share, Task(
            settings=Settings(share.seed, turns, seconds, self._settings.wanted, part),
            trails=(self._trails[number % len(self._trails)],) if self._trails else (),
            leads=self._leads.choose(LEADS_OF_TASK),
            finds=tuple(self.merged.finds),
            places=tuple(self.merged.places),
            texts=self.merged.newest_texts(MOST_TEXTS),
            ran=tuple(self.merged.ran),
        )

    def take(self, share: Share, task: Task, content: bytes) -> None:
        """Takes what a task has told. Turns that it had no time for are left for others."""
        messages = unpacked(content)
        leads = [lead_in(message["lead"]) for message in messages if "lead" in message]
        self._leads.add(leads)
        self.merged.take(share, messages)
        share.kept = len(leads)
        self.give_back(task, share.turns)

    def give_back(self, task: Task, taken: int = 0) -> None:
        """Turns that a task has not taken are left for others."""
        if self._left is not None and task.settings.turns is not None:
            self._left += max(task.settings.turns - taken, 0)

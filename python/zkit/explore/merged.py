"""What several processes have found, each thing once."""

from __future__ import annotations

from collections.abc import Collection
from itertools import islice
from typing import Optional

from zkit.explore.causes import Cause
from zkit.explore.explored import Share
from zkit.explore.finds import Find, is_one
from zkit.explore.log import Message
from zkit.explore.messages import cause_in, find_in


class Merged:
    """The finds of all shares, and their figures together."""

    def __init__(self, seed: int, jobs: list[Share]) -> None:
        self.seed = seed
        self.jobs = jobs
        self.finds: list[Find] = []
        self.is_interrupted = self.is_broken = False
        self._known: dict[Cause, Find] = {}
        self._places: dict[str, None] = {}
        self._texts: dict[str, None] = {}
        self._ran: dict[int, None] = {}

    @property
    def turns(self) -> int:
        """The turns of all shares."""
        return sum(job.turns for job in self.jobs)

    @property
    def places(self) -> list[str]:
        """The places of all shares, in the order in which they were told."""
        return list(self._places)

    @property
    def texts(self) -> int:
        """How many lines of text were shown."""
        return len(self._texts)

    @property
    def ran(self) -> Collection[int]:
        """The addresses of all instructions that were run, in the order in which they were told."""
        return self._ran

    @property
    def kept(self) -> int:
        """How many states are kept."""
        return sum(job.kept for job in self.jobs)

    @property
    def lost(self) -> int:
        """How many finds a play from the start did not show again."""
        return sum(job.lost for job in self.jobs)

    def newest_texts(self, most: int) -> tuple[str, ...]:
        """The lines of text that came last."""
        return tuple(islice(self._texts, max(len(self._texts) - most, 0), None))

    def take(self, job: Share, messages: list[Message]) -> None:
        """Takes what a share has told."""
        for message in messages:
            if "find" in message:
                self._add(find_in(message["find"]))
            elif "figures" in message:
                self._count(job, message["figures"])
        for find in self.finds:
            find.times = sum(job.times.get(cause, 0) for job in self.jobs for cause in self._causes(find))

    def _causes(self, find: Find) -> list[Cause]:
        return [cause for cause, known in self._known.items() if known is find]

    def _count(self, job: Share, figures: Message) -> None:
        job.turns, job.kept, job.lost = figures["turns"], figures["kept"], figures["lost"]
        job.times = {cause_in(told[:3]): told[3] for told in figures["times"]}
        self._places.update(dict.fromkeys(figures["places"]))
        self._texts.update(dict.fromkeys(figures["texts"]))
        self._ran.update(dict.fromkeys(figures["ran"]))

    def _add(self, find: Find) -> None:
        same = self._same(find)
        if same is None:
            self.finds.append(find)
        elif find.is_shortest and not same.is_shortest and same.file is None:
            same.sign, same.trail, same.is_shortest = find.sign, find.trail, True
            same.follows_errors = find.follows_errors
        self._known.setdefault(find.sign.cause, same or find)

    def _same(self, find: Find) -> Optional[Find]:
        known = self._known.get(find.sign.cause)
        return known or next((other for other in self.finds if is_one(other, find)), None)

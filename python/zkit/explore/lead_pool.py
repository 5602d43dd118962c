"""Leads that tasks begin with."""

from __future__ import annotations

from collections.abc import Iterable
from dataclasses import dataclass

from zkit.explore.chance import Chance
from zkit.explore.leads import Lead
from zkit.explore.plays import Trail

TRIED = 6


@dataclass
class _Entry:
    """A lead, how often tasks began with it, and how many leads came of it."""

    lead: Lead
    used: int = 0
    worth: int = 0

    def score(self) -> float:
        return (1 + self.worth) / (1 + self.used)


class LeadPool:
    """All leads of an exploration."""

    def __init__(self, chance: Chance) -> None:
        self._chance = chance
        self._entries: dict[Trail, _Entry] = {}
        self._list: list[_Entry] = []

    def add(self, leads: Iterable[Lead]) -> None:
        """Adds leads, and counts them for the leads that they go on from."""
        for lead in leads:
            if lead.trail in self._entries:
                continue
            self._praise(lead.trail)
            entry = _Entry(lead)
            self._entries[lead.trail] = entry
            self._list.append(entry)

    def _praise(self, trail: Trail) -> None:
        for count in range(len(trail.lines) - 1, -1, -1):
            entry = self._entries.get(Trail(trail.seed, trail.lines[:count]))
            if entry is not None:
                entry.worth += 1
                return

    def choose(self, most: int) -> tuple[Lead, ...]:
        """Some leads with much score, the shortest first."""
        chosen: dict[Trail, Lead] = {}
        for _ in range(min(most, len(self._list))):
            entry = max((self._chance.pick(self._list) for _ in range(TRIED)), key=_Entry.score)
            entry.used += 1
            chosen[entry.lead.trail] = entry.lead
        return tuple(sorted(chosen.values(), key=lambda lead: len(lead.trail.lines)))

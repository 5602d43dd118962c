"""Leads: how to come to states that another process has kept."""

from __future__ import annotations

from dataclasses import dataclass

from zkit.explore.plays import Trail
from zkit.explore.seen import Seen


@dataclass(frozen=True)
class Lead:
    """How to come to a state.

    trail  the lines from the start
    place  where it is
    texts  what its newest reply has shown that was new there
    ran    the addresses of the instructions that were run first there
    """

    trail: Trail
    place: str
    texts: tuple[str, ...]
    ran: tuple[int, ...]

    def is_news(self, seen: Seen) -> bool:
        """Whether the place, a text or an instruction was not seen yet."""
        if self.place not in seen.places or any(text not in seen.lines for text in self.texts):
            return True
        return any(address not in seen.marks.addresses for address in self.ran)

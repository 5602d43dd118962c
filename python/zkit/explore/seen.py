"""What a play has shown that was not seen before: lines of text, places, instructions and trees of objects."""

from __future__ import annotations

import re
from collections.abc import Iterable, Sequence
from typing import Optional

from zkit.explore.marks import Marks
from zkit.explore.trees import Trees
from zkit.replies import Reply

NUMBER = re.compile(r"\d+")
GAP = re.compile(r"\s{2,}")
LONGEST_NAME = 60
MOST_LINES = 100
LONGEST_LOOK = 8_000


class Seen:
    """All lines, places, instructions and trees of an exploration so far, in a story of so many bytes."""

    def __init__(self, length: int) -> None:
        # in the order in which they came
        self.lines: dict[str, None] = {}
        self.places: dict[str, int] = {}
        self.marks = Marks(length)
        self.trees = Trees()

    def know(self, places: Iterable[str], texts: Iterable[str], ran: Sequence[int]) -> None:
        """Takes places and lines as seen, and instructions as run."""
        self.places.update(dict.fromkeys(places, 1))
        self.lines.update(dict.fromkeys(texts))
        self.marks.know(ran)

    def has_new_place(self, place: str) -> bool:
        """Whether a place is new; it is not from now on."""
        visits = self.places.get(place, 0)
        self.places[place] = visits + 1
        return visits == 0 and place != ""

    def new_lines(self, reply: Reply, command: str) -> list[str]:
        """The lines of a reply that are new, apart from numbers and from the words of the command.

        Rows of the upper window below the status line are lines too."""
        text = "\n".join((reply.text[:LONGEST_LOOK], *reply.upper[1:]))
        for word in command.split():
            if len(word) > 2:
                text = text.replace(word, "_")
        lines = [line for line in NUMBER.sub("#", text).split("\n")[:MOST_LINES] if line]
        new = [line for line in dict.fromkeys(lines) if line not in self.lines]
        self.lines.update(dict.fromkeys(new))
        return new


def place_of(reply: Reply, before: str) -> str:
    """Where the player is: the name in the status line or the first row of the upper window, or a line of the text.

    If the reply tells none, it is the place before."""
    if reply.status is not None:
        return reply.status.name
    if reply.upper:
        return _left(reply.upper[0]) or before
    return _title(reply.text) or before


def _left(row: str) -> str:
    return NUMBER.sub("#", GAP.split(row.strip(), maxsplit=1)[0])


def _title(text: str) -> Optional[str]:
    """The first line of a text, if it reads like the name of a room and more follows at once."""
    line, *more = text.lstrip("\n").split("\n", 2)[:2]
    line = line.strip()
    is_name = 0 < len(line) <= LONGEST_NAME and line[0].isupper() and line[-1].isalnum()
    return NUMBER.sub("#", line) if is_name and more and more[0][:1].isalpha() else None

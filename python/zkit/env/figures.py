"""What a story shows of its score, its turns, its place and its end."""

from __future__ import annotations

import re
from dataclasses import dataclass
from typing import Optional

from zkit.replies import Reply

SCORE = re.compile(r"\b(?:score|points)\b[:\s]*(-?\d+)", re.IGNORECASE)
TURNS = re.compile(r"\b(?:moves|turns|move|turn)\b[:\s]*(\d+)", re.IGNORECASE)
BOTH = re.compile(r"(-?\d+)\s*/\s*(\d+)\s*$")
MOST = re.compile(r"\bof(?: an?| the)?(?: total| possible| maximum)*(?: of)? (\d+)\b", re.IGNORECASE)
ENDING = re.compile(r"^[ \t]*\*{3,}[ \t]*([^*\s].*?)[ \t]*\*{3,}[ \t]*$", re.MULTILINE)
WON = re.compile(
    r"\b(?:won|win|wins|victory|victorious|congratulations|success|succeed(?:ed)?|completed?|finished|solved)\b",
    re.IGNORECASE,
)
# what a story may say that ends at once, without stars
WON_AT_ONCE = re.compile(r"\byou(?:'ve| have)? w[io]n\b", re.IGNORECASE)
# what a story asks after its end; as long as it asks that, it has ended
ASKED_AT_THE_END = re.compile(r"\brestart\b.*\b(?:restore|quit)\b", re.IGNORECASE | re.DOTALL)
GAP = re.compile(r"\s{2,}")


@dataclass(frozen=True)
class Figures:
    """The score and the turns that a reply shows; None for what it does not show."""

    score: Optional[int]
    turns: Optional[int]


def figures_of(reply: Reply) -> Figures:
    """The figures of the status line: of version 3, or of the first rows of the upper window."""
    if reply.status:
        return Figures(reply.status.score, reply.status.turns)
    for row in reply.upper[:2]:
        score, turns = SCORE.search(row), TURNS.search(row)
        if score or turns:
            return Figures(int(score[1]) if score else None, int(turns[1]) if turns else None)
        if both := BOTH.search(row):
            return Figures(int(both[1]), int(both[2]))
    return Figures(None, None)


def place_name(reply: Reply) -> str:
    """The name at the beginning of the status line, mostly that of the place; empty where there is none."""
    if reply.status:
        return reply.status.name
    row = next((row.strip() for row in reply.upper[:2] if row.strip()), "")
    return GAP.split(row)[0]


def most_of(text: str) -> Optional[int]:
    """The most points that there are, as the answer to SCORE tells it: "0 out of a possible 51"."""
    found = MOST.search(text)
    return int(found[1]) if found else None


def ending_of(reply: Reply) -> Optional[str]:
    """The words of an end, as between the stars of `*** You have won ***`; None if there are none."""
    found = ENDING.findall(reply.text)
    if not found and reply.stopped:
        found = WON_AT_ONCE.findall(reply.text)
    return str(found[-1]) if found else None


def still_asks(text: str) -> bool:
    """Whether a story that has ended still asks what to do."""
    return bool(ASKED_AT_THE_END.search(text))


def is_won(ending: str) -> bool:
    """Whether the words of an end are those of a victory."""
    return bool(WON.search(ending))

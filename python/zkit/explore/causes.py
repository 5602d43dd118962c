"""What is told as a find, and when two finds have one cause."""

from __future__ import annotations

import enum
import re
from collections import Counter
from dataclasses import dataclass

from zkit.replies import Reply, Stop, StopKind

LOOK_AT = 65_536
LONGEST_SHOWN = 300
# An index such as -1 tells mistakes apart; a number of an object, or one that is counted up, does not.
LONG_NUMBER = re.compile(r"\d\d+")
ERROR = re.compile(
    r"\[\*\* Programming error.{0,300}?\*\*\]|\*\*\* Run-time problem[^\n]{0,300}|\*\* Library error[^\n]{0,300}",
    re.DOTALL,
)
STEPS_LIMIT = 3
# An end is none of these, and no memory says nothing about the story.
WRONG = (StopKind.FAULT, StopKind.LIMIT, StopKind.TOO_MUCH_TEXT)


class Kind(enum.Enum):
    """The kind of a find."""

    FAULT = "fault"
    LIMIT = "limit"
    ENDLESS = "endless output"
    ERROR = "library error"
    ALARM = "alarm"
    GOAL = "goal"


@dataclass(frozen=True)
class Cause:
    """What two finds have in common that are one."""

    kind: Kind
    number: int
    place: str


@dataclass(frozen=True)
class Sign:
    """What one reply shows of a cause.

    words    what has happened
    shown    the line that the story has printed, or nothing
    address  of the instruction with a fault or a limit, or 0
    """

    cause: Cause
    words: str
    shown: str = ""
    address: int = 0

    @property
    def told(self) -> str:
        """The words, with the address or the endless line where there is one."""
        if self.cause.kind is Kind.ENDLESS:
            return f"{self.words}; it prints {self.shown!r}"
        return f"{self.words} at {self.address:05x}" if self.address else self.words


@dataclass(frozen=True)
class Wanted:
    """The texts that a user asks for."""

    alarms: tuple[str, ...] = ()
    goals: tuple[str, ...] = ()


def signs(reply: Reply, wanted: Wanted) -> list[Sign]:
    """All that a reply shows. Errors that a story prints up to a fault or a limit are part of that."""
    found = [
        Sign(Cause(kind, 0, text), f"the story shows {text!r}", text)
        for kind, texts in ((Kind.ALARM, wanted.alarms), (Kind.GOAL, wanted.goals))
        for text in texts
        if text in reply.text
    ]
    if reply.stopped is not None and reply.stopped.kind in WRONG:
        found.append(_stop(reply.stopped, reply.text))
    elif "** " in reply.text:
        found += _errors(reply.text[:LOOK_AT])
    return found


def _stop(stop: Stop, text: str) -> Sign:
    place = f"{stop.address:05x}"
    if stop.kind is StopKind.FAULT:
        return Sign(Cause(Kind.FAULT, stop.number, place), stop.words, "", stop.address)
    if stop.kind is StopKind.LIMIT and len(text) <= LOOK_AT:
        return Sign(Cause(Kind.LIMIT, stop.number, place), stop.words, "", stop.address)
    line = _most_usual(text[:LOOK_AT])
    return Sign(Cause(Kind.ENDLESS, stop.number, without_numbers(line)), stop.words, line, stop.address)


def _errors(text: str) -> list[Sign]:
    """The run-time errors of Inform's library in a text, each once."""
    found: dict[Cause, Sign] = {}
    for match in ERROR.finditer(text):
        shown = match[0].splitlines()[0].strip()
        cause = Cause(Kind.ERROR, 0, without_numbers(match[0]))
        found.setdefault(cause, Sign(cause, " ".join(match[0].split()).strip("[]* "), shown))
    return list(found.values())


def _most_usual(text: str) -> str:
    """The line that occurs most often, numbers aside."""
    lines = [line.strip() for line in text.splitlines() if line.strip()]
    if not lines:
        return ""
    usual = Counter(map(without_numbers, lines)).most_common(1)[0][0]
    return next(line for line in lines if without_numbers(line) == usual)[:LONGEST_SHOWN]


def without_numbers(text: str) -> str:
    """A text on one line with # for each number of two or more digits."""
    return LONG_NUMBER.sub("#", " ".join(text.split()))[:LONGEST_SHOWN]


def is_looping(cause: Cause) -> bool:
    """Whether the address of a cause is only where an endless loop was when it was stopped."""
    return cause.kind is Kind.ENDLESS or (cause.kind is Kind.LIMIT and cause.number == STEPS_LIMIT)

"""The grammar lines of each verb, as Inform 6 has written them into a story."""

from __future__ import annotations

from collections.abc import Callable, Iterator
from dataclasses import dataclass
from typing import Union

from zkit.explore.vocabulary import COMPILER, Entry, Inform, entries_of
from zkit.story import Story

ELEMENTARY = (
    "noun", "held", "multi", "multiheld", "multiexcept", "multiinside", "creature", "special", "number", "topic",
)
# the types of tokens of GV2, and its flag for a word that may stand in place of the one before
PREPOSITION, END_OF_LINE, INSTEAD = 2, 15, 16
ROUTINES = {3: "noun", 4: "noun", 5: "scope", 6: "routine"}
# a line of GV1 has a count, six tokens and an action
LINE_OF_GV1, TOKENS_OF_GV1 = 8, 6
FIRST_PREPOSITION_OF_GV1 = 180
LAST_VERB = 255
STATIC_BASE = 0x0E

# what stands for a thing or a number, or the words of which one is typed
Token = Union[str, tuple[str, ...]]
Line = tuple[Token, ...]


@dataclass(frozen=True)
class Form:
    """What may be typed: one of some verbs, and a line of their grammar."""

    verbs: tuple[str, ...]
    line: Line


class _Misfit(Exception):
    """The tables are none of this form."""


class _Tables:
    """The tables of a story. All that does not fit raises _Misfit."""

    def __init__(self, story: Story) -> None:
        self._content = bytes(story)
        self._words: dict[int, str] = {}
        self._prepositions: dict[int, str] = {}
        self.verbs: dict[int, list[str]] = {}
        for entry in entries_of(story):
            self._add(entry)

    def _add(self, entry: Entry) -> None:
        self._words[entry.address] = entry.word
        if len(entry.data) == 3:
            flags, verb, preposition = entry.data
            if flags & Inform.VERB:
                self.verbs.setdefault(LAST_VERB - verb, []).append(entry.word)
            if flags & Inform.PREPOSITION:
                self._prepositions.setdefault(preposition, entry.word)

    def byte(self, place: int) -> int:
        """A byte of the story."""
        if place >= len(self._content):
            raise _Misfit
        return self._content[place]

    def word(self, place: int) -> int:
        """Two bytes of the story."""
        return 256 * self.byte(place) + self.byte(place + 1)

    def grammar(self, verb: int) -> int:
        """Where the lines of a verb are."""
        return self.word(self.word(STATIC_BASE) + 2 * verb)

    def preposition(self, address: int) -> str:
        """The word at an address of the dictionary."""
        if address not in self._words:
            raise _Misfit
        return self._words[address]

    def preposition_of_gv1(self, number: int) -> str:
        """The preposition with a number."""
        if number not in self._prepositions:
            raise _Misfit
        return self._prepositions[number]


LinesAt = Callable[[_Tables, int], tuple[list[Line], int]]


def grammar_of(story: Story) -> list[Form]:
    """The lines of all verbs: none if Inform 6 has not made the story, or if its tables do not fit."""
    if not COMPILER.fullmatch(bytes(story)[0x3C:0x40]):
        return []
    tables = _Tables(story)
    for lines_at in (_lines_of_gv2, _lines_of_gv1):
        try:
            return list(_forms(tables, lines_at))
        except _Misfit:
            continue
    return []


def _forms(tables: _Tables, lines_at: LinesAt) -> Iterator[Form]:
    """All forms. The lines of a verb must end where those of the next one begin."""
    verbs = sorted(tables.verbs, key=tables.grammar)
    begins = [tables.grammar(verb) for verb in verbs]
    for verb, begin, following in zip(verbs, begins, [*begins[1:], 0]):
        lines, end = lines_at(tables, begin)
        if begin < following < end:
            raise _Misfit
        yield from (Form(tuple(tables.verbs[verb]), line) for line in dict.fromkeys(lines))


def _lines_of_gv2(tables: _Tables, place: int) -> tuple[list[Line], int]:
    """The lines of a verb, and where they end. Each is an action, and tokens of three bytes up to the end."""
    lines: list[Line] = []
    count = tables.byte(place)
    place += 1
    for _ in range(count):
        place += 2
        tokens: list[Token] = []
        while (kind := tables.byte(place)) != END_OF_LINE:
            _add_token(tables, tokens, kind, tables.word(place + 1))
            place += 3
        place += 1
        lines.append(tuple(tokens))
    return lines, place


def _add_token(tables: _Tables, tokens: list[Token], kind: int, data: int) -> None:
    """Adds a token of GV2."""
    number = kind & 15
    if number == PREPOSITION:
        word = tables.preposition(data)
        before = tokens[-1] if tokens and kind & INSTEAD else None
        if isinstance(before, tuple):
            tokens[-1] = (*before, word)
        else:
            tokens.append((word,))
    elif number == 1 and data < len(ELEMENTARY):
        tokens.append(ELEMENTARY[data])
    elif number in ROUTINES:
        tokens.append(ROUTINES[number])
    else:
        raise _Misfit


def _lines_of_gv1(tables: _Tables, place: int) -> tuple[list[Line], int]:
    """The lines of a verb, and where they end. Each has a count of what the action needs, and six tokens."""
    count = tables.byte(place)
    begins = range(place + 1, place + 1 + LINE_OF_GV1 * count, LINE_OF_GV1)
    lines = [_line_of_gv1(tables, begin) for begin in begins]
    return lines, place + 1 + LINE_OF_GV1 * count


def _line_of_gv1(tables: _Tables, place: int) -> Line:
    """A line of GV1. Zeros follow the last token that the count asks for."""
    needed = tables.byte(place)
    tokens: list[Token] = []
    for number in (tables.byte(place + 1 + index) for index in range(TOKENS_OF_GV1)):
        if number >= FIRST_PREPOSITION_OF_GV1:
            tokens.append((tables.preposition_of_gv1(number),))
        elif needed > 0:
            tokens.append(_token_of_gv1(number))
            needed -= 1
        elif number:
            raise _Misfit
    if needed:
        raise _Misfit
    return tuple(tokens)


def _token_of_gv1(number: int) -> Token:
    if number < len(ELEMENTARY):
        return ELEMENTARY[number]
    if 16 <= number < 112:
        return ("noun", "routine", "scope")[(number - 16) // 32]
    if number >= 128:
        return "noun"
    raise _Misfit

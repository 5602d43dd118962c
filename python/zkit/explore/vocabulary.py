"""The words that a story knows, by its dictionary."""

from __future__ import annotations

import re
from dataclasses import dataclass
from enum import IntFlag

from zkit.story import Story

DIRECTIONS = (
    "n", "s", "e", "w", "ne", "nw", "se", "sw", "u", "d", "in", "out", "north", "south", "east", "west", "northeast",
    "northwest", "southeast", "southwest", "up", "down", "enter", "exit",
)
NUMBER_WORDS = (
    "one", "two", "three", "four", "five", "six", "seven", "eight", "nine", "ten", "eleven", "twelve", "thirteen",
    "fourteen", "fifteen", "sixteen", "seventeen", "eighteen", "nineteen", "twenty",
)
NUMBERS = ("0", "1", "2", "12", "100", "1000", "-1", "32767")
USUAL_VERBS = ("look", "inventory", "examine", "take", "drop", "open", "close", "push", "pull", "turn", "read")
# These end a play's input or send it elsewhere, which a walkthrough can't do.
LEFT_OUT = ("script", "noscript", "unscript", "transcript", "recording", "replay")
# These are in most texts, and name nothing.
SMALL_WORDS = ("a", "an", "the", "of", "and", "is", "are", "it", "you", "your", "to", "that", "this")

ENTRY = re.compile(r'^\d+ ([0-9a-f]+) "(.*)"$')
LENGTH = re.compile(r"^entries \d+ length (\d+)$")
WORD = re.compile(r"[^\W_]+(?:['-][^\W_]+)*")
COMPILER = re.compile(rb"\d\.\d\d")
LONGEST_LOOK = 4_000


class Inform(IntFlag):
    """Flags of a dictionary entry that Inform has written."""

    VERB = 1
    PREPOSITION = 8
    NOUN = 128


class Infocom(IntFlag):
    """Flags of a dictionary entry in Infocom's stories."""

    PREPOSITION = 8
    ADJECTIVE = 32
    VERB = 64
    NOUN = 128


@dataclass(frozen=True)
class Vocabulary:
    """Words by their kind, each in the order of the dictionary. A word may be of several kinds."""

    verbs: tuple[str, ...]
    nouns: tuple[str, ...]
    prepositions: tuple[str, ...]
    directions: tuple[str, ...]
    numbers: tuple[str, ...]
    words: tuple[str, ...]
    known: frozenset[str]  # the nouns that a text may name
    longest: int

    def sight(self, text: str) -> list[str]:
        """The nouns that occur in a text, each once."""
        longest, known = self.longest, self.known
        cut = [word[:longest] for word in WORD.findall(text[:LONGEST_LOOK].lower())]
        return [word for word in dict.fromkeys(cut) if word in known]


@dataclass(frozen=True)
class Entry:
    """A word of the dictionary, where it is, and the data that follow it."""

    address: int
    word: str
    data: bytes


def entries_of(story: Story) -> list[Entry]:
    """All entries of the dictionary."""
    content = bytes(story)
    offset = 4 if story.version == 3 else 6
    length = offset
    entries = []
    for line in story.listing("dictionary").splitlines():
        if found := LENGTH.match(line):
            length = int(found[1])
        elif found := ENTRY.match(line):
            address = int(found[1], 16)
            entries.append(Entry(address, found[2], content[address + offset:address + length]))
    return entries


def _entries(story: Story) -> list[tuple[str, int]]:
    """The words that a player may type, with their first byte of data."""
    words = [(entry.word, entry.data[0] if entry.data else 0) for entry in entries_of(story)]
    return [(word, flags) for word, flags in words if word[:1].isalpha() or word[:1] in ("#", "$")]


def _with(entries: list[tuple[str, int]], flags: int) -> tuple[str, ...]:
    return tuple(word for word, has in entries if has & flags)


def vocabulary_of(story: Story) -> Vocabulary:
    """The words of a story. Where its dictionary does not tell verbs, all words count as verbs and as nouns."""
    longest = 6 if story.version == 3 else 9
    left_out = {word[:longest] for word in LEFT_OUT}
    entries = [(word, flags) for word, flags in _entries(story) if word not in left_out]
    words = tuple(word for word, _ in entries)
    if COMPILER.fullmatch(bytes(story)[0x3C:0x40]):
        verbs, nouns = _with(entries, Inform.VERB), _with(entries, Inform.NOUN)
        prepositions = _with(entries, Inform.PREPOSITION)
    else:
        verbs, nouns = _with(entries, Infocom.VERB), _with(entries, Infocom.NOUN | Infocom.ADJECTIVE)
        prepositions = _with(entries, Infocom.PREPOSITION)
    nouns = nouns or words or ("me",)
    known = set(words)
    return Vocabulary(
        verbs=verbs or words or USUAL_VERBS,
        nouns=nouns,
        prepositions=prepositions or ("with",),
        directions=tuple(word for word in DIRECTIONS if word[:longest] in known) or DIRECTIONS[:12],
        numbers=(*NUMBERS, *(word for word in NUMBER_WORDS if word[:longest] in known)),
        words=words or nouns,
        known=frozenset(nouns).difference(SMALL_WORDS),
        longest=longest,
    )

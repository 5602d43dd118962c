"""The words that a story knows, by their kinds, for lines to try."""

from __future__ import annotations

import re
from collections.abc import Sequence
from dataclasses import dataclass

from zkit.story import Story

DIRECTIONS = (
    "north", "south", "east", "west", "northeast", "northwest", "southeast", "southwest", "up", "down", "in", "out",
)
# The verbs of this list come first, in this order, where several verbs do the same.
USUAL_VERBS = (
    "take", "drop", "open", "close", "unlock", "lock", "enter", "exit", "climb", "push", "pull", "turn", "move",
    "switch", "light", "burn", "read", "examine", "search", "wear", "remove", "eat", "drink", "give", "show", "throw",
    "put", "insert", "tie", "fill", "empty", "dig", "cut", "attack", "break", "wave", "rub", "touch", "blow", "squeeze",
    "set", "swing", "jump", "swim", "stand", "sit", "sleep", "wake", "kiss", "ask", "tell", "answer", "buy", "pray",
    "sing", "listen", "smell", "taste", "wait", "look", "inventory", "yes", "no",
)
# These speak to the interpreter or of the play, and are no actions in it.
LEFT_OUT = frozenset((
    "again", "brief", "changes", "commands", "diagnose", "full", "fullscore", "g", "i", "inv", "inventory", "l", "long",
    "look", "normal", "noscript", "notify", "objects", "oops", "places", "pronouns", "q", "quit", "record", "recording",
    "replay", "restart", "restore", "save", "score", "script", "short", "superbrief", "time", "transcript", "undo",
    "unrecord", "unscript", "verbose", "verify", "version", "wait", "z",
))
# These do nothing, or what a usual verb does: no line is tried with them, or with unusual words for the same verb.
WITHOUT_USE = frozenset((
    "bother", "carry", "damn", "disrobe", "get", "go", "hold", "leave", "pick", "sorry", "think", "transfer",
))
SMALL_WORDS = frozenset((
    "a", "above", "all", "an", "and", "another", "are", "as", "at", "below", "both", "but", "by", "can", "do", "down",
    "each", "eight", "eleven", "every", "except", "five", "for", "four", "from", "he", "her", "here", "him", "in",
    "inside", "is", "it", "nine", "of", "off", "on", "one", "or", "other", "out", "outside", "seven", "six", "some",
    "ten", "that", "the", "them", "then", "there", "this", "three", "to", "twelve", "two", "under", "up", "with",
    "you", "your",
))
ENTRY = re.compile(r'\d+ ([0-9a-f]+) "(.*)"$')
WORD = re.compile(r"[^\W_]+(?:['-][^\W_]+)*")
COMPILER = re.compile(rb"\d\.\d\d")
COMPILER_AT = 0x3C
LONGEST_LOOK = 4_000

INFORM_VERB, INFORM_META, INFORM_NOUN = 1, 2, 128
INFOCOM_VERB, INFOCOM_NOUN = 64, 128


@dataclass(frozen=True)
class Words:
    """The words of a story's dictionary.

    known    all of them
    nouns    those that may name something
    verbs    one for each verb, the usual ones first
    longest  how many letters of a word count
    """

    known: frozenset[str]
    nouns: frozenset[str]
    verbs: tuple[str, ...]
    longest: int

    def cut(self, word: str) -> str:
        """As much of a word as the dictionary keeps."""
        return word[:self.longest]

    def knows(self, word: str) -> bool:
        """Whether the dictionary has a word."""
        return self.cut(word) in self.known

    def directions(self) -> list[str]:
        """The directions that the story knows."""
        return [word for word in DIRECTIONS if self.knows(word)]

    def phrases_of(self, name: str) -> list[str]:
        """How a player may call an object with a short name: by all words of it that are known, and by the last one.

        What stands in brackets after the name is left out.
        """
        front = name.partition("(")[0].strip() or name
        known = [word for word in WORD.findall(front.lower()) if self.cut(word) in self.nouns]
        words = [word for word in known if word not in SMALL_WORDS]
        return list(dict.fromkeys([" ".join(words), *words[-1:]])) if words else []

    def in_text(self, text: str) -> list[str]:
        """The nouns that occur in a text, each once."""
        words = dict.fromkeys(WORD.findall(text[:LONGEST_LOOK].lower()))
        verbs, directions = set(self.verbs), set(DIRECTIONS)
        return [
            word for word in words
            if self.cut(word) in self.nouns and len(word) > 2
            and word not in SMALL_WORDS and word not in directions and self.cut(word) not in verbs
        ]


def words_of(story: Story) -> Words:
    """The words of a story. Where its dictionary does not tell verbs and nouns, all words count as nouns."""
    content = bytes(story)
    longest, skip = (6, 4) if story.version == 3 else (9, 6)
    is_inform = bool(COMPILER.match(content, COMPILER_AT))
    verb, noun = (INFORM_VERB, INFORM_NOUN) if is_inform else (INFOCOM_VERB, INFOCOM_NOUN)
    entries = [
        (found[2], content[int(found[1], 16) + skip:][:3].ljust(3, b"\0"))
        for found in map(ENTRY.match, story.listing("dictionary").splitlines()) if found and found[2][:1].isalpha()
    ]
    known = frozenset(word for word, _ in entries)
    nouns = frozenset(word for word, data in entries if data[0] & noun) or known
    verbs = [
        (word, data[1:2] if is_inform else data[1:3]) for word, data in entries
        if data[0] & verb and not (is_inform and data[0] & INFORM_META)
    ]
    usual = tuple(word for word in USUAL_VERBS if word[:longest] in known and word not in LEFT_OUT)
    return Words(known, nouns, _different(verbs, longest) or usual, longest)


def _different(verbs: Sequence[tuple[str, bytes]], longest: int) -> tuple[str, ...]:
    """One word for each verb, the usual ones first."""
    usual = {word[:longest]: index for index, word in enumerate(USUAL_VERBS)}
    left_out = {word[:longest] for word in (*LEFT_OUT, *DIRECTIONS)}
    found: dict[bytes, str] = {}
    for word, number in verbs:
        if word in left_out:
            continue
        other = found.get(number)
        if other is None or usual.get(word, len(usual)) < usual.get(other, len(usual)):
            found[number] = word
    without_use = {number for word, number in verbs if word in WITHOUT_USE}
    kept = [word for number, word in found.items() if word in usual or number not in without_use]
    return tuple(sorted(kept, key=lambda word: (usual.get(word, len(usual)), word)))

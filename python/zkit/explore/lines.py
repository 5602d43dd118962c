"""Lines to type, made of a story's own words."""

from __future__ import annotations

import re
from collections.abc import Iterator, Sequence

from zkit.explore.chance import Chance, Deck
from zkit.explore.grammar import Form, Token
from zkit.explore.parts import WHOLE, Part
from zkit.explore.vocabulary import USUAL_VERBS, Vocabulary

WORD = re.compile(r"[a-z']+")
KEYS = ("", "", " ", "y", "n", "q", "1", "2", "a", "x")
LONGEST_QUESTION = 200
# so many lines with nouns go by the grammar, if the story's is known, and so many nouns are "all" where several may be
BY_GRAMMAR = 0.5
SHARE_OF_ALL = 0.1


class Writer:
    """Makes lines."""

    def __init__(self, chance: Chance, vocabulary: Vocabulary, grammar: Sequence[Form] = ()) -> None:
        self._chance = chance
        known = frozenset(vocabulary.verbs)
        # a verb alone is a part of the sweep
        self._forms = Deck(chance, [form for form in grammar if form.line and known.issuperset(form.verbs)])
        self._vocabulary = vocabulary
        self._verbs = Deck(chance, vocabulary.verbs)
        usual = [verb for verb in USUAL_VERBS if verb[:vocabulary.longest] in vocabulary.verbs]
        self._usual = usual or list(vocabulary.verbs)

    def line(self, sight: list[str], text: str, before: str) -> str:
        """A line for a state with these nouns in sight, whose newest text and newest line are given."""
        chance, words = self._chance, self._vocabulary
        question = _asked(text)
        if question and chance.happens(0.5):
            return chance.pick(question)
        shape = chance.below(100)
        if 32 <= shape < 86 and self._forms and chance.happens(BY_GRAMMAR):
            return self._by_grammar(sight)
        if shape < 22:
            return chance.pick(words.directions)
        if shape < 32:
            return self._verbs.draw()
        if shape < 66:
            return f"{self._verb()} {self._noun(sight)}"
        if shape < 80:
            return f"{self._verb()} {self._noun(sight)} {chance.pick(words.prepositions)} {self._noun(sight)}"
        if shape < 86:
            return f"{self._verb()} {chance.pick(words.prepositions)} {self._noun(sight)}"
        if shape < 90:
            return f"{self._verbs.draw()} {chance.pick(words.numbers)}"
        if shape < 94:
            return f"{self._verbs.draw()} {chance.pick(words.words)}"
        if shape < 97:
            return before or self._noun(sight)
        return self._noun(sight)

    def _by_grammar(self, sight: list[str]) -> str:
        """A verb with what one line of its grammar asks for."""
        form = self._forms.draw()
        return " ".join([self._chance.pick(form.verbs), *(self._filled(token, sight) for token in form.line)])

    def _filled(self, token: Token, sight: list[str]) -> str:
        """What may be typed for a token."""
        chance, words = self._chance, self._vocabulary
        if isinstance(token, tuple):
            return chance.pick(token)
        if token == "number" or (token == "special" and chance.happens(0.5)):
            return chance.pick(words.numbers)
        if token == "topic":
            return chance.pick(words.words)
        if token.startswith("multi") and chance.happens(SHARE_OF_ALL):
            return "all"
        return self._noun(sight)

    def key(self, text: str) -> str:
        """A line of at most one character, where a story awaits a character."""
        shown = text[-LONGEST_QUESTION:].split()
        if shown and self._chance.happens(0.3):
            character = self._chance.pick(shown)[0]
            return character if character.isprintable() else ""
        return self._chance.pick(KEYS)

    def sweep(self, sight: list[str], part: Part = WHOLE) -> Iterator[str]:
        """Each verb of a part once by itself, with a number, and with a noun in sight."""
        for verb in self._chance.shuffled(self._vocabulary.verbs[part.number::part.count]):
            yield verb
            yield f"{verb} {self._chance.pick(self._vocabulary.numbers)}"
            yield f"{verb} {self._noun(sight)}"

    def _verb(self) -> str:
        return self._chance.pick(self._usual) if self._chance.happens(0.3) else self._verbs.draw()

    def _noun(self, sight: list[str]) -> str:
        nouns = self._vocabulary.nouns
        return self._chance.pick(sight if sight and self._chance.happens(0.9) else nouns)


def _asked(text: str) -> list[str]:
    """The words of a question that a text ends with: its answer is often one of them."""
    lines = text.rstrip("> \n").rsplit("\n", 1)
    last = lines[-1].strip()[-LONGEST_QUESTION:]
    if not last.endswith("?") and "yes or no" not in last:
        return []
    return ["yes", "no", *WORD.findall(last.lower())]

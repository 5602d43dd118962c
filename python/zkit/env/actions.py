"""The lines that change something where a game stands, found by trying them on clones."""

from __future__ import annotations

import contextlib
import re
from collections.abc import Iterable, Sequence
from dataclasses import dataclass
from typing import Optional

from zkit.env.figures import figures_of
from zkit.env.tree import Layout
from zkit.env.words import USUAL_VERBS, Words
from zkit.errors import ZkitError
from zkit.game import Game
from zkit.replies import Awaits, StopKind

WAIT = "wait"
# These change nothing but the parser's own memory. The last one fills its buffers.
IDLE = (
    "look", "inventory", "xqzj",
    "xqzj qjxz and xqzj from qjxz, xqzj with qjxz then xqzj qjxz on xqzj in qjxz, qjxz xqzj. xqzj to qjxz. xqzj qjxz",
)
# These write over what a line has left in the parser's memory.
LATER = ("put me in me", "examine me", "look")
# what the parsers of Inform's and Infocom's libraries answer where they don't know a word or a sentence
UNKNOWN = re.compile(
    r"\b(?:I only understood you as far as|I didn't understand|I don't understand|not a verb I recogni[sz]e"
    r"|isn't (?:one|something) I recogni[sz]e|I don't know the word|I didn't recogni[sz]e|You can't use the word"
    r"|You used the word|I beg your pardon|you excepted something|I'm not sure what|doesn't make sense"
    r"|You must supply|There was no verb|no verb in that)\b",
    re.IGNORECASE,
)
NOT_SEEN = re.compile(
    r"\b(?:You can't see any|I don't see any|no such thing|isn't here|not here|You can't use multiple objects)\b",
    re.IGNORECASE,
)
ASKS = re.compile(
    r"^[ \t]*(?:\(?What do you want to|Who(?:m)? do you want to|Which do you mean|Which .* do you mean"
    r"|Please (?:give|be)|Where do you want to|Are you sure)\b",
    re.IGNORECASE | re.MULTILINE,
)
# verbs with two things: the one that is carried, and the other
PAIRS = (
    "put {0} in {1}", "put {0} on {1}", "unlock {1} with {0}", "open {1} with {0}", "give {0} to {1}",
    "show {0} to {1}", "throw {0} at {1}", "tie {0} to {1}", "attack {1} with {0}", "light {1} with {0}",
    "cut {1} with {0}", "fill {0} with {1}", "lock {1} with {0}",
)
# These are tried with two things alone, or are looks.
NOT_FOR_ONE = frozenset((
    "answer", "ask", "consult", "examine", "fill", "give", "insert", "lock", "put", "show", "tell", "throw", "tie",
    "unlock",
))
# with what is carried alone, and with what is not; and not with what only a text names
FOR_HELD = frozenset(("drop", "wear", "remove"))
FOR_OTHERS = frozenset(("take", "enter", "exit", "climb", "sit", "stand", "swim", "kiss", "wake"))
RARE = frozenset((
    "blow", "burn", "buy", "cut", "dig", "drink", "eat", "empty", "jump", "light", "listen", "look under", "pray",
    "rub", "set", "sing", "sleep", "smell", "squeeze", "swing", "switch", "taste", "touch", "turn off", "turn on",
    "wave",
))
# verbs that make sense alone too, beside those that take no noun
ALONE = frozenset(("exit", "jump", "sleep", "stand", "swim", "wave", "listen", "climb", "dig"))
# verbs that do other things with a second word
PHRASES = ("turn on", "turn off", "look under")
EXAMINE = "examine"
# With one thing in sight, this is a second one, to tell the parser's memory from the story's. It is no action.
MYSELF = "me"
MOST_NOUNS = 10
MOST_TRIALS = 400
# Two things with the same text of so many bytes are the same thing under two names.
LONG = 60
# What so many verbs change, or lines with two different things, is the parser's own memory.
VERBS_OF_NOISE = 3
GLOBALS_BYTES = 480
# bytes of arrays with so many or fewer between two that the parser has changed are the parser's too
GAP = 16
WHOLE_BYTES = bytes([0]) + bytes([255]) * 255


@dataclass(frozen=True)
class Tried:
    """A line, with the things in it, and what it has done on a clone: its text, and the memory as a number."""

    line: str
    things: str
    text: str
    memory: int
    score: Optional[int]
    is_end: bool


class Trial:
    """Tries lines on clones of a game, at most so many, and tells those that change something."""

    def __init__(self, game: Game, layout: Layout, words: Words, most: int) -> None:
        self.game = game
        self.layout = layout
        self.words = words
        self.left = most
        self.before = self._number(game.memory)
        self.waited = self.before
        self.score = figures_of(game.reply).score
        self.done: list[Tried] = []
        first, end = layout.first, layout.first + layout.entry * layout.count
        # the bits of the object entries, and those that looking and errors change
        self.entries = (1 << 8 * end) - (1 << 8 * first)
        self.noise = 0
        # the memory after waiting and other lines
        self.later: Optional[int] = None

    def _number(self, memory: bytes) -> int:
        return int.from_bytes(memory[:self.layout.static], "little")

    def tried(self, line: str, things: str = "") -> Optional[Tried]:
        """What a line does; None where a fault or a limit stops the story, or no more may be tried."""
        if self.left <= 0:
            return None
        self.left -= 1
        with self.game.clone() as clone:
            try:
                reply = clone.send(line)
            except ZkitError:
                return None
            if reply.stopped and reply.stopped.kind is not StopKind.QUIT:
                return None
            score = figures_of(reply).score
            return Tried(line, things, reply.text, self._number(clone.memory), score, reply.stopped is not None)

    def idle(self) -> None:
        """Learns what changes where nothing is done, and where time goes by."""
        for line in IDLE:
            if tried := self.tried(line):
                self.noise |= tried.memory ^ self.before
        if waited := self.tried(WAIT):
            self.waited = waited.memory
            self.noise |= (waited.memory ^ self.before) & ~self.entries

    def note(self, line: str, things: str = "") -> bool:
        """Tries a line. Whether the parser knows such a sentence."""
        tried = self.tried(line, things)
        if tried is None:
            return True
        if not is_refused(tried.text):
            self.done.append(tried)
        return not UNKNOWN.search(tried.text)

    def valid(self) -> list[str]:
        """The lines that change something, and something else than waiting: the first one of those that do the same."""
        self._learn()
        kept = ~self._mask()
        before = (self.before & kept, self.score, False)
        waited = (self.waited & kept, self.score, False)
        found: dict[tuple[int, Optional[int], bool], Optional[str]] = {before: None, waited: None}
        for tried in self.done:
            score = self.score if tried.score is None else tried.score
            left = (tried.memory & kept, score, tried.is_end)
            if left not in found and tried.things != MYSELF:
                is_sure = left[1:] != before[1:] or (left[0] ^ before[0]) & self.entries
                found[left] = tried.line if is_sure or self._lasts(tried.line, kept) else None
        return [line for line in found.values() if line]

    def _lasts(self, line: str, kept: int) -> bool:
        """Whether what a line changes, apart from objects, is still there after other lines, as a parser's is not."""
        kept &= ~self.entries
        if self.later is None:
            self.later = self._after(WAIT)
        return (self._after(line) ^ self.later) & kept != 0

    def _after(self, line: str) -> int:
        """The memory after a line and others that do nothing."""
        with self.game.clone() as clone:
            for each in (line, *LATER):
                if clone.reply.awaits is Awaits.LINE:
                    with contextlib.suppress(ZkitError):
                        clone.send(each)
            return self._number(clone.memory)

    def _learn(self) -> None:
        """Takes for the parser's what different verbs or different things change, apart from objects."""
        by_things: dict[str, int] = {}
        by_verb: dict[str, int] = {}
        for tried in self.done:
            changed = self._bytes((tried.memory ^ self.before) & ~self.entries)
            verb = tried.line.partition(" ")[0]
            by_things[tried.things] = by_things.get(tried.things, 0) | changed
            by_verb[verb] = by_verb.get(verb, 0) | changed
        self.noise |= _shared(by_things.values(), 2) | _shared(by_verb.values(), VERBS_OF_NOISE)

    def _bytes(self, changed: int) -> int:
        """Some bits, and all others of their bytes."""
        return int.from_bytes(changed.to_bytes(self.layout.static, "little").translate(WHOLE_BYTES), "little")

    def _mask(self) -> int:
        """What is learned, and with it whole global variables, and what lies close together in arrays."""
        begin, static = self.layout.globals, self.layout.static
        end = min(begin + GLOBALS_BYTES, static)
        spread = bytearray(static)
        last = end
        noise = (self.noise & ~self.entries).to_bytes(static, "little")
        for address in [address for address, byte in enumerate(noise) if byte]:
            first, stop = address, address + 1
            if begin <= address < end:
                first -= (address - begin) % 2
                stop = first + 2
            elif address >= end and address - last <= GAP:
                first = last
            spread[first:stop] = b"\xff" * (stop - first)
            last = max(address, end)
        return int.from_bytes(spread, "little") & ~self.entries | self.noise & self.entries


def _shared(masks: Iterable[int], least: int) -> int:
    """The bits that so many of some numbers have."""
    counts = [0] * least
    for mask in masks:
        for index in range(least - 1, 0, -1):
            counts[index] |= counts[index - 1] & mask
        counts[0] |= mask
    return counts[-1]


def is_refused(text: str) -> bool:
    """Whether a text is that of a parser that does not know or find something, or asks for more."""
    return bool(UNKNOWN.search(text) or NOT_SEEN.search(text) or ASKS.search(text))


@dataclass(frozen=True)
class Sight:
    """How the things in sight may be called: those that are carried, those that are there, and what a text names."""

    held: Sequence[Sequence[str]]
    near: Sequence[Sequence[str]]
    named: Sequence[str]


def valid_actions(trial: Trial, sight: Sight) -> list[str]:
    """The lines that change something, the first one of those that do the same."""
    trial.idle()
    for direction in trial.words.directions():
        trial.note(direction, direction)
    seen = _Seen(trial)
    held = seen.found(sight.held)
    near = seen.found(sight.near)
    named = seen.found([[word] for word in sight.named])
    for noun in near[:1]:
        # these may take it first, without effect, and show which memory that uses
        trial.note(f"wear {noun}", MYSELF)
        trial.note(f"give {noun} to {MYSELF}", MYSELF)
    _try_verbs(trial, held, near, named)
    _try_pairs(trial, held, held + near + named)
    return trial.valid()


class _Seen:
    """Looks at things, so that each is tried by one name that the parser knows."""

    def __init__(self, trial: Trial) -> None:
        self.trial = trial
        self.texts: set[str] = set()
        self.words: set[str] = set()
        self.left = MOST_NOUNS

    def found(self, phrases: Sequence[Sequence[str]]) -> list[str]:
        """The nouns that the parser finds, one for each thing."""
        return [noun for noun in map(self._noun, phrases) if noun]

    def _noun(self, names: Sequence[str]) -> str:
        """The first name that the parser finds; nothing if it finds none, or a thing that was found already."""
        if self.left <= 0 or self.words.issuperset(" ".join(names).split()):
            return ""
        for noun in names:
            tried = self.trial.tried(f"{EXAMINE} {noun}", noun)
            if tried is None or is_refused(tried.text):
                continue
            if len(tried.text) >= LONG and tried.text in self.texts:
                return ""
            self.trial.done.append(tried)
            self.texts.add(tried.text)
            self.words.update(noun.split())
            self.left -= 1
            return noun
        return ""


def _try_verbs(trial: Trial, held: list[str], near: list[str], named: list[str]) -> None:
    """Tries each verb with the things for it, as long as the parser knows the sentence, and else alone."""
    for verb in (*trial.words.verbs, *PHRASES):
        if verb in NOT_FOR_ONE or not trial.words.knows(verb.partition(" ")[0]):
            continue
        nouns = _nouns_for(verb, held, near, named)
        takes_nouns = all(trial.note(f"{verb} {noun}", noun) for noun in nouns)
        if takes_nouns and len(nouns) == 1:
            trial.note(f"{verb} {MYSELF}", MYSELF)
        if not takes_nouns or verb in ALONE or not nouns and verb not in USUAL_VERBS:
            trial.note(verb)


def _nouns_for(verb: str, held: list[str], near: list[str], named: list[str]) -> list[str]:
    """The things that a verb is tried with."""
    if verb in FOR_HELD:
        return held
    if verb in FOR_OTHERS:
        return near + named
    return held + near if verb in RARE else held + near + named


def _try_pairs(trial: Trial, held: list[str], nouns: list[str]) -> None:
    """Tries verbs with a thing that is carried and another one, as long as the parser knows the sentence."""
    for form in PAIRS:
        if trial.words.knows(form.partition(" ")[0]):
            pairs = [(one, other) for one in held for other in nouns if one != other]
            all(trial.note(form.format(one, other), f"{one}, {other}") for one, other in pairs)

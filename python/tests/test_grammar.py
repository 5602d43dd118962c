"""The grammar lines of stories by Inform 6, in both of its forms, and the lines that are typed by them."""

from __future__ import annotations

import random
import re
import shutil
import subprocess
import tempfile
import unittest
from pathlib import Path

from helping import EXAMPLES, GAMES, example, small
from zkit import Story, StoryError
from zkit.explore.chance import Chance
from zkit.explore.grammar import Form, Line, grammar_of
from zkit.explore.lines import Writer
from zkit.explore.vocabulary import vocabulary_of

SOURCE = """Constant Grammar__Version = 2;
Array line -> 60;
[ TakeSub; ]; [ PokeSub; ]; [ DialSub; ]; [ AskSub; ]; [ IsRed; rtrue; ]; [ Parse; rtrue; ]; [ Near; rtrue; ];
Attribute light;
Verb 'take' 'get' * multi -> Take * multi 'from'/'off' noun -> Take;
Verb 'poke' * -> Poke * noun=IsRed 'with' held -> Poke * light -> Poke * Parse -> Poke * scope=Near -> Poke;
Verb 'dial' * number 'for' special -> Dial;
Verb 'ask' * creature 'about' topic -> Ask * 'script' 'on' -> Ask;
Verb 'script' * noun -> Ask;
[ Main; while (1) { line->0 = 58; read line 0; } ];
"""
WANTED = [
    Form(("get", "take"), ("multi",)),
    Form(("get", "take"), ("multi", ("from", "off"), "noun")),
    Form(("poke",), ()),
    Form(("poke",), ("noun", ("with",), "held")),
    Form(("poke",), ("noun",)),
    Form(("poke",), ("routine",)),
    Form(("poke",), ("scope",)),
    Form(("dial",), ("number", ("for",), "special")),
    Form(("ask",), ("creature", ("about",), "topic")),
    Form(("ask",), (("script",), ("on",))),
    Form(("script",), ("noun",)),
]
THING = r"(?:get|take|from|off|poke|with|dial|for|ask|about|on|about)"
TYPED = re.compile(
    rf"(?:get|take) (?:all|{THING})(?: (?:from|off) {THING})?|poke {THING}(?: with {THING})?"
    rf"|dial (?:-?\d+) for (?:-?\d+|{THING})|ask {THING} about {THING}|ask script on"
)


class Grammar(unittest.TestCase):
    """Small stories of the compiler."""

    def compiled(self, source: str, *options: str) -> Story:
        if not shutil.which("inform6"):
            self.skipTest("there is no command inform6: grammar lines")
        with tempfile.TemporaryDirectory() as folder:
            path = Path(folder) / "verbs.inf"
            path.write_text(source, "utf-8")
            command = ["inform6", *options, path.name, "story"]
            subprocess.run(command, cwd=folder, stdout=subprocess.PIPE, check=True)
            return Story(Path(folder) / "story")

    def test_newer(self) -> None:
        for version in (3, 5, 8):
            self.assertEqual(grammar_of(self.compiled(SOURCE, f"-v{version}")), WANTED)

    def test_older(self) -> None:
        source = SOURCE.replace("Version = 2", "Version = 1").replace("/'off'", "").replace("topic", "special")
        older = [str(form).replace("('from', 'off')", "('from',)").replace("'topic'", "'special'") for form in WANTED]
        self.assertEqual(list(map(str, grammar_of(self.compiled(source, "-v5")))), older)

    def test_typed(self) -> None:
        story = self.compiled(SOURCE, "-v5")
        vocabulary = vocabulary_of(story)
        self.assertNotIn("script", vocabulary.verbs)
        with_grammar = Writer(Chance(1), vocabulary, grammar_of(story))
        without = Writer(Chance(1), vocabulary)

        def share(writer: Writer) -> int:
            return sum(TYPED.fullmatch(writer.line(["poke"], "", "")) is not None for _ in range(1_000))

        self.assertGreater(share(with_grammar), share(without) + 60)
        lines = [with_grammar.line(["take"], "", "") for _ in range(1_000)]
        self.assertTrue({"get all", "ask script on"} & set(lines) or "take all" in lines)
        self.assertFalse([line for line in lines if line.startswith("script ")])

    def test_none(self) -> None:
        self.assertEqual(grammar_of(example("lighthouse.z5")), [])
        for name in ("keys.z5", "held.z5", "loop.z3"):
            self.assertEqual(grammar_of(small(name)), [])

    def test_damaged(self) -> None:
        # a story whose tables are damaged gives some lines or none
        content = bytes(self.compiled(SOURCE, "-v5"))
        pick = random.Random(1)
        base = int.from_bytes(content[0x0E:0x10], "big")
        counts = set()
        for _ in range(300):
            damaged = bytearray(content)
            for _ in range(pick.choice((1, 3, 20))):
                place = pick.choice((0x0E, 0x0F, pick.randrange(base, base + 160)))
                damaged[place] = pick.randrange(256)
            try:
                counts.add(len(grammar_of(Story(bytes(damaged)))))
            except StoryError:
                continue
        self.assertIn(0, counts)
        self.assertGreater(len(counts), 2)


@unittest.skipUnless(GAMES.is_dir(), "ZKIT_STORIES names no folder with games: their grammar")
class Games(unittest.TestCase):
    """Games with Inform's library."""

    def test_games(self) -> None:
        throw = ("held", ("at", "against", "on", "onto"), "noun")
        wanted: dict[str, list[tuple[tuple[str, ...], Line]]] = {
            "toyshop-6126.z5": [(("showverb",), ("special",)), (("unlock",), ("noun", ("with",), "held"))],
            "balances-6126.z8": [
                (("cast",), ("noun", ("on",), "noun")), (("learn", "memorise", "memorize"), ("scope",)),
                (("ask",), ("creature", ("about",), "topic")),
            ],
            "adventureland-611.z5": [(("discard", "drop", "throw"), throw), (("inventory", "i"), (("tall",),))],
        }
        for name, forms in wanted.items():
            grammar = grammar_of(Story(GAMES / name))
            found = {(verb, form.line) for form in grammar for verb in form.verbs}
            for verbs, line in forms:
                with self.subTest(f"{name} {verbs[0]}"):
                    self.assertIn((verbs[0], line), found)
            known = vocabulary_of(Story(GAMES / name)).verbs
            self.assertLessEqual(set(known), {verb for form in grammar for verb in form.verbs})


class Examples(unittest.TestCase):
    """All examples: none raises."""

    def test_examples(self) -> None:
        for path in sorted(EXAMPLES.glob("*.z[3458]")):
            self.assertIsInstance(grammar_of(Story(path)), list)

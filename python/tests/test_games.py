"""Games: replies, answers, options, stops, errors, and the same text as `zkit play`."""

from __future__ import annotations

import copy
import pickle
import signal
import time
import unittest
from collections.abc import Callable
from typing import Any
from unittest import mock

from helping import EXAMPLES, LINES, TOP, example, large, play, shown, small, whole
from zkit import (
    Awaits, Closed, Game, Key, NotAwaited, NothingToUndo, OutOfMemory, Status, Stop, StopKind, Story, TooMuchText,
    ZkitError, _library,
)


Call = Callable[[], object]


class Raising(unittest.TestCase):
    """A test that calls raise an error."""

    def all_raise(self, error: type[Exception], calls: list[Call], words: str = "") -> None:
        for call in calls:
            with self.assertRaises(error) as raised:
                call()
            self.assertIn(words, str(raised.exception))


class AsTheProgram(unittest.TestCase):
    """A play shows what `zkit play` does."""

    def test_walkthroughs(self) -> None:
        for version in (3, 4, 5, 8):
            name = f"lighthouse.z{version}"
            wanted = (EXAMPLES / f"{name}.txt").read_text("utf-8")
            self.assertEqual(whole(example(name), LINES), wanted)
            self.assertEqual(shown(EXAMPLES / name, LINES), wanted)

    def test_other_stories(self) -> None:
        for name in ("hello.z3", "streams.z5", "box.z5"):
            self.assertEqual(whole(example(name), LINES[:5]), shown(EXAMPLES / name, LINES[:5]))
        menu = TOP / "web/page_tests/menu.z5"
        lines = ["roll", "roll", "menu", "a", "b", "", "print", "roll"]
        self.assertEqual(whole(Story(menu), lines), shown(menu, lines))

    def test_options(self) -> None:
        menu = TOP / "web/page_tests/menu.z5"
        rolls = ["roll"] * 10
        self.assertEqual(whole(Story(menu), rolls, seed=77), shown(menu, rolls, "--seed", "77"))
        self.assertNotEqual(whole(Story(menu), rolls, seed=77), whole(Story(menu), rolls, seed=78))
        for version in (3, 5):
            path = EXAMPLES / f"lighthouse.z{version}"
            self.assertEqual(whole(Story(path), LINES, upper=True), shown(path, LINES, "--upper"))

    def test_saves(self) -> None:
        lines = (EXAMPLES / "lighthouse.saves").read_text("utf-8").splitlines()
        for version in (3, 4, 5, 8):
            name = f"lighthouse.z{version}"
            self.assertEqual(whole(example(name), lines), (EXAMPLES / f"{name}.saves.txt").read_text("utf-8"))


class Replies(unittest.TestCase):
    """What a reply tells."""

    def test_status_of_version_3(self) -> None:
        with Game(example("lighthouse.z3")) as game:
            self.assertEqual(game.reply.status, Status("Jetty", score=0, turns=0))
            game.send("open bag")
            self.assertEqual(game.send("north").status, Status("Shore Path", score=0, turns=2))
        timed = bytearray(bytes(example("lighthouse.z3")))
        timed[1] |= 2
        with Game(Story(bytes(timed))) as game:
            self.assertEqual(game.send("north").status, Status("Shore Path", hours=0, minutes=1))
        with Game(example("lighthouse.z5")) as game:
            self.assertIsNone(game.reply.status)

    def test_upper(self) -> None:
        with Game(example("lighthouse.z5")) as game:
            self.assertEqual(game.reply.upper[0].split(), "Jetty Score: 0 Turns: 0".split())
        with Game(example("lighthouse.z5"), columns=30) as game:
            self.assertLessEqual(max(map(len, game.reply.upper)), 30)

    def test_box(self) -> None:
        with Game(example("box.z5")) as game:
            self.assertGreater(len(game.reply.upper), 5)
            self.assertIn("city of woe", "".join(game.reply.upper))
            self.assertEqual(len(game.send("look").upper), 1)

    def test_transcript(self) -> None:
        with Game(small("says.z3")) as game:
            self.assertEqual((game.transcript, game.reply.text), ("hi", "hihi"))

    def test_newest(self) -> None:
        with Game(example("lighthouse.z5")) as game:
            self.assertIs(game.send("look"), game.reply)
            self.assertIs(game.go_on(), game.reply)
            self.assertEqual(repr(game), f"<Game of {game.story!r}: awaits a line>")


class Answers(Raising):
    """Lines and keys."""

    def test_lines(self) -> None:
        with Game(example("lighthouse.z5")) as game:
            for line in ("", "x CAFÉ", "x \U0001F600", "x \ud800", "x" * 65_535, "x\tbag"):
                self.assertIs(game.send(line).awaits, Awaits.LINE)
            for line in ("two\nlines", "x" * 65_536, "look\n"):
                before = game.reply
                with self.assertRaises(ValueError):
                    game.send(line)
                self.assertIs(game.reply, before)
            self.assertIn("Jetty", game.send("look").text)

    def test_mark(self) -> None:
        # a byte order mark at the start is a character without a code, as anywhere else
        for version, first in ((3, 0x81), (5, 0x82), (8, 0x82)):
            with Game(small(f"reads.z{version}")) as game:
                game.send("\ufefflook")
                self.assertEqual(game.memory[first:first + 5], b"?look")

    def test_keys(self) -> None:
        with Game(small("keys.z5")) as game:
            for key in Key:
                self.assertEqual(game.send_key(key).text, str(key.value))
            for character, code in (("a", 97), ("é", 170), ("\n", 13), ("\r", 13), ("\t", 32), ("\U0001F600", 63)):
                self.assertEqual(game.send_key(character).text, str(code))
            for wrong in ("", "ab"):
                with self.assertRaises(ValueError):
                    game.send_key(wrong)
            with self.assertRaises(NotAwaited) as raised:
                game.send("look")
            self.assertEqual(str(raised.exception), "the story awaits a character, not a line")

    def test_not_awaited(self) -> None:
        with Game(example("lighthouse.z5")) as game:
            self.all_raise(NotAwaited, [
                lambda: game.send_key("a"), game.image, lambda: game.keep(True), lambda: game.restore(None)
            ])
            self.assertIn("Jetty", game.send("look").text)
        with Game(example("hello.z3")) as game:
            self.assertIs(game.reply.awaits, Awaits.NOTHING)
            calls: list[Call] = [
                lambda: game.send("look"), lambda: game.send_key("a"), game.undo, game.snapshot, game.clone
            ]
            self.all_raise(NotAwaited, calls, "awaits nothing")

    def test_undo(self) -> None:
        with Game(example("lighthouse.z5")) as game:
            with self.assertRaises(NothingToUndo):
                game.undo()
            for line in ("undo on", "open bag", "take letter"):
                game.send(line)
            self.assertIn("letter", game.send("inventory").text)
            for _ in range(3):
                game.undo()
            self.assertIn("(closed)", game.send("inventory").text)


class Options(unittest.TestCase):
    """Numbers out of their ranges, and what is no story."""

    def open(self, story: Any, **options: Any) -> Game:
        return Game(story, **options)

    def test_no_story(self) -> None:
        for wrong in ("examples/lighthouse.z5", bytes(example("lighthouse.z5")), None):
            with self.assertRaises(TypeError) as raised:
                self.open(wrong)
            self.assertIn("from a Story, not from", str(raised.exception))

    def test_ranges(self) -> None:
        story = example("lighthouse.z5")
        ranges = {
            "seed": (0, 2**64 - 1), "frames": (1, 65_535), "words": (0, 65_535), "undo": (0, 64),
            "steps": (1, 10**9), "columns": (20, 255), "text": (1, 2**63 - 1),
        }
        for name, (least, most) in ranges.items():
            for wrong in (least - 1, most + 1, 2**32 + least, -(2**40)):
                if least <= wrong <= most:
                    continue
                with self.assertRaises(ValueError, msg=f"{name} {wrong}"):
                    self.open(story, **{name: wrong})
            with self.assertRaises(TypeError):
                self.open(story, **{name: 1.5})
            for right in (least, most):
                if (name, right) != ("text", 1):
                    self.open(story, **{name: right}).close()


class Stops(Raising):
    """Faults, limits and endless text."""

    def stop(self, story: Story, **options: Any) -> Stop:
        with Game(story, **options) as game:
            self.assertIs(game.reply.awaits, Awaits.NOTHING)
            assert game.reply.stopped
            return game.reply.stopped

    def test_kinds(self) -> None:
        self.assertEqual(self.stop(example("hello.z3")), Stop(StopKind.QUIT, 0, 0, "the story has ended"))
        self.assertEqual(self.stop(small("fault.z5")), Stop(StopKind.FAULT, 8, 0x40, "division by zero"))
        for name, number in (("calls.z3", 1), ("pushes.z3", 2), ("loop.z3", 3), ("endless.z3", 3)):
            stop = self.stop(small(name), steps=100_000)
            self.assertEqual((stop.kind, stop.number), (StopKind.LIMIT, number))

    def test_text_before_a_stop(self) -> None:
        with Game(small("endless.z3"), steps=4_000_000) as game:
            self.assertEqual(game.reply.text, "x" * 2_000_000)

    def test_too_much_text(self) -> None:
        with self.assertRaises(TooMuchText):
            Game(small("endless.z3"), text=1_000)
        with self.assertRaises(TooMuchText):
            Game(large("gigabyte.z5"))
        opening = whole(example("lighthouse.z5"), [])
        exact = len(opening.encode())
        self.assertEqual(whole(example("lighthouse.z5"), [], text=exact), opening)
        with self.assertRaises(TooMuchText):
            Game(example("lighthouse.z5"), text=exact - 1)

    def test_go_on(self) -> None:
        line = ". ".join(["look"] * 20)
        wanted = whole(example("lighthouse.z5"), [line, "north"])
        with Game(example("lighthouse.z5"), text=700) as game:
            texts = [game.reply.text]
            with self.assertRaises(TooMuchText):
                game.send(line)
            self.all_raise(NotAwaited, [lambda: game.send("look"), game.snapshot, game.undo], "go_on")
            with self.assertRaises(TooMuchText):
                game.go_on()
            texts.append(game.go_on().text)
            texts.append(game.send("north").text)
        self.assertEqual("".join(texts), wanted)

    def test_memory(self) -> None:
        def returning(*numbers: object) -> Any:
            return mock.patch.object(_library, "turn_for", wraps=_library.turn_for, side_effect=numbers)

        with Game(example("lighthouse.z5")) as game:
            with returning(_library.MEMORY, _library.MEMORY), self.assertRaises(OutOfMemory):
                game.send("north")
            self.assertIn("Shore Path", game.go_on().text)
            with returning(_library.MEMORY, mock.DEFAULT):
                self.assertIn("Jetty", game.send("south").text)

    def test_interrupted(self) -> None:
        def stop(*_: object) -> None:
            raise KeyboardInterrupt

        before = signal.signal(signal.SIGALRM, stop)
        try:
            with Game(Story(TOP / "web/page_tests/menu.z5"), steps=1_000_000_000) as game:
                signal.setitimer(signal.ITIMER_REAL, 0.05)
                begin = time.process_time()
                with self.assertRaises(KeyboardInterrupt):
                    game.send("turn")
                self.assertLess(time.process_time() - begin, 2)
                with self.assertRaises(NotAwaited):
                    game.send("look")
        finally:
            signal.signal(signal.SIGALRM, before)


class Closing(Raising):
    """Games that are closed."""

    def test_closed(self) -> None:
        with Game(example("lighthouse.z5")) as game:
            reply = game.send("look")
        game.close()
        self.all_raise(Closed, [
            lambda: game.send("look"), lambda: game.send_key("a"), game.go_on, game.undo, game.image, game.snapshot,
            lambda: game.snapshot(undo=True), game.clone, lambda: game.keep(True), lambda: game.restore(None),
            lambda: game.restore(b""), lambda: game.reseed(1), lambda: game.place, lambda: game.calls,
            lambda: game.memory, lambda: game.word(0), lambda: game.hash(), lambda: game.coverage,
            lambda: game.objects[1], lambda: len(game.objects),
        ])
        self.assertIs(game.reply, reply)
        self.assertIn("closed", repr(game))

    def test_in_a_signal_handler(self) -> None:
        before = signal.getsignal(signal.SIGALRM)
        try:
            for name in ("close", "go_on"):
                with Game(Story(TOP / "web/page_tests/menu.z5"), steps=1_000_000_000) as game:
                    signal.signal(signal.SIGALRM, lambda *_: getattr(game, name)())
                    signal.setitimer(signal.ITIMER_REAL, 0.05)
                    self.all_raise(ZkitError, [lambda: game.send("turn")], "this thread uses the game already")
        finally:
            signal.signal(signal.SIGALRM, before)

    def test_copies(self) -> None:
        with Game(example("lighthouse.z5")) as game:
            self.all_raise(
                TypeError, [lambda: copy.copy(game), lambda: copy.deepcopy(game), lambda: pickle.dumps(game)]
            )

    def test_play_after_with(self) -> None:
        game = Game(example("lighthouse.z5"))
        self.assertIn("Shore Path", play(game, ["north"]))
        game.close()

"""Saved games, snapshots and clones."""

from __future__ import annotations

import random
import unittest
from typing import Any

from helping import EXAMPLES, LINES, TOP, answer, example, play, small, whole
from zkit import Awaits, Game, Key, NothingToUndo, SnapshotError, Story, TooMuchText


class Saves(unittest.TestCase):
    """Saved games, kept here or by the caller."""

    def test_slot(self) -> None:
        with Game(example("lighthouse.z5")) as game:
            self.assertIn("could not", game.send("restore").text)
            play(game, ["open bag", "take letter", "save"])
            saved = game.saved
            assert saved
            play(game, ["drop letter", "north", "restore"])
            self.assertIn("a letter", game.send("inventory").text)
        with Game(example("lighthouse.z5")) as game:
            game.saved = saved
            play(game, ["restore"])
            self.assertIn("a letter", game.send("inventory").text)
            game.saved = None
            self.assertIn("could not", game.send("restore").text)
            game.saved = b"no saved game"
            self.assertIn("could not", game.send("restore").text)

    def test_upper_after_a_restore(self) -> None:
        with Game(example("lighthouse.z5")) as game:
            play(game, ["save", "north"])
            self.assertIn("Jetty", game.send("restore").upper[0])
        with Game(small("window.z5")) as game:
            self.assertEqual(game.reply.upper, ("",))
            self.assertEqual([game.send_key("a").upper for _ in range(3)], [("",)] * 3)
        with Game(small("window.z3")) as game:
            self.assertEqual(game.reply.upper, ("", "", ""))
            game.send("")
            self.assertEqual(game.send("").upper, ())

    def test_by_the_caller(self) -> None:
        with Game(example("lighthouse.z5"), saves=False) as game:
            play(game, ["open bag", "take letter"])
            self.assertIs(game.send("save").awaits, Awaits.SAVE)
            file = game.image()
            self.assertEqual(file, game.image())
            self.assertIn("Done", game.keep(True).text)
            game.send("save")
            self.assertIn("could not", game.keep(False).text)
            game.send("drop letter")
            self.assertIs(game.send("restore").awaits, Awaits.RESTORE)
            self.assertIn("could not", game.restore(None).text)
            game.send("restore")
            self.assertIn("could not", game.restore(file[:-1]).text)
            game.send("restore")
            game.restore(file)
            self.assertIn("a letter", game.send("inventory").text)
            self.assertIsNone(game.saved)

    def test_of_another_interpreter(self) -> None:
        for version in (3, 4, 5, 8):
            with Game(example(f"lighthouse.z{version}")) as game:
                game.saved = (EXAMPLES / f"lighthouse.z{version}.dfrotz").read_bytes()
                game.send("restore")
                self.assertIn("Shore Path", game.send("look").text)

    def test_without_end(self) -> None:
        with Game(small("saves.z4")) as game:
            self.assertIs(game.reply.awaits, Awaits.SAVE)
            self.assertIs(game.keep(True).awaits, Awaits.SAVE)
        with Game(small("restores.z4")) as game:
            self.assertIs(game.reply.awaits, Awaits.RESTORE)


class Snapshots(unittest.TestCase):
    """Snapshots go on as the game would, and refuse what is none."""

    def test_each_turn(self) -> None:
        for version in (3, 4, 5, 8):
            story = example(f"lighthouse.z{version}")
            game = Game(story)
            texts = [game.reply.text]
            for line in ["undo on", *LINES[:40]]:
                snapshot = game.snapshot(undo=True)
                before = game.reply
                game.close()
                game = Game.from_snapshot(story, snapshot)
                self.assertEqual(game.reply.text, "")
                self.assertEqual((game.reply.awaits, game.reply.status), (before.awaits, before.status))
                self.assertEqual(game.reply.upper, before.upper)
                texts.append(answer(game, line).text)
            game.close()
            self.assertEqual("".join(texts), whole(story, ["undo on", *LINES[:40]]))

    def test_undo_states(self) -> None:
        story = example("lighthouse.z5")
        with Game(story) as game:
            play(game, ["undo on", "open bag", "take letter"])
            for undo, words in ((True, "taken back"), (False, "There is no")):
                with Game.from_snapshot(story, game.snapshot(undo=undo)) as other:
                    text = other.send("undo").text
                    self.assertEqual("Jetty" in text, undo, text)
            play(game, ["look"] * 20)
            with Game.from_snapshot(story, game.snapshot(undo=True)) as other:
                self.assertEqual(other.place.states, 16)

    def test_refused(self) -> None:
        story = example("lighthouse.z5")
        with Game(story) as game:
            snapshot = game.snapshot()
        for wrong, words in (
            (b"", "no snapshot"), (b"x" * 1000, "no snapshot"), (snapshot[:-1], "damaged"),
            (snapshot[:200] + bytes([snapshot[200] ^ 1]) + snapshot[201:], "damaged"),
        ):
            with self.assertRaises(SnapshotError) as raised:
                Game.from_snapshot(story, wrong)
            self.assertIn(words, str(raised.exception))
        with self.assertRaises(SnapshotError) as raised:
            Game.from_snapshot(example("lighthouse.z3"), snapshot)
        self.assertIn("another story", str(raised.exception))
        for name, least in (("frames", 1), ("words", 0), ("undo", 0), ("steps", 1)):
            most: dict[str, Any] = {name: least}
            with self.assertRaises(SnapshotError):
                Game.from_snapshot(story, snapshot, **most)
            most[name] = -1
            with self.assertRaises(ValueError):
                Game.from_snapshot(story, snapshot, **most)

    def test_limits(self) -> None:
        menu = Story(TOP / "web/page_tests/menu.z5")
        with Game(menu, steps=50_000) as game:
            snapshot = game.snapshot()
        with Game.from_snapshot(menu, snapshot) as game:
            stop = game.send("turn").stopped
            self.assertEqual(stop and stop.number, 3)


class Clones(unittest.TestCase):
    """A clone and its original never meet."""

    def test_alone(self) -> None:
        chance = random.Random(7)
        dice = Story(TOP / "web/page_tests/menu.z5")
        walked = ["undo on", "undo", "save", "restore", *LINES[:60]]
        for story, typed in (
            (example("lighthouse.z5"), walked), (example("lighthouse.z3"), walked), (dice, ["roll", "menu", "a", ""])
        ):
            games: list[tuple[Game, list[str], str]] = []
            for _ in range(300):
                alive = [index for index, (game, _, _) in enumerate(games) if game.reply.awaits is not Awaits.NOTHING]
                if not alive:
                    alive = [len(games)]
                    games.append((Game(story), [], whole(story, [])))
                index = chance.choice(alive)
                game, lines, text = games[index]
                if len(games) < 20 and chance.random() < 0.2:
                    games.append((game.clone(), lines, text))
                line = chance.choice(typed)
                games[index] = (game, [*lines, line], text + answer(game, line).text)
            self.assertGreater(len(games), 10)
            for game, lines, text in games:
                self.assertEqual(whole(story, lines), text)
                game.close()

    def test_whole(self) -> None:
        with Game(example("lighthouse.z5"), seed=5) as game:
            play(game, ["undo on", "open bag", "save", "take letter"])
            with game.clone() as other:
                self.assertIs(other.reply, game.reply)
                self.assertEqual(other.saved, game.saved)
                self.assertEqual(other.snapshot(undo=True), game.snapshot(undo=True))
                game.saved = None
                self.assertIsNotNone(other.saved)
                other.undo()
                self.assertIn("a letter", game.send("inventory").text)

    def test_undo_states(self) -> None:
        with Game(example("lighthouse.z5")) as game:
            play(game, ["undo on", *["look"] * 20])
            with game.clone() as other:
                for either in (game, other):
                    for _ in range(16):
                        either.undo()
                    with self.assertRaises(NothingToUndo):
                        either.undo()

    def test_options(self) -> None:
        with Game(example("lighthouse.z5"), saves=False, text=1_000) as game, game.clone() as other:
            with self.assertRaises(TooMuchText):
                other.send(". ".join(["look"] * 20))
            other.go_on()
            self.assertIs(other.send("save").awaits, Awaits.SAVE)
        with Game(small("keys.z5")) as game, game.clone() as other:
            self.assertEqual(other.send_key(Key.UP).text, "129")

    def test_transcript(self) -> None:
        with Game(small("script.z5")) as game, game.clone() as other:
            other.send_key("a")
            self.assertEqual((game.transcript, other.transcript), ("hi", "hihi"))

    def test_after_its_original(self) -> None:
        game = Game(example("lighthouse.z5"))
        other = game.clone()
        game.close()
        self.assertIn("Shore Path", other.send("north").text)
        other.close()

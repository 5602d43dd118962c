"""Environments: steps, figures, players, places and valid actions of several stories."""

from __future__ import annotations

import random
import time
import unittest
from typing import Optional

from helping import GAMES, LINES, STORIES, TOP, example, small
from test_docs import members
from zkit import Awaits, Closed, NotAwaited, NotThere
from zkit.env import Environment, State, figures
from zkit.replies import Reply

CELLAR = STORIES / "cellar.z3"
VERSIONS = (3, 4, 5, 8)


def environment(version: int = 5, seed: int = 1) -> Environment:
    """The lighthouse."""
    return Environment(example(f"lighthouse.z{version}"), seed)


def name_of(env: Environment) -> Optional[str]:
    """The name of the place."""
    place = env.get_player_location()
    return place.name if place else None


class Steps(unittest.TestCase):
    """The interface of Gymnasium."""

    def test_walkthrough(self) -> None:
        for version in VERSIONS:
            with environment(version) as env:
                rewards, last = 0.0, False
                for line in LINES:
                    if env.game.reply.awaits is Awaits.NOTHING:
                        break
                    _, reward, last, truncated, info = env.step(line)
                    rewards += reward
                    self.assertFalse(truncated)
                self.assertEqual((rewards, env.get_score(), info["score"], env.get_max_score()), (50, 50, 50, 60))
                self.assertTrue(last)
                self.assertTrue(env.game_over())
                self.assertEqual(env.get_valid_actions(), [])
                with self.assertRaises(NotAwaited):
                    env.step("look")

    def test_reset(self) -> None:
        with environment() as env:
            first, info = env.reset()
            env.step("north")
            self.assertEqual(env.reset(), (first, info))
            self.assertEqual(env.reset(seed=5, options={}), (first, info))
            self.assertEqual(name_of(env), "Jetty")

    def test_seed(self) -> None:
        def rolls(env: Environment) -> list[str]:
            return [env.step("roll")[0] for _ in range(20)]

        with Environment(str(TOP / "web/page_tests/menu.z5"), seed=7) as env:
            told = rolls(env)
            env.reset()
            self.assertEqual(rolls(env), told)
            env.reset(seed=8)
            self.assertNotEqual(rolls(env), told)

    def test_ends(self) -> None:
        with environment() as env:
            self.assertFalse(env.step("swim")[2])
            observation, _, terminated, truncated, info = env.step("swim")
            self.assertIn("*** You have drowned ***", observation)
            self.assertEqual((terminated, truncated, info["victory"]), (True, False, False))
            self.assertEqual((info["awaits"], env.get_valid_actions()), (Awaits.CHARACTER, [""]))
            self.assertTrue(env.step("")[2])
            self.assertFalse(env.step("restart")[2])
            self.assertFalse(env.game_over())

    def test_key(self) -> None:
        with Environment(small("keys.z5")) as env:
            self.assertEqual(env.step("yes")[0], str(ord("y")))

    def test_fault(self) -> None:
        with Environment(str(TOP / "web/page_tests/menu.z5"), steps=50_000) as env:
            self.assertEqual(env.step("turn")[2:4], (False, True))
            self.assertFalse(env.game_over())

    def test_closed(self) -> None:
        with environment() as env:
            state = env.get_state()
        with self.assertRaises(Closed):
            env.step("look")
        env.set_state(state)
        self.assertEqual(name_of(env), "Jetty")


class States(unittest.TestCase):
    """States stay usable, and copies never meet."""

    def test_many_times(self) -> None:
        with environment() as env:
            env.step("open bag")
            state = env.get_state()
            told = []
            for _ in range(3):
                env.set_state(state)
                told.append([env.step(line)[0] for line in ("take letter", "north", "inventory")])
                self.assertEqual(env.get_moves(), 4)
            self.assertEqual(told[0], told[1])
            self.assertEqual(told[0], told[2])
            self.assertEqual((state.score, state.moves), (0, 1))

    def test_copies(self) -> None:
        with environment() as env, env.copy() as other:
            other.step("north")
            self.assertEqual((name_of(env), name_of(other)), ("Jetty", "Shore Path"))
            other.close()
            self.assertEqual(env.step("north")[0].splitlines()[0], "Shore Path")

    def test_ended(self) -> None:
        with Environment(example("hello.z3")) as env:
            state = env.get_state()
            self.assertTrue(env.game_over())
            with env.copy() as other:
                self.assertTrue(other.game_over())
            env.set_state(state)
            self.assertEqual((env.get_inventory(), env.get_valid_actions(), name_of(env)), ([], [], None))
            self.assertEqual((env.get_score(), env.get_max_score(), env.get_player_object()), (None, None, None))

    def test_of_the_same_file(self) -> None:
        with environment() as env, Environment(str(TOP / "examples/lighthouse.z5")) as other:
            other.step("north")
            env.set_state(other.get_state())
            self.assertEqual((name_of(env), env.get_moves()), ("Shore Path", 1))

    def test_other_story(self) -> None:
        with environment(3) as env, environment(5) as other, self.assertRaises(ValueError):
            env.set_state(other.get_state())


class World(unittest.TestCase):
    """Objects, player, place and inventory."""

    def test_lighthouse(self) -> None:
        for version in VERSIONS:
            with environment(version) as env:
                player = env.get_player_object()
                assert player
                self.assertEqual((player.number, player.name), (5, "yourself"))
                for line, place, carried in (
                    ("open bag", "Jetty", ["postbag"]), ("take letter", "Jetty", ["letter", "postbag"]),
                    ("north", "Shore Path", ["letter", "postbag"]), ("drop bag", "Shore Path", ["letter"]),
                ):
                    env.step(line)
                    self.assertEqual((name_of(env), [it.name for it in env.get_inventory()]), (place, carried))
                self.assertEqual(len(env.get_world_objects()), len(env.game.objects))
                self.assertEqual(env.get_object(player.number), env.get_player_object())
                with self.assertRaises(NotThere):
                    env.get_object(0)

    def test_hash(self) -> None:
        with environment() as env:
            first = env.get_world_state_hash()
            for line, changed in (("look", False), ("open bag", True), ("take letter", True), ("xyzzy", False)):
                before = env.get_world_state_hash()
                env.step(line)
                self.assertEqual((env.get_world_state_hash() != before, env.world_changed()), (changed, changed), line)
            env.reset()
            self.assertEqual(env.get_world_state_hash(), first)


class Actions(unittest.TestCase):
    """Valid actions."""

    def test_lighthouse(self) -> None:
        for version in VERSIONS:
            with environment(version) as env:
                before = env.game.hash()
                actions = env.get_valid_actions()
                self.assertEqual(env.game.hash(), before)
                self.assertEqual(env.get_valid_actions(), actions)
                self.assertLessEqual({"north", "open postbag", "drop postbag"}, set(actions))
                self.assertFalse({"look", "inventory", "wait", "south", "take postbag"} & set(actions))
                self.assertEqual(len(env.get_valid_actions(most=0)), 0)

    def test_each_changes(self) -> None:
        with environment() as env:
            state = env.get_state()
            for action in env.get_valid_actions():
                env.set_state(state)
                env.step(action)
                self.assertTrue(env.world_changed() or env.get_score(), action)

    def test_random_agent(self) -> None:
        def told(seed: int) -> list[tuple[str, str]]:
            chance = random.Random(seed)
            with environment(seed=seed) as env:
                lines = []
                for _ in range(12):
                    actions = env.get_valid_actions()
                    if not actions:
                        break
                    action = chance.choice(actions)
                    lines.append((action, env.step(action)[0]))
                return lines

        self.assertEqual(told(3), told(3))
        self.assertNotEqual(told(3), told(4))


class Figures(unittest.TestCase):
    """What texts and status lines tell."""

    def test_rows(self) -> None:
        for row, wanted in (
            (" Hut      Score: 5     Moves: 12", (5, 12)), ("Jetty    Score: -3  Turns: 0", (-3, 0)),
            ("Hut  7/20", (7, 20)), ("Hut   Time:  9:05 am", (None, None)), ("", (None, None)),
            ("Score 10 Moves 20", (10, 20)), (" Moves: 3", (None, 3)),
        ):
            shown = figures.figures_of(Reply("", (row,), None, Awaits.LINE, None))
            self.assertEqual((shown.score, shown.turns), wanted, row)

    def test_most(self) -> None:
        for text, wanted in (
            ("You have so far scored 5 out of a possible 51, in 20 turns.", 51), ("You have 50 of 60 points", 60),
            ("Your score is 0 (total of 350 points), in 0 moves.", 350), ("Your score is 3.", None),
            ("You have scored 0 out of 7.", 7),
        ):
            self.assertEqual(figures.most_of(text), wanted, text)

    def test_endings(self) -> None:
        for text, wanted, won in (
            ("\n    *** You have won ***\n", "You have won", True),
            ("****  You have died  ****", "You have died", False),
            ("*DIAMOND RING*", None, False), ("A sign reads *** here", None, False),
        ):
            ending = figures.ending_of(Reply(text, (), None, Awaits.LINE, None))
            self.assertEqual((ending, bool(ending and figures.is_won(ending))), (wanted, won), text)


@unittest.skipUnless(CELLAR.is_file(), f"ZKIT_STORIES names no folder with {CELLAR.name}: a walkthrough of it")
class Cellar(unittest.TestCase):
    """A small adventure, up to its end."""

    def test_walkthrough(self) -> None:
        for version, score in ((3, 40.0), (5, 0.0)):
            with Environment(str(CELLAR.with_suffix(f".z{version}"))) as env:
                for line in "take lamp|n|take key|s|d|open barrel|take wine|drop key|u".split("|"):
                    self.assertIsNotNone(env.get_player_location())
                    score -= env.step(line)[1]
                self.assertEqual(score, 0)
                self.assertEqual([it.name for it in env.get_inventory()], ["bottle of wine", "brass lamp"])
                self.assertEqual(env.get_valid_actions(), ["north", "down", "drop lamp", "drop wine"])
                _, _, terminated, truncated, info = env.step("north")
                self.assertEqual((terminated, truncated, info["victory"], env.game_over()), (True, False, True, False))


@unittest.skipUnless(GAMES.is_dir(), "ZKIT_STORIES names no folder with games: their walkthroughs")
class WholeGames(unittest.TestCase):
    """Games of Inform's library."""

    def open(self, name: str) -> tuple[Environment, list[str]]:
        lines = (GAMES / f"{name.partition('-')[0]}.txt").read_text("utf-8").splitlines()
        return Environment(str(GAMES / name)), lines

    def test_walkthroughs(self) -> None:
        for path in sorted(GAMES.glob("*.z?")):
            env, lines = self.open(path.name)
            score = 0.0
            for line in lines:
                if env.game.reply.awaits is Awaits.NOTHING:
                    break
                score += env.step(line)[1]
                row = env.game.reply.upper[0]
                name = name_of(env)
                self.assertTrue(name and row.strip().startswith(name), (path.name, line, name, row))
                self.assertIn(f"Score: {env.get_score()}", row)
                self.assertIn(f"Moves: {env.get_moves()}", row)
            self.assertEqual(score, env.get_score())

    def test_most(self) -> None:
        for name, most in (("balances-6126.z8", 51), ("toyshop-6126.z5", 6), ("adventureland-611.z5", 100)):
            self.assertEqual(self.open(name)[0].get_max_score(), most)

    def test_actions(self) -> None:
        for name, wanted in (
            ("balances-6126.z8", {"west"}), ("toyshop-6126.z5", {"north"}), ("adventureland-611.z5", {"east", "up"})
        ):
            env, _ = self.open(name)
            env.get_player_object()
            begin = time.process_time()
            actions = env.get_valid_actions()
            self.assertLess(time.process_time() - begin, 2)
            self.assertLessEqual(wanted, set(actions))


class Docstrings(unittest.TestCase):
    """Each public member has an example."""

    def test_each_has_one(self) -> None:
        for it in (Environment, State):
            for key, member in members(it.__name__, it):
                with self.subTest(key):
                    self.assertIn(">>>", getattr(member, "__doc__", None) or "")

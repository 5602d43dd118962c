"""Many games in threads, one game from several, and memory that is given back."""

from __future__ import annotations

import concurrent.futures
import contextlib
import gc
import random
import resource
import subprocess
import sys
import threading
import unittest
from collections.abc import Callable
from pathlib import Path

from helping import LINES, TOP, example, play, whole
from zkit import Closed, Game, Story, ZkitError

# Opens games until there is no memory, in a process with little of it.
SMALL_MEMORY = """
import resource, sys
import zkit
story = zkit.Story("examples/lighthouse.z5")
with open("/proc/self/statm") as file:
    pages = int(file.read().split()[0])
room = pages * resource.getpagesize() + 100_000_000
resource.setrlimit(resource.RLIMIT_AS, (room, room))
games = []
try:
    while True:
        games.append(zkit.Game(story))
except zkit.OutOfMemory:
    count = len(games)
    last = games.pop()
    games.clear()
    print(count > 10, last.send("north").text.splitlines()[0])
"""

# Ends while another thread is in the middle of a turn.
ENDING = """
import threading, time
import zkit
game = zkit.Game(zkit.Story("web/page_tests/menu.z5"), steps=1_000_000_000)
threading.Thread(target=game.send, args=["turn"], daemon=True).start()
time.sleep(0.1)
"""


def resident() -> int:
    """The bytes of this process that are in memory."""
    return int(Path("/proc/self/statm").read_text().split()[1]) * resource.getpagesize()


class Threads(unittest.TestCase):
    """Games in threads."""

    def test_many_games(self) -> None:
        story = example("lighthouse.z5")
        seeds = range(200)
        alone = {seed: whole(story, LINES, seed=seed) for seed in (0, 1, 2)}

        def played(seed: int) -> str:
            return whole(story, LINES, seed=seed)

        with concurrent.futures.ThreadPoolExecutor(8) as pool:
            texts = list(pool.map(played, seeds))
        self.assertEqual({seed: texts[seed] for seed in alone}, alone)
        self.assertEqual(texts, [whole(story, LINES, seed=seed) for seed in seeds])

    def test_games_side_by_side(self) -> None:
        story = example("lighthouse.z5")
        wanted = whole(story, LINES)
        games = [Game(story) for _ in range(200)]
        with concurrent.futures.ThreadPoolExecutor(8) as pool:
            texts = list(pool.map(lambda game: play(game, LINES), games))
        self.assertEqual(texts, [wanted] * 200)
        for game in games:
            game.close()

    def test_one_game(self) -> None:
        with Game(example("lighthouse.z5")) as game:
            with concurrent.futures.ThreadPoolExecutor(8) as pool:
                replies = list(pool.map(lambda _: game.send("look").upper[0].split()[-1], range(400)))
            self.assertEqual(sorted(map(int, replies)), list(range(1, 401)))

    def test_closed_meanwhile(self) -> None:
        game = Game(Story(TOP / "web/page_tests/menu.z5"), steps=20_000_000)
        begun = threading.Event()

        def turn() -> None:
            begun.set()
            game.send("turn")

        thread = threading.Thread(target=turn)
        thread.start()
        begun.wait()
        game.close()
        thread.join()
        with self.assertRaises(Closed):
            game.send("roll")


class RandomCalls(unittest.TestCase):
    """Random calls of several threads on the same games end in a reply or in an error of zkit."""

    def call(self, chance: random.Random, games: list[Game], snapshots: list[bytes]) -> None:
        """Makes a call on one of the games, and may put another one in a place."""
        game, place = chance.choice(games), chance.randrange(len(games))
        calls: list[Callable[[], object]] = [
            lambda: game.send(chance.choice(["undo on", "save", "restore", *LINES])),
            lambda: game.send_key(chance.choice("a1 ")),
            game.undo, game.image, game.go_on, game.close,
            lambda: game.keep(chance.random() < 0.5),
            lambda: game.restore(chance.choice([None, b"", game.saved])),
            lambda: snapshots.append(game.snapshot(undo=chance.random() < 0.5)),
            lambda: games.__setitem__(place, game.clone()),
            lambda: game.reseed(chance.randrange(2**64)), lambda: game.objects[chance.randrange(100)],
            lambda: (game.place, game.calls, game.hash(), len(game.memory)),
            lambda: games.__setitem__(place, Game.from_snapshot(game.story, self.damaged(chance, snapshots))),
            lambda: games.__setitem__(place, Game(game.story, saves=chance.random() < 0.5, text=10**6)),
        ]
        with contextlib.suppress(ZkitError):
            chance.choice(calls)()

    def damaged(self, chance: random.Random, snapshots: list[bytes]) -> bytes:
        """A snapshot, at times with a wrong bit."""
        snapshot = bytearray(chance.choice(snapshots))
        if chance.random() < 0.5:
            snapshot[chance.randrange(len(snapshot))] ^= 1 << chance.randrange(8)
        return bytes(snapshot)

    def test_calls(self) -> None:
        games = [Game(example(f"lighthouse.z{version}")) for version in (3, 4, 5, 8)]
        snapshots = [game.snapshot() for game in games]

        def many(seed: int) -> None:
            chance = random.Random(seed)
            for _ in range(1_500):
                self.call(chance, games, snapshots)

        with concurrent.futures.ThreadPoolExecutor(4) as pool:
            list(pool.map(many, range(4)))


class Memory(unittest.TestCase):
    """Memory is given back."""

    def grown(self, close: bool) -> int:
        story = example("lighthouse.z5")
        for count in (100, 1_000):
            gc.collect()
            before = resident()
            for _ in range(count):
                game = Game(story)
                game.send("look")
                if close:
                    game.close()
            del game
        return resident() - before

    def test_closed(self) -> None:
        self.assertLess(self.grown(close=True), 10_000_000)

    def test_dropped(self) -> None:
        self.assertLess(self.grown(close=False), 10_000_000)

    def test_stories(self) -> None:
        content = bytes(example("lighthouse.z5"))
        for count in (100, 1_000):
            before = resident()
            for _ in range(count):
                Story(content).listing("header")
        self.assertLess(resident() - before, 10_000_000)

    def test_end_of_the_process(self) -> None:
        ended = subprocess.run([sys.executable, "-B", "-c", ENDING], cwd=TOP, env={"PYTHONPATH": str(TOP / "python")})
        self.assertEqual(ended.returncode, 0)

    def test_little(self) -> None:
        told = subprocess.run(
            [sys.executable, "-B", "-c", SMALL_MEMORY], cwd=TOP, env={"PYTHONPATH": str(TOP / "python")},
            capture_output=True, encoding="utf-8",
        )
        self.assertEqual(told.stdout, "True Shore Path\n", told.stderr)

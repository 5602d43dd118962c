#!/usr/bin/env python3
"""Measures what many games of one story take, by the library and by programs, and prints a table for each story.

usage: tools/measure_games.py [--rounds N] [--turns N] [--games N] [--count] [--dfrotz PATH] STORY:LINES...

The lines of LINES are typed again and again, one turn each: by one game of the library, by a new clone for each turn,
by a snapshot with undo states that is taken and opened for each turn, by `zkit play` and by dfrotz with all lines at
once, and by dfrotz with a pipe that gets each line once the prompt is there. All take turns in N rounds, bound to one
processor, and of each the least processor time counts, user and system, of the process alone. A ratio is the turns a
second beside those of one game. With --count it says how many instructions of the processor a turn takes.

Then so many games are held as clones, and as snapshots: the bytes of each, and how long its next turn takes.

tools/many_games.c plays by the library, dist/libzkit.a, and needs a C compiler.
"""

from __future__ import annotations

import argparse
import os
import shutil
import subprocess
from collections.abc import Callable
from functools import partial
from pathlib import Path
from tempfile import TemporaryDirectory

from measure import TOP, Play, command_of, fail, millions, run

COUNTED_TURNS = 200


def made_in(folder: Path) -> Path:
    """The program that plays by the library."""
    program = folder / "many_games"
    compiler = [os.environ.get("CC", "cc"), "-std=c99", "-O2", f"-I{TOP}/include", "-o", str(program)]
    subprocess.run([*compiler, f"{TOP}/tools/many_games.c", f"{TOP}/dist/libzkit.a"], check=True)
    return program


def time_by_pipe(command: list[str], story: Path, lines: list[str]) -> float:
    """Types each line once the prompt is there: the milliseconds of processor time of the program."""
    with subprocess.Popen([*command, story], stdin=subprocess.PIPE, stdout=subprocess.PIPE) as child:
        assert child.stdin and child.stdout
        for line in lines:
            shown = b""
            while not shown.endswith(b">"):
                more = os.read(child.stdout.fileno(), 65_536)
                if not more:
                    fail(f"{command[0]} ends before it has all lines")
                shown = (shown + more)[-16:]
            child.stdin.write(f"{line}\n".encode())
            child.stdin.flush()
        child.kill()
        _, _, used = os.wait4(child.pid, 0)
        child.returncode = 0
        milliseconds: float = 1000.0 * (used.ru_utime + used.ru_stime)
    return milliseconds


class Ways:
    """The ways in which a story is played."""

    def __init__(self, story: Path, lines: Path, turns: int, folder: Path, dfrotz: list[str]) -> None:
        typed = lines.read_text("utf-8").splitlines()
        self._many = [typed[count % len(typed)] for count in range(turns)]
        file = folder / "typed"
        file.write_text("".join(f"{line}\n" for line in self._many), "utf-8")
        self._story, self._dfrotz = story, dfrotz
        self._play = Play(story.name, str(story), str(file))
        program = str(made_in(folder))
        by_library = {
            "the library, one game": "one",
            "the library, a clone for each turn": "clone",
            "the library, a snapshot that is taken and opened for each turn": "snapshot",
        }
        self._commands = {
            name: [program, way, str(lines), str(turns)] for name, way in by_library.items()
        } | {
            "`zkit play`, all lines at once": command_of("zkit", None),
            "dfrotz, all lines at once": dfrotz,
        }

    def times(self) -> dict[str, Callable[[], float]]:
        """How each of them is measured."""
        return {name: partial(self._time, command) for name, command in self._commands.items()} | {
            "dfrotz, each line by a pipe": partial(time_by_pipe, self._dfrotz, self._story, self._many),
        }

    def _time(self, command: list[str]) -> float:
        return run(command, self._play)[0]

    def counts(self) -> dict[str, float]:
        """The instructions of the processor for a play, in millions."""
        return {name: millions(command, self._play) for name, command in self._commands.items()}


def table(least: dict[str, float], counts: dict[str, float]) -> str:
    """The table of a story."""
    one = next(iter(least.values()))
    head = "| | turns a second beside one game |" + (" million instructions a turn |" if counts else "")
    rows = [head, "| --- |" + " --- |" * (head.count("|") - 2)]
    for name, time in least.items():
        cells = [name, f"{one / time:.2f}"]
        if counts:
            cells.append(f"{counts[name]:.2f}" if name in counts else "")
        rows.append("| " + " | ".join(cells) + " |")
    return "\n".join(rows)


def read_options() -> argparse.Namespace:
    """What the command line says."""
    words = argparse.ArgumentParser(prog="tools/measure_games.py", description=__doc__.split("\n")[0])
    words.add_argument("--rounds", type=int, default=7, metavar="N", help="how often each way is measured; 7")
    words.add_argument("--turns", type=int, default=2000, metavar="N", help="how many turns each time; 2,000")
    words.add_argument("--games", type=int, default=10_000, metavar="N", help="how many games are held; 10,000")
    words.add_argument("--count", action="store_true", help="count instructions of the processor too, by valgrind")
    words.add_argument("--dfrotz", metavar="PATH", help="the program dfrotz")
    words.add_argument("plays", nargs="+", metavar="STORY:LINES", help="a story, and a file of lines")
    options = words.parse_args()
    if options.count and not shutil.which("valgrind"):
        fail("there is no program valgrind, which --count asks for")
    return options


def held(folder: Path, story: Path, lines: Path, games: int) -> None:
    """Holds games in both ways, and prints what they take."""
    for way in ("clones", "snapshots"):
        command = [str(folder / "many_games"), way, str(lines), str(games), str(story)]
        told = subprocess.run(command, check=True, stdout=subprocess.PIPE, encoding="utf-8").stdout
        print(f"{games:,} {way}: {told.strip()} for the next turn, each")


def main() -> None:
    """Measures all stories, and prints the tables."""
    options = read_options()
    dfrotz = command_of("dfrotz", options.dfrotz)
    os.sched_setaffinity(0, {max(os.sched_getaffinity(0))})
    for word in options.plays:
        story, lines = (Path(path).resolve() for path in word.rsplit(":", 1))
        with TemporaryDirectory(prefix="games-") as name:
            ways = Ways(story, lines, options.turns, Path(name), dfrotz)
            rounds = [{it: time() for it, time in ways.times().items()} for _ in range(options.rounds)]
            least = {it: min(times[it] for times in rounds) for it in rounds[0]}
            counts = {}
            if options.count:
                few = Ways(story, lines, COUNTED_TURNS, Path(name), dfrotz).counts()
                none = Ways(story, lines, 1, Path(name), dfrotz).counts()
                counts = {it: (few[it] - none[it]) / (COUNTED_TURNS - 1) for it in few}
            by_one = 1000 * options.turns / next(iter(least.values()))
            print(f"\n{story.name}, {by_one:,.0f} turns a second by one game\n\n{table(least, counts)}\n", flush=True)
            held(Path(name), story, lines, options.games)


if __name__ == "__main__":
    try:
        main()
    except OSError as error:
        fail(f"{error.filename}: {error.strerror}")
    except KeyboardInterrupt:
        fail("stopped")

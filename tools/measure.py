#!/usr/bin/env python3
"""Measures how fast zkit plays stories beside two other interpreters, and prints one table.

usage: tools/measure.py [--rounds N] [--count] [--zkit PATH] [--dfrotz PATH] [--bocfel PATH] [STORY | STORY:LINES]...

The others are dfrotz 2.55 and bocfel 2.5:

  dfrotz    the plain `dfrotz` of frotz 2.55, by `make dumb` in its sources
  bocfel    of the sources in terps/bocfel of Gargoyle 2026.1: all but glk*.cpp, compiled with -O3 -DNDEBUG -flto
            -std=c++14 -DZTERP_OS_UNIX and linked with libtinfo, so without Glk

Their paths are given by the options or by DFROTZ and BOCFEL in the environment; else they are looked for as commands.
zkit is dist/zkit of the repository. Nothing is built here.

LINES is a file of what is typed; without it nothing is. Without a story the game in examples/ is played in versions 3,
5 and 8, by its walkthrough and with 2,000 lines. The programs take turns in N rounds, and of each the least processor
time counts, user and system. A ratio is that of zkit to the faster of the two: below 1 zkit is the fastest.
"""

from __future__ import annotations

import argparse
import os
import re
import shutil
import subprocess
import sys
from collections.abc import Iterator
from pathlib import Path
from tempfile import TemporaryDirectory, TemporaryFile
from typing import NamedTuple, NoReturn

TOP = Path(__file__).resolve().parent.parent
GAME = TOP / "examples" / "lighthouse"
TYPED = "look,inventory,north,south,examine lamp,east,west,wait,take all,drop all,up,down".split(",")
OPTIONS = {"zkit": "play --steps 1000000000", "dfrotz": "-q -m -w 80 -s 1", "bocfel": "-C -H -z 1"}


class Play(NamedTuple):
    """A story to play: its name, its path, and the path of the lines that are typed."""

    name: str
    story: str
    typed: str


def fail(text: str) -> NoReturn:
    """Ends the script with what is wrong."""
    sys.exit(f"tools/measure.py: {text}")


def command_of(name: str, given: str | None) -> list[str]:
    """A program with its options, by what was given, the environment, or its name."""
    path = given or os.environ.get(name.upper()) or (str(TOP / "dist" / "zkit") if name == "zkit" else name)
    found = shutil.which(path)
    if not found:
        fail(f"there is no program {path}: name {name} by --{name} PATH or {name.upper()}=PATH")
    return [os.path.abspath(found), *OPTIONS[name].split()]


def plays_of(words: list[str], folder: str) -> Iterator[Play]:
    """The stories to play."""
    if not words:
        many = Path(folder, "2000 lines")
        many.write_text("".join(f"{TYPED[count % len(TYPED)]}\n" for count in range(2000)))
        words = [f"{GAME}.z{version}:{typed}" for version in (3, 5, 8) for typed in (f"{GAME}.walkthrough", many)]
    for word in words:
        paths = [word] if os.path.exists(word) or ":" not in word else word.rsplit(":", 1)
        for path in paths:
            os.stat(path)
        story, typed = [os.path.abspath(path) for path in (*paths, os.devnull)[:2]]
        yield Play(", ".join(Path(path).name for path in paths), story, typed)


def run(command: list[str], play: Play) -> tuple[float, str]:
    """Plays a story in a folder of its own: the milliseconds of processor time, and what went to standard error."""
    env = {**os.environ, "TERM": "dumb"}
    with open(play.typed, "rb") as lines, TemporaryDirectory() as folder, \
            TemporaryFile() as shown, TemporaryFile() as said:
        child = subprocess.Popen([*command, play.story], cwd=folder, env=env, stdin=lines, stdout=shown, stderr=said)
        _, status, used = os.wait4(child.pid, 0)
        child.returncode = os.waitstatus_to_exitcode(status)
        if child.returncode < 0 or not shown.seek(0, os.SEEK_END):
            fail(f"{command[0]} does not play {play.story}: it shows nothing, or a signal ends it")
        said.seek(0)
        return 1000.0 * (used.ru_utime + used.ru_stime), said.read().decode(errors="replace")


def millions(command: list[str], play: Play) -> float:
    """The instructions of the processor that a play takes, in millions."""
    counted = ["valgrind", "--tool=callgrind", f"--callgrind-out-file={os.devnull}", *command]
    return int(re.findall(r"Collected : (\d+)", run(counted, play)[1])[0]) / 1e6


def ratio(times: dict[str, float]) -> float:
    """How long zkit takes beside the faster of the others."""
    return times["zkit"] / min(time for name, time in times.items() if name != "zkit")


def read_options() -> argparse.Namespace:
    """What the command line says."""
    words = argparse.ArgumentParser(prog="tools/measure.py", description=__doc__.split("\n")[0])
    words.add_argument("--rounds", type=int, default=9, metavar="N", help="how often each program plays each story; 9")
    words.add_argument("--count", action="store_true", help="count instructions of the processor too, by valgrind")
    for name in OPTIONS:
        words.add_argument(f"--{name}", metavar="PATH", help=f"the program {name}")
    words.add_argument("plays", nargs="*", metavar="STORY:LINES", help="a story, or a story and a file of lines")
    options = words.parse_args()
    if options.rounds < 1:
        fail("--rounds is at least 1")
    if options.count and not shutil.which("valgrind"):
        fail("there is no program valgrind, which --count asks for")
    return options


def main() -> None:
    """Plays the stories by the programs, and prints the table."""
    options = read_options()
    commands = {name: command_of(name, getattr(options, name)) for name in OPTIONS}
    counted = ["zkit", "dfrotz"] if options.count else []
    columns = ["story", *(f"{name} ms" for name in commands), "ratio", *(f"{name} million" for name in counted)]
    total = dict.fromkeys(commands, 0.0)
    with TemporaryDirectory(prefix="measure-") as folder:
        plays = list(plays_of(options.plays, folder))
        print("| " + " | ".join(columns) + " |\n|" + " --- |" * len(columns))
        for play in plays:
            rounds = [{it: run(command, play)[0] for it, command in commands.items()} for _ in range(options.rounds)]
            least = {it: min(times[it] for times in rounds) for it in commands}
            total = {it: total[it] + least[it] for it in commands}
            cells = [f"{time:.1f}" for time in least.values()] + [f"{ratio(least):.2f}"]
            cells += [f"{millions(commands[it], play):.1f}" for it in counted]
            print("| " + " | ".join([play.name, *cells]) + " |", flush=True)
    print(f"ratio of the sums: {ratio(total):.2f}")


if __name__ == "__main__":
    try:
        main()
    except BrokenPipeError:
        # nobody reads the table, and Python would try once more
        os.dup2(os.open(os.devnull, os.O_WRONLY), sys.stdout.fileno())
        sys.exit(1)
    except OSError as error:
        fail(f"{error.filename}: {error.strerror}")
    except KeyboardInterrupt:
        fail("stopped")

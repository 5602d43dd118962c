#!/usr/bin/env python3
"""Makes mutants of the code, one after another, and tells which of them no row and no test refuses.

usage: conformance/mutate.py [-v] [--only WORDS]... [--first WORDS] [--jobs N] [--seconds N]
       conformance/mutate.py --check

The edits are those of conformance/refused that change code, and those of conformance/mutants.
README.md describes them. --check builds nothing: it tells which edits do not apply any more, the others of `refused`
too.
"""

from __future__ import annotations

import argparse
import collections
import concurrent.futures
import functools
import os
import pathlib
import re
import shutil
import signal
import sys
import tempfile
import time
from collections.abc import Callable, Iterable
from subprocess import DEVNULL, PIPE, Popen
from typing import IO, NamedTuple, NoReturn, Optional

import run
import test
from arms import Turned, numbers_at
from edits import BadEdit, Edit, edited, mutants, refused, why_not
from ending import end_with
from sources import FOLDER, TOP, crates

RUNNING: list[Popen[str]] = []  # the builds that this script has begun
TEMPORARY: list[str] = []  # the folders that it has made
# Enough for all rows that do not end at a limit, and fewer than `zkit play` has, which shortens a run.
WORDS, STEPS = 1100, 60_000
# What else is made shorter in the copy: how many decoded instructions a run keeps.
SHORTER = (("zk_fast/src/cache.rt", "SLOTS: usize = 8_192", "SLOTS: usize = 512"),)
# How many times as long an edit gets, alone, that had no answer in time.
LONGER = 5
NO_ANSWER = "no answer"

# What refuses each edit that was tried, by its number, and None where nothing does.
Outcomes = dict[int, Optional[str]]
# What is wrong with each edit that is bad, by its number.
Bad = dict[int, str]
# What is called with an edit's number and outcome, as soon as that is known.
Tell = Callable[[int, Optional[str]], None]


class Way(NamedTuple):
    """How the player is run: for so many seconds at most, with `rows` or `tests` first; and what is told of it."""

    seconds: int
    first: str
    tell: Tell


# Which edits are mutants.


def read_left_out() -> set[str]:
    """The edits of `refused` that nothing outside can see, each with its reason."""
    lines = (FOLDER / "mutants" / "unseen").read_text(encoding="utf-8").splitlines()
    return {line.partition(":")[0] for line in lines if line.strip() and not line.startswith("#")}


def code_uses() -> dict[str, list[str]]:
    """What each crate stands on. Left out are static libraries, since no crate can stand on them, and the crates on
    which these alone stand, since no row and no test calls them."""
    listed = crates()
    left_out = {name for name, crate in listed.items() if "staticlib" in crate.words}
    above = {name: {it for it, crate in listed.items() if name in crate.below} for name in listed}
    while more := {name for name in listed if above[name] and above[name] <= left_out} - left_out:
        left_out |= more
    return {name: crate.below for name, crate in listed.items() if name not in left_out}


def read_edits(only: list[str]) -> list[Edit]:
    """All mutants that have any of the wanted words, or all where none are wanted, numbered from 1 on."""
    unseen, uses = read_left_out(), code_uses()
    found = [it for it in refused() if it.crate in uses and f"{it.crate}/{it.name}" not in unseen]
    # Of those that change code alone no one changes two files.
    found = [it for it in found if all(file.startswith("src/") for file in it.files())] + mutants()
    for (place, name), count in collections.Counter((it.place(), it.name) for it in found).items():
        if count > 1:
            sys.exit(f"{place}: two edits are named {name}")
    wanted = [it for it in found if not only or any(words in it.title() for words in only)]
    for number, edit in enumerate(wanted, 1):
        edit.number = number
    return wanted


# A copy of the repository in which many edits can be turned on.


def write_copy(folder: pathlib.Path, edits: list[Edit]) -> None:
    """A copy of the crates' code in a folder, with the player and the switch that turns edits on."""
    uses = code_uses()
    for name in uses:
        shutil.copytree(TOP / "crates" / name / "src", folder / "crates" / name / "src")
    lines = ["turning:"] + [f"{name}: turning {' '.join(below)}" for name, below in uses.items()]
    lines.append(f"player: turning anyhow {' '.join(uses)}")
    (folder / "crates.txt").write_text("\n".join(lines) + "\n", encoding="utf-8")
    (folder / ".git").mkdir()
    for kept, name in (("turning.rt.in", "turning/src/lib.rt"), ("turning.c", "turning/c/turning.c")):
        path = folder / "crates" / name
        path.parent.mkdir(parents=True)
        shutil.copy(FOLDER / kept, path)
    test.add_tests(folder / "crates")
    test.shorten(folder / "crates", (*test.SHORTER, *SHORTER))
    program = folder / "crates/zkit/src/main.rt"
    program.rename(program.with_name("lib.rt"))
    for name in uses:
        test.open_up(folder / "crates" / name / "src")
    player = folder / "crates/player/src"
    player.mkdir(parents=True)
    shutil.copy(FOLDER / "player.rt.in", player / "main.rt")
    (player / "tests.rt").write_text(tests_of(folder, uses, {edit.crate for edit in edits}), encoding="utf-8")


def tests_of(folder: pathlib.Path, crates: Iterable[str], changed: set[str]) -> str:
    """The module of the player that runs the tests of all crates, those first that name a crate that edits change."""
    files = [(it, path) for it in crates for path in sorted((folder / "crates" / it / "src").glob("tests*.rt"))]
    texts = {path: path.read_text(encoding="utf-8") for _, path in files}
    files.sort(key=lambda it: it[0] not in changed and not any(f"use {name}::" in texts[it[1]] for name in changed))
    calls = ""
    for crate, path in files:
        for name, call in test.called(crate, path):
            calls += f'    eprintln!(rt; "test {crate} {name}")?;\n    {call};\n'
    return (FOLDER / "player_tests.rt.in").read_text(encoding="utf-8").replace("    // the tests\n", calls)


class Copy:
    """A copy of the repository with arms for some edits, or with one that stands alone."""

    def __init__(self, folder: pathlib.Path, edits: list[Edit], is_alone: bool = False) -> None:
        self.folder = folder
        self.alone: list[Edit] = []  # those that need a copy of their own
        self.bad: Bad = {}  # those that can't be applied
        self.edits: list[Edit] = []  # those that can be turned on, or the one that stands alone
        self.owners: dict[pathlib.Path, list[int]] = {}  # the numbers of the lines of each file that has arms
        write_copy(folder, edits)
        files: dict[pathlib.Path, Turned] = {}
        for edit in edits:
            self.take(edit, files, is_alone)
        for path, turned in files.items():
            lines = turned.lines()
            self.owners[path] = [number for number, _ in lines]
            path.write_text("\n".join(text for _, text in lines), encoding="utf-8")

    def take(self, edit: Edit, files: dict[pathlib.Path, Turned], is_alone: bool) -> None:
        """Takes an edit among those that can be turned on, those that stand alone, or those that are bad."""
        try:
            # The copy's file, since its items are those that the player can call: the program's root is a library's.
            path = self.folder / edit.path().replace("zkit/src/main.rt", "zkit/src/lib.rt")
            text = path.read_text(encoding="utf-8")
            if is_alone:
                path.write_text(edited(edit, edit.files()[0], text), encoding="utf-8")
            together = is_alone or files.setdefault(path, Turned(text)).take(edit)
            (self.edits if together else self.alone).append(edit)
        except (BadEdit, OSError) as error:
            self.bad[edit.number] = str(error)

    def edits_at(self, said: str) -> set[int]:
        """The numbers of the edits in whose lines the compiler's errors stand."""
        return numbers_at(said, self.folder / "crates/player", self.owners)


# Playing.


def sized(content: bytes) -> bytes:
    """Some bytes with their number before them."""
    return len(content).to_bytes(4, "big") + content


def bundled(row: run.Row, version: int) -> bytes:
    """A row as the player reads it."""
    status, line = row.ended()
    name = f"{row.place} {row.name} (version {version})"
    # One more than the states to go back to, and 0 for those of `zkit play`.
    undo = 0 if row.undo is None else row.undo + 1
    numbers = b"".join(it.to_bytes(4, "big") for it in (*limits_for(row), undo, row.upper, row.save))
    script = (row.script is not None).to_bytes(4, "big") + sized((row.script or "").encode())
    shown = sized(row.screen.encode()) + script + status.to_bytes(4, "big") + sized(f"{line}\n".lstrip("\n").encode())
    return sized(name.encode()) + sized(run.story(row, version)) + sized(row.input) + numbers + shown


def limits_for(row: run.Row) -> tuple[int, int]:
    """The limits on words and steps that a row is played with; 0 for those of `zkit play`."""
    if row.end.startswith("limit 3"):
        return WORDS, 1000
    return (0, 0) if row.end.startswith("limit") else (WORDS, STEPS)


def write_bundles(folder: pathlib.Path, first: str) -> None:
    """Writes the files `rows` and `slow`, which the player reads; rows whose place has some words come first."""
    bundles: dict[str, list[bytes]] = {"rows": [], "slow": []}
    rows = [row for _, row in run.all_rows()]
    rows.sort(key=lambda row: first not in f"{row.place} {row.name}")
    # Most edits are refused in any version, so that of most rows comes first.
    for version in sorted({it for row in rows for it in row.versions}, key=lambda it: (it != 5, it)):
        for row in rows:
            # One version is enough of a row that ends at a limit.
            if version == row.versions[0] or version in row.versions and not row.end.startswith("limit"):
                # A row takes long that ends at a limit, or whose story goes on past address 65535.
                is_slow = row.end.startswith("limit") or len(run.story(row, version)) > 0x10000
                bundles["slow" if is_slow else "rows"].append(bundled(row, version))
    for name, parts in bundles.items():
        (folder / name).write_bytes(b"".join(parts))


def refused_by(shown: str, said: str, ended: str) -> str | None:
    """What refuses an edit by a run of the player: a row, a test or a fault; None where nothing does."""
    words = shown.splitlines()
    if "nothing refuses" in words and ended == "status=0":
        return None
    if ended == "no-answer":
        return NO_ANSWER
    row = next((it for it in words if it.startswith("row ")), None)
    if row:
        return row
    # The tests come before or behind the rows.
    tests: list[str] = re.findall(r"^tests? .*$", said, re.M)
    if tests and tests[-1] != "tests passed":
        return tests[-1]
    return f"row, by {ended}"


def begin(copy: pathlib.Path, folder: pathlib.Path, shown: IO[bytes], way: Way) -> Popen[str]:
    """Builds a copy's player, and begins to run it for each case of a folder."""
    words = ["rt", "try", "--steps", "1", "--seconds", str(way.seconds), "--cases", str(folder / "cases")]
    for name in ("rows", "slow"):
        words += ["--data", f"{name}={folder.parent / name}"]
    place, env = copy / "crates/player", {**os.environ, "RT_ALLOW_C": "1"}
    program = Popen(words, cwd=place, env=env, stdin=DEVNULL, stdout=shown, stderr=PIPE, errors="replace")
    RUNNING.append(program)
    return program


def play_cases(copy: pathlib.Path, folder: pathlib.Path, numbers: list[int], way: Way) -> tuple[Outcomes, str]:
    """Builds a copy's player and runs it for each number; 0, which is the first, must not be refused.

    Answers the outcomes, and what was said.
    """
    cases = folder / "cases"
    shutil.rmtree(cases, ignore_errors=True)
    cases.mkdir()
    for number in numbers:
        (cases / f"{number:05}").write_text("")
        (cases / f"{number:05}.args").write_text(f"{number}\n{way.first}\n")
    outcomes: Outcomes = {}
    said = ""
    with open(folder / "shown", "w+b") as shown:
        program = begin(copy, folder, shown, way)
        for line in program.stderr or ():
            said += line
            found = re.match(r"case=(\d+) (?:run=(\S+))?(?: (status=\d+))?", line)
            if found:
                number, ended = int(found[1]), found[3] or found[2] or line.strip()
                outcomes[number] = refused_by(shown_of(folder / "shown", found[1]), said, ended)
                if number == 0 and outcomes[number]:
                    stop(f"without an edit this refuses the code: {outcomes[number]}\n{said}")
                way.tell(number, outcomes[number])
                said = ""
        program.wait()
    if outcomes and len(outcomes) < len(numbers):
        stop(f"the player ended before its last edit:\n{said}")
    return outcomes, said


def shown_of(path: pathlib.Path, case: str) -> str:
    """What the player showed in a case: nothing is told of one that stopped by a fault."""
    text = path.read_text(encoding="utf-8", errors="replace")
    _, found, shown = text.rpartition(f"== {case}\n")
    return shown if found else ""


class Trial:
    """What came of edits, by their numbers: what refuses each, what is wrong with it, and the folder of its build."""

    def __init__(self, way: Way) -> None:
        self.way = way
        self.by: Outcomes = {}
        self.bad: Bad = {}
        self.built: dict[int, pathlib.Path] = {}

    def build(self, edits: list[Edit], folder: pathlib.Path, is_alone: bool = False) -> list[Edit]:
        """Tries edits in one build, or one that stands alone, and answers those that need a build of their own."""
        while True:
            shutil.rmtree(folder, ignore_errors=True)
            folder.mkdir()
            copy = Copy(folder / "copy", [it for it in edits if it.number not in self.bad], is_alone)
            self.bad.update(copy.bad)
            numbers = [0] * (not is_alone) + [it.number for it in copy.edits]
            outcomes, said = play_cases(copy.folder, folder, numbers, self.way) if numbers else ({}, "")
            if outcomes or not numbers:
                self.by.update(outcomes)
                self.built.update(dict.fromkeys(outcomes, folder))
                return copy.alone
            wrong = numbers if is_alone else copy.edits_at(said)
            if not wrong:
                stop(f"the copy is not built:\n{said}")
            self.bad.update(dict.fromkeys(wrong, "it does not compile" + f": {said[-400:]}" * is_alone))

    def play_longer(self) -> None:
        """Tries those edits again, when no other runs, that had no answer in time."""
        longer = self.way._replace(seconds=LONGER * self.way.seconds)
        unanswered = [number for number, outcome in self.by.items() if outcome == NO_ANSWER]
        for folder in sorted({self.built[number] for number in unanswered}):
            numbers = [number for number in unanswered if self.built[number] == folder]
            outcomes, said = play_cases(folder / "copy", folder, numbers, longer)
            if not outcomes:
                stop(f"the copy is not built again:\n{said}")
            self.by.update(outcomes)


def try_all(edits: list[Edit], jobs: int, folder: pathlib.Path, way: Way) -> Trial:
    """Tries all edits, in as many builds side by side as jobs."""
    trial = Trial(way)
    with concurrent.futures.ThreadPoolExecutor(jobs) as pool:
        batches = [edits[i::jobs] for i in range(min(jobs, len(edits)))]
        left = pool.map(trial.build, batches, [folder / f"batch-{i}" for i in range(jobs)])
        alone = [edit for them in left for edit in them]
        one = functools.partial(trial.build, is_alone=True)
        list(pool.map(one, [[it] for it in alone], [folder / f"alone-{it.number}" for it in alone]))
    trial.play_longer()
    return trial


def kind_of(outcome: str | None) -> str:
    """How an edit is counted: as one that rows refuse, or tests alone, or only the time, or nothing."""
    if outcome is None:
        return "left"
    return outcome if outcome == NO_ANSWER else "tests" if outcome.startswith("test") else "rows"


def teller(edits: list[Edit], verbose: bool) -> Tell:
    """What prints an edit that nothing refuses as soon as that is known, and each other one if wanted."""
    titles = {edit.number: edit.title() for edit in edits}

    def tell(number: int, outcome: str | None) -> None:
        kind = kind_of(outcome)
        if number and (verbose or kind == "left"):
            said = f"refused: {titles[number]}: {outcome}" if kind in ("rows", "tests") else f"{kind}: {titles[number]}"
            print(said, flush=True)

    return tell


def end_all(status: int) -> NoReturn:
    """Ends what this script has begun, and the script."""
    for program in RUNNING:
        program.terminate()
    for folder in TEMPORARY:
        shutil.rmtree(folder, ignore_errors=True)
    os._exit(status)


def stop(message: str) -> NoReturn:
    """Ends all with a message, from any thread."""
    print(message, file=sys.stderr, flush=True)
    end_all(2)


def read_words() -> tuple[argparse.Namespace, list[Edit]]:
    """What the command line says, and the edits that it asks for."""
    words = argparse.ArgumentParser(prog="conformance/mutate.py", description=__doc__.split("\n")[0])
    words.add_argument("-v", action="store_true", help="name for each edit what refuses it")
    words.add_argument("--only", action="append", help="try only edits whose name or file has these words, or others")
    words.add_argument("--first", default="", help="play the rows first whose file or name has these words, or `tests`")
    words.add_argument("--jobs", type=int, default=2, help="how many builds run side by side")
    words.add_argument("--seconds", type=int, default=60, help="how long a run may take")
    words.add_argument("--check", action="store_true", help="try nothing: tell which edits do not apply any more")
    options = words.parse_args()
    found = read_edits(options.only or [])
    if not found:
        words.error("no edit has these words")
    return options, found


def check() -> int:
    """Tells which edits do not apply any more, and answers how many."""
    found = [*refused(), *mutants()]
    wrong = {edit: why for edit in found if (why := why_not(edit))}
    for edit, why in wrong.items():
        print(f"bad: {edit.title()}: {why}")
    print(f"{len(found)} edits: {len(wrong)} do not apply")
    return len(wrong)


def main() -> None:
    """Tries the edits that are asked for, and tells what refuses them."""
    for number in (signal.SIGINT, signal.SIGTERM):
        signal.signal(number, lambda it, _: end_all(128 + it))
    begun = time.monotonic()
    options, edits = read_words()
    if options.check:
        sys.exit(1 if check() else 0)
    way = Way(options.seconds, "tests" if options.first == "tests" else "rows", teller(edits, options.v))
    with tempfile.TemporaryDirectory(prefix="mutate-") as folder:
        TEMPORARY.append(folder)
        write_bundles(pathlib.Path(folder), options.first)
        trial = try_all(edits, max(options.jobs, 1), pathlib.Path(folder), way)
    bad = [edit for edit in edits if edit.number in trial.bad]
    for edit in bad:
        print(f"bad: {edit.title()}: {trial.bad[edit.number]}")
    counts = collections.Counter(kind_of(trial.by[it.number]) for it in edits if it not in bad)
    minutes, seconds = divmod(round(time.monotonic() - begun), 60)
    print(
        f"{len(edits)} edits: {counts['rows']} refused by rows, {counts['tests']} by tests, "
        f"{counts[NO_ANSWER]} by no answer only, {counts['left']} left, {len(bad)} bad ({minutes} min {seconds} s)"
    )
    sys.exit(1 if counts["left"] or bad else 0)


if __name__ == "__main__":
    end_with(main)

#!/usr/bin/env python3
"""Runs the program with each of its allocations refused in turn, and tells which runs come as README.md says.

usage: conformance/failures.py [-v] COMMAND

COMMAND is the program itself, which is built already and no script, as `conformance/failures.py crates/zkit/out/zkit`.
The runs stand in failures.cases. README.md ("Refused memory") says what may come of a refused allocation. It takes a C
compiler.
"""

from __future__ import annotations

import concurrent.futures
import functools
import itertools
import os
import pathlib
import re
import subprocess
import sys
import tempfile
from collections import Counter
from collections.abc import Callable, Sequence
from typing import NamedTuple

from case_files import Book, Run, word_bytes, words_of
from cases import SECONDS, Program, compiler, preloaded, takes_preloaded, text_of
from ending import end_with, workers

# Of a run with more allocations than this some are left out.
MOST = 1_000
# So many at both ends of such a run are taken all the same.
ENDS = 50

# The name of the file beside `kept` that a save writes: where a folder has it, a save fails, and a restore does not.
BESIDE = ".zkit-583876d75cd7d1d9"
OLD_SCRIPT = b"an old transcript"
NO_MEMORY = "zkit: out of memory\n"
BOOK = Book(pathlib.Path(__file__).with_name("failures.cases"))
# What is told of a test for which memory lacks; a strict one may tell below what it had found.
FAILED_TEST = re.compile(
    r"FAILED \S+: (?:\S+: out of memory\n"
    r"|the play ended with status 5\n(?:    .*\n)*?    zkit: out of memory\n(?:    .*\n)*)"
)
NOT_SAVED = re.compile(r"(?<=: the game was not saved: ).*")
# What is told of a coverage file, or a file of a report, for which memory lacks.
UNWRITTEN = re.compile(r"zkit: (\w+): out of memory\nzkit: write failed\n")
# A line on a routine that is open, by addresses or in lines of the source.
CALL = re.compile(r"zkit: (\S.*:\d+ |[0-9a-f]{5} )?in ")


class Plan:
    """A run of the file with its story, if it has one."""

    def __init__(self, run: Run, words: str) -> None:
        if others := run.said - {"write", "run", "input", "status"}:
            sys.exit(f"{run.place}: nothing looks at this here: {', '.join(sorted(others))}")
        self.name = f"{run.place} {words}"
        self.words = [text_of(word_bytes(it)) for it in words_of(words)]
        self.typed = run.typed
        self.status = run.status
        self.story = next((it for it in self.words if it in BOOK.files), "")
        self.before = {"said": OLD_SCRIPT, **run.before, **{it: BOOK.files[it] for it in [self.story] if it}}


class Came(NamedTuple):
    """All that can be seen of a run."""

    status: int | str
    shown: str
    told: str
    kept: bytes | None
    said: bytes | None
    story: bytes | None
    names: list[str]


# Runs the program by a plan, with the allocation of a number refused; a folder stands in the way where it may not save.
# Answers how many allocations it asked for, and what came.
Play = Callable[[Plan, int, bool], tuple[int, Came]]


def run(command: pathlib.Path, library: str, plan: Plan, number: int, saves: bool) -> tuple[int, Came]:
    """Runs the program in a folder of its own, as a `Play`."""
    with tempfile.TemporaryDirectory() as place:
        program = Program([str(command)], pathlib.Path(place), plan.before)
        if not saves:
            (program.folder / BESIDE).mkdir()
        env = {**os.environ, "LD_PRELOAD": library, "REFUSED": str(number), "ASKED": "asked"}
        try:
            ended = program.run(plan.words, plan.typed, env=env)
        except subprocess.TimeoutExpired:
            return 0, Came(f"none within {SECONDS} s", "", "", None, None, None, [])
        asked = int.from_bytes(program.read("asked") or b"", sys.byteorder)
        names = sorted(path.name for path in program.folder.iterdir() if path.name != "asked" and not path.is_dir())
        story = program.read(plan.story) if plan.story else None
        return asked, Came(*ended, program.read("kept"), program.read("said"), story, names)


def is_cut_off(plan: Plan, came: Came, whole: Came) -> bool:
    """Whether a run ended for lack of memory, with a first part of all that it shows and no file harmed."""
    return (
        came.status == 5
        and came.told.endswith(NO_MEMORY)
        and whole.told.startswith(came.told[: -len(NO_MEMORY)])
        and whole.shown.startswith(came.shown)
        and came.kept in (plan.before.get("kept"), whole.kept)
        and came.said is not None
        and (came.said == OLD_SCRIPT or (whole.said or b"").startswith(came.said))
        and came.story == plan.before.get(plan.story)
        and set(came.names) <= set(whole.names)
    )


def is_unread(plan: Plan, came: Came) -> bool:
    """Whether a run ended for lack of memory, and says so in the facts of its story, or in the counts of findings."""
    row = f"{plan.story}\tunread\tout of memory\n"
    line = f'{{"form":1,"path":"{plan.story}","unread":"out of memory"}}\n'
    counts = "total 0 findings in 0 of 0 stories\ntotal 1 file unread\n"
    return came.status == 5 and came.told == NO_MEMORY and came.shown in (row, line, counts)


def parts_of(shown: str, names: Sequence[str]) -> dict[str, str]:
    """What a run shows of each story, by its name: the lines from one on that begins with it.

    What is of none has the empty name.
    """
    parts = dict.fromkeys(["", *names], "")
    name = ""
    for line in shown.splitlines(keepends=True):
        begun = [it for it in names if line.startswith((f"{it}:", f"{it}\t", f'{{"form":1,"path":"{it}"'))]
        name = begun[0] if begun else "" if line.startswith("total ") else name
        parts[name] += line
    return parts


def may_stand(plan: Plan, name: str, part: str, whole: str) -> bool:
    """Whether that may be shown of a story of several where memory may lack: it all, its first part, or why not.

    A heading alone would say that there is nothing to find.
    """
    if plan.words[0] == "check" and part == f"{name}:\n":
        return part == whole
    row, line = f"{name}\tunread\tout of memory\n", f'{{"form":1,"path":"{name}","unread":"out of memory"}}\n'
    return whole.startswith(part) or part in (f"{name}: out of memory\n", row, line)


def is_without_some(plan: Plan, came: Came, whole: Came) -> bool:
    """Whether a run lists several stories but for those for which memory lacked, and says so."""
    names = [name for name in plan.before if name.startswith("some/")]
    parts, wholes = parts_of(came.shown, names), parts_of(whole.shown, names)
    return (
        bool(names)
        and came.status == max(5, int(whole.status))
        and whole.told == came.told.replace(NO_MEMORY, "") != came.told
        and all(may_stand(plan, name, parts[name], wholes[name]) for name in names)
        and came._replace(status=0, shown="", told="") == whole._replace(status=0, shown="", told="")
    )


def is_failed_test(plan: Plan, came: Came, whole: Came) -> bool:
    """Whether a run has tests of which one fails for lack of memory, and all others are told as with memory."""
    (*tests, _), (*others, _) = (re.split(r"(?m)^(?=passed |FAILED |\d)", it.shown) for it in (came, whole))
    unlike = [test for test, other in itertools.zip_longest(tests, others, fillvalue="") if test != other]
    return (
        plan.words[0] == "test"
        and came.status == 1
        and len(unlike) == 1
        and FAILED_TEST.fullmatch(unlike[0]) is not None
        and came._replace(status=0, shown="") == whole._replace(status=0, shown="")
    )


def is_unwritten(plan: Plan, came: Came, whole: Came) -> bool:
    """Whether a run has not written its coverage or its report for lack of memory, and says so."""
    found = UNWRITTEN.fullmatch(came.told)
    return (
        found is not None
        and found[1] in plan.words
        and came.status == 4
        and whole.status == 0
        and found[1] not in came.names
        and set(came.names) <= set(whole.names)
        and whole.shown.startswith(came.shown)
        and (came.kept, came.said, came.story) == (whole.kept, whole.said, whole.story)
    )


def outcome(plan: Plan, came: Came, whole: Came, unsaved: Came) -> str | None:
    """What came of a run with a refused allocation, in words, or nothing where it may not be."""
    if came == whole:
        return "changed nothing"
    if is_cut_off(plan, came, whole) or is_unread(plan, came):
        return "ended the run"
    if is_without_some(plan, came, whole):
        return "left out a story"
    if is_failed_test(plan, came, whole):
        return "failed a test"
    if is_unwritten(plan, came, whole):
        return "wrote no file"
    # as one whose save was refused for another reason
    if came == unsaved._replace(told=NOT_SAVED.sub("out of memory", unsaved.told)):
        return "refused the save"
    # there was no memory for the lines in words, or for those of the calls
    lines = whole.told.splitlines(keepends=True)
    fewer = ["".join(lines[-1:]), "".join(it for it in lines if not CALL.match(it))]
    if whole.status not in (0, 5) and came._replace(told="") == whole._replace(told="") and came.told in fewer:
        return "left out the words"
    return None


def numbers(count: int) -> Sequence[int]:
    """The allocations that are refused: all, or of very many the first, the last and some between."""
    if count <= MOST:
        return range(1, count + 1)
    between = range(ENDS + 1, count - ENDS + 1, -(-count // MOST))
    return [*range(1, ENDS + 1), *between, *range(count - ENDS + 1, count + 1)]


def unlike(came: Came, whole: Came) -> str:
    """What of a run is unlike the one with memory, in words."""
    parts = (name for name in Came._fields if getattr(came, name) != getattr(whole, name))
    return f"status {came.status}, {came.told[-200:]!r}, unlike in {', '.join(parts)}"


def wrong_from_the_start(plan: Plan, asked: int, whole: Came, unsaved: Came) -> str | None:
    """What is wrong with the runs to compare with, if something is."""
    if whole.status != plan.status or not asked:
        return f"with memory: status {whole.status}, {asked} allocations, {whole.told[-200:]!r}"
    old = plan.before.get("kept")
    if "kept" in plan.words and (whole.kept in (None, old) or unsaved.kept != old):
        return "a save does not go as it should with memory"
    return None


def check_plan(pool: concurrent.futures.Executor, play: Play, plan: Plan, counts: Counter[str], verbose: bool) -> None:
    """Refuses each allocation of a run, prints what differs, and counts runs, refusals and differences."""
    (asked, whole), (_, unsaved) = pool.map(lambda saves: play(plan, 0, saves), (True, False))
    wrong = wrong_from_the_start(plan, asked, whole, unsaved)
    differ, chosen = ([wrong], []) if wrong else ([], numbers(asked))
    ways: Counter[str] = Counter()
    for number, (reached, came) in zip(chosen, pool.map(lambda number: play(plan, number, True), chosen)):
        way = outcome(plan, came, whole, unsaved) if reached >= number else None
        ways[way or "differed"] += 1
        if not way:
            differ.append(f"allocation {number} refused: {unlike(came, whole)}")
    if not wrong and not ways["ended the run"]:
        differ.append("no refused allocation ended the run")
    left_out = 0 if wrong else asked - len(chosen)
    counts.update(runs=1, refused=len(chosen), left_out=left_out, differ=len(differ))
    for difference in differ:
        print(f"differs: {plan.name}: {difference}")
    if verbose:
        print(f"{plan.name}: {', '.join(f'{count} {way}' for way, count in ways.items())}")


def main() -> None:
    """Refuses each allocation of each run, and tells how that went."""
    words = sys.argv[1:]
    verbose = words[:1] == ["-v"]
    if len(words) != 1 + verbose:
        sys.exit(__doc__)
    command = pathlib.Path(words[-1]).resolve()
    if not command.is_file() or not command.read_bytes().startswith(b"\x7fELF"):
        sys.exit(f"{words[-1]}: no program that was built; dist/find prints where it is")
    if not compiler():
        print("left out, as there is no C compiler: the runs with refused memory")
        return
    if not takes_preloaded([str(command)]):
        print("left out, as the program is static: the runs with refused memory")
        return
    with tempfile.TemporaryDirectory() as place:
        library = preloaded("refused_memory.c", pathlib.Path(place))
        counts: Counter[str] = Counter()
        with workers(os.cpu_count() or 1) as pool:
            for plan in [Plan(it, words) for _, runs in BOOK.cases for it in runs for words in it.words]:
                check_plan(pool, functools.partial(run, command, library), plan, counts, verbose)
    if counts["left_out"]:
        print(f"left out of runs with more than {MOST:,} allocations: {counts['left_out']:,}")
    end = f"{counts['differ']:,} differ" if counts["differ"] else "all as it should be"
    print(f"{counts['refused']:,} allocations refused in {counts['runs']} runs: {end}")
    sys.exit(1 if counts["differ"] else 0)


if __name__ == "__main__":
    end_with(main)

#!/usr/bin/env python3
"""Asks the prover whether it refuses the wrong bodies and wrong definitions of conformance/refused.

usage: conformance/refuse.py [--changed BASE] [--sample N] [--into FOLDER] [CRATE...]

Each edit is given back to its crate as a must-fail edit, in a copy of the repository, and `rt must-fail` tries it
there. README.md describes the edits and what a try may come to.
"""

from __future__ import annotations

import argparse
import functools
import hashlib
import pathlib
import re
import shutil
import subprocess
import sys
import tempfile
from collections import Counter
from collections.abc import Iterable

from edits import Edit, refused, why_not
from ending import end_with
from sources import TOP, begin_rt, copy_of, crates

# The parts of a crate that its proof reads.
PARTS = ("src", "specs", "proofs")
# What `rt must-fail` says of an edit, and what that is called here.
VERDICTS = (
    (": refused, as it must be (only because a proof file names", "refused by a name alone"),
    (": refused, as it must be (only by a limit", "refused by a limit alone"),
    (": refused, as it must be", "refused"),
    (": NOT REFUSED", "not refused"),
    (": BAD EDIT", "bad"),
    (": NOT TRIED", "not tried"),
)
WELL = ("refused", "refused by a limit alone")
# Of the crates with edits it is proved last and takes the longest: the gate would wait for its sample alone.
LAST = "zk_program"


def git(*words: str) -> str:
    """What a command of git prints."""
    return subprocess.run(["git", "-C", str(TOP), *words], check=True, stdout=subprocess.PIPE, text=True).stdout


def changed_since(base: str) -> set[str]:
    """The crates whose files were changed since a commit, and those above a changed definition whose contracts or
    definitions name its crate's."""
    changed: set[str] = set()
    redefined: set[str] = set()
    for path in git("diff", "--name-only", base, "--", "crates").splitlines():
        parts = pathlib.PurePath(path).parts
        if len(parts) > 3 and parts[2] in PARTS:
            changed.add(parts[1])
            if parts[2] == "specs":
                redefined.add(parts[1])
    for name in redefined:
        for above in [it for it, crate in crates().items() if name in crate.below]:
            files = [it for part in ("src", "specs") for it in (TOP / "crates" / above / part).rglob("*")]
            if any(it.is_file() and f"Rattle.{name}.specs" in it.read_text(encoding="utf-8") for it in files):
                changed.add(above)
    return changed


def is_of_a_definition(edit: Edit) -> bool:
    """Whether an edit turns a definition too."""
    named = re.search(r"with_(its|their)_definition", edit.name)
    return bool(named) or any(it.startswith("specs/") for it in edit.files())


@functools.cache
def commit() -> str:
    """The commit, or nothing in a copy that has no history, or without git."""
    if not shutil.which("git"):
        return ""
    return subprocess.run(["git", "-C", str(TOP), "rev-parse", "HEAD"], capture_output=True, text=True).stdout.strip()


def order_of(*words: str) -> str:
    """A number that stands for some words, another one for each commit."""
    return hashlib.sha256(" ".join([commit(), *words]).encode()).hexdigest()


def sample_of(edits: list[Edit], number: int) -> list[Edit]:
    """So many of the edits, chosen by the commit, one of them of a definition.

    They are of one crate, since a crate with such edits is proved once more.
    """
    edits = sorted((it for it in edits if it.crate != LAST), key=lambda it: order_of(it.crate, it.name))
    edits = [it for it in edits if it.crate == edits[0].crate]
    first = [it for it in edits if is_of_a_definition(it)][:1]
    return (first + [it for it in edits if it not in first])[:number]


def lay(edits: Iterable[Edit], top: pathlib.Path) -> list[pathlib.Path]:
    """Copies edits to where the must-fail edits of their crates stand, and answers where they lie now."""
    laid = [top / "crates" / it.crate / "must-fail" / it.written.name for it in edits]
    for edit, to in zip(edits, laid):
        to.parent.mkdir(exist_ok=True)
        shutil.copyfile(edit.written, to)
    return laid


def tried(edits: list[Edit]) -> Counter[str]:
    """Has the prover try edits in a copy of the repository, prints what it says of each, and counts the verdicts."""
    counts: Counter[str] = Counter()
    with tempfile.TemporaryDirectory(prefix="refuse-") as folder:
        copy_of(pathlib.Path(folder))
        lay(edits, pathlib.Path(folder))
        with begin_rt(["must-fail", *sorted({it.crate for it in edits})], pathlib.Path(folder)) as ran:
            for line in ran.stdout or ():
                verdict = next((name for words, name in VERDICTS if words in line), None)
                if verdict:
                    counts[verdict] += 1
                print(line, end="", flush=True)
    return counts


def read_options() -> argparse.Namespace:
    """What the command line says."""
    words = argparse.ArgumentParser(prog="conformance/refuse.py", description=__doc__.split("\n")[0])
    words.add_argument("crates", nargs="*", metavar="CRATE", help="only edits of these crates")
    changed = "only edits of crates that were changed since a commit, and of those above whose clauses were"
    words.add_argument("--changed", metavar="BASE", help=changed)
    words.add_argument("--sample", type=int, metavar="N", help="only so many, chosen by the commit")
    into = "try nothing: lay them into the repository there, and print where they lie"
    words.add_argument("--into", type=pathlib.Path, metavar="FOLDER", help=into)
    return words.parse_args()


def main() -> int:
    """Tries the edits that are asked for, and answers 0 where each is refused."""
    options = read_options()
    if unknown := sorted({*options.crates} - {*crates()}):
        sys.exit(f"refuse.py: there is no crate {', '.join(unknown)}")
    edits = refused()
    for edit in edits:
        if why := why_not(edit):
            sys.exit(f"{edit.written.relative_to(TOP)}: {why}")
    wanted = set(options.crates) | (changed_since(options.changed) if options.changed else set())
    if options.crates or options.changed:
        edits = [it for it in edits if it.crate in wanted]
    if options.sample:
        edits = sample_of(edits, options.sample)
    if options.into:
        print("\n".join(str(it) for it in lay(edits, options.into)))
        return 0
    counts = tried(edits) if edits else Counter[str]()
    print(f"{len(edits)} edits: {', '.join(f'{number} {name}' for name, number in counts.items()) or 'none tried'}")
    return 0 if sum(counts[it] for it in WELL) == len(edits) else 1


if __name__ == "__main__":
    end_with(main)

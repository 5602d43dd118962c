#!/usr/bin/env python3
"""Measures what it takes to prove each crate from nothing, and prints the table of docs/PROVING.md, or writes it there.

usage: tools/gate_times.py [--write] [--jobs N]

Each crate is checked in a copy of the repository over nothing that was kept, by one job. How long a function takes is
read off the files that the check leaves, by the times at which they were written.
"""

from __future__ import annotations

import argparse
import collections
import concurrent.futures
import importlib
import os
import pathlib
import re
import shutil
import subprocess
import sys
import tempfile
from typing import Any

TOP = pathlib.Path(__file__).resolve().parent.parent
sys.dont_write_bytecode = True
sys.path.append(str(TOP / "conformance"))

import sources  # noqa: E402: these stand in the folder that was just named
from ending import end_with  # noqa: E402

PAGE = TOP / "docs/PROVING.md"
BEGIN, END = "<!-- the table of tools/gate_times.py begins -->\n", "<!-- the table of tools/gate_times.py ends -->\n"
DEAREST = 3
# A crate's row, and the seconds of a processor that it took.
Measured = tuple[str, float]


def toolchain() -> Any:
    """The toolchain's own module, which knows how it calls the prover and stands beside the command `rt`."""
    command = shutil.which("rt")
    if not command:
        sys.exit("tools/gate_times.py: there is no command rt")
    sys.path.append(str(pathlib.Path(command).resolve().parent))
    return importlib.import_module("rtlib")


def dearest(kept: pathlib.Path) -> list[tuple[str, float]]:
    """The functions of a check that took the longest, each with its seconds."""
    files = sorted((it.stat().st_mtime_ns, it.name) for it in kept.rglob("*.oantt") if it.parent.name != "records")
    seconds: dict[str, float] = collections.defaultdict(float)
    for (before, _), (after, name) in zip(files, files[1:]):
        found = re.match(r"Rattle-\w+-proofs\.(.*)\.oantt$", name)
        if found:
            parts = found[1].split(".")
            while parts and parts[-1][0].isupper():
                parts.pop()
            # A module of its own has no more than its file's name. A generic function has a plus before its name.
            if len(parts) > 1:
                seconds["::".join(parts).replace("+", "")] += (after - before) / 1e9
    return sorted(seconds.items(), key=lambda it: it[1], reverse=True)[:DEAREST]


def measure(rtlib: Any, crate: Any) -> Measured:
    """Checks a crate over nothing, and then builds it for those above."""
    kept = pathlib.Path(crate.folder) / "out/incremental"
    kept.mkdir(parents=True)
    words = [rtlib.RATTLE, "check", *crate.words(["--jobs", "1"], keeps=False), "--incremental", str(kept)]
    with tempfile.TemporaryFile("w+", errors="replace") as said:
        ran = subprocess.Popen(words, cwd=crate.folder, stdin=subprocess.DEVNULL, stdout=said, stderr=said)
        _, status, used = os.wait4(ran.pid, 0)
        said.seek(0)
        text = said.read()
    if status:
        sys.exit(f"{crate.name} is not proved:\n{text[-2000:]}")
    functions = re.findall(r"functions=(\d+)", text)[-1]
    if not crate.is_program:
        subprocess.run(["rt", "lib"], cwd=crate.folder, check=True, stdin=subprocess.DEVNULL, stdout=subprocess.DEVNULL)
    seconds: float = used.ru_utime + used.ru_stime
    told = ", ".join(f"`{it}` {round(time)}" for it, time in dearest(kept))
    return f"| `{crate.name}` | {functions} | {round(seconds)} | {told} |", seconds


def measure_all(rtlib: Any, crates: list[Any], jobs: int) -> list[Measured]:
    """Checks all crates, which come behind those below them, as many side by side as jobs."""
    rows: dict[str, concurrent.futures.Future[Measured]] = {}

    def work(crate: Any) -> Measured:
        concurrent.futures.wait([rows[it.name] for it in crate.below()])
        row = measure(rtlib, crate)
        print(row[0], file=sys.stderr, flush=True)
        return row

    with concurrent.futures.ThreadPoolExecutor(jobs) as pool:
        for crate in crates:
            rows[crate.name] = pool.submit(work, crate)
        return [rows[it.name].result() for it in crates]


def table(rows: list[Measured]) -> str:
    """The table of the page."""
    head = "| Crate | Functions | Seconds of a processor | Dearest functions, in seconds |\n| --- | --- | --- | --- |\n"
    total = round(sum(seconds for _, seconds in rows) / 60)
    return head + "".join(f"{row}\n" for row, _ in rows) + f"| all | | {total} minutes | |\n"


def main() -> None:
    """Measures all crates, and prints or writes the table."""
    words = argparse.ArgumentParser(prog="tools/gate_times.py", description=__doc__.split("\n")[0])
    words.add_argument("--write", action="store_true", help="write the table into docs/PROVING.md")
    words.add_argument("--jobs", type=int, default=1, help="how many crates are checked side by side")
    options = words.parse_args()
    rtlib = toolchain()
    with tempfile.TemporaryDirectory(prefix="gate-times-") as name:
        sources.copy_of(pathlib.Path(name))
        os.chdir(name)
        crates = [it for it in rtlib.crates_below(name) if it.name != "zk_tests"]
        made = table(measure_all(rtlib, sorted(crates, key=lambda it: len(it.below())), options.jobs))
        os.chdir(TOP)
    if options.write:
        page = PAGE.read_text("utf-8")
        before, _, rest = page.partition(BEGIN)
        PAGE.write_text(before + BEGIN + made + END + rest.partition(END)[2], "utf-8")
    else:
        print(made, end="")


if __name__ == "__main__":
    end_with(main)

#!/usr/bin/env python3
"""Plants slips by rule in the page, in the module's JavaScript and in files of C, and tells which no test refuses.

usage: conformance/plant_web.py [-v] [--file NAME]... [--only WORDS] [--sample N] [--seed WORDS] [--list] [--cases N]
                                [--jobs N]

Each plant is a changed copy of one file. README.md describes the rules, and the tests that refuse.
"""

from __future__ import annotations

import argparse
import collections
import concurrent.futures
import contextlib
import json
import os
import pathlib
import queue
import re
import shutil
import signal
import subprocess
import sys
import tempfile
import threading
import time
from collections.abc import Iterable
from typing import IO, Any, NamedTuple, Optional

from planting import Outcome, Outcomes, Plant, known_survivors, sample, table
from planting_web import all_plants, marked
from sources import FOLDER, TOP

KNOWN = FOLDER / "plants/survivors_web"
# The tests of web/tests.js that come to a file, in parts that run one after another; of the rows, so many are played.
QUICK = ("windows figures firstCharacters lastLines limits wordsOfReasons snapshotRefusals full worker blorbs examples "
         "refusedRequests refusedCalls seeds refusals")
PARTS = {
    "web/zkit.js": (QUICK, "snapshots rows", "listings"),
    "web/player.js": ("examples seeds inputs", "rows commands"),
    "web/play.js": ("commands",),
}
ROWS, STORIES = 200, 9
# What else these tests look at, and how long a part may take, in seconds.
LOOKED_AT = {"web/page/sums.js": "sums", "web/page/worker.js": "worker"}
SECONDS = 60
# So many tests of the page are run for a plant at most, if the command line does not say how many.
CASES = 20
MARK = '(self.$came ||= new Set()).has("{}") || (self.$came.add("{}"), console.debug("came {}"));'

# The tests that refused plants of a function and of a file, the last of them first.
REFUSED: dict[str, list[str]] = collections.defaultdict(list)


class Case(NamedTuple):
    """A test of the page: how long it takes, in milliseconds, and the functions that it comes to."""

    name: str
    took: int
    came: frozenset[str]


def path_of(plant: Plant) -> str:
    """The path of a plant's file."""
    return f"{plant.crate}/{plant.file}"


def run(words: Iterable[object], folder: pathlib.Path, seconds: float = SECONDS) -> tuple[int, str]:
    """Runs a command with all that it begins, and answers its status and what it says; -1 where it has no end."""
    with subprocess.Popen([str(it) for it in words], cwd=folder, env=within(folder), stdin=subprocess.DEVNULL,
                          stdout=subprocess.PIPE, stderr=subprocess.STDOUT, text=True, errors="replace",
                          start_new_session=True) as child:
        try:
            said, _ = child.communicate(timeout=seconds)
        except subprocess.TimeoutExpired:
            os.killpg(child.pid, signal.SIGKILL)
            return -1, ""
    return child.returncode, said


def within(folder: pathlib.Path) -> dict[str, str]:
    """The environment of a program that leaves what it makes for a while in a folder, if that is not the sources'."""
    return {**os.environ, **({} if folder == TOP else {"TMPDIR": str(folder)})}


def refused(kind: str, status: int, said: str) -> Optional[Outcome]:
    """What came of tests that have ended with a status."""
    if status == 0:
        return None
    lines = said.splitlines()
    wanted = "differs: |refused: |rror|heap_test: "
    told = [it for it in lines if re.search(wanted, it)] or lines or [f"status {status}"]
    return Outcome("no end", kind) if status == -1 else Outcome(kind, told[0][:200])


class Browser:
    """The tests of the page in a browser, for one page after another."""

    def __init__(self, folder: pathlib.Path) -> None:
        self.folder = folder
        self.child: Optional[subprocess.Popen[str]] = None
        self.lines: queue.Queue[str] = queue.Queue()

    def begin(self) -> subprocess.Popen[str]:
        """Begins the browser, if it does not run."""
        if not self.child:
            words = ["node", str(TOP / "web/page_tests/plants.mjs")]
            self.child = subprocess.Popen(words, env=within(self.folder), stdin=subprocess.PIPE, stdout=subprocess.PIPE,
                                          stderr=subprocess.DEVNULL, text=True, start_new_session=True)
            self.lines = queue.Queue()
            threading.Thread(target=hear, args=(self.child.stdout, self.lines), daemon=True).start()
            self.answer(60)
        return self.child

    def end(self) -> None:
        """Ends the browser, whatever it does."""
        if self.child:
            os.killpg(self.child.pid, signal.SIGKILL)
            self.child.wait()
        self.child = None

    def answer(self, seconds: float) -> dict[str, Any]:
        """The next line that the tests write."""
        try:
            line = self.lines.get(timeout=seconds)
        except queue.Empty:
            line = '{"refused": "no end", "name": "the browser"}'
        found: dict[str, Any] = json.loads(line or '{"refused": "the browser has ended", "name": "the browser"}')
        return found

    def run(self, page: pathlib.Path, cases: list[tuple[str, int, int]]) -> list[dict[str, Any]]:
        """Runs cases up to the first that refuses a page: each with its longest wait, and how long it may take."""
        child = self.begin()
        assert child.stdin
        child.stdin.write(json.dumps({"page": str(page), "cases": cases}) + "\n")
        child.stdin.flush()
        came: list[dict[str, Any]] = []
        while True:
            came.append(self.answer(5 * max(it[2] for it in cases) / 1000 + 30))
            if "end" in came[-1]:
                return came[:-1]
            if came[-1]["name"] == "the browser":
                self.end()
                return came


def hear(stream: Optional[IO[str]], lines: queue.Queue[str]) -> None:
    """Puts each line of a stream into a queue, and an empty one behind the last."""
    for line in stream or ():
        lines.put(line)
    lines.put("")


class Worker:
    """A copy of what the tests take, in which plants are tried one after another."""

    def __init__(self, folder: pathlib.Path) -> None:
        self.folder, self.room, self.browser = folder, folder / "room", Browser(folder)
        for name in ("web", "examples", "conformance", "screen"):
            shutil.copytree(TOP / name, folder / name, symlinks=True)
        for name in ("dist", "include"):
            (folder / name).symlink_to(TOP / name)
        test = folder / "screen/test"
        test.write_text(test.read_text(encoding="utf-8").replace("seq 400", "seq 200"), encoding="utf-8")

    def prepare(self) -> None:
        """Makes what web/tests.js takes, once."""
        if self.room.exists():
            return
        self.room.mkdir()
        run([self.folder / "conformance/run.py", "--write", self.room], self.folder)
        rows = json.loads((self.room / "rows.json").read_text(encoding="utf-8"))
        step = max(1, len(rows) // ROWS)
        (self.room / "rows.json").write_text(json.dumps(rows[::step]), encoding="utf-8")
        run([self.folder / "web/generated.py", self.room, STORIES], self.folder)
        run([self.folder / "conformance/case_files.py", TOP / "examples/embed/large.cases", self.room], self.folder)
        run(["cc", "-std=c99", "-O2", f"-I{TOP / 'include'}", "-o", self.room / "kept",
             TOP / "examples/embed/kept.c", TOP / "dist/libzkit.a"], self.folder)

    def by_node(self, part: str) -> Optional[Outcome]:
        """Runs some tests of web/tests.js."""
        self.prepare()
        words = [TOP / "dist/zkit.wasm", TOP / "dist/zkit", self.room, STORIES, *part.split()]
        return refused("tests.js", *run(["node", self.folder / "web/tests.js", *words], self.folder))

    def by_heap_test(self) -> Optional[Outcome]:
        """Runs the tests of the module's memory."""
        status, said = run([self.folder / "heap_test"], self.folder, 20)
        return refused("heap_test", status, said)

    def by_program(self, test: str, *words: str) -> Optional[Outcome]:
        """Runs the test of a program. A terminal that this leaves where it has no end is ended."""
        came = run([self.folder / test, *words], self.folder, 90)
        for socket in self.folder.glob("tmp.*/socket*"):
            run(["tmux", "-S", socket, "kill-server"], self.folder)
        return refused(test, *came)

    def page(self) -> pathlib.Path:
        """Makes the page of this copy."""
        made = self.folder / "page.html"
        words = [sys.executable, self.folder / "web/make_page.py", TOP / "dist/zkit.wasm", made]
        status, said = run(words, self.folder)
        if status:
            sys.exit(f"the page is not made: {said}")
        return made

    def by_page(self, plant: Plant, cases: list[Case], most: int) -> Optional[Outcome]:
        """Runs tests of the page up to the first that refuses it, those first that refused others of its place."""
        places = f"{path_of(plant)} {plant.function}", path_of(plant)
        before = list(dict.fromkeys(it for place in places for it in REFUSED[place]))
        chosen = sorted(cases, key=lambda it: before.index(it.name) if it.name in before else len(before))[:most]
        limits = [(it.name, 2500 + it.took // 2, 15000 + 3 * it.took) for it in chosen]
        for it in self.browser.run(self.page(), limits) if limits else ():
            if it["refused"]:
                for place in places:
                    REFUSED[place] = [it["name"], *(name for name in REFUSED[place] if name != it["name"])]
                kind = "no end" if it["refused"] == "no end" else "page"
                return Outcome(kind, f"{it['name']}: {' '.join(it['refused'].split())[:200]}")
        return None

    def compiles(self, path: str) -> bool:
        """Whether a file is one of its language."""
        if path.endswith(".js"):
            copy = self.folder / "copy.mjs"
            shutil.copy(self.folder / path, copy)
            return run(["node", "--check", copy], self.folder)[0] == 0
        if path == "web/heap.c":
            words = ["-std=c11", "-O1", "-g", "-Wall", "-Wextra", "-Wpedantic", "-Werror", "-fno-sanitize-recover=all"]
            return run(["gcc", *words, "-fsanitize=address,undefined", f"-I{TOP / 'include'}", "-o",
                        self.folder / "heap_test", self.folder / "web/heap_test.c"], self.folder)[0] == 0
        standard = "-std=c11" if path.startswith("screen/") else "-std=c99"
        words = ["cc", standard, "-O0", "-Wall", "-Wextra", "-Wpedantic", "-Werror", f"-I{TOP / 'include'}", "-c"]
        return run([*words, "-o", os.devnull, self.folder / path], self.folder)[0] == 0

    def tests(self, plant: Plant, cases: list[Case], most: int) -> Optional[Outcome]:
        """Runs the tests of a plant's file."""
        path = path_of(plant)
        if path in PARTS:
            return next((it for part in PARTS[path] if (it := self.by_node(part))), None)
        if path == "web/heap.c":
            return self.by_heap_test()
        if path.startswith("screen/"):
            return self.by_program("screen/test")
        if path == "examples/embed/play.c":
            return self.by_program("examples/embed/test", "--play")
        outcome = self.by_node(LOOKED_AT[path]) if path in LOOKED_AT else None
        return outcome or self.by_page(plant, cases, most)

    def tried(self, plant: Plant, cases: list[Case], most: int) -> tuple[bool, Optional[Outcome]]:
        """Puts a plant into its file, and answers whether that compiles and what refuses it."""
        path = path_of(plant)
        place = self.folder / path
        text = place.read_text(encoding="utf-8")
        place.write_text(plant.planted(text), encoding="utf-8")
        try:
            return (True, self.tests(plant, cases, most)) if self.compiles(path) else (False, None)
        finally:
            place.write_text(text, encoding="utf-8")


# All plants.


class Workers:
    """Some workers, of which each tries a plant at a time."""

    def __init__(self, folder: pathlib.Path, jobs: int, most: int) -> None:
        self.most = most
        self.all = [Worker(folder / str(number)) for number in range(jobs)]
        self.free: queue.Queue[Worker] = queue.Queue()
        for worker in self.all:
            self.free.put(worker)
        self.names = [it for it in names_of_cases() if it]

    def reach(self, names: list[str]) -> list[Case]:
        """Runs tests of the page without a plant, and answers which functions they come to."""
        worker, found, tries = self.free.get(), dict[str, Case](), 0
        while left := [it for it in names if it not in found]:
            for it in worker.browser.run(worker.folder / "marked.html", [(it, 40000, 180000) for it in left]):
                if not it["refused"]:
                    found[it["name"]] = Case(it["name"], it["ms"], frozenset(it["came"]))
                    tries = 0
                elif (tries := tries + 1) > 2:
                    raise SystemExit(f"without a plant this refuses the page: {it['name']}: {it['refused']}")
        self.free.put(worker)
        return list(found.values())

    def reached(self, pool: concurrent.futures.Executor) -> list[Case]:
        """Runs all tests of the page, each with marks in it."""
        for worker in self.all:
            for path in sorted((worker.folder / "web/page").glob("*.js")):
                if path.name != "worker.js":
                    path.write_text(marked(path, MARK), encoding="utf-8")
            worker.page().rename(worker.folder / "marked.html")
            for path in (TOP / "web/page").glob("*.js"):
                shutil.copy(path, worker.folder / "web/page")
        parts = [self.names[it::len(self.all)] for it in range(len(self.all))]
        found = [it for part in pool.map(self.reach, parts) for it in part]
        return sorted(found, key=lambda it: it.took * len(it.came))

    def tried(self, plant: Plant, cases: list[Case]) -> tuple[bool, Optional[Outcome]]:
        """Tries a plant by a worker that is free."""
        name, has_marks = f"{plant.file} {plant.function}", plant.function != "-" and plant.file != "worker.js"
        worker = self.free.get()
        try:
            return worker.tried(plant, [it for it in cases if name in it.came or not has_marks], self.most)
        finally:
            self.free.put(worker)


def names_of_cases() -> list[str]:
    """The names of the tests of the page."""
    script = 'import("./web/page_tests/cases.mjs").then(({ CASES }) => CASES.forEach(([name]) => console.log(name)))'
    return run(["node", "-e", script], TOP)[1].splitlines()


def try_all(plants: list[Plant], options: argparse.Namespace, folder: pathlib.Path) -> Outcomes:
    """Tries plants, tells of each that nothing refuses, and answers what refuses those that compile."""
    outcomes: Outcomes = {}
    workers, lock = Workers(folder, options.jobs, options.cases), threading.Lock()
    with concurrent.futures.ThreadPoolExecutor(options.jobs) as pool, contextlib.ExitStack() as stack:
        for worker in workers.all:
            stack.callback(worker.browser.end)
        stack.callback(pool.shutdown, cancel_futures=True)
        has_pages = any(path_of(it).startswith("web/page/") for it in plants)
        cases = workers.reached(pool) if has_pages else []
        jobs = {pool.submit(workers.tried, plant, cases): plant for plant in plants}
        for job in concurrent.futures.as_completed(jobs):
            plant, (compiles, outcome) = jobs[job], job.result()
            with lock:
                if compiles:
                    outcomes[plant.number] = outcome
                if compiles and not outcome:
                    print(f"survives: {plant.name()}", flush=True)
                elif options.v:
                    what = f"{outcome.kind}: {outcome.what}" if outcome else "does not compile"
                    print(f"refused: {plant.name()}: {what}", flush=True)
    return outcomes


def read_options() -> argparse.Namespace:
    """What the command line says."""
    words = argparse.ArgumentParser(prog="conformance/plant_web.py", description=(__doc__ or "").split("\n")[0])
    words.add_argument("-v", action="store_true", help="say for each plant what refuses it")
    words.add_argument("--file", action="append", metavar="NAME", help="only plants of files with this in their path")
    words.add_argument("--only", default="", metavar="WORDS", help="only plants whose name has these words")
    words.add_argument("--sample", type=int, metavar="N", help="only so many plants, the same ones each time")
    words.add_argument("--seed", default="", help="another sample for each seed")
    words.add_argument("--list", action="store_true", help="try nothing: print the plants")
    words.add_argument("--cases", type=int, default=CASES, metavar="N", help="so many tests of the page at most")
    words.add_argument("--jobs", type=int, default=2, help="how many plants are tried side by side")
    return words.parse_args()


def main() -> int:
    """Tries the plants that are asked for, and answers 1 where one survives that is not known to."""
    # what ends this ends its browsers too
    signal.signal(signal.SIGTERM, lambda *_: sys.exit(1))
    options, begun = read_options(), time.monotonic()
    plants = [it for it in all_plants() if not options.file or any(name in path_of(it) for name in options.file)]
    plants = [it for it in plants if options.only in it.name()]
    if options.sample:
        plants = sample(plants, options.sample, options.seed)
    if options.list:
        print("\n".join(it.name() for it in plants))
        return 0
    with tempfile.TemporaryDirectory(prefix="plant-") as folder:
        outcomes = try_all(plants, options, pathlib.Path(folder))
    table(sorted(plants, key=lambda it: it.number), outcomes, path_of)
    known = known_survivors(KNOWN)
    left = [it for it in plants if outcomes.get(it.number, 0) is None and it.key() not in known]
    minutes, seconds = divmod(round(time.monotonic() - begun), 60)
    print(f"{len(left)} plants survive that are not known to ({minutes} min {seconds} s)")
    return 1 if left else 0


if __name__ == "__main__":
    sys.exit(main())

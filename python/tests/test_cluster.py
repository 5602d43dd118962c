"""The explorer on a cluster: tasks, plans, and a local cluster of dask.distributed, if there is one."""

from __future__ import annotations

import contextlib
import functools
import io
import json
import os
import shutil
import signal
import subprocess
import sys
import time
import unittest
import zlib
from pathlib import Path
from unittest import mock

from helping import EXAMPLES, example, small
from test_explore import PAGE, InFolder, environment
from zkit.explore.__main__ import main
from zkit.explore.causes import Kind, Wanted
from zkit.explore.chance import Chance
from zkit.explore.explored import Share
from zkit.explore.explorer import Settings
from zkit.explore.lead_pool import LeadPool
from zkit.explore.leads import Lead
from zkit.explore.plan import Plan
from zkit.explore.plays import Trail
from zkit.explore.tasks import Task, packed_task, work

PYTHONS = (sys.executable, "/usr/bin/python3")
NO_CLUSTER = "there is no Python with distributed: the explorer on a cluster"
SCHEDULER = """
from distributed import LocalCluster
if __name__ == "__main__":
    with LocalCluster(
        n_workers=1, threads_per_worker=1, dashboard_address=None, processes=False, protocol="tcp"
    ) as cluster:
        print(cluster.scheduler_address, flush=True)
        input()
"""
STORY = """Array line -> 62; Array words -> 42; Global helpers = 0;
[ Main;
    print "Quay^The sea.^";
    while (1) {
        print "^>"; line->0 = 60; words->0 = 10; read line words;
        switch (words-->1) {
            'call': helpers++; print "You have ", helpers, " helpers.^";
            'share': if (helpers == 3) print 60 / (helpers - 3); print "No.^";
            'win': print "*** Won ***^";
        }
    }
];
"""


@functools.lru_cache(maxsize=None)
def python() -> str:
    """A Python that has dask.distributed, or nothing."""
    for name in PYTHONS:
        if shutil.which(name):
            ended = subprocess.run([name, "-c", "import distributed"], capture_output=True)
            if ended.returncode == 0:
                return name
    return ""


def children(process: int) -> list[int]:
    """The processes below another one."""
    found: list[int] = []
    for task in Path(f"/proc/{process}/task").iterdir():
        found += map(int, (task / "children").read_text("ascii").split())
    return found + [below for it in found for below in children(it)]


class Tasks(unittest.TestCase):
    """What a task tells, and the next tasks."""

    def done(self, plan: Plan, name: str) -> tuple[Share, Task]:
        share, task = plan.next()
        plan.take(share, task, work(zlib.compress(bytes(example(name))), packed_task(task)))
        return share, task

    def test_plan(self) -> None:
        trails = (Trail(7, ("north",)), Trail(8, ()))
        plan = Plan(Settings(seed=3, turns=1_000, wanted=Wanted((), ("Shore Path",))), trails, 3)
        tasks = []
        while not plan.is_over():
            tasks.append(self.done(plan, "lighthouse.z5")[1])
        self.assertEqual([it.settings.turns for it in tasks], [334, 334, 332])
        self.assertEqual([it.settings.seed for it in tasks], [3, 1_000_006, 2_000_009])
        self.assertEqual([it.trails for it in tasks], [trails[:1], trails[1:], trails[:1]])
        merged = plan.merged
        self.assertEqual(merged.turns, 1_000)
        self.assertGreater(len(tasks[2].leads), 5)
        self.assertGreater(len(tasks[2].texts), len(tasks[1].texts))
        self.assertEqual([find.sign.cause.kind for find in merged.finds], [Kind.GOAL])
        self.assertEqual(len(tasks[2].finds), 1)
        self.assertEqual([job.number for job in merged.jobs], [1, 2, 3])
        self.assertEqual(merged.kept, sum(job.kept for job in merged.jobs))

    def test_same(self) -> None:
        # a task that is given out again tells the same
        _, task = Plan(Settings(turns=200), (), 1).next()
        story = zlib.compress(bytes(example("lighthouse.z3")))
        self.assertEqual(work(story, packed_task(task)), work(story, packed_task(task)))

    def test_left(self) -> None:
        plan = Plan(Settings(turns=100), (), 2)
        _, task = plan.next()
        plan.give_back(task)
        self.assertEqual([plan.next()[1].settings.turns for _ in range(2)], [50, 50])
        self.assertTrue(plan.is_over())
        self.assertTrue(Plan(Settings(seconds=0), (), 2).is_over())

    def test_ends(self) -> None:
        # a story that ends at once
        _, task = Plan(Settings(), (), 1).next()
        content = work(zlib.compress(bytes(small("fault.z5"))), packed_task(task))
        self.assertIn(b"fault", zlib.decompress(content))

    def test_leads(self) -> None:
        pool = LeadPool(Chance(1))
        self.assertEqual(pool.choose(5), ())
        leads = [Lead(Trail(1, ("a",) * count), "", (), ()) for count in (3, 1, 2)]
        pool.add(leads)
        pool.add(leads)
        lengths = [[len(lead.trail.lines) for lead in pool.choose(9)] for _ in range(4)]
        self.assertEqual(lengths, [sorted(it) for it in lengths])
        self.assertEqual(set().union(*lengths), {1, 2, 3})


class Refused(unittest.TestCase):
    """What can't be used is told in words."""

    def refused(self, words: str, address: str) -> None:
        errors = io.StringIO()
        with contextlib.redirect_stderr(errors), self.assertRaises(SystemExit) as raised:
            main([str(EXAMPLES / "hello.z3"), "--cluster", address])
        self.assertEqual(raised.exception.code, 1)
        self.assertIn(words, errors.getvalue())

    def test_missing(self) -> None:
        with mock.patch.dict(sys.modules, {"distributed": None}):
            self.refused("--cluster needs Dask's package distributed, which is not installed", "local")

    def test_addresses(self) -> None:
        with mock.patch.dict(sys.modules, {"distributed": mock.Mock()}):
            self.refused("nonsense is no address of a scheduler, such as tcp://", "nonsense")
            self.refused("tcp://127.0.0.1:9: no scheduler answers", "tcp://127.0.0.1:9")
            self.refused("tcp://127.0.0.1:99999: no scheduler answers", "tcp://127.0.0.1:99999")


class Clusters(InFolder):
    """Clusters of this machine."""

    def setUp(self) -> None:
        super().setUp()
        if not python():
            self.skipTest(NO_CLUSTER)
        if not shutil.which("inform6"):
            self.skipTest("there is no command inform6: the explorer on a cluster")
        (self.folder / "story.inf").write_text(STORY, "utf-8")
        subprocess.run(["inform6", "-~S", "-v5", "story.inf"], cwd=self.folder, stdout=subprocess.PIPE, check=True)

    def begun(self, *words: str) -> subprocess.Popen[str]:
        """Explores the story."""
        command = [python(), "-m", "zkit.explore", "story.z5", "--into", "finds", "--json", "report", *words]
        return subprocess.Popen(
            command, cwd=self.folder, env=environment(), stdout=subprocess.PIPE, stderr=subprocess.PIPE, text=True
        )

    def report(self) -> dict[str, list[dict[str, object]]]:
        report: dict[str, list[dict[str, object]]] = json.loads((self.folder / "report").read_text("utf-8"))
        return report

    def check(self, turns: int) -> None:
        """All that is in the story was found."""
        report = self.report()
        finds = [(find["kind"], find["lines"]) for find in report["finds"]]
        self.assertEqual(sorted(finds), [("alarm", ["win"]), ("fault", ["call", "call", "call", "share"])])
        self.assertEqual(report["turns"], turns)
        self.assertIn("fault 8 at", self.played(self.folder / "finds").stdout)

    def wait(self) -> None:
        """Waits for the first find."""
        end = time.monotonic() + 60
        while not (self.folder / "finds/find-001.walkthrough").exists() and time.monotonic() < end:
            time.sleep(0.05)

    def test_killed(self) -> None:
        words = ("--cluster", "local", "--jobs", "2", "--turns", "40000", "--alarm", "Won")
        with self.begun(*words) as process:
            self.wait()
            workers = [it for it in children(process.pid) if b"-fork" in Path(f"/proc/{it}/cmdline").read_bytes()]
            self.assertEqual(len(workers), 2)
            os.kill(workers[0], signal.SIGKILL)
            shown, errors = process.communicate()
        self.assertEqual(process.returncode, 2, errors)
        self.assertIn("jobs, at most", shown)
        self.check(40_000)
        self.assertEqual({it["ended"] for it in self.report()["jobs"]}, {None})
        if errors:
            # (Dask itself may write lines of its own below, where a message to the worker was under way)
            self.assertRegex(errors, r"^zkit.explore: the worker at tcp://\S+ has gone; its task is given out again\n")

    def test_interrupt(self) -> None:
        with self.begun("--cluster", "local", "--minutes", "5", "--alarm", "Won") as process:
            self.wait()
            process.send_signal(signal.SIGINT)
            shown, errors = process.communicate()
        self.assertEqual((process.returncode, errors), (130, ""))
        self.assertIn("interrupted after ", shown)
        self.assertIn("find-001.walkthrough", shown)

    def scheduler(self) -> tuple[subprocess.Popen[str], str]:
        """A scheduler with a worker, which ends when it is given a line, and its address."""
        (self.folder / "scheduler.py").write_text(SCHEDULER, "utf-8")
        scheduler = subprocess.Popen(
            [python(), "scheduler.py"], cwd=self.folder, env=environment(), stdin=subprocess.PIPE,
            stdout=subprocess.PIPE, stderr=subprocess.DEVNULL, text=True,
        )
        assert scheduler.stdout is not None
        return scheduler, scheduler.stdout.readline().strip()

    def test_scheduler(self) -> None:
        scheduler, address = self.scheduler()
        with scheduler:
            words = ("--turns", "5000", "--alarm", "Won", "--cover", "ran")
            with self.begun("--cluster", address, *words) as process:
                _, errors = process.communicate()
            scheduler.communicate("\n")
        self.assertEqual((process.returncode, errors), (2, ""))
        self.check(5_000)
        addresses = (self.folder / "ran").read_text("utf-8").splitlines()[1:]
        self.assertEqual(len(addresses), self.report()["ran"])
        self.assertGreater(len(addresses), 20)

    def test_scheduler_gone(self) -> None:
        scheduler, address = self.scheduler()
        with scheduler, self.begun("--cluster", address, "--minutes", "5", "--alarm", "Won") as process:
            self.wait()
            scheduler.kill()
            shown, errors = process.communicate()
        self.assertEqual(process.returncode, 2)
        self.assertIn("the scheduler has gone", errors)
        self.assertNotIn("Traceback", errors)
        self.assertIn("find-001.walkthrough", shown)

    def test_page(self) -> None:
        self.assertIn("--cluster local", PAGE.read_text("utf-8"))

"""The explorer: finds, their walkthroughs, the same finds for a seed, options and exit statuses, and its page."""

from __future__ import annotations

import contextlib
import io
import json
import os
import pty
import re
import shutil
import signal
import subprocess
import sys
import tempfile
import time
import unittest
from collections.abc import Callable
from pathlib import Path
from typing import Optional
from unittest import mock

from helping import EXAMPLES, PROGRAM, TOP, example, small
from test_docs import BLOCK
from test_stories import blorb
from zkit import Awaits, Reply, Status, Stop, StopKind, Story
from zkit.explore import walkthroughs
from zkit.explore.__main__ import main, status
from zkit.explore.causes import Cause, Kind, Sign, Wanted, signs, without_numbers
from zkit.explore.chance import Chance, Deck
from zkit.explore.explored import Share
from zkit.explore.explorer import Explorer, Settings
from zkit.explore.finds import Find, Finds
from zkit.explore.folder import Folder, text_of
from zkit.explore.leads import Lead
from zkit.explore.lines import Writer
from zkit.explore.log import Log, Tail
from zkit.explore.merged import Merged
from zkit.explore.messages import Teller
from zkit.explore.names import program_of
from zkit.explore.parts import Part
from zkit.explore.player import Player
from zkit.explore.plays import Trail, begin, replay
from zkit.explore.report import as_json, as_text
from zkit.explore.seen import Seen, place_of
from zkit.explore.shorten import Lines, Shortener
from zkit.explore.vocabulary import vocabulary_of

PAGE = TOP / "docs/manual/exploring.md"
NO_INFORM = "there is no command inform6: the planted story and the example of docs/manual/exploring.md"
WANTED = Wanted(("TODO",), ("is across",))
# what differs from run to run, or between versions of Inform
VARYING = (re.compile(r"[\d,]+ a second"), re.compile(r"\b[0-9a-f]{5}\b"), re.compile(r"(?<=ran )\d.* in the code"))


def environment(**variables: str) -> dict[str, str]:
    """The environment of a process that explores."""
    path = f"{PROGRAM.parent}:{os.environ['PATH']}"
    return {**os.environ, "PYTHONPATH": str(TOP / "python"), "PYTHONDONTWRITEBYTECODE": "1", "PATH": path, **variables}


def jobs_of(process: int) -> list[int]:
    """The processes that explore for another one."""
    children = Path(f"/proc/{process}/task/{process}/children").read_text("ascii").split()
    return [int(it) for it in children if b"spawn_main" in Path(f"/proc/{it}/cmdline").read_bytes()]


def blocks() -> list[tuple[str, str]]:
    """The kind and the text of each block of the page."""
    return [(it[1], it[2]) for it in BLOCK.finditer(PAGE.read_text("utf-8"))]


def same(text: str) -> str:
    """A text without what varies."""
    for varying in VARYING:
        text = varying.sub("..", text)
    return text


class InFolder(unittest.TestCase):
    """A test with a folder of its own."""

    def setUp(self) -> None:
        folder = tempfile.TemporaryDirectory()
        self.addCleanup(folder.cleanup)
        self.folder = Path(folder.name).resolve()

    def explore(self, *words: object, **variables: str) -> subprocess.CompletedProcess[str]:
        """Explores in the folder."""
        command = [sys.executable, "-m", "zkit.explore", *map(str, words)]
        return subprocess.run(
            command, cwd=self.folder, env=environment(**variables), capture_output=True, encoding="utf-8"
        )

    def played(self, path: Path) -> subprocess.CompletedProcess[str]:
        """Plays walkthroughs by `zkit test`."""
        return subprocess.run([PROGRAM, "test", path], capture_output=True, encoding="utf-8")

    def written(self, name: str, story: Story) -> Path:
        """A story as a file of the folder."""
        path = self.folder / name
        path.write_bytes(bytes(story))
        return path


class Planted(InFolder):
    """The story of the page, with three mistakes and an end."""

    @classmethod
    def setUpClass(cls) -> None:
        if not shutil.which("inform6"):
            raise unittest.SkipTest(NO_INFORM)

    def setUp(self) -> None:
        super().setUp()
        self.sh(blocks()[0][1])
        self.path = self.folder / "ferry.z5"

    def sh(self, script: str) -> str:
        ended = subprocess.run(
            ["sh", "-c", script], cwd=self.folder, env=environment(), stdout=subprocess.PIPE, encoding="utf-8"
        )
        return ended.stdout

    def test_page(self) -> None:
        kinds = blocks()
        shown = 0
        for index, (kind, script) in enumerate(kinds[1:], 1):
            if kind == "sh":
                self.assertEqual(same(self.sh(script)), same(kinds[index + 1][1]))
                shown += 1
        self.assertEqual(shown, 4)

    def test_same_for_a_seed(self) -> None:
        reports: list[tuple[bytes, dict[str, bytes]]] = []
        for name in ("one", "two"):
            words = ("--turns", 700, "--seed", 5, "--into", "finds", "--json", name, "--alarm", "TODO")
            self.assertEqual(self.explore(self.path, *words, PYTHONHASHSEED=str(len(reports))).returncode, 2)
            files = {path.name: path.read_bytes() for path in (self.folder / "finds").iterdir()}
            reports.append(((self.folder / name).read_bytes(), files))
        self.assertEqual(reports[0], reports[1])
        other = self.explore(self.path, "--turns", 700, "--seed", 6, "--json", "three")
        self.assertEqual(other.returncode, 2)
        self.assertNotEqual((self.folder / "three").read_bytes(), reports[0][0])

    def test_walkthroughs(self) -> None:
        words = ("--alarm", "TODO", "--goal", "is across", "--into", "a/b", "--json", "report", "--quiet")
        ended = self.explore(self.path, "--turns", 1500, *words)
        self.assertEqual((ended.returncode, ended.stdout, ended.stderr), (2, "", ""))
        report = json.loads((self.folder / "report").read_text("utf-8"))
        reasons = {
            "library error": "the library tells an error", "limit": "limit 3 at", "alarm": "found in the reply: TODO"
        }
        kinds = [find["kind"] for find in report["finds"]]
        self.assertEqual(sorted(kinds), sorted([*reasons, "goal"]))
        for find in report["finds"]:
            ended = self.played(self.folder / "a/b" / find["file"])
            self.assertEqual(ended.returncode, 0 if find["kind"] == "goal" else 1)
            self.assertIn(reasons.get(find["kind"], "passed"), ended.stdout)
        self.assertIn("# story: ../../ferry.z5\n", (self.folder / "a/b/find-001.walkthrough").read_text("utf-8"))

    def test_shortest(self) -> None:
        story = Story(self.path)
        explorer = Explorer(story, Settings(turns=1500, wanted=WANTED))
        explorer.run()
        self.assertEqual(len(explorer.finds), 4)
        for find in explorer.finds:
            self.assertTrue(find.is_shortest)
            lines = find.trail.lines
            self.assertIn(find.sign.cause.kind, self.kinds(story, find.trail))
            for index in range(len(lines)):
                without = Trail(find.trail.seed, lines[:index] + lines[index + 1:])
                self.assertNotIn(find.sign.cause.kind, self.kinds(story, without))

    def kinds(self, story: Story, trail: Trail) -> set[Kind]:
        return {sign.cause.kind for reply in replay(story, trail) for sign in signs(reply, WANTED)}

    def test_fault(self) -> None:
        # a walkthrough without a mistake, of which mutations make one
        self.sh("inform6 -~S -v5 ferry.inf bare.z5")
        walk = self.folder / "walk"
        walk.write_text("# seed: 7\n# a comment\n\\call\n! Somebody\n!~ Nobody\nshare\ncross\n", "utf-8")
        ended = self.explore("bare.z5", "--turns", 300, "--from", "walk", "--into", "finds")
        self.assertEqual(ended.returncode, 2)
        self.assertIn("fault: division by zero at 00", ended.stdout)
        self.assertIn("fault 8 at 00", self.played(self.folder / "finds").stdout)

    def test_errors(self) -> None:
        source = "[ Main; print \"Oops^*** Run-time problem P47: why^[** Programming error: ^in it **]^\"; ];"
        (self.folder / "errors.inf").write_text(source, "utf-8")
        self.sh("inform6 -v5 errors.inf")
        ended = self.explore("errors.z5", "--turns", 5, "--alarm", "Oops", "--into", "finds")
        self.assertEqual(ended.returncode, 2)
        self.assertIn("2 finds", ended.stdout)
        told = self.played(self.folder / "finds")
        self.assertIn("found in the reply: Oops", told.stdout)
        self.assertIn("the library tells an error", told.stdout)

    def interrupted(self, *words: str, number: int = signal.SIGINT, of_job: bool = False) -> tuple[int, str, str]:
        """Sends a signal when the first find is written: the status, and what was shown."""
        command = [sys.executable, "-m", "zkit.explore", str(self.path), "--into", "finds", *words]
        with subprocess.Popen(
            command, cwd=self.folder, env=environment(), stdout=subprocess.PIPE, stderr=subprocess.PIPE
        ) as process:
            begin = time.monotonic()
            while not (self.folder / "finds/find-001.walkthrough").exists() and time.monotonic() < begin + 60:
                time.sleep(0.05)
            os.kill(jobs_of(process.pid)[-1] if of_job else process.pid, number)
            shown, errors = process.communicate()
        return process.returncode, shown.decode(), errors.decode()

    def test_interrupt(self) -> None:
        for words in ((), ("--jobs", "2")):
            shutil.rmtree(self.folder / "finds", ignore_errors=True)
            (self.folder / "ran").unlink(missing_ok=True)
            status, shown, errors = self.interrupted("--minutes", "5", "--cover", "ran", *words)
            self.assertEqual((status, errors), (130, ""))
            self.assertGreater(len((self.folder / "ran").read_text("utf-8").splitlines()), 50)
            self.assertIn("find-001.walkthrough", shown)
            self.assertIn("interrupted after ", shown)

    def test_jobs(self) -> None:
        words = ("--turns", 3001, "--jobs", 3, "--alarm", "TODO", "--goal", "is across", "--into", "finds")
        ended = self.explore(self.path, *words, "--json", "report")
        self.assertEqual((ended.returncode, ended.stderr), (2, ""))
        self.assertIn("seed 1, 3 jobs, at most", ended.stdout)
        report = json.loads((self.folder / "report").read_text("utf-8"))
        kinds = ["alarm", "goal", "library error", "limit"]
        self.assertEqual(sorted(find["kind"] for find in report["finds"]), kinds)
        self.assertGreater(min(find["times"] for find in report["finds"]), 3)
        self.assertEqual(len(list((self.folder / "finds").iterdir())), 4)
        self.assertIn("1 passed, 3 failed", self.played(self.folder / "finds").stdout)
        self.assertEqual([it["turns"] for it in report["jobs"]], [1001, 1000, 1000])
        self.assertEqual((report["turns"], report["places"], report["jobs"][2]["ended"]), (3001, ["Quay"], None))
        self.assertIn("`jobs`", PAGE.read_text("utf-8"))

    def test_killed(self) -> None:
        words = ("--turns", "20000", "--jobs", "2", "--json", "report")
        status, shown, errors = self.interrupted(*words, number=signal.SIGKILL, of_job=True)
        self.assertEqual(status, 2)
        self.assertRegex(errors, r"^zkit.explore: job 2: killed by signal 9 after [\d,]+ turns?\n$")
        jobs = json.loads((self.folder / "report").read_text("utf-8"))["jobs"]
        self.assertEqual((jobs[0]["turns"], jobs[0]["ended"]), (10000, None))
        self.assertEqual(jobs[1]["ended"], "killed by signal 9")
        self.assertIn("library error: Programming error: tried to divide by zero", shown)


class Sources(InFolder):
    """Lines of the source, by the program zkit."""

    SOURCE = """Array line -> 60;
[ Share n; return 60 / n; ];
[ Main; while (1) { line->0 = 58; read line 0; print Share(line->1 - 1); } ];
"""

    def setUp(self) -> None:
        super().setUp()
        if not shutil.which("inform6"):
            self.skipTest("there is no command inform6: lines of the source")
        (self.folder / "share.inf").write_text(self.SOURCE, "utf-8")
        compiler = ["inform6", "-k", "-~S", "-v5", "share.inf"]
        subprocess.run(compiler, cwd=self.folder, stdout=subprocess.PIPE, check=True)

    def test_lines(self) -> None:
        (self.folder / "walk").write_text("x\n", "utf-8")
        (self.folder / "share.blb").write_bytes(blorb(b"ZCOD", (self.folder / "share.z5").read_bytes()))
        where = ["share.inf:2 in Share (n=0), called from share.inf:3 in Main", "share.inf:3 in Main"]
        for name, options in (
            ("share.z5", ()), ("share.z5", ("--jobs", 2)), ("share.blb", ("--program", PROGRAM)),
        ):
            words = ("--turns", 20, "--from", "walk", "--names", "gameinfo.dbg", "--json", "report", *options)
            ended = self.explore(name, *words)
            self.assertEqual((ended.returncode, ended.stderr), (2, ""))
            self.assertIn("\n  " + "\n  ".join([*where, "> "]), ended.stdout)
            finds = json.loads((self.folder / "report").read_text("utf-8"))["finds"]
            self.assertEqual([find["where"] for find in finds], [where])

    def test_refused(self) -> None:
        def refused(words: str, *options: object, **variables: str) -> None:
            ended = self.explore("share.z5", "--turns", 1, *options, **variables)
            self.assertEqual((ended.returncode, ended.stdout), (1, ""))
            self.assertIn(words, ended.stderr)

        names = ("--names", "gameinfo.dbg")
        refused("nothing.dbg: there is no such file", "--names", "nothing.dbg")
        refused("share.inf: byte 0: it does not begin with", "--names", "share.inf")
        refused("there is no program /nowhere, which --names asks; --program names it", *names, ZKIT="/nowhere")
        refused("there is no program /nowhere/else, which", *names, "--program", "/nowhere/else", ZKIT=str(PROGRAM))

    def test_program(self) -> None:
        self.assertEqual(program_of(PROGRAM), PROGRAM)
        variables = {"PATH": str(self.folder)}
        with mock.patch.dict(os.environ, variables, clear=True):
            self.assertEqual(program_of(None), PROGRAM)
            os.environ["ZKIT"] = str(PROGRAM)
            self.assertEqual(program_of(None), PROGRAM)
        shutil.copytree(TOP / "python/zkit", self.folder / "alone/zkit")
        variables = {"PYTHONPATH": str(self.folder / "alone"), "ZKIT_LIBRARY": str(TOP / "dist/libzkit.so.1")}
        ended = self.explore("share.z5", "--names", "gameinfo.dbg", PATH="/usr/bin", **variables)
        self.assertIn("there is no program zkit, which --names asks", ended.stderr)


class Stories(InFolder):
    """Stories that end at once, that fail at once, or that ask for characters."""

    def finds(self, story: Story, turns: int = 50) -> list[tuple[Kind, int, Lines]]:
        explorer = Explorer(story, Settings(turns=turns))
        explorer.run()
        self.assertFalse(explorer.is_interrupted)
        self.assertEqual(explorer.lost, 0)
        return [(it.sign.cause.kind, it.sign.cause.number, it.trail.lines) for it in explorer.finds]

    def test_at_once(self) -> None:
        wanted = {
            "fault.z5": (Kind.FAULT, 8), "loop.z3": (Kind.LIMIT, 3), "endless.z3": (Kind.ENDLESS, 3),
            "pushes.z3": (Kind.LIMIT, 2), "calls.z3": (Kind.LIMIT, 1),
        }
        for name, (kind, number) in wanted.items():
            with self.subTest(name):
                self.assertEqual(self.finds(small(name)), [(kind, number, ())])
        self.assertEqual(self.finds(example("hello.z3")), [])
        for name in ("saves.z4", "restores.z4"):
            self.assertEqual(self.finds(small(name)), [])

    def test_fails_in_test(self) -> None:
        for name in ("fault.z5", "endless.z3"):
            path = self.written(name, small(name))
            ended = self.explore(path, "--turns", 10, "--into", "finds")
            self.assertEqual(ended.returncode, 2)
        told = self.played(self.folder / "finds").stdout
        self.assertIn("fault 8 at 00040", told)
        self.assertIn("limit 3 at", told)

    def test_characters(self) -> None:
        for name in ("keys.z5", "window.z5", "script.z5"):
            self.assertEqual(self.finds(small(name)), [])
        menu = Explorer(Story(TOP / "web/page_tests/menu.z5"), Settings(turns=20))
        menu.run()
        self.assertEqual(menu.turns, 20)

    def test_each_line_loops(self) -> None:
        # `read_char 1 -> g0`, `jump` to itself
        explorer = Explorer(small("held.z5"), Settings(turns=14))
        explorer.run()
        self.assertEqual(explorer.turns, 14)
        self.assertEqual([len(find.trail.lines) for find in explorer.finds], [1])

    def test_versions(self) -> None:
        for version in (3, 4, 5, 8):
            explorer = Explorer(example(f"lighthouse.z{version}"), Settings(turns=1000))
            explorer.run()
            self.assertEqual((explorer.turns, explorer.finds, explorer.lost), (1000, [], 0))
            self.assertGreaterEqual(len(explorer.seen.places), 2)

    def test_leads(self) -> None:
        # one process goes where another one has been
        story = example("lighthouse.z5")
        leads: list[Lead] = []
        Explorer(story, Settings(turns=600), kept=leads.append).run()
        other = Explorer(story, Settings(seed=2, turns=80))
        for lead in leads:
            other.offer(lead)
        other.run()
        alone = Explorer(story, Settings(seed=2, turns=80))
        alone.run()
        self.assertEqual(other.turns, 80)
        self.assertGreater(other.texts, alone.texts)
        self.assertFalse(leads[0].is_news(other.seen))
        knowing = Explorer(story, Settings(seed=2, turns=80))
        knowing.seen.know(
            [lead.place for lead in leads], [text for lead in leads for text in lead.texts],
            [address for lead in leads for address in lead.ran],
        )
        knowing.run()
        self.assertLess(knowing.kept, alone.kept)

    def test_all_killed(self) -> None:
        command = [sys.executable, "-m", "zkit.explore", str(EXAMPLES / "lighthouse.z5"), "--jobs", "2"]
        with subprocess.Popen(command, env=environment(), stdout=subprocess.PIPE, stderr=subprocess.PIPE) as process:
            begin = time.monotonic()
            while len(jobs_of(process.pid)) < 2 and time.monotonic() < begin + 60:
                time.sleep(0.05)
            for job in jobs_of(process.pid):
                os.kill(job, signal.SIGKILL)
            shown, errors = process.communicate()
        self.assertEqual(process.returncode, 1)
        self.assertEqual(errors.count(b"killed by signal 9 after "), 2)
        self.assertIn(b"0 finds", shown)

    def test_walkthrough_reaches(self) -> None:
        path = self.written("lighthouse.z5", example("lighthouse.z5"))
        goal = re.findall(r"\*\*\* .* \*\*\*", (EXAMPLES / "lighthouse.z5.txt").read_text("utf-8"))[-1]
        walk = EXAMPLES / "lighthouse.walkthrough"
        ended = self.explore(path, "--turns", 120, "--from", walk, "--goal", goal, "--into", "goals")
        self.assertEqual(ended.returncode, 0, ended.stdout)
        self.assertIn("0 finds, 1 goal", ended.stdout)
        self.assertEqual(self.played(self.folder / "goals").returncode, 0)

    def test_blorb(self) -> None:
        (self.folder / "game.blb").write_bytes(blorb(b"ZCOD", bytes(small("fault.z5"))))
        ended = self.explore("game.blb", "--turns", 10, "--into", "finds")
        self.assertEqual(ended.returncode, 2, ended.stderr)
        self.assertIn("fault 8 at 00040", self.played(self.folder / "finds").stdout)


class Interrupted(unittest.TestCase):
    """Ctrl-C between turns, and while a find is made short."""

    def interrupted(self, told: Callable[[Explorer], None] = lambda _: None) -> Explorer:
        explorer = Explorer(small("held.z5"), Settings(turns=1_000), told)
        explorer.run()
        self.assertTrue(explorer.is_interrupted)
        self.assertIn("interrupted after ", as_text(explorer, Path("a"), None, 1))
        self.assertIs(json.loads(as_json(explorer, Path("a")))["interrupted"], True)
        return explorer

    def test_between_turns(self) -> None:
        def told(explorer: Explorer) -> None:
            if explorer.finds:
                raise KeyboardInterrupt

        self.assertEqual([find.is_shortest for find in self.interrupted(told).finds], [True])

    def test_in_a_find(self) -> None:
        with mock.patch.object(Shortener, "run", side_effect=KeyboardInterrupt):
            explorer = self.interrupted()
        self.assertEqual([find.is_shortest for find in explorer.finds], [False])
        self.assertIn("it may have more lines than it needs", as_text(explorer, Path("a"), None, 1))

    def test_too_much_to_play(self) -> None:
        shortener = Shortener(lambda lines: lines if len(lines) > 300 else None, ("a b",) * 900)
        self.assertFalse(shortener.run())
        self.assertLess(len(shortener.lines), 900)


class Usage(InFolder):
    """The command line, and what is refused."""

    def refused(self, words: str, *options: object) -> None:
        shown, errors = io.StringIO(), io.StringIO()
        with contextlib.redirect_stdout(shown), contextlib.redirect_stderr(errors):
            with self.assertRaises(SystemExit) as raised:
                main(list(map(str, options)))
        self.assertEqual((raised.exception.code, shown.getvalue()), (1, ""))
        self.assertIn(words, errors.getvalue())

    def test_help(self) -> None:
        ended = self.explore("--help")
        self.assertEqual(ended.returncode, 0)
        page = PAGE.read_text("utf-8")
        for option in re.findall(r"--\w+", ended.stdout):
            self.assertTrue(option == "--help" or option in page, option)
        for words in ("exit statuses:", "goals do not count", "1,000,000 instructions", "130  Ctrl-C"):
            self.assertIn(words, ended.stdout)

    def test_usage(self) -> None:
        path = EXAMPLES / "hello.z3"
        self.refused("required: STORY")
        self.refused("--seed: x is no number", path, "--seed", "x")
        for words in (
            ["--turns", "-1"], ["--turns", "1.5"], ["--minutes", "soon"], ["--minutes", "-1"], ["--minutes", "nan"],
            ["--seed", str(2**64)], ["--alarm", "a\nb"], ["--goal", " "], ["--unknown"], ["--turn", "5"],
            ["--jobs", "0"], ["--jobs", "1000"],
        ):
            with self.subTest(words):
                self.refused("usage: python3 -m zkit.explore", path, *words)

    def test_files(self) -> None:
        path = EXAMPLES / "hello.z3"
        broken, seed, taken = (self.folder / name for name in ("broken", "seed", "taken"))
        broken.write_bytes(b"look\n\xff\n")
        seed.write_text("# seed: many\nlook\n", "utf-8")
        taken.write_text("", "utf-8")
        self.refused("No such file", self.folder / "nothing.z5")
        self.refused("not a story", seed)
        self.refused("it is not UTF-8", path, "--from", broken)
        self.refused("many is no seed", path, "--from", seed)
        self.refused("No such file", path, "--from", self.folder / "nothing")
        (self.folder / "empty").mkdir()
        self.refused("it has no walkthrough", path, "--from", self.folder / "empty")
        self.refused("taken", path, "--into", taken)
        self.refused("taken", path, "--into", taken / "below")
        self.refused("No such file", path, "--json", self.folder / "nowhere/report")

    def shown_to(self, shown: int, *words: object) -> tuple[int, str]:
        """Explores for five turns with the report going to a descriptor: the status, and the errors."""
        command = [sys.executable, "-m", "zkit.explore", str(EXAMPLES / "hello.z3"), "--turns", "5", *map(str, words)]
        ended = subprocess.run(
            command, cwd=self.folder, env=environment(), stdout=shown, stderr=subprocess.PIPE, encoding="utf-8"
        )
        return ended.returncode, ended.stderr

    def test_devices(self) -> None:
        """What can't be written or is too large has words, and the rest is written all the same."""
        path, full = EXAMPLES / "hello.z3", Path("/dev/full")
        if not full.exists():
            self.skipTest("there is no /dev/full")
        for words in (("--cover", full), ("--from", full)):
            self.refused("/dev/full: File too large", path, *words)
        no_room = "No space left on device\n"
        ended = self.explore(path, "--turns", 5, "--json", full, "--cover", "ran")
        self.assertEqual((ended.returncode, ended.stderr), (1, f"zkit.explore: /dev/full: {no_room}"))
        self.assertIn("hello.z3: 0 finds\n", ended.stdout)
        self.assertGreater(len((self.folder / "ran").read_text("utf-8").splitlines()), 2)
        with full.open("wb") as device:
            status = self.shown_to(device.fileno(), "--json", "report", "--cover", "all")
        self.assertEqual(status, (1, f"zkit.explore: the report: {no_room}"))
        self.assertEqual(json.loads((self.folder / "report").read_text("utf-8"))["finds"], [])
        self.assertEqual((self.folder / "all").read_text("utf-8"), (self.folder / "ran").read_text("utf-8"))

    def test_closed_pipe(self) -> None:
        end, begin = os.pipe()
        os.close(end)
        try:
            status = self.shown_to(begin, "--json", "report")
        finally:
            os.close(begin)
        self.assertEqual(status, (1, "zkit.explore: the report: Broken pipe\n"))
        self.assertEqual(json.loads((self.folder / "report").read_text("utf-8"))["finds"], [])

    def test_nothing(self) -> None:
        ended = self.explore(EXAMPLES / "hello.z3", "--minutes", 1, "--json", "report")
        self.assertEqual((ended.returncode, ended.stderr), (0, ""))
        self.assertIn("hello.z3: 0 finds\n", ended.stdout)
        report = json.loads((self.folder / "report").read_text("utf-8"))
        page = PAGE.read_text("utf-8")
        for member in (*report, *self.members_of_find()):
            self.assertIn(f"`{member}`", page)

    def members_of_find(self) -> list[str]:
        """The members of a find that needs a debugging verb."""
        explorer = Explorer(small("held.z5"), Settings(turns=0))
        explorer.finds.append(Find(Sign(Cause(Kind.FAULT, 8, ""), ""), Trail(1, ("look", "showobj 2")), 1))
        self.assertIn("it needs a debugging verb", as_text(explorer, Path("a"), None, 1))
        find: dict[str, object] = json.loads(as_json(explorer, Path("a")))["finds"][0]
        self.assertIs(find["debugging"], True)
        return list(find)

    def test_terminal(self) -> None:
        for words in (("--turns", "300"), ("--turns", "600", "--jobs", "2")):
            own, other = pty.openpty()
            command = [sys.executable, "-m", "zkit.explore", str(EXAMPLES / "lighthouse.z5"), *words]
            ended = subprocess.run(command, env=environment(), stdout=subprocess.PIPE, stderr=other)
            os.close(other)
            shown = os.read(own, 65_536).decode()
            os.close(own)
            self.assertEqual(ended.returncode, 0)
            self.assertRegex(shown, r"^\r\x1b\[K[\d,]+ turns, .* kept states?, 0 finds.*\r\x1b\[K$")


class Parts(unittest.TestCase):
    """Random choices, shortening, words, causes, walkthroughs."""

    def test_chance(self) -> None:
        self.assertEqual(Chance(1).shuffled(range(8)), [0, 2, 3, 6, 7, 4, 5, 1])
        deck = Deck(Chance(2), "abc")
        for _ in range(3):
            self.assertEqual(sorted(deck.draw() for _ in range(3)), ["a", "b", "c"])
        self.assertEqual((len(deck), len(Deck(Chance(2), ""))), (3, 0))

    def test_shortener(self) -> None:
        def play(lines: Lines) -> Optional[Lines]:
            """Needs 7, and then 30 and `a b` in any order."""
            for index in range(len(lines)):
                part = lines[:index + 1]
                if "7" in part and "30" in part[part.index("7"):] and any("a b" in line for line in part):
                    return part
            return None

        lines = tuple(map(str, range(25))) + ("x a y b", "a b c", "x a b") + tuple(map(str, range(25, 60)))
        shortener = Shortener(play, lines)
        self.assertTrue(shortener.run())
        self.assertEqual(sorted(shortener.lines), ["30", "7", "a b"])

    def test_shortener_of_nothing(self) -> None:
        shortener = Shortener(lambda lines: (), ("a", "b"))
        self.assertTrue(shortener.run())
        self.assertEqual(shortener.lines, ())

    def test_vocabulary(self) -> None:
        words = vocabulary_of(example("lighthouse.z5"))
        self.assertIn("take", words.verbs)
        self.assertEqual(words.sight("The Postbag, a letter, the postbag; nothing."), ["postbag", "letter"])
        none = vocabulary_of(small("keys.z5"))
        self.assertTrue(none.verbs and none.nouns and none.prepositions and none.directions)

    def test_state(self) -> None:
        story = example("lighthouse.z5")
        game, reply = begin(story, 1)
        with game:
            player = Player.fresh(game, reply, vocabulary_of(story), 1)
            player.send("undo on")
            player.send("north")
            with player.state(0).open(story) as other:
                self.assertEqual(other.place.states, 1)

    def test_new(self) -> None:
        seen = Seen(0)

        def is_new(text: str, command: str, *upper: str) -> bool:
            return bool(seen.new_lines(Reply(text, upper, None, Awaits.LINE, None), command))

        self.assertTrue(is_new("You can't see 3 lamps.\n\n>", "x lamps"))
        self.assertFalse(is_new("You can't see 14 trees.\n\n>", "x trees"))
        self.assertFalse(is_new(">", "look", "Quay"))
        self.assertTrue(is_new(">", "look", "Quay", "Menu"))
        self.assertTrue(seen.has_new_place("Quay"))
        self.assertFalse(seen.has_new_place("Quay"))
        self.assertFalse(seen.has_new_place(""))

    def test_places(self) -> None:
        def place(text: str, *upper: str, status: Optional[Status] = None) -> str:
            return place_of(Reply(text, upper, status, Awaits.LINE, None), "before")

        self.assertEqual(place("", " Room 5     Score: 1", "more"), "Room #")
        self.assertEqual(place("Quay\nIt rains.", "   "), "before")
        self.assertEqual(place("", status=Status("Hut", 0, 1)), "Hut")
        self.assertEqual(place("\nQuay\nIt rains.\n\n>"), "Quay")
        none = ("It rains.\nYou sigh.\n>", "Taken\n\n>", "Taken\n>", "quay\nIt rains.", "", "Quay", "A" * 99 + "\nb")
        for text in none:
            self.assertEqual(place(text), "before")

    def test_numbers(self) -> None:
        self.assertEqual(without_numbers("read  from\n-->-3, object 1234"), "read from -->-3, object #")

    def test_causes(self) -> None:
        def found(text: str, kind: Optional[StopKind] = None, number: int = 0) -> list[tuple[Kind, str, str]]:
            stopped = None if kind is None else Stop(kind, number, 0x1234, "words")
            reply = Reply(text, (), None, Awaits.NOTHING, stopped)
            return [(it.cause.kind, it.cause.place, it.told) for it in signs(reply, WANTED)]

        long = "Line 10.\nLine 200.\n" * 5_000
        self.assertEqual(found("** a"), [])
        self.assertEqual(found("a", StopKind.QUIT), [])
        self.assertEqual(found("a", StopKind.OUT_OF_MEMORY), [])
        self.assertEqual(found(long, StopKind.FAULT, 8), [(Kind.FAULT, "01234", "words at 01234")])
        self.assertEqual(found("[** Programming error: x **]", StopKind.LIMIT, 1), [
            (Kind.LIMIT, "01234", "words at 01234")
        ])
        self.assertEqual(found(long, StopKind.LIMIT, 3), [(Kind.ENDLESS, "Line #.", "words; it prints 'Line 10.'")])
        self.assertEqual(found("", StopKind.TOO_MUCH_TEXT), [(Kind.ENDLESS, "", "words; it prints ''")])
        self.assertEqual(found("TODO ** Library error 6 (20, 1) **\nit is across"), [
            (Kind.ALARM, "TODO", "the story shows 'TODO'"),
            (Kind.GOAL, "is across", "the story shows 'is across'"),
            (Kind.ERROR, "** Library error 6 (#, 1) **", "Library error 6 (20, 1)"),
        ])

    def test_checks(self) -> None:
        def check(kind: Kind, shown: str, follows_errors: bool) -> str:
            find = Find(Sign(Cause(kind, 0, ""), "words", shown), Trail(1, ()), 0, follows_errors=follows_errors)
            text = text_of(find)
            self.assertEqual(text.allows_errors, follows_errors)
            return text.check

        self.assertEqual(check(Kind.FAULT, "", False), "")
        self.assertEqual(check(Kind.GOAL, "Won", True), "! Won")
        self.assertEqual(check(Kind.ALARM, "Lost", False), "!~ Lost")
        error = "[** Programming error: x **]"
        self.assertEqual(check(Kind.ERROR, error, False), "")
        self.assertEqual(check(Kind.ERROR, error, True), f"!~ {error}")
        self.assertEqual(check(Kind.ERROR, "** Library error 1", False), "!~ ** Library error 1")

    def test_parts(self) -> None:
        parts = [Part(number, 4) for number in range(4)]
        self.assertEqual([it.turns(10) for it in parts], [3, 3, 2, 2])
        self.assertEqual(parts[3].turns(None), None)
        self.assertEqual(parts[0].seed(7), 7)
        self.assertEqual(len({it.seed(2**64 - 1) for it in parts}), 4)
        writer = Writer(Chance(1), vocabulary_of(example("lighthouse.z5")))
        swept = [{line.split()[0] for line in writer.sweep([], it)} for it in parts]
        self.assertEqual(sum(map(len, swept)), len(set().union(*swept)))

    def test_log(self) -> None:
        with tempfile.TemporaryDirectory() as folder:
            path = Path(folder) / "log"
            tail = Tail(path)
            self.assertEqual(tail.read(), [])
            Log(path).write([{"a": "é"}, {"b": 1}])
            with path.open("ab") as file:
                file.write(b'{"cut ')
            self.assertEqual(tail.read(), [{"a": "é"}, {"b": 1}])
            self.assertEqual(tail.read(), [])

    def test_merged(self) -> None:
        def find(kind: Kind, place: str, line: str, seed: int, is_shortest: bool = True) -> Find:
            return Find(Sign(Cause(kind, 3, place), place), Trail(seed, (line,)), 1, 5, is_shortest)

        shares = [Share(1, 1), Share(2, 2)]
        merged = Merged(1, shares)
        told = [
            [find(Kind.FAULT, "a", "x", 1, False), find(Kind.LIMIT, "b", "rest a", 1), find(Kind.ERROR, "c", "y", 1)],
            [find(Kind.FAULT, "a", "z", 2), find(Kind.LIMIT, "d", "rest b", 2), find(Kind.ERROR, "e", "y", 2)],
        ]
        for share, finds in zip(shares, told):
            explorer = Explorer(small("held.z5"), Settings())
            explorer.finds.extend(finds)
            merged.take(share, json.loads(json.dumps(Teller().messages(explorer))))
        self.assertEqual([it.trail.lines for it in merged.finds], [("z",), ("rest a",), ("y",)])
        self.assertEqual([it.times for it in merged.finds], [10, 10, 10])
        self.assertEqual(status(merged), 2)
        merged.finds.clear()
        self.assertEqual(status(merged), 0)
        merged.is_broken = True
        self.assertEqual(status(merged), 1)
        # what another process has found is counted, and not told again
        known = Finds(example("hello.z3"), Wanted())
        known.learn(find(Kind.FAULT, "a", "x", 1))
        known.add(find(Kind.FAULT, "a", "x", 2).sign, Trail(2, ()), 1)
        self.assertEqual((known.all, known.times), ([], [(Cause(Kind.FAULT, 3, "a"), 6)]))

    def test_read(self) -> None:
        with tempfile.TemporaryDirectory() as folder:
            path = Path(folder) / "a.walkthrough"
            for content, seed, lines in (
                ("", 3, ()), ("\n", 3, ("",)), ("look", 3, ("look",)), ("\ufeff# seed: 9\r\nlook\r\n", 9, ("look",)),
                ("look\n# seed: 9\n\\! x\n! y\n!~ z\n\n", 3, ("look", "# seed: 9", "! x", "")),
            ):
                path.write_bytes(content.encode())
                self.assertEqual(walkthroughs.read(path, 3), Trail(seed, lines))
            self.assertEqual(walkthroughs.files([folder]), [path])

    def test_folder(self) -> None:
        with tempfile.TemporaryDirectory() as folder:
            into = Folder(Path(folder) / "a", EXAMPLES / "hello.z3", example("hello.z3"))
            names = []
            for words, lines in (("at 1", ("a",)), ("at 2", ("a",)), ("at 1", ("b", "é"))):
                find = Find(Sign(Cause(Kind.FAULT, 8, ""), words), Trail(1, lines), 1)
                into.add([find])
                into.add([find])
                names.append(find.file)
            self.assertEqual(names, [f"find-00{number}.walkthrough" for number in (1, 1, 2)])
            self.assertIn("at 1\na\n", (Path(folder) / "a/find-001.walkthrough").read_text("utf-8"))

    def test_written(self) -> None:
        text = walkthroughs.Text("it\nfails", "!~ x", allows_errors=True)
        content = walkthroughs.written(Path("/a/story.z5"), Path("/a/b"), Trail(2, ("#x", "", "look")), text)
        self.assertEqual(content, (
            "# story: ../story.z5\n# seed: 2\n# steps: 1000000\n# undo: 1\n# allow: library errors\n"
            "# what happens: it fails\n\\#x\n\nlook\n!~ x\n"
        ))

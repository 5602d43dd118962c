"""The explorer: instructions and trees of objects that were not seen before, coverage files, and figures of them."""

from __future__ import annotations

import contextlib
import io
import json
import os
import re
import subprocess
import zlib
from pathlib import Path
from unittest import mock

from helping import EXAMPLES, LINES, PROGRAM, example, play, small
from test_explore import PAGE, InFolder
from test_stories import blorb
from zkit import Game, Story
from zkit.explore.__main__ import main
from zkit.explore.cover_file import CoverError, CoverFile
from zkit.explore.coverage import coverage_of
from zkit.explore.explorer import Explorer, Settings
from zkit.explore.leads import Lead
from zkit.explore.marks import Marks
from zkit.explore.messages import Teller, lead_in, of_lead
from zkit.explore.plan import Plan
from zkit.explore.plays import Trail
from zkit.explore.seen import Seen
from zkit.explore.tasks import packed_task, unpacked, work
from zkit.explore.trees import Trees

LIGHTHOUSE = EXAMPLES / "lighthouse.z5"


def output(*words: object) -> str:
    """What the program shows."""
    return subprocess.run([PROGRAM, *map(str, words)], stdout=subprocess.PIPE, encoding="utf-8", check=True).stdout


def addresses_in(file: Path) -> list[int]:
    """The addresses of a coverage file."""
    return [int(line, 16) for line in file.read_text("utf-8").splitlines()[1:]]


def figures_in(line: str) -> list[int]:
    """The numbers on a line."""
    return [int(number) for number in re.findall(r"\d+", line)]


class News(InFolder):
    """What is new in a play: instructions, and trees of objects."""

    def test_marks(self) -> None:
        marks = Marks(9)
        self.assertEqual(marks.add(bytes(9)), ())
        self.assertEqual(marks.add(b"\0\1\0\0\1\0\0\0\0"), (1, 4))
        self.assertEqual(marks.add(b"\0\1\0\0\1\0\0\0\1"), (8,))
        self.assertEqual(marks.add(b"\0\1\0\0\0\0\0\0\1"), ())
        marks.know([0, 4])
        marks.know([])
        self.assertEqual(list(marks.addresses), [1, 4, 8, 0])
        self.assertEqual(marks.add(b"\1" * 9), (2, 3, 5, 6, 7))
        steps = (7, 8, 0, 15, 10**9, 10**9 + 1)
        self.assertEqual([marks.may_be_new(it) for it in steps], [True, True, False, False, True, False])

    def test_trees(self) -> None:
        for version in (3, 5):
            trees = Trees()
            with Game(example(f"lighthouse.z{version}")) as game:
                found = []
                for line in ("look", "look", "take bag", "take bag", "open bag", "take letter", "drop letter", "north"):
                    game.send(line)
                    found.append(trees.is_new(game, "Jetty"))
            # the first tree, the second, and the fourth
            self.assertEqual(found, [True, False, False, False, True, False, True, False])
        with Game(example("hello.z3")) as game:
            self.assertTrue(trees.is_new(game, "elsewhere"))
            self.assertFalse(trees.is_new(game, "elsewhere"))

    def test_bounded(self) -> None:
        trees = Trees()
        hashes = iter((1, 2, 3, 1))
        game = mock.Mock(objects=[], hash=lambda *_: next(hashes))
        with mock.patch("zkit.explore.trees.MOST", 2):
            self.assertEqual([trees.is_new(game, "") for _ in range(4)], [True, True, False, True])

    def test_nothing_is_lost(self) -> None:
        # what each game has run counts, also where no turn was looked at
        story = example("lighthouse.z5")
        all_marks = Marks(len(bytes(story)))
        close = Game.close

        def closed(game: Game) -> None:
            all_marks.add(game.coverage)
            close(game)

        with mock.patch.object(Game, "close", closed):
            explorer = Explorer(story, Settings(turns=400))
            explorer.run((Trail(1, tuple(LINES[:8])),))
        self.assertEqual(set(explorer.ran), set(all_marks.addresses))

    def test_kept(self) -> None:
        leads: list[Lead] = []
        explorer = Explorer(example("lighthouse.z5"), Settings(turns=1_000), kept=leads.append)
        explorer.run()
        first = {address: lead for lead in reversed(leads) for address in lead.ran}
        self.assertGreater(len(first), 300)
        self.assertEqual(len(first), sum(len(lead.ran) for lead in leads))
        self.assertTrue(any(lead.ran and not lead.texts for lead in leads))
        # neither text nor instruction, but another tree
        self.assertTrue(any(not lead.ran and not lead.texts for lead in leads))

    def test_leads(self) -> None:
        seen = Seen(100)
        seen.know(["Quay"], ["The sea."], [7, 8])
        for place, texts, ran, is_news in (
            ("Quay", (), (), False), ("Quay", ("The sea.",), (8, 7), False), ("Hut", (), (), True),
            ("Quay", ("Rain.",), (), True), ("Quay", (), (7, 9), True),
        ):
            lead = Lead(Trail(1, ("x",)), place, texts, ran)
            self.assertEqual(lead.is_news(seen), is_news)
            self.assertEqual(lead_in(json.loads(json.dumps(of_lead(lead)))), lead)

    def test_messages(self) -> None:
        # what is known is not told again
        explorer = Explorer(example("lighthouse.z5"), Settings(turns=20))
        explorer.seen.know((), (), [0x15B5, 0x15BA])
        teller = Teller()
        teller.skip(explorer)
        explorer.run()
        told = teller.messages(explorer)[-1]["figures"]["ran"]
        self.assertEqual(set(told) | {0x15B5, 0x15BA}, set(explorer.ran))
        self.assertNotIn(0x15B5, told)
        self.assertEqual(teller.messages(explorer)[-1]["figures"]["ran"], [])

    def test_tasks(self) -> None:
        story = zlib.compress(bytes(example("lighthouse.z5")))
        plan = Plan(Settings(turns=600), (), 3)
        ran: set[int] = set()
        while not plan.is_over():
            share, task = plan.next()
            self.assertEqual(set(task.ran), ran)
            content = work(story, packed_task(task))
            plan.take(share, task, content)
            new = unpacked(content)[-1]["figures"]["ran"]
            self.assertTrue(ran.isdisjoint(new))
            ran.update(new)
        self.assertEqual(set(plan.merged.ran), ran)
        self.assertGreater(len(ran), 500)


class CoverFiles(InFolder):
    """Coverage files are those of the program."""

    def run_lines(self, story: Story) -> Marks:
        """What the walkthrough of the lighthouse runs."""
        marks = Marks(len(bytes(story)))
        with Game(story, coverage=True) as game:
            play(game, LINES)
            marks.add(game.coverage)
        return marks

    def play(self, file: Path, path: Path, lines: str) -> None:
        subprocess.run([PROGRAM, "play", "--cover", file, path], input=lines.encode(), stdout=subprocess.PIPE)

    def test_same(self) -> None:
        for version in (3, 4, 5, 8):
            path = EXAMPLES / f"lighthouse.z{version}"
            own, other = self.folder / f"own{version}", self.folder / f"other{version}"
            self.play(other, path, (EXAMPLES / "lighthouse.walkthrough").read_text("utf-8"))
            CoverFile(own, Story(path)).add(self.run_lines(Story(path)).addresses)
            self.assertEqual(own.read_bytes(), other.read_bytes())
        # a serial number that can't be shown, and a file that is longer than its header says
        content = bytearray(bytes(example("lighthouse.z5")) + bytes(range(100)))
        content[0x12:0x15] = b"\0 \xff"
        path = self.folder / "odd.z5"
        path.write_bytes(content)
        CoverFile(self.folder / "own", Story(path))
        self.assertIn(b"story ???122 009f 18532\n", (self.folder / "own").read_bytes())
        self.play(self.folder / "own", path, "")
        self.assertEqual(len(addresses_in(self.folder / "own")), len(set(addresses_in(self.folder / "own"))))

    def test_added(self) -> None:
        story, file = example("lighthouse.z5"), self.folder / "ran"
        file.write_bytes(b"story 261122 009f 18432\r\n 015B5\n\nstory 261122 009f 18432\n0000001810")
        CoverFile(file, story).add([0x15BA, 0x15B5])
        self.assertEqual(file.read_text("utf-8"), "story 261122 009f 18432\n015b5\n015ba\n01810\n")
        self.play(file, LIGHTHOUSE, "north\n")
        self.assertLess({0x15B5, 0x15BA, 0x1810}, set(addresses_in(file)))

    def test_refused(self) -> None:
        file, line = self.folder / "ran", b"story 261122 009f 18432\n"
        for content in (
            b"", b"\n" + line, b"015b5\n", line + b"15b5\n", line + b"015b5 015ba\n", line + b"04800\n",
            line + b"\xff\n", bytes(example("lighthouse.z5")), b"\xef\xbb\xbf" + line,
        ):
            file.write_bytes(content)
            self.check_refused(file, f"{file}: not a coverage file")
        for other in (b"story 261122 009e 18432\n015b5\n", line.replace(b"4", b"5") + b"015b5\n"):
            file.write_bytes(other)
            self.check_refused(file, f"{file}: it is of another story, or of another build of this one")

    def check_refused(self, file: Path, words: str) -> None:
        """The explorer refuses a file in the words of the program, and leaves it alone."""
        before = file.read_bytes()
        with self.assertRaises(CoverError) as raised:
            CoverFile(file, example("lighthouse.z5"))
        self.assertEqual(str(raised.exception), words)
        ended = subprocess.run([PROGRAM, "cover", file, LIGHTHOUSE], capture_output=True, encoding="utf-8")
        self.assertEqual((ended.returncode, ended.stderr.splitlines()[0]), (4, f"zkit: {words}"))
        self.assertEqual(file.read_bytes(), before)


class Told(InFolder):
    """The option --cover, and what the reports tell."""

    def report(self, *words: object) -> dict[str, dict[str, dict[str, int]]]:
        """Explores with a report in JSON, which is told in words too."""
        ended = self.explore(*words, "--json", "report")
        self.assertEqual((ended.returncode, ended.stderr), (0, ""))
        report: dict[str, dict[str, dict[str, int]]] = json.loads((self.folder / "report").read_text("utf-8"))
        told = report["coverage"]
        figures = ", ".join(f"{told[it]['ran']:,} of {told[it]['all']:,} {it}" for it in told if it != "unreached")
        self.assertIn(f"\nran {figures} in the code\n", ended.stdout)
        return report

    def check(self, path: Path, report: dict[str, dict[str, dict[str, int]]]) -> None:
        """The figures of a report are those that the program tells for the coverage file."""
        coverage, file = report["coverage"], self.folder / "ran"
        listed = output("disasm", "--all", "--cover", file, path).splitlines()
        counted = output("cover", file, path).splitlines()
        for line in (listed[-1], counted[-1]):
            self.assertEqual(figures_in(line), [*coverage["instructions"].values(), *coverage["routines"].values()])
        self.assertEqual(figures_in(counted[-2]), list(coverage["texts"].values()))
        unreached = [int(line.split()[1], 16) for line in listed if line.startswith("  routine ")]
        self.assertEqual(coverage["unreached"], unreached)
        self.assertEqual(report["ran"], len(addresses_in(file)))

    def test_figures(self) -> None:
        for version in (3, 4, 5, 8):
            path = EXAMPLES / f"lighthouse.z{version}"
            (self.folder / "ran").unlink(missing_ok=True)
            report = self.report(path, "--turns", 300, "--cover", "ran")
            self.check(path, report)
            self.assertGreater(report["coverage"]["routines"]["ran"], 40)
        page = PAGE.read_text("utf-8")
        for member in report["coverage"]:
            self.assertIn(f"`{member}`", page)

    def test_jobs(self) -> None:
        report = self.report(LIGHTHOUSE, "--turns", 400, "--jobs", 2, "--cover", "ran")
        self.check(LIGHTHOUSE, report)
        self.assertEqual(len(report["jobs"]), 2)

    def test_added(self) -> None:
        # the file has what it had and what was run, the report only what was run
        (self.folder / "game.blb").write_bytes(blorb(b"ZCOD", bytes(example("lighthouse.z5"))))
        lines = (EXAMPLES / "lighthouse.walkthrough").read_bytes()
        subprocess.run([PROGRAM, "play", "--cover", "ran", LIGHTHOUSE], cwd=self.folder, input=lines,
                       stdout=subprocess.PIPE)
        before = set(addresses_in(self.folder / "ran"))
        report = self.report("game.blb", "--turns", 100, "--cover", "ran")
        both = addresses_in(self.folder / "ran")
        self.assertLess(before, set(both))
        self.assertEqual(both, sorted(set(both)))
        self.assertGreater(len(both), len(before))
        self.assertEqual(report["coverage"]["instructions"]["ran"], report["ran"])

    def test_without_program(self) -> None:
        broken = self.folder / "zkit"
        broken.write_text("#!/bin/sh\necho nonsense\n", "utf-8")
        os.chmod(broken, 0o755)
        for program in ("/nowhere", str(broken), "/bin/false"):
            ended = self.explore(LIGHTHOUSE, "--turns", 20, "--cover", "ran", "--json", "report", "--program", program)
            self.assertEqual((ended.returncode, ended.stderr), (0, ""))
            report = json.loads((self.folder / "report").read_text("utf-8"))
            self.assertIsNone(report["coverage"])
            self.assertIn(f"\nran {report['ran']} instructions\n", ended.stdout)
        broken.write_text("no program", "utf-8")
        self.assertIsNone(coverage_of(example("hello.z3"), [0x40], broken))
        counted = coverage_of(example("hello.z3"), [0x40], PROGRAM)
        assert counted is not None
        self.assertEqual((counted.instructions.ran, counted.instructions.all, counted.unreached), (1, 3, ()))

    def test_stops(self) -> None:
        # what runs up to a fault, a limit or too much text counts
        for name, least in (("fault.z5", 1), ("endless.z3", 2), ("held.z5", 2)):
            explorer = Explorer(small(name), Settings(turns=5))
            explorer.run()
            self.assertGreaterEqual(len(explorer.ran), least)

    def test_refused(self) -> None:
        (self.folder / "ran").write_text("story 1\n", "utf-8")
        for file, words in (
            (self.folder / "ran", "it is of another story"), (LIGHTHOUSE, "not a coverage file"),
            (self.folder / "no/ran", "No such file"), (self.folder, "Is a directory"),
        ):
            errors = io.StringIO()
            with contextlib.redirect_stderr(errors), self.assertRaises(SystemExit) as raised:
                main([str(EXAMPLES / "hello.z3"), "--cover", str(file)])
            self.assertEqual(raised.exception.code, 1)
            self.assertTrue(errors.getvalue().startswith(f"zkit.explore: {file}: "), errors.getvalue())
            self.assertIn(words, errors.getvalue())

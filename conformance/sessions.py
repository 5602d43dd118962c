#!/usr/bin/env python3
"""Runs the program with options that ask, wait, record, test and look through folders, at pipes and at a terminal.

usage: conformance/sessions.py [-v] COMMAND...

COMMAND is the program with nothing after it, as `conformance/sessions.py dist/zkit`. Cases that are words, files and
texts stand in sessions.cases. Each other one is a method here, which stops where something differs from docs/manual.
"""

from __future__ import annotations

import base64
import fcntl
import itertools
import json
import os
import pty
import re
import resource
import shlex
import shutil
import signal
import subprocess
from collections.abc import Iterable
from concurrent.futures import ThreadPoolExecutor
from pathlib import Path
from subprocess import PIPE, Popen
from typing import Any

from case_files import Book, Written
from cases import ANY, SECONDS, LeftOut, Wanted, begins, has, run_cases, same, shown, shown_up_to, text_of
from ending import end_with

BOOK = Book(Path(__file__).with_name("sessions.cases"))
FILES = BOOK.files
CAVE = FILES["verifies_right.z3"]
TITLE_PLACE, PARTS_PLACE = b"<title>zkit</title>", b'<script type="text/plain" id="own"></script>'
PAGE = b"a" + TITLE_PLACE + b"<title>zkit</title>b" + PARTS_PLACE + b"c"
FOUND = {"finding": "C5", "address": "000c7", "object": 2, "words": "object links"}  # in links.z3


def page_with(title: bytes, parts: Iterable[tuple[str, bytes]]) -> bytes:
    """The page of a story: the page of the cases with a title and parts of the story."""
    text = b"".join(
        b'<script type="text/plain" id="own-%s">%s</script>' % (name.encode(), base64.b64encode(content))
        for name, content in parts
    )
    return PAGE.replace(TITLE_PLACE, b"<title>%s</title>" % title, 1).replace(PARTS_PLACE, text)


class Asked(Written):
    """The program, at a terminal too, with the cases of the file and of a class below."""

    def run_all(self) -> None:
        self.run_book(BOOK)
        for name, check in vars(type(self)).items():
            if callable(check):
                self.case(name, check, self)

    def with_page(self, page: bytes, program: str = "own/zkit", place: str = "own/zkit.html") -> list[str]:
        """The command of a program of its own, which has its page at a place."""
        self.write({place: page, program: b"", "cave.z3": CAVE})
        shutil.copy2(self.command[-1], self.folder / program)
        return [*self.command[:-1], str(self.folder / program)]

    def own_page(self, words: str, wanted: Wanted = (0, "", ""), made: bytes | None = None, page: bytes = PAGE) -> None:
        """What a program with a page of its own makes of words: `made` in `out.html`."""
        self.command, before = self.with_page(page), self.command
        try:
            self.check(wanted, shlex.split(words))
        finally:
            self.command = before
            shutil.rmtree(self.folder / "own")
        same(made, self.read("out.html"))
        (self.folder / "out.html").unlink(missing_ok=True)

    def beside(self, words: str) -> Path:
        """Has what words write killed while it writes, and answers the file that is left beside."""
        self.run(words, preexec_fn=self.within(10)["preexec_fn"])
        (name,) = [it for it in self.new() if it.startswith(".zkit-")]
        return self.folder / name

    def at_terminal(self, words: str, turns: Iterable[tuple[str, str]] = (), **variables: str) -> str:
        """All that is shown at a terminal, by words of a shell, where a line is typed after each of some texts."""
        line = f"{shlex.join(self.command)} {words}"
        try:
            pid, terminal = pty.fork()
        except OSError as error:
            raise LeftOut("there is no terminal to be had") from error
        if pid == 0:
            os.chdir(self.folder)
            os.execve("/bin/sh", ["sh", "-c", line], {**os.environ, **variables})
        came = ""
        for text, line in turns:
            came += shown_up_to(terminal, text)
            os.write(terminal, line.encode() + b"\n")
        came += shown_up_to(terminal, None)
        os.close(terminal)
        os.waitpid(pid, 0)
        return came.replace("\r\n", "\n")

    def facts_of(self, words: str, typed: bytes = b"") -> Any:
        """The facts of a story in JSON, of which nothing else is told."""
        _, facts, told = self.run(words, typed)
        same("", told, words)
        return json.loads(facts)


class Sessions(Asked):
    """The cases: each is a method."""

    # ---- an evening

    def seeds_of_the_clock(self) -> None:
        """`--seed any` tells the seed, that seed gives the same play, and a record has it."""
        status, text, told = self.run("play --seed any --record made throws.z5", b"x\n")
        found = re.fullmatch(r"zkit: using --seed (\d+)\n", told)
        same((0, True), (status, bool(found)), told)
        seed = found and found[1]
        self.check(shown(text), f"play --seed {seed} throws.z5", b"x\n")
        same(f"# seed: {seed}", text_of(self.read("made")).splitlines()[1])

    def records_in_folders(self) -> None:
        """A record in a folder names the story from there."""
        (self.folder / "made/deep").mkdir(parents=True)
        whole = str(self.folder.resolve() / "echoes.z3")
        for record, story_path in (
            ("made/it", "../echoes.z3"),
            ("made/deep/it", "../../echoes.z3"),
            ("./it", whole),
            (str(self.folder / "made/whole"), whole),
        ):
            self.check(shown("a!"), ["play", "--record", record, "echoes.z3"], b"abc\n! a\n")
            same([f"# story: {story_path}"], text_of(self.read(record)).splitlines()[:1], record)
            self.check((0, ANY, ""), ["test", "--bless", record])

    def pages_wait_at_a_terminal(self) -> None:
        """After each page Enter is waited for, and a read begins a page anew."""
        more = "-- more --"
        came = self.at_terminal("play --page 3 ten.z5", ((more, ""), ("e\r\n", "x"), (more, "")))
        same(f"a\nb\nc\n{more}\nd\ne\nx\nf\ng\nh\n{more}\ni\nj\n", came)

    def pages_fill_a_terminal(self) -> None:
        """`auto` leaves a line of the terminal for what is asked."""
        more = "-- more --"
        came = self.at_terminal("play --page auto ten.z5", ((more, ""), ("e\r\n", "x"), (more, "")), LINES="5")
        same(f"a\nb\nc\nd\n{more}\ne\nx\nf\ng\nh\ni\n{more}\nj\n", came)

    def widths_of_a_terminal(self) -> None:
        """`auto` takes the columns of the terminal, which a variable says."""
        wanted = "the quick brown foxe\njumps over the lazy\ndog\n  and  more\n"
        same(wanted, self.at_terminal("play --width auto fox.z3", COLUMNS="20"))

    def widths_that_are_assumed_are_told(self) -> None:
        """Where the variable says no number, `auto` is 80 and that is told before the text, but not for a file."""
        told = "zkit: using --width 80; for the terminal's width, type: export COLUMNS\n"
        same(told + self.run("play fox.z3")[1], self.at_terminal("play --width auto fox.z3", COLUMNS="many"))
        same(self.run("play --width 80 fox.z3")[1], self.at_terminal("play --width 80 fox.z3", COLUMNS="many"))
        same("", self.at_terminal("play --width auto fox.z3 > shown", COLUMNS="many"))

    def styles_are_shown_at_a_terminal(self) -> None:
        """Each style is selected before its text, and lines, what is typed and what is left behind are plain."""
        bold, reverse, italic, plain = "\x1b[0;1m", "\x1b[0;1;7m", "\x1b[0;4m", "\x1b[0m"
        came = self.at_terminal("play --styles styled.z5", ((f"it{plain}", "x"),))
        same(f"a{bold}bold{plain}\n{bold}er{reverse}x{plain} c{italic}it{plain}x\nd", came)
        same("abold\nerx citx\nd", self.at_terminal("play styled.z5", (("it", "x"),)))

    def styles_take_no_columns(self) -> None:
        """Lines are wrapped where they are without styles."""
        came = self.at_terminal("play --styles --width 20 styled_words.z5")
        same("\x1b[0;1mquick brown\x1b[0m the lazy\ndog", came)
        same("quick brown the lazy\ndog", self.at_terminal("play --width 20 styled_words.z5"))
        came = self.at_terminal("play --styles --width 20 styled_lines.z5")
        same("\x1b[0;1mthe quick brown fox\x1b[0m\n\x1b[0;1mjumps\x1b[0m over", came)

    def styles_leave_questions_and_transcripts_alone(self) -> None:
        """What waits for Enter within bold text is plain, and a transcript has the text."""
        words = "play --styles --width 20 --page 2 --script kept styled_page.z5"
        came = self.at_terminal(words, (("-- more --", ""),))
        first = "\x1b[0;1mthe quick brown fox\x1b[0m\n\x1b[0;1mjumps over the lazy\x1b[0m\n"
        same(first + "-- more --\n\x1b[0;1mdog and runs\x1b[0m", came)
        same(b"the quick brown fox jumps over the lazy dog and runs", self.read("kept"))

    def rows_are_shown_in_styles(self) -> None:
        """A box has the styles of its cells, and its bar is plain."""
        came = self.at_terminal("play --styles --boxes --width 20 styled_row.z5", (("b\x1b[0m", "x"),))
        same("| is \x1b[0;7mhi\x1b[0m\n\x1b[0;1mb\x1b[0mx\n", came)
        same("| is hi\nbx\n", self.at_terminal("play --boxes --width 20 styled_row.z5", (("b", "x"),)))

    def styles_are_for_terminals_alone(self) -> None:
        """No file or pipe gets them."""
        self.check(shown("abold\nerx citd"), "play --styles styled.z5", b"x\n")
        same("x\n", self.at_terminal("play --styles styled.z5 > shown", (("", "x"),)))
        same(b"abold\nerx citd", self.read("shown"))

    def boxes_leave_saves_alone(self) -> None:
        """A save shows the open line, which a row ends; a transcript has no rows."""
        self.check(shown("a\n| hi\nbc"), "play --boxes --save in_line in_line.z5", b"x\n")
        asked = self.at_terminal("play --boxes --saves . in_line.z5", (("? ", "aside"), ("b", "x")))
        same(self.read("in_line"), self.read("aside"))
        same("azkit: save to which file [in_line.qzl]? aside\n\n| hi\nbx\nc", asked)

    def pages_wait_at_terminals_alone(self) -> None:
        """Nothing is waited for where the screen is a file."""
        same("", self.at_terminal("play --page 3 ten.z5 > shown < /dev/null"))
        same("x\n", self.at_terminal("play --page 3 ten.z5 > shown", (("", "x"),)))
        same(b"a\nb\nc\nd\ne\nf\ng\nh\ni\nj\n", self.read("shown"))

    def what_is_typed_early_is_kept(self) -> None:
        """A line that is typed at a page's end answers the next read."""
        more = "-- more --"
        came = self.at_terminal("play --page 3 ten.z5", ((more, "x"), (more, "")))
        same(f"a\nb\nc\n{more}x\nd\ne\nf\ng\nh\n{more}\ni\nj\n", came)

    def records_that_are_full_are_told(self) -> None:
        """Why a record can't go on is told where that is so, before the last line."""
        head = "# story: falls.z5\n# seed: 1\n# frames: 1024\n# words: 16384\n# undo: 16\n# steps: 10000000\n"

        def limit() -> None:
            signal.signal(signal.SIGXFSZ, signal.SIG_IGN)
            resource.setrlimit(resource.RLIMIT_FSIZE, (len(head), len(head)))

        told = "zkit: full: File too large (os error 27)\nzkit: division by zero\nzkit: fault 8 at 00044\n"
        self.check((2, "", told), "play --record full falls.z5", b"x\n", preexec_fn=limit)
        same(head.encode(), self.read("full"))

    # ---- coverage of plays that end side by side

    def coverage_of_plays_at_once(self) -> None:
        """Each play adds all that it ran to a coverage file, as plays one after another do."""
        typed = [b"look\n", b"north\n", b"inventory\n", b"restart\ny\n", b"quit\ny\n", b"examine lamp\n"]
        for line in typed:
            self.check((0, ANY, ""), "play --cover one lighthouse.z5", line)
        for _ in range(3):
            with ThreadPoolExecutor(len(typed)) as plays:
                ended = list(plays.map(lambda line: self.run("play --cover all lighthouse.z5", line), typed))
            same([(0, "")] * len(typed), [(status, told) for status, _, told in ended])
            same(self.read("one"), self.read("all"))
            same(["all", "one"], self.new())
            (self.folder / "all").unlink()

    def coverage_waits_for_another_play(self) -> None:
        """A play adds what it ran to what its coverage file has once another play has written that, or was killed."""
        words, ran = "play --cover ran hello.z3", BOOK.texts["of_hello"] + b"00040\n00043\n00044\n"
        beside = self.beside(words)
        self.check(shown("hi\n"), words)
        same((ran, ["ran"]), (self.read("ran"), self.new()))
        other = "zkit: ran: it is of another story, or of another build of this one\nzkit: read failed\n"
        no_list = "zkit: ran: not a coverage file\nzkit: read failed\n"
        for before, status, told, after in (
            (BOOK.texts["of_hello"] + b"00041\n", 0, "", ran.replace(b"00043", b"00041\n00043")),
            (b"story 000000 03a1 70\n", 4, other, b"story 000000 03a1 70\n"),
            (b"story\n", 4, no_list, b"story\n"),
        ):
            self.write({"ran": ran, beside.name: b""})
            command = [*self.command, *words.split()]
            with open(beside, "rb") as held:
                fcntl.flock(held, fcntl.LOCK_EX)
                playing = Popen(command, cwd=self.folder, stdout=PIPE, stderr=PIPE, text=True)
                assert playing.stdout
                same("hi\n", shown_up_to(playing.stdout.fileno(), "hi\n"))
                self.write({"ran": before})
            came = playing.communicate(timeout=SECONDS)[1]
            same((status, told, after, ["ran"]), (playing.returncode, came, self.read("ran"), self.new()))

    def reports_at_once(self) -> None:
        """A report is not written while another zkit writes to its file."""
        self.check(shown("hi\n"), "play --cover ran hello.z3")
        words = "cover --html page ran hello.z3"
        with open(self.beside(words), "rb") as held:
            fcntl.flock(held, fcntl.LOCK_EX)
            self.check((4, ANY, "zkit: page: another zkit is writing to it\nzkit: write failed\n"), words)

    # ---- reports on the source

    def lines_end_with_a_return(self) -> None:
        """A page has no carriage return of a source whose lines end with one."""
        self.write({"ran": BOOK.texts["ran_whole"], "src/Cave": b"a\r\nb\r\n"})
        self.check((0, ANY, ""), "cover --names whole.dbg --source src --html page ran whole.z3")
        same((True, False), (b"b" in (self.read("page") or b""), b"\r" in (self.read("page") or b"")))

    def routines_of_one_name(self) -> None:
        """A trace file tells routines of one name apart by their addresses."""
        twice = FILES["whole.dbg"].replace(b"<identifier>Called<", b"<identifier>Never<")
        self.write({"ran": BOOK.texts["ran_whole"], "twice.dbg": twice})
        self.check((0, ANY, ""), "cover --names twice.dbg --lcov out ran whole.z3")
        records = "FN:2,Never@00046\nFNDA:0,Never@00046\nFN:4,Never@0004a\nFNDA:1,Never@0004a\n"
        same(has(records), text_of(self.read("out")))

    def arrays_of_no_source(self) -> None:
        """An array of a file that is not among the sources is a wrong place, as a routine of one is."""
        place = BOOK.texts["file_0"].replace(b"<file-index>0", b"<file-index>%d") + b"3" + BOOK.texts["place_end"]
        element = b"<bytes-per-element>2</bytes-per-element>"
        for index, status in ((0, 6), (7, 4)):
            self.write({"placed.dbg": FILES["shelf.dbg"].replace(element, element + place % index)})
            same(status, self.run("check --names placed.dbg shelf.z5")[0])

    # ---- an archive

    def folders_with_pipes(self) -> None:
        """What is no regular file is left out, and told."""
        self.write({"some/a.z3": FILES["hello.z3"]})
        os.mkfifo(self.folder / "some/pipe")
        told = "zkit: some/pipe: no regular file, and left out\n"
        self.check((0, "some/a.z3:\n[ifid]\nZCODE-0-000000\n", told), "info --ifid --recursive some")

    def with_other_names(self) -> bytes:
        """A folder with stories of names that are no text, one of them in a folder of such a name: answers that."""
        self.write({"some/a.z3": FILES["hello.z3"], "some/z.z3": FILES["hello.z3"]})
        within = os.fsencode(self.folder / "some") + b"/b\xff"
        try:
            os.mkdir(within)
            for path in (within + b"/c.z3", within + b".z3", within[:-1] + b"\xfe.z3"):
                with open(path, "wb") as file:
                    file.write(FILES["hello.z3"])
        except OSError as error:
            raise LeftOut("the folders here have no names but texts") from error
        return within

    def folders_with_other_names(self) -> None:
        """Each name that is no text is listed as unread, in its place, and what is below it is not."""
        self.with_other_names()
        why, ifid = "name not UTF-8, not opened or searched", "[ifid]\nZCODE-0-000000\n"
        paths = ["some/b?.z3", "some/b?", "some/b?.z3"]
        told = "".join(f"zkit: {path}: its name is no text (UTF-8)\nzkit: read failed\n" for path in paths)
        unread = "".join(f"{path} ({why}): read failed\n" for path in paths)
        self.check((4, f"some/a.z3:\n{ifid}{unread}some/z.z3:\n{ifid}", told), "info --ifid --recursive some")
        first, last = (f"some/{it}.z3\tifid\tZCODE-0-000000\n" for it in "az")
        rows = "".join(f"{path}\tunread\t{why}\n" for path in paths)
        self.check((4, f"{first}{rows}{last}", told), "info --ifid --rows --recursive some")
        _, objects, _ = self.run("info --ifid --json --recursive some")
        wanted = [(path, why) for path in paths]
        same(wanted, [(it["path"], it["unread"]) for it in map(json.loads, objects.splitlines()) if "unread" in it])
        status, listed, _ = self.run("check --summary --recursive some")
        same((6, ["total 2 findings in 2 of 2 stories", "total 3 files unread"]), (status, listed.splitlines()[-2:]))
        failed = "".join(f"FAILED {path}: {path}: its name is no text (UTF-8)\n" for path in paths)
        self.check((1, f"{failed}0 passed, 3 failed\n", ""), "test some")

    def ways_round_other_names(self) -> None:
        """A link with a plain name leads to a folder whose name is no text; so does a shell that stands in it."""
        within = self.with_other_names()
        os.symlink(within, os.fsencode(self.folder) + b"/plain")
        ifid = "[ifid]\nZCODE-0-000000\n"
        self.check(shown(f"plain/c.z3:\n{ifid}"), "info --ifid --recursive plain")
        done = subprocess.run([*self.command, *"info --ifid --recursive .".split()], cwd=within, capture_output=True)
        same((0, f"./c.z3:\n{ifid}"), (done.returncode, text_of(done.stdout)))

    def pairs_of_sections(self) -> None:
        """Two sections of one object are those that each has alone."""
        sections = ("header map abbreviations dictionary objects tree ifid strings properties globals alphabets "
                    "extension").split()
        alone = {it: self.facts_of(f"info --{it} --json lighthouse.z5") for it in sections}
        for one, other in itertools.combinations(sections, 2):
            both = self.facts_of(f"info --{one} --{other} --json lighthouse.z5")
            same({**alone[one], **alone[other]}, both)

    def facts_in_json(self) -> None:
        """An object for each story, on a line, with the same facts."""
        objects = [
            {"number": 1, "name": "a\n\"b", "parent": 0, "sibling": 0, "child": 0, "attributes": [],
             "properties": [{"number": 1, "length": 1}]},
            {"number": 2, "name": {"fault": "F12"}, "parent": 0, "sibling": 0, "child": 0, "attributes": [0, 31],
             "properties": {"fault": "F10"}},
        ]
        status, lines, told = self.run("info --ifid --json --header --dictionary hello.z3 missing empty")
        hello, missing, empty = [json.loads(line) for line in lines.splitlines()]
        same((4, "ZCODE-0-000000", {}), (status, hello["ifid"], hello["dictionary"]), told)
        words = "zkit: missing: there is no such file or folder\nzkit: read failed\n"
        same(words + "zkit: empty: not a story: the file is shorter than a header\nzkit: refused 1\n", told)
        same({"form": 1, "path": "missing", "unread": "read failed"}, missing)
        same({"form": 1, "path": "empty", "refused": 1, "why": "too short"}, empty)
        strings = self.facts_of("info --strings --json whole.z3")["strings"]
        texts = [(text["address"], text["packed"], text["text"]) for text in strings]
        same([("00056", "002b", "i"), ("00058", "002c", "h")], texts)
        whole = self.facts_of("info --dictionary --json lighthouse.z5")["dictionary"]
        same({"index": 0, "address": "00eac", "word": "ødeg"}, whole["words"][0])
        same((".,\"", 200, 9), tuple(whole[name] for name in ("separators", "entries", "length")))
        same(200, len(whole["words"]))
        header = self.facts_of("info --json lighthouse.z5")["header"]
        same((5, "261122", 18300, True), tuple(header[it] for it in ("version", "serial", "length", "checksum_ok")))
        same([FOUND], self.facts_of("check --json links.z3")["findings"][1:])
        wanted = {"form": 1, "path": "quotes.z3", "objects": objects}
        same(wanted, self.facts_of("info --objects --json --rows quotes.z3"))

    def texts_are_told_as_they_are(self) -> None:
        """A circumflex and a tilde of a name are themselves in rows, in JSON and in a graph."""
        same("^~", self.facts_of("info --objects --json marks.z3")["objects"][0]["name"])
        self.check(shown(begins("marks.z3\tobject\t1\t^~\t0\t0\t0\t-\t-\n")), "info --objects --rows marks.z3")
        same('  o1 [label="1 ^~"];', self.run("info --graph marks.z3")[1].splitlines()[2])
        same('1 "^~"', self.run("info --tree marks.z3")[1].splitlines()[1])

    def pages_have_their_story(self) -> None:
        """A page has the title in its head and the rest as base64 where it has its place, and is the page else."""
        picture = b"\x89PNG\r\n\x1a\n\0"
        self.write({"words": "Dark.\n", "picture": picture, "way": "look\n"})
        options = "--title 'A <b> & c' --author Ann --blurb words --cover picture --walkthrough way"
        content = [
            ("story", CAVE), ("file", b"cave.z3"), ("title", b"A <b> & c"), ("author", b"Ann"),
            ("blurb", b"Dark.\n"), ("cover", picture), ("walkthrough", b"look\n"),
        ]
        made = page_with(b"A &lt;b&gt; &amp; c", content)
        self.own_page(f"page {options} cave.z3 out.html", made=made)
        self.own_page(f"page cave.z3 out.html {options}", made=made)
        jpeg = b"\xff\xd8\xff\xe0"
        self.write({"picture": jpeg})
        content = [("story", CAVE), ("file", b"cave.z3"), ("cover", jpeg)]
        self.own_page("page --cover picture ./cave.z3 out.html", made=page_with(b"cave.z3", content))

    def pages_are_found_where_they_are_installed(self) -> None:
        """The page lies beside the program, or where an installation puts it."""
        self.command, before = self.with_page(PAGE, "own/bin/zkit", "own/share/doc/zkit/zkit.html"), self.command
        try:
            self.check((0, "", ""), "page cave.z3 out.html")
        finally:
            self.command = before
        wanted = page_with(b"cave.z3", [("story", CAVE), ("file", b"cave.z3")])
        same(wanted, self.read("out.html"))
        self.write({"own/bin/zkit.html": PAGE + b"d"})
        self.command = [*before[:-1], str(self.folder / "own/bin/zkit")]
        try:
            self.check((0, "", ""), "page cave.z3 other.html")
        finally:
            self.command = before
        same(wanted + b"d", self.read("other.html"))

    def pages_that_are_not_made(self) -> None:
        """Each refusal has words, and leaves no file."""
        no_page = "zkit: zkit.html: there is no such file or folder\nzkit: read failed\n"
        self.with_page(PAGE)
        (self.folder / "own/zkit.html").unlink()
        self.command, before = [*self.command[:-1], str(self.folder / "own/zkit")], self.command
        try:
            self.check((4, "", no_page), "page cave.z3 out.html")
        finally:
            self.command = before
        for page in (b"", TITLE_PLACE, PARTS_PLACE + TITLE_PLACE):
            self.own_page("page cave.z3 out.html", (1, "", "zkit: zkit.html: not the page of this zkit\n"), page=page)
        self.write({"words": b"\xff", "picture": b"GIF89a"})
        self.own_page("page --blurb words cave.z3 out.html", (1, "", "zkit: words: no text (UTF-8)\n"))
        self.own_page("page --walkthrough words cave.z3 out.html", (1, "", "zkit: words: no text (UTF-8)\n"))
        no_picture = "zkit: picture: neither a PNG nor a JPEG picture\n"
        self.own_page("page --cover picture cave.z3 out.html", (1, "", no_picture))
        for option in ("blurb", "cover", "walkthrough"):
            missing = "zkit: missing: there is no such file or folder\nzkit: read failed\n"
            self.own_page(f"page --{option} missing cave.z3 out.html", (4, "", missing))
        missing = "zkit: missing.z5: there is no such file or folder\nzkit: read failed\n"
        self.own_page("page missing.z5 out.html", (4, "", missing))
        self.own_page("page words out.html", (1, "", ANY))
        there = "zkit: words: File exists (os error 17)\nzkit: write failed\n"
        self.own_page("page cave.z3 words", (4, "", there))
        same(b"\xff", self.read("words"))

    def findings_are_told_before_a_page(self) -> None:
        """How many findings a check has is told, and the page is made."""
        made = page_with(b"links.z3", [("story", FILES["links.z3"]), ("file", b"links.z3")])
        self.own_page("page links.z3 out.html", (0, "", "zkit: links.z3: zkit check has 2 findings\n"), made)

    def stories_come_from_a_pipe(self) -> None:
        """A story is opened once, so a pipe gives all that a file does."""
        lighthouse, links = FILES["lighthouse.z5"], FILES["links.z3"]
        same([FOUND], self.facts_of("check --json /dev/stdin", links)["findings"][1:])
        meaning = "the parent, the sibling or the child of this object has a number past the last object"
        status, noted, told = self.run("check --notes /dev/stdin", links)
        same((6, [f"C5 000c7 object links  ; object 2: {meaning}"], ""), (status, noted.splitlines()[1:], told))
        self.check(self.run("info --notes lighthouse.z5"), "info --notes /dev/stdin", lighthouse)
        self.check(shown(has("compiler Inform")), "info --notes /dev/stdin", lighthouse)

    def files_are_counted_at_a_terminal(self) -> None:
        """A terminal shows how many files were looked at."""
        self.write({"two/a.z3": FILES["verifies_right.z3"], "two/b.z3": FILES["verifies_right.z3"]})
        same("1 of 2\r" + 24 * " " + "\r", self.at_terminal("check --recursive two > listed"))
        same(b"two/a.z3:\ntwo/b.z3:\n", self.read("listed"))
        same("two/a.z3:\ntwo/b.z3:\n", self.at_terminal("check --recursive two"))

    def counts_stand_before_the_last_line(self) -> None:
        """What is counted at a terminal goes before the last line, and the words stand over it."""
        self.write({"two/a.z3": FILES["verifies_right.z3"]})
        told = "zkit: missing: there is no such file or folder\nzkit: read failed\n"
        came = self.at_terminal("check --recursive two missing > listed")
        same((told, True), (came[-len(told):], came[:-len(told)].endswith("\r")), came)

    def facts_of_tables(self) -> None:
        """Globals, alphabets, the extension and properties, in rows and in JSON."""
        rows = ((1, "0013e"), (2, "00140"), (3, "00142"))
        extension = "".join(f"lighthouse.z5\textension\t{number}\t{address}\t0000\n" for number, address in rows)
        self.check(shown(extension), "info --extension --rows lighthouse.z5")
        facts = self.facts_of("info --objects --properties --alphabets --globals --json lighthouse.z5")
        listed = [(it["number"], has["number"], has["length"]) for it in facts["objects"] for has in it["properties"]]
        same(listed, [(it["object"], it["number"], it["length"]) for it in facts["properties"]])
        same(True, all(len(it["bytes"]) == 2 * it["length"] for it in facts["properties"]))
        same({"name": "A0", "characters": "abcdefghijklmnopqrstuvwxyz"}, facts["alphabets"][0])
        variables = [(it["number"], it["address"]) for it in facts["globals"]]
        same([(number, f"{0x97e + 2 * number:05x}") for number in range(240)], variables)


if __name__ == "__main__":
    end_with(lambda: run_cases("sessions", __doc__, Sessions, FILES))

#!/usr/bin/env python3
"""Compiles games, and compares what the program says by Inform's debugging files with a second computation.

usage: conformance/names.py [-v] COMMAND...

COMMAND is the program with nothing after it, as `conformance/names.py dist/zkit`. It takes inform6 and its library, and
genhtml where that is installed. `planted.inf` is a game with mistakes, `names_second.py` has the second computation,
and `names_damage.py` damages debugging files.
"""

from __future__ import annotations

import itertools
import re
import shutil
import subprocess
from collections.abc import Iterator
from dataclasses import dataclass
from pathlib import Path
from typing import Optional
from xml.etree.ElementTree import ParseError

from cases import EXAMPLES, Program, run_cases, same, text_of, unlike
from ending import end_with, workers
from names_damage import WAYS, Damage
from names_listing import Code, OwnThings, Things, tables
from names_second import (
    TOLD, Calls, Frame, Listing, Named, Page, Report, found_among, is_well_formed, stopped_in, trace_in,
)

LIBRARY = Path("/usr/share/inform6/library")
GENHTML = shutil.which("genhtml")
PLANTED = Path(__file__).with_name("planted.inf")
LIGHTHOUSE = EXAMPLES / "lighthouse.inf"
WALKTHROUGH = LIGHTHOUSE.with_suffix(".walkthrough").read_text(encoding="utf-8")
FINE = "fine\nrub pebble\nsing\nx nut\nlook\ntake nut\ninventory\nnortwards\nget all\nput nut in box\n"
# More than a turn of the library takes.
STEPS = "200000"
STATUS = {"fault": 2, "limit": 3}
DAMAGED = 2_000
SECONDS = 2

# What is typed for each mistake of `planted.inf`; how the play ends then, with strict checks and without them; and the
# comments at the lines of the innermost routines that stand in that file.
MISTAKES = (
    ("halve", "fault 8", "fault 8", ("division", "halved")),
    ("push pebble", "fault 8", "fault 8", ("division", "push")),
    ("quotient", "", "fault 8", ("quotient",)),
    ("jump", "limit 1", "limit 1", TOLD * ("recursion",)),
    ("ring", "fault 17", "fault 17", ("call", "called")),
    ("pile", "limit 2", "limit 2", ("pile",)),
    ("circle", "limit 3", "limit 3", ("circle",)),
    ("rid", "fault 11", "fault 11", ("remove",)),
    ("peruse", "", "", ()),
    ("scribble", "", "fault 7", ("write",)),
    ("poke", "", "fault 7", ("byte",)),
    ("weigh", "fault 9", "fault 9", ("weigh",)),
    ("library", "limit 3", "limit 3", ("library",)),
)

# What is typed for each mistake that is none by the Standard; the comment at its line, which `test --strict` tells with
# strict checks of the compiler and without them, or without them alone; and what it is.
MISUSES = (
    ("peruse", "read", False, "reads few-->30000, but few ends with few-->3"),
    ("scribble", "write", False, "writes few-->30000, but few ends with few-->3"),
    ("poke", "byte", False, "writes fewer->60000, but fewer ends with fewer->3"),
    ("zero", "zero", True, "calls routine 0"),
    ("itself", "itself", True, "moves nut into itself"),
    ("fine", "", True, ""),
)
TABLES = ["--globals", "--objects", "--tree", "--properties"]
# A line of a string, and how long one is that stands nowhere else by chance.
STRING = re.compile('([0-9a-f]{5}) #[0-9a-f]{4} "(.*)"')
LONG = 12
# A debugging file that names nothing.
NO_NAMES = b"<names><story-file-prefix></story-file-prefix></names>"

# A game without the library, in two files whose names have what XML writes in another way. A statement stands in the
# place of MISTAKE.
SMALL = "small & 'odd'"
INNER = "odder & 'other'"
SMALL_SOURCES = {
    f"{SMALL}.inf": f'! Two files.\nInclude "{INNER}";\n[ Main; print "Go.^"; Wrong(3); @quit; ];\n',
    f"{INNER}.h": """Array few --> 2;
[ Wrong n m;
    m = n + 1; print "By now ", n, " < ", m, " & so on.^";
    if (m == 0) print "Never <shown>.^";
    MISTAKE
    return few-->0;
];
""",
}
MISTAKE = 5
# How a play of it ends with a statement, with strict checks and without them.
STATEMENTS = (
    ("", "", ""),
    ("n = few-->7000;", "", "fault 6"),
    ("few-->7000 = n;", "", "fault 6"),
    ("m = 0; n = n / m;", "", "fault 8"),
    ("@pull m; @pull m;", "fault 4", "fault 4"),
    ("n = Wrong(m);", "limit 1", "limit 1"),
    ("@print_paddr $FFFF;", "fault 12", "fault 12"),
)


@dataclass(frozen=True)
class Game:
    """A game that is compiled in a folder of its own, and what is typed in a play of it."""

    source: Optional[Path]  # none of the small game
    version: int
    strict: bool = True
    typed: str = ""
    switches: tuple[str, ...] = ()
    statement: str = ""

    @property
    def name(self) -> str:
        """The name of its source without an end."""
        return self.source.stem if self.source else SMALL

    @property
    def story(self) -> str:
        """The path of the story."""
        return f"game/{self.name}.z{self.version}"

    def __str__(self) -> str:
        checks = "strict" if self.strict else "not strict"
        return ", ".join((self.name, f"version {self.version}", checks, *self.switches))


def games() -> Iterator[Game]:
    """The games whose plays are reported."""
    for strict in (True, False):
        for version in (3, 5, 8):
            yield Game(LIGHTHOUSE, version, strict, WALKTHROUGH)
        for version in (5, 8):
            yield Game(PLANTED, version, strict, FINE)
        # strict checks of arrays are of no use in version 3, which has not the opcodes that they are made of
        for version in (5,) if strict else (3, 5):
            yield Game(None, version, strict)
    yield Game(PLANTED, 5, False, FINE, ("$OMIT_UNUSED_ROUTINES=1",))


class Names(Program):
    """The program, with games that are compiled."""

    def run_all(self) -> None:
        """Runs all cases."""
        if not GENHTML:
            self.left_out("there is no genhtml", "whether it reads the traces")
        for game in games():
            self.case(f"report: {game}", self.reported, game)
        for version, strict in itertools.product((3, 5, 8), (True, False)):
            game = Game(LIGHTHOUSE, version, strict, WALKTHROUGH)
            self.case(f"strings: {game}", self.strings, game)
        for version, strict in ((3, False), (5, False), (5, True)):
            for statement, *ends in STATEMENTS:
                game = Game(None, version, strict, statement=statement)
                self.case(f"{statement or 'no mistake'}: {game}", self.small, game, ends[not strict])
        for version, strict in itertools.product((5, 8), (True, False)):
            for typed, with_checks, without, marks in MISTAKES:
                game = Game(PLANTED, version, strict, f"{typed}\n")
                self.case(f"{typed}: {game}", self.planted, game, with_checks if strict else without, marks)
        for game in games():
            self.case(f"listing: {game}", self.by_names, game)
        for version, strict in itertools.product((5, 8), (True, False)):
            for typed, mark, always, told in MISUSES:
                game = Game(PLANTED, version, strict, f"{typed}\nfine\n")
                is_told = bool(told) and (always or not strict)
                self.case(f"strict, {typed}: {game}", self.misused, game, mark, told if is_told else "")
        self.case("sources of one name in two folders", self.two_folders)
        self.case("a source in Latin-1", self.latin)
        self.case("damaged files", self.damaged)

    # ---- games

    def compiled(self, game: Game) -> Named:
        """Compiles a game, and answers what its debugging file says."""
        folder = self.folder / "game"
        folder.mkdir()
        if game.source:
            shutil.copy(game.source, folder)
        else:
            for name, content in SMALL_SOURCES.items():
                (folder / name).write_bytes(content.replace("MISTAKE", game.statement).encode())
        switches = ["-k", f"-v{game.version}", "-S" if game.strict else "-~S", *game.switches]
        switches += [] if game.source else ["+include_path=./"]
        words = ["inform6", *switches, f"{game.name}.inf", Path(game.story).name]
        done = subprocess.run(words, cwd=folder, capture_output=True, text=True, timeout=60)
        same((0, True), (done.returncode, (self.folder / game.story).exists()), done.stdout)
        return Named((folder / "gameinfo.dbg").read_bytes())

    def told(self, words: list[str], typed: str = "", status: int = 0) -> tuple[str, str]:
        """Runs the program, and answers what it shows and tells."""
        came = self.run(words, typed.encode())
        same(status, came[0], f"{' '.join(words)}: {came[2][-300:]}")
        return came[1], came[2]

    def played(self, game: Game) -> Listing:
        """Plays a game, and answers what there is of it and what ran."""
        self.told(["play", "--cover", "game/ran", game.story], game.typed)
        listed, _ = self.told(["disasm", "--all", "--cover", "game/ran", game.story])
        ran = {int(line, 16) for line in text_of(self.read("game/ran")).splitlines()[1:]}
        return Listing(game.version, listed, ran)

    # ---- reports

    def reported(self, game: Game) -> None:
        """The report of a play: the summary, the trace and the page."""
        named = self.compiled(game)
        report = Report(named, self.played(game))
        self.listed(report)
        sources = ["--source", "game", "--source", str(LIBRARY)]
        out = ["--lcov", "game/trace.info", "--html", "game/page.html"]
        words = ["cover", "--names", "game/gameinfo.dbg", *sources, *out, "game/ran", game.story]
        summary, told = self.told(words)
        same("", told)
        same(report.summary(), summary.splitlines(), "the summary")
        self.traced(report, text_of(self.read("game/trace.info")))
        self.paged(report, text_of(self.read("game/page.html")))

    def listed(self, report: Report) -> None:
        """Each routine but the first one, and each sequence point, is where the listing has one."""
        listing, routines = report.listing, report.named.routines
        named = {it.address for it in routines if it.name != "Main__"}
        same([], sorted(named.symmetric_difference(listing.local_counts)), "routines")
        # the code of the library's RestartSub goes on behind @restart, and no run does
        points = [(it.name, at) for it in routines if it.name != "RestartSub" for at, _ in it.points]
        same([], [it for it in points if it[1] not in listing.words], "sequence points")

    def traced(self, report: Report, text: str) -> None:
        """A trace file has what the second computation has, and genhtml reads it."""
        made = trace_in(text)
        for given, wanted in report.trace().items():
            found = found_among(given, made)
            same(1, len(found), f"{given} in {sorted(made)}")
            same(True, (self.folder / found[0]).exists(), found[0])
            same(wanted, made[found[0]], given)
        same(len(report.files()), len(made), "source files")
        if GENHTML:
            words = [GENHTML, "--quiet", "--output-directory", "game/pages", "game/trace.info"]
            done = subprocess.run(words, cwd=self.folder, capture_output=True, text=True, timeout=120)
            same((0, ""), (done.returncode, done.stderr))
            same(True, (self.folder / "game/pages/index.html").exists())

    def paged(self, report: Report, text: str) -> None:
        """A page has each line of the source with the right sign, and the texts that were not shown."""
        page = Page(text)
        places = [it for folder in (self.folder / "game", LIBRARY) for it in folder.iterdir()]
        for file in report.files():
            given = report.named.sources[file]
            source = found_among(given, map(str, places))[0]
            wanted = report.page_lines(file, Path(source).read_text(encoding="utf-8", errors="replace"))
            same(wanted, page.lines.get(given, {}), f"the lines of {given}")
        same(len(report.files()), len(page.lines), "files on the page")
        same(sorted(report.not_shown()), sorted(page.quoted), "texts that were not shown")

    def strings(self, game: Game) -> None:
        """A strict test notes the strings that it prints, which are those that the player has seen."""
        self.compiled(game)
        self.write({"game/it.walkthrough": f"# story: {Path(game.story).name}\n{game.typed}"})
        self.told(["test", "--strict", "--bless", "--cover", "game/ran", "game/it.walkthrough"])
        seen = " ".join(text_of(self.read("game/it.transcript")).split())
        ran = {int(line, 16) for line in text_of(self.read("game/ran")).splitlines()[1:]}
        listed = self.told(["info", "--strings", game.story])[0].splitlines()
        texts = {int(it[1], 16): it[2] for it in map(STRING.fullmatch, listed) if it}
        for address, text in texts.items():
            words = " ".join(text.replace("^", " ").replace("~", '"').split())
            if len(words) >= LONG:
                same(words in seen, address in ran, text)
        missed = [text for address, text in texts.items() if address not in ran]
        wanted = f"strings: {len(texts) - len(missed)} of {len(texts)} texts"
        out = ["--html", "game/page.html", "game/ran", game.story]
        for names in ("", "--names game/gameinfo.dbg"):
            shown, _ = self.told(["cover", *names.split(), *out])
            same(wanted, shown.splitlines()[-2], "the line of the strings")
            quoted = Page(text_of(self.read("game/page.html"))).quoted
            same(missed, quoted[len(quoted) - len(missed):], "strings that were not shown")

    def report_of(self, sources: dict[str, bytes]) -> tuple[str, bytes]:
        """The trace file and the page of a play of a game whose main source is `main.inf`."""
        self.write({f"game/{name}": content for name, content in sources.items()})
        words = ["inform6", "-k", "-v5", "+include_path=./", "main.inf"]
        subprocess.run(words, cwd=self.folder / "game", check=True, capture_output=True, timeout=60)
        self.told(["play", "--cover", "game/ran", "game/main.z5"])
        out = ["--lcov", "game/trace.info", "--html", "game/page.html", "--source", "game"]
        self.told(["cover", "--names", "game/gameinfo.dbg", *out, "game/ran", "game/main.z5"])
        return text_of(self.read("game/trace.info")), self.read("game/page.html") or b""

    def two_folders(self) -> None:
        """Of two files with a name, each is found by the path that the source gives."""
        trace, page = self.report_of({
            "main.inf": b'Include "one/part.h";\nInclude "two/part.h";\n[ Main; One(); Two(); @quit; ];\n',
            "one/part.h": b'[ One; print "one"; ];\n',
            "two/part.h": b'! The second one.\n[ Two; print "two"; ];\n',
        })
        same(["game/main.inf", "game/one/part.h", "game/two/part.h"], [it.removeprefix("./") for it in trace_in(trace)])
        lines = Page(page.decode()).lines
        same(("+", '[ One; print "one"; ];'), lines["one/part.h"][1])
        same(("+", '[ Two; print "two"; ];'), lines["two/part.h"][2])

    def latin(self) -> None:
        """A page is in UTF-8, also where a source is not."""
        _, page = self.report_of({"main.inf": b'[ Main; print "caf\xe9";\n@quit; ];\n'})
        lines = Page(page.decode()).lines["main.inf"]
        same(("+", "+"), (lines[1][0], lines[2][0]))
        same(True, lines[1][1].startswith('[ Main; print "caf'))

    # ---- listings by names

    def by_names(self, game: Game) -> None:
        """The listings of a game by names."""
        named = self.compiled(game)
        things = Things((self.folder / "game/gameinfo.dbg").read_bytes())
        story = (self.folder / game.story).read_bytes()
        roots = [it for routine in named.routines for it in ("--routine", f"{routine.address:05x}")]
        code = Code(named, things, story, self.told(["disasm", *roots, game.story])[0])
        names = ["--names", "game/gameinfo.dbg"]
        same(code.text(None), self.told(["disasm", *names, game.story])[0].splitlines(), "code")
        self.with_sources(code, names, game)
        self.parts(code, names, game)
        same(
            tables(things, self.told(["info", *TABLES, game.story])[0]),
            self.told(["info", *names, *TABLES, game.story])[0].splitlines(), "tables",
        )
        self.by_own_names(game)
        wrong = self.told(["check", game.story])[0].splitlines()
        same([], wrong)
        misuses = [f"{it}  ; {self.place_of(named, int(it[:5], 16))}" for it in code.misuses()]
        same(misuses, self.told(["check", *names, game.story], status=6 if misuses else 0)[0].splitlines(), "misuses")

    def by_own_names(self, game: Game) -> None:
        """The listings of a game by the names that it has itself."""
        things = OwnThings(
            (self.folder / "game/gameinfo.dbg").read_bytes(), self.told(["info", "--objects", game.story])[0],
        )
        story, names = (self.folder / game.story).read_bytes(), ["--names", game.story]
        code = Code(Named(NO_NAMES), things, story, self.told(["disasm", game.story])[0])
        same(code.text(None), self.told(["disasm", *names, game.story])[0].splitlines(), "code by its own names")
        same(
            tables(things, self.told(["info", *TABLES, game.story])[0]),
            self.told(["info", *names, *TABLES, game.story])[0].splitlines(), "tables by own names",
        )
        same(
            self.told(["info", "--graph", game.story])[0], self.told(["info", "--graph", *names, game.story])[0],
            "the tree by own names",
        )

    @staticmethod
    def place_of(named: Named, address: int) -> str:
        """Where an address stands in the source."""
        place, routine = named.place_at(address), named.routine_at(address)
        text = f"{named.sources[place[0]]}:{place[1]}" if place else f"{address:05x}"
        return f"{text} in {routine.name}" if routine else text

    def with_sources(self, code: Code, names: list[str], game: Game) -> None:
        """Code with the lines of its source."""
        paths = [str(it) for folder in (self.folder / "game", LIBRARY) for it in folder.iterdir()]
        texts = {}
        for file, given in code.named.sources.items():
            found = found_among(given, paths)
            if found:
                texts[file] = Path(found[0]).read_text(encoding="utf-8").split("\n")
        words = ["disasm", *names, "--source", "game", "--source", str(LIBRARY), game.story]
        same(code.text(texts), self.told(words)[0].splitlines(), "code with its source")
        shown, told = self.told(["disasm", *names, "--source", "nowhere", game.story], status=0)
        same(code.text({}), shown.splitlines(), "code without its source")
        same(True, "zkit: no file of the source is in the folders of --source\n" in told, told)

    def parts(self, code: Code, names: list[str], game: Game) -> None:
        """A part of the code alone, by the name of its routine in capital letters, and by a line of it."""
        routine = max(code.named.routines, key=lambda it: len(it.points))
        file, line = routine.points[-1][1]
        lines = code.text(None)
        begin = next(at for at, it in enumerate(lines) if it.startswith(f"routine {routine.address:05x}"))
        wanted = lines[begin:next((at for at in range(begin, len(lines)) if not lines[at]), len(lines))]
        given = code.named.sources[file]
        for words in (["--routine", routine.name.upper()], ["--at", f"{given}:{line}"]):
            shown, _ = self.told(["disasm", *names, "--only", *words, game.story])
            same(wanted, shown.splitlines(), words[1])
        plain = [code.lines[at] for at in sorted(code.lines) if code.part_of(at) == routine.address]
        words = ["--only", "--routine", f"{routine.address:05x}", game.story]
        same([*plain, code.routines[routine.address]], self.told(["disasm", *words])[0].splitlines(), "without names")

    def misused(self, game: Game, mark: str, told: str) -> None:
        """What `test --strict` tells of a play that the Standard lets pass."""
        self.compiled(game)
        source = PLANTED.read_text(encoding="utf-8").splitlines()
        line = next((at for at, it in enumerate(source, 1) if mark and it.endswith(f"! here: {mark}")), 0)
        self.write({"game/it.walkthrough": f"# story: {Path(game.story).name}\n# allow: library errors\n{game.typed}"})
        words = ["test", "--strict", "--names", "game/gameinfo.dbg", "--bless", "game/it.walkthrough"]
        shown, _ = self.told(words, status=1 if told else 0)
        found = [it.strip() for it in shown.splitlines() if told and it.endswith(f": {told}")]
        same([f"planted.inf:{line}"] * bool(told), [it.split(" in ")[0] for it in found], shown)
        same(bool(told), shown.startswith("FAILED game/it.walkthrough: line 3: "), shown)

    # ---- how plays stop

    def small(self, game: Game, end: str) -> None:
        """How a play of the small game stops."""
        told = self.stopped(game, end)
        same(bool(end), any(f"{INNER}:{MISTAKE} in Wrong (n=" in it for it in told[:1]), f"{told[:1]}")

    def planted(self, game: Game, end: str, marks: tuple[str, ...]) -> None:
        """How a play of the game with mistakes stops."""
        source = PLANTED.read_text(encoding="utf-8").splitlines()
        lines = {it.split("! here: ")[1]: at for at, it in enumerate(source, 1) if "! here: " in it}
        told = [it.split(" in ")[0] for it in self.stopped(game, end) if it.startswith("zkit: planted.inf:")]
        same([f"zkit: planted.inf:{lines[it]}" for it in marks if end], told[:len(marks)])

    def stopped(self, game: Game, end: str) -> list[str]:
        """The lines of the routines that are open where a play stops: those of the second computation."""
        named = self.compiled(game)
        status, names = STATUS[end.split()[0]] if end else 0, ["--names", "game/gameinfo.dbg"]
        play = ["play", "--calls", "--steps", STEPS, game.story]
        _, with_addresses = self.told(play, game.typed, status)
        _, with_names = self.told([*play, *names], game.typed, status)
        if not end:
            same(("", ""), (with_addresses, with_names))
            return []
        stopped = stopped_in(with_addresses)
        same(f"zkit: {end} at {stopped.at:05x}", stopped.last)
        wanted = Calls(named).told(stopped, self.outermost(game, stopped.count))
        same(wanted, with_names.lstrip("\n").splitlines(), "the calls of a play")
        self.write({"game/it.walkthrough": f"# story: {Path(game.story).name}\n# steps: {STEPS}\n{game.typed}"})
        shown, _ = self.told(["test", *names, "game/it.walkthrough"], status=1)
        # below what the game has shown
        lines = [it.strip() for it in shown.splitlines()[1:-1] if it.strip()]
        same(wanted, lines[-len(wanted):], "the calls of a test")
        return wanted[len(stopped.before):-1]

    def outermost(self, game: Game, count: int) -> list[Frame]:
        """The outermost routines that are open where a play stops, of many: they are told where fewer are open."""
        if count <= 2 * TOLD:
            return []
        if game.source:
            words, typed, status = ["play", "--calls", game.story], f"fathom\n{game.typed}", STATUS["fault"]
        else:
            words, typed = ["play", "--calls", "--frames", str(2 * TOLD + 1), game.story], game.typed
            status = STATUS["limit"]
        stopped = stopped_in(self.told(words, typed, status)[1])
        same(stopped.count, len(stopped.frames))
        return stopped.frames

    # ---- damaged files

    def damaged(self) -> None:
        """A damaged debugging file is refused, or means what the second reader takes from it."""
        game = Game(EXAMPLES / "box.inf", 5, typed="a\nb\n")
        self.compiled(game)
        listing = self.played(game)
        content = (self.folder / "game/gameinfo.dbg").read_bytes()
        made = [("nothing", content), ("all", b"")]
        for seed in range(DAMAGED):
            way = WAYS[seed % len(WAYS)]
            made.append((way.__name__, way(Damage(content, seed))))
        prefix = (self.folder / game.story).read_bytes()[:64]
        with workers(4) as pool:
            wrong = list(pool.map(lambda it: self.damaged_so(game, listing, prefix, *it), enumerate(made)))
        told = [f"{made[number][0]}, file {number}: {it}" for number, it in enumerate(wrong) if it]
        same([], told[:9], f"{len(told)} of {len(made)}")

    def damaged_so(self, game: Game, listing: Listing, prefix: bytes, number: int, damaged: tuple[str, bytes]) -> str:
        """What is wrong with how the program takes a damaged file: nothing, if all is well."""
        way, content = damaged
        name = f"game/{number}.dbg"
        out = ["--lcov", f"game/{number}.info", "--html", f"game/{number}.html", "--source", "game"]
        words = ["cover", "--names", name, *out, "game/ran", game.story]
        (self.folder / name).write_bytes(content)
        try:
            done = subprocess.run([*self.command, *words], cwd=self.folder, capture_output=True, timeout=SECONDS)
        except subprocess.TimeoutExpired:
            return f"not over after {SECONDS} seconds"
        shown, told = text_of(done.stdout), text_of(done.stderr).splitlines()
        if done.returncode == 4:
            is_told = len(told) == 2 and told[0].startswith(f"zkit: {name}: ") and told[1] == "zkit: read failed"
            is_right = is_told and not shown and way != "nothing" and not (self.folder / f"game/{number}.info").exists()
            return "" if is_right else f"status 4, {shown!r}, {told}"
        if done.returncode or not is_well_formed(content):
            return f"status {done.returncode}, well-formed: {is_well_formed(content)}, {told}"
        try:
            named = Named(content)
        except ParseError:
            # XML with prefixes that it does not declare, which the second reader does not take
            return ""
        except ValueError as error:
            return f"it is taken, but {error}"
        wanted = Report(named, listing).summary()
        if wanted != shown.splitlines() or told or named.prefix != prefix:
            return f"it is taken, but {unlike(wanted, shown.splitlines())}, {told}"
        return ""


def main() -> int:
    """Runs the cases, if there is a compiler."""
    if not shutil.which("inform6") or not (LIBRARY / "Parser.h").exists():
        print(f"left out, as there is no inform6: {Path(__file__).name}")
        return 0
    return run_cases("names", __doc__, Names, {})


if __name__ == "__main__":
    end_with(main)

"""A second reader of Inform's debugging files, and a second computation of what zkit says by them, for `names.py`.

It takes XML by Python's own parser, the instructions from the listing of `zkit disasm --all`, and what ran from the
coverage file.
"""

from __future__ import annotations

import base64
import re
from collections.abc import Iterable
from dataclasses import dataclass, field
from html.parser import HTMLParser
from pathlib import Path
from typing import Optional
from xml.etree import ElementTree
from xml.parsers import expat

from cases import Differs

# A place in the source: the number of its file, and its line.
Place = tuple[int, int]
# A routine that is open: its address, its local variables, and where it was called.
Frame = tuple[int, list[int], int]
# What a trace file has of a source file, by the words of its lines.
Traced = dict[str, object]

IN_ROUTINE = re.compile("zkit: in routine ([0-9a-f]{5})(?: with ([0-9a-f ]+))?, called at ([0-9a-f]{5})")
AND_MORE = re.compile(r"zkit: and in (\d+) more")
# How many of the routines that are open are told: the innermost ones, and as many of the outermost ones.
# Lines behind this one are no lines of code.
LAST_LINE = 1_000_000
TOLD = 8


# What a debugging file says.


@dataclass
class Routine:
    """A routine of a debugging file."""

    name: str
    address: int
    length: int
    place: Optional[Place]
    points: list[tuple[int, Place]] = field(default_factory=list)
    local_names: dict[int, str] = field(default_factory=dict)

    def has(self, address: int) -> bool:
        """Whether an address lies in it."""
        return self.address <= address < self.address + self.length


def text_in(element: ElementTree.Element, name: str) -> str:
    """The text of an element in another one, which has to be there."""
    text = element.findtext(name)
    if text is None:
        raise ValueError(f"{element.tag} has no {name}")
    return text


def place_in(element: ElementTree.Element) -> Optional[Place]:
    """The place of an element in the source, if it has one."""
    place = element.find("source-code-location")
    return None if place is None else (int(text_in(place, "file-index")), int(text_in(place, "line")))


def routine_in(element: ElementTree.Element) -> Routine:
    """The routine that an element is."""
    address, length = int(text_in(element, "address")), int(text_in(element, "byte-count"))
    made = Routine(text_in(element, "identifier"), address, length, place_in(element))
    for point in element.findall("sequence-point"):
        place = place_in(point)
        if place is None:
            raise ValueError("a sequence point has no place")
        made.points.append((int(text_in(point, "address")), place))
    for variable in element.findall("local-variable"):
        made.local_names[int(text_in(variable, "index"))] = text_in(variable, "identifier")
    return made


def is_well_formed(content: bytes) -> bool:
    """Whether a file is XML, by Python's parser."""
    try:
        expat.ParserCreate().Parse(content, True)
    except (expat.ExpatError, ValueError):
        return False
    return True


class Named:
    """What a debugging file says of a story."""

    def __init__(self, content: bytes) -> None:
        root = ElementTree.fromstring(content)
        paths = [(int(it.attrib["index"]), text_in(it, "given-path")) for it in root.findall("source")]
        self.sources = dict(paths)
        # what Inform leaves out of the story has the address 0
        self.routines = [it for it in map(routine_in, root.findall("routine")) if it.address]
        places = [place for it in self.routines for place in (it.place, *(place for _, place in it.points)) if place]
        if len(paths) != len(self.sources) or not {file for file, _ in places} <= {*self.sources}:
            raise ValueError("two source files have a number, or none has the number of a place")
        self.prefix = base64.b64decode(text_in(root, "story-file-prefix"), validate=True)

    def routine_at(self, address: int) -> Optional[Routine]:
        """The routine that an address lies in."""
        return next((it for it in self.routines if it.has(address)), None)

    def place_at(self, address: int) -> Optional[Place]:
        """The place of the last sequence point at an address or before it, in its routine."""
        routine = self.routine_at(address)
        before = [place for at, place in routine.points if at <= address] if routine else []
        return before[-1] if before else None


# What a story has, and what ran of it.


class Listing:
    """What `disasm --all --cover` lists of a story."""

    def __init__(self, version: int, text: str, ran: set[int]) -> None:
        self.version = version
        self.ran = ran
        self.last = text.splitlines()[-1]
        self.words: dict[int, str] = {}
        self.texts: dict[int, str] = {}
        self.local_counts: dict[int, int] = {}
        for line in text.splitlines():
            words = line.lstrip("+ ").split(" ", 2)
            if words[0] == "routine":
                self.local_counts[int(words[1], 16)] = int(words[2].split()[1])
            elif re.fullmatch("[0-9a-f]{5}", words[0]) and words[1] != "?":
                self.words[int(words[0], 16)] = words[1]
                if words[1] in ("print", "print_ret"):
                    self.texts[int(words[0], 16)] = words[2]

    def first_instruction(self, routine: int) -> int:
        """The address of the first instruction of a routine, behind the values of its local variables."""
        return routine + 1 + 2 * self.local_counts.get(routine, 0) * (self.version < 5)


def share(of: Iterable[bool]) -> str:
    """How many of some things ran, and how many there are."""
    ran = list(of)
    return f"{sum(ran)} of {len(ran)}"


class Report:
    """What a coverage report says of a play."""

    def __init__(self, named: Named, listing: Listing) -> None:
        self.named = named
        self.listing = listing
        self.ran = listing.ran
        self.places: dict[Place, bool] = {}  # those that sequence points name, and whether they ran
        for at, place in (it for routine in named.routines for it in routine.points):
            if place[1] <= LAST_LINE:
                self.places[place] = self.places.get(place, False) or at in self.ran

    def lines_of(self, file: int) -> dict[int, bool]:
        """The lines of a file that have code, and whether they ran."""
        return {line: self.places[of, line] for of, line in sorted(self.places) if of == file}

    def routines_of(self, file: Optional[int]) -> list[Routine]:
        """The routines of a file, or those without a source."""
        return [it for it in self.named.routines if (it.place[0] if it.place else None) == file]

    def has_run(self, routine: Routine) -> bool:
        """Whether the first instruction of a routine ran."""
        first = next((at for at in sorted(self.listing.words) if at > routine.address), None)
        return first is not None and routine.has(first) and first in self.ran

    def texts_of(self, routines: Iterable[Routine]) -> list[int]:
        """The addresses of the texts that routines print."""
        return [at for it in routines for at in self.listing.texts if it.has(at)]

    def shown_of(self, routines: Iterable[Routine]) -> str:
        """How many of the texts that routines print were shown."""
        return share(at in self.ran for at in self.texts_of(routines))

    def shown_in(self, file: Optional[int]) -> str:
        """How many of the texts that stand in a file, or have no place, were shown."""
        places = {at: self.named.place_at(at) for at in self.listing.texts}
        return share(at in self.ran for at, place in places.items() if (place[0] if place else None) == file)

    def files(self) -> list[int]:
        """The numbers of the source files that have code."""
        return [it for it in self.named.sources if self.routines_of(it) or self.lines_of(it)]

    def routine_line(self, routine: Routine, place: Place) -> str:
        """The line of a routine in a summary."""
        points = [(file, line) for _, (file, line) in routine.points if line <= LAST_LINE]
        lines = {line: self.places[file, line] for file, line in points if file == place[0]}
        return f"  {routine.name} at line {place[1]}: {share(lines.values())} lines, {self.shown_of([routine])} texts"

    def summary(self) -> list[str]:
        """The lines of a summary."""
        told = []
        for file in self.files():
            within, lines = self.routines_of(file), share(self.lines_of(file).values())
            routines = f"{share(map(self.has_run, within))} routines, {self.shown_in(file)} texts"
            told.append(f"{self.named.sources[file]}: {lines} lines, {routines}")
            told += [self.routine_line(it, it.place) for it in within if it.place]
        without = self.routines_of(None)
        told.append(f"without a source: {share(map(self.has_run, without))} routines, {self.shown_in(None)} texts")
        routines = f"{share(map(self.has_run, self.named.routines))} routines"
        texts = f"{share(at in self.ran for at in self.listing.texts)} texts"
        told.append(f"all: {share(self.places.values())} lines, {routines}, {texts}")
        # its routines are those of the listing, which knows no start
        return [*told, self.listing.last.partition(",")[0]]

    def page_lines(self, file: int, source: str) -> dict[int, tuple[str, str]]:
        """The lines of a source file on a page, each with its sign."""
        lines = self.lines_of(file)
        signs = {True: "+", False: "-", None: " "}
        return {at: (signs[lines.get(at)], line) for at, line in enumerate(source.removesuffix("\n").split("\n"), 1)}

    def not_shown(self) -> list[str]:
        """The texts that were not shown."""
        return [text.strip('"') for at, text in self.listing.texts.items() if at not in self.ran]

    def trace(self) -> dict[str, Traced]:
        """What a trace file for lcov has of each source file, by the name that the source gives it."""
        made: dict[str, Traced] = {}
        for file in self.files():
            lines, within = self.lines_of(file), self.routines_of(file)
            made[self.named.sources[file]] = {
                "DA": {line: int(has_run) for line, has_run in lines.items()},
                "FN": [(it.place[1], it.name) for it in within if it.place],
                "FNDA": {it.name: int(self.has_run(it)) for it in within},
                "LF": len(lines), "LH": sum(lines.values()),
                "FNF": len(within), "FNH": sum(map(self.has_run, within)),
            }
        return made


def found_among(given: str, paths: Iterable[str]) -> list[str]:
    """The paths whose files have the name that the source gives, with an end or without one, in any case of letters."""
    names = [f"{Path(given).name}{end}".lower() for end in ("", ".h", ".inf")]
    return [path for path in paths if Path(path).name.lower() in names]


def trace_in(text: str) -> dict[str, Traced]:
    """What a trace file for lcov has of each source file, by its path."""
    made: dict[str, Traced] = {}
    path, lines, routines, runs = "", dict[int, int](), list[tuple[int, str]](), dict[str, int]()
    for line in text.splitlines():
        word, _, rest = line.partition(":")
        number, _, name = rest.partition(",")
        if word == "SF":
            path, lines, routines, runs = rest, {}, [], {}
            if path in made:
                raise Differs(f"{path} stands twice")
            made[path] = {"DA": lines, "FN": routines, "FNDA": runs}
        elif word == "DA":
            lines[int(number)] = int(name)
        elif word == "FN":
            routines.append((int(number), name))
        elif word == "FNDA":
            runs[name] = int(number)
        elif word in ("LF", "LH", "FNF", "FNH"):
            made[path][word] = int(rest)
        elif line not in ("TN:", "end_of_record"):
            raise Differs(f"a trace file has no such line: {line}")
    return made


# Elements of a page that have no end.
VOID = {"meta", "link", "br", "hr", "img", "input"}


class Page(HTMLParser):
    """What a page has: the lines of source below each heading, and texts in quotes.

    A line is an element with a sign in bold, the number of the line before it, and the line behind it.
    """

    def __init__(self, text: str) -> None:
        super().__init__(convert_charrefs=True)
        self.open: list[str] = []
        self.heading = ""
        self.number = self.sign = self.line = ""
        self.lines: dict[str, dict[int, tuple[str, str]]] = {}
        self.quoted: list[str] = []
        self.feed(text)
        self.close()
        if self.open:
            raise Differs(f"not closed on a page: {self.open}")

    def handle_starttag(self, tag: str, attrs: list[tuple[str, Optional[str]]]) -> None:
        """Takes the beginning of an element."""
        if tag in VOID:
            return
        self.open.append(tag)
        if tag == "div":
            self.number = self.sign = self.line = ""
        elif tag == "h2":
            self.heading = ""
        elif tag == "q":
            self.quoted.append("")

    def handle_endtag(self, tag: str) -> None:
        """Takes the end of an element, which has to be the innermost one that is open."""
        if not self.open or self.open.pop() != tag:
            raise Differs(f"</{tag}> on a page ends what is not open, in line {self.getpos()[0]}")
        if tag == "div" and self.number:
            self.lines.setdefault(self.heading, {})[int(self.number)] = self.sign, self.line
            self.number = ""

    def handle_data(self, data: str) -> None:
        """Takes a text, by the innermost element that it lies in."""
        innermost = self.open[-1] if self.open else ""
        if innermost == "h2":
            self.heading += data
        elif innermost == "q":
            self.quoted[-1] += data.strip('"')
        elif innermost == "span":
            self.number += data
        elif innermost == "b":
            self.sign += data
        elif innermost == "div":
            self.line += data


# The routines that are open where a play has stopped.


@dataclass
class Stopped:
    """How a play has stopped, as it is told with addresses."""

    at: int
    frames: list[Frame]  # those that are told, the innermost first
    count: int  # how many routines are open
    before: list[str]  # the lines before them
    last: str


def stopped_in(told: str) -> Stopped:
    """How a play has stopped, by what is told with addresses."""
    lines = told.splitlines()
    found = [it for it in map(IN_ROUTINE.fullmatch, lines) if it]
    more = [int(it[1]) for it in map(AND_MORE.fullmatch, lines) if it]
    frames = [(int(it[1], 16), [int(value, 16) for value in (it[2] or "").split()], int(it[3], 16)) for it in found]
    before = [it for it in lines[:-1] if it and not IN_ROUTINE.fullmatch(it) and not AND_MORE.fullmatch(it)]
    return Stopped(int(lines[-1].split()[-1], 16), frames, len(frames) + sum(more), before, lines[-1])


class Calls:
    """How the routines that are open are told with their places in the source."""

    def __init__(self, named: Named) -> None:
        self.named = named

    def within(self, address: int) -> str:
        """The place of an address, and the routine that it lies in."""
        place, routine = self.named.place_at(address), self.named.routine_at(address)
        at = f"{self.named.sources[place[0]]}:{place[1]}" if place else f"{address:05x}"
        return f"{at} in {routine.name}" if routine else at

    def line(self, at: int, frame: Frame) -> str:
        """The line of a routine that is open, at an instruction of it."""
        address, values, called_at = frame
        routine = self.named.routine_at(address)
        names = routine.local_names if routine else {}
        told = ", ".join(f"{names.get(number, number)}={value}" for number, value in enumerate(values, 1))
        line = f"zkit: {self.within(at)}" + f" ({told})" * bool(told)
        caller = self.named.routine_at(called_at)
        # what calls the outermost routine is the compiler's own, and no routine of the story
        return line if caller and caller.name == "Main__" else f"{line}, called from {self.within(called_at)}"

    def lines(self, at: int, frames: list[Frame]) -> list[str]:
        """The lines of routines that are open, the innermost first, where that one is at an address."""
        return [self.line(*it) for it in zip([at, *(called_at for _, _, called_at in frames)], frames)]

    def told(self, stopped: Stopped, outermost: list[Frame]) -> list[str]:
        """All that is told of how a play has stopped, whose outermost routines are these."""
        lines = self.lines(stopped.at, stopped.frames)
        if stopped.count > 2 * TOLD:
            # an outer one is at the call of the one in it
            outer = self.lines(0, outermost)[-TOLD:]
            lines = [*lines[:TOLD], f"zkit: and in {stopped.count - 2 * TOLD} more", *outer]
        return [*stopped.before, *lines, stopped.last]

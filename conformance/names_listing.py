"""A second computation of listings by names, for `names.py`.

It takes the lines of listings without names, and what a second reader takes from a debugging file.
"""

from __future__ import annotations

import re
from bisect import bisect_right
from collections.abc import Iterator
from dataclasses import dataclass
from typing import Optional
from xml.etree import ElementTree

from names_second import Named, Place, Routine, place_in, text_in

# What the operands of an instruction are by its name (section 15); those behind are numbers.
OF_OBJECT = ("remove_obj", "get_parent", "get_sibling", "get_child", "print_obj")
OF_PROPERTY = ("get_prop", "get_prop_addr", "get_next_prop", "put_prop")
OF_ATTRIBUTE = ("test_attr", "set_attr", "clear_attr")
OF_ARRAY = ("loadw", "loadb", "storew", "storeb")
OF_TABLES = ("sread", "aread", "read_char", "tokenise", "encode_text", "scan_table", "copy_table", "print_table")
OPERANDS: dict[str, tuple[str, ...]] = {
    **{it: ("routine",) for it in ("call", "call_vs", "call_1s", "call_2s", "call_vs2")},
    **{it: ("routine",) for it in ("call_vn", "call_1n", "call_2n", "call_vn2")},
    **{it: ("object",) for it in OF_OBJECT},
    **{it: ("object", "property") for it in OF_PROPERTY},
    **{it: ("object", "attribute") for it in OF_ATTRIBUTE},
    **{it: ("object", "object") for it in ("insert_obj", "jin")},
    **{it: ("array",) for it in OF_ARRAY},
    **{it: ("array", "array") for it in OF_TABLES},
}
LINE = re.compile("([0-9a-f]{5}) (.*)")
HEADED = re.compile("routine ([0-9a-f]{5}) locals [0-9]+.*")
VARIABLE = re.compile("(&?)([lg])([0-9]+)")
# What a packed address is multiplied by (section 1.2.3).
SCALES = {3: 2, 4: 4, 5: 4, 8: 8}


@dataclass
class Array:
    """An array of a debugging file."""

    name: str
    address: int
    length: int
    element: int

    def index(self, address: int) -> int:
        """The index of the element at an address."""
        return (address - self.address) // self.element

    def at(self, index: int) -> str:
        """How the source names an element."""
        return f"{self.name}{'-->' if self.element == 2 else '->'}{index}"


def first_given(root: ElementTree.Element, names: tuple[str, ...], key: str) -> dict[int, str]:
    """What elements of some names are called, by their numbers: the first that the source gives, else the first."""
    made: dict[int, tuple[bool, str]] = {}
    for element in (it for it in root if it.tag in names):
        number, is_given = int(text_in(element, key)), place_in(element) is not None
        if number not in made or (is_given and not made[number][0]):
            made[number] = is_given, text_in(element, "identifier")
    return {number: name for number, (_, name) in made.items()}


class Things:
    """What a debugging file names beside routines."""

    def __init__(self, content: bytes) -> None:
        root = ElementTree.fromstring(content)
        self.globals = first_given(root, ("global-variable",), "address")
        self.kinds = {
            "object": first_given(root, ("object", "class"), "value"),
            "property": first_given(root, ("property",), "value"),
            "attribute": first_given(root, ("attribute",), "value"),
        }
        self.arrays = [
            Array(text_in(it, "identifier"), int(text_in(it, "value")), int(text_in(it, "byte-count")),
                  int(text_in(it, "bytes-per-element")))
            for it in root.findall("array")
        ]

    def word(self, kind: str, number: int) -> Optional[str]:
        """The name of what has a number, if it has one that is a single word."""
        name = self.kinds[kind].get(number)
        return name if name and " " not in name else None


class OwnThings(Things):
    """What a story names itself: its objects, and the properties and attributes that Inform leaves in.

    Each name stands in quotation marks. `objects` is the plain listing of the objects.
    """

    def __init__(self, content: bytes, objects: str) -> None:
        super().__init__(content)
        self.globals, self.arrays = {}, []
        for kind in ("property", "attribute"):
            # those with spaces are the compiler's own, and stand in no story
            named = [(number, name) for number, name in self.kinds[kind].items() if " " not in name]
            self.kinds[kind] = {number: f'"{name}"' for number, name in named}
        found = [it for it in map(re.compile(r'(\d+) (".+?") parent ').match, objects.splitlines()) if it]
        self.kinds["object"] = {int(it[1]): it[2] for it in found}

    def word(self, kind: str, number: int) -> Optional[str]:
        """The name of what has a number, if it has one."""
        return self.kinds[kind].get(number)


class Code:
    """The code of a story by names."""

    def __init__(self, named: Named, things: Things, story: bytes, listing: str) -> None:
        self.named, self.things = named, things
        self.scale = SCALES[story[0]]
        self.table = int.from_bytes(story[12:14], "big")
        self.start = int.from_bytes(story[6:8], "big")
        found = [it for it in map(LINE.fullmatch, listing.splitlines()) if it]
        self.lines = {int(it[1], 16): it[0] for it in found}
        headed = [it for it in map(HEADED.fullmatch, listing.splitlines()) if it]
        self.routines = {int(it[1], 16): it[0] for it in headed}
        firsts = {at + 1 + 2 * int(it.split()[3]) * (story[0] < 5) for at, it in self.routines.items()}
        self.parts = sorted([*self.routines, *({self.start} - firsts)])
        self.points: dict[int, list[Place]] = {}
        for address, place in (it for routine in named.routines for it in routine.points):
            self.points.setdefault(address, []).append(place)
        self.from_address = {it.address: it for it in reversed(named.routines)}
        self.calls: dict[int, list[int]] = {}
        for at in self.lines:
            called = self.called(at)
            if called in self.routines:
                self.calls.setdefault(called, []).append(at)

    def operands(self, at: int) -> tuple[str, list[str]]:
        """The name of an instruction and the words of its operands."""
        _, name, *words = self.lines[at].split(" ")
        ends = (index for index, it in enumerate(words) if it in ("", "->") or it[0] in '?"!')
        return name, words[:next(ends, len(words))]

    def called(self, at: int) -> int:
        """The address that an instruction calls by a constant, or 0."""
        name, words = self.operands(at)
        is_call = OPERANDS.get(name) == ("routine",) and words and words[0].startswith("#")
        return int(words[0][1:], 16) * self.scale if is_call else 0

    def part_of(self, at: int) -> int:
        """Where the part begins that an address lies in."""
        return self.parts[bisect_right(self.parts, at) - 1]

    def routine_from(self, address: int) -> Optional[Routine]:
        """The routine at an address."""
        return self.from_address.get(address)

    def variable(self, at: int, kind: str, number: int) -> Optional[str]:
        """The name of a variable in the code at an address."""
        if kind == "g":
            return self.things.globals.get(self.table + 2 * number)
        routine = self.named.routine_at(at)
        return routine.local_names.get(number) if routine else None

    def constant(self, kind: str, number: int) -> Optional[str]:
        """The name of what a constant is."""
        if kind == "routine":
            routine = self.routine_from(number * self.scale)
            return routine.name if routine else None
        if kind == "array":
            return next((it.name for it in self.things.arrays if it.address == number), None)
        return self.things.word(kind, number)

    def word(self, at: int, word: str, kind: str) -> str:
        """A word of an instruction by its name."""
        variable = VARIABLE.fullmatch(word)
        if variable:
            name = self.variable(at, variable[2], int(variable[3]))
            return variable[1] + name if name and " " not in name else word
        name = self.constant(kind, int(word[1:], 16)) if kind and word.startswith("#") else None
        return name if name and (" " not in name or name.startswith('"')) else word

    def line(self, at: int) -> str:
        """The line of an instruction."""
        words = self.lines[at].split(" ")
        name, operands = self.operands(at)
        kinds = [*OPERANDS.get(name, ()), *[""] * len(operands)]
        for index, word in enumerate(operands):
            words[2 + index] = self.word(at, word, kinds[index])
        behind = 2 + len(operands)
        if words[behind:behind + 1] == ["->"]:
            words[behind + 1] = self.word(at, words[behind + 1], "")
        return " ".join(words)

    def caller(self, part: int) -> str:
        """How a part of code is called that calls."""
        routine = self.routine_from(part) if part in self.routines else self.named.routine_at(part)
        if routine:
            return routine.name
        return f"routine {part:05x}" if part in self.routines else "the start"

    def call(self, at: int) -> str:
        """The place of a call."""
        place = self.named.place_at(at)
        return f"{at:05x} line {place[1]}" if place else f"{at:05x}"

    def heading(self, part: int) -> Iterator[str]:
        """The lines before a part of code."""
        is_routine = part in self.routines
        routine = self.routine_from(part) if is_routine else self.named.routine_at(part)
        text = self.routines.get(part, f"start {part:05x}")
        if routine:
            text += f" {routine.name}({', '.join(it for _, it in sorted(routine.local_names.items()))})"
            if routine.place:
                text += f" at {self.named.sources[routine.place[0]]}:{routine.place[1]}"
        yield text
        callers: dict[int, list[str]] = {}
        for at in sorted(self.calls.get(part, [])):
            callers.setdefault(self.part_of(at), []).append(self.call(at))
        for caller, calls in callers.items():
            yield f"  called from {self.caller(caller)} at {', '.join(calls)}"
        if is_routine and not callers:
            yield "  not called by an instruction that is listed"

    def sources(self, at: int, texts: dict[int, list[str]]) -> Iterator[str]:
        """The lines of the source whose code begins at an address."""
        for file, line in self.points.get(at, []):
            path = f"; {self.named.sources[file]}:{line}"
            text = texts[file][line - 1].strip().replace("\t", " ") if file in texts else ""
            yield f"{path}  {text}" if file in texts else path

    def text(self, texts: Optional[dict[int, list[str]]]) -> list[str]:
        """All lines of the listing, with those of the source files, by their numbers."""
        within: dict[int, list[int]] = {part: [] for part in self.parts}
        for at in sorted(self.lines):
            within[self.part_of(at)].append(at)
        made: list[str] = []
        for part, addresses in within.items():
            made += [""] * bool(made) + [*self.heading(part)]
            for at in addresses:
                made += [*self.sources(at, texts)] if texts is not None else []
                made.append(self.line(at))
        return made

    def misuses(self) -> Iterator[str]:
        """The lines on constants that access an array outside its bounds, call routine 0 or move an object into
        itself."""
        for at in sorted(self.lines):
            name, words = self.operands(at)
            values = [int(it[1:], 16) if it.startswith("#") else None for it in words]
            if OPERANDS.get(name) == ("routine",) and values[0] == 0:
                yield f"{at:05x} calls routine 0"
            elif name == "insert_obj" and values[0] and values[0] == values[1]:
                yield f"{at:05x} moves {self.things.kinds['object'][values[0]]} into itself"
            elif name in OF_ARRAY and values[0] is not None and values[1] is not None:
                outside = self.outside(values[0], values[1], 2 if name.endswith("w") else 1)
                if outside:
                    yield f"{at:05x} {'reads' if name.startswith('load') else 'writes'} {outside}"

    def outside(self, base: int, index: int, size: int) -> str:
        """How an access is outside of the array that its first operand is in, if it is."""
        found = [it for it in self.things.arrays if it.address <= base < it.address + it.length]
        address = (base + size * index) % 65536
        if not found or all(0 <= it - found[0].address < found[0].length for it in range(address, address + size)):
            return ""
        array = found[0]
        index, last = array.index(address), array.index(array.address + array.length) - 1
        if index < 0:
            return f"{array.at(index)}, but {array.name} begins with {array.at(0)}"
        behind = " and a byte behind it" if index <= last else ""
        return f"{array.at(index)}{behind}, but {array.name} ends with {array.at(last)}"


def object_words(things: Things, words: list[str]) -> Iterator[str]:
    """The words behind the name of an object in a table, by names."""
    kinds = {"parent": "object", "sibling": "object", "child": "object"}
    kinds |= {"attributes": "attribute", "properties": "property"}
    for before, word in zip(["", *words], words):
        kind = kinds.get(before)
        if kind is None:
            yield word
            continue
        made = []
        for item in word.split(","):
            number, colon, rest = item.partition(":")
            name = things.word(kind, int(number)) if number.isdigit() and (number, kind) != ("0", "object") else None
            made.append((name or number) + colon + rest)
        yield ",".join(made)


def table_line(things: Things, section: str, line: str) -> str:
    """A line of a table by names."""
    if section == "globals":
        name = things.globals.get(int(line.split()[1], 16))
        return f"{line} {name}" if name else line
    if section == "properties":
        owner, number, *rest = line.split(" ")
        names = things.word("object", int(owner)), things.word("property", int(number)) if number.isdigit() else None
        return " ".join([names[0] or owner, names[1] or number, *rest])
    before, name, behind = re.fullmatch(r'( *\d+ )(".*")([^"]*)', line, re.DOTALL).groups()  # type: ignore[union-attr]
    called = "" if isinstance(things, OwnThings) else things.kinds["object"].get(int(before))
    words = object_words(things, behind.split(" ")) if section == "objects" else behind.split(" ")
    return f"{before}{called + ' ' if called else ''}{name}" + " ".join(words)


def tables(things: Things, listing: str) -> list[str]:
    """The lines of tables by names."""
    made, section = [], ""
    for line in listing.splitlines():
        if re.fullmatch(r"\[\w+\]", line):
            section = line.strip("[]")
            made.append(line)
        else:
            made.append(table_line(things, section, line))
    return made

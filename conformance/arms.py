"""Source files with arms: each change has functions and constants of its own, picked by a number as the program runs.

`mutate.py` and `plant.py` stand on this.
"""

from __future__ import annotations

import functools
import pathlib
import re
from collections.abc import Callable, Mapping, Sequence
from dataclasses import dataclass, field

from edits import BadEdit, Edit, edited
from sources import functions_of

# A line of a source file, with the number of its change, or 0.
Line = tuple[int, str]


# The parts of a source file: bodies of functions, constants, and all else.


def listed(text: str) -> tuple[list[str], str]:
    """The items of a list with commas, by whose bracket a text begins, and what stands behind it."""
    items, depth, item = [], 0, ""
    for i, sign in enumerate(text):
        closes = sign in ")>]" and text[i - 1:i + 1] != "->"
        depth += (sign in "(<[") - closes
        if depth == 0 or depth == 1 and sign == ",":
            items.append(item.strip())
            item = ""
        elif i:
            item += sign
        if depth == 0:
            return [it for it in items if it], text[i + 1:]
    raise BadEdit(f"a bracket is not closed: {text}")


class Head:
    """The head of a function, of which others with the same parameters can be made."""

    def __init__(self, lines: list[str], is_method: bool) -> None:
        text = ""
        for line in lines:
            text += line.strip() + " "
            if "(" in text and text.count("(") == text.count(")"):
                break
        found = re.match(r"((?:pub(?:\(crate\))? )?fn )(\w+)(.*)", text.strip().removesuffix("{").strip())
        if not found:
            raise BadEdit(f"no function begins so: {text}")
        self.front, self.name, self.rest = found.groups()
        generics, parameters = listed(self.rest) if self.rest.startswith("<") else ([], self.rest)
        kinds = [it.removeprefix("const ").partition(":")[0] for it in generics if not it.startswith("'")]
        self.turbofish = f"::<{', '.join(kinds)}>" if kinds else ""
        names = [it.partition(":")[0].removeprefix("mut ") for it in listed(parameters)[0]]
        self.of = "self." if names and names[0].endswith("self") else "Self::" if is_method else ""
        self.arguments = ", ".join(it for it in names if not it.endswith("self"))

    def beside(self, number: int) -> str:
        """The head of the function that an edit puts beside it."""
        return f"{self.front}{self.name}_{number}{self.rest} {{"

    def call(self, number: int) -> str:
        """A call of such a function."""
        return f"{self.of}{self.name}_{number}{self.turbofish}({self.arguments})"


@dataclass
class Part:
    """Some lines of a source file. `kind` is `body`, `const` or `else`; `name` is the item's."""

    kind: str
    name: str = field(compare=False)
    lines: list[str]
    head: Head | None = field(default=None, compare=False)  # of a body, where others can stand beside its function


CONSTANT = re.compile(r"(?:pub(?:\(crate\))? )?const (\w+): ")


@functools.lru_cache(500)
def parts_of(text: str) -> list[Part]:
    """The parts of a source file."""
    lines = text.split("\n")
    found: list[tuple[int, int, str, str, Head | None]] = []
    for it in functions_of(text):
        if it.body < it.end:
            fixed = it.block.is_trait or it.block.implements
            head = None if fixed else Head(lines[it.begin:it.body], bool(it.block.owner))
            found.append((it.body, it.end - 1, "body", it.name, head))
    for at, line in enumerate(lines):
        if constant := CONSTANT.match(line):
            end = next(i for i in range(at, len(lines)) if lines[i].endswith(";"))
            found.append((at, end + 1, "const", constant[1], None))
    parts, at = [], 0
    for begin, end, kind, name, head in sorted(found, key=lambda it: it[0]):
        parts += [Part("else", "", lines[at:begin]), Part(kind, name, lines[begin:end], head)]
        at = end
    return [*parts, Part("else", "", lines[at:])]


# A source file in which many edits can be turned on.


class Turned:
    """A source file with arms for edits: each part has the parts that stand in for it, by number."""

    def __init__(self, text: str) -> None:
        self.text = text
        self.parts = parts_of(text)
        self.arms: list[dict[int, Part]] = [{} for _ in self.parts]

    def take(self, edit: Edit) -> bool:
        """Adds the arms of an edit. Where it changes more than bodies and constants, answers False."""
        return self.put(edit.number, edited(edit, edit.files()[0], self.text))

    def put(self, number: int, text: str) -> bool:
        """Adds the arms of a change that makes the file this text. Where it changes more, answers False."""
        new = parts_of(text)
        if [(it.kind, it.name) for it in new] != [(it.kind, it.name) for it in self.parts]:
            return False
        changed = [i for i, it in enumerate(new) if it != self.parts[i]]
        if any(new[i].kind == "else" for i in changed):
            return False
        for i in changed:
            self.arms[i][number] = new[i]
        return True

    def picked(self, arms: dict[int, Part]) -> str:
        """What tells the number where some arms stand."""
        return "turning::turned()"

    def constants(self) -> dict[str, dict[int, Part]]:
        """The arms of constants that edits change, by the constants' names."""
        return {part.name: arms for part, arms in zip(self.parts, self.arms) if part.kind == "const" and arms}

    def lines(self) -> list[Line]:
        """The lines of the file."""
        out: list[Line] = []
        beside: list[Line] = []
        for part, arms in zip(self.parts, self.arms):
            if part.kind == "else":
                # It begins with the end of the body before it.
                out += [(0, it) for it in part.lines[:1]] + beside + [(0, it) for it in part.lines[1:]]
                beside = []
            elif part.kind == "const":
                out += [(0, it) for it in part.lines]
                for number, arm in arms.items():
                    out += [(number, renamed(it, part.name, number)) for it in arm.lines]
            elif not arms:
                out += [(0, self.using(it)) for it in part.lines]
            elif part.head:
                # A function for each arm: what one function with all of them needs of the stack is slow.
                arms = {0: part, **arms}
                calls = [f"{number} => {part.head.call(number)}," for number in arms if number]
                out += [(0, f"match {self.picked(arms)} {{ {' '.join(calls)} _ => {part.head.call(0)} }}")]
                for number, arm in arms.items():
                    beside += [(number, part.head.beside(number))]
                    beside += [(number, self.using(it)) for it in arm.lines] + [(number, "}")]
            else:
                out += self.body(part, arms)
        return out

    def body(self, part: Part, arms: dict[int, Part]) -> list[Line]:
        """The lines of a body with arms, where no function can stand beside its own."""
        out = [(0, f"match {self.picked(arms)} {{")]
        for number, arm in arms.items():
            out += [(number, f"{number} => {{")]
            out += [(number, self.using(it)) for it in arm.lines]
            out += [(number, "}")]
        out += [(0, "_ => {")] + [(0, self.using(it)) for it in part.lines] + [(0, "}"), (0, "}")]
        return out

    def using(self, line: str) -> str:
        """A line of a body, where a constant that edits change is picked by the number."""
        for name, arms in self.constants().items():
            picks = " ".join(f"{number} => {name}_{number}," for number in arms)
            pick = f"(match {self.picked(arms)} {{ {picks} _ => {name} }})"
            line = outside_of_texts(line, rf"\b{name}\b", lambda _: pick)
        return line


def outside_of_texts(line: str, pattern: str, put: Callable[[str], str]) -> str:
    """A line where something else comes for what a pattern finds, but in its texts."""
    words = rf"""(b?"(?:[^"\\]|\\.)*"|b?'(?:[^'\\]|\\[^']+)')|{pattern}"""
    return re.sub(words, lambda it: it[0] if it[1] else put(it[0]), line)


def renamed(line: str, name: str, number: int) -> str:
    """A line of a constant under the name that an edit's constant has."""
    return re.sub(rf"\bconst {name}:", f"const {name}_{number}:", line)


def numbers_at(said: str, place: pathlib.Path, owners: Mapping[pathlib.Path, Sequence[int]]) -> set[int]:
    """The numbers of the changes in whose lines the compiler's errors stand, as it told them in a folder.

    Each file has the numbers of its lines.
    """
    numbers: set[int] = set()
    for path, line in re.findall(r"^(\S+\.rt):(\d+):\d+: error", said, re.M):
        of_lines = owners.get((place / path).resolve(), [])
        numbers.update(of_lines[int(line) - 1:int(line)])
    return numbers - {0}

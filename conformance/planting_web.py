"""The plants in JavaScript and in C: what `slips.py` has for all, and rules of these languages.

A file is taken as one piece of code: lines, and the same lines without their texts and comments.
"""

from __future__ import annotations

import functools
import pathlib
import re
from collections.abc import Iterator
from dataclasses import replace
from typing import NamedTuple

from planting import Plant
from slips import (COMMON_SWAPS, Rule, Slip, closing, ends, indent, last_of, numbers, orders, other_word, parts_between,
                   short, statements, swapped, within)
from sources import TOP

SOURCES = (
    "web/zkit.js", "web/player.js", "web/play.js", "web/page/*.js", "web/heap.c", "screen/*.c",
    "examples/embed/play.c",
)
# Texts and comments; what lies between two slashes behind an operator or a bracket is a pattern of JavaScript.
COMMENT = r"//[^\n]*|/\*.*?\*/"
TEXT = r'"(?:[^"\\\n]|\\.)*"' + r"|'(?:[^'\\\n]|\\.)*'"
PATTERN = r"(?:(?<=\()|(?<=[=,&|?:(!] ))/(?![/*])(?:[^/\\\n\[]|\\.|\[(?:[^\]\\\n]|\\.)*\])+/[a-z]*"
JAVASCRIPT = re.compile(rf"{COMMENT}|{TEXT}|`(?:[^`\\]|\\.)*`|{PATTERN}", re.S)
C = re.compile(rf"{COMMENT}|{TEXT}|^#[^\n]*", re.S | re.M)
NOT_CODE = re.compile(r"import |export \{")
KEYWORDS = "if|for|while|else|do|switch|case|default|return|break|continue|throw|const|let|class|function"
TYPES = "static|struct|enum|union|typedef|unsigned|int|long|char|void|size_t|u?int\\d+_t|wint_t|wchar_t|FILE|zkit"
CALL = re.compile(rf"(?!(?:{KEYWORDS}|{TYPES}|import|export|async)\b)[a-zA-Z_*+-][^=]*"
                  r"(?:\(| [-+*|&/%?]*= |\+\+|--).*|(?:\+\+|--)")
LEAVES = re.compile(r"(?:return|break|continue|throw)\b.*;$")
# What may stand for another text in a line, beside what `slips.py` has for all languages.
SWAPS = (
    *COMMON_SWAPS,
    ("comparison", r"(?<= )===(?= )", "!=="),
    ("comparison", r"(?<= )!==(?= )", "==="),
    ("bound", r"\.trim(?:End|Start)?\(\)", ""),
    ("logic", r"(?<= )\|\|(?= )", "&&"),
    ("logic", r"(?<=if \()(?=[\w.]+\)$)", "!"),
    ("logic", r"(?<=while \()(?=[\w.]+\)$)", "!"),
    ("logic", r"(?:(?<=[^=<>!]= )|(?<=return )|(?<=\()|(?<==> )|(?<=, ))(?=[\w.]+ \? )", "!"),
    ("option", r" \?\? [\w.\"]+(?: *\")?", ""),
    ("option", r"\?(?=\.)", ""),
    ("order", r"\.reverse\(\)", ""),
    ("order", r"\.shift\(", ".pop("),
    ("order", r"\.pop\(", ".shift("),
    ("order", r"\.push\(", ".unshift("),
    ("order", r"\.lastIndexOf\(", ".indexOf("),
    ("order", r"\.indexOf\(", ".lastIndexOf("),
    ("order", r"\.append\(", ".prepend("),
    ("order", r"\.prepend\(", ".append("),
    ("order", r"\.some\(", ".every("),
    ("order", r"\.every\(", ".some("),
)


def code_of(text: str) -> list[str]:
    """The lines of a file with their code alone."""
    is_c = bool(re.search(r"^#include ", text, re.M))
    code = (C if is_c else JAVASCRIPT).sub(blank, text).split("\n")
    return ["" if NOT_CODE.match(it) else it for it in code]


def blank(found: re.Match[str]) -> str:
    """As many spaces as a text or a comment has signs, in its quotes."""
    text = found[0]
    spaces = re.sub(r"[^\n]", " ", text)
    is_comment = text[:1] == "#" or text[:2] in ("//", "/*")
    return spaces if is_comment or len(text) < 2 else text[0] + spaces[1:-1] + text[0]


# The functions.


class Function(NamedTuple):
    """A function of a file: its name with that of its class, and the lines that its body has, by their numbers."""

    name: str
    begin: int
    end: int


FUNCTION = re.compile(r"(?P<indent>)(?:export )?(?:async )?function\*? (?P<name>\w+)\(")
METHOD = re.compile(r"(?P<indent>    )(?:async |static |get )?(?P<name>\w+)\(")
FUNCTION_OF_C = re.compile(r"(?P<indent>)(?!else)[a-z][\w ]*[ *](?P<name>\w+)\(")


def functions(code: list[str]) -> Iterator[Function]:
    """The functions of a file, and the methods of its classes."""
    owner, at = "", 0
    while at < len(code):
        line = code[at]
        if found := re.match(r"(?:export )?class (\w+)", line):
            owner = found[1] + "::"
        elif line == "}":
            owner = ""
        head = METHOD.match(line) if owner else FUNCTION.match(line) or FUNCTION_OF_C.match(line)
        last = next((it for it in range(at, min(at + 5, len(code))) if code[it].endswith(("{", ";"))), at)
        if head and code[last].endswith("{") and head["name"] not in KEYWORDS.split("|"):
            end = next(it for it in range(last, len(code)) if code[it] == head["indent"] + "}")
            yield Function(owner + head["name"], last + 1, end)
            at = end
        at += 1


# The rules.


def swaps(lines: list[str], code: list[str]) -> Iterator[Slip]:
    """What stands in a line, for another."""
    yield from swapped(SWAPS, lines, code)


def words(lines: list[str], code: list[str]) -> Iterator[Slip]:
    """A text with another last word, of the same length, and a pattern that is not bound to an end."""
    for at, line in enumerate(code):
        for found in re.finditer(r'(["\'`/]) *\1', line):
            begin, end = found.span()
            if found[1] != "/":
                yield from other_word(lines, at, begin + 1, end)
                continue
            for place in (begin + 1, lines[at].rindex("/", begin, end + 1) - 1):
                if lines[at][place] in "^$":
                    yield within("bound", lines, at, place, place + 1, "")


def members(lines: list[str], code: list[str]) -> Iterator[Slip]:
    """A member left out of a list or of an object, on one line or on several."""
    for at, line in enumerate(code):
        for found in re.finditer(r"(?<![\w\])])\[|(?:(?<=return )|(?<=[=(,:] )|(?<=\()|(?<=>\())\{", line):
            end = closing(line, found.start())
            for begin, to in parts_between(line, found.end(), end - 1, ",") if end else ():
                if line[begin:to].strip(" ,"):
                    yield within("member", lines, at, begin, to, "")
        if re.search(r"(?:[=(\[:]|return) ?[\[{]$|[=:(] \[$|\($", line):
            yield from members_below(lines, code, at)


def members_below(lines: list[str], code: list[str], at: int) -> Iterator[Slip]:
    """A member left out of a list that begins in a line and has its members in those below."""
    for to in range(at + 1, last_of(code, at)):
        line = code[to]
        if indent(lines[to]) == indent(code[at]) + 4 and line.endswith(",") and last_of(code, to) == to:
            for begin, end in parts_between(line, indent(line), len(line), ","):
                if line[begin:end].strip(" ,"):
                    yield within("member", lines, to, begin, end, "")


def arms(lines: list[str], code: list[str]) -> Iterator[Slip]:
    """A case left out of a switch."""
    for at, line in enumerate(code):
        if re.match(r"\s*case ", line):
            to = next(it for it in range(at + 1, len(code)) if indent(code[it]) <= indent(line))
            yield Slip("arm", at, to, [], short(" ".join(lines[at:to])), "nothing")


def effects(lines: list[str], code: list[str]) -> Iterator[Slip]:
    """A statement left out."""
    for begin, end in statements(code, CALL):
        yield left_out("effect", lines, begin, end)


def exits(lines: list[str], code: list[str]) -> Iterator[Slip]:
    """A return, a break or the like left out that stands under a condition."""
    for at, line in enumerate(code):
        if LEAVES.match(line.strip()) and re.match(r"\s*(?:\} )?(?:if|else)\b", code[at - 1]):
            yield left_out("end", lines, at, at + 1)


def left_out(rule: str, lines: list[str], begin: int, end: int) -> Slip:
    """The slip that has nothing done in the place of lines."""
    return Slip(rule, begin, end, [" " * indent(lines[begin]) + "{}"], short(" ".join(lines[begin:end])), "nothing")


def calls_turned(lines: list[str], code: list[str]) -> Iterator[Slip]:
    """Two calls, each in the other's place."""
    yield from orders(lines, code, CALL)


def rounds(lines: list[str], code: list[str]) -> Iterator[Slip]:
    """A loop of one statement that ends with its first round."""
    for at, line in enumerate(code):
        if re.match(r"\s*(?:for|while) \(.*\)$", line) and last_of(code, at) == at:
            to = next(it for it in range(at + 2, len(code)) if indent(code[it]) <= indent(line))
            spaces = " " * indent(line)
            body = [lines[at] + " {", *lines[at + 1:to], spaces + "    break;", spaces + "}"]
            yield Slip("end", at, to, body, short(line), "one round")


def bodies(lines: list[str], code: list[str]) -> Iterator[Slip]:
    """A function without a value that does nothing."""
    for it in functions(code):
        if not re.search(r"\breturn .|\byield\b", "\n".join(code[it.begin:it.end])):
            yield Slip("end", it.begin, it.begin, ["    return;"], f"the body of {it.name}", "return;")


RULES: tuple[Rule, ...] = (
    swaps, numbers, words, members, arms, effects, exits, calls_turned, ends, rounds, bodies,
)


# The plants.


def paths() -> list[pathlib.Path]:
    """The files that have plants."""
    return [path for name in SOURCES for path in sorted(TOP.glob(name))]


def plants_of(path: pathlib.Path) -> Iterator[Plant]:
    """The plants of a file, without numbers."""
    lines = path.read_text(encoding="utf-8").split("\n")
    code = code_of("\n".join(lines))
    names = {at: it.name for it in functions(code) for at in range(it.begin, it.end + 1)}
    folder = str(path.parent.relative_to(TOP))
    for rule in RULES:
        for slip in rule(lines, code):
            name = names.get(slip.begin, names.get(slip.begin + 1, "-"))
            yield Plant(0, folder, path.name, slip.begin + 1, name, False, slip)


@functools.lru_cache(1)
def all_plants() -> list[Plant]:
    """The plants of all files, numbered from 1 on; of two that make the same of a file, the first."""
    found: list[Plant] = []
    for path in paths():
        text = path.read_text(encoding="utf-8")
        made = {it.planted(text): it for it in reversed(list(plants_of(path)))}
        found += [it for whole, it in reversed(list(made.items())) if whole != text]
    return [replace(it, number=number) for number, it in enumerate(found, 1)]


def marked(path: pathlib.Path, mark: str) -> str:
    """The text of a file of JavaScript in which each function does something first, where {} stands for its name."""
    lines = path.read_text(encoding="utf-8").split("\n")
    for it in sorted(functions(code_of("\n".join(lines))), key=lambda it: -it.begin):
        lines.insert(it.begin, mark.replace("{}", f"{path.name} {it.name}"))
    return "\n".join(lines)

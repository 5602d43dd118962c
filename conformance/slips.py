"""The slips that `plant.py` puts into code, by rules: what a line, a list, a match, a loop or a statement may lack.

A rule takes the lines of a function's body or of a constant. It reads them without their texts, comments and clauses.
`planting_web.py` has the rules that are JavaScript's and C's own, and takes the others from here.
"""

from __future__ import annotations

import re
from collections.abc import Callable, Iterable, Iterator
from typing import NamedTuple

LITERAL = re.compile(r'b?"(?:[^"\\]|\\.)*"' + r"|b?'(?:[^'\\]|\\[^']+)'|//.*")
NOT_CODE = re.compile(r"\s*(?:(?:ghost|requires|ensures|invariant|decreases|use)\b|#!?\[)")
NUMBER = re.compile(r"(?<!\w)(?<!(?<!\.)\.)(0x[0-9A-Fa-f_]+|\d[\d_]*)(?=\W|$|[ui]\d|usize|n\b)(?!\.\d)")
# What may stand for another text in a line: the rule, what is looked for, and what comes in its place.
COMMON_SWAPS = (
    ("comparison", r"(?<= )<(?= )", "<="),
    ("comparison", r"(?<= )<=(?= )", "<"),
    ("comparison", r"(?<= )>(?= )", ">="),
    ("comparison", r"(?<= )>=(?= )", ">"),
    ("comparison", r"(?<= )==(?= )", "!="),
    ("comparison", r"(?<= )!=(?= )", "=="),
    ("bound", r" [+-] 1\b", ""),
    ("logic", r"&&(?= )", "||"),
    ("logic", r"(?<![\w!=])!(?=[\w(])", ""),
    ("logic", r"\btrue\b", "false"),
    ("logic", r"\bfalse\b", "true"),
    ("order", r"\.max\(", ".min("),
    ("order", r"\.min\(", ".max("),
)
SWAPS = (
    *COMMON_SWAPS,
    ("bound", r"\.saturating_(?:sub|add)\(1\)", ""),
    ("bound", r"\.\.=", ".."),
    ("bound", r"(?<=[\w)\]])\.\.(?=[\w(])", "..="),
    ("logic", r"(?<= )\|\|(?= \w)", "&&"),
    ("order", r"\.rev\(\)", ""),
    ("order", r"\.first\(\)", ".last()"),
    ("order", r"\.last\(\)", ".first()"),
)
CALL = re.compile(r"(?!return\b|break\b|continue\b|let (?!_ =)|const\b)[a-z_*][^=]*(?:\(| [-+*|&]?= ).*|let _ = ")


class Slip(NamedTuple):
    """Lines that come in the place of others, the rule that has it so, and what changes, in short."""

    rule: str
    begin: int
    end: int
    lines: list[str]
    old: str
    new: str


# A rule: from lines, and these with their code alone, to slips.
Rule = Callable[[list[str], list[str]], Iterator[Slip]]


def blank(found: re.Match[str]) -> str:
    """As many spaces as a text or a comment has signs, in its quotes."""
    text = found[0]
    return " " * len(text) if text.startswith("//") else text[:1] + " " * (len(text) - 2) + text[-1:]


def code_of(lines: list[str], is_constant: bool) -> list[str]:
    """Lines with their code alone."""
    code = [LITERAL.sub(blank, it) for it in lines]
    code = ["" if NOT_CODE.match(it) or not it.isascii() else it for it in code]
    if is_constant:
        code[0] = re.sub(r"^.*? =(?= |$)", lambda it: " " * len(it[0]), code[0])
    return code


def indent(line: str) -> int:
    """How far a line is indented; an empty one is not."""
    return len(line) - len(line.lstrip())


def short(text: str) -> str:
    """A text of some lines on one, cut off where it is long."""
    words = " ".join(text.split())
    return words if len(words) <= 60 else words[:57] + ".."


def within(rule: str, lines: list[str], at: int, begin: int, end: int, new: str) -> Slip:
    """The slip that puts a text into a line; it is told with what stands around it."""
    line = lines[at]
    before, after = line[max(begin - 20, indent(line)):begin], line[end:end + 20]
    made = line[:begin] + new + line[end:]
    return Slip(rule, at, at + 1, [made], before + line[begin:end] + after, before + new + after)


def without(rule: str, lines: list[str], begin: int, end: int) -> Slip:
    """The slip that takes lines away."""
    return Slip(rule, begin, end, [], short(" ".join(lines[begin:end])), "nothing")


# Within a line.


def swapped(table: Iterable[tuple[str, str, str]], lines: list[str], code: list[str]) -> Iterator[Slip]:
    """What stands in a line, for another, as a table has it."""
    for at, line in enumerate(code):
        for rule, pattern, new in table:
            for found in re.finditer(pattern, line):
                yield within(rule, lines, at, found.start(), found.end(), new)


def swaps(lines: list[str], code: list[str]) -> Iterator[Slip]:
    """What stands in a line, for another."""
    yield from swapped(SWAPS, lines, code)


def numbers(lines: list[str], code: list[str]) -> Iterator[Slip]:
    """A number that is one more; and 0 for one that is given back."""
    for at, line in enumerate(code):
        for found in NUMBER.finditer(line):
            value = int(found[1].replace("_", ""), 0)
            more = f"0x{value + 1:x}" if found[1].startswith("0x") else str(value + 1)
            yield within("bound", lines, at, found.start(1), found.end(1), more)
            if value > 1 and re.fullmatch(r"\s*(?:.*=> |return |.*\()?\d+\)?[,;]?", line):
                yield within("status", lines, at, found.start(1), found.end(1), "0")


def words(lines: list[str], code: list[str]) -> Iterator[Slip]:
    """A text with another last word, of the same length."""
    for at, line in enumerate(lines):
        for found in LITERAL.finditer(line) if code[at].strip() else ():
            if not found[0].startswith("//"):
                front = len(found[0]) - len(found[0].lstrip("b"))
                yield from other_word(lines, at, found.start() + front + 1, found.end())


def other_word(lines: list[str], at: int, begin: int, end: int) -> Iterator[Slip]:
    """Another last word in the text of a line that begins and ends there; its last sign is the quote."""
    inside = re.sub(r"\\.|\{[^}]*\}", lambda it: " " * len(it[0]), lines[at][begin:end])
    last = list(re.finditer(r"\w+", inside)) or list(re.finditer(r"[^\w\s\"'`]", inside))
    if last:
        place = begin + last[-1].start()
        yield within("word", lines, at, place, place + 1, "y" if lines[at][place] == "x" else "x")


def options(lines: list[str], code: list[str]) -> Iterator[Slip]:
    """`None` for `Some(..)`, where it is no pattern."""
    for at, line in enumerate(code):
        for found in re.finditer(r"(?<![\w:])Some\(", line):
            end = closing(line, found.end() - 1)
            if end and not re.match(r"\)*(?: =>| = | \||,? if )", line[end:]):
                yield within("option", lines, at, found.start(), end, "None")


def closing(line: str, begin: int) -> int:
    """The place behind the bracket that closes the one at a place; 0 where none does in this line."""
    depth = 0
    for at in range(begin, len(line)):
        depth += (line[at] in "([{") - (line[at] in ")]}")
        if depth == 0:
            return at + 1
    return 0


# Members left out.


def parts_between(line: str, begin: int, end: int, sign: str) -> Iterator[tuple[int, int]]:
    """Where the parts of a line begin and end that a sign outside of brackets divides."""
    depth, start = 0, begin
    for at in range(begin, end):
        depth += (line[at] in "([{") - (line[at] in ")]}")
        if depth == 0 and line[at] == sign:
            yield start, at + 1
            start = at + 1
    yield start, end


def alternatives(lines: list[str], code: list[str]) -> Iterator[Slip]:
    """An alternative left out of a pattern."""
    for at, line in enumerate(code):
        if re.match(r"\s*\| ", line):
            yield from without_line(lines, code, at)
        elif " | " in line:
            end = line.find(" =>") if " =>" in line else len(line)
            begin = max(line.rfind("(", 0, line.index(" | ")) + 1, indent(line), line.find(" let ") + 5)
            end = closing(line, begin - 1) - 1 if line[begin - 1] == "(" and closing(line, begin - 1) else end
            parts = list(parts_between(line, begin, end, "|"))
            for first, last in parts if len(parts) > 1 else ():
                first -= 2 if last == end else 0
                yield within("alternative", lines, at, first, last + (last < end), "")


def without_line(lines: list[str], code: list[str], at: int) -> Iterator[Slip]:
    """The slips that leave out an alternative on a line of its own, and the one before it where that is the first."""
    line = lines[at].strip()
    if not re.match(r"\s*\| ", code[at - 1]):
        new = " " * indent(lines[at]) + line[2:]
        yield Slip("alternative", at - 1, at + 1, [new], short(lines[at - 1]), "nothing")
    rest = line[line.index(" =>"):] if " =>" in code[at] else ""
    yield Slip("alternative", at - 1, at + 1, [lines[at - 1] + rest], short(line.partition(" =>")[0]), "nothing")


def members(lines: list[str], code: list[str]) -> Iterator[Slip]:
    """A member left out of a list, on one line or on several; an array of a constant is then one shorter."""
    for at, line in enumerate(code):
        for found in re.finditer(r"(?<![\w#!])\[", line):
            end = closing(line, found.start())
            for first, last in parts_between(line, found.end(), end - 1, ",") if end else ():
                if line[first:last].strip(" ,"):
                    yield shorter(lines, within("member", lines, at, first, last, ""))
        if line.endswith("["):
            begin = at + 1
            for to in range(at + 1, len(code)):
                if indent(lines[to]) <= indent(line):
                    break
                if indent(lines[to]) == indent(line) + 4 and code[to].endswith(","):
                    yield shorter(lines, without("member", lines, begin, to + 1))
                    begin = to + 1


def shorter(lines: list[str], slip: Slip) -> Slip:
    """A slip that leaves a member out, with the number of those that are left."""
    found = re.search(r"const .*; (\d+)\] =", lines[0])
    if not found:
        return slip
    changed = [lines[0][:found.start(1)] + str(int(found[1]) - 1) + lines[0][found.end(1):], *lines[1:]]
    if slip.begin == 0:
        changed[0] = slip.lines[0].replace(f"; {found[1]}] =", f"; {int(found[1]) - 1}] =")
        return slip._replace(lines=changed[:1])
    return slip._replace(begin=0, lines=[*changed[:slip.begin], *slip.lines])


def last_of(code: list[str], begin: int) -> int:
    """The line in which the brackets are closed that lines open from one on."""
    depth = 0
    for at in range(begin, len(code)):
        depth += sum(code[at].count(it) for it in "([{") - sum(code[at].count(it) for it in ")]}")
        if depth <= 0:
            return at
    return begin


def has_rest(lines: list[str], code: list[str], at: int) -> bool:
    """Whether a match has an arm for all else behind one that begins in a line."""
    level, to = indent(lines[at]), last_of(code, at)
    rest = code[to + 1:]
    end = next((i for i, it in enumerate(rest) if it and indent(it) < level), len(rest))
    return any(re.match(rf" {{{level}}}(?:_|[a-z]\w*)(?: if .*)? =>", it) for it in rest[:end])


def arms(lines: list[str], code: list[str]) -> Iterator[Slip]:
    """An arm left out of a match that has one for all else."""
    for at, line in enumerate(code):
        if " => " in line and not re.match(r"\s*(?:_ |[)}\]|])", line) and has_rest(lines, code, at):
            yield without("arm", lines, at, last_of(code, at) + 1)


def leaves_some_out(slip: Slip, lines: list[str], code: list[str]) -> bool:
    """Whether a slip changes a pattern of a match that has no arm for all else: no compiler takes that."""
    at = slip.end - 1
    while re.match(r"\s*\| (?!.* =>)", code[at]):
        at += 1
    if slip.rule not in ("logic", "option", "alternative", "member") or " =>" not in code[at]:
        return False
    olds, news = lines[slip.begin:slip.end], slip.lines or [""]
    old, new = (re.split(r" =>| if ", it[-1], maxsplit=1)[0] for it in (olds, news))
    return old != new and not has_rest(lines, code, at)


# Statements.


def statements(code: list[str], call: re.Pattern[str] = CALL) -> Iterator[tuple[int, int]]:
    """Where statements begin and end that are calls, assignments, or blocks of which nothing is taken."""
    for at, line in enumerate(code):
        text, to = line.strip(), last_of(code, at)
        last = code[to]
        if re.match(r"(?:if|for|while) .*\{$", text):
            if last == " " * indent(line) + "}":
                yield at, to + 1
        elif last.endswith(";") and indent(last) == indent(line) and call.match(text):
            yield at, to + 1


def effects(lines: list[str], code: list[str]) -> Iterator[Slip]:
    """A statement left out."""
    for begin, end in statements(code):
        yield without("effect", lines, begin, end)


def orders(lines: list[str], code: list[str], call: re.Pattern[str] = CALL) -> Iterator[Slip]:
    """Two calls, each in the other's place."""
    found = [it for it in statements(code, call) if "(" in code[it[0]] and not code[it[0]].endswith("{")]
    for (begin, middle), (other, end) in zip(found, found[1:]):
        if middle == other and indent(code[begin]) == indent(code[other]):
            swapped = lines[other:end] + lines[begin:middle]
            told = short(lines[begin]), short(lines[other])
            yield Slip("order", begin, end, swapped, "; ".join(told), "; ".join(told[::-1]))


def ends(lines: list[str], code: list[str]) -> Iterator[Slip]:
    """A loop that ends with its first round."""
    for at, line in enumerate(code):
        if re.match(r"\s*(?:for|while) .*\{$|\s*loop \{$", line):
            to = next((i for i in range(at + 1, len(code)) if code[i] == " " * indent(line) + "}"), 0)
            if to:
                yield Slip("end", to, to, [" " * indent(line) + "    break;"], short(line), "one round")


RULES: tuple[Rule, ...] = (swaps, numbers, words, options, alternatives, members, arms, effects, orders, ends)


def slips(lines: list[str], is_constant: bool, gives_nothing: bool) -> Iterator[Slip]:
    """All slips in a function's body, which may give `Ok(())`, or in a constant."""
    code = code_of(lines, is_constant)
    for rule in RULES:
        yield from (it for it in rule(lines, code) if not leaves_some_out(it, lines, code))
    if gives_nothing and len(lines) > 1:
        yield Slip("end", 0, len(lines), ["    Ok(())"], "the body", "Ok(())")

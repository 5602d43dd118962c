#!/usr/bin/env python3
"""Looks whether what docs/PROVED.md cites is there: each call and clause, each law and definition, each file.

usage: tools/proved.py [--write]

A row of a table of promises cites, in its second column, in parts that semicolons divide:

  `decode`, ensures `found`           calls, each with clauses of these names
  `Memory::byte`, `word`              calls that have one clause alone, or definitions
  `StaysClean`, field `read`          definitions, each with fields of these names
  `impl Sink for Buffer`, with `gave` implementations, each with ghost items of these names
  functions `.._by_example`           in each of its files, functions whose names end so

A call without a type has that of the call before it, where it is no function by itself. The third column has files in
crates/: each name is found in one of them, and each of them has one of the names. --write makes this column anew: a
name that stands in one file alone is followed there, and a file that has none of the names is left out.

A row of the table of what callers have to meet cites calls likewise, each with `requires` and the names of all its
clauses that have one; and each public function with such a clause stands there.

The calls that carry a theorem are functions of any file, with clauses of the names that follow `ensures`. Those that
rows cite are public, but for those that the page names.
"""

from __future__ import annotations

import functools
import re
import sys
from collections.abc import Iterator
from dataclasses import dataclass, field
from pathlib import Path

from definitions import Definition, Function, read_sources, read_specs
from ending import end_with
from sources import crates

TOP = Path(__file__).resolve().parent.parent
PAGE = TOP / "docs" / "PROVED.md"
PROMISES = ["Promise", "Carried by", "Files"]
DUTIES = ["Call", "What it asks for", "Files"]


def rows_of(text: str) -> Iterator[tuple[int, list[str], list[str]]]:
    """The rows of tables, each with its line and the heads of its table's columns."""
    head: list[str] | None = None
    for number, line in enumerate(text.splitlines(), 1):
        cells = [cell.strip() for cell in line.strip().strip("|").split(" | ")] if line.startswith("|") else None
        if cells is None:
            head = None
        elif head is None:
            head = cells
        elif set(line) - set("| -"):
            yield number, head, cells


def names_in(text: str) -> list[str]:
    """The names that stand in backquotes."""
    return re.findall(r"`([^`]+)`", text)


@functools.cache
def text_of(file: str) -> str | None:
    """The text of a file, or nothing where there is none."""
    path = TOP / "crates" / file
    return path.read_text("utf-8") if path.is_file() else None


class Book:
    """What is there: functions and definitions by their files."""

    def __init__(self) -> None:
        self.private: set[str] = set()  # the calls that rows cite and that are not public
        self.functions: dict[str, list[Function]] = {}
        self.specs: dict[str, dict[str, Definition]] = {}
        for crate in crates():
            for function in read_sources(crate, {}):
                if not function.is_ghost:
                    self.functions.setdefault(f"{crate}/src/{function.file}", []).append(function)
        for path, made in read_specs():
            self.specs[str(path.relative_to(TOP / "crates"))] = {it.name: it for it in made}

    def calls(self, name: str, files: list[str]) -> list[tuple[str, Function]]:
        """The functions of a name, with its type or without one, in files, each with its file."""
        owner, _, last = name.rpartition("::")
        named = [(file, it) for file in files for it in self.functions.get(file, []) if it.name == last]
        return [it for it in named if it[1].owner == owner] or [it for it in named if it[1].trait == owner]


@dataclass
class Row:
    """A row whose citations are looked for. It notes which of its files have one."""

    book: Book
    number: int
    files: list[str]
    complaints: list[str]
    moves: bool
    used: set[str] = field(default_factory=set)
    owner: str = ""

    def complain(self, words: str) -> None:
        """Notes what is wrong with it."""
        self.complaints.append(f"docs/PROVED.md:{self.number}: {words}")

    def follow(self, files: list[str]) -> None:
        """Takes the one file in which a name stands that none of the row's files has, where moves are followed."""
        if self.moves and len(set(files)) == 1:
            self.files.append(files[0])

    def find_calls(self, name: str) -> list[Function]:
        """The functions that a name stands for."""
        names = [name] if "::" in name or not self.owner else [name, f"{self.owner}::{name}"]
        if not any(self.book.calls(it, self.files) for it in names):
            self.follow([file for file, _ in self.book.calls(names[-1], list(self.book.functions))])
        found: list[tuple[str, Function]] = next(filter(None, (self.book.calls(it, self.files) for it in names)), [])
        if found:
            self.owner = found[0][1].owner
            self.used.update(file for file, _ in found)
        self.book.private.update(name for _, it in found if not it.public and not it.trait)
        return [function for _, function in found]

    def find_definitions(self, name: str) -> list[Definition]:
        """The definitions that a name stands for."""
        there = [file for file, made in self.book.specs.items() if name in made]
        if not any(file in there for file in self.files) and not self.book.calls(name, self.files):
            self.follow(there)
        found = [(file, self.book.specs[file][name]) for file in self.files if file in there]
        self.used.update(file for file, _ in found)
        return [definition for _, definition in found]

    def look_for_clauses(self, part: str, word: str) -> list[Function]:
        """Looks for calls with clauses of a word, and answers the calls."""
        said, _, named = part.partition(f", {word} ")
        calls: list[Function] = []
        for name in names_in(said):
            found = self.find_calls(name)
            if not found:
                self.complain(f"no function `{name}` in its files")
            for call in found:
                has = [clause for kind, clause in call.clauses if kind == word]
                for clause in names_in(named):
                    if clause not in has:
                        self.complain(f"`{name}` has no clause `{word} {clause}`")
            calls.extend(found)
        return calls

    def look_for_names(self, part: str) -> None:
        """Looks for calls of one clause, and for definitions."""
        said, _, fields = part.partition(", field ")
        for name in names_in(said):
            found = self.find_definitions(name)
            calls = [] if found else self.find_calls(name)
            if not calls and not found:
                self.complain(f"no function and no definition `{name}` in its files")
            for call in calls:
                if [kind for kind, _ in call.clauses].count("ensures") != 1:
                    self.complain(f"`{name}` has not one clause alone")
            for own in names_in(fields):
                if not any(re.search(rf"^\s+pub {re.escape(own)} :", it.text, re.M) for it in found):
                    self.complain(f"`{name}` has no field `{own}`")

    def look_for_implementations(self, part: str) -> None:
        """Looks for implementations with ghost items."""
        said, _, items = part.partition(", with ")
        for name in names_in(said):
            words = re.escape(name.removeprefix("impl "))
            pattern = re.compile(rf"^impl(?:<[^{{]*>)? {words}\b.*?^}}", re.M | re.S)
            found = {file: pattern.search(text_of(file) or "") for file in self.files}
            blocks = [block[0] for block in found.values() if block]
            self.used.update(file for file, block in found.items() if block)
            if not blocks:
                self.complain(f"no `{name}` in its files")
            for item in names_in(items):
                if not any(re.search(rf"^\s+ghost {re.escape(item)} =", block, re.M) for block in blocks):
                    self.complain(f"`{name}` has no `{item}`")

    def look_for_endings(self, part: str) -> None:
        """Looks in each file for functions whose names end in a way."""
        for name in names_in(part):
            for file in self.files:
                if any(it.name.endswith(name[2:]) for it in self.book.functions.get(file, [])):
                    self.used.add(file)

    def look_for_files(self) -> None:
        """Looks whether the files are there, and whether a name was found in each; moves leave such files out."""
        for file in [] if self.moves else self.files:
            if text_of(file) is None:
                self.complain(f"no file {file}")
            elif file not in self.used:
                self.complain(f"{file} has none of the names")


def look_at_promise(row: Row, carried: str) -> None:
    """Looks for all that a row of promises cites."""
    if not names_in(carried):
        row.complain("nothing carries it")
    for part in carried.split("; "):
        if part.startswith("`impl "):
            row.look_for_implementations(part)
        elif part.startswith("functions `.."):
            row.look_for_endings(part)
        elif ", ensures " in part:
            row.look_for_clauses(part, "ensures")
        else:
            row.look_for_names(part)
    row.look_for_files()


def wanted_by(function: Function) -> set[str]:
    """The names of the clauses that say what a function asks for, "" where one has none."""
    return {clause for word, clause in function.clauses if word == "requires"}


def look_at_duty(row: Row, called: str) -> list[Function]:
    """Looks for the calls of a row of duties, and answers them."""
    calls: list[Function] = []
    for part in called.split("; "):
        found = row.look_for_clauses(part, "requires")
        named = set(names_in(part.partition(", requires ")[2]))
        for call in found:
            if not wanted_by(call):
                row.complain(f"`{call.name}` asks for nothing")
            for clause in wanted_by(call) - named - {""}:
                row.complain(f"`{call.name}` also asks for `{clause}`")
        calls.extend(found)
    row.look_for_files()
    return calls


def look_at_theorems(text: str, book: Book) -> Iterator[str]:
    """What is wrong with the calls that carry a theorem: they have the clauses that are named, wherever they stand."""
    functions = [it for there in book.functions.values() for it in there]
    for paragraph in re.findall(r"^\*Carried by\* (.*?)\n\n", text, re.M | re.S):
        for part in " ".join(paragraph.split()).split("; "):
            said, _, named = part.partition(", ensures ")
            for name in [] if "the calls of" in said else names_in(said):
                found = [it for it in functions if it.name == name.rpartition("::")[2]]
                clauses = {clause for it in found for kind, clause in it.clauses if kind == "ensures"}
                lacking = [clause for clause in names_in(named) if clause not in clauses]
                if not found:
                    yield f"docs/PROVED.md: a theorem is carried by `{name}`, which is no function"
                elif lacking:
                    yield f"docs/PROVED.md: a theorem is carried by `{name}`, which has no clause `{lacking[0]}`"


def look_at_private(text: str, book: Book) -> Iterator[str]:
    """What is wrong with the sentence that names the calls that are not public."""
    named = set(names_in(" ".join(re.findall(r"^All calls are public except (.*?)\.\s", text, re.M | re.S))))
    for name in sorted(named ^ book.private):
        yield f"docs/PROVED.md: `{name}` is {'not ' * (name not in book.private)}cited and not public"


def main() -> int:
    """Looks at all rows, and answers 1 where something is wrong."""
    moves = sys.argv[1:] == ["--write"]
    if sys.argv[1:] and not moves:
        sys.exit(__doc__)
    lines = PAGE.read_text("utf-8").split("\n")
    book = Book()
    complaints: list[str] = []
    listed: list[Function] = []
    count = 0
    for number, head, cells in rows_of(PAGE.read_text("utf-8")):
        count += 1
        if head not in (PROMISES, DUTIES) or len(cells) != len(head):
            complaints.append(f"docs/PROVED.md:{number}: a table of other columns than {PROMISES} or {DUTIES}")
            continue
        row = Row(book, number, names_in(cells[2]), complaints, moves)
        if head == PROMISES:
            look_at_promise(row, cells[1])
        else:
            listed.extend(look_at_duty(row, cells[0]))
        if moves:
            files = ", ".join(f"`{it}`" for it in row.files if it in row.used)
            lines[number - 1] = f"{lines[number - 1].removesuffix(f'{cells[2]} |')}{files} |"
    for file, functions in book.functions.items():
        for function in functions:
            if function.public and wanted_by(function) and function not in listed:
                complaints.append(f"docs/PROVED.md: not listed with what it asks for: `{function.name}` of {file}")
    complaints.extend(look_at_theorems(PAGE.read_text("utf-8"), book))
    complaints.extend(look_at_private(PAGE.read_text("utf-8"), book))
    if moves:
        PAGE.write_text("\n".join(lines), "utf-8")
    for complaint in complaints:
        print(complaint, file=sys.stderr)
    print(f"docs/PROVED.md: {count} rows, of which {len(complaints)} citations are wrong")
    return 1 if complaints else 0


if __name__ == "__main__":
    end_with(main)

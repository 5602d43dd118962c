"""Edits of the sources, which a contract, a row or a test has to refuse.

README.md describes how an edit is written. `conformance/refuse.py` asks the prover for those of `refused`, and
`conformance/mutate.py` the rows and tests for those that are mutants.
"""

from __future__ import annotations

import functools
import pathlib
import re
import sys
from collections.abc import Iterator
from dataclasses import dataclass, field
from typing import NamedTuple

from sources import FOLDER, TOP, functions_of

# Reading edits.


class BadEdit(Exception):
    """An edit that can't be applied."""


class Pair(NamedTuple):
    """A text that an edit takes away from a file of its crate, and the one that it puts there."""

    file: str
    old: str
    new: str | None


@dataclass(eq=False)
class Edit:
    """One edit, with the file that it is written in."""

    name: str
    written: pathlib.Path
    crate: str
    function: str = ""  # in which the old texts stand once, else they do so in their file
    pairs: list[Pair] = field(default_factory=list)
    number: int = 0

    def files(self) -> list[str]:
        """The files of its crate that it changes."""
        return list(dict.fromkeys(it.file for it in self.pairs))

    def path(self) -> str:
        """The path of the first file that it changes."""
        return f"crates/{self.crate}/{(self.files() or [''])[0]}"

    def place(self) -> str:
        """How the file that it is written in is called in what is printed."""
        return self.written.name if self.written.suffix == ".edits" else f"refused/{self.crate}"

    def title(self) -> str:
        """How it is called in what is printed."""
        return f"{self.place()} {self.name} ({self.path()})"


def read_file(path: pathlib.Path, crate: str) -> list[Edit]:
    """The edits of a file: `file:` holds from its line on, `edit:` begins one. In an `.edit` file stands one alone."""
    edits = [Edit(path.stem, path, crate)] if path.suffix == ".edit" else []
    file = ""
    for number, line in enumerate(path.read_text(encoding="utf-8").splitlines(), 1):
        word, _, text = line.partition(":")
        text = text.removeprefix(" ")
        if word == "file":
            file = text
        elif word == "edit":
            edits.append(Edit(text, path, crate))
        elif word == "in" and edits:
            edits[-1].function = text
        elif word == "old" and edits and file:
            edits[-1].pairs.append(Pair(file, text, None))
        elif word == "new" and edits and edits[-1].pairs:
            edits[-1].pairs.append(edits[-1].pairs.pop()._replace(new=text))
        elif line.strip() and not line.startswith("#"):
            sys.exit(f"{path.name}:{number}: no such line may stand here: {line}")
    return edits


def refused() -> list[Edit]:
    """The edits of the folder `refused`."""
    paths = sorted((FOLDER / "refused").glob("*/*.edit"))
    return [edit for path in paths for edit in read_file(path, path.parent.name)]


def mutants() -> list[Edit]:
    """The edits of the folder `mutants`; those of parts of crates, whose files have a dash in the name, come last."""
    paths = sorted((FOLDER / "mutants").glob("*.edits"), key=lambda it: ("-" in it.stem, it))
    return [edit for path in paths for edit in read_file(path, path.stem.partition("-")[0])]


# Applying edits.


def bodies_of(text: str, name: str) -> Iterator[tuple[int, str]]:
    """The bodies of the functions of a name, with its type or without one, each with the place where it begins."""
    lines = text.split("\n")
    for it in functions_of(text):
        if it.body < it.end and name in (it.name, f"{it.block.owner}::{it.name}"):
            yield sum(len(line) + 1 for line in lines[:it.body]), "\n".join(lines[it.body:it.end - 1])


def edited(edit: Edit, file: str, text: str) -> str:
    """The text of a file after an edit."""
    for old, new in [(it.old, it.new) for it in edit.pairs if it.file == file]:
        if new is None or old == new:
            raise BadEdit(f"there is no other text for: {old}")
        where = bodies_of(text, edit.function) if edit.function else [(0, text)]
        found = [start + it.start() for start, body in where for it in re.finditer(re.escape(old), body)]
        if len(found) != 1:
            raise BadEdit(f"the text stands {len(found)} times in crates/{edit.crate}/{file}: {old}")
        text = text[:found[0]] + new + text[found[0] + len(old):]
    return text


@functools.cache
def source(crate: str, file: str) -> str:
    """The text of a file of a crate."""
    return (TOP / "crates" / crate / file).read_text(encoding="utf-8")


def why_not(edit: Edit) -> str | None:
    """Why an edit can't be applied to the sources as they are, if it can't."""
    try:
        for file in edit.files():
            edited(edit, file, source(edit.crate, file))
        return None if edit.pairs else "it changes nothing"
    except (BadEdit, OSError) as error:
        return str(error)

"""The crates of the repository, and the functions of their sources.

Sources are read by their lines, as `rt fmt` lays them out. `edits.py` and the scripts in `tools` stand on this.
"""

from __future__ import annotations

import functools
import pathlib
import re
import shutil
import sys
from collections.abc import Iterable, Iterator
from subprocess import DEVNULL, PIPE, STDOUT, Popen
from typing import NamedTuple

FOLDER = pathlib.Path(__file__).resolve().parent
TOP = FOLDER.parent


class Crate(NamedTuple):
    """A crate of crates.txt: the words behind its name, as `staticlib`, and the libraries that it stands on."""

    words: list[str]
    below: list[str]


def crates() -> dict[str, Crate]:
    """The crates of crates.txt by their names, in its order."""
    found: dict[str, Crate] = {}
    for line in (TOP / "crates.txt").read_text(encoding="utf-8").splitlines():
        head, colon, below = line.partition("#")[0].partition(":")
        if colon:
            name, *words = head.split()
            found[name] = Crate(words, below.split())
    return found


def copy_of(folder: pathlib.Path) -> None:
    """A copy of the repository's crates, without what was built of them and without must-fail edits."""
    shutil.copytree(TOP / "crates", folder / "crates", ignore=shutil.ignore_patterns("out", "must-fail"))
    for name in ("crates.txt", "HANDLES"):
        shutil.copyfile(TOP / name, folder / name)
    (folder / ".git").mkdir()


def begin_rt(words: list[str], folder: pathlib.Path) -> Popen[str]:
    """Begins a command of `rt` in a folder. All that it says is one text."""
    if not shutil.which("rt"):
        sys.exit("there is no command rt, and nothing is tried")
    return Popen(["rt", *words], cwd=folder, stdin=DEVNULL, stdout=PIPE, stderr=STDOUT, text=True, errors="replace")


class Block(NamedTuple):
    """A block of a source: its type or trait, the trait that it implements, if it does, and whether it is a trait."""

    owner: str = ""
    implements: str = ""
    is_trait: bool = False


class Function(NamedTuple):
    """A function of a source: the block that it stands in, and its lines, by their numbers.

    Its head begins at `begin` and its body at `body`; `end` is behind all. Without a body these two are the same.
    """

    name: str
    visibility: str
    block: Block
    begin: int
    body: int
    end: int


BLOCK = re.compile(r"(?:pub(?:\(crate\))? )?(impl|trait)(?:<.*?>)? (?:(?:\w+::)*(\w+)[^{]* for )?(?:\w+::)*(\w+)")
FUNCTION = re.compile(r'( *)(pub(?:\(crate\))? )?(?:const |unsafe |extern "C" )*fn (\w+)')


def blocks_of(lines: Iterable[str]) -> Iterator[Block]:
    """The block that each line of a source stands in."""
    block = Block()
    for line in lines:
        if found := BLOCK.match(line):
            block = Block(found[3], found[2] or "", found[1] == "trait")
        elif line == "}":
            block = Block()
        yield block


@functools.lru_cache(1_000)
def functions_of(text: str) -> list[Function]:
    """The functions of a source, in order."""
    functions, lines = [], text.split("\n")
    for at, (line, block) in enumerate(zip(lines, blocks_of(lines))):
        if found := FUNCTION.match(line):
            body, end = body_of(lines, at, found[1])
            functions.append(Function(found[3], found[2] or "", block, at, body, end))
    return functions


def body_of(lines: list[str], begin: int, indent: str) -> tuple[int, int]:
    """Where the body of the function begins whose head begins at a line, and the line behind the function."""
    depth = 0
    for at in range(begin, len(lines)):
        line = lines[at]
        if line == indent + "{" or line.endswith(" {") and (at == begin or line.startswith(indent + ")")):
            return at + 1, lines.index(indent + "}", at) + 1
        depth += line.count("{") - line.count("}")
        if depth == 0 and line.endswith(";") or line == indent + "{}" or line.endswith(" {}"):
            return at + 1, at + 1
    return len(lines), len(lines)

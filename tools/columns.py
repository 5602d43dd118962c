#!/usr/bin/env python3
"""Looks whether lines have at most 120 columns: those of pages, tables and what stands between fences apart, of the
crates, of the C, the JavaScript and the Python, and of files of cases.

usage: tools/columns.py

It tells each longer one, and the status is then 1.
"""

from __future__ import annotations

import sys
from collections.abc import Iterator
from pathlib import Path

TOP = Path(__file__).resolve().parent.parent
sys.dont_write_bytecode = True
sys.path.append(str(TOP / "conformance"))

from ending import end_with  # noqa: E402: it stands in the folder that was just named

MOST = 120
BUILT = {"out", ".git"}
KINDS = {".md", ".c", ".h", ".js", ".py", ".rt", ".antt", ".cases"}


def prose(text: str) -> Iterator[tuple[int, str]]:
    """The lines of a page that are no rows of a table and stand between no fences, with their numbers."""
    is_fenced = False
    for number, line in enumerate(text.split("\n"), 1):
        if line.lstrip().startswith("```"):
            is_fenced = not is_fenced
        elif not is_fenced and not line.startswith("|"):
            yield number, line


def main() -> int:
    """Tells the lines that are too long."""
    status = 0
    if sys.argv[1:]:
        sys.exit(__doc__)
    paths = [it for it in TOP.rglob("*") if it.suffix in KINDS and not BUILT & {*it.relative_to(TOP).parts}]
    for path in sorted(paths):
        text = path.read_text("utf-8")
        for number, line in prose(text) if path.suffix == ".md" else enumerate(text.split("\n"), 1):
            if len(line) > MOST:
                print(f"{path.relative_to(TOP)}:{number}: {len(line)} columns", file=sys.stderr)
                status = 1
    return status


if __name__ == "__main__":
    end_with(main)

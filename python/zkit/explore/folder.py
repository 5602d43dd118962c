"""The folder of walkthroughs that the finds go into."""

from __future__ import annotations

from itertools import count
from pathlib import Path

from zkit._files import write
from zkit.explore.causes import Kind
from zkit.explore.finds import Find
from zkit.explore.walkthroughs import SUFFIX, Text, without_comment, written
from zkit.story import Story

# `zkit test` notices these by itself
NOTICED = "[** Programming error"


class Folder:
    """A folder for finds. It is made if it is not there; OSError tells why it can't be used.

    `zkit test` plays no Blorb files: the story in one goes into the folder too."""

    def __init__(self, path: Path, file: Path, story: Story) -> None:
        path.mkdir(parents=True, exist_ok=True)
        self._path = path
        self._story = file
        if file.read_bytes() != bytes(story):
            self._story = path / f"{file.stem}.z{story.version}"
            self._story.write_bytes(bytes(story))

    def add(self, finds: list[Find]) -> None:
        """Writes all finds that were not written before."""
        for find in finds:
            if find.file is None:
                find.file = self._write(find)

    def _write(self, find: Find) -> str:
        """Writes a find under the first number that is free, or has the same content already; returns the name."""
        content = written(self._story, self._path, find.trail, text_of(find))
        kind = "goal" if find.sign.cause.kind is Kind.GOAL else "find"
        for number in count(1):
            path = self._path / f"{kind}-{number:03}{SUFFIX}"
            if not path.exists():
                write(path, content)
                break
            if without_comment(path.read_text("utf-8", "replace")) == without_comment(content):
                break
        return path.name


def text_of(find: Find) -> Text:
    """What the walkthrough of a find says and checks: `zkit test` fails at it with its cause, and passes at a goal."""
    sign, kind = find.sign, find.sign.cause.kind
    check = ""
    if kind is Kind.GOAL:
        check = f"! {sign.shown}"
    elif kind is Kind.ALARM or (kind is Kind.ERROR and (find.follows_errors or not sign.shown.startswith(NOTICED))):
        check = f"!~ {sign.shown}"
    return Text(f"{kind.value}, {sign.told}", check, find.follows_errors)

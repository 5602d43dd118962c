"""Walkthroughs, as `zkit test` plays them: read as lines, and written of a trail."""

from __future__ import annotations

import os
from dataclasses import dataclass
from pathlib import Path

from zkit._files import MOST_TEXT
from zkit._files import read as read_whole
from zkit.explore.plays import STEPS, UNDO, Trail

SUFFIX = ".walkthrough"
COMMENT = "# what happens: "
LARGEST_SEED = 2**64 - 1


class WalkthroughError(Exception):
    """A file can't be used as a walkthrough."""


@dataclass(frozen=True)
class Text:
    """What a written walkthrough has besides its lines."""

    comment: str
    check: str = ""
    allows_errors: bool = False


def files(paths: list[str]) -> list[Path]:
    """The files that these paths name; of a folder, all walkthroughs in it and below."""
    found: list[Path] = []
    for path in map(Path, paths):
        named = sorted(path.rglob("*" + SUFFIX)) if path.is_dir() else [path]
        if not named:
            raise WalkthroughError(f"{path}: it has no walkthrough")
        found += named
    return found


def read(path: Path, seed: int) -> Trail:
    """The lines of a walkthrough without comments and checks, and its seed or else the given one."""
    try:
        lines = [line.rstrip("\r") for line in read_whole(path, MOST_TEXT).decode("utf-8-sig").split("\n")]
    except (OSError, UnicodeDecodeError) as error:
        why = error.strerror if isinstance(error, OSError) else "it is not UTF-8"
        raise WalkthroughError(f"{path}: {why}") from None
    if not lines[-1]:
        lines.pop()
    while lines and lines[0].startswith("# "):
        key, _, value = lines.pop(0)[2:].partition(":")
        if key.strip() == "seed":
            seed = _seed(path, value.strip())
    commands = [line for line in lines if not line.startswith(("! ", "!~ "))]
    return Trail(seed, tuple(line[1:] if line.startswith("\\") else line for line in commands))


def _seed(path: Path, value: str) -> int:
    if not (value.isascii() and value.isdigit() and int(value) <= LARGEST_SEED):
        raise WalkthroughError(f"{path}: {value} is no seed")
    return int(value)


def without_comment(content: str) -> str:
    """A written walkthrough without what it says: addresses there differ from build to build."""
    return "".join(line for line in content.splitlines(keepends=True) if not line.startswith(COMMENT))


def written(story: Path, folder: Path, trail: Trail, text: Text) -> str:
    """The walkthrough of a trail, for a folder."""
    head = [
        f"# story: {os.path.relpath(story.resolve(), folder.resolve())}",
        f"# seed: {trail.seed}",
        f"# steps: {STEPS}",
        f"# undo: {UNDO}",
    ]
    if text.allows_errors:
        head.append("# allow: library errors")
    head.append(COMMENT + " ".join(text.comment.split()))
    lines = ["\\" + line if line.startswith(("#", "!", "\\")) else line for line in trail.lines]
    check = [text.check] if text.check else []
    return "".join(line + "\n" for line in [*head, *lines, *check])

"""What several tests need: stories, plays, the program."""

from __future__ import annotations

import atexit
import functools
import os
import subprocess
import sys
import tempfile
from collections.abc import Iterable
from pathlib import Path
from typing import Any

from zkit import Awaits, Game, Key, Reply, Story

TOP = Path(__file__).resolve().parent.parent.parent
EXAMPLES = TOP / "examples"
PROGRAM = TOP / "dist/zkit"
LINES = (EXAMPLES / "lighthouse.walkthrough").read_text("utf-8").splitlines()
# a folder with stories that are not in the repository: cellar.z3 and cellar.z5, and whole games in its folder games
STORIES = Path(os.environ.get("ZKIT_STORIES", os.devnull))
GAMES = STORIES / "games"

_folder = tempfile.TemporaryDirectory()
atexit.register(_folder.cleanup)


@functools.lru_cache(maxsize=None)
def example(name: str) -> Story:
    """A story of examples."""
    return Story(EXAMPLES / name)


@functools.lru_cache(maxsize=None)
def _written(cases: Path) -> Path:
    folder = Path(_folder.name) / cases.stem
    folder.mkdir()
    subprocess.run([sys.executable, "-B", TOP / "conformance/case_files.py", cases, folder], check=True)
    return folder


def small(name: str) -> Story:
    """A story of stories.cases."""
    return Story(_written(Path(__file__).parent / "stories.cases") / name)


def large(name: str) -> Story:
    """A story of examples/embed/large.cases."""
    return Story(_written(EXAMPLES / "embed/large.cases") / name)


def answer(game: Game, line: str) -> Reply:
    """Answers a line, or its first character if the story awaits one."""
    if game.reply.awaits is Awaits.CHARACTER:
        return game.send_key(line[0] if line else Key.ENTER)
    return game.send(line)


def play(game: Game, lines: Iterable[str]) -> str:
    """Answers lines as long as the story awaits some, and returns all text, with that of the newest reply before."""
    texts = [game.reply.text]
    for line in lines:
        if game.reply.awaits is Awaits.NOTHING:
            break
        texts.append(answer(game, line).text)
    return "".join(texts)


def whole(story: Story, lines: Iterable[str], **options: Any) -> str:
    """The text of a whole play."""
    with Game(story, **options) as game:
        return play(game, lines)


def shown(path: Path, lines: Iterable[str], *options: str) -> str:
    """What `zkit play` shows of a play."""
    typed = "".join(line + "\n" for line in lines)
    ended = subprocess.run([PROGRAM, "play", *options, path], input=typed.encode(), capture_output=True)
    return ended.stdout.decode()

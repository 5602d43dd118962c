"""Where in the source a find is, by the program `zkit` and the debugging file of Inform."""

from __future__ import annotations

import os
import re
import shutil
import subprocess
import tempfile
from pathlib import Path
from typing import Optional

from zkit.explore.causes import Kind
from zkit.explore.finds import Find
from zkit.explore.plays import STEPS, UNDO, Trail
from zkit.story import Story

STOPS = (Kind.FAULT, Kind.LIMIT, Kind.ENDLESS)
PREFIX = "zkit: "
# what comes before the open routines, and after them
TURN = re.compile(r"^in turn \d+")
END = re.compile(r"^(?:fault|limit) \d+ at [0-9a-f]+$")
LONGEST_PLAY = 120.0
# how `zkit play` ends that can't read a file
UNREADABLE = 4


class NamesError(Exception):
    """There is no program to ask, or it can't use the debugging file."""


def program_of(named: Optional[Path]) -> Path:
    """The program that is named, by the option or by the variable ZKIT, or on the path, or of the checkout."""
    chosen = named or os.environ.get("ZKIT") or shutil.which("zkit")
    if chosen is None:
        chosen = Path(__file__).resolve().parents[3] / "dist/zkit"
    found = shutil.which(chosen)
    if found is None:
        why = f"there is no program {chosen}" if named or "ZKIT" in os.environ else "there is no program zkit"
        raise NamesError(f"{why}, which --names asks; --program names it")
    return Path(found)


class Names:
    """Plays finds by `zkit play --names`, and reads where they end. NamesError tells why that does not go."""

    def __init__(self, file: Path, program: Optional[Path], story: Story) -> None:
        self._program = program_of(program)
        # STORY may be a Blorb file, which `zkit play` does not take
        self._folder = tempfile.TemporaryDirectory(prefix="zkit-")
        self._story = Path(self._folder.name) / f"story.z{story.version}"
        self._story.write_bytes(bytes(story))
        self._file = file
        ended = self._play(Trail(1, ()))
        if ended.returncode == UNREADABLE:
            self._folder.cleanup()
            raise NamesError(ended.stderr.splitlines()[0].removeprefix(PREFIX))

    def __enter__(self) -> Names:
        return self

    def __exit__(self, *_: object) -> None:
        self._folder.cleanup()

    def add(self, finds: list[Find]) -> None:
        """Sets where each fault and each limit is."""
        for find in finds:
            if find.sign.cause.kind in STOPS:
                find.where = self._where(find.trail)

    def _where(self, trail: Trail) -> list[str]:
        """The open routines at the end of a play, innermost first."""
        lines = [line.removeprefix(PREFIX) for line in self._play(trail).stderr.splitlines()]
        begin = next((index for index, line in enumerate(lines) if TURN.match(line)), len(lines))
        end = next((index for index, line in enumerate(lines) if END.match(line)), begin)
        return lines[begin + 1:end]

    def _play(self, trail: Trail) -> subprocess.CompletedProcess[str]:
        options = ["--seed", str(trail.seed), "--steps", str(STEPS), "--undo", str(UNDO), "--names", str(self._file)]
        command = [str(self._program), "play", *options, str(self._story)]
        typed = "".join(line + "\n" for line in trail.lines)
        try:
            return subprocess.run(
                command, input=typed, stdout=subprocess.DEVNULL, stderr=subprocess.PIPE, timeout=LONGEST_PLAY,
                encoding="utf-8", errors="replace", check=False,
            )
        except subprocess.TimeoutExpired:
            return subprocess.CompletedProcess(command, 0, "", "")

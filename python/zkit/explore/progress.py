"""A line on a terminal that tells how far an exploration has come. Elsewhere nothing is told."""

from __future__ import annotations

import shutil
import sys
import time

from zkit.explore.explored import Explored
from zkit.explore.report import figures

PAUSE = 0.25
CLEAR = "\r\x1b[K"


class Progress:
    """Rewrites a line of standard error in place."""

    def __init__(self, is_quiet: bool) -> None:
        self._is_shown = not is_quiet and sys.stderr.isatty()
        self._begin = self._next = time.monotonic()

    @property
    def seconds(self) -> float:
        """The time since the start."""
        return time.monotonic() - self._begin

    def show(self, explorer: Explored) -> None:
        """Rewrites the line, a few times a second."""
        if self._is_shown and time.monotonic() >= self._next:
            line = figures(explorer, self.seconds)[:shutil.get_terminal_size().columns - 1]
            print(f"{CLEAR}{line}", end="", file=sys.stderr, flush=True)
            self._next = time.monotonic() + PAUSE

    def warn(self, words: str) -> None:
        """Tells something that goes wrong, in place of the line."""
        self.end()
        print(f"zkit.explore: {words}", file=sys.stderr, flush=True)

    def end(self) -> None:
        """Takes the line away."""
        if self._is_shown:
            print(CLEAR, end="", file=sys.stderr, flush=True)

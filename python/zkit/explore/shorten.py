"""Makes the trail of a find as short as it can be."""

from __future__ import annotations

from collections.abc import Callable
from typing import Optional

# So many lines are played for one find; what is left then may have a line too many.
MOST_PLAYED = 60_000

Lines = tuple[str, ...]
# plays lines from the start: the lines up to the one that shows the cause, or None
Play = Callable[[Lines], Optional[Lines]]


class _Spent(Exception):
    """Enough lines were played."""


class Shortener:
    """Leaves out lines and words as long as the cause is still shown."""

    def __init__(self, play: Play, lines: Lines) -> None:
        self._play = play
        self._played = 0
        self.lines = lines

    def run(self) -> bool:
        """Shortens the lines, and returns whether none of them can be left out any more."""
        try:
            self._last_lines()
            self._chunks()
            self._words()
            return True
        except _Spent:
            return False

    def _try(self, lines: Lines) -> bool:
        """Takes these lines if they still show the cause."""
        if self._played > MOST_PLAYED:
            raise _Spent
        self._played += len(lines) + 1
        shorter = self._play(lines)
        if shorter is None:
            return False
        self.lines = shorter
        return True

    def _last_lines(self) -> None:
        """Tries the last line alone, the last two, the last four ..."""
        count = 0
        while count < len(self.lines):
            if self._try(self.lines[len(self.lines) - count:]):
                return
            count = 2 * count or 1

    def _chunks(self) -> None:
        """Leaves out halves, quarters, and at last single lines, until nothing goes any more."""
        size = max(len(self.lines) // 2, 1)
        while True:
            has_changed = self._without(size)
            if size > 1:
                size //= 2
            elif not has_changed:
                return

    def _without(self, size: int) -> bool:
        """Leaves out each part of so many lines that can go, from the last one on."""
        has_changed = False
        end = len(self.lines)
        while end > 0:
            start = max(end - size, 0)
            if self._try(self.lines[:start] + self.lines[end:]):
                has_changed = True
                start = min(start, len(self.lines))
            end = start
        return has_changed

    def _words(self) -> None:
        """Leaves out words of lines, and then looks once more for lines that can go."""
        has_changed = False
        for index in range(len(self.lines) - 1, -1, -1):
            while index < len(self.lines) and self._word(index):
                has_changed = True
        if has_changed:
            self._chunks()

    def _word(self, index: int) -> bool:
        """Leaves out one word of a line."""
        words = self.lines[index].split()
        if len(words) < 2:
            return False
        shorter = (" ".join(words[:place] + words[place + 1:]) for place in range(len(words) - 1, -1, -1))
        return any(self._try(self.lines[:index] + (line,) + self.lines[index + 1:]) for line in shorter)

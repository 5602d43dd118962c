"""Several processes that explore one story at once, and what they find together."""

from __future__ import annotations

import dataclasses
import multiprocessing
import tempfile
from collections.abc import Callable
from multiprocessing.connection import Connection, wait
from multiprocessing.context import SpawnProcess
from pathlib import Path

from zkit.explore.explored import Share
from zkit.explore.explorer import Settings
from zkit.explore.interrupts import interrupts_held, interrupts_noticed
from zkit.explore.job import Task, log_of, run
from zkit.explore.log import Tail
from zkit.explore.merged import Merged
from zkit.explore.parts import Part
from zkit.explore.plays import Trail
from zkit.explore.report import counted
from zkit.story import Story

PAUSE = 0.2
# So long a process may take to write what it has found.
PATIENCE = 10.0


def part_of(settings: Settings, part: Part) -> Settings:
    """The settings of a part of the work."""
    return dataclasses.replace(settings, seed=part.seed(settings.seed), turns=part.turns(settings.turns), part=part)


@dataclasses.dataclass
class Running:
    """A process, what it has done, and the line that it watches: it stops when that is closed."""

    process: SpawnProcess
    line: Connection
    tail: Tail
    share: Share


class Jobs:
    """Explores by several processes.

    told  is called several times a second
    warn  is called with words when a process has died
    """

    def __init__(self, story: Story, settings: Settings, count: int, told: Callable[[Merged], None],
                 warn: Callable[[str], None]) -> None:
        self._story = story
        self._settings = settings
        self._parts = [Part(number, count) for number in range(count)]
        self._told = told
        self._warn = warn
        self.merged = Merged(settings.seed, [Share(it.number + 1, it.seed(settings.seed)) for it in self._parts])

    def run(self, trails: tuple[Trail, ...] = ()) -> Merged:
        """Explores up to the end, or up to Ctrl-C."""
        with tempfile.TemporaryDirectory(prefix="zkit-") as folder, interrupts_noticed(self._interrupt):
            running: list[Running] = []
            try:
                for part in self._parts:
                    running.append(self._begin(part, trails, Path(folder)))
                self._watch(running)
            finally:
                self._end(running)
        return self.merged

    def _interrupt(self) -> None:
        self.merged.is_interrupted = True

    def _begin(self, part: Part, trails: tuple[Trail, ...], folder: Path) -> Running:
        """Begins a process. Each one begins with another walkthrough."""
        context = multiprocessing.get_context("spawn")
        own, other = context.Pipe()
        first = part.number % len(trails) if trails else 0
        settings = part_of(self._settings, part)
        task = Task(self._story, settings, part, trails[first:] + trails[:first], folder)
        process = context.Process(target=run, args=(task, other), daemon=True)
        with interrupts_held():
            process.start()
        other.close()
        return Running(process, own, Tail(log_of(folder, part.number)), self.merged.jobs[part.number])

    def _watch(self, running: list[Running]) -> None:
        """Merges what the processes tell, until all have ended."""
        alive = list(running)
        while alive and not self.merged.is_interrupted:
            wait([it.process.sentinel for it in alive], PAUSE)
            for it in alive:
                self._take(it)
            for it in [it for it in alive if not it.process.is_alive()]:
                alive.remove(it)
                self._look(it)
            self._told(self.merged)

    def _take(self, it: Running) -> None:
        self.merged.take(it.share, it.tail.read())

    def _look(self, it: Running) -> None:
        """Notes how a process has ended."""
        self._take(it)
        code = it.process.exitcode
        if code:
            it.share.ended = f"killed by signal {-code}" if code < 0 else f"ended with status {code}"
            self._warn(f"job {it.share.number}: {it.share.ended} after {counted(it.share.turns, 'turn')}")

    def _end(self, running: list[Running]) -> None:
        """Ends all processes that still run, and takes what they tell at last."""
        for it in running:
            it.line.close()
        for it in running:
            it.process.join(PATIENCE)
            if it.process.is_alive():
                it.process.kill()
                it.process.join()
            self._take(it)
            it.process.close()
        self.merged.is_broken = all(share.ended for share in self.merged.jobs)

"""One of several processes that explore a story at once, and share what they find by files in a folder."""

from __future__ import annotations

import _thread
import signal
import threading
import time
from dataclasses import dataclass
from multiprocessing.connection import Connection
from pathlib import Path

from zkit.explore.explorer import Explorer, Settings
from zkit.explore.log import Log, Tail
from zkit.explore.messages import Teller, find_in, lead_in
from zkit.explore.parts import Part
from zkit.explore.plays import Trail
from zkit.story import Story

TURNS_BETWEEN = 200
SECONDS_BETWEEN = 2.0


@dataclass(frozen=True)
class Task:
    """What a process is to do. `folder` has the logs of all jobs."""

    story: Story
    settings: Settings
    part: Part
    trails: tuple[Trail, ...]
    folder: Path


def log_of(folder: Path, number: int) -> Path:
    """The file in which a job tells what it has found."""
    return folder / f"job-{number}"


class Job:
    """Explores, and now and then writes what is new and reads what the other jobs have written."""

    def __init__(self, task: Task) -> None:
        part = task.part
        self._task = task
        self._teller = Teller()
        self._log = Log(log_of(task.folder, part.number))
        self._others = [Tail(log_of(task.folder, it)) for it in range(part.count) if it != part.number]
        self._is_stopped = self._may_stop = False
        self._turns, self._time, self._finds = 0, 0.0, 0

    def stop(self, *_: object) -> None:
        """Ends the exploration: at once, or when a message is written."""
        self._is_stopped = True
        if self._may_stop:
            raise KeyboardInterrupt

    def run(self) -> None:
        """Explores up to the end, or up to a stop."""
        explorer = Explorer(self._task.story, self._task.settings, self._told, self._teller.keep)
        try:
            self._may_stop = True
            if not self._is_stopped:
                explorer.run(self._task.trails)
        except KeyboardInterrupt:
            pass
        self._may_stop = False
        self._log.write(self._teller.messages(explorer))

    def _told(self, explorer: Explorer) -> None:
        is_time = explorer.turns >= self._turns or time.monotonic() >= self._time
        if not is_time and len(explorer.finds) == self._finds:
            return
        self._may_stop = False
        self._exchange(explorer)
        self._may_stop = True
        if self._is_stopped:
            raise KeyboardInterrupt

    def _exchange(self, explorer: Explorer) -> None:
        self._log.write(self._teller.messages(explorer))
        for message in (message for other in self._others for message in other.read()):
            if "find" in message:
                explorer.learn(find_in(message["find"]))
            elif "lead" in message:
                explorer.offer(lead_in(message["lead"]))
            else:
                figures = message["figures"]
                explorer.seen.know(figures["places"], figures["texts"], figures["ran"])
        # what others have told is not told again
        self._teller.skip(explorer)
        self._turns = explorer.turns + TURNS_BETWEEN
        self._time = time.monotonic() + SECONDS_BETWEEN
        self._finds = len(explorer.finds)


def run(task: Task, line: Connection) -> None:
    """Does a task in a process of its own. The task ends early when the other end of the line is closed."""
    job = Job(task)
    signal.signal(signal.SIGINT, job.stop)

    def watch() -> None:
        try:
            line.recv()
        except EOFError:
            _thread.interrupt_main()

    threading.Thread(target=watch, daemon=True).start()
    job.run()

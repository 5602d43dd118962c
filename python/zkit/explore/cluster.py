"""Explores on a cluster, by dask.distributed: gives out tasks, and merges what they tell."""

from __future__ import annotations

import importlib
import logging
import re
import socket
import tempfile
import time
import zlib
from collections.abc import Callable, Iterator
from contextlib import ExitStack, contextmanager
from dataclasses import dataclass
from typing import Any

from zkit.explore.explored import Share
from zkit.explore.explorer import Settings
from zkit.explore.interrupts import interrupts_held, interrupts_noticed
from zkit.explore.merged import Merged
from zkit.explore.plan import Plan
from zkit.explore.plays import Trail
from zkit.explore.tasks import Task, packed_task, work
from zkit.story import Story

LOCAL = "local"
ADDRESS = re.compile(r"(?:tcp|tls)://(.+):(\d+)")
PAUSE = 0.02
SECONDS_BETWEEN_LOOKS = 1.0
SECONDS_TO_CONNECT = 20.0
SECONDS_FOR_RESULT = 2.0
SECONDS_WITHOUT_WORKER = 30.0
# So many tasks in a row may fail, each on several workers.
MOST_FAILED = 3


class ClusterError(Exception):
    """There is no cluster that can be used."""


@dataclass
class Given:
    """A task that was given out."""

    future: Any
    share: Share
    task: Task


class Cluster:
    """Explores on a cluster: at the address of a scheduler, or by so many processes of this machine.

    told  is called several times a second
    warn  is called with words when something goes wrong
    """

    def __init__(self, address: str, jobs: int, told: Callable[[Merged], None], warn: Callable[[str], None]) -> None:
        try:
            self._distributed = importlib.import_module("distributed")
        except ImportError:
            raise ClusterError("--cluster needs Dask's package distributed, which is not installed") from None
        if address != LOCAL:
            _try(address)
        self._address = address
        self._jobs = jobs
        self._told = told
        self._warn = warn

    def run(self, story: Story, settings: Settings, trails: tuple[Trail, ...] = ()) -> Merged:
        """Explores up to the end, or up to Ctrl-C."""
        with ExitStack() as stack:
            client = stack.enter_context(self._client())
            plan = Plan(settings, trails, len(_workers(client)))

            def interrupt() -> None:
                plan.merged.is_interrupted = True

            stack.enter_context(interrupts_noticed(interrupt))
            _Work(client, plan, story, self._told, self._warn).run()
        return plan.merged

    @contextmanager
    def _client(self) -> Iterator[Any]:
        """A client of a cluster that has a worker."""
        # what goes wrong is told in words
        logging.disable()
        with ExitStack() as stack:
            with interrupts_held():
                address = stack.enter_context(self._local()) if self._address == LOCAL else self._address
                try:
                    client = self._distributed.Client(address, timeout=SECONDS_TO_CONNECT, set_as_default=False)
                except OSError:
                    raise ClusterError(f"{self._address}: no scheduler answers") from None
            stack.enter_context(client)
            try:
                client.wait_for_workers(self._jobs if self._address == LOCAL else 1, timeout=SECONDS_TO_CONNECT)
            except (OSError, self._distributed.TimeoutError):
                raise ClusterError(f"{self._address}: there is no worker") from None
            yield client

    @contextmanager
    def _local(self) -> Iterator[Any]:
        """A cluster of processes of this machine."""
        with tempfile.TemporaryDirectory(prefix="zkit-") as folder, self._distributed.LocalCluster(
            n_workers=self._jobs, threads_per_worker=1, processes=True, dashboard_address=None,
            silence_logs=logging.CRITICAL, local_directory=folder,
        ) as cluster:
            yield cluster


class _Work:
    """Gives out the tasks of a plan, one for each worker."""

    def __init__(self, client: Any, plan: Plan, story: Story, told: Callable[[Merged], None],
                 warn: Callable[[str], None]) -> None:
        self._client = client
        self._plan = plan
        self._story = zlib.compress(bytes(story))
        self._told = told
        self._warn = warn
        self._given: list[Given] = []
        self._workers = _workers(client)
        self._next_look = time.monotonic() + SECONDS_BETWEEN_LOOKS
        self._last_worker = time.monotonic()
        self._failed = 0

    def run(self) -> None:
        """Works up to the end of the plan. Without a scheduler, what was found so far stays."""
        try:
            self._work()
            if not self._plan.merged.is_broken:
                self._client.cancel([given.future for given in self._given])
        except OSError:
            self._warn("the scheduler has gone")
            self._plan.merged.is_broken = True

    def _work(self) -> None:
        while True:
            while len(self._given) < len(self._workers) and not self._plan.is_over():
                self._give()
            merged = self._plan.merged
            is_done = not self._given and self._plan.is_over()
            if is_done or merged.is_interrupted or merged.is_broken or self._plan.is_late():
                break
            time.sleep(PAUSE)
            for given in [it for it in self._given if it.future.done()]:
                self._take(given)
            self._look()
            self._told(merged)

    def _give(self) -> None:
        share, task = self._plan.next()
        # a task on a worker that is killed is given out again, and tells the same
        future = self._client.submit(work, self._story, packed_task(task), pure=False)
        self._given.append(Given(future, share, task))

    def _take(self, given: Given) -> None:
        """Takes the result of a task that has ended."""
        if given.future.status == "finished":
            try:
                content = given.future.result(timeout=SECONDS_FOR_RESULT)
            except Exception:  # its worker has gone since, or it is done anew: it is looked at again
                return
            self._plan.take(given.share, given.task, content)
            self._failed = 0
        else:
            self._fail(given)
        self._given.remove(given)

    def _fail(self, given: Given) -> None:
        """Tells of a task that has failed, or of a scheduler that has gone."""
        error = given.future.exception(timeout=SECONDS_FOR_RESULT) if given.future.status == "error" else None
        given.share.ended = f"failed: {error}" if error is not None else "ended, as the scheduler has gone"
        self._warn(f"job {given.share.number} {given.share.ended}")
        self._plan.give_back(given.task)
        self._failed += 1
        if error is None or self._failed >= MOST_FAILED:
            self._plan.merged.is_broken = True

    def _look(self) -> None:
        """Looks now and then which workers there are."""
        if time.monotonic() < self._next_look:
            return
        self._next_look = time.monotonic() + SECONDS_BETWEEN_LOOKS
        workers = _workers(self._client)
        for gone in sorted(self._workers - workers):
            self._warn(f"the worker at {gone} has gone; its task is given out again")
        self._workers = workers
        if workers:
            self._last_worker = time.monotonic()
        elif time.monotonic() > self._last_worker + SECONDS_WITHOUT_WORKER:
            self._warn("there is no worker any more")
            self._plan.merged.is_broken = True


def _try(address: str) -> None:
    """Looks whether a scheduler can be reached."""
    parts = ADDRESS.fullmatch(address)
    if parts is None:
        raise ClusterError(f"{address} is no address of a scheduler, such as tcp://127.0.0.1:8786")
    try:
        socket.create_connection((parts[1].strip("[]"), int(parts[2])), SECONDS_TO_CONNECT).close()
    except (OSError, OverflowError):
        raise ClusterError(f"{address}: no scheduler answers") from None


def _workers(client: Any) -> set[str]:
    """The addresses of all workers."""
    return set(client.scheduler_info()["workers"])

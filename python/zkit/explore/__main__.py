"""`python3 -m zkit.explore`: explores a story from the command line."""

from __future__ import annotations

import argparse
import os
import sys
from collections.abc import Callable
from contextlib import ExitStack
from functools import partial
from typing import NoReturn, Optional

from zkit._files import write
from zkit.errors import ZkitError
from zkit.explore import report, walkthroughs
from zkit.explore.causes import Kind, Wanted
from zkit.explore.cluster import Cluster, ClusterError
from zkit.explore.cover_file import CoverError, CoverFile
from zkit.explore.coverage import coverage_of
from zkit.explore.explored import Explored
from zkit.explore.explorer import Explorer, Settings
from zkit.explore.folder import Folder
from zkit.explore.jobs import Jobs
from zkit.explore.names import Names, NamesError
from zkit.explore.options import MINUTES, parser
from zkit.explore.plays import Trail
from zkit.explore.progress import Progress
from zkit.story import Story

NOTHING, REFUSED, FOUND, INTERRUPTED = 0, 1, 2, 130


def refuse(words: object) -> NoReturn:
    """Ends in words."""
    print(f"zkit.explore: {words}", file=sys.stderr)
    sys.exit(REFUSED)


def settings_of(options: argparse.Namespace) -> Settings:
    """The settings that the command line asks for."""
    minutes = MINUTES if options.minutes is None and options.turns is None else options.minutes
    return Settings(
        seed=options.seed,
        turns=options.turns,
        seconds=None if minutes is None else 60 * minutes,
        wanted=Wanted(tuple(options.alarms), tuple(options.goals)),
    )


def explore(options: argparse.Namespace) -> int:
    """Explores, writes what was found, and returns the exit status."""
    story = Story(options.story)
    trails = tuple(walkthroughs.read(path, options.seed) for path in walkthroughs.files(options.walkthroughs))
    cover = CoverFile(options.cover, story) if options.cover else None
    folder = Folder(options.into, options.story, story) if options.into else None
    if options.json:
        # now, and not after an hour, if it can't be written
        options.json.open("ab").close()
    progress = Progress(options.quiet)

    def told(explored: Explored) -> None:
        progress.show(explored)
        if folder:
            folder.add(explored.finds)

    with ExitStack() as stack:
        names = stack.enter_context(Names(options.names, options.program, story)) if options.names else None
        explored = explore_by(options, story, trails, told, progress)
        progress.end()
        told(explored)
        if names:
            names.add(explored.finds)
    coverage = coverage_of(story, explored.ran, options.program)
    writes: list[Callable[[], None]] = []
    if not options.quiet:
        text = report.as_text(explored, options.story, options.into, progress.seconds, coverage)
        writes.append(partial(show, text))
    if options.json:
        writes.append(partial(write, options.json, report.as_json(explored, options.story, coverage)))
    if cover:
        writes.append(partial(cover.add, explored.ran))
    return status(explored) if all([is_done(it, progress) for it in writes]) else REFUSED


def show(text: str) -> None:
    """Shows the report."""
    try:
        print(text, end="", flush=True)
    except OSError:
        # (what is left of it would fail once more at the end)
        os.dup2(os.open(os.devnull, os.O_WRONLY), sys.stdout.fileno())
        raise


def is_done(does: Callable[[], None], progress: Progress) -> bool:
    """Writes something, or tells why that can't be done."""
    try:
        does()
    except OSError as error:
        progress.warn(words_of(error))
        return False
    return True


def words_of(error: OSError) -> str:
    """Which file can't be used, and why."""
    return f"{error.filename or 'the report'}: {error.strerror}"


def explore_by(
    options: argparse.Namespace, story: Story, trails: tuple[Trail, ...], told: Callable[[Explored], None],
    progress: Progress,
) -> Explored:
    """Explores by one process, by several at once, or on a cluster."""
    settings, jobs = settings_of(options), options.jobs
    if options.cluster:
        return Cluster(options.cluster, jobs, told, progress.warn).run(story, settings, trails)
    if jobs > 1:
        return Jobs(story, settings, jobs, told, progress.warn).run(trails)
    explorer = Explorer(story, settings, told)
    explorer.run(trails)
    return explorer


def status(explored: Explored) -> int:
    """The exit status of an exploration."""
    if explored.is_interrupted:
        return INTERRUPTED
    if any(find.sign.cause.kind is not Kind.GOAL for find in explored.finds):
        return FOUND
    return REFUSED if explored.is_broken else NOTHING


def main(words: Optional[list[str]] = None) -> int:
    """Explores as the command line says."""
    options = parser().parse_args(words)
    try:
        return explore(options)
    except OSError as error:
        refuse(words_of(error))
    except (ZkitError, ClusterError, CoverError, NamesError, walkthroughs.WalkthroughError) as error:
        refuse(error)


if __name__ == "__main__":
    sys.exit(main())

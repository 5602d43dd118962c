"""How much of a story was run, as the program `zkit` counts it."""

from __future__ import annotations

import re
import subprocess
import tempfile
from collections.abc import Collection
from dataclasses import dataclass
from pathlib import Path
from typing import Optional

from zkit.explore.cover_file import CoverFile
from zkit.explore.names import NamesError, program_of
from zkit.story import Story

UNREACHED = re.compile(r"^routine ([0-9a-f]+): 0 of ", re.MULTILINE)
TEXTS = re.compile(r"^all: (\d+) of (\d+) texts$", re.MULTILINE)
RAN = re.compile(r"^ran: (\d+) of (\d+) instructions, (\d+) of (\d+) routines$", re.MULTILINE)
LONGEST_COUNT = 120.0


@dataclass(frozen=True)
class Count:
    """How many of something were run, and how many there are."""

    ran: int
    all: int


@dataclass(frozen=True)
class Coverage:
    """What was run of a story.

    texts      those in the code
    unreached  the addresses of the routines that were not run
    """

    instructions: Count
    routines: Count
    texts: Count
    unreached: tuple[int, ...]


def coverage_of(story: Story, ran: Collection[int], program: Optional[Path]) -> Optional[Coverage]:
    """How much of a story these instructions are, or None if there is no program that counts it."""
    try:
        return _counted(_told(program_of(program), story, ran))
    except (NamesError, OSError, subprocess.TimeoutExpired):
        return None


def _told(asked: Path, story: Story, ran: Collection[int]) -> str:
    """What `zkit cover` tells of these instructions."""
    with tempfile.TemporaryDirectory(prefix="zkit-") as folder:
        # STORY may be a Blorb file, which `zkit cover` does not take
        path = Path(folder) / f"story.z{story.version}"
        path.write_bytes(bytes(story))
        file = path.with_name("ran")
        CoverFile(file, story).add(ran)
        return subprocess.run(
            [asked, "cover", file, path], stdout=subprocess.PIPE, stderr=subprocess.DEVNULL,
            timeout=LONGEST_COUNT, encoding="utf-8", errors="replace", check=False,
        ).stdout


def _counted(told: str) -> Optional[Coverage]:
    """What `zkit cover` tells."""
    texts, ran = TEXTS.search(told), RAN.search(told)
    if texts is None or ran is None:
        return None
    return Coverage(
        Count(int(ran[1]), int(ran[2])),
        Count(int(ran[3]), int(ran[4])),
        Count(int(texts[1]), int(texts[2])),
        tuple([int(address, 16) for address in UNREACHED.findall(told)]),
    )

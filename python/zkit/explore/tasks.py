"""A task for a cluster: a share of turns, what to begin with, and what is known. It needs nothing else."""

from __future__ import annotations

import json
import zlib
from dataclasses import dataclass
from typing import Any, Optional

from zkit.explore.causes import Wanted
from zkit.explore.explorer import Explorer, Settings
from zkit.explore.finds import Find
from zkit.explore.leads import Lead
from zkit.explore.log import Message
from zkit.explore.messages import Teller, find_in, lead_in, of_find, of_lead
from zkit.explore.parts import Part
from zkit.explore.plays import Trail
from zkit.story import Story


@dataclass(frozen=True)
class Task:
    """What a worker is to do.

    settings  with the share of turns, and the most time that it may take
    trails    walkthroughs to play first
    leads     states to begin with
    finds     what was found by others
    places    that are known
    texts     lines of text that are known
    ran       addresses of instructions that were run
    """

    settings: Settings
    trails: tuple[Trail, ...]
    leads: tuple[Lead, ...]
    finds: tuple[Find, ...]
    places: tuple[str, ...]
    texts: tuple[str, ...]
    ran: tuple[int, ...]


def packed(content: object) -> bytes:
    """What JSON can have, as few bytes."""
    return zlib.compress(json.dumps(content).encode())


def unpacked(content: bytes) -> Any:
    """What was packed."""
    return json.loads(zlib.decompress(content))


def packed_task(task: Task) -> bytes:
    """A task as bytes."""
    settings, part = task.settings, task.settings.part
    return packed({
        "seed": settings.seed,
        "turns": settings.turns,
        "seconds": settings.seconds,
        "alarms": settings.wanted.alarms,
        "goals": settings.wanted.goals,
        "part": None if part is None else [part.number, part.count],
        "trails": [[trail.seed, trail.lines] for trail in task.trails],
        "leads": [of_lead(lead) for lead in task.leads],
        "finds": [of_find(find) for find in task.finds],
        "places": task.places,
        "texts": task.texts,
        "ran": task.ran,
    })


def _unpacked_task(content: bytes) -> Task:
    told = unpacked(content)
    part: Optional[Part] = None if told["part"] is None else Part(*told["part"])
    wanted = Wanted(tuple(told["alarms"]), tuple(told["goals"]))
    return Task(
        Settings(told["seed"], told["turns"], told["seconds"], wanted, part),
        tuple(Trail(seed, tuple(lines)) for seed, lines in told["trails"]),
        tuple(map(lead_in, told["leads"])),
        tuple(map(find_in, told["finds"])),
        tuple(told["places"]),
        tuple(told["texts"]),
        tuple(told["ran"]),
    )


def work(story: bytes, content: bytes) -> bytes:
    """Does a task for a packed story, and returns its messages, packed."""
    return packed(_messages(Story(zlib.decompress(story)), _unpacked_task(content)))


def _messages(story: Story, task: Task) -> list[Message]:
    teller = Teller()
    explorer = Explorer(story, task.settings, kept=teller.keep)
    explorer.seen.know(task.places, task.texts, task.ran)
    for find in task.finds:
        explorer.learn(find)
    teller.skip(explorer)
    explorer.run(task.trails, task.leads)
    return teller.messages(explorer)

"""The report of an exploration: as text, and as JSON."""

from __future__ import annotations

import json
from pathlib import Path
from typing import Optional

from zkit.explore.causes import Kind
from zkit.explore.coverage import Count, Coverage
from zkit.explore.explored import Explored
from zkit.explore.finds import Find
from zkit.explore.plays import STEPS


def figures(explorer: Explored, seconds: float) -> str:
    """How far an exploration has come, on one line."""
    return ", ".join([
        counted(explorer.turns, "turn"),
        f"{explorer.turns / max(seconds, 0.001):,.0f} a second",
        counted(len(explorer.places), "place"),
        counted(explorer.texts, "text"),
        counted(explorer.kept, "kept state"),
        found(explorer.finds),
    ])


def counted(count: int, what: str) -> str:
    """A number of something in words."""
    return f"{count:,} {what}" if count == 1 else f"{count:,} {what}s"


def found(finds: list[Find]) -> str:
    """How many finds and goals there are."""
    goals = sum(find.sign.cause.kind is Kind.GOAL for find in finds)
    told = counted(len(finds) - goals, "find")
    return f"{told}, {counted(goals, 'goal')}" if goals else told


def as_text(
    explorer: Explored, story: Path, folder: Optional[Path], seconds: float, coverage: Optional[Coverage] = None
) -> str:
    """The report in words."""
    parts = [f"{story}: {found(explorer.finds)}\n"]
    parts += [_find(find, folder) for find in explorer.finds]
    ended = "interrupted after " if explorer.is_interrupted else ""
    lost = f"{counted(explorer.lost, 'find')} did not come again from the start\n" if explorer.lost else ""
    jobs = f"{len(explorer.jobs)} jobs, " if explorer.jobs else ""
    limit = f"seed {explorer.seed}, {jobs}at most {STEPS:,} instructions a turn\n"
    ran = _ran(explorer, coverage)
    return "\n".join([*parts, f"{ended}{figures(explorer, seconds)}\n{ran}{lost}{limit}"])


def _ran(explorer: Explored, coverage: Optional[Coverage]) -> str:
    """How much of the story was run."""
    if coverage is None:
        return f"ran {counted(len(explorer.ran), 'instruction')}\n"
    counts = ((coverage.instructions, "instructions"), (coverage.routines, "routines"), (coverage.texts, "texts"))
    return "ran " + ", ".join(f"{count.ran:,} of {count.all:,} {what}" for count, what in counts) + " in the code\n"


def _find(find: Find, folder: Optional[Path]) -> str:
    """One find in words, with its lines as a player types them."""
    times = "once" if find.times == 1 else f"{find.times:,} times"
    head = f"{find.sign.cause.kind.value}: {find.sign.told}\n  seen {times}, first in turn {find.turn:,}"
    if find.file is not None and folder is not None:
        head += f", now in {folder / find.file}"
    if find.is_debugging:
        head += "\n  it needs a debugging verb"
    if not find.is_shortest:
        head += "\n  it may have more lines than it needs"
    head += "".join(f"\n  {line}" for line in find.where)
    lines = "".join(f"  > {line}".rstrip() + "\n" for line in find.trail.lines)
    return f"{head}\n{lines}"


def as_json(explorer: Explored, story: Path, coverage: Optional[Coverage] = None) -> str:
    """The report as JSON. It has no times: the same seed and turns give the same bytes, if there is one process."""
    report: dict[str, object] = {
        "story": str(story),
        "seed": explorer.seed,
        "steps": STEPS,
        "interrupted": explorer.is_interrupted,
        "turns": explorer.turns,
        "places": list(explorer.places),
        "texts": explorer.texts,
        "kept": explorer.kept,
        "lost": explorer.lost,
        "ran": len(explorer.ran),
        "coverage": None if coverage is None else _shares(coverage),
        "finds": [_members(find) for find in explorer.finds],
    }
    if explorer.jobs:
        report["jobs"] = [{"seed": it.seed, "turns": it.turns, "ended": it.ended or None} for it in explorer.jobs]
    return json.dumps(report, ensure_ascii=False, indent=2) + "\n"


def _shares(coverage: Coverage) -> dict[str, object]:
    def share(count: Count) -> dict[str, int]:
        return {"ran": count.ran, "all": count.all}

    return {
        "instructions": share(coverage.instructions),
        "routines": share(coverage.routines),
        "texts": share(coverage.texts),
        "unreached": list(coverage.unreached),
    }


def _members(find: Find) -> dict[str, object]:
    sign = find.sign
    return {
        "kind": sign.cause.kind.value,
        "number": sign.cause.number,
        "address": sign.address,
        "words": sign.words,
        "shown": sign.shown,
        "where": find.where,
        "seed": find.trail.seed,
        "lines": list(find.trail.lines),
        "shortest": find.is_shortest,
        "debugging": find.is_debugging,
        "turn": find.turn,
        "times": find.times,
        "file": find.file,
    }

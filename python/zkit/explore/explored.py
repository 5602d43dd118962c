"""What a report tells, whether one process has explored or several."""

from __future__ import annotations

from collections.abc import Collection, Sequence
from dataclasses import dataclass, field
from typing import Protocol

from zkit.explore.causes import Cause
from zkit.explore.finds import Find


@dataclass
class Share:
    """What one of several processes has done.

    number  its own, from 1 on
    times   how often it has seen each cause
    ended   how it ended, in words, if it did not come to its end
    """

    number: int
    seed: int
    turns: int = 0
    kept: int = 0
    lost: int = 0
    times: dict[Cause, int] = field(default_factory=dict)
    ended: str = ""


class Explored(Protocol):
    """An exploration, as far as it has come. Where one process explores, there are no jobs."""

    @property
    def seed(self) -> int: ...

    @property
    def turns(self) -> int: ...

    @property
    def places(self) -> Collection[str]: ...

    @property
    def texts(self) -> int: ...

    @property
    def ran(self) -> Collection[int]: ...

    @property
    def kept(self) -> int: ...

    @property
    def lost(self) -> int: ...

    @property
    def finds(self) -> list[Find]: ...

    @property
    def is_interrupted(self) -> bool: ...

    @property
    def is_broken(self) -> bool: ...

    @property
    def jobs(self) -> Sequence[Share]: ...

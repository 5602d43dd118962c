"""Plays and inspects Z-machine stories, by the library of zkit.

>>> import zkit
>>> with zkit.Game(zkit.Story("examples/lighthouse.z5")) as game:
...     game.send("north").text.splitlines()[0]
'Shore Path'

docs/manual/python.md of the repository is its manual.
"""

from zkit.errors import (
    Closed, ListingError, NotAwaited, NotChanged, NothingToUndo, NotThere, OutOfMemory, SnapshotError, StoryError,
    TooMuchText, ZkitError,
)
from zkit.game import Game
from zkit.inside import GameObject, Objects, Place, Routine
from zkit.replies import Awaits, Key, Reply, Status, Stop, StopKind
from zkit.story import LISTINGS, Story

__version__ = "0.1.0"
__all__ = [
    "Awaits", "Closed", "Game", "GameObject", "Key", "LISTINGS", "ListingError", "NotAwaited", "NotChanged",
    "NotThere", "NothingToUndo", "Objects", "OutOfMemory", "Place", "Reply", "Routine", "SnapshotError", "Status",
    "Stop", "StopKind", "Story", "StoryError", "TooMuchText", "ZkitError",
]

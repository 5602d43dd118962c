"""Which object the player is, found by walking, taking and an inventory on clones."""

from __future__ import annotations

from collections import Counter
from dataclasses import dataclass
from typing import Optional

from zkit.env.tree import Layout, Parents, chain
from zkit.env.words import Words
from zkit.errors import ZkitError
from zkit.game import Game

# the short names that the player's object has in many stories
NAMES = frozenset(("(self object)", "yourself", "self", "myself", "you", "me", "cretin", "player", "adventurer"))
# These move a player who sits or lies.
GET_UP = ("exit", "stand", "get up")
TAKE_ALL = "take all"
# what a taken object, one in the inventory, and a name tell, beside a walk
TAKEN, CARRIED, NAMED = 3, 2, 2


@dataclass(frozen=True)
class Player:
    """The player's object.

    number  its number
    above   the objects that hold all places, as some stories have one
    """

    number: int
    above: frozenset[int]

    def place(self, parents: Parents, named: frozenset[int]) -> Optional[int]:
        """The place where the player is, or None. An object around that the status line names comes first."""
        around = [it for it in chain(parents, self.number) if it not in self.above]
        return next((it for it in around if it in named), around[-1] if around else None)


def find_player(game: Game, layout: Layout, words: Words) -> Optional[Player]:
    """The player's object of a game that awaits a line, or None if nothing shows it."""
    before = layout.parents(game.memory)
    votes: Counter[int] = Counter()
    walks: list[Parents] = []
    for line in (*words.directions(), *GET_UP, TAKE_ALL):
        after = _after(game, line, layout)
        moved = [index for index, (old, new) in enumerate(zip(before, after)) if old != new]
        if line == TAKE_ALL:
            votes.update({after[index]: TAKEN for index in moved if after[index]})
        elif moved:
            votes.update(index + 1 for index in moved if after[index])
            walks.append(after)
    _confirm(game, before, votes)
    if not votes:
        return None
    number = max(votes, key=lambda it: (votes[it], -it))
    if not (chain(before, number) or any(chain(after, number) for after in walks)):
        return Player(number, frozenset())
    return Player(number, _above(number, before, walks))


def _after(game: Game, line: str, layout: Layout) -> Parents:
    """The parents of all objects after a line."""
    with game.clone() as clone:
        try:
            clone.send(line)
        except ZkitError:
            return ()
        return layout.parents(clone.memory)


def _confirm(game: Game, parents: Parents, votes: Counter[int]) -> None:
    """Adds what the inventory and the names tell."""
    with game.clone() as clone:
        try:
            shown = clone.send("inventory").text
        except ZkitError:
            shown = ""
    objects = {it.number: it.name for it in game.objects}
    for number, parent in enumerate(parents, 1):
        name = objects.get(number, "")
        if name.lower() in NAMES:
            votes[number] += NAMED
        if parent and name and name in shown:
            votes[parent] += CARRIED


def _above(number: int, before: Parents, walks: list[Parents]) -> frozenset[int]:
    """What is around the player before and after each walk to another place."""
    start = chain(before, number)
    others = [chain(after, number) for after in walks if after and after[number - 1] != before[number - 1]]
    shared = [set(start[1:]) & set(other[1:]) for other in others if other]
    return frozenset(set.intersection(*shared)) if shared else frozenset()

"""An environment: a play of a story as agents that learn want it, with the interface of Gymnasium."""

from __future__ import annotations

import hashlib
import os
from collections.abc import Iterable
from dataclasses import dataclass
from typing import Any, Optional, Union

from zkit.env import figures
from zkit.env.actions import MOST_TRIALS, Sight, Trial, valid_actions
from zkit.env.player import Player, find_player
from zkit.env.tree import Layout, Parents, chain, layout_of, within
from zkit.env.words import Words, words_of
from zkit.errors import Closed, ZkitError
from zkit.game import Game
from zkit.inside import GameObject
from zkit.replies import Awaits, Key, StopKind
from zkit.story import Story

Info = dict[str, Any]


@dataclass(frozen=True)
class State:
    """A state of an environment, for `Environment.set_state`: any number of times, and in its copies too.

    >>> from zkit.env import Environment
    >>> with Environment("examples/lighthouse.z5") as env:
    ...     state = env.get_state()
    >>> state.score, state.moves, state.ending
    (0, 0, None)
    """

    score: Optional[int]
    moves: Optional[int]
    ending: Optional[str]
    _game: Game


class Environment:
    """A play of a story, step by step, with what an agent wants to know of it.

    story    a Story, or the path of a file
    seed     of the random numbers: the same seed and the same actions give the same play
    options  those of Game

    It stands at its start, as after `reset`. Score, turns, player and place are found for any story that shows them;
    they are None where one does not. One thread at a time may use it.

    >>> from zkit.env import Environment
    >>> with Environment("examples/lighthouse.z5") as env:
    ...     observation, reward, terminated, truncated, info = env.step("north")
    >>> print(observation.splitlines()[0], reward, terminated, truncated)
    Shore Path 0.0 False False
    >>> info
    {'score': 0, 'moves': 1, 'victory': False, 'awaits': <Awaits.LINE: 1>}
    """

    def __init__(self, story: Union[Story, str, os.PathLike[str]], seed: int = 1, **options: Any) -> None:
        self._story = story if isinstance(story, Story) else Story(story)
        self._options = options
        self._seed = seed
        self._words: Optional[Words] = None
        self._layout: Optional[Layout] = None
        self._player: Optional[Player] = None
        self._most_points: Optional[int] = None
        self._has_asked = False
        self._game: Optional[Game] = None
        self.reset()

    # ---- playing

    def reset(self, *, seed: Optional[int] = None, options: Optional[Info] = None) -> tuple[str, Info]:
        """Begins the story anew, and returns its opening and what is known of it.

        seed     another seed, from now on; None for the one so far
        options  nothing: Gymnasium has it

        >>> with Environment("examples/lighthouse.z5") as env:
        ...     observation, info = env.reset(seed=7)
        >>> observation.splitlines()[6], info["score"]
        ('THE LAMP ON SKÄRVØ', 0)
        """
        self._seed = self._seed if seed is None else seed
        self._game = Game(self._story, seed=self._seed, **self._options)
        self._score: Optional[int] = None
        self._moves: Optional[int] = None
        self._ending: Optional[str] = None
        self._is_changed = False
        self._take()
        self._start = self._kept_game()
        return self._game.reply.text, self._info()

    def step(self, action: str) -> tuple[str, float, bool, bool, Info]:
        """Gives an action, and returns the observation, the reward, `terminated`, `truncated` and what is known.

        The action is a line; where the story awaits a character, it is the first one, or Enter for an empty action. The
        reward is by how much the score has grown. `terminated` says that the story has ended, or shows its end, and
        `truncated` that a fault or a limit has stopped it. Raises NotAwaited if the story awaits nothing.

        >>> with Environment("examples/lighthouse.z5") as env:
        ...     observation, reward, terminated, truncated, info = env.step("open bag")
        >>> print(observation)
        You open the postbag.
        In the postbag is a letter.
        <BLANKLINE>
        >
        """
        game = self.game
        score, world = self._score or 0, self._world()
        if game.reply.awaits is Awaits.CHARACTER:
            game.send_key(action[0] if action else Key.ENTER)
        else:
            game.send(action)
        self._take()
        self._is_changed = self._world() != world
        reward = float((self._score or 0) - score)
        return game.reply.text, reward, self.victory() or self.game_over(), self._is_cut_off(), self._info()

    def copy(self) -> Environment:
        """A second environment that goes on from here. The two never meet.

        >>> with Environment("examples/lighthouse.z5") as env, env.copy() as other:
        ...     step = other.step("north")
        ...     env.get_player_location().name, other.get_player_location().name
        ('Jetty', 'Shore Path')
        """
        state = self.get_state()
        other = Environment.__new__(Environment)
        vars(other).update(vars(self))
        other.set_state(state)
        return other

    def close(self) -> None:
        """Gives its game back. Its states and copies stay.

        >>> env = Environment("examples/lighthouse.z5")
        >>> env.close()
        """
        self._game = None

    def __enter__(self) -> Environment:
        return self

    def __exit__(self, *_: object) -> None:
        self.close()

    @property
    def game(self) -> Game:
        """The game that is played, for all that a Game tells. Raises Closed after `close`.

        >>> with Environment("examples/lighthouse.z5") as env:
        ...     env.game.place.reads
        0
        """
        if self._game is None:
            raise Closed("the environment is closed")
        return self._game

    # ---- states

    def get_state(self) -> State:
        """The state as it is now, for `set_state`.

        >>> with Environment("examples/lighthouse.z5") as env:
        ...     state = env.get_state()
        ...     step = env.step("north")
        ...     env.set_state(state)
        ...     env.get_player_location().name
        'Jetty'
        """
        return State(self._score, self._moves, self._ending, self._kept_game())

    def set_state(self, state: State) -> None:
        """Goes back, or over, to a state of an environment of the same story.

        >>> with Environment("examples/lighthouse.z5") as env:
        ...     env.set_state(env.get_state())
        """
        story = state._game.story
        if story is not self._story and bytes(story) != bytes(self._story):
            raise ValueError("the state is of another story")
        self._game = state._game
        self._game = self._kept_game()
        self._score, self._moves, self._ending = state.score, state.moves, state.ending
        self._is_changed = False

    def _kept_game(self) -> Game:
        """A clone of the game; of a story that awaits nothing, the game itself: it stays as it is."""
        waits = self.game.reply.awaits in (Awaits.LINE, Awaits.CHARACTER)
        return self.game.clone() if waits else self.game

    # ---- what the story shows

    def get_score(self) -> Optional[int]:
        """The score that the status line shows, or has shown last.

        >>> with Environment("examples/lighthouse.z3") as env:
        ...     env.get_score()
        0
        """
        return self._score

    def get_max_score(self) -> Optional[int]:
        """The most points that there are, as the story's answer to SCORE at its start says it.

        >>> with Environment("examples/lighthouse.z5") as env:
        ...     env.get_max_score()
        60
        """
        if not self._has_asked:
            self._has_asked = True
            self._most_points = figures.most_of(_answer(self._start, "score"))
        return self._most_points

    def get_moves(self) -> Optional[int]:
        """The turns that the status line shows, or has shown last.

        >>> with Environment("examples/lighthouse.z5") as env:
        ...     step = env.step("north")
        ...     env.get_moves()
        1
        """
        return self._moves

    def victory(self) -> bool:
        """Whether the story is won: by the words of its end, such as *** You have won ***, or by all points at an end.

        >>> with Environment("examples/lighthouse.z5") as env:
        ...     env.victory()
        False
        """
        if self._ending is None:
            return False
        most = self.get_max_score()
        has_all = most is not None and self._score is not None and self._score >= most
        return figures.is_won(self._ending) or has_all

    def game_over(self) -> bool:
        """Whether the story has ended or shows its end, such as *** You have died ***, and is not won.

        >>> with Environment("examples/lighthouse.z5") as env:
        ...     steps = [env.step(line) for line in ("swim", "swim")]
        ...     env.game_over()
        True
        """
        stopped = self.game.reply.stopped
        has_ended = self._ending is not None or stopped is not None and stopped.kind is StopKind.QUIT
        return has_ended and not self.victory()

    def _is_cut_off(self) -> bool:
        stopped = self.game.reply.stopped
        return stopped is not None and stopped.kind is not StopKind.QUIT

    def _take(self) -> None:
        """Takes the figures and the end of the newest reply. What it does not show stays as it was."""
        reply = self.game.reply
        shown = figures.figures_of(reply)
        self._score = self._score if shown.score is None else shown.score
        self._moves = self._moves if shown.turns is None else shown.turns
        ending = figures.ending_of(reply)
        goes_on = reply.awaits is Awaits.LINE and not figures.still_asks(reply.text)
        if ending is not None or goes_on:
            self._ending = ending

    def _info(self) -> Info:
        return {
            "score": self._score, "moves": self._moves, "victory": self.victory(), "awaits": self.game.reply.awaits
        }

    # ---- the world

    def get_dictionary(self) -> tuple[str, ...]:
        """The words of the story's dictionary.

        >>> with Environment("examples/lighthouse.z5") as env:
        ...     "postbag" in env.get_dictionary()
        True
        """
        return self._story.dictionary

    def get_world_objects(self) -> list[GameObject]:
        """All objects of the story, as they stand.

        >>> with Environment("examples/lighthouse.z5") as env:
        ...     [it.name for it in env.get_world_objects()][5:8]
        ['postbag', 'letter', 'surroundings']
        """
        return list(self.game.objects)

    def get_object(self, number: int) -> GameObject:
        """The object of a number. Raises NotThere if there is none.

        >>> with Environment("examples/lighthouse.z5") as env:
        ...     env.get_object(6).name
        'postbag'
        """
        return self.game.objects[number]

    def get_world_state_hash(self) -> str:
        """A hash of where each object is, and of its attributes.

        It is the same whatever the order of things in the same place, and in each process.

        >>> with Environment("examples/lighthouse.z5") as env:
        ...     before = env.get_world_state_hash()
        ...     step = env.step("look")
        ...     before == env.get_world_state_hash()
        True
        """
        return hashlib.blake2b(self._world(), digest_size=16).hexdigest()

    def world_changed(self) -> bool:
        """Whether the last step has moved an object, or changed an attribute.

        >>> with Environment("examples/lighthouse.z5") as env:
        ...     step = env.step("open bag")
        ...     env.world_changed()
        True
        """
        return self._is_changed

    def get_player_object(self) -> Optional[GameObject]:
        """The player, as an object, or None if nothing shows which one that is.

        It is found at the start, on clones: the object that walks and takes, and whose children the inventory names.

        >>> with Environment("examples/lighthouse.z5") as env:
        ...     env.get_player_object().name
        'yourself'
        """
        player = self._found_player()
        return self.game.objects[player.number] if player else None

    def get_player_location(self) -> Optional[GameObject]:
        """The place where the player is, or None if nothing shows it.

        It is the object around the player that the status line names, or else the outermost one; and without a player,
        an object with the name in the status line.

        >>> with Environment("examples/lighthouse.z5") as env:
        ...     step = env.step("north")
        ...     env.get_player_location().name
        'Shore Path'
        """
        number = self._place()
        return self.game.objects[number] if number else None

    def get_inventory(self) -> list[GameObject]:
        """What the player carries: the children of the player's object.

        >>> with Environment("examples/lighthouse.z5") as env:
        ...     [it.name for it in env.get_inventory()]
        ['postbag']
        """
        player = self._found_player()
        return self.game.objects.children(player.number) if player else []

    # ---- actions

    def get_valid_actions(self, most: int = MOST_TRIALS) -> list[str]:
        """Lines that change something here: each does something else than the others, and than waiting.

        They are found by trying directions, and the story's verbs with what is in sight, on clones. `most` is how many
        lines are tried. Where the story awaits a character, Enter is the only one; where it has ended, there is none.

        >>> with Environment("examples/lighthouse.z5") as env:
        ...     actions = env.get_valid_actions()
        >>> "north" in actions, "open postbag" in actions
        (True, True)
        """
        if self.game.reply.awaits is Awaits.CHARACTER:
            return [""]
        if self.game.reply.awaits is not Awaits.LINE or self._ending is not None:
            return []
        held, near = self._in_sight()
        objects, words = self.game.objects, self._known_words()
        sight = Sight(
            [words.phrases_of(objects[number].name) for number in held],
            [words.phrases_of(objects[number].name) for number in near],
            words.in_text(self.game.reply.text),
        )
        return valid_actions(Trial(self.game, self._laid_out(), words, most), sight)

    def _in_sight(self) -> tuple[list[int], list[int]]:
        """The numbers of the objects that the player carries, and of those in them or in the same place."""
        parents, player, place = self._parents(), self._found_player(), self._place()
        number = player.number if player else 0
        inside = within(parents, number) if number else []
        held = [it for it in inside if parents[it - 1] == number]
        around = inside + (within(parents, place) if place else [])
        return held, [it for it in dict.fromkeys(around) if it not in held and it != number]

    # ---- what is found once

    def _known_words(self) -> Words:
        if self._words is None:
            self._words = words_of(self._story)
        return self._words

    def _laid_out(self) -> Layout:
        if self._layout is None:
            self._layout = layout_of(self.game)
        return self._layout

    def _world(self) -> bytes:
        return self._laid_out().world(self.game.memory)

    def _parents(self) -> Parents:
        return self._laid_out().parents(self.game.memory)

    def _found_player(self) -> Optional[Player]:
        """The player, as found at the start, or here where the start does not show it."""
        for game in (self._start, self.game):
            if self._player is None and game.reply.awaits is Awaits.LINE:
                self._player = find_player(game, self._laid_out(), self._known_words())
        return self._player

    def _place(self) -> Optional[int]:
        name = figures.place_name(self.game.reply)
        player, parents = self._found_player(), self._parents()
        if player and (place := player.place(parents, self._named(chain(parents, player.number), name))):
            return place
        return min(self._named(range(1, len(parents) + 1), name), default=None)

    def _named(self, numbers: Iterable[int], name: str) -> frozenset[int]:
        """Those of some objects that have a name."""
        objects = self.game.objects
        return frozenset(it for it in numbers if name and objects[it].name == name)


def _answer(game: Game, line: str) -> str:
    """What a clone of a game answers; nothing where it awaits no line."""
    if game.reply.awaits is not Awaits.LINE:
        return ""
    with game.clone() as clone:
        try:
            return clone.send(line).text
        except ZkitError:
            return ""

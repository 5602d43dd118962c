"""What a story answers: a reply, with the status line, and why it has stopped."""

from __future__ import annotations

import enum
from dataclasses import dataclass
from typing import Optional


class Awaits(enum.Enum):
    """What a story awaits.

    >>> from zkit import Awaits, Game, Story
    >>> with Game(Story("examples/lighthouse.z5")) as game:
    ...     game.reply.awaits is Awaits.LINE
    True
    """

    NOTHING = 0  # it has stopped
    LINE = 1  # Game.send
    CHARACTER = 2  # Game.send_key
    SAVE = 3  # Game.keep
    RESTORE = 4  # Game.restore


class Key(enum.Enum):
    """A key that is no character, for `Game.send_key`.

    >>> from zkit import Key
    >>> Key.UP
    <Key.UP: 129>
    """

    DELETE = 8
    ENTER = 13
    ESCAPE = 27
    UP = 129
    DOWN = 130
    LEFT = 131
    RIGHT = 132
    F1 = 133
    F2 = 134
    F3 = 135
    F4 = 136
    F5 = 137
    F6 = 138
    F7 = 139
    F8 = 140
    F9 = 141
    F10 = 142
    F11 = 143
    F12 = 144
    PAD_0 = 145
    PAD_1 = 146
    PAD_2 = 147
    PAD_3 = 148
    PAD_4 = 149
    PAD_5 = 150
    PAD_6 = 151
    PAD_7 = 152
    PAD_8 = 153
    PAD_9 = 154


class StopKind(enum.Enum):
    """The kind of a stop.

    >>> from zkit import Game, Stop, StopKind, Story
    >>> with Game(Story("examples/hello.z3")) as game:
    ...     isinstance(game.reply.stopped, Stop) and game.reply.stopped.kind is StopKind.QUIT
    True
    """

    QUIT = 1  # it has ended
    FAULT = 2  # an instruction can't be executed
    LIMIT = 3  # an instruction would go past a limit of the game
    OUT_OF_MEMORY = 5  # there was no memory for much text at once
    TOO_MUCH_TEXT = 6  # too much text came at once


@dataclass(frozen=True)
class Stop:
    """Why a story has stopped.

    number   which fault or limit it was, as in include/zkit.h; 0 if none
    address  the byte address of the instruction with that fault or limit; 0 if none
    words    the same in words

    >>> from zkit import Game, Story
    >>> with Game(Story("examples/hello.z3"), steps=1) as game:
    ...     game.reply.stopped
    Stop(kind=<StopKind.LIMIT: 3>, number=3, address=67, words='too many instructions since the last read')
    """

    kind: StopKind
    number: int
    address: int
    words: str


@dataclass(frozen=True)
class Status:
    """The status line of a version 3 story: score and turns, or hours and minutes; the other two are None.

    >>> from zkit import Game, Story
    >>> with Game(Story("examples/lighthouse.z3")) as game:
    ...     game.reply.status
    Status(name='Jetty', score=0, turns=0, hours=None, minutes=None)
    """

    name: str
    score: Optional[int] = None
    turns: Optional[int] = None
    hours: Optional[int] = None
    minutes: Optional[int] = None


@dataclass(frozen=True)
class Reply:
    """What a story has answered.

    text     what it has shown since the last answer
    upper    the rows of the upper window, without trailing spaces. If the story has drawn a box and taken it away
             again, the rows of the box are here too
    status   the status line of a version 3 story; None for other versions, or if it can't be read
    awaits   what the story awaits now
    stopped  why it has stopped, or None if it runs

    >>> from zkit import Game, Story
    >>> with Game(Story("examples/lighthouse.z5")) as game:
    ...     reply = game.send("inventory")
    >>> print(reply.text)
    You have with you:
      a postbag (closed)
    <BLANKLINE>
    >
    >>> reply.upper
    ('Jetty                                            Score: 0  Turns: 1',)
    """

    text: str
    upper: tuple[str, ...]
    status: Optional[Status]
    awaits: Awaits
    stopped: Optional[Stop]

"""The errors that zkit raises. Their words are those of the library, where it has some."""

from __future__ import annotations


class ZkitError(Exception):
    """An error of zkit: all others below are this one too.

    >>> from zkit import Story, ZkitError
    >>> try:
    ...     Story(b"not a story")
    ... except ZkitError as error:
    ...     print(error)
    not a story: the file is shorter than a header; it is a text file
    """


class StoryError(ZkitError):
    """A file is no story that can be played.

    >>> from zkit import Story, StoryError
    >>> try:
    ...     Story(bytes(100))
    ... except StoryError as error:
    ...     print(error)
    not a story: its version is not played
    """


class ListingError(ZkitError):
    """A listing has more bytes than allowed, or its texts take too long.

    >>> from zkit import ListingError, Story
    >>> try:
    ...     Story("examples/lighthouse.z5").listing("code", most=1000)
    ... except ListingError as error:
    ...     print(error)
    the listing has more than 1,000 bytes
    """


class SnapshotError(ZkitError):
    """Bytes are no snapshot of this story, are damaged, or ask for more than is allowed.

    >>> from zkit import Game, SnapshotError, Story
    >>> try:
    ...     Game.from_snapshot(Story("examples/lighthouse.z5"), b"something else")
    ... except SnapshotError as error:
    ...     print(error)
    this is no snapshot
    """


class NotAwaited(ZkitError):
    """The story awaits something else than it was given. The game is as before.

    >>> from zkit import Game, NotAwaited, Story
    >>> with Game(Story("examples/lighthouse.z5")) as game:
    ...     try:
    ...         game.send_key("y")
    ...     except NotAwaited as error:
    ...         print(error)
    the story awaits a line, not a character
    """


class NothingToUndo(ZkitError):
    """The story has kept no state to go back to, or all are used up. The game is as before.

    >>> from zkit import Game, NothingToUndo, Story
    >>> with Game(Story("examples/lighthouse.z5")) as game:
    ...     try:
    ...         game.undo()
    ...     except NothingToUndo as error:
    ...         print(error)
    there is no state to go back to
    """


class NotThere(ZkitError, LookupError):
    """There is no such object, or no such address in memory.

    >>> from zkit import Game, NotThere, Story
    >>> with Game(Story("examples/lighthouse.z5")) as game:
    ...     try:
    ...         game.objects[500]
    ...     except NotThere as error:
    ...         print(error)
    there is no object 500
    """


class NotChanged(ZkitError):
    """The story itself could not make such a change. The game is as before.

    >>> from zkit import Game, NotChanged, Story
    >>> with Game(Story("examples/lighthouse.z5")) as game:
    ...     try:
    ...         game.move(500, 1)
    ...     except NotChanged as error:
    ...         print(error)
    object 500 can't go into object 1
    """


class TooMuchText(ZkitError):
    """A turn shows more text than the option `text` of the game allows. `Game.go_on` goes on from there.

    >>> from zkit import Game, Story, TooMuchText
    >>> with Game(Story("examples/lighthouse.z5"), text=1000) as game:
    ...     try:
    ...         game.send(". ".join(["look"] * 20))
    ...     except TooMuchText as error:
    ...         print(error)
    the turn shows more than 1,000 bytes of text
    """


class OutOfMemory(ZkitError, MemoryError):
    """There is no memory. The game is as before, or stands in the middle of a turn, and `Game.go_on` goes on.

    >>> from zkit import OutOfMemory, ZkitError
    >>> issubclass(OutOfMemory, MemoryError) and issubclass(OutOfMemory, ZkitError)
    True
    """


class Closed(ZkitError):
    """The game is closed.

    >>> from zkit import Closed, Game, Story
    >>> game = Game(Story("examples/lighthouse.z5"))
    >>> game.close()
    >>> try:
    ...     game.send("look")
    ... except Closed as error:
    ...     print(error)
    the game is closed
    """

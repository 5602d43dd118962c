"""A game: one play of a story."""

from __future__ import annotations

import contextlib
import ctypes
import gc
import threading
import weakref
from collections.abc import Callable, Iterator
from typing import NoReturn, Optional, Union

from zkit import _library, inside
from zkit.errors import (
    Closed, NotAwaited, NotChanged, NothingToUndo, OutOfMemory, SnapshotError, StoryError, TooMuchText, ZkitError,
)
from zkit.inside import Objects, Place, Routine
from zkit.replies import Awaits, Key, Reply, Status, Stop, StopKind
from zkit.story import Story, opened

LEAST_AND_MOST = {
    "seed": (0, 2**64 - 1),
    "frames": (1, 65_535),
    "words": (0, 65_535),
    "undo": (0, 64),
    "steps": (1, 1_000_000_000),
    "columns": (20, 255),
    "text": (1, 2**63 - 1),
}
LONGEST_TEXT = 16_777_216
# A call of the library runs so many instructions, so that Python sees signals between two calls.
SLICE = 10_000_000
# So many saves and restores are answered in one turn; the next one is left to the caller.
MOST_ANSWERS = 1_000
UNDO_BYTES = 2**31
MOST_TRACED = 100_000
WORDS = {
    Awaits.NOTHING: "nothing",
    Awaits.LINE: "a line",
    Awaits.CHARACTER: "a character",
    Awaits.SAVE: "that a saved game is kept",
    Awaits.RESTORE: "a saved game",
}


class Game:
    """A play of a story, from its start. `reply` has its opening text.

    seed      of the random numbers: the same seed and the same answers give the same play
    frames    the most routines that may be open at once, 1 to 65,535
    words     the most 16-bit words that they may hold, 0 to 65,535
    undo      how many states are kept for the story's own UNDO, 0 to 64
    steps     the most instructions between two answers, 1 to 1,000,000,000
    upper     whether the text includes the status line and the upper window
    columns   how many characters fit on a line of the screen, 20 to 255: the story is told
    saves     whether the game answers the story's SAVE and RESTORE by itself, from `saved`
    text      the most bytes of text, with what goes to the transcript, that one turn may show
    coverage  whether the game notes which instructions are carried out: `Game.coverage`

    A number out of its range raises ValueError. The opening may raise TooMuchText or OutOfMemory.

    Any number of threads may use a game: one waits for the other. A game is closed at the end of `with`, by `close`, or
    when nothing refers to it any more.

    >>> from zkit import Game, Story
    >>> story = Story("examples/lighthouse.z5")
    >>> with Game(story, seed=7) as game:
    ...     print(game.reply.text.splitlines()[6])
    ...     print(game.send("open bag").text)
    THE LAMP ON SKÄRVØ
    You open the postbag.
    In the postbag is a letter.
    <BLANKLINE>
    >
    """

    def __init__(
        self,
        story: Story,
        *,
        seed: int = 1,
        frames: int = 1_024,
        words: int = 16_384,
        undo: int = 16,
        steps: int = 10_000_000,
        upper: bool = False,
        columns: int = 80,
        saves: bool = True,
        text: int = LONGEST_TEXT,
        coverage: bool = False,
    ) -> None:
        options = _options(text, seed=seed, frames=frames, words=words, undo=undo, steps=steps, columns=columns)
        options.upper = bool(upper)
        options.coverage = bool(coverage)
        refused = ctypes.c_uint32()
        handle = _library.story_game(_opened(story), ctypes.byref(options), ctypes.byref(refused))
        if not handle:
            _refuse(refused.value, StoryError)
        self._begin(story, handle, saves, text)

    @classmethod
    def from_snapshot(
        cls,
        story: Story,
        snapshot: bytes,
        *,
        frames: int = 65_535,
        words: int = 65_535,
        undo: int = 64,
        steps: int = 1_000_000_000,
        saves: bool = True,
        text: int = LONGEST_TEXT,
        coverage: bool = False,
    ) -> Game:
        """Opens a game that goes on where `Game.snapshot` was taken, with the limits and random numbers of that game.

        `frames`, `words`, `undo` and `steps` are the most that the limits of the snapshot may be; `saves`, `text` and
        `coverage` are as in Game. The reply has no text. Raises SnapshotError if the bytes are no such snapshot of this
        story.

        >>> story = Story("examples/lighthouse.z5")
        >>> with Game(story) as game:
        ...     reply = game.send("open bag")
        ...     kept = game.snapshot()
        >>> with Game.from_snapshot(story, kept) as game:
        ...     print(game.send("take letter").text)
        Taken.
        <BLANKLINE>
        >
        """
        options = _options(text, frames=frames, words=words, undo=undo, steps=steps)
        options.coverage = bool(coverage)
        refused = ctypes.c_uint32()
        handle = _library.story_resume(
            _opened(story), snapshot, len(snapshot), ctypes.byref(options), ctypes.byref(refused)
        )
        if not handle:
            _refuse(refused.value, SnapshotError)
        game = cls.__new__(cls)
        game._begin(story, handle, saves, text)
        return game

    def _begin(self, story: Story, handle: int, saves: bool, text: int) -> None:
        """Sets all fields, and runs the story up to what it awaits."""
        self._hold(story, handle, saves, text)
        with self._use(may_be_midway=True) as game:
            self._run(game)

    def _hold(self, story: Story, handle: int, saves: bool, text: int) -> None:
        """Sets all fields for a game of the library in the middle of a turn."""
        self._story = story
        self._handle: Optional[int] = handle
        self._free = weakref.finalize(self, _library.close, handle)
        # at the end of the process other threads may still play
        self._free.atexit = False
        self._lock = threading.RLock()
        self._is_used = False
        self._saves = saves
        self._saved: Optional[bytes] = None
        self._most = text
        self._buffer = ctypes.create_string_buffer(_library.ROOM_FOR_TEXT)
        self._shown: list[bytes] = []
        self._transcript: list[bytes] = []
        self._is_midway = True
        # so many bytes are likely to be enough for a snapshot
        self._size = 16_384
        self._reply = Reply("", (), None, Awaits.NOTHING, None)

    @contextlib.contextmanager
    def _use(self, may_be_midway: bool = False) -> Iterator[int]:
        """The library's game, for one user at a time: other threads wait. A signal handler can't come between."""
        with self._lock:
            if self._is_used:
                raise ZkitError("this thread uses the game already")
            if self._handle is None:
                raise Closed("the game is closed")
            if self._is_midway and not may_be_midway:
                raise NotAwaited("the story stands in the middle of a turn: go_on goes on")
            self._is_used = True
            try:
                yield self._handle
            finally:
                self._is_used = False

    # ---- looking at the game

    @property
    def story(self) -> Story:
        """The story that is played.

        >>> with Game(Story("examples/lighthouse.z5")) as game:
        ...     game.story
        <Story version 5, release 1, serial number 261122>
        """
        return self._story

    @property
    def reply(self) -> Reply:
        """The newest reply: after the start, the one with the opening text. It stays when the game is closed.

        >>> with Game(Story("examples/hello.z3")) as game:
        ...     game.reply.text.strip()
        'hi'
        """
        return self._reply

    @property
    def saved(self) -> Optional[bytes]:
        """The saved game, a Quetzal file, or None. The story's SAVE sets it, and its RESTORE reads it. You may set it.

        >>> with Game(Story("examples/lighthouse.z5")) as game:
        ...     reply = game.send("save")
        ...     saved = game.saved
        >>> saved[:4], saved[8:12]
        (b'FORM', b'IFZS')
        """
        return self._saved

    @saved.setter
    def saved(self, file: Optional[bytes]) -> None:
        if not isinstance(file, (bytes, type(None))):
            raise TypeError(f"a saved game is bytes, not {type(file).__name__}")
        self._saved = file

    @property
    def transcript(self) -> str:
        """What the story has written to its transcript so far, which its player turns on and off.

        >>> with Game(Story("examples/lighthouse.z5")) as game:
        ...     game.transcript
        ''
        """
        return b"".join(self._transcript).decode("utf-8", "replace")

    @property
    def coverage(self) -> bytes:
        """A byte for each byte of the story: 1 where an instruction begins that this game has carried out, else 0.

        A clone begins without marks. A game without the option `coverage` has no bytes.

        >>> with Game(Story("examples/hello.z3"), coverage=True) as game:
        ...     [address for address, mark in enumerate(game.coverage) if mark]
        [64, 67, 68]
        """
        with self._look() as game:
            return inside.coverage_of(game, len(bytes(self._story)))

    def __repr__(self) -> str:
        state = "closed" if self._handle is None else f"awaits {WORDS[self._reply.awaits]}"
        return f"<Game of {self._story!r}: {state}>"

    # ---- looking into the game

    def _look(self) -> contextlib.AbstractContextManager[int]:
        return self._use(may_be_midway=True)

    @property
    def place(self) -> Place:
        """Where the game stands, and how much it has carried out.

        >>> with Game(Story("examples/lighthouse.z5")) as game:
        ...     before = game.place.instructions
        ...     reply = game.send("north")
        ...     game.place.reads, game.place.instructions - before > 100
        (1, True)
        """
        with self._look() as game:
            return inside.place_of(game)

    @property
    def calls(self) -> list[Routine]:
        """The open routines, from the newest to the one that the story begins in.

        >>> with Game(Story("examples/lighthouse.z5")) as game:
        ...     [routine.number for routine in game.calls]
        [2, 1, 0]
        """
        with self._look() as game:
            return inside.routines_of(game)

    @property
    def memory(self) -> bytes:
        """All bytes of memory as they are now: as many as the story file has.

        >>> with Game(Story("examples/lighthouse.z5")) as game:
        ...     before, reply, after = game.memory, game.send("north"), game.memory
        ...     len(before) == len(bytes(game.story)), before == after
        (True, False)
        """
        with self._look() as game:
            return inside.memory_of(game, 0, len(bytes(self._story)))

    def word(self, address: int) -> int:
        """The word at a byte address, 0 to 65,535. Raises NotThere if the story ends before.

        >>> with Game(Story("examples/lighthouse.z5")) as game:
        ...     game.word(2)  # the release number in the header
        1
        """
        with self._look() as game:
            return inside.word_of(game, address)

    def global_variable(self, number: int) -> int:
        """The value of a global variable, 0 to 65,535, by its number in the Standard and in listings: 16 to 255.

        >>> with Game(Story("examples/lighthouse.z3")) as game:
        ...     game.objects[game.global_variable(16)].name  # the first one is the place, in version 3
        'Jetty'
        """
        with self._look() as game:
            return inside.global_of(game, number)

    def hash(self, address: int = 0, count: Optional[int] = None) -> int:
        """A hash of so many bytes of memory from an address on; None for those up to the end of dynamic memory.

        Games of a story with the same hash of dynamic memory are almost surely in the same state, apart from their open
        routines and random numbers. The same bytes have the same hash in each process (FNV-1a in 64 bits).

        >>> with Game(Story("examples/lighthouse.z5")) as game, game.clone() as other:
        ...     game.hash() == other.hash()
        ...     reply = other.send("north")
        ...     game.hash() == other.hash()
        True
        False
        """
        with self._look() as game:
            return inside.hash_of(game, address, count)

    @property
    def objects(self) -> Objects:
        """The objects of the story, by their numbers, as they stand now.

        >>> with Game(Story("examples/lighthouse.z5")) as game:
        ...     game.objects[1].name, game.objects.named("letter").number in game.objects
        ('Class', True)
        """
        return Objects(self._look)

    @property
    def dictionary(self) -> tuple[str, ...]:
        """The words of the story's dictionary, in its order, as far as it keeps them: `Story.dictionary`.

        >>> with Game(Story("examples/lighthouse.z5")) as game:
        ...     "postbag" in game.dictionary
        True
        """
        return self._story.dictionary

    def instruction(self, address: int) -> str:
        """The instruction at a byte address of memory as it is now, as `zkit disasm` shows it. It may be none.

        >>> with Game(Story("examples/hello.z3")) as game:
        ...     game.instruction(0x40)
        '00040 print "hi"'
        """
        with self._look() as game:
            return inside.instruction_at(game, address)

    # ---- changing the game

    def set_word(self, address: int, value: int) -> None:
        """Gives the word at a byte address of dynamic memory a value, 0 to 65,535: for debugging and for tests.

        Raises NotChanged if the story itself could not do it, and NotAwaited if it awaits neither a line nor a
        character. The game is no play of its story any more.

        >>> with Game(Story("examples/lighthouse.z5")) as game:
        ...     address = game.word(12)  # of the first global variable
        ...     game.set_word(address, 7)
        ...     game.global_variable(16)
        7
        """
        self._change(_library.set_word, address, value, f"the word at {address:#x} can't be {value:,}")

    def move(self, number: int, parent: int) -> None:
        """Puts an object into another one, as its first child, or for 0 into none: for debugging and for tests.

        Raises as `set_word` does.

        >>> with Game(Story("examples/lighthouse.z5")) as game:
        ...     letter, player = [game.objects.named(name).number for name in ("letter", "yourself")]
        ...     game.move(letter, player)
        ...     print(game.send("inventory").text.splitlines()[1].strip())
        a letter
        """
        self._change(_library.move_object, number, parent, f"object {number} can't go into object {parent}")

    def _change(self, call: Callable[..., int], number: int, value: int, words: str) -> None:
        with self._use() as game:
            are_numbers = 0 <= number < 2**32 and 0 <= value < 2**32
            returned = call(game, number, value) if are_numbers else _library.NOT_CHANGED
            if returned == _library.NOT_CHANGED:
                raise NotChanged(words)
            if returned != _library.DONE:
                self._refuse(returned, "a change")

    # ---- answers

    def send(self, line: str) -> Reply:
        """Answers a line, and runs the story up to what it awaits next.

        A character that is not in the story's character set is read as a question mark; what comes after the 255th is
        dropped. Raises NotAwaited if the story awaits no line, and ValueError for a line with a new line in it.

        >>> with Game(Story("examples/lighthouse.z5")) as game:
        ...     game.send("north").text.splitlines()[0]
        'Shore Path'
        """
        content = line.encode("utf-8", "replace")
        return self._answer("a line", _library.line, content, len(content))

    def trace(self, line: str, most: int = MOST_TRACED) -> list[str]:
        """Answers a line as `send` does, and returns the instructions of the turn, as `zkit disasm` shows them.

        most  the most instructions; `go_on` then goes on with the turn

        The newest reply is in `reply`.

        >>> with Game(Story("examples/hello.z3")) as game, Game(Story("examples/lighthouse.z5")) as other:
        ...     traced = other.trace("north", most=3)
        ...     reply = other.go_on()
        ...     print(len(traced), reply.text.splitlines()[0])
        3 Shore Path
        """
        content = line.encode("utf-8", "replace")
        with self._use() as game:
            self._is_midway = True
            returned = _library.line(game, content, len(content))
            if returned != _library.DONE:
                self._is_midway = False
                self._refuse(returned, "a line")
            return self._trace(game, most)

    def send_key(self, key: Union[str, Key]) -> Reply:
        """Answers a character or a key, and runs the story up to what it awaits next.

        Raises NotAwaited if the story awaits no character, and ValueError for a text of more or fewer characters.

        >>> from zkit import Key
        >>> with Game(Story("examples/lighthouse.z5")) as game:
        ...     replies = [game.send("swim"), game.send("swim")]
        ...     print(replies[1].text.splitlines()[-1], replies[1].awaits)
        ...     print(game.send_key(Key.ENTER).text.splitlines()[-1])
        (Press a key.) Awaits.CHARACTER
        RESTART, RESTORE, UNDO or QUIT? >
        """
        if isinstance(key, str) and len(key) != 1:
            raise ValueError(f"a key is one character or a Key, not {key!r}")
        number = key.value if isinstance(key, Key) else ord(key)
        return self._answer("a character", _library.character, number)

    def go_on(self) -> Reply:
        """Goes on with a turn that was interrupted by TooMuchText, OutOfMemory or KeyboardInterrupt.

        Otherwise it returns the newest reply again.

        >>> from zkit import TooMuchText
        >>> with Game(Story("examples/lighthouse.z5"), text=1000) as game:
        ...     try:
        ...         game.send(". ".join(["look"] * 20))
        ...     except TooMuchText:
        ...         len(game.go_on().text)
        1511
        """
        with self._use(may_be_midway=True) as game:
            return self._run(game) if self._is_midway else self._reply

    def undo(self) -> Reply:
        """Goes back to the newest state that the story has kept, as its own UNDO does, without its words.

        Most stories keep a state at each turn. Raises NothingToUndo if there is none, and NotAwaited if the story
        awaits neither a line nor a character.

        >>> with Game(Story("examples/lighthouse.z5")) as game:
        ...     replies = [game.send(line) for line in ("undo on", "north")]
        ...     game.undo().text.splitlines()[2]
        'Jetty'
        """
        return self._answer("that a turn is taken back", _library.undo)

    # ---- saved games

    def image(self) -> bytes:
        """The saved game that the story awaits to be kept: a Quetzal file, which other interpreters read too.

        Only a game with saves=False awaits that. Raises NotAwaited if it does not.

        >>> with Game(Story("examples/lighthouse.z5"), saves=False) as game:
        ...     game.send("save").awaits
        ...     file = game.image()
        ...     print(game.keep(True).text)
        <Awaits.SAVE: 3>
        Done.
        <BLANKLINE>
        >
        """
        with self._use() as game:
            returned, file = _library.copied(_library.image, game, guess=self._size)
            if returned != _library.DONE:
                self._refuse(returned, "that a saved game is kept")
            return file

    def keep(self, kept: bool) -> Reply:
        """Tells the story whether its saved game was kept, and runs it on. Raises NotAwaited as `image` does.

        >>> with Game(Story("examples/lighthouse.z5"), saves=False) as game:
        ...     reply = game.send("save")
        ...     print(game.keep(False).text)
        The story could not be saved.
        <BLANKLINE>
        >
        """
        return self._answer("that a saved game is kept", _library.saved, bool(kept))

    def restore(self, file: Optional[bytes]) -> Reply:
        """Gives a saved game to a story that awaits one, or None if there is none, and runs it on.

        A file that is no saved game of this story counts as none: the story tells its player so. Only a game with
        saves=False awaits that. Raises NotAwaited if it does not.

        >>> with Game(Story("examples/lighthouse.z5"), saves=False) as game:
        ...     game.send("restore").awaits
        ...     print(game.restore(None).text)
        <Awaits.RESTORE: 4>
        The story could not be restored.
        <BLANKLINE>
        >
        """
        return self._answer("a saved game", _give, file)

    # ---- snapshots

    def snapshot(self, *, undo: bool = False) -> bytes:
        """The whole play as bytes: `Game.from_snapshot` goes on from here, even in another process.

        undo  whether the states that UNDO goes back to are kept too

        `saved` and `transcript` are not in it. Raises NotAwaited if the story awaits neither a line nor a character.

        >>> story = Story("examples/lighthouse.z5")
        >>> with Game(story) as game:
        ...     game.snapshot() == game.snapshot()
        True
        """
        with self._use() as game:
            return self._snapshot(game, undo)

    def clone(self) -> Game:
        """A second game that goes on from here, with undo states, saved game and transcript. The two never meet.

        Raises NotAwaited if the story awaits neither a line nor a character.

        >>> with Game(Story("examples/lighthouse.z5")) as game, game.clone() as other:
        ...     game.send("north").text.splitlines()[0]
        ...     other.send("look").text.splitlines()[0]
        'Shore Path'
        'Jetty'
        """
        with self._use() as game:
            reason = ctypes.c_uint32()
            handle = _library.clone(game, ctypes.byref(reason))
            if not handle:
                self._refuse(reason.value, "that a clone is made")
            other = Game.__new__(Game)
            other._hold(self._story, handle, self._saves, self._most)
            other._reply = self._reply
            other._saved = self._saved
            other._transcript = list(self._transcript)
            other._size = self._size
            other._is_midway = False
            return other

    def reseed(self, seed: int) -> None:
        """Begins the random numbers anew, as the option `seed` does, so that clones can throw other dice.

        If the story itself has asked for predictable numbers, these go on. Raises NotAwaited if the story awaits
        neither a line nor a character, and ValueError for a seed out of its range.

        >>> story = Story("web/page_tests/menu.z5")
        >>> with Game(story) as game, game.clone() as other:
        ...     other.reseed(7)
        ...     rolls = [[it.send("roll").text for _ in range(10)] for it in (game, other)]
        >>> rolls[0] == rolls[1]
        False
        """
        _in_range("seed", seed)
        with self._use() as game:
            returned = _library.reseed(game, seed)
            if returned != _library.DONE:
                self._refuse(returned, "other random numbers")

    def __reduce__(self) -> NoReturn:
        raise TypeError("a game can't be copied or pickled: use clone or snapshot")

    # ---- closing

    def close(self) -> None:
        """Frees the memory of the game. Its replies stay; all that plays raises Closed from now on.

        >>> game = Game(Story("examples/lighthouse.z5"))
        >>> game.close()
        >>> game
        <Game of <Story version 5, release 1, serial number 261122>: closed>
        """
        with self._lock:
            if self._is_used:
                raise ZkitError("this thread uses the game already")
            self._handle = None
            self._free()

    def __enter__(self) -> Game:
        return self

    def __exit__(self, *_: object) -> None:
        self.close()

    # ---- a turn

    def _snapshot(self, game: int, undo: bool) -> bytes:
        if undo:
            returned, snapshot = _library.copied(_library.snapshot_with_undo, game, UNDO_BYTES, guess=self._size)
        else:
            returned, snapshot = _library.copied(_library.snapshot, game, guess=self._size)
        if returned != _library.DONE:
            self._refuse(returned, "that a snapshot is taken")
        self._size = max(self._size, len(snapshot) + 1_024)
        return snapshot

    def _answer(self, given: str, call: Callable[..., int], *words: object) -> Reply:
        """Answers the story by a call of the library, and runs it on."""
        with self._use() as game:
            # before the call, so that an interrupted answer is a turn to go on with
            self._is_midway = True
            returned = call(game, *words)
            if returned != _library.DONE:
                self._is_midway = False
                self._refuse(returned, given)
            return self._run(game)

    def _refuse(self, returned: int, given: str) -> NoReturn:
        """Raises the error for what a call has returned."""
        if returned == _library.NO_MEMORY:
            raise OutOfMemory("out of memory")
        if returned == _library.NOT_A_LINE:
            raise ValueError("a line has at most 65,535 bytes and no new line")
        if returned == _library.NO_STATE:
            raise NothingToUndo("there is no state to go back to")
        raise NotAwaited(f"the story awaits {WORDS[self._reply.awaits]}, not {given}")

    def _run(self, game: int) -> Reply:
        """Runs the story up to what it awaits, and makes the reply."""
        self._is_midway = True
        shown = answers = waits = 0
        while True:
            asked = _library.turn_for(game, SLICE)
            shown += self._take(game)
            if shown > self._most:
                raise TooMuchText(f"the turn shows more than {self._most:,} bytes of text")
            if asked in (_library.SAVE, _library.RESTORE) and self._saves and answers < MOST_ANSWERS:
                self._keep_or_give(game, asked)
                answers += 1
            elif asked == _library.MEMORY:
                if waits > 0:
                    raise OutOfMemory("out of memory")
                gc.collect()
                waits += 1
            elif asked not in (_library.ROOM, _library.TIME):
                return self._told(game, asked)

    def _trace(self, game: int, most: int) -> list[str]:
        """Runs the story one by one instruction up to what it awaits, or for so many, and makes the reply."""
        traced: list[str] = []
        asked, shown = _library.TIME, 0
        while asked in (_library.TIME, _library.ROOM) and len(traced) < most:
            asked = _library.step(game)
            traced.append(inside.listed(game))
            shown += self._take(game)
            if shown > self._most:
                raise TooMuchText(f"the turn shows more than {self._most:,} bytes of text")
        if asked not in (_library.TIME, _library.ROOM):
            self._run(game)
        return traced

    def _take(self, game: int) -> int:
        """Takes the text that waits, and returns how many bytes it has."""
        shown = _library.taken(_library.text, _library.waiting_text, game, self._buffer, self._shown)
        return shown + _library.taken(
            _library.transcript, _library.waiting_transcript, game, self._buffer, self._transcript
        )

    def _keep_or_give(self, game: int, asked: int) -> None:
        """Answers a save or a restore from the saved game that is kept here."""
        if asked == _library.RESTORE:
            _give(game, self._saved)
            return
        returned, file = _library.copied(_library.image, game, guess=self._size)
        if returned != _library.DONE:
            raise OutOfMemory("out of memory")
        self._saved = file
        _library.saved(game, 1)

    def _told(self, game: int, asked: int) -> Reply:
        text = b"".join(self._shown).decode("utf-8", "replace")
        self._reply = Reply(text, self._upper(game), self._status(game), Awaits(asked), _stop(game, asked))
        self._shown.clear()
        self._is_midway = False
        return self._reply

    def _upper(self, game: int) -> tuple[str, ...]:
        rows = range(1, _window(game).tallest + 1)
        return tuple([_library.put(self._buffer, _library.tallest_row, game, row) for row in rows])

    def _status(self, game: int) -> Optional[Status]:
        if self._story.version != 3:
            return None
        figures = _library.Figures(size=ctypes.sizeof(_library.Figures))
        _library.status_line(game, ctypes.byref(figures))
        if figures.kind == _library.NO_STATUS:
            return None
        name = _library.put(self._buffer, _library.status_name, game)
        if figures.kind == _library.SCORE:
            return Status(name, score=figures.first, turns=figures.second)
        return Status(name, hours=figures.first, minutes=figures.second)


def _give(game: int, file: Optional[bytes]) -> int:
    """Gives a saved game, or tells that there is none."""
    return _library.restore_none(game) if file is None else _library.restore(game, file, len(file))


def _window(game: int) -> _library.Window:
    window = _library.Window(size=ctypes.sizeof(_library.Window))
    _library.window_of(game, ctypes.byref(window))
    return window


def _stop(game: int, asked: int) -> Optional[Stop]:
    if asked != _library.STOPPED:
        return None
    status, reason = _library.status(game), _library.reason(game)
    return Stop(StopKind(status), reason, _library.address(game), _library.words_of_stop(status, reason))


def _opened(story: Story) -> int:
    if not isinstance(story, Story):
        raise TypeError(f"a game is played from a Story, not from {type(story).__name__}")
    return opened(story)


def _in_range(name: str, value: int) -> None:
    least, most = LEAST_AND_MOST[name]
    if not isinstance(value, int):
        raise TypeError(f"{name} is a number, not {value!r}")
    if not least <= value <= most:
        raise ValueError(f"{name} is {value:,}; it may be {least:,} to {most:,}")


def _options(text: int, **numbers: int) -> _library.Options:
    """Options with these numbers, each in its range."""
    for name, value in {**numbers, "text": text}.items():
        _in_range(name, value)
    options = _library.Options(size=ctypes.sizeof(_library.Options))
    _library.defaults(ctypes.byref(options))
    for name, value in numbers.items():
        setattr(options, name, value)
    options.keys = 1
    # so that a turn that shows too much pauses at once
    options.room = min(options.room, text + 1)
    return options


def _refuse(refused: int, error: type[Exception]) -> NoReturn:
    """Raises the error for why nothing was opened."""
    words = _library.words_of_open(refused)
    raise OutOfMemory(words) if refused == _library.OPEN_NO_MEMORY else error(words)

"""A story file: what it says about itself, and listings of what is in it."""

from __future__ import annotations

import ctypes
import os
import re
import weakref
from pathlib import Path
from typing import Optional, Union

from zkit import _library
from zkit._files import MOST_BLORB, read
from zkit.errors import ListingError, OutOfMemory, StoryError

LISTINGS = (
    "header", "map", "abbreviations", "dictionary", "objects", "tree", "ifid", "code", "findings", "strings",
    "properties", "globals", "alphabets", "extension",
)
LONGEST_LISTING = 67_108_864
# a part of a listing has so many steps
STEPS = 20_000

# an entry of the listing of the dictionary
ENTRY = re.compile(r'\d+ [0-9a-f]+ "(.*)"$')


class Story:
    """A story file that can be played. It never changes, and any number of games and threads may share it.

    source  the path of a story file or a Blorb file, or the bytes of one

    Raises StoryError if it is no story, and OSError if the file can't be read.

    >>> from zkit import Story
    >>> Story("examples/lighthouse.z5")
    <Story version 5, release 1, serial number 261122>
    >>> with open("examples/lighthouse.z5", "rb") as file:
    ...     Story(file.read()).version
    5
    """

    __slots__ = ("_content", "_shared", "_facts", "_dictionary")

    def __init__(self, source: Union[str, os.PathLike[str], bytes]) -> None:
        file = source if isinstance(source, bytes) else read(Path(source), MOST_BLORB)
        self._content = _story_in(file)
        self._shared = _Shared(self._content)
        self._facts = _facts_of(self._shared)
        self._dictionary: Optional[tuple[str, ...]] = None

    @property
    def version(self) -> int:
        """The version of the story format: 3, 4, 5 or 8.

        >>> Story("examples/lighthouse.z8").version
        8
        """
        return self._facts[0]

    @property
    def release(self) -> int:
        """The release number.

        >>> Story("examples/lighthouse.z5").release
        1
        """
        return self._facts[1]

    @property
    def serial(self) -> str:
        """The serial number: six characters, mostly the date of the story.

        >>> Story("examples/lighthouse.z5").serial
        '261122'
        """
        return self._facts[3]

    @property
    def checksum(self) -> int:
        """The checksum that the header has.

        >>> f"{Story('examples/lighthouse.z5').checksum:04x}"
        '009f'
        """
        return self._facts[2]

    @property
    def dictionary(self) -> tuple[str, ...]:
        """The words of the dictionary, in its order, as far as it keeps them: 6 characters in version 3, else 9.

        >>> words = Story("examples/lighthouse.z5").dictionary
        >>> "postbag" in words, "lighthouse" in words, "lighthous" in words
        (True, False, True)
        """
        if self._dictionary is None:
            entries = map(ENTRY.match, self.listing("dictionary").splitlines())
            self._dictionary = tuple([entry[1] for entry in entries if entry])
        return self._dictionary

    def __bytes__(self) -> bytes:
        """The bytes of the story file; of a Blorb file, those of the story in it.

        >>> len(bytes(Story("examples/hello.z3")))
        70
        """
        return self._content

    def __reduce__(self) -> tuple[type[Story], tuple[bytes]]:
        return Story, (self._content,)

    def __repr__(self) -> str:
        return f"<Story version {self.version}, release {self.release}, serial number {self.serial}>"

    def listing(self, name: str, most: int = LONGEST_LISTING) -> str:
        """Lists what is in the story, as `zkit info`, `zkit disasm` ("code") and `zkit check` ("findings") do.

        name  one of LISTINGS: "header", "objects", "dictionary", "code", "findings" ..
        most  the most bytes that the listing may have

        Raises ListingError if it has more, or if its texts take too long, and ValueError for another name.

        >>> Story("examples/lighthouse.z5").listing("ifid").strip()
        'ZCODE-1-261122-009F'
        """
        if name not in LISTINGS:
            raise ValueError(f"there is no listing {name!r}; there are {', '.join(LISTINGS)}")
        if not 0 <= most < 2**63:
            raise ValueError(f"most is {most:,}; it may be 0 to {2**63 - 1:,}")
        with _Opened(self._shared) as game:
            parts: list[bytes] = []
            while _goes_on(game, LISTINGS.index(name), parts):
                _limit(parts, most)
            _limit(parts, most)
            return b"".join(parts).decode("utf-8", "replace")


def _goes_on(game: int, listing: int, parts: list[bytes]) -> bool:
    """Makes a part of a listing, and tells whether more is to come. Between two of them Python hears a Ctrl-C."""
    returned = _library.list_for(game, listing, STEPS)
    if returned == _library.LISTING_TOO_MANY_WORDS:
        raise ListingError("the listing has too many lines, or its texts are too long")
    if returned not in (_library.DONE, _library.LISTING_GOES_ON):
        raise OutOfMemory("out of memory")
    _library.drain(_library.listing, game, ctypes.create_string_buffer(65_536), parts)
    return returned == _library.LISTING_GOES_ON


def _limit(parts: list[bytes], most: int) -> None:
    """Refuses a listing that has more bytes than it may."""
    if sum(map(len, parts)) > most:
        raise ListingError(f"the listing has more than {most:,} bytes")


class _Shared:
    """A story that the library has opened, whose file its games share."""

    __slots__ = ("handle", "__weakref__")

    def __init__(self, content: bytes) -> None:
        refused = ctypes.c_uint32()
        handle: Optional[int] = _library.story_open(content, len(content), ctypes.byref(refused))
        if not handle:
            words = _library.words_of_open(refused.value)
            if refused.value == _library.OPEN_NO_MEMORY:
                raise OutOfMemory(words)
            looks = _library.words_of_file(content)
            raise StoryError(f"not a story: {words}; {looks}" if looks else f"not a story: {words}")
        self.handle = handle
        # at the end of the process other threads may still open games
        weakref.finalize(self, _library.story_close, handle).atexit = False


class _Opened:
    """A game with the least limits, for looks at its story."""

    def __init__(self, shared: _Shared) -> None:
        options = _library.Options(size=ctypes.sizeof(_library.Options))
        _library.defaults(ctypes.byref(options))
        options.frames, options.words, options.undo, options.steps = 1, 0, 0, 1
        self.game: Optional[int] = _library.story_game(shared.handle, ctypes.byref(options), None)

    def __enter__(self) -> int:
        if self.game:
            return self.game
        raise OutOfMemory(_library.words_of_open(_library.OPEN_NO_MEMORY))

    def __exit__(self, *_: object) -> None:
        _library.close(self.game)


def opened(story: Story) -> int:
    """The opened story of the library, which lives as long as the story does: for games."""
    return story._shared.handle


def _story_in(file: bytes) -> bytes:
    """The story of a Blorb file, and any other file as it is."""
    returned, story = _library.copied(_library.story_in, file, len(file))
    if returned == _library.NO_STORY:
        raise StoryError("the Blorb file has no story for the Z-machine, or is cut off")
    return file if returned == _library.NOT_A_BLORB else story


def _facts_of(shared: _Shared) -> tuple[int, int, int, str]:
    """Version, release, checksum and serial number of a story."""
    facts = _library.Facts(size=ctypes.sizeof(_library.Facts))
    with _Opened(shared) as game:
        _library.story_of(game, ctypes.byref(facts))
    serial = bytes(facts.serial)[:6].decode("latin-1")
    return facts.version, facts.release, facts.checksum, serial

"""What is inside a game as it stands: its place, open routines, memory and objects."""

from __future__ import annotations

import ctypes
from collections.abc import Callable, Iterator
from contextlib import AbstractContextManager
from dataclasses import dataclass, field
from typing import Optional

from zkit import _library
from zkit.errors import NotThere, OutOfMemory

# the addresses of words in the header (Standard, section 11.1)
GLOBALS, STATIC = 0x0C, 0x0E
FIRST_GLOBAL, LAST_GLOBAL = 16, 255
BIT_SETS = tuple(frozenset(bit for bit in range(8) if byte & 0x80 >> bit) for byte in range(256))

Look = Callable[[], AbstractContextManager[int]]


@dataclass(frozen=True)
class Place:
    """Where a game stands.

    address       the byte address of the instruction that waits, or has stopped the story
    routines      how many routines that were called are open
    words         how many 16-bit words all open routines hold
    states        how many states there are for UNDO to go back to
    steps         how many instructions were carried out since the last answer to a read
    reads         how many reads were answered
    instructions  how many instructions this game has carried out; a clone begins with 0

    >>> from zkit import Game, Story
    >>> with Game(Story("examples/lighthouse.z5")) as game:
    ...     reply = game.send("north")
    ...     game.place.reads, game.place.routines > 0
    (1, True)
    """

    address: int
    routines: int
    words: int
    states: int
    steps: int
    reads: int
    instructions: int


@dataclass(frozen=True)
class Routine:
    """An open routine.

    number     0 for the one that the story begins in, and one more for each that was called
    address    the byte address of the routine; None for number 0, and where it is not known
    call       the address of the call that began it; None for number 0, and where it is not known
    goes_on    the address where its caller goes on
    locals     its local variables
    stack      the words of its evaluation stack, the oldest first
    arguments  how many arguments it was given: its first local variables, as they were at the call

    >>> from zkit import Game, Story
    >>> with Game(Story("examples/lighthouse.z5")) as game:
    ...     first = game.calls[-1]
    >>> first.number, first.address, first.call
    (0, None, None)
    """

    number: int
    address: Optional[int]
    call: Optional[int]
    goes_on: int
    locals: tuple[int, ...]
    stack: tuple[int, ...]
    arguments: int


@dataclass(frozen=True)
class GameObject:
    """An object as it stood when it was looked at. No object has the number 0: it says that there is none.

    number      its number, from 1 on
    name        its short name
    parent      the number of its parent
    sibling     the number of its next sibling
    child       the number of its first child
    attributes  the numbers of the attributes that are set
    properties  the bytes of each property of its own, by the property's number
    address     the byte address of its entry in the object table

    >>> from zkit import Game, Story
    >>> with Game(Story("examples/lighthouse.z5")) as game:
    ...     letter = game.objects.named("letter")
    ...     letter.number, letter.name, game.objects[letter.parent].name
    (7, 'letter', 'postbag')
    """

    number: int
    name: str
    parent: int
    sibling: int
    child: int
    attributes: frozenset[int]
    properties: dict[int, bytes] = field(hash=False)
    address: int


class Objects:
    """The objects of a game, by their numbers, from 1 on. Each look shows them as they stand now.

    >>> from zkit import Game, Story
    >>> with Game(Story("examples/lighthouse.z5")) as game:
    ...     objects = game.objects
    ...     bag = objects.named("postbag")
    ...     [child.name for child in objects.children(bag.number)]
    ...     [it.name for it in objects.ancestors(bag.number)][-1]
    ['letter']
    'Jetty'
    """

    __slots__ = ("_look",)

    def __init__(self, look: Look) -> None:
        self._look = look

    def __len__(self) -> int:
        """How many objects there are."""
        with self._look() as game:
            return _library.objects(game)

    def __getitem__(self, number: int) -> GameObject:
        """The object of a number. Raises NotThere if there is none."""
        with self._look() as game:
            if not isinstance(number, int):
                raise TypeError(f"an object has a number, not {number!r}")
            if not 1 <= number <= _library.objects(game):
                raise NotThere(f"there is no object {number}")
            return _object(game, number, ctypes.create_string_buffer(_library.ROOM_FOR_TEXT))

    def __iter__(self) -> Iterator[GameObject]:
        """All objects, as they stand when the iteration begins."""
        buffer = ctypes.create_string_buffer(_library.ROOM_FOR_TEXT)
        with self._look() as game:
            return iter([_object(game, number, buffer) for number in range(1, _library.objects(game) + 1)])

    def __contains__(self, number: object) -> bool:
        return isinstance(number, int) and 1 <= number <= len(self)

    def __repr__(self) -> str:
        return f"<Objects 1 to {len(self)}>"

    def children(self, number: int) -> list[GameObject]:
        """The children of an object, the first one first. Raises NotThere if there is no such object.

        >>> from zkit import Game, Story
        >>> with Game(Story("examples/lighthouse.z5")) as game:
        ...     jetty = game.objects.named("Jetty")
        ...     [child.name for child in game.objects.children(jetty.number)]
        ['yourself', 'rowing boat']
        """
        return self._along(self[number].child, "sibling")

    def ancestors(self, number: int) -> list[GameObject]:
        """The parent of an object, its parent, and so on. Raises NotThere if there is no such object.

        >>> from zkit import Game, Story
        >>> with Game(Story("examples/lighthouse.z5")) as game:
        ...     letter = game.objects.named("letter")
        ...     [it.name for it in game.objects.ancestors(letter.number)][0]
        'postbag'
        """
        return self._along(self[number].parent, "parent")

    def named(self, name: str) -> GameObject:
        """The first object with a short name. Raises NotThere if there is none.

        >>> from zkit import Game, Story
        >>> with Game(Story("examples/lighthouse.z5")) as game:
        ...     game.objects.named("Shore Path").name
        'Shore Path'
        """
        for it in self:
            if it.name == name:
                return it
        raise NotThere(f"there is no object {name!r}")

    def _along(self, number: int, link: str) -> list[GameObject]:
        """The objects along a link from one on; each once, also where a story has made a circle."""
        found: dict[int, GameObject] = {}
        while number in self and number not in found:
            found[number] = self[number]
            number = getattr(found[number], link)
        return list(found.values())


def place_of(game: int) -> Place:
    """Where a game stands."""
    told = _library.Place(size=ctypes.sizeof(_library.Place))
    _library.place_of(game, ctypes.byref(told))
    return Place(told.address, told.routines, told.words, told.states, told.steps, told.reads, told.instructions)


def routines_of(game: int) -> list[Routine]:
    """The open routines, the newest first."""
    return [_routine(game, number) for number in range(place_of(game).routines, -1, -1)]


def _routine(game: int, number: int) -> Routine:
    told = _library.Routine(size=ctypes.sizeof(_library.Routine))
    if _library.routine_of(game, number, ctypes.byref(told)) != _library.DONE:
        raise NotThere(f"there is no open routine {number}")
    variables = _words(_library.locals_of, game, number, told.locals)
    stack = _words(_library.stack_of, game, number, told.words)
    return Routine(number, told.address or None, told.call or None, told.goes_on, variables, stack, told.arguments)


def _words(function: Callable[..., int], game: int, number: int, count: int) -> tuple[int, ...]:
    buffer = (ctypes.c_uint16 * max(count, 1))()
    count = function(game, number, buffer, count)
    return tuple(buffer[:count])


def memory_of(game: int, address: int, count: int) -> bytes:
    """The bytes of memory from an address on, at most so many."""
    buffer = ctypes.create_string_buffer(max(count, 1))
    count = _library.memory(game, address, buffer, count)
    return ctypes.string_at(buffer, count)


def coverage_of(game: int, length: int) -> bytes:
    """The marks of a story with so many bytes."""
    buffer = ctypes.create_string_buffer(length)
    return ctypes.string_at(buffer, _library.coverage(game, 0, buffer, length))


def instruction_at(game: int, address: int) -> str:
    """The line of the instruction at an address. Raises NotThere where no story has bytes."""
    if not 0 <= address < 2**32:
        raise NotThere(f"there is no address {address:#x}")
    if _library.list_instruction(game, address) != _library.DONE:
        raise OutOfMemory("out of memory")
    return listed(game)


def listed(game: int) -> str:
    """The line that was listed last."""
    parts: list[bytes] = []
    _library.drain(_library.listing, game, ctypes.create_string_buffer(_library.ROOM_FOR_TEXT), parts)
    return b"".join(parts).decode("utf-8", "replace").rstrip("\n")


def word_of(game: int, address: int) -> int:
    """The word at an address. Raises NotThere if there is none."""
    content = memory_of(game, address, 2) if 0 <= address < 2**32 else b""
    if len(content) < 2:
        raise NotThere(f"there is no word at address {address:#x}")
    return int.from_bytes(content, "big")


def global_of(game: int, number: int) -> int:
    """The value of a global variable."""
    if not FIRST_GLOBAL <= number <= LAST_GLOBAL:
        raise ValueError(f"a global variable has a number from {FIRST_GLOBAL} to {LAST_GLOBAL}, not {number}")
    return word_of(game, word_of(game, GLOBALS) + 2 * (number - FIRST_GLOBAL))


def hash_of(game: int, address: int, count: Optional[int]) -> int:
    """The hash of bytes from an address on, or of those up to the end of dynamic memory."""
    for name, value in (("address", address), ("count", count or 0)):
        if not 0 <= value < 2**32:
            raise ValueError(f"{name} is {value:,}; it may be 0 to {2**32 - 1:,}")
    if count is None:
        count = max(word_of(game, STATIC) - address, 0)
    return _library.hash_of(game, address, count)


def _object(game: int, number: int, buffer: ctypes.Array[ctypes.c_char]) -> GameObject:
    told = _library.Object(size=ctypes.sizeof(_library.Object))
    if _library.object_of(game, number, ctypes.byref(told)) != _library.DONE:
        raise NotThere(f"there is no object {number}")
    name = _library.put(buffer, _library.object_name, game, number)
    properties = _properties(game, number)
    return GameObject(
        number, name, told.parent, told.sibling, told.child, _attributes(bytes(told.attributes)), properties, told.entry
    )


def _attributes(content: bytes) -> frozenset[int]:
    return frozenset(8 * index + bit for index, byte in enumerate(content) if byte for bit in BIT_SETS[byte])


def _properties(game: int, number: int) -> dict[int, bytes]:
    """The properties of an object, as far as its list can be read."""
    properties: dict[int, bytes] = {}
    told = _library.Property(size=ctypes.sizeof(_library.Property))
    returned = _library.property_of(game, number, 0, ctypes.byref(told))
    while returned == _library.DONE and told.next and told.next not in properties:
        current = told.next
        returned = _library.property_of(game, number, current, ctypes.byref(told))
        if returned == _library.DONE:
            properties[current] = memory_of(game, told.address, told.length)
    return properties

"""The functions of the library for C, by ctypes. include/zkit.h says what each of them does."""

from __future__ import annotations

import ctypes
import os
import pathlib
import platform
import sys
from collections.abc import Callable
from typing import Optional

VERSION = 0x000100
STOPPED, LINE, CHARACTER, SAVE, RESTORE, ROOM, TIME, MEMORY = range(8)
(DONE, NOT_AWAITED, NOT_A_LINE, NO_ROOM, NO_MEMORY, NO_STATE, LISTING_TOO_LONG, LISTING_TOO_MANY_WORDS, NOT_A_BLORB,
 NO_STORY, NOT_A_KEY, NOT_THERE, NOT_CHANGED, LISTING_GOES_ON) = range(14)
OPEN_NO_MEMORY, BAD_LIMIT = 6, 7
NO_STATUS, SCORE, HOURS = range(3)

FILE_NAME = "libzkit.so.1"
# more bytes than any words have, and than a row of the upper window or the name in a status line has
LONGEST_WORDS = 256
ROOM_FOR_TEXT = 4_096


class Options(ctypes.Structure):
    """`zkit_options`."""

    _fields_ = [("size", ctypes.c_size_t), ("seed", ctypes.c_uint64)] + [
        (name, ctypes.c_uint32)
        for name in ("frames", "words", "undo", "steps", "room", "upper", "styles", "keys", "columns", "coverage")
    ]


class Window(ctypes.Structure):
    """`zkit_window`."""

    _fields_ = [("size", ctypes.c_size_t)] + [
        (name, ctypes.c_uint32) for name in ("height", "tallest", "row", "column", "selected", "width")
    ]


class Figures(ctypes.Structure):
    """`zkit_figures`."""

    _fields_ = [
        ("size", ctypes.c_size_t), ("kind", ctypes.c_uint32), ("first", ctypes.c_int32), ("second", ctypes.c_int32)
    ]


class Facts(ctypes.Structure):
    """`zkit_story`."""

    _fields_ = [("size", ctypes.c_size_t)] + [
        (name, ctypes.c_uint32) for name in ("version", "release", "checksum")
    ] + [("serial", ctypes.c_uint8 * 8)]


class Place(ctypes.Structure):
    """`zkit_place`."""

    _fields_ = [("size", ctypes.c_size_t)] + [
        (name, ctypes.c_uint32) for name in ("address", "routines", "words", "states", "steps", "reads")
    ] + [("instructions", ctypes.c_uint64)]


class Routine(ctypes.Structure):
    """`zkit_routine`."""

    _fields_ = [("size", ctypes.c_size_t)] + [
        (name, ctypes.c_uint32) for name in ("address", "call", "goes_on", "locals", "words", "arguments")
    ]


class Object(ctypes.Structure):
    """`zkit_object`."""

    _fields_ = [("size", ctypes.c_size_t)] + [
        (name, ctypes.c_uint32) for name in ("entry", "parent", "sibling", "child", "properties")
    ] + [("attributes", ctypes.c_uint8 * 8)]


class Property(ctypes.Structure):
    """`zkit_property`."""

    _fields_ = [("size", ctypes.c_size_t)] + [(name, ctypes.c_uint32) for name in ("next", "address", "length")]


def place() -> pathlib.Path:
    """The library that ZKIT_LIBRARY names, or the one in the package, or the one of the checkout."""
    named = os.environ.get("ZKIT_LIBRARY")
    if named:
        return pathlib.Path(named)
    package = pathlib.Path(__file__).resolve().parent
    packed = package / FILE_NAME
    return packed if packed.exists() else package.parent.parent / "dist" / FILE_NAME


def load(path: pathlib.Path) -> ctypes.CDLL:
    """The library in a file. Raises ImportError, in words, if it can't be used here."""
    if sys.platform != "linux" or platform.machine() not in ("x86_64", "AMD64") or sys.maxsize < 2**32:
        raise ImportError(f"zkit needs a 64-bit Python on Linux on x86-64; this is {sys.platform} on "
                          f"{platform.machine()}")
    if not path.exists():
        raise ImportError(f"there is no {path}; the environment variable ZKIT_LIBRARY may name the library")
    try:
        library = ctypes.CDLL(str(path.absolute()))
        version: int = library.zkit_version()
    except (OSError, AttributeError) as error:
        raise ImportError(f"{path} is not zkit's library: {error}") from None
    if version != VERSION:
        raise ImportError(f"{path} is of version {version:#08x}, and this package needs {VERSION:#08x}")
    return library


_library = load(place())


def _function(name: str, result: Optional[type], *parameters: type) -> Callable[..., int]:
    try:
        function: Callable[..., int] = getattr(_library, "zkit_" + name)
    except AttributeError:
        raise ImportError(f"{place()} has no zkit_{name}: it is older than this package") from None
    setattr(function, "restype", result)
    setattr(function, "argtypes", parameters)
    return function


_GAME = _STORY = ctypes.c_void_p
_NUMBER, _SIZE, _BYTES = ctypes.c_uint32, ctypes.c_size_t, ctypes.c_char_p
_OPTIONS, _REASON, _NEEDED = ctypes.POINTER(Options), ctypes.POINTER(_NUMBER), ctypes.POINTER(_SIZE)
_CONTENT = (_BYTES, _SIZE)
_WORDS = (ctypes.POINTER(ctypes.c_uint16), _SIZE)

story_open = _function("story_open", _STORY, *_CONTENT, _REASON)
story_game = _function("story_game", _GAME, _STORY, _OPTIONS, _REASON)
story_resume = _function("story_resume", _GAME, _STORY, *_CONTENT, _OPTIONS, _REASON)
story_close = _function("story_close", None, _STORY)
defaults = _function("defaults", None, _OPTIONS)
close = _function("close", None, _GAME)
turn_for = _function("turn_for", _NUMBER, _GAME, _NUMBER)
step = _function("step", _NUMBER, _GAME)
text = _function("text", _SIZE, _GAME, *_CONTENT)
transcript = _function("transcript", _SIZE, _GAME, *_CONTENT)
status = _function("status", _NUMBER, _GAME)
reason = _function("reason", _NUMBER, _GAME)
address = _function("address", _NUMBER, _GAME)
line = _function("line", _NUMBER, _GAME, *_CONTENT)
character = _function("character", _NUMBER, _GAME, _NUMBER)
undo = _function("undo", _NUMBER, _GAME)
image = _function("image", _NUMBER, _GAME, *_CONTENT, _NEEDED)
saved = _function("saved", _NUMBER, _GAME, _NUMBER)
restore = _function("restore", _NUMBER, _GAME, *_CONTENT)
restore_none = _function("restore_none", _NUMBER, _GAME)
snapshot = _function("snapshot", _NUMBER, _GAME, *_CONTENT, _NEEDED)
snapshot_with_undo = _function("snapshot_with_undo", _NUMBER, _GAME, _SIZE, *_CONTENT, _NEEDED)
clone = _function("clone", _GAME, _GAME, _REASON)
reseed = _function("reseed", _NUMBER, _GAME, ctypes.c_uint64)
waiting_text = _function("waiting_text", _SIZE, _GAME)
waiting_transcript = _function("waiting_transcript", _SIZE, _GAME)
coverage = _function("coverage", _SIZE, _GAME, _NUMBER, *_CONTENT)
place_of = _function("place_of", None, _GAME, ctypes.POINTER(Place))
routine_of = _function("routine_of", _NUMBER, _GAME, _NUMBER, ctypes.POINTER(Routine))
locals_of = _function("locals", _SIZE, _GAME, _NUMBER, *_WORDS)
stack_of = _function("stack", _SIZE, _GAME, _NUMBER, *_WORDS)
memory = _function("memory", _SIZE, _GAME, _NUMBER, *_CONTENT)
hash_of = _function("hash", ctypes.c_uint64, _GAME, _NUMBER, _NUMBER)
objects = _function("objects", _NUMBER, _GAME)
object_of = _function("object_of", _NUMBER, _GAME, _NUMBER, ctypes.POINTER(Object))
object_name = _function("object_name", _SIZE, _GAME, _NUMBER, *_CONTENT)
property_of = _function("property_of", _NUMBER, _GAME, _NUMBER, _NUMBER, ctypes.POINTER(Property))
set_word = _function("set_word", _NUMBER, _GAME, _NUMBER, _NUMBER)
move_object = _function("move_object", _NUMBER, _GAME, _NUMBER, _NUMBER)
window_of = _function("window_of", None, _GAME, ctypes.POINTER(Window))
tallest_row = _function("tallest_row", _SIZE, _GAME, _NUMBER, *_CONTENT)
status_line = _function("status_line", None, _GAME, ctypes.POINTER(Figures))
status_name = _function("status_name", _SIZE, _GAME, *_CONTENT)
story_of = _function("story_of", None, _GAME, ctypes.POINTER(Facts))
list_for = _function("list_for", _NUMBER, _GAME, _NUMBER, _NUMBER)
list_instruction = _function("list_instruction", _NUMBER, _GAME, _NUMBER)
listing = _function("listing", _SIZE, _GAME, *_CONTENT)
story_in = _function("story_in", _NUMBER, *_CONTENT, *_CONTENT, _NEEDED)
_text_of_open = _function("text_of_open", _SIZE, _NUMBER, *_CONTENT)
_text_of_file = _function("text_of_file", _SIZE, *_CONTENT, *_CONTENT)
_text_of_reason = _function("text_of_reason", _SIZE, _NUMBER, _NUMBER, *_CONTENT)


def put(buffer: ctypes.Array[ctypes.c_char], function: Callable[..., int], *words: object) -> str:
    """The text that a function puts at the front of a buffer."""
    count = function(*words, buffer, len(buffer))
    return ctypes.string_at(buffer, count).decode("utf-8", "replace")


def words_of_open(refused: int) -> str:
    """Why nothing was opened, in words."""
    return put(ctypes.create_string_buffer(LONGEST_WORDS), _text_of_open, refused)


def words_of_file(file: bytes) -> str:
    """What a file is that is no story, in words, or nothing."""
    return put(ctypes.create_string_buffer(LONGEST_WORDS), _text_of_file, file, len(file))


def words_of_stop(stopped: int, why: int) -> str:
    """Why a story has stopped, in words."""
    return put(ctypes.create_string_buffer(LONGEST_WORDS), _text_of_reason, stopped, why)


def drain(function: Callable[..., int], game: int, buffer: ctypes.Array[ctypes.c_char], parts: list[bytes]) -> int:
    """Adds all bytes that a function moves into a buffer to a list, part by part, and returns how many."""
    total = 0
    while count := function(game, buffer, len(buffer)):
        parts.append(ctypes.string_at(buffer, count))
        total += count
    return total


def taken(
    function: Callable[..., int], waiting: Callable[..., int], game: int, buffer: ctypes.Array[ctypes.c_char],
    parts: list[bytes],
) -> int:
    """Adds the bytes of text that wait to a list, and returns how many. They go by the buffer if they fit in it."""
    total = left = waiting(game)
    room = buffer if left <= len(buffer) else ctypes.create_string_buffer(left)
    while left > 0:
        count = function(game, room, left)
        parts.append(ctypes.string_at(room, count))
        left -= count
    return total


def copied(function: Callable[..., int], *words: object, guess: int = 0) -> tuple[int, bytes]:
    """What a function copies into a buffer that is long enough: the number that it returns, and the bytes.

    Where `guess` bytes are enough, one call does."""
    needed = ctypes.c_size_t()
    buffer = ctypes.create_string_buffer(guess) if guess else None
    returned = function(*words, buffer, guess, ctypes.byref(needed))
    if returned == NO_ROOM:
        buffer = ctypes.create_string_buffer(needed.value)
        returned = function(*words, buffer, len(buffer), ctypes.byref(needed))
    if returned != DONE or buffer is None:
        return returned, b""
    return returned, ctypes.string_at(buffer, needed.value)

"""Files that are read and written whole."""

from __future__ import annotations

import errno
import os
from pathlib import Path

# as many as the program `zkit` takes
MOST_TEXT = 67_108_864
MOST_BLORB = 1_073_741_824
PIECE = 1 << 20


def read(path: Path, most: int) -> bytes:
    """The bytes of a file of at most so many. OSError tells why it can't be read; a longer one is too large."""
    content = bytearray()
    with path.open("rb") as file:
        while len(content) <= most and (piece := file.read(PIECE)):
            content += piece
    if len(content) > most:
        raise OSError(errno.EFBIG, os.strerror(errno.EFBIG), str(path))
    return bytes(content)


def write(path: Path, text: str) -> None:
    """Writes a text as a file. OSError names the file, whatever went wrong with it."""
    try:
        path.write_text(text, "utf-8")
    except OSError as error:
        raise OSError(error.errno, error.strerror, str(path)) from None

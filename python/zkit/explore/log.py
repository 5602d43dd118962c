"""Messages in a file: one process adds them, others read those that are new."""

from __future__ import annotations

import json
from collections.abc import Iterable
from pathlib import Path
from typing import Any

Message = dict[str, Any]


class Log:
    """A file of messages, one line of JSON each."""

    def __init__(self, path: Path) -> None:
        self._path = path

    def write(self, messages: Iterable[Message]) -> None:
        """Adds messages."""
        with self._path.open("ab", buffering=0) as file:
            file.write(b"".join(json.dumps(message).encode() + b"\n" for message in messages))


class Tail:
    """Reads a log as it grows. Its last line counts when it is whole."""

    def __init__(self, path: Path) -> None:
        self._path = path
        self._read = 0

    def read(self) -> list[Message]:
        """The messages that were added since the last time."""
        if not self._path.exists():
            return []
        with self._path.open("rb") as file:
            file.seek(self._read)
            whole, line_end, _ = file.read().rpartition(b"\n")
        self._read += len(whole) + len(line_end)
        return [json.loads(line) for line in whole.splitlines()]

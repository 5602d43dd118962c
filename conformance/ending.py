"""How the scripts end: with their status, and in one line where something is not there, or where they are stopped."""

from __future__ import annotations

import concurrent.futures
import contextlib
import os
import pathlib
import subprocess
import sys
from collections.abc import Callable, Iterator
from typing import NoReturn, Optional


def told(error: Exception) -> str:
    """An error in words."""
    if isinstance(error, OSError) and error.strerror:
        return f"{error.filename}: {error.strerror}" if error.filename else error.strerror
    if isinstance(error, subprocess.CalledProcessError):
        return f"{error.cmd[0]} has ended with status {error.returncode}"
    return str(error)


def end_with(main: Callable[[], Optional[int]]) -> NoReturn:
    """Runs a script, and ends it."""
    name = pathlib.Path(sys.argv[0]).name
    try:
        status = main()
        sys.stdout.flush()
    except BrokenPipeError:
        # nobody reads what it prints, and Python would try once more
        os.dup2(os.open(os.devnull, os.O_WRONLY), sys.stdout.fileno())
        sys.exit(1)
    except (OSError, subprocess.SubprocessError) as error:
        sys.exit(f"{name}: {told(error)}")
    except KeyboardInterrupt:
        print(f"{name}: stopped", file=sys.stderr)
        sys.exit(130)
    sys.exit(status)


@contextlib.contextmanager
def workers(count: int) -> Iterator[concurrent.futures.ThreadPoolExecutor]:
    """Threads that begin nothing more where a script is stopped."""
    pool = concurrent.futures.ThreadPoolExecutor(count)
    try:
        yield pool
    finally:
        pool.shutdown(cancel_futures=True)

"""What the cases of the program share: a folder with files, runs of the program in it, and what is wanted of them.

The cases are those of `program.py`, `sessions.py` and `failures.py`.
"""

from __future__ import annotations

import contextlib
import functools
import itertools
import os
import resource
import select
import shutil
import subprocess
import sys
import tempfile
import time
from collections.abc import Callable, Mapping, Sequence
from pathlib import Path
from typing import Any, Union

# A run that is not over then has no end: none takes a second where nothing else runs.
SECONDS = 120
EXAMPLES = Path(__file__).resolve().parent.parent / "examples"
# The words of a run: a text, or one by one where they have spaces or are no text.
Words = Union[str, Sequence[Union[str, bytes]]]
# The status of a run, and what it shows on standard output and standard error. What is wanted may be a `Where`.
Ended = tuple[int, str, str]
Wanted = tuple[Any, Any, Any]


# What is wanted.


class Differs(Exception):
    """What came is not what was wanted."""


class LeftOut(Exception):
    """A case can't be tried here; the words say why."""


class Where:
    """What is equal to each thing that a condition holds for."""

    def __init__(self, words: str, holds: Callable[[Any], object]) -> None:
        self.words = words
        self.holds = holds

    def __eq__(self, other: object) -> bool:
        return bool(self.holds(other))

    def __repr__(self) -> str:
        return self.words


ANY = Where("anything", lambda it: True)
SOME = Where("something", bool)


def has(*texts: str) -> Where:
    """A text that has some texts in it."""
    return Where(f"a text with {texts}", lambda it: all(text in it for text in texts))


def begins(text: str) -> Where:
    """A text that begins with another."""
    return Where(f"{text!r} and more", lambda it: it.startswith(text))


def shown(text: object) -> Wanted:
    """What comes of a run that shows a text and ends well, without a word on standard error."""
    return 0, text, ""


def unlike(wanted: object, came: object) -> str:
    """What differs, in words: of what is long the parts and the line that do."""
    whole = f"wanted {wanted!r}, came {came!r}"
    if len(whole) > 400 and isinstance(wanted, (tuple, list)) and isinstance(came, (tuple, list)):
        return "; ".join(unlike(want, part) for want, part in itertools.zip_longest(wanted, came) if want != part)
    if len(whole) > 400 and isinstance(wanted, str) and isinstance(came, str):
        lines = enumerate(itertools.zip_longest(wanted.split("\n"), came.split("\n")), 1)
        return next(f"wanted {want!r} in line {at}, came {line!r}" for at, (want, line) in lines if want != line)
    return whole


def same(wanted: object, came: object, of: str = "") -> None:
    """Ends a case where something came that is not wanted."""
    if wanted != came:
        raise Differs(of + ": " * bool(of) + unlike(wanted, came))


# The program.


def text_of(content: bytes | None) -> str:
    """Bytes as a text of which none is lost."""
    return (content or b"").decode("utf-8", "surrogateescape")


def shown_up_to(stream: int, text: str | None) -> str:
    """What a terminal or a pipe shows up to a text, or to its end."""
    came = b""
    end = time.monotonic() + SECONDS
    while time.monotonic() < end and (text is None or text.encode() not in came):
        if not select.select([stream], [], [], 1)[0]:
            continue
        try:
            more = os.read(stream, 4096)
        except OSError:
            break
        if not more:
            break
        came += more
    return text_of(came)


# What can't be written to, with the reason that is told: nothing is told where nobody reads a pipe any more.
DEVICES = {
    "full": "No space left on device (os error 28)",
    "closed": "Bad file descriptor (os error 9)",
    "file": "File too large (os error 27)",
    "pipe": "",
}
# How long the file is that may get no longer.
LENGTH = 1_000_000


class Program:
    """The program in a folder of its own with some files. It counts the cases that agree and that differ."""

    def __init__(self, command: list[str], folder: Path, files: Mapping[str, bytes]) -> None:
        self.command = command
        self.folder = folder
        self.verbose = False
        self.agree = self.differ = 0
        self.write(files)
        self.known = set(os.listdir(folder))

    def write(self, files: Mapping[str, bytes | str]) -> None:
        """Writes files by their paths in the folder, and the folders that these stand in."""
        for name, content in files.items():
            path = self.folder / name
            path.parent.mkdir(parents=True, exist_ok=True)
            path.write_bytes(content if isinstance(content, bytes) else content.encode())

    def read(self, name: str) -> bytes | None:
        """What a file holds, if it is there."""
        path = self.folder / name
        return path.read_bytes() if path.exists() else None

    def new(self) -> list[str]:
        """The names in the folder that were not there at first."""
        return sorted(set(os.listdir(self.folder)) - self.known)

    def run(self, words: Words, typed: bytes = b"", redirected: str = "", **how: Any) -> Ended:
        """Runs the program in the folder, where a shell may redirect what it reads and shows."""
        command = ["sh", "-c", f'exec "$0" "$@" {redirected}', *self.command] if redirected else self.command
        parts = words.split() if isinstance(words, str) else words
        how = {"stdout": subprocess.PIPE, "stderr": subprocess.PIPE, **how}
        done = subprocess.run([*command, *parts], cwd=self.folder, input=typed, timeout=SECONDS, **how)
        return done.returncode, text_of(done.stdout), text_of(done.stderr)

    def failing(self, device: str, stream: str, until_then: contextlib.ExitStack) -> dict[str, Any]:
        """How the program is run whose standard output or standard error is a device that fails."""
        if device == "closed":
            return {"redirected": ">&-" if stream == "stdout" else "2>&-"}
        if device == "full":
            return {stream: until_then.enter_context(open("/dev/full", "wb"))}
        if device == "pipe":
            reader, writer = os.pipe()
            os.close(reader)
            return {stream: until_then.enter_context(open(writer, "wb"))}
        file = until_then.enter_context(tempfile.TemporaryFile())
        file.truncate(LENGTH)
        file.seek(LENGTH)
        return {stream: file, **self.within(LENGTH)}

    def within(self, length: int) -> dict[str, Any]:
        """How the program is run where no file may get longer, as on a device that is full."""
        limit = functools.partial(resource.setrlimit, resource.RLIMIT_FSIZE, (length, length))
        return {"preexec_fn": limit, "restore_signals": False}

    @functools.cached_property
    def without_rights(self) -> dict[str, Any] | None:
        """How the program is run by who has no rights but those that a file gives, if it can be: root has others."""
        if os.geteuid() != 0:
            return {}
        nobody: dict[str, Any] = {"user": 65534, "group": 65534, "extra_groups": []}
        self.folder.chmod(0o755)
        try:
            return nobody if self.run("--version", **nobody)[0] == 0 else None
        except (OSError, subprocess.SubprocessError):
            return None

    def left_out(self, why: str, what: str) -> None:
        """Tells what can't be tried here."""
        print(f"left out, as {why}: {what}")

    def check(self, wanted: Wanted, words: Words, typed: bytes = b"", **how: Any) -> None:
        """Runs the program, and looks whether it comes as wanted."""
        same(wanted, self.run(words, typed, **how), words if isinstance(words, str) else "")

    def run_all(self) -> None:
        """Runs all cases."""
        raise NotImplementedError

    def case(self, name: object, check: Callable[..., None], *words: object) -> None:
        """Runs a case, tells what differs, and takes away what it leaves in the folder."""
        try:
            check(*words)
        except LeftOut as why:
            self.left_out(str(why), repr(name))
        except Exception as difference:
            self.differ += 1
            print(f"differs: {name!r}: {difference if isinstance(difference, Differs) else repr(difference)}")
        else:
            self.agree += 1
            if self.verbose:
                print(f"agrees: {name!r}")
        for path in (self.folder / it for it in self.new()):
            shutil.rmtree(path) if path.is_dir() and not path.is_symlink() else path.unlink()


def as_zkit(command: list[str], folder: Path) -> list[str]:
    """A command whose program has the name that its messages have in them, in a folder that all may look into."""
    folder.chmod(0o755)
    program = folder / "zkit"
    if not os.path.isfile(command[-1]):
        return command
    program.symlink_to(os.path.abspath(command[-1]))
    return [*command[:-1], str(program)]


def run_cases(name: str, usage: str | None, kind: type[Program], files: Mapping[str, bytes]) -> int:
    """Runs cases by the command line of their script, tells how many agree, and answers the script's status."""
    words = sys.argv[1:]
    verbose = words[:1] == ["-v"]
    command = words[verbose:]
    if not command or command[0] == "--help":
        print(usage)
        return 0 if command else 1
    if not (found := shutil.which(command[0])):
        print(f"{command[0]}: there is no such program", file=sys.stderr)
        return 1
    command[0] = os.path.abspath(found)
    with tempfile.TemporaryDirectory() as place:
        folder = Path(place, "files")
        folder.mkdir()
        program = kind(as_zkit(command, Path(place)), folder, files)
        program.verbose = verbose
        program.run_all()
    print(f"{name}: {program.agree} cases agree, {program.differ} differ")
    return 1 if program.differ else 0


# What is loaded before the program.


def takes_preloaded(command: list[str]) -> bool:
    """Whether what is loaded before a program comes to it: not to a static one, or one that an emulator runs."""
    start = Path(command[0]).read_bytes()[:4096]
    return len(command) == 1 and (not start.startswith(b"\x7fELF") or b"/ld-linux" in start)


def compiler() -> str | None:
    """The compiler for C, if there is one."""
    return shutil.which("cc") or shutil.which("gcc") or shutil.which("clang")


def preloaded(source: str, folder: Path) -> str:
    """Compiles what is loaded before the program, a file that stands beside this one, and answers its path."""
    library, path = folder / "preloaded.so", Path(__file__).with_name(source)
    subprocess.run([compiler() or "cc", "-shared", "-fPIC", "-O", "-o", library, path, "-ldl"], check=True)
    return str(library)

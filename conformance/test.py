#!/usr/bin/env python3
"""Runs the tests of all libraries, those of conformance/tests too, in a copy of the repository, and proves nothing.

usage: conformance/test.py

They are compiled with checks by `rt try --test`: each that fails is told, and the status is then 1.
"""

import pathlib
import re
import shutil
import sys
import tempfile
from collections.abc import Iterable

from ending import end_with
from sources import FOLDER, begin_rt, copy_of

SECONDS = 300
# What a test asks of the runtime. Outside of tests the runtime has `Abort` in a program's `main` alone.
RUNTIME = "impl std::process::Abort + AllocGlobal + Copy"
# What is made shorter in a copy: how far a check looks for texts, as the stories of the tests are short.
SHORTER = (
    ("zk_inspect/src/check/texts.rt", "TEXTS_END: u32 = 524_289", "TEXTS_END: u32 = 66_001"),
    ("zk_inspect/src/check/texts.rt", "ABBREVIATIONS_END: u32 = 131_071", "ABBREVIATIONS_END: u32 = 66_001"),
)


def shorten(crates: pathlib.Path, texts: Iterable[tuple[str, str, str]]) -> None:
    """Puts short texts in the place of long ones, each of a file in a copy of the crates."""
    for file, long, short in texts:
        path = crates / file
        path.write_text(path.read_text(encoding="utf-8").replace(long, short), encoding="utf-8")


def add_tests(crates: pathlib.Path) -> None:
    """Adds the tests that are not proved to the tests in a copy of the crates, each file as a module."""
    source = crates / "zk_tests/src"
    modules = []
    for path in sorted((FOLDER / "tests").glob("*.rt.in")):
        name = path.name.removesuffix(".rt.in")
        shutil.copyfile(path, source / f"{name}.rt")
        modules.append(f"#[cfg(test)]\nmod {name};\n")
    with open(source / "lib.rt", "a", encoding="utf-8") as root:
        root.write("".join(modules))


def open_up(source: pathlib.Path) -> None:
    """Makes the tests of a crate callable from a program, and its modules."""
    root = source / "lib.rt"
    text = root.read_text(encoding="utf-8")
    text = re.sub(r"#\[cfg\(test\)\]\n", "", text)
    text = re.sub(r"^(?:pub )?mod ", "pub mod ", text, flags=re.M)
    root.write_text(text, encoding="utf-8")
    for tests in source.glob("tests*.rt"):
        text = tests.read_text(encoding="utf-8")
        text = re.sub(r"#\[test\]\nfn (\w+)\((\w+): HostRuntime\)", rf"pub fn \1(\2: {RUNTIME})", text)
        tests.write_text(text, encoding="utf-8")


def called(crate: str, tests: pathlib.Path) -> list[tuple[str, str]]:
    """The tests of a file of a crate that is opened up, each by its name and its call."""
    heads = rf"^pub fn (\w+)\(\w+: {re.escape(RUNTIME)}\)( -> Result)?"
    found = re.findall(heads, tests.read_text(encoding="utf-8"), re.M)
    return [(name, f"{crate}::{tests.stem}::{name}(rt){'?' if gives else ''}") for name, gives in found]


def main() -> int:
    """Runs the tests in a copy, and answers their status."""
    if len(sys.argv) > 1:
        sys.exit(__doc__)
    with tempfile.TemporaryDirectory(prefix="test-") as name:
        folder = pathlib.Path(name)
        copy_of(folder)
        add_tests(folder / "crates")
        shorten(folder / "crates", SHORTER)
        words = ["try", "--test", "--steps", "1", "--seconds", str(SECONDS)]
        with begin_rt(words, folder / "crates/zk_tests") as ran:
            said, _ = ran.communicate()
    print("\n".join(it for it in said.splitlines() if not it.endswith("... ok")))
    return ran.returncode


if __name__ == "__main__":
    end_with(main)

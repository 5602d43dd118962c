"""The wheel: the same bytes each time, and a package that works where it is installed."""

from __future__ import annotations

import base64
import hashlib
import importlib.metadata
import importlib.util
import os
import shutil
import subprocess
import sys
import tempfile
import unittest
import zipfile
from pathlib import Path
from unittest import mock

import zkit
import zkit_backend
from helping import EXAMPLES, TOP
from zkit import _library

# the time and the mode of each file in the wheel
MEMBER = ((1980, 1, 1, 0, 0, 0), 0o100644 << 16)
NAME = "zkit-0.1.0-py3-none-linux_x86_64.whl"
# From this version on, pip builds a package in its place; the next one installs it for another Python.
LEAST_PIP = 22
PLAY = """
import sys
sys.path[:0] = sys.argv[2:]
import zkit
with zkit.Game(zkit.Story(sys.argv[1])) as game:
    print(zkit.__file__, game.send("north").text.splitlines()[0])
"""


def pip_version() -> int:
    """The first number of the version of pip, or 0 if there is none."""
    try:
        return int(importlib.metadata.version("pip").partition(".")[0])
    except importlib.metadata.PackageNotFoundError:
        return 0


class WithWheel(unittest.TestCase):
    """A folder for each test, with the wheel."""

    def setUp(self) -> None:
        folder = tempfile.TemporaryDirectory()
        self.addCleanup(folder.cleanup)
        self.folder = Path(folder.name).resolve()
        self.assertEqual(zkit_backend.build_wheel(str(self.folder)), NAME)
        self.wheel = self.folder / NAME

    def run_in_nothing(self, *words: object, **variables: str) -> subprocess.CompletedProcess[str]:
        """Runs a command without an environment."""
        return subprocess.run(
            list(map(str, words)), cwd="/", env=variables, capture_output=True, encoding="utf-8", check=False
        )


class Wheel(WithWheel):
    """The wheel, and where it is installed."""

    def plays(self, python: object, *places: Path) -> None:
        ended = self.run_in_nothing(python, "-I", "-B", "-c", PLAY, EXAMPLES / "lighthouse.z5", *places)
        self.assertIn("Shore Path", ended.stdout, ended.stderr)
        self.assertIn(str(self.folder), ended.stdout)

    def install(self, source: Path, *words: object, python: object = sys.executable) -> None:
        """Installs the package by pip for a Python, without a network."""
        variables = {**os.environ, "PIP_ROOT_USER_ACTION": "ignore", "PIP_DISABLE_PIP_VERSION_CHECK": "1"}
        pip = [sys.executable, "-m", "pip", "--quiet"]
        other = [] if python == sys.executable else ["--python", str(python)]
        install = ["install", "--no-index", "--no-deps", *map(str, words), str(source)]
        subprocess.run([*pip, *other, *install], env=variables, check=True)

    def test_same_bytes(self) -> None:
        ended = self.run_in_nothing(TOP / "python/wheel", self.folder / "again", PATH=os.environ["PATH"])
        self.assertEqual(ended.stdout, NAME + "\n", ended.stderr)
        self.assertEqual((self.folder / "again" / NAME).read_bytes(), self.wheel.read_bytes())

    def test_record(self) -> None:
        with zipfile.ZipFile(self.wheel) as wheel:
            names = wheel.namelist()
            self.assertEqual({(it.date_time, it.external_attr) for it in wheel.infolist()}, {MEMBER})
            rows = [line.split(",") for line in wheel.read("zkit-0.1.0.dist-info/RECORD").decode().splitlines()]
            self.assertEqual([row[0] for row in rows], names)
            for name, digest, size in rows[:-1]:
                content = wheel.read(name)
                wanted = base64.urlsafe_b64encode(hashlib.sha256(content).digest()).rstrip(b"=").decode()
                self.assertEqual((digest, size), (f"sha256={wanted}", str(len(content))))
        self.assertIn("zkit/libzkit.so.1", names)
        self.assertIn("zkit/py.typed", names)
        self.assertIn("zkit/explore/__main__.py", names)

    def test_version(self) -> None:
        major, minor, patch = map(int, zkit.__version__.split("."))
        self.assertEqual(_library.VERSION, major << 16 | minor << 8 | patch)

    def test_installed(self) -> None:
        if pip_version() < LEAST_PIP:
            self.skipTest(f"there is no pip {LEAST_PIP}: the package, installed")
        for name, source in (("wheel", self.wheel), ("source", TOP / "python")):
            self.install(source, "--target", self.folder / name)
            self.plays(sys.executable, self.folder / name)

    def test_environment(self) -> None:
        if pip_version() <= LEAST_PIP or importlib.util.find_spec("venv") is None:
            self.skipTest(f"there is no pip {LEAST_PIP + 1} or no venv: the package in a fresh environment")
        subprocess.run([sys.executable, "-m", "venv", "--without-pip", self.folder / "fresh"], check=True)
        python = self.folder / "fresh/bin/python"
        self.install(self.wheel, python=python)
        self.plays(python)


class Refusals(WithWheel):
    """What can't be built or loaded is told in words."""

    def test_no_library(self) -> None:
        shutil.copytree(TOP / "python", self.folder / "python")
        ended = self.run_in_nothing(self.folder / "python/wheel", self.folder, PATH=os.environ["PATH"])
        self.assertEqual(ended.returncode, 1)
        self.assertRegex(ended.stderr, r"^zkit: there is no .*/dist/libzkit\.so\.1: build .*\n$")

    def test_other_system(self) -> None:
        with mock.patch("platform.machine", return_value="aarch64"):
            with self.assertRaises(SystemExit) as raised:
                zkit_backend.build_wheel(str(self.folder))
            self.assertRegex(str(raised.exception), "for a 64-bit Python on Linux on x86-64; .* aarch64")
            with self.assertRaises(ImportError) as refused:
                _library.load(_library.place())
            self.assertRegex(str(refused.exception), "on Linux on x86-64; this is linux on aarch64")

    def test_other_version(self) -> None:
        with mock.patch.object(_library, "VERSION", 0x000200), self.assertRaises(ImportError) as raised:
            _library.load(_library.place())
        self.assertIn("is of version 0x000100, and this package needs 0x000200", str(raised.exception))

    def test_older_library(self) -> None:
        with self.assertRaises(ImportError) as raised:
            _library._function("something_new", None)
        self.assertIn("has no zkit_something_new: it is older than this package", str(raised.exception))

    def test_no_source_distribution(self) -> None:
        with self.assertRaises(zkit_backend.UnsupportedOperation):
            zkit_backend.build_sdist(str(self.folder))

    def test_usage(self) -> None:
        for words in ((), ("--help",), ("a", "b")):
            ended = self.run_in_nothing(TOP / "python/wheel", *words, PATH=os.environ["PATH"])
            self.assertEqual(ended.returncode, 2)
            self.assertIn("usage: python/wheel FOLDER", ended.stderr)

    def imported(self, library: object) -> str:
        """What an import with this library says."""
        return self.run_in_nothing(
            sys.executable, "-B", "-c", "import zkit", PYTHONPATH=str(TOP / "python"), ZKIT_LIBRARY=str(library)
        ).stderr

    def test_named_library(self) -> None:
        self.assertEqual(self.imported(TOP / "dist/libzkit.so.1"), "")
        self.assertIn("ImportError: there is no /nowhere/at/all", self.imported("/nowhere/at/all"))
        self.assertIn("is not zkit's library", self.imported(EXAMPLES / "hello.z3"))
        shutil.copytree(TOP / "python/zkit", self.folder / "alone/zkit")
        ended = self.run_in_nothing(sys.executable, "-B", "-c", "import zkit", PYTHONPATH=str(self.folder / "alone"))
        self.assertIn("ZKIT_LIBRARY may name the library", ended.stderr)

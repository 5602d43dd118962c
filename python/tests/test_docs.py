"""The examples of docstrings, of the page of the manual and of the README run, and show what stands there."""

from __future__ import annotations

import contextlib
import doctest
import importlib
import inspect
import io
import re
import unittest
from pathlib import Path

import zkit
from helping import TOP

MODULES = (
    "zkit", "zkit.env", "zkit.env.environment", "zkit.errors", "zkit.game", "zkit.inside", "zkit.replies", "zkit.story",
)
PAGE = TOP / "docs/manual/python.md"
BLOCK = re.compile(r"^```(\w*)\n(.*?)^```$", re.MULTILINE | re.DOTALL)


def members(name: str, value: object) -> list[tuple[str, object]]:
    """A public class, with its public methods and properties that have code."""
    if not inspect.isclass(value):
        return []
    own = [(f"{name}.{key}", getattr(value, key)) for key in vars(value) if not key.startswith("_")]
    return [(name, value)] + [(key, it) for key, it in own if isinstance(it, property) or inspect.isroutine(it)]


class Docstrings(unittest.TestCase):
    """All that is public has an example that holds."""

    def test_examples(self) -> None:
        for name in MODULES:
            with self.subTest(name):
                failed, tried = doctest.testmod(importlib.import_module(name))
                self.assertEqual(failed, 0)
                self.assertGreater(tried, 0)

    def test_each_has_one(self) -> None:
        for name in zkit.__all__:
            for key, it in members(name, getattr(zkit, name)):
                with self.subTest(key):
                    self.assertIn(">>>", inspect.getdoc(it) or "")


class Page(unittest.TestCase):
    """Each block of Python on the page runs, after those before it; a script shows the block after it."""

    def blocks(self, path: Path) -> list[tuple[str, str, int]]:
        """The kind, the text and the first line of each block."""
        text = path.read_text("utf-8")
        return [(it[1], it[2], text.count("\n", 0, it.start(2))) for it in BLOCK.finditer(text)]

    def run_script(self, script: str, names: dict[str, object]) -> str:
        output = io.StringIO()
        with contextlib.redirect_stdout(output):
            exec(compile(script, str(PAGE), "exec"), names)
        return output.getvalue()

    def test_page(self) -> None:
        names: dict[str, object] = {}
        blocks = self.blocks(PAGE)
        self.assertGreater(len(blocks), 10)
        for index, (kind, text, line) in enumerate(blocks):
            if kind != "python":
                continue
            if ">>>" in text:
                test = doctest.DocTestParser().get_doctest(text, names, PAGE.name, str(PAGE), line)
                runner = doctest.DocTestRunner()
                self.assertEqual(runner.run(test, clear_globs=False).failed, 0)
                names.update(test.globs)
            else:
                shown = self.run_script(text, names)
                self.assertEqual(blocks[index + 1][:2], ("", shown))

    def test_readme(self) -> None:
        for _, text, _ in self.blocks(TOP / "python/README.md"):
            shown = self.run_script(text.replace('"lighthouse.z5"', '"examples/lighthouse.z5"'), {})
            self.assertTrue(shown.rstrip(">\n").endswith("Taken."))

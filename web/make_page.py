#!/usr/bin/env python3
"""Puts the page, the module and the example into one file.

usage: make_page.py ZKIT.wasm OUT.html

Each script of `page/` becomes a function that answers what it exports, in an order in which each comes after what it
imports. So every script keeps its own names, and nothing in it is changed but the words `import` and `export`. The same
sources give the same bytes.
"""

from __future__ import annotations

import base64
import hashlib
import pathlib
import re
import sys

WEB = pathlib.Path(__file__).resolve().parent
PAGE = WEB / "page"
EXAMPLE = WEB.parent / "examples" / "lighthouse.z5"
HEADER = WEB.parent / "include" / "zkit.h"
IMPORT = re.compile(r'^import \{([^}]*)\} from "(\.[^"]+)";\n', re.MULTILINE)
EXPORT = re.compile(r"^export (?=(?:async function|function|class|const) (\w+))", re.MULTILINE)
# What `zkit page` replaces, to make a page of its own for a story (README.md, "The parts of a page of its own").
REPLACED = ['<script type="text/plain" id="own"></script>', "<title>zkit</title>"]
LEFT_OVER = re.compile(r"^(?:import|export)\b.*", re.MULTILINE)


def name_of(path: pathlib.Path) -> str:
    """The name of a script's function."""
    return "$" + re.sub(r"\W", "_", path.stem)


def as_function(path: pathlib.Path) -> str:
    """A script as a function that is called at once, and answers what it exports."""
    text = path.read_text(encoding="utf-8")
    exported = EXPORT.findall(text)
    text = IMPORT.sub(lambda it: f"const {{{it[1]}}} = {name_of(path.parent / it[2])};\n", text)
    text = EXPORT.sub("", text)
    if left := LEFT_OVER.search(text):
        raise SystemExit(f"make_page.py: {path.name}: {left[0]}: this form is not known here")
    return f"const {name_of(path)} = (() => {{\n{text}return {{ {', '.join(exported)} }};\n}})();\n"


def in_order(
    path: pathlib.Path, done: list[pathlib.Path], open_ones: tuple[pathlib.Path, ...] = ()
) -> list[pathlib.Path]:
    """A script after all that it imports; `done` are those that stand already."""
    if path in open_ones:
        raise SystemExit(f"make_page.py: {path.name} imports itself")
    for _, other in IMPORT.findall(path.read_text(encoding="utf-8")):
        in_order((path.parent / other).resolve(), done, (*open_ones, path))
    if path not in done:
        done.append(path)
    return done


def bundle(path: pathlib.Path) -> str:
    """A script with all that it imports, as one."""
    text = '"use strict";\n' + "".join(as_function(it) for it in in_order(path.resolve(), []))
    if re.search(r"<!--|</?script", text, re.IGNORECASE):
        raise SystemExit(f"make_page.py: {path.name} has a tag of a script in it")
    return text


def digest(text: str) -> str:
    """What a policy calls a text."""
    return "'sha256-" + base64.b64encode(hashlib.sha256(text.encode()).digest()).decode() + "'"


def data(name: str, content: str) -> str:
    """A part of the page that no browser runs."""
    return f'<script type="text/plain" id="{name}">{content}</script>\n'


def version() -> str:
    """The version of zkit, by its header: 0x000100 is 0.1.0."""
    found = re.search(r"^#define ZKIT_VERSION 0x(\w\w)(\w\w)(\w\w)$", HEADER.read_text(encoding="utf-8"), re.MULTILINE)
    if not found:
        raise SystemExit(f"make_page.py: {HEADER.name} has no version")
    return ".".join(str(int(part, 16)) for part in found.groups())


def page(module: bytes) -> str:
    """The whole page."""
    style = (PAGE / "page.css").read_text(encoding="utf-8")
    script = bundle(PAGE / "main.js")
    policy = (f"default-src 'none'; script-src {digest(script)} 'wasm-unsafe-eval'; style-src {digest(style)}; "
              "connect-src 'self'; worker-src blob:; img-src data:; base-uri 'none'; form-action 'none'")
    parts = {
        "ZKIT_VERSION": version(),
        '<meta name="policy">': f'<meta http-equiv="Content-Security-Policy" content="{policy}">',
        '<link rel="stylesheet" href="page.css">': f"<style>{style}</style>",
        '<script src="main.js"></script>':
            data("module-bytes", base64.b64encode(module).decode())
            + data("example-bytes", base64.b64encode(EXAMPLE.read_bytes()).decode())
            + data("worker-source", bundle(PAGE / "worker.js"))
            + f"<script>{script}</script>",
    }
    text = (PAGE / "index.html").read_text(encoding="utf-8")
    for mark, part in parts.items():
        if text.count(mark) != 1:
            raise SystemExit(f"make_page.py: index.html has not one {mark}")
        text = text.replace(mark, part)
    for piece in REPLACED:
        if text.count(piece) != 1:
            raise SystemExit(f"make_page.py: the page has not one {piece}")
    return text


def main(words: list[str]) -> None:
    """Writes the page."""
    if len(words) != 2:
        raise SystemExit("usage: make_page.py ZKIT.wasm OUT.html")
    pathlib.Path(words[1]).write_text(page(pathlib.Path(words[0]).read_bytes()), encoding="utf-8")


if __name__ == "__main__":
    main(sys.argv[1:])

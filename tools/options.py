#!/usr/bin/env python3
"""Puts the options of the command line and what findings mean into the pages that list them, and makes the files by
which shells complete words.

usage: tools/options.py [--check | --write]

The table of options is crates/zk_command/src/options.rt. From it come the usage in README.md, the manual and
docs/zkit.1, the ranges and defaults in the manual's table, in the page for man and in include/zkit.h, and the files of
completions/, those of zkit-screen from the help in screen/main.c. The options of sections are those of
crates/zk_inspect/src/section.rt. The words of findings are those of crates/zk_inspect/src/check/finding.rt. From it
come the manual's table of them, and the words in the page. --check, as no word, tells which of these say something
else; --write puts them right. In both ways it tells which option has no entry in docs/zkit.1, and which finding no row
in the manual. The status is 1 where it tells something.
"""

from __future__ import annotations

import re
import sys
import textwrap
from pathlib import Path

TOP = Path(__file__).resolve().parent.parent
sys.dont_write_bytecode = True
sys.path.append(str(TOP / "conformance"))

from completions import completions  # noqa: E402: it writes no byte code either
from ending import end_with  # noqa: E402: it stands in the folder that was just named
from option_table import Option, read_commands  # noqa: E402

FINDINGS = TOP / "crates" / "zk_inspect" / "src" / "check" / "finding.rt"
LISTINGS = TOP / "docs" / "manual" / "listings.md"
DRAWINGS = TOP / "web" / "page" / "drawings.js"


def usage_lines(command: str, options: list[Option], last: str) -> str:
    """A command's usage, at most 100 columns wide."""
    words = [it.usage().replace(" ", "\0") for it in options]
    begin = f"zkit {command} "
    lines = textwrap.wrap(" ".join([*words, last]), 100 - len(begin), break_on_hyphens=False)
    return begin + f"\n{' ' * len(begin)}".join(lines).replace("\0", " ")


def with_usage(text: str, command: str, options: list[Option], last: str) -> str:
    """A page with a command's usage in place of the one that it has."""
    usage = usage_lines(command, options, last) + "\n"
    return re.sub(rf"(?m)^zkit {command} \[--.*\n(?: +.*\n)*", lambda _: usage, text)


def with_rows(text: str, options: list[Option]) -> str:
    """The manual with the ranges and defaults of its table."""
    for it in options:
        row = rf"(?m)^(\| `--{it.name} n` \| [^|]* \|)[^|]*\|[^|]*\|([^|]*)\|$"
        default = f" {it.default:,} " if it.default is not None else r"\2"
        text = re.sub(row, rf"\1 {it.least:,} | {it.most:,} |{default}|", text)
    return text


def with_entries(text: str, options: list[Option]) -> str:
    """The page for man with the ranges and defaults of its entries."""
    for it in options:
        entry = rf'(?s)(\.BI \\-\\-{it.name} " n"\n.*?)\d+ to \d+(?:; without it \d+)?'
        default = f"; without it {it.default}" if it.default is not None else ""
        text = re.sub(entry, lambda found: f"{found[1]}{it.least} to {it.most}{default}", text, count=1)
    return text


def with_synopsis(text: str, command: str, options: list[Option]) -> str:
    """The page for man with the options of a command in its synopsis."""
    lines = "".join(
        f".OP \\-\\-{it.name.replace('-', chr(92) + '-')}{it.value and ' ' + it.values()}\n" for it in options
    )
    return re.sub(rf'(\.SY "zkit {command}"\n)(?:\.OP .*\n)*', lambda found: found[1] + lines, text)


def with_constants(text: str, options: list[Option]) -> str:
    """The header of the library for C with the defaults, and the ranges in the comments of its options."""
    for it in options:
        if it.default is not None:
            text = re.sub(rf"(#define ZKIT_{it.name.upper()} )\d+", lambda found: f"{found[1]}{it.default}", text)
            field = rf"(uint32_t {it.name}; +/\*[^*]*: )[\d,]+ to [\d,]+( \*/)"
            text = re.sub(field, lambda found: f"{found[1]}{it.least:,} to {it.most:,}{found[2]}", text)
    return text


def read_findings(text: str) -> list[tuple[int, str, str]]:
    """The findings, each with its number, its words and what it means."""
    arm = r'Number::(\w+) =>\s*"?([^",]+(?:, [^"]+)*)"?,'
    numbers, words, meanings = (dict(re.findall(arm, it)) for it in text.split("pub fn ")[1:])
    return [(int(number), words[name], meanings[name]) for name, number in numbers.items()]


def with_findings(text: str, findings: list[tuple[int, str, str]]) -> str:
    """The manual with the words of findings and what they mean in its table."""
    for number, words, meaning in findings:
        text = re.sub(rf"(?m)^\| `C{number}` [^|]*\|[^|]*\|", f"| `C{number}` {words} | {meaning} |", text)
    return text


def with_meanings(text: str, findings: list[tuple[int, str, str]]) -> str:
    """The page's script with what findings mean."""
    lines = "".join(f'    C{number}: "{meaning}",\n' for number, _, meaning in findings)
    return re.sub(r"(?s)(const MEANINGS = \{\n).*?(?=\};)", lambda found: found[1] + lines, text)


def lacking() -> list[str]:
    """What the pages lack: an entry in the page for man for each option, and a row in the manual for each finding."""
    manual, listings = (TOP / "docs" / "zkit.1").read_text("utf-8"), LISTINGS.read_text("utf-8")
    entries = {it.replace("\\", "") for it in re.findall(r"(?m)^\.B[IR]? (\\-\\-\S+)", manual)}
    names = sorted({f"--{it.name}" for _, options, _ in read_commands() for it in options} - entries)
    findings = [f"C{number}" for number, _, _ in read_findings(FINDINGS.read_text("utf-8"))]
    rows = [it for it in findings if f"\n| `{it}` " not in listings]
    return [f"docs/zkit.1: it has no entry for {it}" for it in names] + [
        f"docs/manual/listings.md: it has no row for {it}" for it in rows
    ]


def made() -> dict[Path, str]:
    """Each page as it has to be."""
    commands = read_commands()
    play = commands[0][1]
    numbers = [it for it in play if it.value == "n"]
    pages = {}
    for name in ("README.md", *(f"docs/manual/{page}.md" for page in ("playing", "listings", "testing"))):
        page = (TOP / name).read_text("utf-8")
        for command, options, last in commands:
            page = with_usage(page, command, options, last)
        pages[TOP / name] = with_rows(page, numbers)
    manual = (TOP / "docs" / "zkit.1").read_text("utf-8")
    for command, options, _ in commands:
        manual = with_synopsis(manual, command, options)
    pages[TOP / "docs" / "zkit.1"] = with_entries(manual, numbers)
    header = TOP / "include" / "zkit.h"
    pages[header] = with_constants(header.read_text("utf-8"), play)
    findings = read_findings(FINDINGS.read_text("utf-8"))
    pages[LISTINGS] = with_findings(pages[LISTINGS], findings)
    pages[DRAWINGS] = with_meanings(DRAWINGS.read_text("utf-8"), findings)
    pages.update({TOP / "completions" / name: text for name, text in completions().items()})
    return pages


def main() -> int:
    """Writes the pages, or tells which are not as they have to be, and in both ways what they lack."""
    if sys.argv[1:] not in ([], ["--check"], ["--write"]):
        sys.exit(__doc__)
    pages = made()
    told = lacking()
    for path, text in pages.items():
        if path.exists() and path.read_text("utf-8") == text:
            continue
        if sys.argv[1:] == ["--write"]:
            path.write_text(text, "utf-8")
        else:
            told.append(f"{path.relative_to(TOP)}: it says something else than the sources: tools/options.py --write")
    for line in told:
        print(line)
    return 1 if told else 0


if __name__ == "__main__":
    end_with(main)

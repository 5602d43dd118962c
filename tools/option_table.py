"""The options of zkit and zkit-screen, as they stand in the sources, for the scripts here.

The table of zkit's options is crates/zk_command/src/options.rt, and the options of sections are those of
crates/zk_inspect/src/section.rt. The options of zkit-screen are those of its help, in screen/main.c.
"""

from __future__ import annotations

import re
from pathlib import Path
from typing import NamedTuple, Optional

TOP = Path(__file__).resolve().parent.parent
TABLE = TOP / "crates" / "zk_command" / "src" / "options.rt"
SECTIONS = TOP / "crates" / "zk_inspect" / "src" / "section.rt"
SCREEN = TOP / "screen" / "main.c"

# What stands after an option with the path of a file, or of a folder.
FILE, FOLDER = "FILE", "FOLDER"
# An option with a text, which help calls by the word behind `value`, or a flag, as the table has it.
ROW = r'(Value|Values|Flag) \{\s*name: "([\w-]+)",(?:\s*value: "([^"]*)",)?\s*help: "([^"]*)"'


class Option(NamedTuple):
    """An option: its name, what it does, what stands after it, and of one with a number its range, default and word."""

    name: str
    help: str
    value: str
    least: int = 0
    most: int = 0
    default: Optional[int] = None
    word: str = ""
    again: bool = False

    def values(self) -> str:
        """What stands after the option."""
        return f"{self.value}|{self.word}" if self.word else self.value

    def usage(self) -> str:
        """The option as a usage line has it."""
        again = "..." if self.again else ""
        return f"[--{self.name}{self.value and ' ' + self.values()}]{again}"


def read_numbers(text: str) -> dict[str, Option]:
    """The options with a number, by the names of their constants."""
    row = (
        r'const (\w+): NumberOption =\s*number!\(\s*"(\w+)",\s*(?:Some\("(\d+)"\)|None),\s*(\d+) to (\d+),'
        r'\s*"([^"]*)"(?:,\s*or "(\w+)" "([^"]*)")?'
    )
    found = {}
    for constant, name, default, least, most, told, word, does in re.findall(row, text):
        told = f"{told}, {least} to {most}" + (f"; {word} {does}" if word else "")
        number = int(default) if default else None
        found[constant] = Option(name, told, "n", int(least), int(most), number, word)
    return found


def option_of(kind: str, name: str, value: str, told: str) -> Option:
    """The option that a row of the table has; those of the kind `Values` may be given several times."""
    return Option(name, told, value, again=kind == "Values")


def read_shared(text: str) -> dict[str, Option]:
    """The options that several commands have, by the names of their constants."""
    row = r"const (\w+): CommandOption = CommandOption::" + ROW
    return {constant: option_of(*parts) for constant, *parts in re.findall(row, text)}


def read_options(text: str, constant: str) -> list[Option]:
    """The options of a command, in their order."""
    known = {**read_numbers(text), **read_shared(text)}
    listed = text[text.index(f"const {constant}:"):].split("= [", 1)[1].split("];")[0]
    row = rf"CommandOption::(?:Number\((\w+)\)|{ROW})|\b([A-Z_]{{4,}}),"
    return [
        known[number or shared] if number or shared else option_of(*parts)
        for number, *parts, shared in re.findall(row, listed)
    ]


def read_sections(text: str) -> list[Option]:
    """The options of sections, in the order in which these are shown."""
    listed = text.split("const SECTIONS:", 1)[1].split("];")[0]
    arm = r'Section::(\w+) => "([^"]*)",'
    names = dict(re.findall(arm, text.split("pub fn name", 1)[1].split("pub fn ")[0]))
    helps = dict(re.findall(arm, text.split("pub fn help", 1)[1].split("pub fn ")[0]))
    return [Option(names[it], helps[it], "") for it in re.findall(r"\bSection::(\w+),", listed)]


def read_commands() -> list[tuple[str, list[Option], str]]:
    """The commands with options: the name of each, its options, and what stands behind them."""
    text = TABLE.read_text("utf-8")
    sections = read_sections(SECTIONS.read_text("utf-8"))
    return [
        ("play", read_options(text, "PLAY_OPTIONS"), "STORY"),
        ("info", sections + read_options(text, "INFO_OPTIONS"), "STORY..."),
        ("disasm", read_options(text, "DISASM_OPTIONS"), "STORY"),
        ("check", read_options(text, "CHECK_OPTIONS"), "STORY..."),
        ("test", read_options(text, "TEST_OPTIONS"), "PATH..."),
        ("cover", read_options(text, "COVER_OPTIONS"), "COVER... STORY"),
        ("page", read_options(text, "PAGE_OPTIONS"), "STORY OUT"),
    ]


def read_abouts() -> dict[str, str]:
    """What each command does, by its name."""
    return dict(re.findall(r'name: "(\w+)",\s*about: "([^"]*)"', TABLE.read_text("utf-8")))


def read_screen() -> list[Option]:
    """The options of zkit-screen."""
    text = SCREEN.read_text("utf-8").split("static const char help[] =", 1)[1].split(";\n")[0]
    row = r'(?m)^ +"  --(\w+)(?: ([A-Z]+))? +(.*?)\\n"$'
    return [Option(name, told[0].upper() + told[1:], value) for name, value, told in re.findall(row, text)]

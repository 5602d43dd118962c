"""The files by which bash, zsh and fish complete the words of zkit and zkit-screen: tools/options.py writes them."""

from __future__ import annotations

from collections.abc import Iterable
from typing import NamedTuple, TypeVar

from option_table import FILE, FOLDER, Option, read_abouts, read_commands, read_screen

# What files end with: those of Blorb, stories, walkthroughs, and coverage files.
BLORBS = ["zblorb", "zlb", "blorb", "blb"]
STORIES = ["z3", "z4", "z5", "z8", *BLORBS]
ENDINGS = {
    "STORY": STORIES,
    "STORY OUT": [*STORIES, "html"],
    "COVER... STORY": ["txt", *STORIES],
    "PATH": ["walkthrough"],
    "FILE": BLORBS,
}

T = TypeVar("T")
GENERAL = [Option("help", "Shows help", ""), Option("version", "Shows the version", "")]
MADE = "# Completes the words of {} in {}. tools/options.py --write makes this file of the table of options."


class Command(NamedTuple):
    """A command, or a program that has none: its options, and the files that it takes."""

    name: str
    about: str
    options: list[Option]
    files: str  # what they are, as the usage says it
    endings: list[str]
    many: bool  # whether it takes more than one


def read_all() -> list[Command]:
    """The commands of zkit."""
    abouts = read_abouts()
    taken = [
        Command(name, abouts[name], options, last.rstrip("."), ENDINGS[last.rstrip(".")], last != "STORY")
        for name, options, last in read_commands()
    ]
    return [*taken, Command("unpack", abouts["unpack"], [], "FILE", ENDINGS["FILE"], True)]


def screen() -> Command:
    """The program zkit-screen."""
    options = [it for it in read_screen() if it.name not in [general.name for general in GENERAL]]
    return Command("zkit-screen", "", [*options, *GENERAL], "STORY", ENDINGS["STORY"], False)


def each_once(them: Iterable[T]) -> list[T]:
    """What is there, without what was there before."""
    return list(dict.fromkeys(them))


# ---- bash

BASH = """\
{made}

# Offers folders, and the files with some endings, or all files if there are none of these.
{name}_files() {{
    local file
    compopt -o filenames
    mapfile -t COMPREPLY < <(
        compgen -d -- "$word"
        compgen -f -- "$word" | while IFS= read -r file; do
            [[ ! ${{file,,}} =~ \\.($1)$ ]] || printf '%s\\n' "$file"
        done
    )
    [ ${{#COMPREPLY[@]}} -gt 0 ] || {name}_all -f
}}

# Offers all files, or all folders.
{name}_all() {{
    compopt -o filenames
    mapfile -t COMPREPLY < <(compgen "$1" -- "$word")
}}

{name}_words() {{
    mapfile -t COMPREPLY < <(compgen -W "$1" -- "$word")
}}

{name}() {{
    local word=${{COMP_WORDS[COMP_CWORD]}} before=${{COMP_WORDS[COMP_CWORD - 1]}}
    COMPREPLY=()
    # an option and its value may be joined by =
    if [ "$word" = = ]; then
        word=
    elif [ "$before" = = ]; then
        before=${{COMP_WORDS[COMP_CWORD - 2]}}
    fi
{body}}}

complete -F {name} {program}
"""


def bash_values(name: str, options: list[Option]) -> list[str]:
    """The lines that offer what may stand after an option with a value."""
    kinds: dict[str, list[str]] = {}
    for it in options:
        does = {FILE: f"{name}_all -f; ", FOLDER: f"{name}_all -d; "}.get(it.value, "")
        does = f"{name}_words {it.word}; " if it.word else does
        if it.value:
            kinds.setdefault(does, []).append(f"--{it.name}")
    arms = [f"        {' | '.join(each_once(names))}) {does}return ;;" for does, names in kinds.items()]
    return ["    case $before in", *arms, "    esac"]


def bash_words(name: str, command: Command, indent: str) -> list[str]:
    """The lines that offer a command's options and files."""
    words = " ".join(f"--{it.name}" for it in each_once([*command.options, GENERAL[0]]))
    return [
        f"{indent}case $word in",
        f'{indent}    -*) {name}_words "{words}" ;;',
        f"{indent}    *) {name}_files '{'|'.join(command.endings)}' ;;",
        f"{indent}esac",
    ]


def bash_of_zkit() -> str:
    """The file for zkit."""
    found = read_all()
    names = " ".join(it.name for it in found)
    lines = [
        '    if [ "$COMP_CWORD" = 1 ]; then',
        f'        _zkit_words "{names} help --help --version"',
        "        return",
        "    fi",
        *bash_values("_zkit", [it for command in found for it in command.options]),
        "    case ${COMP_WORDS[1]} in",
    ]
    for it in found:
        lines += [f"        {it.name})", *bash_words("_zkit", it, " " * 12), "            ;;"]
    lines += [f'        help) _zkit_words "{names}" ;;', "    esac"]
    body = "".join(f"{it}\n" for it in lines)
    return BASH.format(made=MADE.format("zkit", "bash"), name="_zkit", body=body, program="zkit")


def bash_of_screen() -> str:
    """The file for zkit-screen."""
    command, name = screen(), "_zkit_screen"
    lines = [*bash_values(name, command.options), *bash_words(name, command, "    ")]
    body = "".join(f"{it}\n" for it in lines)
    return BASH.format(made=MADE.format(command.name, "bash"), name=name, body=body, program=command.name)


# ---- zsh


def zsh_quoted(text: str) -> str:
    """A text between single quotes, in which a backslash stands before what means something to _arguments."""
    for meant in ("\\", "[", "]", ":"):
        text = text.replace(meant, "\\" + meant)
    return "'" + text.replace("'", "'\\''") + "'"


def zsh_option(option: Option) -> str:
    """What _arguments takes of an option."""
    does = {FILE: ":file:_files", FOLDER: ":folder:_files -/", "": ""}.get(option.value, f":{option.value.lower()}: ")
    does = f":{option.values()}:({option.word})" if option.word else does
    before = "*" if option.again else "(- *)" if option in GENERAL else ""
    equals = "=" if option.value else ""
    told = zsh_quoted(option.help)[1:-1]
    return f"'{before}--{option.name}{equals}[{told}]{does}'"


def zsh_files(command: Command) -> str:
    """What _arguments takes of a command's files."""
    number = "*" if command.many else "1"
    return f"'{number}:{command.files.lower()}:_files -g \"(#i)*.({'|'.join(command.endings)})(-.)\"'"


def zsh_arguments(command: Command, indent: str) -> str:
    """The call of _arguments for a command."""
    options = each_once([*command.options, GENERAL[0]])
    return f" \\\n{indent}    ".join([f"{indent}_arguments", *map(zsh_option, options), zsh_files(command)])


def zsh_of_zkit() -> str:
    """The file for zkit."""
    lines = ["#compdef zkit", MADE.format("zkit", "zsh"), "", "local context state state_descr line",
             "typeset -A opt_args", "local -a commands=("]
    lines += [f"    {zsh_quoted(it.name)[:-1]}:{zsh_quoted(it.about)[1:]}" for it in read_all()]
    lines += [
        "    'help:Shows help'",
        ")",
        f"_arguments -C {' '.join(map(zsh_option, GENERAL))} '1: :->command' '*:: :->words' && return",
        "if [[ $state = command ]]; then",
        "    _describe -t commands command commands",
        "    return",
        "fi",
        "case $words[1] in",
    ]
    for it in read_all():
        lines += [f"    {it.name})", zsh_arguments(it, " " * 8), "        ;;"]
    lines += ["    help) _describe -t commands command commands ;;", "esac"]
    return "\n".join(lines) + "\n"


def zsh_of_screen() -> str:
    """The file for zkit-screen."""
    lines = ["#compdef zkit-screen", MADE.format("zkit-screen", "zsh"), "", zsh_arguments(screen(), "")]
    return "\n".join(lines) + "\n"


# ---- fish

FISH = """\
{made}

# Prints folders, and the files with some endings, or all files if there are none of these.
function __{name}_files
    set -l all (complete -C "__fish_command_without_completions "(commandline -ct) | string replace -r '\\t.*' '')
    set -l meant (string match -ri "^.*\\.(?:$argv[1])\\$" -- $all)
    set -q meant[1]; and printf '%s\\n' $meant (string match '*/' -- $all); or printf '%s\\n' $all
end

complete -c {program} -f
"""


def fish_quoted(text: str) -> str:
    """A text between single quotes."""
    return "'" + text.replace("\\", "\\\\").replace("'", "\\'") + "'"


def fish_option(option: Option) -> str:
    """The words of `complete` for an option."""
    does = {FILE: " -r -F", FOLDER: " -x -a '(__fish_complete_directories)'", "": ""}.get(option.value, " -x")
    does = f" -x -a {option.word}" if option.word else does
    return f"-l {option.name}{does} -d {fish_quoted(option.help)}"


def fish_files(command: Command) -> str:
    """The words of `complete` for a command's files."""
    name = "zkit_screen" if command.name == "zkit-screen" else "zkit"
    return f"-a '(__{name}_files \"{'|'.join(command.endings)}\")'"


def fish_of_zkit() -> str:
    """The file for zkit."""
    head = FISH.format(made=MADE.format("zkit", "fish"), name="zkit", program="zkit")
    lines = [f"complete -c zkit -n __fish_use_subcommand {fish_option(it)}" for it in GENERAL]
    for it in read_all():
        begin = f"complete -c zkit -n '__fish_seen_subcommand_from {it.name}'"
        lines += ["", f"complete -c zkit -n __fish_use_subcommand -a {it.name} -d {fish_quoted(it.about)}"]
        lines += [f"{begin} {fish_option(option)}" for option in each_once([*it.options, GENERAL[0]])]
        lines += [f"{begin} {fish_files(it)}"]
    return head + "\n".join(lines) + "\n"


def fish_of_screen() -> str:
    """The file for zkit-screen."""
    command = screen()
    head = FISH.format(made=MADE.format(command.name, "fish"), name="zkit_screen", program=command.name)
    words = [*map(fish_option, command.options), fish_files(command)]
    return head + "".join(f"complete -c {command.name} {it}\n" for it in words)


def completions() -> dict[str, str]:
    """Each file, by its name."""
    return {
        "zkit.bash": bash_of_zkit(),
        "zkit.fish": fish_of_zkit(),
        "zkit.zsh": zsh_of_zkit(),
        "zkit-screen.bash": bash_of_screen(),
        "zkit-screen.fish": fish_of_screen(),
        "zkit-screen.zsh": zsh_of_screen(),
    }

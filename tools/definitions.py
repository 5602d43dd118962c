#!/usr/bin/env python3
"""Tells what zkit says of a part of the Standard: its definitions, what carries and guards them, and the rows.

usage: tools/definitions.py QUERY..    prints what there is on each query, and fails where there is nothing
       tools/definitions.py            writes docs/DEFINITIONS.md, the table of all sections
       tools/definitions.py --check    writes nothing, and fails where the page is not what it would write

A query is one of these:

  12.4          a section of the Z-Machine Standards Document 1.1, with those inside it; 12 is a chapter
  print_paddr   an opcode: its meaning, the definitions that name it, and the rows that are read from it or use it
  C7            a finding of `zkit check`: what it says, and the definitions that this cites
  dictionary    a word: the definitions whose name or meaning has it, and the rows with it in their name

A definition is believed (contracts of public functions cite it), a law (a public function proves it), an example
(a law of values worked out by hand), or a helper (the code's own). Behind each stand the public functions that carry
it, nearest first, the examples that cite it, and the wrong bodies of functions whose contracts cite it.

The script reads text, not meaning: names are looked up by the imports of a file, and a name that a binder takes is
none of them. So it is an index, and the prover alone says what is true.
"""

from __future__ import annotations

import re
import shutil
import signal
import sys
import textwrap
from collections import Counter
from collections.abc import Iterable, Iterator, Sequence
from dataclasses import dataclass, field
from pathlib import Path
from typing import NamedTuple

TOP = Path(__file__).resolve().parent.parent
sys.dont_write_bytecode = True
sys.path.insert(0, str(TOP / "conformance"))

import run  # noqa: E402: these stand in the folder that was just named
from edits import Edit, refused  # noqa: E402
from ending import end_with  # noqa: E402
from sources import blocks_of, crates, functions_of  # noqa: E402

PAGE = TOP / "docs" / "DEFINITIONS.md"
TEMPLATE = TOP / "tools" / "definitions.md.in"
FINDINGS = TOP / "crates" / "zk_inspect" / "src" / "check" / "finding.rt"

CHAPTERS = dict(it.split(" ", 1) for it in (TOP / "tools" / "chapters.txt").read_text("utf-8").splitlines())

KINDS = ("believed", "law", "example", "helper")
EXAMPLES = "Examples"  # how the name of a file of examples ends
LINE = 200  # how wide a line of the page may be
MAIN = 4  # how many definitions of a section the page names,
FILES = 3  # and how many files with its rows
WIDTH = min(max(shutil.get_terminal_size((100, 24)).columns, 60), 100)  # of what a query prints
FEW = 2  # of so many definitions a query prints all that carries and guards them, of more what a line holds
MOST_ROWS = 40  # of those that only use an opcode; more are counted by file

# What tells definitions apart: a crate, a spec file of it, and a name.
Key = tuple[str, str, str]
# What a text imports by names: a definition for each, or a spec file, as a crate and a name in it.
Names = dict[str, Key]
Aliases = dict[str, tuple[str, str]]
# The numbers of a section: those of `12.4` are 12 and 4.
Numbers = tuple[int, ...]


class Section(NamedTuple):
    """A section, or some that follow each other: the numbers of the first and the last."""

    standard: str  # the standard that has them, "" for the Z-Machine's
    first: Numbers
    last: Numbers
    label: str  # how they are written
    words: tuple[str, ...]  # opcodes of chapter 15

    def lies_in(self, numbers: Numbers) -> bool:
        """Whether it lies in the section of these numbers. Some that follow each other do where one of them does."""
        return self.first[:len(numbers)] <= numbers <= self.last[:len(numbers)]


# The left side of an equation, or nothing for a signature, and the definitions that it cites.
Equation = tuple[str, set[Key]]


@dataclass(eq=False)
class Definition:
    """A definition of a spec file. Its sections are those of its comment, where that has some, or of its file's."""

    crate: str
    file: str
    line: int
    form: str
    name: str
    comment: str
    text: str
    sections: list[Section]
    has_own: bool
    constructors: list[str] = field(default_factory=list)
    equations: list[Equation] = field(default_factory=list)
    variants: set[str] = field(default_factory=set)  # of opcodes, that its file imports and it names
    cites: set[Key] = field(default_factory=set)
    kind: str = "helper"
    calls: list[str] = field(default_factory=list)
    examples: list[str] = field(default_factory=list)
    edits: list[str] = field(default_factory=list)

    def key(self) -> Key:
        """What tells it apart from others."""
        return (self.crate, self.file, self.name)

    def pieces(self) -> Iterator[tuple[str, str]]:
        """Its signature and each of its equations, each with its left side."""
        first, *others = re.split(r"\n(?=\S)", self.text)
        yield first, ""
        for piece in others:
            yield piece, re.split(r"\s=\s", piece, maxsplit=1)[0]

    def meaning(self) -> str:
        """The first sentence of its comment, without its sections."""
        brackets = re.compile(r"\s*\(([^()]*)\)")
        text = brackets.sub(lambda found: "" if CITATION.match(found[1]) else found[0], self.comment)
        text = text.split(". ")[0].strip().rstrip(".:")
        if re.match(r"[a-z]{2}|a ", text):
            text = text[0].upper() + text[1:]
        return text or ("A lemma" if self.form == "lemma" else "")

    def sections_in(self, standard: str, numbers: Numbers) -> list[Section]:
        """Its sections that lie in the one of these numbers, in order."""
        return sorted(it for it in self.sections if it.standard == standard and it.lies_in(numbers))

    def names_any(self, names: set[str]) -> bool:
        """Whether its comment names one of some opcodes, in quotes or by its entry in chapter 15."""
        entries = [word for section in self.sections if self.has_own for word in section.words]
        return not names.isdisjoint(entries + re.findall(r"`(\w+)`", self.comment))


Definitions = dict[Key, Definition]


@dataclass(eq=False)
class Function:
    """A function of a source file, or a ghost item, with the definitions that its contract cites."""

    crate: str
    file: Path
    path: str
    name: str
    owner: str
    trait: str
    is_ghost: bool
    public: bool
    text: str
    clauses: list[tuple[str, str]] = field(default_factory=list)  # the word and the name of each, "" where it has none
    cites: set[Key] = field(default_factory=set)
    proves: set[Key] = field(default_factory=set)


class Row(NamedTuple):
    """A row of conformance, with its file and line."""

    name: str
    file: str
    line: int
    places: list[tuple[Numbers, str]]  # the sections that it names, each with a word behind its numbers
    uses: set[str]  # the opcodes that its comments have

    def is_read(self, names: set[str]) -> bool:
        """Whether it is read from the entry of one of some opcodes, or uses one that its name has."""
        in_name = self.uses & set(re.findall(r"\w+", self.name))
        return not names.isdisjoint(in_name.union(word for _, word in self.places))


class Opcode(NamedTuple):
    """An opcode's line of their table: its name, the variant that stands for it, and the line in words."""

    name: str
    variant: str
    said: str


# A definition that a query finds, with lines of it that are shown.
Entry = tuple[Definition, list[str]]
# Rows that a query finds, each with the sections that it is found by.
Found = list[tuple[str, Row]]


class Answer(NamedTuple):
    """What a query finds: a line on it, and definitions and rows by headings."""

    title: str
    definitions: list[tuple[str, list[Entry]]]
    rows: list[tuple[str, Found]]


class Book(NamedTuple):
    """All that queries and the page are answered from."""

    definitions: list[Definition]
    rows: list[Row]
    opcodes: list[Opcode]


# ---- the words of specs and contracts


def without_comments(text: str) -> str:
    """The text without `--` comments."""
    return re.sub(r"(^|\s)--(\s.*)?$", r"\1", text, flags=re.M)


def imports(text: str, definitions: Definitions) -> tuple[Names, Aliases]:
    """What the imports of a text name: a definition's key for each name, and a spec file for each alias."""
    names: Names = {}
    aliases: Aliases = {}
    pattern = r"^\s*(?:ghost )?use Rattle\.(\w+)\.specs\.(?:guards\.)?([\w.]+?)(?:\.\{([^}]*)\}| as (\w+))"
    for crate, path, listed, alias in re.findall(pattern, text, re.M):
        file, *inner = path.split(".")
        if alias and not inner:
            aliases[alias] = (crate, file)
        for item in (listed or "").split(","):
            name, _, renamed = item.strip().partition(" as ")
            key = (crate, file, inner[0] if inner else name)
            if key in definitions:
                names[renamed or name] = key
    return names, aliases


def bound_names(text: str) -> set[str]:
    """The names that binders of a text take: lambdas, typed binders, steps of `do`, fields."""
    bound: set[str] = set()
    for names in re.findall(r"λ\s*([^.]*)\.(?:\s|$)", text):
        bound.update(re.findall(r"[^\s(),]+", names))
    for names in re.findall(r"[({]\s*([^(){}:]+?)\s+:\s", text):
        bound.update(names.split())
    bound.update(re.findall(r"(\S+)\s*←", text))
    bound.update(re.findall(r"^\s+pub (\S+) :", text, re.M))
    return bound


def cited(text: str, names: Names, aliases: Aliases, bound: Iterable[str] = ()) -> set[Key]:
    """The keys of the definitions that a text cites."""
    text = without_comments(text)
    bound = bound_names(text) | set(bound)
    words = re.findall(r"[^\s(){}\[\];,]+", text)
    keys: set[Key] = set()
    for word, following in zip(words, words[1:] + [""]):
        first, _, rest = word.partition(".")
        if first in aliases:
            keys.add(aliases[first] + (rest.split(".")[0],))
        elif first in names and first not in bound and following != "=":
            keys.add(names[first])
    for name, key in names.items():
        parts = [part for part in name.split("◌") if part]
        # the steps of a `do` are joined by `>>=`
        if "◌" in name and (all(it in words for it in parts) or parts == [">>="] and "do" in words):
            keys.add(key)
    return keys


# ---- sections


NUMBER = r"\d+(?:\.\d+)*"
CITATION = re.compile(
    r"(?:(?P<standard>[A-Z]\w*(?: [\d.]+)?), )?\bsections? "
    rf"(?P<list>{NUMBER}(?:(?:, and | and | to |, ){NUMBER})*)(?:, (?P<note>[^()\d;]+)(?=\)))?"
)


def numbers_of(text: str) -> Numbers:
    """A section's numbers: those of `12.4` are 12 and 4."""
    return tuple(int(part) for part in text.split("."))


def sections_of(comment: str) -> list[Section]:
    """The sections that a comment cites."""
    sections = []
    for found in CITATION.finditer(comment):
        standard = "" if found["standard"] in (None, "Standard") else found["standard"]
        items = re.split(r", and | and |, ", found["list"])
        for item in items:
            note = (found["note"] or "").replace("`", "") if item == items[-1] else ""
            ends = [numbers_of(number) for number in item.split(" to ")]
            first, last = ends[0], ends[-1]
            if first[0] == last[0]:
                words = tuple(re.split(", | and ", note)) if first == (15,) and note else ()
                sections.append(Section(standard, first, last, f"{item} {note}".strip(), words))
            else:
                chapters = range(first[0], last[0] + 1)
                sections.extend(Section(standard, (it,), (it,), str(it), ()) for it in chapters)
    return sections


def written(numbers: Numbers) -> str:
    """How a section's numbers are written."""
    return ".".join(str(number) for number in numbers)


# ---- specs


def comment_above(lines: list[str], at: int) -> str:
    """The comment lines right above a line, joined."""
    start = at
    while start > 0 and lines[start - 1].startswith("--"):
        start -= 1
    return " ".join(line[2:].strip() for line in lines[start:at])


def read_spec(crate: str, path: Path) -> list[Definition]:
    """The definitions of a spec file."""
    lines = path.read_text("utf-8").splitlines()
    head = next((at for at, line in enumerate(lines) if not line.startswith("--")), len(lines))
    sections_of_file = sections_of(comment_above(lines, head))
    definitions = []
    for at, line in enumerate(lines):
        found = re.match(r"(?:(unfoldable|abbrev) )?pub (?:(record|data) )?(\S+)(?= |$)", line)
        if found and found[3] != "mod":
            end = at + 1
            while end < len(lines) and not re.match(r"--|use |infix|((unfoldable|abbrev) )?pub ", lines[end]):
                end += 1
            text = "\n".join(lines[at:end]).rstrip()
            comment = comment_above(lines, at)
            form = found[2] or found[1] or "lemma"
            own = sections_of(comment)
            sections = own or sections_of_file
            made = Definition(crate, path.stem, at + 1, form, found[3], comment, text, sections, bool(own))
            if form == "data":
                made.constructors = re.findall(r"^\s+(?:pub )?(\S+) :", text, re.M)
            definitions.append(made)
    return definitions


def read_specs() -> list[tuple[Path, list[Definition]]]:
    """The spec files of the crates, in order, each with its definitions."""
    paths = [(crate, path) for crate in crates() for path in sorted((TOP / "crates" / crate / "specs").rglob("*.antt"))]
    return [(path, read_spec(crate, path)) for crate, path in paths]


def link_definitions(specs: list[tuple[Path, list[Definition]]], definitions: Definitions) -> None:
    """Says of each definition which others its equations cite, and which variants of opcodes they name."""
    opcodes = r"^use Rattle\.zk_code\.specs\.declared\.opcode\.\w+\.TheVariants\.\{([^}]*)\}"
    for path, own in specs:
        text = path.read_text("utf-8")
        names, aliases = imports(text, definitions)
        variants = set(", ".join(re.findall(opcodes, text, re.M)).split(", "))
        for definition in own:
            names[definition.name] = definition.key()
            names.update((name, definition.key()) for name in definition.constructors)
        for definition in own:
            for piece, left in definition.pieces():
                taken = re.findall(r"(?<![\w.◌])[a-z]\w*", left)
                cites = {key for key in cited(piece, names, aliases, taken) if key in definitions}
                definition.equations.append((left, cites - {definition.key()}))
            definition.cites = set().union(*(cites for _, cites in definition.equations))
            definition.variants = variants & words_of(without_comments(definition.text))


def words_of(text: str) -> set[str]:
    """The words of a text that no dot stands before."""
    return set(re.findall(r"(?<![\w.])\w+", text))


# ---- sources


CLAUSE = re.compile(r"\b(requires|ensures)(?:\s+(\w+))?\s*\{(.*?)\}(?=\s*(?:(?:requires|ensures)\b|\Z))", re.S)
GHOST = re.compile(r"^ *ghost (\w+)\s*[=:]\s*\{(.*?)\};$", re.M | re.S)


def module_of(path: Path) -> tuple[str, ...]:
    """The module of a source file."""
    inner = path.with_suffix("").parts
    return () if inner in (("lib",), ("main",)) else inner


def public_modules(sources: dict[Path, str]) -> set[tuple[str, ...]]:
    """The modules that can be named from outside. All modules of a program's root count: it has no outside."""
    public: set[tuple[str, ...]] = {()}
    for path, text in sorted(sources.items(), key=lambda item: len(module_of(item[0]))):
        for test, pub, name in re.findall(r"^((?:#\[cfg\(test\)\]\n)?)(pub )?mod (\w+);", text, re.M):
            if module_of(path) in public and not test and (pub or path.name == "main.rt"):
                public.add((*module_of(path), name))
    return public


def private_types(sources: dict[Path, str], modules: set[tuple[str, ...]]) -> set[str]:
    """The types and traits of a crate that can't be named from outside."""
    public: set[str] = set()
    private: set[str] = set()
    for path, text in sources.items():
        for pub, name in re.findall(r"^(pub(?:\([^)]*\))? )?(?:struct|enum|trait|union) (\w+)", text, re.M):
            (public if pub == "pub " and module_of(path) in modules else private).add(name)
    return private - public


def functions_in(crate: str, file: Path, text: str, definitions: Definitions) -> Iterator[Function]:
    """The functions and ghost items of a source; `public` says of each whether its own lines say so."""
    names, aliases = imports(text, definitions)
    lines = text.split("\n")
    start = "::".join([crate, *module_of(file)])
    for it in functions_of(text):
        head = re.sub(r"//.*|(\{\}?|;)$\Z", "", "\n".join(lines[it.begin:it.body]))
        place = "::".join([start, *filter(None, [it.block.owner]), it.name])
        public = it.visibility == "pub " or it.block.is_trait
        whole = "\n".join(lines[it.begin:it.end])
        made = Function(crate, file, place, it.name, it.block.owner, it.block.implements, False, public, whole)
        parameters = re.findall(r"(\w+)\s*:(?!:)", re.split(r"\b(?:requires|ensures)\b|\{", head)[0])
        for word, name, clause in CLAUSE.findall(head):
            made.clauses.append((word, name))
            made.cites |= cited(clause, names, aliases, parameters)
            if word == "ensures" and clause.strip() in names:
                made.proves.add(names[clause.strip()])
        yield made
    blocks = list(blocks_of(lines))
    for found in GHOST.finditer(text):
        block = blocks[text.count("\n", 0, found.start())]
        place = "::".join([start, *filter(None, [block.owner]), found[1]])
        # A view and an invariant are the code's own.
        public = block.implements != "Model" or found[1] == "Value"
        cites = cited(found[2], names, aliases)
        yield Function(crate, file, place, found[1], block.owner, block.implements, True, public, found[0], [], cites)


def read_sources(crate: str, definitions: Definitions) -> list[Function]:
    """The functions and ghost items of a crate's sources."""
    root = TOP / "crates" / crate / "src"
    texts = {path.relative_to(root): path.read_text("utf-8") for path in sorted(root.rglob("*.rt"))}
    modules = public_modules(texts)
    private = private_types(texts, modules)
    functions = [it for file, text in texts.items() for it in functions_in(crate, file, text, definitions)]
    for it in functions:
        # a method can be named where its type can, whatever module its block stands in
        it.public &= (bool(it.owner) or module_of(it.file) in modules) and it.owner not in private
        it.cites &= set(definitions)
    return functions


def follow_traits(functions: list[Function]) -> None:
    """Gives a function that implements a trait's the contract of that one."""
    contracts: dict[tuple[str, str], set[Key]] = {}
    for function in functions:
        if not function.trait:
            contracts.setdefault((function.owner, function.name), set()).update(function.cites)
    for function in functions:
        if function.trait and not function.cites:
            function.cites = contracts.get((function.trait, function.name), set())


def changed_by(edit: Edit, functions: list[Function]) -> list[Function]:
    """The functions of its first file that an edit changes: of those with a text that it replaces, the smallest."""
    file = edit.files()[0]
    olds = [it.old for it in edit.pairs if it.file == file]
    having = [[it for it in functions if f"src/{it.file}" == file and old in it.text] for old in olds]
    return [min(them, key=lambda it: len(it.text)) for them in having if them]


# ---- what carries and guards a definition


def distances(cites: set[Key], definitions: Definitions) -> dict[Key, int]:
    """How far each definition lies from a contract that cites some: 1 for these."""
    far: dict[Key, int] = {}
    now = set(cites)
    step = 1
    while now:
        far.update((key, step) for key in now)
        step += 1
        outward = [definitions[key].cites for key in now if definitions[key].form != "lemma"]
        now = set().union(*outward) - set(far)
    return far


def shows_examples(function: Function) -> bool:
    """Whether a function proves examples."""
    return any(key[1].endswith(EXAMPLES) for key in function.proves)


def find_calls(definitions: Definitions, functions: list[Function]) -> None:
    """Says of each definition which public functions carry it, and of which kind it is."""
    carriers: dict[Key, list[tuple[bool, int, int, bool, str]]] = {key: [] for key in definitions}
    believed: set[Key] = set()
    for function in functions:
        if function.public:
            for key, step in distances(function.cites, definitions).items():
                proves = bool(function.proves) + shows_examples(function)
                carriers[key].append((function.is_ghost, proves, step, function.crate != key[0], function.path))
                if not shows_examples(function):
                    believed.add(key)
    laws = set().union(*(function.proves for function in functions if function.public))
    for key, definition in definitions.items():
        if definition.form == "lemma":
            continue
        definition.calls = unique(path for *_, path in sorted(carriers[key]))
        if key in laws:
            definition.kind = "example" if definition.file.endswith(EXAMPLES) else "law"
        elif key in believed:
            definition.kind = "believed"


def find_examples(definitions: Definitions) -> None:
    """Says of each definition which examples cite it, themselves or by what their file works on."""
    for example in definitions.values():
        if example.kind == "example":
            seen: set[Key] = set()
            now = {example.key()}
            while now:
                seen |= now
                of_files = [definitions[key] for key in now if key[1].endswith(EXAMPLES)]
                now = set().union(*(one.cites for one in of_files)) - seen
            for key in seen - {example.key()}:
                definitions[key].examples.append(example.name)


def find_edits(definitions: Definitions, functions: dict[str, list[Function]]) -> None:
    """Says of each definition which edits turn it: first those of its own crate, and of functions that cite few."""
    turning: dict[Key, set[tuple[bool, int, str]]] = {key: set() for key in definitions}
    for edit in refused():
        for function in changed_by(edit, functions[edit.crate]):
            for key in function.cites:
                name = edit.name if edit.crate == key[0] else edit.crate + "/" + edit.name
                turning[key].add((edit.crate != key[0], len(function.cites), name))
    for key, definition in definitions.items():
        if definition.form != "lemma":
            definition.edits = unique(name for _, _, name in sorted(turning[key]))


# ---- rows and opcodes


def places_of(text: str) -> list[tuple[Numbers, str]]:
    """The sections of a row, as numbers and a word: `2.3, 15 inc, dec` are 2.3, `15 inc` and `15 dec`."""
    places: list[tuple[Numbers, str]] = []
    for item in text.split(", "):
        number, _, word = item.partition(" ")
        if re.fullmatch(NUMBER, number):
            places.append((numbers_of(number), word))
        else:
            before, said = places[-1]
            if not said:
                places.pop()
            places.append((before, item))
    return places


def read_rows() -> list[Row]:
    """The rows of conformance, in the order of their files."""
    rows = []
    for chapter, row in run.all_rows():
        found = [re.match(r"(?:\w+:\s+)?(\w+)", it) for it in row.assembly]
        uses = {{"not1": "not", "notv": "not"}.get(it[1], it[1]) for it in found if it}
        rows.append(Row(row.name, chapter, int(row.place.partition(":")[2]), places_of(row.section), uses))
    return rows


def opcodes_of(definitions: list[Definition]) -> list[Opcode]:
    """The lines of the tables of opcodes, which tie a name to the variant that stands for it elsewhere."""
    listed = r'\brow (\d+) \(?(\w+) ?(\d*)\)? (?:\((\w+) (\w+)\)|(\w+)) \(codes "(\w+)"\)'
    versions = {"Every": "in every version", "UpTo": "up to version ", "From": "from version ", "Only": "in version "}
    opcodes = []
    for table in definitions:
        form = re.fullmatch(r"section 14, .* opcodes, (\w+)", table.comment)
        if not form:
            continue
        for number, word, version, group, variant, alone, name in re.findall(listed, table.text):
            variant = variant or alone
            said = f"{form[1]} {number} {versions[word]}{version}, {group}{'::' if group else ''}{variant}"
            opcodes.append(Opcode(name, variant, said))
    return opcodes


# ---- what a query finds


def unique(items: Iterable[str]) -> list[str]:
    """The items in their order, each once."""
    return list(dict.fromkeys(items))


def on_section(query: str, book: Book) -> Answer:
    """What there is on a section or chapter: the definitions by the sections that they name, and the rows."""
    numbers = numbers_of(query)
    found: dict[tuple[Numbers, bool, Numbers, str], list[Entry]] = {}
    for definition in book.definitions:
        here = definition.sections_in("", numbers)
        if here:
            label = ", ".join(unique(section.label for section in here))
            heading = f"Section {label}" + ("" if definition.has_own else ", by the comment of the file")
            key = (max(here[0].first, numbers), not definition.has_own, here[0].last, heading)
            found.setdefault(key, []).append((definition, []))
    rows: Found = []
    for row in book.rows:
        named = sorted({place for place in row.places if place[0][:len(numbers)] == numbers})
        if named:
            rows.append((", ".join(f"{written(numbers)} {word}".strip() for numbers, word in named), row))
    title = f"{query}  {CHAPTERS.get(str(numbers[0]), '')}".strip()
    return Answer(title, [(key[-1], found[key]) for key in sorted(found)], [("Rows of conformance", rows)])


def on_opcode(query: str, book: Book) -> Answer:
    """What there is on an opcode: the equations for its variants and what they cite, what else names it, and rows."""
    own = [opcode for opcode in book.opcodes if opcode.name == query]
    variants = {opcode.variant for opcode in own}
    names = {opcode.name for opcode in book.opcodes if opcode.variant in variants}
    meaning: list[Entry] = []
    naming: list[Entry] = []
    cites: set[Key] = set()
    for definition in book.definitions:
        named = variants & definition.variants
        quotes = [line.strip(" ∷") for line in definition.text.splitlines() if named & words_of(line)]
        cited_there = [cites for left, cites in definition.equations if named & words_of(left)]
        if cited_there:
            meaning.append((definition, quotes))
            cites.update(*cited_there)
        elif quotes or definition.names_any(names):
            naming.append((definition, quotes if definition.kind != "example" else []))
    shown = {definition.key() for definition, _ in meaning + naming}
    others: list[Entry] = [(it, []) for it in book.definitions if it.key() in cites - shown]
    groups = [("Equations for it", meaning), ("What these cite", others), ("What else names it", naming)]
    reading = [("", row) for row in book.rows if row.is_read(names)]
    using = [("", row) for row in book.rows if row.uses & names and not row.is_read(names)]
    rows = [("Rows that are read from its entry or named by it", reading), ("Other rows that use it", using)]
    return Answer(f"{query}  " + "; ".join(it.said for it in own), groups, rows)


def on_finding(query: str, book: Book) -> Answer:
    """What there is on a finding of `check`: the equations for its name, and what they cite."""
    named = re.search(rf"Number::(\w+) => {query[1:]},", FINDINGS.read_text("utf-8"))
    name = named[1] if named else ""
    meaning: list[Entry] = []
    cites: set[Key] = set()
    for definition in book.definitions:
        cited_there = [cites for left, cites in definition.equations if name and name in words_of(left)]
        if cited_there:
            quotes = [line.strip() for line in definition.text.splitlines() if name in words_of(line)]
            meaning.append((definition, quotes))
            cites.update(*cited_there)
    shown = {definition.key() for definition, _ in meaning}
    others: list[Entry] = [(it, []) for it in book.definitions if it.key() in cites - shown]
    return Answer(f"{query}  {name}", [("Equations for it", meaning), ("What these cite", others)], [])


def on_word(query: str, book: Book) -> Answer:
    """The definitions with a word in their name, their meaning or a section's, and the rows with it in their name."""
    by_name: list[Entry] = []
    by_meaning: list[Entry] = []
    for definition in book.definitions:
        said = [definition.meaning()] + [f"{it.standard} {it.label}" for it in definition.sections]
        if query == definition.name or has_word(spaced(definition.name), spaced(query)):
            by_name.append((definition, []))
        elif any(has_word(text, query) for text in said):
            by_meaning.append((definition, []))
    groups = [("Definitions with it in their name", by_name), ("Definitions with it in their meaning", by_meaning)]
    rows = [("", row) for row in book.rows if has_word(row.name, query)]
    return Answer(query, groups, [("Rows of conformance with it in their name", rows)])


def spaced(name: str) -> str:
    """The words of a name: those of `IsFrame` and of `is_frame` are `is frame`."""
    return " ".join(re.findall(r"[A-Z]+(?![a-z])|[A-Z]?[a-z]+|\d+", name)).lower()


def has_word(text: str, word: str) -> bool:
    """Whether a text has a word, small or capital."""
    return bool(word) and bool(re.search(rf"(?<!\w){re.escape(word)}(?!\w)", text, re.I))


def answer(query: str, book: Book) -> Answer | None:
    """What there is on a query, if there is anything."""
    is_opcode = any(opcode.name == query for opcode in book.opcodes)
    is_section, is_finding = re.fullmatch(NUMBER, query), re.fullmatch(r"C\d+", query)
    find = on_section if is_section else on_opcode if is_opcode else on_finding if is_finding else on_word
    found = find(query, book)
    is_there = any(entries for _, entries in found.definitions) or any(rows for _, rows in found.rows)
    return found if is_there else None


# ---- how it is printed


def cut(text: str, room: int) -> str:
    """A text that fits into so many letters, cut after a word where it does not."""
    return text if len(text) <= room else text[:room - 4].rsplit(" ", 1)[0].rstrip(",;:") + " ..."


def fitting(items: Sequence[str], room: int) -> str:
    """The first items, as many as fit into so many letters and one at least, and how many there are more."""
    number = len(items)
    while True:
        text = ", ".join(items[:number]) + (f", +{len(items) - number}" if number < len(items) else "")
        if len(text) <= room or number <= 1:
            return text
        number -= 1


def wrapped(text: str, indent: str, first: str | None = None) -> str:
    """A text in lines with an indent, and another one before the first."""
    first = indent if first is None else first
    return textwrap.fill(text, WIDTH, initial_indent=first, subsequent_indent=indent, break_on_hyphens=False)


def entry_lines(definition: Definition, quotes: list[str], widest: int, is_brief: bool) -> Iterator[str]:
    """The lines of a definition."""
    indent = " " * 12
    path = next((TOP / "crates" / definition.crate / "specs").rglob(f"{definition.file}.antt"))
    place = f"{path.relative_to(TOP)}:{definition.line}"
    yield f"  {definition.kind:<9} {definition.name:<{widest}}  {place}"
    if definition.meaning():
        yield wrapped(definition.meaning(), indent)
    for quote in quotes:
        yield indent + cut(f"| {quote}", WIDTH - 12)
    lists = ("carried by", definition.calls), ("examples", definition.examples), ("edits", definition.edits)
    for title, names in lists:
        if names:
            text = fitting(names, WIDTH - 24) if is_brief else ", ".join(names)
            yield wrapped(text, indent * 2, f"{indent}{title:<12}")


def row_lines(rows: Found) -> Iterator[str]:
    """The lines of rows, each with the sections that it is found by, or how many there are in each file."""
    if len(rows) > MOST_ROWS and not rows[0][0]:
        files = Counter(row.file for _, row in rows)
        yield wrapped(", ".join(f"{number} in {file}.rows" for file, number in files.items()), "  ")
        return
    lines = [(f"conformance/{row.file}.rows:{row.line}", cut(label, 24), row.name) for label, row in rows]
    widest = [max(len(line[at]) for line in lines) for at in (0, 1)]
    for place, label, name in lines:
        start = f"  {place:<{widest[0]}}  " + (f"{label:<{widest[1]}}  " if label else "")
        yield wrapped(name, " " * len(start), start)


def answer_lines(found: Answer) -> Iterator[str]:
    """The lines of what a query finds."""
    definitions = [definition for _, entries in found.definitions for definition, _ in entries]
    kinds = Counter(definition.kind for definition in definitions)
    counts = ", ".join(f"{kind} {kinds[kind]}" for kind in KINDS if kinds[kind]) or "none"
    yield wrapped(found.title, "  ", "")
    yield f"definitions: {counts}; rows of conformance: {sum(len(rows) for _, rows in found.rows) or 'none'}"
    widest = min(max((len(definition.name) for definition in definitions), default=0), 34)
    for heading, entries in found.definitions:
        if entries:
            yield f"\n{heading}"
        for definition, quotes in sorted(entries, key=lambda entry: KINDS.index(entry[0].kind)):
            yield from entry_lines(definition, quotes, widest, len(definitions) > FEW)
    for heading, rows in found.rows:
        if rows:
            yield f"\n{heading}: {len(rows)}"
            yield from row_lines(rows)


# ---- the page


def places(book: Book) -> list[tuple[str, Numbers]]:
    """The places that have a line of the table, each a standard and numbers: chapters, and sections of two numbers."""
    named = {("", numbers) for row in book.rows for numbers, _ in row.places}
    named |= {(section.standard, section.first) for it in book.definitions for section in it.sections}
    chapters = {(standard, numbers[:1]) for standard, numbers in named}
    return sorted(chapters | {("", numbers[:2]) for standard, numbers in named if not standard})


def table_line(standard: str, numbers: Numbers, book: Book) -> list[str]:
    """The line of the table for a chapter or section."""
    here = [(it, it.sections_in(standard, numbers)) for it in book.definitions]
    here = [(definition, sections) for definition, sections in here if sections]
    is_chapter = not standard and len(numbers) == 1
    main = [
        definition
        for definition, sections in here
        if definition.kind == "believed" and (not is_chapter or any(len(it.first) == 1 for it in sections))
    ]
    rows = [row for row in book.rows if not standard and any(it[:len(numbers)] == numbers for it, _ in row.places)]
    label = f"{standard}, {written(numbers)}" if standard else written(numbers)
    if is_chapter:
        label = f"**{label} {CHAPTERS.get(str(numbers[0]), '')}**"
    examples = sum(definition.kind == "example" for definition, _ in here)
    files = [f"`{file}`" for file, _ in Counter(row.file for row in rows).most_common()]
    more = f", +{len(files) - FILES}" if len(files) > FILES else ""
    line = [label, str(len(here) - examples), "", str(examples), str(len(rows)), ", ".join(files[:FILES]) + more]
    line[2] = main_ones(main, LINE - len(" | ".join(line)) - 4)
    return line


def main_ones(definitions: list[Definition], room: int) -> str:
    """The main ones of some definitions with their files, as many as fit into so many letters."""
    main = sorted(definitions, key=lambda it: (not it.has_own, -len(it.calls)))
    for number in range(MAIN, 0, -1):
        files: dict[str, list[str]] = {}
        for it in main[:number]:
            files.setdefault(f"(`{it.crate}` {it.file})", []).append(f"`{it.name}`")
        text = "; ".join(f"{', '.join(unique(names))} {file}" for file, names in files.items())
        if len(text) <= room:
            return text
    return ""


def is_named(section: Section, rows: list[Row]) -> bool:
    """Whether a row names a section or one inside it."""
    first, last = section.first, section.last
    return any(
        first <= numbers[:len(first)] and numbers[:len(last)] <= last and (not section.words or word in section.words)
        for row in rows
        for numbers, word in row.places
    )


def bare_lines(book: Book) -> list[str]:
    """The sections with believed definitions that no row of conformance names, a line for each chapter."""
    sections: dict[Section, list[str]] = {}
    for definition in book.definitions:
        for section in definition.sections:
            if definition.kind == "believed" and not section.standard:
                sections.setdefault(section, []).append(f"`{definition.name}`")
    chapters: dict[int, list[str]] = {}
    for section, names in sorted(sections.items()):
        if not is_named(section, book.rows):
            chapters.setdefault(section.first[0], []).append(f"{section.label} ({fitting(unique(names), 60)})")
    return [textwrap.fill("- " + "; ".join(labels), 120, subsequent_indent="  ") for labels in chapters.values()]


def page(book: Book) -> str:
    """The whole page."""
    kinds = Counter(definition.kind for definition in book.definitions)
    bare = sum(not definition.sections for definition in book.definitions)
    lines = [table_line(standard, numbers, book) for standard, numbers in places(book)]
    parts = {"table": "\n".join(f"| {' | '.join(it)} |" for it in lines), "sections": "\n".join(bare_lines(book))}
    return TEMPLATE.read_text("utf-8").format(all=len(book.definitions), bare=bare, **kinds, **parts)


# ---- the script


def read_book() -> Book:
    """All definitions, with what carries and guards them, and all rows."""
    specs = read_specs()
    definitions = {definition.key(): definition for _, own in specs for definition in own}
    link_definitions(specs, definitions)
    functions = {crate: read_sources(crate, definitions) for crate in crates()}
    everything = [function for own in functions.values() for function in own]
    follow_traits(everything)
    find_calls(definitions, everything)
    find_examples(definitions)
    find_edits(definitions, functions)
    shown = [it for it in definitions.values() if not it.file.endswith(EXAMPLES) or it.kind == "example"]
    return Book(shown, read_rows(), opcodes_of(shown))


def print_answers(queries: list[str], book: Book) -> int:
    """Prints what there is on each query."""
    answers = [answer(query, book) for query in queries]
    if any(answers):
        print("\n\n".join("\n".join(answer_lines(found)) for found in answers if found))
    for query, found in zip(queries, answers):
        if not found:
            print(f"tools/definitions.py: there is nothing on {query}", file=sys.stderr)
    return 0 if all(answers) else 1


def main(words: list[str]) -> int:
    """Does what the arguments of the command line ask."""
    signal.signal(signal.SIGPIPE, signal.SIG_DFL)
    if words in (["--help"], ["-h"]):
        print(__doc__.strip())
        return 0
    if words != ["--check"] and any(word.startswith("-") for word in words):
        print(__doc__.strip(), file=sys.stderr)
        return 2
    book = read_book()
    if not words:
        PAGE.write_text(page(book), "utf-8")
    elif words != ["--check"]:
        return print_answers(words, book)
    elif not PAGE.exists() or PAGE.read_text("utf-8") != page(book):
        print("docs/DEFINITIONS.md is not what tools/definitions.py writes: run it", file=sys.stderr)
        return 1
    return 0


if __name__ == "__main__":
    end_with(lambda: main(sys.argv[1:]))

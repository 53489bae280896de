#!/usr/bin/env python3
"""Writes the table of commands, python/trinorm/commands.txt, and README's list, from the definitions of the command line and REFERENCE.

    tools/commands.py [--check]

The launcher, the completions, the manual page, the package, the page in a browser and bench/ read that table. With --check nothing
is written, and the status is 1 where something would be. It is 1, too, if the tables of commands and of options in REFERENCE do
not have each command with its options, and each option with its values.
"""
from __future__ import annotations

import re
import sys
from pathlib import Path
from typing import Dict, List, NamedTuple, Tuple

from repository import TOP

TABLE = TOP / "python" / "trinorm" / "commands.txt"
README = TOP / "README.md"
REFERENCE = TOP / "docs" / "REFERENCE.md"
# around README's list, and the command with which each of its parts begins
MARKS = ("<!-- commands: tools/commands.py -->", "<!-- end of commands -->")
PARTS = {"surfaces": "Surfaces", "info": "Triangulations", "play": "3-spheres"}
DEFINITIONS = TOP / "crates"
HEAD = """\
# The commands; tools/commands.py writes this file. Fields are separated by tabs: name, what is read, options, an example, and
# what is printed. An option `name=VALUES` takes the first value, or the greatest number, where it isn't given, and one
# `name!VALUES` has to be given; `-` is none.
"""
# what the definitions call a document, in short words
DOCUMENTS = {
    "table": "table", "two_tables": "two-tables", "tables": "tables", "vectors": "vectors", "vector": "vector",
    "blocks": "blocks", "steps": "steps", "moves": "moves", "cone": "cone",
}


class NotFound(Exception):
    """The definitions haven't the form that this tool knows."""


class Option(NamedTuple):
    """An option: its values, or the least and the greatest number, and whether it has to be given."""

    name: str
    values: Tuple[str, ...]
    numbers: Tuple[int, int]
    wanted: bool

    def spelled(self) -> str:
        choices = "|".join(self.values) or f"{self.numbers[0]}..{self.numbers[1]}"
        return f"{self.name}{'!' if self.wanted else '='}{choices}"


class Command(NamedTuple):
    """A command: the document that it reads (`none` where it reads nothing), its options, an example, and what it answers."""

    name: str
    document: str
    options: List[Option]
    example: str
    answers: str

    def line(self) -> str:
        options = " ".join(option.spelled() for option in self.options) or "-"
        return "\t".join((self.name, self.document, options, self.example, self.answers))


def definitions(crate: str, file: str) -> str:
    return (DEFINITIONS / crate / "specs" / f"{file}.antt").read_text("utf8")


def body(text: str, name: str) -> str:
    """The lines that define a name, up to the next empty line."""
    found = re.search(rf"^{name}\b[^\n]*=(?:\n|[^\n]*\n)(?:.+\n)*", text, re.M)
    if found is None:
        raise NotFound(f"no definition of {name}")
    return found[0]


def codes(text: str) -> List[str]:
    return re.findall(r'codes "([^"]+)"', text)


def number(text: str, name: str) -> int:
    return int(body(text, name).partition("=")[2])


def option_of_kind(kind: str) -> Option:
    """An option that a command takes, such as `Limit` or `Moves most_moves`, by the definitions of its kind."""
    definition, values = definitions("command_definitions", "Commands"), definitions("command_definitions", "Values")
    kind, _, most = kind.partition(" ")
    name = codes(body(definition, rf"option_name \(?{kind}"))[0]
    if kind in ("Coordinates", "PieceCoordinates"):
        choices = codes(body(values, "coordinates_named"))
        coordinates = definitions("surface_definitions", "Coordinates")
        with_pieces = [word for word in choices if f"has_triangles {word.capitalize()} = true" in coordinates]
        return Option(name, tuple(with_pieces if kind == "PieceCoordinates" else choices), (0, 0), False)
    if kind == "RowOrder":
        return Option(name, tuple(codes(body(values, "order_named"))), (0, 0), False)
    if kind == "Limit":
        return Option(name, (), (1, number(definitions("text_definitions", "Written"), "limit")), False)
    if kind == "Seed":
        return Option(name, (), (0, number(values, "most_seed")), True)
    if kind == "Moves":
        return Option(name, (), (0, number(definitions("command_definitions", "Requests"), most)), True)
    raise NotFound(f"values of an option {kind}")


class Entry(NamedTuple):
    """A row of the definitions' table: the name of a command, the kinds of its options, and the case of its request."""

    name: str
    kinds: List[str]
    request: str


def entries() -> List[Entry]:
    """The table of commands as the definitions have it."""
    rows = re.findall(r'\(codes "([\w-]+)", \((.*)\[\], (\w+)\)\)', body(definitions("command_definitions", "Commands"), "commands"))
    return [Entry(name, kinds.split(" ∷ ")[:-1], request) for name, kinds, request in rows]


def documents() -> Dict[str, str]:
    """The document that each command reads."""
    names, found = {entry.request: entry.name for entry in entries()}, {}
    for request, rest in re.findall(r"^meaning_of \(?(\w+)(.*)$", definitions("outcome_definitions", "Answers"), re.M):
        document = re.search(r"\b(\w+)_document\b", rest)
        found[names.get(request, "")] = DOCUMENTS[document[1]] if document else "none"
    return found


def rows_of_reference(page: str) -> Dict[str, Tuple[str, str]]:
    """What each command prints, by the table of REFERENCE, and its first example without a pipe, by its section there."""
    answers = {name: row[1] for row in cells_of(page, "Commands") for name in re.findall(r"\[`([\w-]+)`\]", row[0])}
    sections = re.split(r"(?m)^## `", page)[1:]
    examples = {name: found[1] for section in sections for name in [section.split("`")[0]]
                for found in [re.search(rf"^    \$ (trinorm {name}(?: [^|\n]*)?)$", section, re.M)] if found}
    return {name: (text, f"./{examples[name]}") for name, text in answers.items() if name in examples}


def made() -> List[Command]:
    """The commands, in REFERENCE's order, which is that of what one wants to know."""
    reads, rows = documents(), rows_of_reference(REFERENCE.read_text("utf8"))
    options = {entry.name: [option_of_kind(kind) for kind in entry.kinds] for entry in entries()}
    for name in set(options) ^ set(rows):
        raise NotFound(f"the command {name} stands in REFERENCE's table or in the grammar, and not in both")
    return [Command(name, reads[name], options[name], example, answers) for name, (answers, example) in rows.items()]


def option_of(spelled: str) -> Option:
    parted = re.fullmatch(r"([\w-]+)([=!])(.*)", spelled)
    if parted is None:
        raise NotFound(f"an option spelled {spelled}")
    name, sign, choices = parted.groups()
    numbers = re.fullmatch(r"(\d+)\.\.(\d+)", choices)
    if numbers:
        return Option(name, (), (int(numbers[1]), int(numbers[2])), sign == "!")
    return Option(name, tuple(choices.split("|")), (0, 0), sign == "!")


def read_table(path: Path = TABLE) -> List[Command]:
    """The commands as the table has them."""
    found = []
    for line in path.read_text("utf8").splitlines():
        if line and not line.startswith("#"):
            name, document, options, example, answers = line.split("\t")
            found.append(Command(name, document, [option_of(it) for it in options.split() if it != "-"], example, answers))
    return found


def cells_of(page: str, heading: str) -> List[List[str]]:
    """The cells of the table under a heading of a page."""
    found = re.search(rf"^## {heading}\n\n((?:\|.*\n)+)", page, re.M)
    return [[cell.strip() for cell in line.strip("|").split("|")] for line in found[1].splitlines()[2:]] if found else []


def faults_of_reference(page: str, known: List[Command]) -> List[str]:
    """A line for each command without its options in REFERENCE's table, and for each option without its values."""
    options = {name: re.findall(r"`--([\w-]+)`", row[3]) for row in cells_of(page, "Commands") for name in re.findall(r"\[`([\w-]+)`\]", row[0])}
    values = {row[0].strip("`-"): row[1] for row in cells_of(page, "Options")}
    faults = [f"refused: REFERENCE has other options of {command.name} than the grammar" for command in known
              if options.get(command.name) != [option.name for option in command.options]]
    faults += [f"refused: REFERENCE has the command {name}, and the grammar has not" for name in options if name not in {it.name for it in known}]
    every = {option.name: option for command in known for option in command.options}
    return faults + [f"refused: REFERENCE lacks the value {value} of --{name}" for name, option in every.items()
                     for value in option.values or [str(option.numbers[0])] if not re.search(rf"\b{value}\b", values.get(name, ""))]


def list_of(commands: List[Command]) -> str:
    """README's list: what each command prints, in parts with a heading."""
    lines: List[str] = []
    for command in commands:
        if command.name in PARTS:
            lines += ["", f"{PARTS[command.name]}:", ""]
        lines.append(f"- `{command.name}`: {command.answers}")
    return "\n".join(lines[1:])


def with_list(page: str, commands: List[Command]) -> str:
    """The page with the list between its marks."""
    begin, end = MARKS
    return re.sub(rf"{begin}.*?{end}", lambda _: f"{begin}\n{list_of(commands)}\n{end}", page, flags=re.S)


def table_of(commands: List[Command]) -> str:
    """The table as it should be."""
    return HEAD + "".join(f"{command.line()}\n" for command in commands)


def main(checking: bool) -> int:
    commands = made()
    faults = faults_of_reference(REFERENCE.read_text("utf8"), commands)
    for line in faults:
        print(line)
    expected = {TABLE: table_of(commands), README: with_list(README.read_text("utf8"), commands)}
    return max([write(path, text, checking) for path, text in expected.items()] + [int(bool(faults))])


def write(path: Path, text: str, checking: bool) -> int:
    """Writes a file if it is stale, or says that it is."""
    if path.is_file() and path.read_text("utf8") == text:
        return 0
    if not checking:
        path.write_text(text, "utf8")
    print(f"{'stale' if checking else 'written'}: {path.relative_to(TOP)}")
    return int(checking)


if __name__ == "__main__":
    sys.exit(main("--check" in sys.argv[1:]))

#!/usr/bin/env python3
"""Counts the places that name a command, and checks that docs/ARCHITECTURE.md names the places that its recipes need.

    tools/places.py COMMAND
    tools/places.py [--check]

With a command its files are listed, with their lines that name it, by who keeps them: the prover, a tool that makes them, or hands,
as code, pages or tests. A name counts as a whole word, on pages in code alone, and so does the case of its request; of a name that
is an English word too, such as `check`, other lines count as well. Then follow the files that a new command which reads a
triangulation has to be written into: those that name each command of that kind, and that no tool makes.

Without a command the count is written into ARCHITECTURE, and each recipe has to name the files that it needs. With --check nothing
is written; the status is 1 if something would be, or if a recipe lacks a file.
"""
from __future__ import annotations

import contextlib
import re
import sys
from pathlib import Path
from typing import Callable, Dict, Iterator, List, NamedTuple, Pattern, Sequence, Set

import commands
from repository import TOP, tracked

PAGE = "docs/ARCHITECTURE.md"
# this tool and its test, which name what they look for
OWN = ("tools/places.py", "python/tests/test_places.py")
MARKS = ("<!-- places: tools/places.py -->", "<!-- end of places -->")
# the document that the commands of the example read
DOCUMENT = "table"
# files that a tool writes, with the tool; what a page has between the marks of a tool is the tool's as well
MADE = {
    "python/trinorm/commands.txt": "tools/commands.py", "python/trinorm/worked_rows.json": "tools/worked_rows.py",
    "python/trinorm/table_methods.py": "tools/methods.py",
    "docs/LAWS.md": "tools/laws.py", "docs/READING.md": "tools/reading.py", "crates.txt": "tools/floors.py",
    "web/names.json": "tools/names.py", "python/trinorm/endings.txt": "bench/endings.py",
}
PROVED, BY_TOOL, CODE, PAGES, TESTS = KINDS = ("proved", "made by a tool", "code by hand", "pages", "tests")
# where tests are, of the crates and of what is around them
OF_TESTS = re.compile(r"crates/(?:worked_\w+/|\w+/must-fail/)|python/tests/|\w+/tests/|library/rust/trinorm/tests/|bench/\w+_runs")
MADE_PART = re.compile(r"<!-- [^>]*: tools/\w+\.py -->.*?<!-- end of [^>]*-->", re.S)
# what of a page is code: between backticks, or in an indented line
OF_CODE = re.compile(r"`[^`\n]+`|^    .*$", re.M)


class File(NamedTuple):
    """A file of the repository: its path and its text."""

    path: str
    text: str

    def kind(self) -> str:
        """Who keeps the file."""
        if self.path in MADE:
            return BY_TOOL
        if OF_TESTS.match(self.path):
            return TESTS
        if self.path.startswith("crates/"):
            return PROVED
        return PAGES if self.path.endswith(".md") else CODE

    def by_hand(self) -> str:
        """The text that no tool makes; of a page, its code."""
        if self.kind() != PAGES:
            return self.text
        return "\n".join(OF_CODE.findall(MADE_PART.sub("", self.text)))

    def by_tools(self) -> str:
        """What tools make of a page."""
        return "\n".join(MADE_PART.findall(self.text)) if self.kind() == PAGES else ""


class Place(NamedTuple):
    """A file that names a command: who keeps it, and the number of lines that do."""

    kind: str
    path: str
    lines: int


def files_of(top: Path) -> List[File]:
    """The files of the repository that are text, without those of this tool."""
    found = []
    for path in tracked(top, "."):
        with contextlib.suppress(UnicodeDecodeError):
            found.append(File(path.relative_to(top).as_posix(), path.read_text("utf8")))
    return [file for file in found if file.path not in OWN]


def word(*names: str) -> Pattern[str]:
    """One of these names as a whole word."""
    return re.compile(rf"(?<![\w-])(?:{'|'.join(map(re.escape, names))})(?![\w-])")


def names_of_commands() -> Dict[str, Pattern[str]]:
    """How each command is named: by its name, and by the case of its request."""
    return {entry.name: word(entry.name, entry.request) for entry in commands.entries()}


def lines_with(pattern: Pattern[str], text: str) -> int:
    return sum(1 for line in text.split("\n") if pattern.search(line))


def places(files: Sequence[File], pattern: Pattern[str]) -> List[Place]:
    """The places of a name, by who keeps them and by path."""
    found = [Place(file.kind(), file.path, lines_with(pattern, file.by_hand())) for file in files]
    found += [Place(BY_TOOL, file.path, lines_with(pattern, file.by_tools())) for file in files]
    return sorted((place for place in found if place.lines), key=lambda place: (KINDS.index(place.kind), place.path))


def naming_all(files: Sequence[File], patterns: Sequence[Pattern[str]]) -> List[File]:
    """The files in which hands have written each of some names."""
    return [file for file in files if file.kind() != BY_TOOL and all(pattern.search(file.by_hand()) for pattern in patterns)]


def for_a_new_command(files: Sequence[File]) -> List[File]:
    """The files that a new command has to be written into."""
    known = names_of_commands()
    return naming_all(files, [known[command.name] for command in commands.read_table() if command.document == DOCUMENT])


# ---- what the recipes need

# the cases of two types, each with its word on the command line
SYSTEMS = {"Standard": "standard", "Quad": "quad", "Octagon": "octagon"}
ORDERS = {"Given": "given", "Short": "short", "Zeros": "zeros"}
INPUTS = [word("two-tables")]
MOVES = [word(name) for name in ("14", "23", "32", "41")]
SCRIPTS = re.compile(r"\bmove_definitions\.specs\.(?:MoveText|Grammar|Sessions|Undos|TextLaws)\b")
RUST = re.compile(r"library/rust|\btest_rust\b|\bcargo\b")


def has_clauses(file: File, cases: Sequence[str]) -> bool:
    """Whether a source distinguishes the cases of a type: one definition has a clause, or one match an arm, for each."""
    if not all(case in file.text for case in cases):
        return False
    either = "|".join(cases)
    clauses: Dict[str, Set[str]] = {}
    for name, _, case in re.findall(rf"(?m)^ *([\w'-]+) ([^\n=:]*\b({either})\b[^\n=:]*) =", file.text):
        clauses.setdefault(name, set()).add(case)
    arms = set(re.findall(rf"(?m)^\s*\w+::({either})\b[^\n]*=>", file.text))
    return any(len(found) == len(cases) for found in [*clauses.values(), arms])


def of_cases(files: Sequence[File], cases: Dict[str, str]) -> List[File]:
    """The proved files that distinguish all cases of a type, and the code around them that has the words of all."""
    proved = [file for file in files if file.kind() == PROVED and has_clauses(file, list(cases))]
    return proved + [file for file in naming_all(files, list(map(word, cases.values()))) if file.kind() == CODE]


def for_coordinates(files: Sequence[File]) -> List[File]:
    """What distinguishes all systems of coordinates."""
    return of_cases(files, SYSTEMS)


def for_orders(files: Sequence[File]) -> List[File]:
    """What distinguishes all orders of rows."""
    return of_cases(files, ORDERS)


def for_inputs(files: Sequence[File]) -> List[File]:
    """The code around the crates that knows the kinds of inputs, by the name of one of them."""
    return [file for file in naming_all(files, INPUTS) if file.kind() == CODE]


def for_moves(files: Sequence[File]) -> List[File]:
    """What knows the text of moves, steps, scripts or sessions."""
    proved = [file for file in files if file.kind() == PROVED and SCRIPTS.search(file.text)]
    return proved + [file for file in naming_all(files, MOVES) if file.kind() == CODE]


def for_a_library(files: Sequence[File]) -> List[File]:
    """What names the library for Rust, besides its own files, the pages and what is written of messages."""
    others = [file for file in files if not file.path.startswith("library/rust/") and file.kind() in (CODE, TESTS)]
    return [file for file in others if RUST.search(file.text)]


class Recipe(NamedTuple):
    """A recipe: its heading, the files that it needs, and whether it names each file of a crate or the crate alone."""

    heading: str
    needs: Callable[[Sequence[File]], List[File]]
    by_crate: bool = False


RECIPES = (Recipe("Add a command", for_a_new_command), Recipe("Add an order of rows", for_orders),
           Recipe("Add a move", for_moves, by_crate=True), Recipe("Add a kind of input", for_inputs),
           Recipe("Add a coordinate system", for_coordinates), Recipe("Add a library for another language", for_a_library))


def section(page: str, heading: str) -> str:
    """The text under a heading, and what each recipe needs."""
    found = re.search(rf"^### {re.escape(heading)}\n(.*?)(?=^### |\Z)", page, re.M | re.S)
    common = re.search(r"^\*\*After each of these\*\*.*?(?=^### )", page, re.M | re.S)
    return (found[1] if found else "") + (common[0] if common else "")


def names_in(path: str, by_crate: bool) -> List[List[str]]:
    """For each thing that a recipe has to name for a file, the names that will do."""
    name, stem = Path(path).name, Path(path).stem
    if path.startswith("crates/"):
        crate = [path.split("/")[1]]
        return [crate] if by_crate else [crate, [name, stem]]
    return [[name, stem]] if name.endswith(".md") else [[name]]


def lacking(files: Sequence[File], page: str) -> Iterator[str]:
    """A line for each file that a recipe needs and does not name."""
    for recipe in RECIPES:
        text = section(page, recipe.heading)
        for file in recipe.needs(files):
            if not all(word(*names).search(text) for names in names_in(file.path, recipe.by_crate)):
                yield f"{PAGE}, {recipe.heading}: {file.path} is not named"


# ---- what is printed

def count_text(files: Sequence[File]) -> str:
    """The count for ARCHITECTURE: the files that a new command has to be written into."""
    needed = for_a_new_command(files)
    counts = [f"{sum(file.kind() == kind for file in needed)} {name}" for kind, name in (
        (PROVED, "of crates"), (CODE, "of code around them"), (PAGES, "pages"), (TESTS, "of tests"))]
    return (f"{len(needed)} files name each command that reads a triangulation: {counts[0]}, {counts[1]}, {counts[2]} and {counts[3]}. "
            "A new one is written into them, besides its own files.")


def report(files: Sequence[File], name: str) -> Iterator[str]:
    """The places of a command, and those of a new one."""
    found = places(files, names_of_commands()[name])
    yield f"{name}: {len({place.path for place in found})} files, {sum(place.lines for place in found)} lines"
    for kind in KINDS:
        there = [place for place in found if place.kind == kind]
        yield f"\n{kind}: {len(there)} files, {sum(place.lines for place in there)} lines"
        yield from (f"  {place.path} {place.lines}" for place in there)
    yield f"\n{count_text(files)}"
    yield from (f"  {file.path}" for file in for_a_new_command(files))


def with_count(page: str, text: str) -> str:
    """The page with the count between its marks."""
    begin, end = MARKS
    return re.sub(rf"{begin}.*?{end}", lambda _: f"{begin}\n{text}\n{end}", page, flags=re.S)


def main(words: Sequence[str]) -> int:
    files, named = files_of(TOP), [it for it in words if it != "--check"]
    if named:
        if named[0] not in names_of_commands():
            sys.exit(f"no command {named[0]}")
        print("\n".join(report(files, named[0])))
        return 0
    page = (TOP / PAGE).read_text("utf8")
    expected, refused = with_count(page, count_text(files)), list(lacking(files, page))
    for line in refused:
        print(line)
    if page != expected:
        print(f"{'stale' if '--check' in words else 'written'}: {PAGE}")
        if "--check" not in words:
            (TOP / PAGE).write_text(expected, "utf8")
    return 1 if refused or ("--check" in words and page != expected) else 0


if __name__ == "__main__":
    sys.exit(main(sys.argv[1:]))

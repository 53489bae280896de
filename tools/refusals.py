"""What tools/floors.py refuses of the crates: a crate that is not what its name says, a kind that stands on another one, lines of
crates.txt that list too much or too little, and crates without a subject."""
from __future__ import annotations

import re
from pathlib import Path
from typing import Dict, Iterable, Iterator, List, NamedTuple, Set, Tuple

from repository import files_of_crate

PROGRAMS = ("trinorm", "trinorm_c", "worked_rows", "worked_tables", "worked_cones")
# the crate that all others may name, and that names none
GROUND = "basic_lemmas"
COMMENTS = {".rt": r"//[^\n]*", ".antt": r"(?m)(?:^|(?<=\s))--(?=\s|$)[^\n]*"}
# what follows the parameters of a function: its result, then a clause of its contract or its body
CLAUSE = re.compile(r"\s*(?:->(?:[^{;\[]|\[[^\]]*\])*?)?\s*((?:requires|ensures)\b[^{;]*)?\{")
BRACKETS = {"{": "}", "(": ")", "[": "]"}


class Function(NamedTuple):
    """A function of a source: its name, its contract, its body without the braces, and whether it is of an `impl From`, which
    turns one error into another."""

    name: str
    contract: str
    body: str
    converts: bool


def kind(name: str) -> str:
    """The kind of a crate, as its name says."""
    if name.endswith("_definitions"):
        return "definitions"
    if name.endswith("_laws") or name == GROUND:
        return "laws"
    return "program" if name in PROGRAMS else "code"


def code_of(path: Path) -> str:
    """The text of a source without its comments."""
    return re.sub(COMMENTS.get(path.suffix, r"\Z."), "", path.read_text("utf8"))


def end_of_block(text: str, at: int) -> int:
    """The index after the bracket that closes the one at index `at`."""
    closing: List[str] = []
    for place in range(at, len(text)):
        if text[place] in BRACKETS:
            closing.append(BRACKETS[text[place]])
        elif closing and text[place] == closing[-1]:
            closing.pop()
            if not closing:
                return place + 1
    return len(text)


def functions_of(text: str) -> Iterator[Function]:
    """The functions of the code of a source."""
    conversions = [(block.start(), end_of_block(text, block.end() - 1)) for block in re.finditer(r"(?m)^impl\b[^\n{;]*\bFrom<[^{;]*\{", text)]
    for head in re.finditer(r"\bfn (\w+)", text):
        at, contract = end_of_block(text, text.find("(", head.end())), ""
        while True:
            clause = CLAUSE.match(text, at)
            if clause is None:
                break
            end = end_of_block(text, clause.end() - 1)
            if clause[1] is None:
                converts = any(begin < head.start() < last for begin, last in conversions)
                yield Function(head[1], contract, text[clause.end():end - 1].strip(), converts)
                break
            contract += text[clause.start(1):end]
            at = end


def functions_in(folder: Path) -> List[Function]:
    """The functions of a crate."""
    return [function for path in sorted((folder / "src").rglob("*.rt")) for function in functions_of(code_of(path))]


def named(folder: Path) -> Set[str]:
    """What the files of a crate name, comments left out: imports of definitions and lemmas, and paths of Rust."""
    names: Set[str] = set()
    for path in files_of_crate(folder):
        if path.suffix in COMMENTS:
            text = code_of(path)
            names.update(re.findall(r"\bRattle\.(\w+)\.", text))
            if path.suffix == ".rt":
                names.update(re.findall(r"\b(\w+)::", text), re.findall(r"\buse (\w+)", text))
    return names


def may_name(name: str, below: str) -> bool:
    """Whether a crate's kind lets it stand on another: laws stand on laws and definitions, these on definitions and plain facts."""
    if name == GROUND:
        return False
    if kind(name) not in ("definitions", "laws") or below == GROUND:
        return True
    return kind(below) == "definitions" or kind(below) == kind(name)


def items_of_specs(folder: Path) -> List[Tuple[str, str]]:
    """Each item of the specs/ of a crate: its name and its text, comments left out."""
    items: List[Tuple[str, str]] = []
    for path in sorted((folder / "specs").rglob("*.antt")):
        for text in re.split(r"\n(?=\S)", code_of(path)):
            head = re.match(r"(?:(?:abbrev|unfoldable|opaque|pub|record|data) )*(\w+)", text)
            if head is not None and head[1] != "use":
                items.append((head[1], text))
    return items


def statements(items: Iterable[Tuple[str, str]]) -> List[str]:
    """The names of the public statements among items: propositions without parameters."""
    return [name for name, text in items if re.match(r"(?:(?:abbrev|unfoldable|opaque) )*pub \w+ : Type 0\s*$", text)]


def uncited(folder: Path) -> List[str]:
    """The statements of a law crate that no contract of it cites, also by no other definition that one cites."""
    cited = {word for function in functions_in(folder) for word in re.findall(r"[\w']+", function.contract)}
    items, before = items_of_specs(folder), -1
    while len(cited) > before:
        before = len(cited)
        for name, text in items:
            if name in cited:
                cited.update(re.findall(r"[\w']+", text))
    return [name for name in statements(items) if name not in cited]


def of_another_kind(name: str, folder: Path) -> List[str]:
    """What a crate contains that its kind may not, or lacks that its kind has."""
    functions = functions_in(folder)
    with_body = [function.name for function in functions if function.body]
    if kind(name) == "laws":
        faults = [f"refused: {name}, of the laws, has the function {law} with a body" for law in with_body]
        faults += [f"refused: {name} states {law}, and no contract cites it" for law in uncited(folder)]
        return faults + ([f"refused: {name}, of the laws, has no law"] if not functions and name != GROUND else [])
    if kind(name) == "definitions":
        return [f"refused: {name}, of the definitions, has the function {function.name} with a body" for function in functions
                if function.body and not function.converts]
    return [] if with_body or not functions else [f"refused: {name} has no code, only laws, and its name does not end in _laws"]


def refusals(top: Path, crates: Dict[str, List[str]], with_subject: Iterable[str]) -> List[str]:
    """A line for each thing that is refused, of crates with the names that their lines list."""
    subjects = set(with_subject)
    faults = [f"refused: {name} has no subject in tools/floors.py" for name in crates if name not in subjects]
    faults += [f"refused: {name} has a subject in tools/floors.py, and no line in crates.txt" for name in sorted(subjects - set(crates))]
    for name, below in crates.items():
        folder = top / "crates" / name
        mine = named(folder)
        faults += [f"refused: {name}, of the {kind(name)}, names {other}" for other in below if other in crates and not may_name(name, other)]
        faults += [f"refused: {name} lists {other}, and no file of it names that" for other in below if other not in mine]
        faults += [f"refused: {name} doesn't list {other}, which a file of it names"
                   for other in sorted(mine) if other in crates and other not in [*below, name]]
        faults += of_another_kind(name, folder)
    return faults

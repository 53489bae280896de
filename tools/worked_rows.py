#!/usr/bin/env python3
"""Writes the stored examples of the package, python/trinorm/worked_rows.json, from the rows of the crate `worked_rows`.

    tools/worked_rows.py [--check]

They are in the order of the table of commands, and those of one command in the crate's; last are those that name no command.
tools/further_rows.json has rows that are in no crate: inputs of over 1 MiB, and an input cut at each byte. A question that occurs
again is left out. With --check nothing is written, and the status is 1 if something would be.
"""
from __future__ import annotations

import ast
import json
import re
import sys
from pathlib import Path
from typing import Dict, Iterator, List, NamedTuple, Union

from commands import read_table
from repository import TOP

ROWS = TOP / "python" / "trinorm" / "worked_rows.json"
FURTHER = TOP / "tools" / "further_rows.json"
CRATE = TOP / "crates" / "worked_rows" / "src"
# the exit statuses by their names in the crate
STATUSES = {"Done": 0, "Usage": 2, "Input": 3, "Refused": 4, "Large": 5, "ReadFault": 6, "WriteFault": 7, "NoMemory": 8}
TEXT = r'b"(?:[^"\\]|\\.)*"'
CONSTANT = re.compile(rf"const (\w+): &\[u8\] =\s*({TEXT});", re.S)
ROW = re.compile(rf"RunRow \{{\s*words: &(\[[^\]]*\]),\s*input: ({TEXT}|\w+),\s*status: Status::(\w+),\s*text: ({TEXT}|\w+),\s*\}}", re.S)


class NotFound(Exception):
    """A file of the crate has a row in a form that this tool does not know."""


class Row(NamedTuple):
    """Words and an input, with the output and the status. Texts are latin-1; a long one is a text with a number of times."""

    words: List[str]
    input: Union[str, Dict[str, object]]
    output: str
    status: int

    def question(self) -> str:
        """Words and input, as a text."""
        return json.dumps([self.words, self.input])


def text_of(spelled: str, constants: Dict[str, str]) -> str:
    """The text of a literal, or of the constant with this name."""
    literal = constants.get(spelled, spelled)
    return str(ast.literal_eval(re.sub(r"\\\n\s*", "", literal)).decode("latin-1"))


def rows_of_source(name: str, source: str) -> Iterator[Row]:
    """The rows of a file of the crate. Each field `words:` with a list of literals is a row's."""
    constants, found = dict(CONSTANT.findall(source)), ROW.findall(source)
    if len(found) != len(re.findall(r"\bwords: &\[(?!&str)", source)):
        raise NotFound(f"{name} has rows in a form that is not known")
    for words, given, status, text in found:
        yield Row(ast.literal_eval(words), text_of(given, constants), text_of(text, constants), STATUSES[status])


def every_row(crate: Path, further: Path) -> List[Row]:
    """The rows of the crate and the further ones, each question once."""
    rows = [row for path in sorted(crate.glob("*.rt")) for row in rows_of_source(path.name, path.read_text("utf8"))]
    rows += [Row(**row) for row in json.loads(further.read_text("utf8"))]
    each: Dict[str, Row] = {}
    for row in rows:
        each.setdefault(row.question(), row)
    return list(each.values())


def in_order(rows: List[Row], names: List[str]) -> List[Row]:
    """Rows by command, in the order of these names; those of none are last."""
    index = {name: at for at, name in enumerate(names)}
    return sorted(rows, key=lambda row: index.get("".join(row.words[:1]), len(names)))


def text() -> str:
    """The file as it should be."""
    rows = in_order(every_row(CRATE, FURTHER), [command.name for command in read_table()])
    lines = ",\n".join(json.dumps(row._asdict()) for row in rows)
    return f"[\n{lines}\n]\n"


def main(checking: bool) -> int:
    expected = text()
    if ROWS.is_file() and ROWS.read_text("utf8") == expected:
        return 0
    if not checking:
        ROWS.write_text(expected, "utf8")
    print(f"{'stale' if checking else 'written'}: {ROWS.relative_to(TOP)}")
    return int(checking)


if __name__ == "__main__":
    sys.exit(main("--check" in sys.argv[1:]))

"""What pages say of the sources and a tool can see: numbers between marks, the definitions that the contracts of the program and the
library import, and the stars of law crates that a first build leaves out."""
from __future__ import annotations

import json
import re
from pathlib import Path
from typing import Dict, Iterator, List, Set, Tuple

from repository import crates_of_build, read_crates

PAGES = ("README.md", "CONTRIBUTING.md", "CHANGELOG.md", "paper.md", "docs/*.md")
# the files with the contracts of `run` and of `trinorm_answer`
CONTRACTS = ("crates/workbench/src/dispatch.rt", "crates/trinorm_c/src/lib.rt")
# a number of a page that tools/floors.py writes, as <!--crates-->113<!--/-->
NUMBER = re.compile(r"(<!--([a-z-]+)-->)(.*?)(<!--/-->)")
LAW = re.compile(r"^pub fn \w+\(\)\n(?:    [^\n]*\n|\n)+?\{\}", re.M)


def pages_of(top: Path) -> List[str]:
    """The pages, as paths in the repository."""
    return [path.relative_to(top).as_posix() for pattern in PAGES for path in sorted(top.glob(pattern))]


def numbers(top: Path) -> Dict[str, int]:
    """What is counted, each with its name between marks."""
    crates, built = read_crates(top), crates_of_build(top)
    roots = [top / "crates" / name / "src" / "lib.rt" for name in crates if name.endswith(("_laws", "_definitions"))]
    rows = top / "python" / "trinorm" / "worked_rows.json"
    return {
        "crates": len(crates),
        "built-crates": len(built),
        "edits": len(list(top.glob("crates/*/must-fail/*.edit"))),
        "laws": sum(len(LAW.findall(path.read_text("utf8"))) for path in roots if path.exists()),
        "rows": len(json.loads(rows.read_text("utf8"))) if rows.exists() else 0,
    }


def with_numbers(page: str, counted: Dict[str, int]) -> str:
    """A page with each number between its marks; a name that nothing counts has a question mark."""
    return NUMBER.sub(lambda found: f"{found[1]}{counted.get(found[2], '?')}{found[4]}", page)


def imported(top: Path) -> Iterator[Tuple[str, str]]:
    """Each crate with a file of its specs/, or the name of its enum, that the contracts of the program and the library import."""
    for path in CONTRACTS:
        text = (top / path).read_text("utf8") if (top / path).exists() else ""
        for crate, declared, name in re.findall(r"^ghost use Rattle\.(\w+)\.specs\.(declared\.)?(\w+)", text, re.M):
            if crate != "std":
                yield crate, f"`{name}`" if declared else name


def listed(page: str) -> Set[Tuple[str, str]]:
    """Each crate with a file or an enum that a row of DEFINITIONS names."""
    cells = [cell for line in page.split("\n") if line.startswith("|") for cell in line.split("|")]
    found = [(crate, names) for cell in cells for crate, names in re.findall(r"`(\w+)`: ((?:[^;`]|`\w+`(?!:))+)", cell)]
    return {(crate, name) for crate, names in found for name in re.findall(r"`?\w+`?", names)}


def unlisted(top: Path, page: str) -> List[str]:
    """What the contracts of the program and the library import and DEFINITIONS does not name."""
    there = listed(page)
    return [f"refused: docs/DEFINITIONS.md does not name {name.strip('`')} of {crate}, which a contract of the program or the library imports"
            for crate, name in sorted(set(imported(top)) - there)]


def misnamed(top: Path, page: str) -> List[str]:
    """Files of definitions that a row of DEFINITIONS names and its crate does not have."""
    return [f"refused: docs/DEFINITIONS.md names {name} of {crate}, which has no such file"
            for crate, name in sorted(listed(page)) if name[0].isupper() and not any((top / "crates" / crate / "specs").rglob(f"{name}.antt"))]


def wrong_stars(top: Path, page: str) -> List[str]:
    """Crates of laws and definitions that CLAIMS names with a star although a first build proves them, or without one although it
    does not."""
    known, built = read_crates(top), crates_of_build(top)
    named = {(crate, bool(star)) for crate, star in re.findall(r"`(\w+_(?:laws|definitions))`(\\\*)?", page)}
    return [f"refused: docs/CLAIMS.md names {crate} {'with' if star else 'without'} a star"
            for crate, star in sorted(named) if crate in known and star == (crate in built)]

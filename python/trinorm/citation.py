"""Sentences for a paper, with the version, commit, kit and checksum of this installation."""
from __future__ import annotations

import argparse
import re
from typing import Dict

from . import versions
from .arguments import shown
from .errors import BadArgument, Failed
from .options import coordinates

PRODUCTS, COORDS = ("program", "library"), coordinates("surfaces")
# as docs/CLAIMS.md has it, which a test compares
SENTENCES = """
The list of all vertex normal surfaces of T in {coords} coordinates was computed by trinorm {version} (commit {commit}, SHA-256 of the
{product} {checksum}, Rattle kit {kit}){read}. That it is complete and without repetition is a machine-checked theorem about the
program's source (docs/CLAIMS.md, clause `all_surfaces`). The theorem rests on the definitions cited there, on the prover and
compiler, and on the system. Topological conclusions are ours.
"""
READ = " and read by its Python package, which is tested"


def sentences(product: str = "program", coords: str = "standard") -> str:
    """The sentences that cite a list which the program printed, or which the package computed in its own process by the library.

    Args:
        product: `program` or `library`: what computed the list
        coords: the coordinates of the list: `standard`, `quad` or `octagon`

    Returns:
        The sentences, on one line.

    Raises:
        BadArgument: an argument is not one of these
        Failed: the installation does not know its version, commit, kit or checksum
    """
    for name, given, values in (("product", product, PRODUCTS), ("coords", coords, COORDS)):
        if not isinstance(given, str) or given not in values:
            raise BadArgument(f"{name} must be one of {', '.join(values)}, not {shown(given)}")
    known: Dict[str, str] = dict(re.findall(r"^(\w+) (.+)$", versions.build(), re.MULTILINE))
    facts = {"version": versions.version(), "commit": known.get("commit", ""), "kit": known.get("kit", "").split(" ")[0],
             "checksum": known.get(product, "")}
    missing = [name for name, value in facts.items() if value in ("", "unknown")]
    if missing:
        unknown = " and ".join([", ".join(missing[:-1]), missing[-1]] if missing[1:] else missing)
        raise Failed(f"this installation does not know its {unknown}, so it cannot be cited")
    read = READ if product == "library" else ""
    return " ".join(SENTENCES.split()).format(coords=coords, product=product, read=read, **facts)


def add_arguments(reader: argparse.ArgumentParser) -> None:
    """What the command line takes."""
    reader.add_argument("--coords", choices=COORDS, default="standard",
                        help="coordinates of the list (default: standard)")


def main(given: argparse.Namespace) -> int:
    """Prints the sentences for a list of the program, and for one of the package."""
    print(f"For a list that the program printed:\n\n{sentences('program', given.coords)}\n")
    print(f"For a list that the package computed in its own process, as is usual:\n\n{sentences('library', given.coords)}")
    return 0

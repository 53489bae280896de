#!/usr/bin/env python3
"""Makes web/names.json, the names of manifolds that the page knows, each with the signature of a triangulation.

    tools/names.py [FOLDER]

The names and triangulations are those of the censuses that Debian's package regina-normal has; FOLDER is its folder of
examples. It needs a Python with Regina.
"""
from __future__ import annotations

import importlib
import json
import sys
from pathlib import Path
from typing import Any, Dict, Iterator, List, Tuple

from repository import TOP

NAMES = TOP / "web" / "names.json"
EXAMPLES = Path("/usr/share/regina-normal/examples")
MOST_TETRAHEDRA = 6
# sections of the SnapPea census of up to six tetrahedra: the letter of its names, and how many manifolds it has
SECTIONS = {"SEC_5": ("m", 415), "SEC_6_OR": ("s", 962), "SEC_6_NOR": ("x", 259)}
ABOUT = ["Names of 3-manifolds and the signature of a triangulation of each, of up to six tetrahedra; tools/names.py makes this file.",
         "A family says what its names mean. Closed manifolds have the first triangulation that Regina's census lists."]


def cusped(regina: Any) -> Iterator[Tuple[str, str]]:
    """The names of the SnapPea census, each with the signature of its triangulation."""
    kind = regina.SnapPeaCensusManifold
    for section, (letter, count) in SECTIONS.items():
        for index in range(count):
            yield f"{letter}{index:03}", kind(getattr(kind, section), index).construct().isoSig()


def packets(regina: Any, path: Path) -> Iterator[Any]:
    """The packets of a Regina file."""
    tree = packet = regina.open(str(path))  # its packets last as long as the tree
    while packet:
        yield packet
        packet = packet.nextTreePacket()
    del tree


def closed(regina: Any, path: Path) -> Iterator[Tuple[str, str]]:
    """The names of a census of closed manifolds, each with the signature of the first triangulation."""
    for packet in packets(regina, path):
        name, _, number = packet.label().partition(" : ")
        if number == "#1" and packet.size() <= MOST_TETRAHEDRA:
            yield name, packet.isoSig()


def families(regina: Any, examples: Path) -> List[Dict[str, object]]:
    """The families of names, each with its meaning."""
    orientable = dict(closed(regina, examples / "closed-or-census.rga"))
    lens = {name: signature for name, signature in orientable.items() if name.startswith("L(")}
    not_orientable = dict(closed(regina, examples / "closed-nor-census.rga"))
    others = {name: signature for name, signature in orientable.items() if name not in lens}
    return [
        {"means": "a cusped hyperbolic manifold of the SnapPea census", "names": dict(cusped(regina))},
        {"means": "a lens space", "names": lens},
        {"means": "a closed orientable manifold, as Regina's census writes it", "names": others},
        {"means": "a closed non-orientable manifold, as Regina's census writes it", "names": not_orientable},
    ]


def text(examples: Path = EXAMPLES) -> str:
    """The file."""
    regina = importlib.import_module("regina")
    return json.dumps({"about": ABOUT, "families": families(regina, examples)}, indent=0, ensure_ascii=True) + "\n"


def main(words: List[str]) -> None:
    NAMES.write_text(text(Path(words[0]) if words else EXAMPLES), "utf8")


if __name__ == "__main__":
    main(sys.argv[1:])

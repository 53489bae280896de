#!/usr/bin/env python3
"""Writes python/trinorm/endings.txt: for each 3-sphere of up to three tetrahedra that moves join to the standard one
without more than five tetrahedra, moves that lead to it.

    bench/endings.py

They are found from the standard sphere, breadth first, and turned round. What the file says is checked by the tests: `check`
has to accept each line.
"""
import collections
import sys
from pathlib import Path
from typing import Deque, Dict, Iterator, List, NamedTuple, Optional, Tuple

TOP = Path(__file__).resolve().parents[1]
sys.path.insert(0, str(TOP / "python"))

from trinorm.pachner import CORES, Alike, Move, Triangulation, labelling  # noqa: E402
from trinorm.tables import Table  # noqa: E402

MOST, LISTED = 5, 3


class Way(NamedTuple):
    """A triangulation, the move that leads one step towards the standard sphere, and where it leads."""
    here: Triangulation
    back: Optional[Tuple[int, Tuple[int, ...]]]
    to: Optional["Way"]


def moves(t: Triangulation) -> Iterator[Move]:
    """The legal moves that lead to few enough tetrahedra."""
    for tet in list(t.order):
        for size, cores in CORES.items():
            for core in cores if len(t) + 2 * size - 5 <= MOST else ():
                move = t.move(tet, core)
                if move is not None:
                    yield move


def ways() -> List[Way]:
    """Each triangulation that is reached, once."""
    standard = Triangulation.of(Table.parse("tri 1\n0:1023 0:1023 0:1230 0:3012\n"))
    assert standard is not None
    found: Dict[object, Way] = {labelling(standard).form: Way(standard, None, None)}
    waiting: Deque[Way] = collections.deque(found.values())
    while waiting:
        way = waiting.popleft()
        for move in moves(way.here):
            made = way.here.copy()
            new = made.play(move)
            form = labelling(made).form
            if form not in found:
                # the vertices of the first new facet that have the labels of no core
                core = tuple(range(len(move.core) - 1, 4))
                found[form] = Way(made, (new[0], core), way)
                waiting.append(found[form])
    return list(found.values())


def path(way: Way) -> List[str]:
    """The moves to the standard sphere."""
    at, said = way.here.copy(), []
    while way.to is not None and way.back is not None:
        # the move is one of `way.here`, and `at` is isomorphic to it
        here = way.here.copy()
        alike = Alike(here, at, (labelling(here), labelling(at)))
        move = here.move(*way.back)
        assert move is not None
        said.append(alike.play(move))
        way = way.to
    return said


def line(way: Way) -> str:
    rows = str(way.here.table()).splitlines()[1:]
    return f"{'; '.join(rows)} = {', '.join(path(way))}"


def main() -> None:
    listed = [line(it) for it in ways() if len(it.here) <= LISTED]
    (TOP / "python" / "trinorm" / "endings.txt").write_text("".join(f"{it.rstrip()}\n" for it in listed), encoding="ascii")


if __name__ == "__main__":
    main()

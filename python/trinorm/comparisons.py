"""Vertex surfaces by Regina and by the program, and what differs."""
from __future__ import annotations

from dataclasses import dataclass
from typing import Dict, List, Optional, Sequence

from . import commands
from .commands import Program
from .options import Coords
from .regina_surfaces import COORDS, checked_coordinates, vertex_surfaces
from .results import Vector, vector_line
from .tables import Triangulation


@dataclass(frozen=True)
class Comparison:
    """The lists of vertex surfaces of both programs.

    Attributes:
        trinorm, regina: how many vertex surfaces each lists
        trinorm_alone, regina_alone: those that are in one list only

    >>> from trinorm.comparisons import compare  # needs regina
    >>> compare("bkaagj")["quad"]
    Comparison(trinorm=1, regina=1, trinorm_alone=[], regina_alone=[])
    """
    trinorm: int
    regina: int
    trinorm_alone: Sequence[Vector]
    regina_alone: Sequence[Vector]

    @property
    def is_same(self) -> bool:
        return self.trinorm == self.regina and not self.trinorm_alone

    def lines(self, name: str) -> List[str]:
        """A line that says whether the lists are the same, and a line for each vector that is in one of them alone."""
        if self.is_same:
            return [f"{name}: the same {self.trinorm}"]
        alone = [("trinorm", it) for it in self.trinorm_alone] + [("Regina", it) for it in self.regina_alone]
        return [f"{name}: trinorm {self.trinorm}, Regina {self.regina}",
                *(f"  {whose} only: {vector_line(vector)}" for whose, vector in alone)]


def compare(t: Triangulation, coords: Optional[Coords] = None, *,
            timeout: Optional[float] = None, program: Program = None) -> Dict[str, Comparison]:
    """The vertex surfaces of a triangulation by this program and by Regina.

    Args:
        t: the triangulation
        coords: `standard`, `quad` or `octagon`; by default all three
        timeout, program: as for `surfaces`

    Returns:
        A `Comparison` for each of the coordinates, by their name.

    Raises:
        Refused: the triangulation is not a gluing table
        BadArgument, Failed, TimedOut: as for `surfaces`; `Failed` also if this Python has no module regina

    >>> from trinorm.comparisons import compare  # needs regina
    >>> [(name, found.is_same) for name, found in compare("cPcbbbiht").items()]
    [('standard', True), ('quad', True), ('octagon', True)]
    """
    names = list(COORDS) if coords is None else [checked_coordinates(coords)]
    table = commands.table(t, timeout=timeout, program=program)
    theirs = table.to_regina()
    compared: Dict[str, Comparison] = {}
    for name in names:
        ours = commands.surfaces(table, name, timeout=timeout, program=program)
        compared[name] = _compared(ours, vertex_surfaces(theirs, name))
    return compared


def _compared(ours: List[Vector], theirs: List[Vector]) -> Comparison:
    in_theirs, in_ours = set(theirs), set(ours)
    return Comparison(len(ours), len(theirs), [vector for vector in ours if vector not in in_theirs],
                      [vector for vector in theirs if vector not in in_ours])

"""Triangulations and normal surfaces as values of Regina's, which is imported only where one is made."""
from __future__ import annotations

from typing import Any, List, Sequence

from . import commands
from .arguments import shown, whole_numbers
from .errors import BadArgument
from .options import Coords
from .regina_vectors import (COORDS as COORDS, ReginaSurface as ReginaSurface, checked_coordinates as checked_coordinates,  # noqa: F401
                             is_surface as is_surface, vector_of as vector_of)
from .results import Vector
from .tables import Table, Triangulation, import_regina, is_of_regina


def in_regina(coords: Coords) -> Any:
    """Regina's value for these coordinates."""
    return getattr(import_regina(), COORDS[checked_coordinates(coords)])


def normal_surface(t: Triangulation, vector: Sequence[int], coords: Coords = "standard") -> Any:
    """The normal surface of Regina with a vector.

    Args:
        t: a `regina.Triangulation3`, or a triangulation in any other form, which is converted first
        vector: a list of whole numbers of at least 0, as long as the coordinates have columns
        coords: `standard`, `quad` or `octagon`

    Returns:
        A `regina.NormalSurface`.

    Raises:
        Refused: the triangulation is not a gluing table
        BadArgument: an argument is invalid
        Failed: this Python has no module regina

    >>> import trinorm  # needs regina
    >>> trinorm.normal_surface("bkaagj", (0, 0, 1, 1, 0, 0, 0, 1, 0, 0), "octagon").eulerChar()
    2
    """
    there = to_regina(t)
    width = {"standard": 7, "quad": 3, "octagon": 10}[checked_coordinates(coords)] * there.size()
    expected = f"expected a vector of {width} whole numbers of at least 0"
    entries = whole_numbers(vector, expected)
    if len(entries) != width or min(entries, default=0) < 0:
        raise BadArgument(f"{expected}, not {shown(vector)}")
    regina = import_regina()
    return regina.NormalSurface(there, in_regina(coords), [regina.LargeInteger(str(entry)) for entry in entries])


def to_regina(t: Triangulation) -> Any:
    """A triangulation in any form as a triangulation of Regina, with the same numbers of tetrahedra, faces and vertices.

    Args:
        t: the triangulation

    Returns:
        A `regina.Triangulation3`; `t` itself if it is one.

    Raises:
        Refused: the triangulation is not a gluing table
        BadArgument: it is not a triangulation
        Failed: this Python has no module regina

    >>> import trinorm  # needs regina
    >>> trinorm.to_regina("cPcbbbiht").isoSig()
    'cPcbbbiht'
    """
    if is_of_regina(t):
        return t
    if isinstance(t, Table):
        return t.to_regina()
    return commands.table(t).to_regina()


def vertex_surfaces(t: Triangulation, coords: Coords = "standard") -> List[Vector]:
    """The vertex surfaces that Regina lists.

    Args:
        t: the triangulation
        coords: `standard`, `quad` or `octagon`

    Returns:
        A list of vectors in lexicographic order, as `surfaces` returns them.

    Raises:
        Refused: the triangulation is not a gluing table
        BadArgument: an argument is invalid
        Failed: this Python has no module regina

    >>> import trinorm  # needs regina
    >>> trinorm.regina_surfaces.vertex_surfaces("bkaagj") == trinorm.surfaces("bkaagj")
    True
    """
    found = import_regina().NormalSurfaces(to_regina(t), in_regina(coords))
    return sorted(vector_of(surface, coords) for surface in found)

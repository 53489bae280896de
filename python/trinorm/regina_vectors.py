"""The vectors of Regina's normal surfaces. Regina is not imported for them."""
from __future__ import annotations

from typing import TYPE_CHECKING, Any, Dict, List, Protocol

from .arguments import shown
from .errors import BadArgument
from .options import Coords
from .results import Vector

if TYPE_CHECKING:
    from typing_extensions import TypeGuard

# Regina's names of the coordinates, for vertex surfaces and for vectors
COORDS: Dict[Coords, str] = {"standard": "NS_STANDARD", "quad": "NS_QUAD", "octagon": "NS_AN_STANDARD"}


class ReginaSurface(Protocol):
    """A `regina.NormalSurface`."""

    def triangulation(self) -> Any:
        """The triangulation that it lies in."""

    def triangles(self, tet: int, vertex: int) -> Any:
        """How many triangles it has there."""

    def quads(self, tet: int, kind: int) -> Any:
        """How many quads it has there."""

    def octs(self, tet: int, kind: int) -> Any:
        """How many octagons it has there."""


def checked_coordinates(coords: Coords) -> Coords:
    """One of `standard`, `quad` and `octagon`."""
    if not isinstance(coords, str) or coords not in COORDS:
        raise BadArgument(f"coords must be one of {', '.join(COORDS)}, not {shown(coords)}")
    return coords


def is_surface(value: object) -> TypeGuard[ReginaSurface]:
    """Whether a value is a `regina.NormalSurface`."""
    return callable(getattr(value, "triangles", None)) and callable(getattr(value, "quads", None)) and not isinstance(value, type)


def vector_of(surface: ReginaSurface, coords: Coords = "standard") -> Vector:
    """The vector of a normal surface of Regina.

    Args:
        surface: a `regina.NormalSurface`. It may be spun-normal in quad coordinates only
        coords: `standard`, `quad` or `octagon`

    Returns:
        A tuple of whole numbers.

    Raises:
        BadArgument: an argument is invalid, or the surface has infinitely many triangles

    >>> import regina, trinorm  # needs regina
    >>> surface = regina.NormalSurfaces(regina.Triangulation3.fromIsoSig("bkaagj"), regina.NS_QUAD)[0]
    >>> trinorm.vector_of(surface, "quad")
    (1, 0, 0)
    """
    if not is_surface(surface):
        raise BadArgument(f"expected a regina.NormalSurface, not {shown(surface)}")
    checked_coordinates(coords)
    entries: List[object] = []
    for tet in range(surface.triangulation().size()):
        if coords != "quad":
            entries += [surface.triangles(tet, vertex) for vertex in range(4)]
        entries += [surface.quads(tet, kind) for kind in range(3)]
        if coords == "octagon":
            entries += [surface.octs(tet, kind) for kind in range(3)]
    return tuple(map(_number, map(str, entries)))


def _number(text: str) -> int:
    """An entry of Regina's, which may be infinite."""
    try:
        return int(text)
    except ValueError:
        raise BadArgument("this surface is spun-normal; it has infinitely many triangles, and a vector in quad "
                          "coordinates only") from None

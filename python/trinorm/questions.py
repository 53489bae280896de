"""Questions that are asked of all vertex surfaces of a triangulation at once: spheres, tori, 0-efficiency, and counts.

They use numbers alone: a sphere is a connected surface without boundary and of Euler characteristic 2. Lists may have any
length: `describe` reads them in several inputs (see `parts`). Each function takes `timeout`, in seconds for all of its runs
together, and `program` as those of `commands` do.
"""
from __future__ import annotations

import collections
import itertools
import warnings
from dataclasses import dataclass
from typing import (Any, Callable, Counter, Dict, Iterable, Iterator, List, Literal, NamedTuple, Optional, Tuple, Union,
                    overload)

from . import arrays as numpy_arrays, commands
from .answers import is_yes, read_surfaces, read_vector
from .arguments import shown
from .commands import Arrays
from .errors import BadArgument
from .html_tables import Shown
from .options import Coords, WithTriangles, words
from .parts import Answers, Clock
from .program import Program
from .progress import Progress, reported
from .results import Component, Info, Surface, Vector
from .tables import Triangulation, document


Kind = Literal["closed", "ideal", "bounded", "invalid"]


@dataclass(frozen=True, eq=False)
class ZeroEfficiency:
    """The verdict of `zero_efficient`, which is true or false, and equal to True or False.

    Attributes:
        witness: None if it is true. Otherwise a listed surface of positive Euler characteristic that is not a vertex link: a sphere, a
            projective plane or a disc, in standard coordinates
        kind: `invalid` if a vertex link has boundary and is not a disc, so that this is not a manifold; else `bounded` if there is a
            boundary face; else `closed` if all vertex links are spheres; else `ideal`. What may be concluded depends on it
        orientable: whether the triangulation is orientable

    >>> import trinorm
    >>> trinorm.zero_efficient("bkaagj")
    ZeroEfficiency(witness=None, kind='closed', orientable=True)
    """
    witness: Optional[Surface]
    kind: Kind
    orientable: bool

    def __bool__(self) -> bool:
        return self.witness is None

    def __eq__(self, other: object) -> bool:
        if isinstance(other, bool):
            return bool(self) == other
        if not isinstance(other, ZeroEfficiency):
            return NotImplemented
        return (self.witness, self.kind, self.orientable) == (other.witness, other.kind, other.orientable)

    def __hash__(self) -> int:
        return hash(bool(self))

    @property
    def surface(self) -> Surface:
        """Deprecated: `witness`."""
        return self._named("surface", "witness")

    @property
    def vector(self) -> Vector:
        """Deprecated: `witness.vector`."""
        return self._named("vector", "witness.vector").vector

    @property
    def euler(self) -> int:
        """Deprecated: `witness.euler`."""
        return self._named("euler", "witness.euler").euler

    @property
    def linking(self) -> bool:
        """Deprecated: `witness.linking`, which is False."""
        return self._named("linking", "witness.linking").linking

    @property
    def boundary(self) -> bool:
        """Deprecated: `witness.boundary`."""
        return self._named("boundary", "witness.boundary").boundary

    @property
    def components(self) -> Tuple[Component, ...]:
        """Deprecated: `witness.components`."""
        return self._named("components", "witness.components").components

    def _named(self, old: str, new: str) -> Surface:
        """The witness under an old name."""
        if self.witness is None:
            raise AttributeError(f"the verdict is true, so there is no witness and no {old}")
        warnings.warn(f"`.{old}` is deprecated; write `.{new}`", DeprecationWarning, stacklevel=3)
        return self.witness


@dataclass(frozen=True)
class Count:
    """How many vertex surfaces there are.

    Attributes:
        surfaces: their number
        euler: how many have each Euler characteristic, in descending order
        linking: how many are vertex links: those without quads and octagons
        greatest: the greatest entry of all

    >>> import trinorm
    >>> trinorm.count("bkaagj")
    Count(surfaces=2, euler={2: 1, 0: 1}, linking=1, greatest=1)
    """
    surfaces: int
    euler: Dict[int, int]
    linking: int
    greatest: int


@dataclass(frozen=True, eq=False)
class CountArrays:
    """A `Count` with arrays.

    Attributes:
        surfaces, linking, greatest: as for `Count`
        euler: the Euler characteristics in descending order
        number: how many surfaces have each of these

    >>> import trinorm  # needs numpy
    >>> found = trinorm.count("bkaagj", arrays=True)
    >>> found.euler.tolist(), found.number.tolist()
    ([2, 0], [1, 1])
    """
    surfaces: int
    euler: Any
    number: Any
    linking: int
    greatest: int

    @property
    def columns(self) -> Dict[str, Any]:
        """Both arrays, as `pandas.DataFrame` takes them."""
        return {"euler": self.euler, "surfaces": self.number}


class _Numbers(NamedTuple):
    """What a count takes from one surface."""
    euler: int
    linking: bool
    greatest: int


def _read_numbers(lines: List[str]) -> List[_Numbers]:
    greatest = [max(read_vector(line), default=0) for line in lines if line.startswith("vec")]
    surfaces = [line.split() for line in lines if line.startswith("euler")]
    if len(greatest) != len(surfaces):
        raise ValueError("a line is missing")
    return [_Numbers(int(it[1]), is_yes(it[3]), most) for it, most in zip(surfaces, greatest)]


def _described(t: Triangulation, coords: Coords, read: Callable[[List[str]], Answers], clock: Clock,
               program: Program) -> Iterator[Answers]:
    """What `describe` says of each vertex surface, read part by part."""
    asked, head = words("describe", coords=coords), document(t)
    listed = commands.listing(head, coords, timeout=clock.left(), program=program)
    return commands.ask_in_parts(asked, head + listed, read, clock, program)


@overload
def described(t: Triangulation, coords: WithTriangles = ..., *, timeout: Optional[float] = ..., program: Program = ...,
              progress: Optional[Progress] = ..., arrays: Literal[False] = ...) -> List[Surface]: ...


@overload
def described(t: Triangulation, coords: WithTriangles = ..., *, timeout: Optional[float] = ..., program: Program = ...,
              progress: Optional[Progress] = ..., arrays: Union[Literal[True], str]) -> numpy_arrays.Described: ...


def described(t: Triangulation, coords: WithTriangles = "standard", *, timeout: Optional[float] = None, program: Program = None,
              progress: Optional[Progress] = None, arrays: Arrays = False) -> Union[List[Surface], numpy_arrays.Described]:
    """What `describe` returns for each vertex surface.

    Args:
        t: the triangulation
        coords: `standard` or `octagon`
        timeout, program, progress: as for `surfaces`; the time limit is one for the whole call
        arrays: as for `describe`

    Returns:
        A list of `Surface`; or a `Described`.

    Raises:
        Refused: the triangulation is not a gluing table, has an edge that is identified with itself in reverse, or a number exceeds
            the limit
        BadArgument, Failed, TimedOut: as for `surfaces`

    >>> import trinorm
    >>> [(surface.vector, surface.euler) for surface in trinorm.described("bkaagj")]
    [((1, 1, 0, 0, 1, 0, 0), 0), ((1, 1, 1, 1, 0, 0, 0), 2)]
    """
    clock, program = Clock(timeout), reported(program, progress)
    if arrays is False:
        return Shown(itertools.chain.from_iterable(_described(t, coords, read_surfaces, clock, program)))

    asked, head, kind = words("describe", coords=coords), document(t), numpy_arrays.integer_type(arrays)
    listed = commands.listing(head, coords, timeout=clock.left(), program=program)
    return commands.described_arrays(asked, head + listed, kind, clock, program)


@overload
def count(t: Triangulation, coords: WithTriangles = ..., *, timeout: Optional[float] = ..., program: Program = ...,
          progress: Optional[Progress] = ..., arrays: Literal[False] = ...) -> Count: ...


@overload
def count(t: Triangulation, coords: WithTriangles = ..., *, timeout: Optional[float] = ..., program: Program = ...,
          progress: Optional[Progress] = ..., arrays: Literal[True]) -> CountArrays: ...


def count(t: Triangulation, coords: WithTriangles = "standard", *, timeout: Optional[float] = None, program: Program = None,
          progress: Optional[Progress] = None, arrays: bool = False) -> Union[Count, CountArrays]:
    """Counts the vertex surfaces, without keeping them in memory.

    In octagon coordinates the list has vectors without octagons, vectors with one octagon, and vectors with several of one type:
    only those with one are octagonal almost normal surfaces.

    Args:
        t: the triangulation
        coords: `standard` or `octagon`
        timeout, program, progress: as for `described`
        arrays: True for a `CountArrays`

    Returns:
        A `Count`, or a `CountArrays`.

    Raises:
        Refused: as for `described`
        BadArgument, Failed, TimedOut: as for `surfaces`

    >>> import trinorm
    >>> trinorm.count("bkaagj").euler
    {2: 1, 0: 1}
    """
    if not isinstance(arrays, bool):
        raise BadArgument(f"arrays must be True or False, not {shown(arrays)}")
    if arrays:
        numpy_arrays.integer_type(True)  # fails without NumPy, before the list is asked
    by_euler: Counter[int] = collections.Counter()
    surfaces = linking = greatest = 0
    for part in _described(t, coords, _read_numbers, Clock(timeout), reported(program, progress)):
        by_euler.update(it.euler for it in part)
        surfaces += len(part)
        linking += sum(it.linking for it in part)
        greatest = max(greatest, max((it.greatest for it in part), default=0))
    in_order = sorted(by_euler.items(), reverse=True)
    if not arrays:
        return Count(surfaces, dict(in_order), linking, greatest)
    import numpy
    euler, number = (numpy.array(column, numpy.int64) for column in (zip(*in_order) if in_order else ((), ())))
    return CountArrays(surfaces, euler, number, linking, greatest)


def spheres(t: Triangulation, *, timeout: Optional[float] = None, program: Program = None,
            progress: Optional[Progress] = None) -> List[Surface]:
    """The vertex surfaces that are spheres, but not vertex links. A projective plane is not listed, though its double is a sphere.

    Args:
        t: the triangulation
        timeout, program, progress: as for `described`

    Returns:
        A list of `Surface`, in standard coordinates.

    Raises:
        Refused: as for `described`
        BadArgument, Failed, TimedOut: as for `surfaces`

    >>> import trinorm
    >>> trinorm.spheres("eLMkabcddbrrag")
    []
    """
    return Shown(it for it in described(t, timeout=timeout, program=program, progress=progress)
                 if it.euler == 2 and not it.linking and not it.boundary)


def tori(t: Triangulation, *, timeout: Optional[float] = None, program: Program = None,
         progress: Optional[Progress] = None) -> List[Surface]:
    """The vertex surfaces that are tori, but not vertex links. A Klein bottle is not listed, though its double may be a torus.

    Args:
        t: the triangulation
        timeout, program, progress: as for `described`

    Returns:
        A list of `Surface`, in standard coordinates.

    Raises:
        Refused: as for `described`
        BadArgument, Failed, TimedOut: as for `surfaces`

    >>> import trinorm
    >>> len(trinorm.tori("eLMkabcddbrrag"))
    2
    """
    return Shown(it for it in described(t, timeout=timeout, program=program, progress=progress)
                 if it.euler == 0 and not it.linking and not it.boundary and it.components[0].orientable)


def _witness(parts: Iterable[List[Surface]]) -> Optional[Surface]:
    """The first of these surfaces that has positive Euler characteristic and is no vertex link."""
    surfaces = itertools.chain.from_iterable(parts)
    return next((it for it in surfaces if it.euler > 0 and not it.linking), None)


def _by_list(text: str, clock: Clock, program: Program) -> Optional[Surface]:
    """0-efficiency by the list in standard coordinates (`parts_decide_efficiency`). Returns the witness against it."""
    return _witness(_described(text, "standard", read_surfaces, clock, program))


def _by_quads(text: str, clock: Clock, program: Program) -> Optional[Surface]:
    """0-efficiency by the lifts of the quad list, if all vertex links are spheres or discs (`described_lifts_decide_efficiency`).
    Returns the witness against it."""
    listed = commands.listing(text, "quad", timeout=clock.left(), program=program)
    lifts = commands.ask_in_parts(["lift"], text + listed, lambda lines: lines, clock, program)
    lifted = "".join(f"{line}\n" for line in itertools.chain.from_iterable(lifts))
    return _witness(commands.ask_in_parts(["describe"], text + lifted, read_surfaces, clock, program))


def _kind_of(info: Info) -> Kind:
    """Whether a triangulation is closed, ideal, bounded or invalid."""
    if not all(it.valid for it in info.edges) or any(not it.closed and it.kind != "disc" for it in info.vertices):
        return "invalid"
    if not info.closed:
        return "bounded"
    return "closed" if all(it.kind == "sphere" for it in info.vertices) else "ideal"


def zero_efficient(t: Triangulation, *, timeout: Optional[float] = None, program: Program = None,
                   progress: Optional[Progress] = None) -> ZeroEfficiency:
    """True if each connected normal surface of positive Euler characteristic is a vertex link; else false, with a listed surface that
    is not one: a sphere, a projective plane or a disc.

    That lists decide this is proved. If all vertex links are spheres or discs and all edges are valid, the far shorter quad list is
    used, with its lifts; otherwise the list in standard coordinates. For a closed orientable triangulation it is the 0-efficiency of
    Jaco and Rubinstein: each normal sphere is a vertex link. In a non-orientable one, a two-sided projective plane counts too, though
    its double is not a sphere. With boundary, Jaco and Rubinstein ask this of normal discs alone, and Regina's `isZeroEfficient()`
    also returns false if a boundary component is a sphere; here spheres, projective planes and discs count. A list in octagon
    coordinates decides another property: a sphere with an octagon is not a vertex link, and 0-efficient triangulations of the 3-sphere
    have one.

    Args:
        t: the triangulation
        timeout, program, progress: as for `described`

    Returns:
        A `ZeroEfficiency`, which is true or false.

    Raises:
        Refused: as for `described`
        BadArgument, Failed, TimedOut: as for `surfaces`

    >>> import trinorm
    >>> shown = trinorm.zero_efficient("eLMkabcddbrrag")
    >>> bool(shown), shown.kind, shown.witness.euler
    (False, 'closed', 1)
    """
    text, clock = document(t), Clock(timeout)
    program = reported(program, progress)
    info = commands.info(text, timeout=clock.left(), program=program)
    has_lifts = all(it.kind in ("sphere", "disc") for it in info.vertices) and all(it.valid for it in info.edges)
    witness = (_by_quads if has_lifts else _by_list)(text, clock, program)
    return ZeroEfficiency(witness, _kind_of(info), info.orientable)

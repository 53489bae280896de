"""The functions of a triangulation as methods of `Table`; tools/methods.py writes this file.

The functions need tables, so they are not imported here: the package hands them over by `offer` once it has loaded them.
"""
from __future__ import annotations

from typing import TYPE_CHECKING, Any, Callable, Dict, Iterable, List, Literal, Optional, Union, cast, overload

if TYPE_CHECKING:
    from .arrays import Described
    from .certificates import Certificate
    from .commands import Arrays, GivenVector, Vectors
    from .options import Coords, Order, WithTriangles
    from .program import Program
    from .progress import Progress
    from .questions import Count, CountArrays, ZeroEfficiency
    from .results import Accepted, Cover, Descent, Info, Isomorphism, Played, Presentation, Sum, Surface, Vector, Verdict
    from .tables import Table, Triangulation

# the functions that were offered, by their names
_functions: Dict[str, Callable[..., object]] = {}


def offer(*functions: Callable[..., object], picture: Callable[[Table], str]) -> None:
    """Makes functions of a triangulation methods of tables, by their names.

    Args:
        functions: those that are methods
        picture: draws a table for a notebook
    """
    _functions.update({function.__name__: function for function in functions}, picture=picture)


class TableMethods:
    """What a `Table` has as methods."""

    def _repr_svg_(self) -> str:
        """What a notebook shows: the face-pairing graph."""
        return cast("str", _functions["picture"](self))

    @overload
    def surfaces(self, coords: Coords = ..., order: Optional[Order] = ..., max_entry: Optional[int] = ..., *,
                 timeout: Optional[float] = ..., program: Program = ..., progress: Optional[Progress] = ...,
                 arrays: Literal[False] = ...) -> List[Vector]: ...

    @overload
    def surfaces(self, coords: Coords = ..., order: Optional[Order] = ..., max_entry: Optional[int] = ..., *,
                 timeout: Optional[float] = ..., program: Program = ..., progress: Optional[Progress] = ...,
                 arrays: Union[Literal[True], str]) -> Any: ...

    def surfaces(self, coords: Coords = "standard", order: Optional[Order] = None, max_entry: Optional[int] = None, *,
                 timeout: Optional[float] = None, program: Program = None, progress: Optional[Progress] = None,
                 arrays: Arrays = False) -> Any:
        """All vertex normal surfaces, each once, in lexicographic order.

        Args:
            coords: `standard`, `quad` or `octagon`
            order: the order in which the equations are processed: `given` (the default), `short` or `zeros`. The list does not depend on
                it; time and memory do
            max_entry: the greatest number that may occur in the calculation; 2^127 - 1 by default
            timeout: seconds, after which the call ends with `TimedOut`
            program: the path of a program, or a `trinorm.server.Server`; by default the program that `find` finds, or its library
            progress: a function that is called about ten times a second with the seconds since the call began and the bytes that it
                holds. An exception that it raises ends the call
            arrays: True for an array of NumPy with a row for each vector, of type `int64`, or `object` if an entry exceeds that; or
                the name of an integer type, such as `int8`

        Returns:
            A list of tuples of whole numbers, with 7, 3 or 10 entries for each tetrahedron; or an array.

        Raises:
            Refused: the triangulation is not a gluing table, or a number exceeds `max_entry`
            BadArgument: an argument is invalid, or an entry does not fit into the type of the array
            Failed: the program was not found, was killed, or ran out of memory; `TimedOut` if it ran out of time

        >>> import trinorm
        >>> trinorm.table("bkaagj").surfaces()
        [(1, 1, 0, 0, 1, 0, 0), (1, 1, 1, 1, 0, 0, 0)]
        >>> trinorm.table("bkaagj").surfaces("quad")
        [(1, 0, 0)]
        """
        return _functions["surfaces"](self, coords, order, max_entry, timeout=timeout, program=program, progress=progress, arrays=arrays)

    def verify(self, vectors: Vectors, coords: Coords = "standard", *, timeout: Optional[float] = None,
               program: Program = None) -> List[Verdict]:
        """For each vector, whether it is an admissible solution, or what fails first. In standard coordinates these are the vectors of
        normal surfaces.

        Args:
            vectors: a list of any length
            coords: `standard`, `quad` or `octagon`
            timeout, program: as for `surfaces`

        Returns:
            A list of `Verdict`, one for each vector, which are true or false.

        Raises:
            Refused: the triangulation is not a gluing table, or an entry is negative
            BadArgument, Failed, TimedOut: as for `surfaces`

        >>> import trinorm
        >>> [verdict.kind for verdict in trinorm.table("bkaagj").verify([(1, 1, 0, 0, 1, 0, 0), (1, 1, 0, 0, 1, 1, 0)])]
        ['solution', 'fails']
        """
        return cast("List[Verdict]", _functions["verify"](self, vectors, coords, timeout=timeout, program=program))

    def info(self, *, timeout: Optional[float] = None, program: Program = None) -> Info:
        """The skeleton: vertices with their links, edges with their degrees, orientability, boundary, Euler characteristic.

        Args:
            timeout, program: as for `surfaces`

        Returns:
            An `Info`.

        Raises:
            Refused: the triangulation is not a gluing table
            BadArgument, Failed, TimedOut: as for `surfaces`

        >>> import trinorm
        >>> skeleton = trinorm.table("cPcbbbiht").info()
        >>> skeleton.tetrahedra, skeleton.euler, [vertex.kind for vertex in skeleton.vertices]
        (2, 1, ['torus'])
        """
        return cast("Info", _functions["info"](self, timeout=timeout, program=program))

    def sig(self, *, timeout: Optional[float] = None, program: Program = None) -> str:
        """The isomorphism signature of a connected triangulation: connected triangulations have the same if and only if they are isomorphic.

        Args:
            timeout, program: as for `surfaces`

        Returns:
            A string.

        Raises:
            Refused: the triangulation is not connected, or not a gluing table
            BadArgument, Failed, TimedOut: as for `surfaces`

        >>> import trinorm
        >>> trinorm.table("tri 1\\n0:1023 0:1023 0:1230 0:3012").sig()
        'bkaagj'
        """
        return cast("str", _functions["sig"](self, timeout=timeout, program=program))

    def csig(self, *, timeout: Optional[float] = None, program: Program = None) -> str:
        """The signatures of the components of a triangulation.

        Args:
            timeout, program: as for `surfaces`

        Returns:
            A string: the signatures in ascending order, separated by full stops.

        Raises:
            Refused: the triangulation is not a gluing table
            BadArgument, Failed, TimedOut: as for `surfaces`

        >>> import trinorm
        >>> trinorm.table(["- - - -", "1:1023 1:1023 1:1230 1:3012"]).csig()
        'baa.bkaagj'
        """
        return cast("str", _functions["csig"](self, timeout=timeout, program=program))

    def same(self, other: Triangulation, *, timeout: Optional[float] = None, program: Program = None) -> Optional[Isomorphism]:
        """An isomorphism from one connected triangulation to another.

        Args:
            other: a triangulation
            timeout, program: as for `surfaces`

        Returns:
            An `Isomorphism`, or None if the triangulations are not isomorphic.

        Raises:
            Refused: a triangulation is not connected, or not a gluing table
            BadArgument, Failed, TimedOut: as for `surfaces`

        >>> import trinorm
        >>> trinorm.table("bkaagn").same("bkaagj").images
        ((0, (0, 1, 3, 2)),)
        >>> trinorm.table("bkaagb").same("bkaagj") is None
        True
        """
        return cast("Optional[Isomorphism]", _functions["same"](self, other, timeout=timeout, program=program))

    def cover(self, *, timeout: Optional[float] = None, program: Program = None) -> Cover:
        """The orientable double cover.

        Args:
            timeout, program: as for `surfaces`

        Returns:
            A `Cover` with 2n tetrahedra, of which u and n + u lie over tetrahedron u.

        Raises:
            Refused: the triangulation is not a gluing table, or has more than 500 tetrahedra
            BadArgument, Failed, TimedOut: as for `surfaces`

        >>> import trinorm
        >>> shown = trinorm.table("bkaagj").cover()
        >>> len(shown.table), shown.connected
        (2, False)
        """
        return cast("Cover", _functions["cover"](self, timeout=timeout, program=program))

    def pi1(self, *, timeout: Optional[float] = None, program: Program = None) -> Presentation:
        """A presentation of the fundamental group of a connected triangulation, by its dual 2-complex.

        It has a generator for each pair of glued faces outside a maximal tree, and a relator for each internal edge.

        Args:
            timeout, program: as for `surfaces`

        Returns:
            A `Presentation`.

        Raises:
            Refused: the triangulation is not connected, has an edge that is identified with itself in reverse, or is not a gluing table
            BadArgument, Failed, TimedOut: as for `surfaces`

        >>> import trinorm
        >>> group = trinorm.table("cPcbbbiht").pi1()
        >>> len(group.generators), group.relators[0].letters
        (3, (2, -1, 3, 1, -3))
        """
        return cast("Presentation", _functions["pi1"](self, timeout=timeout, program=program))

    @overload
    def describe(self, vectors: Vectors, coords: WithTriangles = ..., *, timeout: Optional[float] = ...,
                 program: Program = ..., arrays: Literal[False] = ...) -> List[Surface]: ...

    @overload
    def describe(self, vectors: Vectors, coords: WithTriangles = ..., *, timeout: Optional[float] = ...,
                 program: Program = ..., arrays: Union[Literal[True], str]) -> Described: ...

    def describe(self, vectors: Vectors, coords: WithTriangles = "standard", *,
                 timeout: Optional[float] = None, program: Program = None, arrays: Arrays = False) -> Union[List[Surface], Described]:
        """For each vector the Euler characteristic of its surface, and its components.

        Args:
            vectors: a list of any length
            coords: `standard` or `octagon`
            timeout, program: as for `surfaces`
            arrays: as for `surfaces`, for a `Described` with arrays instead of a list

        Returns:
            A list of `Surface`, one for each vector; or a `Described`.

        Raises:
            Refused: a vector is not that of a normal surface, an edge is identified with itself in reverse, or the triangulation is not
                a gluing table
            BadArgument, Failed, TimedOut: as for `surfaces`

        >>> import trinorm
        >>> [(surface.euler, surface.linking) for surface in trinorm.table("bkaagj").describe(trinorm.surfaces("bkaagj"))]
        [(0, False), (2, True)]
        """
        answer = _functions["describe"](self, vectors, coords, timeout=timeout, program=program, arrays=arrays)
        return cast("Union[List[Surface], Described]", answer)

    def lift(self, vectors: Vectors, *, timeout: Optional[float] = None, program: Program = None) -> List[Vector]:
        """The lifts of vectors in quad coordinates: in standard coordinates, with the same quads and, at each vertex, a triangle entry 0.

        Args:
            vectors: a list of any length, of vectors in quad coordinates
            timeout, program: as for `surfaces`

        Returns:
            A list of vectors in standard coordinates, one for each.

        Raises:
            Refused: a vector is not a solution, or its surface is spun-normal at a vertex; or the triangulation is not a gluing table
            BadArgument, Failed, TimedOut: as for `surfaces`

        >>> import trinorm
        >>> trinorm.table("bkaagj").lift([(1, 0, 0)])
        [(1, 1, 0, 0, 1, 0, 0)]
        """
        return cast("List[Vector]", _functions["lift"](self, vectors, timeout=timeout, program=program))

    def crush(self, vector: GivenVector, *, timeout: Optional[float] = None, program: Program = None) -> Table:
        """The triangulation crushed along a normal surface. Tetrahedra without quads are retained.

        Args:
            vector: a vector in standard coordinates
            timeout, program: as for `surfaces`

        Returns:
            A `Table`.

        Raises:
            Refused: the vector is not that of a normal surface, or the triangulation is not a gluing table
            BadArgument, Failed, TimedOut: as for `surfaces`

        >>> import trinorm
        >>> plane = trinorm.zero_efficient("eLMkabcddbrrag").witness
        >>> trinorm.table("eLMkabcddbrrag").crush(plane.vector).sig()
        'dLQabccbrwb'
        """
        return cast("Table", _functions["crush"](self, vector, timeout=timeout, program=program))

    def decompose(self, vectors: Vectors, coords: Coords = "standard", max_entry: Optional[int] = None, *,
                  timeout: Optional[float] = None, program: Program = None) -> List[Sum]:
        """Each vector as a sum of vertex surfaces.

        Args:
            vectors: a list of vectors of normal surfaces
            coords: `standard`, `quad` or `octagon`
            max_entry, timeout, program: as for `surfaces`

        Returns:
            A list of `Sum`, one for each vector.

        Raises:
            Refused: a vector is not that of a normal surface, a number exceeds `max_entry`, or the triangulation is not a gluing table
            BadArgument, Failed, TimedOut: as for `surfaces`

        >>> import trinorm
        >>> [total] = trinorm.table("bkaagj").decompose([(3, 3, 1, 1, 2, 0, 0)])
        >>> [(term.count, term.vector) for term in total.terms]
        [(2, (1, 1, 0, 0, 1, 0, 0)), (1, (1, 1, 1, 1, 0, 0, 0))]
        """
        return cast("List[Sum]", _functions["decompose"](self, vectors, coords, max_entry, timeout=timeout, program=program))

    def play(self, steps: Iterable[str] = (), *, timeout: Optional[float] = None, program: Program = None) -> Played:
        """The triangulation after Pachner moves. A move that is not legal changes nothing.

        Args:
            steps: a list of moves, such as `14 0`, `23 1 0`, `32 0 01`, `41 2 3`, and of `undo` and `redo`
            timeout, program: as for `surfaces`

        Returns:
            A `Played` with what each step did, and the last table.

        Raises:
            Refused: the triangulation is not a gluing table, or a line is not a step
            BadArgument, Failed, TimedOut: as for `surfaces`

        >>> import trinorm
        >>> played = trinorm.table("bkaagj").play(["14 0", "14 9", "undo"])
        >>> played.answers, len(played.table)
        (('done', 'illegal no-such-tet', 'undone'), 1)
        """
        return cast("Played", _functions["play"](self, steps, timeout=timeout, program=program))

    def check(self, moves: Iterable[str], *, timeout: Optional[float] = None, program: Program = None) -> Accepted:
        """Whether the moves are legal and lead to the standard 3-sphere.

        Args:
            moves: a list of moves, such as `14 0`, `23 1 0`, `32 0 01` and `41 2 3`
            timeout, program: as for `surfaces`

        Returns:
            An `Accepted`, which is true or false.

        Raises:
            Refused: the triangulation is not a gluing table, or a line is not a move
            BadArgument, Failed, TimedOut: as for `surfaces`

        >>> import trinorm
        >>> made = trinorm.make(seed=7, moves=20)
        >>> bool(trinorm.table(made.table).check(made.moves)), trinorm.table("bkaagb").check([]).kind
        (True, 'check not-standard')
        """
        return cast("Accepted", _functions["check"](self, moves, timeout=timeout, program=program))

    def descend(self, *, timeout: Optional[float] = None, program: Program = None) -> Descent:
        """Moves that make a connected triangulation smaller, while there are any, and whether they reach the standard 3-sphere.

        Args:
            timeout, program: as for `surfaces`

        Returns:
            A `Descent`.

        Raises:
            Refused: the triangulation is not connected, or not a gluing table
            BadArgument, Failed, TimedOut: as for `surfaces`

        >>> import trinorm
        >>> descent = trinorm.table(trinorm.play("bkaagj", ["14 0"]).table).descend()
        >>> descent.reached, len(descent.moves)
        (True, 1)
        """
        return cast("Descent", _functions["descend"](self, timeout=timeout, program=program))

    @overload
    def described(self, coords: WithTriangles = ..., *, timeout: Optional[float] = ..., program: Program = ...,
                  progress: Optional[Progress] = ..., arrays: Literal[False] = ...) -> List[Surface]: ...

    @overload
    def described(self, coords: WithTriangles = ..., *, timeout: Optional[float] = ..., program: Program = ...,
                  progress: Optional[Progress] = ..., arrays: Union[Literal[True], str]) -> Described: ...

    def described(self, coords: WithTriangles = "standard", *, timeout: Optional[float] = None,
                  program: Program = None, progress: Optional[Progress] = None,
                  arrays: Arrays = False) -> Union[List[Surface], Described]:
        """What `describe` returns for each vertex surface.

        Args:
            coords: `standard` or `octagon`
            timeout, program, progress: as for `surfaces`; the time limit is one for the whole call
            arrays: as for `describe`

        Returns:
            A list of `Surface`; or a `Described`.

        Raises:
            Refused: the triangulation is not a gluing table, has an edge that is identified with itself in reverse, or a number exceeds
                the limit
            BadArgument, Failed, TimedOut: as for `surfaces`

        >>> import trinorm
        >>> [(surface.vector, surface.euler) for surface in trinorm.table("bkaagj").described()]
        [((1, 1, 0, 0, 1, 0, 0), 0), ((1, 1, 1, 1, 0, 0, 0), 2)]
        """
        answer = _functions["described"](self, coords, timeout=timeout, program=program, progress=progress, arrays=arrays)
        return cast("Union[List[Surface], Described]", answer)

    @overload
    def count(self, coords: WithTriangles = ..., *, timeout: Optional[float] = ..., program: Program = ...,
              progress: Optional[Progress] = ..., arrays: Literal[False] = ...) -> Count: ...

    @overload
    def count(self, coords: WithTriangles = ..., *, timeout: Optional[float] = ..., program: Program = ...,
              progress: Optional[Progress] = ..., arrays: Literal[True]) -> CountArrays: ...

    def count(self, coords: WithTriangles = "standard", *, timeout: Optional[float] = None,
              program: Program = None, progress: Optional[Progress] = None, arrays: bool = False) -> Union[Count, CountArrays]:
        """Counts the vertex surfaces, without keeping them in memory.

        In octagon coordinates the list has vectors without octagons, vectors with one octagon, and vectors with several of one type:
        only those with one are octagonal almost normal surfaces.

        Args:
            coords: `standard` or `octagon`
            timeout, program, progress: as for `described`
            arrays: True for a `CountArrays`

        Returns:
            A `Count`, or a `CountArrays`.

        Raises:
            Refused: as for `described`
            BadArgument, Failed, TimedOut: as for `surfaces`

        >>> import trinorm
        >>> trinorm.table("bkaagj").count().euler
        {2: 1, 0: 1}
        """
        answer = _functions["count"](self, coords, timeout=timeout, program=program, progress=progress, arrays=arrays)
        return cast("Union[Count, CountArrays]", answer)

    def spheres(self, *, timeout: Optional[float] = None, program: Program = None,
                progress: Optional[Progress] = None) -> List[Surface]:
        """The vertex surfaces that are spheres, but not vertex links. A projective plane is not listed, though its double is a sphere.

        Args:
            timeout, program, progress: as for `described`

        Returns:
            A list of `Surface`, in standard coordinates.

        Raises:
            Refused: as for `described`
            BadArgument, Failed, TimedOut: as for `surfaces`

        >>> import trinorm
        >>> trinorm.table("eLMkabcddbrrag").spheres()
        []
        """
        return cast("List[Surface]", _functions["spheres"](self, timeout=timeout, program=program, progress=progress))

    def tori(self, *, timeout: Optional[float] = None, program: Program = None, progress: Optional[Progress] = None) -> List[Surface]:
        """The vertex surfaces that are tori, but not vertex links. A Klein bottle is not listed, though its double may be a torus.

        Args:
            timeout, program, progress: as for `described`

        Returns:
            A list of `Surface`, in standard coordinates.

        Raises:
            Refused: as for `described`
            BadArgument, Failed, TimedOut: as for `surfaces`

        >>> import trinorm
        >>> len(trinorm.table("eLMkabcddbrrag").tori())
        2
        """
        return cast("List[Surface]", _functions["tori"](self, timeout=timeout, program=program, progress=progress))

    def zero_efficient(self, *, timeout: Optional[float] = None, program: Program = None,
                       progress: Optional[Progress] = None) -> ZeroEfficiency:
        """True if each connected normal surface of positive Euler characteristic is a vertex link; else false, with a listed surface that
        is not one: a sphere, a projective plane or a disc.

        That lists decide this is proved. If all vertex links are spheres or discs and all edges are valid, the far shorter quad list is
        used, with its lifts; otherwise the list in standard coordinates. For a closed orientable triangulation it is the 0-efficiency of
        Jaco and Rubinstein: each normal sphere is a vertex link. In a non-orientable one, a two-sided projective plane counts too, though
        its double is not a sphere. With boundary, Jaco and Rubinstein ask this of normal discs alone, and Regina's `isZeroEfficient()`
        also returns false if a boundary component is a sphere; here spheres, projective planes and discs count. A list in octagon
        coordinates decides another property: a sphere with an octagon is not a vertex link, and 0-efficient triangulations of the 3-sphere
        have one.

        Args:
            timeout, program, progress: as for `described`

        Returns:
            A `ZeroEfficiency`, which is true or false.

        Raises:
            Refused: as for `described`
            BadArgument, Failed, TimedOut: as for `surfaces`

        >>> import trinorm
        >>> shown = trinorm.table("eLMkabcddbrrag").zero_efficient()
        >>> bool(shown), shown.kind, shown.witness.euler
        (False, 'closed', 1)
        """
        return cast("ZeroEfficiency", _functions["zero_efficient"](self, timeout=timeout, program=program, progress=progress))

    def certify(self, seed: int = 0, timeout: Optional[float] = None, *, program: Program = None) -> Optional[Certificate]:
        """Moves that show that a triangulation is a 3-sphere, accepted by `check`; None if none were found.

        None does not mean that the manifold is not a 3-sphere. It is returned at once if `info` or the first homology excludes a 3-sphere.

        Args:
            seed: a whole number, from which the random numbers of the search are drawn; the moves depend on it alone
            timeout: seconds of processor time that the search takes at most; 10 by default
            program: as for `surfaces`

        Returns:
            A `Certificate`, or None.

        Raises:
            Refused: the triangulation is not a gluing table
            BadArgument, Failed, TimedOut: as for `surfaces`

        >>> import trinorm
        >>> certificate = trinorm.table("bkaagb").certify()
        >>> bool(trinorm.check("bkaagb", certificate.moves))
        True
        """
        return cast("Optional[Certificate]", _functions["certify"](self, seed, timeout, program=program))

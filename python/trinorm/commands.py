"""A function for each command of the program, with its name.

A triangulation is a signature, the text of a gluing table, a list of rows, a Table, or one of Regina's or SnapPy's (see
`tables.document`); it has n tetrahedra below. A vector that is returned is a tuple of whole numbers; one that is passed may
be a list, an array or a `regina.NormalSurface` too. Its width is 7n in standard, 3n in quad and 10n in octagon coordinates.
A refusal raises `Refused`, an invalid argument `BadArgument`, and anything else that goes wrong `Failed`. Each function takes
two more arguments by name:

timeout: seconds after which the run is ended with `TimedOut`
program: the program to run, or what runs in its place (a `server.Server`)
"""
from __future__ import annotations

import itertools
from typing import Any, Callable, Iterable, Iterator, List, Literal, Optional, Sequence, TypeVar, Union, overload

from . import answers, arrays as numpy_arrays, hints, parts
from .answers import (Accepted, Bulk, Cover, Descent, Grouping, Info, Isomorphism, Made, Played, Presentation, Sum, Surface, Term,
                      Vector, Verdict, vector_line)
from .arguments import lines, listed, plain, shown, whole_number, whole_numbers
from .documents import is_comment
from .errors import CHECKED, LARGE, NO_MEMORY_HERE, BadArgument, Error
from .html_tables import Shown
from .options import Coords, Order, WithTriangles, words
from .program import Failed, Program as Program, Refused, run
from .progress import Progress, reported
from .regina_vectors import ReginaSurface, is_surface, vector_of
from .tables import Table, Triangulation, alone, document, is_empty, size_of

# what the package has under its own name
__all__ = ["addup", "bulk", "check", "cover", "crush", "csame", "csig", "decompose", "descend", "describe", "group", "info", "lift",
           "make", "pi1", "play", "rays", "same", "sig", "surfaces", "table", "verify"]
# the commands that read one triangulation, for those who check types; a test compares them with the table of commands
OfTable = Literal["surfaces", "info", "sig", "csig", "cover", "pi1", "descend"]

Answer = TypeVar("Answer")
Item = TypeVar("Item")
GivenVector = Union[Sequence[int], ReginaSurface]
Vectors = Iterable[GivenVector]
# how numbers are to come: as tuples, as arrays of NumPy's `int64`, or as arrays of the type with this name
Arrays = Union[bool, str]


def ask_text(asked: Sequence[str], text: str, timeout: Optional[float], program: Program) -> str:
    """What the program writes, whole lines; a refusal gets its hint."""
    try:
        answer = run(asked, text, timeout, program)
    except Refused as refused:
        refused.hint = hints.hint(refused, asked, text)
        raise
    except MemoryError:
        raise Failed(f"{' '.join(asked)}: {NO_MEMORY_HERE}") from None
    if answer and not answer.endswith("\n"):
        raise Failed(f"{' '.join(asked)}: the answer is incomplete")
    return answer


def read_text(asked: Sequence[str], answer: str, read: Callable[[List[str]], Answer]) -> Answer:
    """The value that the lines of an answer spell."""
    lines: List[str] = []
    try:
        lines = answer.splitlines()
        return read(lines)
    except Error:
        raise
    except MemoryError:
        raise Failed(f"{' '.join(asked)}: {NO_MEMORY_HERE}") from None
    except (ValueError, IndexError, KeyError, TypeError, StopIteration) as fault:
        raise Failed(f"{' '.join(asked)}: the answer cannot be read: {lines[:2]}") from fault


def _ask(asked: Sequence[str], text: str, read: Callable[[List[str]], Answer],
         timeout: Optional[float], program: Program) -> Answer:
    return read_text(asked, ask_text(asked, text, timeout, program), read)


def ask_in_parts(asked: Sequence[str], text: str, read: Callable[[List[str]], parts.Answers],
                 clock: parts.Clock, program: Program) -> Iterator[parts.Answers]:
    """What a command answers to each vector of a document of any length, a list for each part of it."""
    return parts.answers(text, lambda part, left: _ask(asked, part, read, left, program), clock)


def _ask_of_each(asked: Sequence[str], text: str, read: Callable[[List[str]], List[Item]],
                 timeout: Optional[float], program: Program) -> List[Item]:
    """What a command answers to each vector of a document of any length."""
    return list(itertools.chain.from_iterable(ask_in_parts(asked, text, read, parts.Clock(timeout), program)))


def _vector(vector: object, coords: Coords) -> str:
    """The line of a vector; a `regina.NormalSurface` is taken for its own."""
    if is_surface(vector):
        return vector_line(vector_of(vector, coords)) + "\n"
    entries = whole_numbers(vector, "a vector must be a list of whole numbers or a regina.NormalSurface")
    return vector_line(entries) + "\n"


def _spelled(spell: Callable[[], str]) -> str:
    """What a function spells. A whole number of more digits than Python spells is a `BadArgument`."""
    try:
        return spell()
    except ValueError as fault:
        raise BadArgument(f"a number is too long: {fault}") from None


def _with_vectors(t: Triangulation, vectors: object, coords: Coords) -> str:
    """A document of a triangulation with vectors."""
    given = [plain(vector) for vector in listed(vectors, "expected a list of vectors (a single vector as [v])")]
    if given and all(whole_number(vector) is not None for vector in given):
        raise BadArgument("expected a list of vectors; pass a single vector as [v]")
    return alone(t) + "".join(_vector(vector, coords) for vector in given)


def _with_sums(t: Triangulation, sums: object) -> str:
    """A document of a triangulation with blocks of sums."""
    expected = "expected a list of Sum, as `decompose` returns"
    given = listed(sums, expected)
    for one in given:
        if not isinstance(one, Sum):
            raise BadArgument(f"{expected}; {shown(one)} is not a Sum")
    return alone(t) + "".join(_block(one) for one in given if isinstance(one, Sum))


def _block(one: Sum) -> str:
    """The text of a sum, whose fields may be lists or arrays too."""
    expected = "a Sum needs a vector, a whole number `times`, and a list of Term(count, vector)"
    terms = listed(one.terms, expected)
    if whole_number(one.times) is None or not all(isinstance(term, Term) for term in terms):
        raise BadArgument(f"{expected}, not {shown(one)}")
    checked = tuple(Term(whole_numbers([term.count], expected)[0], whole_numbers(term.vector, expected))
                    for term in terms if isinstance(term, Term))
    return _spelled(lambda: str(Sum(whole_numbers(one.vector, expected), one.times, checked)))


def _cone(rows: object, columns: Optional[int]) -> str:
    """The text of a cone."""
    expected = "the rows of a cone must be a list of lists of whole numbers"
    given = [whole_numbers(row, expected) for row in listed(rows, expected)]
    if columns is None and not given:
        raise BadArgument("rows is empty; pass columns= as well")
    width = len(given[0]) if columns is None else whole_number(columns)
    if width is None or not 0 <= width <= 10_000:
        raise BadArgument(f"columns must be a whole number from 0 to 10,000, not {shown(columns)}")
    for at, row in enumerate(given):
        if len(row) != width:
            raise BadArgument(f"row {at} of the cone has {len(row)} coefficients; it should have {width}")
    lines_of_rows = (" ".join(map(str, row)) for row in given if width)
    return "".join(f"{line}\n" for line in [f"cone {width} {len(given)}", *lines_of_rows])


def listing(t: Triangulation, coords: Coords = "standard", order: Optional[Order] = None, max_entry: Optional[int] = None, *,
            timeout: Optional[float] = None, program: Program = None) -> str:
    """What `surfaces` writes: a line with the number of vectors, and a line for each. Failed if these differ."""
    asked = words("surfaces", coords=coords, order=order, max_entry=max_entry)
    answer = ask_text(asked, document(t), timeout, program)
    read_text(asked, answer[:answer.find("\n") + 1],
              lambda lines: answers.check_number(lines, answer.count("\n") - 1))
    return answer


@overload
def surfaces(t: Triangulation, coords: Coords = ..., order: Optional[Order] = ..., max_entry: Optional[int] = ..., *,
             timeout: Optional[float] = ..., program: Program = ..., progress: Optional[Progress] = ...,
             arrays: Literal[False] = ...) -> List[Vector]: ...


@overload
def surfaces(t: Triangulation, coords: Coords = ..., order: Optional[Order] = ..., max_entry: Optional[int] = ..., *,
             timeout: Optional[float] = ..., program: Program = ..., progress: Optional[Progress] = ...,
             arrays: Union[Literal[True], str]) -> Any: ...


def surfaces(t: Triangulation, coords: Coords = "standard", order: Optional[Order] = None, max_entry: Optional[int] = None, *,
             timeout: Optional[float] = None, program: Program = None, progress: Optional[Progress] = None,
             arrays: Arrays = False) -> Any:
    """All vertex normal surfaces, each once, in lexicographic order.

    Args:
        t: the triangulation
        coords: `standard`, `quad` or `octagon`
        order: the order in which the equations are processed: `given` (the default), `short` or `zeros`. The list does not depend on
            it; time and memory do
        max_entry: the greatest number that may occur in the calculation; 2^127 - 1 by default
        timeout: seconds, after which the call ends with `TimedOut`
        program: the path of a program, or a `trinorm.server.Server`; by default the program that `find` finds, or its library
        progress: a function that is called about ten times a second with the seconds since the call began and the bytes that it
            holds. An exception that it raises ends the call
        arrays: True for an array of NumPy with a row for each vector, of type `int64`, or `object` if an entry exceeds that; or
            the name of an integer type, such as `int8`

    Returns:
        A list of tuples of whole numbers, with 7, 3 or 10 entries for each tetrahedron; or an array.

    Raises:
        Refused: the triangulation is not a gluing table, or a number exceeds `max_entry`
        BadArgument: an argument is invalid, or an entry does not fit into the type of the array
        Failed: the program was not found, was killed, or ran out of memory; `TimedOut` if it ran out of time

    >>> import trinorm
    >>> trinorm.surfaces("bkaagj")
    [(1, 1, 0, 0, 1, 0, 0), (1, 1, 1, 1, 0, 0, 0)]
    >>> trinorm.surfaces("bkaagj", "quad")
    [(1, 0, 0)]
    """
    asked = words("surfaces", coords=coords, order=order, max_entry=max_entry)
    program = reported(program, progress)
    if arrays is False:
        return Shown(_ask(asked, document(t), answers.read_list, timeout, program))
    kind = numpy_arrays.integer_type(arrays)
    listed = listing(t, coords, order, max_entry, timeout=timeout, program=program)
    return numpy_arrays.read_vectors(listed, kind)


def rays(rows: Sequence[Sequence[int]], columns: Optional[int] = None, order: Optional[Order] = None,
         max_entry: Optional[int] = None, *, timeout: Optional[float] = None, program: Program = None) -> List[Vector]:
    """All primitive extreme rays of the cone of nonnegative vectors at which each row is 0, in lexicographic order.

    Args:
        rows: lists of whole numbers of at most 1,000,000 in magnitude, all of one length
        columns: that length, which is needed if there are no rows
        order, max_entry, timeout, program: as for `surfaces`

    Returns:
        A list of vectors of that length.

    Raises:
        Refused: a number exceeds a limit
        BadArgument, Failed, TimedOut: as for `surfaces`

    >>> import trinorm
    >>> trinorm.rays([[1, 1, -2]])
    [(0, 2, 1), (2, 0, 1)]
    """
    return _ask(words("rays", order=order, max_entry=max_entry), _cone(rows, columns), answers.read_list, timeout, program)


def verify(t: Triangulation, vectors: Vectors, coords: Coords = "standard", *,
           timeout: Optional[float] = None, program: Program = None) -> List[Verdict]:
    """For each vector, whether it is an admissible solution, or what fails first. In standard coordinates these are the vectors of
    normal surfaces.

    Args:
        t: the triangulation
        vectors: a list of any length
        coords: `standard`, `quad` or `octagon`
        timeout, program: as for `surfaces`

    Returns:
        A list of `Verdict`, one for each vector, which are true or false.

    Raises:
        Refused: the triangulation is not a gluing table, or an entry is negative
        BadArgument, Failed, TimedOut: as for `surfaces`

    >>> import trinorm
    >>> [verdict.kind for verdict in trinorm.verify("bkaagj", [(1, 1, 0, 0, 1, 0, 0), (1, 1, 0, 0, 1, 1, 0)])]
    ['solution', 'fails']
    """
    text = _with_vectors(t, vectors, coords)
    return _ask_of_each(words("verify", coords=coords), text, answers.read_verdicts, timeout, program)


def info(t: Triangulation, *, timeout: Optional[float] = None, program: Program = None) -> Info:
    """The skeleton: vertices with their links, edges with their degrees, orientability, boundary, Euler characteristic.

    Args:
        t: the triangulation
        timeout, program: as for `surfaces`

    Returns:
        An `Info`.

    Raises:
        Refused: the triangulation is not a gluing table
        BadArgument, Failed, TimedOut: as for `surfaces`

    >>> import trinorm
    >>> skeleton = trinorm.info("cPcbbbiht")
    >>> skeleton.tetrahedra, skeleton.euler, [vertex.kind for vertex in skeleton.vertices]
    (2, 1, ['torus'])
    """
    return _ask(["info"], document(t), answers.read_info, timeout, program)


def sig(t: Triangulation, *, timeout: Optional[float] = None, program: Program = None) -> str:
    """The isomorphism signature of a connected triangulation: connected triangulations have the same if and only if they are isomorphic.

    Args:
        t: the triangulation
        timeout, program: as for `surfaces`

    Returns:
        A string.

    Raises:
        Refused: the triangulation is not connected, or not a gluing table
        BadArgument, Failed, TimedOut: as for `surfaces`

    >>> import trinorm
    >>> trinorm.sig("tri 1\\n0:1023 0:1023 0:1230 0:3012")
    'bkaagj'
    """
    return _ask(["sig"], document(t), answers.read_word, timeout, program)


def csig(t: Triangulation, *, timeout: Optional[float] = None, program: Program = None) -> str:
    """The signatures of the components of a triangulation.

    Args:
        t: the triangulation
        timeout, program: as for `surfaces`

    Returns:
        A string: the signatures in ascending order, separated by full stops.

    Raises:
        Refused: the triangulation is not a gluing table
        BadArgument, Failed, TimedOut: as for `surfaces`

    >>> import trinorm
    >>> trinorm.csig(["- - - -", "1:1023 1:1023 1:1230 1:3012"])
    'baa.bkaagj'
    """
    return _ask(["csig"], document(t), answers.read_word, timeout, program)


def same(one: Triangulation, other: Triangulation, *,
         timeout: Optional[float] = None, program: Program = None) -> Optional[Isomorphism]:
    """An isomorphism from one connected triangulation to another.

    Args:
        one: a triangulation
        other: a triangulation
        timeout, program: as for `surfaces`

    Returns:
        An `Isomorphism`, or None if the triangulations are not isomorphic.

    Raises:
        Refused: a triangulation is not connected, or not a gluing table
        BadArgument, Failed, TimedOut: as for `surfaces`

    >>> import trinorm
    >>> trinorm.same("bkaagn", "bkaagj").images
    ((0, (0, 1, 3, 2)),)
    >>> trinorm.same("bkaagb", "bkaagj") is None
    True
    """
    return _isomorphism("same", one, other, timeout, program)


def _isomorphism(command: str, one: Triangulation, other: Triangulation, timeout: Optional[float],
                 program: Program) -> Optional[Isomorphism]:
    """What `same` or `csame` answers."""
    text = alone(one)
    return _ask([command], text + alone(other), lambda said: answers.read_isomorphism(said, size_of(text)), timeout, program)


def csame(one: Triangulation, other: Triangulation, *,
          timeout: Optional[float] = None, program: Program = None) -> Optional[Isomorphism]:
    """An isomorphism from one triangulation to another, also if they have several components.

    Args:
        one: a triangulation
        other: a triangulation
        timeout, program: as for `surfaces`

    Returns:
        An `Isomorphism`, or None if the triangulations are not isomorphic.

    Raises:
        Refused: a triangulation is not a gluing table
        BadArgument, Failed, TimedOut: as for `surfaces`

    >>> import trinorm
    >>> two = ["- - - -", "1:1023 1:1023 1:1230 1:3012"]
    >>> len(trinorm.csame(two, two).images)
    2
    """
    return _isomorphism("csame", one, other, timeout, program)


def group(tables: Iterable[Triangulation], *, timeout: Optional[float] = None, program: Program = None) -> Grouping:
    """The isomorphism classes of connected triangulations, numbered in the order in which they first occur.

    Args:
        tables: a list of triangulations
        timeout, program: as for `surfaces`

    Returns:
        A `Grouping`.

    Raises:
        Refused: a triangulation is not connected, or not a gluing table
        BadArgument, Failed, TimedOut: as for `surfaces`

    >>> import trinorm
    >>> trinorm.group(["bkaagn", "bkaagb", "bkaagj"])
    Grouping(classes=(0, 1, 0), signatures=('bkaagj', 'bkaagb'))
    """
    if isinstance(tables, Table):
        raise BadArgument("expected a list of triangulations; pass a single one as [t]")
    given = listed(tables, "expected a list of triangulations (a single one as [t])")
    if any(map(is_empty, given)):  # type: ignore[arg-type]
        raise BadArgument("expected a triangulation, not an empty string")
    text = "".join(map(alone, given))  # type: ignore[arg-type]
    return _ask(["group"], text, lambda said: answers.read_grouping(said, len(given)), timeout, program)


def cover(t: Triangulation, *, timeout: Optional[float] = None, program: Program = None) -> Cover:
    """The orientable double cover.

    Args:
        t: the triangulation, with n tetrahedra
        timeout, program: as for `surfaces`

    Returns:
        A `Cover` with 2n tetrahedra, of which u and n + u lie over tetrahedron u.

    Raises:
        Refused: the triangulation is not a gluing table, or has more than 500 tetrahedra
        BadArgument, Failed, TimedOut: as for `surfaces`

    >>> import trinorm
    >>> shown = trinorm.cover("bkaagj")
    >>> len(shown.table), shown.connected
    (2, False)
    """
    return _ask(["cover"], document(t), answers.read_cover, timeout, program)


def pi1(t: Triangulation, *, timeout: Optional[float] = None, program: Program = None) -> Presentation:
    """A presentation of the fundamental group of a connected triangulation, by its dual 2-complex.

    It has a generator for each pair of glued faces outside a maximal tree, and a relator for each internal edge.

    Args:
        t: the triangulation
        timeout, program: as for `surfaces`

    Returns:
        A `Presentation`.

    Raises:
        Refused: the triangulation is not connected, has an edge that is identified with itself in reverse, or is not a gluing table
        BadArgument, Failed, TimedOut: as for `surfaces`

    >>> import trinorm
    >>> group = trinorm.pi1("cPcbbbiht")
    >>> len(group.generators), group.relators[0].letters
    (3, (2, -1, 3, 1, -3))
    """
    return _ask(["pi1"], document(t), answers.read_presentation, timeout, program)


@overload
def describe(t: Triangulation, vectors: Vectors, coords: WithTriangles = ..., *, timeout: Optional[float] = ...,
             program: Program = ..., arrays: Literal[False] = ...) -> List[Surface]: ...


@overload
def describe(t: Triangulation, vectors: Vectors, coords: WithTriangles = ..., *, timeout: Optional[float] = ...,
             program: Program = ..., arrays: Union[Literal[True], str]) -> numpy_arrays.Described: ...


def describe(t: Triangulation, vectors: Vectors, coords: WithTriangles = "standard", *, timeout: Optional[float] = None,
             program: Program = None, arrays: Arrays = False) -> Union[List[Surface], numpy_arrays.Described]:
    """For each vector the Euler characteristic of its surface, and its components.

    Args:
        t: the triangulation
        vectors: a list of any length
        coords: `standard` or `octagon`
        timeout, program: as for `surfaces`
        arrays: as for `surfaces`, for a `Described` with arrays instead of a list

    Returns:
        A list of `Surface`, one for each vector; or a `Described`.

    Raises:
        Refused: a vector is not that of a normal surface, an edge is identified with itself in reverse, or the triangulation is not
            a gluing table
        BadArgument, Failed, TimedOut: as for `surfaces`

    >>> import trinorm
    >>> [(surface.euler, surface.linking) for surface in trinorm.describe("bkaagj", trinorm.surfaces("bkaagj"))]
    [(0, False), (2, True)]
    """
    asked, text = words("describe", coords=coords), _with_vectors(t, vectors, coords)
    if arrays is False:
        return Shown(_ask_of_each(asked, text, answers.read_surfaces, timeout, program))
    return described_arrays(asked, text, arrays, parts.Clock(timeout), program)


def described_arrays(asked: Sequence[str], text: str, arrays: Arrays, clock: parts.Clock,
                     program: Program) -> numpy_arrays.Described:
    """What `describe` answers to each vector of a document of any length, as arrays."""
    kind = numpy_arrays.integer_type(arrays)
    found = ask_in_parts(asked, text, lambda lines: numpy_arrays.read_described(lines, kind), clock, program)
    return numpy_arrays.joined(list(found))


def lift(t: Triangulation, vectors: Vectors, *, timeout: Optional[float] = None, program: Program = None) -> List[Vector]:
    """The lifts of vectors in quad coordinates: in standard coordinates, with the same quads and, at each vertex, a triangle entry 0.

    Args:
        t: the triangulation
        vectors: a list of any length, of vectors in quad coordinates
        timeout, program: as for `surfaces`

    Returns:
        A list of vectors in standard coordinates, one for each.

    Raises:
        Refused: a vector is not a solution, or its surface is spun-normal at a vertex; or the triangulation is not a gluing table
        BadArgument, Failed, TimedOut: as for `surfaces`

    >>> import trinorm
    >>> trinorm.lift("bkaagj", [(1, 0, 0)])
    [(1, 1, 0, 0, 1, 0, 0)]
    """
    return _ask_of_each(["lift"], _with_vectors(t, vectors, "quad"), answers.read_vectors, timeout, program)


def crush(t: Triangulation, vector: GivenVector, *, timeout: Optional[float] = None, program: Program = None) -> Table:
    """The triangulation crushed along a normal surface. Tetrahedra without quads are retained.

    Args:
        t: the triangulation
        vector: a vector in standard coordinates
        timeout, program: as for `surfaces`

    Returns:
        A `Table`.

    Raises:
        Refused: the vector is not that of a normal surface, or the triangulation is not a gluing table
        BadArgument, Failed, TimedOut: as for `surfaces`

    >>> import trinorm
    >>> plane = trinorm.zero_efficient("eLMkabcddbrrag").witness
    >>> trinorm.crush("eLMkabcddbrrag", plane.vector).sig()
    'dLQabccbrwb'
    """
    return _ask(["crush"], _with_vectors(t, [vector], "standard"), answers.read_table, timeout, program)


def decompose(t: Triangulation, vectors: Vectors, coords: Coords = "standard", max_entry: Optional[int] = None, *,
              timeout: Optional[float] = None, program: Program = None) -> List[Sum]:
    """Each vector as a sum of vertex surfaces.

    Args:
        t: the triangulation
        vectors: a list of vectors of normal surfaces
        coords: `standard`, `quad` or `octagon`
        max_entry, timeout, program: as for `surfaces`

    Returns:
        A list of `Sum`, one for each vector.

    Raises:
        Refused: a vector is not that of a normal surface, a number exceeds `max_entry`, or the triangulation is not a gluing table
        BadArgument, Failed, TimedOut: as for `surfaces`

    >>> import trinorm
    >>> [total] = trinorm.decompose("bkaagj", [(3, 3, 1, 1, 2, 0, 0)])
    >>> [(term.count, term.vector) for term in total.terms]
    [(2, (1, 1, 0, 0, 1, 0, 0)), (1, (1, 1, 1, 1, 0, 0, 0))]
    """
    text = _with_vectors(t, vectors, coords)
    asked = words("decompose", coords=coords, max_entry=max_entry)
    return _ask(asked, text, lambda said: answers.read_sums(said, parts.count_vectors(text)), timeout, program)


def _accepts(asked: Sequence[str], text: str, timeout: Optional[float], program: Program) -> Accepted:
    """The verdict of `check` or `addup`. An input that can't be read is `Refused`."""
    try:
        return _ask(asked, text, answers.read_accepted, timeout, program)
    except Refused as refused:
        if refused.status not in (CHECKED, LARGE):
            raise
        return Accepted(refused.kind, refused.places, refused.hint, refused.line)


def addup(t: Triangulation, sums: Iterable[Sum], coords: Coords = "standard", *,
          timeout: Optional[float] = None, program: Program = None) -> Accepted:
    """Whether all vectors and terms are admissible solutions and the terms add up.

    Args:
        t: the triangulation
        sums: as `decompose` returns them
        coords: those of the vectors
        timeout, program: as for `surfaces`

    Returns:
        An `Accepted`, which is true or false.

    Raises:
        Refused: the triangulation is not a gluing table
        BadArgument, Failed, TimedOut: as for `surfaces`

    >>> import trinorm
    >>> bool(trinorm.addup("bkaagj", trinorm.decompose("bkaagj", [(3, 3, 1, 1, 2, 0, 0)])))
    True
    """
    return _accepts(words("addup", coords=coords), _with_sums(t, sums), timeout, program)


def play(t: Triangulation, steps: Iterable[str] = (), *, timeout: Optional[float] = None, program: Program = None) -> Played:
    """The triangulation after Pachner moves. A move that is not legal changes nothing.

    Args:
        t: the triangulation
        steps: a list of moves, such as `14 0`, `23 1 0`, `32 0 01`, `41 2 3`, and of `undo` and `redo`
        timeout, program: as for `surfaces`

    Returns:
        A `Played` with what each step did, and the last table.

    Raises:
        Refused: the triangulation is not a gluing table, or a line is not a step
        BadArgument, Failed, TimedOut: as for `surfaces`

    >>> import trinorm
    >>> played = trinorm.play("bkaagj", ["14 0", "14 9", "undo"])
    >>> played.answers, len(played.table)
    (('done', 'illegal no-such-tet', 'undone'), 1)
    """
    expected = "expected a list of steps, such as ['14 0']"
    given = listed(steps, expected)
    for step in given:
        if isinstance(step, str) and is_comment(step):  # nothing is answered to it
            raise BadArgument(f"{expected}; {shown(step)} is not one of them")
    text = alone(t) + lines(given, "steps", "14 0")
    return _ask(["play"], text, lambda said: answers.read_played(said, len(given)), timeout, program)


def check(t: Triangulation, moves: Iterable[str], *, timeout: Optional[float] = None, program: Program = None) -> Accepted:
    """Whether the moves are legal and lead to the standard 3-sphere.

    Args:
        t: the triangulation
        moves: a list of moves, such as `14 0`, `23 1 0`, `32 0 01` and `41 2 3`
        timeout, program: as for `surfaces`

    Returns:
        An `Accepted`, which is true or false.

    Raises:
        Refused: the triangulation is not a gluing table, or a line is not a move
        BadArgument, Failed, TimedOut: as for `surfaces`

    >>> import trinorm
    >>> made = trinorm.make(seed=7, moves=20)
    >>> bool(trinorm.check(made.table, made.moves)), trinorm.check("bkaagb", []).kind
    (True, 'check not-standard')
    """
    return _accepts(["check"], alone(t) + lines(moves, "moves", "14 0"), timeout, program)


def descend(t: Triangulation, *, timeout: Optional[float] = None, program: Program = None) -> Descent:
    """Moves that make a connected triangulation smaller, while there are any, and whether they reach the standard 3-sphere.

    Args:
        t: the triangulation
        timeout, program: as for `surfaces`

    Returns:
        A `Descent`.

    Raises:
        Refused: the triangulation is not connected, or not a gluing table
        BadArgument, Failed, TimedOut: as for `surfaces`

    >>> import trinorm
    >>> descent = trinorm.descend(trinorm.play("bkaagj", ["14 0"]).table)
    >>> descent.reached, len(descent.moves)
    (True, 1)
    """
    return _ask(["descend"], document(t), answers.read_descent, timeout, program)


def make(seed: int, moves: int, *, timeout: Optional[float] = None, program: Program = None) -> Made:
    """A triangulated 3-sphere drawn from a seed, with moves that certify it.

    Args:
        seed: a whole number from 0 to 2^64 - 1
        moves: how many moves lead to it from the standard 3-sphere, at most 1000
        timeout, program: as for `surfaces`

    Returns:
        A `Made`, whose moves `check` accepts.

    Raises:
        BadArgument, Failed, TimedOut: as for `surfaces`

    >>> import trinorm
    >>> made = trinorm.make(seed=7, moves=20)
    >>> len(made.moves), bool(trinorm.check(made.table, made.moves))
    (20, True)
    """
    asked, count = words("make", seed=seed, moves=moves), whole_number(moves) or 0
    return _ask(asked, "", lambda said: answers.read_made(said, count), timeout, program)


def bulk(seed: int, moves: int, *, timeout: Optional[float] = None, program: Program = None) -> Bulk:
    """A 3-sphere as `make` makes it, with its certificate checked and its vertex surfaces counted.

    Args:
        seed: a whole number from 0 to 2^64 - 1
        moves: how many moves lead to it from the standard 3-sphere, at most 5
        timeout, program: as for `surfaces`

    Returns:
        A `Bulk`.

    Raises:
        BadArgument, Failed, TimedOut: as for `surfaces`

    >>> import trinorm
    >>> counted = trinorm.bulk(seed=5, moves=5)
    >>> counted.tetrahedra, counted.surfaces
    (6, 16)
    """
    return _ask(words("bulk", seed=seed, moves=moves), "", answers.read_bulk, timeout, program)


def table(t: Triangulation, *, timeout: Optional[float] = None, program: Program = None) -> Table:
    """A triangulation in any form as a `Table`.

    Args:
        t: the triangulation
        timeout, program: as for `surfaces`

    Returns:
        The `Table`.

    Raises:
        Refused: the triangulation is not a gluing table
        BadArgument, Failed, TimedOut: as for `surfaces`

    >>> import trinorm
    >>> print(trinorm.table("bkaagj"), end="")
    tri 1
    0:1023 0:1023 0:1230 0:3012
    """
    return play(t, timeout=timeout, program=program).table

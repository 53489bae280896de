"""What the commands return, as plain data; `answers` reads it from the lines that the program writes.

Vectors are tuples of whole numbers, as long as the coordinates have columns: 7 a tetrahedron in standard coordinates
(triangles at vertices 0 to 3, quads 01/23, 02/13, 03/12), 3 in quad coordinates (the quads), 10 in octagon coordinates
(triangles, quads, octagons).
"""
from __future__ import annotations

from dataclasses import dataclass
from typing import Any, Dict, Sequence, Tuple

from .errors import PLACES_OF_VECTORS, Failed, Place, named_places
from .html_tables import info_html
from .tables import Table, import_regina

Vector = Tuple[int, ...]


def vector_line(vector: Sequence[Any]) -> str:
    """The line of a vector in an input."""
    return " ".join(["vec", *map(str, vector)])


@dataclass(frozen=True)
class Verdict:
    """What `verify` returns for a vector: true if it is an admissible solution.

    Attributes:
        kind: `solution`; or what fails first: `length`, `large`, `fails` or `clash`
        places: its numbers
        named: the same by their names

    >>> import trinorm
    >>> [verdict] = trinorm.verify("bkaagj", [(1, 1, 0, 0, 1, 1, 1)])
    >>> bool(verdict), verdict.kind, verdict.named
    (False, 'fails', {'row': 4})
    """
    kind: str
    places: Tuple[int, ...]

    @property
    def is_solution(self) -> bool:
        """Whether it is an admissible solution."""
        return self.kind == "solution"

    def __bool__(self) -> bool:
        return self.is_solution

    @property
    def named(self) -> Dict[str, int]:
        """The numbers by their names: `entries` of `length`, `row` of `large` and `fails`, `first_column` and `second_column` of `clash`."""
        return dict(zip(PLACES_OF_VECTORS.get(self.kind, ()), self.places))


@dataclass(frozen=True)
class Accepted:
    """The verdict of `check` or `addup`, which is true if the program accepted.

    Attributes:
        kind: empty if it did; else that of the refusal, such as `check illegal`, `check not-standard` or `vector not-equal`
        places: the numbers of the refusal
        named: the same by their names
        hint: what is wrong, in a sentence; empty if it was accepted
        line: what the program printed

    >>> import trinorm
    >>> wrong = trinorm.check("bkaagb", [])
    >>> bool(wrong), wrong.kind, wrong.named
    (False, 'check not-standard', {'signature': 'bkaagb'})
    """
    kind: str = ""
    places: Tuple[Place, ...] = ()
    hint: str = ""
    line: str = "accepted"

    def __bool__(self) -> bool:
        return not self.kind

    @property
    def named(self) -> Dict[str, Place]:
        """The numbers of a refusal by their names, such as `{"move": 3}`."""
        return named_places(self.kind, self.places)

    def required(self) -> Accepted:
        """This verdict, if it is true.

        Returns:
            The `Accepted` itself.

        Raises:
            Failed: it is false

        >>> import trinorm
        >>> trinorm.check("bkaagj", []).required().line
        'accepted'
        """
        if not self:
            raise Failed(f"{self.line} ({self.hint})" if self.hint else self.line)
        return self


@dataclass(frozen=True)
class Vertex:
    """A vertex of a triangulation.

    Attributes:
        degree: the number of corners of tetrahedra
        euler: the Euler characteristic of its link
        closed: whether the link has no boundary
        kind: the link: `sphere`, `disc`, `torus`, `klein` or `other`

    >>> import trinorm
    >>> trinorm.info("cPcbbbiht").vertices[0]
    Vertex(degree=8, euler=0, closed=True, kind='torus')
    """
    degree: int
    euler: int
    closed: bool
    kind: str


@dataclass(frozen=True)
class Edge:
    """An edge of a triangulation.

    Attributes:
        degree: the number of edges of tetrahedra
        place: `boundary` if it is in a boundary face, else `inner`
        valid: False if it is identified with itself in reverse

    >>> import trinorm
    >>> trinorm.info("cPcbbbiht").edges[0]
    Edge(degree=6, place='inner', valid=True)
    """
    degree: int
    place: str
    valid: bool


@dataclass(frozen=True)
class Info:
    """The skeleton of a triangulation.

    Attributes:
        tetrahedra, faces: their numbers
        connected, orientable: whether it is
        closed: whether no face is a boundary face
        euler: its Euler characteristic
        vertices, edges: the `Vertex` and `Edge` of each, as they are numbered

    >>> import trinorm
    >>> skeleton = trinorm.info("cPcbbbiht")
    >>> skeleton.tetrahedra, skeleton.closed, len(skeleton.edges)
    (2, True, 2)
    """
    tetrahedra: int
    connected: bool
    orientable: bool
    closed: bool
    faces: int
    euler: int
    vertices: Tuple[Vertex, ...]
    edges: Tuple[Edge, ...]

    def _repr_html_(self) -> str:
        """What a notebook shows: a table of the classes."""
        return info_html(self)


@dataclass(frozen=True)
class Component:
    """A component of a normal surface.

    Attributes:
        euler: its Euler characteristic
        sides: 1 or 2
        orientable: whether it is orientable
        vector: its vector

    >>> import trinorm
    >>> trinorm.describe("bkaagj", [(1, 1, 0, 0, 1, 0, 0)])[0].components
    (Component(euler=0, sides=2, orientable=True, vector=(1, 1, 0, 0, 1, 0, 0)),)
    """
    euler: int
    sides: int
    orientable: bool
    vector: Vector


@dataclass(frozen=True)
class Surface:
    """A normal surface, as `describe` describes it.

    Attributes:
        vector: its vector
        euler: its Euler characteristic
        linking: whether it has no quads and no octagons, so that it is a union of vertex links, or empty
        boundary: whether it meets a boundary face
        components: a `Component` for each

    >>> import trinorm
    >>> surface = trinorm.describe("bkaagj", [(1, 1, 0, 0, 1, 0, 0)])[0]
    >>> surface.euler, surface.linking, surface.boundary, len(surface.components)
    (0, False, False, 1)
    """
    vector: Vector
    euler: int
    linking: bool
    boundary: bool
    components: Tuple[Component, ...]


@dataclass(frozen=True)
class Isomorphism:
    """An isomorphism of triangulations.

    Attributes:
        images: for each tetrahedron its image, and the images of vertices 0 to 3

    >>> import trinorm
    >>> trinorm.same("bkaagn", "bkaagj")
    Isomorphism(images=((0, (0, 1, 3, 2)),))
    """
    images: Tuple[Tuple[int, Tuple[int, ...]], ...]

    def to_regina(self) -> Any:
        """The isomorphism as one of Regina.

        Returns:
            A `regina.Isomorphism3`.

        Raises:
            Failed: this Python has no module regina

        >>> import trinorm  # needs regina
        >>> trinorm.same("bkaagn", "bkaagj").to_regina().size()
        1
        """
        regina = import_regina()
        made = regina.Isomorphism3(len(self.images))
        for tet, (there, images) in enumerate(self.images):
            made.setSimpImage(tet, there)
            made.setFacetPerm(tet, regina.Perm4(*images))
        return made


@dataclass(frozen=True)
class Grouping:
    """The isomorphism classes of many triangulations.

    Attributes:
        classes: the class of each triangulation
        signatures: the signature of each class

    >>> import trinorm
    >>> trinorm.group(["bkaagn", "bkaagb", "bkaagj"])
    Grouping(classes=(0, 1, 0), signatures=('bkaagj', 'bkaagb'))
    """
    classes: Tuple[int, ...]
    signatures: Tuple[str, ...]


@dataclass(frozen=True)
class Cover:
    """The orientable double cover.

    Attributes:
        table: its gluing table
        over: for each of its tetrahedra the tetrahedron below it, and its sheet
        connected: whether it is connected

    >>> import trinorm
    >>> trinorm.cover("bkaagj").over
    ((0, 0), (0, 1))
    """
    table: Table
    over: Tuple[Tuple[int, int], ...]
    connected: bool

    def to_regina(self) -> Any:
        """The cover as a triangulation of Regina.

        Returns:
            A `regina.Triangulation3`.

        Raises:
            Failed: this Python has no module regina

        >>> import trinorm  # needs regina
        >>> trinorm.cover("bkaagj").to_regina().size()
        2
        """
        return self.table.to_regina()


@dataclass(frozen=True)
class Generator:
    """A generator of a presentation.

    Attributes:
        face: the pair of glued faces that its loop crosses
        turns: whether the loop reverses orientation

    >>> import trinorm
    >>> trinorm.pi1("cPcbbbiht").generators[0]
    Generator(face=1, turns=False)
    """
    face: int
    turns: bool


@dataclass(frozen=True)
class Relator:
    """A relator of a presentation.

    Attributes:
        edge: the internal edge around which it is read
        letters: k is generator k, counted from 1, and -k its inverse

    >>> import trinorm
    >>> trinorm.pi1("cPcbbbiht").relators[0]
    Relator(edge=0, letters=(2, -1, 3, 1, -3))
    """
    edge: int
    letters: Tuple[int, ...]


@dataclass(frozen=True)
class Presentation:
    """A presentation of the fundamental group.

    Attributes:
        generators: a `Generator` for each; counted from 1
        relators: a `Relator` for each

    >>> import trinorm
    >>> group = trinorm.pi1("cPcbbbiht")
    >>> len(group.generators), len(group.relators)
    (3, 2)
    """
    generators: Tuple[Generator, ...]
    relators: Tuple[Relator, ...]

    def to_regina(self) -> Any:
        """The presentation as one of Regina, in which generators are counted from 0.

        Returns:
            A `regina.GroupPresentation`.

        Raises:
            Failed: this Python has no module regina

        >>> import trinorm  # needs regina
        >>> trinorm.pi1("cPcbbbiht").to_regina().countGenerators()
        3
        """
        regina = import_regina()
        words = [" ".join(f"g{abs(it) - 1}^{1 if it > 0 else -1}" for it in relator.letters) for relator in self.relators]
        return regina.GroupPresentation(len(self.generators), [word for word in words if word])


@dataclass(frozen=True)
class Term:
    """A vertex surface of a sum.

    Attributes:
        count: its factor
        vector: the vertex surface

    >>> import trinorm
    >>> trinorm.decompose("bkaagj", [(2, 2, 0, 0, 2, 0, 0)])[0].terms
    (Term(count=2, vector=(1, 1, 0, 0, 1, 0, 0)),)
    """
    count: int
    vector: Vector


@dataclass(frozen=True)
class Sum:
    """A vector as a sum: `times` times the vector is the sum of the terms, each multiplied by its factor.

    `str` of it is a block of an input of the command `addup`.

    Attributes:
        vector: the vector
        times: its factor
        terms: a `Term` for each vertex surface

    >>> import trinorm
    >>> print(trinorm.decompose("bkaagj", [(2, 2, 0, 0, 2, 0, 0)])[0], end="")
    vec 2 2 0 0 2 0 0
    times 1 1
    term 2 1 1 0 0 1 0 0
    """
    vector: Vector
    times: int
    terms: Tuple[Term, ...]

    def __str__(self) -> str:
        lines = [vector_line(self.vector), f"times {self.times} {len(self.terms)}"]
        lines += [f"term {it.count} " + " ".join(map(str, it.vector)) for it in self.terms]
        return "".join(line.rstrip() + "\n" for line in lines)


@dataclass(frozen=True)
class Played:
    """What the steps of `play` did.

    Attributes:
        answers: for each step `done`, `undone`, `redone`, `nothing`, or `illegal ..`
        table: the last table

    >>> import trinorm
    >>> trinorm.play("bkaagj", ["14 0", "undo", "undo"]).answers
    ('done', 'undone', 'nothing')
    """
    answers: Tuple[str, ...]
    table: Table

    def to_regina(self) -> Any:
        """The last table as a triangulation of Regina.

        Returns:
            A `regina.Triangulation3`.

        Raises:
            Failed: this Python has no module regina

        >>> import trinorm  # needs regina
        >>> trinorm.play("bkaagj", ["14 0"]).to_regina().size()
        4
        """
        return self.table.to_regina()


@dataclass(frozen=True)
class Descent:
    """The moves of `descend`.

    Attributes:
        reached: whether they lead to the standard 3-sphere
        moves: the moves, in order
        table: the last table

    >>> import trinorm
    >>> trinorm.descend("bkaagb").reached
    False
    """
    reached: bool
    moves: Tuple[str, ...]
    table: Table

    def to_regina(self) -> Any:
        """The last table as a triangulation of Regina.

        Returns:
            A `regina.Triangulation3`.

        Raises:
            Failed: this Python has no module regina

        >>> import trinorm  # needs regina
        >>> trinorm.descend("bkaagb").to_regina().isoSig()
        'bkaagb'
        """
        return self.table.to_regina()


@dataclass(frozen=True)
class Made:
    """A triangulated 3-sphere that `make` has made.

    Attributes:
        table: its gluing table
        moves: moves that lead from it to the standard 3-sphere

    >>> import trinorm
    >>> len(trinorm.make(seed=0, moves=2).table)
    3
    """
    table: Table
    moves: Tuple[str, ...]

    def to_regina(self) -> Any:
        """The sphere as a triangulation of Regina.

        Returns:
            A `regina.Triangulation3`.

        Raises:
            Failed: this Python has no module regina

        >>> import trinorm  # needs regina
        >>> trinorm.make(seed=0, moves=2).to_regina().isSphere()
        True
        """
        return self.table.to_regina()


@dataclass(frozen=True)
class Bulk:
    """What `bulk` counts.

    Attributes:
        seed, moves: as they were given; the moves that were played
        tetrahedra: their number
        certificate: the number of moves that `check` accepted
        surfaces: the number of vertex surfaces
        largest: their greatest entry
        linking: how many have no quads

    >>> import trinorm
    >>> trinorm.bulk(seed=5, moves=5)
    Bulk(seed=5, moves=5, tetrahedra=6, certificate=5, surfaces=16, largest=2, linking=2)
    """
    seed: int
    moves: int
    tetrahedra: int
    certificate: int
    surfaces: int
    largest: int
    linking: int

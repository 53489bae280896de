"""Pachner moves on closed triangulations in this process, with the numbers that the program's `play` gives. Nothing is
proved of them: moves that are found by them are checked by `check`.
"""
from __future__ import annotations

import itertools
from typing import Dict, List, NamedTuple, Optional, Sequence, Tuple, cast

from .tables import Gluing, Images, Table

# a tetrahedron that is reached, and the images of the vertices
Glue = Tuple[int, Images]
# the vertices of a tetrahedron that are the core of a move, by their number
CORES: Dict[int, Tuple[Tuple[int, ...], ...]] = {
    size: tuple(itertools.combinations(range(4), size)) for size in range(1, 5)}
PERMUTATIONS = cast(Tuple[Images, ...], tuple(itertools.permutations(range(4))))
# the labels of each facet of a 4-simplex, ascending
LABELS = tuple(tuple(label for label in range(5) if label != facet) for facet in range(5))


class Facet(NamedTuple):
    """A tetrahedron in the boundary of a 4-simplex.

    labels: those of its vertices
    vertices: its vertex with each label from 0 to 4; 4 for the label that it lacks
    """
    tet: int
    labels: Tuple[int, ...]
    vertices: Tuple[int, ...]


class Move(NamedTuple):
    """A move: the vertices of the core in a tetrahedron, and the facets that are replaced, by the label that they lack."""
    tet: int
    core: Tuple[int, ...]
    facets: Dict[int, Facet]


def _facet(tet: int, labels: Sequence[int]) -> Facet:
    vertices = [4] * 5
    for vertex, label in enumerate(labels):
        vertices[label] = vertex
    return Facet(tet, tuple(labels), tuple(vertices))


def _vertex(facet: int, label: int) -> int:
    """The vertex with this label in the new facet that lacks another one."""
    return label - (label > facet)


def _images(images: Sequence[int]) -> Images:
    return images[0], images[1], images[2], images[3]


def inverse(images: Images) -> Images:
    """The inverse of a permutation."""
    made = [0] * 4
    for vertex, image in enumerate(images):
        made[image] = vertex
    return _images(made)


class Triangulation:
    """A closed triangulation. Tetrahedra keep their keys as long as they stay; `order` has them by number."""

    def __init__(self, glue: Dict[int, List[Glue]], order: List[int], fresh: int) -> None:
        self.glue, self.order = glue, order
        self._new = fresh

    @classmethod
    def of(cls, table: Table) -> Optional[Triangulation]:
        """The triangulation of a table; None if it has a boundary face."""
        glue = {tet: [(it.tet, it.images) for it in row if it is not None] for tet, row in enumerate(table.rows)}
        return cls(glue, list(glue), len(glue)) if all(len(it) == 4 for it in glue.values()) else None

    def table(self) -> Table:
        """Its table."""
        number = {tet: at for at, tet in enumerate(self.order)}
        rows = ([Gluing(number[it], images) for it, images in self.glue[tet]] for tet in self.order)
        return Table(tuple((row[0], row[1], row[2], row[3]) for row in rows))

    def __len__(self) -> int:
        return len(self.order)

    def copy(self) -> Triangulation:
        """A copy; moves of one leave the other as it is."""
        return Triangulation({tet: list(row) for tet, row in self.glue.items()}, list(self.order), self._new)

    def move(self, tet: int, core: Tuple[int, ...]) -> Optional[Move]:
        """The move with this core, ascending vertices of a tetrahedron; None if it isn't legal."""
        others = [it for it in range(4) if it not in core]
        labels = [0] * 4
        for label, vertex in enumerate([*core, *others]):
            labels[vertex] = label
        facets, tets = {4: _facet(tet, labels)}, {tet}
        for label, vertex in enumerate(others, len(core)):
            there, images = self.glue[tet][vertex]
            if there in tets:
                return None
            tets.add(there)
            seen = [4] * 4
            for it in range(4):
                if it != vertex:
                    seen[images[it]] = labels[it]
            facets[label] = _facet(there, seen)
        pairs = itertools.combinations(range(len(core), 4), 2)
        return Move(tet, core, facets) if all(self._match(facets, *pair) for pair in pairs) else None

    def _match(self, facets: Dict[int, Facet], one: int, other: int) -> bool:
        """Whether the facets that lack these labels are glued to each other label by label."""
        here, there = facets[one], facets[other]
        face = here.vertices[other]
        tet, images = self.glue[here.tet][face]
        return tet == there.tet and all(there.labels[images[it]] == (one if it == face else here.labels[it])
                                        for it in range(4))

    def named(self, word: str) -> Optional[Move]:
        """The move of a line of `check`; None if it isn't legal."""
        kind, tet, *rest = word.split()
        core = tuple(map(int, rest[0])) if rest else CORES[4][0]
        return self.move(self.order[int(tet)], CORES[3][3 - core[0]] if kind == "23" else core)

    def name(self, move: Move) -> str:
        """The line of `check` of a move that isn't played yet."""
        size, tet = len(move.core), self.order.index(move.tet)
        core = {4: "", 3: f" {6 - sum(move.core)}"}.get(size, f" {''.join(map(str, move.core))}")
        return f"{5 - size}{size} {tet}{core}"

    def play(self, move: Move) -> List[int]:
        """Plays a legal move. Returns the new tetrahedra, by the label that they lack."""
        size = len(move.core)
        new = list(range(self._new, self._new + size))
        self._new += size
        rows: List[List[Glue]] = [[self._inside(new, i, label) for label in LABELS[i]] for i in range(size)]
        outside = {(it.tet, it.vertices[i]): (lacks, i) for lacks, it in move.facets.items() for i in range(size)}
        for (tet, face), (lacks, i) in outside.items():
            there, images = self.glue[tet][face]
            vertices = move.facets[lacks].vertices
            to = _images([images[face if label == lacks else vertices[label]] for label in LABELS[i]])
            behind = outside.get((there, images[face]))
            if behind is None:
                self.glue[there][images[face]] = (new[i], inverse(to))
            else:
                label, j = behind
                labels = [*move.facets[label].labels]
                labels[images[face]] = label
                there, to = new[j], _images([_vertex(j, labels[it]) for it in to])
            rows[i][_vertex(i, lacks)] = (there, to)
        for facet in move.facets.values():
            del self.glue[facet.tet]
            self.order.remove(facet.tet)
        self.glue.update(zip(new, rows))
        self.order.extend(new)
        return new

    @staticmethod
    def _inside(new: List[int], i: int, label: int) -> Glue:
        """The gluing of the new facet `i` at its vertex with this label, if that leads to another new facet."""
        if label >= len(new):
            return -1, PERMUTATIONS[0]
        return new[label], _images([_vertex(label, i if it == label else it) for it in LABELS[i]])


class Labelling(NamedTuple):
    """A canonical labelling of a triangulation.

    form: the table in canonical numbers; two triangulations with the same one are isomorphic
    images: the canonical number of each tetrahedron, and the images of its vertices
    """
    form: Tuple[Tuple[int, Images], ...]
    images: Dict[int, Tuple[int, Images]]


def _traversal(t: Triangulation, tet: int, images: Images) -> Labelling:
    """The labelling that begins at a tetrahedron, with these images of its vertices."""
    seen, order = {tet: (0, images)}, [tet]
    form: List[Tuple[int, Images]] = []
    for here in order:
        to = seen[here][1]
        back = inverse(to)
        for face in range(4):
            there, across = t.glue[here][back[face]]
            if there not in seen:
                seen[there] = (len(order), _images([to[it] for it in inverse(across)]))
                order.append(there)
            number, out = seen[there]
            form.append((number, _images([out[across[it]] for it in back])))
    return Labelling(tuple(form), seen)


def labelling(t: Triangulation) -> Labelling:
    """The canonical labelling of a connected triangulation of a few tetrahedra: the least of all traversals."""
    return min((_traversal(t, tet, images) for tet in t.order for images in PERMUTATIONS), key=lambda it: it.form)


class Alike:
    """Two isomorphic triangulations, in which the same moves are played side by side."""

    def __init__(self, one: Triangulation, other: Triangulation, labellings: Tuple[Labelling, Labelling]) -> None:
        self.one, self.other = one, other
        here, there = labellings
        at = {number: (tet, inverse(images)) for tet, (number, images) in there.images.items()}
        self._images: Dict[int, Tuple[int, Images]] = {}
        for tet, (number, images) in here.images.items():
            key, back = at[number]
            self._images[tet] = (key, _images([back[it] for it in images]))

    def play(self, move: Move) -> str:
        """Plays a move of the first one in both. Returns its line of `check` for the second one."""
        tet, images = self._images[move.tet]
        same = self.other.move(tet, tuple(sorted(images[it] for it in move.core)))
        if same is None:
            raise ValueError("the triangulations are not isomorphic")
        word = self.other.name(same)
        labels = [same.facets[4].labels[images[move.facets[4].vertices[label]]] for label in range(4)] + [4]
        here, there = self.one.play(move), self.other.play(same)
        for i, key in enumerate(here):
            to = [_vertex(labels[i], labels[label]) for label in LABELS[i]]
            self._images[key] = (there[labels[i]], _images(to))
        return word

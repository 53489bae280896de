"""Lists of isomorphic triangulations: relabellings are drawn, and what the program prints of both tables is compared.

That lists correspond is a theorem; here the program, the package's reading of it, and the columns of this test meet.
"""
from __future__ import annotations

import collections
import random
import unittest
from typing import ClassVar, Dict, List, Optional, Sequence, Tuple

import trinorm
from trinorm.options import Coords, WithTriangles
from trinorm.program import REPOSITORY
from trinorm.tables import Gluing, Images, Table

# the partner of vertex 0 in each type of quads
PARTNERS = (1, 2, 3)
WIDTHS: Dict[Coords, int] = {"standard": 7, "quad": 3, "octagon": 10}
# those in which surfaces are described
OF_COMPONENTS: Tuple[WithTriangles, ...] = ("standard", "octagon")


def type_of(images: Images, kind: int) -> int:
    """The type of the quads into which a relabelling of vertices takes quads of a type."""
    one, other = images[0], images[PARTNERS[kind]]
    pair = (one, other) if 0 in (one, other) else tuple({0, 1, 2, 3} - {one, other})
    return PARTNERS.index(max(pair))


def column_under(coords: Coords, tets: Sequence[int], perms: Sequence[Images], column: int) -> int:
    """The column of the disc type into which a relabelling takes that of a column."""
    width = WIDTHS[coords]
    tet, kind = divmod(column, width)
    triangles = 0 if coords == "quad" else 4
    if kind < triangles:
        return width * tets[tet] + perms[tet][kind]
    octagon, kind = divmod(kind - triangles, 3)
    return width * tets[tet] + triangles + 3 * octagon + type_of(perms[tet], kind)


def relabelled_vector(coords: Coords, tets: Sequence[int], perms: Sequence[Images], vector: Sequence[int]) -> Tuple[int, ...]:
    """The vector of the same surface after a relabelling."""
    made = [0] * len(vector)
    for column, entry in enumerate(vector):
        made[column_under(coords, tets, perms, column)] = entry
    return tuple(made)


def relabelled(table: Table, tets: Sequence[int], perms: Sequence[Images]) -> Table:
    """The table with new numbers and vertices: tetrahedron t becomes tets[t], and its vertex v becomes perms[t][v]."""
    rows: List[List[Optional[Gluing]]] = [[None] * 4 for _ in table.rows]
    for tet, row in enumerate(table.rows):
        for face, gluing in enumerate(row):
            if gluing is not None:
                back = {perms[tet][v]: v for v in range(4)}
                images = four([perms[gluing.tet][gluing.images[back[v]]] for v in range(4)])
                rows[tets[tet]][perms[tet][face]] = Gluing(tets[gluing.tet], images)
    return Table(tuple((row[0], row[1], row[2], row[3]) for row in rows))


def four(numbers: Sequence[int]) -> Images:
    """Four numbers as images."""
    return (numbers[0], numbers[1], numbers[2], numbers[3])


class Relabellings(unittest.TestCase):
    """Triangulations of a census and their images under drawn relabellings."""

    cases: ClassVar[List[Tuple[str, Table, List[int], List[Images]]]] = []

    @classmethod
    def setUpClass(cls) -> None:
        chosen = random.Random(11)
        signatures = (REPOSITORY / "bench" / "census_signatures.txt").read_text("ascii").split()
        short = [it for it in signatures if len(it) < 24]
        cls.cases = []
        for signature in [*chosen.sample(short, 12), "cPcbbbiht", "bGab", "dLQbcccajqs"]:
            table = trinorm.table(signature)
            tets = chosen.sample(range(len(table)), len(table))
            perms = [four(chosen.sample(range(4), 4)) for _ in tets]
            cls.cases.append((signature, table, tets, perms))

    def test_images_are_isomorphic(self) -> None:
        for signature, table, tets, perms in self.cases:
            with self.subTest(signature):
                image = relabelled(table, tets, perms)
                self.assertEqual(trinorm.sig(image), trinorm.sig(table))
                self.assertIsNotNone(trinorm.same(table, image))

    def test_lists_correspond(self) -> None:
        for signature, table, tets, perms in self.cases:
            image = relabelled(table, tets, perms)
            for coords in WIDTHS:
                with self.subTest(signature, coords=coords):
                    moved = [relabelled_vector(coords, tets, perms, it) for it in trinorm.surfaces(table, coords=coords)]
                    self.assertEqual(sorted(moved), [tuple(it) for it in trinorm.surfaces(image, coords=coords)])

    def test_a_low_limit_can_depend_on_the_labelling(self) -> None:
        table = trinorm.table("cPcbbbiht")
        image = relabelled(table, [1, 0], [(0, 1, 2, 3), (0, 1, 2, 3)])
        self.assertEqual(trinorm.sig(image), trinorm.sig(table))
        self.assertEqual(len(trinorm.surfaces(table, max_entry=1)), 1)
        with self.assertRaises(trinorm.Refused) as refusal:
            trinorm.surfaces(image, max_entry=1)
        self.assertEqual(refusal.exception.status, 5)
        self.assertEqual(len(trinorm.surfaces(image)), 1)

    def test_surfaces_have_the_same_components(self) -> None:
        for signature, table, tets, perms in self.cases:
            image = relabelled(table, tets, perms)
            if not trinorm.info(table).edges or any(not edge.valid for edge in trinorm.info(table).edges):
                continue
            for coords in OF_COMPONENTS:
                vectors = [tuple(map(sum, zip(one, other))) for one, other in zip(*[iter(trinorm.surfaces(table, coords=coords))] * 2)]
                vectors = [it for it, said in zip(vectors, trinorm.verify(table, vectors, coords=coords)) if said.kind == "solution"]
                moved = [relabelled_vector(coords, tets, perms, it) for it in vectors]
                for first, second in zip(trinorm.describe(table, vectors, coords=coords), trinorm.describe(image, moved, coords=coords)):
                    with self.subTest(signature, coords=coords, vector=first.vector):
                        self.assertEqual((first.euler, first.linking, first.boundary), (second.euler, second.linking, second.boundary))
                        here = collections.Counter((it.euler, it.sides, it.orientable,
                                                    relabelled_vector(coords, tets, perms, it.vector)) for it in first.components)
                        there = collections.Counter((it.euler, it.sides, it.orientable, tuple(it.vector)) for it in second.components)
                        self.assertEqual(here, there)

    def test_crushed_tables_are_isomorphic(self) -> None:
        for signature, table, tets, perms in self.cases:
            image = relabelled(table, tets, perms)
            for vector in trinorm.surfaces(table)[:12]:
                with self.subTest(signature, vector=tuple(vector)):
                    moved = relabelled_vector("standard", tets, perms, vector)
                    self.assertEqual(trinorm.csig(trinorm.crush(table, vector)), trinorm.csig(trinorm.crush(image, moved)))

    def test_covers_are_isomorphic(self) -> None:
        for signature, table, tets, perms in self.cases:
            with self.subTest(signature):
                self.assertEqual(trinorm.csig(trinorm.cover(table).table), trinorm.csig(trinorm.cover(relabelled(table, tets, perms)).table))

    def test_presentations_have_as_many_generators_and_relators(self) -> None:
        for signature, table, tets, perms in self.cases:
            if not all(edge.valid for edge in trinorm.info(table).edges):
                continue
            with self.subTest(signature):
                one, other = trinorm.pi1(table), trinorm.pi1(relabelled(table, tets, perms))
                self.assertEqual((len(one.generators), len(one.relators)), (len(other.generators), len(other.relators)))

    def test_lengths_of_relators_depend_on_the_numbering(self) -> None:
        # the example of docs/DECISIONS.md
        image = ["1:3012 1:0213 2:3012 2:1023", "2:2031 2:1023 0:0213 0:1230", "1:1023 0:1230 1:1302 0:1023"]
        self.assertIsNotNone(trinorm.same("dLQbcccdero", image))
        lengths = [[len(it.letters) for it in trinorm.pi1(t).relators] for t in ("dLQbcccdero", image)]
        self.assertEqual(lengths, [[5, 4, 3], [4, 4, 4]])


if __name__ == "__main__":
    unittest.main()

"""Each command on a small triangulation, with the answer that the pages tell."""
import unittest
from typing import List, Tuple

import trinorm
from trinorm import Gluing, Table
from trinorm.options import Order, reading

ORDERS: Tuple[Order, ...] = ("given", "short", "zeros")
SPHERE = "bkaagj"
FIGURE_EIGHT = "cPcbbbiht"
TORUS = (1, 1, 0, 0, 1, 0, 0)
LINK = (1, 1, 1, 1, 0, 0, 0)
GIESEKING = ["0:1203 0:2013 0:0231 0:0312"]
BALL_AND_SPHERE = ["- - - -", "1:1023 1:1023 1:1230 1:3012"]
SPHERE_AND_BALL = ["0:1023 0:1023 0:1230 0:3012", "- - - -"]
MADE = "tri 3\n1:3120 1:3120 1:3120 2:1032\n2:0123 0:3120 0:3120 0:3120\n1:0123 2:0321 0:1032 2:0321\n"
PARTED = "tri 4\n1:0123 2:1023 3:1203 1:0123\n0:0123 2:0123 3:0213 0:0123\n0:1023 1:0123 3:0123 3:1203\n0:2013 1:0213 2:0123 2:2013\n"


class Lists(unittest.TestCase):
    def test_surfaces(self) -> None:
        self.assertEqual(trinorm.surfaces(SPHERE), [TORUS, LINK])
        self.assertEqual(trinorm.surfaces(FIGURE_EIGHT), [LINK + LINK])
        quads = [(0, 0, 2, 0, 0, 1), (0, 1, 0, 0, 2, 0), (0, 1, 0, 2, 0, 0), (2, 0, 0, 0, 0, 1)]
        self.assertEqual(trinorm.surfaces(FIGURE_EIGHT, coords="quad"), quads)
        self.assertEqual(trinorm.surfaces([]), [])

    def test_orders_list_the_same(self) -> None:
        lists = [trinorm.surfaces("gLLPQccdfeefqffaqnw", order=it) for it in ORDERS]
        self.assertTrue(lists[0] == lists[1] == lists[2])
        self.assertEqual(lists[0], sorted(lists[0]))

    def test_rays(self) -> None:
        self.assertEqual(trinorm.rays([[1, -2, 0], [0, 1, -2]]), [(4, 2, 1)])
        self.assertEqual(trinorm.rays([], columns=2), [(0, 1), (1, 0)])

    def test_decompose_and_addup(self) -> None:
        sums = trinorm.decompose(SPHERE, [(3, 3, 1, 1, 2, 0, 0), (0,) * 7])
        terms = (trinorm.Term(2, TORUS), trinorm.Term(1, LINK))
        self.assertEqual(sums, [trinorm.Sum((3, 3, 1, 1, 2, 0, 0), 1, terms), trinorm.Sum((0,) * 7, 1, ())])
        self.assertTrue(trinorm.addup(SPHERE, sums))
        self.assertEqual(trinorm.addup(SPHERE, []), trinorm.Accepted())
        for wrong, kind, named in ((trinorm.Sum(TORUS, 2, (trinorm.Term(1, TORUS),)), "vector not-equal", {"vector": 0, "column": 0}),
                                   (trinorm.Sum(TORUS, 0, ()), "vector zero-times", {"vector": 0}),
                                   (trinorm.Sum(TORUS, 1, (trinorm.Term(1, (1,) * 6),)), "vector term length", {"sum": 0, "term": 0, "entries": 6})):
            verdict = trinorm.addup(SPHERE, [wrong])
            self.assertEqual((bool(verdict), verdict.kind, verdict.named), (False, kind, named))
        with self.assertRaises(trinorm.Refused):
            trinorm.addup("bkaagjx", sums)


class Surfaces(unittest.TestCase):
    def test_verify(self) -> None:
        said = trinorm.verify(SPHERE, [TORUS, (1, 0, 0, 0, 0, 0, 0), (0, 0, 1, 1, 0, 1, 1), TORUS[1:]])
        self.assertEqual([(it.kind, it.places) for it in said], [("solution", ()), ("fails", (0,)), ("clash", (5, 6)), ("length", (6,))])
        self.assertEqual([it.named for it in said], [{}, {"row": 0}, {"first_column": 5, "second_column": 6}, {"entries": 6}])
        self.assertEqual(list(map(bool, said)), [True, False, False, False])
        self.assertEqual([it.is_solution for it in said], [True, False, False, False])

    def test_describe(self) -> None:
        klein, torus = trinorm.describe("bkaajj", [(0, 0, 0, 0, 0, 1, 0), (0, 0, 0, 0, 0, 2, 0)])
        self.assertEqual((klein.euler, klein.linking, klein.boundary, len(klein.components)), (0, False, False, 1))
        self.assertEqual(klein.components[0], trinorm.Component(0, 1, False, (0, 0, 0, 0, 0, 1, 0)))
        self.assertEqual(torus.components[0], trinorm.Component(0, 2, True, (0, 0, 0, 0, 0, 2, 0)))

    def test_describe_octagons(self) -> None:
        [sphere] = trinorm.describe(SPHERE, [(0, 0, 1, 1, 0, 0, 0, 1, 0, 0)], coords="octagon")
        self.assertEqual((sphere.euler, sphere.components[0].sides), (2, 2))

    def test_describe_several_components(self) -> None:
        [both] = trinorm.describe(SPHERE, [tuple(a + b for a, b in zip(TORUS, LINK))])
        self.assertEqual(sorted(it.euler for it in both.components), [0, 2])

    def test_lift_and_crush(self) -> None:
        self.assertEqual(trinorm.lift(SPHERE, [(1, 0, 0)]), [TORUS])
        two = ["1:0123 1:0123 - -", "0:0123 0:0123 - -"]
        crushed = trinorm.crush(two, (1, 1, 0, 0, 0, 0, 0, 0, 0, 0, 0, 1, 0, 0))
        self.assertEqual(str(crushed), "tri 1\n0:1023 0:1023 - -\n")
        self.assertEqual(len(trinorm.crush(SPHERE, TORUS)), 0)


class Triangulations(unittest.TestCase):
    def test_info(self) -> None:
        info = trinorm.info(FIGURE_EIGHT)
        self.assertEqual((info.tetrahedra, info.connected, info.orientable, info.closed, info.faces, info.euler), (2, True, True, True, 4, 1))
        self.assertEqual(info.vertices, (trinorm.Vertex(8, 0, True, "torus"),))
        self.assertEqual(info.edges, (trinorm.Edge(6, "inner", True),) * 2)

    def test_signatures(self) -> None:
        self.assertEqual(trinorm.sig("bkaagn"), SPHERE)
        self.assertEqual(trinorm.csig(BALL_AND_SPHERE), "baa.bkaagj")

    def test_same(self) -> None:
        self.assertEqual(trinorm.same("bkaagn", SPHERE), trinorm.Isomorphism(((0, (0, 1, 3, 2)),)))
        self.assertIsNone(trinorm.same("bkaagb", SPHERE))
        self.assertEqual(trinorm.csame(BALL_AND_SPHERE, SPHERE_AND_BALL), trinorm.Isomorphism(((1, (0, 1, 2, 3)), (0, (0, 1, 2, 3)))))

    def test_group(self) -> None:
        self.assertEqual(trinorm.group(["bkaagn", "bkaagb", SPHERE]), trinorm.Grouping((0, 1, 0), (SPHERE, "bkaagb")))
        self.assertEqual(trinorm.group([]), trinorm.Grouping((), ()))

    def test_cover(self) -> None:
        cover = trinorm.cover(GIESEKING)
        self.assertEqual((cover.over, cover.connected), (((0, 0), (0, 1)), True))
        self.assertEqual(trinorm.sig(cover.table), FIGURE_EIGHT)

    def test_pi1(self) -> None:
        group = trinorm.pi1(GIESEKING)
        self.assertEqual(group.generators, (trinorm.Generator(0, True), trinorm.Generator(1, True)))
        self.assertEqual(group.relators, (trinorm.Relator(0, (2, -1, -2, 1, 1, 2)),))


class Moves(unittest.TestCase):
    def test_play(self) -> None:
        played = trinorm.play(SPHERE, ["14 0", "41 0 3", "undo", "undo", "undo", "23 0 0"])
        self.assertEqual(played.answers[:5], ("done", "done", "undone", "undone", "nothing"))
        self.assertTrue(played.answers[5].startswith("illegal "))
        self.assertEqual(str(played.table), "tri 1\n0:1023 0:1023 0:1230 0:3012\n")

    def test_table(self) -> None:
        self.assertEqual(trinorm.table(SPHERE).rows[0][2], Gluing(0, (1, 2, 3, 0)))
        self.assertEqual(trinorm.table("tri 0"), Table(()))

    def test_check(self) -> None:
        self.assertTrue(trinorm.check(MADE, ["23 1 0", "41 3 2"]))
        self.assertIs(trinorm.check(MADE, ["23 1 0", "41 3 2"]).required().named.get("move"), None)
        wrong = trinorm.check(SPHERE, ["14 0", "41 0 3", "23 0 0"])
        self.assertEqual((bool(wrong), wrong.kind.split()[:2], wrong.named), (False, ["check", "illegal"], {"move": 3}))
        with self.assertRaisesRegex(trinorm.Failed, r"^refused: check not-standard bkaagb \(.*bkaagb"):
            trinorm.check("bkaagb", []).required()
        self.assertEqual(trinorm.check("bkaagb", []).named, {"signature": "bkaagb"})
        self.assertEqual(trinorm.check(["- - - -"] * 2, []).named, {"triangulation": 0, "tetrahedron": 1})
        wrong_inputs: Tuple[Tuple[str, List[str]], ...] = (("bkaagjx", []), (SPHERE, ["no move"]))
        for t, moves in wrong_inputs:
            with self.assertRaises(trinorm.Refused):
                trinorm.check(t, moves)

    def test_methods_of_tables(self) -> None:
        """Each is the function of its name."""
        t, quads = trinorm.table("cPcbbbiht"), trinorm.surfaces("cPcbbbiht", "quad")
        for name in (*reading("table"), "described", "count", "spheres", "tori", "zero_efficient"):
            self.assertEqual(getattr(t, name)(), getattr(trinorm, name)(t), name)
        self.assertEqual(t.surfaces("quad", order="short"), quads)
        self.assertEqual(t.surfaces(coords="quad", timeout=60), quads)
        self.assertEqual(t.verify(quads, "quad"), trinorm.verify(t, quads, "quad"))
        sphere = trinorm.table(SPHERE)
        self.assertEqual(sphere.certify(seed=1), trinorm.certify(sphere, seed=1))
        self.assertEqual((sphere.describe([TORUS]), sphere.crush(TORUS)), (trinorm.describe(sphere, [TORUS]), trinorm.crush(sphere, TORUS)))
        self.assertEqual((sphere.lift([(1, 0, 0)]), sphere.decompose([TORUS])), (trinorm.lift(sphere, [(1, 0, 0)]), trinorm.decompose(sphere, [TORUS])))
        self.assertEqual((sphere.play(["14 0"]), sphere.check([])), (trinorm.play(sphere, ["14 0"]), trinorm.check(sphere, [])))
        self.assertEqual(sphere.same("bkaagn"), trinorm.same(sphere, "bkaagn"))

    def test_descend(self) -> None:
        descent = trinorm.descend(PARTED)
        self.assertEqual((descent.reached, descent.moves, len(descent.table)), (True, ("41 0 3",), 1))
        self.assertTrue(trinorm.check(PARTED, descent.moves))
        self.assertEqual(trinorm.descend("bkaagb").reached, False)

    def test_make(self) -> None:
        made = trinorm.make(0, 2)
        self.assertEqual((str(made.table), made.moves), (MADE, ("23 1 0", "41 3 2")))
        self.assertTrue(trinorm.check(made.table, made.moves))

    def test_bulk(self) -> None:
        self.assertEqual(trinorm.bulk(5, 5), trinorm.Bulk(5, 5, 6, 5, 16, 2, 2))


if __name__ == "__main__":
    unittest.main()

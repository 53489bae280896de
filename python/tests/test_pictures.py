"""Pictures are well-formed, and have what they are to show: each gluing, each disc, each edge once."""
import collections
import itertools
import json
import math
import re
import unittest
import xml.etree.ElementTree as xml
from typing import Any, Collection, Counter, Dict, Iterator, List, Sequence, Tuple

import trinorm
from trinorm import Table, disc_pictures, drawing, graph_layout, pictures
from trinorm.disc_pictures import EDGES, Discs, edge_classes, place_of_vertex, vertex_links
from trinorm.graph_layout import APART, Pair, places, ports
from trinorm.html_tables import Shown
from trinorm.options import Coords
from trinorm.pictures import LABEL, face_pairing_dot, face_pairing_svg, face_pairs, growth_points, growth_svg
from trinorm.tables import BadArgument, row_of

DISCS: List[Dict[str, Any]] = disc_pictures.DISCS
FIGURE_EIGHT = Table.parse("tri 2\n1:0123 1:1203 1:1032 1:3021\n0:0123 0:1320 0:2013 0:1032\n")
SPHERE = Table.parse("tri 1\n0:1023 0:1023 0:1230 0:3012\n")
BALL = Table.parse("tri 1\n- - - -\n")
# with the column of the first disc that a vector counts
COORDINATES: List[Tuple[Coords, int]] = [("standard", 0), ("quad", 4), ("octagon", 0)]
SIGNATURES = ("bkaagj", "cPcbbbiht", "eLMkabcddbrrag", "uLMzMzMzMzMzMPcbcdefghijklmnopqrsttthhhhhhhhhhhhhhhhhhhah")


def elements(svg: str, kind: str, **attributes: str) -> List[xml.Element]:
    """The elements of a kind with these attributes."""
    found = xml.fromstring(svg).iter(f"{{http://www.w3.org/2000/svg}}{kind}")
    return [it for it in found if all(it.get(name.rstrip("_")) == value for name, value in attributes.items())]


def attribute(element: xml.Element, name: str) -> str:
    """An attribute that an element has."""
    found = element.get(name)
    assert found is not None
    return found


def count(svg: str, kind: str, **attributes: str) -> int:
    return len(elements(svg, kind, **attributes))


def examples() -> Iterator[Table]:
    yield from (Table(()), BALL, SPHERE, FIGURE_EIGHT, Table.parse("tri 3\n- - - -\n2:1023 - - -\n- 1:1023 - -\n"))
    yield from map(trinorm.table, SIGNATURES)
    for seed in range(1, 4):
        yield trinorm.make(seed=seed, moves=40).table


class FacePairings(unittest.TestCase):
    def test_pairs(self) -> None:
        self.assertEqual(face_pairs(FIGURE_EIGHT), [(0, 0, 1, 0), (0, 1, 1, 2), (0, 2, 1, 3), (0, 3, 1, 1)])
        self.assertEqual(face_pairs(SPHERE), [(0, 0, 0, 1), (0, 2, 0, 3)])

    def test_dot(self) -> None:
        self.assertIn('0 -- 1 [taillabel="1", headlabel="2"];', face_pairing_dot(FIGURE_EIGHT))
        self.assertEqual(face_pairing_dot(BALL).count("--"), 0)

    def test_tables_that_are_no_gluing_tables(self) -> None:
        """Another tetrahedron, the face itself, no permutation, no way back, another way back."""
        for rows, place in (("1:1023 0:1023 - -", "0"), ("- 0:0123 - -", "1"), ("0:1123 0:1023 - -", "0"), ("- - 0:0132 -", "2"), ("0:1023 0:1032 - -", "0")):
            for call in (face_pairing_svg, face_pairing_dot, face_pairs):
                with self.assertRaisesRegex(BadArgument, f"are not those of a gluing table: face {place} of tetrahedron 0 is glued by"):
                    call(Table((row_of(rows),)))

    def test_each_gluing_face_and_tetrahedron_once(self) -> None:
        for table in examples():
            svg = face_pairing_svg(table)
            self.assertEqual(count(svg, "path", class_="gluing"), len(face_pairs(table)))
            self.assertEqual(count(svg, "circle"), len(table))
            labels = collections.Counter(it.text for it in elements(svg, "text", class_="face"))
            self.assertEqual(labels, {str(face): len(table) for face in range(4) if len(table)})
        self.assertIn("stroke-dasharray", face_pairing_svg(BALL))

    def test_a_gluing_begins_and_ends_at_its_faces(self) -> None:
        for table in examples():
            pairs = face_pairs(table)
            at = [(float(attribute(it, "cx")), float(attribute(it, "cy"))) for it in elements(face_pairing_svg(table), "circle")]
            for pair, path in zip(pairs, elements(face_pairing_svg(table), "path")):
                points = [tuple(map(float, word.lstrip("MC").split(","))) for word in attribute(path, "d").split()]
                self.assertAlmostEqual(math.dist(points[0], at[pair.tet]), 13, delta=0.2)
                self.assertAlmostEqual(math.dist(points[3], at[pair.other_tet]), 13, delta=0.2)

    def test_a_boundary_face_is_a_short_stroke(self) -> None:
        """Of six units, from the circle outwards."""
        svg = face_pairing_svg(BALL)
        [circle], strokes = elements(svg, "circle"), elements(svg, "line")
        center = float(attribute(circle, "cx")), float(attribute(circle, "cy"))
        ends = [[(float(attribute(it, f"x{end}")), float(attribute(it, f"y{end}"))) for end in (1, 2)] for it in strokes]
        self.assertEqual([[round(math.dist(center, end)) for end in pair] for pair in ends], [[13, 19]] * 4)

    def test_all_tetrahedra_are_in_the_picture(self) -> None:
        """With room for their gluings on all sides."""
        for table in examples():
            picture = xml.fromstring(face_pairing_svg(table))
            wide, high = float(attribute(picture, "width")), float(attribute(picture, "height"))
            for circle in elements(face_pairing_svg(table), "circle"):
                x, y = float(attribute(circle, "cx")), float(attribute(circle, "cy"))
                self.assertTrue(84.4 < x < wide - 84.4 and 84.4 < y < high - 84.4, (table, x, y, wide, high))

    def test_thirty_tetrahedra_are_readable(self) -> None:
        """None is on another, and no two numbers of faces are."""
        made = [trinorm.make(seed=seed, moves=30).table for seed in range(1, 6)]
        self.assertTrue(any(len(table) >= 30 for table in made) or max(map(len, made)) > 20)
        for table in [*made, trinorm.table(SIGNATURES[-1])]:
            pairs = face_pairs(table)
            at = places(len(table), pairs)
            for one, other in itertools.combinations(at, 2):
                self.assertGreater(math.dist(one, other), 0.9 * APART)
            angles = ports(at, pairs)
            for tet, center in enumerate(at):
                labels = [(center[0] + LABEL * math.cos(angles[tet][face] + 0.36), center[1] + LABEL * math.sin(angles[tet][face] + 0.36))
                          for face in range(4)]
                for one, other in itertools.combinations(labels, 2):
                    self.assertGreater(math.dist(one, other), 13)

    def test_the_same_each_time(self) -> None:
        table = trinorm.table(SIGNATURES[-1])
        self.assertEqual(face_pairing_svg(table), face_pairing_svg(trinorm.table(SIGNATURES[-1])))

    def test_large_ones_take_no_long(self) -> None:
        chain = Table(tuple(trinorm.tables.row_of(
            ["-", "-", f"{tet - 1}:0132" if tet else "-", f"{tet + 1}:0132" if tet < 399 else "-"]) for tet in range(400)))
        self.assertEqual(count(face_pairing_svg(chain), "circle"), 400)

    def test_a_notebook_shows_it(self) -> None:
        self.assertEqual(SPHERE._repr_svg_(), face_pairing_svg(SPHERE))


class Surfaces(unittest.TestCase):
    def test_each_disc_once(self) -> None:
        for signature in SIGNATURES[:3]:
            for coords, first in COORDINATES:
                for vector in trinorm.surfaces(signature, coords)[:12]:
                    svg = pictures.surface_svg(signature, vector)
                    found = collections.Counter(int(attribute(it, "data-column")) for it in elements(svg, "polygon", class_="disc"))
                    expected: Counter[int] = collections.Counter()
                    each = len(vector) // len(trinorm.table(signature))
                    for column, entry in enumerate(vector):
                        expected[first + column % each] += entry
                    self.assertEqual(found, +expected, vector)

    def test_discs_have_their_corners(self) -> None:
        """Three, four and eight corners, one after another on edges with a face in common."""
        self.assertEqual([len(disc["corners"]) for disc in DISCS], [3] * 4 + [4] * 3 + [8] * 3)
        for disc in DISCS:
            corners = [set(corner[:2]) for corner in disc["corners"]]
            for one, other in zip(corners, corners[1:] + corners[:1]):
                self.assertEqual(len(one | other), 3, disc)
        for disc in DISCS[7:]:
            crossed = collections.Counter(tuple(sorted(corner[:2])) for corner in disc["corners"])
            pair = disc["name"].split()[1].split("/")
            self.assertEqual({edge: 2 if "".join(map(str, edge)) in pair else 1 for edge in EDGES}, crossed)

    def test_discs_do_not_cross(self) -> None:
        """Discs of one tetrahedron have different corners, and those of an edge are in the same order as in the next."""
        for counts in ([2, 1, 0, 3, 2, 0, 0, 0, 0, 0], [0, 1, 1, 0, 0, 3, 0, 0, 0, 0], [1, 1, 2, 0, 0, 0, 0, 0, 3, 0], [1, 2, 0, 1, 0, 0, 0, 2, 0, 0]):
            discs = Discs(0, counts)
            corners = [discs.corner(column, number, corner) for column, disc in enumerate(DISCS) for number in range(counts[column])
                       for corner in disc["corners"]]
            self.assertEqual(len({(round(x, 3), round(y, 3)) for x, y in corners}), len(corners))

    def test_parallel_discs_are_parallel(self) -> None:
        """The arcs of parallel quads and octagons in a face don't cross: their ends are in the same order on both edges."""
        for column in range(4, 10):
            counts = [0] * 10
            counts[column] = 3
            discs = Discs(0, counts)
            corners = DISCS[column]["corners"]
            for one, other in zip(corners, corners[1:] + corners[:1]):
                [shared] = set(one[:2]) & set(other[:2])
                ranks = [[self.rank(discs, column, number, corner, shared) for number in range(3)] for corner in (one, other)]
                self.assertEqual(*[sorted(range(3), key=rank.__getitem__) for rank in ranks])

    @staticmethod
    def rank(discs: Discs, column: int, number: int, corner: Sequence[int], vertex: int) -> float:
        """How far a corner is from a vertex of its edge."""
        return math.dist(discs.corner(column, number, corner), place_of_vertex(0, vertex))

    def test_many_discs(self) -> None:
        svg = pictures.surface_svg("bkaagj", (10 ** 30, 0, 0, 5, 0, 2, 0))
        self.assertEqual(count(svg, "polygon", class_="disc"), 3)
        self.assertIn("1,000,000,000,000,000,000,000,000,000,000 × triangle 0", svg)
        for number, drawn in ((60, 60), (61, 1)):
            self.assertEqual(count(pictures.surface_svg(BALL, (number, 0, 0, 0, 0, 0, 0)), "polygon", class_="disc"), drawn)

    def test_vectors_that_are_none(self) -> None:
        wrong: List[Any] = [(1, 2), (0,) * 14, (), (-1, 0, 0, 0, 0, 0, 0), (0.5,) * 7, "1", 7, None]
        for vector in wrong:
            with self.assertRaises(BadArgument):
                pictures.surface_svg("bkaagj", vector)
        with self.assertRaises(trinorm.Refused):
            pictures.surface_svg("bkaagjx", (0,) * 7)
        expected = r"with 1 tetrahedra a vector has 7 entries \(3 in quad, 10 in octagon coordinates\), not 2"
        with self.assertRaisesRegex(BadArgument, expected):
            pictures.surface_svg("bkaagj", (1, 2))

    def test_discs_are_counted_in_words(self) -> None:
        """Two kinds in a line, the lines one below the other."""
        lines = re.findall(r'y="([0-9.]+)" text-anchor="middle" font-size="10">([^<]*)<', pictures.surface_svg(BALL, (1, 2, 3, 4, 5, 0, 0)))
        self.assertEqual([text for _, text in lines], ["triangle 0, 2 × triangle 1", "3 × triangle 2, 4 × triangle 3", f"5 × {DISCS[4]['name']}"])
        heights = [float(height) for height, _ in lines]
        self.assertEqual([round(lower - upper, 3) for upper, lower in zip(heights, heights[1:])], [12.0, 12.0])


class Edges(unittest.TestCase):
    def test_each_edge_once_with_its_degree(self) -> None:
        for table in examples():
            degrees = [edge.degree for edge in trinorm.info(table).edges]
            self.assertEqual(sorted(collections.Counter(n for numbers in edge_classes(table) for n in numbers.values()).items()),
                             list(enumerate(degrees)))
            found = collections.Counter(it.text for it in elements(pictures.edges_svg(table), "text", class_="edge"))
            self.assertEqual(found, {f"{number}: {degree}": degree for number, degree in enumerate(degrees)})

    def test_each_edge_has_a_box_of_its_colour(self) -> None:
        """Around its numbers; hues go round by 137.5 degrees."""
        svg = pictures.edges_svg(BALL)
        boxes = [it for it in elements(svg, "rect") if it.get("rx")]
        self.assertEqual([attribute(it, "fill") for it in boxes], [f"hsl({hue},60%,88%)" for hue in ("0", "138", "275", "52", "190", "328")])
        for box, words in zip(boxes, elements(svg, "text", class_="edge")):
            x, y = float(attribute(box, "x")), float(attribute(box, "y"))
            self.assertAlmostEqual(x + 15, float(attribute(words, "x")), delta=0.11)
            self.assertTrue(y < float(attribute(words, "y")) < y + 16)


class Links(unittest.TestCase):
    def test_triangles_and_gluings_once(self) -> None:
        for table in examples():
            vertices = trinorm.info(table).vertices
            self.assertEqual([len(link) for link in vertex_links(table)], [it.degree for it in vertices])
            for number, vertex in enumerate(vertices):
                svg = pictures.vertex_link_svg(table, number)
                self.assertEqual(count(svg, "polygon", class_="triangle"), vertex.degree)
                cuts = collections.Counter(it.text for it in elements(svg, "text", class_="glued"))
                self.assertEqual(cuts, {str(cut): 2 for cut in range(len(cuts))})
                boundary = count(svg, "line", class_="boundary")
                self.assertEqual(boundary == 0, vertex.closed)
                joined = 3 * vertex.degree - boundary - 2 * len(cuts)
                # all else is side by side: two sides that are one
                self.assertEqual(joined % 2, 0)
                sides: Counter[Tuple[Tuple[int, ...], ...]] = collections.Counter()
                for polygon in elements(svg, "polygon", class_="triangle"):
                    corners = [tuple(round(float(it)) for it in word.split(",")) for word in attribute(polygon, "points").split()]
                    sides.update(tuple(sorted(pair)) for pair in itertools.combinations(corners, 2))
                self.assertLessEqual(max(sides.values()), 2)
                self.assertGreaterEqual(sum(it == 2 for it in sides.values()), joined // 2)

    def test_no_triangle_is_on_another(self) -> None:
        table = trinorm.make(seed=3, moves=60).table
        for number in range(len(trinorm.info(table).vertices)):
            polygons = elements(pictures.vertex_link_svg(table, number), "polygon", class_="triangle")
            points = [[tuple(map(float, word.split(","))) for word in attribute(it, "points").split()] for it in polygons]
            middles = [tuple(sum(axis) / 3 for axis in zip(*corners)) for corners in points]
            for one, other in itertools.combinations(middles, 2):
                self.assertGreater(math.dist(one, other), 20)

    def test_no_such_vertex(self) -> None:
        for vertex in (-1, 1):
            with self.assertRaisesRegex(BadArgument, "has 1 vertices"):
                pictures.vertex_link_svg("bkaagj", vertex)


class Tables(unittest.TestCase):
    def test_info(self) -> None:
        info = trinorm.info("cPcbbbiht")
        html = xml.fromstring(f"<all>{info._repr_html_()}</all>")
        self.assertEqual(len(html.findall("table/tr")), 2 + len(info.vertices) + len(info.edges))

    def test_lists(self) -> None:
        described = trinorm.describe("bkaagj", trinorm.surfaces("bkaagj"))
        lists: List[Tuple[Any, int]] = [(described, 2), (trinorm.surfaces("bkaagj"), 2), (trinorm.spheres("bkaagj"), 0), (trinorm.described("bkaagj"), 2), (Shown(), 0), (Shown([(1, 2)] * 300), 100)]
        for shown, rows in lists:
            html = xml.fromstring(shown._repr_html_())
            self.assertEqual(len(html.findall("tr")), 1 + rows)
        self.assertEqual(repr(Shown([(1, 2)])), "[(1, 2)]")
        for shown, caption in ((Shown([(1, 2)] * 1000), "1,000 surfaces, of which the first 100 are shown"), (Shown([(1, 2)] * 100), "100 surfaces"), (Shown([(1, 2)]), "1 surface"), (Shown(), "0 surfaces")):
            self.assertIn(f"<caption>{caption}</caption>", shown._repr_html_())

    def test_one_surface(self) -> None:
        html = xml.fromstring(trinorm.describe("bkaagj", [(1, 1, 0, 0, 1, 0, 0)])._repr_html_())  # type: ignore[attr-defined]
        self.assertEqual([it.text or "" for it in html.iter("th")], ["", "Euler", "linking", "boundary", "components", "vector"])
        self.assertEqual([it.text for it in html.iter("td")], ["0", "0", "no", "no", "χ 0, two sides", "1 1 0 0 1 0 0"])
        self.assertEqual(Shown([1]), [1])


class Angles(unittest.TestCase):
    """The angles in which boundary faces leave a tetrahedron: the middle of the greatest gap each."""

    def test_free_ones(self) -> None:
        quarter = math.pi / 2
        gaps: List[Tuple[List[float], float]] = [([], 1), ([0], 2), ([1], 3), ([0, 1], 2.5), ([0, 1, 2], 3), ([3, 4.5], 5.75), ([-1, 1.5], 0.25), ([0, 5.5], 2.75)]
        for angles, free in gaps:
            found = graph_layout._free([it * quarter for it in angles]) / quarter
            self.assertAlmostEqual(found % 4, free % 4, msg=angles)

    def test_a_tetrahedron_alone(self) -> None:
        [angles] = ports([(0.0, 0.0)], [])
        self.assertEqual(sorted(angles), [0, 1, 2, 3])
        turns = sorted(angle / (math.pi / 2) % 4 for angle in angles.values())
        for turn, right in zip(turns, (0, 1, 2, 3)):
            self.assertAlmostEqual(turn % 4, right)


class Layout(unittest.TestCase):
    """Where tetrahedra are, in numbers."""

    def assert_near(self, found: Collection[Tuple[float, float]], right: Sequence[Tuple[float, float]]) -> None:
        self.assertEqual(len(found), len(right))
        for one, other in zip(found, right):
            self.assertAlmostEqual(math.dist(one, other), 0.0, msg=(found, right), delta=1e-6)

    def test_distances(self) -> None:
        self.assertEqual(graph_layout.distances(4, [Pair(0, 0, 1, 0), Pair(1, 1, 2, 0), Pair(0, 1, 2, 1), Pair(2, 2, 2, 3)]),
                         [{0: 0, 1: 1, 2: 1}, {1: 0, 0: 1, 2: 1}, {2: 0, 1: 1, 0: 1}, {3: 0}])
        self.assertEqual(graph_layout.distances(3, [Pair(0, 0, 1, 0), Pair(1, 1, 2, 0)]), [{0: 0, 1: 1, 2: 2}, {1: 0, 0: 1, 2: 1}, {2: 0, 1: 1, 0: 2}])

    def test_a_circle(self) -> None:
        self.assert_near(graph_layout.on_circle([3, 1, 0, 2], 10).values(), [(0, -10), (10, 0), (0, 10), (-10, 0)])

    def test_small_ones(self) -> None:
        self.assert_near(places(1, []), [(0, 0)])
        self.assert_near(places(3, [Pair(0, 0, 1, 0)]), [(0, 0), (0, 95), (95, 0)])
        triangle = places(3, [Pair(0, 0, 1, 0), Pair(0, 1, 2, 0), Pair(1, 1, 2, 1)])
        self.assertEqual([round(math.dist(one, other)) for one, other in itertools.combinations(triangle, 2)], [95] * 3)
        line = places(3, [Pair(0, 0, 1, 0), Pair(1, 1, 2, 0)])
        self.assertEqual([round(math.dist(line[one], line[other]) / 10) for one, other in ((0, 1), (1, 2), (0, 2))], [10, 10, 19])

    def test_components_are_side_by_side(self) -> None:
        triangle = [Pair(0, 0, 1, 0), Pair(0, 1, 2, 0), Pair(1, 1, 2, 1)]
        at = places(6, [*triangle, *(Pair(one + 3, face, other + 3, back) for one, face, other, back in triangle)])
        self.assert_near([(x - max(it for it, _ in at[:3]) - 95, y) for x, y in at[3:]], [(x, y) for x, y in at[:3]])
        self.assertEqual([min(x for x, _ in at), min(y for _, y in at)], [0, 0])

    def test_large_ones_are_on_a_circle(self) -> None:
        for size, radius in ((graph_layout.MOST + 1, APART * (graph_layout.MOST + 1) / 6), (2, 47.5)):
            at = places(size, [Pair(tet, 0, tet + 1, 1) for tet in range(size - 1)])
            for one, other in zip(at, at[1:]):
                self.assertAlmostEqual(math.dist(one, other), 2 * radius * math.sin(math.pi / size))

    def test_a_step(self) -> None:
        """Two tetrahedra: the first moves to where the second would have it, then the second."""
        far = graph_layout.distances(2, [Pair(0, 0, 1, 0)])
        self.assert_near(graph_layout._relaxed({0: (0.0, 0.0), 1: (3.0, 4.0)}, far).values(), [(-54, -72), (3, 4)])
        self.assert_near(graph_layout._relaxed({0: (0.0, 0.0), 1: (0.0, 0.0)}, far).values(), [(0, 0), (0, 0)])
        self.assert_near(graph_layout._relaxed({0: (7.0, 8.0)}, [{0: 0}]).values(), [(7, 8)])

    def test_a_step_is_weighted(self) -> None:
        """One at twice the distance counts a quarter."""
        far = graph_layout.distances(3, [Pair(0, 0, 1, 0), Pair(1, 1, 2, 0)])
        at = graph_layout._relaxed({0: (0.0, 0.0), 1: (100.0, 0.0), 2: (0.0, 200.0)}, far)
        self.assert_near([at[0]], [((100 - 95) * 0.8, (200 - 190) * 0.2)])

    def test_pushing_apart(self) -> None:
        push = graph_layout._pushed_apart
        self.assert_near(push({0: (0.0, 0.0), 1: (30.0, 40.0)}).values(), [(-4.2, -5.6), (34.2, 45.6)])
        self.assert_near(push({0: (5.0, 7.0), 1: (5.0, 7.0)}).values(), [(-27, 7), (37, 7)])
        self.assert_near(push({0: (0.0, 0.0), 1: (63.995, 0.0)}).values(), [(0, 0), (63.995, 0)])
        self.assert_near(push({0: (0.0, 0.0), 1: (63.98, 0.0)}).values(), [(-0.01, 0), (63.99, 0)])
        many = push({tet: (tet * 7.0, tet * tet * 3.0) for tet in range(6)})
        for one, other in itertools.combinations(many.values(), 2):
            self.assertGreater(math.dist(one, other), APART - 0.011)

    def test_wishes(self) -> None:
        at, half = [(0.0, 0.0), (95.0, 0.0)], graph_layout.GAP / 2
        found = graph_layout._wishes(at, [Pair(0, 0, 1, 1), Pair(1, 0, 0, 3), Pair(0, 1, 0, 2), Pair(1, 2, 1, 3)])
        self.assertEqual({key: round(value, 9) for key, value in found.items()}, {key: round(value, 9) for key, value in {
            (0, 0): -half, (1, 1): math.pi + half, (1, 0): math.pi - half, (0, 3): half,
            (0, 1): math.pi / 2, (0, 2): math.pi / 2, (1, 2): math.pi / 2, (1, 3): math.pi / 2}.items()})
        self.assertAlmostEqual(graph_layout._wishes(at, [Pair(0, 0, 0, 1), Pair(0, 2, 0, 3)])[0, 2], 3 * math.pi / 2)

    def test_spreading(self) -> None:
        gap = graph_layout.GAP
        spread: List[Tuple[List[Tuple[float, int]], Dict[int, float]]] = [
            ([], {}), ([(7.0, 2)], {2: 7.0}), ([(0.0, 0), (3.0, 1)], {0: 0.0, 1: 3.0}), ([(1.0, 0), (1.0, 1)], {1: 1 - gap / 2, 0: 1 + gap / 2}),
            ([(6.2, 0), (6.2 - gap / 2, 1)], {1: 6.2 - 3 * gap / 4, 0: 6.2 + gap / 4}), ([(-0.1, 0), (3.0, 1)], {0: -0.1, 1: 3.0}),
            # over the place where angles begin anew
            ([(0.1, 0), (6.2, 1), (3.0, 2)], {2: 3.0, 1: 3.15 + math.pi - gap / 2, 0: 3.15 + math.pi + gap / 2})]
        for wishes, right in spread:
            found = graph_layout._spread(wishes)
            self.assertEqual(sorted(found), sorted(right))
            for face, angle in right.items():
                self.assertAlmostEqual(math.cos(found[face] - angle), 1.0, msg=wishes)


class Parts(unittest.TestCase):
    def test_elements(self) -> None:
        self.assertEqual(drawing.line((1.0, 2.0), (3.0, 4.0), "m"), '<line x1="1.0" y1="2.0" x2="3.0" y2="4.0" m/>')
        self.assertEqual(drawing.text((1.0, 2.0), "a<b", "m"), '<text x="1.0" y="6.5" m>a&lt;b</text>')
        self.assertEqual(drawing.polygon([(1.0, 2.0), (3.0, 4.0)], "m"), '<polygon points="1.0,2.0 3.0,4.0" m/>')
        self.assertEqual(drawing.between((1.0, 2.0), (5.0, 10.0), 0.25), (2.0, 4.0))
        self.assertEqual([round(it, 9) for it in drawing.towards((1.0, 2.0), math.pi / 6, 2.0)], [round(1 + 3 ** 0.5, 9), 3.0])


class Growth(unittest.TestCase):
    def test_points(self) -> None:
        lines = [{"signature": "cPcbbbiht", "answer": [[1], [2]]}, {"signature": "bkaagj", "refused": {}}, {"signature": "bkaagj", "answer": []},
                 {"signature": "bkaagj", "answer": {"surfaces": 7}}, {"signature": "bkaagj", "answer": "bkaagj"}]
        self.assertEqual(list(growth_points(map(json.dumps, lines))), [(2, 2), (1, 0), (1, 7)])
        for line in ("{", "[]", '{"answer": [], "signature": ""}', "[" * 100_000):
            with self.assertRaisesRegex(ValueError, "line 2"):
                list(growth_points([json.dumps(lines[0]), line]))

    def test_many_sizes(self) -> None:
        """Their numbers are as many as have room next to each other."""
        for last, shown in ((24, range(1, 25)), (25, range(1, 26, 2)), (10 ** 12, range(1, 10 ** 12, 1 + (10 ** 12 - 1) // 24))):
            texts = re.findall(r'<text x="([0-9.]+)" y="368"[^>]*>([^<]*)<', growth_svg([(1, 2), (last, 3)]))
            self.assertEqual([number for _, number in texts], list(map(str, shown)))

    def test_svg(self) -> None:
        picture = growth_svg([(1, 2), (2, 1), (2, 30), (3, 0)])
        self.assertEqual((count(picture, "circle"), count(picture, "polyline")), (4, 1))
        texts = re.findall(r'<text x="([0-9.]+)" y="([0-9.]+)"[^>]*>([^<]*)<', picture)
        lengths, sizes, legend = texts[:3], texts[3:6], texts[6]
        self.assertEqual(lengths, [("62", "354", "1"), ("62", "189", "10"), ("62", "24", "100")])
        self.assertEqual({height for _, height, _ in sizes}, {"368"})
        dots = [(float(attribute(it, "cx")), float(attribute(it, "cy"))) for it in elements(picture, "circle")]
        self.assertEqual(dots, [(at, round(350 - 165 * math.log10(length), 1)) for at, length in ((175, 2), (385, 1), (385, 30), (595, 1))])
        [line] = elements(picture, "polyline")
        self.assertEqual(attribute(line, "points"), " ".join(f"{at:.1f},{350 - 165 * math.log10(length):.1f}" for at, length in ((175, 2), (385, 15.5), (595, 1))))
        lines = re.findall(r'<line x1="([0-9.]+)" x2="([0-9.]+)" y1="([0-9.]+)" y2="([0-9.]+)"', picture)
        self.assertEqual(lines, [("70", "700", y, y) for y in ("350", "185", "20")])
        self.assertEqual([(it[2], float(it[0])) for it in sizes], [("1", 175.0), ("2", 385.0), ("3", 595.0)])
        self.assertEqual((legend, len(texts)), (("395", "388", "tetrahedra; the line joins the medians"), 7))
        for most, labels in ((0, ["1", "10"]), (10, ["1", "10"]), (11, ["1", "10", "100"]), (100, ["1", "10", "100"])):
            self.assertEqual(re.findall(r'text-anchor="end">([^<]*)<', growth_svg([(1, most)])), labels)
        with self.assertRaises(ValueError):
            growth_svg([])

    def test_medians(self) -> None:
        self.assertEqual([pictures._median(counts) for counts in ([3], [3, 1], [5, 1, 2], [4, 1, 30, 2])], [3, 2, 2, 3])


if __name__ == "__main__":
    unittest.main()

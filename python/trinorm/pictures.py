"""Pictures as text: the face-pairing graph of a triangulation as DOT or SVG; the discs of a surface, the edges of the
tetrahedra and the vertex links, as SVG; and how lists grow."""
from __future__ import annotations

import json
import math
from typing import Any, Dict, Iterable, Iterator, List, Sequence, Tuple, Union

from . import commands
from .arguments import listed, plain, shown, whole_number, whole_numbers
from .disc_pictures import edges_picture, link_picture, surface_picture
from .drawing import BLUE, GREY, Point, svg, text, towards
from .errors import BadArgument
from .graph_layout import Pair, places, ports
from .regina_vectors import ReginaSurface, is_surface, vector_of
from .tables import Gluing, Table, Triangulation, size_of_signature

# the radius of a tetrahedron in the face-pairing graph, and where the number of a face is
RADIUS, LABEL = 13.0, 23.0


def _checked(table: Table) -> Table:
    """A table with the gluings of a triangulation, or BadArgument for any other value."""
    if not isinstance(table, Table):
        raise BadArgument(f"expected a Table, as `table` returns, not {shown(table)}")
    table = table.checked()
    for tet, row in enumerate(table.rows):
        for face, gluing in enumerate(row):
            if gluing is not None and not _has_inverse(table, tet, face, gluing):
                raise BadArgument(f"the rows of this Table are not those of a gluing table: face {face} of tetrahedron {tet} is glued by {gluing}")
    return table


def _has_inverse(table: Table, tet: int, face: int, gluing: Gluing) -> bool:
    """Whether a face is glued to another face, whose gluing is the inverse."""
    if gluing.tet >= len(table) or sorted(gluing.images) != [0, 1, 2, 3] or (gluing.tet, gluing.images[face]) == (tet, face):
        return False
    back = table.rows[gluing.tet][gluing.images[face]]
    return back is not None and back.tet == tet and all(back.images[gluing.images[it]] == it for it in range(4))


def face_pairs(table: Table) -> List[Pair]:
    """The glued pairs of faces, each once.

    Args:
        table: a `Table`

    Returns:
        A list of pairs, with `tet`, `face`, `other_tet` and `other_face`.

    Raises:
        BadArgument: it is not a `Table`, or not a gluing table

    >>> import trinorm
    >>> [tuple(pair) for pair in trinorm.pictures.face_pairs(trinorm.table("bkaagj"))]
    [(0, 0, 0, 1), (0, 2, 0, 3)]
    """
    table = _checked(table)
    glued = [(tet, face, it) for tet, row in enumerate(table.rows) for face, it in enumerate(row) if it is not None]
    both = [Pair(tet, face, it.tet, it.images[face]) for tet, face, it in glued]
    return [it for it in both if it[:2] < it[2:]]


def face_pairing_dot(table: Table) -> str:
    """The face-pairing graph as DOT: a node for each tetrahedron, an edge for each pair of glued faces, with their numbers.

    Args:
        table: a `Table`

    Returns:
        The text of a file for Graphviz.

    Raises:
        BadArgument: it is not a `Table`, or not a gluing table

    >>> from trinorm import pictures, table
    >>> pictures.face_pairing_dot(table("bkaagj")).count("--")
    2
    """
    table = _checked(table)
    nodes = [f"  {tet};" for tet in range(len(table))]
    edges = [f'  {it.tet} -- {it.other_tet} [taillabel="{it.face}", headlabel="{it.other_face}"];'
             for it in face_pairs(table)]
    return "\n".join(["graph face_pairing {", "  node [shape=circle];", *nodes, *edges, "}"]) + "\n"


def _curve(pair: Pair, at: Sequence[Point], angles: Sequence[Dict[int, float]]) -> str:
    """A gluing, from the face of one tetrahedron to that of the other."""
    one, other = at[pair.tet], at[pair.other_tet]
    angle, other_angle = angles[pair.tet][pair.face], angles[pair.other_tet][pair.other_face]
    far = 62.0 if pair.tet == pair.other_tet else max(30.0, 0.38 * math.hypot(other[0] - one[0], other[1] - one[1]))
    points = [towards(one, angle, RADIUS), towards(one, angle, RADIUS + far), towards(other, other_angle, RADIUS + far),
              towards(other, other_angle, RADIUS)]
    begin, bend, other_bend, end = (f"{x:.1f},{y:.1f}" for x, y in points)
    return f'<path class="gluing" d="M{begin} C{bend} {other_bend} {end}" fill="none" stroke="{GREY}"/>'


def _node(tet: int, at: Point, row: Sequence[object], angles: Dict[int, float]) -> Iterator[str]:
    """A tetrahedron with the numbers of its faces; a boundary face is a stroke that ends, and its tetrahedron is dashed."""
    dashes = ' stroke-dasharray="3 3"' if None in row else ""
    for face, gluing in enumerate(row):
        if gluing is None:
            x, y = towards(at, angles[face], RADIUS)
            end_x, end_y = towards(at, angles[face], RADIUS + 6)
            yield f'<line x1="{x:.1f}" y1="{y:.1f}" x2="{end_x:.1f}" y2="{end_y:.1f}" stroke="{GREY}" stroke-dasharray="2 2"/>'
        label = towards(at, angles[face] + (0.0 if gluing is None else 0.36), LABEL)
        yield text(label, face, f'text-anchor="middle" font-size="10" fill="{BLUE}" class="face"')
    yield f'<circle cx="{at[0]:.1f}" cy="{at[1]:.1f}" r="{RADIUS:.0f}" fill="white" stroke="black"{dashes}/>'
    yield text(at, tet)


def face_pairing_svg(table: Table) -> str:
    """The face-pairing graph as a picture: a circle for each tetrahedron, a curve for each pair of glued faces, with their numbers.

    The circle of a tetrahedron with boundary faces is dashed.

    Args:
        table: a `Table`

    Returns:
        The text of an SVG file.

    Raises:
        BadArgument: it is not a `Table`, or not a gluing table

    >>> from trinorm import pictures, table
    >>> pictures.face_pairing_svg(table("bkaagj")).count('class="gluing"')
    2
    """
    pairs = face_pairs(table)
    margin = 85.0
    at = [(x + margin, y + margin) for x, y in places(len(table), pairs)]
    angles = ports(at, pairs)
    parts = [_curve(pair, at, angles) for pair in pairs]
    for tet, row in enumerate(table.rows):
        parts += _node(tet, at[tet], row, angles[tet])
    wide, high = (max((point[axis] for point in at), default=0.0) + margin for axis in range(2))
    return svg(wide, high, parts)


def surface_svg(t: Triangulation, vector: Union[Sequence[int], ReginaSurface]) -> str:
    """A normal surface as discs in its tetrahedra: each disc once, or, in a tetrahedron with more than 60, one of each type.

    Below a tetrahedron are the gluings of its faces, and how many discs of each type it has.

    Args:
        t: the triangulation
        vector: in standard, quad or octagon coordinates, according to its length

    Returns:
        The text of an SVG file.

    Raises:
        Refused: the triangulation is not a gluing table
        BadArgument: an argument is invalid

    >>> from trinorm import pictures
    >>> pictures.surface_svg("bkaagj", (1, 1, 0, 0, 1, 0, 0)).count('class="disc"')
    3
    """
    table = commands.table(t)
    if is_surface(vector):
        return surface_picture(table, vector_of(vector, "octagon"))
    return surface_picture(table, whole_numbers(vector, "a vector must be a list of whole numbers or a regina.NormalSurface"))


def edges_svg(t: Triangulation) -> str:
    """The tetrahedra with the class of each edge and its degree, as `CLASS: DEGREE`; classes as `info` numbers them.

    Args:
        t: the triangulation

    Returns:
        The text of an SVG file.

    Raises:
        Refused: the triangulation is not a gluing table
        BadArgument: it is not a triangulation

    >>> from trinorm import pictures
    >>> pictures.edges_svg("bkaagj").startswith("<svg")
    True
    """
    return edges_picture(commands.table(t))


def vertex_link_svg(t: Triangulation, vertex: int = 0) -> str:
    """The link of a vertex as glued triangles, laid out in the plane.

    `3(1)` is the triangle at vertex 1 of tetrahedron 3; sides with the same number are glued too, and thick sides are boundary.

    Args:
        t: the triangulation
        vertex: its number, as `info` lists the vertices

    Returns:
        The text of an SVG file.

    Raises:
        Refused: the triangulation is not a gluing table
        BadArgument: an argument is invalid, or there is no such vertex

    >>> from trinorm import pictures
    >>> pictures.vertex_link_svg("cPcbbbiht").count('class="triangle"')
    8
    """
    number = whole_number(vertex)
    if number is None or abs(number) > 1 << 64:
        raise BadArgument(f"vertex must be the number of a vertex, not {shown(vertex)}")
    return link_picture(commands.table(t), number)


def _list_length(answer: Any) -> int:
    """The number of surfaces of an answer of `surfaces`, `describe` or `count`; -1 of any other."""
    if isinstance(answer, list):
        return len(answer)
    if isinstance(answer, dict) and isinstance(answer.get("surfaces"), int):
        return int(answer["surfaces"])
    return -1


def growth_points(lines: Iterable[str]) -> Iterator[Tuple[int, int]]:
    """How long the lists of a census are.

    Args:
        lines: lines that a census of `surfaces`, `describe` or `count` has written; those without an answer are left out

    Returns:
        An iterator of pairs: the number of tetrahedra, and the length of the list.

    Raises:
        BadArgument: a line is not one of a census

    >>> from trinorm import pictures
    >>> list(pictures.growth_points(['{"signature": "bkaagj", "answer": {"surfaces": 2}}']))
    [(1, 2)]
    """
    given = plain(lines)  # an array of one value is no list
    if isinstance(given, (str, bytes)) or not isinstance(given, Iterable):
        raise BadArgument(f"expected a list of lines of a census, not {shown(lines)}")
    for number, answered in enumerate(given, 1):
        try:
            entry = json.loads(answered)
            length = _list_length(entry.get("answer"))
            if length >= 0:
                yield size_of_signature(entry["signature"]), length
        except (ValueError, KeyError, AttributeError, IndexError, TypeError, RecursionError) as fault:
            raise BadArgument(f"line {number} is not a line of a census: {fault}") from None


def _median(counts: Sequence[int]) -> float:
    ordered = sorted(counts)
    return (ordered[(len(ordered) - 1) // 2] + ordered[len(ordered) // 2]) / 2


class Plane:
    """Where a number of tetrahedra and the length of a list stand in the picture; lengths go by their logarithm."""
    WIDE, HIGH, LEFT, BELOW, EDGE = 720, 400, 70, 50, 20
    # of more numbers of tetrahedra each second, third .. one has its number
    MOST_NUMBERS = 24

    def __init__(self, points: Sequence[Tuple[int, int]]) -> None:
        self.first, self.last = min(at for at, _ in points), max(at for at, _ in points)
        self.powers = max(1, math.ceil(math.log10(max(2, max(count for _, count in points)))))

    def x(self, at: float) -> float:
        return self.LEFT + (at - self.first + 0.5) / (self.last - self.first + 1) * (self.WIDE - self.LEFT - self.EDGE)

    def y(self, count: float) -> float:
        up = math.log10(max(1, count)) / self.powers
        return self.HIGH - self.BELOW - up * (self.HIGH - self.BELOW - self.EDGE)

    def axes(self) -> Iterator[str]:
        for power in range(self.powers + 1):
            y = self.y(10 ** power)
            yield f'<line x1="{self.LEFT}" x2="{self.WIDE - self.EDGE}" y1="{y:.0f}" y2="{y:.0f}" stroke="#ddd"/>'
            yield f'<text x="{self.LEFT - 8}" y="{y + 4:.0f}" text-anchor="end">{10 ** power:,}</text>'
        for at in range(self.first, self.last + 1, 1 + (self.last - self.first) // self.MOST_NUMBERS):
            yield f'<text x="{self.x(at):.0f}" y="{self.HIGH - self.BELOW + 18}" text-anchor="middle">{at}</text>'
        legend = "tetrahedra; the line joins the medians"
        yield f'<text x="{(self.LEFT + self.WIDE) / 2:.0f}" y="{self.HIGH - 12}" text-anchor="middle">{legend}</text>'


def _checked_points(points: object) -> Iterator[Tuple[int, int]]:
    """Pairs of whole numbers."""
    expected = "points must be pairs of a number of tetrahedra and the length of a list"
    for pair in listed(points, expected):
        numbers = whole_numbers(pair, expected)
        if len(numbers) != 2 or min(numbers) < 0:
            raise BadArgument(f"{expected}, not {shown(pair)}")
        yield numbers[0], numbers[1]


def growth_svg(points: Iterable[Tuple[int, int]]) -> str:
    """How many surfaces triangulations have, by their number of tetrahedra: a dot for each, and the medians joined.

    Args:
        points: pairs of a number of tetrahedra and the length of a list

    Returns:
        The text of an SVG file.

    Raises:
        BadArgument: there is no point, or a value that is not a pair of whole numbers

    >>> from trinorm import pictures
    >>> pictures.growth_svg([(1, 2), (2, 5), (2, 9)]).count("<circle")
    3
    """
    them = sorted(_checked_points(points))
    if not them:
        raise BadArgument("there is nothing to draw: the file has no list of surfaces")
    plane = Plane(them)
    by_size: Dict[int, List[int]] = {}
    for at, count in them:
        by_size.setdefault(at, []).append(count)
    dots = [f'<circle cx="{plane.x(at):.1f}" cy="{plane.y(count):.1f}" r="3.5" fill="{BLUE}" fill-opacity="0.5"/>'
            for at, count in them]
    way = " ".join(f"{plane.x(at):.1f},{plane.y(_median(counts)):.1f}" for at, counts in by_size.items())
    line = f'<polyline points="{way}" fill="none" stroke="{BLUE}"/>'
    return svg(plane.WIDE, plane.HIGH, [*plane.axes(), line, *dots])

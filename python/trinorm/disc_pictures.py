"""Pictures of tetrahedra: the discs of a normal surface in them, their edges with the degrees, and vertex links."""
from __future__ import annotations

import json
import math
from pathlib import Path
from typing import Dict, Iterator, List, NamedTuple, Optional, Sequence, Set, Tuple

from .drawing import GREY, Point, between, line, polygon, svg, text
from .errors import BadArgument
from .tables import Table

# how a tetrahedron and its discs are drawn; the web page reads the same file
GEOMETRY = json.loads(Path(__file__).with_name("discs.json").read_text(encoding="utf8"))
DISCS: List[Dict[str, object]] = GEOMETRY["discs"]
EDGES = [(one, other) for one, other in GEOMETRY["edges"]]
COLOURS = ["#9ecae1", "#9ecae1", "#9ecae1", "#9ecae1", "#e6550d", "#31a354", "#756bb1", "#c51b8a", "#c51b8a", "#c51b8a"]
# by the columns of a tetrahedron: the disc of the first column
FIRST = {3: 4, 7: 0, 10: 0}
# of more discs in a tetrahedron each column is drawn once, with its number
MOST = 60
# the side of the square in which a tetrahedron is drawn, what is left free around it, and tetrahedra in a row
SIDE, MARGIN, IN_A_ROW = 190.0, 26.0, 5
CELL_WIDE, CELL_HIGH = SIDE + 2 * MARGIN, SIDE + 2 * MARGIN + 46


def _corner_of(tet: int) -> Point:
    """Where the cell of a tetrahedron begins."""
    return tet % IN_A_ROW * CELL_WIDE + MARGIN, tet // IN_A_ROW * CELL_HIGH + MARGIN


def place_of_vertex(tet: int, vertex: int) -> Point:
    """Where a vertex of a tetrahedron is drawn."""
    left, top = _corner_of(tet)
    x, y = GEOMETRY["plane"][vertex]
    return left + SIDE * x, top + SIDE * y


def _size(table: Table) -> Tuple[float, float]:
    rows = max(1, -(-len(table) // IN_A_ROW))
    return CELL_WIDE * max(1, min(len(table), IN_A_ROW)), CELL_HIGH * rows


def _frame(table: Table, tet: int) -> Iterator[str]:
    """The edges and vertices of a tetrahedron, its number, and what its faces are glued to."""
    for one, other in EDGES:
        dashes = ' stroke-dasharray="5 4"' if [one, other] in GEOMETRY["hidden"] else ""
        yield line(place_of_vertex(tet, one), place_of_vertex(tet, other), f'stroke="{GREY}"{dashes}')
    middle = SIDE / 2
    left, top = _corner_of(tet)
    for vertex in range(4):
        x, y = place_of_vertex(tet, vertex)
        away = math.hypot(x - left - middle, y - top - middle)
        yield text((x + 11 * (x - left - middle) / away, y + 11 * (y - top - middle) / away), vertex, 'text-anchor="middle" font-size="11"')
    yield text((left, top + 2), tet, 'text-anchor="middle" font-weight="bold" font-size="15"')
    glued = " ".join("-" if gluing is None else str(gluing) for gluing in table.rows[tet])
    yield text((left + middle, top + SIDE + 14), glued, f'text-anchor="middle" font-size="10" fill="{GREY}" class="row"')


class Discs:
    """The discs of a vector in one tetrahedron: of each column of octagon coordinates how many."""

    def __init__(self, tet: int, counts: Sequence[int]) -> None:
        self.tet, self.counts = tet, counts
        self.at_edges: Dict[Tuple[int, int], int] = {}
        for disc, count in zip(DISCS, counts):
            for one, other, _ in disc["corners"]:  # type: ignore[attr-defined]
                edge = min(one, other), max(one, other)
                self.at_edges[edge] = self.at_edges.get(edge, 0) + count

    def corner(self, column: int, number: int, corner: Sequence[int]) -> Point:
        """Where a corner of the disc with a number in its column is."""
        one, other, way = corner
        place = number if way > 0 else self.counts[column] - 1 - number
        before = self.counts[one] if column > 3 else 0
        points = self.at_edges[min(one, other), max(one, other)]
        return between(place_of_vertex(self.tet, one), place_of_vertex(self.tet, other), (before + place + 1) / (points + 1))

    def shown(self) -> Iterator[str]:
        """The discs, each once, and in words how many there are."""
        names = []
        once = sum(self.counts) > MOST
        counts = [min(1, count) for count in self.counts] if once else self.counts
        drawn = Discs(self.tet, counts) if once else self
        for column, (disc, colour) in enumerate(zip(DISCS, COLOURS)):
            for number in range(counts[column]):
                corners = [drawn.corner(column, number, corner) for corner in disc["corners"]]  # type: ignore[attr-defined]
                yield polygon(corners, f'class="disc" data-column="{column}" fill="{colour}" fill-opacity="0.45" stroke="{colour}"')
            if self.counts[column]:
                names.append(f"{self.counts[column]:,} × {disc['name']}" if self.counts[column] > 1 else str(disc["name"]))
        left, top = _corner_of(self.tet)
        for place in range(0, len(names), 2):
            words = ", ".join(names[place:place + 2])
            yield text((left + SIDE / 2, top + SIDE + 27 + 6 * place), words, 'text-anchor="middle" font-size="10"')


def columns_each(table: Table, vector: Sequence[int]) -> int:
    """The columns of each tetrahedron: 3, 7 or 10. `BadArgument` if a vector is none of such a width, or has other entries."""
    each = {each * len(table): each for each in (10, 3, 7)}.get(len(vector))
    if each is None:
        raise BadArgument(f"with {len(table)} tetrahedra a vector has {7 * len(table)} entries ({3 * len(table)} in quad, {10 * len(table)} in "
                          f"octagon coordinates), not {len(vector)}")
    if any(entry < 0 for entry in vector):
        raise BadArgument("the entries of a vector must be whole numbers of at least 0")
    return each


def surface_picture(table: Table, vector: Sequence[int]) -> str:
    """A normal surface as discs in its tetrahedra."""
    each = columns_each(table, vector)
    parts: List[str] = []
    for tet in range(len(table)):
        first = FIRST[each]
        counts = [0] * first + list(vector[each * tet:each * (tet + 1)])
        counts += [0] * (len(DISCS) - len(counts))
        parts += [*_frame(table, tet), *Discs(tet, counts).shown()]
    return svg(*_size(table), parts)


def edge_classes(table: Table) -> List[Dict[Tuple[int, int], int]]:
    """For each tetrahedron the class of each edge, by its vertices. Classes are numbered as `info` lists them: by their
    first edge, in the order of tetrahedra and of edges 01, 02, 03, 12, 13, 23."""
    found: List[Dict[Tuple[int, int], int]] = [{} for _ in range(len(table))]
    count = 0
    for tet in range(len(table)):
        for edge in EDGES:
            if edge not in found[tet]:
                _mark(table, found, tet, edge, count)
                count += 1
    return found


def _mark(table: Table, found: List[Dict[Tuple[int, int], int]], tet: int, edge: Tuple[int, int], number: int) -> None:
    waiting = [(tet, edge)]
    while waiting:
        at, (one, other) = waiting.pop()
        if (one, other) in found[at]:
            continue
        found[at][one, other] = number
        for face in range(4):
            gluing = table.rows[at][face]
            if face not in (one, other) and gluing is not None:
                ends = gluing.images[one], gluing.images[other]
                waiting.append((gluing.tet, (min(ends), max(ends))))


def edges_picture(table: Table) -> str:
    """The tetrahedra with, at each edge, its class and the degree of that."""
    classes = edge_classes(table)
    degrees: Dict[int, int] = {}
    for numbers in classes:
        for number in numbers.values():
            degrees[number] = degrees.get(number, 0) + 1
    parts: List[str] = []
    for tet in range(len(table)):
        parts += _frame(table, tet)
        for (one, other), number in sorted(classes[tet].items()):
            at = between(place_of_vertex(tet, one), place_of_vertex(tet, other), 0.36)
            hue = 137.5 * number % 360
            parts.append(f'<rect x="{at[0] - 15:.1f}" y="{at[1] - 8:.1f}" width="30" height="16" rx="4" fill="hsl({hue:.0f},60%,88%)"/>')
            parts.append(text(at, f"{number}: {degrees[number]}", 'text-anchor="middle" font-size="10" class="edge"'))
    return svg(*_size(table), parts)


class Triangle(NamedTuple):
    """The triangle of a vertex link that cuts a vertex off from its tetrahedron. A corner is on the edge to another vertex,
    and the side opposite to it is in the face with that number."""
    tet: int
    vertex: int

    def corners(self) -> List[int]:
        """The other vertices."""
        return [vertex for vertex in range(4) if vertex != self.vertex]


def across(table: Table, triangle: Triangle, side: int) -> Optional[Tuple[Triangle, Tuple[int, ...]]]:
    """The triangle that a side is glued to, and where the vertices go; None at the boundary."""
    gluing = table.rows[triangle.tet][side]
    return None if gluing is None else (Triangle(gluing.tet, gluing.images[triangle.vertex]), gluing.images)


def vertex_links(table: Table) -> List[List[Triangle]]:
    """The triangles of each vertex link, in the order in which gluings reach them; links as `info` lists the vertices."""
    met = set()
    links = []
    for tet in range(len(table)):
        for vertex in range(4):
            if Triangle(tet, vertex) not in met:
                link = _reached(table, Triangle(tet, vertex))
                met.update(link)
                links.append(link)
    return links


def _reached(table: Table, start: Triangle) -> List[Triangle]:
    link = {start: None}
    waiting = [start]
    for triangle in waiting:
        for side in triangle.corners():
            there = across(table, triangle, side)
            if there is not None and there[0] not in link:
                link[there[0]] = None
                waiting.append(there[0])
    return list(link)


class Net:
    """The triangles of a link laid out in the plane, equilateral ones side by side where they are glued, as far as none is
    laid on another. What is glued but not side by side has a number at both of its sides."""

    SIZE = 96.0

    def __init__(self, table: Table, link: List[Triangle]) -> None:
        self.table = table
        self.at: Dict[Triangle, Dict[int, Point]] = {}
        # the sides that are side by side with another, and where triangles are
        self.joined: Set[Tuple[Triangle, int]] = set()
        self._taken: Set[Tuple[int, int]] = set()
        right = 0.0
        for triangle in link:
            if triangle not in self.at:
                before = set(self.at)
                one, other, top = triangle.corners()
                self._put(triangle, {one: (0.0, 0.0), other: (self.SIZE, 0.0), top: (self.SIZE / 2, -self.SIZE * math.sqrt(0.75))})
                self._unfold(triangle)
                right = self._shift([it for it in self.at if it not in before], right)

    def _put(self, triangle: Triangle, corners: Dict[int, Point]) -> bool:
        """Lays a triangle, if nothing is there."""
        middle = round(sum(x for x, _ in corners.values())), round(sum(y for _, y in corners.values()))
        if any((middle[0] + x, middle[1] + y) in self._taken for x in (-1, 0, 1) for y in (-1, 0, 1)):
            return False
        self._taken.add(middle)
        self.at[triangle] = corners
        return True

    def _unfold(self, start: Triangle) -> None:
        waiting = [start]
        for triangle in waiting:
            for side in triangle.corners():
                there = across(self.table, triangle, side)
                if there is not None and there[0] not in self.at and self._put(there[0], self._beyond(triangle, side, there[1])):
                    self.joined |= {(triangle, side), (there[0], there[1][side])}
                    waiting.append(there[0])

    def _beyond(self, triangle: Triangle, side: int, images: Sequence[int]) -> Dict[int, Point]:
        """The corners of the triangle on the other side: the third is the mirror image."""
        corners = self.at[triangle]
        one, other = (corner for corner in triangle.corners() if corner != side)
        (x, y), (across_x, across_y), (up_x, up_y) = corners[side], corners[one], corners[other]
        return {images[one]: corners[one], images[other]: corners[other], images[side]: (across_x + up_x - x, across_y + up_y - y)}

    def _shift(self, them: List[Triangle], right: float) -> float:
        """Moves a net to the right of those before it, and says where it ends."""
        points = [point for triangle in them for point in self.at[triangle].values()]
        left, top = min(x for x, _ in points), min(y for _, y in points)
        for triangle in them:
            self.at[triangle] = {corner: (x - left + right, y - top) for corner, (x, y) in self.at[triangle].items()}
        self._taken.clear()
        return right + max(x for x, _ in points) - left + 40


def link_picture(table: Table, vertex: int) -> str:
    """A vertex link as glued triangles."""
    links = vertex_links(table)
    if not 0 <= vertex < len(links):
        raise BadArgument(f"vertex {vertex} does not exist; the triangulation has {len(links)} vertices, numbered from 0")
    link = links[vertex]
    net = Net(table, link)
    numbers = _numbers_of_cuts(table, link, net)
    margin = 24.0
    parts: List[str] = []
    points: List[Point] = []
    for triangle in link:
        corners = {corner: (x + margin, y + margin) for corner, (x, y) in net.at[triangle].items()}
        points += corners.values()
        parts += _drawn(triangle, corners, numbers, net)
    return svg(max(x for x, _ in points) + margin, max(y for _, y in points) + margin, parts)


def _numbers_of_cuts(table: Table, link: List[Triangle], net: Net) -> Dict[Tuple[Triangle, int], int]:
    """The numbers of the sides that are glued but not side by side, two of each."""
    numbers: Dict[Tuple[Triangle, int], int] = {}
    count = 0
    for triangle in link:
        for side in triangle.corners():
            there = across(table, triangle, side)
            if there is not None and (triangle, side) not in net.joined and (triangle, side) not in numbers:
                numbers[triangle, side] = numbers[there[0], there[1][side]] = count
                count += 1
    return numbers


def _drawn(triangle: Triangle, corners: Dict[int, Point], numbers: Dict[Tuple[Triangle, int], int], net: Net) -> Iterator[str]:
    """A triangle with its name, its corners and its sides; at a boundary side the line is thick."""
    middle = sum(x for x, _ in corners.values()) / 3, sum(y for _, y in corners.values()) / 3
    yield polygon(corners.values(), f'class="triangle" fill="#eaf3fa" stroke="{GREY}"')
    yield text(middle, f"{triangle.tet}({triangle.vertex})", 'text-anchor="middle" font-size="10"')
    for corner, at in corners.items():
        yield text(between(at, middle, 0.3), corner, f'text-anchor="middle" font-size="9" fill="{GREY}"')
        one, other = (point for place, point in corners.items() if place != corner)
        if (triangle, corner) in numbers:
            label = between(between(one, other, 0.5), middle, 0.3)
            yield line(one, other, 'stroke="black" stroke-dasharray="6 3"')
            yield text(label, numbers[triangle, corner], 'text-anchor="middle" font-size="10" font-weight="bold" class="glued"')
        elif (triangle, corner) not in net.joined:
            yield line(one, other, 'stroke="black" stroke-width="3" class="boundary"')

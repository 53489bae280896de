"""Where the tetrahedra of a face-pairing graph are drawn, and in which direction each of their faces leaves them.

Tetrahedra come to be as far from each other as there are gluings between them, as nearly as the plane allows: their stress is
made smaller step by step (Gansner, Koren and North 2005). A picture depends on the gluings alone.
"""
from __future__ import annotations

import math
from collections import defaultdict, deque
from typing import Dict, List, NamedTuple, Sequence, Tuple

from .drawing import Point, direction

# the length of a gluing, the least distance of two tetrahedra, and the number of steps
LENGTH, APART, STEPS = 95.0, 64.0, 120
# more tetrahedra are drawn on a circle, since steps take the square of their number
MOST = 100
# the least angle between two faces of a tetrahedron
GAP = math.radians(48)


class Pair(NamedTuple):
    """Two glued faces, the lesser one first."""
    tet: int
    face: int
    other_tet: int
    other_face: int


def distances(count: int, pairs: Sequence[Pair]) -> List[Dict[int, int]]:
    """For each tetrahedron those that gluings lead to, nearest first, and the least number of gluings to each."""
    near: List[List[int]] = [[] for _ in range(count)]
    for pair in pairs:
        near[pair.tet].append(pair.other_tet)
        near[pair.other_tet].append(pair.tet)
    return [_distances_from(tet, near) for tet in range(count)]


def _distances_from(start: int, near: List[List[int]]) -> Dict[int, int]:
    met = {start: 0}
    waiting = deque([start])
    while waiting:
        tet = waiting.popleft()
        for other in near[tet]:
            if other not in met:
                met[other] = met[tet] + 1
                waiting.append(other)
    return met


def on_circle(tets: Sequence[int], radius: float) -> Dict[int, Point]:
    """Tetrahedra on a circle, the first one on top."""
    angles = [2 * math.pi * place / len(tets) - math.pi / 2 for place in range(len(tets))]
    return {tet: (radius * math.cos(angle), radius * math.sin(angle)) for tet, angle in zip(tets, angles)}


def _relaxed(at: Dict[int, Point], far: List[Dict[int, int]]) -> Dict[int, Point]:
    """One step: each tetrahedron moves to the weighted mean of where the others would have it."""
    at = dict(at)
    for tet, (x, y) in list(at.items()):
        sum_x = sum_y = total = 0.0
        for other, (other_x, other_y) in at.items():
            if other != tet:
                wanted = LENGTH * far[tet][other]
                length = math.hypot(x - other_x, y - other_y) or 1.0
                weight = 1 / wanted ** 2
                sum_x += weight * (other_x + wanted * (x - other_x) / length)
                sum_y += weight * (other_y + wanted * (y - other_y) / length)
                total += weight
        if total:
            at[tet] = sum_x / total, sum_y / total
    return at


def _pushed_apart(at: Dict[int, Point]) -> Dict[int, Point]:
    """Those that are too near to each other move away from each other, until none are."""
    at = dict(at)
    tets = list(at)
    for _ in range(STEPS):
        moved = False
        for place, one in enumerate(tets):
            for other in tets[:place]:
                across, up = at[one][0] - at[other][0], at[one][1] - at[other][1]
                length = math.hypot(across, up)
                if length < APART - 0.01:
                    moved = True
                    push = (APART - length) / 2 / (length or 1.0)
                    across, up = (across, up) if length else (1.0, 0.0)
                    at[one] = at[one][0] + push * across, at[one][1] + push * up
                    at[other] = at[other][0] - push * across, at[other][1] - push * up
        if not moved:
            break
    return at


def _component(tets: List[int], far: List[Dict[int, int]]) -> Dict[int, Point]:
    """The places of the tetrahedra of one component."""
    at = on_circle(tets, 0.0 if len(tets) == 1 else max(LENGTH / 2, APART * len(tets) / 6))
    if 2 < len(tets) <= MOST:
        for _ in range(STEPS):
            at = _relaxed(at, far)
        at = _pushed_apart(at)
    return at


def places(count: int, pairs: Sequence[Pair]) -> List[Point]:
    """The place of each tetrahedron, all in a box whose least coordinates are 0; components are side by side."""
    far = distances(count, pairs)
    found: Dict[int, Point] = {}
    left = 0.0
    for tet in range(count):
        if tet not in found:
            at = _component(list(far[tet]), far)
            shift_x, shift_y = left - min(x for x, _ in at.values()), -min(y for _, y in at.values())
            found.update((one, (x + shift_x, y + shift_y)) for one, (x, y) in at.items())
            left = max(x for x, _ in found.values()) + LENGTH
    return [found[tet] for tet in range(count)]


def _wishes(at: Sequence[Point], pairs: Sequence[Pair]) -> Dict[Tuple[int, int], float]:
    """The angle in which each glued face would leave its tetrahedron: to the other one, a little to the side if there are
    several gluings between these."""
    several: Dict[Tuple[int, int], List[Pair]] = defaultdict(list)
    for pair in pairs:
        several[min(pair.tet, pair.other_tet), max(pair.tet, pair.other_tet)].append(pair)
    wishes: Dict[Tuple[int, int], float] = {}
    for (one, other), them in several.items():
        for place, pair in enumerate(them):
            aside = GAP * (place - (len(them) - 1) / 2)
            if one == other:
                wishes[one, pair.face] = wishes[one, pair.other_face] = math.pi / 2 + 2 * math.pi * place / len(them)
            else:
                sign = 1 if pair.tet == one else -1
                wishes[pair.tet, pair.face] = direction(at[pair.tet], at[pair.other_tet]) + sign * aside
                wishes[pair.other_tet, pair.other_face] = direction(at[pair.other_tet], at[pair.tet]) - sign * aside
    return wishes


def _spread(wishes: List[Tuple[float, int]]) -> Dict[int, float]:
    """Angles in the order of these wishes, near to them, with a gap between each two."""
    if not wishes:
        return {}
    wishes = sorted((angle % (2 * math.pi), face) for angle, face in wishes)
    # the circle is cut where the greatest gap is
    gaps = [((wishes[place][0] - wishes[place - 1][0]) % (2 * math.pi), place) for place in range(len(wishes))]
    cut = max(gaps)[1] if len(wishes) > 1 else 0
    turned = wishes[cut:] + wishes[:cut]
    begin = turned[0][0]
    angles = [(angle - begin) % (2 * math.pi) for angle, _ in turned]
    for _ in range(200):
        for place in range(1, len(angles)):
            lack = GAP - (angles[place] - angles[place - 1])
            if lack > 0:
                angles[place - 1] -= lack / 2
                angles[place] += lack / 2
    return {face: begin + angle for (_, face), angle in zip(turned, angles)}


def ports(at: Sequence[Point], pairs: Sequence[Pair]) -> List[Dict[int, float]]:
    """For each tetrahedron the angle in which each of its four faces leaves it; boundary faces have what is free."""
    by_tet: List[List[Tuple[float, int]]] = [[] for _ in at]
    for (tet, face), angle in sorted(_wishes(at, pairs).items()):
        by_tet[tet].append((angle, face))
    found = []
    for wishes in by_tet:
        angles = _spread(wishes)
        for face in range(4):
            if face not in angles:
                angles[face] = _free(list(angles.values()))
        found.append(angles)
    return found


def _free(angles: List[float]) -> float:
    """The middle of the greatest gap."""
    if not angles:
        return math.pi / 2
    ordered = sorted(angle % (2 * math.pi) for angle in angles)
    gaps = [((ordered[place] - ordered[place - 1]) % (2 * math.pi) or 2 * math.pi, ordered[place - 1]) for place in range(len(ordered))]
    gap, begin = max(gaps)
    return begin + gap / 2

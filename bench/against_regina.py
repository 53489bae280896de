"""Compares the program with Regina on triangulations drawn from a fixed seed: closed, ideal, with boundary, invalid ones too.

    regina-python bench/against_regina.py [PROGRAM]

Says of each subject on how many triangulations (or vectors) both say the same. 0-efficiency is compared on the first 1,000 of
Regina's own closed orientable census too, where its file is there. Quad lists and lifts are compared where all
edges are valid: at an internal edge that is joined to its own reverse the quad equations differ. Status 1: something differs.
"""
import itertools
import os
import random
import sys
from typing import Any, Callable, Dict, List, Optional, Sequence

import regina

HERE = os.path.dirname(os.path.realpath(sys.argv[0]))
sys.path[:0] = [HERE, os.path.join(HERE, "..", "python")]

import trinorm  # noqa: E402  (the package stands beside this folder)
from trinorm.regina_surfaces import COORDS, vertex_surfaces  # noqa: E402
from trinorm.tables import GivenEntry, row_of  # noqa: E402

WORDS = list(itertools.permutations(range(4)))
# counts, of a subject, whether both say the same
Count = Callable[[str, bool], None]


def drawn_table(size: int, closed: bool) -> trinorm.Table:
    """Faces of so many tetrahedra, glued in pairs."""
    faces = [(t, f) for t in range(size) for f in range(4)]
    random.shuffle(faces)
    glued = len(faces) if closed else random.randrange(len(faces) + 1) // 2 * 2
    rows: List[List[GivenEntry]] = [[None] * 4 for _ in range(size)]
    for (t, f), (u, g) in zip(faces[:glued:2], faces[1:glued:2]):
        word = random.choice([word for word in WORDS if word[f] == g])
        rows[t][f] = (u, word)
        rows[u][g] = (t, tuple(word.index(v) for v in range(4)))
    return trinorm.Table(tuple(map(row_of, rows)))


def first_numbers(members: Sequence[int]) -> List[int]:
    """Classes numbered by their least members."""
    numbers: Dict[int, int] = {}
    return [numbers.setdefault(member, len(numbers)) for member in members]


def is_right(info: trinorm.Info, t: Any) -> bool:
    """Whether all is so that `info` tells and Regina does: the kinds of links are told by numbers alone."""
    edges = tuple(trinorm.Edge(e.degree(), "boundary" if e.isBoundary() else "inner", e.isValid()) for e in t.edges())
    vertices = [(v.degree(), v.linkEulerChar()) for v in t.vertices()]
    whole = (t.isConnected(), t.isOrientable(), not t.hasBoundaryTriangles(), t.countTriangles(), t.eulerCharTri())
    printed = (info.connected, info.orientable, info.closed, info.faces, info.euler)
    return printed == whole and info.edges == edges and [(it.degree, it.euler) for it in info.vertices] == vertices


def lifted(t: Any, surface: Any) -> Optional[trinorm.answers.Vector]:
    """The lift of a surface in quad coordinates, or None where there is none."""
    try:
        return trinorm.lift(t, [surface])[0]
    except trinorm.Refused:
        return None


def check_surfaces(count: Count, t: Any) -> None:
    valid = all(e.isValid() for e in t.edges())
    for coords in COORDS:
        if coords != "quad" or valid:
            count(f"surfaces, {coords}", trinorm.surfaces(t, coords) == vertex_surfaces(t, coords))
    surfaces = list(regina.NormalSurfaces(t, regina.NS_STANDARD))
    for it in surfaces:
        count("crush", trinorm.crush(t, it).to_regina().isIsomorphicTo(it.crush()) is not None)
    if valid:
        check_described(count, t, surfaces)
        # Regina says no by a sphere in the boundary, and not by a projective plane with two sides
        if t.isOrientable() and not t.hasTwoSphereBoundaryComponents():
            count("0-efficiency", bool(trinorm.zero_efficient(t)) == t.isZeroEfficient())
        for it in regina.NormalSurfaces(t, regina.NS_QUAD):
            count("lift", lifted(t, it) == (trinorm.vector_of(it) if it.isCompact() else None))


def check_described(count: Count, t: Any, surfaces: List[Any]) -> None:
    for one, other in itertools.islice(itertools.combinations_with_replacement(surfaces, 2), 5):
        if one.locallyCompatible(other):
            both = one + other
            ours = [(it.euler, it.sides == 2, it.orientable) for it in trinorm.describe(t, [both])[0].components]
            theirs = [(int(str(it.eulerChar())), it.isTwoSided(), it.isOrientable()) for it in both.components()]
            count("describe", sorted(ours) == sorted(theirs))


def check(count: Count, size: int) -> None:
    table = drawn_table(size, random.random() < 0.5)
    t = table.to_regina()
    for name, many, of in (("vertices", 4, "vertex"), ("edges", 6, "edge")):
        members = [getattr(t.tetrahedron(s), of)(i).index() for s in range(size) for i in range(many)]
        count(f"numbers of {name}", members == first_numbers(members))
    count("info", is_right(trinorm.info(table), t))
    count("csig", trinorm.csig(table) == ".".join(sorted(it.isoSig() for it in t.triangulateComponents())))
    double = regina.Triangulation3(t)
    double.makeDoubleCover()
    count("cover", trinorm.cover(table).to_regina().isIsomorphicTo(double) is not None)
    if size <= 4:
        check_surfaces(count, t)


def check_census(count: Count) -> None:
    path = os.path.join(regina.GlobalDirs.examples(), "closed-or-census.rga")
    closed = (it for it in regina.open(path) if isinstance(it, regina.Triangulation3)) if os.path.exists(path) else ()
    for t in itertools.islice(closed, 1000):
        count("0-efficiency, Regina's census", bool(trinorm.zero_efficient(t)) == t.isZeroEfficient())


def main() -> int:
    if len(sys.argv) > 1:
        os.environ["TRINORM"] = sys.argv[1]
    random.seed(7)
    same: Dict[str, int] = {}
    all_of: Dict[str, int] = {}

    def count(subject: str, agrees: bool) -> None:
        same[subject] = same.get(subject, 0) + bool(agrees)
        all_of[subject] = all_of.get(subject, 0) + 1

    for _ in range(2000):
        check(count, random.randint(1, 9))
    check_census(count)
    for subject, of in all_of.items():
        print(f"{subject}: {same[subject]} of {of}")
    print(f"{sum(same.values())} of {sum(all_of.values())} comparisons of {len(all_of)} subjects agree")
    return 0 if same == all_of else 1


sys.exit(main())

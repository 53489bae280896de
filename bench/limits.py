#!/usr/bin/env python3
"""The seconds and the megabytes of each command on inputs near its limits, beside what it is to keep.

Usage: bench/limits.py [PROGRAM]
"""
import random
import sys
from typing import Dict, Iterator, List, Optional, Tuple

from common import chain, loose, named_program, parted, run, tree, vector_line

# a name, the words, the input, and the seconds and megabytes that are aimed at
Case = Tuple[str, List[str], str, Optional[float], Optional[float]]


def spheres(pieces: int) -> str:
    """The table of one tetrahedron without gluings, and so many triangles round a vertex."""
    return loose(1) + vector_line([pieces] + [0] * 6)


def sums(program: str, table: str, many: int, seed: int) -> str:
    """Sums of drawn vertex surfaces of a table, of which no two have different quads in a tetrahedron."""
    draw = random.Random(seed)
    lines = run([program, "surfaces"], table).answer.split("\n")
    surfaces = [[int(it) for it in line.split()[1:]] for line in lines if line.startswith("vec")]
    return "".join(vector_line(drawn_sum(draw, surfaces)) for _ in range(many))


def drawn_sum(draw: random.Random, surfaces: List[List[int]]) -> List[int]:
    """The sum of those of four hundred drawn surfaces whose quads agree with the quads before them."""
    vector = [0] * len(surfaces[0])
    quads: Dict[int, int] = {}
    for surface in draw.choices(surfaces, k=400):
        own = {column // 7: column for column, entry in enumerate(surface) if column % 7 > 3 and entry}
        if all(quads.get(tet, column) == column for tet, column in own.items()):
            quads.update(own)
            times = draw.randint(1, 9)
            vector = [a + times * b for a, b in zip(vector, surface)]
    return vector


def surface_cases(program: str) -> Iterator[Case]:
    yield "describe, 100,000 pieces", ["describe"], spheres(100_000), 1.0, 100
    octagons = vector_line([0] * 7 + [100_000, 0, 0])
    yield "describe, octagons, 100,000 pieces", ["describe", "--coords", "octagon"], loose(1) + octagons, 1.0, 100
    term = "term 1 1 1 1 1 0 0 0\n"
    yield "addup, 10,000 terms", ["addup"], "sig bkaagj\nvec 10000 10000 10000 10000 0 0 0\ntimes 1 10000\n" + term * 10_000, 1.0, None
    table = tree(13, 1)
    yield "decompose, 5,794 surfaces, no vector", ["decompose"], table, None, None
    yield "decompose, the same, 1,000 vectors", ["decompose"], table + sums(program, table, 1000, 1), 2.0, None


def table_cases(program: str) -> Iterator[Case]:
    big = parted(program, 333)
    links = vector_line([1, 1, 1, 1, 0, 0, 0] * 1000)
    yield "crush, 1,000 tetrahedra", ["crush"], big + links, 0.1, None
    yield "lift, 1,000 tetrahedra", ["lift"], big + vector_line([0] * 3000), 0.1, None
    yield "cover, 500 tetrahedra", ["cover"], chain(500), 0.2, None
    yield "pi1, 1,000 tetrahedra", ["pi1"], chain(1000), 0.2, None
    yield "pi1, 1,000 tetrahedra, closed", ["pi1"], big, 0.2, None
    yield "csig, 1,000 in one part", ["csig"], chain(1000), None, None
    yield "sig, the same", ["sig"], chain(1000), None, None
    yield "csig, 1,000 parts", ["csig"], loose(1000), 0.2, None
    yield "csame, 1,000 parts", ["csame"], loose(1000) * 2, 0.2, None


def move_cases(program: str) -> Iterator[Case]:
    for moves, seconds in ((100, None), (1000, 2.0)):
        words = ["make", "--seed", "1", "--moves", str(moves)]
        yield f"make, {moves:,} moves", words, "", seconds, None
        yield f"check, {moves:,} moves", ["check"], run([program, *words]).answer, seconds, None
    yield "descend, 1,000 tetrahedra", ["descend"], parted(program, 333), 2.0, None


def main() -> int:
    program = named_program()
    missed = 0
    for cases in (surface_cases, table_cases, move_cases):
        for name, words, text, seconds, megabytes in cases(program):
            took = run([program, *words], text)
            in_time = seconds is None or took.seconds <= seconds
            kept = took.status == 0 and in_time and (megabytes is None or took.megabytes <= megabytes)
            missed += not kept
            aim = "" if seconds is None else f"at most {seconds} s" + ("" if megabytes is None else f" and {megabytes} MB")
            report = f"{name:38} status {took.status} {took.seconds:7.3f} s {took.megabytes:6.0f} MB  {aim}"
            print(report if kept else f"{report}  MISSED", flush=True)
    return 1 if missed else 0


if __name__ == "__main__":
    sys.exit(main())

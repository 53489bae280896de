#!/usr/bin/env python3
"""Up to how many tetrahedra the quad equations bound all numbers of an elimination by 2^127 - 1, as `triples_fit` of `number_bounds`
computes it, so that the fastest method is used.

    bench/quad_bounds.py [PROGRAM]

There are layered loops, and for each family of sizes.py without boundary, and each of its seeds, triangulations that are grown by 2-3
moves, all of 20 to 70 tetrahedra. Printed are the least number of tetrahedra at which the bound exceeds the limit, and the greatest at
which it does not.
"""
from __future__ import annotations

from typing import Callable, Iterator, Tuple

from common import Gluings, layered_loop_gluings, named_program
from rays import gluings_of, quad_cone
from sizes import FAMILIES, SEEDS, grown_to

LIMIT = 2 ** 127 - 1
SIZES = range(20, 71)


def is_bounded(gluings: Gluings) -> bool:
    """Whether the greatest sum of a row's magnitudes, times the greatest sum of squares of each tetrahedron's columns, is within the limit."""
    columns, rows = quad_cone(gluings)
    squares = [max(1, sum(row[column] ** 2 for row in rows)) for column in range(columns)]
    product = max(sum(abs(entry) for entry in row) for row in rows)
    for first in range(0, columns, 3):
        product *= max(squares[first:first + 3])
    return product <= LIMIT


def ends(made: Callable[[int], Gluings]) -> Tuple[int, int]:
    """The least size at which the bound exceeds the limit, and the greatest at which it does not."""
    found = {size: is_bounded(made(size)) for size in SIZES}
    return (min((size for size, bounded in found.items() if not bounded), default=SIZES.stop),
            max((size for size, bounded in found.items() if bounded), default=0))


def grown(program: str, signature: str, seed: int) -> Callable[[int], Gluings]:
    """The gluings of a triangulation that is grown to a size."""
    return lambda size: gluings_of(grown_to(program, signature, size, seed), program)


def makers(program: str) -> Iterator[Tuple[str, Callable[[int], Gluings]]]:
    """What is made, and how."""
    yield "layered loop", layered_loop_gluings
    for family, tables in FAMILIES.items():
        if family != "boundary":
            for seed in SEEDS:
                yield f"{family}, seed {seed}", grown(program, tables[min(tables)], seed)


def main() -> None:
    program = named_program()
    print("| Triangulation | Exceeds the limit from | Within it up to |\n|---|---|---|")
    for name, made in makers(program):
        exceeded, within = ends(made)
        print(f"| {name} | {exceeded} | {within} |", flush=True)


if __name__ == "__main__":
    main()

#!/usr/bin/env python3
"""Measures lists of large triangulations: for each row of sizes eight, two of each family, grown by 2-3 moves from a fixed seed.

    bench/sizes.py [PROGRAM] [--limit SECONDS]

For each list: coordinates, tetrahedra, family, number of surfaces and the processor's seconds. A list is stopped after 60 seconds of
the clock, or the limit. Nothing is compared.
"""
from __future__ import annotations

import argparse
import random
from typing import Dict, List, Tuple

from common import ENDED, run
from tables import BOUNDARY, CLOSED, HYPERBOLIC, IDEAL
from trinorm import find

FAMILIES: Dict[str, Dict[int, str]] = {"closed": CLOSED, "hyperbolic": HYPERBOLIC, "ideal": IDEAL, "boundary": BOUNDARY}
SIZES: List[Tuple[str, int]] = [("standard", 24), ("standard", 28), ("quad", 30), ("quad", 36), ("octagon", 18), ("octagon", 20)]
SEEDS = (1, 2)


def size_of(table: str) -> int:
    """The number of tetrahedra of a table in rows."""
    return int(table.split(maxsplit=2)[1])


def grown_to(program: str, signature: str, tetrahedra: int, seed: int) -> str:
    """A table of that many tetrahedra, grown from a signature's by 2-3 moves at drawn faces, of which some are refused."""
    draw = random.Random(f"{signature} {seed}")
    table = run([program, "play"], f"sig {signature}\n").answer
    while size_of(table) < tetrahedra:
        size = size_of(table)
        script = "".join(f"23 {draw.randrange(size)} {draw.randrange(4)}\n" for _ in range(tetrahedra - size))
        answer = run([program, "play"], table + script).answer
        table = answer[answer.index("tri "):]
    return table


def measure(program: str, coords: str, tetrahedra: int, limit: float) -> None:
    """Prints a line for each of the eight lists."""
    for family, tables in FAMILIES.items():
        signature = tables[min(tables)]
        for seed in SEEDS:
            done = run([program, "surfaces", "--coords", coords], grown_to(program, signature, tetrahedra, seed), limit)
            surfaces = "stopped" if done.status == ENDED else f"{done.answer.count('vec'):,}"
            print(f"| {coords} | {tetrahedra} | {family} | {surfaces} | {done.seconds:.2f} |", flush=True)


def main() -> None:
    reader = argparse.ArgumentParser(description=str(__doc__).split("\n", maxsplit=1)[0])
    reader.add_argument("program", nargs="?")
    reader.add_argument("--limit", type=float, default=60.0)
    given = reader.parse_args()
    program = find(given.program)
    print("| Coordinates | Tetrahedra | Family | Surfaces | Seconds |\n|---|---|---|---|---|")
    for coords, tetrahedra in SIZES:
        measure(program, coords, tetrahedra, given.limit)


if __name__ == "__main__":
    main()

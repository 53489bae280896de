#!/usr/bin/env python3
"""Measures `trinorm describe` on vectors of 100,000 pieces, and `crush` and `lift` on 1,000 tetrahedra. It compares nothing.

Prints the seconds and the memory of each run.
Usage: bench/vectors.py [PROGRAM]
"""
from typing import Iterator, List, Tuple

from common import chain, layered_loop, named_program, run, vector_line


def cases() -> Iterator[Tuple[str, List[str], str]]:
    links = [25000] * 4 + [0] * 3
    yield "describe: 25,000 vertex links of 4 pieces", ["describe"], "sig bkaagj\n" + vector_line(links)
    torus = [1, 1, 0, 0, 1, 0, 0]
    yield "describe: 33,333 tori of 3 pieces", ["describe"], "sig bkaagj\n" + vector_line([33333 * x for x in torus])
    octagons = [0, 0, 1, 1, 0, 0, 0, 1, 0, 0]
    yield "describe: 33,333 octagonal spheres", ["describe", "--coords", "octagon"], "sig bkaagj\n" + vector_line([33333 * x for x in octagons])
    wide = [25] * 4 + [0] * 3
    yield "describe: 25 links at each vertex of 1,000 tetrahedra in a loop", ["describe"], layered_loop(1000) + vector_line(wide * 1000)
    yield "crush: 1,000 tetrahedra in a chain, no quads", ["crush"], chain(1000) + vector_line([1, 1, 1, 1, 0, 0, 0] * 1000)
    yield "lift: 1,000 tetrahedra in a loop", ["lift"], layered_loop(1000) + vector_line([0, 0, 0] * 1000)


def main() -> None:
    program = named_program()
    for name, words, text in cases():
        done = run([program, *words], text)
        print(f"{name}: status {done.status}, {len(done.answer)} bytes, {done.seconds:.2f} s, {done.megabytes:.0f} MB")


if __name__ == "__main__":
    main()

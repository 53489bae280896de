#!/usr/bin/env python3
"""A table of 0-efficiency, vertex spheres and vertex tori by tetrahedra, of the triangulations in a file of Regina's.

    python3 examples/efficiency_table.py /usr/share/regina-normal/examples/closed-or-census.rga [MOST]

MOST is the greatest number of tetrahedra that is taken. It needs Regina's Python and trinorm's package. For closed
orientable triangulations, as in that file, `0-efficient` is the property of Jaco and Rubinstein.
"""
import collections
import sys
from concurrent.futures import ProcessPoolExecutor
from typing import Counter, Iterator, Tuple

import regina
import trinorm

HEAD = ("tetrahedra", "triangulations", "0-efficient", "with a sphere", "with a torus")


def signatures(path: str, most: int) -> Iterator[str]:
    """The connected triangulations of a file of Regina's."""
    root = regina.open(path)
    if root is None:
        sys.exit(f"{path}: this is not a file of Regina")
    for packet in root:
        if isinstance(packet, regina.Triangulation3) and packet.isConnected() and packet.size() <= most:
            yield packet.isoSig()


def numbers(text: str) -> Tuple[int, bool, bool, bool]:
    """Tetrahedra, and whether it is 0-efficient, has a vertex sphere and a vertex torus, vertex links left out."""
    others = [it for it in trinorm.described(text) if not it.linking]
    closed = [it for it in others if not it.boundary]
    return (len(trinorm.table(text)), all(it.euler <= 0 for it in others), any(it.euler == 2 for it in closed),
            any(it.euler == 0 and it.components[0].orientable for it in closed))


def main(path: str, most: int = 1000) -> None:
    rows: Counter[Tuple[int, str]] = collections.Counter()
    with ProcessPoolExecutor() as executor:
        for it in trinorm.many(signatures(path, most), numbers, executor, in_order=False):
            tetrahedra, *found = it.value
            rows.update((tetrahedra, column) for column, has in zip(HEAD[1:], (True, *found)) if has)
    print("\t".join(HEAD))
    for tetrahedra in sorted({tetrahedra for tetrahedra, _ in rows}):
        print(tetrahedra, *(rows[tetrahedra, column] for column in HEAD[1:]), sep="\t")


if __name__ == "__main__":
    if len(sys.argv) not in (2, 3) or not all(map(str.isdecimal, sys.argv[2:])):
        sys.exit(__doc__)
    main(sys.argv[1], *map(int, sys.argv[2:]))

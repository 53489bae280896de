#!/usr/bin/env python3
"""A reference file of counts: a line for each triangulation in a file of Regina's, sorted by tetrahedra and signature.

    python3 examples/count_census.py /usr/share/regina-normal/examples/closed-or-census.rga [MOST] > counts.txt

MOST is the greatest number of tetrahedra that is taken. A line has the signature; how many vertex surfaces there are in
standard coordinates, how many have each Euler characteristic, and how many are vertex links; and the greatest entry. The
file depends on the triangulations alone, so two of them are compared by `cmp`. It needs Regina's Python and trinorm's
package.
"""
import sys
from concurrent.futures import ProcessPoolExecutor
from typing import Iterator, Tuple

import regina
import trinorm


def signatures(path: str, most: int) -> Iterator[Tuple[int, str]]:
    """Size and signature of each connected triangulation of a file of Regina's."""
    root = regina.open(path)
    if root is None:
        sys.exit(f"{path}: this is not a file of Regina")
    for packet in root:
        if isinstance(packet, regina.Triangulation3) and packet.isConnected() and packet.size() <= most:
            yield packet.size(), packet.isoSig()


def line(signature: str, count: trinorm.Count) -> str:
    """The line of a triangulation."""
    euler = ",".join(f"{value}:{number}" for value, number in count.euler.items())
    return f"{signature} surfaces {count.surfaces} euler {euler} linking {count.linking} greatest {count.greatest}"


def main(path: str, most: int = 1000) -> None:
    wanted = [signature for _, signature in sorted(set(signatures(path, most)))]
    with ProcessPoolExecutor() as executor:
        for it in trinorm.many(wanted, "count", executor):
            print(line(wanted[it.index], it.value))


if __name__ == "__main__":
    if len(sys.argv) not in (2, 3) or not all(map(str.isdecimal, sys.argv[2:])):
        sys.exit(__doc__)
    main(sys.argv[1], *map(int, sys.argv[2:]))

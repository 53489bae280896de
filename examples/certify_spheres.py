#!/usr/bin/env python3
"""Certificates of the 3-spheres in a file of Regina's: moves to the standard sphere, which the program accepts.

    python3 examples/certify_spheres.py /usr/share/regina-normal/examples/closed-or-census.rga FOLDER [MOST]
    for file in FOLDER/*.txt; do trinorm check < "$file"; done

MOST is the greatest number of tetrahedra that is taken. Each certificate is a file SIGNATURE.txt, an input of `check`, which
anyone can run who has the program alone. Regina says which triangulations are 3-spheres; the certificates show it without
Regina. It needs Regina's Python and trinorm's package. Status 1: for a 3-sphere no moves were found.
"""
import sys
from pathlib import Path
from typing import Iterator

import regina
import trinorm


def spheres(path: str, most: int) -> Iterator[str]:
    """The signatures of the 3-spheres of a file of Regina's."""
    root = regina.open(path)
    if root is None:
        sys.exit(f"{path}: this is not a file of Regina")
    for packet in root:
        if isinstance(packet, regina.Triangulation3) and packet.size() <= most and packet.isSphere():
            yield packet.isoSig()


def main(path: str, folder: str, most: int = 1000) -> int:
    Path(folder).mkdir(parents=True, exist_ok=True)
    missed = 0
    for signature in spheres(path, most):
        certificate = trinorm.certify(signature)
        if certificate is None:
            missed += 1
            print(f"{signature}: no moves were found in 10 s")
        else:
            (Path(folder) / f"{signature}.txt").write_text(str(certificate), encoding="ascii")
            print(f"{signature}: {len(certificate.moves)} moves")
    return 1 if missed else 0


if __name__ == "__main__":
    if len(sys.argv) not in (3, 4) or not all(map(str.isdecimal, sys.argv[3:])):
        sys.exit(__doc__)
    sys.exit(main(sys.argv[1], sys.argv[2], *map(int, sys.argv[3:])))

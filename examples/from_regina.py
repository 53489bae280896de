"""From Regina and back: regina-python examples/from_regina.py SIGNATURE [standard|quad|octagon]

Prints a document of `verify`: the gluing table of Regina's triangulation, and Regina's vertex surfaces in these coordinates.
On the way each is made Regina's again, and compared. The package `trinorm` in python/ does the work (docs/PYTHON.md).
"""
import os
import sys

import regina

sys.path.insert(0, os.path.join(os.path.dirname(os.path.realpath(sys.argv[0])), "..", "python"))

import trinorm  # noqa: E402
from trinorm.answers import vector_line  # noqa: E402

COORDS = {"standard": regina.NS_STANDARD, "quad": regina.NS_QUAD, "octagon": regina.NS_AN_STANDARD}


def main(signature, coords="standard"):
    try:
        theirs = regina.Triangulation3.fromIsoSig(signature)
    except RuntimeError as fault:
        raise SystemExit(f"{signature}: Regina does not read this as a signature: {fault}") from None
    table = trinorm.from_regina(theirs)
    if table.to_regina() != theirs:
        raise ValueError(table)
    print(table, end="")
    for surface in regina.NormalSurfaces(theirs, COORDS[coords]):
        vector = trinorm.vector_of(surface, coords)
        if trinorm.normal_surface(theirs, vector, coords) != surface:
            raise ValueError(vector)
        print(vector_line(vector))


if __name__ == "__main__":
    if len(sys.argv) not in (2, 3) or sys.argv[2:] and sys.argv[2] not in COORDS:
        sys.exit(__doc__)
    main(*sys.argv[1:])

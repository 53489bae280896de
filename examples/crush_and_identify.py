#!/usr/bin/env python3
"""Cuts a closed orientable triangulation into summands, and asks Regina's census what they are.

    python3 examples/crush_and_identify.py SIGNATURE ..

It crushes along a vertex surface of positive Euler characteristic that is no vertex link (along the sphere itself, or the
sphere round a projective plane), splits what is left into its components, and goes on with each until all are 0-efficient.
What crushing does is topology (Burton): each crushing undoes connected sums, and may lose summands S3, S2 x S1, RP3 and
L(3,1). How many of the last three are lost is told by the first homology, before and after. It needs Regina's Python and
trinorm's package.
"""
import sys
from typing import List, Tuple

import regina
import trinorm

# what crushing can lose, and the summand of the first homology that it has: the prime, and 0 for an infinite one
LOST = (("S2 x S1", 0), ("RP3", 2), ("L(3,1)", 3))


def summands(signature: str) -> List[str]:
    """The signatures of the 0-efficient triangulations that are left in the end."""
    left, done = [signature], []
    while left:
        t = left.pop()
        shown = trinorm.zero_efficient(t)
        if shown.witness is None:
            done.append(t)
            continue
        crushed = trinorm.crush(t, shown.witness.vector)
        if len(crushed):
            left += trinorm.csig(crushed).split(".")
    return sorted(done)


def rank(t: regina.Triangulation3, prime: int) -> int:
    """The rank of the first homology, or how many of its torsion summands the prime divides."""
    group = t.homology()
    return int(group.torsionRank(prime) if prime else group.rank())


def name(t: regina.Triangulation3) -> str:
    """What Regina's census calls it; S3 if it is one."""
    if t.isSphere():
        return "S3"
    t.intelligentSimplify()
    hits = [str(it.name()).split(" : ")[0] for it in regina.Census.lookup(t)]
    return hits[0] if hits else f"not in the census ({t.isoSig()})"


def parts(signature: str) -> Tuple[List[str], List[str]]:
    """The names of the summands that are left, and of those that were lost."""
    try:
        whole = regina.Triangulation3.fromIsoSig(signature)
    except RuntimeError as fault:
        raise SystemExit(f"{signature}: Regina does not read this as a signature: {fault}") from None
    if not (whole.isClosed() and whole.isOrientable() and whole.isConnected()):
        raise SystemExit(f"{signature}: this is not a closed connected orientable triangulation")
    left = [trinorm.to_regina(it) for it in summands(signature)]
    lost = [what for what, prime in LOST for _ in range(rank(whole, prime) - sum(rank(it, prime) for it in left))]
    return [name(it) for it in left], lost


def main(signatures: List[str]) -> None:
    for signature in signatures:
        left, lost = parts(signature)
        kept = [it for it in left if it != "S3"]
        print(f"{signature}: {' # '.join(kept + lost) or 'S3'}")
        if lost:
            print(f"  lost by crushing, and known by homology: {', '.join(lost)}")


if __name__ == "__main__":
    if len(sys.argv) < 2:
        sys.exit(__doc__)
    main(sys.argv[1:])

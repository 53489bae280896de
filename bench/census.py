#!/usr/bin/env python3
"""Measures a census: triangulations a second, on the 1,000 of bench/census_signatures.txt, beside Regina where it is installed.

    bench/census.py [PROGRAM] [--jobs N]

They have 3 to 9 tetrahedra, drawn from the censuses that come with Regina: closed ones, and cusped hyperbolic ones. Each stands
ten times in the file of the census. Seconds are those of the clock, the start of all processes counted; the least of three
runs. Regina is one process, its start not counted.
"""
import argparse
import os
import subprocess
import sys
import tempfile
import time
from typing import Dict, List

from common import HERE, TOP, regina_says
from trinorm import find

SIGNATURES = os.path.join(HERE, "census_signatures.txt")
TIMES = 10
COMMANDS: Dict[str, List[str]] = {
    "sig": ["--command", "sig"],
    "info": ["--command", "info"],
    "surfaces, quad": ["--command", "surfaces", "--coords", "quad"],
    "surfaces, standard": ["--command", "surfaces"],
    "count": ["--command", "count"],
}
# what Regina's interpreter is told: the seconds of each, in the order of `PEERS`
REGINA = """
import time, regina
them = [regina.Triangulation3.fromIsoSig(line.strip()) for line in open(%r)]
def count(t):
    return [(s.eulerChar(), s.isVertexLinking()) for s in regina.NormalSurfaces(t, regina.NS_STANDARD)]
for work in (lambda t: t.isoSig(), lambda t: regina.NormalSurfaces(t, regina.NS_QUAD).size(),
             lambda t: regina.NormalSurfaces(t, regina.NS_STANDARD).size(), count):
    least = None
    for _ in range(3):
        fresh = [regina.Triangulation3(t) for t in them]
        begun = time.perf_counter()
        for t in fresh:
            work(t)
        least = min(least or 1e9, time.perf_counter() - begun)
    print(least)
"""
PEERS = ("sig", "surfaces, quad", "surfaces, standard", "count")


def seconds(program: str, words: List[str], jobs: int, signatures: List[str]) -> float:
    """The least that a census takes in three runs."""
    around = dict(os.environ, PYTHONPATH=os.path.join(TOP, "python"), TRINORM=program)
    least = float("inf")
    with tempfile.TemporaryDirectory() as folder:
        given, out = os.path.join(folder, "signatures"), os.path.join(folder, "out")
        with open(given, "w", encoding="utf8") as file:
            file.writelines(f"{signature} {number}\n" for number in range(TIMES) for signature in signatures)
        for _ in range(3):
            begun = time.perf_counter()
            subprocess.run([sys.executable, "-m", "trinorm", "census", given, *words, "--jobs", str(jobs), "--out", out], env=around,
                           stderr=subprocess.DEVNULL, check=True)
            least = min(least, time.perf_counter() - begun)
            os.unlink(out)
    return least


def main() -> None:
    reader = argparse.ArgumentParser(description=str(__doc__).split("\n", maxsplit=1)[0])
    reader.add_argument("program", nargs="?")
    reader.add_argument("--jobs", type=int, default=len(os.sched_getaffinity(0)))
    given = reader.parse_args()
    program = find(given.program)
    with open(SIGNATURES, encoding="utf8") as file:
        signatures = file.read().split()
    regina = dict(zip(PEERS, map(float, regina_says(REGINA % SIGNATURES) or [])))
    print(f"| Command | one job | {given.jobs} jobs | Regina, one process |")
    for name, words in COMMANDS.items():
        one, all_jobs = (TIMES * len(signatures) / seconds(program, words, jobs, signatures) for jobs in (1, given.jobs))
        peer = f"{len(signatures) / regina[name]:,.0f}" if name in regina else "–"
        print(f"| `{name}` | {one:,.0f} | {all_jobs:,.0f} | {peer} |", flush=True)


if __name__ == "__main__":
    main()

#!/usr/bin/env python3
"""Measures a call in the process beside Regina: microseconds a triangulation, on the 1,000 of bench/census_signatures.txt.

    bench/in_process.py [PROGRAM] [--rounds N]

Beside the program stand its library and its server. Each way is a process of its own, and all go in turn, round after round,
over all signatures; of each signature the least time counts, since other work goes on beside it. Columns: Regina in its own
interpreter, from the signature on; Python's function, over the library; the library from C (with `cc`); Python's function over
one server; and over a process for each call. Regina's lists are those of `NormalSurfaces`, of which only the size is asked.
"""
from __future__ import annotations

import argparse
import json
import os
import shutil
import subprocess
import sys
import tempfile
from typing import Dict, List, Optional

from common import HERE, TOP, regina_python
from trinorm import find

SIGNATURES = os.path.join(HERE, "census_signatures.txt")
COMMANDS: Dict[str, List[str]] = {
    "sig": ["sig"],
    "csig": ["csig"],
    "info": ["info"],
    "surfaces, quad": ["surfaces", "--coords", "quad"],
    "surfaces, standard": ["surfaces", "--coords", "standard"],
}
# a process answers the name of a command by the nanoseconds of each signature
EACH = """
import json, sys, time
SIGNATURES = open(%r).read().split()
def times(work, clock=time.perf_counter_ns):
    took = []
    for it in SIGNATURES:
        begun = clock()
        work(it)
        took.append(clock() - begun)
    return took
for line in sys.stdin:
    print(json.dumps(times(WORKS[line.strip()])), flush=True)
""" % SIGNATURES
REGINA = """
import regina
from regina import NormalSurfaces, NS_QUAD, NS_STANDARD
made = regina.Triangulation3.fromIsoSig
def info(sig):
    t = made(sig)
    vertices = [(v.degree(), v.linkEulerChar(), v.isLinkClosed(), v.linkType()) for v in t.vertices()]
    edges = [(e.degree(), e.isBoundary(), e.isValid()) for e in t.edges()]
    return (t.size(), t.isConnected(), t.isOrientable(), t.hasBoundaryTriangles(), t.countTriangles(), t.eulerCharTri(), vertices, edges)
WORKS = {"sig": lambda sig: made(sig).isoSig(), "info": info,
         "csig": lambda sig: ".".join(sorted(it.isoSig() for it in made(sig).triangulateComponents())),
         "surfaces, quad": lambda sig: NormalSurfaces(made(sig), NS_QUAD).size(),
         "surfaces, standard": lambda sig: NormalSurfaces(made(sig), NS_STANDARD).size()}
""" + EACH
TRINORM = """
import trinorm
from trinorm import server
by = %s
WORKS = {"sig": lambda sig: trinorm.sig(sig, program=by), "info": lambda sig: trinorm.info(sig, program=by),
         "csig": lambda sig: trinorm.csig(sig, program=by),
         "surfaces, quad": lambda sig: trinorm.surfaces(sig, "quad", program=by),
         "surfaces, standard": lambda sig: trinorm.surfaces(sig, program=by)}
""" + EACH


class Way:
    """A process that runs a script, and is asked for times."""

    def __init__(self, python: str, script: str, around: Dict[str, str]) -> None:
        self.process = subprocess.Popen([python, "-c", script], stdin=subprocess.PIPE, stdout=subprocess.PIPE, text=True,
                                        env=dict(os.environ, PYTHONPATH=os.path.join(TOP, "python"), **around))

    def times(self, name: str) -> List[int]:
        assert self.process.stdin is not None and self.process.stdout is not None
        print(name, file=self.process.stdin, flush=True)
        times: List[int] = json.loads(self.process.stdout.readline())
        return times

    def end(self) -> None:
        self.process.communicate()


class FromC:
    """The program of in_process.c, run for each round."""

    def __init__(self, library: str, folder: str) -> None:
        self.program = os.path.join(folder, "in_process")
        subprocess.run(["cc", "-O2", "-I", os.path.join(TOP, "library"), "-o", self.program, os.path.join(HERE, "in_process.c"), library,
                        f"-Wl,-rpath,{os.path.dirname(library)}"], check=True)

    def times(self, name: str) -> List[int]:
        finished = subprocess.run([self.program, SIGNATURES, "3", *COMMANDS[name]], stdout=subprocess.PIPE, text=True, check=True)
        return list(map(int, finished.stdout.split()))

    def end(self) -> None:
        """Nothing goes on."""


def ways(program: str, folder: str) -> Dict[str, object]:
    library = os.path.join(os.path.dirname(os.path.realpath(program)), "libtrinorm.so.1")
    around, regina = {"TRINORM": program, "TRINORM_LIBRARY": library}, regina_python()
    found: Dict[str, object] = {"Regina": Way(regina, REGINA, {})} if regina else {}
    if os.path.exists(library):
        found["Python, library"] = Way(sys.executable, TRINORM % "None", around)
        if shutil.which("cc"):
            found["C, library"] = FromC(library, folder)
        found["Python, server"] = Way(sys.executable, TRINORM % "server.Server()", around)
    found["Python, process"] = Way(sys.executable, TRINORM % repr(program), around)
    return found


def least_times(them: Dict[str, object], rounds: int) -> Dict[str, Dict[str, float]]:
    """Of each way and command the mean over the signatures, in microseconds."""
    least: Dict[str, Dict[str, Optional[List[int]]]] = {name: {} for name in them}
    for at in range(rounds):
        for name, way in them.items():
            if name == "Python, process" and at % 4:  # it takes the longest, and its start is steady
                continue
            for command in COMMANDS:
                took = way.times(command)  # type: ignore[attr-defined]
                before = least[name].get(command)
                least[name][command] = took if before is None else list(map(min, before, took))
    return {name: {command: sum(took) / len(took) / 1000 for command, took in each.items() if took} for name, each in least.items()}


def table(means: Dict[str, Dict[str, float]]) -> str:
    names = list(means)
    lines = ["| Command | " + " | ".join(names) + " |", "|---" * (len(names) + 1) + "|"]
    for command in COMMANDS:
        peer = means.get("Regina", {}).get(command)
        cells = [f"{means[it][command]:,.0f}" + (f" ({means[it][command] / peer:.2f})" if peer and it != "Regina" else "") for it in names]
        lines.append(f"| {command} | " + " | ".join(cells) + " |")
    return "\n".join(lines)


def main() -> None:
    reader = argparse.ArgumentParser(description=str(__doc__).split("\n", maxsplit=1)[0])
    reader.add_argument("program", nargs="?")
    reader.add_argument("--rounds", type=int, default=20)
    given = reader.parse_args()
    before = os.getloadavg()[0]
    with tempfile.TemporaryDirectory() as folder:
        them = ways(find(given.program), folder)
        means = least_times(them, given.rounds)
        for way in them.values():
            way.end()  # type: ignore[attr-defined]
    print(table(means))
    print(f"microseconds a triangulation, with the ratio to Regina; the least of {given.rounds} rounds; "
          f"load {before:.1f} at the beginning, {os.getloadavg()[0]:.1f} at the end")


if __name__ == "__main__":
    main()

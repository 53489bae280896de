#!/usr/bin/env python3
"""Measures `trinorm surfaces`, `trinorm decompose` and `trinorm describe`, and Regina, in one run.

    bench/surfaces.py [PROGRAM] [--families closed,ideal,..] [--straight] [--best 3] [--cut 60]

The program is a process of its own, its start counted; Regina is one call inside its interpreter, without its start: what
`NormalSurfaces(table, coordinates)` gives by default and, where asked for, its straight double description. Seconds are
those of the processor, the least of so many runs (one where a run takes over a second). A call of Regina's that takes
longer than the cut is ended, and counts as the cut.
"""
import argparse
import math
from typing import Iterator, List, Optional, Sequence, Tuple

from common import ENDED, layered_loop, regina_python, regina_says, run
from tables import BOUNDARY, CLOSED, HYPERBOLIC, IDEAL, LARGE, SLOW
from trinorm import find
from trinorm.options import Coords
from trinorm.regina_surfaces import COORDS

# What Regina's interpreter is told: how many surfaces there are, and the least seconds of a call.
REGINA = """
import regina, time
table = regina.Triangulation3.fromIsoSig(%r)
least = None
for _ in range(%d):
    begun = time.process_time()
    found = regina.NormalSurfaces(table, regina.%s%s)
    seconds = time.process_time() - begun
    least = seconds if least is None else min(least, seconds)
    if seconds > 1:
        break
print(found.size(), least)
"""
# the least seconds for the properties of all surfaces of a list, which a list computes once
REGINA_DESCRIBES = """
import regina, time
table = regina.Triangulation3.fromIsoSig(%r)
least = None
for _ in range(%d):
    found = list(regina.NormalSurfaces(table, regina.NS_STANDARD))
    begun = time.process_time()
    for it in found:
        it.components(), it.eulerChar(), it.isVertexLinking(), it.hasRealBoundary(), it.isTwoSided(), it.isOrientable()
    seconds = time.process_time() - begun
    least = seconds if least is None else min(least, seconds)
print(len(found), least)
"""
DEFAULT, STRAIGHT = "", ", regina.NS_VERTEX, regina.NS_VERTEX_STD_DIRECT | regina.NS_VERTEX_DD"
FAMILIES = {"closed": CLOSED, "hyperbolic": HYPERBOLIC, "ideal": IDEAL, "boundary": BOUNDARY}


class Ratios:
    """The ratios of one comparison, for their mean."""

    def __init__(self, name: str) -> None:
        self.name = name
        self.them: List[float] = []

    def add(self, ratio: float) -> None:
        self.them.append(ratio)

    def tell(self) -> None:
        if self.them:
            mean = math.exp(sum(map(math.log, self.them)) / len(self.them))
            print(f"{self.name}: {len(self.them)} tables, geometric mean {mean:.3f}, greatest {max(self.them):.3f}", flush=True)


class Bench:
    """The program beside Regina, and how often and how long both are asked."""

    def __init__(self, program: str, best: int, cut: int) -> None:
        self.program, self.best, self.cut = program, best, cut

    def ask(self, words: List[str], text: str) -> Optional[Tuple[str, float]]:
        """The answer and the least seconds; None where it takes longer than twice the cut."""
        least, answer = math.inf, ""
        for _ in range(self.best):
            done = run([self.program, *words], text, 2 * self.cut)
            if done.status == ENDED:
                return None
            answer, least = done.answer, min(done.seconds, least)
            if done.seconds > 1:
                break
        return answer, least

    def regina(self, signature: str, coords: Coords, how: str) -> Optional[Tuple[int, float]]:
        """How many surfaces Regina lists and the least seconds, or None where it takes longer than the cut."""
        said = regina_says(REGINA % (signature, self.best, COORDS[coords], how), self.best * self.cut)
        return None if said is None else (int(said[-2]), float(said[-1]))

    def compare(self, name: str, text: str, coords: Coords, peers: List[Tuple[Ratios, str]]) -> None:
        """One line: the name, how many surfaces, the seconds, and of each peer its seconds and the ratio."""
        own = self.ask(["surfaces"] if coords == "standard" else ["surfaces", "--coords", coords], text)
        if own is None:
            print(f"| {name} | no answer in {2 * self.cut} s |", flush=True)
            return
        found, seconds = own[0].count("vec"), own[1]
        line = f"| {name} | {found:,} | {seconds:.4f} |"
        signature = text.split()[1] if text.startswith("sig ") else run([self.program, "sig"], text).answer.split()[0]
        for ratios, how in peers if regina_python() else ():
            peer = self.regina(signature, coords, how)
            if peer and peer[0] != found:
                line += f" {peer[0]} surfaces!"
            took, over = (peer[1], "") if peer else (self.cut, "over ")
            ratios.add(seconds / took)
            line += f" {over}{took:.4f} | {seconds / took:.3f} |"
        print(line, flush=True)

    def decompose(self, name: str, text: str, ratios: Ratios) -> None:
        """A sum for the first surface of the list, beside the list."""
        listed = self.ask(["surfaces"], text)
        if listed is None:
            return
        first = next(line for line in listed[0].splitlines() if line.startswith("vec"))
        whole = self.ask(["decompose"], f"{text}{first}\n")
        if whole is None:
            return
        ratios.add(whole[1] / listed[1])
        print(f"| {name}, decompose | {listed[1]:.4f} | {whole[1]:.4f} | {whole[1] / listed[1]:.2f} |", flush=True)

    def describe(self, name: str, text: str, ratios: Ratios) -> None:
        """The properties of all surfaces of a list, compared with Regina's."""
        listed = self.ask(["surfaces"], text)
        described = None if listed is None else self.ask(["describe"], text + listed[0])
        signature = text.split()[1] if text.startswith("sig ") else run([self.program, "sig"], text).answer.split()[0]
        said = regina_says(REGINA_DESCRIBES % (signature, self.best), self.best * self.cut) if regina_python() else None
        if described is None or said is None:
            return
        ratios.add(described[1] / float(said[-1]))
        print(f"| {name}, describe | {said[-2]} | {described[1]:.4f} | {float(said[-1]):.4f} | {described[1] / float(said[-1]):.2f} |", flush=True)


def tables(least: int, most: int) -> Iterator[Tuple[str, str, str]]:
    """The families with their tables, a loop for each even number of tetrahedra."""
    for family, them in FAMILIES.items():
        for count, signature in them.items():
            if least <= count <= most:
                yield family, f"{count} {family}", f"sig {signature}\n"
    for count in range(least + least % 2, most + 1, 2):
        yield "loop", f"{count} loop", layered_loop(count)


def words() -> argparse.Namespace:
    asked = argparse.ArgumentParser(description=str(__doc__).split("\n", maxsplit=1)[0])
    asked.add_argument("program", nargs="?")
    asked.add_argument("--families", default="closed,hyperbolic,ideal,boundary,loop,twenty,quad,octagon,decompose,describe,slow,large")
    asked.add_argument("--straight", action="store_true")
    asked.add_argument("--best", type=int, default=3)
    asked.add_argument("--cut", type=int, default=60)
    return asked.parse_args()


class Families:
    """The families that were chosen: each is compared with its peers, and its ratios are kept."""

    NAMES = {"default": "standard, Regina's default", "straight": "standard, Regina's straight way", "twenty": "20, Regina's default",
             "quad": "quad, Regina's default", "octagon": "octagon, Regina's default", "decompose": "decompose, the list",
             "describe": "describe of whole lists, Regina's properties",
             "large": "over 50,000 surfaces, Regina's default"}

    def __init__(self, bench: "Bench", chosen: Sequence[str], straight: bool) -> None:
        self.bench, self.chosen = bench, chosen
        self.ratios = {key: Ratios(name) for key, name in self.NAMES.items()}
        self.peers = [(self.ratios["default"], DEFAULT)] + ([(self.ratios["straight"], STRAIGHT)] if straight else [])

    def standard(self) -> None:
        """Lists in standard coordinates, by family and by size."""
        for family, name, text in tables(12, 18):
            if family in self.chosen:
                self.bench.compare(name, text, "standard", self.peers)
        for family, name, text in tables(20, 20) if "twenty" in self.chosen else ():
            if family != "loop":
                self.bench.compare(name, text, "standard", [(self.ratios["twenty"], DEFAULT)])

    def other_coordinates(self) -> None:
        """Lists in quad and in octagon coordinates."""
        sizes: Tuple[Tuple[Coords, int, int], ...] = (("quad", 14, 18), ("octagon", 9, 12))
        for coords, least, most in sizes:
            for _, name, text in tables(least, most) if coords in self.chosen else ():
                self.bench.compare(f"{name}, {coords}", text, coords, [(self.ratios[coords], DEFAULT)])

    def others(self) -> None:
        """Sums, properties, tables that are numbered badly, and lists of over 50,000 surfaces."""
        for _, name, text in tables(12, 16) if "decompose" in self.chosen else ():
            self.bench.decompose(name, text, self.ratios["decompose"])
        for count in (14, 16) if "describe" in self.chosen else ():
            for _, name, text in tables(count, count):
                self.bench.describe(name, text, self.ratios["describe"])
        for count, text in SLOW.items() if "slow" in self.chosen else ():
            self.bench.compare(f"{count} numbered badly", text, "standard", [])
        for count, signature in LARGE.items() if "large" in self.chosen else ():
            self.bench.compare(f"{count} large", f"sig {signature}\n", "standard", [(self.ratios["large"], DEFAULT)])


def main() -> None:
    given = words()
    families = Families(Bench(find(given.program), given.best, given.cut), given.families.split(","), given.straight)
    families.standard()
    families.other_coordinates()
    families.others()
    for ratios in families.ratios.values():
        ratios.tell()


if __name__ == "__main__":
    main()

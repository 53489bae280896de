#!/usr/bin/env python3
"""What a build takes: the table build_times.txt, and the time left told from it.

    tools/build_times.py --check
    tools/build_times.py --seal TABLE LOG

`tools/build.py --measure` writes the table, with the commit, the kit and a checksum. --check refuses a table whose rows are not
those of its checksum, as after a change by hand. It does not prove that a run wrote them: who wants to can make a checksum.

--seal writes build_times.txt from a table without a checksum, as runs wrote it before there were checksums, and from what that run
printed. It refuses a table whose crates are not those that the run proved, or whose seconds are more than the run had.
"""
from __future__ import annotations

import hashlib
import heapq
import os
import re
import sys
from pathlib import Path
from typing import Dict, Iterable, List, Mapping, NamedTuple, Sequence, Tuple

from repository import TOP

TABLE = TOP / "build_times.txt"
HEAD = """\
# What a first build takes, as `tools/build.py --measure` writes it: the disk in MB,
# and for each crate the seconds of a processor and the greatest memory in MB.
"""
SUM = "# checksum "


class Took(NamedTuple):
    """What proving a crate took: seconds of a processor, and MB of memory."""

    seconds: float
    memory: int


class Times(NamedTuple):
    """What a build took: MB of disk, and each crate's part."""

    disk: int
    crates: Dict[str, Took]


def read_times(path: Path) -> Times:
    """The table; where there is none, one without rows."""
    disk, found = 0, {}
    try:
        lines = [line.split() for line in path.read_text("utf8").splitlines() if not line.startswith("#")]
    except OSError:
        lines = []
    for name, *numbers in filter(None, lines):
        if name == "disk":
            disk = int(numbers[0])
        else:
            found[name] = Took(float(numbers[0]), int(numbers[1]))
    return Times(disk, found)


def write_times(path: Path, names: Sequence[str], took: Mapping[str, Took], folder: Path, run: str) -> None:
    """Writes the table of a build that worked in a folder: the crates in this order, and then those that aren't in it.

    run: the commit that was built, and the kit
    """
    rows = [name for name in [*names, *(name for name in took if name not in names)] if name in took]
    text = "".join(f"{name} {round(took[name].seconds)} {took[name].memory}\n" for name in rows)
    path.write_text(sealed(f"disk {size_of(folder) >> 20}\n{text}", run), "utf8")


def sealed(rows: str, run: str) -> str:
    """A table with these rows, what was run, and the checksum of both."""
    measured = f"# measured: {run}\n"
    return f"{HEAD}{measured}{SUM}{hashlib.sha256((measured + rows).encode()).hexdigest()}\n{rows}"


def is_sealed(text: str) -> bool:
    """Whether a table has the checksum of its rows and of what was run."""
    found = re.fullmatch(rf"{re.escape(HEAD)}# measured: ([^\n]+)\n{SUM}\w+\n(.*)", text, re.S)
    return found is not None and sealed(found[2], found[1]) == text


class NotOfThisRun(Exception):
    """A table that cannot be that of a run, with the reason."""


def run_of(table: Times, log: str) -> str:
    """What was run, by what a measuring build printed; `NotOfThisRun` unless the table can be that of this build."""
    ended = re.search(r"built in (\d+) s: version \S+, commit (.+), (rattle-kit\S+ logic \S+), program", log)
    jobs, proved = re.search(r"proves all \d+ crates .* by (\d+) jobs? at a time", log), re.findall(r"crates done: (\w+) \(", log)
    if ended is None or jobs is None:
        raise NotOfThisRun("the run did not prove everything to its end")
    if sorted(proved) != sorted(table.crates):
        raise NotOfThisRun("the table has other crates than the run proved")
    if sum(took.seconds for took in table.crates.values()) > int(ended[1]) * int(jobs[1]):
        raise NotOfThisRun("the table has more seconds than the run")
    return f"commit {ended[2]}, {ended[3]}"


def size_of(folder: Path) -> int:
    """Bytes of disk that the files of a folder take."""
    return sum(os.lstat(os.path.join(place, name)).st_blocks * 512 for place, _, files in os.walk(folder) for name in files)


class Plan:
    """The crates that are to be proved, each after those below it, what each of them waits for, and what it takes."""

    def __init__(self, below: Mapping[str, Sequence[str]], times: Times, processors: int) -> None:
        self.below = {name: [other for other in below[name] if other in below] for name in below}
        self.processors = processors
        known = [took.seconds for name, took in times.crates.items() if name in below]
        usual = sum(known) / len(known) if known else 20.0
        self.seconds = {name: times.crates[name].seconds if name in times.crates else usual for name in below}

    def order(self) -> List[str]:
        """The crates, those first whose chain of crates above takes longest."""
        chain = self.chains(list(self.below), self.above(list(self.below)))
        return sorted(self.below, key=lambda name: -chain[name])

    def above(self, left: Sequence[str]) -> Dict[str, List[str]]:
        return {name: [other for other in left if name in self.below[other]] for name in left}

    def ends(self, done: Iterable[str] = ()) -> List[Tuple[float, str]]:
        """When each crate that isn't done is, in order, where each processor takes the ready crate with most above it."""
        finished = set(done)
        left = [name for name in self.below if name not in finished]
        waiting = {name: {other for other in self.below[name] if other not in finished} for name in left}
        above = self.above(left)
        chain = self.chains(left, above)
        ready = [(-chain[name], name) for name in left if not waiting[name]]
        heapq.heapify(ready)
        running: List[Tuple[float, str]] = []
        found: List[Tuple[float, str]] = []
        now = 0.0
        while ready or running:
            while ready and len(running) < self.processors:
                _, name = heapq.heappop(ready)
                heapq.heappush(running, (now + self.seconds[name], name))
            now, name = heapq.heappop(running)
            found.append((now, name))
            for other in above[name]:
                waiting[other].discard(name)
                if not waiting[other]:
                    heapq.heappush(ready, (-chain[other], other))
        return found

    def chains(self, left: Sequence[str], above: Mapping[str, Sequence[str]]) -> Dict[str, float]:
        """For each crate the seconds from its start to the end of the longest chain above it."""
        chain: Dict[str, float] = {}
        for name in reversed(left):
            chain[name] = self.seconds[name] + max((chain[other] for other in above[name]), default=0.0)
        return chain

    def longest_chain(self) -> List[str]:
        """The crates of which each stands on the one before it, that take longest one after another."""
        above = self.above(list(self.below))
        chain = self.chains(list(self.below), above)
        found: List[str] = []
        ready = list(self.below)
        while ready:
            found.append(max(ready, key=lambda name: chain[name]))
            ready = above[found[-1]]
        return found

    def length(self, done: Iterable[str] = ()) -> float:
        """Seconds until all else is done."""
        return max((at for at, _ in self.ends(done)), default=0.0)

    def reached(self, done: Iterable[str]) -> float:
        """The second of the plan at which crates of as many seconds as those that are done were done."""
        worked, at = sum(self.seconds[name] for name in done), 0.0
        for end, name in self.ends():
            if worked <= 0.0:
                break
            at, worked = end, worked - self.seconds[name]
        return at

    def left(self, done: Sequence[str], passed: float) -> float:
        """Seconds left, after what is done took the seconds that passed. Half of the plan is taken to go as planned, so
        that small crates, which end while the first large ones go on, don't tell of the whole."""
        half = self.length() / 2
        return self.length(done) * (passed + half) / (self.reached(done) + half) if half else 0.0


def seal(table: Path, log: Path) -> None:
    """Writes the table of a run that printed a log, with its checksum."""
    rows = "".join(f"{line}\n" for line in table.read_text("utf8").splitlines() if not line.startswith("#"))
    TABLE.write_text(sealed(rows, run_of(read_times(table), log.read_text("utf8"))), "utf8")


def main(words: Sequence[str]) -> int:
    if len(words) == 3 and words[0] == "--seal":
        try:
            seal(Path(words[1]), Path(words[2]))
        except NotOfThisRun as fault:
            sys.exit(f"{words[1]}: {fault}")
        return 0
    if list(words) != ["--check"]:
        sys.exit(str(__doc__))
    if not is_sealed(TABLE.read_text("utf8")):
        print(f"{TABLE.name} is not as `tools/build.py --measure` wrote it; measure again")
        return 1
    return 0


if __name__ == "__main__":
    sys.exit(main(sys.argv[1:]))

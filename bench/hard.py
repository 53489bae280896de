#!/usr/bin/env python3
"""Measures lists that are known to be hard: few surfaces after large intermediate steps, or very many surfaces.

Usage: bench/hard.py [--limit SECONDS] [PROGRAM ..]

Of each list the number of surfaces, and for each program the processor's seconds, the megabytes, and the first digits of the
checksum of the answer, which has to be the same for all. A list is stopped after 120 seconds of the clock, or the limit. Without a
program it is the repository's.
"""
from __future__ import annotations

import argparse
import hashlib
import sys
from typing import Iterator, List, NamedTuple, Sequence, Tuple

import common
from rays import magic
from trinorm import find


class Hard(NamedTuple):
    """A list: its name, the words of the command, and the input."""
    name: str
    words: Sequence[str]
    text: str


# as the literature names them; each in the numbering of its signature
SIGNATURES: List[Tuple[str, Sequence[str], str]] = [
    ("Weber-Seifert dodecahedral space, 23 tetrahedra", ("quad", "standard"), "xvLvvvwMvQPPQQQQcehpjtqksntrtvoupwpsuwsvwcgacalvucahatbhapaggjgfk"),
    ("handlebody, 13", ("standard",), "nHbfjbqryeiKabfjlmttisl"),
    ("hyperbolic, 28", ("standard",), "CLvLLzAwLzvwMMQQQPAkbdgfkllpmrsvqzuryyvxuzxzwyABBafgfdmmahbomoxaopumagrfgvvuqw"),
    ("lens space (27,1), 24", ("standard",), "yLAMzMzMzMzMzMzMPbcbdefghijklmnopqrstuvwxxhhjhhhhhhhhhhhhhhhhhhhhhk"),
    ("Fibonacci lens space, 30", ("standard",), "ELAMzMzMzMzMzMzMzMzMPbcbdefghijklmnopqrstuvwxyzABCDDhxwqhxqhxqhxqhxqhxqhxqhxqhxqhxn"),
]
# what `make` makes of a seed and a number of moves
MADE: List[Tuple[int, int]] = [(1, 80), (4, 60)]


def table_of(answer: str) -> str:
    """The table at the beginning of what `make` prints."""
    lines = answer.splitlines()
    return "".join(f"{line}\n" for line in lines[:1 + int(lines[0].split()[1])])


def semimagic(side: int) -> Hard:
    """The squares whose rows and columns have one sum."""
    columns, rows = magic(side, False)
    lines = [f"cone {columns} {len(rows)}", *(" ".join(map(str, row)) for row in rows)]
    return Hard(f"semimagic squares of order {side}", ("rays",), "".join(f"{line}\n" for line in lines))


def all_lists(program: str) -> Iterator[Hard]:
    """The lists, from the shortest names on."""
    for name, kinds, signature in SIGNATURES:
        for coords in kinds:
            yield Hard(f"{name}, {coords}", ("surfaces", "--coords", coords), f"sig {signature}\n")
    for seed, moves in MADE:
        made = common.run([program, "make", "--seed", str(seed), "--moves", str(moves)])
        yield Hard(f"make --seed {seed} --moves {moves}, quad", ("surfaces", "--coords", "quad"), table_of(made.answer))
    yield semimagic(7)


def measure(one: Hard, programs: Sequence[str], limit: float) -> bool:
    """Prints the row of a list, and returns whether all programs that ended gave one answer."""
    cells, sums, count = [], set(), "?"
    for program in programs:
        run = common.run([program, *one.words], one.text, limit)
        if run.status:
            cells.append(f"none in {run.seconds:.1f} (status {run.status})")
            continue
        first = run.answer.split("\n", 1)[0].split()
        count = f"{int(first[-1]):,}"
        checksum = hashlib.sha256(run.answer.encode()).hexdigest()[:12]
        sums.add(checksum)
        cells.append(f"{run.seconds:.2f} s, {run.megabytes:.0f} MB, {checksum}")
    print(" | ".join([one.name, count, *cells]), flush=True)
    return len(sums) < 2


def main() -> int:
    """Measures all lists, and returns the exit status."""
    parser = argparse.ArgumentParser(description="Measures lists that are known to be hard.")
    parser.add_argument("--limit", metavar="SECONDS", type=float, default=120.0, help="stop each list after so many seconds")
    parser.add_argument("programs", metavar="PROGRAM", nargs="*", help="programs to compare (default: the repository's)")
    given = parser.parse_args()
    programs = [find(name) for name in given.programs] or [find(None)]
    same = [measure(one, programs, given.limit) for one in all_lists(programs[0])]
    if not all(same):
        print("the programs differ")
    return 0 if all(same) else 1


if __name__ == "__main__":
    sys.exit(main())

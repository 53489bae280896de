#!/usr/bin/env python3
"""Measures `trinorm rays`: seconds and rays, on cones of magic squares and on the quadrilateral cones of layered loops
and other closed tables, beside 4ti2, lrs, Normaliz and cdd where these are installed. Seconds are those of the processor.

Usage: bench/rays.py [PROGRAM]
"""
import os
import shutil
import tempfile
from typing import Callable, Iterator, List, Optional, Sequence, Tuple

import common
from common import ENDED, Gluings, layered_loop_gluings, named_program
from tables import CLOSED
from trinorm import table

LIMIT = 120
Rows = List[List[int]]
# seconds, None where it took too long, and the number of rays
Measured = Tuple[Optional[float], int]


def difference(columns: int, plus: Sequence[int], minus: Sequence[int]) -> List[int]:
    """The row that adds up some columns and takes away others."""
    row = [0] * columns
    for column in plus:
        row[column] += 1
    for column in minus:
        row[column] -= 1
    return row


def magic(side: int, with_diagonals: bool) -> Tuple[int, Rows]:
    """All sums of rows and columns are that of the first row, and perhaps those of both diagonals."""
    rows = [[side * r + c for c in range(side)] for r in range(side)]
    sums = rows[1:] + [[side * r + c for r in range(side)] for c in range(side)]
    if with_diagonals:
        sums.append([side * r + r for r in range(side)])
        sums.append([side * r + side - 1 - r for r in range(side)])
    return side * side, [difference(side * side, one, rows[0]) for one in sums]


def gluings_of(signature: str, program: str) -> Gluings:
    """The gluings of a table, by its signature."""
    return [[None if gluing is None else (gluing.tet, gluing.images) for gluing in row] for row in table(signature, program=program).rows]


def kind_of(a: int, b: int) -> int:
    """The kind of the quadrilateral that keeps two vertices together."""
    other = (set(range(4)) - {a, b}) if 0 not in (a, b) else {a, b}
    return max(other) - 1


def quad_cone(gluings: Gluings) -> Tuple[int, Rows]:
    """One row for each edge: going round it, as many quadrilaterals slope up as down."""
    seen = set()
    rows = []
    for tet in range(len(gluings)):
        for a in range(4):
            for b in range(a + 1, 4):
                if (tet, a, b) in seen:
                    continue
                c, d = (v for v in range(4) if v not in (a, b))
                row = [0] * (3 * len(gluings))
                t, p = tet, (a, b, c, d)
                while True:
                    seen.add((t, min(p[:2]), max(p[:2])))
                    row[3 * t + kind_of(p[0], p[2])] += 1
                    row[3 * t + kind_of(p[0], p[3])] -= 1
                    # through the face that lies opposite to the third vertex
                    across = gluings[t][p[2]]
                    assert across is not None  # a closed triangulation
                    u, word = across
                    q = [word[v] for v in p]
                    t, p = u, (q[0], q[1], q[3], q[2])
                    if (t, p) == (tet, (a, b, c, d)):
                        break
                rows.append(row)
    return 3 * len(gluings), rows


def run(command: Sequence[str], text: str = "", folder: Optional[str] = None) -> Tuple[Optional[float], str]:
    """The seconds of a command, None where it took too long, and its answer."""
    done = common.run(command, text, LIMIT, folder)
    return None if done.status == ENDED else done.seconds, done.answer


def lines_of(rows: Rows) -> str:
    return "".join(" ".join(map(str, row)) + "\n" for row in rows)


def by_4ti2(program: str, columns: int, rows: Rows, folder: str) -> Measured:
    with open(os.path.join(folder, "cone.mat"), "w", encoding="utf8") as out:
        out.write(f"{len(rows)} {columns}\n" + lines_of(rows))
    with open(os.path.join(folder, "cone.sign"), "w", encoding="utf8") as out:
        out.write(f"1 {columns}\n" + " ".join(["1"] * columns) + "\n")
    with open(os.path.join(folder, "cone.rel"), "w", encoding="utf8") as out:
        out.write(f"1 {len(rows)}\n" + " ".join(["="] * len(rows)) + "\n")
    seconds, _ = run([program, "-q", "cone"], folder=folder)
    if seconds is None:
        return None, 0
    with open(os.path.join(folder, "cone.ray"), encoding="utf8") as given:
        return seconds, int(given.readline().split()[0])


def half_spaces(columns: int, rows: Rows) -> str:
    """The cone in the form that lrs and cdd read."""
    units = [[int(c == k) for c in range(columns)] for k in range(columns)]
    body = "".join(f"0 {line}\n" for line in lines_of(rows + units).splitlines())
    equations = " ".join(str(k + 1) for k in range(len(rows)))
    return (f"cone\nH-representation\nlinearity {len(rows)} {equations}\nbegin\n"
            f"{len(rows) + columns} {columns + 1} rational\n{body}end\n")


def by_lrs(program: str, columns: int, rows: Rows, folder: str) -> Measured:
    with open(os.path.join(folder, "cone.ine"), "w", encoding="utf8") as out:
        out.write(half_spaces(columns, rows))
    seconds, text = run([program, "cone.ine"], folder=folder)
    return seconds, sum(line.startswith(" 0 ") for line in text.splitlines())


def by_cdd(program: str, columns: int, rows: Rows, folder: str) -> Measured:
    seconds, text = run([program, "--rep"], half_spaces(columns, rows), folder)
    return seconds, sum(line.startswith(" 0 ") for line in text.splitlines())


def by_normaliz(program: str, columns: int, rows: Rows, folder: str) -> Measured:
    with open(os.path.join(folder, "cone.in"), "w", encoding="utf8") as out:
        out.write(f"amb_space {columns}\nequations {len(rows)}\n{lines_of(rows)}nonnegative\nSupportHyperplanes\n")
    seconds, _ = run([program, "-x=1", "cone.in"], folder=folder)
    if seconds is None:
        return None, 0
    with open(os.path.join(folder, "cone.out"), encoding="utf8") as given:
        counts = [line.split()[0] for line in given if "extreme rays" in line and line.split()[0].isdigit()]
    return seconds, int(counts[0])


PEERS = (
    ("4ti2", ("4ti2-rays",), by_4ti2),
    ("lrs", ("lrs",), by_lrs),
    ("Normaliz", ("normaliz",), by_normaliz),
    ("cdd", ("cddexec_gmp", "cddexec"), by_cdd),
)


def peers() -> Iterator[Tuple[str, str, Callable[[str, int, Rows, str], Measured]]]:
    """The peers that are installed, each with its program."""
    for name, programs, ask in PEERS:
        found = [path for path in (shutil.which(program) for program in programs) if path]
        if found:
            yield name, found[0], ask


def report(name: str, words: str, seconds: Optional[float], rays: int, own: Optional[float] = None) -> None:
    answer = f"no answer in {LIMIT} s" if seconds is None else f"{rays} rays, {seconds:.2f} s"
    ratio = f", trinorm takes {own / seconds:.2f} of that" if own and seconds else ""
    print(f"{name}, {words}: {answer}{ratio}", flush=True)


def measure(program: str, name: str, columns: int, rows: Rows) -> None:
    text = f"cone {columns} {len(rows)}\n" + lines_of(rows)
    own = None
    for order in ("zeros", "given"):
        own, answer = run([program, "rays", "--order", order], text)
        report(name, f"trinorm --order {order}", own, answer.count("vec"))
    for peer, path, ask in peers():
        with tempfile.TemporaryDirectory() as folder:
            seconds, rays = ask(path, columns, rows, folder)
        report(name, peer, seconds, rays, own)


def main() -> None:
    program = named_program()
    for tetrahedra in (8, 9, 10):
        measure(program, f"quad cone of a layered loop of {tetrahedra}", *quad_cone(layered_loop_gluings(tetrahedra)))
        measure(program, f"quad cone of a closed table of {tetrahedra}", *quad_cone(gluings_of(CLOSED[tetrahedra], program)))
    measure(program, "magic cone of 5 x 5 with diagonals", *magic(5, True))
    measure(program, "magic cone of 6 x 6", *magic(6, False))


if __name__ == "__main__":
    main()

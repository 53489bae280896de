#!/usr/bin/env python3
"""Measures `trinorm sig`, `same` and `group`: seconds of the processor per input, on layered loops of tetrahedra (closed,
every face glued), on chains and on tables grown by 2-3 moves that are drawn from a fixed seed, and `sig` beside Regina where it is installed.

Usage: bench/signatures.py [PROGRAM]
"""
import random

from common import chain, grown, layered_loop, named_program, regina_says, run

# What Regina's interpreter is told: seconds of its signature, without its start.
REGINA = """
import regina, time
table = regina.Triangulation3.fromIsoSig(%r)
begun = time.process_time()
table.isoSig()
print(time.process_time() - begun)
"""


def measure(program: str, command: str, name: str, text: str) -> None:
    done = run([program, command], text)
    line = f"{command}, {name}: {len(done.answer)} bytes, status {done.status}, {done.seconds:.3f} s"
    said = regina_says(REGINA % done.answer.split()[-1]) if command == "sig" else None
    if said:
        line += f"; Regina {float(said[-1]):.3f} s, ratio {done.seconds / float(said[-1]):.2f}"
    print(line, flush=True)


def renumbered(table: str) -> str:
    """A closed table isomorphic to `table`, with numbers of tetrahedra and vertices that are drawn from a fixed seed."""
    rows = [line.split() for line in table.splitlines()[1:]]
    draw = random.Random(len(rows))
    images = draw.sample(range(len(rows)), len(rows))
    perms = [draw.sample(range(4), 4) for _ in rows]
    new = [[""] * 4 for _ in rows]
    for t, row in enumerate(rows):
        for face, entry in enumerate(row):
            other, word = entry.split(":")
            images_of = sorted((perms[t][v], perms[int(other)][int(word[v])]) for v in range(4))
            new[images[t]][perms[t][face]] = f"{images[int(other)]}:{''.join(str(v) for _, v in images_of)}"
    return f"tri {len(rows)}\n" + "".join(" ".join(row) + "\n" for row in new)


def rows_of(table: str) -> str:
    """The first line and the rows, without the lines after them."""
    lines = table.splitlines(keepends=True)
    return "".join(lines[: 1 + int(lines[0].split()[1])])


def main() -> None:
    program = named_program()
    for tetrahedra in (10, 40, 100, 300, 1000):
        measure(program, "sig", f"layered loop of {tetrahedra}", layered_loop(tetrahedra))
        measure(program, "sig", f"chain of {tetrahedra}", chain(tetrahedra))
        measure(program, "same", f"layered loop of {tetrahedra} and itself", layered_loop(tetrahedra) * 2)
    for steps in (60, 200, 600, 1500):
        table = grown(program, steps)
        measure(program, "sig", f"grown table of {table.split()[1]}", table)
        rows, count = rows_of(table), int(table.split()[1])
        measure(program, "same", f"grown table of {count} and itself renumbered", rows + renumbered(rows))
        measure(program, "same", f"grown table of {count} and the layered loop of {count}", rows + layered_loop(count))
    measure(program, "group", "layered loops of 3 to 60", "".join(layered_loop(n) for n in range(3, 61)))


if __name__ == "__main__":
    main()

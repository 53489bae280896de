#!/usr/bin/env python3
"""Measures `trinorm verify`: about 1,048,576 bytes of vectors on a table of 1,000 tetrahedra.

Prints the size of the input, the seconds and the memory of the program. It compares nothing.
Usage: bench/verify.py [PROGRAM]
"""
from typing import List

from common import MOST_BYTES, chain, named_program, run, vector_line


def filled(line: str) -> str:
    """A table of 1,000 tetrahedra, and a line as often as there is room for."""
    table = chain(1000)
    return table + line * ((MOST_BYTES - len(table)) // len(line))


def main() -> None:
    program = named_program()
    empty: List[int] = []
    for name, entries in (("vectors of zeros", [0] * 7000), ("vectors of ones", [1] * 7000), ("empty vectors", empty)):
        text = filled(vector_line(entries))
        done = run([program, "verify"], text)
        verdicts = done.answer.count("\n")
        print(f"{name}: {len(text)} bytes, {verdicts} verdicts, status {done.status}, {done.seconds:.2f} s, {done.megabytes:.0f} MB")


if __name__ == "__main__":
    main()

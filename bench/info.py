#!/usr/bin/env python3
"""Measures `trinorm info` on chains of tetrahedra: seconds per table. It compares nothing.

Usage: bench/info.py [PROGRAM]
"""
from common import chain, named_program, run


def main() -> None:
    program = named_program()
    for tetrahedra in (10, 100, 1000):
        done = run([program, "info"], chain(tetrahedra))
        print(f"chain of {tetrahedra} tetrahedra: {len(done.answer)} bytes, status {done.status}, {done.seconds:.3f} s")


if __name__ == "__main__":
    main()

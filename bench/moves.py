#!/usr/bin/env python3
"""Measures `trinorm play`: seconds for scripts of 1,000 steps on about 1,000 tetrahedra. It compares nothing.

Usage: bench/moves.py [PROGRAM]
"""
from common import layered_loop, named_program, run


def there_and_back(tetrahedra: int, steps: int) -> str:
    """A 1-4 move and its inverse, over and over."""
    return "".join(f"14 {k % tetrahedra}\n41 {tetrahedra + 2} 3\n" for k in range(steps // 2))


def and_undone(tetrahedra: int, steps: int) -> str:
    """A 1-4 move, taken back and played once more, and taken back."""
    return "".join(f"14 {k % tetrahedra}\nundo\nredo\nundo\n" for k in range(steps // 4))


def refused(tetrahedra: int, steps: int) -> str:
    """Moves that are refused."""
    return "".join(f"41 {k % tetrahedra} 0\n" for k in range(steps))


def main() -> None:
    program = named_program()
    for tetrahedra in (10, 100, 990):
        for script in (there_and_back, and_undone, refused):
            done = run([program, "play"], layered_loop(tetrahedra) + script(tetrahedra, 1000))
            accepted = done.answer.count("done\n")
            print(f"{script.__doc__} 1000 steps on {tetrahedra} tetrahedra: {accepted} done, status {done.status}, {done.seconds:.2f} s")


if __name__ == "__main__":
    main()

#!/usr/bin/env python3
"""Compares the library and the server with the program beside which they stand: status and bytes of some 10,000 calls, each command
that reads one triangulation, in all coordinates, on each of the 1,000 signatures of bench/census_signatures.txt. The library's
calls go in four threads.

    bench/same_answers.py [PROGRAM]

Status 1: something differs.
"""
import collections
import os
import subprocess
import sys
from concurrent.futures import ThreadPoolExecutor
from typing import Counter, Iterator, List, Tuple

from common import HERE, named_program
from trinorm import library
from trinorm.options import coordinates, reading
from trinorm.server import Server


def questions() -> Iterator[List[str]]:
    """Each command that reads one triangulation, in all of its coordinates, and `surfaces` with a limit that is exceeded."""
    for name in reading("table"):
        yield from ([name, "--coords", it] for it in coordinates(name))
        if not coordinates(name):
            yield [name]
    yield ["surfaces", "--max-entry", "3"]


def main() -> int:
    program = named_program()
    found_here, differ = library.next_to(program), 0
    statuses: Counter[int] = collections.Counter()
    if found_here is None:
        sys.exit(f"there is no {library.NAME} in the folder of {program}")
    here = found_here
    with open(os.path.join(HERE, "census_signatures.txt"), encoding="utf8") as file:
        signatures = file.read().split()
    jobs = [(words, f"sig {it}\n") for words in questions() for it in signatures]

    def by_program(job: Tuple[List[str], str]) -> Tuple[int, bytes]:
        done = subprocess.run([program, *job[0]], input=job[1].encode(), stdout=subprocess.PIPE, check=False)
        return done.returncode, done.stdout

    with ThreadPoolExecutor(4) as pool, Server(program) as server:
        expected, found = pool.map(by_program, jobs), pool.map(lambda job: here.answer(*job)[:2], jobs)
        for job, one, other in zip(jobs, expected, found):
            statuses[one[0]] += 1
            if one != other or one != server.ask(*job):
                differ += 1
                print("differs:", *job[0], job[1].strip())
    print(f"{len(jobs)} calls, statuses {dict(sorted(statuses.items()))}: {differ} differ")
    return 1 if differ else 0


if __name__ == "__main__":
    sys.exit(main())

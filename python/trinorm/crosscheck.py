"""python3 -m trinorm crosscheck: lists vertex surfaces with Regina too, and tells what differs."""
from __future__ import annotations

import argparse
import json
from typing import Any, Dict, Iterable, List, Tuple

from . import executors
from .census import by_processes, faults_of_files, read_entries, run_census
from .comparisons import Comparison
from .machine import processors
from .options import add_run_arguments
from .program import Failed, find
from .regina_surfaces import COORDS
from .tables import import_regina
from .tasks import Entry, Task


def verdict_of(line: Dict[str, Any]) -> Tuple[bool, List[str]]:
    """Whether the lists of a line of the census are all the same, and what is printed of it."""
    if "answer" not in line:
        return False, [f"{line['signature']}: {line['refused']['line'] if 'refused' in line else line['failed']}"]
    compared = {coords: Comparison(**fields) for coords, fields in line["answer"].items()}
    lines = [text for coords, it in compared.items() for text in it.lines(f"{line['signature']} {coords}")]
    return all(it.is_same for it in compared.values()), lines


def print_all(entries: Iterable[Entry], task: Task, jobs: int) -> bool:
    """Prints what comes out, and says whether all is the same."""
    are_same = True
    with by_processes(jobs) as engine:
        for done in executors.answers(entries, task, *engine):
            for answer in done.lines.splitlines():
                is_same, lines = verdict_of(json.loads(answer))
                are_same = are_same and is_same
                print("\n".join(lines), flush=True)
    return are_same


def all_are_same(path: str) -> bool:
    """Whether the lists are the same in each line of an output."""
    with faults_of_files(path), open(path, "rb") as file:
        return all(verdict_of(json.loads(line))[0] for line in file)


def add_arguments(reader: argparse.ArgumentParser) -> None:
    reader.add_argument("signatures", nargs="*", metavar="SIGNATURE")
    reader.add_argument("--file", help="a file of lines SIGNATURE or SIGNATURE NAME, instead of signatures")
    reader.add_argument("--coords", choices=tuple(COORDS), help="only these coordinates (default: all three)")
    reader.add_argument("--out", help="with --file, an output file of JSON lines, which is resumed as by census")
    add_run_arguments(reader)


def main(given: argparse.Namespace) -> int:
    import_regina()
    if bool(given.signatures) == bool(given.file) or (given.out and not given.file) or given.out == "-":
        raise Failed("give signatures, or --file FILE with or without --out FILE, but not both")
    task = Task("crosscheck", given.coords, given.timeout, find())
    if given.out:
        with by_processes(given.jobs or processors()) as engine:
            run_census(given.file, given.out, task, engine)
        return 0 if all_are_same(given.out) else 1
    with faults_of_files("standard output"):
        entries: Iterable[Entry] = read_entries(given.file) if given.file else [Entry(it, it) for it in given.signatures]
        jobs = given.jobs or (processors() if given.file else 1)
        return 0 if print_all(entries, task, jobs) else 1

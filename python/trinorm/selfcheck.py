"""Checks this installation: worked rows of all commands, the package's examples, and limits of a call.

    python3 -m trinorm selfcheck

takes some seconds, prints what to report, and ends with status 1 if anything differs. It matters most where nobody has
run this package yet.
"""
from __future__ import annotations

import _thread
import argparse
import contextlib
import doctest
import functools
import io
import json
import os
import platform
import subprocess
import sys
import tempfile
import threading
import time
from pathlib import Path
from typing import TYPE_CHECKING, Callable, Iterator, List, NamedTuple, Tuple

from . import batch, commands, program, versions
from .census import census

if TYPE_CHECKING:
    from .library import Library

HERE = Path(__file__).resolve().parent
MOST_SHOWN = 10
# of 24 tetrahedra, with a list that takes many seconds
LONG_QUESTION = "sig yLALvLvAzAQMzzMQQaccehjikqpoornspvuttwwvxxbggggtccanffxwavawcvaeccc\n"
FEW_BYTES = 1 << 20
SHORT_TIME = 0.3
# how late a limit may be looked at
LATE = 20.0


class Row(NamedTuple):
    """A question, and what the program answers: its output and its exit status."""

    words: Tuple[str, ...]
    input: bytes
    output: bytes
    status: int


class Outcome(NamedTuple):
    """What was checked: how many checks there were, what differed, and the seconds that they took."""

    checks: int
    differences: List[str]
    seconds: float

    def __str__(self) -> str:
        return f"{self.checks - len(self.differences)} of {self.checks}, {self.seconds:.1f} s"


Answer = Callable[[Row], Tuple[int, bytes]]


def _bytes_of(spelled: object) -> bytes:
    """Bytes as the file of rows has them: latin-1 text, or a text with a number of times."""
    if isinstance(spelled, dict):
        return _bytes_of(spelled["repeat"]) * int(spelled["times"])
    return str(spelled).encode("latin-1")


def read_rows() -> List[Row]:
    """The worked rows."""
    rows = json.loads((HERE / "worked_rows.json").read_text("utf8"))
    return [Row(tuple(row["words"]), _bytes_of(row["input"]), _bytes_of(row["output"]), row["status"]) for row in rows]


def _timed(count: int, differences: Iterator[str]) -> Outcome:
    begun = time.monotonic()
    listed = list(differences)
    return Outcome(count, listed, time.monotonic() - begun)


def check_rows(answer: Answer, rows: List[Row]) -> Outcome:
    """Asks for the answer to each row."""
    def differing() -> Iterator[str]:
        for row in rows:
            status, output = answer(row)
            if (status, output) != (row.status, row.output):
                yield (f"{' '.join(row.words)} < {row.input[:80]!r}: expected {row.output[:80]!r} with status {row.status}, "
                       f"got {output[:80]!r} with status {status}")
    return _timed(len(rows), differing())


def by_library(library: Library) -> Answer:
    """Answers by a library in this process."""
    def answer(row: Row) -> Tuple[int, bytes]:
        status, output, _ = library.answer(row.words, row.input.decode("utf8", "surrogateescape"))
        return status, output
    return answer


def by_program(path: str) -> Answer:
    """Answers by a process of the program for each row."""
    def answer(row: Row) -> Tuple[int, bytes]:
        try:
            done = subprocess.run([path, *row.words], input=row.input, stdout=subprocess.PIPE, stderr=subprocess.DEVNULL, check=False)
        except OSError as fault:
            return -1, f"the program cannot be started: {fault}".encode()
        return done.returncode, done.stdout
    return answer


def examples() -> List[doctest.DocTest]:
    """The examples of each command's function, by its docstring, and those of several functions together."""
    finder, file = doctest.DocTestFinder(recurse=False), HERE / "examples.txt"
    found = [test for name in commands.__all__ for test in finder.find(getattr(commands, name), name)]
    return [*found, doctest.DocTestParser().get_doctest(file.read_text("utf8"), {}, file.name, str(file), 0)]


def check_examples() -> Outcome:
    """Runs the package's examples."""
    said: List[str] = []
    runner = doctest.DocTestRunner(verbose=False)
    begun = time.monotonic()
    outcomes = [runner.run(test, out=said.append) for test in examples()]
    differences = [part for part in "".join(said).split("*" * 70) if part.strip()]
    return Outcome(sum(it.attempted for it in outcomes), differences[:sum(it.failed for it in outcomes)], time.monotonic() - begun)


def _ends_by_interruption(library: Library) -> bool:
    """Whether an interruption of the main thread, as by Ctrl-C, ends a call."""
    if threading.current_thread() is not threading.main_thread():
        return True
    timer = threading.Timer(SHORT_TIME, _thread.interrupt_main)
    timer.start()
    try:
        library.answer(["surfaces"], LONG_QUESTION, timeout=LATE)
    except KeyboardInterrupt:
        return True
    finally:
        timer.cancel()
    return False


def check_limits(library: Library) -> Outcome:
    """Limits of time and memory, and an interruption, of a question that takes long."""
    def differing() -> Iterator[str]:
        begun = time.monotonic()
        status, _, reached = library.answer(["surfaces"], LONG_QUESTION, timeout=SHORT_TIME)
        if (status, reached) != (8, 2) or time.monotonic() - begun > LATE:
            yield f"time limit: status {status}, limit {reached}, after {time.monotonic() - begun:.1f} s"
        status, _, reached = library.answer(["surfaces"], LONG_QUESTION, memory=FEW_BYTES)
        if (status, reached) != (8, 1):
            yield f"memory limit: status {status}, limit {reached}"
        if not _ends_by_interruption(library):
            yield "an interruption did not stop a call"
    return _timed(3, differing())


def _system() -> str:
    return f"{platform.platform()}, {platform.machine()}, Python {platform.python_version()}, {os.cpu_count()} processors"


def check_many() -> Outcome:
    """Several triangulations at a time: in threads, and as a census in processes."""
    def differing() -> Iterator[str]:
        rows = [row for row in read_rows() if row.words == ("sig",) and row.status == 0]
        signatures = list(dict.fromkeys(row.output.decode("ascii").strip() for row in rows))[:3]
        found = [it.answer for it in batch.many(signatures, "sig")]
        if found != signatures:
            yield f"many: expected {signatures}, got {found}"
        if os.name == "posix":
            yield from _differing_census(signatures)
    return _timed(2 if os.name == "posix" else 1, differing())


def _differing_census(signatures: List[str]) -> Iterator[str]:
    """What a census of some signatures answers otherwise."""
    with tempfile.TemporaryDirectory() as folder:
        said = io.StringIO()
        with contextlib.redirect_stderr(said):
            ran = census(signatures, os.path.join(folder, "out"), "sig", jobs=1)
    if (ran.now, ran.failed) != (len(signatures), 0):
        yield f"a census of {len(signatures)} signatures: {ran}, {said.getvalue().strip()}"


def checked(check: Callable[[], Outcome]) -> Outcome:
    """The outcome of a check. One that ends by an exception, as where the program can't be started, differs."""
    begun = time.monotonic()
    try:
        return check()
    except Exception as fault:  # pylint: disable=broad-except
        return Outcome(1, [f"the check ended: {type(fault).__name__}: {fault}"], time.monotonic() - begun)


def checks() -> Iterator[Tuple[str, Outcome]]:
    """Each part that is checked, with its outcome."""
    rows, missing = read_rows(), ""
    try:
        library = program.find_library()
    except program.Failed as fault:
        library, missing = None, str(fault)
    if library is not None:
        yield f"stored examples, by the library {library.path}", checked(functools.partial(check_rows, by_library(library), rows))
        yield "limits and interruption of a call", checked(functools.partial(check_limits, library))
    try:
        path = program.find()
    except program.Failed as fault:
        missing = missing or str(fault)
        if library is None:
            yield "no program and no library", Outcome(1, [missing], 0.0)
            return
        print(f"no program: {missing}")
    else:
        yield f"stored examples, by the program {path}", checked(functools.partial(check_rows, by_program(path), rows))
        yield "several triangulations at a time", checked(check_many)
    yield "examples of the package", checked(check_examples)


def main(_: argparse.Namespace) -> int:
    """Prints the outcome of each check, and says whether all is as expected."""
    print(f"trinorm {versions.version()}")
    print(versions.build(), end="")
    print(_system())
    differences: List[str] = []
    for name, outcome in checks():
        print(f"{name}: {outcome}", flush=True)
        differences += outcome.differences
    for difference in differences[:MOST_SHOWN]:
        print(f"differs: {difference.strip()}")
    print(f"{len(differences)} differences; please report all of the above" if differences else "everything is as expected")
    return 1 if differences else 0


if __name__ == "__main__":
    sys.exit(main(argparse.Namespace()))

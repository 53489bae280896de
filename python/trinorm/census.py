"""Runs one command on many triangulations, on all processors or on many machines, and writes one JSON line for each.

A line of the input is `SIGNATURE` or `SIGNATURE NAME`, with `sig` before it or not; blank lines and those that begin with
`#` are ignored. A line of the output has `name`, `signature`, `command`, `seconds`, and one of `answer`, `refused`,
`failed`. Both are read some lines at a time, and what was done is kept as digests, so that a file may have many millions.
"""
from __future__ import annotations

import contextlib
import json
import os
import re
import sys
from concurrent.futures import Executor
from dataclasses import dataclass
from json import dumps as quoted
from typing import TYPE_CHECKING, Any, BinaryIO, Callable, Dict, Iterable, Iterator, List, NamedTuple, Optional, Sized, Tuple, Union, cast

from . import executors
from .answer_files import BadLine, Output, count_lines, decoded, digests, read_blocks
from .arguments import AnyPath, as_bytes, checked_timeout, path_text, plain, shown, whole_number
from .executors import Done, Engine
from .machine import processors
from .options import Coords, add_run_arguments, coordinates
from .program import Error, Failed, find
from .meter import Meter
from .tables import BadArgument
from .tasks import COMMANDS, CommandName, Entry, Task, head_of
from .workers import Workers

if TYPE_CHECKING:
    import argparse

# the coordinates of the commands that take some
COORDS = {"surfaces": coordinates("surfaces"), "describe": coordinates("describe"), "count": coordinates("describe")}
# the commands of a census; `crosscheck` is a command of its own
NAMES = tuple(sorted(COMMANDS.keys() - {"crosscheck"}))
KINDS = {"answer": "answered", "refused": "refused", "failed": "failed"}
# the path of a file, `-` for standard input, or the lines themselves
Signatures = Union[AnyPath, Iterable[str]]


# a line of plain characters, with blanks alone between its words: its signature, which isn't `sig`, and its name
PLAIN = re.compile(rb"(?m)^(?:sig +)?(?!sig[ \n])([!$-\[\]-~][!#-\[\]-~]*)(?: +([!#-\[\]-~](?:[ !#-\[\]-~]*[!#-\[\]-~])?))? *\n")


# the triangulation of a line: its key, its signature and its name
Found = Tuple[bytes, bytes, bytes]
# the digests of the keys that are known; of a dictionary of numbers Python's garbage collector looks at no entry, as it does of
# a set, again and again
Known = Dict[complex, None]


def key_of(signature: str, name: str) -> bytes:
    """What a triangulation is known by: the shortest line that has it, or, if no line has it so, a line's end and its names as
    JSON, which no line begins with."""
    if signature == "sig" or signature.split() != [signature] or not name or name.strip() != name:
        return b"\n" + json.dumps([signature, name]).encode()
    return (signature if name == signature else f"{signature} {name}").encode("utf8", "surrogatepass")


def found_in(text: str) -> Optional[Found]:
    """The triangulation of a line, if it has one."""
    words = text.split(None, 1)
    if words[:1] == ["sig"] and words[1:]:
        words = words[1].split(None, 1)
    if not words or words[0].startswith("#"):
        return None
    signature, name = words[0], words[-1].strip()
    return key_of(signature, name), signature.encode(), name.encode()


def entry_of(found: Found) -> Entry:
    """A triangulation as text."""
    return Entry(found[1].decode(), found[2].decode())


class Source(NamedTuple):
    """An input: its name, the number of its lines, if it is known, and the lines, some at a time."""
    name: str
    total: Optional[int]
    blocks: Iterable[List[bytes]]


@contextlib.contextmanager
def opened(signatures: Signatures, accept_bad: bool = False) -> Iterator[Source]:
    """An input. The first line of a regular file that isn't UTF-8 is a `BadLine` at once, unless such lines are accepted."""
    if isinstance(signatures, os.PathLike):
        signatures = os.fspath(signatures)
    if isinstance(signatures, str) and signatures == "-":
        if sys.stdin is None:
            raise Failed("standard input is closed")
        yield Source("standard input", None, read_blocks(sys.stdin.buffer, "standard input", are_alone=True))
    elif isinstance(signatures, str):
        with open(signatures, "rb") as file:
            total = _counted(file, signatures, accept_bad)
            yield Source(signatures, total, read_blocks(file, signatures, are_alone=total is None))
    else:
        total = len(signatures) if isinstance(signatures, Sized) else None
        yield Source("the signatures", total, map(_encoded, signatures))


def listed_lines(signatures: object) -> Signatures:
    """A path or lines as they were given, a column or an array as the list of its lines."""
    given = signatures if isinstance(signatures, str) else plain(signatures)
    if isinstance(given, (bytes, type)) or given is not signatures and not isinstance(given, list) or not (
            isinstance(given, os.PathLike) or hasattr(given, "__iter__")):
        raise BadArgument(f"signatures must be the path of a file or a list of lines, not {shown(signatures)}")
    if isinstance(given, (str, os.PathLike)):
        checked_path(given, "signatures")
    return given


def checked_path(path: object, name: str) -> str:
    """A path as a text.

    name: what the argument is called
    """
    text = path_text(path)
    if text is None:
        raise BadArgument(f"{name} must be the path of a file, not {shown(path)}")
    return text


def _encoded(line: str) -> List[bytes]:
    """A line that was given as text."""
    if not isinstance(line, str):
        raise BadArgument(f"a line must be a string, such as 'cPcbbbiht figure-eight', not {shown(line)}")
    text = line.rstrip("\r\n")
    if "\n" in text or "\r" in text:
        raise BadArgument(f"{shown(line)} has several lines; pass the lines of a text as text.splitlines()")
    return [as_bytes(line)]


def _counted(file: BinaryIO, name: str, accept_bad: bool) -> Optional[int]:
    """The number of lines of a file, from its begin on, if it can be read twice."""
    if not file.seekable():
        return None
    total = count_lines(file, name, accept_bad)
    file.seek(0)
    return total


def plain_ones(lines: List[bytes]) -> Optional[List[Found]]:
    """The triangulations of lines of plain characters that have one each; None if there is another line among them."""
    text = b"".join(lines)
    found = PLAIN.findall(text)
    if not len(found) == len(lines) == text.count(b"\n") or not text.endswith(b"\n"):
        return None
    return [(b"%b %b" % (signature, name) if name and name != signature else signature, signature, name or signature)
            for signature, name in found]


def are_known(lines: List[bytes], known: Known) -> bool:
    """Whether each line is the key of a known triangulation, as most lines are if a census is resumed."""
    texts = b"".join(lines).split(b"\n")[:-1]
    return len(texts) == len(lines) and digests(texts[:1])[0] in known and all(map(known.__contains__, digests(texts)))


def blocks_of(source: Source, bad: Optional[Callable[[BadLine], None]] = None, known: Known = {}) -> Iterator[List[Optional[Found]]]:
    """The triangulation of each line, or None, some lines at a time; None for known ones too, if all of these are known. A line
    that isn't UTF-8 is handed to `bad`, or raised."""
    number = 1
    for lines in source.blocks:
        # most lines are plain, and it takes a third of the time
        found = [None] * len(lines) if known and are_known(lines, known) else plain_ones(lines)
        if found is not None:
            yield [*found]
        else:
            yield from ([_found_at(line, source.name, at, bad)] for at, line in enumerate(lines, number))
        number += len(lines)


def _found_at(line: bytes, name: str, number: int, bad: Optional[Callable[[BadLine], None]]) -> Optional[Found]:
    """The triangulation of a line, if it has one."""
    try:
        return found_in(decoded(line, name, number))
    except BadLine as fault:
        if bad is None:
            raise
        bad(fault)
        return None


def new_ones(block: List[Optional[Found]], known: Known) -> List[Found]:
    """The triangulations of some lines that aren't known. Their digests are known from now on."""
    found = [it for it in block if it is not None]
    new = []
    for it, number in zip(found, digests(key for key, _, _ in found)):
        if number not in known:
            known[number] = None
            new.append(it)
    return new


def read_entries(path: str) -> Iterator[Entry]:
    """The triangulations of a file, each once."""
    known: Known = {}
    with opened(path) as source:
        for block in blocks_of(source):
            yield from map(entry_of, new_ones(block, known))


def read_answer(line: bytes, path: str, number: int) -> Dict[str, Any]:
    """A line of the output of a census."""
    try:
        answer = json.loads(decoded(line, path, number))
    except (ValueError, RecursionError) as fault:
        raise fault if isinstance(fault, BadLine) else ValueError(f"{path}, line {number}: {fault}") from None
    if not (isinstance(answer, dict) and all(isinstance(answer.get(part), str) for part in ("name", "signature", "command"))):
        raise ValueError(f"{path}, line {number}: this is not a line of a census")
    return answer


class Earlier:
    """What an earlier run of a task wrote to an output: all of its whole lines, and those of failed runs only if these
    aren't tried again."""

    def __init__(self, path: str, task: Task, retry: bool) -> None:
        self.path, self.task, self.retry = path, task, retry
        self.done: Known = {}
        words = re.escape(quoted(task.words).encode())
        # a line as this package writes it; such a one is not read as JSON, which takes ten times as long
        self._plain = re.compile(rb'(?m)^\{"name": "([!#-\[\]-~](?:[ !#-\[\]-~]*[!#-\[\]-~])?)", "signature": "(?!sig")([!#-\[\]-~]+)"'
                                 rb', "command": ' + words + rb', "seconds": [0-9.e+-]+, "(?:answer|refused|(failed))": .*\}\n')

    def kept(self, number: int, lines: List[bytes]) -> List[bytes]:
        """Those of some whole lines that stay; their triangulations are done."""
        found = self._plain.findall(b"".join(lines))
        if len(found) < len(lines) or self.retry and any(has_failed for _, _, has_failed in found):
            return [line for at, line in enumerate(lines, number) if self._is_kept(at, line)]
        keys = [b"%b %b" % (signature, name) if name != signature else name for name, signature, _ in found]
        self.done.update(dict.fromkeys(digests(keys)))
        return lines

    def _is_kept(self, number: int, line: bytes) -> bool:
        """Whether a line stays; if it does, its triangulation is done."""
        answer = read_answer(line, self.path, number)
        if answer["command"] != self.task.words:
            raise ValueError(f"{self.path} has results of `{answer['command']}`, not of `{self.task.words}`; choose another --out")
        has_failed = "failed" in answer
        if self.retry and has_failed:
            return False
        self.done.update(dict.fromkeys(digests([key_of(answer["signature"], answer["name"])])))
        return True


@dataclass(frozen=True)
class Ran:
    """How many triangulations a census has dealt with.

    Attributes:
        before: how many were done before
        now: how many were done now
        failed: how many of these failed

    >>> import tempfile, trinorm
    >>> with tempfile.NamedTemporaryFile() as out:
    ...     trinorm.census(["bkaagj"], out.name, "sig", jobs=1)
    Ran(before=0, now=1, failed=0)
    """
    before: int
    now: int
    failed: int


@contextlib.contextmanager
def faults_of_files(path: str) -> Iterator[None]:
    """What is wrong with files, as a failed run that names the file."""
    try:
        yield
    except Error:
        raise
    except OSError as fault:
        raise Failed(f"{fault.filename or ('standard output' if path == '-' else path)}: {fault.strerror}") from None
    except ValueError as fault:
        raise Failed(str(fault)) from None


@contextlib.contextmanager
def by_processes(jobs: int) -> Iterator[Engine]:
    """`jobs` processes on this machine, which are ended with what they run at the end of the block."""
    workers = Workers(jobs)
    try:
        yield Engine(workers, 2 * jobs)
    finally:
        workers.kill_workers()


class Run:
    """A census that goes on: what comes in, what is done, and what goes out."""

    def __init__(self, source: Source, output: Output, earlier: Earlier, meter: Meter) -> None:
        self.source, self.output, self.task, self.meter = source, output, earlier.task, meter
        self._done = earlier.done
        meter.before = len(earlier.done)

    def entries(self, skip_bad: bool) -> Iterator[Entry]:
        """The triangulations of the input that aren't done, each once."""
        for block in blocks_of(self.source, self._pass_over if skip_bad else None, self._done):
            new = new_ones(block, self._done)
            self._expect(len(new) - len(block))
            yield from map(entry_of, new)

    def _expect(self, more: int) -> None:
        """Changes how many are to be done, if that is known."""
        if self.meter.total is not None:
            self.meter.total += more

    def _pass_over(self, bad: BadLine) -> None:
        """A line of the output in the place of a bad one of the input."""
        for found in new_ones([found_in(bad.text)], self._done):
            self._expect(1)
            self.take(executors.done_of([{**head_of(entry_of(found), self.task, 0.0), "failed": str(bad)}]))

    def take(self, done: Done) -> None:
        """Writes lines of the output, and counts them."""
        self.output.write(done.lines)
        self.meter.add(done.kinds)

    def how_to_go_on(self) -> str:
        """What a user does after it was stopped."""
        if self.output.is_regular:
            return f"if it is started again with the same arguments, it resumes; {self.output.path}"
        return f"it can resume only if --out names a file; {self.output.path}"


def run_census(signatures: Signatures, out: str, task: Task, engine: Engine, *, retry: bool = False, skip_bad: bool = False,
               meter: Optional[Meter] = None) -> Ran:
    """Runs what of an input is missing in an output, by an engine."""
    with faults_of_files(out), opened(signatures, skip_bad) as source, Output(out) as output:
        earlier = Earlier(out, task, retry)
        output.keep(earlier.kept)
        with meter or Meter(source.total, KINDS) as counter:
            run = Run(source, output, earlier, counter)
            try:
                for done in executors.answers(run.entries(skip_bad), task, *engine):
                    run.take(done)
            except BaseException:
                counter.end(f"stopped: {counter.counts()} in {counter.seconds():.1f} s; {run.how_to_go_on()}")
                raise
            counter.end(f"{counter.counts()} in {counter.seconds():.1f} s; {out}")
            return Ran(counter.before, counter.done(), counter.counted["failed"])


def task_of(command: str, coords: Optional[str], timeout: Optional[float], program: Optional[AnyPath]) -> Task:
    """What is asked of each triangulation, or `BadArgument`."""
    if not isinstance(command, str) or command not in NAMES:
        raise BadArgument(f"command must be one of {', '.join(NAMES)}, not {shown(command)}")
    may_be = COORDS.get(command, ())
    if coords is not None and (not isinstance(coords, str) or coords not in may_be):
        raise BadArgument(f"coords of {command} must be {' or '.join(may_be) or 'None'}, not {shown(coords)}")
    return Task(command, cast(Coords, coords or "standard") if may_be else None, checked_timeout(timeout), find(program))


def census(signatures: Signatures, out: AnyPath, command: CommandName = "surfaces", coords: Optional[Coords] = None, *,
           timeout: Optional[float] = None, jobs: Optional[int] = None, retry_failed: bool = False, skip_bad: bool = False,
           executor: Optional[Executor] = None, program: Optional[AnyPath] = None) -> Ran:
    """Runs a command on each of many signatures, and writes a JSON line for each to a file.

    If it is called again with the same arguments, it resumes where it stopped.

    Args:
        signatures: the path of a file of lines `SIGNATURE` or `SIGNATURE NAME`, `-` for standard input, or such lines: a list, an
            array or a column of pandas
        out: the path of the output
        command: the name of a command, one of `trinorm.census.NAMES`
        coords: coordinates, if the command takes them
        timeout: the seconds for each triangulation
        jobs: the number of processes, or of batches that an executor has at a time; by default by the processors or its workers
        retry_failed: whether failed runs are tried again
        skip_bad: whether lines that are not UTF-8 are reported as failed instead of ending the census before it begins
        executor: a `concurrent.futures.Executor`, such as Dask's or that of MPI; by default processes on this machine
        program: the path of a program, as for `surfaces`

    Returns:
        A `Ran`.

    Raises:
        BadArgument: an argument is invalid
        Failed: a file cannot be read or written, or has results of another command

    >>> import tempfile, trinorm
    >>> with tempfile.NamedTemporaryFile() as out:
    ...     trinorm.census(["bkaagj", "cPcbbbiht figure-eight"], out.name, "count", jobs=1)
    Ran(before=0, now=2, failed=0)
    """
    task = task_of(command, coords, timeout, program)
    signatures, path = listed_lines(signatures), checked_path(out, "out")
    if executor is not None and (isinstance(executor, type) or not callable(getattr(executor, "submit", None))):
        raise BadArgument(f"executor must be a concurrent.futures.Executor, not {shown(executor)}")
    if jobs is not None and (whole_number(jobs) or 0) < 1:
        raise BadArgument(f"jobs must be a whole number of at least 1, not {shown(jobs)}")
    for name, value in (("retry_failed", retry_failed), ("skip_bad", skip_bad)):
        if not isinstance(value, bool):
            raise BadArgument(f"{name} must be True or False, not {shown(value)}")
    if executor is not None:
        engine = Engine(executor, jobs or executors.hands_of(executor), executors.Unknown())
        return run_census(signatures, path, task, engine, retry=retry_failed, skip_bad=skip_bad)
    with by_processes(jobs or processors()) as engine:
        return run_census(signatures, path, task, engine, retry=retry_failed, skip_bad=skip_bad)


def add_arguments(reader: argparse.ArgumentParser) -> None:
    """The arguments of a census."""
    reader.add_argument("signatures", help="a file of lines SIGNATURE or SIGNATURE NAME, or - for standard input")
    reader.add_argument("--command", choices=NAMES, default="surfaces")
    reader.add_argument("--coords", choices=COORDS["surfaces"], help="coordinates (surfaces: all three; describe, count: standard or octagon)")
    reader.add_argument("--out", help="the output file, or - (default: SIGNATURES.COMMAND.jsonl; if SIGNATURES is -, also -)")
    reader.add_argument("--retry-failed", action="store_true", help="repeat the runs that failed")
    reader.add_argument("--skip-bad", action="store_true", help="report lines that are not UTF-8 as failed, and continue")
    engines = reader.add_mutually_exclusive_group()
    engines.add_argument("--dask", metavar="ADDRESS", help="use the workers of the Dask scheduler at this address, "
                         "or of this scheduler file")
    engines.add_argument("--mpi", action="store_true",
                         help="use MPI: mpiexec -n N python3 -m mpi4py.futures -m trinorm census .. --mpi")
    add_run_arguments(reader)


def engine_of(given: argparse.Namespace) -> contextlib.AbstractContextManager[Engine]:
    """The engine that the words ask for."""
    if given.dask:
        return executors.by_dask(given.dask)
    if given.mpi:
        return executors.by_mpi()
    return by_processes(given.jobs or processors())


def main(given: argparse.Namespace) -> int:
    """Runs a census. The status: 1 if some runs failed."""
    task = task_of(given.command, given.coords, given.timeout, None)
    out = given.out or ("-" if given.signatures == "-" else f"{given.signatures}.{given.command}.jsonl")
    with engine_of(given) as engine:
        if given.jobs and (given.dask or given.mpi):
            engine = engine._replace(hands=given.jobs)
        ran = run_census(given.signatures, out, task, engine, retry=given.retry_failed, skip_bad=given.skip_bad)
    return 1 if ran.failed else 0

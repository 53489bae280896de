"""One command on many triangulations, from Python: in threads of this process, or by any executor of `concurrent.futures`,
as `ProcessPoolExecutor`, Dask's `Client.get_executor()` or `mpi4py.futures.MPIPoolExecutor`.
"""
from __future__ import annotations

import contextlib
import inspect
import itertools
import os
import queue
import time
import warnings
from _thread import start_new_thread
from concurrent.futures import CancelledError, Executor, Future
from dataclasses import dataclass
from typing import Any, Callable, Dict, Iterable, Iterator, List, Literal, NamedTuple, Optional, Tuple, Union

from . import certificates, commands, questions
from .arguments import checked_timeout, plain, shown
from .commands import OfTable
from .errors import BadArgument, Error, Failed
from .machine import processors
from .options import reading
from .program import Program, checked_program
from .progress import Reported
from .server import Server
from .tables import Triangulation, document

# the functions of one triangulation that go by name
FUNCTIONS: Tuple[Callable[..., Any], ...] = (
    *(getattr(commands, name) for name in reading("table")), commands.table, questions.described, questions.count,
    questions.spheres, questions.tori, questions.zero_efficient, certificates.certify)
COMMANDS = {it.__name__: it for it in FUNCTIONS}
# how many seconds a handful of triangulations is to take, how many it may have, and how many handfuls are asked at a time
SECONDS, MOST, IN_HAND = 0.1, 256, 64
# seconds between two looks at what is waited for, and after which there is a warning
LOOK, SILENCE = 5.0, 60.0

# what is raised of a value that is no triangulation, Regina's own among them. An exception of a handler of signals is none of
# these, and ends the call
NO_TRIANGULATION = (Error, TypeError, ValueError, AttributeError, RuntimeError)

# called with the numbers of triangulations that are answered and that failed
Counts = Callable[[int, int], object]
# for those who check types; a test compares it with FUNCTIONS
CommandName = Literal[OfTable, "table", "described", "count", "spheres", "tori", "zero_efficient", "certify"]
Command = Union[CommandName, Callable[..., Any]]


@dataclass(frozen=True)
class Answered:
    """The result of a command for one triangulation: the answer, or instead of it an exception.

    Attributes:
        index: the index of the triangulation, from 0
        triangulation: the triangulation as it was given
        answer: what the command returned; None if it failed
        failure: the exception; None if the command returned
        value: the answer; if the command failed, reading it raises the exception

    >>> import trinorm
    >>> [answered.index for answered in trinorm.many(["bkaagj", "no signature"], "sig") if answered.failure]
    [1]
    """
    index: int
    triangulation: Triangulation
    answer: Any = None
    failure: Optional[Exception] = None

    @property
    def value(self) -> Any:
        """The answer; a failure is raised."""
        if self.failure is not None:
            raise self.failure
        return self.answer


class Task(NamedTuple):
    """What is asked of each triangulation, as it goes to another process."""
    command: Command
    timeout: Optional[float]
    program: Program
    options: Dict[str, Any]

    def ask(self, text: str, program: Program) -> Tuple[Any, Optional[Exception]]:
        """The answer, or the failure in the second place."""
        function = COMMANDS[self.command] if isinstance(self.command, str) else self.command
        named = {"timeout": self.timeout, "program": program} if isinstance(self.command, str) else {}
        try:
            return function(text, **named, **self.options), None
        except Exception as failure:  # pylint: disable=broad-except
            return None, failure

    def run(self, texts: List[str], program: Program = None) -> Tuple[List[Tuple[Any, Optional[Exception]]], float]:
        """What comes out for a handful, and how long it took. A limit of time is kept by a server, if there is one."""
        begun, program = time.monotonic(), self.program if program is None else program
        is_named = program is None or isinstance(program, (str, os.PathLike))
        named = os.fspath(program) if isinstance(program, (str, os.PathLike)) else None
        if self.timeout is not None and isinstance(self.command, str) and is_named and Server.find(named) is not None:
            with Server(named) as server:
                said = [self.ask(text, server) for text in texts]
        else:
            said = [self.ask(text, program) for text in texts]
        return said, time.monotonic() - begun


def _level_of_caller() -> int:
    """The `stacklevel` by which `warnings.warn`, called by the caller of this function, names the line outside this package that
    asked for the next answer. How many of the package's own frames lie between depends on the order of the answers."""
    folder, level = os.path.dirname(__file__), 1
    frame = inspect.currentframe()
    frame = frame.f_back if frame is not None else None
    while frame is not None and os.path.dirname(frame.f_code.co_filename) == folder:
        frame, level = frame.f_back, level + 1
    return level


class _Threads(Executor):
    """Threads whose calls end soon after `stop`. The queues are the one thing that they share with who asks: no lock is kept if
    a handler of a signal raises an exception between two steps."""

    def __init__(self) -> None:
        self.stopped = False
        self._most = self._left = processors()
        # one for each thread that has begun; if memory is short, one may end before its first step
        self._begun: List[None] = []
        self._calls: "queue.SimpleQueue[Optional[Tuple[Future[Any], Callable[..., Any], Tuple[Any, ...]]]]" = queue.SimpleQueue()
        self._ended: "queue.SimpleQueue[None]" = queue.SimpleQueue()

    def submit(self, function: Callable[..., Any], /, *given: Any, **_named: Any) -> "Future[Any]":
        """As of any executor. A thread is started with each call until there are as many as processors."""
        future: Future[Any] = Future()
        if self._left > 0:
            with contextlib.suppress(RuntimeError):  # where no more threads can be started; `help` answers if there is none
                start_new_thread(self._work, ())
                self._left -= 1
        self._calls.put((future, function, given))
        return future

    def _work(self) -> None:
        """Answers calls until there is None."""
        self._begun.append(None)
        for call in iter(self._calls.get, None):
            _answer(*call)
        self._calls.put(None)  # for the next one
        self._ended.put(None)

    def help(self) -> None:
        """Answers a call in this thread, if no other one has begun."""
        with contextlib.suppress(queue.Empty):
            call = None if self._begun else self._calls.get_nowait()
            if call is not None:
                _answer(*call)

    def look(self, _seconds: float, _held: int) -> None:
        """Raises once the calls are to end."""
        if self.stopped:
            raise Failed("the call was stopped")

    def stop(self, seconds: float = 1.0) -> None:
        """Ends the calls, and waits for the threads for a while: they end by themselves."""
        self.stopped = True
        with contextlib.suppress(queue.Empty):
            while True:
                self._calls.get_nowait()
        self._calls.put(None)
        until = time.monotonic() + seconds
        with contextlib.suppress(queue.Empty):
            for _ in self._begun:
                self._ended.get(timeout=max(0.0, until - time.monotonic()))


def _answer(future: "Future[Any]", function: Callable[..., Any], given: Tuple[Any, ...]) -> None:
    """Answers a call of a future."""
    try:
        future.set_result(function(*given))
    except BaseException as fault:  # pylint: disable=broad-except
        future.set_exception(fault)


class _Handful(NamedTuple):
    """Triangulations that are asked together: their indices, what was given, and their texts."""
    entries: List[Tuple[int, Triangulation, str]]


class _Run:
    """The handfuls of one call of `many`."""

    def __init__(self, given: Iterator[Tuple[int, Triangulation]], task: Task, executor: Executor) -> None:
        self.given, self.task, self.executor = given, task, executor
        self.running: Dict[Future[Any], _Handful] = {}
        self.size = 1
        # not `concurrent.futures.wait`, which would keep the lock of a future where a handler of a signal raises in it
        self._done: "queue.SimpleQueue[Future[Any]]" = queue.SimpleQueue()

    def _take(self) -> Tuple[_Handful, List[Answered]]:
        """The next handful, and the failures of what is no triangulation."""
        entries, failed = [], []
        for index, t in itertools.islice(self.given, self.size):
            try:
                entries.append((index, t, document(t)))
            except NO_TRIANGULATION as failure:
                failed.append(Answered(index, t, None, failure))
        return _Handful(entries), failed

    def _submit(self, handful: _Handful) -> List[Answered]:
        """Asks a handful. Returns the failures if the executor takes no more."""
        texts = [text for _, _, text in handful.entries]
        program: Program = self.task.program
        if isinstance(self.executor, _Threads) and self.task.timeout is None and (
                program is None or isinstance(program, (str, os.PathLike))):
            program = Reported(program, self.executor.look)
        try:
            future = self.executor.submit(self.task.run, texts, program)
        except RuntimeError as fault:
            return self._failed(handful, fault)
        self.running[future] = handful
        future.add_done_callback(self._done.put)
        return []

    @staticmethod
    def _failed(handful: _Handful, fault: BaseException) -> List[Answered]:
        is_sent = "pickle" not in str(fault)
        failure = Failed(f"a worker failed: {type(fault).__name__}: {fault}" if is_sent else f"it cannot be sent to another process: {fault}")
        return [Answered(index, t, None, failure) for index, t, _ in handful.entries]

    def fill(self) -> Iterator[Answered]:
        """Asks handfuls as long as there are triangulations, and few enough are asked. Yields what failed at once."""
        while len(self.running) < IN_HAND:
            handful, failed = self._take()
            if handful.entries:
                failed += self._submit(handful)
            elif not failed:
                return
            yield from failed

    def collect(self) -> Iterator[Answered]:
        """Waits for one handful."""
        future = self._next_done()
        handful = self.running.pop(future)
        fault = CancelledError() if future.cancelled() else future.exception()
        if isinstance(fault, Exception):
            yield from self._again(handful, fault)
            return
        said, seconds = future.result()
        rate = len(said) / max(seconds, 1e-6)
        self.size = max(1, min(MOST, 2 * self.size, int(SECONDS * rate)))
        for (index, t, _), (answer, failure) in zip(handful.entries, said):
            yield Answered(index, t, answer, failure)

    def _next_done(self) -> "Future[Any]":
        """The next handful that is done. After a minute without one there is a warning: an executor that has lost what it was asked
        is waited for without end."""
        begun, has_warned = time.monotonic(), False
        while True:
            with contextlib.suppress(queue.Empty):
                return self._done.get(timeout=LOOK)
            if isinstance(self.executor, _Threads):
                self.executor.help()
            elif not has_warned and time.monotonic() - begun > SILENCE:
                said = f"{type(self.executor).__name__} has answered nothing for {SILENCE:.0f} seconds"
                warnings.warn(said, RuntimeWarning, stacklevel=_level_of_caller())
                has_warned = True

    def _again(self, handful: _Handful, fault: BaseException) -> Iterator[Answered]:
        """A handful that the executor gave up: each of its triangulations alone, and the one that is alone is failed."""
        if len(handful.entries) == 1:
            yield from self._failed(handful, fault)
        else:
            for entry in handful.entries:
                yield from self._submit(_Handful([entry]))


def _in_order(answers: Iterable[Answered]) -> Iterator[Answered]:
    """The same answers by index."""
    early: Dict[int, Answered] = {}
    due = 0
    for answer in answers:
        early[answer.index] = answer
        while due in early:
            yield early.pop(due)
            due += 1


def _as_done(run: _Run) -> Iterator[Answered]:
    yield from run.fill()
    while run.running:
        yield from run.collect()
        yield from run.fill()


def many(triangulations: Iterable[Triangulation], command: Command = "surfaces", executor: Optional[Executor] = None,
         timeout: Optional[float] = None, progress: Optional[Counts] = None, *, in_order: bool = True,
         program: Program = None, **options: Any) -> Iterator[Answered]:
    """Runs a command on each of many triangulations, and yields an `Answered` for each.

    A failure is a value: an `Answered` with `failure`. Triangulations are read as they are needed, so there may be any number of them.

    Args:
        triangulations: a list, or any other iterable
        command: the name of a function of one triangulation (`surfaces`, `count`, `zero_efficient`, ..), or a function that takes the
            text of one; other processes must be able to import it
        executor: a `concurrent.futures.Executor` that runs it; by default threads of this process, one for each processor
        timeout: the seconds for each triangulation, for a command that is named
        progress: a function that is called after each answer with how many are answered and how many of these failed
        in_order: False to yield them as they are ready, and not in order
        program: as for `surfaces`
        options: further arguments of the command, such as `coords="quad"`

    Returns:
        An iterator of `Answered`.

    Raises:
        BadArgument: an argument is invalid. It is raised by the call itself, before the first triangulation

    >>> import trinorm
    >>> [answered.value for answered in trinorm.many(["bkaagn", "cPcbbbiht"], "sig")]
    ['bkaagj', 'cPcbbbiht']
    """
    _check_command(command, options)
    given = plain(triangulations)
    if isinstance(given, (str, bytes)) or not isinstance(given, Iterable):
        raise BadArgument("expected a list of triangulations; for a single one, call the command itself")
    if progress is not None and not callable(progress):
        raise BadArgument(f"progress must be a function or None, not {shown(progress)}")
    if not isinstance(in_order, bool):
        raise BadArgument(f"in_order must be True or False, not {shown(in_order)}")
    if executor is not None and (isinstance(executor, type) or not callable(getattr(executor, "submit", None))):
        raise BadArgument(f"executor must be a concurrent.futures.Executor or None, not {shown(executor)}")
    checked_timeout(timeout)
    task = Task(command, timeout, checked_program(program), options)
    return _many(enumerate(given), task, executor, progress, in_order)


def _check_command(command: object, options: Dict[str, Any]) -> None:
    """BadArgument if a command is neither a function nor the name of one, or has no such options."""
    function = COMMANDS.get(command) if isinstance(command, str) else command
    if not callable(function):
        raise BadArgument(f"command must be a function or one of {', '.join(COMMANDS)}, not {shown(command)}")
    if isinstance(command, str):
        try:
            inspect.signature(function).bind("", timeout=None, program=None, **options)
        except TypeError as fault:
            raise BadArgument(f"{command}: {fault}") from None


def _many(given: Iterator[Tuple[int, Triangulation]], task: Task, executor: Optional[Executor], progress: Optional[Counts],
          in_order: bool) -> Iterator[Answered]:
    threads = _Threads() if executor is None else None
    chosen = threads if threads is not None else executor
    assert chosen is not None
    run = _Run(given, task, chosen)
    failed = 0
    try:
        answers = _as_done(run)
        for count, answer in enumerate(_in_order(answers) if in_order else answers, 1):
            failed += answer.failure is not None
            if progress is not None:
                progress(count, failed)
            yield answer
    finally:
        if threads is not None:
            threads.stop()
        else:
            for future in list(run.running):
                future.cancel()

"""Processes of this machine as an executor.

Python's own `ProcessPoolExecutor` can't take its place. If one of its processes is killed, as where memory runs out, all
that the others have in hand is lost with it; and what a process runs goes on after Ctrl-C, or after the parent is killed.
Here a process that dies takes one call with it and is replaced, and each ends with all that it runs.
"""
from __future__ import annotations

import contextlib
import ctypes
import os
import pickle
import queue
import signal
import subprocess
import sys
import threading
import time
from concurrent.futures import BrokenExecutor, Executor, Future
from pathlib import Path
from types import FrameType
from typing import IO, Any, BinaryIO, Callable, List, NamedTuple, NoReturn, Optional, Set, Tuple

from .program import how_it_ended

READY = "ready"
# Linux: a signal to a process whose parent ends
PR_SET_PDEATHSIG = 1


class WorkerEnded(RuntimeError):
    """The process of a call died. It had this call alone, so no other is the cause."""


class Terminated(KeyboardInterrupt):
    """SIGTERM came."""


def end_as_by_keyboard(_signal: int, _frame: Optional[FrameType]) -> NoReturn:
    """A handler of SIGTERM: what runs is ended with its children."""
    raise Terminated


def send(data: bytes, stream: IO[bytes]) -> None:
    """Writes bytes, after their number."""
    stream.write(len(data).to_bytes(8, "little") + data)
    stream.flush()


def receive(stream: IO[bytes]) -> bytes:
    """The next bytes that were sent; EOFError if the other side has ended."""
    head = stream.read(8)
    length = int.from_bytes(head, "little")
    data = stream.read(length)
    if len(head) < 8 or len(data) < length:
        raise EOFError
    return data


class Worker:
    """A process that calls functions, one after another."""

    def __init__(self) -> None:
        # the same places of modules as here, so that no others need be looked for
        path = os.pathsep.join(place or os.getcwd() for place in [str(Path(__file__).resolve().parents[1]), *sys.path])
        words = [sys.executable, "-S", "-c", "from trinorm.workers import main; main()"]
        self._process = subprocess.Popen(words, start_new_session=True, stdin=subprocess.PIPE, stdout=subprocess.PIPE,
                                         env=dict(os.environ, PYTHONPATH=path))
        assert self._process.stdin is not None and self._process.stdout is not None
        self._to, self._from = self._process.stdin, self._process.stdout
        self._lock = threading.Lock()

    def wait_until_ready(self) -> None:
        """EOFError if it ends before."""
        receive(self._from)

    def call(self, asked: bytes) -> Tuple[bool, Any]:
        """Whether the function of a pickled call returned, and what it returned or raised; EOFError if the process ends
        before."""
        try:
            send(asked, self._to)
        except BrokenPipeError:
            raise EOFError from None
        answer: Tuple[bool, Any] = pickle.loads(receive(self._from))
        return answer

    def kill(self) -> None:
        """Ends it at once, with all that it runs: they are a group of their own. Its number is its own until `status`."""
        with self._lock, contextlib.suppress(ProcessLookupError):
            if self._process.returncode is None:
                os.killpg(self._process.pid, signal.SIGKILL)

    def status(self) -> int:
        """Its status, after it has ended, as it does if its input ends. What it left running is ended too."""
        for stream in (self._to, self._from):
            with contextlib.suppress(BrokenPipeError):
                stream.close()
        if hasattr(os, "waitid"):
            os.waitid(os.P_PID, self._process.pid, os.WEXITED | os.WNOWAIT)
        else:  # as on macOS: its number stays its own until `wait`, so it has a moment to end by itself
            time.sleep(0.2)
        self.kill()
        with self._lock:
            return self._process.wait()


class _Asked(NamedTuple):
    """A call that waits for a process: what it is to answer, and function and arguments, pickled."""
    future: "Future[Any]"
    call: bytes


class Workers(Executor):
    """An executor of at most `jobs` processes, which are started as calls come. A call whose process dies raises `WorkerEnded`.
    Functions are those of modules, not of the script that runs."""

    def __init__(self, jobs: int) -> None:
        if jobs < 1:
            raise ValueError(f"jobs must be at least 1, not {jobs}")
        self._max_workers = jobs
        self._asked: "queue.SimpleQueue[Optional[_Asked]]" = queue.SimpleQueue()
        self._threads: List[threading.Thread] = []
        self._live: Set[Worker] = set()
        self._lock = threading.Lock()
        self._is_closed = False

    def submit(self, function: Callable[..., Any], /, *arguments: Any, **named: Any) -> "Future[Any]":
        """Calls a function in one of the processes."""
        future: "Future[Any]" = Future()
        call = pickle.dumps((function, arguments, named))
        with self._lock:
            if self._is_closed:
                raise RuntimeError("the processes have ended")
            if len(self._threads) < self._max_workers:
                # a process is ended with the thread that started it, so each has its own
                self._threads.append(threading.Thread(target=self._serve, daemon=True))
                self._threads[-1].start()
        self._asked.put(_Asked(future, call))
        return future

    def shutdown(self, wait: bool = True, *, cancel_futures: bool = False) -> None:
        """Takes no more calls; the processes end after those that they have."""
        with self._lock:
            self._is_closed = True
        if cancel_futures:
            self._cancel()
        for _ in self._threads:
            self._asked.put(None)
        if wait:
            for thread in self._threads:
                thread.join()

    def kill_workers(self) -> None:
        """Ends all processes at once, with what they run."""
        with self._lock:
            self._is_closed = True
            live = list(self._live)
        self._cancel()
        for worker in live:
            worker.kill()
        self.shutdown()

    def _cancel(self) -> None:
        with contextlib.suppress(queue.Empty):
            while True:
                asked = self._asked.get_nowait()
                if asked is not None:
                    asked.future.cancel()

    def _serve(self) -> None:
        """What a thread does: it has one process, and hands it call after call."""
        worker: Optional[Worker] = None
        for asked in iter(self._asked.get, None):
            if not asked.future.set_running_or_notify_cancel():
                continue
            try:
                worker = worker or self._start()
                is_returned, value = worker.call(asked.call)
                if is_returned:
                    asked.future.set_result(value)
                else:
                    asked.future.set_exception(value)
            except EOFError:
                assert worker is not None
                asked.future.set_exception(WorkerEnded(f"a worker process: {how_it_ended(self._ended(worker))}"))
                worker = None
            except BaseException as fault:  # pylint: disable=broad-except
                asked.future.set_exception(fault)
        if worker is not None:
            self._ended(worker)

    def _start(self) -> Worker:
        """A process that has begun to listen."""
        try:
            worker = Worker()
        except OSError as fault:
            raise BrokenExecutor(f"a worker process could not be started: {fault.strerror}") from None
        with self._lock:
            self._live.add(worker)
            if self._is_closed:
                worker.kill()
        try:
            worker.wait_until_ready()
        except EOFError:
            raise BrokenExecutor(f"a worker process could not be started: {how_it_ended(self._ended(worker))}") from None
        return worker

    def _ended(self, worker: Worker) -> int:
        """The status of a process whose input or output has ended."""
        status = worker.status()
        with self._lock:
            self._live.discard(worker)
        return status


def outcome(asked: bytes) -> bytes:
    """Whether a call returned, and what it returned or raised, pickled."""
    try:
        function, arguments, named = pickle.loads(asked)
        return pickle.dumps((True, function(*arguments, **named)))
    except Exception as fault:  # pylint: disable=broad-except
        try:
            return pickle.dumps((False, fault))
        except Exception:  # pylint: disable=broad-except
            return pickle.dumps((False, RuntimeError(repr(fault))))


def serve(calls: BinaryIO, to: BinaryIO) -> None:
    """Answers call after call, until there are no more."""
    send(pickle.dumps(READY), to)
    with contextlib.suppress(EOFError):
        while True:
            send(outcome(receive(calls)), to)


def main() -> None:
    # if the parent is killed, so are this process and what it runs
    signal.signal(signal.SIGTERM, lambda *_: os.killpg(0, signal.SIGKILL))
    if sys.platform == "linux":
        ctypes.CDLL(None).prctl(PR_SET_PDEATHSIG, signal.SIGTERM)
    with os.fdopen(os.dup(1), "wb") as to:
        # what a function prints is no answer
        os.dup2(2, 1)
        serve(sys.stdin.buffer, to)

"""Processes that answer many requests over pipes: as fast as the library. A process can be ended at a time limit, and
its caller survives if it dies."""
from __future__ import annotations

import os
import queue
import time
import weakref
from _thread import start_new_thread
from pathlib import Path
from typing import Any, Dict, Optional, Sequence, Set, Tuple, Union

from .arguments import AnyPath, as_bytes, checked_timeout, checked_words, joined, shown
from .errors import NO_MEMORY_HERE, BadArgument, Failed, TimedOut, how_it_ended
from .outcomes import read_outcome
from .program import find
from .server_processes import Call, Ended, Late, OtherAnswer, ServerProcess

NAME = "trinorm-server"
# the longest input, in bytes
_LONGEST = (1 << 32) - 1
# in seconds: a process that answered before, and is gone so soon after a request, most likely was gone before it
_SOON = 1.0
# in seconds: how long a thread may take to begin
_LONGEST_START = 60.0
_MOST_IDLE = os.cpu_count() or 1


class Server:
    """Processes that answer many calls each, instead of a process for each call.

    They are started when they are needed, also in a child that was forked, and ended by `close` or with Python. Threads, coroutines and
    child processes may share a server: calls at the same time have a process each. It is the argument `program=` of functions.

    Args:
        program: the path of the program whose server is taken; by default the one that `trinorm.find` finds
        own_group: whether the processes have a process group of their own, so that Ctrl-C on a terminal does not reach them

    Raises:
        BadArgument: an argument is invalid
        Failed: there is no server next to the program

    >>> import trinorm
    >>> from trinorm.server import Server
    >>> with Server() as server:
    ...     [trinorm.sig(it, program=server, timeout=5) for it in ("bkaagj", "cPcbbbiht")]
    ['bkaagj', 'cPcbbbiht']
    """

    def __init__(self, program: Optional[AnyPath] = None, *, own_group: bool = True) -> None:
        path = self.find(program)
        if not isinstance(own_group, bool):
            raise BadArgument(f"own_group must be True or False, not {shown(own_group)}")
        if path is None:
            raise Failed(f"there is no {NAME} next to the program")
        self.path = path
        self._own_group = own_group
        self._closed = False
        self._begin()

    def _begin(self) -> None:
        """Begins without processes, as in a child that was forked: those of its parent are not its own."""
        self._owner = os.getpid()
        self._all: Set[ServerProcess] = set()
        # which call has a process; one that none has is idle
        self._calls: Dict[ServerProcess, Call] = {}
        weakref.finalize(self, _end_all, self._all, self._calls, self._owner)
        _servers.add(self)

    def __getstate__(self) -> Dict[str, Any]:
        return {"path": self.path, "_own_group": self._own_group, "_closed": self._closed}

    def __setstate__(self, state: Dict[str, Any]) -> None:
        self.__dict__.update(state)
        self._begin()

    @staticmethod
    def find(program: Optional[AnyPath] = None) -> Optional[str]:
        """The path of the server that was built with a program.

        Args:
            program: the path of the program; by default the one that `trinorm.find` finds

        Returns:
            The path, or None if there is no server in the folder of the program.

        Raises:
            BadArgument: the argument is not a path
            Failed: there is no such program

        >>> from trinorm.server import Server
        >>> Server.find() is not None
        True
        """
        path = Path(os.path.realpath(find(program))).parent / NAME
        return str(path) if os.access(path, os.X_OK) else None

    def run(self, words: Sequence[str], text: str = "", timeout: Optional[float] = None) -> str:
        """Runs a command line over an input, as `trinorm.program.run` does.

        Args:
            words: the command and its options
            text: the input
            timeout: seconds, after which the process is ended

        Returns:
            What the program prints.

        Raises:
            Refused: the program refused the command line or the input
            BadArgument: an argument is invalid
            Failed: the server is closed, or its process ended; `TimedOut` if it exceeded the time limit

        >>> from trinorm.server import Server
        >>> with Server() as server:
        ...     server.run(["sig"], "tri 1\\n0:1023 0:1023 0:1230 0:3012\\n")
        'bkaagj\\n'
        """
        words = checked_words(words)
        status, answer = self.ask(words, text, timeout)
        return read_outcome(words, status, answer)

    def ask(self, words: Sequence[str], text: str = "", timeout: Optional[float] = None) -> Tuple[int, bytes]:
        """As `run`, but returns the status also where that raises.

        Args:
            words: the command and its options
            text: the input
            timeout: seconds, after which the process is ended

        Returns:
            The exit status of the program, and the bytes that it prints.

        Raises:
            BadArgument: an argument is invalid
            Failed: the server is closed, or its process ended; `TimedOut` if it exceeded the time limit

        >>> from trinorm.server import Server
        >>> with Server() as server:
        ...     server.ask(["sig"], "sig x")
        (3, b'refused: signature short 1\\n')
        """
        words = checked_words(words)
        request, given, seconds = joined(words), as_bytes(text), checked_timeout(timeout)
        if len(given) > _LONGEST:
            raise Failed(f"{' '.join(words)}: the input has {len(given)} bytes, too many for the server")
        deadline = None if seconds is None else time.monotonic() + seconds
        while True:
            call = Call()
            try:
                try:
                    answer = self._ask_one(call, request, given, deadline)
                except BaseException as fault:  # as KeyboardInterrupt: the answer may still come, to no other request
                    self._end_call(call)
                    raise self._failure(fault, words, timeout) from None
            except BaseException:  # once more, since a handler of a signal may have raised before the process was ended
                self._end_call(call)
                raise
            if isinstance(answer, tuple):
                return answer
            if answer is not None:
                raise Failed(f"{' '.join(words)}: {how_it_ended(answer)}")

    def _ask_one(self, call: Call, request: bytes, given: bytes, deadline: Optional[float]) -> Union[Tuple[int, bytes], int, None]:
        """The answer of a process; the status with which it ended in place of one; None if it was gone before, or is that of the
        parent of this process, so that another one is to be asked."""
        process, begun = self._take(call), time.monotonic()
        try:
            answer = process.ask(request, given, deadline)
        except Ended:
            if process.owner != os.getpid():
                return None
            was_idle = process.has_answered and time.monotonic() < begun + _SOON
            status = process.status()
            self._calls.pop(process, None)
            self._check_open()
            return None if was_idle else status
        self._give_back(process)
        return answer

    def _end_call(self, call: Call) -> None:
        """Ends the process of a call that was interrupted, also one that is only now starting."""
        call.over = True
        for process, other in list(self._calls.items()):
            if other is call:
                process.end()
                self._calls.pop(process, None)

    def _failure(self, fault: BaseException, words: Sequence[str], timeout: Optional[float]) -> BaseException:
        """What is raised of a request that went wrong; exceptions of handlers of signals stay what they are."""
        asked = " ".join(words)
        if isinstance(fault, Late):
            return TimedOut(f"{asked}: no result within {timeout} s")
        if isinstance(fault, OtherAnswer):
            return Failed(f"{asked}: {self.path} answered another request; check that it has the version of this package")
        if isinstance(fault, MemoryError):
            return Failed(f"{asked}: {NO_MEMORY_HERE}")
        if isinstance(fault, OSError) and fault.errno is not None:  # as where all files of this process were closed
            return Failed(f"{asked}: {self.path}: {fault.strerror}")
        return fault

    def close(self) -> None:
        """Ends the processes. Calls that are running fail, and so do later ones.

        >>> from trinorm.server import Server
        >>> server = Server()
        >>> server.close()
        """
        self._closed = True
        _end_all(self._all, self._calls, self._owner)

    def __enter__(self) -> Server:
        self._check_open()
        return self

    def __exit__(self, *_: object) -> None:
        self.close()

    def _check_open(self) -> None:
        if self._closed:
            raise Failed("this server is closed")

    def _take(self, call: Call) -> ServerProcess:
        """A process that answers nobody: one that is idle, else a new one. It is the call's from one step on, at which no handler
        of a signal can come between."""
        self._check_open()
        if self._owner != os.getpid():
            self._forget()
        for process in list(self._all):
            if self._calls.setdefault(process, call) is call:
                if process in self._all:  # else another thread has ended it
                    return process  # if it has died, `ask` takes notice
                self._calls.pop(process, None)
        return self._start(call)

    def _start(self, call: Call) -> ServerProcess:
        """A new process. A thread starts it, since a handler of a signal that raises in `Popen` would leave it unknown."""
        came: "queue.SimpleQueue[Union[ServerProcess, BaseException, None]]" = queue.SimpleQueue()
        try:
            start_new_thread(self._start_in_thread, (call, came))
            came.get(timeout=_LONGEST_START)  # if memory is short, a thread may end before its first step
        except (RuntimeError, queue.Empty):
            raise Failed(f"{self.path} cannot be started: this process cannot start a thread") from None
        process = came.get()
        if isinstance(process, ServerProcess):
            return process
        if isinstance(process, OSError):
            raise Failed(f"{self.path} cannot be started: {process.strerror}")
        assert process is not None
        raise process

    def _start_in_thread(self, call: Call, came: "queue.SimpleQueue[Union[ServerProcess, BaseException, None]]") -> None:
        """Starts a process for a call, and ends it if the call is over."""
        came.put(None)
        try:
            process = ServerProcess(self.path, self._own_group, call, self._all, self._calls)
        except BaseException as fault:  # pylint: disable=broad-except
            came.put(fault)
            return
        if call.over:
            process.end()
            self._calls.pop(process, None)
        came.put(process)

    def _give_back(self, process: ServerProcess) -> None:
        """Keeps a process for the next call, if there are not more than processors."""
        if self._closed or len(self._all) - len(self._calls) >= _MOST_IDLE:
            process.end()
        self._calls.pop(process, None)

    def _forget(self) -> None:
        """Leaves all processes to the parent of this one."""
        for process in list(self._all):
            process.forget(process in self._calls)
        self._begin()


def _end_all(processes: Set[ServerProcess], calls: Dict[ServerProcess, Call], owner: int) -> None:
    """Ends the processes of a server that is closed or gone, if this process started them."""
    if owner != os.getpid():
        return
    last = Call()
    last.over = True
    for process in list(processes):
        # one that is idle is taken, so that no call of another thread takes it while its pipes are closed
        if calls.setdefault(process, last).over:
            process.end()
            calls.pop(process, None)
        else:  # the call takes notice and closes its pipes
            process.run.kill()


_servers: "weakref.WeakSet[Server]" = weakref.WeakSet()


def _forget_all() -> None:
    for server in list(_servers):
        server._forget()


os.register_at_fork(after_in_child=_forget_all)

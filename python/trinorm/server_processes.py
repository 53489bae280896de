"""A process of a server: a request goes into one pipe, and its answer comes out of another."""
from __future__ import annotations

import contextlib
import math
import os
import select
import struct
import subprocess
import sys
import time
from typing import Dict, Optional, Set, Tuple

# a request: its number, the lengths of words and input; an answer: that number, the status, the length of the text
_REQUEST, _ANSWER = struct.Struct("=QII"), struct.Struct("=QBI")
_LAST_NUMBER = (1 << 64) - 1
# how much is read at a time, which is what a pipe holds, and the longest wait that the system takes, in milliseconds
_PART, _LONGEST_WAIT = 1 << 16, (1 << 31) - 1


class Late(Exception):
    """The answer didn't come in time."""


class Ended(Exception):
    """The process ended in place of its answer."""


class OtherAnswer(Exception):
    """What came is no answer to this request."""


class Call:
    """A call that asks a process; `over` once it has ended in any way."""

    def __init__(self) -> None:
        self.over = False


class ServerProcess:
    """A server process with its pipes, which are never waited for past a deadline. One thread asks it at a time."""

    def __init__(self, path: str, own_group: bool, call: Call, all_of_server: Set[ServerProcess], calls: Dict[ServerProcess, Call]) -> None:
        self._all = all_of_server
        self.owner = os.getpid()
        self.run = _started(path, own_group)
        assert self.run.stdin is not None and self.run.stdout is not None
        self.pipes = self.run.stdin, self.run.stdout
        self._requests, self._answers = (pipe.fileno() for pipe in self.pipes)
        for file in (self._requests, self._answers):
            os.set_blocking(file, False)
        self._to_send, self._to_receive = select.poll(), select.poll()
        self._to_send.register(self._requests, select.POLLOUT)
        self._to_receive.register(self._answers, select.POLLIN)
        calls[self] = call
        all_of_server.add(self)
        # the number of the first request is 0, which a server without numbers takes for two lengths and refuses at once; the
        # next ones count from a number that no other process draws
        self._number, self._first_number = 0, int.from_bytes(os.urandom(8), "little")

    @property
    def has_answered(self) -> bool:
        """Whether it has answered a request before."""
        return self._number != 0

    def ask(self, words: bytes, text: bytes, deadline: Optional[float]) -> Tuple[int, bytes]:
        """The status and the text of an answer. Raises `Late`, `Ended` or `OtherAnswer`."""
        self._send(_REQUEST.pack(self._number, len(words), len(text)) + words + text, deadline)
        received = self._receive(b"", _ANSWER.size, deadline)
        number, status, length = _ANSWER.unpack_from(received)
        if number != self._number:
            raise OtherAnswer
        if len(received) < _ANSWER.size + length:
            received = self._receive(received, _ANSWER.size + length, deadline)
        if len(received) != _ANSWER.size + length:
            raise OtherAnswer
        self._number = (self._number or self._first_number) + 1 & _LAST_NUMBER or 1
        return status, received[_ANSWER.size:]

    def end(self) -> int:
        """Ends the process, and returns the status with which it ended."""
        self.run.kill()
        for pipe in self.pipes:
            with contextlib.suppress(OSError):
                pipe.close()
        status = self.run.wait()
        self._all.discard(self)  # last, so that it is ended again if this was interrupted
        return status

    def status(self) -> int:
        """The status with which it ended by itself; where it goes on without its pipes it is killed."""
        with contextlib.suppress(subprocess.TimeoutExpired):
            self.run.wait(0.1)
        return self.end()

    def forget(self, is_asked: bool) -> None:
        """Leaves the process to the parent of this one, which was forked from it.

        is_asked: whether a call waits for it, perhaps in this thread, where a handler of a signal forked: then its descriptors stay
            at an end of file, so that no other file gets their numbers
        """
        self.run.returncode = 0
        for pipe in self.pipes:
            if pipe.closed:  # another thread of the parent was ending the process
                continue
            with contextlib.suppress(OSError):
                if is_asked:
                    null = os.open(os.devnull, os.O_RDWR | os.O_CLOEXEC)
                    os.dup2(null, pipe.fileno(), inheritable=False)
                    os.close(null)
                else:
                    pipe.close()

    def _send(self, request: bytes, deadline: Optional[float]) -> None:
        rest = memoryview(request)
        while rest:
            try:
                rest = rest[os.write(self._requests, rest):]
            except BlockingIOError:
                _wait(self._to_send, deadline)
            except BrokenPipeError:
                raise Ended from None

    def _receive(self, received: bytes, size: int, deadline: Optional[float]) -> bytes:
        """What was received, and what comes until there are so many bytes."""
        parts, missing = [received], size - len(received)
        while missing > 0:
            _wait(self._to_receive, deadline)
            try:
                part = os.read(self._answers, _PART)
            except BlockingIOError:
                continue
            if not part:
                raise Ended
            parts.append(part)
            missing -= len(part)
        return b"".join(parts)


def _started(path: str, own_group: bool) -> subprocess.Popen[bytes]:
    """A process of a server, whose pipes have no buffers here."""
    pipe = subprocess.PIPE
    if sys.version_info >= (3, 11):
        if own_group:
            return subprocess.Popen([path], bufsize=0, stdin=pipe, stdout=pipe, process_group=0)
    # a session of its own is a group of its own too, but the system schedules it apart from this one
    return subprocess.Popen([path], bufsize=0, stdin=pipe, stdout=pipe, start_new_session=own_group)


def _wait(poll: select.poll, deadline: Optional[float]) -> None:
    """Waits until something can be read or written, or the other end is closed. Raises `Late` at the deadline."""
    while True:
        left = None if deadline is None else max(0.0, deadline - time.monotonic())
        if poll.poll(None if left is None else min(_LONGEST_WAIT, math.ceil(left * 1000))):
            return
        if left == 0:
            raise Late

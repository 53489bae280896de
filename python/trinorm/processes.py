"""Processes that are ended whatever a handler of a signal raises, also while they are being started."""
from __future__ import annotations

import os
import queue
import subprocess
import tempfile
import threading
from _thread import start_new_thread
from types import TracebackType
from typing import IO, Optional, Sequence, Type, Union

from .arguments import checked_words, shown
from .errors import BadArgument, Failed


class Child:
    """A process with pipes for what it writes, for a `with` statement, which kills it if it ends by an exception.

    A thread starts it: handlers of signals run in the main thread, and one that raises within `Popen` would leave the process running
    with nobody who knows it.

    words: the program and its arguments
    text: what it reads; None if that is given to it by `communicate`
    """

    def __init__(self, words: Sequence[str], text: Optional[bytes] = None) -> None:
        self._words, self._text = checked_words(words), text
        if not self._words:
            raise BadArgument("a command line must begin with a program")
        if text is not None and not isinstance(text, bytes):
            raise BadArgument(f"the input of a process must be bytes or None, not {shown(text)}")
        self._came: "queue.SimpleQueue[Union[subprocess.Popen[bytes], BaseException]]" = queue.SimpleQueue()
        self._lock, self._is_left, self._has_begun = threading.Lock(), False, False
        self._owner = os.getpid()
        self._run: Optional[subprocess.Popen[bytes]] = None

    def __enter__(self) -> subprocess.Popen[bytes]:
        with self._lock:
            has_begun, self._has_begun = self._has_begun, True
        if has_begun:
            raise BadArgument("a process can be started only once")
        # all of it, since a handler may raise after each call
        try:
            self._begin()
            came = self._came.get()
            if isinstance(came, OSError):
                raise Failed(f"{came.filename or self._words[0]}: {came.strerror}")
            if isinstance(came, BaseException):
                raise came
            return came
        except BaseException:
            self._leave()
            raise

    def __exit__(self, kind: Optional[Type[BaseException]], fault: Optional[BaseException], trace: Optional[TracebackType]) -> None:
        assert self._run is not None
        with self._run as run:
            if kind is not None and self._owner == os.getpid():  # a child that was forked leaves it to the parent
                run.kill()

    def _begin(self) -> None:
        """Starts the process in a thread, or here where no thread can be started."""
        try:
            start_new_thread(self._start, ())
        except RuntimeError:
            self._start()

    def _start(self) -> None:
        """Starts the process, and ends it if nobody waits for it any more."""
        try:
            run = self._started()
        except BaseException as fault:  # pylint: disable=broad-except
            self._came.put(fault)
            return
        with self._lock:
            self._run, is_left = run, self._is_left
        if is_left:
            _end(run)
        self._came.put(run)

    def _started(self) -> subprocess.Popen[bytes]:
        """The process. A text is a file, since `communicate` goes on writing to a pipe only from Python 3.12 on once its time was over."""
        if self._text is None:
            return self._popen(subprocess.PIPE)
        with tempfile.TemporaryFile() as given:
            given.write(self._text)
            given.seek(0)
            return self._popen(given)

    def _popen(self, given: Union[int, IO[bytes]]) -> subprocess.Popen[bytes]:
        return subprocess.Popen(self._words, stdin=given, stdout=subprocess.PIPE, stderr=subprocess.PIPE)

    def _leave(self) -> None:
        """Ends the process if it was started; else its thread does so."""
        with self._lock:
            self._is_left = True
        if self._run is not None:
            _end(self._run)


def _end(run: subprocess.Popen[bytes]) -> None:
    """Kills a process, closes its pipes, and waits for its end."""
    with run:
        run.kill()

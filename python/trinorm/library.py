"""The workbench in this process: the shared library, called by ctypes, in the place of a process for each call.

Its answers are the program's. A call takes memory of this process and ends on Ctrl-C; a limit of time is kept within a
second or so, since it is looked at where memory is asked for: a limit that must hold takes a process.
"""
from __future__ import annotations

import ctypes
import mmap
import os
import sys
import threading
from pathlib import Path
from typing import Any, Callable, Dict, Generator, List, Optional, Sequence, Tuple

from .arguments import AnyPath, as_bytes, checked_memory, checked_timeout, checked_words, joined, path_text, shown
from .errors import BadArgument, Failed, TimedOut
from .machine import Lock
from .outcomes import read_outcome

NAME = {"win32": "trinorm.dll", "darwin": "libtrinorm.dylib"}.get(sys.platform, "libtrinorm.so.1")
# of a call: no room, no memory; of what ended it: memory, time, a handler of a signal
TOO_LITTLE_ROOM, NO_MEMORY = 7, 8
MOST_MEMORY, MOST_TIME, STOPPED = 1, 2, 3
# pages that no answer reached cost nothing, and those of a long one are given back
ROOM, LONG = 1 << 26, 1 << 20

_Stop = ctypes.CFUNCTYPE(ctypes.c_int, ctypes.c_void_p)


# in this order, as library/python_stop.c has them
_PYTHON_FUNCTIONS = ("PyGILState_Ensure", "PyGILState_Release", "PyErr_CheckSignals", "PyErr_Fetch", "PyErr_Restore", "PyErr_Clear")


def _python_functions() -> Any:
    """The addresses of Python's functions that the library calls, for systems where it can't find them by name."""
    addresses = [ctypes.cast(getattr(ctypes.pythonapi, name), ctypes.c_void_p) for name in _PYTHON_FUNCTIONS]
    return (ctypes.c_void_p * len(addresses))(*addresses)


class _Limits(ctypes.Structure):
    _fields_ = [("most_bytes", ctypes.c_uint64), ("most_nanoseconds", ctypes.c_uint64), ("stop", _Stop),
                ("stop_argument", ctypes.c_void_p), ("reached", ctypes.c_uint8)]


class _Room:
    """Room for an answer, and what else a call needs."""

    def __init__(self, stop: Any) -> None:
        self.needed = ctypes.c_size_t()
        self.limits = _Limits(0, 0, stop, None, 0)
        self.places = ctypes.byref(self.limits), ctypes.byref(self.needed)
        try:
            self.grow(ROOM)
        except OSError:  # where the system gives this process little room
            self.grow(LONG)

    def grow(self, size: int) -> None:
        """Takes pages of this size in place of the ones before; a forked child gets pages of its own."""
        # Windows has pages of a process alone
        self.pages = mmap.mmap(-1, size) if os.name == "nt" else mmap.mmap(-1, size, flags=mmap.MAP_PRIVATE | mmap.MAP_ANONYMOUS)
        self.at = ctypes.addressof(ctypes.c_char.from_buffer(self.pages))
        self.size = size

    def limit(self, seconds: Optional[float], most_bytes: int) -> None:
        """Sets the limits of the next call."""
        self.limits.most_bytes = most_bytes
        self.limits.most_nanoseconds = 0 if seconds is None else max(1, int(seconds * 1e9))

    def answer(self) -> bytes:
        """The answer that was written into it."""
        text = ctypes.string_at(self.at, self.needed.value)
        if len(text) > LONG and hasattr(mmap, "MADV_DONTNEED"):
            self.pages.madvise(mmap.MADV_DONTNEED)
        return text


class _Rooms(threading.local):
    """The rooms of a thread that no call uses. A handler of signals that calls the library during a call takes another."""

    def __init__(self) -> None:
        self.unused: List[_Room] = []


# called some ten times a second with the bytes that a call holds
Progress = Callable[[int], object]


def _reports(progress: Progress, held: Callable[[], int], faults: List[BaseException]) -> Generator[int, object, None]:
    """Yields each time whether the call is to stop: 1 once `progress`, or a handler of a signal, has raised something,
    which is put into `faults`. What a handler raises is caught too, since the generator waits inside the `try`."""
    while True:
        try:
            yield len(faults)
            progress(held())
        except GeneratorExit:
            return
        except BaseException as fault:  # pylint: disable=broad-except
            faults[:] = [fault]


class Library:
    """The shared library at a path, which answers in this process. Calls may run in many threads at a time.

    Args:
        path: the path of the library

    Raises:
        BadArgument: the argument is not a path
        Failed: there is no library that can be loaded

    >>> from trinorm.program import find_library
    >>> library = find_library()
    >>> library.run(["sig"], "tri 1\\n0:1023 0:1023 0:1230 0:3012\\n")
    'bkaagj\\n'
    """

    def __init__(self, path: AnyPath) -> None:
        path = _checked_path(path)
        try:
            library = ctypes.CDLL(path)
            area = [ctypes.c_char_p, ctypes.c_size_t]
            self._call = library.trinorm_run_within
            self._call.restype = ctypes.c_uint8
            self._call.argtypes = [ctypes.c_void_p, *area, *area, ctypes.c_void_p, ctypes.c_size_t, ctypes.c_void_p]
            # asked some ten times a second: in the main thread Python runs its handlers of signals
            self._stop = _Stop(("trinorm_python_stops", library))
            if hasattr(library, "trinorm_python_is"):
                library.trinorm_python_is(_python_functions())
            self._rooms = _Rooms()
            # by a second look at the same library, which keeps Python's lock and raises what is raised in it
            self._raise = ctypes.PyDLL(path).trinorm_python_raises
            self._raise.restype = None
            self._held = getattr(library, "trinorm_held", None)
            if self._held is not None:
                self._held.restype = ctypes.c_uint64
        except (OSError, AttributeError) as fault:
            raise Failed(f"{path}: {fault}") from None
        self.path = path

    def answer(self, words: Sequence[str], text: str = "", timeout: Optional[float] = None,
               memory: Optional[int] = None, progress: Optional[Progress] = None) -> Tuple[int, bytes, int]:
        """Runs a command line over an input.

        Args:
            words: the command and its options
            text: the input
            timeout: seconds after which the call is to end
            memory: bytes that the call may hold at a time
            progress: a function that is called about ten times a second with the bytes that the call holds. An exception that it raises
                ends the call

        Returns:
            The exit status of the program, the bytes that it prints, and the limit that ended the call: `MOST_MEMORY`, `MOST_TIME`, or 0.

        Raises:
            BadArgument: an argument is invalid
            BaseException: whatever `progress`, or a signal handler during the call, has raised, such as KeyboardInterrupt

        >>> from trinorm.program import find_library
        >>> find_library().answer(["sig"], "sig x")
        (3, b'refused: signature short 1\\n', 0)
        """
        said, given, rooms = joined(checked_words(words)), as_bytes(text), self._rooms.unused
        seconds, most_bytes = checked_timeout(timeout), checked_memory(memory)
        if progress is not None and not callable(progress):
            raise BadArgument(f"progress must be a function of bytes or None, not {shown(progress)}")
        if progress is not None:
            return self._answer_with_reports(progress, said, given, seconds, most_bytes)
        try:
            room = rooms.pop() if rooms else _Room(self._stop)
        except (OSError, MemoryError):
            return NO_MEMORY, b"", 0
        try:
            room.limit(seconds, most_bytes)
            return self._answer_in(room, said, given)
        finally:
            rooms.append(room)

    def _answer_with_reports(self, progress: Progress, said: bytes, given: bytes, seconds: Optional[float],
                             most_bytes: int) -> Tuple[int, bytes, int]:
        """As `answer`; a call that is reported on has a room of its own."""
        faults: List[BaseException] = []
        reports = _reports(progress, self.held, faults)
        next(reports)
        try:
            room = _Room(_Stop(reports.send))
        except (OSError, MemoryError):
            return NO_MEMORY, b"", 0
        room.limit(seconds, most_bytes)
        answered = self._answer_in(room, said, given)
        if faults:
            raise faults[0]
        return answered

    def held(self) -> int:
        """The bytes that the call of this thread holds, for a function that the call itself calls.

        Returns:
            A whole number; 0 if the library does not report it.

        >>> from trinorm.program import find_library
        >>> find_library().held()
        0
        """
        return 0 if self._held is None else int(self._held())

    def _answer_in(self, room: _Room, said: bytes, given: bytes) -> Tuple[int, bytes, int]:
        at_limits, at_needed = room.places
        while True:
            status = self._call(at_limits, said, len(said), given, len(given), room.at, room.size, at_needed)
            if room.limits.reached == STOPPED:
                self._raise()
            if status != TOO_LITTLE_ROOM:
                return status, room.answer(), room.limits.reached
            try:
                room.grow(room.needed.value)
            except (OSError, MemoryError):
                return NO_MEMORY, b"", 0

    def run(self, words: Sequence[str], text: str = "", timeout: Optional[float] = None,
            memory: Optional[int] = None, progress: Optional[Progress] = None) -> str:
        """Runs a command line over an input, as `trinorm.program.run` does.

        Args:
            words, text, timeout, memory, progress: as for `answer`

        Returns:
            What the program prints.

        Raises:
            Refused: the program refused the command line or the input
            BadArgument: an argument is invalid
            Failed: the call exceeded its limit of memory, or there is no memory left; `TimedOut` if it exceeded its time limit

        >>> from trinorm.program import find_library
        >>> find_library().run(["csig"], "tri 0\\n")
        'a\\n'
        """
        words = checked_words(words)
        status, said, reached = self.answer(words, text, timeout, memory, progress)
        if reached == MOST_TIME:
            raise TimedOut(f"{' '.join(words)}: no result within {timeout} s")
        if reached == MOST_MEMORY:
            raise Failed(f"{' '.join(words)}: it needs more than {memory} bytes of memory")
        return read_outcome(words, status, said)


def _checked_path(path: object) -> str:
    """The text of a path."""
    text = path_text(path)
    if text is None:
        raise BadArgument(f"path must be that of a library, not {shown(path)}")
    return text


_known: Dict[str, Library] = {}
_lock = Lock()


def at(path: AnyPath) -> Library:
    """The library at a path, which is loaded once.

    Args:
        path: the path of the library

    Returns:
        A `Library`.

    Raises:
        BadArgument: the argument is not a path
        Failed: there is no library that can be loaded

    >>> from trinorm import library, program
    >>> path = program.find_library().path
    >>> library.at(path) is library.at(path)
    True
    """
    path = _checked_path(path)
    with _lock.held():
        if path not in _known:
            _known[path] = Library(path)
        return _known[path]


def next_to(program: str) -> Optional[Library]:
    """The library that was built with a program.

    Args:
        program: the path of the program

    Returns:
        A `Library`, or None if there is none in the folder of the program that can be loaded.

    >>> import trinorm
    >>> from trinorm import library
    >>> library.next_to(trinorm.find()).run(["csig"], "tri 0\\n")
    'a\\n'
    """
    path = Path(os.path.realpath(program)).parent / NAME
    try:
        return at(str(path)) if path.is_file() else None
    except Failed:
        return None

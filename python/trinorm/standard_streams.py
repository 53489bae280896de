"""Standard input, output and error of `python3 -m trinorm`, also if they are closed or fail."""
from __future__ import annotations

import contextlib
import errno
import io
import os
import sys
from typing import Iterator

from .errors import Failed


def open_closed() -> None:
    """Opens those that are closed, so that no file of this process gets their numbers. Standard input stays None, writing to standard
    output fails, and what is written to standard error is dropped."""
    if sys.stdin is None:
        _open_nothing(os.O_WRONLY)
    if sys.stdout is None:
        sys.stdout = os.fdopen(_open_nothing(os.O_RDONLY), "w", encoding="utf8")
    if sys.stderr is None:
        sys.stderr = os.fdopen(_open_nothing(os.O_WRONLY), "w", encoding="utf8")


def _open_nothing(flags: int) -> int:
    """The null device with the least free number, also in the processes that this one starts."""
    number = os.open(os.devnull, flags)
    os.set_inheritable(number, True)
    return number


def read_input() -> str:
    """The text of standard input. Bytes that are not UTF-8 stay what they are, so that the program refuses them with their place."""
    if sys.stdin is None:
        raise Failed("standard input is closed")
    if isinstance(sys.stdin, io.TextIOWrapper):
        sys.stdin.reconfigure(encoding="utf8", errors="surrogateescape")
    try:
        return sys.stdin.read()
    except OSError as fault:
        raise Failed(f"standard input: {fault.strerror}") from None


@contextlib.contextmanager
def faults_of_output() -> Iterator[None]:
    """`Failed` if standard output cannot be written to, also if only its buffer cannot be written out."""
    try:
        try:
            yield
        finally:
            sys.stdout.flush()
    except OSError as fault:
        _drop_output()
        why = "it is closed" if fault.errno == errno.EBADF else fault.strerror
        raise Failed(f"{fault.filename or 'standard output'}: {why}") from None


def _drop_output() -> None:
    """Drops what the buffer of standard output has, which Python would try to write once more at its end."""
    with contextlib.suppress(OSError, ValueError):  # a ValueError of a stream without a number
        null = os.open(os.devnull, os.O_WRONLY)
        os.dup2(null, sys.stdout.fileno())
        os.close(null)

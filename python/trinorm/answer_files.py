"""The files of a census: an input and an output of lines, which are read some at a time.

A regular output is gone on with: its whole lines stay. A line that was cut is cut off; if a run drops others, the file is
replaced in one step. A device or a pipe is written to and never read. A link is followed to its target.
"""
from __future__ import annotations

import contextlib
import os
import stat
import sys
import tempfile
from hashlib import blake2b
from struct import Struct
from typing import BinaryIO, Callable, Iterable, Iterator, List, TextIO

UTF16 = (b"\xff\xfe", b"\xfe\xff")
MARK = b"\xef\xbb\xbf"
# the bytes of lines that are read at a time from a regular file
BLOCK = 1 << 18


class BadLine(ValueError):
    """A line that isn't UTF-8: its number, its text with these bytes as `\\xff`, and the sentence that names it."""

    def __init__(self, name: str, number: int, line: bytes, at: int) -> None:
        super().__init__(f"{name}, line {number}: byte {at + 1} is not UTF-8")
        self.number = number
        self.text = line.decode("utf-8", "backslashreplace").rstrip("\r\n")


def decoded(line: bytes, name: str, number: int) -> str:
    """The text of a line, without its end. `BadLine` if it isn't UTF-8."""
    try:
        return line.decode("utf-8").rstrip("\r\n")
    except UnicodeDecodeError as fault:
        raise BadLine(name, number, line, fault.start) from None


def read_blocks(file: BinaryIO, name: str, are_alone: bool = False) -> Iterator[List[bytes]]:
    """The lines of a file, with their ends, without a byte order mark, some at a time. Lines are alone if the next one may be
    long in coming, as through a pipe. UTF-16, or a carriage return within a line, is a ValueError."""
    blocks = ([line] for line in file) if are_alone else iter(lambda: file.readlines(BLOCK), [])
    count = 0
    for lines in blocks:
        if count == 0:
            lines[0] = _first_line(lines[0], name)
        if b"\r" in b"".join(lines).replace(b"\r\n", b""):
            _refuse_lone_returns(lines, name, count + 1)
        count += len(lines)
        yield lines


def _refuse_lone_returns(lines: List[bytes], name: str, number: int) -> None:
    """A ValueError if one of the lines has several in it, whose ends are carriage returns alone; the first has the number."""
    for at, line in enumerate(lines, number):
        if b"\r" in line.rstrip(b"\r\n"):
            raise ValueError(f"{name}, line {at}: a carriage return without a line feed; end each line with a line feed")


def _first_line(line: bytes, name: str) -> bytes:
    """The first line of a file, without a byte order mark."""
    if line.startswith(UTF16):
        raise ValueError(f"{name} is in UTF-16; save it as UTF-8")
    return line[len(MARK):] if line.startswith(MARK) else line


def count_lines(file: BinaryIO, name: str, accept_bad: bool = False) -> int:
    """The number of lines of a file. The first that isn't UTF-8 is a `BadLine`, unless such lines are accepted."""
    count = 0
    for lines in read_blocks(file, name):
        if not accept_bad and not b"".join(lines).isascii():
            for number, line in enumerate(lines, count + 1):
                decoded(line, name, number)
        count += len(lines)
    return count


def digests(texts: Iterable[bytes]) -> List[complex]:
    """The numbers by which texts are known again in this process, of 16 bytes each. Two different texts among ten million have
    the same with a probability below 2^-60. They are complex numbers since one takes 32 bytes, and a whole one of 16 bytes 48."""
    if IS_KEYED:
        return [complex(hash(text), hash(text + b"\0")) for text in texts]
    return [complex(*_halves(blake2b(text, digest_size=16).digest())) for text in texts]


_halves = Struct("<2q").unpack
# whether Python's hash of bytes is SipHash of 64 bits, as good for this and four times as quick as a sum of 16 bytes
IS_KEYED = sys.hash_info.algorithm.startswith("siphash") and sys.hash_info.width == 64 and sys.hash_info.cutoff == 0


class Output:
    """Where the lines of a census go. A regular file is held alone: a second run on it is a ValueError.

    path: a file, which is made where nothing is; a device or a pipe; or `-`, standard output
    """

    def __init__(self, path: str) -> None:
        self.path = path
        self.is_regular = path != "-" and _is_regular(path)
        if path == "-" and sys.stdout is None:
            raise ValueError("standard output is closed")
        self._file: TextIO = sys.stdout
        if self.is_regular:
            self._file = _held(path)
        elif path != "-":
            self._file = os.fdopen(os.open(path, os.O_WRONLY), "w", encoding="utf8")

    def blocks(self) -> Iterator[List[bytes]]:
        """The lines that an earlier run wrote to a regular file, with their ends, some at a time; the last one may have none."""
        if self.is_regular:
            with open(self.path, "rb") as file:
                yield from iter(lambda: file.readlines(BLOCK), [])

    def keep(self, kept: Callable[[int, List[bytes]], List[bytes]]) -> None:
        """Leaves the whole lines that are kept. `kept` returns those of some lines, of which the first has the number; it is
        called a second time for each if any is dropped."""
        dropped = whole = 0
        number = 1
        is_cut = False
        for lines in self.blocks():
            is_cut = _without_cut_line(lines)
            dropped += len(lines) - len(kept(number, lines))
            whole += sum(map(len, lines))
            number += len(lines)
        if dropped:
            self._replace(self._kept_lines(kept))
        elif is_cut:
            self._file.truncate(whole)

    def _kept_lines(self, kept: Callable[[int, List[bytes]], List[bytes]]) -> Iterator[bytes]:
        """The whole lines that are kept."""
        number = 1
        for lines in self.blocks():
            _without_cut_line(lines)
            yield from kept(number, lines)
            number += len(lines)

    def _replace(self, lines: Iterable[bytes]) -> None:
        """Writes a new file next to the old one, with its owner and rights; holds it, and gives it the old one's name."""
        target = os.path.realpath(self.path)
        handle, path = tempfile.mkstemp(prefix=f"{os.path.basename(target)}.", dir=os.path.dirname(target))
        try:
            new = os.fdopen(handle, "w", encoding="utf8")
            _try_to_lock(new)
            new.buffer.writelines(lines)
            new.flush()
            old = os.fstat(self._file.fileno())
            os.fchmod(handle, stat.S_IMODE(old.st_mode))
            with contextlib.suppress(PermissionError):
                os.fchown(handle, old.st_uid, old.st_gid)
            os.fsync(handle)
            os.replace(path, target)
        except BaseException:
            os.unlink(path)
            raise
        self._file.close()
        self._file = new

    def write(self, lines: str) -> None:
        """Appends whole lines, so that others see them at once."""
        self._file.write(lines)
        self._file.flush()

    def __enter__(self) -> Output:
        return self

    def __exit__(self, *_: object) -> None:
        if self.path != "-":
            self._file.close()


def _without_cut_line(lines: List[bytes]) -> bool:
    """Whether the last line was cut, as that of an interrupted run. It is taken from the list."""
    is_cut = not lines[-1].endswith(b"\n")
    if is_cut:
        lines.pop()
    return is_cut


def _is_regular(path: str) -> bool:
    """Whether a path leads to a regular file, or to nothing, where one will be made."""
    try:
        return stat.S_ISREG(os.stat(path).st_mode)
    except FileNotFoundError:
        return True


def _held(path: str) -> TextIO:
    """A regular file, locked, to append to. If another run replaced it in between, the new one is taken."""
    while True:
        target = os.path.realpath(path)
        file = open(target, "a", encoding="utf8")
        if not _try_to_lock(file):
            file.close()
            raise ValueError(f"another run is writing to {path}")
        with contextlib.suppress(FileNotFoundError):
            if os.path.samestat(os.fstat(file.fileno()), os.stat(target)):
                return file
        file.close()


def _try_to_lock(file: TextIO) -> bool:
    """False if another holds it. Some file systems of clusters have no locks; there it is taken for held."""
    try:
        import fcntl
    except ImportError:
        raise ValueError("a census needs a lock on its output, and this system cannot lock files") from None
    try:
        fcntl.flock(file, fcntl.LOCK_EX | fcntl.LOCK_NB)
    except BlockingIOError:
        return False
    except OSError:
        return True
    return True

"""Signs of life of a single long call: how long it has run, and how many bytes it holds."""
from __future__ import annotations

import os
import subprocess
import time
from typing import Callable, Optional, Sequence

from . import program
from .arguments import AnyPath, as_bytes, checked_timeout, checked_words, shown
from .errors import BadArgument, TimedOut
from .outcomes import read_outcome
from .processes import Child
from .program import Program

# called with the seconds since the call began, and the bytes that it holds
Progress = Callable[[float, int], object]
# seconds between two reports
INTERVAL = 0.1


class Reported:
    """Runs words as `program.run` does, in this process or in one of its own, and reports on it.

    named: the program, if it isn't the one that is found
    """

    def __init__(self, named: Optional[AnyPath], progress: Progress) -> None:
        self.named = named
        self._progress, self._begun = progress, time.monotonic()

    def report(self, held: int) -> None:
        """Reports the bytes that a run holds."""
        self._progress(time.monotonic() - self._begun, held)

    def run(self, words: Sequence[str], text: str = "", timeout: Optional[float] = None) -> str:
        """As `program.run`."""
        library = program.find_library() if self.named is None and timeout is None else None
        if library is not None:
            return library.run(words, text, progress=self.report)
        return self._run_process(words, text, timeout)

    def _run_process(self, words: Sequence[str], text: str, timeout: Optional[float]) -> str:
        line, limit, path = checked_words(words), checked_timeout(timeout), program.find(self.named)
        with Child([path, *line], as_bytes(text)) as run:
            return self._wait(line, run, limit)

    def _wait(self, words: Sequence[str], run: subprocess.Popen[bytes], limit: Optional[float]) -> str:
        """What a process writes; it is reported on until it ends, or its time is over."""
        begun = time.monotonic()
        while True:
            left = INTERVAL if limit is None else min(INTERVAL, limit - (time.monotonic() - begun))
            try:
                said, _ = run.communicate(timeout=max(0.0, left))
                return read_outcome(words, run.returncode, said)
            except subprocess.TimeoutExpired:
                pass
            if limit is not None and time.monotonic() - begun >= limit:
                raise TimedOut(f"{' '.join(words)}: no result within {limit} s")
            self.report(held_by(run.pid))


def held_by(process: int) -> int:
    """The bytes of memory of a process; 0 if the system doesn't say."""
    try:
        with open(f"/proc/{process}/statm", encoding="ascii") as file:
            return int(file.read().split()[1]) * os.sysconf("SC_PAGE_SIZE")
    except (OSError, IndexError, ValueError):
        return 0


def reported(named: Program, progress: Optional[Progress]) -> Program:
    """What runs words in place of a program: that program itself if there is nothing to report to."""
    if progress is None:
        return named
    if not callable(progress):
        raise BadArgument(f"progress must be a function of seconds and bytes, not {shown(progress)}")
    if named is not None and not isinstance(named, (str, os.PathLike)):
        raise BadArgument("a server does not report progress; use the library or a program")
    return Reported(named, progress)

#!/usr/bin/env python3
"""Runs a long census whose answers are made up, stops it twice, and looks whether each line came out once.

    bench/long_census.py [--lines N] [--jobs N] [--signal INT|TERM|KILL] [--pause SECONDS]

What runs is `python3 -m trinorm census FILE --command sig`, with two processes if --jobs names no other number. What answers a
triangulation is a function that returns its signature, after a pause if one is named, so all but the answers is measured. The
census is stopped by a signal, Ctrl-C's by default, after a third and after two thirds of the lines, and started again. The
third start goes on to the end, and a fourth has nothing to do. A line is printed for each start, with seconds of the clock (and
in brackets of the processor), and megabytes, both of the process that reads and writes. The status is 1 if a line of the input
has no line of the output, or two.
"""
from __future__ import annotations

import argparse
import contextlib
import importlib
import os
import signal
import subprocess
import sys
import tempfile
import time
from concurrent.futures import Future
from pathlib import Path
from typing import Any, Callable, Dict, List, NamedTuple, Optional

import common  # noqa: F401  (finds the package)
from trinorm import __main__ as commands, executors, tasks, workers

SIGNATURE = "cPcbbbiht"
# the pause of an answer, for the processes of a census
PAUSE = "LONG_CENSUS_PAUSE"


def run_with_stub(task: tasks.Task, entries: Any) -> executors.Ran:
    """Answers a handful by the signatures themselves."""
    pause = float(os.environ[PAUSE])

    def answer(text: str, _task: tasks.Task) -> str:
        if pause:
            time.sleep(pause)
        return text.split()[1]
    tasks.COMMANDS["sig"] = answer
    return executors.run(task, entries)


class StubWorkers(workers.Workers):
    """Processes that answer by the stub."""

    def submit(self, function: Callable[..., Any], /, *given: Any, **named: Any) -> Future[Any]:
        assert function is executors.run
        # by the name of this module, which the processes import
        from long_census import run_with_stub as stub
        return super().submit(stub, *given, **named)


def run_census(words: List[str]) -> int:
    """The command with the stub. Its status."""
    # `trinorm.census` is the function
    setattr(importlib.import_module("trinorm.census"), "Workers", StubWorkers)
    return commands.main(["census", *words])


class Moment(NamedTuple):
    """Seconds since a process began: those of the clock, and those that the processor spent on it."""

    clock: float
    processor: float

    def __str__(self) -> str:
        return f"{self.clock:.1f} s ({self.processor:.1f} s)"


class Start(NamedTuple):
    """A start of the census that has ended: its status, the lines that were there before and after it, when its first answer
    came and when it ended, and the most megabytes that its processes had."""

    status: int
    before: int
    after: int
    first: Moment
    end: Moment
    own: int
    others: int

    def __str__(self) -> str:
        rate = (self.after - self.before) / max(self.end.clock - self.first.clock, 1e-9)
        first = "first answer" if self.after > self.before else "nothing to do"
        return (f"{self.before:,} lines before, {self.after:,} after; {first} after {self.first}, end after {self.end}; "
                f"{rate:,.0f} lines a second; {self.own} MB, its workers {self.others} MB; status {self.status}")


def seconds_of(process: int) -> float:
    """The seconds that the processor has spent on a process."""
    with contextlib.suppress(OSError):
        words = Path(f"/proc/{process}/stat").read_text(encoding="ascii").rpartition(")")[2].split()
        return (int(words[11]) + int(words[12])) / os.sysconf("SC_CLK_TCK")
    return 0.0


def peak_of(process: int) -> int:
    """The most bytes that a process had in memory; 0 if it has ended."""
    with contextlib.suppress(OSError, StopIteration):
        with open(f"/proc/{process}/status", encoding="ascii") as file:
            return int(next(line for line in file if line.startswith("VmHWM")).split()[1]) << 10
    return 0


def children_of(process: int) -> List[int]:
    """The processes that the threads of a process have started."""
    found: List[int] = []
    for path in Path(f"/proc/{process}/task").glob("*/children"):
        with contextlib.suppress(OSError):
            found += map(int, path.read_text(encoding="ascii").split())
    return found


def size_of(path: Path) -> int:
    """The bytes of a file that may not be there yet."""
    return path.stat().st_size if path.exists() else 0


def lines_of(path: Path) -> int:
    """The number of whole lines of a file that may not be there yet."""
    if not path.exists():
        return 0
    with open(path, "rb") as file:
        return sum(block.count(b"\n") for block in iter(lambda: file.read(1 << 20), b""))


class Trial:
    """A folder with an input and an output, and the starts of the census on them."""

    def __init__(self, folder: str, given: argparse.Namespace) -> None:
        self.input, self.output = Path(folder, "signatures"), Path(folder, "answers")
        self.lines, self.number = given.lines, signal.Signals[f"SIG{given.signal}"]
        words = ["--command", "sig", "--jobs", str(given.jobs), "--out", str(self.output)]
        self.words = [sys.executable, __file__, "--run", str(self.input), *words]
        self.around = dict(os.environ, TRINORM="/bin/true", **{PAUSE: str(given.pause)})
        with open(self.input, "w", encoding="ascii") as file:
            file.writelines(f"{SIGNATURE} {number}\n" for number in range(self.lines))

    def start(self, size: Optional[int] = None) -> Start:
        """One start. It is stopped by the signal once the output has a size."""
        before, at_first, begun = lines_of(self.output), size_of(self.output), time.monotonic()
        child = subprocess.Popen(self.words, env=self.around, stderr=subprocess.DEVNULL)
        first: Optional[Moment] = None
        now, own, others = Moment(0.0, 0.0), 0, {}  # type: Moment, int, Dict[int, int]
        while child.poll() is None:
            now = Moment(time.monotonic() - begun, seconds_of(child.pid) or now.processor)
            own = peak_of(child.pid) or own
            others.update({one: peak for one in children_of(child.pid) for peak in [peak_of(one)] if peak})
            if size_of(self.output) > at_first:
                first = first or now
            if size is not None and size_of(self.output) >= size:
                child.send_signal(self.number)
                size = None
            time.sleep(0.01)
        return Start(child.returncode, before, lines_of(self.output), first or now, now, own >> 20, sum(others.values()) >> 20)

    def times(self) -> bytearray:
        """How often each line of the input is in the output, at most 255 times. Each line of the output is a whole one."""
        found = bytearray(self.lines)
        with open(self.output, "rb") as file:
            for line in file:
                assert line.endswith(b'"answer": "%b"}\n' % SIGNATURE.encode()), line
                number = int(line.split(b'"', 4)[3])
                found[number] = min(255, found[number] + 1)
        return found

    def run(self) -> bool:
        """All starts. Whether they ended as they should, and each line came out once."""
        line = f'{{"name": "{self.lines}", "signature": "{SIGNATURE}", "command": "sig", "seconds": 0.0, "answer": "{SIGNATURE}"}}\n'
        expected = -self.number if self.number == signal.SIGKILL else 128 + self.number
        starts = []
        for size, status in ((len(line) * self.lines // 3, expected), (len(line) * self.lines * 2 // 3, expected), (None, 0), (None, 0)):
            starts.append(self.start(size))
            print(starts[-1], flush=True)
            if starts[-1].status != status:
                print(f"status {status} was expected")
                return False
        wrong = sum(count != 1 for count in self.times())
        print(f"{self.lines:,} lines, {'each once' if not wrong else f'{wrong:,} of them not once'}")
        return not wrong


def main() -> int:
    """Measures."""
    # a script in the background ignores Ctrl-C, and so would the census
    signal.signal(signal.SIGINT, signal.default_int_handler)
    reader = argparse.ArgumentParser(description=str(__doc__).split("\n", maxsplit=1)[0])
    reader.add_argument("--lines", type=int, default=1_000_000)
    reader.add_argument("--jobs", type=int, default=2)
    reader.add_argument("--signal", choices=("INT", "TERM", "KILL"), default="INT")
    reader.add_argument("--pause", type=float, default=0.0)
    with tempfile.TemporaryDirectory() as folder:
        return 0 if Trial(folder, reader.parse_args()).run() else 1


if __name__ == "__main__":
    sys.exit(run_census(sys.argv[2:]) if sys.argv[1:2] == ["--run"] else main())

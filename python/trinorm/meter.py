"""Signs of life of long work: how many are done, at which rate, and how long the rest takes.

On a terminal they are one line that is written over; in a notebook a bar of tqdm's, if it is installed; anywhere else, as in
the log of a batch job, a line a minute.
"""
from __future__ import annotations

import contextlib
import os
import sys
import threading
import time
from typing import Any, Dict, Mapping, Optional, Protocol, TextIO

# seconds between two signs, on a terminal and in a log
OFTEN, SELDOM = 0.5, 60.0
UNITS = ((86400.0, "days"), (3600.0, "h"), (60.0, "min"))


def in_words(seconds: float) -> str:
    """A time in the unit that fits: `50 s`, `12 min`, `3.4 h`, `2.1 days`."""
    for length, unit in UNITS:
        if seconds >= 2 * length:
            count = seconds / length
            return f"{count:.1f} {unit}" if count < 10 else f"{count:,.0f} {unit}"
    return f"{seconds:.0f} s"


def rate_in_words(count: int, seconds: float) -> str:
    """How many are done in a unit of time, of which there is at least one in it if possible: `1,200 a second`."""
    rate = count / max(seconds, 1e-9)
    for length, unit in ((1.0, "second"), (60.0, "minute"), (3600.0, "hour")):
        if rate * length >= 1 or unit == "hour":
            number = rate * length
            return f"{number:.1f} an {unit}" if unit == "hour" and number < 10 else f"{number:,.0f} {'an' if unit == 'hour' else 'a'} {unit}"
    raise AssertionError


class Shown(Protocol):
    """Where signs are shown."""

    @property
    def interval(self) -> float:
        """The seconds between two signs."""

    def show(self, meter: Meter) -> None:
        """Shows how far it is."""

    def end(self, text: str) -> None:
        """Shows a last line."""


class Terminal:
    """A line of a terminal that is written over."""

    interval = OFTEN

    def __init__(self, to: TextIO) -> None:
        self.to = to

    def show(self, meter: Meter) -> None:
        try:
            width = os.get_terminal_size(self.to.fileno()).columns or 80
        except (OSError, ValueError):
            width = 80
        print(f"\r\033[K{meter.text()[:max(20, width - 1)]}", end="", file=self.to, flush=True)

    def end(self, text: str) -> None:
        print(f"\r\033[K{text}", file=self.to, flush=True)


class Log:
    """Lines of their own."""

    interval = SELDOM

    def __init__(self, to: TextIO) -> None:
        self.to = to

    def show(self, meter: Meter) -> None:
        print(meter.text(), file=self.to, flush=True)

    def end(self, text: str) -> None:
        print(text, file=self.to, flush=True)


class Nothing:
    """No signs, as in a process without standard error."""

    interval = SELDOM

    def show(self, meter: Meter) -> None:
        """Shows nothing."""

    def end(self, text: str) -> None:
        """Shows nothing."""


class Bar:
    """A bar of tqdm's."""

    interval = OFTEN

    def __init__(self, tqdm: Any, total: Optional[int], to: TextIO) -> None:
        self.bar, self.to = tqdm(total=total, unit="", file=to), to

    def show(self, meter: Meter) -> None:
        if meter.total is not None:
            self.bar.total = meter.total
        self.bar.set_postfix_str(meter.counts(), refresh=False)
        self.bar.update(meter.done() - self.bar.n)

    def end(self, text: str) -> None:
        self.bar.close()
        print(text, file=self.to, flush=True)


def in_notebook() -> bool:
    """Whether this process is the kernel of a notebook."""
    ipython = sys.modules.get("IPython")
    shell = ipython.get_ipython() if ipython is not None else None
    return type(shell).__name__ == "ZMQInteractiveShell"


def shown(total: Optional[int], to: Optional[TextIO]) -> Shown:
    """Where signs go to: a bar in a notebook, the line of a terminal, or lines of a log; nowhere if there is no file for them."""
    if to is None:
        return Nothing()
    if in_notebook():
        try:
            from tqdm.auto import tqdm
            return Bar(tqdm, total, to)
        except ImportError:
            return Log(to)
    if to.isatty():
        return Terminal(to)
    return Log(to)


class Meter:
    """Counts what is done, by kinds, and shows it by itself until it ends. Used as `with Meter(..) as meter`.

    total: the number of all that is to be done from now on, if it is known; it may be changed on the way
    to: a file for the signs; standard error if none is named
    """

    def __init__(self, total: Optional[int] = None, kinds: Mapping[str, str] = {"answer": "done"}, to: Optional[TextIO] = None,
                 at: Optional[Shown] = None) -> None:
        self.total, self.before = total, 0
        self.kinds = dict(kinds)
        self.counted: Dict[str, int] = {kind: 0 for kind in kinds}
        self.begun = time.monotonic()
        self._shown = at or shown(total, to or sys.stderr)
        self._ended = threading.Event()
        self._lock = threading.Lock()
        self._thread = threading.Thread(target=self._show_on, daemon=True)

    def __enter__(self) -> Meter:
        self.begun = time.monotonic()
        self._thread.start()
        return self

    def __exit__(self, *_: object) -> None:
        self._ended.set()
        self._thread.join()

    def add(self, kinds: Mapping[str, int]) -> None:
        """Counts what was done."""
        for kind, count in kinds.items():
            self.counted[kind] += count

    def end(self, text: str) -> None:
        """Shows no more, but for a last line."""
        self._ended.set()
        # if nobody reads the signs, the work goes on
        with self._lock, contextlib.suppress(OSError, ValueError):
            self._shown.end(text)

    def _show_on(self) -> None:
        while not self._ended.wait(self._shown.interval):
            with self._lock, contextlib.suppress(OSError, ValueError):
                if not self._ended.is_set():
                    self._shown.show(self)

    def done(self) -> int:
        """The number of those that are done."""
        return sum(self.counted.values())

    def seconds(self) -> float:
        """The seconds since the begin."""
        return time.monotonic() - self.begun

    def counts(self) -> str:
        """How many are done of each kind, in words."""
        before = f"{self.before:,} done before; " if self.before else ""
        return before + ", ".join(f"{self.counted[kind]:,} {word}" for kind, word in self.kinds.items())

    def text(self) -> str:
        """How far it is, in words."""
        done, seconds = self.done(), self.seconds()
        if self.total is None:
            return f"{self.counts()} in {in_words(seconds)}, {rate_in_words(done, seconds)}"
        left = max(0, self.total - done)
        to_go = f"about {in_words(seconds / done * left)} left" if done else f"started {in_words(seconds)} ago"
        return f"{self.counts()}; {left:,} left, {rate_in_words(done, seconds)}, {to_go}"

"""Signs of life: their words, how often they come, and where they are shown."""
import contextlib
import fcntl
import io
import os
import pty
import struct
import sys
import termios
import threading
import time
import types
import unittest
import unittest.mock
from typing import Callable, ClassVar, Optional, TextIO

from trinorm import meter
from trinorm.meter import Bar, Log, Meter, Terminal, in_words, rate_in_words

KINDS = {"answer": "answered", "failed": "failed"}


class Words(unittest.TestCase):
    def test_times_in_the_unit_that_fits(self) -> None:
        for seconds, words in ((0, "0 s"), (59.6, "60 s"), (119, "119 s"), (120, "2.0 min"), (594, "9.9 min"), (600, "10 min"), (639, "11 min"), (3599, "60 min"), (7199, "120 min"), (7200, "2.0 h"),
                               (50000, "14 h"), (172800, "2.0 days"), (8640000, "100 days")):
            self.assertEqual(in_words(seconds), words)

    def test_rates(self) -> None:
        for count, seconds, words in ((5000, 2, "2,500 a second"), (3, 2, "2 a second"), (2, 2, "1 a second"), (1, 2, "30 a minute"), (1, 600, "6.0 an hour"), (10, 3600, "10 an hour"), (0, 5, "0.0 an hour"),
                                      (1, 0, "1,000,000,000 a second")):
            self.assertEqual(rate_in_words(count, seconds), words)

    def test_a_sign(self) -> None:
        with unittest.mock.patch.object(time, "monotonic", return_value=100.0):
            one = Meter(1000, KINDS, at=Log(io.StringIO()))
        one.before = 50
        with unittest.mock.patch.object(time, "monotonic", return_value=110.0):
            self.assertEqual(one.text(), "50 done before; 0 answered, 0 failed; 1,000 left, 0.0 an hour, started 10 s ago")
            one.add({"answer": 90, "failed": 10})
            self.assertEqual(one.text(), "50 done before; 90 answered, 10 failed; 900 left, 10 a second, about 90 s left")
            for total in (100, 99):
                one.total = total
                self.assertEqual(one.text(), "50 done before; 90 answered, 10 failed; 0 left, 10 a second, about 0 s left")
            one.total = None
            self.assertEqual(one.text(), "50 done before; 90 answered, 10 failed in 10 s, 10 a second")


def until(is_so: Callable[[], object], seconds: float = 60.0) -> None:
    """Waits until something is so, or the time is over."""
    end = time.monotonic() + seconds
    while not is_so() and time.monotonic() < end:
        time.sleep(0.02)


class Shown(unittest.TestCase):
    def test_a_log_has_a_line_a_minute(self) -> None:
        log = io.StringIO()
        self.assertEqual(Log(log).interval, 60)
        with unittest.mock.patch.object(meter, "SELDOM", 0.05), unittest.mock.patch.object(Log, "interval", 0.05), \
                Meter(3, KINDS, to=log) as one:
            one.add({"answer": 1})
            until(lambda: log.getvalue().count("\n") > 2)
            one.end("the end")
        lines = log.getvalue().splitlines()
        self.assertGreater(len(lines), 2)
        self.assertTrue(all(line.startswith("1 answered, 0 failed; 2 left, ") for line in lines[:-1]), lines)
        self.assertEqual(lines[-1], "the end")

    def test_a_terminal_has_one_line_that_is_written_over(self) -> None:
        ours, theirs = pty.openpty()
        with os.fdopen(theirs, "w", encoding="utf8") as to, unittest.mock.patch.object(Terminal, "interval", 0.05):
            with Meter(10 ** 9, KINDS, to=to) as one:
                one.add({"answer": 1})
                said = os.read(ours, 100000).decode()
                one.end("the end")
            while not said.endswith("the end\r\n"):
                said += os.read(ours, 100000).decode()
        os.close(ours)
        self.assertEqual(said.count("\n"), 1)
        self.assertIn("\r\033[K1 answered, 0 failed; 999,999,999 left", said)
        self.assertTrue(said.endswith("\r\033[Kthe end\r\n"), said)
        # no line is longer than the terminal, so that it can be written over
        self.assertLess(max(map(len, said.split("\r\033[K"))), 80)

    def test_the_width_of_a_terminal(self) -> None:
        """A line has a column less, but twenty at least; a terminal that has no width is taken for one of 80 columns."""
        for columns, length in ((30, 29), (22, 21), (21, 20), (5, 20), (0, 79)):
            ours, theirs = pty.openpty()
            fcntl.ioctl(theirs, termios.TIOCSWINSZ, struct.pack("HHHH", 0, columns, 0, 0))
            with os.fdopen(theirs, "w", encoding="utf8") as to:
                Terminal(to).show(Meter(10 ** 60, KINDS, at=Log(to)))
                said = os.read(ours, 100000).decode()
            os.close(ours)
            self.assertEqual((said[:4], len(said) - 4), ("\r\033[K", length))
        to = io.StringIO()
        Terminal(to).show(Meter(10 ** 60, KINDS, at=Log(to)))
        self.assertEqual(len(to.getvalue()), 83)

    def test_a_notebook_has_a_bar(self) -> None:
        """With tqdm a bar, without it lines."""
        class ZMQInteractiveShell:  # as IPython names the shell of a notebook
            pass
        notebook = types.SimpleNamespace(get_ipython=ZMQInteractiveShell)
        with unittest.mock.patch.dict(sys.modules, {"IPython": notebook, "tqdm.auto": types.SimpleNamespace(tqdm=MadeUpBar)}):
            to = io.StringIO()
            with unittest.mock.patch.object(Bar, "interval", 0.02), Meter(7, KINDS, to=to) as one:
                one.add({"answer": 5})
                until(lambda: MadeUpBar.last is not None and MadeUpBar.last.n == 5)
                one.add({"answer": 1, "failed": 1})
                until(lambda: MadeUpBar.last is not None and MadeUpBar.last.n == 7)
                one.end("the end")
            bar = MadeUpBar.last
            assert bar is not None
            self.assertEqual((bar.total, bar.n, bar.is_closed), (7, 7, True))
            self.assertEqual(to.getvalue(), "the end\n")
        with unittest.mock.patch.dict(sys.modules, {"IPython": notebook, "tqdm.auto": None}):
            self.assertIsInstance(meter.shown(7, io.StringIO()), Log)
        self.assertIsInstance(meter.shown(7, io.StringIO()), Log)

    def test_by_tqdm_itself(self) -> None:
        try:
            from tqdm import tqdm
        except ImportError:
            self.skipTest("tqdm isn't installed")
        to = io.StringIO()
        with Meter(7, KINDS, at=Bar(tqdm, 7, to)) as one:
            one.add({"answer": 7})
            one._shown.show(one)
            one.end("the end")
        self.assertIn("7/7", to.getvalue())
        self.assertTrue(to.getvalue().endswith("the end\n"))

    def test_a_bad_place_to_write_ends_nothing(self) -> None:
        """A reader of the signs that has gone doesn't end the work."""
        ours, theirs = os.pipe()
        os.close(ours)
        to = os.fdopen(theirs, "w", encoding="utf8")
        with unittest.mock.patch.object(Log, "interval", 0.02), Meter(7, KINDS, to=to) as one:
            time.sleep(0.2)
            one.add({"answer": 7})
            one.end("the end")
        with contextlib.suppress(BrokenPipeError):
            to.close()
        self.assertEqual(one.done(), 7)

    def test_no_thread_is_left(self) -> None:
        before = threading.active_count()
        for _ in range(3):
            with contextlib.suppress(KeyError), Meter(7, KINDS, to=io.StringIO()):
                raise KeyError
        self.assertEqual(threading.active_count(), before)


class MadeUpBar:
    """What tqdm's bar has."""

    last: "ClassVar[Optional[MadeUpBar]]" = None

    def __init__(self, total: int, unit: str, file: TextIO) -> None:
        self.total, self.n, self.is_closed = total, 0, False
        del unit, file
        MadeUpBar.last = self

    def set_postfix_str(self, words: str, refresh: bool) -> None:
        self.words, self.refresh = words, refresh

    def update(self, count: int) -> None:
        self.n += count

    def close(self) -> None:
        self.is_closed = True


if __name__ == "__main__":
    unittest.main()

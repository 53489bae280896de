"""What tests share: signals that a shell ignores for what it starts in the background, and loops that end."""
import subprocess
import sys
import time
import unittest
from pathlib import Path
from unittest import mock

from .cases import within

PACKAGE = Path(__file__).resolve().parents[1]


class Signals(unittest.TestCase):
    def test_they_come_in_the_background(self) -> None:
        """As in `python3 -m unittest discover python &` of a script, whose tests would wait for their signals for ever."""
        text = "import signal, tests; print([signal.getsignal(it) is signal.SIG_IGN for it in (signal.SIGINT, signal.SIGHUP, signal.SIGQUIT, signal.SIGTERM)])"
        done = subprocess.run(["sh", "-c", "trap '' INT HUP QUIT TERM; \"$@\" & wait", "sh", sys.executable, "-c", text], cwd=PACKAGE, capture_output=True,
                              text=True, timeout=60, check=True)
        self.assertEqual(done.stdout, "[False, False, False, False]\n")


class Loops(unittest.TestCase):
    def test_they_end(self) -> None:
        with mock.patch.object(time, "monotonic", side_effect=[100.0, 100.0, 100.02, 100.04, 100.06]):
            self.assertEqual(len(list(within(0.05))), 3)
        self.assertEqual(list(within(0)), [])


if __name__ == "__main__":
    unittest.main()

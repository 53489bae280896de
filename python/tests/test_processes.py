"""Processes that are interrupted while they are started, are used by many threads, and are asked for nonsense."""
import _thread
import os
import signal
import subprocess
import tempfile
import threading
import unittest
from pathlib import Path
from typing import Any, Callable, List
from unittest import mock

import trinorm
from trinorm import processes
from trinorm.processes import Child

from .cases import within
from .programs import script


def children() -> List[str]:
    """The numbers of the children of this process that run or were not waited for."""
    found: List[str] = []
    for path in Path("/proc/self/task").glob("*/children"):
        try:
            found += path.read_text("ascii").split()
        except OSError:  # the thread has ended
            pass
    return found


class Asked(Exception):
    """Raised by a handler of a signal."""


@unittest.skipUnless(os.path.exists(f"/proc/self/task/{os.getpid()}/children"), "the system does not list children")
class Interrupts(unittest.TestCase):
    """Nothing is left running, whenever the signal comes."""

    def setUp(self) -> None:
        self.folder = tempfile.TemporaryDirectory()
        self.addCleanup(self.folder.cleanup)
        self.endless = script(self.folder.name, "exec sleep 300\n")

        def raises(_number: int, _frame: object) -> None:
            signal.setitimer(signal.ITIMER_REAL, 0)
            raise Asked

        before = signal.signal(signal.SIGALRM, raises)
        self.addCleanup(signal.signal, signal.SIGALRM, before)
        self.addCleanup(signal.setitimer, signal.ITIMER_REAL, 0)

    def interrupted(self, call: Callable[[], object]) -> None:
        """Calls it many times, each time with a signal a little later, from before the process is there until after it runs."""
        before, threads = children(), _thread._count()
        for step in range(150):
            with self.assertRaises(Asked):
                # it comes again after a second, since one that comes just before a wait of the system does not end that wait
                signal.setitimer(signal.ITIMER_REAL, 1e-5 + step * 4e-5, 1)
                call()
        signal.setitimer(signal.ITIMER_REAL, 0)
        self.are_left(before, threads)

    def are_left(self, before: List[str], threads: int) -> None:
        """No other children and no more threads are left than these, soon. A thread that starts a process for nobody ends it, and may
        be slow to begin."""
        for _ in within(60):
            if _thread._count() <= threads and children() == before:
                return
            threading.Event().wait(0.05)
        self.assertEqual((children(), _thread._count()), (before, threads))

    def test_of_a_call(self) -> None:
        self.interrupted(lambda: trinorm.surfaces("bkaagj", program=self.endless))

    def test_of_a_call_that_reports(self) -> None:
        self.interrupted(lambda: trinorm.surfaces("bkaagj", progress=lambda *_: None, program=self.endless))

    def test_while_the_process_is_started(self) -> None:
        """The signal comes while `Popen` runs, which no time is short enough to miss."""
        begun, go = threading.Event(), threading.Event()
        popen = subprocess.Popen

        def slow(*words: Any, **how: Any) -> "subprocess.Popen[bytes]":
            begun.set()
            go.wait(100)
            return popen(*words, **how)

        def signals() -> None:
            begun.wait(100)
            os.kill(os.getpid(), signal.SIGALRM)

        before, threads = children(), _thread._count()
        thread = threading.Thread(target=signals)
        with mock.patch.object(subprocess, "Popen", slow):
            with self.assertRaises(Asked):
                thread.start()
                with Child([self.endless]):
                    pass
            go.set()
            thread.join()
            self.are_left(before, threads)


class Started(unittest.TestCase):
    def test_threads(self) -> None:
        listed = trinorm.surfaces("cPcbbbiht")
        program, found = trinorm.find(), []
        threads = [threading.Thread(target=lambda: found.append(trinorm.surfaces("cPcbbbiht", program=program))) for _ in range(20)]
        for thread in threads:
            thread.start()
        for thread in threads:
            thread.join()
        self.assertEqual(found, [listed] * 20)

    def test_without_threads(self) -> None:
        """Where no thread can be started, the process is started here."""
        with mock.patch.object(processes, "start_new_thread", side_effect=RuntimeError("can't start new thread")):
            self.assertEqual(len(trinorm.surfaces("bkaagj", program=trinorm.find())), 2)

    def test_forked_children(self) -> None:
        child = os.fork()
        if child == 0:
            os._exit(0 if len(trinorm.surfaces("bkaagj", program=trinorm.find())) == 2 else 1)
        self.assertEqual(os.waitpid(child, 0)[1], 0)

    def test_what_cannot_be_started(self) -> None:
        for path, why in (("/no/such/program", "No such file"), (os.path.dirname(__file__), "Permission denied")):
            with self.assertRaisesRegex(trinorm.Failed, f"^{path}: {why}"), Child([path]):
                pass
        with self.assertRaises(ValueError), Child(["a\0b"]):
            pass
        with mock.patch.object(subprocess, "Popen", side_effect=OSError(12, "Cannot allocate memory")):
            with self.assertRaisesRegex(trinorm.Failed, "^cat: Cannot allocate memory$"), Child(["cat", "file"]):
                pass

    def test_what_ends_by_an_exception_is_killed(self) -> None:
        with tempfile.TemporaryDirectory() as folder:
            with self.assertRaises(Asked), Child([script(folder, "exec sleep 300\n")]) as run:
                raise Asked
        self.assertEqual(run.returncode, -signal.SIGKILL)


if __name__ == "__main__":
    unittest.main()

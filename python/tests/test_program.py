"""Refusals, failed runs, and how the program is found."""
import os
import pickle
import signal
import tempfile
import threading
import unittest
from pathlib import Path
from typing import Any, Callable, List, Tuple
from unittest import mock

import trinorm
from tests.programs import script
from trinorm.errors import NO_MEMORY_HERE
from trinorm.machine import Lock
from trinorm.program import kind_and_places, run


class Refusals(unittest.TestCase):
    def refused(self, call: Callable[..., object], *words: object, **named: object) -> Tuple[int, str, Tuple[Any, ...]]:
        with self.assertRaises(trinorm.Refused) as caught:
            call(*words, **named)
        return caught.exception.status, caught.exception.kind, caught.exception.places

    def test_input(self) -> None:
        self.assertEqual(self.refused(trinorm.info, "tri 1\n0:1023 0:1023 0:1230"), (3, "input missing-word", (2, 21)))
        self.assertEqual(self.refused(trinorm.info, [["0:1023", None, "-", None]]), (3, "table not-mutual", (0, 0)))
        self.assertEqual(self.refused(trinorm.info, "bkaagjx"), (3, "signature trailing", (6,)))
        self.assertEqual(self.refused(trinorm.verify, "bkaagj", [(-1,)]), (3, "input bad-word", (2, 5)))

    def test_checks(self) -> None:
        self.assertEqual(self.refused(trinorm.lift, "cPcbbbiht", [(2, 0, 0, 0, 0, 1)]), (4, "vector no-lift", (0, 0)))
        self.assertEqual(trinorm.check("bkaagb", []).places, ("bkaagb",))
        wrong = trinorm.check("bkaagj", ["14 0", "41 0 3", "23 0 0"])
        self.assertEqual((wrong.kind, wrong.places), ("check illegal repeated", (3, 3)))
        self.assertEqual(self.refused(trinorm.sig, ["- - - -"] * 2), (4, "not-connected", (0, 1)))

    def test_limit(self) -> None:
        said = self.refused(trinorm.rays, [[1, -2, 0], [0, 1, -2]], order="given", max_entry=2)
        self.assertEqual(said, (5, "large pair", (1, 1, (2, 1, 0), (0, 0, 1))))
        self.assertEqual(kind_and_places("refused: large step 0 row 2 value 3 0"), ("large value", (0, 2, (3, 0))))

    def test_words(self) -> None:
        self.assertEqual(self.refused(run, ["surfaces", "--coords", "standard."])[0], 2)

    def test_is_kept_by_pickle(self) -> None:
        again = pickle.loads(pickle.dumps(trinorm.Refused(3, "refused: input 1 1 bad-word")))
        self.assertEqual((again.status, again.places), (3, (1, 1)))


class Failures(unittest.TestCase):
    def failed(self, text: str, **named: Any) -> trinorm.Failed:
        with tempfile.TemporaryDirectory() as folder, self.assertRaises(trinorm.Failed) as caught:
            trinorm.info("bkaagj", program=script(folder, text), **named)
        return caught.exception

    def test_statuses(self) -> None:
        self.assertIn("out of memory", str(self.failed("exit 8\n")))
        self.assertIn("standard input could not be read", str(self.failed("echo 'refused: read'; exit 6\n")))
        self.assertIn("signal 9", str(self.failed("kill -9 $$\n")))

    def test_no_memory_in_python(self) -> None:
        """For the answer, or for what is read of it."""
        class Long(str):
            def splitlines(self, keepends: bool = False) -> List[str]:
                raise MemoryError

        for run_it in (mock.Mock(side_effect=MemoryError), mock.Mock(return_value=Long("bkaagj\n"))):
            with self.assertRaisesRegex(trinorm.Failed, NO_MEMORY_HERE):
                trinorm.sig("bkaagj", program=mock.Mock(run=run_it))

    def test_answers_that_are_none(self) -> None:
        self.assertIn("cannot be read", str(self.failed("echo tetrahedra 1\n")))
        self.assertIn("status 3", str(self.failed("exit 3\n")))

    def test_timeout(self) -> None:
        self.assertIsInstance(self.failed("exec sleep 20\n", timeout=0.1), trinorm.TimedOut)

    def test_no_program(self) -> None:
        with self.assertRaises(trinorm.Failed):
            trinorm.info("bkaagj", program="/no/such/program")
        others = {name: value for name, value in os.environ.items() if name != "TRINORM_LIBRARY"}
        with mock.patch.dict(os.environ, dict(others, TRINORM="/no/such/program"), clear=True), self.assertRaises(trinorm.Failed):
            trinorm.info("bkaagj")

    def test_exceptions_of_handlers_are_raised(self) -> None:
        class Enough(OSError):
            """One that is no fault of a file."""

        def stop(*_: object) -> None:
            raise Enough("enough")

        before = signal.signal(signal.SIGALRM, stop)
        try:
            with tempfile.TemporaryDirectory() as folder, self.assertRaises(Enough):
                signal.setitimer(signal.ITIMER_REAL, 0.3)
                trinorm.info("bkaagj", program=script(folder, "exec sleep 20\n"))
        finally:
            signal.signal(signal.SIGALRM, before)


class Finding(unittest.TestCase):
    def test_what_is_named_comes_first(self) -> None:
        with tempfile.TemporaryDirectory() as folder:
            path = script(folder, "exit 8\n")
            with mock.patch.dict(os.environ, TRINORM=path):
                self.assertEqual(trinorm.find(), path)
                self.assertEqual(trinorm.find("/bin/sh"), "/bin/sh")

    def test_the_repository_builds_it_once(self) -> None:
        with tempfile.TemporaryDirectory() as folder:
            os.makedirs(os.path.join(folder, "crates", "trinorm"))
            launcher = os.path.join(folder, "trinorm")
            others = {name: value for name, value in os.environ.items() if name != "TRINORM"}
            with mock.patch.dict(os.environ, others, clear=True), mock.patch("trinorm.program.REPOSITORY", Path(folder)), \
                    mock.patch("trinorm.program._is_built", False):
                os.rename(script(folder, "exit 9\n"), launcher)
                with self.assertRaisesRegex(trinorm.Failed, "could not be built"):
                    trinorm.find()
                os.rename(script(folder, f"echo built >> {folder}/log\n"), launcher)
                self.assertEqual([trinorm.find(), trinorm.find()], [os.path.join(folder, "crates", "trinorm", "out", "trinorm")] * 2)
            with open(os.path.join(folder, "log"), encoding="utf8") as file:
                self.assertEqual(file.read(), "built\n")

    def test_no_one_waits_for_ever_for_the_lock(self) -> None:
        """Of the build, or of the library: neither a handler of a signal in the thread that has it, nor a child that was forked while
        another thread had it."""
        lock, is_held, is_over = Lock(), threading.Event(), threading.Event()

        def hold() -> None:
            with lock.held(), lock.held():
                is_held.set()
                is_over.wait()
        other = threading.Thread(target=hold)
        other.start()
        is_held.wait()
        child = os.fork()
        if child == 0:
            signal.alarm(10)  # which ends it if it waits
            with lock.held():
                os._exit(0)
        self.assertEqual(os.waitpid(child, 0)[1], 0)
        is_over.set()
        other.join()

    def test_how_a_process_ended(self) -> None:
        for status, said in ((-9, "killed by signal 9"), (-1, "killed by signal 1"), (0, "status 0"), (1, "status 1"), (6, "standard input could not be read"),
                             (7, "the output could not be written"), (8, "out of memory"), (9, "the command line is not UTF-8"), (10, "status 10")):
            self.assertEqual(trinorm.program.how_it_ended(status), said)

    def test_the_first_lines_of_an_answer_that_cannot_be_read(self) -> None:
        class Prints:
            def run(self, *_: object) -> str:
                return "one\ntwo\nthree\n"

        with self.assertRaisesRegex(trinorm.Failed, r"^info: the answer cannot be read: \['one', 'two'\]$"):
            trinorm.info("bkaagj", program=Prints())

    def test_the_path_comes_last(self) -> None:
        with tempfile.TemporaryDirectory() as folder:
            path = os.path.join(folder, "trinorm")
            os.rename(script(folder, "exit 8\n"), path)
            others = {name: value for name, value in os.environ.items() if name != "TRINORM"}
            around = mock.patch.dict(os.environ, dict(others, PATH=folder), clear=True)
            with around, mock.patch("trinorm.program.REPOSITORY", Path(folder)):
                self.assertEqual(trinorm.find(), path)


if __name__ == "__main__":
    unittest.main()

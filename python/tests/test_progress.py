"""Signs of life of a single call: in the library and in a process, with what is raised in them, and nonsense."""
import os
import signal
import tempfile
import threading
import time
import unittest
import unittest.mock
from typing import TYPE_CHECKING, Any, Dict, Iterator, List, Tuple, Type

import trinorm
from trinorm import library, program, progress
from trinorm.server import Server

from .cases import timed, within
from .programs import script
from .test_library import LONG, chain, named


class Reports:
    """Collects what is reported."""

    def __init__(self) -> None:
        self.seen: List[Tuple[float, int]] = []

    def __call__(self, seconds: float, held: int) -> None:
        self.seen.append((seconds, held))


def longer_and_longer() -> Iterator[str]:
    """Triangulations with ever more surfaces: a list that takes too short for a report on this machine is followed by a longer one."""
    return map(chain, (20, 22, 24, 26))


# what `Both` is for those who check types; it is no class of tests itself, so that its tests are run of the classes below it alone
if TYPE_CHECKING:
    Case = unittest.TestCase
else:
    Case = object


class Ended(Exception):
    """Raised by a report."""


class Both(Case):
    """What holds of the library and of a process."""
    @property
    def way(self) -> Dict[str, Any]:
        """The arguments by name that say what runs."""
        return {}

    def most_held(self) -> int:
        """The most bytes of all reports on lists, until there is one of some bytes."""
        reports = Reports()
        for text in longer_and_longer():
            trinorm.surfaces(text, "octagon", progress=reports, **self.way)
            if any(held for _, held in reports.seen):
                break
        return max((held for _, held in reports.seen), default=0)

    def test_reports(self) -> None:
        reports = Reports()
        for text in longer_and_longer():
            listed = trinorm.surfaces(text, progress=reports, **self.way)
            self.assertEqual(listed, trinorm.surfaces(text))
            self.assertEqual(trinorm.count(text, progress=reports, **self.way).surfaces, len(listed))
            if reports.seen:
                break
        self.assertTrue(reports.seen)
        for seconds, held in reports.seen:
            self.assertIsInstance(held, int)
            self.assertGreaterEqual(held, 0)
            self.assertLess(seconds, 100)

    def test_what_a_report_raises_ends_the_call(self) -> None:
        for raised in (Ended, KeyboardInterrupt, SystemExit):
            def ends(_seconds: float, _held: int, raised: Type[BaseException] = raised) -> None:
                raise raised

            with self.assertRaises(raised):
                for text in longer_and_longer():
                    trinorm.surfaces(text, "octagon", progress=ends, **self.way)
        self.assertEqual(len(trinorm.surfaces("bkaagj", progress=ends, **self.way)), 2)

    def test_a_call_within_a_report(self) -> None:
        lists: List[List[Tuple[int, ...]]] = []
        for text in longer_and_longer():
            listed = trinorm.surfaces(text, progress=lambda *_: lists.append(trinorm.surfaces("cPcbbbiht")), **self.way)
            self.assertEqual(listed, trinorm.surfaces(text))
            if lists:
                break
        self.assertTrue(lists and all(it == trinorm.surfaces("cPcbbbiht") for it in lists))

    def test_interrupts(self) -> None:
        timer = threading.Timer(0.3, os.kill, (os.getpid(), signal.SIGINT))
        timer.start()
        with self.assertRaises(KeyboardInterrupt):
            for _ in within(60):
                trinorm.surfaces(LONG, "octagon", progress=Reports(), **self.way)
        timer.cancel()

    def test_threads(self) -> None:
        found: Dict[int, Tuple[List[Tuple[int, ...]], List[Tuple[float, int]]]] = {}

        def list_it(number: int) -> None:
            reports = Reports()
            found[number] = trinorm.surfaces(LONG, progress=reports, **self.way), reports.seen

        threads = [threading.Thread(target=list_it, args=(it,)) for it in range(3)]
        for it in threads:
            it.start()
        for it in threads:
            it.join()
        self.assertEqual([listed for listed, _ in found.values()], [trinorm.surfaces(LONG)] * 3)

    def test_refusals(self) -> None:
        with self.assertRaises(trinorm.Refused):
            trinorm.surfaces("bkaagjx", progress=Reports(), **self.way)

    def test_nonsense(self) -> None:
        wrong: List[Any] = [7, "text", [], object()]
        for value in wrong:
            with self.assertRaises(trinorm.BadArgument):
                trinorm.surfaces("bkaagj", progress=value, **self.way)


@unittest.skipUnless(named(), "the library isn't built")
class ByLibrary(Both, unittest.TestCase):
    def setUp(self) -> None:
        self.before = {name: os.environ.get(name) for name in ("TRINORM", "TRINORM_LIBRARY")}
        os.environ["TRINORM_LIBRARY"] = named() or ""

    def tearDown(self) -> None:
        for name, value in self.before.items():
            if value is None:
                os.environ.pop(name, None)
            else:
                os.environ[name] = value

    def test_bytes_are_held(self) -> None:
        self.assertGreater(self.most_held(), 0)
        self.assertEqual(library.at(named() or "").held(), 0)

    def test_forked_children(self) -> None:
        child = os.fork()
        if child == 0:
            os._exit(0 if trinorm.surfaces(LONG, progress=Reports()) else 1)
        self.assertEqual(os.waitpid(child, 0)[1], 0)


class ByProcess(Both, unittest.TestCase):
    @property
    def way(self) -> Dict[str, Any]:
        return {"program": trinorm.find()}

    def test_bytes_are_held(self) -> None:
        self.assertGreater(self.most_held(), 0)

    def test_long_inputs(self) -> None:
        """The input of a program that reads after its first report is still given to it."""
        with tempfile.TemporaryDirectory() as folder:
            slow = script(folder, f"sleep 0.5\nexec {trinorm.find()} \"$@\"\n")
            runner = progress.Reported(slow, Reports())
            text = "sig bkaagj\n" + "vec 1 1 0 0 1 0 0\n" * 50000
            self.assertEqual(runner.run(["verify"], text).count("solution"), 50000)

    @timed
    def test_limits_of_time(self) -> None:
        with tempfile.TemporaryDirectory() as folder:
            begun = time.monotonic()
            with self.assertRaisesRegex(trinorm.TimedOut, "no result within 0.5 s"):
                trinorm.surfaces("bkaagj", progress=Reports(), timeout=0.5, program=script(folder, "exec sleep 300\n"))
            self.assertLess(time.monotonic() - begun, 200)

    def test_reports_come_again_and_again(self) -> None:
        """Until the third one ends a call that has no end of its own."""
        seen: List[float] = []

        def ends_the_third(seconds: float, _held: int) -> None:
            seen.append(seconds)
            if len(seen) == 3:
                raise Ended

        with tempfile.TemporaryDirectory() as folder, self.assertRaises(Ended):
            trinorm.surfaces("bkaagj", progress=ends_the_third, timeout=200, program=script(folder, "exec sleep 300\n"))
        self.assertTrue(0 < seen[0] < seen[1] < seen[2], seen)

    def test_what_fails(self) -> None:
        with self.assertRaises(trinorm.Failed):
            trinorm.surfaces("bkaagj", progress=Reports(), program="/no/such/program")
        with tempfile.TemporaryDirectory() as folder, self.assertRaises(trinorm.Failed):
            trinorm.surfaces("bkaagj", progress=Reports(), program=script(folder, "exit 8\n"))
        with unittest.mock.patch.object(tempfile, "TemporaryFile", side_effect=OSError(28, "No space left on device", "/tmp/x")):
            with self.assertRaisesRegex(trinorm.Failed, "/tmp/x: No space left"):
                trinorm.surfaces("bkaagj", progress=Reports(), program=trinorm.find())

    @unittest.skipIf(Server.find() is None, "the server isn't built")
    def test_servers_report_nothing(self) -> None:
        with Server() as server, self.assertRaises(trinorm.BadArgument):
            trinorm.surfaces("bkaagj", progress=Reports(), program=server)

    def test_processes_that_are_gone(self) -> None:
        self.assertEqual(progress.held_by(2**31 - 1), 0)
        before = progress.held_by(os.getpid())
        taken = b"x" * 100_000_000
        self.assertGreater(progress.held_by(os.getpid()), before + len(taken) // 2)
        self.assertIsNone(progress.reported(None, None))
        self.assertEqual(progress.reported("name", None), "name")
        self.assertTrue(callable(program.run))


if __name__ == "__main__":
    unittest.main()

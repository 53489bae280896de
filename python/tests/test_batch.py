"""One command on many triangulations: in order and as they are done, failures as values, by threads and by processes."""
import concurrent.futures
import itertools
import os
import signal
import tempfile
import threading
import time
import unittest
import unittest.mock
import warnings
from typing import Any, Dict, Iterator, List, Tuple

import trinorm
from trinorm import batch, machine

from .cases import timed, within
from .programs import script
from .test_processes import children

SIGNATURES = ["bkaagj", "cPcbbbiht", "bkaajj", "cMcabbgaj", "gLLPQccdfeefqffaqnw", "eLMkabcddbrrag"] * 20


def length(text: str) -> int:
    """A function of one text that other processes can import."""
    return len(text)


def raises(_text: str) -> None:
    raise KeyError("not a failure of the program's")


def ends_its_process(text: str) -> str:
    if "cPcbbbiht" in text:
        os.kill(os.getpid(), signal.SIGKILL)
    return text


class Many(unittest.TestCase):
    def test_in_order(self) -> None:
        asked: List[Tuple[batch.CommandName, Dict[str, Any]]] = [("sig", {}), ("surfaces", {"coords": "quad"}), ("count", {}), ("zero_efficient", {})]
        for command, options in asked:
            found = list(trinorm.many(SIGNATURES, command, **options))
            self.assertEqual([it.index for it in found], list(range(len(SIGNATURES))))
            self.assertEqual([it.triangulation for it in found], SIGNATURES)
            self.assertEqual([it.value for it in found], [getattr(trinorm, command)(it, **options) for it in SIGNATURES])

    def test_as_they_are_done(self) -> None:
        found = list(trinorm.many(SIGNATURES, "sig", in_order=False))
        self.assertEqual(sorted(it.index for it in found), list(range(len(SIGNATURES))))
        self.assertTrue(all(it.answer == trinorm.sig(it.triangulation) for it in found))

    def test_failures_are_values(self) -> None:
        given: List[Any] = ["bkaagj", "bkaagjx", None, "cPcbbbiht", "a.txt", trinorm.table("bkaagj")]
        found = list(trinorm.many(given, "sig"))
        self.assertEqual([it.answer for it in found], ["bkaagj", None, None, "cPcbbbiht", None, "bkaagj"])
        self.assertEqual([type(it.failure) for it in found],
                         [type(None), trinorm.Refused, trinorm.BadArgument, type(None), trinorm.BadArgument, type(None)])
        with self.assertRaises(trinorm.Refused):
            found[1].value  # pylint: disable=pointless-statement
        self.assertIsInstance(next(trinorm.many(["bkaagj"], raises)).failure, KeyError)
        self.assertIsInstance(next(trinorm.many(["bkaagj"], "surfaces", coords="quads")).failure, trinorm.BadArgument)

    def test_bad_arguments(self) -> None:
        wrong: List[Tuple[Any, Any]] = [(SIGNATURES, "surface"), ("bkaagj", "sig"), (7, "sig"), (None, "sig")]
        for given, command in wrong:
            with self.assertRaises(trinorm.BadArgument):
                trinorm.many(given, command)

    def test_without_a_mask_of_processors(self) -> None:
        """macOS and Windows have no `os.sched_getaffinity`."""
        mask = os.__dict__.pop("sched_getaffinity", None)
        try:
            self.assertEqual(machine.processors(), os.cpu_count() or 1)
            self.assertEqual([it.value for it in trinorm.many(SIGNATURES[:6], "sig")], SIGNATURES[:6])
        finally:
            if mask is not None:
                setattr(os, "sched_getaffinity", mask)

    def test_nothing(self) -> None:
        self.assertEqual(list(trinorm.many([], "sig")), [])

    def test_as_many_as_are_needed(self) -> None:
        taken = []

        def endless() -> Iterator[str]:
            for number in itertools.count():
                taken.append(number)
                yield SIGNATURES[number % 6]

        found = list(itertools.islice(trinorm.many(endless(), "sig"), 500))
        self.assertEqual([it.answer for it in found], [trinorm.sig(SIGNATURES[it % 6]) for it in range(500)])
        self.assertLess(len(taken), 500 + 64 * 256 + 1)

    def test_progress(self) -> None:
        counts = []
        list(trinorm.many(["bkaagj", "bkaagjx", "cPcbbbiht"], "sig", progress=lambda *it: counts.append(it)))
        self.assertEqual(counts, [(1, 0), (2, 1), (3, 1)])

        def ends(*_: object) -> None:
            raise InterruptedError

        with self.assertRaises(InterruptedError):
            list(trinorm.many(SIGNATURES, "sig", progress=ends))

    @timed
    def test_timeouts(self) -> None:
        """The limit is that of each: one that takes hundreds of times longer than the others ends alone, on machines of any speed."""
        long = trinorm.make(6, 24).table
        for limit in (0.15, 0.3, 0.6, 1.2, 2.4, 4.8):
            found = list(trinorm.many(["bkaagj", long, "cPcbbbiht"], "described", timeout=limit))
            if not found[0].failure and not found[2].failure:
                break
        self.assertIsInstance(found[1].failure, trinorm.TimedOut)
        self.assertEqual([len(it.value) for it in (found[0], found[2])], [2, 1])

    def test_processes(self) -> None:
        for way in ("fork", "spawn"):
            import multiprocessing
            with concurrent.futures.ProcessPoolExecutor(2, multiprocessing.get_context(way)) as executor:
                found = list(trinorm.many(SIGNATURES + ["bkaagjx"], "surfaces", executor, coords="quad"))
                self.assertEqual([it.answer for it in found[:-1]], [trinorm.surfaces(it, "quad") for it in SIGNATURES])
                self.assertIsInstance(found[-1].failure, trinorm.Refused)
                self.assertEqual([it.answer for it in trinorm.many(["bkaagj"], length, executor)], [11])

    def test_a_killed_worker(self) -> None:
        given = ["bkaagj", "cPcbbbiht", "bkaajj"]
        with concurrent.futures.ProcessPoolExecutor(1) as executor:
            found = list(trinorm.many(given, ends_its_process, executor))
        self.assertEqual([it.index for it in found], [0, 1, 2])
        self.assertIsInstance(found[1].failure, trinorm.Failed)
        self.assertTrue(all(it.answer or isinstance(it.failure, trinorm.Failed) for it in found))

    def test_there_are_as_many_threads_as_processors(self) -> None:
        started: List[object] = []
        with unittest.mock.patch.object(batch, "processors", lambda: 3), \
                unittest.mock.patch.object(batch, "start_new_thread", lambda work, _given: started.append(work)):
            threads = batch._Threads()
            for _ in range(5):
                threads.submit(length, "text")
        self.assertEqual(len(started), 3)

    def test_there_are_no_more_threads_than_processors(self) -> None:
        threads = batch._Threads()
        try:
            done = [threads.submit(time.sleep, 0.001) for _ in range(5 * machine.processors())]
            for future in done:
                future.result(60)
            self.assertEqual(threads._left, 0)
            self.assertLessEqual(len(threads._begun), machine.processors())
        finally:
            threads.stop()

    def test_interrupts(self) -> None:
        long = trinorm.make(6, 24).table
        timer = threading.Timer(0.5, os.kill, (os.getpid(), signal.SIGINT))
        begun = time.monotonic()
        # a shell ignores the signal for what it starts in the background, and so would this process
        before = signal.signal(signal.SIGINT, signal.default_int_handler)
        try:
            with self.assertRaises(KeyboardInterrupt):
                timer.start()
                for _ in trinorm.many(itertools.repeat(long), "described"):
                    self.assertLess(time.monotonic() - begun, 120)
        finally:
            timer.cancel()
            signal.signal(signal.SIGINT, before)
        self.assertLess(time.monotonic() - begun, 120)

    @unittest.skipUnless(os.path.exists(f"/proc/self/task/{os.getpid()}/children"), "the system does not list children")
    def test_interrupts_end_processes(self) -> None:
        """Those of a program that is named, too."""
        before = children()
        handler = signal.signal(signal.SIGINT, signal.default_int_handler)
        timer = threading.Timer(0.5, os.kill, (os.getpid(), signal.SIGINT))
        try:
            with tempfile.TemporaryDirectory() as folder, self.assertRaises(KeyboardInterrupt):
                timer.start()
                list(trinorm.many(["bkaagj"] * 3, "sig", program=script(folder, "exec sleep 300\n")))
        finally:
            timer.cancel()
            signal.signal(signal.SIGINT, handler)
        left = set(children())
        for _ in within(60):
            if left <= set(before):
                break
            time.sleep(0.02)
            left = set(children())
        self.assertLessEqual(left, set(before))

    def test_interrupted_early(self) -> None:
        """No lock is left held: it ends at once, with the handler's own exception."""
        class Stop(Exception):
            pass

        def stop(*_: object) -> None:
            raise Stop
        before = signal.signal(signal.SIGALRM, stop)
        try:
            for number in range(100):
                until = time.monotonic() + 60  # Python drops what is raised in a `__del__` or a callback, and then this would not end
                with self.assertRaises(Stop):
                    signal.setitimer(signal.ITIMER_REAL, 0.002 + number % 20 / 500)
                    for _ in trinorm.many(itertools.repeat("eLMkabcddbrrag"), "surfaces"):
                        if time.monotonic() > until:
                            break
        finally:
            signal.setitimer(signal.ITIMER_REAL, 0)
            signal.signal(signal.SIGALRM, before)

    def test_threads_that_do_not_start(self) -> None:
        """As where memory is short: then this thread answers, also if the system says that they were started."""
        def fails(*_: object) -> None:
            raise RuntimeError("can't start new thread")

        for starts in (fails, lambda *_: 1):
            with self.subTest(starts), unittest.mock.patch.object(batch, "start_new_thread", starts), unittest.mock.patch.object(batch, "LOOK", 0.02):
                found = list(trinorm.many(SIGNATURES, length))
                self.assertEqual([it.value for it in found], list(map(length, map(trinorm.tables.document, SIGNATURES))))

    def test_an_executor_that_loses_its_calls(self) -> None:
        """There is a warning."""
        warned, warn = threading.Event(), warnings.warn

        def noted(*given: Any, **named: Any) -> None:
            warn(*given, **named)
            warned.set()

        class Loses(concurrent.futures.ThreadPoolExecutor):
            def submit(self, *given: Any, **named: Any) -> Any:
                future: "concurrent.futures.Future[object]" = concurrent.futures.Future()

                def give_up() -> None:
                    warned.wait(60)
                    future.set_exception(RuntimeError("it was lost"))

                threading.Thread(target=give_up).start()
                return future

        with Loses(1) as executor, unittest.mock.patch.multiple(batch, LOOK=0.02, SILENCE=0.05), unittest.mock.patch.object(warnings, "warn", noted):
            with self.assertWarnsRegex(RuntimeWarning, "Loses has answered nothing for"):
                found = list(trinorm.many(["bkaagj"], length, executor))
        self.assertIn("it was lost", str(found[0].failure))

    def test_warnings(self) -> None:
        """There is one after the time that is set, however often it is looked, and none before. It names the line that asks."""
        class Late(concurrent.futures.ThreadPoolExecutor):
            def submit(self, function: Any, /, *given: Any, **named: Any) -> Any:
                future: "concurrent.futures.Future[object]" = concurrent.futures.Future()
                threading.Timer(0.3, lambda: future.set_result(function(*given))).start()
                return future

        for silence, in_order, files in ((0.01, True, [__file__]), (0.01, False, [__file__]), (600.0, True, [])):
            with self.subTest(silence, in_order=in_order), Late(1) as executor, \
                    unittest.mock.patch.multiple(batch, LOOK=0.02, SILENCE=silence), warnings.catch_warnings(record=True) as shown:
                warnings.simplefilter("always")
                found = list(trinorm.many(["bkaagj"], length, executor, in_order=in_order))
            self.assertEqual(([it.value for it in found], [it.filename for it in shown]), ([11], files))

    def test_an_end_does_not_wait_for_functions_that_go_on(self) -> None:
        go, ended = threading.Event(), threading.Event()

        def waits(text: str) -> str:
            if "cPcbbbiht" in text:
                go.wait(120)
                ended.set()
            return text

        answers: Any = trinorm.many(itertools.chain(["bkaagj"], itertools.repeat("cPcbbbiht")), waits)
        self.assertEqual(next(answers).index, 0)
        answers.close()
        self.assertFalse(ended.is_set())
        go.set()

    def test_wrong_arguments_at_once(self) -> None:
        wrong: List[Dict[str, Any]] = [{"executor": concurrent.futures.ThreadPoolExecutor}, {"timeout": 0}, {"timeout": 10 ** 400}, {"program": 5},
                                       {"no_such_option": 1}, {"command": 5}, {"command": None}]
        for named in wrong:
            with self.subTest(named), self.assertRaises(trinorm.BadArgument):
                trinorm.many(SIGNATURES, **named)

    def test_what_no_other_process_can_take(self) -> None:
        with concurrent.futures.ProcessPoolExecutor(1) as executor:
            failure = next(trinorm.many(["bkaagj"], lambda text: text, executor)).failure
        self.assertRegex(str(failure), "it cannot be sent to another process: .*pickle")

    def test_an_end_in_the_middle(self) -> None:
        answers: Any = trinorm.many(itertools.repeat("cPcbbbiht"), "sig")
        self.assertEqual(next(answers).answer, "cPcbbbiht")
        answers.close()
        self.assertEqual(list(answers), [])


if __name__ == "__main__":
    unittest.main()

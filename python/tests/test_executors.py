"""A census by executors: handfuls, what is given back, workers that die, and engines that end."""
import asyncio
import concurrent.futures
import contextlib
import io
import json
import os
import re
import resource
import signal
import subprocess
import sys
import tempfile
import threading
import time
import types
import unittest
import unittest.mock
from concurrent.futures import Executor, Future, ProcessPoolExecutor, ThreadPoolExecutor
from pathlib import Path
from typing import Any, Callable, Dict, Iterable, Iterator, List, Optional, Sequence, Tuple

import trinorm
from tests.cases import within
from tests.programs import script
from trinorm import executors
from trinorm.executors import Done, Ran, answers, done_of
from trinorm.program import Failed
from trinorm.tables import BadArgument
from trinorm.tasks import Entry, Task
from trinorm.workers import WorkerEnded, Workers

ECHO = "read kind signature\necho $signature\n"
# kills the process that runs it where the signature is `killer`
KILLER = "read kind signature\n[ $signature != killer ] || kill -9 $PPID\necho $signature\n"


def entries(count: int, *others: str) -> List[Entry]:
    return [Entry(f"s{number}", f"n{number}") for number in range(count)] + [Entry(it, it) for it in others]


class Programs(unittest.TestCase):
    """Tests with a folder and a program in it."""

    def setUp(self) -> None:
        folder = tempfile.TemporaryDirectory()
        self.addCleanup(folder.cleanup)
        self.folder = folder.name

    def task(self, text: str = ECHO) -> Task:
        return Task("sig", program=script(self.folder, text), timeout=100)

    def answered(self, todo: Iterable[Entry], executor: Executor, hands: int = 4, task: Optional[Task] = None) -> Dict[str, Any]:
        """The answers or failures by their names; each has to come once."""
        found: Dict[str, Any] = {}
        for done in answers(todo, task or self.task(), executor, hands):
            lines = [json.loads(line) for line in done.lines.splitlines()]
            self.assertEqual(sum(done.kinds.values()), len(lines))
            for line in lines:
                self.assertNotIn(line["name"], found)
                found[line["name"]] = line.get("answer") or line["failed"]
        return found


class ByExecutors(Programs):
    def test_any_executor(self) -> None:
        for executor in (ThreadPoolExecutor(3), ProcessPoolExecutor(2), Workers(2)):
            with self.subTest(type(executor).__name__), executor:
                self.assertEqual(self.answered(iter(entries(50)), executor), {f"n{k}": f"s{k}" for k in range(50)})

    def test_nothing_to_do(self) -> None:
        with ThreadPoolExecutor(1) as executor:
            self.assertEqual(self.answered([], executor), {})

    def test_two_at_a_time_by_one_executor(self) -> None:
        with Workers(2) as executor:
            task = self.task()
            found: List[Dict[str, Any]] = [{}, {}]

            def run(place: int) -> None:
                found[place] = self.answered(entries(40), executor, task=task)
            threads = [threading.Thread(target=run, args=(place,)) for place in range(2)]
            for thread in threads:
                thread.start()
            for thread in threads:
                thread.join(60)
        self.assertEqual(found, [{f"n{k}": f"s{k}" for k in range(40)}] * 2)

    def test_a_worker_that_dies_takes_no_other_with_it(self) -> None:
        with Workers(2) as executor:
            found = self.answered(entries(60, "killer") + entries(100)[60:], executor, task=self.task(KILLER))
        self.assertEqual(found.pop("killer"), "a worker process: killed by signal 9")
        self.assertEqual(found, {f"n{k}": f"s{k}" for k in range(100)})

    def test_a_pool_of_python_s_own_that_breaks_is_named(self) -> None:
        with ProcessPoolExecutor(2) as executor, self.assertRaisesRegex(Failed, "the executor has stopped: .*terminated"):
            self.answered(entries(20, "killer"), executor, task=self.task(KILLER))

    def test_an_executor_that_was_shut_down(self) -> None:
        executor = ThreadPoolExecutor(1)
        executor.shutdown()
        with self.assertRaisesRegex(Failed, "the executor has stopped"):
            self.answered(entries(1), executor)

    def test_a_module_that_a_worker_has_not(self) -> None:
        class Poor(Made):
            def outcome(self, task: Task, handful: Sequence[Entry]) -> Ran:
                raise ModuleNotFoundError("No module named 'trinorm'")
        with self.assertRaisesRegex(Failed, "cannot import the package: No module named 'trinorm'"):
            self.answered(entries(5), Poor())

    def test_an_exception_in_a_worker_is_a_failed_run(self) -> None:
        with unittest.mock.patch.object(executors, "line_of", side_effect=MemoryError("too much")), ThreadPoolExecutor(1) as executor:
            self.assertEqual(self.answered(entries(2), executor), {"n0": "MemoryError: too much", "n1": "MemoryError: too much"})

    def test_futures_are_cancelled_if_nobody_takes_more(self) -> None:
        executor = Made(delay=True)
        found: Any = answers(entries(100), self.task(), executor, 4)
        executor.release(1)
        next(found)
        found.close()
        self.assertTrue(all(future.cancelled() or future.done() for future in executor.futures))


class Made(Executor):
    """An executor that answers at once, or when it is released; what it answers is made up."""

    def __init__(self, delay: bool = False) -> None:
        self.sizes: List[int] = []
        self.futures: List[Future[Ran]] = []
        self.waiting: List[Tuple[Future[Ran], Task, Sequence[Entry]]] = []
        self.delay, self.most = delay, 0

    def outcome(self, task: Task, handful: Sequence[Entry]) -> Ran:
        return Ran(done_of({"name": name, "answer": signature} for signature, name in handful), 0, 0.001)

    def submit(self, function: Callable[..., Any], /, *given: Any, **named: Any) -> "Future[Any]":
        task, handful = given
        future: Future[Ran] = Future()
        self.sizes.append(len(handful))
        self.futures.append(future)
        self.waiting.append((future, task, handful))
        self.most = max(self.most, len(self.waiting))
        if not self.delay:
            self.release(1)
        return future

    def release(self, count: int) -> None:
        """Answers so many calls, also those that come later."""
        self.delay = count > 1
        for future, task, handful in self.waiting[:count]:
            if future.set_running_or_notify_cancel():
                try:
                    future.set_result(self.outcome(task, handful))
                except Exception as fault:
                    future.set_exception(fault)
        del self.waiting[:count]


class Loses(Made):
    """Loses the first two handfuls that it is asked."""

    def submit(self, function: Callable[..., Any], /, *given: Any, **named: Any) -> "Future[Any]":
        if len(self.futures) < 2:
            self.futures.append(Future())
            return self.futures[-1]
        return super().submit(function, *given, **named)


class Watched:
    """What is known of an engine."""

    loses = True

    def __init__(self, idle: bool, workers: int = 1) -> None:
        self.idle, self.count = idle, workers

    def look(self) -> executors.Seen:
        return executors.Seen(self.count, self.idle)


class Stopped:
    """A client of a Dask scheduler that answers nothing until it goes on."""

    def __init__(self) -> None:
        self.goes_on, self.asked = threading.Event(), 0

    def nthreads(self) -> Dict[str, int]:
        self.asked += 1
        self.goes_on.wait(60)
        return {"tcp://a": 1, "tcp://b": 1}

    def processing(self) -> Dict[str, List[str]]:
        return {"tcp://a": ["run-1"], "tcp://b": []}


class GivesUp(Made):
    """Gives up each handful with the killer, and each that is submitted next to one, as an engine may."""

    def __init__(self) -> None:
        super().__init__()
        self.alone: List[List[str]] = []

    def outcome(self, task: Task, handful: Sequence[Entry]) -> Ran:
        signatures = [signature for signature, _ in handful]
        if "killer" in signatures or len(self.sizes) <= 11:
            raise RuntimeError("a worker died")
        self.alone.append(signatures)
        return super().outcome(task, handful)


class Handing(Programs):
    def test_handfuls_grow(self) -> None:
        executor = Made()
        self.assertEqual(len(self.answered(entries(200), executor, hands=1)), 200)
        self.assertEqual(executor.sizes, [1, 2, 4, 8, 16, 32, 64, 73])

    def test_slow_ones_stay_alone(self) -> None:
        class Slow(Made):
            def outcome(self, task: Task, handful: Sequence[Entry]) -> Ran:
                return super().outcome(task, handful)._replace(seconds=3.0)
        executor = Slow()
        self.answered(entries(5), executor, hands=1)
        self.assertEqual(executor.sizes, [1] * 5)

    def test_what_is_given_back_is_tried_again(self) -> None:
        class Half(Made):
            def outcome(self, task: Task, handful: Sequence[Entry]) -> Ran:
                half = -(-len(handful) // 2)
                return super().outcome(task, handful[:half])._replace(left=len(handful) - half)
        self.assertEqual(len(self.answered(entries(100), Half())), 100)

    def test_no_more_hands_than_there_are(self) -> None:
        for hands in (1, 3):
            executor = Made(delay=True)
            found = answers(entries(50), self.task(), executor, hands)
            reader = threading.Thread(target=lambda: list(found), daemon=True)
            reader.start()
            end = time.monotonic() + 120
            while reader.is_alive() and time.monotonic() < end:
                with contextlib.suppress(IndexError):
                    executor.release(len(executor.waiting) + 1)
                time.sleep(0.005)
            self.assertFalse(reader.is_alive())
            self.assertLessEqual(executor.most, hands)

    def test_innocent_ones_are_tried_again_alone(self) -> None:
        executor = GivesUp()
        found = self.answered(entries(10, "killer"), executor, hands=3)
        self.assertEqual(found.pop("killer"), "RuntimeError: a worker died")
        self.assertEqual(found, {f"n{k}": f"s{k}" for k in range(10)})

    def test_a_run_ends_when_its_time_is_up(self) -> None:
        with unittest.mock.patch.object(executors, "SECONDS", 0.05):
            ran = executors.run(self.task("read kind signature\nsleep 0.1\necho $signature\n"), [("a", "a"), ("b", "b"), ("c", "c")])
        self.assertEqual((ran.left, ran.done.kinds), (2, {"answer": 1}))

    def test_entries_that_come_slowly(self) -> None:
        """An answer is not kept back until more lines have come."""
        lines, came = [], threading.Event()

        def slowly() -> Iterator[Entry]:
            yield Entry("first", "first")
            came.wait(100)
            yield Entry("second", "second")
        with ThreadPoolExecutor(2) as executor:
            for done in answers(slowly(), self.task(), executor, 1):
                lines.append(done.lines)
                came.set()
        self.assertEqual(len(lines), 2)

    def test_a_program_that_is_not_on_this_machine(self) -> None:
        self.assertEqual(executors.on_this_machine(Task("sig", program="/no/such/program")), Task("sig"))
        task = self.task()
        self.assertEqual(executors.on_this_machine(task), task)

    def test_what_an_engine_has_lost_is_asked_anew(self) -> None:
        """Each is answered once, also where the first answer comes after all."""
        for is_idle in (True, False):
            executor = Loses()
            with self.subTest(is_idle), unittest.mock.patch.multiple(executors, LOOK=0.02, SILENCE=0.2):
                found = list(answers(entries(5), self.task(), executor, 2, Watched(is_idle)))
            self.assertEqual(sorted("".join(done.lines for done in found).split('"')[3::8]), [f"n{k}" for k in range(5)])
            self.assertEqual(len(executor.futures), 2 + len(found))

    def test_how_long_a_silence_may_be(self) -> None:
        """What may be lost is asked anew after SILENCE, and then after twice as long each time, or after some looks at idle workers; a line comes
        after six looks."""
        said, now = io.StringIO(), 100.0
        clock = types.SimpleNamespace(monotonic=lambda: now)
        with unittest.mock.patch.multiple(executors, time=clock, LOOK=10.0, SILENCE=300.0, IDLE_LOOKS=3), contextlib.redirect_stderr(said):
            working, idle, gone = (executors.Silence(Watched(is_idle, workers)) for is_idle, workers in ((False, 1), (True, 1), (False, 0)))
            self.assertEqual([idle.is_too_long() for _ in range(6)], [False, False, True] * 2)
            for later, is_lost in ((300.0, False), (300.5, True), (600.5, False), (900.5, False), (901.0, True), (2101.0, False), (2101.5, True)):
                now = 100.0 + later
                self.assertEqual(working.is_too_long(), is_lost, later)
            self.assertEqual(said.getvalue(), "")
            gone.ends()
            for later, count in ((59.5, 0), (60.0, 1), (70.0, 1)):
                now = 100.0 + 2101.5 + later
                self.assertFalse(gone.is_too_long())
                self.assertEqual(said.getvalue().count("has no worker"), count)

    def test_an_engine_without_workers_is_named(self) -> None:
        said, watch = io.StringIO(), Watched(False, 0)
        with unittest.mock.patch.multiple(executors, LOOK=0.01), contextlib.redirect_stderr(said):
            silence = executors.Silence(watch)
            time.sleep(0.1)
            self.assertEqual([silence.is_too_long() for _ in range(3)], [False] * 3)
        self.assertEqual(said.getvalue().count("has no worker"), 1)

    def test_a_scheduler_that_says_nothing_is_named(self) -> None:
        """It is asked once, and its answer counts when it comes after all."""
        client, said = Stopped(), io.StringIO()
        with unittest.mock.patch.multiple(executors, LOOK=0.01), contextlib.redirect_stderr(said):
            watch = executors.DaskWatch(client)
            silence = executors.Silence(watch)
            time.sleep(0.1)
            self.assertEqual([silence.is_too_long() for _ in range(5)], [False] * 5)
            for _ in within(60):
                if client.asked:  # in a thread, which may be slow to start
                    break
                time.sleep(0.02)
        self.assertEqual(said.getvalue().count("no result for a minute: the executor does not answer"), 1)
        self.assertEqual(client.asked, 1)
        client.goes_on.set()
        self.assertEqual([watch.look(), watch.look(), client.asked], [executors.Seen(2, False), executors.Seen(2, False), 2])

    def test_a_scheduler_that_can_not_be_asked(self) -> None:
        class Gone:
            def nthreads(self) -> None:
                raise OSError("Timed out")
        self.assertIsNone(executors.DaskWatch(Gone()).look())

    def test_an_executor_of_which_nothing_is_known_is_waited_for(self) -> None:
        """With a line; what it has in hand is not asked anew."""
        said, executor = io.StringIO(), Made(delay=True)
        with unittest.mock.patch.multiple(executors, LOOK=0.01, SILENCE=0.05), contextlib.redirect_stderr(said):
            found: List[Done] = []
            reader = threading.Thread(target=lambda: found.extend(answers(entries(3), self.task(), executor, 2, executors.Unknown())), daemon=True)
            reader.start()
            for _ in within(60):
                if said.getvalue():
                    break
                time.sleep(0.02)
            end = time.monotonic() + 120
            while reader.is_alive() and time.monotonic() < end:
                with contextlib.suppress(IndexError):
                    executor.release(len(executor.waiting))
                time.sleep(0.005)
        self.assertEqual((len(found), executor.most), (3, 2))
        self.assertIn("no result for a minute: the executor has not stopped", said.getvalue())

    def test_hands(self) -> None:
        with ThreadPoolExecutor(3) as executor:
            self.assertEqual(executors.hands_of(executor), 6)
        self.assertEqual(executors.hands_of(Executor()), 16)


class MadeClient:
    """A client of Dask's with one call. What comes of it is made up: each exception is raised once, any other value is the answer."""

    def __init__(self, *outcomes: object, status: str = "finished") -> None:
        self.outcomes, self.status, self.loop = list(outcomes), status, self
        self.thread = threading.Thread()
        self.released, self.is_asked, self.may_answer = 0, threading.Event(), threading.Event()
        self.may_answer.set()

    def submit(self, _function: Callable[..., Any], *_given: Any, pure: bool) -> "MadeClient":
        assert not pure
        if self.status == "closing":
            raise OSError("a message after the end")
        return self

    def release(self) -> None:
        self.released += 1

    def add_callback(self, function: Callable[..., Any], *given: Any) -> None:
        self.thread = threading.Thread(target=asyncio.run, args=(function(*given),), daemon=True)
        self.thread.start()

    async def gather(self, asked: object, asynchronous: bool) -> object:
        assert asked is self and asynchronous
        self.is_asked.set()
        self.may_answer.wait(60)
        outcome = self.outcomes.pop(0)
        if isinstance(outcome, BaseException):
            raise outcome
        return outcome


class DaskExecutors(unittest.TestCase):
    def asked(self, *outcomes: object, **named: Any) -> "Future[Any]":
        """The future of a call that is over, and its client."""
        client = MadeClient(*outcomes, **named)
        executor = executors.DaskExecutor(client)
        executor.again = 0.01
        future = executor.submit(len, "abc")
        client.thread.join(60)
        self.assertTrue(future.done())
        self.assertEqual((client.outcomes, client.released), ([], 1))
        return future

    def test_answers(self) -> None:
        self.assertEqual(self.asked(3).result(0), 3)

    def test_a_connection_that_is_lost(self) -> None:
        """The answer is fetched again."""
        self.assertEqual(self.asked(OSError("a closed connection"), asyncio.TimeoutError(), 3).result(0), 3)

    def test_what_a_call_raises(self) -> None:
        for fault, status in ((OSError("no such file"), "error"), (RuntimeError("wrong"), "error"), (ImportError("no module"), "finished")):
            self.assertIs(self.asked(fault, status=status).exception(0), fault)

    def test_a_client_that_gives_up(self) -> None:
        for fault in (concurrent.futures.CancelledError("run-1"), asyncio.CancelledError()):
            self.assertTrue(self.asked(fault).cancelled())

    def test_a_client_that_is_closed(self) -> None:
        with self.assertRaisesRegex(RuntimeError, "the client is closed"):
            executors.DaskExecutor(MadeClient(status="closed")).submit(len, "abc")
        client = MadeClient(status="closing")
        future = executors.DaskExecutor(client).submit(len, "abc")
        with self.assertRaisesRegex(concurrent.futures.BrokenExecutor, "a message after the end"):
            future.result(60)

    def test_an_answer_that_comes_too_late(self) -> None:
        """It is dropped, without an exception in the thread of the client."""
        for outcome in (3, RuntimeError("late"), concurrent.futures.CancelledError("run-1")):
            client = MadeClient(outcome)
            raised: List[object] = []
            client.may_answer.clear()
            with unittest.mock.patch.object(threading, "excepthook", raised.append):
                future = executors.DaskExecutor(client).submit(len, "abc")
                client.is_asked.wait(60)
                self.assertTrue(future.cancel())
                client.may_answer.set()
                client.thread.join(60)
            self.assertEqual((raised, client.released, future.cancelled()), ([], 1, True))


class Engines(unittest.TestCase):
    """How many handfuls an engine takes at a time, by made-up modules."""

    def test_mpi(self) -> None:
        """Two for each process but the first one; a run with one process, or one that mpi4py.futures did not start, is refused."""
        for size, is_shared, hands in ((1, True, 0), (3, False, 0), (2, True, 2), (3, True, 4)):
            world = types.SimpleNamespace(Get_size=unittest.mock.Mock(return_value=size))
            modules = {"mpi4py": types.SimpleNamespace(MPI=types.SimpleNamespace(COMM_WORLD=world)),
                       "mpi4py.futures": types.SimpleNamespace(MPIPoolExecutor=lambda: ThreadPoolExecutor(1))}
            with self.subTest((size, is_shared)), unittest.mock.patch.dict(sys.modules, modules), \
                    unittest.mock.patch.object(executors, "_is_shared", return_value=is_shared):
                if not hands:
                    with self.assertRaisesRegex(Failed, "--mpi needs at least two processes"), executors.by_mpi():
                        pass
                else:
                    with executors.by_mpi() as engine:
                        self.assertEqual(engine.hands, hands)

    def test_dask(self) -> None:
        """Two for each thread, and sixteen at least."""
        for threads, hands in (({"a": 1}, 16), ({"a": 8}, 16), ({"a": 3, "b": 6}, 18)):
            client = unittest.mock.MagicMock(status="running")
            client.__enter__.return_value = client
            client.nthreads.return_value = threads
            client.loop.add_callback.side_effect = RuntimeError("no loop")
            modules = {"distributed": types.SimpleNamespace(Client=unittest.mock.Mock(return_value=client))}
            with self.subTest(threads), unittest.mock.patch.dict(sys.modules, modules), executors.by_dask("tcp://made.up:1") as engine:
                self.assertEqual(engine.hands, hands)


class Processes(unittest.TestCase):
    def test_calls(self) -> None:
        with Workers(2) as workers:
            self.assertEqual(list(workers.map(abs, range(-20, 0))), list(range(20, 0, -1)))
            self.assertEqual(workers.submit(int, "ff", 16).result(100), 255)
            with self.assertRaises(ZeroDivisionError):
                workers.submit(divmod, 1, 0).result(100)
            self.assertEqual(len({workers.submit(os.getpid).result(100) for _ in range(10)} | {os.getpid()}) > 1, True)

    def test_the_package_is_found(self) -> None:
        """By a process that starts in another folder, and whose other places of modules do not have it."""
        own, before = Path(trinorm.__file__).resolve().parents[1], os.getcwd()
        others = [place for place in sys.path if place and Path(place).resolve() != own]
        with tempfile.TemporaryDirectory() as folder, unittest.mock.patch.object(sys, "path", others):
            os.chdir(folder)
            try:
                with Workers(1) as workers:
                    self.assertEqual(workers.submit(abs, -1).result(100), 1)
            finally:
                os.chdir(before)

    def test_what_can_not_be_sent(self) -> None:
        with Workers(1) as workers:
            with self.assertRaises(Exception):
                workers.submit(lambda: 1)
            self.assertIn("cannot pickle", str(workers.submit(open, os.devnull).exception(100)))
            self.assertEqual(workers.submit(abs, -1).result(100), 1)

    def test_a_process_that_dies_is_replaced(self) -> None:
        with Workers(1) as workers:
            first = workers.submit(os.getpid).result(100)
            self.assertIsInstance(workers.submit(os._exit, 5).exception(100), WorkerEnded)
            self.assertIn("status 5", str(workers.submit(os._exit, 5).exception(100)))
            self.assertNotEqual(workers.submit(os.getpid).result(100), first)

    def test_what_a_call_prints_is_no_answer(self) -> None:
        with Workers(1) as workers:
            self.assertIsNone(workers.submit(print, flush=True).result(100))
            self.assertEqual(workers.submit(abs, -1).result(100), 1)

    def test_killed(self) -> None:
        workers = Workers(2)
        calls = [workers.submit(time.sleep, 100) for _ in range(5)]
        for _ in within(60):
            if sum(call.running() for call in calls) == 2:
                break
            time.sleep(0.02)
        begun = time.monotonic()
        workers.kill_workers()
        self.assertLess(time.monotonic() - begun, 60)
        self.assertTrue(all(call.cancelled() or isinstance(call.exception(100), (WorkerEnded, concurrent.futures.BrokenExecutor))
                            for call in calls))
        with self.assertRaises(RuntimeError):
            workers.submit(abs, 1)
        workers.kill_workers()

    def test_numbers_of_jobs(self) -> None:
        for jobs in (0, -1):
            with self.assertRaises(ValueError):
                Workers(jobs)


class FromPython(Programs):
    """The function `trinorm.census`."""

    def setUp(self) -> None:
        super().setUp()
        self.given = os.path.join(self.folder, "signatures")
        self.out = os.path.join(self.folder, "answers")
        with open(self.given, "w", encoding="utf8") as file:
            file.writelines(f"s{number} n{number}\n" for number in range(100))

    def census(self, signatures: Any = None, out: Optional[str] = None, command: Any = "sig", **named: Any) -> Any:
        with contextlib.redirect_stderr(io.StringIO()):
            return trinorm.census(self.given if signatures is None else signatures, out or self.out, command, program=script(self.folder, ECHO), **named)

    def names(self) -> List[str]:
        with open(self.out, encoding="utf8") as file:
            return [json.loads(line)["name"] for line in file]

    def test_by_an_executor_and_on(self) -> None:
        with ThreadPoolExecutor(2) as executor:
            ran = self.census(executor=executor)
            self.assertEqual((ran.before, ran.now, ran.failed), (0, 100, 0))
            with open(self.out, "r+", encoding="utf8") as file:
                file.truncate(sum(map(len, file.readlines()[:40])) + 7)
            ran = self.census(executor=executor)
        self.assertEqual((ran.before, ran.now, ran.failed), (40, 60, 0))
        self.assertEqual(sorted(self.names()), sorted(f"n{k}" for k in range(100)))

    def test_lines_and_processes(self) -> None:
        ran = self.census([f"s{k}" for k in range(10)] + ["# none", "s3"], jobs=2)
        self.assertEqual((ran.before, ran.now, ran.failed), (0, 10, 0))
        self.assertEqual(self.census((f"s{k}" for k in range(12)), jobs=1).now, 2)

    def test_arguments(self) -> None:
        wrong: List[Dict[str, Any]] = [{"command": "crosscheck"}, {"coords": "quad"}, {"timeout": 0}, {"timeout": float("nan")}, {"jobs": 0}]
        for named in wrong:
            with self.subTest(named), self.assertRaises(BadArgument):
                self.census(**named)
        with self.assertRaisesRegex(Failed, "No such file"):
            self.census("/no/such/file")
        self.assertFalse(os.path.exists(self.out))

    def test_columns_and_arrays(self) -> None:
        """As pandas and NumPy have them; standard input is not read."""
        try:
            import numpy
            import pandas
        except ImportError:
            self.skipTest("this Python has no pandas")
        for kind in (pandas.Series, pandas.array, numpy.array):
            for count in (1, 2, 3):
                with self.subTest((kind, count)), unittest.mock.patch.object(sys, "stdin", None):
                    out = f"{self.out}.{kind.__module__}.{kind.__name__}.{count}"
                    self.assertEqual(self.census(kind([f"s{k}" for k in range(count)]), out, jobs=1).now, count)
        for wrong in (numpy.array(7), numpy.array([1, 2]), pandas.DataFrame({"a": ["s1"]})):
            with self.assertRaises(BadArgument):
                trinorm.census(wrong, self.out, "sig", jobs=1)

    def test_nonsense(self) -> None:
        for wrong in (7, b"a", object(), 0.5, [7], [None], [b"bkaagj"], int, "", "a\0b", "\ud800"):
            with self.subTest(repr(wrong)), self.assertRaises(BadArgument):
                self.census(wrong, jobs=1)
        for name in ("command", "coords", "timeout", "jobs", "executor", "out"):
            for wrong in (7.5, b"a", [], object(), "", -1, int, {}):
                with self.subTest((name, wrong)), self.assertRaises((BadArgument, Failed)):
                    given: Dict[str, Any] = {"jobs": 1, name: wrong}
                    self.census(**given)
                    if name == "timeout" and wrong == 7.5 or name == "out" and not wrong:
                        raise Failed("a limit as any other")
        with self.assertRaisesRegex(BadArgument, "a lone surrogate at index 2"):
            self.census(["a \ud800"], jobs=1)
        for text in ("s1\ns2", "s1\ns2\n", "s1 one\rs2 two\r"):
            with self.assertRaisesRegex(BadArgument, "has several lines"):
                self.census([text], jobs=1)

    def test_lines_that_are_not_utf8(self) -> None:
        with open(self.given, "wb") as file:
            file.write(b"s1 one\ns2 b\xe4d\n# a comm\xe4nt\ns3 three\ns4 l\xe4st")
        with self.assertRaisesRegex(Failed, "signatures, line 2: byte 5 is not UTF-8"):
            self.census(jobs=1)
        ran = self.census(jobs=1, skip_bad=True)
        self.assertEqual((ran.before, ran.now, ran.failed), (0, 4, 2))
        with open(self.out, encoding="utf8") as file:
            found = {line["name"]: line for line in map(json.loads, file)}
        self.assertEqual(found["b\\xe4d"]["failed"], f"{self.given}, line 2: byte 5 is not UTF-8")
        self.assertEqual(found["b\\xe4d"]["signature"], "s2")
        self.assertEqual(sorted(found), ["b\\xe4d", "l\\xe4st", "one", "three"])
        ran = self.census(jobs=1, skip_bad=True)
        self.assertEqual((ran.before, ran.now, ran.failed), (4, 0, 0))
        ran = self.census(jobs=1, skip_bad=True, retry_failed=True)
        self.assertEqual((ran.before, ran.now, ran.failed), (2, 2, 2))

    def test_outputs_that_others_wrote(self) -> None:
        """A line is known whatever wrote it."""
        self.census(['a "b"', "a b\\c", "a é", "a b"], jobs=1)
        changes: Tuple[Callable[[Dict[str, Any]], str], ...] = (
            lambda line: json.dumps(line, ensure_ascii=False), lambda line: json.dumps(line, separators=(",", ":")),
            lambda line: json.dumps(dict(reversed(list(line.items())))), json.dumps)
        for change in changes:
            with open(self.out, encoding="utf8") as file:
                lines = [json.loads(line) for line in file]
            with open(self.out, "w", encoding="utf8") as file:
                file.writelines(change(line) + "\n" for line in lines)
            ran = self.census(['a "b"', "a b\\c", "a é", "a b"], jobs=1)
            self.assertEqual((ran.before, ran.now), (4, 0))


class Interrupted(Programs):
    def test_a_last_line_says_how_to_go_on(self) -> None:
        given, out = os.path.join(self.folder, "signatures"), os.path.join(self.folder, "answers")
        with open(given, "w", encoding="utf8") as file:
            file.write("quick\nslow\n")
        program = script(self.folder, "read kind signature\n[ $signature = quick ] || exec sleep 100\necho $signature\n")
        around = dict(os.environ, TRINORM=program, PYTHONPATH=os.path.dirname(os.path.dirname(os.path.abspath(trinorm.__file__))))
        for number, status, words in ((signal.SIGINT, 130, ["--out", out]), (signal.SIGTERM, 143, ["--out", "-"])):
            run = subprocess.Popen([sys.executable, "-m", "trinorm", "census", given, "--command", "sig", "--jobs", "1", *words],
                                   env=around, stdout=subprocess.PIPE, stderr=subprocess.PIPE, text=True)
            if words[1] == "-":
                assert run.stdout is not None
                run.stdout.readline()
            else:
                for _ in within(60):
                    if os.path.exists(out) and os.path.getsize(out):
                        break
                    time.sleep(0.02)
            time.sleep(0.5)
            run.send_signal(number)
            _, said = run.communicate(timeout=120)
            self.assertEqual(run.returncode, status)
            self.assertIn("stopped: 1 answered, 0 refused, 0 failed", said)
            self.assertIn("if it is started again with the same arguments, it resumes" if words[1] == out else "only if --out names a file", said)

    def test_a_disc_that_is_full(self) -> None:
        """What the last line counts is in the output, which may have more lines; the next run has each line once."""
        given, out = os.path.join(self.folder, "signatures"), os.path.join(self.folder, "answers")
        with open(given, "w", encoding="utf8") as file:
            file.writelines(f"s{number}\n" for number in range(300))
        around = dict(os.environ, TRINORM=script(self.folder, ECHO), PYTHONPATH=os.path.dirname(os.path.dirname(os.path.abspath(trinorm.__file__))))
        words = [sys.executable, "-m", "trinorm", "census", given, "--command", "sig", "--jobs", "1", "--out", out]
        run = subprocess.run(words, env=around, capture_output=True, text=True, timeout=120, check=False,
                             preexec_fn=lambda: resource.setrlimit(resource.RLIMIT_FSIZE, (9999, 9999)))
        self.assertEqual((run.returncode, os.path.getsize(out)), (3, 9999))
        self.assertIn("File too large", run.stderr)
        [counted] = re.findall(r"stopped: (\d+) answered", run.stderr)
        with open(out, encoding="utf8") as file:
            whole = file.read().count("\n")
        self.assertTrue(0 < int(counted) <= whole < 300, (counted, whole))
        run = subprocess.run(words, env=around, capture_output=True, text=True, timeout=120, check=True)
        self.assertIn(f"{whole} done before; {300 - whole} answered", run.stderr)
        with open(out, encoding="utf8") as file:
            self.assertEqual(sorted(json.loads(line)["name"] for line in file), sorted(f"s{number}" for number in range(300)))

    def test_standard_input(self) -> None:
        around = dict(os.environ, TRINORM=script(self.folder, ECHO),
                      PYTHONPATH=os.path.dirname(os.path.dirname(os.path.abspath(trinorm.__file__))))
        run = subprocess.run([sys.executable, "-m", "trinorm", "census", "-", "--command", "sig", "--jobs", "1"], env=around,
                             input="a\nb two\n", capture_output=True, text=True, timeout=60, check=True)
        self.assertEqual(sorted(json.loads(line)["name"] for line in run.stdout.splitlines()), ["a", "two"])


if __name__ == "__main__":
    unittest.main()

"""The server: shared by threads, by asyncio and by processes, interrupted, killed, and given nonsense. Each answer belongs to
its question, or is an exception."""
import asyncio
import concurrent.futures
import contextlib
import gc
import multiprocessing
import os
import pickle
import random
import resource
import shutil
import signal
import struct
import subprocess
import sys
import tempfile
import threading
import time
import unittest
import unittest.mock
import warnings
from pathlib import Path
from typing import Any, ClassVar, List, Set, Tuple, Union

import trinorm
from trinorm import server
from trinorm.errors import NO_MEMORY_HERE
from trinorm.program import REPOSITORY
from trinorm.server import Server
from trinorm.server_processes import Call, ServerProcess

from .cases import timed
from .programs import is_running, script
from .test_library import ASKED, INPUTS, LONG, NO_WORDS, by_process, named

# a server in Python, which answers the input, and does what the first word says
MADE_UP = """#!{python} -S
import os, struct, sys, time
asked, to = sys.stdin.buffer, sys.stdout.buffer
while True:
    head = asked.read(16)
    if not head:
        sys.exit(0)
    number, words, text = struct.unpack("=QII", head)
    words, text = asked.read(words).decode(), asked.read(text)
    answer, last = struct.pack("=QBI", number, 0, len(text)) + text, b""
    if words == "other":
        answer = struct.pack("=QBI", number ^ 2, 0, len(text)) + text
    elif words == "longer":
        last = b"x"
    elif words == "cut":
        to.write(answer[:-1])
        to.flush()
        sys.exit(3)
    elif words == "die":
        os.kill(os.getpid(), 9)
    elif words == "sleep":
        time.sleep(100)
    to.write(answer + last)
    to.flush()
"""
# one that knows no numbers of requests
OLDER = """#!{python} -S
import struct, sys
while True:
    words, text = struct.unpack("=II", sys.stdin.buffer.read(8))
    sys.stdin.buffer.read(words + text)
    sys.stdout.buffer.write(struct.pack("=BI", 2, 15) + b"refused: usage\\n")
    sys.stdout.buffer.flush()
"""


def write(path: str, text: str) -> None:
    Path(path).write_text(text.format(python=sys.executable), "utf8")
    os.chmod(path, 0o755)


class Folder(unittest.TestCase):
    """A folder with a program, and a server next to it."""
    text = MADE_UP

    def setUp(self) -> None:
        folder = tempfile.TemporaryDirectory()
        self.addCleanup(folder.cleanup)
        self.folder = folder.name
        self.program = script(self.folder, "exit 8\n")
        self.make_server(os.path.join(self.folder, server.NAME))
        self.server = Server(self.program)
        self.addCleanup(self.server.close)

    def make_server(self, path: str) -> None:
        write(path, self.text)

    def echo(self, text: str, word: str = "echo", timeout: float = 20) -> str:
        return self.server.run([word], text, timeout)

    def processes(self) -> List[int]:
        return [process.run.pid for process in self.server._all]


class Answers(Folder):
    """What a server answers, and what is no answer."""

    def test_answers_in_turn(self) -> None:
        self.assertEqual([self.echo(str(number)) for number in range(50)], [str(number) for number in range(50)])
        self.assertEqual(len(self.processes()), 1)
        for size in (0, 1, 65_536, 3_000_000):
            self.assertEqual(self.echo("x" * size), "x" * size)
        self.assertEqual(self.server.ask(["echo"], "\udcff"), (0, b"\xff"))

    def test_an_answer_to_another_request_is_none(self) -> None:
        for word in ("other", "longer"):
            with self.assertRaisesRegex(trinorm.Failed, "answered another request"):
                self.echo("one", word)
            self.assertEqual(self.echo("two"), "two")

    def test_a_server_of_another_version(self) -> None:
        write(os.path.join(self.folder, server.NAME), OLDER)
        with self.assertRaisesRegex(trinorm.Failed, "has the version of this package"):
            self.server.run(["echo"], "one")

    def test_a_process_that_ends(self) -> None:
        for word, text in (("cut", "status 3"), ("die", "signal 9")):
            for _ in range(2):
                with self.assertRaisesRegex(trinorm.Failed, text):
                    self.echo("one", word)
                self.assertEqual(self.echo("two"), "two")

    def test_it_is_started_again_if_it_died_between_two_requests(self) -> None:
        for is_waited_for in (True, False) * 10:
            self.assertEqual(self.echo("one"), "one")
            [process] = self.server._all
            os.kill(process.run.pid, signal.SIGKILL)
            if is_waited_for:
                os.waitid(os.P_PID, process.run.pid, os.WEXITED | os.WNOWAIT)
            self.assertEqual(self.echo("two" * 50_000), "two" * 50_000)

    def test_one_that_cannot_be_started(self) -> None:
        os.unlink(self.server.path)
        with self.assertRaisesRegex(trinorm.Failed, "cannot be started: No such file"):
            self.echo("one")
        with self.assertRaisesRegex(trinorm.Failed, "there is no trinorm-server next to the program"):
            Server(self.program)
        with self.assertRaises(trinorm.BadArgument):
            getattr(server, "Server")(7)

    def test_a_limit_of_time(self) -> None:
        begun = time.monotonic()
        for text in ("one", "x" * 3_000_000):
            with self.assertRaises(trinorm.TimedOut):
                self.echo(text, "sleep", timeout=0.2)
        self.assertLess(time.monotonic() - begun, 60)
        self.assertEqual(self.echo("two"), "two")

    def test_no_memory_for_an_answer(self) -> None:
        with unittest.mock.patch.object(ServerProcess, "ask", side_effect=MemoryError):
            with self.assertRaisesRegex(trinorm.Failed, f"^echo: {NO_MEMORY_HERE}$"):
                self.echo("one")
        self.assertEqual(self.echo("two"), "two")

    def test_one_that_does_not_read(self) -> None:
        for text in ("one", "x" * 3_000_000):
            self.assertEqual(self.echo("one"), "one")
            [process] = self.server._all
            os.kill(process.run.pid, signal.SIGSTOP)
            with self.assertRaises(trinorm.TimedOut):
                self.echo(text, timeout=0.2)
        self.assertEqual(self.echo("two"), "two")

    def test_limits_that_are_none(self) -> None:
        no_times: List[Any] = [0, -1, float("nan"), float("inf"), "1", b"", {}, True]
        for timeout in no_times:
            with self.assertRaisesRegex(trinorm.BadArgument, "timeout must be a positive number"):
                self.echo("one", timeout=timeout)
        no_words: List[Any] = ["echo", [7], ["a\0b"], None]
        for words in no_words:
            with self.assertRaises((trinorm.BadArgument, TypeError)):
                self.server.run(words, "one")
        self.assertEqual(self.echo("one", timeout=1e300), "one")

    def test_what_is_closed_says_so(self) -> None:
        with Server(self.program) as one:
            self.assertEqual(one.run(["echo"], "one"), "one")
            [process] = one._all
        self.assertIsNotNone(process.run.returncode)
        for ask in (one.run, one.ask):
            with self.assertRaisesRegex(trinorm.Failed, "this server is closed"):
                ask(["echo"], "one")
        with self.assertRaisesRegex(trinorm.Failed, "this server is closed"), one:
            pass
        one.close()

    def test_it_is_closed_while_it_is_asked(self) -> None:
        threading.Timer(0.3, self.server.close).start()
        with self.assertRaisesRegex(trinorm.Failed, "this server is closed"):
            self.echo("one", "sleep")
        self.assertEqual(self.processes(), [])

    def test_one_that_nobody_closes_ends(self) -> None:
        one = Server(self.program)
        one.run(["echo"], "one")
        [process] = one._all
        with warnings.catch_warnings():
            warnings.simplefilter("error")
            del one
            gc.collect()
        self.assertIsNotNone(process.run.returncode)
        text = ("from trinorm.server import Server\nit = Server(%r)\nprint(it.run(['echo'], 'one'), [one.run.pid for one in it._all][0])")
        done = subprocess.run([sys.executable, "-W", "error", "-c", text % self.program], env=dict(os.environ, PYTHONPATH=str(REPOSITORY / "python")),
                              stdout=subprocess.PIPE, stderr=subprocess.PIPE, text=True, check=False)
        self.assertEqual(done.stderr, "")
        answer, number = done.stdout.split()
        self.assertEqual(answer, "one")
        self.assertFalse(os.path.exists(f"/proc/{number}"))

    def test_a_handler_of_signals_may_ask_too(self) -> None:
        answers = []
        before = signal.signal(signal.SIGALRM, lambda *_: answers.append(self.echo("inside")))
        try:
            signal.setitimer(signal.ITIMER_REAL, 0.3)
            with self.assertRaises(trinorm.TimedOut):
                self.echo("outside", "sleep", timeout=1)
        finally:
            signal.signal(signal.SIGALRM, before)
        self.assertEqual(answers, ["inside"])

    def test_an_exception_of_a_handler_ends_the_request(self) -> None:
        for kind in (InterruptedError, TimeoutError, KeyboardInterrupt):
            def stop(*_: object) -> None:
                raise kind("enough")

            before = signal.signal(signal.SIGALRM, stop)
            try:
                with self.assertRaisesRegex(kind, "enough"):
                    signal.setitimer(signal.ITIMER_REAL, 0.2)
                    self.echo("one", "sleep", timeout=90)
            finally:
                signal.signal(signal.SIGALRM, before)
            self.assertEqual(self.echo("two"), "two")

    def test_interrupted_calls_leave_no_process(self) -> None:
        class Stop(Exception):
            pass

        def stop(*_: object) -> None:
            raise Stop
        others = self.children()
        before = signal.signal(signal.SIGALRM, stop)
        try:
            for number in range(200):
                until = time.monotonic() + 60  # Python drops what is raised in a `__del__`, and then this would not end
                with contextlib.suppress(Stop):
                    signal.setitimer(signal.ITIMER_REAL, 0.0002 + number % 40 / 10_000)
                    while time.monotonic() < until:
                        self.echo("one")
        finally:
            signal.setitimer(signal.ITIMER_REAL, 0)
            signal.signal(signal.SIGALRM, before)
        self.assertEqual(self.echo("two"), "two")
        self.assertLessEqual(len(self.children() - others), 2)
        self.server.close()
        self.assertEqual(self.children() - others, set())

    def children(self) -> Set[str]:
        """The processes that this one has started, the ended ones among them: the number and the name of each."""
        found = set()
        for path in Path("/proc").glob("[0-9]*/stat"):
            with contextlib.suppress(OSError):
                words = path.read_text("utf8").rpartition(")")
                if int(words[2].split()[1]) == os.getpid():
                    found.add(words[0])
        return found

    def test_an_exception_of_a_handler_where_a_call_is_ended(self) -> None:
        """Raised before the first step of that, or after the last one."""
        class Stop(Exception):
            pass
        end_call = Server._end_call
        for steps in (0, 1):
            asked: List[Call] = []

            def interrupted(of: Server, call: Call, steps: int = steps, asked: List[Call] = asked) -> None:
                asked.append(call)
                if steps or len(asked) > 1:
                    end_call(of, call)
                if len(asked) == 1:
                    raise Stop
            with unittest.mock.patch.object(Server, "_end_call", interrupted), self.assertRaises(Stop):
                self.echo("one", "sleep", timeout=0.2)
            self.assertEqual((self.processes(), self.server._calls), ([], {}))
            self.assertEqual(self.echo("two"), "two")
            [process] = self.server._all
            process.end()

    def test_no_call_takes_a_process_that_is_ended(self) -> None:
        """Its descriptors may be those of another file by then."""
        self.echo("one")
        [process] = self.server._all
        end, others = process.end, []

        def taken_meanwhile() -> Any:
            others.append(self.server._take(Call()))
            return end()
        setattr(process, "end", taken_meanwhile)
        server._end_all({process}, self.server._calls, os.getpid())
        self.assertEqual(len(others), 1)
        self.assertIsNot(others[0], process)
        self.server._give_back(others[0])
        self.assertEqual(self.echo("two"), "two")

    def test_a_handler_that_forks(self) -> None:
        """The child goes back into the call, and has its own answer."""
        children = []

        def fork(*_: object) -> None:
            children.append(os.fork())
            if children[-1] == 0:
                self.echo("inside")
        before = signal.signal(signal.SIGALRM, fork)
        try:
            signal.setitimer(signal.ITIMER_REAL, 0.3)
            with self.assertRaises(trinorm.TimedOut):
                self.echo("outside", "sleep", timeout=1)
        finally:
            signal.signal(signal.SIGALRM, before)
            if children[-1:] == [0]:
                os._exit(0 if sys.exc_info()[0] is None else 3)
        self.assertEqual(os.waitstatus_to_exitcode(os.waitpid(children[0], 0)[1]), 0)

    def test_ctrl_c_at_a_prompt(self) -> None:
        """SIGINT to the group of a process, as a terminal sends it, leaves the server alone."""
        text = ("import time\nfrom trinorm.server import Server\nit = Server(%r)\nanswer = it.run(['echo'], 'one')\nbefore = {one.run.pid for one in it._all}\n"
                "try:\n    print(answer, flush=True)\n    time.sleep(100)\nexcept KeyboardInterrupt:\n    time.sleep(0.1)\n"
                "print(it.run(['echo'], 'two'), before == {one.run.pid for one in it._all}, flush=True)\n")
        run = subprocess.Popen([sys.executable, "-c", text % self.program], env=dict(os.environ, PYTHONPATH=str(REPOSITORY / "python")),
                               stdout=subprocess.PIPE, start_new_session=True, text=True)
        assert run.stdout is not None
        self.assertEqual(run.stdout.readline(), "one\n")
        os.killpg(run.pid, signal.SIGINT)
        self.assertEqual(run.communicate(timeout=120)[0], "two True\n")

    def test_more_than_1024_descriptors(self) -> None:
        soft, hard = resource.getrlimit(resource.RLIMIT_NOFILE)
        if hard != resource.RLIM_INFINITY and hard < 2000:
            self.skipTest("the system allows fewer files")
        resource.setrlimit(resource.RLIMIT_NOFILE, (max(soft, 2000), hard))
        try:
            with contextlib.ExitStack() as files:
                for _ in range(1100):
                    files.enter_context(open(os.devnull, "rb"))
                self.assertEqual(self.echo("one"), "one")
                self.assertGreater(min(pipe.fileno() for process in self.server._all for pipe in process.pipes), 1024)
                with self.assertRaises(trinorm.TimedOut):
                    self.echo("one", "sleep", timeout=0.2)
        finally:
            resource.setrlimit(resource.RLIMIT_NOFILE, (soft, hard))

    def test_files_that_are_closed_from_outside(self) -> None:
        child = os.fork()
        if child == 0:
            try:
                self.echo("one")
                os.closerange(3, 2000)
                with contextlib.suppress(trinorm.Failed):
                    self.echo("one")
                    os._exit(1)
                os._exit(0 if self.echo("two") == "two" else 2)
            finally:
                os._exit(3)
        self.assertEqual(os.waitstatus_to_exitcode(os.waitpid(child, 0)[1]), 0)


def asks(given: Tuple[Server, List[str]]) -> List[str]:
    """What a server answers to each of some texts, or the name of the exception, in a process of its own."""
    one, texts = given
    return [answer_of(one, text) for text in texts]


def answer_of(one: Server, text: str, timeout: float = 60) -> str:
    try:
        return one.run(["echo"], text, timeout)
    except trinorm.Error as fault:
        return type(fault).__name__


class Shared(Folder):
    """A server that was asked before it is shared."""
    TEXTS = [f"text {number} " + "x" * (number * 37 % 5000) for number in range(400)]

    def setUp(self) -> None:
        super().setUp()
        self.assertEqual(self.echo("before"), "before")

    def by_threads(self, count: int) -> List[str]:
        with concurrent.futures.ThreadPoolExecutor(count) as threads:
            return list(threads.map(lambda text: answer_of(self.server, text), self.TEXTS))

    def test_two_and_eight_threads(self) -> None:
        for count in (2, 8):
            self.assertEqual(self.by_threads(count), self.TEXTS)
        self.assertLessEqual(len(self.processes()), os.cpu_count() or 1)

    def test_asyncio(self) -> None:
        async def together() -> List[str]:
            return await asyncio.gather(*(asyncio.to_thread(answer_of, self.server, text) for text in self.TEXTS))

        self.assertEqual(asyncio.run(together()), self.TEXTS)

    def by_processes(self, way: str) -> None:
        parts = [self.TEXTS[first::8] for first in range(8)]
        with multiprocessing.get_context(way).Pool(3) as pool:
            asked = pool.map_async(asks, [(self.server, part) for part in parts], chunksize=1)
            ours = self.by_threads(2)
            self.assertEqual(asked.get(120), parts)
        self.assertEqual(ours, self.TEXTS)
        self.assertEqual(self.by_threads(1), self.TEXTS)

    def test_processes_that_are_forked(self) -> None:
        self.by_processes("fork")

    def test_processes_that_are_spawned(self) -> None:
        self.by_processes("spawn")

    def test_a_child_that_is_forked_in_the_middle_of_requests(self) -> None:
        with concurrent.futures.ThreadPoolExecutor(4) as threads:
            running = [threads.submit(answer_of, self.server, text) for text in self.TEXTS]
            children = []
            for _ in range(5):
                child = os.fork()
                if child == 0:
                    os._exit(0 if asks((self.server, self.TEXTS[:40])) == self.TEXTS[:40] else 1)
                children.append(child)
            self.assertEqual([os.waitpid(child, 0)[1] for child in children], [0] * 5)
            self.assertEqual([it.result() for it in running], self.TEXTS)

    def test_a_child_that_is_forked_while_a_process_is_ended(self) -> None:
        """By another thread, which has closed its pipes, but has not yet waited for it."""
        self.echo("one")
        [process] = self.server._all
        self.server._calls[process] = Call()
        for pipe in process.pipes:
            pipe.close()
        child = os.fork()
        if child == 0:
            try:
                os._exit(0 if asks((self.server, ["one"])) == ["one"] else 1)
            finally:
                os._exit(2)
        self.assertEqual(os.waitpid(child, 0)[1], 0)
        process.end()

    def test_a_child_leaves_the_processes_of_its_parent(self) -> None:
        before = self.processes()
        child = os.fork()
        if child == 0:
            answers = asks((self.server, ["one"]))
            own = self.processes()
            self.server.close()
            os._exit(0 if answers == ["one"] and not set(own) & set(before) else 1)
        self.assertEqual(os.waitpid(child, 0)[1], 0)
        self.assertEqual(self.echo("two"), "two")
        self.assertEqual(self.processes(), before)

    def test_a_process_is_killed_in_the_middle(self) -> None:
        """Each answer is right, or `Failed` says that its process was killed."""
        stop = threading.Event()

        def kill() -> None:
            while not stop.wait(0.01):
                for process in self.processes():
                    with contextlib.suppress(ProcessLookupError):
                        os.kill(process, signal.SIGKILL)

        killing = threading.Thread(target=kill)
        killing.start()
        try:
            with concurrent.futures.ThreadPoolExecutor(8) as threads:
                answers = list(threads.map(lambda text: answer_of(self.server, text), self.TEXTS * 2))
        finally:
            stop.set()
            killing.join()
        self.assertEqual([it for it, text in zip(answers, self.TEXTS * 2) if it not in (text, "Failed")], [])
        self.assertEqual(self.by_threads(8), self.TEXTS)

    @timed
    def test_limits_of_time_that_expire(self) -> None:
        """Each answer is right, or `TimedOut`; and no call takes much longer than its limit."""
        draw = random.Random(7)
        limits = [draw.choice((0.0001, 0.001, 0.01, 60)) for _ in self.TEXTS]

        def ask(text: str, limit: float) -> Tuple[str, float]:
            begun = time.monotonic()
            return answer_of(self.server, text, limit), time.monotonic() - begun

        with concurrent.futures.ThreadPoolExecutor(8) as threads:
            answers = list(threads.map(ask, self.TEXTS, limits))
        self.assertEqual([it for (it, _), text in zip(answers, self.TEXTS) if it not in (text, "TimedOut")], [])
        self.assertEqual([it for (it, _), limit in zip(answers, limits) if limit == 60 and it == "TimedOut"], [])
        self.assertEqual([seconds for (it, seconds) in answers if it == "TimedOut" and seconds > 55], [])
        self.assertEqual(self.by_threads(8), self.TEXTS)

    def test_a_limit_holds_beside_a_long_request(self) -> None:
        """The long one still runs when the limit of the short one is over."""
        with concurrent.futures.ThreadPoolExecutor(2) as threads:
            long = threads.submit(self.echo, "long", "sleep", 90)
            with self.assertRaises(trinorm.TimedOut):
                self.echo("short", "sleep", timeout=0.2)
            self.assertFalse(long.done())
            self.server.close()
            with self.assertRaisesRegex(trinorm.Failed, "this server is closed"):
                long.result()

    def test_it_is_kept_by_pickle(self) -> None:
        again = pickle.loads(pickle.dumps(self.server))
        with again:
            self.assertEqual(again.run(["echo"], "one"), "one")
        with self.assertRaisesRegex(trinorm.Failed, "closed"):
            pickle.loads(pickle.dumps(again)).run(["echo"], "one")


@unittest.skipUnless(shutil.which("cc"), "a C compiler isn't there")
class InC(Shared):
    """The server itself, over made-up answers in place of the library's."""
    HELD = 300_000_000
    made: ClassVar[str]

    @classmethod
    def setUpClass(cls) -> None:
        folder = tempfile.TemporaryDirectory()
        cls.addClassCleanup(folder.cleanup)
        cls.made = os.path.join(folder.name, "server")
        sources = REPOSITORY / "library"
        subprocess.run(["cc", "-O1", "-std=gnu11", "-Wall", "-Wextra", "-Werror", "-I", sources, "-o", cls.made, sources / "server.c", sources / "tests" / "echo.c"],
                       check=True)

    def make_server(self, path: str) -> None:
        os.symlink(self.made, path)

    def echo(self, text: str, word: str = "echo", timeout: float = 20) -> str:
        return self.server.run(["wait", "1000"] if word == "sleep" else [word], text, timeout)

    def kilobytes(self) -> int:
        """The memory of the one process."""
        [process] = self.processes()
        with open(f"/proc/{process}/statm", encoding="ascii") as file:
            return int(file.read().split()[1]) * resource.getpagesize() // 1024

    def test_memory_is_given_back(self) -> None:
        for words, text in ((["repeat", str(self.HELD)], ""), (["echo"], "x" * self.HELD), (["hold", str(self.HELD)], "x"), (["hold", "15000000"], "x" * 2_000_000)):
            self.assertEqual(self.server.ask(words, text)[0], 0)
            self.assertEqual(self.echo("one"), "one")
            self.assertLess(self.kilobytes(), 8_000, words)

    def test_statuses(self) -> None:
        for status in (0, 2, 3, 4, 5, 9, 10):
            self.assertEqual(self.server.ask(["status", str(status)]), (status, b"text"))

    def run_alone(self, request: bytes, **more: Any) -> "subprocess.CompletedProcess[bytes]":
        return subprocess.run([self.made], input=request, stdout=more.pop("stdout", subprocess.PIPE), check=False, **more)

    def test_requests_that_are_cut_short(self) -> None:
        whole = struct.pack("=QII", 5, 4, 3) + b"echoabc"
        for size in range(1, len(whole)):
            done = self.run_alone(whole[:size])
            self.assertEqual((done.returncode, done.stdout), (6, b""))
        self.assertEqual(self.run_alone(b"").returncode, 0)
        self.assertEqual(self.run_alone(whole + whole).stdout, (struct.pack("=QBI", 5, 0, 3) + b"abc") * 2)

    def test_an_answer_that_nobody_takes(self) -> None:
        reading, writing = os.pipe()
        os.close(reading)
        done = self.run_alone(struct.pack("=QII", 5, 4, 3) + b"echoabc", stdout=writing)
        os.close(writing)
        self.assertEqual(done.returncode, 7)

    def test_it_stops_where_nobody_waits_for_its_answer(self) -> None:
        """The process that asked is killed in the middle."""
        text = ("from trinorm.server import Server\nimport threading\nit = Server(%r)\n"
                "def say():\n    while not it._calls:\n        pass\n    print(*(one.run.pid for one in it._all), flush=True)\n"
                "threading.Thread(target=say, daemon=True).start()\nit.run(['wait', '600'])")
        run = subprocess.Popen([sys.executable, "-c", text % self.program], env=dict(os.environ, PYTHONPATH=str(REPOSITORY / "python")),
                               stdout=subprocess.PIPE, text=True)
        assert run.stdout is not None
        process = int(run.stdout.readline())
        run.kill()
        run.communicate()
        last = time.monotonic() + 60
        while is_running(process) and time.monotonic() < last:
            time.sleep(0.05)
        self.assertFalse(is_running(process))


SIGNATURES = REPOSITORY / "bench" / "census_signatures.txt"
# a list of vectors, or the name of an exception
Listed = Union[List[Tuple[int, ...]], str]


def list_of(given: Tuple[Server, str, float]) -> Listed:
    """The list of a signature by a server, or what went wrong."""
    one, signature, timeout = given
    try:
        return trinorm.surfaces(signature, program=one, timeout=timeout)
    except trinorm.Error as fault:
        return type(fault).__name__


@unittest.skipUnless(named() and Server.find(), "the server isn't built")
class Lists(unittest.TestCase):
    """400 signatures: each list beside the library's."""
    signatures: ClassVar[List[str]]
    lists: ClassVar[List[List[Tuple[int, ...]]]]

    @classmethod
    def setUpClass(cls) -> None:
        lines = SIGNATURES.read_text("utf8").splitlines()
        cls.signatures = [line.split()[0] for line in lines if line.strip() and not line.startswith("#")][:400]
        own = trinorm.library.at(named() or "")
        cls.lists = [trinorm.surfaces(it, program=own) for it in cls.signatures]

    def setUp(self) -> None:
        self.server = Server()
        self.addCleanup(self.server.close)
        self.assertEqual(trinorm.sig("bkaagj", program=self.server), "bkaagj")

    def jobs(self, timeout: float = 60) -> List[Tuple[Server, str, float]]:
        return [(self.server, it, timeout) for it in self.signatures]

    def test_threads(self) -> None:
        for count in (2, 8):
            with concurrent.futures.ThreadPoolExecutor(count) as threads:
                self.assertEqual(list(threads.map(list_of, self.jobs())), self.lists)

    def test_asyncio(self) -> None:
        async def together() -> List[Listed]:
            return await asyncio.gather(*(asyncio.to_thread(list_of, job) for job in self.jobs()))

        self.assertEqual(asyncio.run(together()), self.lists)

    def test_processes(self) -> None:
        for way in ("fork", "spawn"):
            with multiprocessing.get_context(way).Pool(2) as pool:
                self.assertEqual(pool.map_async(list_of, self.jobs(), chunksize=3).get(120), self.lists, way)

    def test_limits_of_time(self) -> None:
        limits = [(0.0001, 0.002, 60)[at % 3] for at in range(len(self.signatures))]
        jobs = [(one, signature, limit) for (one, signature, _), limit in zip(self.jobs(), limits)]
        with concurrent.futures.ThreadPoolExecutor(4) as threads:
            answers = list(threads.map(list_of, jobs))
        for answer, right, limit in zip(answers, self.lists, limits):
            self.assertIn(answer, (right,) if limit == 60 else (right, "TimedOut"))

    def test_a_process_is_killed(self) -> None:
        with concurrent.futures.ThreadPoolExecutor(4) as threads:
            answers = threads.map(list_of, self.jobs())
            for _ in range(20):
                time.sleep(0.01)
                for process in list(self.server._all):
                    with contextlib.suppress(ProcessLookupError):
                        os.kill(process.run.pid, signal.SIGKILL)
            for answer, right in zip(answers, self.lists):
                self.assertIn(answer, (right, "Failed"))

    def test_answers_are_the_program_s(self) -> None:
        for text in INPUTS:
            for words in ASKED + NO_WORDS:
                self.assertEqual(self.server.ask(words, text), by_process(words, text), (words, text))
        text = "tri 1\n0:1023 0:1023 0:1230 0:3012\n".ljust(5_000_000)
        self.assertEqual(self.server.ask(["sig"], text), (3, b"refused: input too-long\n"))
        self.assertEqual(self.server.run(["surfaces"], LONG), trinorm.program.run_process(["surfaces"], LONG))
        with self.assertRaises(trinorm.Refused):
            trinorm.sig("bkaagjx", program=self.server)

    @timed
    def test_a_limit_of_time_ends_a_long_list(self) -> None:
        begun = time.monotonic()
        with self.assertRaises(trinorm.TimedOut):
            self.server.run(["surfaces"], LONG, timeout=0.01)
        self.assertLess(time.monotonic() - begun, 120)
        self.assertEqual(self.server.run(["sig"], "sig bkaagj\n", timeout=60), "bkaagj\n")

    def test_memory_is_given_back(self) -> None:
        self.server.run(["surfaces"], LONG)
        self.server.run(["sig"], "sig bkaagj\n")
        [process] = self.server._all
        pages = int(Path(f"/proc/{process.run.pid}/statm").read_text("ascii").split()[1])
        self.assertLess(pages * resource.getpagesize(), 12 << 20)


if __name__ == "__main__":
    unittest.main()

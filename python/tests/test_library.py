"""The library in this process: the program's answers, limits, and bad use."""
import ctypes
import errno
import gc
import mmap
import os
import shutil
import signal
import subprocess
import sys
import tempfile
import threading
import time
import unittest
import unittest.mock
import weakref
from pathlib import Path
from typing import Any, Callable, List, Optional, Sequence, Tuple

import trinorm
from trinorm import library
from trinorm.options import reading
from trinorm.program import REPOSITORY

from .programs import script

# no command, options that are none, values that are none, a command twice
NO_WORDS: List[List[str]] = [
    [], [""], ["surface"], ["sig", "sig"], ["surfaces", "--coords"], ["surfaces", "--coords=quads"], ["info", "--seed", "1"],
    ["--help"], ["sig", "--"], ["é"], ["surfaces", "--max-entry", "0"], ["verify", "--coords", "quad", "--coords", "quad"]]
INPUTS = ["", "sig cPcbbbiht\n", "sig bkaagj\n", "tri 1\n0:1023 0:1023 0:1230 0:3012\n", "tri 0\n", "sig jvLLMQQcdghifhihinktpphggkw\n",
          "tri 1\n- - - -\n", "cone 3 1\n1 -1 0\n", "sig \udcff\n", "sig bkaagj\0\n", "sig é\n"]
ASKED: List[List[str]] = [
    ["surfaces", "--coords=quad", "--order", "zeros"], ["surfaces", "--coords", "octagon"], ["surfaces", "--max-entry", "1"],
    *([name] for name in reading("table")), ["rays"], ["make", "--seed", "7", "--moves", "20"],
    ["bulk", "--seed", "7", "--moves", "2"], ["play"], ["group"], ["same"], ["verify"], ["check"]]


def chain(size: int) -> str:
    """A ring of so many tetrahedra, each glued to the next by two faces."""
    return f"tri {size}\n" + "".join(
        f"{(it + 1) % size}:1023 {(it - 1) % size}:1023 {(it - 1) % size}:0132 {(it + 1) % size}:0132\n" for it in range(size))


# a list of 15,129 surfaces, in a good fraction of a second
LONG = chain(20)


def named() -> Optional[str]:
    """The library that is tested, or None where it isn't built."""
    path = os.environ.get("TRINORM_LIBRARY") or Path(os.path.realpath(trinorm.find())).parent / library.NAME
    return str(path) if os.path.isfile(path) else None


def by_process(words: Sequence[str], text: str) -> Tuple[int, bytes]:
    done = subprocess.run([trinorm.find(), *words], input=text.encode("utf8", "surrogateescape"), stdout=subprocess.PIPE, check=False)
    return done.returncode, done.stdout


@unittest.skipUnless(named(), "the library isn't built")
class Library(unittest.TestCase):
    def setUp(self) -> None:
        self.library = library.at(str(named()))

    def answer(self, words: Sequence[str], text: str = "") -> Tuple[int, bytes]:
        return self.library.answer(words, text)[:2]

    def test_answers_are_the_program_s(self) -> None:
        for text in INPUTS:
            for words in ASKED:
                self.assertEqual(self.answer(words, text), by_process(words, text), (words, text))

    def test_words_that_are_none(self) -> None:
        for words in NO_WORDS:
            self.assertEqual(self.answer(words, INPUTS[1]), (2, b"refused: usage\n"), words)
            self.assertEqual(by_process(words, INPUTS[1]), (2, b"refused: usage\n"), words)

    def test_words_that_are_no_texts(self) -> None:
        self.assertEqual(self.answer(["\udcff"]), (9, b""))
        with self.assertRaisesRegex(trinorm.Failed, "not UTF-8"):
            self.library.run(["sig", "\udcff"])
        with self.assertRaisesRegex(ValueError, "null character"):
            self.library.run(["sig\0"])

    def test_long_inputs(self) -> None:
        for more in (0, 1, 5_000_000):
            text = "tri 1\n0:1023 0:1023 0:1230 0:3012\n".ljust((1 << 20) + more)
            self.assertEqual(self.answer(["sig"], text), by_process(["sig"], text), more)
        self.assertEqual(self.answer(["make", "--seed", "1", "--moves", "1"], "x" * 2_000_000), self.answer(["make", "--seed", "1", "--moves", "1"]))

    def test_four_threads(self) -> None:
        jobs = [(words, text) for words in ASKED for text in INPUTS]
        wanted = [self.answer(*job) for job in jobs]
        wrong: List[object] = []

        def work(first: int) -> None:
            for at in range(len(jobs)):
                at = (at * 7 + first * 50) % len(jobs)
                if self.answer(*jobs[at]) != wanted[at]:
                    wrong.append(jobs[at])

        threads = [threading.Thread(target=work, args=(it,)) for it in range(4)]
        for it in threads:
            it.start()
        for it in threads:
            it.join()
        self.assertEqual(wrong, [])

    def test_forked_children(self) -> None:
        wanted = self.answer(["surfaces"], LONG), self.answer(["surfaces", "--coords", "quad"], LONG)

        def is_right() -> bool:
            return all(self.answer(["surfaces", "--coords", "quad"], LONG) == wanted[1] and self.answer(["surfaces"], LONG) == wanted[0]
                       for _ in range(2))

        child = os.fork()
        if child == 0:
            os._exit(0 if is_right() else 1)
        self.assertTrue(is_right())
        self.assertEqual(os.waitpid(child, 0)[1], 0)

    def test_little_room_in_the_system(self) -> None:
        script = ("import resource; from trinorm import library; it = library.at(%r)\n"
                  "now = int(open('/proc/self/statm').read().split()[0]) << 12\n"
                  "resource.setrlimit(resource.RLIMIT_AS, (now + (6 << 20),) * 2)\n"
                  "print(it.answer(['sig'], 'sig bkaagj\\n'), it.answer(['surfaces'], %r)[0], it.answer(['sig'], 'sig bkaagj\\n')[0])")
        around = dict(os.environ, PYTHONPATH=str(REPOSITORY / "python"))
        done = subprocess.run([sys.executable, "-c", script % (named(), LONG)], stdout=subprocess.PIPE, text=True, env=around, check=False)
        self.assertIn(done.stdout, [f"(0, b'bkaagj\\n', 0) {it} 0\n" for it in (0, 8)])

    def test_no_memory_for_an_answer(self) -> None:
        """As if a command had none left, whether or not it is reported on."""
        for fault in (OSError(errno.ENOMEM, "Cannot allocate memory"), MemoryError()):
            for progress in (None, abs):
                found: List[object] = []

                def ask() -> None:  # in a thread of its own, which has no room yet
                    found.append(self.library.answer(["sig"], "sig bkaagj\n", progress=progress))
                    with self.assertRaisesRegex(trinorm.Failed, "out of memory"):
                        self.library.run(["sig"], "sig bkaagj\n", progress=progress)
                    found.append("refused")

                with self.subTest((fault, progress)), unittest.mock.patch.object(mmap, "mmap", side_effect=fault):
                    thread = threading.Thread(target=ask)
                    thread.start()
                    thread.join()
                    self.assertEqual(found, [(8, b"", 0), "refused"])

    def test_a_small_stack(self) -> None:
        statuses = []
        before = threading.stack_size(256 << 10)
        try:
            thread = threading.Thread(target=lambda: statuses.append(self.answer(["surfaces", "--coords", "quad"], LONG)[0]))
            thread.start()
            thread.join()
        finally:
            threading.stack_size(before)
        self.assertEqual(statuses, [0])

    def test_a_limit_of_time(self) -> None:
        begun = time.monotonic()
        with self.assertRaises(trinorm.TimedOut):
            self.library.run(["surfaces"], LONG, timeout=0.01)
        self.assertLess(time.monotonic() - begun, 120)
        self.assertEqual(self.library.run(["sig"], "sig bkaagj\n", timeout=60), "bkaagj\n")

    def test_a_limit_of_memory(self) -> None:
        with self.assertRaisesRegex(trinorm.Failed, "needs more than 1048576 bytes of memory"):
            self.library.run(["surfaces"], LONG, memory=1 << 20)
        self.assertEqual(self.library.answer(["surfaces"], LONG, memory=1 << 20), (8, b"", library.MOST_MEMORY))
        self.assertEqual(self.library.run(["sig"], "sig bkaagj\n", memory=1 << 20), "bkaagj\n")

    def test_no_room_for_a_call_that_reports(self) -> None:
        for fault in (MemoryError(), OSError(12, "Cannot allocate memory")):
            with unittest.mock.patch.object(library, "_Room", side_effect=fault), self.assertRaisesRegex(trinorm.Failed, "out of memory"):
                self.library.run(["sig"], "sig bkaagj\n", progress=lambda _held: None)

    def test_each_room_for_memory(self) -> None:
        said = set()
        for most in range(1, 400_000, 7_001):
            status, answer, reached = self.library.answer(["surfaces"], INPUTS[5], memory=most)
            self.assertIn((status, reached), ((0, 0), (8, library.MOST_MEMORY)))
            said.add((status, answer))
        self.assertEqual(said, {(8, b""), by_process(["surfaces"], INPUTS[5])})

    def by_alarm(self, handler: Callable[..., object], seconds: float = 0.05) -> None:
        """The long list, asked again and again, while the handler is called once."""
        before = signal.signal(signal.SIGALRM, handler)
        try:
            signal.setitimer(signal.ITIMER_REAL, seconds)
            last = time.monotonic() + 20
            while time.monotonic() < last:
                self.library.answer(["surfaces"], LONG)
        finally:
            signal.setitimer(signal.ITIMER_REAL, 0)
            signal.signal(signal.SIGALRM, before)

    def test_a_handler_of_signals_ends_a_call(self) -> None:
        for kind in (InterruptedError, KeyboardInterrupt, TimeoutError, trinorm.Failed):
            def stop(*_: object) -> None:
                raise kind("enough")

            with self.assertRaisesRegex(kind, "enough"):
                self.by_alarm(stop)
            self.assertEqual(self.library.run(["sig"], "sig bkaagj\n"), "bkaagj\n")

    def test_ctrl_c_ends_a_call(self) -> None:
        text = ("import os, signal, threading\nfrom trinorm import library\nit = library.at(%r)\n"
                "threading.Timer(1, os.kill, (os.getpid(), signal.SIGINT)).start()\n"
                "try:\n    while True:\n        it.answer(['surfaces'], %r)\nexcept KeyboardInterrupt:\n    print('ended', it.run(['sig'], 'sig bkaagj'))\n")
        done = subprocess.run([sys.executable, "-c", text % (named(), LONG)], env=dict(os.environ, PYTHONPATH=str(REPOSITORY / "python")),
                              stdout=subprocess.PIPE, text=True, timeout=60, check=False)
        self.assertEqual((done.returncode, done.stdout), (0, "ended bkaagj\n\n"))

    def test_exceptions_of_handlers_are_released(self) -> None:
        class Enough(Exception):
            """One that can be referred to weakly."""

        faults = []

        def stop(*_: object) -> None:
            fault = Enough("enough")
            faults.append(weakref.ref(fault))
            raise fault

        for _ in range(5):
            with self.assertRaises(Enough):
                self.by_alarm(stop)
        gc.collect()
        self.assertEqual([it() for it in faults], [None] * 5)

    def test_a_handler_may_call_too(self) -> None:
        """Its answer is its own, and the call around it has its limit and its answer."""
        inside: List[object] = []
        begun: List[None] = []
        small = self.library.answer(["sig"], "sig bkaagj\n")
        long = self.library.answer(["surfaces", "--coords", "quad"], LONG)

        def ask(*_: object) -> None:  # which may be interrupted by itself, but not without end where it takes longer than the next signal
            if len(begun) == len(inside) + 3:
                return
            begun.append(None)
            one = self.library.answer(["sig"], "sig bkaagj\n", memory=1 << 20, timeout=100)
            inside.append((one, self.library.answer(["surfaces", "--coords", "quad"], LONG)))

        before = signal.signal(signal.SIGALRM, ask)
        try:
            signal.setitimer(signal.ITIMER_REAL, 0.02, 0.2)
            for _ in range(5):
                self.assertEqual(self.library.answer(["surfaces", "--coords", "quad"], LONG), long)
            last = time.monotonic() + 20
            while not inside and time.monotonic() < last:
                self.library.answer(["surfaces"], LONG)
        finally:
            signal.setitimer(signal.ITIMER_REAL, 0)
            signal.signal(signal.SIGALRM, before)
        self.assertTrue(inside)
        self.assertEqual(inside, [(small, long)] * len(inside))

    def test_limits_that_are_none(self) -> None:
        timeouts: Tuple[Any, ...] = (0, -1, float("nan"), float("inf"), "1", True)
        for timeout in timeouts:
            with self.assertRaisesRegex(trinorm.BadArgument, "timeout must be a positive number"):
                self.library.answer(["sig"], "sig bkaagj\n", timeout=timeout)
        memories: Tuple[Any, ...] = (0, -1, 1.5, "1", True, 1 << 64)
        for memory in memories:
            with self.assertRaisesRegex(trinorm.BadArgument, "memory must be a positive number"):
                self.library.answer(["sig"], "sig bkaagj\n", memory=memory)
        inputs: Tuple[Any, ...] = (("sig", ""), ([7], ""), (["sig"], b"sig bkaagj"), (["sig"], "\ud800"), (["sig"], None))
        for words, text in inputs:
            with self.assertRaises(trinorm.BadArgument):
                self.library.answer(words, text)

    def test_it_is_taken_where_no_program_is_named(self) -> None:
        others = {name: value for name, value in os.environ.items() if name != "TRINORM"}
        with unittest.mock.patch.dict(os.environ, dict(others, TRINORM_LIBRARY=named()), clear=True), \
                unittest.mock.patch("trinorm.program.run_process", side_effect=AssertionError):
            self.assertEqual(trinorm.sig("bkaagj"), "bkaagj")
            with self.assertRaises(AssertionError):
                trinorm.sig("bkaagj", timeout=5)
            with self.assertRaises(AssertionError):
                trinorm.sig("bkaagj", program="trinorm")


class NoLibrary(unittest.TestCase):
    def test_one_that_cannot_be_loaded_is_passed_over(self) -> None:
        with tempfile.TemporaryDirectory() as folder:
            os.rename(script(folder, "echo by a process\n"), os.path.join(folder, "trinorm"))
            Path(folder, library.NAME).write_text("no library", "ascii")
            others = {name: value for name, value in os.environ.items() if not name.startswith("TRINORM")}
            around = unittest.mock.patch.dict(os.environ, dict(others, PATH=f"{folder}:{os.environ['PATH']}"), clear=True)
            with around, unittest.mock.patch("trinorm.program.REPOSITORY", Path(folder)):
                self.assertEqual(trinorm.program.run(["sig"]), "by a process\n")
            with self.assertRaises(trinorm.Failed):
                library.at(os.path.join(folder, library.NAME))


@unittest.skipUnless(named(), "the library isn't built")
class Areas(unittest.TestCase):
    """The function for C, with areas that are none."""

    def setUp(self) -> None:
        self.call = ctypes.CDLL(named()).trinorm_run
        size, place = ctypes.c_size_t, ctypes.c_void_p
        self.call.argtypes, self.call.restype = [place, size, place, size, place, size, place], ctypes.c_uint8
        self.words, self.input = ctypes.create_string_buffer(b"sig", 3), ctypes.create_string_buffer(b"sig bkaagj\n", 11)
        self.room, self.needed = ctypes.create_string_buffer(b"x" * 64, 64), ctypes.c_size_t(5)

    def run_in(self, room: Any, size: int, needed: Any = None) -> int:
        return int(self.call(self.words, 3, self.input, 11, room, size, ctypes.byref(self.needed) if needed is None else needed))

    def test_rooms(self) -> None:
        for size in range(9):
            status = self.run_in(self.room, size)
            self.assertEqual((status, self.needed.value), (0 if size >= 7 else 7, 7))
            self.assertEqual(self.room.raw, (b"bkaagj\n" if size >= 7 else b"").ljust(64, b"x"))
            self.room.raw = b"x" * 64
        self.assertEqual((self.run_in(None, 0), self.needed.value), (7, 7))

    def test_the_proved_function_itself(self) -> None:
        call = ctypes.CDLL(named()).trinorm_answer
        call.argtypes, call.restype = self.call.argtypes, ctypes.c_uint8
        for size, wanted in ((6, 7), (7, 0), (64, 0)):
            self.assertEqual(call(self.words, 3, self.input, 11, self.room, size, ctypes.byref(self.needed)), wanted)
            self.assertEqual(self.needed.value, 7)
        self.assertEqual(self.room.raw, b"bkaagj\n".ljust(64, b"x"))

    def test_null(self) -> None:
        self.assertEqual(self.call(None, 0, None, 0, self.room, 64, ctypes.byref(self.needed)), 2)
        self.assertEqual(self.call(self.words, 3, None, 0, self.room, 64, None), 3)
        self.assertEqual(self.run_in(None, 1), 10)
        self.assertEqual(self.call(None, 1, self.input, 11, self.room, 64, None), 10)
        self.assertEqual(self.call(self.words, 3, None, 1 << 40, self.room, 64, None), 10)

    def test_areas_that_lie_over_others(self) -> None:
        self.assertEqual(self.run_in(self.input, 11), 10)
        self.assertEqual(self.run_in(ctypes.addressof(self.words) + 2, 1), 10)
        self.assertEqual(self.run_in(self.room, 64, ctypes.addressof(self.room) + 32), 10)
        self.assertEqual(self.call(self.words, 3, self.words, 3, self.room, 64, None), 3)
        self.assertEqual((self.words.raw, self.input.raw, self.room.raw[:11]), (b"sig", b"sig bkaagj\n", b"refused: in"))


ARCHIVE = Path(named() or "").parent / "libtrinorm_c.a"


@unittest.skipUnless(named() and ARCHIVE.is_file() and shutil.which("cc"), "the archive or a C compiler isn't there")
class Memory(unittest.TestCase):
    """The proved function over other functions of memory, which refuse each request in turn."""

    def setUp(self) -> None:
        self.folder = tempfile.TemporaryDirectory()
        self.program = os.path.join(self.folder.name, "refused")
        sources = REPOSITORY / "library"
        subprocess.run(["cc", "-O1", "-I", sources, "-o", self.program, sources / "tests" / "refused.c", ARCHIVE], check=True)

    def tearDown(self) -> None:
        self.folder.cleanup()

    def refused(self, words: List[str], text: str, *before: str) -> str:
        done = subprocess.run([*before, self.program, *words], input=text, stdout=subprocess.PIPE, text=True, check=False)
        self.assertEqual(done.returncode, 0, done.stdout)
        return done.stdout

    def test_each_request_in_turn(self) -> None:
        for words in (*([name] for name in reading("table")), ["surfaces", "--coords", "quad"], ["rays"], ["none"]):
            self.assertIn("requests refused in turn", self.refused(words, "sig cPcbbbiht\n"))

    @unittest.skipUnless(shutil.which("valgrind"), "valgrind isn't there")
    def test_nothing_is_lost(self) -> None:
        check = ["valgrind", "--quiet", "--leak-check=full", "--show-leak-kinds=all", "--error-exitcode=9"]
        for words in (["sig"], ["info"], ["surfaces"]):
            self.refused(words, "sig bkaagj\n", *check)


if __name__ == "__main__":
    unittest.main()

"""Tables with their methods, verdicts, citations and the processes that are started: shared between threads and processes, interrupted, and
given nonsense."""
import _thread
import concurrent.futures
import copy
import dataclasses
import gc
import inspect
import multiprocessing
import os
import pickle
import signal
import tempfile
import threading
import unittest
import unittest.mock
from typing import Any, Callable, Dict, List, Tuple

import trinorm
from trinorm import citation, versions
from trinorm.options import reading
from trinorm.processes import Child
from trinorm.server import Server
from trinorm.table_methods import TableMethods

from .cases import within
from .programs import script
from .test_nonsense import values
from .test_processes import Asked, children

SPHERE, PLANES, KNOT = "bkaagj", "eLMkabcddbrrag", "cPcbbbiht"
BUILD = "version 9.9\ncommit 0123abc\nkit rattle-kit-0\nprogram aa11\nlibrary bb22\n"


def results() -> List[Any]:
    """Results of all kinds."""
    made = trinorm.make(7, 20)
    vectors = trinorm.surfaces(SPHERE)
    return [made, made.table, made.table.rows[0][0], trinorm.verify(SPHERE, [*vectors, (1,) * 7]), trinorm.check(SPHERE, []), trinorm.check("bkaagb", []),
            trinorm.addup(SPHERE, trinorm.decompose(SPHERE, vectors)), trinorm.addup(SPHERE, [trinorm.Sum(vectors[0], 0, ())]),
            trinorm.described(PLANES), trinorm.zero_efficient(PLANES), trinorm.zero_efficient(SPHERE), trinorm.count(PLANES), trinorm.same("bkaagn", SPHERE),
            trinorm.group([SPHERE, KNOT]), trinorm.play(SPHERE, ["14 0"]), trinorm.certify("bkaagb"), trinorm.bulk(1, 2),
            *filter(dataclasses.is_dataclass, answers_on(trinorm.table(KNOT)))]


def answers_on(table: trinorm.Table) -> List[Any]:
    """What each command that reads one triangulation answers on a table, by its method."""
    return [getattr(table, name)() for name in reading("table")]


def asked_of(table: trinorm.Table) -> Tuple[Any, ...]:
    """What the methods of a table return, those that take a while left out."""
    return (*answers_on(table), table.surfaces("quad"), table.count(), table.zero_efficient(), table.verify(table.surfaces()), table.play(["14 0"]),
            table.same(table), str(table.check([])))


def descriptors() -> int:
    """How many files this process has open."""
    return len(os.listdir("/proc/self/fd"))


class Values(unittest.TestCase):
    """Results are plain values."""

    def test_copies_and_pickles(self) -> None:
        for value in results():
            for protocol in range(pickle.HIGHEST_PROTOCOL + 1):
                self.assertEqual(pickle.loads(pickle.dumps(value, protocol)), value)
            for other in (copy.copy(value), copy.deepcopy(value)):
                self.assertEqual((other, bool(other), repr(other)), (value, bool(value), repr(value)))

    def test_what_was_pickled_before_the_modules_were_parted(self) -> None:
        text = b"ctrinorm.answers\nVerdict\n(Vsolution\n(ttR."
        self.assertEqual(pickle.loads(text), trinorm.Verdict("solution", ()))

    def test_equal_ones_have_one_hash(self) -> None:
        for value in results():
            if not isinstance(value, list) and not isinstance(value, trinorm.Count):  # a Count has a dictionary
                self.assertEqual(len({value, pickle.loads(pickle.dumps(value))}), 1)

    def test_they_cannot_be_changed(self) -> None:
        for value in results():
            for one in value if isinstance(value, list) else [value]:
                with self.assertRaises(dataclasses.FrozenInstanceError):
                    setattr(one, dataclasses.fields(one)[0].name, 5)

    def test_verdicts_go_to_other_processes_and_back(self) -> None:
        shown = [trinorm.zero_efficient(PLANES), trinorm.check("bkaagb", []), trinorm.verify(SPHERE, [(1,) * 7])[0], trinorm.check(SPHERE, [])]
        for method in multiprocessing.get_all_start_methods():
            with concurrent.futures.ProcessPoolExecutor(1, multiprocessing.get_context(method)) as executor:
                self.assertEqual(list(executor.map(copy.copy, shown)), shown)
                self.assertEqual(list(executor.map(bool, shown)), [False, False, False, True])
                with self.assertRaisesRegex(trinorm.Failed, "not-standard bkaagb"):
                    executor.submit(getattr(shown[1], "required")).result()


class Methods(unittest.TestCase):
    """One table, used by many."""

    def setUp(self) -> None:
        self.table = trinorm.table(PLANES)
        self.right = asked_of(self.table)

    def test_they_are_the_functions(self) -> None:
        for name, method in inspect.getmembers(TableMethods, inspect.isfunction):
            if name not in ("describe", "verify", "lift", "crush", "decompose", "play", "check", "same") and not name.startswith("_"):
                self.assertEqual(method(self.table), getattr(trinorm, name)(PLANES), name)

    def test_options_are_handed_on(self) -> None:
        table, vector = trinorm.table(SPHERE), (1, 1, 0, 0, 1, 0, 0)
        asked: Tuple[Tuple[str, Tuple[Any, ...], Dict[str, Any]], ...] = (
            ("surfaces", ("octagon",), {"order": "short", "max_entry": 9}), ("surfaces", (), {"coords": "quad"}), ("described", ("octagon",), {}),
            ("count", ("octagon",), {}), ("describe", ([vector],), {"coords": "standard"}), ("verify", ([(1, 0, 0)], "quad"), {}),
            ("lift", ([(1, 0, 0)],), {}), ("crush", (vector,), {}), ("decompose", ([vector], "standard", 5), {}), ("play", (["14 0"],), {}),
            ("check", (["14 0"],), {}), ("same", ("bkaagn",), {}), ("certify", (3,), {}), ("info", (), {})
        )
        with Server() as server:
            for name, given, named in asked:
                right = getattr(trinorm, name)(SPHERE, *given, **named)
                self.assertEqual(getattr(table, name)(*given, **named), right, name)
                self.assertEqual(getattr(table, name)(*given, **named, program=server), right, name)
                if name != "certify":
                    self.assertEqual(getattr(table, name)(*given, **named, timeout=60), right, name)
        with self.assertRaises(trinorm.Refused):
            trinorm.table(KNOT).surfaces("quad", None, 1)

    def test_what_is_reported(self) -> None:
        class Stop(Exception):
            pass

        def stops(*_: object) -> None:
            raise Stop

        large = trinorm.make(1, 300).table
        for name in ("surfaces", "described", "count", "spheres", "tori", "zero_efficient"):
            with self.assertRaises(Stop):
                getattr(large, name)(progress=stops)

    def test_threads(self) -> None:
        with concurrent.futures.ThreadPoolExecutor(8) as executor:
            self.assertEqual(list(executor.map(asked_of, [self.table] * 40)), [self.right] * 40)

    def test_forked_children(self) -> None:
        def again() -> List[Tuple[Any, ...]]:
            with concurrent.futures.ThreadPoolExecutor(2) as executor:
                return list(executor.map(asked_of, [self.table] * 4))

        with concurrent.futures.ThreadPoolExecutor(2) as executor:
            busy = [executor.submit(asked_of, self.table) for _ in range(20)]
            for _ in range(5):
                child = os.fork()
                if child == 0:
                    os._exit(0 if again() == [self.right] * 4 else 1)
                self.assertEqual(os.waitpid(child, 0)[1], 0)
            self.assertEqual([it.result() for it in busy], [self.right] * 20)

    def test_processes(self) -> None:
        """Methods are sent to other processes, with their tables."""
        for method in multiprocessing.get_all_start_methods():
            with concurrent.futures.ProcessPoolExecutor(2, multiprocessing.get_context(method)) as executor:
                self.assertEqual(list(executor.map(trinorm.Table.sig, [self.table] * 4)), [PLANES] * 4)
                self.assertEqual(executor.submit(self.table.surfaces, "quad").result(), self.table.surfaces("quad"))

    def test_nonsense(self) -> None:
        """Each method refuses a wrong argument with a sentence of its own, whatever the argument is."""
        names = [name for name, _ in inspect.getmembers(TableMethods, inspect.isfunction) if not name.startswith("_")]
        table, calls = trinorm.table(SPHERE), 0
        needed = {"vectors": [], "vector": (1, 1, 0, 0, 1, 0, 0), "steps": [], "moves": [], "other": SPHERE}
        for name in names:
            for parameter in inspect.signature(getattr(table, name)).parameters:
                if parameter in ("timeout", "program", "progress"):
                    continue  # they are taken as by the function, of which test_nonsense tries each
                for value in values():
                    given = {it: right for it, right in needed.items() if it in inspect.signature(getattr(table, name)).parameters}
                    try:
                        getattr(table, name)(**{**given, parameter: value})
                    except (trinorm.Refused, trinorm.BadArgument) as fault:
                        self.assertGreater(len(str(fault)), 10)
                    except Exception as fault:
                        self.assertIn("value itself", str(fault), (name, parameter, type(fault)))
                    calls += 1
        self.assertGreater(calls, 2000)

    def test_tables_that_are_none(self) -> None:
        wrong: Tuple[Any, ...] = (5, None, "x", [1], [["0:1023"]], ((1, 2, 3, 4),), [["9" * 5000 + ":0123"] * 4])
        for rows in wrong:
            for name in ("sig", "info", "surfaces", "certify", "zero_efficient", "to_regina", "checked"):
                with self.assertRaisesRegex((trinorm.BadArgument, trinorm.Failed), "gluing table|rows|module regina"):
                    getattr(trinorm.Table(rows), name)()
        with self.assertRaises(TypeError):
            getattr(self.table, "sig")("quad")


class Citations(unittest.TestCase):
    def test_threads(self) -> None:
        with unittest.mock.patch.object(versions, "build", lambda: BUILD), concurrent.futures.ThreadPoolExecutor(8) as executor:
            given = [("program", "quad"), ("library", "octagon")] * 50
            said = list(executor.map(lambda it: citation.sentences(*it), given))
            self.assertEqual(said, [citation.sentences(*it) for it in given])
            child = os.fork()
            if child == 0:
                os._exit(0 if citation.sentences("program", "quad") == said[0] else 1)
            self.assertEqual(os.waitpid(child, 0)[1], 0)

    def test_nonsense(self) -> None:
        with unittest.mock.patch.object(versions, "build", lambda: BUILD):
            for value in values():
                for name in ("product", "coords"):
                    if (name, str(type(value)), value if isinstance(value, str) else None) == ("coords", "<class 'str'>", "standard"):
                        continue
                    try:
                        citation.sentences(**{name: value})
                    except trinorm.BadArgument as fault:
                        self.assertRegex(str(fault), f"^{name} must be one of ")
                    else:
                        self.assertIn(str(value), (*citation.PRODUCTS, *citation.COORDS))


@unittest.skipUnless(os.path.exists(f"/proc/self/task/{os.getpid()}/children"), "the system does not list children")
class Interrupted(unittest.TestCase):
    """A handler of a signal raises at many moments: nothing is left, neither a process nor a descriptor."""

    def setUp(self) -> None:
        self.folder = tempfile.TemporaryDirectory()
        self.addCleanup(self.folder.cleanup)
        self.is_on = False
        before = signal.signal(signal.SIGALRM, self.handler)
        self.addCleanup(signal.signal, signal.SIGALRM, before)
        self.addCleanup(signal.setitimer, signal.ITIMER_REAL, 0)

    def handler(self, _number: int, _frame: object) -> None:
        if self.is_on:
            signal.setitimer(signal.ITIMER_REAL, 0)
            raise Asked

    def interrupted(self, call: Callable[[], object], seconds: float, times: int = 120) -> None:
        """Calls it many times, each time with a signal a little later, until after the call would have ended; where the calls end before most
        signals come, as on a fast machine, again with signals that come twice as soon, until more than five calls were interrupted."""
        call()
        gc.collect()
        processes, threads, files, count = children(), _thread._count(), descriptors(), 0
        for halved in range(12):
            count += self.interruptions(call, seconds / 2 ** halved, times)
            if count > 5:
                break
        # a thread that starts a process for nobody ends it, and may be slow to begin
        self.assertTrue(self.settles(lambda: _thread._count() <= threads and children() == processes), (children(), _thread._count(), threads))
        gc.collect()
        self.assertTrue(self.settles(lambda: descriptors() <= files), (descriptors(), files))
        self.assertGreater(count, 5)

    def interruptions(self, call: Callable[[], object], seconds: float, times: int) -> int:
        """How many of some calls were interrupted, with signals that come up to some seconds after their begin."""
        count = 0
        for step in range(times):
            try:
                self.is_on = True
                # it comes again after a second, since one that comes just before a wait of the system does not end that wait
                signal.setitimer(signal.ITIMER_REAL, 1e-5 + seconds * step / times, 1)
                try:
                    call()
                finally:
                    self.is_on = False
                    signal.setitimer(signal.ITIMER_REAL, 0)
            except Asked:
                count += 1
        return count

    @staticmethod
    def settles(holds: Callable[[], bool]) -> bool:
        for _ in within(60):
            if holds():
                return True
            threading.Event().wait(0.05)
        return False

    def test_methods_by_the_library(self) -> None:
        table = trinorm.make(6, 12).table
        right = table.surfaces()
        self.interrupted(lambda: self.assertEqual(table.surfaces(), right), 0.02)
        self.assertEqual(table.surfaces(), right)

    def test_methods_by_a_process(self) -> None:
        table, program = trinorm.table(SPHERE), trinorm.find()
        self.interrupted(lambda: self.assertEqual(len(table.surfaces(program=program)), 2), 0.03)

    def test_verdicts(self) -> None:
        made, program = trinorm.make(7, 20), trinorm.find()
        self.interrupted(lambda: self.assertTrue(trinorm.check(made.table, made.moves, program=program)), 0.03)
        self.interrupted(lambda: self.assertTrue(trinorm.zero_efficient(SPHERE, timeout=60)), 0.06, 60)

    def test_a_process_that_ends_by_itself(self) -> None:
        quick = script(self.folder.name, "cat\n")

        def call() -> None:
            with Child([quick]) as run:
                self.assertEqual(run.communicate(b"text")[0], b"text")

        self.interrupted(call, 0.02)

    def test_a_process_with_its_input(self) -> None:
        quick = script(self.folder.name, "cat\n")

        def call() -> None:
            with Child([quick], b"text" * 30_000) as run:
                self.assertEqual(len(run.communicate()[0]), 120_000)

        self.interrupted(call, 0.02)


class Processes(unittest.TestCase):
    def setUp(self) -> None:
        self.folder = tempfile.TemporaryDirectory()
        self.addCleanup(self.folder.cleanup)

    def test_threads_have_their_own(self) -> None:
        quick, found = script(self.folder.name, "cat\n"), []

        def call(text: bytes) -> None:
            with Child([quick]) as run:
                found.append(run.communicate(text)[0] == text)

        threads = [threading.Thread(target=call, args=(b"%d" % number * 1000,)) for number in range(30)]
        for thread in threads:
            thread.start()
        for thread in threads:
            thread.join()
        self.assertEqual(found, [True] * 30)

    def test_it_is_started_once(self) -> None:
        one = Child([script(self.folder.name, "cat\n")])
        with one as run:
            with self.assertRaisesRegex(trinorm.BadArgument, "only once"), one:
                pass
            self.assertEqual(run.communicate(b"text")[0], b"text")
        refused = []

        def call(child: Child) -> None:
            try:
                with child as again:
                    again.communicate(b"")
            except trinorm.BadArgument:
                refused.append(1)

        for _ in range(10):
            child = Child([script(self.folder.name, "cat\n")])
            threads = [threading.Thread(target=call, args=(child,)) for _ in range(4)]
            for thread in threads:
                thread.start()
            for thread in threads:
                thread.join()
        self.assertEqual(len(refused), 30)

    def test_a_forked_child_leaves_it_to_its_parent(self) -> None:
        """Also if the child leaves the statement by an exception, as where a handler of a signal forks."""
        try:
            with Child([script(self.folder.name, "cat\n")]) as run:
                child = os.fork()
                if child == 0:
                    raise Asked
                self.assertEqual(os.waitpid(child, 0)[1], 0)
                self.assertEqual(run.communicate(b"text")[0], b"text")
        except Asked:
            os._exit(0)
        self.assertEqual(run.returncode, 0)

    def test_it_is_not_sent_to_other_processes(self) -> None:
        with self.assertRaises(TypeError):
            pickle.dumps(Child(["cat"]))

    def test_nonsense(self) -> None:
        no_words: Tuple[Any, ...] = ([], "cat", b"cat", None, 5, [5], [None], [b"cat"], ["a\0b"], {"cat": 1}, [["cat"]], object())
        for words in no_words:
            with self.assertRaisesRegex(trinorm.BadArgument, "command line|words|null character"):
                Child(words)
        no_input: Tuple[Any, ...] = ("text", 5, [b"text"], bytearray(b"x"), object())
        for text in no_input:
            with self.assertRaisesRegex(trinorm.BadArgument, "must be bytes or None"):
                Child(["cat"], text)


class Servers(unittest.TestCase):
    def test_nonsense(self) -> None:
        no_truth: Tuple[Any, ...] = (None, 1, 0, "yes", [], object)
        for value in no_truth:
            with self.assertRaisesRegex(trinorm.BadArgument, "own_group must be True or False"):
                Server(own_group=value)
        no_path: Tuple[Any, ...] = (5, [], b"x", object(), "a\0b", "\ud800")
        for value in no_path:
            with self.assertRaisesRegex(trinorm.BadArgument, "program must be the path"):
                Server(value)
            with self.assertRaisesRegex(trinorm.BadArgument, "path must be that of a library"):
                trinorm.library.at(value)
            with self.assertRaisesRegex(trinorm.BadArgument, "path must be that of a library"):
                trinorm.library.Library(value)


if __name__ == "__main__":
    unittest.main()

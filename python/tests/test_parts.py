"""Lists of any length: documents in parts, answers that were cut off, and refusals by the number in the whole list."""
import concurrent.futures
import functools
import multiprocessing
import os
import signal
import tempfile
import threading
import time
import unittest
import unittest.mock
from typing import Any, Callable, ClassVar, Dict, List, Optional, Sequence, Tuple

import trinorm
from trinorm import parts, questions
from trinorm.tables import Triangulation, document

from .cases import within
from .programs import script

SPHERE = "bkaagj"
TORUS = (1, 1, 0, 0, 1, 0, 0)
CLASH = (0, 0, 1, 1, 0, 1, 1)


@functools.lru_cache(None)
def long_one() -> trinorm.Table:
    """A triangulation of 19 tetrahedra with 11,027 vertex surfaces: their list is longer than an input may be."""
    return trinorm.make(6, 20).table


def verify_many(number: int) -> Tuple[List[int], int]:
    """How often each kind of verdict came for a list of several parts, in which one vector is none."""
    vectors = [TORUS] * 60000
    vectors.insert(55000 + number, CLASH)
    said = trinorm.verify(SPHERE, vectors)
    return [at for at, it in enumerate(said) if it.kind == "clash"], len(said)


class Documents(unittest.TestCase):
    def check_parts(self, text: str, most: int) -> List[parts.Part]:
        """The parts of a document hold its lines, each once, behind its head."""
        found = list(parts.parts(text, most))
        head = text[:len(text) - len("".join(text.partition("vec")[1:]))] if "vec" in text else text
        self.assertEqual(head + "".join(it.text[len(head):] for it in found), text)
        self.assertEqual(sum(it.vectors for it in found), parts.count_vectors(text))
        for number, part in enumerate(found):
            self.assertTrue(part.text.startswith(head))
            self.assertEqual(part.before, sum(it.vectors for it in found[:number]))
            self.assertEqual(part.skipped, sum(it.text[len(head):].count("\n") for it in found[:number]))
        return found

    def test_parts(self) -> None:
        lines = "".join(f"vec {it} {it * it}\n" for it in range(300))
        for head in ("sig bkaagj\n", "# comment\n\ntri 1\n- - - -\n# one\n", ""):
            for most in (40, 64, 200, 1000, 1 << 20):
                found = self.check_parts(head + lines, most)
                self.assertTrue(all(len(it.text) <= max(most, len(head) + 16) for it in found), (head, most))

    def test_odd_documents(self) -> None:
        for text in ("", "\n", "vec", "vec 1", "sig bkaagj", "sig bkaagj\nvec 1 2\nvec 3", "sig a\nvec 1\r\n# two\n\n\tvec 2\n",
                     "sig bkaagj\n" + "vec " + "1 " * 1000 + "\nvec 2\n"):
            for most in (1, 10, 100):
                self.check_parts(text, most)

    def test_bytes_are_counted(self) -> None:
        text = "# " + "é" * 100 + "\nsig bkaagj\n" + "# ü\udcff\nvec 1\n" * 400
        for part in parts.parts(text, 1024):
            self.assertLessEqual(len(part.text.encode("utf8", "surrogateescape")), 1024)

    def test_a_head_that_is_too_long_is_one_part(self) -> None:
        text = "# " + "x" * (1 << 20) + "\nsig bkaagj\n"
        self.assertEqual([it.text for it in parts.parts(text)], [text])
        with self.assertRaises(trinorm.Refused) as caught:
            trinorm.verify(text, [])
        self.assertEqual(caught.exception.kind, "input too-long")

    def test_refusals_name_the_whole_list(self) -> None:
        text = "sig bkaagj\n" + "vec 1\n" * 100
        for line, whole in (("refused: vector 2 length 1", "refused: vector 5 length 1"), ("refused: input 2 5 bad-word", "refused: input 5 5 bad-word"),
                            ("refused: input 1 1 bad-word", "refused: input 1 1 bad-word"), ("refused: invalid-edge 2", "refused: invalid-edge 2"),
                            ("refused: vector 2 no-lift 0", "refused: vector 5 no-lift 0"), ("refused: input too-long", "refused: input too-long")):
            asked: List[str] = []

            def ask(part: str, _left: Optional[float], asked: List[str] = asked, line: str = line) -> List[int]:
                asked.append(part)
                if len(asked) == 2:
                    raise trinorm.Refused(4, line, "a hint")
                return [0] * parts.count_vectors(part)

            with self.assertRaises(trinorm.Refused) as caught:
                list(parts.answers(text, ask, parts.Clock(None), 29))
            self.assertEqual((caught.exception.line, caught.exception.hint), (whole, "a hint"))

    def test_clock(self) -> None:
        self.assertIsNone(parts.Clock(None).left())
        clock = parts.Clock(600)
        self.assertEqual(clock.left(), 600)
        self.assertLess(clock.left() or 0, 600)
        with unittest.mock.patch.object(time, "monotonic", side_effect=[100.0, 101.5, 102.0, 107.0]):
            clock = parts.Clock(2)
            self.assertEqual([clock.left(), clock.left()], [2, 0.5])
            for _ in range(2):
                with self.assertRaisesRegex(trinorm.TimedOut, "no result within 2 s"):
                    clock.left()


class Changed:
    """Answers as the program does, but with other lines."""

    def __init__(self, change: Callable[[List[str]], List[str]]) -> None:
        self.change = change

    def run(self, words: Sequence[str], text: str = "", timeout: Optional[float] = None) -> str:
        lines = trinorm.program.run(words, text, timeout).splitlines(True)
        changed = self.change(lines)
        return "".join(changed if changed else lines)


class CutAnswers(unittest.TestCase):
    """Programs that answer less than they should."""

    def fails(self, text: str, answer: str, call: Callable[..., object], *words: object, **named: object) -> None:
        with tempfile.TemporaryDirectory() as folder, self.assertRaisesRegex(trinorm.Failed, text):
            call(*words, program=script(folder, f"printf '{answer}'\n"), **named)

    def test_lists(self) -> None:
        self.fails("the answer is incomplete: 2 vectors after `# surfaces 3`", "# surfaces 3\\nvec 1 0\\nvec 0 1\\n", trinorm.surfaces, SPHERE)
        self.fails("the answer is incomplete: 1 vectors after `# rays 2`", "# rays 2\\nvec 1\\n", trinorm.rays, [[0]])
        self.fails("the answer is incomplete", "# surfaces 2\\nvec 1 0\\nvec 0 1", trinorm.surfaces, SPHERE)
        self.fails("cannot be read", "", trinorm.surfaces, SPHERE)
        self.fails("cannot be read", "vec 1 0\\n", trinorm.surfaces, SPHERE)
        self.fails("cannot be read", "# surfaces many\\nvec 1 0\\n", trinorm.surfaces, SPHERE)
        for name in ("count", "spheres", "tori", "described"):
            self.fails("1 vectors after", "# surfaces 3\\nvec 1 0\\n", getattr(trinorm, name), SPHERE)

    def test_answers_to_vectors(self) -> None:
        self.fails("the answer is incomplete: 1 results for 2 vectors", "solution\\n", trinorm.verify, SPHERE, [TORUS, TORUS])
        self.fails("the answer is incomplete: 0 results for 1 vectors", "", trinorm.describe, SPHERE, [TORUS])
        self.fails("the answer is incomplete: 0 results for 1 vectors", "", trinorm.lift, SPHERE, [(1, 0, 0)])
        self.fails("the answer is incomplete", "solution", trinorm.verify, SPHERE, [TORUS])

    def test_each_reader_counts(self) -> None:
        """An answer without its last lines, or without one of them, is no shorter answer."""
        t, sphere = "eLMkabcddbrrag", trinorm.make(7, 30)
        vectors = trinorm.surfaces(t)
        calls: Dict[str, Callable[[Any], object]] = {
            "same": lambda it: trinorm.same(t, t, program=it), "csame": lambda it: trinorm.csame(t, t, program=it),
            "group": lambda it: trinorm.group([t, SPHERE, t], program=it), "cover": lambda it: trinorm.cover("bkaagb", program=it),
            "pi1": lambda it: trinorm.pi1(t, program=it), "decompose": lambda it: trinorm.decompose(t, vectors[:2], program=it),
            "describe": lambda it: trinorm.describe(t, vectors[:3], program=it), "make": lambda it: trinorm.make(7, 30, program=it),
            "descend": lambda it: trinorm.descend(sphere.table, program=it), "certify": lambda it: trinorm.certify(sphere.table, program=it),
            "play": lambda it: trinorm.play(SPHERE, ["14 0", "undo", "14 0"], program=it)}
        for name, call in calls.items():
            right = call(None)
            for cut in range(1, 8):
                for change in (lambda lines, cut=cut: lines[:-cut], lambda lines, cut=cut: lines[:cut] + lines[cut + 1:]):
                    with self.subTest((name, cut)):
                        try:
                            self.assertEqual(call(Changed(change)), right)
                        except trinorm.Failed:
                            pass

    def test_no_program_is_no_list(self) -> None:
        with self.assertRaises(trinorm.Failed):
            trinorm.surfaces(SPHERE, program="/bin/true")


class LongLists(unittest.TestCase):
    t: ClassVar[trinorm.Table]
    vectors: ClassVar[List[Tuple[int, ...]]]

    @classmethod
    def setUpClass(cls) -> None:
        cls.t = long_one()
        cls.vectors = trinorm.surfaces(cls.t)

    def test_counts(self) -> None:
        self.assertEqual(len(self.vectors), 11027)
        count = trinorm.count(self.t)
        self.assertEqual((count.surfaces, sum(count.euler.values())), (11027, 11027))
        self.assertEqual(count.greatest, max(entry for vector in self.vectors for entry in vector))

    def test_describe_and_verify(self) -> None:
        said = trinorm.describe(self.t, self.vectors)
        self.assertEqual([it.vector for it in said], self.vectors)
        self.assertEqual(sum(it.euler > 0 and not it.linking for it in said), 95)
        self.assertEqual(len(trinorm.spheres(self.t)), sum(it.euler == 2 and not it.linking for it in said))
        self.assertEqual(len(trinorm.tori(self.t)), sum(it.euler == 0 and it.components[0].orientable for it in said))
        self.assertTrue(all(it.is_solution for it in trinorm.verify(self.t, self.vectors)))

    def test_zero_efficiency(self) -> None:
        shown = trinorm.zero_efficient(self.t).witness
        assert shown is not None
        self.assertIn(shown.vector, self.vectors)
        self.assertGreater(shown.euler, 0)

    def test_refusals(self) -> None:
        for call, wrong, kind, places in ((trinorm.describe, (1,), "vector length", (11027, 1)), (trinorm.describe, (1,) + (0,) * 132, "vector fails", None)):
            with self.assertRaises(trinorm.Refused) as caught:
                call(self.t, self.vectors + [wrong])
            self.assertEqual((caught.exception.kind, caught.exception.places[0]), (kind, 11027))
            if places:
                self.assertEqual(caught.exception.places, places)
        with self.assertRaises(trinorm.Refused) as caught:
            trinorm.verify(self.t, self.vectors + [(-1,)])
        self.assertEqual(caught.exception.places, (1 + len(self.t) + 11027 + 1, 5))

    def test_a_text_with_vectors(self) -> None:
        """It has no other question than the vectors that were given."""
        with self.assertRaisesRegex(trinorm.BadArgument, "more text after it: 'vec 1 1 0 0 1 0 0'"):
            trinorm.verify(f"sig {SPHERE}\n" + "vec 1 1 0 0 1 0 0\n" * 70000, [CLASH])
        self.assertEqual(len(trinorm.verify(SPHERE, [TORUS] * 70000 + [CLASH])), 70001)
        self.assertEqual(trinorm.verify(SPHERE, [TORUS] * 70000 + [CLASH])[-1].kind, "clash")

    def test_lifts(self) -> None:
        quads = [(1, 0, 0)] * 150000
        self.assertEqual(trinorm.lift(SPHERE, quads), [TORUS] * 150000)

    def test_a_limit_of_time_is_one_for_all_parts(self) -> None:
        """The second run takes all the time that is left, so that there is no third."""
        lefts: List[float] = []

        class Slow:
            def run(self, words: Sequence[str], text: str = "", timeout: Optional[float] = None) -> str:
                assert timeout is not None
                lefts.append(timeout)
                answer = trinorm.program.run(words, text)
                if len(lefts) == 2:
                    time.sleep(timeout)
                return answer

        with self.assertRaisesRegex(trinorm.TimedOut, "no result within 1.5 s"):
            trinorm.verify(SPHERE, [TORUS] * 200_000, timeout=1.5, program=Slow())
        self.assertEqual(lefts[0], 1.5)
        self.assertTrue(len(lefts) == 1 or len(lefts) == 2 and 0 < lefts[1] < 1.5, lefts)

    def test_threads_and_processes(self) -> None:
        expected = [([55000 + it], 60001) for it in range(4)]
        for way in ("fork", "spawn"):
            with concurrent.futures.ProcessPoolExecutor(2, multiprocessing.get_context(way)) as processes:
                self.assertEqual(list(processes.map(verify_many, range(4))), expected)
        with concurrent.futures.ThreadPoolExecutor(4) as threads:
            self.assertEqual(list(threads.map(verify_many, range(4))), expected)

    def test_interrupts(self) -> None:
        class Ended(Exception):
            pass

        def end(*_: object) -> None:
            raise Ended

        before = signal.signal(signal.SIGUSR1, end)
        timer = threading.Timer(0.3, os.kill, (os.getpid(), signal.SIGUSR1))
        try:
            timer.start()
            with self.assertRaises(Ended):
                for _ in within(60):
                    trinorm.count(self.t)
        finally:
            timer.cancel()
            signal.signal(signal.SIGUSR1, before)
        self.assertEqual(trinorm.count(SPHERE).surfaces, 2)


class BothWays(unittest.TestCase):
    """0-efficiency by the list and by the quad list is the same."""

    def test_are_the_same(self) -> None:
        tables: List[Triangulation] = [trinorm.make(seed, moves).table for seed in range(12) for moves in (1, 3, 6, 9)]
        tables += ["cMcabbjaj", "cMcabbgaj", "cPcbbbaai", "cPcbbbahh", "cMcabbgqw", "eLMkabcddbrrag", SPHERE, "bkaagb", "tri 0\n"]
        for t in tables:
            text = document(t)
            by_list = questions._by_list(text, parts.Clock(None), None)
            by_quads = questions._by_quads(text, parts.Clock(None), None)
            self.assertEqual(by_list is None, by_quads is None)
            if by_quads is not None:
                self.assertIn(by_quads.vector, trinorm.surfaces(t))
                self.assertEqual(by_quads, trinorm.describe(t, [by_quads.vector])[0])


if __name__ == "__main__":
    unittest.main()

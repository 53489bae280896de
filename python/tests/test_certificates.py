"""Moves that certify a 3-sphere, by a search whose answers `check` accepts; and Pachner moves beside the program's."""
import argparse
import concurrent.futures
import contextlib
import io
import multiprocessing
import os
import pickle
import random
import signal
import threading
import time
import unittest
from typing import Any, List, Set, Tuple
from unittest import mock

import trinorm
from trinorm import certificates, tables
from trinorm.__main__ import main
from trinorm.pachner import CORES, Alike, Move, Triangulation, labelling

from .cases import timed

# 3-spheres on which `descend` gets stuck at once
STUCK = ("bkaagb", "dLQbcbcaafn", "gLLMQbddefffabclmcc", "iLLvQQccceghfhghaodakfvco", "kLMLzwQkacdfghijijjbgqrlarfsbg",
         "lLLAALMMcaedeefihijkkbaaicvacpcav")
# no 3-spheres: L(4,1), L(5,2), RP3, the figure eight knot's complement, a ball, nothing, two spheres, the Gieseking manifold
OTHERS = ("bkaaid", "bkaajj", "cMcabbgqw", "cPcbbbiht", "tri 1\n- - - -\n", "tri 0\n",
          "tri 2\n0:1023 0:1023 0:1230 0:3012\n1:1023 1:1023 1:1230 1:3012\n", "tri 1\n0:1203 0:2013 0:0231 0:0312\n")
POINCARE = "fvPQcdecedekrsnrs"


def closed(table: trinorm.Table) -> Triangulation:
    """The triangulation of a table without boundary faces."""
    made = Triangulation.of(table)
    assert made is not None
    return made


def found(t: tables.Triangulation, seed: int = 0, timeout: float = 60) -> trinorm.Certificate:
    """The certificate of a sphere."""
    made = trinorm.certify(t, seed, timeout)
    assert made is not None
    return made


class Moves(unittest.TestCase):
    """Moves of this process have the program's numbers."""

    def draw(self, t: Triangulation, draws: random.Random) -> Move:
        """A legal move, and a word for one that needn't be legal."""
        while True:
            size = draws.choice([1, 2, 3, 3, 4] if len(t) < 4 else [1, 2, 2, 3] if len(t) < 9 else [1, 2])
            move = t.move(draws.choice(t.order), draws.choice(CORES[size]))
            if move is not None:
                return move

    def test_are_the_program_s(self) -> None:
        draws = random.Random(1)
        for signature in STUCK:
            table = trinorm.table(signature)
            t, words = closed(table), []
            for _ in range(30):
                move = self.draw(t, draws)
                words.append(t.name(move))
                self.assertEqual(t.named(words[-1]), move)
                t.play(move)
            played = trinorm.play(table, words)
            self.assertEqual(set(played.answers), {"done"})
            self.assertEqual(t.table(), played.table)

    def test_are_legal_if_the_program_s_are(self) -> None:
        for signature in (*STUCK[:3], "cMcabbgqw"):
            t = closed(trinorm.table(signature))
            words = [f"{kind} {tet}{core}" for tet in range(len(t)) for kind, cores in (
                ("14", [""]), ("23", [f" {it}" for it in range(4)]), ("32", [f" {a}{b}" for a, b in CORES[2]]),
                ("41", [f" {it}" for it in range(4)])) for core in cores]
            for word in words:
                legal = trinorm.play(signature, [word]).answers == ("done",)
                self.assertEqual(t.named(word) is not None, legal, (signature, word))

    def test_labellings(self) -> None:
        draws = random.Random(2)
        for signature in STUCK[:4]:
            one, other = (closed(trinorm.table(signature)) for _ in range(2))
            alike = Alike(one, other, (labelling(one), labelling(other)))
            for _ in range(20):
                alike.play(self.draw(one, draws))
            self.assertEqual(trinorm.sig(one.table()), trinorm.sig(other.table()))
            self.assertEqual(labelling(one).form, labelling(other).form)
        self.assertNotEqual(labelling(closed(trinorm.table("bkaagb"))).form,
                            labelling(closed(trinorm.table("bkaagj"))).form)

    def test_boundary(self) -> None:
        self.assertIsNone(Triangulation.of(trinorm.table("tri 1\n- - - -\n")))

    def test_endings(self) -> None:
        found = certificates.endings().values()
        self.assertEqual(len(found), 40)
        for ending in found:
            self.assertTrue(trinorm.check(ending.here.table(), ending.moves))


class Certificates(unittest.TestCase):
    def test_stuck_spheres(self) -> None:
        for signature in STUCK:
            self.assertFalse(trinorm.descend(signature).reached)
            made = found(signature, timeout=60)
            self.assertEqual(made.table, trinorm.table(signature))
            self.assertTrue(trinorm.check(signature, made.moves))

    def test_spheres_made_of_moves(self) -> None:
        for seed in range(10):
            t = trinorm.make(seed, 12).table
            self.assertTrue(trinorm.check(t, found(t, seed, 60).moves))
        self.assertEqual(found("bkaagj").moves, ())

    def test_the_seed_is_0_by_default(self) -> None:
        of_seeds = [found(STUCK[2], seed).moves for seed in (0, 1)]
        self.assertNotEqual(*of_seeds)
        self.assertEqual(found(STUCK[2]).moves, of_seeds[0])
        reader = argparse.ArgumentParser()
        certificates.add_arguments(reader)
        self.assertEqual(reader.parse_args(["bkaagb"]).seed, 0)

    def test_seeds(self) -> None:
        one, again, other = (found(STUCK[3], seed, timeout=60) for seed in (1, 1, 2))
        self.assertEqual(one, again)
        self.assertNotEqual(one.moves, other.moves)

    @timed
    def test_others_are_none_at_once(self) -> None:
        for t in OTHERS:
            begun = time.monotonic()
            self.assertIsNone(trinorm.certify(t, timeout=600), t)
            self.assertLess(time.monotonic() - begun, 300)

    @timed
    def test_homology_spheres_end_at_the_limit(self) -> None:
        self.assertTrue(certificates.is_trivial(trinorm.pi1(POINCARE)))
        begun = time.monotonic()
        self.assertIsNone(trinorm.certify(POINCARE, timeout=1))
        self.assertLess(time.monotonic() - begun, 120)

    def test_only_what_check_accepts(self) -> None:
        with mock.patch.object(certificates, "search", return_value=["14 0"]), self.assertRaisesRegex(trinorm.Failed, "did not accept"):
            trinorm.certify("bkaagb", timeout=60)
        with mock.patch.object(certificates, "search", return_value=["no move"]), self.assertRaises(trinorm.Refused):
            trinorm.certify("bkaagb", timeout=60)

    def test_no_table_is_larger_than_the_program_takes(self) -> None:
        t, play = closed(trinorm.table(STUCK[-1])), Triangulation.play
        sizes: List[int] = []

        def noted(self: Triangulation, move: Move) -> List[int]:
            made = play(self, move)
            sizes.append(len(self))
            return made

        with mock.patch.object(certificates, "MOST", len(t) + 2), mock.patch.object(Triangulation, "play", noted):
            certificates.search(t.table(), 0, 1)
        self.assertLessEqual(max(sizes), len(t) + 2)

    def test_how_far_a_search_goes_up(self) -> None:
        """By at most as many moves as it is told, and by none that could make a table larger than the program takes."""
        looking = certificates.Search(closed(trinorm.table(STUCK[-1])), 0)
        size = len(looking.here)

        def ups(count: int, most: int) -> Set[int]:
            with mock.patch.object(certificates, "MOST", most):
                return {len(looking._ascend(looking.here.copy(), count)[0]) for _ in range(60)}

        self.assertEqual([ups(0, 1000), ups(1, 1000), max(ups(3, 1000))], [{0}, {0, 1}, 3])
        self.assertEqual([ups(9, size + 2), max(ups(9, size + 3)) > 0], [{0}, True])

    def test_groups(self) -> None:
        def group(generators: int, *relators: Tuple[int, ...]) -> trinorm.Presentation:
            return trinorm.Presentation((trinorm.Generator(0, False),) * generators,
                                        tuple(trinorm.Relator(0, it) for it in relators))

        for trivial in (group(0), group(1, (1,)), group(2, (1, 2, 2), (1, 2)), group(2, (1, 1, 1, 2, 2), (1, 2)), group(1, (1, 1), (1, 1, 1))):
            self.assertTrue(certificates.is_trivial(trivial))
        for other in (group(1), group(1, (1, 1)), group(2, (1,)), group(2, (1, 2)), group(2, (1, 1, 2), (1, 2, 2)), group(1, (1, -1))):
            self.assertFalse(certificates.is_trivial(other))

    def test_bad_arguments(self) -> None:
        wrong: Tuple[Any, ...] = ("1", None, 1.5, [1])
        for seed in wrong:
            with self.assertRaises(trinorm.BadArgument):
                trinorm.certify("bkaagb", seed)
        with self.assertRaises(trinorm.Refused):
            trinorm.certify("bkaagbx")
        with self.assertRaises(trinorm.BadArgument):
            getattr(trinorm, "certify")(None)

    def test_threads_and_processes(self) -> None:
        expected = [trinorm.certify(it) for it in STUCK[:4]]
        self.assertNotIn(None, expected)
        with concurrent.futures.ThreadPoolExecutor(4) as threads:
            self.assertEqual(list(threads.map(trinorm.certify, STUCK[:4])), expected)
        for way in ("fork", "spawn"):
            with concurrent.futures.ProcessPoolExecutor(2, multiprocessing.get_context(way)) as processes:
                self.assertEqual(list(processes.map(trinorm.certify, STUCK[:4])), expected)
        self.assertEqual(pickle.loads(pickle.dumps(expected)), expected)

    def test_interrupts(self) -> None:
        timer = threading.Timer(0.3, os.kill, (os.getpid(), signal.SIGINT))
        timer.start()
        with self.assertRaises(KeyboardInterrupt):
            trinorm.certify(POINCARE, timeout=60)
        timer.cancel()


class Words(unittest.TestCase):
    def said(self, *words: str, text: str = "") -> Tuple[int, str, str]:
        with contextlib.redirect_stdout(io.StringIO()) as out, contextlib.redirect_stderr(io.StringIO()) as error, \
                mock.patch("sys.stdin", io.StringIO(text)):
            status = main(["certify", *words])
        return status, out.getvalue(), error.getvalue()

    def test_answers(self) -> None:
        status, said, _ = self.said("bkaagb", "--seed", "3", "--timeout", "60")
        self.assertEqual((status, said), (0, str(trinorm.certify("bkaagb", 3, 60))))
        self.assertEqual(self.said("-", text="tri 1\n0:1023 0:1023 0:0132 0:0132\n")[0], 0)

    def test_none(self) -> None:
        status, said, error = self.said("cPcbbbiht")
        self.assertEqual((status, said), (1, ""))
        self.assertIn("does not mean that it is not a 3-sphere", error)
        self.assertEqual(self.said("bkaagbx")[0], 3)


if __name__ == "__main__":
    unittest.main()

"""Spheres, tori, 0-efficiency and counts; beside Regina's where this Python has it."""
import copy
import dataclasses
import pickle
import random
import shutil
import subprocess
import tempfile
import unittest
from pathlib import Path
from typing import Any, List

import trinorm
from trinorm.answers import Surface
from trinorm.program import REPOSITORY
from trinorm.questions import ZeroEfficiency

try:
    import regina
except ImportError:
    regina = None

SPHERE = "bkaagj"
TORUS = (1, 1, 0, 0, 1, 0, 0)
# closed, orientable and not 0-efficient: S2 x S1, L(3,1) twice, RP3 twice, RP3 # RP3; the last three have no vertex sphere
NOT_EFFICIENT = ("cMcabbjaj", "cMcabbgaj", "cPcbbbaai", "cPcbbbahh", "cMcabbgqw", "eLMkabcddbrrag")


class Questions(unittest.TestCase):
    def test_spheres(self) -> None:
        self.assertEqual(trinorm.spheres(SPHERE), [])
        [sphere] = trinorm.spheres("cMcabbjaj")
        self.assertEqual((sphere.euler, sphere.linking, len(sphere.components)), (2, False, 1))
        self.assertEqual(trinorm.spheres("eLMkabcddbrrag"), [])

    def test_tori(self) -> None:
        self.assertEqual([it.vector for it in trinorm.tori(SPHERE)], [TORUS])
        self.assertEqual(trinorm.tori("bkaajj"), [])
        self.assertEqual(trinorm.tori("cPcbbbiht"), [])

    def test_zero_efficiency(self) -> None:
        for signature in (SPHERE, "bkaajj", "cPcbbbiht"):
            self.assertTrue(trinorm.zero_efficient(signature))
        for signature in NOT_EFFICIENT:
            shown = trinorm.zero_efficient(signature)
            self.assertFalse(shown)
            self.assertIsInstance(shown, ZeroEfficiency)
            assert shown.witness is not None
            self.assertIn(shown.witness.vector, trinorm.surfaces(signature))
            self.assertGreater(shown.witness.euler, 0)
        self.assertEqual(getattr(trinorm.zero_efficient("eLMkabcddbrrag").witness, "euler"), 1)
        self.assertFalse(trinorm.zero_efficient(["- - - -"]))

    def test_kinds(self) -> None:
        for t, kind, orientable in (
                (SPHERE, "closed", True), ("cPcbbbiht", "ideal", True), (["- - - -"], "bounded", True), ("bkaagb", "closed", True),
                ("bGad", "invalid", False)):
            found = trinorm.zero_efficient(t)
            self.assertEqual((found.kind, found.orientable), (kind, orientable), t)

    def test_truth_and_equality_agree(self) -> None:
        shown, other, right = (trinorm.zero_efficient(it) for it in ("eLMkabcddbrrag", "cMcabbjaj", SPHERE))
        self.assertFalse(shown)
        self.assertTrue(shown == False and shown != True and shown != other and right == True and not right == False)  # noqa: E712
        self.assertEqual((hash(shown), hash(right)), (hash(False), hash(True)))
        self.assertEqual([it for it in ("bkaagj", "eLMkabcddbrrag") if trinorm.zero_efficient(it) == False], ["eLMkabcddbrrag"])  # noqa: E712
        self.assertIn("euler=1", repr(shown))
        for again in (copy.copy(shown), copy.deepcopy(shown), pickle.loads(pickle.dumps(shown))):
            self.assertIsInstance(again, ZeroEfficiency)
            self.assertEqual((again, again.witness), (shown, shown.witness))
        with self.assertRaises(dataclasses.FrozenInstanceError):
            setattr(shown, "witness", None)
        self.assertIsInstance(shown.witness, Surface)

    def test_old_names(self) -> None:
        shown = trinorm.zero_efficient("eLMkabcddbrrag")
        for name in ("vector", "euler", "linking", "boundary", "components"):
            with self.assertWarnsRegex(DeprecationWarning, f"write `.witness.{name}`"):
                self.assertEqual(getattr(shown, name), getattr(shown.witness, name))
        with self.assertWarnsRegex(DeprecationWarning, "write `.witness`"):
            self.assertIs(shown.surface, shown.witness)
        with self.assertRaisesRegex(AttributeError, "no witness and no vector"):
            getattr(trinorm.zero_efficient(SPHERE), "vector")
        with self.assertWarnsRegex(DeprecationWarning, "write trinorm.ZeroEfficiency"):
            self.assertIs(trinorm.Contrary, ZeroEfficiency)
        with self.assertRaisesRegex(AttributeError, "has no attribute 'nothing'"):
            getattr(trinorm, "nothing")

    @unittest.skipIf(shutil.which("mypy") is None, "mypy isn't there")
    def test_types(self) -> None:
        with tempfile.TemporaryDirectory() as folder:
            user = Path(folder) / "user.py"
            user.write_text("import trinorm\nz = trinorm.zero_efficient('bkaagj')\nif z.witness is not None:\n    z.witness.vector\n"
                            "n: int = trinorm.count('bkaagj').surfaces\nv = trinorm.surfaces('bkaagj')\nw: int = v[0][0]\n")
            words = ["mypy", "--follow-imports=silent", "--ignore-missing-imports", "--no-site-packages", "--cache-dir", folder, str(user)]
            done = subprocess.run(words, env={"PATH": "/usr/bin:/bin", "MYPYPATH": str(REPOSITORY / "python")}, capture_output=True,
                                  text=True, check=False)
            self.assertEqual((done.returncode, done.stderr), (0, ""), done.stdout)

    def test_counts(self) -> None:
        self.assertEqual(trinorm.count(SPHERE), trinorm.Count(2, {2: 1, 0: 1}, 1, 1))
        self.assertEqual(trinorm.count([]), trinorm.Count(0, {}, 0, 0))
        self.assertEqual(trinorm.count(SPHERE, "octagon").surfaces, len(trinorm.surfaces(SPHERE, "octagon")))


@unittest.skipIf(regina is None, "this Python has no module regina")
class BesideRegina(unittest.TestCase):
    def closed(self) -> List[Any]:
        """The first of Regina's closed orientable census, and a few that aren't 0-efficient."""
        census = [it.triangulateComponents()[0] for it in (regina.Triangulation3.fromIsoSig(s) for s in NOT_EFFICIENT)]
        for name in ("s2xs1", "rp3rp3", "poincare", "weeks"):
            census.append(getattr(regina.Example3, name)())
        census += [regina.Example3.lens(p, q) for p, q in ((2, 1), (3, 1), (5, 2), (8, 3))]
        census += [regina.Example3.layeredLoop(size, twisted) for size in (2, 3, 4) for twisted in (False, True)]
        return census

    def test_zero_efficiency(self) -> None:
        for t in self.closed():
            self.assertEqual(bool(trinorm.zero_efficient(t)), t.isZeroEfficient(), t.isoSig())

    def grown(self, t: Any, size: int, draws: random.Random) -> Any:
        """The triangulation after 2-3 moves at drawn triangles."""
        t = regina.Triangulation3(t)
        while t.size() < size:
            t.pachner(t.triangle(draws.randrange(t.countTriangles())))
        return t

    def test_zero_efficiency_of_large_ones(self) -> None:
        draws = random.Random(1)
        for t in (regina.Example3.weeks(), regina.Example3.poincare(), regina.Example3.rp3rp3()):
            grown = self.grown(t, 12, draws)
            self.assertEqual(bool(trinorm.zero_efficient(grown)), grown.isZeroEfficient(), grown.isoSig())
        # Regina decides these spheres at once, and takes minutes for a 0-efficient triangulation of this size
        sizes: List[int] = []
        for seed in range(40):
            table = trinorm.make(seed, 26).table
            if 20 <= len(table) <= 26 and len(sizes) < 8:
                sizes.append(len(table))
                self.assertEqual(bool(trinorm.zero_efficient(table)), table.to_regina().isZeroEfficient(), seed)
        self.assertEqual(len(sizes), 8)

    def test_a_handlebody(self) -> None:
        t = regina.Example3.handlebody(4)
        self.assertEqual(t.size(), 10)
        vectors = trinorm.surfaces(t)
        self.assertEqual(trinorm.count(t).surfaces, len(vectors))
        theirs = regina.NormalSurfaces(t, regina.NS_STANDARD)
        self.assertEqual(len(vectors), theirs.size())
        discs = [it for it in theirs if it.eulerChar() == 1 and it.hasRealBoundary() and not it.isVertexLinking()]
        ours = [it.vector for it in trinorm.described(t) if it.euler == 1 and it.boundary and not it.linking]
        self.assertEqual(ours, sorted(map(trinorm.vector_of, discs)))
        self.assertEqual(bool(trinorm.zero_efficient(t)), t.isZeroEfficient())

    def test_a_boundary_component_that_is_a_sphere(self) -> None:
        t = regina.Triangulation3.fromIsoSig("bGab")
        self.assertEqual((bool(trinorm.zero_efficient(t)), t.isZeroEfficient()), (True, False))

    def test_projective_planes_with_two_sides(self) -> None:
        t = regina.Example3.rp2xs1()
        shown = trinorm.zero_efficient(t).witness
        assert shown is not None
        self.assertEqual((shown.euler, shown.components[0].sides, t.isZeroEfficient()), (1, 2, True))

    def test_spheres_and_tori(self) -> None:
        for t in self.closed():
            theirs = [it for it in regina.NormalSurfaces(t, regina.NS_STANDARD) if not it.isVertexLinking() and it.isCompact()]
            for ours, euler in ((trinorm.spheres(t), 2), (trinorm.tori(t), 0)):
                same = [trinorm.vector_of(it) for it in theirs if it.eulerChar() == euler and it.isOrientable()]
                self.assertEqual([it.vector for it in ours], sorted(same))


if __name__ == "__main__":
    unittest.main()

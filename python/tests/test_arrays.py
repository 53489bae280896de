"""Lists and descriptions as arrays of NumPy; left out if this Python has no NumPy."""
import concurrent.futures
import importlib
import pickle
import unittest
from typing import Any, List, Sequence, Tuple
from unittest import mock

import trinorm
from trinorm import arrays
from trinorm.options import Coords
from trinorm.tables import Triangulation

from .test_parts import long_one

try:
    numpy: Any = importlib.import_module("numpy")
except ImportError:
    numpy = None

SPHERE = "bkaagj"
LARGE = 2**127 - 1
Rows = Sequence[Sequence[int]]


@unittest.skipIf(numpy is None, "this Python has no NumPy")
class Reading(unittest.TestCase):
    def same(self, array: Any, rows: Rows, kind: str = "int64") -> None:
        self.assertEqual((array.dtype, array.tolist()), (numpy.dtype(kind), [list(it) for it in rows]))

    def text(self, rows: Rows) -> str:
        return f"# surfaces {len(rows)}\n" + "".join("vec " + " ".join(map(str, row)) + "\n" for row in rows)

    def test_entries(self) -> None:
        small: List[Rows] = [[(0, 1, 2)], [(9, 9)] * 7, [(10, 0), (0, 1)], [(0, 1), (2, 10**18 - 1)], [(0, 10**18), (2**63 - 1, 1)], [(1,)], []]
        for rows in small:
            self.same(arrays.read_vectors(self.text(rows)), rows)
        for rows in ([(0, 2**63)], [(1, 2), (LARGE, 3)], [(10**18, 2**63)]):
            self.same(arrays.read_vectors(self.text(rows)), rows, "object")

    def test_several_chunks(self) -> None:
        rows = [(it % 10, it, 7) for it in range(5000)]
        with mock.patch.object(arrays, "CHUNK", 1000):
            self.same(arrays.read_vectors(self.text(rows)), rows)
            rows[3000] = (LARGE, 0, 1)
            made = arrays.read_vectors(self.text(rows))
        self.same(made, rows, "object")
        self.assertIs(type(made[0, 0]), int)

    def test_types(self) -> None:
        self.same(arrays.read_vectors(self.text([(1, 127)]), "int8"), [(1, 127)], "int8")
        self.same(arrays.read_vectors(self.text([(1, 2)]), numpy.uint16), [(1, 2)], "uint16")
        self.same(arrays.read_vectors(self.text([(1, 2**64 - 1)]), "uint64"), [(1, 2**64 - 1)], "uint64")
        too_small: List[Tuple[Rows, str]] = [([(1, 128)], "int8"), ([(LARGE,)], "int32"), ([(LARGE,)], "uint64")]
        for rows, kind in too_small:
            with self.assertRaisesRegex(trinorm.BadArgument, "does not fit into"):
                arrays.read_vectors(self.text(rows), kind)
        wrong: List[Any] = ["float64", "no type", object, 7, None, "", [1], "S4"]
        for it in wrong:
            with self.assertRaisesRegex(trinorm.BadArgument, "arrays must be True, False or the name", msg=repr(it)):
                trinorm.surfaces(SPHERE, arrays=it)

    def test_lines_of_digits_are_read_at_once(self) -> None:
        self.assertEqual(arrays._digits(b"vec 0 9\nvec 1 2\n", 2).tolist(), [[0, 9], [1, 2]])
        for chunk in (b"vec 0 :\nvec 1 2\n", b"vec 0/9\nvec 1 2\n", b"vec 0 9\nvec 1 2x", b"vec 10 9\nvec 1\n", b"vec 0 9\nvec 10 2\n"):
            self.assertIsNone(arrays._digits(chunk, 2), chunk)

    def test_widths(self) -> None:
        for text in ("vec 1 2\nvec 3\n", "vec 1\nvec x\n", "vec 1\nvec :\n", "vec 1 2\nvec 1/2\n", "vec 1\nvector\n", "vec 10\nvec -\n", "vec 1\nvec \u0661\n"):
            with self.assertRaises(trinorm.Failed):
                arrays.read_vectors(text)
        with self.assertRaises(trinorm.Failed) as caught:
            arrays.read_vectors("vec 1\n" * 30 + "vec 1 2\n")
        beginning = b"vec 1\n" * 10
        self.assertEqual(str(caught.exception), f"the answer is damaged: its vectors differ in length, near {beginning!r}")


@unittest.skipIf(numpy is None, "this Python has no NumPy")
class Calls(unittest.TestCase):
    def test_surfaces(self) -> None:
        tables: Tuple[Triangulation, ...] = (SPHERE, "cPcbbbiht", "gLLPQccdfeefqffaqnw", "tri 0", long_one())
        both: Tuple[Coords, ...] = ("standard", "quad")
        for t in tables:
            for coords in both:
                self.assertEqual(trinorm.surfaces(t, coords, arrays=True).tolist(), [list(it) for it in trinorm.surfaces(t, coords)])

    def test_describe(self) -> None:
        vectors = [(1, 1, 0, 0, 1, 0, 0), (3, 3, 1, 1, 2, 0, 0), (1, 1, 1, 1, 0, 0, 0), (0,) * 7]
        self.check(trinorm.describe(SPHERE, vectors, arrays=True), trinorm.describe(SPHERE, vectors))
        self.check(trinorm.describe(SPHERE, [], arrays=True), [])

    def test_long_lists(self) -> None:
        self.check(trinorm.described(long_one(), arrays="int16"), trinorm.described(long_one()))

    def check(self, made: Any, surfaces: Sequence[trinorm.Surface]) -> None:
        self.assertEqual(len(made), len(surfaces))
        self.assertEqual(made.vectors.tolist(), [list(it.vector) for it in surfaces])
        for name in ("euler", "linking", "boundary"):
            self.assertEqual(getattr(made, name).tolist(), [getattr(it, name) for it in surfaces])
        self.assertEqual(made.count.tolist(), [len(it.components) for it in surfaces])
        components = [(index, it) for index, surface in enumerate(surfaces) for it in surface.components]
        self.assertEqual(made.components.surface.tolist(), [index for index, _ in components])
        for name in ("euler", "sides", "orientable"):
            self.assertEqual(getattr(made.components, name).tolist(), [getattr(it, name) for _, it in components])
        self.assertEqual(made.components.vectors.tolist(), [list(it.vector) for _, it in components])
        self.assertEqual(sorted(made.columns), ["boundary", "components", "euler", "linking"])

    def test_counts(self) -> None:
        for t in (SPHERE, "eLMkabcddbrrag", "tri 0"):
            count, made = trinorm.count(t), trinorm.count(t, arrays=True)
            self.assertEqual(dict(zip(made.euler.tolist(), made.number.tolist())), count.euler)
            self.assertEqual((made.surfaces, made.linking, made.greatest), (count.surfaces, count.linking, count.greatest))
            self.assertEqual(list(made.columns), ["euler", "surfaces"])

    def test_arrays_are_vectors(self) -> None:
        listed = trinorm.surfaces("cPcbbbiht", "quad", arrays=True)
        self.assertTrue(all(it.is_solution for it in trinorm.verify("cPcbbbiht", listed.tolist(), "quad")))

    def test_threads_and_pickles(self) -> None:
        with concurrent.futures.ThreadPoolExecutor(4) as threads:
            made = list(threads.map(lambda _: trinorm.described(SPHERE, arrays=True), range(40)))
        self.assertTrue(all((it.euler == made[0].euler).all() for it in made))
        self.assertEqual(pickle.loads(pickle.dumps(made[0])).euler.tolist(), made[0].euler.tolist())

    def test_pandas(self) -> None:
        try:
            import pandas
        except ImportError:
            self.skipTest("this Python has no pandas")
        frame = pandas.DataFrame(trinorm.described("eLMkabcddbrrag", arrays=True).columns)
        self.assertEqual(frame.groupby("euler").size().to_dict(), {-2: 2, 0: 4, 1: 2, 2: 1})
        self.assertEqual(pandas.DataFrame(trinorm.count("eLMkabcddbrrag", arrays=True).columns)["surfaces"].sum(), 9)


if __name__ == "__main__":
    unittest.main()

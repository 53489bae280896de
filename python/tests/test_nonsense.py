"""Each public function with values of all kinds for each of its parameters: an answer comes, or an exception of the package that
says what was expected; and arrays of NumPy's and pandas', which are no nonsense."""
import collections
import contextlib
import decimal
import fractions
import functools
import importlib
import inspect
import io
import itertools
import pathlib
import subprocess
import sys
import tempfile
import unittest
from typing import Any, Callable, ClassVar, Dict, Iterator, List, Optional, Sequence, Tuple, Type

import trinorm
from trinorm import commands, comparisons, library, pictures, program, regina_surfaces, server, tables
from trinorm.arguments import shown
from trinorm.program import REPOSITORY

from .test_arguments import as_given

try:
    numpy: Any = importlib.import_module("numpy")
except ImportError:
    numpy = None
try:
    pandas: Any = importlib.import_module("pandas")
except ImportError:
    pandas = None
try:
    regina: Any = importlib.import_module("regina")
except ImportError:
    regina = None

SPHERE, TORUS, LINK = "bkaagj", (1, 1, 0, 0, 1, 0, 0), (1, 1, 1, 1, 0, 0, 0)
TABLE = trinorm.Table.parse("tri 1\n0:1023 0:1023 0:1230 0:3012\n")
SUM = trinorm.Sum(TORUS, 1, (trinorm.Term(1, TORUS),))
# a right value of each parameter, by its name
RIGHT: Dict[str, Any] = {
    "t": SPHERE, "one": SPHERE, "other": SPHERE, "tables": [SPHERE], "vectors": [TORUS], "vector": TORUS, "coords": None, "order": None, "max_entry": None,
    "rows": [[1, -1]], "columns": None, "sums": [SUM], "steps": [], "moves": [], "seed": 1, "timeout": None, "program": None, "triangulation": SPHERE,
    "arrays": None, "progress": None, "surface": None, "triangulations": None, "command": None, "executor": None, "in_order": None, "words": ["sig"], "text": "sig bkaagj\n", "word": "0:0123", "memory": None}
RIGHT.update({"table": TABLE, "points": [(1, 2.0)], "lines": [], "vertex": 0, "path": "/no/such/library", "out": None, "jobs": 1, "signatures": ["bkaagj"],
              "retry_failed": False, "skip_bad": False, "own_group": True})
# where a parameter has another meaning
OTHERS: Dict[Tuple[str, str], Any] = {("make", "moves"): 1, ("bulk", "moves"): 1, ("parse", "text"): str(TABLE)}


class Own(Exception):
    """What a value raises itself."""


class Raises:
    """Raises its own exception wherever it is looked at, in one of some ways."""

    def __init__(self, *ways: str) -> None:
        self.ways = ways

    def _own(self, way: str, otherwise: Any) -> Any:
        if way in self.ways:
            raise Own("an exception of the value itself")
        return otherwise

    def __iter__(self) -> Iterator[Any]:
        return iter([self._own("iter", 1)])

    def __index__(self) -> int:
        return int(self._own("index", 1))

    def __repr__(self) -> str:
        return str(self._own("repr", "Raises()"))

    def __bool__(self) -> bool:
        return bool(self._own("bool", True))

    def __eq__(self, other: object) -> bool:
        return bool(self._own("eq", self is other))

    __hash__ = None  # type: ignore[assignment]


class NoPath(type(pathlib.PurePath())):  # type: ignore[misc]
    """A path that has no text."""

    def __fspath__(self) -> Any:
        return 5


def values() -> List[Any]:
    """Values of all kinds, made anew for each call, since some are used up."""
    nothing: List[object] = []
    found: List[Any] = [
        None, True, False, 0, 1, -1, 7, 2 ** 70, -2 ** 70, 1.0, 0.5, float("nan"), float("inf"), 1j, fractions.Fraction(1, 2),
        "", "x", SPHERE, "bkaagjx", "tri 0", "tri 1\n- - - -", "a\0b", "\ud800", "é", "standard", "a/b.txt", "\n", b"", b"bkaagj", bytearray(b"1"),
        [], (), {}, set(), frozenset([1]), [1], (1, 2), [[1]], [[]], [None], ["x"], [b"x"], [[1, 2], [3]], range(3), {"a": 1}, {1: (1, 2)}, iter([]), iter([1]),
        (it for it in nothing), (it for it in (TORUS,)), itertools.repeat(0, 3), zip([1], [2]), object(), object, int, len, lambda: None, NotImplemented, Ellipsis,
        ValueError("x"), pathlib.Path("x"), memoryview(b"12"), TORUS, [TORUS], [LINK, TORUS], TABLE, [TABLE], SUM, [SUM], trinorm.Term(1, TORUS), as_given(trinorm.Table)(5),
        as_given(trinorm.Table)(((1,),)), as_given(trinorm.Sum)(1, 2, 3), [as_given(trinorm.Sum)(1, 2, 3)], as_given(trinorm.Gluing)("x", 5), [[as_given(trinorm.Gluing)("x", 5)] * 4], [float("nan")] * 7,
        [True] * 7, [2 ** 200] * 7, [-1] * 7, [["0:1023"] * 4], [[(0, 1)] * 4], [[(0, "0123"), None, "-", 5]], trinorm, unittest,
        10 ** 400, 10 ** 5000, -10 ** 5000, "9" * 5000, "9" * 5000 + ":0123", [10 ** 5000] * 7, [[10 ** 5000] * 7], [["9" * 5000 + ":0132"] * 4],
        [[(10 ** 5000, "0132")] * 4], [[trinorm.Gluing(10 ** 5000, (0, 1, 2, 3))] * 4], [trinorm.Sum(TORUS, 10 ** 5000, ())], [trinorm.Sum(TORUS, True, ())],
        [trinorm.Sum(TORUS, 1, (trinorm.Term(-1, TORUS),))], "14 0", "14 0\r14 0", "14 0\n", ["14 0\x0b23 0"], ["\udcff"], [b"14 0"], [(14, 0)], "sig bkaagj\nsig bkaagj",
        "tri 1\n0:1023 0:1023 0:1230 0:3012\nvec 1 1 0 0 1 0 0", "\udc80 x", "٣", decimal.Decimal("nan"), decimal.Decimal(1), collections.deque([TORUS]),
        collections.UserList([TORUS]), collections.OrderedDict(), NoPath("x"), Raises(), *([it] for it in (Raises("iter"), Raises("index"))), *map(Raises, ("iter", "index", "repr", "bool", "eq")),
        [[Raises("index")] * 7], open, [["1"] * 7], [[1.0] * 7], [range(7)], itertools.repeat(itertools.repeat(1, 7), 2), [[None] * 4] * 1001, "x" * 3_000_000,
    ]
    if numpy is not None:
        found += [numpy.array(TORUS), numpy.array([TORUS, LINK]), numpy.array(3), numpy.array([]), numpy.array([0.5]), numpy.array(["x"]), numpy.int64(1), numpy.float64("nan"),
                  numpy.bool_(True), numpy.array([True] * 7), numpy.zeros((2, 2, 2), int), numpy.str_("quad"), numpy.array([None, 1]),
                  numpy.full((1, 7), 2 ** 63 + 5, numpy.uint64), numpy.ones((2, 7), complex), numpy.ma.masked_array(TORUS, mask=[1] + [0] * 6), numpy.matrix(TORUS),
                  numpy.datetime64("2020"), numpy.array(["2020"], "datetime64[s]"), [numpy.uint64(2 ** 63 + 1)] * 7, numpy.rec.array([(1, 2)], dtype=[("a", int), ("b", int)]),
                  numpy.nan, numpy.float32(1), numpy.array("x"), numpy.bytes_(b"x")]
    if pandas is not None:
        found += [pandas.Series(TORUS), pandas.DataFrame([TORUS, LINK]), pandas.DataFrame(), pandas.Series(["x"]), pandas.NA, pandas.Timestamp(0),
                  pandas.DataFrame([TORUS]).astype(float), pandas.Series([1, pandas.NA] * 4, dtype="Int64"), [pandas.NA], [[pandas.NA] * 7], pandas.NaT, pandas.Categorical([1, 2]),
                  pandas.array([1, 2]), pandas.array(["bkaagj", "cPcbbbiht"]), pandas.DataFrame({"a": [1, "x"]})]
    if regina is not None:
        found += [regina.Triangulation3(), regina.Triangulation3.fromIsoSig(SPHERE), regina.Triangulation4(), regina.Triangulation2(), regina.Container(),
                  regina.NormalSurfaces(regina.Triangulation3.fromIsoSig("cPcbbbiht"), regina.NS_QUAD)[0], regina.Perm4(), regina.Triangulation3]
    return found


class Surface:
    """Answers as a surface of Regina's does."""

    def triangulation(self) -> "Surface":
        return self

    def size(self) -> int:
        return 1

    def triangles(self, tet: int, vertex: int) -> int:
        return TORUS[vertex]

    def quads(self, tet: int, kind: int) -> int:
        return TORUS[4 + kind]

    def octs(self, tet: int, kind: int) -> int:
        return 0


class Nonsense(unittest.TestCase):
    server: ClassVar[Optional[server.Server]]

    @classmethod
    def setUpClass(cls) -> None:
        cls.server = server.Server() if server.Server.find() else None
        if cls.server:
            cls.addClassCleanup(cls.server.close)

    def right(self, name: str, parameter: str) -> Any:
        if parameter == "program":
            return self.server
        if parameter == "surface" and regina is None:
            return Surface()
        if parameter == "surface":
            return regina.NormalSurfaces(regina.Triangulation3.fromIsoSig(SPHERE), regina.NS_STANDARD)[0]
        if parameter == "triangulation" and regina is not None:
            return regina.Triangulation3.fromIsoSig(SPHERE)
        return OTHERS.get((name, parameter), RIGHT[parameter])

    def try_all(self, name: str, call: Callable[..., object], parameters: Sequence[str], allowed: Tuple[Type[Exception], ...] = ()) -> int:
        """Tries each value for each parameter, the others being right. Returns how often it was called."""
        calls = 0
        wrong: List[str] = []
        expected: Tuple[Type[Exception], ...] = (trinorm.Refused, trinorm.BadArgument, trinorm.TimedOut, *allowed)
        for parameter in parameters:
            # what all functions take in one way is tried in full with some of them
            step = 5 if parameter in ("timeout", "program", "max_entry") and name not in ("surfaces", "group", "certify", "run") else 1
            for at, value in list(enumerate(values()))[len(name) % step::step]:
                if parameter == "progress" and callable(value):
                    continue  # what it raises is its own
                named = {other: self.right(name, other) for other in parameters if other != parameter}
                named = {other: right for other, right in named.items() if right is not None}
                try:
                    call(**named, **{parameter: value})
                except expected as fault:
                    self.assertGreater(len(str(fault)), 10)
                except Own:
                    pass
                except trinorm.Failed as fault:
                    is_program = parameter == "program" and "no program at" in str(fault)
                    is_line = parameter == "words" and "is not UTF-8" in str(fault)
                    if not (is_program or is_line or "module regina" in str(fault)):
                        wrong.append(f"{name}, {parameter}, value {at} ({shown(value)}): {type(fault).__name__}: {fault}")
                except Exception as fault:
                    wrong.append(f"{name}, {parameter}, value {at} ({shown(value)}): {type(fault).__name__}: {fault}")
                calls += 1
        self.assertEqual("\n".join(wrong), "")
        return calls

    def functions(self) -> Iterator[Tuple[str, Callable[..., object], List[str]]]:
        """The public functions with their parameters, of those whose names are known here."""
        for name in trinorm.__all__:
            call = getattr(trinorm, name)
            parameters = dict(inspect.signature(call).parameters) if inspect.isfunction(call) else {}
            needed = [it for it, kind in parameters.items() if kind.default is inspect.Parameter.empty]
            if parameters and name != "census" and set(needed) <= set(RIGHT):
                yield name, call, [it for it in parameters if it in RIGHT]

    def test_public_functions(self) -> None:
        calls = 0
        for name, call, parameters in self.functions():
            with self.subTest(name):
                calls += self.try_all(name, call, parameters)
        self.assertGreater(calls, 4951)

    def test_others(self) -> None:
        self.try_all("parse", trinorm.Table.parse, ["text"])
        self.try_all("parse", trinorm.Gluing.parse, ["word"])
        self.try_all("document", tables.document, ["triangulation"])
        self.try_all("vertex_surfaces", regina_surfaces.vertex_surfaces, ["t", "coords"])
        if self.server:
            self.try_all("run", self.server.run, ["words", "text", "timeout"])
            self.try_all("run", functools.partial(as_given(program.run), program=self.server), ["words", "text", "timeout", "program"])
        self.try_all("find", program.find, ["program"])
        self.try_all("listing", commands.listing, ["t", "coords", "order", "max_entry", "timeout", "program"])
        if regina is not None:
            self.try_all("compare", comparisons.compare, ["t", "coords", "timeout", "program"])

    def test_pictures(self) -> None:
        for name in ("face_pairs", "face_pairing_svg", "face_pairing_dot"):
            self.try_all(name, getattr(pictures, name), ["table"])
        self.try_all("surface_svg", pictures.surface_svg, ["t", "vector"])
        self.try_all("edges_svg", pictures.edges_svg, ["t"])
        self.try_all("vertex_link_svg", pictures.vertex_link_svg, ["t", "vertex"])
        self.try_all("growth_svg", pictures.growth_svg, ["points"])
        self.try_all("growth_points", lambda lines: list(pictures.growth_points(lines)), ["lines"])

    def test_a_census(self) -> None:
        """Wrong arguments are refused before anything is run; what is taken for lines or a file is another test's."""
        with tempfile.TemporaryDirectory() as folder:
            def census(**named: Any) -> object:
                given: Dict[str, Any] = {"signatures": [], "out": f"{folder}/out", "command": "sig", "jobs": 1, "program": program.find(), **named}
                with contextlib.redirect_stderr(io.StringIO()):
                    return trinorm.census(**given)

            self.try_all("census", census, ["command", "coords", "timeout", "jobs", "retry_failed", "skip_bad", "executor"])

    def test_many(self) -> None:
        def many(**named: Any) -> List[Any]:
            given: Dict[str, Any] = {"triangulations": [SPHERE], "command": "sig", "program": self.server, **named}
            return list(trinorm.many(**given))

        self.try_all("many", many, ["triangulations", "command", "executor", "timeout", "in_order", "program", "progress"], (trinorm.Failed,))
        self.try_all("many", lambda **named: many(command="surfaces", **named), ["coords", "order", "max_entry", "arrays"], (trinorm.Failed,))

    def test_the_library(self) -> None:
        found = program.find_library()
        if found is None:
            self.skipTest("the library isn't built")
        self.assertIsInstance(found, library.Library)
        self.try_all("answer", found.answer, ["words", "text", "timeout", "memory"])
        self.try_all("run", found.run, ["words", "text", "timeout", "memory"], (trinorm.Failed,))


@unittest.skipIf(numpy is None, "NumPy isn't there")
class Arrays(unittest.TestCase):
    """Vectors and lists of vectors by NumPy and pandas."""

    def test_vectors(self) -> None:
        for kind in ("int64", "int32", "uint8", "object"):
            one, two = numpy.array(TORUS, kind), numpy.array([TORUS, LINK], kind)
            self.assertEqual(trinorm.sig(trinorm.crush(SPHERE, one)), trinorm.sig(trinorm.crush(SPHERE, TORUS)))
            for vectors in (two, list(two), tuple(two), [one, LINK], two[:, ::1]):
                right = [tuple(map(int, it)) for it in vectors]
                self.assertEqual(trinorm.verify(SPHERE, vectors), trinorm.verify(SPHERE, right))
                self.assertEqual(trinorm.describe(SPHERE, vectors), trinorm.describe(SPHERE, right))
        self.assertEqual(trinorm.describe(SPHERE, two[::-1].astype("int16", order="F")), trinorm.describe(SPHERE, [LINK, TORUS]))
        self.assertEqual(trinorm.verify(SPHERE, numpy.zeros((0, 7), int)), [])

    def test_rows(self) -> None:
        rows = numpy.array([[1, -2, 0], [0, 1, -2]])
        self.assertEqual(trinorm.rays(rows), [(4, 2, 1)])
        self.assertEqual(trinorm.rays(rows, columns=numpy.int64(3), max_entry=numpy.uint8(200)), [(4, 2, 1)])
        self.assertEqual(trinorm.rays(numpy.zeros((0, 2), int), 2), [(0, 1), (1, 0)])

    def test_tables(self) -> None:
        self.assertEqual(trinorm.sig([[(numpy.int64(0), numpy.array([1, 0, 2, 3])), (0, "1023"), "0:1230", "0:3012"]]), SPHERE)
        self.assertEqual(trinorm.sig(numpy.array([["0:1023", "0:1023", "0:1230", "0:3012"]])), SPHERE)

    def test_those_that_are_none(self) -> None:
        for value in (numpy.array(TORUS), numpy.array(3), numpy.array([[[1]]]), numpy.array([[0.5] * 7]), numpy.array([[1.0] * 7]), numpy.array(["x"]), numpy.array([[True] * 7])):
            with self.assertRaises(trinorm.BadArgument):
                trinorm.describe(SPHERE, value)
        with self.assertRaisesRegex(trinorm.BadArgument, "astype"):
            trinorm.crush(SPHERE, numpy.array(TORUS, float))
        with self.assertRaisesRegex(trinorm.BadArgument, "coords must be one of"):
            trinorm.surfaces(SPHERE, coords=numpy.array(["quad", "quad"]))

    @unittest.skipIf(pandas is None, "pandas isn't there")
    def test_pandas(self) -> None:
        frame = pandas.DataFrame([TORUS, LINK])
        right = trinorm.describe(SPHERE, [TORUS, LINK])
        self.assertEqual(trinorm.describe(SPHERE, frame), right)
        self.assertEqual(trinorm.describe(SPHERE, pandas.Series([TORUS, LINK])), right)
        self.assertEqual(trinorm.describe(SPHERE, [frame.loc[0], frame.iloc[1]]), right)
        self.assertEqual(trinorm.crush(SPHERE, pandas.Series(TORUS)), trinorm.crush(SPHERE, TORUS))
        self.assertEqual(trinorm.group(pandas.Series([SPHERE, "bkaagb"])).classes, (0, 1))
        self.assertEqual(trinorm.rays(pandas.DataFrame([[1, -2, 0], [0, 1, -2]])), [(4, 2, 1)])

    def test_it_is_not_imported(self) -> None:
        text = "import sys, trinorm\ntry:\n    trinorm.verify('bkaagj', [(-1,)], program='/bin/false')\nexcept trinorm.Error:\n    print('numpy' in sys.modules)"
        done = subprocess.run([sys.executable, "-c", text], cwd=REPOSITORY / "python", stdout=subprocess.PIPE, text=True, check=True)
        self.assertEqual(done.stdout, "False\n")


if __name__ == "__main__":
    unittest.main()

"""Arguments that are none, and what is said of refusals."""
import pathlib
import unittest
from typing import Any, Callable, Iterator, List, Tuple

import trinorm
from trinorm import BadArgument, hints, pictures
from trinorm.arguments import read_number, shown
from trinorm.documents import fault_of

TORUS = (1, 1, 0, 0, 1, 0, 0)
SPHERE = "bkaagj"


def as_given(call: Callable[..., Any]) -> Callable[..., Any]:
    """A function, for arguments of other types than it names."""
    return call


class FromSnapPy:
    """Answers as SnapPy's manifolds do."""

    def triangulation_isosig(self, decorated: bool = True) -> str:
        return "cPcbbbiht_BaCB" if decorated else "cPcbbbiht"


class Arguments(unittest.TestCase):
    def is_none(self, text: str, call: Callable[..., object], *words: object, **named: object) -> None:
        with self.assertRaisesRegex(BadArgument, text):
            call(*words, **named)

    def test_triangulations(self) -> None:
        for value in (None, b"bkaagj", 7, pathlib.Path("a.txt")):
            self.is_none("expected a triangulation, not", trinorm.info, value)
        self.is_none("not the name", trinorm.info, "folder/a")
        self.is_none("not the name", trinorm.info, "a.txt")
        self.is_none("separately", trinorm.info, "baa.bkaagj")
        self.is_none("a list of triangulations", trinorm.group, SPHERE)

    def test_texts_with_more_behind_the_triangulation(self) -> None:
        more = "more text after it"
        for text in (f"sig {SPHERE}\nvec 1 1 1 1 0 0 0", "# one\n\ntri 1\n0:1023 0:1023 0:1230 0:3012\nvec 1 1 1 1 0 0 0\n"):
            for name in ("describe", "verify", "decompose", "lift"):
                self.is_none(more, getattr(trinorm, name), text, [TORUS])
        moves = f"sig {SPHERE}\n14 0\n"
        for name in ("table", "play", "certify"):
            self.is_none(more, getattr(trinorm, name), moves)
        self.is_none(more, trinorm.same, f"sig {SPHERE}\nsig {SPHERE}", "# nothing")
        self.is_none(more, trinorm.group, [f"sig {SPHERE}\nsig cPcbbbiht"])
        self.is_none("not an empty string", trinorm.group, ["", f"sig {SPHERE}"])
        self.is_none("has 0 rows of 1", trinorm.play, "tri 1", ["0:1023 0:1023 0:1230 0:3012"])
        self.assertEqual(trinorm.verify(f"# one\r\nsig {SPHERE}\r\n\n# end", [TORUS])[0].kind, "solution")

    def test_numbers_that_begin_with_zeros(self) -> None:
        """The program reads any number of zeros before a number, so the package does."""
        for zeros in (1, 20, 5000):
            text = f"tri {'0' * zeros}1\n0:1023 0:1023 0:1230 0:3012\n"
            calls: List[Tuple[str, Callable[..., object], object]] = [
                (f"sig {SPHERE}", trinorm.same, ""), ("14 0", trinorm.check, ["41 3 3"]), ("vec 1 1 1 1 0 0 0", trinorm.describe, [TORUS])]
            for more, call, second in calls:
                self.is_none("more text after it", call, f"{text}{more}\n", second)
            self.assertEqual(trinorm.same(text, SPHERE), trinorm.same(SPHERE, SPHERE))
            with self.assertRaisesRegex(trinorm.Refused, "refused: input 2 8 bad-word"):
                trinorm.sig(text.replace("0:1023 0:1023", "0:1023 x"))
        self.assertEqual([read_number(it) for it in ("0", "007", "9" * 20, "9" * 21, "", "-1", "1x", "\u0663")], [0, 7, int("9" * 20), *[None] * 5])

    def test_numbers_that_are_too_long(self) -> None:
        long = 10 ** 5000
        self.is_none("timeout must be", trinorm.sig, SPHERE, timeout=10 ** 400)
        self.is_none("timeout must be", trinorm.sig, SPHERE, timeout=-long)
        self.is_none("a number is too long", trinorm.verify, SPHERE, [[long] * 7])
        self.is_none("a number is too long", trinorm.rays, [[long]])
        self.is_none("an entry of a gluing table", trinorm.info, [["9" * 5000 + ":0132"] * 4])
        self.is_none("an entry of a gluing table", trinorm.info, [[(long, "0132")] * 4])

    def test_pictures(self) -> None:
        for call in (pictures.face_pairing_svg, pictures.face_pairing_dot, pictures.face_pairs):
            self.is_none("expected a Table", call, SPHERE)
        for vertex in ("0", None, 0.0):
            self.is_none("vertex must be the number of a vertex", pictures.vertex_link_svg, SPHERE, vertex)
        self.is_none("nothing to draw", pictures.growth_svg, [])
        self.is_none("points must be pairs", pictures.growth_svg, 5)
        with self.assertRaises(BadArgument):
            list(as_given(pictures.growth_points)(5))

    def test_vectors(self) -> None:
        self.is_none("a list of vectors", trinorm.describe, SPHERE, TORUS)
        self.is_none("a list of vectors", trinorm.verify, SPHERE, "vec 1 1 0 0 1 0 0")
        self.is_none("a vector must be a list", trinorm.verify, SPHERE, ["vec 1 1 0 0 1 0 0"])
        self.is_none("a vector must be a list", trinorm.crush, SPHERE, [TORUS])
        self.is_none("a list of moves", trinorm.check, SPHERE, "14 0")
        self.is_none("a list of steps", trinorm.play, SPHERE, "14 0")
        for step in ("", "  ", "# 14 0"):
            self.is_none(f"expected a list of steps, such as .*; {step!r} is not one of them", trinorm.play, SPHERE, ["14 0", step])

    def test_vectors_of_other_kinds(self) -> None:
        self.is_none("1.0 is not a whole number; convert an array with astype", trinorm.crush, SPHERE, [1.0] * 7)
        self.is_none("True is not a whole number", trinorm.crush, SPHERE, [True] * 7)
        self.is_none("'1' is not a whole number", trinorm.crush, SPHERE, ["1"] * 7)
        self.is_none(", not {}", trinorm.crush, SPHERE, {})
        self.is_none("a list of vectors", trinorm.describe, SPHERE, {TORUS: 1})
        self.is_none("expected a list of moves", trinorm.check, SPHERE, [(14, 0)])
        self.is_none("expected a list of moves", trinorm.check, SPHERE, ["14 0\n41 0 3"])
        self.is_none("expected a list of Sum", trinorm.addup, SPHERE, [TORUS])
        [one] = trinorm.decompose(SPHERE, [TORUS])
        self.is_none("expected a list of Sum", trinorm.addup, SPHERE, one)
        self.is_none("a Sum needs a vector", trinorm.addup, SPHERE, [as_given(trinorm.Sum)(1, 2, 3)])
        self.assertTrue(trinorm.addup(SPHERE, [as_given(trinorm.Sum)(list(TORUS), 1, [as_given(trinorm.Term)(1, list(TORUS))])]))

    def test_cones(self) -> None:
        self.is_none("row 1 of the cone has 2 coefficients; it should have 3", trinorm.rays, [[1, 2, 3], [1, 2]])
        self.is_none("the rows of a cone must be", trinorm.rays, [1])
        self.is_none("the rows of a cone must be", trinorm.rays, 5)
        for columns in (-1, 10_001, "2", 2.0, True):
            self.is_none("columns must be a whole number from 0 to 10,000", trinorm.rays, [], columns)

    def test_iterators_that_were_read(self) -> None:
        rows = iter(["0:1023 0:1023 0:1230 0:3012"])
        self.assertEqual(as_given(trinorm.sig)(rows), SPHERE)
        self.is_none("the iterator has no rows: it may be exhausted", trinorm.sig, rows)
        self.is_none("the iterator has no rows", trinorm.surfaces, iter(()))
        for value in ({}, set(), frozenset(), b"", bytearray()):
            self.is_none("expected a triangulation, not", trinorm.csig, value)
        nothing: Tuple[trinorm.tables.Triangulation, ...] = ([], (), "tri 0")
        for empty in nothing:
            self.assertEqual(trinorm.csig(empty), "a")

    def test_entries_of_rows(self) -> None:
        for entry in ((0,), (0, 1), (0, "012"), (0, (0, 1, 2, 4)), ("0", "0123"), (-1, "0123"), (0, "01x3"), "0-0123", 7, {0: "0123"}):
            self.is_none("As a list of rows it is wrong: ", trinorm.info, [[entry, None, None, None]])
        self.is_none("a row of a gluing table must have four entries", trinorm.info, [["0:1023"]])
        self.is_none("a row of a gluing table must have four entries", trinorm.info, [1])

    def test_limits_of_time(self) -> None:
        for value in (0, -1, -0.5, float("nan"), float("inf"), "1", b"", {}, [], True, False, 1j):
            for program in (None, trinorm.find()):
                self.is_none("timeout must be a positive number of seconds", trinorm.sig, SPHERE, timeout=value, program=program)

    def test_programs(self) -> None:
        for value in (7, {}, [], b"trinorm", "", "a\0b", object, lambda: None, dict):
            self.is_none("program must be the path of a program", trinorm.sig, SPHERE, program=value)
        self.assertEqual(trinorm.sig(SPHERE, program=pathlib.Path(trinorm.find())), SPHERE)

    def test_near_misses(self) -> None:
        self.is_none("did you mean 'quad'", trinorm.surfaces, SPHERE, coords="quads")
        self.is_none("did you mean 'zeros'", trinorm.surfaces, SPHERE, order="zero")

    def test_options(self) -> None:
        self.is_none("coords must be one of standard, quad, octagon, not 'quads'", trinorm.surfaces, SPHERE, coords="quads")
        self.is_none("coords must be one of standard, octagon", trinorm.describe, SPHERE, [], coords="quad")
        self.is_none("order must be one of given, short, zeros", trinorm.surfaces, SPHERE, order="zero")
        self.is_none("max_entry must be a whole number from 1", trinorm.surfaces, SPHERE, max_entry=0)
        self.is_none("seed must be a whole number", trinorm.make, -1, 2)
        self.is_none("moves must be a whole number from 0 to 5", trinorm.bulk, 1, 6)
        self.is_none("pass columns=", trinorm.rays, [])

    def test_values_are_shown_in_part(self) -> None:
        self.assertEqual(shown("x" * 58), repr("x" * 58))
        self.assertEqual(shown("x" * 59), "'" + "x" * 49 + " .. (of type str)")
        self.assertEqual(shown([0] * 20), repr([0] * 20))
        self.assertEqual(shown([0] * 21), "[" + "0, " * 16 + "0 .. (of type list)")

    def test_columns_of_other_packages(self) -> None:
        """What has a type of its entries, but no `tolist`, is read as any other iterable."""
        class Column:
            dtype = "Int64"

            def __iter__(self) -> Iterator[int]:
                return iter(TORUS)

        self.assertEqual(trinorm.sig(as_given(trinorm.crush)(SPHERE, Column())), trinorm.sig(trinorm.crush(SPHERE, TORUS)))
        self.is_none("a list of vectors", trinorm.verify, SPHERE, Column())

    def test_are_errors_of_both_kinds(self) -> None:
        self.assertTrue(issubclass(BadArgument, ValueError) and issubclass(BadArgument, trinorm.Error))

    def test_the_order_is_the_program_s(self) -> None:
        self.assertEqual(trinorm.surfaces("cPcbbbiht", max_entry=1), trinorm.surfaces("cPcbbbiht", order="given", max_entry=1))
        with self.assertRaises(trinorm.Refused):
            trinorm.surfaces("cPcbbbiht", order="zeros", max_entry=1)

    def test_snappy(self) -> None:
        self.assertEqual(trinorm.sig(FromSnapPy()), "cPcbbbiht")


class Hints(unittest.TestCase):
    def hint(self, text: str, call: Callable[..., object] = trinorm.verify, *words: object) -> str:
        with self.assertRaises(trinorm.Refused) as caught:
            call(text, *words or ([],))
        return caught.exception.hint or ""

    def test_signatures(self) -> None:
        self.assertIn("_BaCB is SnapPy's decoration", self.hint("cPcbbbiht_BaCB"))
        self.assertIn("_BaCB is SnapPy's decoration", self.hint("# one\nsig cPcbbbiht_BaCB"))
        self.assertEqual(self.hint("# a comment\ncPcbbbiht"), "write `sig` before cPcbbbiht")
        self.assertEqual(self.hint("# a comment\ncPcbbbiht_BaCB"), "write `sig` before cPcbbbiht, and leave out SnapPy's decoration _BaCB")
        self.assertEqual(self.hint("bkaagjx"), "the signature is complete before this")
        for name in ("m004", "s776", "o9_00042", "4_1", "K8n1"):
            self.assertIn(f"{name} is the name of a manifold; in SnapPy, `Manifold('{name}')", self.hint(name))
        for name in ("L(5,2)", "L(8,-3)"):
            self.assertIn(f"{name} is the name of a lens space; in Regina, `Example3.lens(p, q)", self.hint(name))

    def test_files(self) -> None:
        self.assertIn("the input is empty", self.hint("\n"))
        self.assertIn("byte order mark", self.hint("\ufefftri 0\n"))
        self.assertIn("a file of Regina", self.hint('<?xml version="1.0"?>\n<regina engine="7.3">\n'))
        self.assertIn("compressed", self.hint("\x1f\udc8b\n1\n"))
        self.assertIn("SnapPea", self.hint("% Triangulation\nm004\n"))

    def test_entries(self) -> None:
        self.assertIn("such as 1:0213", self.hint("tri 1\n(0,1023) - - -\n"))
        self.assertIn("such as 1:0213", self.hint("tri 1\n0:102 - - -\n"))
        self.assertIn("whole numbers of at least 0", self.hint(SPHERE, trinorm.verify, [(-1,)]))
        self.assertIn("such as 1:0213", self.hint("tri 1\n- - -\n"))

    def test_places_in_inputs(self) -> None:
        """In which state of a document a line is read."""
        table, kind = "tri 1\n- - - -\n", "input bad-entry"
        for reads, text, line, state in (
            ("two-tables", table + table, 3, "tri"), ("two-tables", table + table, 4, "row"), ("two-tables", table * 3, 5, "end"), ("table", table * 2, 3, "end"),
            ("tables", table * 3, 6, "row"), ("vectors", table + "vec 1\nvec 1\n", 4, "vector"), ("vector", table + "vec 1\nvec 1\n", 4, "end"),
            ("steps", table + "14 0\n", 3, "steps"), ("moves", table + "14 0\n", 3, "moves"), ("cone", "cone 2 2\n1 1\n1 1\n", 3, "cone-row"),
            ("cone", "cone 2 1\n1 1\n1 1\n", 3, "end"), ("cone", "cone 0 2\n1\n", 2, "end"),
            ("blocks", table + "vec 1\ntimes 1 2\nterm 1 1\nterm 1 1\nvec 1\n", 4, "times"), ("blocks", table + "vec 1\ntimes 1 2\nterm 1 1\nterm 1 1\nvec 1\n", 6, "term"),
            ("blocks", table + "vec 1\ntimes 1 2\nterm 1 1\nterm 1 1\nvec 1\n", 7, "vector"), ("blocks", table + "vec 1\ntimes 1 0\nvec 1\n", 5, "vector"),
        ):
            self.assertEqual(fault_of(reads, kind, (line, 5 if state == "tri" else 1), text).state, state, (reads, text, line))
        self.assertEqual(fault_of("table", kind, (2, 3), "tri 1\n- x - -\n").words, ("x",))
        self.assertEqual(fault_of("table", kind, (2, 3), "tri 1\n- x - -\n").number, 2)
        for column, state, number in ((1, "table", 1), (5, "sig", 2), (12, "sig", 3)):
            found = fault_of("table", kind, (1, column), "sig bkaagj x\n")
            self.assertEqual((found.state, found.number), (state, number))

    def test_a_refusal_of_which_no_command_is_known(self) -> None:
        self.assertEqual(hints.hint(trinorm.Refused(3, "refused: signature trailing 6")), "the signature is complete before this")

    def test_checks_and_limits(self) -> None:
        calls: Tuple[Tuple[str, Callable[..., object], Tuple[object, ...]], ...] = (
            ("6 entries; standard coordinates have 7", trinorm.describe, (SPHERE, [TORUS[1:]])), ("`lift` converts", trinorm.crush, (SPHERE, (0, 0, 1))),
            ("quad coordinates, with 3 for each", trinorm.lift, (SPHERE, [TORUS])), ("10 for each tetrahedron", trinorm.describe, (SPHERE, [TORUS], "octagon")),
            ("does not solve equation 0", trinorm.describe, (SPHERE, [(1, 0, 0, 0, 0, 0, 0)])), ("at most one of columns 5 and 6 may be positive", trinorm.crush, (SPHERE, (0, 0, 1, 1, 0, 1, 1))),
            ("spun-normal at vertex 0", trinorm.lift, ("cPcbbbiht", [(2, 0, 0, 0, 0, 1)])), ("cannot be reached from tetrahedron 0. Use `csig`", trinorm.sig, (["- - - -"] * 2,)),
            ("Use `csame`", trinorm.same, (["- - - -"] * 2, SPHERE)), ("`--max-entry`", trinorm.rays, ([[1, -2, 0], [0, 1, -2]], None, "given", 2)),
            ("is glued to itself in reverse", trinorm.describe, ("tri 1\n0:1032 0:1032 - -\n", [])),
        )
        for text, call, words in calls:
            with self.assertRaises(trinorm.Refused) as caught:
                call(*words)
            self.assertIn(text, caught.exception.hint or "")
        self.assertIn("end at bkaagb", trinorm.check("bkaagb", []).hint)
        self.assertIn("move 3 is illegal", trinorm.check(SPHERE, ["14 0", "41 0 3", "23 0 0"]).hint)

    def test_words(self) -> None:
        said: Tuple[Tuple[List[str], str], ...] = (
            ([], "a command is missing"), (["surface"], "; did you mean `surfaces`?"), (["surfaces", "--cords", "quad"], "; did you mean `--coords`?"),
            (["surfaces", "--coords", "quads"], "one of standard, quad, octagon, not `quads`; did you mean `quad`?"), (["make"], "`make` needs the option `--seed`"),
            (["make", "--seed", "1", "--moves", "1001"], "a whole number from 0 to 1000, not `1001`"), (["sig", "--", "x"], "no option `--`"),
            (["make", "--seed=1", "--seed=1"], "given twice"), (["surfaces", "--order"], "needs a value: one of given"), (["sig", "bkaagj"], "leave `bkaagj` out"),
            (["make", "--seed", "1", "--moves", "1", "x"], "options only"))
        for asked, text in said:
            with self.assertRaises(trinorm.Refused) as caught:
                trinorm.program.run(asked)
            self.assertEqual(caught.exception.line, "refused: usage")
            self.assertIn(text, caught.exception.hint or "", asked)

    def test_are_told(self) -> None:
        with self.assertRaisesRegex(trinorm.Refused, r"refused: signature trailing 9 \(_BaCB is"):
            trinorm.info("cPcbbbiht_BaCB")


if __name__ == "__main__":
    unittest.main()

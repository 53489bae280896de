"""The tool that makes the methods of tables and PYTHON's table of functions."""
import ast
import sys
import unittest
from typing import Dict, List

from trinorm import commands
from trinorm.program import REPOSITORY
from trinorm.table_methods import TableMethods

sys.path.insert(0, str(REPOSITORY / "tools"))

import methods  # noqa: E402

SOURCE = '''\
def twice(t: Triangulation, other: "Any" = 'x', *, program: Program = None) -> List[numpy_arrays.Kind]:
    r"""Twice the triangulation.

    Args:
        t: a triangulation
            of any kind
        other: another one
        program: the program

    >>> import trinorm
    >>> trinorm.twice("a\\n", 'b'), trinorm.twice(twice.t)
    (1, 2)
    """
'''
METHOD = '''\
    def twice(self, other: "Any" = "x", *, program: Program = None) -> List[Kind]:
        """Twice the triangulation.

        Args:
            other: another one
            program: the program

        >>> import trinorm
        >>> trinorm.table("a\\\\n").twice('b'), trinorm.table(twice.t).twice()
        (1, 2)
        """
        return cast("List[Kind]", _functions["twice"](self, other, program=program))
'''


DOCSTRING = "A line.\n\nReturns:\n    This,\n    and that.\n\nRaises:\n    Failed: no\n"


def functions(text: str) -> List[ast.FunctionDef]:
    """The functions that a text defines."""
    return [it for it in ast.parse(text).body if isinstance(it, ast.FunctionDef)]


class Methods(unittest.TestCase):
    def test_a_method(self) -> None:
        [definition] = functions(SOURCE)
        self.assertTrue(methods.is_of_triangulation(definition))
        self.assertEqual(methods.method(methods.Function("twice", [definition])), METHOD)
        self.assertEqual(methods.names_in(definition), {"Any", "Program", "List", "Kind"})

    def test_an_overload(self) -> None:
        definitions = functions("def f(t: Given, x: int = ...) -> Any: ...\ndef f(t, x: int = 1) -> Any:\n    'Text.'")
        self.assertTrue(methods.method(methods.Function("f", definitions)).startswith("    @overload\n    def f(self, x: int = ...) -> Any: ...\n"))

    def test_long_lines_are_parted(self) -> None:
        more = ", ".join(f"argument_{number}: Optional[Sequence[int]] = None" for number in range(9))
        [definition] = functions(f"def f(t: Given, {more}) -> Any: ...")
        text = methods.head(definition)
        self.assertLessEqual(max(map(len, text.split("\n"))), methods.COLUMNS)
        [made] = [it for it in ast.walk(ast.parse(f"class A:\n{text} ...")) if isinstance(it, ast.FunctionDef)]
        self.assertEqual([it.arg for it in made.args.args], ["self", *(f"argument_{i}" for i in range(9))])

    def test_calls_of_an_example(self) -> None:
        for line, found in (("trinorm.sig(t)", "trinorm.table(t).sig()"), ("trinorm.sig(t, timeout=5)", "trinorm.table(t).sig(timeout=5)"),
                            ("[trinorm.sig(it) for it in ts]", "[trinorm.table(it).sig() for it in ts]"), ("trinorm.csig(t)", "trinorm.csig(t)"),
                            ("trinorm.sig(trinorm.play(t, []).table).strip()", "trinorm.table(trinorm.play(t, []).table).sig().strip()")):
            self.assertEqual(methods.of_table(line, "sig"), found)

    def test_others_are_no_methods(self) -> None:
        for source in ("def f(rows: List[int]): ...", "def _f(t: Given): ...", "def f(): ..."):
            self.assertFalse(methods.is_of_triangulation(functions(source)[0]), source)

    def test_a_row(self) -> None:
        """The fields are those of the first data class; a class without fields has none."""
        known: Dict[str, List[str]] = {"Kind": ["one", "two"], "Other": ["three"], "None": []}
        for result, cell in (("List[Kind]", "`one`, `two` "), ("Union[Other, Kind]", "`three` "), ("str", "")):
            text = f"def f(t, other=1, *, program=None) -> {result}:\n  {DOCSTRING!r}"
            self.assertEqual(methods.row(methods.Function("f", functions(text)), known), f"| `f(t, other)` | This, and that. | {cell}|")

    def test_fields_and_functions(self) -> None:
        """Fields of bases come first; each function of a command has a row."""
        found = methods.fields()
        self.assertEqual(found["Component"], ["euler", "sides", "orientable", "vector"])
        self.assertEqual(found["Accepted"][:3], ["kind", "places", "hint"])
        self.assertLessEqual(set(commands.__all__), {function.name for function in methods.every_function()})

    def test_nothing_is_stale(self) -> None:
        self.assertEqual(methods.main(True), 0)
        self.assertEqual({it.name for it in methods.functions()}, {name for name in vars(TableMethods) if not name.startswith("_")})


if __name__ == "__main__":
    unittest.main()

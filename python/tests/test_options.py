"""The options of the commands: what the table says is what the functions take, and the program."""
import contextlib
import inspect
import io
import typing
import unittest

import trinorm
from trinorm import batch, commands, errors, options as option_values, tasks
from trinorm.__main__ import main
from trinorm.options import OPTIONS, Range, at_least_one, coordinates, nearest, seconds, words


class Options(unittest.TestCase):
    def test_each_command_is_a_function_with_its_options(self) -> None:
        for name, options in OPTIONS.items():
            parameters = inspect.signature(getattr(trinorm, name)).parameters
            for option in options:
                self.assertIn(option.replace("-", "_"), parameters, name)

    def test_the_package_has_each_command(self) -> None:
        self.assertEqual(sorted([*OPTIONS, "table"]), sorted(commands.__all__))
        self.assertLessEqual({*OPTIONS, "table"}, set(trinorm.__all__))

    def test_the_first_coordinates_are_the_default(self) -> None:
        for name, options in OPTIONS.items():
            if "coords" in options:
                self.assertEqual(inspect.signature(getattr(trinorm, name)).parameters["coords"].default, coordinates(name)[0])
        self.assertEqual(coordinates("info"), ())

    def test_words(self) -> None:
        self.assertEqual(words("surfaces", coords="quad", order=None, max_entry=2 ** 127 - 1), ["surfaces", "--coords", "quad", "--max-entry", str(2 ** 127 - 1)])
        self.assertEqual(words("bulk", seed=0, moves=5), ["bulk", "--seed", "0", "--moves", "5"])
        self.assertEqual(OPTIONS["bulk"]["moves"], Range(0, 5))


class CommandLine(unittest.TestCase):
    """Numbers on the command line of the package, which argparse refuses by a sentence and status 2."""

    def said(self, *words: str) -> str:
        with contextlib.redirect_stderr(io.StringIO()) as said, self.assertRaises(SystemExit) as caught:
            main([*words])
        self.assertEqual(caught.exception.code, 2)
        return said.getvalue()

    def test_jobs_and_limits_that_are_none(self) -> None:
        for what in (["crosscheck", "bkaagj"], ["crosscheck", "--file", "f"], ["census", "f"]):
            for jobs in ("0", "-1", "1.5", "x", "", "nan"):
                self.assertIn("expected a whole number of at least 1", self.said(*what, f"--jobs={jobs}"))
            for timeout in ("0", "-1", "nan", "inf", "-inf", "x", "", "1e999"):
                self.assertIn("expected a positive number of seconds", self.said(*what, f"--timeout={timeout}"))

    def test_those_that_are_some(self) -> None:
        self.assertEqual([at_least_one(it) for it in ("1", "64")], [1, 64])
        self.assertEqual([seconds(it) for it in ("0.5", "1e3", "7")], [0.5, 1000.0, 7.0])

    def test_near_misses(self) -> None:
        self.assertEqual([nearest(it, OPTIONS) for it in ("surface", "desribe", "cover", "x")], ["surfaces", "describe", "cover", None])


class Types(unittest.TestCase):
    def test_literals_are_those_of_the_table(self) -> None:
        self.assertEqual(typing.get_args(option_values.Coords), option_values.OPTIONS["surfaces"]["coords"])
        self.assertEqual(typing.get_args(option_values.Order), option_values.OPTIONS["surfaces"]["order"])
        self.assertEqual(typing.get_args(batch.CommandName), tuple(batch.COMMANDS))
        self.assertEqual(sorted(typing.get_args(tasks.CommandName)), sorted(set(tasks.COMMANDS) - {"crosscheck"}))
        self.assertEqual(typing.get_args(commands.OfTable), option_values.reading("table"))
        self.assertEqual(typing.get_args(option_values.WithTriangles), option_values.OPTIONS["describe"]["coords"])


class Refusals(unittest.TestCase):
    def test_places_have_names(self) -> None:
        for line, named in (("refused: input 3 5 bad-word", {"line": 3, "column": 5}), ("refused: table not-mutual 1 2", {"tetrahedron": 1, "face": 2}),
                            ("refused: signature trailing 9", {"character": 9}), ("refused: not-connected 0 1", {"triangulation": 0, "tetrahedron": 1}),
                            ("refused: invalid-edge 4", {"edge": 4}), ("refused: vector 2 clash 5 6", {"vector": 2, "first_column": 5, "second_column": 6}),
                            ("refused: vector 2 term 1 fails 3", {"sum": 2, "term": 1, "row": 3}), ("refused: vector 2 large-times 1 3", {"vector": 2, "step": 1, "column": 3}),
                            ("refused: large step 0 row 2 value 0 1", {"step": 0, "row": 2, "ray": (0, 1)}), ("refused: usage", {}),
                            ("refused: large step 0 row 2 pair 0 1 and 1 0", {"step": 0, "row": 2, "ray": (0, 1), "other_ray": (1, 0)}),
                            ("refused: check not-standard bkaagb", {"signature": "bkaagb"}), ("refused: check illegal 3 repeated 3", {"move": 3})):
            self.assertEqual(errors.Refused(4, line).named, named, line)


if __name__ == "__main__":
    unittest.main()

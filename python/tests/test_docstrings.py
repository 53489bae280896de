"""The docstrings of what users call: each says what it is, its arguments, what it returns and raises, and has an example that is right."""
import contextlib
import dataclasses
import doctest
import importlib
import importlib.util
import inspect
import io
import pkgutil
import re
import types
import unittest
from typing import Any, Iterator, List, Optional, Tuple

import trinorm
from trinorm import arrays, citation, comparisons, library, pictures, program, questions, regina_surfaces
from trinorm.server import Server
from trinorm.table_methods import TableMethods

# what PYTHON.md and LIBRARY.md describe besides the names of the package
OTHERS = (Server, library.Library, library.at, library.next_to, program.run, program.run_process, program.find_library, pictures.face_pairing_svg,
          pictures.face_pairing_dot, pictures.face_pairs, pictures.surface_svg, pictures.edges_svg, pictures.vertex_link_svg, pictures.growth_svg,
          pictures.growth_points, regina_surfaces.vertex_surfaces, comparisons.compare, citation.sentences, arrays.Described, arrays.Components,
          questions.CountArrays)
# of what can't be shown in a line, or isn't called by users themselves
WITHOUT_EXAMPLE = {"sentences", "Components"}
# what raises nothing of its own
RAISES_NOTHING = {"Library.held", "library.next_to", "Server.close"}


def public() -> Iterator[Tuple[str, Any]]:
    """What users call, with its name."""
    for thing in [*(getattr(trinorm, name) for name in trinorm.__all__), *OTHERS]:
        yield thing.__qualname__ if inspect.isclass(thing) or thing.__module__ != "trinorm.library" else f"library.{thing.__name__}", thing
        if inspect.isclass(thing):
            for name in {name for kind in thing.__mro__ if kind.__module__.startswith("trinorm") for name in vars(kind)}:
                member = inspect.getattr_static(thing, name)
                if not name.startswith("_") and isinstance(member, (property, classmethod, staticmethod, types.FunctionType)):
                    yield f"{thing.__qualname__}.{name}", getattr(thing, name)


def section(text: Optional[str], name: str) -> List[str]:
    """The lines of a section, without their indentation."""
    found = re.search(rf"(?ms)^{name}:\n(.*?)(?=\n\n|\Z)", text or "")
    return inspect.cleandoc(found[1]).split("\n") if found else []


def named_in(lines: List[str]) -> List[str]:
    """The names that a section describes."""
    return [name.strip() for line in lines if not line.startswith(" ") for name in line.split(":")[0].split(",")]


def needs(example: doctest.DocTest) -> List[str]:
    """The modules without which an example can't run."""
    return re.findall(r"# needs (\w+)", "".join(it.source for it in example.examples))


def examples() -> Iterator[doctest.DocTest]:
    """The examples of all modules of the package."""
    finder = doctest.DocTestFinder()
    names = [f"trinorm.{it.name}" for it in pkgutil.iter_modules(trinorm.__path__) if it.name != "__main__"]
    for module in [trinorm, *map(importlib.import_module, names)]:
        yield from (it for it in finder.find(module, module.__name__) if it.examples)


class Sections(unittest.TestCase):
    def test_each_has_a_first_line(self) -> None:
        for name, thing in public():
            text = inspect.getdoc(thing) or ""
            self.assertRegex(text.split("\n\n")[0], r"(?s)\A[A-Z`0].*[.:]\Z", name)

    def test_arguments(self) -> None:
        """All arguments are described, each once, and no others."""
        for name, thing in public():
            if callable(thing) and not (inspect.isclass(thing) and (dataclasses.is_dataclass(thing) or issubclass(thing, Exception))):
                own = [it for it in inspect.signature(thing).parameters if it != "self"]
                with self.subTest(name):
                    self.assertEqual(sorted(named_in(section(inspect.getdoc(thing), "Args"))), sorted(own))

    def test_results_and_exceptions(self) -> None:
        for name, thing in public():
            if callable(thing) and not inspect.isclass(thing):
                text = inspect.getdoc(thing)
                with self.subTest(name):
                    returns = inspect.signature(thing).return_annotation
                    self.assertEqual(bool(section(text, "Returns")), returns != "None")
                    self.assertEqual(bool(section(text, "Raises")), name not in RAISES_NOTHING)
                    for raised in named_in(section(text, "Raises")):
                        self.assertTrue(hasattr(trinorm, raised) or raised == "BaseException", raised)

    def test_attributes(self) -> None:
        """Of data classes all fields."""
        for name, thing in public():
            if inspect.isclass(thing) and dataclasses.is_dataclass(thing):
                fields = {it.name for it in dataclasses.fields(thing)}
                with self.subTest(name):
                    self.assertLessEqual(fields, set(named_in(section(inspect.getdoc(thing), "Attributes"))))

    def test_each_has_an_example(self) -> None:
        for name, thing in public():
            if callable(thing) and name not in WITHOUT_EXAMPLE:
                self.assertIn(">>> ", inspect.getdoc(thing) or "", name)

    def test_methods_of_tables_are_the_functions(self) -> None:
        """They have the parameters of the functions but the first, their defaults and types, and their sections."""
        names = [name for name, _ in inspect.getmembers(TableMethods, inspect.isfunction) if not name.startswith("_")]
        self.assertGreater(len(names), 20)
        for name in names:
            function, method = getattr(trinorm, name), getattr(trinorm.Table, name)
            with self.subTest(name):
                of_function, of_method = inspect.signature(function), inspect.signature(method)
                self.assertEqual([*of_function.parameters.values()][1:], [*of_method.parameters.values()][1:])
                self.assertEqual(of_function.return_annotation.replace("numpy_arrays.", ""), of_method.return_annotation)
                for part in ("Returns", "Raises"):
                    self.assertEqual(section(inspect.getdoc(function), part), section(inspect.getdoc(method), part))
                self.assertEqual(named_in(section(inspect.getdoc(function), "Args"))[1:], named_in(section(inspect.getdoc(method), "Args")))


class Examples(unittest.TestCase):
    """Each in a part of its own, so that one that needs Regina or NumPy is left out where these are not there."""

    def test_they_run(self) -> None:
        run = 0
        for example in examples():
            with self.subTest(example.name):
                if not all(importlib.util.find_spec(name) for name in needs(example)):
                    continue
                said: List[str] = []
                with contextlib.redirect_stderr(io.StringIO()):  # to which a census writes how far it is
                    outcome = doctest.DocTestRunner(verbose=False).run(example, out=said.append)
                self.assertEqual(outcome.failed, 0, "".join(said))
                run += 1
        self.assertGreater(run, 80)


class Helpers(unittest.TestCase):
    """What reads docstrings here."""
    TEXT = "A line.\n\nArgs:\n    one, two: that\n        goes on\n    three: it\n\nReturns:\n    This."

    def test_sections(self) -> None:
        self.assertEqual(named_in(section(self.TEXT, "Args")), ["one", "two", "three"])
        self.assertEqual(section(self.TEXT, "Returns"), ["This."])
        self.assertEqual(section(self.TEXT, "Raises"), [])

    def test_needs(self) -> None:
        self.assertEqual(needs(doctest.DocTestParser().get_doctest(">>> 1  # needs regina\n1\n", {}, "name", None, 0)), ["regina"])


if __name__ == "__main__":
    unittest.main()

"""No module of the package needs, at run time, one that needs it: neither at its head nor within a function."""
import ast
import subprocess
import sys
import tempfile
import unittest
from pathlib import Path
from typing import Dict, Iterable, Iterator, List, Mapping, Set

import trinorm

PACKAGE = Path(trinorm.__file__).parent


def is_for_types_alone(node: ast.AST) -> bool:
    """Whether a statement is `if TYPE_CHECKING:`, whose imports are made by those who check types and never at run time."""
    return isinstance(node, ast.If) and isinstance(node.test, ast.Name) and node.test.id == "TYPE_CHECKING"


def statements(node: ast.AST) -> Iterator[ast.AST]:
    """All statements that can run, at any depth."""
    for child in ast.iter_child_nodes(node):
        if isinstance(child, ast.If) and is_for_types_alone(child):
            for other in child.orelse:
                yield from [other, *statements(other)]
        else:
            yield child
            yield from statements(child)


def modules_named(node: ast.AST, package: str, names: Set[str]) -> Set[str]:
    """The modules of a package that an import names; `__init__` if it takes a name of the package itself."""
    if isinstance(node, ast.Import):
        parts = [alias.name.split(".") for alias in node.names]
        return {it[1] if len(it) > 1 else "__init__" for it in parts if it[0] == package}
    if not isinstance(node, ast.ImportFrom):
        return set()
    path = (node.module or "").split(".")
    if node.level == 0:
        if path[0] != package:
            return set()
        path = path[1:]
    if path and path[0]:
        return {path[0]}
    return {alias.name if alias.name in names else "__init__" for alias in node.names}


def imports_of(folder: Path) -> Dict[str, Set[str]]:
    """Which modules of a package each one imports."""
    names = {path.stem for path in folder.glob("*.py")}
    found: Dict[str, Set[str]] = {}
    for name in sorted(names):
        tree = ast.parse((folder / f"{name}.py").read_text("utf8"))
        found[name] = {it for node in statements(tree) for it in modules_named(node, folder.name, names)} & names - {name}
    return found


def cycle_in(imports: Mapping[str, Iterable[str]]) -> List[str]:
    """Modules of which each imports the next and the last one the first; empty if there are none."""
    left = {name: set(others) for name, others in imports.items()}
    while True:
        free = [name for name, others in left.items() if not others & left.keys()]
        if not free:
            break
        for name in free:
            del left[name]
    if not left:
        return []
    way = [min(left)]
    while True:
        following = min(left[way[-1]] & left.keys())
        if following in way:
            return way[way.index(following):]
        way.append(following)


class Imports(unittest.TestCase):
    def made_up(self, **modules: str) -> Dict[str, Set[str]]:
        folder = tempfile.TemporaryDirectory()
        self.addCleanup(folder.cleanup)
        package = Path(folder.name, "made_up")
        package.mkdir()
        for name, text in modules.items():
            (package / f"{name}.py").write_text(text)
        return imports_of(package)

    def test_the_package(self) -> None:
        self.assertEqual(cycle_in(imports_of(PACKAGE)), [])

    def test_each_module_is_seen(self) -> None:
        found = imports_of(PACKAGE)
        self.assertGreaterEqual(found["commands"], {"tables", "answers", "program"})
        self.assertLessEqual({"library", "outcomes"}, found["program"])

    def test_cycles_are_found(self) -> None:
        for modules in (
            {"one": "from . import two\n", "two": "import made_up.one\n"},
            {"one": "from .two import x\n", "two": "def f():\n    from .one import y\n"},
            {"one": "from .two import x\n", "two": "try:\n    from made_up.three import y\nexcept ImportError:\n    pass\n", "three": "from made_up import one\n"},
            {"__init__": "from .one import x\n", "one": "from . import name_of_the_package\n"},
            {"one": "from . import two\n", "two": "if TYPE_CHECKING:\n    pass\nelse:\n    from . import one\n"},
        ):
            self.assertEqual(set(cycle_in(self.made_up(**modules))), set(modules))

    def test_what_is_none(self) -> None:
        for modules in (
            {"one": "from . import two\n", "two": "if TYPE_CHECKING:\n    from .one import x\n"},
            {"one": "from . import two, three\n", "two": "from . import three\n", "three": "import one\n"},
            {"one": "import made_up_too.two\n", "two": "from .one import x\n"}, {"one": ""},
        ):
            self.assertEqual(cycle_in(self.made_up(**modules)), [])

    def test_each_module_can_be_imported_first(self) -> None:
        """Not only in the order in which the package itself loads them."""
        lines = ["import importlib, sys, types", f"package = types.ModuleType('trinorm'); package.__path__ = [{str(PACKAGE)!r}]", "kept = set(sys.modules)"]
        lines += ["for name in sys.argv[1:]:", "    for known in set(sys.modules) - kept:", "        if known.startswith('trinorm'): del sys.modules[known]",
                  "    sys.modules['trinorm'] = package", "    importlib.import_module(f'trinorm.{name}')"]
        names = sorted(path.stem for path in PACKAGE.glob("*.py") if path.stem not in ("__init__", "__main__"))
        done = subprocess.run([sys.executable, "-c", "\n".join(lines), *names], capture_output=True, text=True, check=False)
        self.assertEqual((done.returncode, done.stderr), (0, ""))


class Names(unittest.TestCase):
    def test_names_stay_where_they_were(self) -> None:
        """Those that moved to a module of their own."""
        from trinorm import answers, program, regina_surfaces, results
        for name in ("Accepted", "Bulk", "Component", "Cover", "Descent", "Edge", "Generator", "Grouping", "Info", "Isomorphism", "Made", "Played",
                     "Presentation", "Relator", "Sum", "Surface", "Term", "Vector", "Verdict", "Vertex", "vector_line"):
            self.assertIs(getattr(answers, name), getattr(results, name))
        for name in ("COORDS", "ReginaSurface", "checked_coordinates", "in_regina", "is_surface", "vector_of", "normal_surface", "to_regina", "vertex_surfaces"):
            self.assertTrue(hasattr(regina_surfaces, name), name)
        self.assertTrue(callable(program.read_outcome))


if __name__ == "__main__":
    unittest.main()

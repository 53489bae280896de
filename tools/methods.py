#!/usr/bin/env python3
"""Writes python/trinorm/table_methods.py, the functions of a triangulation as methods of `Table`, and PYTHON's table of functions.

    tools/methods.py [--check]

Each function of the package whose first argument is a triangulation, and that has an example, becomes a method with the other arguments,
and with its docstring for them. PYTHON has what each function with an example returns, by its docstring, and the fields of the data
classes among that. With --check nothing is written, and the status is 1 if something would be.
"""
from __future__ import annotations

import ast
import inspect
import re
import sys
import textwrap
from pathlib import Path
from typing import Dict, Iterator, List, NamedTuple, Optional, Sequence, Set

from repository import TOP

PACKAGE = TOP / "python" / "trinorm"
FILE = PACKAGE / "table_methods.py"
PAGE = TOP / "docs" / "PYTHON.md"
MARKS = ("<!-- functions: tools/methods.py -->", "<!-- end of functions -->")
# the modules with such functions, and those that declare the types of arguments and results
MODULES = ("commands", "questions", "certificates")
TYPES = ("arrays", "certificates", "commands", "options", "program", "progress", "questions", "results", "tables")
TRIANGULATIONS = ("Triangulation", "Given")
# what stays a function: tables as such, and what is said of several components
FUNCTIONS_ALONE = ("addup", "csame", "table")
COLUMNS = 135
HEAD = '''\
"""The functions of a triangulation as methods of `Table`; tools/methods.py writes this file.

The functions need tables, so they are not imported here: the package hands them over by `offer` once it has loaded them.
"""
from __future__ import annotations

from typing import TYPE_CHECKING, {typing}

if TYPE_CHECKING:
{imports}

# the functions that were offered, by their names
_functions: Dict[str, Callable[..., object]] = {{}}


def offer(*functions: Callable[..., object], picture: Callable[[Table], str]) -> None:
    """Makes functions of a triangulation methods of tables, by their names.

    Args:
        functions: those that are methods
        picture: draws a table for a notebook
    """
    _functions.update({{function.__name__: function for function in functions}}, picture=picture)


class TableMethods:
    """What a `Table` has as methods."""

    def _repr_svg_(self) -> str:
        """What a notebook shows: the face-pairing graph."""
        return cast("str", _functions["picture"](self))
'''


class Function(NamedTuple):
    """A function of a triangulation: its overloads, and itself as the last one."""

    name: str
    definitions: List[ast.FunctionDef]

    def text(self) -> str:
        return inspect.cleandoc(ast.get_docstring(self.definitions[-1]) or "")


def parsed(module: str) -> ast.Module:
    return ast.parse((PACKAGE / f"{module}.py").read_text("utf8"))


def is_of_triangulation(definition: ast.FunctionDef) -> bool:
    """Whether a function is public, and its first argument is a triangulation."""
    first = definition.args.args[:1]
    return not definition.name.startswith("_") and any(it.annotation is not None and ast.unparse(it.annotation) in TRIANGULATIONS for it in first)


def every_function() -> Iterator[Function]:
    """The public functions with an example, in the order of their modules."""
    for module in MODULES:
        found: Dict[str, List[ast.FunctionDef]] = {}
        for definition in parsed(module).body:
            if isinstance(definition, ast.FunctionDef):
                found.setdefault(definition.name, []).append(definition)
        yield from (it for it in (Function(*pair) for pair in found.items()) if ">>> " in it.text() and not it.name.startswith("_"))


def functions() -> Iterator[Function]:
    """The functions that become methods."""
    return (it for it in every_function() if is_of_triangulation(it.definitions[-1]) and it.name not in FUNCTIONS_ALONE)


def spelled(node: ast.AST) -> str:
    """Code with the package's quotation marks, and without names of modules."""
    return ast.unparse(node).replace("'", '"').replace("numpy_arrays.", "")


def parameters(definition: ast.FunctionDef) -> List[str]:
    """The parameters of a method, each as it is spelled."""
    given = definition.args
    defaults: Sequence[Optional[ast.expr]] = [*[None] * (len(given.args) - len(given.defaults)), *given.defaults]
    positional = [_parameter(*pair) for pair in zip(given.args, defaults)][1:]
    named = [_parameter(*pair) for pair in zip(given.kwonlyargs, given.kw_defaults)]
    return ["self", *positional, *(["*", *named] if named else [])]


def _parameter(name: ast.arg, default: Optional[ast.expr]) -> str:
    kind = f": {spelled(name.annotation)}" if name.annotation is not None else ""
    return f"{name.arg}{kind}" if default is None else f"{name.arg}{kind} = {spelled(default)}"


def head(definition: ast.FunctionDef) -> str:
    """The line or the lines of a `def`, up to the colon."""
    begin = f"    def {definition.name}("
    result = spelled(definition.returns) if definition.returns is not None else "None"
    lines, end = [begin], f") -> {result}:"
    for word in parameters(definition):
        comma = "" if lines[-1].endswith("(") else ","
        if len(lines[-1]) + len(word) + len(end) + 2 > COLUMNS:
            lines[-1] += comma
            lines.append(" " * len(begin) + word)
        else:
            lines[-1] += f"{comma} {word}" if comma else word
    return "\n".join(lines) + end


def passed(definition: ast.FunctionDef) -> str:
    """The arguments with which a method calls its function."""
    given = definition.args
    return ", ".join(["self", *(it.arg for it in given.args[1:]), *(f"{it.arg}={it.arg}" for it in given.kwonlyargs)])


def of_table(line: str, name: str) -> str:
    """A line of an example in which the calls of a function are those of a table's method."""
    tree = ast.parse(line)
    calls = [node for node in ast.walk(tree) if isinstance(node, ast.Call) and ast.unparse(node.func) == f"trinorm.{name}"]
    for call in sorted(calls, key=lambda it: -it.col_offset):
        first = call.args[0]
        given, after = line[first.col_offset:first.end_col_offset], line[first.end_col_offset:]
        line = f"{line[:call.col_offset]}trinorm.table({given}).{name}({after[2:] if after.startswith(', ') else after}"
    return line


def docstring(function: Function) -> str:
    """The docstring of a function without its first argument, with an example for the method."""
    text = re.sub(r"(?m)^(Args:\n)    \w+: .*\n(?:     .*\n)*", r"\1", function.text()).replace("Args:\n\n", "")
    lines = [f">>> {of_table(line[4:], function.name)}" if line.startswith(">>> ") else line for line in text.split("\n")]
    return textwrap.indent("\n".join(lines).replace("\\", "\\\\"), "        ").lstrip()


def method(function: Function) -> str:
    """A method: its overloads, and itself."""
    *overloads, last = function.definitions
    kind = spelled(last.returns) if last.returns is not None else "None"
    call = f'_functions["{function.name}"]({passed(last)})'
    body = f"return {call}" if kind == "Any" else f'return cast("{kind}", {call})'
    if len(body) > COLUMNS:
        body = f'answer = {call}\n        return cast("{kind}", answer)'
    first = [f"    @overload\n{head(it)} ...\n" for it in overloads]
    return "\n".join([*first, f'{head(last)}\n        """{docstring(function)}\n        """\n        {body}\n'])


def names_in(definition: ast.FunctionDef) -> Set[str]:
    """The names of types in the parameters after the first, and in the result."""
    given = definition.args
    kinds = [it.annotation for it in [*given.args[1:], *given.kwonlyargs]] + [definition.returns]
    return {name for kind in kinds if kind is not None for name in re.findall(r"\b[A-Z]\w*", spelled(kind))}


def declared(module: str) -> Set[str]:
    """The classes and the names of types that a module declares."""
    found = set()
    for node in parsed(module).body:
        if isinstance(node, ast.ClassDef):
            found.add(node.name)
        elif isinstance(node, ast.Assign):
            found |= {it.id for it in node.targets if isinstance(it, ast.Name)}
    return found


def text() -> str:
    """The file as it should be."""
    known = list(functions())
    names = {name for function in known for it in function.definitions for name in names_in(it)}
    lines: List[str] = []
    for module in TYPES:
        of_module = sorted(names & declared(module))
        names -= set(of_module)
        if of_module:
            lines += textwrap.wrap(f"from .{module} import ({', '.join(of_module)})", COLUMNS, initial_indent="    ", subsequent_indent=" " * 9)
    imports = re.sub(r"import \(([^\n]*)\)(?=\n|$)", r"import \1", "\n".join(lines))
    typing = ", ".join(sorted((names - {"None", "True", "False"}) | {"Callable", "Dict"}) + ["cast", "overload"])
    return "\n".join([HEAD.format(typing=typing, imports=imports), *map(method, known)])


# ---- PYTHON's table of functions

def fields() -> Dict[str, List[str]]:
    """The fields of the package's data classes, those of a class's bases first."""
    classes = {node.name: node for module in TYPES for node in parsed(module).body if isinstance(node, ast.ClassDef)}

    def of_class(node: ast.ClassDef) -> List[str]:
        own = [it.target.id for it in node.body if isinstance(it, ast.AnnAssign) and isinstance(it.target, ast.Name)]
        return [name for base in node.bases if isinstance(base, ast.Name) and base.id in classes for name in of_class(classes[base.id])] + own
    return {name: of_class(node) for name, node in classes.items() if any("dataclass" in ast.unparse(it) for it in node.decorator_list)}


def row(function: Function, known: Dict[str, List[str]]) -> str:
    """The row of a function: its positional arguments, what it returns, and the fields of that, or of the first of two data classes."""
    last = function.definitions[-1]
    returns = re.search(r"(?ms)^Returns:\n(.*?)(?:\n\n|\Z)", function.text())
    text = " ".join(inspect.cleandoc(returns[1]).split("\n")) if returns else ""
    kinds = [name for name in dict.fromkeys(re.findall(r"\b[A-Z]\w*", spelled(last.returns) if last.returns is not None else "")) if known.get(name)]
    of_kinds = ", ".join(f"`{name}`" for kind in kinds[:1] for name in known[kind])
    return f"| `{function.name}({', '.join(it.arg for it in last.args.args)})` | {text} | {of_kinds}{' ' if of_kinds else ''}|"


def table() -> str:
    """The table of functions."""
    known = fields()
    return "\n".join(["| Function | Returns | Fields |", "|---|---|---|", *(row(function, known) for function in every_function())])


def with_table(page: str) -> str:
    """The page with the table between its marks."""
    begin, end = MARKS
    return re.sub(rf"{begin}.*?{end}", lambda _: f"{begin}\n{table()}\n{end}", page, flags=re.S)


def main(checking: bool) -> int:
    return max(write(path, expected, checking) for path, expected in ((FILE, text()), (PAGE, with_table(PAGE.read_text("utf8")))))


def write(path: Path, expected: str, checking: bool) -> int:
    """Writes a file if it is stale, or says that it is."""
    if path.is_file() and path.read_text("utf8") == expected:
        return 0
    if not checking:
        path.write_text(expected, "utf8")
    print(f"{'stale' if checking else 'written'}: {path.relative_to(TOP)}")
    return int(checking)


if __name__ == "__main__":
    sys.exit(main("--check" in sys.argv[1:]))

"""What a census asks of each triangulation, and the line that says what came out."""
from __future__ import annotations

import dataclasses
import json
import time
from typing import Callable, Dict, Literal, NamedTuple, Optional

from . import certificates, commands, comparisons, questions
from .commands import OfTable
from .options import Coords, WithTriangles, coordinates, reading
from .program import Error, Refused
from .tables import Table


class Entry(NamedTuple):
    """A triangulation of a census."""
    signature: str
    name: str


@dataclasses.dataclass(frozen=True)
class Task:
    """What is asked of each triangulation.

    timeout: seconds after which a run of the program is ended
    program: the program, or a server that answers in its place
    """
    command: str
    coords: Optional[Coords] = None
    timeout: Optional[float] = None
    program: commands.Program = None

    @property
    def words(self) -> str:
        """The command as it stands in each line of the output."""
        return self.command if self.coords is None else f"{self.command} --coords {self.coords}"


def _surfaces(text: str, task: Task) -> object:
    return commands.surfaces(text, task.coords or "standard", timeout=task.timeout, program=task.program)


def _with_triangles(task: Task) -> WithTriangles:
    """The coordinates of a task that takes no quad ones."""
    assert task.coords != "quad"
    return task.coords or "standard"


def _described(text: str, task: Task) -> object:
    return questions.described(text, _with_triangles(task), timeout=task.timeout, program=task.program)


def _counted(text: str, task: Task) -> object:
    return questions.count(text, _with_triangles(task), timeout=task.timeout, program=task.program)


def _compared(text: str, task: Task) -> object:
    return comparisons.compare(text, task.coords, timeout=task.timeout, program=task.program)


def _plainly(command: Callable[..., object]) -> Callable[[str, Task], object]:
    return lambda text, task: command(text, timeout=task.timeout, program=task.program)


# for those who check types; a test compares it with COMMANDS
CommandName = Literal[OfTable, "describe", "count", "certify"]
# the commands of one triangulation; `describe` and `count` take its vertex surfaces, and `crosscheck` is not the program's
COMMANDS: Dict[str, Callable[[str, Task], object]] = {
    "surfaces": _surfaces,
    "describe": _described,
    "count": _counted,
    "crosscheck": _compared,
    **{name: _plainly(getattr(commands, name)) for name in reading("table") if not coordinates(name)},
    "certify": _plainly(certificates.certify),
}


def fields_of(value: object) -> object:
    """What JSON has in the place of a table, its text, or of a record, its fields."""
    if isinstance(value, Table):
        return str(value)
    if dataclasses.is_dataclass(value) and not isinstance(value, type):
        return {field.name: getattr(value, field.name) for field in dataclasses.fields(value)}
    raise TypeError(f"{type(value).__name__} is not a result of a census")


# one encoder for all lines, since making one takes as long as a short line
as_json = json.JSONEncoder(default=fields_of).encode


def line_of(entry: Entry, task: Task) -> Dict[str, object]:
    """Runs the command on one triangulation; a refusal or a failed run is an answer too."""
    begun = time.monotonic()
    try:
        said: Dict[str, object] = {"answer": COMMANDS[task.command](f"sig {entry.signature}\n", task)}
    except Refused as refused:
        said = {"refused": {key: getattr(refused, key) for key in ("status", "line", "kind", "places")}}
    except Error as failed:
        said = {"failed": str(failed)}
    return {**head_of(entry, task, time.monotonic() - begun), **said}


def head_of(entry: Entry, task: Task, seconds: float) -> Dict[str, object]:
    """What begins each line of the output."""
    return {"name": entry.name, "signature": entry.signature, "command": task.words, "seconds": round(seconds, 4)}

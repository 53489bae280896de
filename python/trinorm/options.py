"""The options of the program's commands, as the file commands.txt has them."""
from __future__ import annotations

import argparse
import contextlib
import difflib
import math
from pathlib import Path
from typing import Dict, Iterable, List, Literal, NamedTuple, Optional, Tuple, Union

from .arguments import shown, whole_number
from .errors import BadArgument


# the values of options, for those who check types; a test compares them with the table of commands
Coords = Literal["standard", "quad", "octagon"]
WithTriangles = Literal["standard", "octagon"]
Order = Literal["given", "short", "zeros"]


class Range(NamedTuple):
    """Whole numbers, both ends counted."""
    least: int
    most: int

    def __str__(self) -> str:
        return f"a whole number from {self.least} to {self.most}"


class Words(Tuple[str, ...]):
    """The words that an option may have; the first is the default."""

    def __str__(self) -> str:
        return f"one of {', '.join(self)}"


Values = Union[Range, Words]


def _values(text: str) -> Values:
    least, dots, most = text.partition("..")
    return Range(int(least), int(most)) if dots else Words(text.split("|"))


class Command(NamedTuple):
    """A row of the table of commands.

    reads: the document that it reads, or `none`
    options: the values of each option, by its name; required: the options that have to be given
    answers: what it prints, in a few words
    """
    name: str
    reads: str
    options: Dict[str, Values]
    required: Tuple[str, ...]
    example: str
    answers: str


def _command(line: str) -> Command:
    """A line of the table. An option is `name=VALUES`, or `name!VALUES` if it has to be given; `-` is none."""
    name, reads, spelled, example, answers = line.split("\t")
    parted = [word.replace("!", "=").partition("=") for word in spelled.split() if word != "-"]
    options = {option: _values(values) for option, _, values in parted}
    required = tuple(word.partition("!")[0] for word in spelled.split() if "!" in word)
    return Command(name, reads, options, required, example, answers)


def _read() -> Dict[str, Command]:
    text = Path(__file__).with_name("commands.txt").read_text(encoding="utf8")
    rows = (_command(line) for line in text.splitlines() if not line.startswith("#"))
    return {row.name: row for row in rows}


COMMANDS = _read()
OPTIONS = {name: command.options for name, command in COMMANDS.items()}


def reading(document: str) -> Tuple[str, ...]:
    """The commands that read a document, such as `table`, in the order of the table of commands."""
    return tuple(name for name, command in COMMANDS.items() if command.reads == document)


def coordinates(command: str) -> Tuple[str, ...]:
    """The coordinates that a command takes; none where it takes no such option."""
    values = OPTIONS[command].get("coords")
    return values if isinstance(values, Words) else ()


def words(command: str, **given: Union[str, int, None]) -> List[str]:
    """The words of a command with the options that are given; BadArgument if one can't have its value."""
    spelled = [command]
    for name, value in given.items():
        if value is not None:
            option = name.replace("_", "-")
            spelled += [f"--{option}", _word(name, value, OPTIONS[command][option])]
    return spelled


def _word(name: str, value: object, values: Values) -> str:
    """The word of a value of an option."""
    if isinstance(values, Range):
        number = whole_number(value)
        if number is not None and values.least <= number <= values.most:
            return str(number)
        raise BadArgument(f"{name} must be {values}, not {shown(value)}")
    if isinstance(value, str) and value in values:
        return str(value)
    near = nearest(value, values) if isinstance(value, str) else None
    raise BadArgument(f"{name} must be {values}, not {shown(value)}{f'; did you mean {near!r}?' if near else ''}")


def is_value(word: str, values: Values) -> bool:
    """Whether a word of a command line is a value of an option."""
    if isinstance(values, Words):
        return word in values
    return word.isascii() and word.isdecimal() and len(word) <= 45 and values.least <= int(word) <= values.most


def nearest(word: str, known: Iterable[str]) -> Optional[str]:
    """The one of these that a word is most likely meant to be, if any is near."""
    near = difflib.get_close_matches(word, list(known), 1, 0.6)
    return near[0] if near else None


# The types of options for argparse, whose messages say what was expected.

def at_least_one(text: str) -> int:
    """A whole number from 1 on, as the number of jobs."""
    with contextlib.suppress(ValueError):
        if int(text) >= 1:
            return int(text)
    raise argparse.ArgumentTypeError(f"expected a whole number of at least 1, not {text}")


def seconds(text: str) -> float:
    """A finite positive number of seconds, as a limit of time."""
    with contextlib.suppress(ValueError):
        if math.isfinite(float(text)) and float(text) > 0:
            return float(text)
    raise argparse.ArgumentTypeError(f"expected a positive number of seconds, not {text}")


def add_run_arguments(reader: argparse.ArgumentParser) -> None:
    """The options of whatever runs many triangulations."""
    reader.add_argument("--jobs", type=at_least_one, help="number of parallel runs (default: one for each processor)")
    reader.add_argument("--timeout", type=seconds, help="time limit of each run in seconds")

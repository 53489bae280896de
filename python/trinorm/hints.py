"""What a refusal most likely means, in a sentence for people, by the table hints.txt. The program's own answer stays as it is."""
from __future__ import annotations

import functools
import re
from pathlib import Path
from typing import Dict, Iterable, Iterator, NamedTuple, Optional, Sequence, Tuple

from .documents import Fault, fault_of
from .errors import Refused
from .options import COMMANDS, Command, Values, is_value, nearest

# columns for each tetrahedron
WIDTHS = {"standard": 7, "quad": 3, "octagon": 10}


class Hint(NamedTuple):
    """A row of the table."""
    status: str
    commands: str
    kind: str
    condition: str
    sentence: str

    def is_about(self, status: int, command: str, kind: str) -> bool:
        """Whether status, command and kind are those of the row."""
        return (self.status in ("*", str(status)) and (self.commands == "*" or command in self.commands.split(","))
                and (self.kind == "*" or f"{kind} ".startswith(f"{self.kind} ")))


@functools.lru_cache(None)
def read_hints() -> Tuple[Hint, ...]:
    """The rows of the table, in their order."""
    text = Path(__file__).with_name("hints.txt").read_text(encoding="utf8")
    return tuple(Hint(*line.split("\t")) for line in text.splitlines() if not line.startswith("#"))


def hint(refused: Refused, asked: Sequence[str] = (), text: str = "") -> str:
    """A sentence on a refusal; empty if nothing is known.

    asked: the words of the command line
    text: the input
    """
    if refused.status == 2:
        return usage(asked)
    command = asked[0] if asked and asked[0] in COMMANDS else ""
    fields = {str(at): str(place) for at, place in enumerate(refused.places)}
    fields.update(command=command, **_coordinates(asked))
    fault = fault_of(COMMANDS[command].reads if command else "table", refused.kind, refused.places, text)
    return sentence(refused.status, command, refused.kind, fault, fields)


def sentence(status: int, command: str, kind: str, fault: Fault, fields: Dict[str, str]) -> str:
    """The sentence of the first row that fits, with its fields put in."""
    for row in read_hints():
        if row.is_about(status, command, kind):
            word = _word_where(row.condition, fault)
            if word is not None:
                before, underscore, after = word.partition("_")
                known = dict(fields, word=fields.get("word", word), undecorated=before, decoration=underscore + after)
                return re.sub(r"\{(\w+)\}", lambda match: known.get(match[1], ""), row.sentence)
    return ""


def _word_where(condition: str, fault: Fault) -> Optional[str]:
    """The word at a fault if the condition holds there, else None."""
    words = [*fault.words, ""][:max(1, len(fault.words))]
    for part in [] if condition == "-" else condition.split(" & "):
        kind, _, value = part.partition(" ")
        if kind == "word":
            words = [word for word in words if re.search(value, word)]
        elif not _holds(kind, value, fault):
            return None
    return words[0] if words else None


def _holds(kind: str, value: str, fault: Fault) -> bool:
    """Whether a condition that isn't about the word holds; one that isn't known doesn't."""
    if kind == "begins":
        return any(fault.first_bytes.startswith(start) for start in value.split("|"))
    if kind == "at":
        state, _, number = value.partition(" ")
        return state == fault.state and number in ("", str(fault.number))
    return kind == "empty" and fault.is_empty


def _coordinates(asked: Sequence[str]) -> Dict[str, str]:
    """The coordinates that the words name, else the command's default, and their columns for each tetrahedron."""
    values = COMMANDS[asked[0]].options.get("coords") if asked and asked[0] in COMMANDS else None
    coords = values[0] if isinstance(values, tuple) and isinstance(values[0], str) else "standard"
    for name, value in _options(asked[1:]):
        if name == "coords" and value in WIDTHS:
            coords = str(value)
    return {"coords": coords, "width": str(WIDTHS[coords])}


def _options(asked: Sequence[str]) -> Iterator[Tuple[Optional[str], Optional[str]]]:
    """The options among words, each with its value, or None if it has none; and other words, whose option is None."""
    words = iter(asked)
    for word in words:
        if not word.startswith("--"):
            yield None, word
        elif "=" in word:
            name, _, value = word[2:].partition("=")
            yield name, value
        else:
            yield word[2:], next(words, None)


def usage(asked: Sequence[str]) -> str:
    """What is wrong with the words of a command line; empty if nothing is seen."""
    fields = {"command": asked[0] if asked else ""}
    kind, more = _wrong_words(asked)
    fields.update(more)
    return sentence(2, fields["command"], f"usage {kind}", Fault(), fields) if kind else ""


def _wrong_words(asked: Sequence[str]) -> Tuple[str, Dict[str, str]]:
    """The first fault of a command line by its kind, and the fields of its sentence."""
    if not asked:
        return "no-command", {}
    if asked[0] not in COMMANDS:
        return "unknown-command", {"word": asked[0], "nearest": _is_it(asked[0], COMMANDS)}
    command, seen = COMMANDS[asked[0]], set()
    for name, value in _options(asked[1:]):
        kind, fields = _wrong_option(command, name, value)
        if kind:
            return kind, fields
        if name in seen:
            return "twice", {"option": f"--{name}"}
        seen.add(name)
    for name in command.required:
        if name not in seen:
            return "missing-option", {"option": f"--{name}", "values": str(command.options[name])}
    return "", {}


def _wrong_option(command: Command, name: Optional[str], value: Optional[str]) -> Tuple[str, Dict[str, str]]:
    """What is wrong with one option and its value, or with a word that is none."""
    if name is None:
        return "extra-word", {"word": value or ""}
    if name not in command.options:
        return "unknown-option", {"word": f"--{name}", "nearest": _is_it(f"--{name}", [f"--{it}" for it in command.options])}
    values: Values = command.options[name]
    fields = {"option": f"--{name}", "values": str(values)}
    if value is None:
        return "no-value", fields
    if not is_value(value, values):
        return "bad-value", {**fields, "word": value, "nearest": _is_it(value, values if isinstance(values[0], str) else [])}
    return "", {}


def _is_it(word: str, known: Iterable[object]) -> str:
    """What is said of the nearest of these words."""
    near = nearest(word, [str(it) for it in known])
    return f"; did you mean `{near}`?" if near else ""

"""The documents that commands read: in which state a line of an input is read, as far as a sentence on a fault needs it."""
from __future__ import annotations

from dataclasses import dataclass
from typing import List, Sequence, Tuple

from .arguments import read_number
from .errors import Place


@dataclass(frozen=True)
class Fault:
    """The place of a fault in an input.

    state: what is read there, as `table`, `row`, `vector`; number: the word's number in its line, counted from 1
    words: the word at the fault, or the signatures of which one may be at fault
    first_bytes: those of the input, as hexadecimal digits
    """
    state: str = ""
    number: int = 0
    words: Tuple[str, ...] = ()
    first_bytes: str = ""
    is_empty: bool = False


class Reader:
    """The states of a document, line by line."""

    def __init__(self, reads: str) -> None:
        self.reads = reads
        self.state = "cone" if reads == "cone" else "table"
        self._left = self._tables = 0

    def read(self, line: str) -> None:
        """Passes over a line that is no comment."""
        self.state = self._after(line.split())

    def _after(self, words: List[str]) -> str:
        state = self.state
        if state == "table":
            self._left = _number(words, 1) if words[:1] == ["tri"] else 0
            return "row" if self._left else self._after_table()
        if state == "cone":
            self._left = _number(words, 2) if _number(words, 1) else 0
            return "cone-row" if self._left else "end"
        if state in ("row", "cone-row"):
            self._left -= 1
            return state if self._left > 0 else self._after_table() if state == "row" else "end"
        return self._after_vector(words)

    def _after_vector(self, words: List[str]) -> str:
        """The state after a line that comes after the tables."""
        if self.state == "vector":
            return {"vector": "end", "blocks": "times"}.get(self.reads, "vector")
        if self.state == "times":
            self._left = _number(words, 2)
        elif self.state == "term":
            self._left -= 1
        else:
            return self.state
        return "term" if self._left > 0 else "vector"

    def _after_table(self) -> str:
        """The state of the line after a table."""
        self._tables += 1
        if self.reads == "tables" or self.reads == "two-tables" and self._tables == 1:
            return "table"
        return {"vectors": "vector", "vector": "vector", "blocks": "vector", "steps": "steps", "moves": "moves"}.get(self.reads, "end")


def _number(words: List[str], at: int) -> int:
    """A word as a number; 0 if it is none."""
    return (read_number(words[at]) if len(words) > at else None) or 0


def is_comment(line: str) -> bool:
    """Whether a line is blank or a comment."""
    return not line.strip() or line.lstrip().startswith("#")


def fault_of(reads: str, kind: str, places: Sequence[Place], text: str) -> Fault:
    """The place of a refusal in an input.

    reads: the document, as commands.txt names it
    kind, places: those of the refusal
    """
    lines = text.split("\n")
    first = text[:8].encode("utf8", "surrogateescape")[:8].hex()
    is_empty = all(map(is_comment, lines))
    if kind.startswith("signature"):
        signatures = (line.split() for line in lines)
        return Fault(words=tuple(words[1] for words in signatures if words[:1] == ["sig"] and len(words) > 1), first_bytes=first)
    numbers = [place for place in places if isinstance(place, int)]
    if not kind.startswith("input") or len(numbers) != 2:
        return Fault(first_bytes=first, is_empty=is_empty)
    return _fault_at(reads, lines, numbers[0], numbers[1], first, is_empty)


def _fault_at(reads: str, lines: List[str], number: int, column: int, first: str, is_empty: bool) -> Fault:
    reader = Reader(reads)
    for line in lines[:number - 1]:
        if not is_comment(line):
            reader.read(line)
    line = lines[number - 1] if number <= len(lines) else ""
    # columns count bytes
    raw = line.encode("utf8", "surrogateescape")
    before, rest = raw[:column - 1].decode("latin1").split(), raw[column - 1:].decode("latin1").split()
    state = reader.state
    if state == "table" and before[:1] in (["sig"], ["tri"]):
        state = before[0]
    return Fault(state, len(before) + 1, tuple(rest[:1]), first, is_empty)

"""Documents of a triangulation with vectors, of any length: they are asked in parts that fit into the program's input.

Each vector is answered by itself, so the answers of the parts, one after another, are those of the whole list.
"""
from __future__ import annotations

import re
import time
from typing import Callable, Iterator, NamedTuple, Optional, Sized, TypeVar

from .arguments import checked_timeout
from .errors import Failed, Refused, TimedOut

Answers = TypeVar("Answers", bound=Sized)

# the greatest input of the program, in bytes
MOST_BYTES = 1 << 20


class Part(NamedTuple):
    """A document of some of the vectors.

    text: the triangulation and these vectors
    head: how many of its lines come before its first vector
    skipped, before: how many lines and vectors of the whole document come between the triangulation and this part
    vectors: how many vectors it has
    """
    text: str
    head: int
    skipped: int
    before: int
    vectors: int


class Clock:
    """What is left of a limit of time that several runs share."""

    def __init__(self, timeout: Optional[float]) -> None:
        self.timeout = checked_timeout(timeout)
        self._begun: Optional[float] = None

    def left(self) -> Optional[float]:
        """The seconds for the next run: the whole limit for the first one; TimedOut if none are left."""
        if self.timeout is None:
            return None
        if self._begun is None:
            self._begun = time.monotonic()
            return self.timeout
        left = self.timeout - (time.monotonic() - self._begun)
        if left <= 0:
            raise TimedOut(f"no result within {self.timeout} s")
        return left


def is_vector(line: str) -> bool:
    """Whether a line of a document is one of a vector."""
    return line.split(None, 1)[:1] == ["vec"]


def count_vectors(text: str) -> int:
    """How many lines of a text are those of vectors."""
    return sum(map(is_vector, text.split("\n")))


def _end_of_head(text: str) -> int:
    """The position of the first line of a vector; the length of the text if there is none."""
    start = 0
    while start < len(text):
        end = text.find("\n", start) + 1 or len(text)
        if is_vector(text[start:end]):
            return start
        start = end
    return len(text)


def parts(text: str, most: int = MOST_BYTES) -> Iterator[Part]:
    """The parts of a document, each of at most `most` bytes if the triangulation and any one line fit into these."""
    # a character takes at most four bytes
    room = most if text.isascii() else most // 4
    at = _end_of_head(text)
    head, skipped, before = text[:at], 0, 0
    while True:
        end = len(text)
        if end - at > room - len(head):
            end = text.rfind("\n", at, max(at, at + room - len(head))) + 1 or text.find("\n", at) + 1 or len(text)
        rest = text[at:end]
        part = Part(head + rest, head.count("\n"), skipped, before, count_vectors(rest))
        yield part
        at, skipped, before = end, skipped + rest.count("\n"), before + part.vectors
        if at == len(text):
            return


def _of_the_whole(refused: Refused, part: Part) -> Refused:
    """A refusal of a part, with the numbers of the vector or the line in the whole document."""
    vector = re.match(r"refused: vector (\d+)", refused.line)
    line = re.match(r"refused: input (\d+) \d+ ", refused.line)
    if vector:
        number = int(vector[1]) + part.before
    elif line and int(line[1]) > part.head:
        number = int(line[1]) + part.skipped
    else:
        return refused
    return Refused(refused.status, re.sub(r"\d+", str(number), refused.line, count=1), refused.hint)


def answers(text: str, ask: Callable[[str, Optional[float]], Answers], clock: Clock,
            most: int = MOST_BYTES) -> Iterator[Answers]:
    """What is answered to the vectors of a document, part by part: a list for each, with one answer for each vector.

    ask: answers a document within a limit of time
    """
    for part in parts(text, most):
        try:
            found = ask(part.text, clock.left())
        except Refused as refused:
            raise _of_the_whole(refused, part) from None
        except TimedOut as fault:
            raise TimedOut(re.sub(r"no result within .*", f"no result within {clock.timeout} s", str(fault))) from None
        if len(found) != part.vectors:
            raise Failed(f"the answer is incomplete: {len(found)} results for {part.vectors} vectors")
        yield found

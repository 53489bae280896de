"""The exceptions of this package."""
from __future__ import annotations

from typing import Any, Dict, Sequence, Tuple, Union

# statuses of a refusal: command line, input, checks, a number that exceeds the limit
REFUSED = (2, 3, 4, 5)
USAGE, CHECKED, LARGE = 2, 4, 5
FAILURES = {6: "standard input could not be read", 7: "the output could not be written", 8: "out of memory",
            9: "the command line is not UTF-8"}

# what is said if memory runs out outside of the program
NO_MEMORY_HERE = "Python has no memory left"

Place = Union[int, str, Tuple[int, ...]]


# what the places of a refusal are, by the words that it begins with; of a vector's, after the vector itself
PLACES = {
    "input": ("line", "column"), "table": ("tetrahedron", "face"), "signature": ("character",), "not-connected": ("triangulation", "tetrahedron"),
    "invalid-edge": ("edge",), "large value": ("step", "row", "ray"), "large pair": ("step", "row", "ray", "other_ray"),
    "check illegal": ("move",), "check not-standard": ("signature",),
}
PLACES_OF_VECTORS = {
    "length": ("entries",), "large": ("row",), "fails": ("row",), "clash": ("first_column", "second_column"), "too-many-pieces": ("discs",),
    "no-lift": ("vertex",), "large-times": ("step", "column"), "large-equation": ("column",), "not-equal": ("column",),
}


def named_places(kind: str, places: Sequence[Place]) -> Dict[str, Place]:
    """The places of a refusal, or of a verdict on a vector, by their names; those without a name are left out."""
    words = kind.split()
    if words[:1] == ["vector"]:
        names: Tuple[str, ...] = ("vector",)
        words = words[1:]
        if words[:1] == ["term"]:
            names, words = ("sum", "term"), words[1:]
        names += PLACES_OF_VECTORS.get(words[0], ()) if words else ()
    else:
        names = PLACES.get(" ".join(words[:2]), PLACES.get(words[0], ()) if words else ())
    return dict(zip(names, places))


class Error(Exception):
    """The exceptions of this package: `Refused`, `BadArgument` and `Failed`.

    >>> import trinorm
    >>> try:
    ...     trinorm.info("no.txt")
    ... except trinorm.Error as fault:
    ...     print(type(fault).__name__)
    BadArgument
    """


class Refused(Error):
    """The program refused the command line or the input.

    Attributes:
        status: 2 invalid command line, 3 invalid input, 4 the command cannot answer it, 5 a number exceeds the limit
        line: the line that the program printed
        kind: the line without `refused:` and the places, such as `input bad-word`, `vector clash`, `large pair`
        places: the numbers of the line in their order; after `large` the step, the row and the rays; after `check not-standard` the
            signature
        named: the same by their names
        hint: what is wrong and what to do, in a sentence; empty if nothing is known

    >>> import trinorm
    >>> try:
    ...     trinorm.sig("bkaagjx")
    ... except trinorm.Refused as refused:
    ...     print(refused.kind, refused.named, refused.hint, sep="; ")
    signature trailing; {'character': 6}; the signature is complete before this
    """

    def __init__(self, status: int, line: str, hint: str = "") -> None:
        super().__init__(line)
        self.status = status
        self.line = line
        self.hint = hint
        self.kind, self.places = kind_and_places(line)

    def __str__(self) -> str:
        return f"{self.line} ({self.hint})" if self.hint else self.line

    def __reduce__(self) -> Tuple[Any, ...]:  # an exception with two arguments is not pickled by itself
        return Refused, (self.status, self.line, self.hint)

    @property
    def named(self) -> Dict[str, Place]:
        """The places by their names, as `{"vector": 0, "first_column": 5, "second_column": 6}`."""
        return named_places(self.kind, self.places)


class BadArgument(Error, ValueError):
    """An invalid argument of a function. The program was not called.

    >>> import trinorm
    >>> trinorm.surfaces("bkaagj", coords="quads")
    Traceback (most recent call last):
      ..
    trinorm.errors.BadArgument: coords must be one of standard, quad, octagon, not 'quads'; did you mean 'quad'?
    """


class Failed(Error):
    """The program was not found, was killed, ran out of memory, or printed an incomplete answer.

    >>> import trinorm
    >>> trinorm.sig("bkaagj", program="/no/such/program")
    Traceback (most recent call last):
      ..
    trinorm.errors.Failed: there is no program at /no/such/program
    """


class TimedOut(Failed):
    """The call exceeded its time limit.

    >>> import trinorm
    >>> large = trinorm.make(seed=1, moves=300).table
    >>> trinorm.surfaces(large, timeout=0.2)
    Traceback (most recent call last):
      ..
    trinorm.errors.TimedOut: surfaces --coords standard: no result within 0.2 s
    """


def kind_and_places(line: str) -> Tuple[str, Tuple[Place, ...]]:
    """The kind of a refusal, and its numbers."""
    text = line.partition("refused: ")[2]
    words = text.split()
    if words[:2] == ["large", "step"]:
        rays = text.split(" value " if "value" in words else " pair ")[1].split(" and ")
        vectors = [tuple(int(entry) for entry in ray.split()) for ray in rays]
        return ("large value" if "value" in words else "large pair"), (int(words[2]), int(words[4]), *vectors)
    if words[:2] == ["check", "not-standard"]:
        return "check not-standard", tuple(words[2:])
    numbers = tuple(int(word) for word in words if word.isdigit())
    return " ".join(word for word in words if not word.isdigit()), numbers


def how_it_ended(status: int) -> str:
    """How a process ended that returned no result."""
    if status < 0:
        return f"killed by signal {-status}"
    return FAILURES.get(status, f"status {status}")

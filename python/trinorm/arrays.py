"""Lists of vectors and of what `describe` says of them as arrays of NumPy, which is imported where the first is made.

Numbers are of NumPy's type `int64`, and of type `object` if one of them exceeds that; or of the integer type that is named,
as `int8`, which takes an eighth of the memory.
"""
from __future__ import annotations

from dataclasses import dataclass
from typing import Any, Dict, Iterator, List, Union, cast

from .arguments import shown
from .errors import BadArgument, Failed

# how many characters of an answer are read at a time
CHUNK = 1 << 20
# decimals of fewer digits are within `int64`
DIGITS = 19


@dataclass(frozen=True, eq=False)
class Components:
    """The components of surfaces, one after another: an entry of each array, or a row of `vectors`, for each component.

    Attributes:
        surface: the index of the surface to which it belongs
        euler: its Euler characteristic
        sides: 1 or 2
        orientable: whether it is orientable
        vectors: its vector
    """
    surface: Any
    euler: Any
    sides: Any
    orientable: Any
    vectors: Any


@dataclass(frozen=True, eq=False)
class Described:
    """What `describe` returns, as arrays: an entry of each array, or a row of `vectors`, for each surface.

    Attributes:
        vectors: its vector
        euler: its Euler characteristic
        linking, boundary: as for `Surface`
        count: how many components it has
        components: these, as `Components`
        columns: the arrays with one entry for each surface, by their names, for `pandas.DataFrame`

    >>> import trinorm  # needs numpy
    >>> found = trinorm.described("bkaagj", arrays=True)
    >>> found.euler.tolist(), found.components.sides.tolist()
    ([0, 2], [2, 2])
    """
    vectors: Any
    euler: Any
    linking: Any
    boundary: Any
    count: Any
    components: Components

    def __len__(self) -> int:
        return len(self.euler)

    @property
    def columns(self) -> Dict[str, Any]:
        """The arrays that have one entry for each surface, as `pandas.DataFrame` takes them."""
        return {"euler": self.euler, "linking": self.linking, "boundary": self.boundary, "components": self.count}


def integer_type(arrays: Union[bool, str]) -> Any:
    """The type of NumPy's that is asked for: `int64` by True. BadArgument for anything else, or without NumPy."""
    try:
        import numpy
    except ImportError:
        raise BadArgument("arrays needs NumPy, which this Python does not have") from None
    try:
        made = numpy.dtype("int64" if arrays is True else cast(Any, arrays))
    except (TypeError, ValueError, SyntaxError):
        made = numpy.dtype(object)
    if made.kind not in "iu" or isinstance(arrays, str) and not arrays.strip():
        raise BadArgument(f"arrays must be True, False or the name of an integer type of NumPy, such as 'int8', not {shown(arrays)}")
    return made


def _chunks(text: str) -> Iterator[bytes]:
    """Whole lines of a text, some at a time, as bytes."""
    at = 0
    while at < len(text):
        end = text.find("\n", at + CHUNK) + 1 or len(text)
        yield text[at:end].encode("ascii", "replace")
        at = end


def _digits(chunk: bytes, width: int) -> Any:
    """The rows of lines in which each entry is one digit, and as many as the width; None if there is another line."""
    import numpy
    length = 2 * width + 4
    if len(chunk) % length:
        return None
    grid = numpy.frombuffer(chunk, numpy.uint8).reshape(-1, length)
    found = grid[:, 4:-1:2] - ord("0")
    is_regular = (found <= 9).all() and (grid[:, 3:-1:2] == ord(" ")).all() and (grid[:, -1] == ord("\n")).all()
    return found if is_regular else None


def _rows(chunk: bytes, width: int) -> Any:
    """The rows of lines `vec ..`, all of this width, of the least type that all lines allow: digits, `int64` or `object`."""
    import numpy
    rows = _digits(chunk, width)
    if rows is None:
        count = chunk.count(b"\n")
        words = chunk.replace(b"vec", b"   ").split()
        if len(words) != count * width:
            raise ValueError("vectors of different widths")
        if max(map(len, words), default=0) < DIGITS:
            rows = numpy.array(words).astype(numpy.int64)
        else:
            rows = numpy.array([int(it) for it in words], object)
        rows = rows.reshape(count, width)
    return rows


def _put(made: Any, rows: Any, at: int) -> Any:
    """The array with these rows at an index; one of objects if they don't fit into `int64`."""
    import numpy
    if len(rows) and made.dtype != object and rows.max(initial=0) > numpy.iinfo(made.dtype).max:
        if made.dtype != numpy.int64:
            raise BadArgument(f"the entry {rows.max()} does not fit into {made.dtype}; use arrays=True")
        made = made.astype(object)
    # entries of an array of objects are whole numbers of Python's
    made[at:at + len(rows)] = rows.tolist() if made.dtype == object else rows
    return made


def read_vectors(text: str, kind: Any = "int64") -> Any:
    """The vectors of lines `vec ..`, a row for each; a first line that begins with `#` is passed over."""
    import numpy
    body = text[text.find("\n") + 1:] if text.startswith("#") else text
    first = body.partition("\n")[0]
    width = len(first.split()) - 1 if first else 0
    made, at = numpy.zeros((body.count("\n"), width), kind), 0
    for chunk in _chunks(body):
        try:
            rows = _rows(chunk, width)
        except ValueError:
            raise Failed(f"the answer is damaged: its vectors differ in length, near {chunk[:60]!r}") from None
        made = _put(made, rows, at)
        at += len(rows)
    return made


def _numbers(words: List[str]) -> Any:
    """Whole numbers, of type `int64` or `object`."""
    import numpy
    kind = numpy.int64 if max(map(len, words), default=0) < DIGITS else object
    return numpy.array([int(it) for it in words], kind)


def _are(words: List[str], word: str) -> Any:
    import numpy
    return numpy.array([it == word for it in words], bool)


def read_described(lines: List[str], kind: Any) -> Described:
    """What `describe` answers."""
    import numpy
    vectors = [it for it in lines if it.startswith("vec")]
    surfaces = [it.split() for it in lines if it.startswith("euler")]
    components = [it.split(None, 7) for it in lines if it.startswith("component")]
    count = numpy.array([int(it[7]) for it in surfaces], numpy.int64)
    if len(vectors) != len(surfaces) or len(vectors) + len(surfaces) + len(components) != len(lines) or \
            len(components) != count.sum():
        raise ValueError("a line is missing")
    made = Components(numpy.repeat(numpy.arange(len(count)), count), _numbers([it[2] for it in components]),
                      1 + _are([it[4] for it in components], "two").astype(numpy.int64),
                      _are([it[6] for it in components], "yes"), read_vectors(_lines([it[7] for it in components]), kind))
    return Described(read_vectors(_lines(vectors), kind), _numbers([it[1] for it in surfaces]),
                     _are([it[3] for it in surfaces], "yes"), _are([it[5] for it in surfaces], "yes"), count, made)


def _lines(lines: List[str]) -> str:
    return "".join(f"{line}\n" for line in lines)


def joined(parts: List[Described]) -> Described:
    """What was answered part by part, as one."""
    import numpy
    if len(parts) == 1:
        return parts[0]

    def all_of(name: str) -> Any:
        return numpy.concatenate([getattr(it, name) for it in parts])

    def all_of_components(name: str) -> Any:
        return numpy.concatenate([getattr(it.components, name) for it in parts])

    before = numpy.cumsum([0] + [len(it) for it in parts[:-1]])
    surface = numpy.concatenate([it.components.surface + more for it, more in zip(parts, before)])
    components = Components(surface, *map(all_of_components, ("euler", "sides", "orientable", "vectors")))
    return Described(all_of("vectors"), all_of("euler"), all_of("linking"), all_of("boundary"), all_of("count"), components)

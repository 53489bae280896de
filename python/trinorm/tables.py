"""Triangulations as gluing tables, and what is taken for one."""
from __future__ import annotations

import string
from dataclasses import dataclass
from typing import TYPE_CHECKING, Any, Iterable, Iterator, List, Optional, Protocol, Sequence, Tuple, Union

from .arguments import listed, read_number, shown, whole_number
from .errors import BadArgument as BadArgument, Failed
from .table_methods import TableMethods

if TYPE_CHECKING:
    from typing_extensions import TypeGuard

Images = Tuple[int, int, int, int]

# what the values 0 to 63 are in a signature
CHARACTERS = string.ascii_lowercase + string.ascii_uppercase + string.digits + "+-"


@dataclass(frozen=True)
class Gluing:
    """The gluing of a face.

    Attributes:
        tet: the tetrahedron across the face
        images: the images of vertices 0 to 3

    >>> import trinorm
    >>> str(trinorm.Gluing(1, (0, 1, 3, 2)))
    '1:0132'
    """
    tet: int
    images: Images

    def __str__(self) -> str:
        return f"{self.tet}:" + "".join(map(str, self.images))

    @classmethod
    def parse(cls, word: str) -> Optional[Gluing]:
        """An entry of a gluing table.

        Args:
            word: such as `1:0132`, or `-` for a boundary face

        Returns:
            A `Gluing`, or None for a boundary face.

        Raises:
            BadArgument: it is not such a string

        >>> import trinorm
        >>> trinorm.Gluing.parse("1:0132")
        Gluing(tet=1, images=(0, 1, 3, 2))
        """
        if isinstance(word, str) and word == "-":
            return None
        tet, colon, images = word.partition(":") if isinstance(word, str) else ("", "", "")
        if not (colon and tet.isdecimal() and len(tet) <= 20 and images.isdecimal() and len(images) == 4):
            raise BadArgument(f"an entry of a gluing table must be - or like 1:0132, not {shown(word)}")
        return cls(int(tet), (int(images[0]), int(images[1]), int(images[2]), int(images[3])))


Row = Tuple[Optional[Gluing], Optional[Gluing], Optional[Gluing], Optional[Gluing]]
# what is taken for an entry of a row, and for a row
GivenEntry = Union[None, str, Gluing, Tuple[int, Union[str, Sequence[int]]]]
GivenRow = Union[str, Sequence[GivenEntry]]


@dataclass(frozen=True)
class Table(TableMethods):
    """A triangulation as a gluing table. It has the functions of a triangulation as methods.

    Attributes:
        rows: `rows[t][f]` is the `Gluing` of face f of tetrahedron t, or None if it is a boundary face

    >>> import trinorm
    >>> ball = trinorm.Table(((None, None, None, None),))
    >>> ball.info().vertices[0].kind
    'disc'
    """
    rows: Tuple[Row, ...]

    def __len__(self) -> int:
        return len(self.rows)

    def __str__(self) -> str:
        lines = [" ".join("-" if it is None else str(it) for it in row) for row in self.rows]
        return "".join(line + "\n" for line in [f"tri {len(lines)}", *lines])

    @classmethod
    def parse(cls, text: str) -> Table:
        """A table from its text.

        Args:
            text: `tri N` and N rows, as the program prints a table

        Returns:
            The `Table`.

        Raises:
            BadArgument: it is not the text of a table

        >>> import trinorm
        >>> len(trinorm.Table.parse("tri 1\\n0:1023 0:1023 0:1230 0:3012\\n"))
        1
        """
        lines = text.splitlines() if isinstance(text, str) else []
        if lines[:1] != [f"tri {len(lines) - 1}"]:
            raise BadArgument(f"expected the text of a gluing table (`tri N` and N rows), not {shown(text)}")
        return cls(tuple(row_of(line) for line in lines[1:]))

    def to_regina(self) -> Any:
        """The table as a triangulation of Regina, in which tetrahedra, faces and vertices have the same numbers.

        Returns:
            A `regina.Triangulation3`.

        Raises:
            BadArgument: the rows are not those of a gluing table
            Failed: this Python has no module regina

        >>> import trinorm
        >>> trinorm.table("cPcbbbiht").to_regina().isoSig()  # needs regina
        'cPcbbbiht'
        """
        regina, rows = import_regina(), self.checked().rows
        made = regina.Triangulation3()
        tets = [made.newTetrahedron() for _ in rows]
        try:
            for tet, row in zip(tets, rows):
                for face, gluing in enumerate(row):
                    if gluing is not None and sorted(gluing.images) != [0, 1, 2, 3]:
                        raise ValueError(f"the entry {gluing} has no permutation")
                    if gluing is not None and tet.adjacentTetrahedron(face) is None:
                        tet.join(face, tets[gluing.tet], regina.Perm4(*gluing.images))
        except Exception as fault:  # Regina's own, whose names depend on its version
            raise BadArgument(f"the rows of this Table are not those of a gluing table: {fault}") from None
        return made

    def checked(self) -> Table:
        """This table, if its rows have the right form.

        Returns:
            A `Table` whose rows are tuples of four, of `Gluing` or None.

        Raises:
            BadArgument: a row has another form

        >>> import trinorm
        >>> trinorm.Table(["- - - -"]).checked().rows
        ((None, None, None, None),)
        """
        return Table(tuple(map(row_of, listed(self.rows, "the rows of a Table must be a tuple"))))


class ReginaTriangulation(Protocol):
    """A `regina.Triangulation3`, as one in a packet or a `regina.SnapPeaTriangulation` is too."""

    def tetrahedra(self) -> Iterable[Any]:
        """Its tetrahedra."""


class SnapPyTriangulation(Protocol):
    """A `snappy.Triangulation`, as a `snappy.Manifold` is too."""

    def triangulation_isosig(self, *, decorated: bool) -> str:
        """Its signature."""


# what is taken for a triangulation (see `document`)
Triangulation = Union[str, Table, Sequence[GivenRow], ReginaTriangulation, SnapPyTriangulation]


def import_regina() -> Any:
    """The module regina, which is needed only where a value of its own is made."""
    try:
        import regina
    except ImportError:
        raise Failed("this Python has no module regina; use the one that Regina belongs to, often /usr/bin/python3") from None
    return regina


def row_of(row: object) -> Row:
    """The gluings of faces 0 to 3, from the words of a line or from four entries.

    An entry is `1:0132`, `-`, None, a Gluing, or a pair of a tetrahedron and a permutation: a word or four numbers.
    """
    expected = "a row of a gluing table must have four entries"
    given: List[object] = [*row.split()] if isinstance(row, str) else listed(row, expected)
    entries: List[Optional[Gluing]] = [_entry(entry) for entry in given]
    if len(entries) != 4:
        raise BadArgument(f"{expected}, not {len(entries)}")
    return (entries[0], entries[1], entries[2], entries[3])


def _entry(entry: object) -> Optional[Gluing]:
    if entry is None:
        return None
    if isinstance(entry, str):
        return Gluing.parse(entry)
    expected = "an entry of a gluing table must be like 1:0132, (1, '0132'), (1, (0, 1, 3, 2)), - or None"
    pair = [entry.tet, entry.images] if isinstance(entry, Gluing) else listed(entry, expected)
    tet = whole_number(pair[0]) if len(pair) == 2 else None
    if tet is None or not 0 <= tet < 1 << 64:
        raise BadArgument(f"{expected}, not {shown(entry)}")
    images = pair[1] if isinstance(pair[1], str) else "".join(map(_digit, listed(pair[1], expected)))
    return Gluing.parse(f"{tet}:{images}")


def _digit(image: object) -> str:
    number = whole_number(image)
    if number is None or not 0 <= number <= 3:
        raise BadArgument(f"the images of vertices must be numbers from 0 to 3, not {shown(image)}")
    return str(number)


def is_of_regina(value: object) -> TypeGuard[ReginaTriangulation]:
    """Whether a value is a `regina.Triangulation3`; Regina need not be there to ask."""
    return callable(getattr(value, "tetrahedra", None)) and not hasattr(value, "pentachora") and not isinstance(value, type)


def is_of_snappy(value: object) -> TypeGuard[SnapPyTriangulation]:
    """Whether a value is a `snappy.Triangulation`; SnapPy need not be there to ask."""
    return callable(getattr(value, "triangulation_isosig", None)) and not isinstance(value, type)


def from_regina(triangulation: ReginaTriangulation) -> Table:
    """The table of a triangulation of Regina, with the same numbers of tetrahedra, faces and vertices.

    Args:
        triangulation: a `regina.Triangulation3`, or a packet of one

    Returns:
        A `Table`.

    Raises:
        BadArgument: it is not a triangulation of Regina

    >>> import regina, trinorm  # needs regina
    >>> trinorm.from_regina(regina.Example3.figureEight()).sig()
    'cPcbbbiht'
    """
    if not is_of_regina(triangulation):
        raise BadArgument(f"expected a regina.Triangulation3, not {shown(triangulation)}")
    rows = ([_gluing_in_regina(tet, face) for face in range(4)] for tet in triangulation.tetrahedra())
    return Table(tuple(map(row_of, rows)))


def _gluing_in_regina(tet: Any, face: int) -> Optional[Gluing]:
    neighbour = tet.adjacentTetrahedron(face)
    return None if neighbour is None else Gluing.parse(f"{neighbour.index()}:{tet.adjacentGluing(face).str()}")


def document(triangulation: Triangulation) -> str:
    """The text of a triangulation for the program.

    triangulation: one word, which is a signature; a text that begins with `tri N` or `sig SIGNATURE`; a Table; a list of
        rows (see `row_of`); a `regina.Triangulation3`; or a `snappy.Manifold`, in the numbers of its signature
    """
    if isinstance(triangulation, str):
        return _text_document(triangulation)
    if isinstance(triangulation, Table):
        return str(triangulation.checked())
    if is_of_regina(triangulation):
        return str(from_regina(triangulation))
    if is_of_snappy(triangulation):
        return f"sig {triangulation.triangulation_isosig(decorated=False)}\n"
    return _rows_document(triangulation)


def _rows_document(rows: object) -> str:
    forms = ("a signature, the text of a gluing table (of a file: Path(..).read_text()), a list of rows, or a triangulation of "
             "Regina or SnapPy")
    try:
        given = listed(rows, "expected a triangulation")
    except BadArgument as fault:
        raise BadArgument(f"{fault}: {forms}") from None
    if not given and isinstance(rows, Iterator):
        raise BadArgument("the iterator has no rows: it may be exhausted. The empty triangulation is []")
    try:
        return str(Table(tuple(map(row_of, given))))
    except BadArgument as fault:
        raise BadArgument(f"expected a triangulation: {forms}. As a list of rows it is wrong: {fault}") from None


def _text_document(text: str) -> str:
    if len(text.split()) != 1:
        return text if text.endswith("\n") else text + "\n"
    word = text.strip()
    if "/" in word or "." in word:
        raise BadArgument(f"{word} is not a signature. Of a file pass the text, not the name; of a `csig` pass each component "
                          "(between full stops) separately")
    return f"sig {word}\n"


def alone(triangulation: Triangulation) -> str:
    """As `document`, for a place behind which more is written. A text with more or fewer lines than those of one triangulation
    is a `BadArgument`, since the program would read it together with what comes after it."""
    text = document(triangulation)
    if not isinstance(triangulation, str):
        return text
    lines = _lines_of(text)
    expected = _lines_of_head(lines[0]) if lines else None  # an empty text is refused by the program
    if expected is not None and len(lines) != expected:
        what = f"more text after it: {shown(lines[expected])}" if len(lines) > expected else f"{len(lines) - 1} rows of {expected - 1}"
        raise BadArgument(f"expected the text of one triangulation; this text has {what}")
    return text


def is_empty(triangulation: Triangulation) -> bool:
    """Whether a text has no line that the program reads."""
    return isinstance(triangulation, str) and not _lines_of(triangulation)


def _lines_of(text: str) -> List[str]:
    """The lines of a document that the program reads: those that are neither blank nor a comment."""
    stripped = (line.strip(" \t\r") for line in text.split("\n"))
    return [line for line in stripped if line and not line.startswith("#")]


def _lines_of_head(line: str) -> Optional[int]:
    """How many lines a triangulation has that begins with this one; None if none does, which the program refuses."""
    words = line.split()
    count = read_number(words[1]) if words[0] == "tri" and len(words) == 2 else None
    if count is not None:
        return 1 + count
    return 1 if words[0] == "sig" and len(words) == 2 else None


def size_of(text: str) -> int:
    """How many tetrahedra the triangulation has with which a document begins."""
    words = _lines_of(text)[0].split()
    return read_number(words[1]) or 0 if words[0] == "tri" else size_of_signature(words[1])


def size_of_signature(signature: str) -> int:
    """How many tetrahedra a signature has, by its head."""
    values = [CHARACTERS.index(it) for it in signature[:4]]
    if values[0] < 63:
        return values[0]
    return sum(value << 6 * place for place, value in enumerate(values[2:2 + values[1]]))

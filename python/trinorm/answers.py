"""How the lines that the program writes are read as values of `results`.

Each reader takes the lines of an answer; what it doesn't understand is a ValueError or an IndexError, and `commands` raises
`Failed` for it.
"""
from __future__ import annotations

from typing import Dict, List, Optional, Sequence

from .errors import BadArgument, Failed
from .results import (Accepted as Accepted, Bulk as Bulk, Component as Component, Cover as Cover, Descent as Descent,  # noqa: F401
                      Edge as Edge, Generator as Generator, Grouping as Grouping, Info as Info, Isomorphism as Isomorphism, Made as Made,
                      Played as Played, Presentation as Presentation, Relator as Relator, Sum as Sum, Surface as Surface, Term as Term,
                      Vector as Vector, Verdict as Verdict, Vertex as Vertex, vector_line as vector_line)
from .tables import Table


class _Numbers(Dict[str, int]):
    """Words as whole numbers: the small ones are known, since most are, and the others are read."""

    def __missing__(self, word: str) -> int:
        return int(word)


_number = _Numbers((str(it), it) for it in range(1000)).__getitem__


def numbers(line: str, skip: int = 1) -> Vector:
    return tuple(map(_number, line.split()[skip:]))


# the bytes of digits as numbers
_DIGITS = bytes(max(0, it - ord("0")) for it in range(ord("9") + 1)).ljust(256, b"\0")


def read_vector(line: str) -> Vector:
    """The vector of a line `vec ..`. Where each entry is one digit, as in most, these are every second character."""
    digits = line[4::2]
    if digits.isdigit() and line.count(" ") == len(digits) and len(line) == 2 * len(digits) + 3:
        return tuple(digits.encode("ascii").translate(_DIGITS))
    return numbers(line)


def is_yes(word: str) -> bool:
    return {"yes": True, "no": False}[word]


def read_vectors(lines: List[str]) -> List[Vector]:
    return [read_vector(line) for line in lines if not line.startswith("#")]


def check_number(lines: List[str], came: int) -> None:
    """Failed if an answer that begins with `# surfaces N` or `# rays N` has other than N vectors."""
    mark, _, number = lines[0].split()
    if mark != "#":
        raise ValueError("the answer is incomplete: the number of vectors is missing")
    if int(number) != came:
        raise Failed(f"the answer is incomplete: {came} vectors after `{lines[0]}`")


def check_count(what: str, came: int, expected: int, lines: Optional[int] = None) -> None:
    """Failed if other than the expected number came, or other lines than these.

    what: what was counted, as `components`
    """
    if came != expected or lines not in (None, expected):
        raise Failed(f"the answer is incomplete: {came} {what} instead of {expected}")


def check_in_turn(numbers_of_lines: Sequence[str]) -> None:
    """ValueError if numbers aren't those from 0 on, one after another."""
    if list(map(int, numbers_of_lines)) != list(range(len(numbers_of_lines))):
        raise ValueError("the answer is incomplete: a line is missing")


def read_list(lines: List[str]) -> List[Vector]:
    """The vectors of an answer that begins with their number."""
    found = read_vectors(lines[1:])
    check_number(lines, len(found))
    return found


def read_verdicts(lines: List[str]) -> List[Verdict]:
    return [Verdict(line.split()[0], numbers(line)) for line in lines]


def read_table(lines: List[str]) -> Table:
    try:
        return Table.parse("\n".join(lines))
    except BadArgument as fault:  # of the program, and not of the user
        raise Failed(f"the answer is incomplete: the table cannot be read: {fault}") from None


def read_word(lines: List[str]) -> str:
    [word] = lines
    return word


def read_accepted(lines: List[str]) -> Accepted:
    if lines != ["accepted"]:
        raise ValueError("the answer is not `accepted`")
    return Accepted()


def read_info(lines: List[str]) -> Info:
    head = dict(line.split() for line in lines[:8])
    rows = [line.split() for line in lines[8:]]
    vertices = [Vertex(int(it[3]), int(it[5]), is_yes(it[7]), it[9]) for it in rows if it[0] == "vertex"]
    edges = [Edge(int(it[3]), it[5], is_yes(it[7])) for it in rows if it[0] == "edge"]
    if (len(vertices), len(edges)) != (int(head["vertices"]), int(head["edges"])):
        raise ValueError("the answer is incomplete: a class is missing")
    return Info(int(head["tetrahedra"]), is_yes(head["connected"]), is_yes(head["orientable"]), is_yes(head["closed"]),
                int(head["faces"]), int(head["euler"]), tuple(vertices), tuple(edges))


def read_component(line: str) -> Component:
    words = line.split()
    return Component(int(words[2]), {"one": 1, "two": 2}[words[4]], is_yes(words[6]), numbers(line, 8))


def read_surfaces(lines: List[str]) -> List[Surface]:
    found = []
    at = 0
    while at < len(lines):
        words = lines[at + 1].split()
        last = at + 2 + int(words[7])
        components = tuple(read_component(line) for line in lines[at + 2:last])
        check_count("components", len(components), int(words[7]))
        found.append(Surface(read_vector(lines[at]), int(words[1]), is_yes(words[3]), is_yes(words[5]), components))
        at = last
    return found


def read_isomorphism(lines: List[str], size: int) -> Optional[Isomorphism]:
    """An isomorphism of triangulations with so many tetrahedra."""
    if lines == ["different"]:
        return None
    if lines[0] != "same":
        raise ValueError(lines[0])
    rows = [line.split() for line in lines[1:]]
    check_count("images", len({it[1] for it in rows}), size, len(rows))
    check_in_turn([it[0] for it in rows])
    return Isomorphism(tuple((int(there), tuple(map(int, images))) for _, there, images in rows))


def read_grouping(lines: List[str], count: int) -> Grouping:
    """The classes of so many triangulations."""
    rows = [line.split() for line in lines]
    classes = tuple(int(it[3]) for it in rows if it[0] == "table")
    signatures = tuple(it[2] for it in rows if it[0] == "class")
    check_count("triangulations", len(classes), count)
    check_count("classes", len(signatures), 1 + max(classes, default=-1))
    for kind in ("table", "class"):
        check_in_turn([it[1] for it in rows if it[0] == kind])
    return Grouping(classes, signatures)


def read_cover(lines: List[str]) -> Cover:
    table = read_table([line for line in lines if not line.startswith("#")])
    rows = [line.split() for line in lines if line.startswith("# tet ")]
    check_count("tetrahedra", len(rows), len(table))
    check_in_turn([it[2] for it in rows])
    return Cover(table, tuple((int(it[4]), int(it[6])) for it in rows), is_yes(lines[-1].split()[2]))


def read_presentation(lines: List[str]) -> Presentation:
    rows = [line.split() for line in lines]
    generators = [Generator(int(it[3]), is_yes(it[5])) for it in rows if it[0] == "generator"]
    relators = [Relator(int(it[1]), tuple(map(int, it[2:]))) for it in rows if it[0] == "relator"]
    [number_of_generators] = [int(it[1]) for it in rows if it[0] == "generators"]
    [number_of_relators] = [int(it[1]) for it in rows if it[0] == "relators"]
    check_count("generators", len(generators), number_of_generators)
    check_count("relators", len(relators), number_of_relators)
    if any(not 1 <= abs(letter) <= len(generators) for relator in relators for letter in relator.letters):
        raise ValueError("the answer is incomplete: a generator is missing")
    return Presentation(tuple(generators), tuple(relators))


def read_term(line: str) -> Term:
    count, *vector = numbers(line)
    return Term(count, tuple(vector))


def read_sums(lines: List[str], count: int) -> List[Sum]:
    """The blocks behind the table, of so many vectors."""
    at = 1 + int(lines[0].split()[1])
    found = []
    while at < len(lines):
        times, terms = numbers(lines[at + 1])
        last = at + 2 + terms
        found.append(Sum(read_vector(lines[at]), times, tuple(read_term(line) for line in lines[at + 2:last])))
        check_count("terms", len(found[-1].terms), terms)
        at = last
    check_count("sums", len(found), count)
    return found


# how many tetrahedra more a move makes
_MORE = {"14": 3, "23": 1, "32": -1, "41": -3}
# the most tetrahedra of a triangulation that has a legal move for `make` whatever it is
_MOST_BEFORE_NO_MOVE = 997


def _at_table(lines: List[str]) -> int:
    """The place of the line at which a table begins."""
    return next(at for at, line in enumerate(lines) if line.startswith("tri "))


def read_played(lines: List[str], count: int) -> Played:
    """What is answered to so many steps."""
    at = _at_table(lines)
    check_count("steps", at, count)
    return Played(tuple(lines[:at]), read_table(lines[at:]))


def read_descent(lines: List[str]) -> Descent:
    at = _at_table(lines)
    check_count("moves", at - 1, int(lines[0].split()[1]))
    return Descent({"reached": True, "stuck": False}[lines[0].split()[0]], tuple(lines[1:at]), read_table(lines[at:]))


def read_made(lines: List[str], count: int) -> Made:
    """What is made by so many moves."""
    last = 1 + int(lines[0].split()[1])
    made = Made(read_table(lines[:last]), tuple(lines[last:]))
    # the standard sphere, to which the moves lead, has one tetrahedron
    check_count("tetrahedra at the end of the moves", len(made.table) + sum(_MORE[it.split()[0]] for it in made.moves), 1)
    if len(made.table) <= _MOST_BEFORE_NO_MOVE:
        check_count("moves", len(made.moves), count)
    return made


def read_bulk(lines: List[str]) -> Bulk:
    return Bulk(*(int(line.split()[-1]) for line in lines))

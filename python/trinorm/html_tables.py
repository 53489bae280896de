"""What a notebook shows of answers: tables in HTML."""
from __future__ import annotations

from typing import TYPE_CHECKING, Iterable, List, Sequence, TypeVar

if TYPE_CHECKING:
    from .results import Info, Surface

Item = TypeVar("Item")
# of a longer list the first ones are shown, and how many there are
MOST = 100


def escape(text: str) -> str:
    """A text as HTML has it."""
    return text.replace("&", "&amp;").replace("<", "&lt;").replace(">", "&gt;")


def _row(cells: Iterable[object], kind: str = "td") -> str:
    return "<tr>" + "".join(f"<{kind}>{escape(str(cell))}</{kind}>" for cell in cells) + "</tr>"


def table(head: Sequence[str], rows: Iterable[Sequence[object]], caption: str) -> str:
    """A table with a line above it."""
    return f"<table><caption>{escape(caption)}</caption>{_row(head, 'th')}{''.join(map(_row, rows))}</table>"


def yes(value: bool) -> str:
    """A truth value as the program writes it."""
    return "yes" if value else "no"


def info_html(info: Info) -> str:
    """The classes of vertices and edges of a triangulation, and what else is known of it."""
    known = ", ".join(name if value else f"not {name}" for name, value in
                      (("connected", info.connected), ("orientable", info.orientable), ("closed", info.closed)))
    caption = f"{info.tetrahedra} tetrahedra, {info.faces} faces, {known}, Euler characteristic {info.euler}"
    vertices = [(number, it.degree, it.euler, yes(it.closed), it.kind) for number, it in enumerate(info.vertices)]
    edges = [(number, it.degree, it.place, yes(it.valid)) for number, it in enumerate(info.edges)]
    return (table(("vertex", "degree", "Euler", "closed", "link"), vertices, caption)
            + table(("edge", "degree", "place", "valid"), edges, f"{len(edges)} edges"))


def surfaces_html(surfaces: Sequence[Surface]) -> str:
    """What `describe` says of surfaces: a row each."""
    rows = []
    for number, surface in enumerate(surfaces[:MOST]):
        parts = "; ".join(f"χ {it.euler}, {'one side' if it.sides == 1 else 'two sides'}{'' if it.orientable else ', not orientable'}"
                          for it in surface.components)
        rows.append((number, surface.euler, yes(surface.linking), yes(surface.boundary), parts, " ".join(map(str, surface.vector))))
    return table(("", "Euler", "linking", "boundary", "components", "vector"), rows, _how_many(surfaces))


def vectors_html(vectors: Sequence[Sequence[int]]) -> str:
    """Vectors: a row each."""
    rows = [(number, " ".join(map(str, vector))) for number, vector in enumerate(vectors[:MOST])]
    return table(("", "vector"), rows, _how_many(vectors))


def _how_many(them: Sequence[object]) -> str:
    more = f", of which the first {MOST} are shown" if len(them) > MOST else ""
    return f"{len(them):,} surface{'' if len(them) == 1 else 's'}{more}"


class Shown(List[Item]):
    """A list of surfaces or of vectors that a notebook shows as a table. All else is as of any list."""

    def _repr_html_(self) -> str:
        are_described = len(self) > 0 and hasattr(self[0], "components")
        return surfaces_html(self) if are_described else vectors_html(self)  # type: ignore[arg-type]

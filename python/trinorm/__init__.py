"""trinorm: triangulated 3-manifolds and their normal surfaces, by a program that is proved to meet its contracts.

    >>> import trinorm
    >>> trinorm.surfaces("cPcbbbiht")
    [(1, 1, 1, 1, 0, 0, 0, 1, 1, 1, 1, 0, 0, 0)]

This package calls the program, as a library in this process or as a process of its own, and reads what it prints. The program is proved;
the package is tested. A triangulation is a signature, the text of a gluing table, a list of rows, a `Table`, or one of Regina or SnapPy.
`help(trinorm.surfaces)` describes the arguments that all functions take.
"""
from . import commands
from .batch import Answered, many
from .census import census
from .certificates import Certificate, certify
from .commands import *  # noqa: F401,F403  (the functions of the commands, as `commands.__all__` has them)
from .program import Error, Failed, Refused, TimedOut, find
from .questions import Count, ZeroEfficiency, count, described, spheres, tori, zero_efficient
from .regina_surfaces import normal_surface, to_regina, vector_of
from .results import (Accepted, Bulk, Component, Cover, Descent, Edge, Generator, Grouping, Info, Isomorphism, Made, Played,
                      Presentation, Relator, Sum, Surface, Term, Verdict, Vertex)
from .table_methods import offer
from .tables import BadArgument, Gluing, Table, from_regina
from .versions import version

__version__ = version()


def _picture(table: Table) -> str:
    """As `pictures.face_pairing_svg`, which is loaded when a notebook first shows a table."""
    from . import pictures
    return pictures.face_pairing_svg(table)


# what a `Table` has as methods
offer(*(getattr(commands, name) for name in commands.__all__ if hasattr(Table, name)), certify, count, described, spheres, tori,
      zero_efficient, picture=_picture)


def __getattr__(name: str) -> object:
    """Names of earlier versions."""
    if name == "Contrary":
        import warnings
        warnings.warn("trinorm.Contrary is deprecated; write trinorm.ZeroEfficiency", DeprecationWarning, stacklevel=2)
        return ZeroEfficiency
    raise AttributeError(f"module {__name__!r} has no attribute {name!r}")


__all__ = [
    "census", "certify", "count", "described", "many", "spheres", "tori", "zero_efficient",
    "Accepted", "Answered", "Bulk", "Certificate", "Component", "Count", "Cover", "Descent", "Edge", "Generator", "Gluing",
    "Grouping", "Info",
    "Isomorphism", "Made", "Played", "Presentation", "Relator", "Sum", "Surface", "Table", "Term", "Verdict", "Vertex",
    "ZeroEfficiency",
    "BadArgument", "Error", "Failed", "Refused", "TimedOut", "find", "from_regina", "normal_surface", "to_regina",
    "vector_of",
]
__all__ += commands.__all__

"""Certificates that a triangulation is a 3-sphere: Pachner moves to the standard sphere of one tetrahedron.

The search is tested, not proved. It plays simplifying moves (4-1 and 3-2) while there are any, then a few others (2-3 and 1-4),
simplifies again, and keeps what is not larger than before. At three tetrahedra or fewer it uses stored moves (endings.txt).
What it returns was accepted by `check`, which is proved.
"""
from __future__ import annotations

import argparse
import math
import random
import sys
import time
from dataclasses import dataclass
from pathlib import Path
from typing import Dict, Iterable, List, Optional, Tuple

from . import commands
from .arguments import shown, whole_number
from .pachner import CORES, Alike, Labelling, Move, Triangulation, labelling
from .parts import Clock
from .program import Program
from .errors import BadArgument, Failed
from .results import Info, Presentation
from .standard_streams import read_input
from .tables import Table, Triangulation as Given

# the seconds of a search for which none are given
SECONDS = 10.0
# the most tetrahedra of an ending, how many moves are played up at a time, and the most tetrahedra of a table
LISTED, MOST_UP, MOST = 3, 5, 1000


@dataclass(frozen=True)
class Certificate:
    """A triangulation, and moves that lead from it to the standard 3-sphere, which `check` has accepted.

    `str` of it is an input of the command `check`.

    Attributes:
        table: the triangulation
        moves: the moves, in order

    >>> import trinorm
    >>> certificate = trinorm.certify("bkaagb")
    >>> bool(trinorm.check(certificate.table, certificate.moves))
    True
    """
    table: Table
    moves: Tuple[str, ...]

    def __str__(self) -> str:
        return str(self.table) + "".join(f"{move}\n" for move in self.moves)


class _Ending:
    """A triangulation of a few tetrahedra, with moves from it to the standard sphere."""

    def __init__(self, line: str) -> None:
        rows, _, moves = line.partition("=")
        lines = rows.split(";")
        made = Triangulation.of(Table.parse("\n".join([f"tri {len(lines)}", *lines])))
        assert made is not None
        self.here, self.labelling = made, labelling(made)
        self.moves = [it.strip() for it in moves.split(",") if it.strip()]

    def play(self, t: Triangulation, its: Labelling) -> List[str]:
        """Plays the moves in an isomorphic triangulation, and returns them by its numbers."""
        here = self.here.copy()
        alike, played = Alike(here, t, (self.labelling, its)), []
        for word in self.moves:
            move = here.named(word)
            assert move is not None
            played.append(alike.play(move))
        return played


_endings: Dict[object, _Ending] = {}


def endings() -> Dict[object, _Ending]:
    """The endings by canonical form; read once."""
    if not _endings:
        text = Path(__file__).with_name("endings.txt").read_text(encoding="ascii")
        read = (_Ending(line) for line in text.splitlines())
        _endings.update((it.labelling.form, it) for it in read)
    return _endings


class Search:
    """A search for moves from a closed triangulation to the standard sphere. `moves` lead from the first triangulation to
    `here`."""

    def __init__(self, t: Triangulation, seed: int) -> None:
        self.here, self.moves = t, []  # type: Tuple[Triangulation, List[str]]
        self._random = random.Random(seed)
        self.moves += self._descend(self.here, self.here.order)

    def _play(self, t: Triangulation, move: Move, moves: List[str]) -> List[int]:
        moves.append(t.name(move))
        return t.play(move)

    def _descend(self, t: Triangulation, tets: Iterable[int]) -> List[str]:
        """Plays moves 4-1 and 3-2 at these tetrahedra and at new ones, while there are any."""
        moves: List[str] = []
        waiting = list(tets)
        self._random.shuffle(waiting)
        while waiting and len(t) > 1:
            tet = waiting.pop()
            if tet in t.glue:
                down = [*CORES[1], *self._random.sample(CORES[2], 6)]
                move = next((it for it in (t.move(tet, core) for core in down) if it is not None), None)
                if move is not None:
                    waiting += self._play(t, move, moves)
        return moves

    def _ascend(self, t: Triangulation, count: int) -> Tuple[List[str], List[int]]:
        """Plays moves 2-3 near each other, and 1-4 in a triangulation of few tetrahedra. Returns what is new, too."""
        moves: List[str] = []
        near: List[int] = []
        while count > 0 and len(t) + 3 <= MOST:
            count -= 1
            tet = self._random.choice(near if near and self._random.random() < 0.7 else t.order)
            is_small = len(t) == 1 or (len(t) <= LISTED and self._random.random() < 0.3)
            move = t.move(tet, self._random.choice(CORES[4 if is_small else 3]))
            if move is not None:
                near += self._play(t, move, moves)
                near = [it for it in near if it in t.glue]
        return moves, near

    def step(self) -> None:
        """Plays some moves up and then down, and keeps them if the triangulation isn't larger than before."""
        t = self.here.copy()
        up, new = self._ascend(t, self._random.randint(1, MOST_UP))
        down = self._descend(t, new)
        if up and len(t) <= len(self.here):
            self.here = t
            self.moves += up + down

    def end(self) -> Optional[List[str]]:
        """All moves to the standard sphere, if the way is known from here."""
        if len(self.here) > LISTED:
            return None
        its = labelling(self.here)
        ending = endings().get(its.form)
        return None if ending is None else self.moves + ending.play(self.here.copy(), its)


def search(table: Table, seed: int, seconds: float) -> Optional[List[str]]:
    """Moves from a connected table to the standard sphere, if they are found in these seconds of this thread's processor.
    They aren't checked."""
    t, end = Triangulation.of(table), time.thread_time() + seconds
    if t is None or len(t) == 0:
        return None
    looking = Search(t, seed)
    while True:
        found = looking.end()
        if found is not None or time.thread_time() > end:
            return found
        looking.step()


def is_trivial(group: Presentation) -> bool:
    """Whether the group of a presentation has no abelian quotient but the trivial one."""
    rows = []
    for relator in group.relators:
        row = [0] * len(group.generators)
        for letter in relator.letters:
            row[abs(letter) - 1] += 1 if letter > 0 else -1
        rows.append(row)
    for column in range(len(group.generators)):
        # Euclid's algorithm on this column leaves its greatest common divisor in one row, which is taken out
        divisor = math.gcd(*(row[column] for row in rows))
        if divisor != 1:
            return False
        while sum(row[column] != 0 for row in rows) > 1:
            least = min((row for row in rows if row[column]), key=lambda it: abs(it[column]))
            for row in rows:
                if row is not least:
                    times = row[column] // least[column]
                    row[:] = [a - times * b for a, b in zip(row, least)]
        rows = [row for row in rows if not row[column]]
    return True


def may_be_sphere(info: Info) -> bool:
    """Whether the numbers of `info` are those of a closed connected orientable 3-manifold."""
    return (info.tetrahedra > 0 and info.connected and info.orientable and info.closed and info.euler == 0
            and all(it.kind == "sphere" for it in info.vertices) and all(it.valid for it in info.edges))


def certify(t: Given, seed: int = 0, timeout: Optional[float] = None, *, program: Program = None) -> Optional[Certificate]:
    """Moves that show that a triangulation is a 3-sphere, accepted by `check`; None if none were found.

    None does not mean that the manifold is not a 3-sphere. It is returned at once if `info` or the first homology excludes a 3-sphere.

    Args:
        t: the triangulation
        seed: a whole number, from which the random numbers of the search are drawn; the moves depend on it alone
        timeout: seconds of processor time that the search takes at most; 10 by default
        program: as for `surfaces`

    Returns:
        A `Certificate`, or None.

    Raises:
        Refused: the triangulation is not a gluing table
        BadArgument, Failed, TimedOut: as for `surfaces`

    >>> import trinorm
    >>> certificate = trinorm.certify("bkaagb")
    >>> bool(trinorm.check("bkaagb", certificate.moves))
    True
    """
    drawn = whole_number(seed)
    if drawn is None:
        raise BadArgument(f"seed must be a whole number, not {shown(seed)}")
    clock = Clock(timeout)
    seconds = SECONDS if timeout is None else clock.timeout or math.inf
    table = commands.play(t, (), timeout=clock.left(), program=program).table
    if not may_be_sphere(commands.info(table, timeout=clock.left(), program=program)):
        return None
    if not is_trivial(commands.pi1(table, timeout=clock.left(), program=program)):
        return None
    moves = search(table, drawn, seconds)
    if moves is None:
        return None
    if not commands.check(table, moves, program=program):
        raise Failed("`check` did not accept the moves that were found; please report this")
    return Certificate(table, tuple(moves))


def add_arguments(reader: argparse.ArgumentParser) -> None:
    """The arguments of `python3 -m trinorm certify`."""
    reader.add_argument("triangulation", metavar="SIGNATURE", help="a signature, or - for a gluing table on standard input")
    reader.add_argument("--seed", type=int, default=0, help="seed of the random numbers of the search (default: 0)")
    reader.add_argument("--timeout", type=float, help=f"time limit of the search in seconds (default: {SECONDS:.0f})")


def main(given: argparse.Namespace) -> int:
    """Prints the triangulation and the moves; status 1 if there are none."""
    made = certify(read_input() if given.triangulation == "-" else given.triangulation, given.seed, given.timeout)
    if made is None:
        print("trinorm: no moves to the 3-sphere were found; this does not mean that it is not a 3-sphere", file=sys.stderr)
        return 1
    print(made, end="")
    return 0

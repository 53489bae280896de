"""What the scripts of this folder share: the program, runs with their seconds and megabytes, and families of tables.

Seconds are those of the processor, with the program's start and without the launcher's. Megabytes are never fewer than this
script's own (20 to 40), since a process begins as a copy of it.
"""
from __future__ import annotations

import functools
import itertools
import os
import random
import shutil
import subprocess
import sys
import tempfile
import threading
from typing import Iterable, List, NamedTuple, Optional, Sequence, Tuple

HERE = os.path.dirname(os.path.realpath(__file__))
TOP = os.path.dirname(HERE)
sys.path.insert(0, os.path.join(TOP, "python"))

from trinorm import find  # noqa: E402  (the package stands beside this folder)

Word = Tuple[int, ...]
# of each face of a tetrahedron the tetrahedron behind it and the images of the vertices, None at the boundary
Gluings = List[List[Optional[Tuple[int, Word]]]]

MOST_BYTES = 1048576
# the status of a run that was ended, since it took too long
ENDED = -9


class Run(NamedTuple):
    """A run that has ended."""
    status: int
    answer: str
    seconds: float
    megabytes: float


def named_program() -> str:
    """The program that the first word of the command line names, else the repository's, which is built where it isn't."""
    return find(sys.argv[1] if len(sys.argv) > 1 else None)


def run(command: Sequence[str], text: str = "", limit: Optional[float] = None, folder: Optional[str] = None) -> Run:
    """Runs a command on a text, at most for so many seconds of the clock."""
    with tempfile.TemporaryFile() as given, tempfile.TemporaryFile() as answer:
        given.write(text.encode())
        given.seek(0)
        child = subprocess.Popen(command, stdin=given, stdout=answer, stderr=subprocess.DEVNULL, cwd=folder)
        timer = threading.Timer(limit or 0, child.kill)
        if limit:
            timer.start()
        _, status, used = os.wait4(child.pid, 0)
        timer.cancel()
        child.returncode = os.waitstatus_to_exitcode(status)
        answer.seek(0)
        return Run(child.returncode, answer.read().decode(errors="replace"), used.ru_utime + used.ru_stime, used.ru_maxrss / 1024)


@functools.lru_cache(maxsize=None)
def regina_python() -> Optional[str]:
    """The Python that has the module regina: this one, the system's, or Regina's own; None where there is none."""
    for path in filter(None, (sys.executable, "/usr/bin/python3", shutil.which("regina-python"))):
        with tempfile.NamedTemporaryFile("w", suffix=".py", encoding="utf8") as script:
            script.write("import regina")
            script.flush()
            if os.path.exists(path) and run([path, script.name]).status == 0:
                return path
    return None


def regina_says(text: str, limit: Optional[float] = None) -> Optional[List[str]]:
    """The words that a script of Regina's prints; None where Regina isn't installed, or it takes more seconds of the clock."""
    python = regina_python()
    if python is None:
        return None
    with tempfile.NamedTemporaryFile("w", suffix=".py", encoding="utf8") as script:
        script.write(text)
        script.flush()
        done = run([python, script.name], limit=limit)
    return None if done.status == ENDED else done.answer.split()


def table_text(rows: Sequence[Iterable[str]]) -> str:
    """A table of rows of entries, as `1:0132` or `-`."""
    return f"tri {len(rows)}\n" + "".join(" ".join(row) + "\n" for row in rows)


def vector_line(entries: Iterable[int]) -> str:
    return "vec" + "".join(f" {entry}" for entry in entries) + "\n"


def inverse(word: Word) -> Word:
    """The inverse of a permutation of 0 to 3."""
    return tuple(word.index(v) for v in range(4))


def entry(tet: int, word: Word) -> str:
    return f"{tet}:" + "".join(map(str, word))


def layered_loop_gluings(tetrahedra: int) -> Gluings:
    """A closed orientable table whose vertex links are spheres: each tetrahedron is glued to the next along two faces."""
    gluings: Gluings = [[None] * 4 for _ in range(tetrahedra)]
    for t in range(tetrahedra):
        u = (t + 1) % tetrahedra
        for face, word in ((0, (1, 0, 2, 3)), (3, (0, 1, 3, 2))):
            gluings[t][face] = (u, word)
            gluings[u][word[face]] = (t, inverse(word))
    return gluings


def layered_loop(tetrahedra: int) -> str:
    """The rows of a layered loop."""
    return table_text([[entry(*face) for face in row if face] for row in layered_loop_gluings(tetrahedra)])


def chain(tetrahedra: int) -> str:
    """A chain of tetrahedra, each glued to the next along one face by the identity."""
    rows = [["-"] * 4 for _ in range(tetrahedra)]
    for t in range(tetrahedra - 1):
        rows[t][t % 2] = f"{t + 1}:0123"
        rows[t + 1][t % 2] = f"{t}:0123"
    return table_text(rows)


def loose(tetrahedra: int) -> str:
    """Tetrahedra of which none is glued."""
    return table_text([["-"] * 4] * tetrahedra)


def tree(tetrahedra: int, seed: int) -> str:
    """A table of tetrahedra of which each but the first is glued to an earlier one, at a face drawn from a seed."""
    draw = random.Random(seed)
    words = list(itertools.permutations(range(4)))
    rows = [["-"] * 4 for _ in range(tetrahedra)]
    for new in range(1, tetrahedra):
        tet, face = draw.choice([(t, f) for t in range(new) for f in range(4) if rows[t][f] == "-"])
        word = draw.choice(words)
        rows[tet][face] = entry(new, word)
        rows[new][word[face]] = entry(tet, inverse(word))
    return table_text(rows)


def parted(program: str, moves: int) -> str:
    """The sphere of one tetrahedron after so many moves 1-4 at tetrahedron 0."""
    return run([program, "play"], "sig bkaagj\n" + "14 0\n" * moves).answer.split("done\n")[-1]


def grown(program: str, steps: int) -> str:
    """A closed table after so many 2-3 moves at drawn faces, of which some are refused."""
    draw = random.Random(steps)
    script = "".join(f"23 {draw.randrange(5 + k // 2)} {draw.randrange(4)}\n" for k in range(steps))
    answer = run([program, "play"], layered_loop(5) + script).answer
    return answer[answer.index("tri "):]

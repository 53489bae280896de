"""Finds the program, and answers words and an input by it or by its library. What is refused and what failed are
exceptions.
"""
from __future__ import annotations

import os
import shutil
import subprocess
from pathlib import Path
from typing import TYPE_CHECKING, Dict, Optional, Protocol, Sequence, Tuple, Union

from .arguments import AnyPath, as_bytes, checked_timeout, checked_words, path_text, shown
from .errors import BadArgument as BadArgument, Error as Error, Failed as Failed, Place as Place, Refused as Refused  # noqa: F401
from .errors import TimedOut as TimedOut, how_it_ended as how_it_ended, kind_and_places as kind_and_places  # noqa: F401
from .machine import Lock
from .outcomes import read_outcome as read_outcome
from .processes import Child

if TYPE_CHECKING:
    from .library import Library

REPOSITORY = Path(__file__).resolve().parents[2]

_build = Lock()
_is_built = False


def _built_in_repository() -> str:
    """The repository's program; where it isn't built, or a source was changed, it is built first, once a process."""
    global _is_built
    program = REPOSITORY / "crates" / "trinorm" / "out" / "trinorm"
    with _build.held():
        if not _is_built:
            launcher = str(REPOSITORY / "trinorm")
            done = subprocess.run([launcher, "csig"], input=b"tri 0\n", stdout=subprocess.DEVNULL, check=False)
            if done.returncode != 0:
                raise Failed(f"{launcher}: the program could not be built")
            _is_built = True
    return str(program)


def _path_of(program: AnyPath) -> str:
    """A path as a text."""
    path = path_text(program)
    if path is None:
        raise BadArgument(f"program must be the path of a program, a trinorm.server.Server or None, not {shown(program)}")
    return path


def find(program: Optional[AnyPath] = None) -> str:
    """The path of the program that is used.

    That is the one that is named here; else by TRINORM in the environment; else the one of the repository that contains this package,
    which is built on first use; else the one that was installed with the package; else the first on the path.

    Args:
        program: a path, or None

    Returns:
        The path, as a string.

    Raises:
        BadArgument: the argument is not a path
        Failed: there is no such program, or it could not be built

    >>> import os, trinorm
    >>> os.access(trinorm.find(), os.X_OK)
    True
    """
    named = os.environ.get("TRINORM") if program is None else _path_of(program)
    if named:
        path = shutil.which(os.path.expanduser(named))
        if path is None:
            raise Failed(f"there is no program at {named}")
        return path
    if (REPOSITORY / "trinorm").is_file() and (REPOSITORY / "crates" / "trinorm").is_dir():
        return _built_in_repository()
    for folder in Path(__file__).resolve().parents:
        installed = folder / "libexec" / "trinorm" / ("trinorm.exe" if os.name == "nt" else "trinorm")
        if installed.is_file():
            return str(installed)
    path = shutil.which("trinorm")
    if path is None:
        raise Failed("the program trinorm was not found; install it, or name it by the environment variable TRINORM")
    return path


class Runner(Protocol):
    """What runs words over an input in the place of a program, as `server.Server` does."""

    def run(self, words: Sequence[str], text: str = "", timeout: Optional[float] = None) -> str:
        """As `run` below."""


# what runs the commands: a path, what runs in its place, or None for the library or the program that are found
Program = Union[AnyPath, Runner, None]


def checked_program(program: Program) -> Program:
    """A program as it was given, or BadArgument for a value of another kind."""
    if program is None:
        return None
    return _path_of(program) if isinstance(program, (str, os.PathLike)) else _checked_runner(program)


def _checked_runner(program: Runner) -> Runner:
    """What runs in the place of a program, or BadArgument for another value."""
    if isinstance(program, type) or not callable(getattr(program, "run", None)):
        raise BadArgument(f"program must be the path of a program, a trinorm.server.Server or None, not {shown(program)}")
    return program


_libraries: Dict[Tuple[Optional[str], Optional[str], Path], Optional[Library]] = {}


def find_library() -> Optional[Library]:
    """The library that answers in this process, if there is one.

    That is the one that TRINORM_LIBRARY names in the environment; else, if TRINORM names no program, the one in the folder of the program
    that is found.

    Returns:
        A `trinorm.library.Library`, or None.

    Raises:
        Failed: the library that is named cannot be loaded, or no program was found

    >>> from trinorm.program import find_library
    >>> find_library() is find_library()
    True
    """
    named, program = os.environ.get("TRINORM_LIBRARY"), os.environ.get("TRINORM")
    known = named, program, REPOSITORY
    if known not in _libraries:
        from . import library  # which loads ctypes, that a program does not need
        if named:
            _libraries[known] = library.at(os.path.realpath(os.path.expanduser(named)))
        else:
            _libraries[known] = None if program else library.next_to(find())
    return _libraries[known]


def run(words: Sequence[str], text: str = "", timeout: Optional[float] = None, program: Program = None) -> str:
    """Runs a command line over an input.

    The library in this process answers, if there is one; if a program is named, or a time limit, it is a process.

    Args:
        words: the command and its options
        text: the input
        timeout: seconds, after which the run is ended
        program: the path of a program, or what runs in its place, such as a `trinorm.server.Server`

    Returns:
        What the program prints.

    Raises:
        Refused: the program refused the command line or the input
        BadArgument: an argument is invalid
        Failed: the program was not found, was killed, or ran out of memory; `TimedOut` if it exceeded the time limit

    >>> from trinorm.program import run
    >>> run(["sig"], "tri 1\\n0:1023 0:1023 0:1230 0:3012\\n")
    'bkaagj\\n'
    """
    if program is None and timeout is None:
        library = find_library()
        if library is not None:
            return library.run(words, text)
    if program is None or isinstance(program, (str, os.PathLike)):
        return run_process(words, text, timeout, program)
    answer = _checked_runner(program).run(words, text, timeout)
    if not isinstance(answer, str):
        raise Failed(f"{' '.join(words)}: {shown(program)} returned {shown(answer)}, which is not a string")
    return answer


def run_process(words: Sequence[str], text: str = "", timeout: Optional[float] = None,
                program: Optional[AnyPath] = None) -> str:
    """Runs a command line over an input in a process of its own.

    Args:
        words, text, timeout: as for `run`
        program: the path of a program; by default the one that `find` finds

    Returns:
        What the program prints.

    Raises:
        Refused, BadArgument, Failed, TimedOut: as for `run`

    >>> from trinorm.program import run_process
    >>> run_process(["csig"], "tri 0\\n", timeout=60)
    'a\\n'
    """
    words, given, seconds = checked_words(words), as_bytes(text), checked_timeout(timeout)
    as_bytes(" ".join(words))
    path = find(program)
    try:
        with Child([path, *words]) as started:
            said, _ = started.communicate(given, seconds)
    except subprocess.TimeoutExpired:
        raise TimedOut(f"{' '.join(words)}: no result within {timeout} s") from None
    except OSError as fault:
        if fault.errno is None:  # of a handler of signals
            raise
        raise Failed(f"{path}: {fault.strerror}") from None
    return read_outcome(words, started.returncode, said)

"""What tests of engines need: a Python that has a module, and a census that runs by it as a process of its own."""
import functools
import os
import shutil
import subprocess
import sys
import unittest
from pathlib import Path
from typing import Callable, Dict, Optional, TypeVar

import trinorm

# MPI refuses to run for the superuser, and to start more processes than there are processors, unless it is asked to
MPI = {"OMPI_ALLOW_RUN_AS_ROOT": "1", "OMPI_ALLOW_RUN_AS_ROOT_CONFIRM": "1", "OMPI_MCA_rmaps_base_oversubscribe": "1",
       "OMPI_MCA_btl_vader_single_copy_mechanism": "none"}

Test = TypeVar("Test", bound=Callable[..., object])


@functools.lru_cache(maxsize=None)
def python_with(module: str) -> Optional[str]:
    """This Python, or the system's, if it has a module; else None."""
    for path in (sys.executable, "/usr/bin/python3"):
        if shutil.which(path) and subprocess.run([path, "-c", f"import {module}"], capture_output=True, check=False).returncode == 0:
            return path
    return None


def needed(module: str) -> str:
    """As `python_with`, for a module that is there."""
    found = python_with(module)
    assert found is not None
    return found


def skip_without(name: str, is_there: object) -> "Callable[[Test], Test]":
    """A decorator that skips a test by the name of what is missing."""
    return unittest.skipUnless(is_there, f"{name} isn't installed")


def environment(program: str, **more: str) -> Dict[str, str]:
    """The environment of a census by a program."""
    top = Path(trinorm.__file__).resolve().parents[1]
    return dict(os.environ, TRINORM=program, PYTHONPATH=str(top), **MPI, **more)

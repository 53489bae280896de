"""Makes the wheel of the package, with the program inside, by Python's own library alone (PEP 517 and 660)."""
from __future__ import annotations

import os
import subprocess
import sys
from pathlib import Path
from typing import Any, Optional

TOP = Path(__file__).resolve().parents[1]
sys.path.insert(0, str(TOP / "tools"))
sys.dont_write_bytecode = True

import packages  # noqa: E402
from installed import Installed  # noqa: E402

NO_PROGRAM = """there is no program to put into the package. One of these gives it one:
- install the file trinorm-*.whl of a release in place of this folder
- tools/build.py --take FILE, with a file of a release of the same sources
- ./trinorm, which proves and builds the program with the Rattle kit
- the variable TRINORM with the path of a program"""


def named_program(named: str) -> bytes:
    """The program at a path; a launcher, which finds it elsewhere, is none."""
    data = Path(named).expanduser().read_bytes()
    if not data.startswith(b"\x7fELF"):
        raise SystemExit(f"TRINORM names {named}, which is no program but a script, such as the launcher: name the program itself")
    return data


def current_program() -> packages.Made:
    """What the repository's build made, where it is that of its sources, or the program that TRINORM names."""
    named, installed = os.environ.get("TRINORM"), Installed(TOP)
    version = packages.fields()["version"]
    if named:
        return packages.Made(version, {"program": named_program(named)}, f"proved elsewhere\nversion {version}\n")
    done = subprocess.run([sys.executable, str(TOP / "tools" / "build.py"), "--no-proof"], check=False)
    if done.returncode:
        raise SystemExit(NO_PROGRAM)
    return packages.Made(version, installed.files(), (installed.out / ".version").read_text("utf8"))


def write(folder: str, name: str, data: bytes) -> str:
    Path(folder, name).write_bytes(data)
    return name


def build_wheel(folder: str, config_settings: Any = None, metadata_directory: Optional[str] = None) -> str:
    return write(folder, *packages.wheel(current_program()))


def build_editable(folder: str, config_settings: Any = None, metadata_directory: Optional[str] = None) -> str:
    return write(folder, *packages.editable_wheel())


def build_sdist(folder: str, config_settings: Any = None) -> str:
    raise SystemExit("the sources are the repository")

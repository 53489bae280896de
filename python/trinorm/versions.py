"""The version of this package, and what the build of the program wrote of itself."""
from __future__ import annotations

import re
from pathlib import Path

from .program import REPOSITORY


def version() -> str:
    """The version of the repository that this package lies in, else that of the installed package."""
    project = Path(__file__).resolve().parents[1] / "pyproject.toml"
    if project.is_file():
        found = re.search(r'^version = "(.*)"$', project.read_text(encoding="utf8"), re.MULTILINE)
        if found:
            return found[1]
    import importlib.metadata  # which takes longer to load than all else here
    try:
        return importlib.metadata.version("trinorm")
    except importlib.metadata.PackageNotFoundError:
        built = re.search(r"^version (.+)$", build(), re.MULTILINE)  # the tarball and Debian's package have no metadata of Python
        return built[1] if built else "unknown"


def build() -> str:
    """Lines `KEY VALUE` on the program that was built: commit, line of the kit, sum; empty where none was."""
    installed = (folder / "libexec" / "trinorm" / "version" for folder in Path(__file__).resolve().parents)
    for path in (REPOSITORY / "crates" / "trinorm" / "out" / ".version", *installed):
        if path.is_file():
            return path.read_text(encoding="utf8")
    return ""

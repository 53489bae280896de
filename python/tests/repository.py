"""A folder like the repository's, in which the launcher finds a program that is current."""
import os
import shutil
from pathlib import Path

import trinorm
from trinorm.program import REPOSITORY


def make(folder: str) -> Path:
    """Lays the folder out. Returns where the program stands: a link to the one that is tested."""
    top = Path(folder)
    out = top / "crates" / "trinorm" / "out"
    out.mkdir(parents=True)
    program = out / "trinorm"
    program.symlink_to(os.path.realpath(trinorm.find()))
    shutil.copy(REPOSITORY / "trinorm", top)
    shutil.copytree(REPOSITORY / "launcher", top / "launcher")
    shutil.copytree(REPOSITORY / "examples", top / "examples")
    (top / "python" / "trinorm").mkdir(parents=True)
    for name in ("commands.txt", "hints.txt", "words.json"):
        shutil.copy(REPOSITORY / "python" / "trinorm" / name, top / "python" / "trinorm")
    (out / ".version").write_text("proved here\nversion 1.2\ncommit abc\nkit made-up\nsources 12\nprogram 34\n")
    for path in (top / "crates.txt", out / ".sources", out / ".built"):
        path.touch()
    return program

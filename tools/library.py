#!/usr/bin/env python3
"""Links the library for other languages from the proved archive of the crate trinorm_c.

    tools/library.py ARCHIVE FOLDER

FOLDER gets libtrinorm.so.1, with the link libtrinorm.so for those who link to it, trinorm-server, which answers many requests
over pipes and finds the library beside it, and libtrinorm_c.a, the archive itself. They are compiled and linked by the system's
`cc`, else by the kit's clang.
"""
from __future__ import annotations

import os
import shutil
import subprocess
import sys
import tempfile
from pathlib import Path
from typing import List

from manifest import FILES, LINKS
from prove import Kit, NotProved
from repository import TOP, version

SOURCES = TOP / "library"
ARCHIVE, LIBRARY, SERVER = FILES["archive"], FILES["library"], FILES["server"]
# nothing of the machine that compiles is in what is made
COMPILED = ["-O2", "-std=gnu11", "-Wall", "-Wextra", "-Werror", "-fPIC", f"-ffile-prefix-map={SOURCES}=library"]
LINKED = ["-Wl,--build-id=none", "-Wl,-z,relro", "-Wl,-z,now", "-s"]
PARTS = ("limits", "memory", "python_stop")


def compiler(kit: Kit) -> str:
    """The system's C compiler, else the kit's."""
    return shutil.which("cc") or f"{kit.at}/toolchain/bin/clang"


def run(words: List[str], folder: Path) -> None:
    """Runs a command of the compiler. Fails with `NotProved` if that does."""
    done = subprocess.run(words, cwd=folder, stdout=subprocess.PIPE, stderr=subprocess.STDOUT, text=True, check=False)
    if done.returncode:
        raise NotProved(f"{' '.join(words[:2])} .. did not link the library:\n{done.stdout}")


def build_library(kit: Kit, archive: str, to: str) -> None:
    """Puts the library, the server and the archive into a folder, each at once, in the place of older ones."""
    folder = Path(to)
    folder.mkdir(parents=True, exist_ok=True)
    with tempfile.TemporaryDirectory(dir=folder, prefix=".library-") as place:
        room, command = Path(place), compiler(kit)
        shutil.copy(archive, room / ARCHIVE)
        for part in PARTS:
            run([command, *COMPILED, f'-DTRINORM_VERSION="{version(TOP)}"', "-c", f"{SOURCES}/{part}.c", "-o", f"{part}.o"], room)
        run([command, "-shared", "-o", LIBRARY, f"-Wl,-soname,{LIBRARY}", *(f"{part}.o" for part in PARTS), "-Wl,--whole-archive",
             ARCHIVE, "-Wl,--no-whole-archive", f"{kit.at}/c/libos_c.a", f"-Wl,--version-script={SOURCES}/exports.map",
             "-Wl,--gc-sections", *LINKED], room)
        run([command, *COMPILED, "-o", SERVER, f"{SOURCES}/server.c", LIBRARY, "-Wl,-rpath,$ORIGIN", *LINKED], room)
        for name in (ARCHIVE, LIBRARY, SERVER):
            os.replace(room / name, folder / name)
        make_links(folder)


def make_links(folder: Path) -> None:
    """Makes the links under which a linker looks for what is in a folder."""
    for link, name in LINKS.items():
        fresh = folder / f".{link}.new"
        fresh.unlink(missing_ok=True)
        fresh.symlink_to(name)
        fresh.replace(folder / link)


def main(given: List[str]) -> None:
    """Links the library of the archive that the words name."""
    if len(given) != 2:
        sys.exit(__doc__)
    try:
        build_library(Kit(shutil.which("rt") or "rt"), *(os.path.abspath(name) for name in given))
    except NotProved as fault:
        sys.exit(str(fault))


if __name__ == "__main__":
    main(sys.argv[1:])

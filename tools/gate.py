"""Runs the gate, `rt ci`, and makes of what it has built what the tests need: the program, the proved archive and the library.

`rt ci` leaves the program in the folder `out` of its crate, and in those of the other crates their libraries. It proves the
static library for other languages, and builds no archive of it: that is one more proof, over those libraries, which keeps the
LLVM module too, so that the module for WebAssembly is made if its tools are there. A clone in which libraries of earlier checks
stood has these back after the run, so there `tools/build.py` makes program and library.
"""
from __future__ import annotations

import shutil
import subprocess
import sys
import tempfile
import time
from pathlib import Path
from typing import IO, Dict, List

import modules
import wasm
from build import jobs_that_fit, sums_of
from installed import Installed
from library import build_library
from manifest import FILES, Manifest
from prove import Kit, NotProved, Workspace
from repository import PROGRAM, TOP, Crate, Sources, commit, crates_of_build, products, read_sources, version


class NotBuilt(Exception):
    """Why there is nothing to test after the gate."""


def had_libraries(top: Path) -> bool:
    """Whether earlier checks left libraries in the clone."""
    return any((top / "crates").glob("*/out/rlib"))


def run_gate(log: Path) -> int:
    """Runs `rt ci` with its output on standard output and in a log, and returns its exit status."""
    with open(log, "wb") as kept, subprocess.Popen(["rt", "ci"], cwd=TOP, stdin=subprocess.DEVNULL, stdout=subprocess.PIPE,
                                                   stderr=subprocess.STDOUT) as running:
        assert running.stdout is not None
        for line in running.stdout:
            kept.write(line)
            sys.stdout.buffer.write(line)
            sys.stdout.buffer.flush()
    return running.returncode


class Gate:
    """One run of the gate: the sources as they are when it begins, whether its libraries will be in the clone, and what was not
    made, with the reason."""

    def __init__(self) -> None:
        self.begun = time.time()
        self.crates: Dict[str, Crate] = crates_of_build(TOP)
        self.sources: Sources = read_sources(TOP, self.crates)
        self.leaves_libraries = not had_libraries(TOP)
        self.lacks: List[str] = []

    def install(self) -> str:
        """Installs the program that the gate built with the library that is made of its work, or else what a build makes of the
        same sources. Returns a line that says which."""
        if read_sources(TOP, crates_of_build(TOP)).sum() != self.sources.sum():
            raise NotBuilt("sources changed during the run, so the program is not theirs")
        command = shutil.which("rt")
        program = Installed(TOP).program
        if command is None or not program.is_file():
            raise NotBuilt("rt ci left no program")
        if not self.leaves_libraries:
            return self.build("libraries of earlier checks are in the clone")
        try:
            files = self.files(Kit(command), program.read_bytes())
        except (NotProved, OSError) as fault:
            return self.build(str(fault))
        manifest = Manifest(version(TOP), commit(TOP), Kit(command).line, self.sources, sums_of(files), False, {})
        Installed(TOP).install(files, manifest, self.begun, "here")
        return "; ".join([f"the program of rt ci, and its library: sha256 {manifest.files['program']}", *self.lacks])

    def build(self, why: str) -> str:
        """Has tools/build.py make program and library. Returns a line that says so, and why."""
        done = subprocess.run([sys.executable, str(TOP / "tools" / "build.py"), "--browsers"], stdin=subprocess.DEVNULL, stdout=subprocess.PIPE,
                              stderr=subprocess.STDOUT, text=True, errors="replace", check=False)
        if done.returncode:
            raise NotBuilt(f"tools/build.py ended with status {done.returncode} ({why}):\n{done.stdout}")
        return f"the program of tools/build.py, since {why.splitlines()[0][:200]}"

    def files(self, kit: Kit, program: bytes) -> Dict[str, bytes]:
        """The program, and what is made over the libraries of the gate: the archive and its LLVM module, the library and the server,
        and the module for WebAssembly if its tools are there."""
        files = {"program": program}
        for name in products(self.crates):
            if name != PROGRAM:
                with tempfile.TemporaryDirectory(prefix="trinorm-gate-") as folder:
                    archive = self.archive(kit, name, Path(folder))
                    build_library(kit, str(archive), f"{folder}/made")
                    made = {part: Path(folder, "made", FILES[part]) for part in ("archive", "library", "server")}
                    files.update({part: path.read_bytes() for part, path in made.items()})
                    files.update(modules.kept_at(archive))
        return {**files, **wasm.made(kit.at, files.get("module"), self.lacks.append)}

    def archive(self, kit: Kit, name: str, folder: Path) -> Path:
        """The static library of a crate, proved over the libraries that the gate left."""
        (folder / "libraries").mkdir()
        (folder / "crates").symlink_to(TOP / "crates")
        for crate in self.crates:
            library = TOP / "crates" / crate / "out" / "rlib" / f"{crate}.rlib"
            if library.is_dir():
                (folder / "libraries" / library.name).symlink_to(library)
        with open(folder / "lock", "w", encoding="utf8") as lock:
            return self.proved_archive(Workspace(kit, self.crates, folder, lock, None), name, lock)

    def proved_archive(self, workspace: Workspace, name: str, lock: IO[str]) -> Path:
        """Proves a crate, and returns the static library that is made of it."""
        product = workspace.product(name)
        assert product is not None
        product.parent.mkdir(parents=True)
        done = subprocess.run(workspace.words(name, jobs_that_fit()), cwd=workspace.folder(name), stdin=subprocess.DEVNULL,
                              stdout=subprocess.PIPE, stderr=subprocess.STDOUT, text=True, errors="replace", check=False)
        if done.returncode or not product.is_file():
            raise NotProved(f"{name} was not built over the libraries of rt ci:\n{done.stdout[-2000:]}")
        return product

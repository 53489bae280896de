"""Proves crates side by side, each over the statements of those below it, and makes the program of the last one.

`rattle` itself is asked, in place of `rt all check`, since it can be told that a library is to hold what others may
cite of it, and not its checked proofs, so that the crates above load much less (docs/PROVING.md has the figures). Its answer
is the same: it writes a library or a program only of a crate that it has proved. The library of a crate that is proved
stands beside a sum of all that it was proved from, its own sources and the libraries below, by which the crate needn't
be proved again: where one is proved anew and its library is the same as before, those above it stay.
"""
from __future__ import annotations

import os
import shutil
import signal
import subprocess
from contextlib import suppress
from pathlib import Path
from typing import IO, Callable, Dict, Iterator, List, NamedTuple, Optional, Sequence

import modules
from build_times import Took
from kept import Libraries
from repository import Crate, files_of_crate, standing_below, sum_of, sum_of_file

TARGET = "x86_64-unknown-linux-gnu"
# more seldom helps
MOST_JOBS = 8


class NotProved(Exception):
    """Why a crate isn't proved or a program isn't linked, with the file that holds what was said."""


class Kit:
    """The toolchain that the command rt belongs to. Its line is what `rt version` prints."""

    def __init__(self, command: str) -> None:
        self.at = Path(command).resolve().parents[1]
        identity = (self.at / "KIT-ID").read_text("utf8")
        self.line = identity.split("\n", maxsplit=1)[0]
        self.name = f"{identity}{(self.at / 'bin' / 'rattle').stat().st_mtime_ns}"

    def library(self, name: str) -> Path:
        return self.at / "rlibs" / f"{name}.rlib"


class Run(NamedTuple):
    """A crate that is being proved, by so many jobs."""

    name: str
    process: "subprocess.Popen[bytes]"
    jobs: int


def shares(ready: int, free: int) -> Iterator[int]:
    """How many jobs each of the crates that are ready gets, the first ones first, where so many are free."""
    for at in range(ready):
        if free < 1:
            return
        jobs = min(MOST_JOBS, max(1, free // (ready - at)))
        yield jobs
        free -= jobs


class Workspace:
    """The crates, each behind those below it, and the folder in which they are proved.

    kept: the packed libraries from which some are taken, or None where all is to be proved
    anew: whether nothing was taken from an earlier build
    """

    def __init__(self, kit: Kit, crates: Dict[str, Crate], to: Path, lock: IO[str], kept: Optional[Libraries]) -> None:
        self.kit, self.crates, self.to, self.lock, self.kept = kit, crates, to, lock, kept
        self.anew = True
        self.stamps: Dict[str, str] = {}
        self.sums: Dict[str, str] = {}
        self.verdicts: Dict[str, str] = {}
        for name in ("libraries", "products", "logs"):
            (to / name).mkdir(parents=True, exist_ok=True)

    def folder(self, name: str) -> Path:
        return self.to / "crates" / name

    def library(self, name: str) -> Path:
        return self.to / "libraries" / f"{name}.rlib"

    def product(self, name: str) -> Optional[Path]:
        """What is made of a crate that is no library for others here: an object file or a static library."""
        if (self.folder(name) / "src" / "main.rt").exists():
            return self.to / "products" / name / f"{name}.o"
        return self.to / "products" / name / f"lib{name}.a" if self.crates[name].is_static else None

    def made(self, name: str) -> Path:
        """The folder that is made of a crate."""
        product = self.product(name)
        return product.parent if product else self.library(name)

    def sum_of_made(self, name: str) -> str:
        """A sum of what is made of a crate. For a library it is that by which those above it name it."""
        return sum_of_file(self.product(name) or self.library(name) / "format")

    def stamp_file(self, name: str) -> Path:
        made = self.made(name)
        return made.with_name(f"{made.name}.stamp")

    def log(self, name: str) -> Path:
        return self.to / "logs" / name

    def stamp(self, name: str) -> str:
        """A sum of all that a crate is proved from, once the libraries below it are known."""
        crate, folder = self.crates[name], self.folder(name)
        parts = [self.kit.name, repr(tuple(crate)), *(self.sums[below] for below in crate.below)]
        # a static library from before its module was kept is made again
        parts += [modules.MODULE] if crate.is_static else []
        for path in files_of_crate(folder):
            parts += [path.relative_to(folder).as_posix(), sum_of_file(path)]
        return sum_of("\0".join(parts).encode())

    def find(self, name: str) -> bool:
        """Whether what is made of a crate is known, as proved from these sources over these libraries."""
        if any(below not in self.sums for below in self.crates[name].below):
            return False
        stamp = self.stamps[name] = self.stamp(name)
        if self.is_stamped(name, stamp):
            self.note(name)
        elif self.kept is not None and self.kept.has(stamp):
            self.sums[name], self.verdicts[name] = self.kept.verdict(stamp)
        else:
            return False
        self.anew = False
        return True

    def note(self, name: str) -> None:
        """Notes the prover's verdict of a crate, and the sum of what is made of it."""
        said = self.log(name).read_text("utf8", "replace").split("\n")
        self.verdicts[name] = next((line for line in reversed(said) if line.startswith("logic=")), "unknown")
        self.sums[name] = self.sum_of_made(name)

    def is_stamped(self, name: str, stamp: str) -> bool:
        try:
            return self.stamp_file(name).read_text("ascii") == stamp and self.made(name).is_dir() and self.log(name).is_file()
        except OSError:
            return False

    def left(self) -> List[str]:
        """The crates that are not known to be proved, each behind those below it."""
        return [name for name in self.crates if not self.find(name)]

    def drop_what_is_gone(self) -> None:
        """Removes what was made of crates that are no more."""
        wanted = {path.name for name in self.crates for path in (self.made(name), self.stamp_file(name))}
        for path in [*(self.to / "libraries").iterdir(), *(self.to / "products").iterdir()]:
            if path.name not in wanted and path.is_dir():
                shutil.rmtree(path)
            elif path.name not in wanted:
                path.unlink()

    def unpack(self, name: str) -> None:
        """Sees to it that what is made of a crate stands in the folder."""
        if not self.is_stamped(name, self.stamps[name]):
            assert self.kept is not None
            self.stamp_file(name).unlink(missing_ok=True)
            self.kept.take(self.stamps[name], self.made(name))
            self.log(name).write_text(f"{self.verdicts[name]}\n", "utf8")
            self.stamp_file(name).write_text(self.stamps[name], "ascii")

    def toolchain(self, name: str) -> Path:
        """The kit's toolchain, or for a static library one that also keeps the LLVM module next to it."""
        product = self.product(name)
        if product is None or not self.crates[name].is_static:
            return self.kit.at / "toolchain"
        return modules.toolchain(self.kit.at, self.to / "toolchains" / name, product.with_name(modules.MODULE))

    def words(self, name: str, jobs: int) -> List[str]:
        """What rattle is asked, so that it proves a crate and, where it is proved, makes its library or its program."""
        crate, product = self.crates[name], self.product(name)
        root = "src/main.rt" if (self.folder(name) / "src" / "main.rt").exists() else "src/lib.rt"
        words = ["--crate-name", name, root, "--links", f"{name}="]
        for library in ("std", *crate.of_kit):
            words += ["--extern", f"{library}={self.kit.library(library)}"]
        for below in crate.below:
            words += ["--extern", f"{below}={self.library(below)}"]
        for folder in (self.kit.at / "rlibs", self.to / "libraries"):
            words += ["-L", f"dependency={folder}"]
        words += ["--antt-project", f"{self.kit.at}/rattle/logic/antt-project.json"]
        words += ["--logic-built", f"{self.kit.at}/logic_built", "--jobs", str(jobs)]
        if crate.is_static:
            words += ["--crate-type", "staticlib"]
        if product is not None:
            words += ["--backend", "llvm", "--toolchain", str(self.toolchain(name)), "-o", str(product)]
        else:
            words += ["--statements", "-o", str(self.library(name))]
        return [f"{self.kit.at}/bin/rattle", "build", *words]

    def begin(self, name: str, jobs: int) -> Run:
        """Begins to prove a crate. Its process holds the lock, so that no other build begins before it ends."""
        for below in standing_below(self.crates, name):
            if below != name:
                self.unpack(below)
        self.stamp_file(name).unlink(missing_ok=True)
        shutil.rmtree(self.made(name), ignore_errors=True)
        if self.product(name) is not None:
            self.made(name).mkdir()
        with open(self.log(name), "w", encoding="utf8") as log:
            process = subprocess.Popen(
                self.words(name, jobs), cwd=self.folder(name), pass_fds=[self.lock.fileno()],
                stdin=subprocess.DEVNULL, stdout=log, stderr=subprocess.STDOUT, start_new_session=True,
            )
        return Run(name, process, jobs)

    def prove(self, order: Sequence[str], places: int, finish: Callable[[str, Took], None]) -> None:
        """Proves the crates of a list that are left, by as many jobs at a time as there are places, those that come
        first in the order first, and tells `finish` of each one that is done, with what it took."""
        left, done = list(order), {name for name in self.crates if name not in order}
        running: Dict[int, Run] = {}
        try:
            while left or running:
                for name in self.found_among(left, done):
                    finish(name, Took(0.0, 0))
                ready = [name for name in left if done.issuperset(self.crates[name].below)]
                free = places - sum(run.jobs for run in running.values())
                # where few are ready, each gets several processors
                for name, jobs in zip(ready, shares(len(ready), free)):
                    run = self.begin(name, jobs)
                    running[run.process.pid] = run
                    left.remove(name)
                if running:
                    self.wait(running, done, finish)
        finally:
            for process in running:
                os.killpg(process, signal.SIGKILL)

    def found_among(self, left: List[str], done: "set[str]") -> List[str]:
        """Takes those out of the list that need no proof, now that the libraries below them are known."""
        found: List[str] = []
        for name in list(left):
            if done.issuperset(self.crates[name].below) and name not in self.stamps and self.find(name):
                left.remove(name)
                done.add(name)
                found.append(name)
        return found

    def wait(self, running: Dict[int, Run], done: "set[str]", finish: Callable[[str, Took], None]) -> None:
        """Waits for the end of one proof."""
        process, status, used = os.wait4(-1, 0)
        while process not in running:
            # as the first process of a container this one is given others' children
            process, status, used = os.wait4(-1, 0)
        run = running.pop(process)
        run.process.returncode = status
        self.look_at_end(run.name, status)
        done.add(run.name)
        finish(run.name, Took(used.ru_utime + used.ru_stime, used.ru_maxrss >> 10))

    def look_at_end(self, name: str, status: int) -> None:
        """Notes that a crate is proved, and what its library was made from, or says why it isn't."""
        if os.WIFSIGNALED(status):
            raise NotProved(f"proving {name} was ended, most likely for want of memory; --jobs 1 takes the least")
        if status:
            raise NotProved(f"the crate {name} did not build; what was said is in {self.log(name)}")
        self.note(name)
        self.stamp_file(name).write_text(self.stamps[name], "ascii")

    def keep(self, kept: Libraries) -> None:
        """Keeps what was made of each crate, packed, as far as the disk has room."""
        with suppress(OSError, subprocess.CalledProcessError):
            for name, sum_of_made in self.sums.items():
                if self.is_stamped(name, self.stamps[name]):
                    kept.keep(self.stamps[name], self.made(name), sum_of_made, self.verdicts[name])
        kept.drop_old()

    def product_of(self, name: str) -> Path:
        """The object file or static library that was made of a crate."""
        self.unpack(name)
        product = self.product(name)
        assert product is not None
        return product

    def link(self, name: str) -> Path:
        """Links the object file of a program, and gives the program's path."""
        program = self.to / name
        words = [f"{self.kit.at}/bin/rattle-link", "--target", TARGET, "--toolchain", f"{self.kit.at}/toolchain", "-o", str(program)]
        words += [str(self.product_of(name)), f"{self.kit.at}/c/libos_c.a", f"{self.kit.at}/c/liblibc_c.a"]
        with open(self.log("link"), "w", encoding="utf8") as log:
            if subprocess.run(words, stdout=log, stderr=subprocess.STDOUT, check=False).returncode:
                raise NotProved(f"the program {name} was not linked; what was said is in {self.log('link')}")
        return program

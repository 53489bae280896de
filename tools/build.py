#!/usr/bin/env python3
"""Proves and builds the program, with all processors, and puts it at crates/trinorm/out/trinorm.

    tools/build.py [--jobs N] [--keep] [--browsers] [--anew] [--measure]
    tools/build.py --compare MANIFEST
    tools/build.py --take FILE
    tools/build.py --no-proof

A first build proves what program and library stand on. --anew, --measure and --compare prove all crates, with the laws on which
no program stands, and MANIFEST has the verdict of each; tests and must-fail edits are the gate's work (`rt ci`).
The module for browsers takes about a minute more: it is made by --browsers, --anew, --measure and --compare.
It goes by the sum of the sources: a program that was built from the same ones by the same kit, here or in another clone,
is taken from the user's cache, where the last ten are kept. Else the work goes on in a copy of the sources in that
cache, so it harms no other command, is interrupted at any time and goes on where it stopped, and a second one waits for
the first. What it does is said on standard error, on one line that is written over where that is a terminal.

The copy, with all that was proved of it, is dropped once the program stands. By --keep, and where the sources differ
from the commit, since then the next build is most likely another change, the proved libraries are kept, packed: the next
build proves the crates that changed, and those above them whose libraries below are others then.
--anew takes nothing that is kept; --measure neither, and writes what each crate took into build_times.txt, from which the
time left is told. --compare proves anew, and says whether the program is that of a release's MANIFEST, bit for bit.
--take installs the program of a release (a tarball, a wheel or a Debian package) that was made from the same sources; it
was proved elsewhere then. --no-proof ends with status 9 where something would have to be proved.
"""
from __future__ import annotations

import argparse
import fcntl
import os
import shutil
import signal
import sys
import tempfile
import time
from contextlib import contextmanager
from pathlib import Path
from typing import IO, Dict, Iterator, List, Optional

from archives import NoRelease, read_release
import modules
import wasm
from build_times import Plan, Times, Took, read_times, write_times
from installed import Installed
from kept import Libraries, Programs, Unusable
from manifest import FILES, Manifest, NoManifest, read_manifest
from prove import Kit, NotProved, Workspace
from repository import (PARTS, PROGRAM, TOP, Crate, Sources, cache_folder, changed, commit, crates_of_build, every_crate,
                        products, read_crates, read_other_sources, read_sources, sum_of, sum_of_file, version)

TIMES = TOP / "build_times.txt"
# what has to be the same, bit for bit, wherever it is made
COMPARED = ("program", "archive", "module", "wasm")
# a proof takes 0.5 to 2 GB
MEMORY_EACH = 2 << 30


def say(text: str) -> None:
    print(f"{PROGRAM}: {text}", file=sys.stderr, flush=True)


def folder_of_build() -> Path:
    return cache_folder() / sum_of(str(TOP).encode())[:16]


def copy_sources(crates: Dict[str, Crate], to: Path) -> None:
    """Copies the sources, as they are when the build begins."""
    shutil.rmtree(to / "crates", ignore_errors=True)
    for name in crates:
        for part in PARTS:
            if (TOP / "crates" / name / part).is_dir():
                shutil.copytree(TOP / "crates" / name / part, to / "crates" / name / part)


def memory() -> int:
    """Bytes of memory that the system, or the container, lets this process have."""
    total = os.sysconf("SC_PAGE_SIZE") * os.sysconf("SC_PHYS_PAGES")
    try:
        return min(total, int(Path("/sys/fs/cgroup/memory.max").read_text("ascii")))
    except (OSError, ValueError):
        return total


def jobs_that_fit() -> int:
    """As many as there are processors, where memory allows."""
    return max(1, min(len(os.sched_getaffinity(0)), memory() // MEMORY_EACH))


class Progress:
    """What is said while crates are proved: how many, which one, and about how long it still takes."""

    def __init__(self, plan: Plan, count: int, kept: int) -> None:
        self.plan, self.count, self.kept, self.began = plan, count, kept, time.monotonic()
        self.done: List[str] = []
        self.took: Dict[str, Took] = {}
        self.over = sys.stderr.isatty()

    def finish(self, name: str, used: Took) -> None:
        self.done.append(name)
        self.took[name] = used
        left = self.plan.left(self.done, time.monotonic() - self.began)
        remaining = "less than a minute" if left < 45 else f"about {max(1, round(left / 60))} min"
        line = f"proving and building, {self.kept + len(self.done)} of {self.count} crates done: {name} ({remaining} left)"
        if self.over:
            print(f"\r\033[K{PROGRAM}: {line[:100]}", end="", file=sys.stderr, flush=True)
        else:
            say(line)

    def end(self) -> None:
        if self.over:
            print("\r\033[K", end="", file=sys.stderr, flush=True)


def refuse_what_does_not_fit(to: Path, times: Times) -> None:
    """Ends at once where the build would end by a full disk or by want of memory, with a line that says so."""
    free, wanted = shutil.disk_usage(to.parent).free, times.disk << 20
    if not to.is_dir() and free < wanted:
        sys.exit(f"{PROGRAM}: building needs {wanted / 1e9:.1f} GB of disk, and {to.parent} has {free / 1e9:.1f} "
                 "GB free; XDG_CACHE_HOME names another place")
    largest = max((crate.memory for crate in times.crates.values()), default=0) << 20
    if memory() < largest:
        sys.exit(f"{PROGRAM}: building needs {largest / 1e9:.1f} GB of memory, and there are {memory() / 1e9:.1f} GB")


def say_what_comes(plan: Plan, times: Times, to: Path, kept: bool, count: int) -> None:
    minutes, every = max(1, round(plan.length() / 60)), len(read_crates(TOP))
    what = (f"all {every} crates" if count == every else
            f"the {count} of {every} crates that program and library stand on (tools/build.py --anew proves all)")
    say(f"proves {what} and builds the program once: {'at most' if kept else 'about'} {minutes} min, by {plan.processors} jobs at a "
        f"time, and {times.disk / 1000:.1f} GB of disk in {to}, dropped afterwards; until then `rt try -- WORDS` in "
        f"{TOP}/crates/{PROGRAM} answers in a minute or two, with nothing proved")


class Build:
    """One build: the sources as they were when it began, and the folder in which it works."""

    def __init__(self, given: argparse.Namespace) -> None:
        self.given, self.begun = given, time.time()
        self.crates = every_crate(TOP) if given.anew else crates_of_build(TOP)
        self.sources = read_sources(TOP, crates_of_build(TOP))
        self.others = read_other_sources(TOP, self.crates)
        self.to, self.programs, self.installed = folder_of_build(), Programs(), Installed(TOP)
        self.with_browsers = given.anew or getattr(given, "browsers", False)

    def is_installed(self) -> bool:
        """Whether the program that stands in the clone was made from these sources."""
        if self.given.anew or not self.installed.is_of(self.sources) or self.lacks_module(self.installed.files()):
            return False
        self.installed.touch(self.begun)
        return True

    def lacks_module(self, files: Dict[str, bytes]) -> bool:
        """Whether the module for browsers is asked for and not among these files, though it could be made of them."""
        return self.with_browsers and "module" in files and "wasm" not in files and not wasm.missing()

    def is_taken(self, kit: Optional[Kit]) -> bool:
        """Whether such a program was kept, and is installed now."""
        place = None if self.given.anew else self.programs.find(self.sources, kit.name if kit else None)
        if place is None:
            return False
        try:
            files, manifest = self.programs.read(place)
        except (OSError, NoManifest):
            # another build dropped it just now
            return False
        if manifest.sources.linked != self.sources.linked or self.lacks_module(files):
            files = self.linked(kit, files)
            manifest = manifest._replace(sources=self.sources_of(files), files=sums_of(files))
            if kit is not None:
                self.keep(self.programs.place(manifest, kit.name), files, manifest)
        manifest = manifest._replace(version=version(TOP), commit=commit(TOP))
        self.installed.install(files, manifest, self.begun, "here")
        say(f"took the program that was built from the same sources: sha256 {manifest.files['program']}")
        return True

    def linked(self, kit: Optional[Kit], files: Dict[str, bytes]) -> Dict[str, bytes]:
        """What was proved, the program and perhaps the archive, with the library and the server that are linked of it."""
        proved = {name: files[name] for name in ("program", "archive", "module") if name in files}
        if kit is None or "archive" not in files or not (TOP / "tools" / "library.py").is_file():
            return proved
        from library import build_library

        say("links the library for other languages" + (", and makes the module for browsers: about a minute" if self.with_browsers else ""))
        with tempfile.TemporaryDirectory() as folder:
            archive = Path(folder, FILES["archive"])
            archive.write_bytes(files["archive"])
            try:
                build_library(kit, str(archive), f"{folder}/made")
            except (NotProved, OSError) as fault:
                say(f"there is no library for other languages, since it wasn't linked: {fault}")
                return proved
            linked = {name: Path(folder, "made", FILES[name]).read_bytes() for name in ("library", "server")}
            return {**proved, **linked, **(wasm.made(kit.at, proved.get("module"), say) if self.with_browsers else {})}

    def keep(self, place: Path, files: Dict[str, bytes], manifest: Manifest) -> None:
        try:
            self.programs.keep(place, files, manifest)
        except OSError as fault:
            say(f"the program stands, but can't be kept for other clones: {fault}")

    def sources_of(self, files: Dict[str, bytes]) -> Sources:
        """What these files were made from: where nothing could be linked it is looked at again by the next build."""
        return self.sources if "library" in files or "archive" not in files else self.sources._replace(linked={})

    def prove(self, kit: Kit, lock: IO[str]) -> None:
        """Proves what has changed, builds the program, keeps it and installs it."""
        times = read_times(TIMES)
        refuse_what_does_not_fit(self.to, times)
        if self.given.anew:
            shutil.rmtree(self.to, ignore_errors=True)
        copy_sources(self.crates, self.to)
        self.sources = read_sources(self.to, crates_of_build(TOP))._replace(linked=self.sources.linked)
        self.others = read_sources(self.to, {name: crate for name, crate in self.crates.items() if name not in crates_of_build(TOP)})
        libraries = Libraries()
        workspace = Workspace(kit, self.crates, self.to, lock, None if self.given.anew else libraries)
        workspace.drop_what_is_gone()
        left = workspace.left()
        plan = Plan({name: self.crates[name].below for name in left}, times, self.given.jobs)
        if left:
            say_what_comes(plan, times, self.to, len(left) < len(self.crates), len(self.crates))
        progress = Progress(plan, len(self.crates), len(self.crates) - len(left))
        try:
            workspace.prove(plan.order(), self.given.jobs, progress.finish)
            files = self.files(kit, workspace)
        finally:
            progress.end()
        if self.given.measure:
            write_times(TIMES, list(self.crates), progress.took, self.to, f"commit {commit(TOP)}, {kit.line}")
        self.finish(kit, files, workspace)
        if self.given.keep:
            workspace.keep(libraries)
        shutil.rmtree(self.to, ignore_errors=True)

    def files(self, kit: Kit, workspace: Workspace) -> Dict[str, bytes]:
        """What was made: the program, and the library where there is a crate for it."""
        files = {"program": workspace.link(PROGRAM).read_bytes()}
        for name in products(self.crates):
            if name != PROGRAM:
                files["archive"] = workspace.product_of(name).read_bytes()
                files.update(modules.kept_at(workspace.product_of(name)))
        return self.linked(kit, files)

    def finish(self, kit: Kit, files: Dict[str, bytes], workspace: Workspace) -> None:
        manifest = Manifest(version(TOP), commit(TOP), kit.line, self.sources_of(files), sums_of(files), workspace.anew,
                            workspace.verdicts, others=self.others)
        self.installed.install(files, manifest, self.begun, "here")
        self.keep(self.programs.place(manifest, kit.name), files, manifest)
        say(f"built in {round(time.time() - self.begun)} s: version {manifest.version}, commit {manifest.commit}, {manifest.kit}, "
            f"program sha256 {manifest.files['program']}")


def sums_of(files: Dict[str, bytes]) -> Dict[str, str]:
    return {name: sum_of(data) for name, data in files.items()}


def is_file_of(path: Path, file: IO[str]) -> bool:
    """Whether an open file is the one of this path."""
    try:
        return os.path.samestat(os.fstat(file.fileno()), path.stat())
    except OSError:
        return False


@contextmanager
def held(path: Path, wait: str) -> Iterator[IO[str]]:
    """Holds the lock of a file. Where another process has it this waits, and says so. If the file was removed in the meantime,
    its lock keeps nobody out, and that of the new file is taken."""
    path.parent.mkdir(parents=True, exist_ok=True)
    is_held = False
    while not is_held:
        with open(path, "w", encoding="utf8") as lock:
            try:
                fcntl.flock(lock, fcntl.LOCK_EX | fcntl.LOCK_NB)
            except BlockingIOError:
                say(wait)
                fcntl.flock(lock, fcntl.LOCK_EX)
            is_held = is_file_of(path, lock)
            if is_held:
                yield lock


def build_with(given: argparse.Namespace, kit: Kit) -> None:
    """Builds, where no other build of this clone or of the same sources does."""
    build = Build(given)
    sources = build.programs.proof(build.sources.sum(), kit.name)
    with held(Path(f"{build.to}.lock"), "another build is going on; waiting for it") as lock:
        with held(Path(f"{sources}.lock"), "the same sources are being built for another clone; waiting for it"):
            # what was waited for may be what is wanted
            build = Build(given)
            if not build.is_installed() and not build.is_taken(kit):
                build.prove(kit, lock)


def take(path: str) -> None:
    """Installs the program of a release, where it was made from these sources."""
    build = Build(argparse.Namespace(anew=False))
    try:
        manifest, files = read_release(Path(path))
    except (OSError, NoRelease, NoManifest) as fault:
        sys.exit(f"{PROGRAM}: {path}: {fault}")
    refuse_other_sources(manifest.sources, build.sources, path)
    if manifest.sources.linked != build.sources.linked:
        files = build.linked(None, files)
    manifest = manifest._replace(sources=build.sources_of(files), files=sums_of(files))
    build.installed.install(files, manifest, build.begun, "elsewhere")
    say(f"took the program of {path}: version {manifest.version}, commit {manifest.commit}, program sha256 "
        f"{manifest.files['program']}; it was proved elsewhere, by {manifest.kit}, and `tools/build.py --anew` proves it here")


def refuse_other_sources(theirs: Sources, mine: Sources, path: str) -> None:
    if theirs.sum() == mine.sum():
        return
    differ = [name for name in {**theirs.files, **mine.files} if theirs.files.get(name) != mine.files.get(name)]
    named = f"first {min(differ)}" if differ else "in crates.txt"
    sys.exit(f"{PROGRAM}: {path} was made from other sources than those of this clone: {len(differ)} differ, {named}")


def compare(given: argparse.Namespace, kit: Kit) -> None:
    """Proves anew, and ends with status 1 where the program isn't that of the manifest."""
    try:
        manifest = read_manifest(Path(given.compare).read_text("utf8"))
    except (OSError, UnicodeDecodeError, NoManifest) as fault:
        sys.exit(f"{PROGRAM}: {given.compare}: {fault}")
    build = Build(given)
    refuse_other_sources(manifest.sources, build.sources, given.compare)
    if manifest.others.files:
        refuse_other_sources(manifest.others, build.others, given.compare)
    if manifest.kit != kit.line:
        say(f"that program was proved by {manifest.kit}, and here is {kit.line}")
    build_with(given, kit)
    for name in (name for name in COMPARED if name in manifest.files):
        if not (build.installed.out / FILES[name]).is_file():
            say(f"{FILES[name]} can't be compared, since it wasn't made here: {wasm.NAME} needs {' and '.join(wasm.PACKAGES)}")
            continue
        mine = sum_of_file(build.installed.out / FILES[name])
        if mine != manifest.files[name]:
            sys.exit(f"{PROGRAM}: another {name}: proved here it has sha256 {mine}, there {manifest.files[name]}")
        print(f"{PROGRAM}: the same {name}, bit for bit: sha256 {mine}")
    print(f"{PROGRAM}: all {len(build.crates)} crates were proved here")


def number_of_jobs(text: str) -> int:
    """The number of jobs that a word names, at least 1."""
    if text.isascii() and text.isdecimal() and 0 < len(text) < 10 and int(text) > 0:
        return int(text)
    raise argparse.ArgumentTypeError(f"expected a whole number of at least 1, not {text}")


def read_words() -> argparse.Namespace:
    parser = argparse.ArgumentParser(description="Proves and builds the program.")
    parser.add_argument("--jobs", type=number_of_jobs, default=jobs_that_fit(), metavar="N", help="prove by N jobs at a time")
    parser.add_argument("--browsers", action="store_true", help="make the module for browsers too")
    parser.add_argument("--keep", action="store_true", help="keep what was proved, for the build after a change")
    kinds = parser.add_mutually_exclusive_group()
    kinds.add_argument("--anew", action="store_true", help="prove everything, and use nothing that was kept")
    kinds.add_argument("--measure", action="store_true", help="prove everything, and write build_times.txt")
    kinds.add_argument("--compare", metavar="MANIFEST", help="prove everything, and compare with the program of a release")
    kinds.add_argument("--take", metavar="FILE", help="install the program of a release that was made from these sources")
    kinds.add_argument("--no-proof", action="store_true", help="end with 9 if something would have to be proved")
    given = parser.parse_args()
    given.anew = given.anew or given.measure or given.compare is not None
    given.keep = given.keep or changed(TOP, ["crates", "crates.txt", "HANDLES"])
    return given


def main() -> None:
    given = read_words()
    if given.take is not None:
        take(given.take)
        return
    build, command = Build(given), shutil.which("rt")
    kit = Kit(command) if command else None
    if build.is_installed() or build.is_taken(kit):
        return
    if kit is None:
        sys.exit(f"{PROGRAM}: the command rt of the Rattle kit is not there; README.md says which kit, and how a release is taken")
    if given.no_proof:
        say("the program isn't built yet: ./trinorm or tools/build.py builds it")
        sys.exit(9)
    # so that what runs is ended too
    signal.signal(signal.SIGTERM, lambda *_: sys.exit(128 + signal.SIGTERM))
    try:
        if given.compare is not None:
            compare(given, kit)
        else:
            build_with(given, kit)
    except (NotProved, Unusable) as fault:
        say(str(fault))
        sys.exit(9)
    except PermissionError as fault:
        say(f"{fault.filename} cannot be written: {fault.strerror}. Set XDG_CACHE_HOME to another folder for the build")
        sys.exit(9)
    except KeyboardInterrupt:
        sys.exit(f"{PROGRAM}: interrupted; the next build goes on from here")


if __name__ == "__main__":
    main()

#!/usr/bin/env python3
"""Makes a release of the commit, into the folder dist: a wheel, a Debian package, a tarball, MANIFEST and SHA256SUMS.

    tools/release.py [--gate FILE] [--out FOLDER]

It needs a clean checkout, and a program of these very sources from one build that proved all crates from scratch
(`tools/build.py --anew`). --gate names what the gate said (`rt ci`): its last line, which must say that nothing failed, goes into
MANIFEST. Made of that build again, each file is the same bit for bit.
"""
from __future__ import annotations

import argparse
import shutil
import sys
from pathlib import Path
from typing import Dict, List, NoReturn, Tuple

import commands
import elsewhere
import packages
from edits import LAST, last_line
from kept import Programs
from manifest import Manifest
from prove import Kit
from repository import TOP, changed, commit, crates_of_build, every_crate, read_other_sources, read_sources, sum_of, version


def refuse(why: str) -> NoReturn:
    sys.exit(f"release: {why}")


def proved() -> Tuple[Dict[str, bytes], Manifest]:
    """What was made by a build that proved all, from the sources of this commit, and what was told of it."""
    sources, programs, command = read_sources(TOP, crates_of_build(TOP)), Programs(), shutil.which("rt")
    place = programs.find(sources, Kit(command).name if command else None)
    if place is None:
        refuse("no program of these sources is kept here: tools/build.py --anew proves and builds it")
    files, manifest = programs.read(place)
    if not manifest.anew:
        refuse("the program was built over libraries that were proved before: tools/build.py --anew proves all at once")
    refuse_without_verdict(manifest)
    if manifest.sources.linked != sources.linked:
        refuse("the library was linked from other sources: tools/build.py links it again")
    return files, manifest


def refuse_without_verdict(manifest: Manifest) -> None:
    """Ends unless the build proved each crate of this commit, also those on which no program stands."""
    crates = every_crate(TOP)
    missing = [name for name in crates if not manifest.verdicts.get(name, "").startswith("logic=proved ")]
    if missing:
        refuse(f"the build has no verdict of {missing[0]}, and of {len(missing)} crates in all: tools/build.py --anew proves all crates")
    if manifest.others.sum() != read_other_sources(TOP, crates).sum():
        refuse("crates on which no program stands have changed since the build: tools/build.py --anew proves all crates")


def verdict_of_gate(path: str) -> str:
    """The last line of a log of the gate. Ends if that is not the line of a gate that passed."""
    try:
        last = last_line(Path(path).read_text("utf8", "replace").split("\n"))
    except OSError as fault:
        refuse(f"{path}: {fault.strerror}")
    if not LAST.fullmatch(last):
        refuse(f"{path} does not end with a line `N passed, 0 failed`, but with: {last or 'nothing'}")
    return last


def release(gate: str) -> List[Tuple[str, bytes]]:
    """The files of the release."""
    made_files, manifest = proved()
    manifest = manifest._replace(version=version(TOP), commit=commit(TOP), gate=gate)
    version_lines = "".join(f"{line}\n" for line in ["proved elsewhere", *manifest.head()])
    made = packages.Made(manifest.version, made_files, version_lines, manifest)
    command = shutil.which("rt")
    files = [packages.wheel(made), packages.debian(made), packages.tarball(made), *(elsewhere.files(made, Kit(command).at) if command else []),
             ("MANIFEST", manifest.text().encode())]
    sums = "".join(f"{sum_of(data)}  {name}\n" for name, data in files)
    return [*files, ("SHA256SUMS", sums.encode())]


def main() -> None:
    parser = argparse.ArgumentParser(description="Makes a release of the commit.")
    parser.add_argument("--gate", metavar="FILE", help="the output of a merge gate (rt ci) that passed, whose last line goes into MANIFEST")
    parser.add_argument("--out", metavar="FOLDER", default=str(TOP / "dist"), help="the folder of the files (default: dist)")
    given = parser.parse_args()
    if commit(TOP) == "none":
        refuse("this is no checkout, so there is no commit to tell")
    if changed(TOP):
        refuse("the checkout differs from its commit")
    if commands.TABLE.read_text("utf8") != commands.table_of(commands.made()):
        refuse("python/trinorm/commands.txt is stale: tools/commands.py writes it")
    files = release(verdict_of_gate(given.gate) if given.gate else "")
    out = Path(given.out)
    out.mkdir(parents=True, exist_ok=True)
    for name, data in files:
        (out / name).write_bytes(data)
        print(f"{sum_of(data)}  {len(data):>8}  {name}")


if __name__ == "__main__":
    main()

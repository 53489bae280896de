#!/usr/bin/env python3
"""Makes the library and the program for other systems, from the LLVM module of the proved crate trinorm_c.

    tools/native.py MODULE FOLDER [SYSTEM ..]

MODULE is the module that a build keeps (tools/modules.py). FOLDER gets a folder for each system, all by default:
linux-x86_64 (musl), linux-aarch64, windows-x86_64, macos-arm64, macos-x86_64. The kit's clang compiles the module and all
for macOS; the rest is compiled and linked by cross compilers of Debian: musl-tools, gcc-aarch64-linux-gnu,
gcc-mingw-w64-x86-64-win32. A system whose compiler is not installed is left out, which is said.
"""
from __future__ import annotations

import shutil
import sys
import tempfile
from pathlib import Path
from typing import Dict, Iterator, List, NamedTuple, Optional, Sequence, Tuple

from modules import TARGETS, NotCompiled, clang, compiled, compiled_c, run
from repository import PROGRAM, TOP, version

SOURCES = TOP / "library"
FLAGS = ["-O2", "-std=gnu11", "-Wall", "-Wextra", "-Werror", "-I", str(SOURCES), f"-ffile-prefix-map={SOURCES}=library",
         f'-DTRINORM_VERSION="{version(TOP)}"']
C_FILES = ("limits", "memory", "python_stop")
LINKED = ["-s", "-Wl,--gc-sections", "-Wl,--build-id=none"]


class System(NamedTuple):
    """A system for which a library and a program are made.

    tag: of its wheel, with a place for the N of glibc 2.N; library, program: the names of its files; compiler: the command
    that is needed; package: Debian's, with that compiler
    """

    tag: str
    library: str
    program: str
    compiler: str
    package: str


SYSTEMS: Dict[str, System] = {
    "linux-x86_64": System("musllinux_1_2_x86_64", f"lib{PROGRAM}.so.1", PROGRAM, "musl-gcc", "musl-tools"),
    "linux-aarch64": System("manylinux_2_{}_aarch64", f"lib{PROGRAM}.so.1", PROGRAM, "aarch64-linux-gnu-gcc", "gcc-aarch64-linux-gnu"),
    "windows-x86_64": System("win_amd64", f"{PROGRAM}.dll", f"{PROGRAM}.exe", "x86_64-w64-mingw32-gcc", "gcc-mingw-w64-x86-64-win32"),
    "macos-arm64": System("macosx_11_0_arm64", f"lib{PROGRAM}.dylib", PROGRAM, "", ""),
    "macos-x86_64": System("macosx_11_0_x86_64", f"lib{PROGRAM}.dylib", PROGRAM, "", ""),
}


def emulated_python(root: str, folder: Path) -> Path:
    """A script in `folder` that runs Debian's Python for arm64 of the folder `root` by qemu-user. That Python takes the script for
    itself, so its worker processes are started by the script: without the system's help no program of another processor starts."""
    python = next(iter(sorted(Path(root, "usr", "bin").glob("python3.[0-9]*"))), Path(root, "usr/bin/python3"))
    script = folder / "emulated-python"
    script.write_text(f"#!/bin/sh\nPYTHONHOME='{root}/usr' exec qemu-aarch64 -0 \"$0\" -L '{root}' '{python}' \"$@\"\n", "utf8")
    script.chmod(0o755)
    return script


def missing(name: str) -> str:
    """The Debian package that a system needs and that is not installed, or an empty text."""
    system = SYSTEMS[name]
    return system.package if system.compiler and shutil.which(system.compiler) is None else ""


def linked_by_gcc(system: System, module: Path, folder: Path, windows_memory: Optional[Path] = None) -> None:
    """Links library and program by a compiler like gcc, for Linux or Windows."""
    objects = [module.name, *([windows_memory.name] if windows_memory else [])]
    for name in C_FILES:
        run([system.compiler, *FLAGS, *([] if windows_memory else ["-fPIC"]), "-c", str(SOURCES / f"{name}.c"), "-o", f"{name}.o"], folder)
    if windows_memory:
        names, search = [str(SOURCES / "windows" / f"{PROGRAM}.def"), "-static-libgcc"], []
    else:
        names = [f"-Wl,--version-script={SOURCES}/exports.map", f"-Wl,-soname,{system.library}", "-Wl,-z,relro", "-Wl,-z,now"]
        search = ["-Wl,-rpath,$ORIGIN"]
    run([system.compiler, "-shared", "-o", system.library, *(f"{name}.o" for name in C_FILES), *objects, *names, *LINKED], folder)
    run([system.compiler, *FLAGS, "-o", system.program, str(SOURCES / "program.c"), system.library, *search, *LINKED,
         *(["-static-libgcc"] if windows_memory else [])], folder)


def linked_for_macos(kit: Path, name: str, module: Path, folder: Path) -> None:
    """Links library and program for macOS by the kit's compiler and linker."""
    system, target = SYSTEMS[name], TARGETS[name]
    headers = ["-isystem", str(SOURCES / "macos"), "-fno-stack-protector", "-std=gnu11", f'-DTRINORM_VERSION="{version(TOP)}"']
    objects = [module, *(compiled_c(kit, SOURCES / f"{name}.c", target, folder, headers) for name in C_FILES)]
    linker = ["-flavor", "darwin", "-arch", name.partition("-")[2], "-platform_version", "macos", "11.0", "11.0", "-dead_strip",
              "-adhoc_codesign", str(SOURCES / "macos" / "libSystem.tbd")]
    exported = ["-exported_symbol", "_trinorm_*"]
    run([clang(kit), *linker, "-dylib", *exported, "-install_name", f"@rpath/{system.library}", "-o", system.library,
         *(path.name for path in objects)], folder, "ld64.lld")
    program = compiled_c(kit, SOURCES / "program.c", target, folder, headers)
    run([clang(kit), *linker, "-rpath", "@loader_path", "-o", system.program, program.name, system.library], folder, "ld64.lld")


def build(kit: Path, module: Path, name: str) -> Dict[str, bytes]:
    """The library and the program of a system, by the names of their files."""
    system, target = SYSTEMS[name], TARGETS[name]
    with tempfile.TemporaryDirectory() as room:
        folder = Path(room)
        made = compiled(kit, module, target, folder)
        if name.startswith("macos"):
            linked_for_macos(kit, name, made, folder)
        else:
            memory = compiled_c(kit, SOURCES / "windows" / "registers.ll", target, folder) if name.startswith("windows") else None
            linked_by_gcc(system, made, folder, memory)
        return {file: (folder / file).read_bytes() for file in (system.library, system.program)}


def build_all(kit: Path, module: Path, names: Sequence[str]) -> Iterator[Tuple[str, Dict[str, bytes]]]:
    """The files of each system whose compiler is installed. What is left out is said on standard error."""
    for name in names:
        if missing(name):
            print(f"{PROGRAM}: nothing is made for {name}, since {missing(name)} of Debian is not installed", file=sys.stderr)
            continue
        yield name, build(kit, module, name)


def main(words: List[str]) -> Optional[str]:
    if len(words) < 2 or any(name not in SYSTEMS for name in words[2:]):
        return __doc__
    command = shutil.which("rt")
    if command is None:
        return "native: the command rt of the Rattle kit is not there"
    try:
        for name, files in build_all(Path(command).resolve().parents[1], Path(words[0]).resolve(), words[2:] or list(SYSTEMS)):
            folder = Path(words[1], name)
            folder.mkdir(parents=True, exist_ok=True)
            for file, data in files.items():
                (folder / file).write_bytes(data)
                (folder / file).chmod(0o755)
    except NotCompiled as fault:
        return f"native: {fault}"
    return None


if __name__ == "__main__":
    sys.exit(main(sys.argv[1:]))

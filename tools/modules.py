"""Keeps the LLVM module of the proved crate trinorm_c, and compiles it for other systems than the kit links for.

`rattle` proves a static library, lowers it to one LLVM module, and hands that to the `clang` of the folder which its flag
`--toolchain` names. Here this is a folder of ours, whose `clang` keeps a copy of the module and then does what the kit's
does. So the module is that of the build's own proof.

The module suits each target of 64 bits with this layout of data: it has pointers of 64 bits and 128-bit numbers aligned
to 16 bytes, calls no function by a pointer, holds no assembly, and needs only the three functions of memory. For another
target its two header lines change, and one attribute of x86-64 is dropped.
"""
from __future__ import annotations

import re
import shlex
import subprocess
from pathlib import Path
from typing import Dict, NamedTuple, Sequence

# the module as `keep` writes it, next to the archive that is made of it
MODULE = "trinorm_c.bc"
# what a module may leave to the linker; more would be a change of the kit's that someone has to look at
OUTSIDE = {"rattle_alloc", "rattle_realloc", "rattle_dealloc"}
COMPILED = ["--no-default-config", "-no-canonical-prefixes", "-ffunction-sections", "-fdata-sections", "-Wno-override-module"]


def kept_at(product: Path) -> Dict[str, bytes]:
    """The module that was kept next to a static library, by its name in a manifest, if there is one."""
    module = product.with_name(MODULE)
    return {"module": module.read_bytes()} if module.is_file() else {}


class NotCompiled(Exception):
    """A module isn't as expected, or a tool failed on it."""


class Target(NamedTuple):
    """A system that the module can be compiled for: LLVM's name of it, the layout of its data, and clang's flags."""

    triple: str
    layout: str
    flags: Sequence[str] = ()


TARGETS: Dict[str, Target] = {
    "wasm": Target("wasm64-unknown-unknown", "e-m:e-p:64:64-p10:8:8-p20:8:8-i64:64-i128:128-n32:64-S128-ni:1:10:20",
                   ["-mcpu=lime1", "-mllvm", "-expand-div-rem-bits=64", "-mllvm", "-expand-fp-convert-bits=64"]),
    "linux-x86_64": Target("x86_64-unknown-linux-musl",
                           "e-m:e-p270:32:32-p271:32:32-p272:64:64-i64:64-i128:128-f80:128-n8:16:32:64-S128",
                           ["-march=x86-64-v2", "-fPIC"]),
    "linux-aarch64": Target("aarch64-unknown-linux-gnu",
                            "e-m:e-p270:32:32-p271:32:32-p272:64:64-i8:8:32-i16:16:32-i64:64-i128:128-n32:64-S128-Fn32", ["-fPIC"]),
    "windows-x86_64": Target("x86_64-w64-windows-gnu",
                             "e-m:w-p270:32:32-p271:32:32-p272:64:64-i64:64-i128:128-f80:128-n8:16:32:64-S128",
                             ["-march=x86-64-v2"]),
    "macos-arm64": Target("arm64-apple-macosx11.0.0",
                          "e-m:o-p270:32:32-p271:32:32-p272:64:64-i64:64-i128:128-n32:64-S128-Fn32"),
    "macos-x86_64": Target("x86_64-apple-macosx11.0.0",
                           "e-m:o-p270:32:32-p271:32:32-p272:64:64-i64:64-i128:128-f80:128-n8:16:32:64-S128"),
}


def toolchain(kit: Path, folder: Path, to: Path) -> Path:
    """Makes a toolchain for `rattle` in `folder`, whose clang keeps the module that it compiles as the file `to`."""
    binaries, theirs = folder / "bin", kit / "toolchain"
    if not (theirs / "bin" / "clang").is_file():
        return theirs
    binaries.mkdir(parents=True, exist_ok=True)
    for name in ("lib", *(f"bin/{path.name}" for path in (theirs / "bin").iterdir() if path.name != "clang")):
        link = folder / name
        link.unlink(missing_ok=True)
        link.symlink_to(theirs / name)
    clang = shlex.quote(str(theirs / "bin" / "clang"))
    lines = ["#!/bin/sh", 'for word in "$@"; do', f'  case "$word" in *.bc) cp "$word" {shlex.quote(str(to))};; esac', "done",
             f'exec {clang} "$@"']
    (binaries / "clang").write_text("\n".join(lines) + "\n", "utf8")
    (binaries / "clang").chmod(0o755)
    return folder


def run(words: Sequence[str], folder: Path, name: str = "", environment: Dict[str, str] | None = None) -> None:
    """Runs a tool in a folder, under the name `name` if that is not empty. What it says is in the exception."""
    done = subprocess.run([name or words[0], *words[1:]], executable=words[0], cwd=folder, stdout=subprocess.PIPE,
                          stderr=subprocess.STDOUT, text=True, errors="replace", check=False, env=environment)
    if done.returncode:
        raise NotCompiled(f"{' '.join([name or words[0], *words[1:3]])} .. failed:\n{done.stdout[-2000:]}")


def clang(kit: Path) -> str:
    """The kit's compiler, which the module was made for."""
    return str(kit / "toolchain" / "bin" / "clang")


def retargeted(text: str, target: Target) -> str:
    """A module's text for another target. It is refused if it leaves more to the linker than the functions of memory."""
    outside = set(re.findall(r"^declare .*@([\w.]+)\(", text, re.M))
    if {name for name in outside if not name.startswith("llvm.")} != OUTSIDE:
        raise NotCompiled(f"the module calls other functions than expected: {', '.join(sorted(outside - OUTSIDE))}")
    text, layouts = re.subn(r"^target datalayout = .*$", f'target datalayout = "{target.layout}"', text, flags=re.M)
    text, triples = re.subn(r"^target triple = .*$", f'target triple = "{target.triple}"', text, flags=re.M)
    if (layouts, triples) != (1, 1):
        raise NotCompiled("the module has not one line for its layout and one for its target")
    text = re.sub(r' ?"probe-stack"="inline-asm" "stack-probe-size"="\d+" "target-cpu"="[\w-]+"', "", text)
    return with_whole_status(text)


def with_whole_status(text: str) -> str:
    """The module's text with a status that fills its register, which callers in C count on for some targets."""
    text, count = re.subn(r"^(define [\w() ]*?)(?:zeroext )?i8 @trinorm_answer\(", r"\1zeroext i8 @trinorm_answer(", text, flags=re.M)
    if count != 1:
        raise NotCompiled("the module does not define trinorm_answer once")
    return text


def compiled(kit: Path, module: Path, target: Target, folder: Path) -> Path:
    """Compiles a kept module for a target, into an object file in `folder`."""
    text, made = folder / "module.ll", folder / "module.o"
    run([clang(kit), "-S", "-emit-llvm", "-O0", "-Xclang", "-disable-llvm-passes", "-x", "ir", str(module), "-o", str(text)], folder)
    text.write_text(retargeted(text.read_text("utf8"), target), "utf8")
    run([clang(kit), f"--target={target.triple}", *target.flags, *COMPILED, "-O3", "-c", "-x", "ir", text.name, "-o", made.name], folder)
    return made


def compiled_c(kit: Path, source: Path, target: Target, folder: Path, flags: Sequence[str] = ()) -> Path:
    """Compiles a C file that needs no header of a C library, or LLVM text, into an object file in `folder`."""
    made = folder / f"{source.stem}.o"
    strict = ["-Wall", "-Wextra", "-Werror", "-ffreestanding", "-nostdinc"] if source.suffix == ".c" else []
    prefix = [f"-ffile-prefix-map={source.parent}=library"]
    run([clang(kit), f"--target={target.triple}", *target.flags, *COMPILED, "-O2", *strict, *prefix, *flags, "-c", str(source),
         "-o", made.name], folder)
    return made

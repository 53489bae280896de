#!/usr/bin/env python3
"""Makes trinorm.wasm from the LLVM module of the proved crate trinorm_c.

    tools/wasm.py MODULE FOLDER

MODULE is the module that a build keeps (tools/modules.py). It is compiled for wasm64, linked with the heap of
library/wasm and with the helpers for 128-bit numbers of LLVM's compiler-rt; then its addresses become 32 bits wide, since
all browsers have those and some are far slower with 64. Needed are the kit, and of Debian libclang-rt-22-dev-wasm64 and
binaryen.
"""
from __future__ import annotations

import os
import shutil
import sys
import tempfile
from pathlib import Path
from typing import Callable, Dict, Iterator, List, Optional, Tuple

from modules import TARGETS, NotCompiled, clang, compiled, compiled_c, run
from repository import TOP, sum_of_file

NAME = "trinorm.wasm"
EXPORTS = ["memory", "trinorm_area", "trinorm_forget", "trinorm_held", "trinorm_limit", "trinorm_run"]
HELPERS = Path("/usr/lib/llvm-22/lib/clang/22/lib/wasi/libclang_rt.builtins-wasm64.a")
# of version 1:22.1.8-1~deb12u1, which was tried: another one is refused until somebody has tried it
HELPERS_SUM = "e84648951a72d16fd58501b064975620a547cbe7795ce2247ebf8c89a2e20b37"
STACK = 8 << 20
PACKAGES = ["libclang-rt-22-dev-wasm64", "binaryen"]
FEATURES = ["memory64", "bulk-memory", "sign-ext", "nontrapping-float-to-int", "mutable-globals"]
TABLE_SECTION = 4


def missing() -> List[str]:
    """The Debian packages that are needed here and not installed."""
    there = [HELPERS.is_file(), shutil.which("wasm-opt") is not None]
    return [package for package, is_there in zip(PACKAGES, there) if not is_there]


def number_at(data: bytes, at: int) -> Tuple[int, int]:
    """An unsigned number in LEB128 at a place, and the place after it."""
    value = shift = 0
    while True:
        byte = data[at]
        value |= (byte & 127) << shift
        at, shift = at + 1, shift + 7
        if byte < 128:
            return value, at


def sections(data: bytes) -> Iterator[Tuple[int, bytes, bytes]]:
    """The sections of a module: the number of each, its content, and all of its bytes."""
    at = 8
    while at < len(data):
        length, begin = number_at(data, at + 1)
        yield data[at], data[begin:begin + length], data[at:begin + length]
        at = begin + length


def without_table(data: bytes) -> bytes:
    """A module without its table. No call goes by a table, but the linker makes an empty one with 64-bit indices, which
    older engines refuse."""
    return data[:8] + b"".join(whole for number, _, whole in sections(data) if number != TABLE_SECTION)


def names_in(content: bytes) -> List[str]:
    """The names in the content of an export section."""
    count, at = number_at(content, 0)
    names = []
    for _ in range(count):
        length, at = number_at(content, at)
        names.append(content[at:at + length].decode("utf8"))
        _, at = number_at(content, at + length + 1)
    return names


def check(data: bytes) -> None:
    """Refuses a module that imports anything, or exports something else than it should."""
    by_number = {number: content for number, content, _ in sections(data)}
    if 2 in by_number:
        raise NotCompiled(f"{NAME} imports something")
    exports = sorted(names_in(by_number.get(7, b"\0")))
    if exports != EXPORTS:
        raise NotCompiled(f"{NAME} exports {', '.join(exports)}")


def link(kit: Path, objects: List[Path], folder: Path) -> Path:
    made = folder / "linked.wasm"
    words = ["-flavor", "wasm", "-mwasm64", "--no-entry", "--stack-first", "-z", f"stack-size={STACK}", "--gc-sections",
             "--threads=1", "--strip-all", "-o", made.name, *(path.name for path in objects), str(HELPERS)]
    run([clang(kit), *words], folder, "wasm-ld")
    made.write_bytes(without_table(made.read_bytes()))
    return made


def lowered(linked: Path, folder: Path) -> Path:
    """The module with addresses of 32 bits."""
    made = folder / NAME
    tool = shutil.which("wasm-opt") or "wasm-opt"
    run([tool, *(f"--enable-{name}" for name in FEATURES), "--memory64-lowering", linked.name, "-o", made.name], folder,
        environment={**os.environ, "BINARYEN_CORES": "1"})
    return made


def build(kit: Path, module: Path) -> bytes:
    """The bytes of trinorm.wasm."""
    if missing():
        raise NotCompiled(f"{NAME} needs the Debian packages {' '.join(missing())}")
    if sum_of_file(HELPERS) != HELPERS_SUM:
        raise NotCompiled(f"{HELPERS} is another one than was tried: run the tests with it, and write its checksum into tools/wasm.py")
    target = TARGETS["wasm"]
    with tempfile.TemporaryDirectory() as room:
        folder = Path(room)
        objects = [compiled(kit, module, target, folder), compiled_c(kit, TOP / "library" / "wasm" / "heap.c", target, folder)]
        data = lowered(link(kit, objects, folder), folder).read_bytes()
    check(data)
    return data


def made(kit: Path, module: Optional[bytes], say: Callable[[str], None]) -> Dict[str, bytes]:
    """The module for WebAssembly by its name in a manifest; nothing if it can't be made here, which is said."""
    if module is None:
        return {}
    if missing():
        say(f"there is no {NAME}, since {' and '.join(missing())} of Debian are not installed")
        return {}
    with tempfile.TemporaryDirectory() as folder:
        path = Path(folder, "module.bc")
        path.write_bytes(module)
        try:
            return {"wasm": build(kit, path)}
        except (NotCompiled, OSError) as fault:
            say(f"there is no {NAME}: {fault}")
            return {}


def main(words: List[str]) -> Optional[str]:
    if len(words) != 2:
        return __doc__
    command = shutil.which("rt")
    if command is None:
        return "wasm: the command rt of the Rattle kit is not there"
    try:
        data = build(Path(command).resolve().parents[1], Path(words[0]).resolve())
    except NotCompiled as fault:
        return f"wasm: {fault}"
    Path(words[1]).mkdir(parents=True, exist_ok=True)
    (Path(words[1]) / NAME).write_bytes(data)
    return None


if __name__ == "__main__":
    sys.exit(main(sys.argv[1:]))

#!/usr/bin/env python3
"""Lists what took longest in the last check of a crate, by the times at which the checker kept each module.

    tools/slow.py CRATE [COUNT]

A time is what passed since the module before it, so it tells something only after a check from nothing, by one job,
on a machine that does nothing else.
"""
from __future__ import annotations

import re
import sys
from typing import Dict, List, NamedTuple

from repository import TOP


class Kept(NamedTuple):
    """A module: when it was kept, its size in bytes, and its name."""

    at: float
    size: int
    name: str


def kept_modules(crate: str) -> List[Kept]:
    """Each kept module, the first one first."""
    paths = (TOP / "crates" / crate / "out" / "incremental").rglob("*.oantt")
    return sorted(Kept(path.stat().st_mtime_ns / 1e9, path.stat().st_size, path.name[: -len(".oantt")]) for path in paths)


def function_of(module: str) -> str:
    """The function that a module is of: the module's path, without the part of the proof."""
    inside = re.sub(r"^Rattle[-.]\w+-?(proofs|specs)?\.?", "", module)
    return re.split(r"\.(?:Lts|Proof|Tie|Mir|Reads|Kinds|Layout|Named|Code|Met|Statement|Goals|Given|Carried)\b", inside)[0]


def main() -> None:
    if len(sys.argv) < 2:
        sys.exit(__doc__)
    count = int(sys.argv[2]) if len(sys.argv) > 2 else 20
    modules = kept_modules(sys.argv[1])
    if not modules:
        sys.exit("no check of this crate has kept anything")
    took = [(kept.at - before.at, kept.size, kept.name) for before, kept in zip(modules, modules[1:])]
    print(f"{modules[-1].at - modules[0].at:.0f} s, {len(modules)} modules")
    functions: Dict[str, float] = {}
    for seconds, _, name in took:
        functions[function_of(name)] = functions.get(function_of(name), 0.0) + seconds
    for name, total in sorted(functions.items(), key=lambda item: -item[1])[:count]:
        print(f"{total:7.1f} s  {name}")
    print("modules")
    for seconds, size, name in sorted(took, reverse=True)[:count]:
        print(f"{seconds:7.1f} s {size >> 10:6} KB  {name}")


if __name__ == "__main__":
    main()

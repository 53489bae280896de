#!/usr/bin/env python3
"""Runs the tests that neither the gate nor tools/test.py runs, and writes when each ran last into bench/last_runs.txt.

    bench/by_hand.py [--short] [NAME ..]

Each line of the file has the script with its options, the commit, the checksum of the program, the day, and the last line that
the script printed. A script that fails keeps its former line, and the exit status is 1. Run it in a clone without changes, so
that the commit says what ran. --short gives the scripts that take long fewer inputs; their lines are besides those of whole runs.
"""
from __future__ import annotations

import hashlib
import os
import subprocess
import sys
import time
from typing import Dict, List

from common import HERE, TOP
from trinorm import find

PAGE = os.path.join(HERE, "last_runs.txt")
HEAD = "# When each test that is run by hand ran last; bench/by_hand.py writes this file.\n"
SCRIPTS: Dict[str, List[str]] = {
    "hostile": ["--inputs", "100000"],
    "against_regina": [],
    "faults": [],
    "same_answers": [],
    "long_census": ["--lines", "10000000"],
}
SHORT: Dict[str, List[str]] = {"hostile": ["--inputs", "20000"], "long_census": ["--lines", "500000"]}


def python() -> str:
    """A Python that has Regina, if there is one."""
    for path in (sys.executable, "/usr/bin/python3"):
        if subprocess.run([path, "-c", "import regina"], stderr=subprocess.DEVNULL, check=False).returncode == 0:
            return path
    return sys.executable


def commit() -> str:
    """The commit of the clone, with `+` if files differ from it."""
    head, changes = ["rev-parse", "--short=12", "HEAD"], ["status", "--porcelain", "--untracked-files=no", "--", ".", ":(exclude)bench/last_runs.txt"]
    said = [subprocess.run(["git", *words], cwd=TOP, stdout=subprocess.PIPE, text=True, check=True).stdout.strip() for words in (head, changes)]
    return said[0] + ("+" if said[1] else "")


def program() -> str:
    """The first digits of the checksum of the program that is tested."""
    with open(find(None), "rb") as file:
        return hashlib.sha256(file.read()).hexdigest()[:12]


def words_of(name: str, is_short: bool) -> List[str]:
    """The script of a name with its options."""
    options = SHORT.get(name, SCRIPTS[name]) if is_short else SCRIPTS[name]
    return [f"{name}.py", *options]


def read() -> Dict[str, str]:
    """The lines of the file by their script with its options."""
    if not os.path.exists(PAGE):
        return {}
    with open(PAGE, encoding="utf8") as file:
        return {line.split(" | ")[0]: line for line in file if not line.startswith("#")}


def write(lines: Dict[str, str]) -> None:
    """Writes the lines in the order of the scripts, each whole run before the short one."""
    known = dict.fromkeys(" ".join(words_of(name, is_short)) for name in SCRIPTS for is_short in (False, True))
    with open(PAGE, "w", encoding="utf8") as file:
        file.write(HEAD + "".join(lines[each] for each in known if each in lines))


def main() -> int:
    """Runs the scripts, and returns the exit status."""
    is_short = "--short" in sys.argv[1:]
    names = [word for word in sys.argv[1:] if word != "--short"] or list(SCRIPTS)
    lines, status = read(), 0
    unknown = [name for name in names if name not in SCRIPTS]
    if unknown:
        print(f"by_hand: the scripts are {', '.join(SCRIPTS)}, not {unknown[0]}", file=sys.stderr)
        return 2
    for name in names:
        words = words_of(name, is_short)
        done = subprocess.run([python(), os.path.join(HERE, words[0]), *words[1:]], cwd=TOP, stdout=subprocess.PIPE, text=True, check=False)
        print(f"{' '.join(words)}: status {done.returncode}\n{done.stdout}", flush=True)
        if done.returncode:
            status = 1
            continue
        said = (done.stdout.strip().splitlines() or ["nothing was printed"])[-1]
        day = time.strftime("%Y-%m-%d", time.gmtime())
        lines[" ".join(words)] = f"{' '.join(words)} | {commit()} | {program()} | {day} | {' '.join(said.split())}\n"
        write(lines)
    return status


if __name__ == "__main__":
    sys.exit(main())

#!/usr/bin/env python3
"""Runs each example of the README, the paper, the package's README and docs/, and compares its answer.

    bench/examples.py [PAGE..]

An example is a line `$ COMMAND` in an indented block, with what it writes to standard output below it, or a Python session
(`>>> `) in one; the sessions of a page go on from each other. Python is the one that runs this script; what needs a module
that it has not, as regina or numpy, is left out. Stops at the first that differs; the last line says how many ran.
"""
import doctest
import glob
import importlib.util
import os
import subprocess
import sys
from typing import Dict, Iterator, List, Optional, Tuple

TOP = os.path.dirname(os.path.dirname(os.path.realpath(__file__)))
PYTHON = os.path.join(TOP, "python")
# words of examples, and the modules that these need
NEEDED = {"regina": "regina", "crosscheck": "regina", "crush_and_identify": "regina", "numpy": "numpy", "pandas": "pandas"}
MISSING = [word for word, module in NEEDED.items() if importlib.util.find_spec(module) is None]


def blocks(text: str) -> Iterator[List[str]]:
    """The indented blocks of a page, as lists of lines without the indent."""
    block: List[str] = []
    for line in text.split("\n") + [""]:
        if line.startswith("    "):
            block.append(line[4:])
        elif block:
            yield block
            block = []


def examples(text: str) -> Iterator[Tuple[str, List[str]]]:
    """Each command with the lines that it has to write."""
    for block in blocks(text):
        command: Optional[str] = None
        answer: List[str] = []
        for line in block + ["$ "]:
            if line.startswith("$ "):
                if command:
                    yield command, answer
                command, answer = line[2:], []
            elif command:
                answer.append(line)


def is_left_out(example: str) -> bool:
    """Whether an example needs a module that isn't there."""
    return any(word in example for word in MISSING)


def is_right(command: str, answer: List[str], around: Dict[str, str]) -> bool:
    """Runs a command; where it differs, says so."""
    run = subprocess.run(["bash", "-c", command], cwd=TOP, env=around, stdin=subprocess.DEVNULL, stdout=subprocess.PIPE,
                         text=True, timeout=600, check=False)
    said = run.stdout.rstrip("\n").split("\n") if run.stdout else []
    if said != answer:
        print(f"{command}\n  expected {answer}\n  got      {said} status {run.returncode}")
        return False
    return True


def is_right_session(session: str, names: Dict[str, object], page: str) -> bool:
    """Runs a Python session after those whose names it goes on with; where it differs, doctest says so."""
    test = doctest.DocTestParser().get_doctest(session, names, page, page, 0)
    failed = doctest.DocTestRunner(verbose=False).run(test, clear_globs=False).failed
    names.update(test.globs)
    return failed == 0


def runs(page: str, around: Dict[str, str]) -> Iterator[Optional[bool]]:
    """Whether each example of a page is right, or None where it is left out."""
    with open(page, encoding="utf8") as file:
        text = file.read()
    for command, answer in examples(text):
        yield None if is_left_out(command) else is_right(command, answer, around)
    names: Dict[str, object] = {}
    for block in blocks(text):
        if block[0].startswith(">>> "):
            session = "\n".join(block) + "\n"
            yield None if is_left_out(session) else is_right_session(session, names, os.path.relpath(page, TOP))


def main(pages: List[str]) -> int:
    others = [os.path.join(TOP, *path) for path in (("README.md",), ("paper.md",), ("python", "README.md"))]
    pages = pages or [*others, *sorted(glob.glob(os.path.join(TOP, "docs", "*.md")))]
    os.chdir(TOP)
    sys.path.insert(0, PYTHON)
    around = dict(os.environ, PYTHONPATH=PYTHON, PATH=os.pathsep.join([os.path.dirname(sys.executable), TOP, os.environ["PATH"]]))
    counts = {True: 0, False: 0, None: 0}
    for page in pages:
        for right in runs(page, around):
            counts[right] += 1
            if right is False:
                print(f"in {os.path.relpath(page, TOP)}")
                return 1
    print(f"{counts[True]} examples ran, each as it stands in the page; {counts[None]} that need a missing module were left out")
    return 0


if __name__ == "__main__":
    sys.exit(main(sys.argv[1:]))

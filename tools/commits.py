#!/usr/bin/env python3
"""Checks the messages of commits.

    tools/commits.py [--message FILE]

The subject has at most 72 characters and does not end with a full stop. After an empty line, a body says why. Checked are the
commits after the one in FIRST, or the message in FILE. Prints each fault; the exit status is 1 if there is one, and 0 if the
repository has no history.
"""
from __future__ import annotations

import argparse
import subprocess
import sys
from pathlib import Path
from typing import Iterator, List, Tuple

from repository import TOP

# the last commit before these rules
FIRST = "9a61599f"
LONGEST = 72
END = "\x1e"


def faults_of(message: str) -> List[str]:
    """What is wrong with a message, whose lines that begin with # are comments."""
    lines = [line.rstrip() for line in message.splitlines() if not line.startswith("#")]
    while lines and not lines[0]:
        del lines[0]
    if not lines:
        return ["the message is empty"]
    subject, body = lines[0], lines[1:]
    if subject.startswith(("Merge ", "Revert ", "fixup! ", "squash! ")):
        return []
    found = []
    if len(subject) > LONGEST:
        found.append(f"the subject has {len(subject)} characters; at most {LONGEST} are allowed")
    if subject.endswith("."):
        found.append("the subject ends with a full stop")
    if not any(body):
        found.append("there is no body that says why")
    elif body[0]:
        found.append("the line after the subject is not empty")
    return found


def commits_since(top: Path, first: str) -> Iterator[Tuple[str, str]]:
    """The commits after one, with their messages; none if the repository does not have it."""
    words = ["git", "-C", str(top), "log", "--no-merges", f"--format=%h%n%B{END}", f"{first}..HEAD"]
    try:
        done = subprocess.run(words, stdout=subprocess.PIPE, stderr=subprocess.DEVNULL, text=True, errors="replace", check=False)
    except OSError:
        return
    if done.returncode == 0:
        for item in done.stdout.split(END):
            name, _, message = item.strip("\n").partition("\n")
            if name:
                yield name, message


def main() -> int:
    """Prints the faults, and returns the exit status."""
    parser = argparse.ArgumentParser(description="Checks the messages of commits.")
    parser.add_argument("--message", metavar="FILE", type=Path, help="check the message in FILE")
    given = parser.parse_args()
    if given.message:
        checked = [("message", given.message.read_text(encoding="utf8", errors="replace"))]
    else:
        checked = list(commits_since(TOP, FIRST))
    faults = [f"{name}: {fault}" for name, message in checked for fault in faults_of(message)]
    for fault in faults:
        print(fault)
    return 1 if faults else 0


if __name__ == "__main__":
    sys.exit(main())

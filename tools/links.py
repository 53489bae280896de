#!/usr/bin/env python3
"""Checks that each link of a page to a file, and to a heading or an anchor of a page, has its target.

    tools/links.py [PAGE ..]

Without pages it checks all of the repository. It prints each link that fails, with its page, and the status is then 1.
"""
from __future__ import annotations

import functools
import re
import sys
from pathlib import Path
from typing import Iterator, List, Set

from repository import TOP

LINK = re.compile(r"\]\(([^)\s]+)\)")
ELSEWHERE = re.compile(r"[a-z]+:")


def prose(text: str) -> str:
    """The text of a page without its code blocks, indented or fenced."""
    return re.sub(r"(?m)^ {4}.*$", "", re.sub(r"(?ms)^```.*?^```$", "", text))


def anchor(heading: str) -> str:
    """The anchor that a heading of a page has."""
    return re.sub(r"[^\w\- ]", "", heading.strip().lower()).replace(" ", "-")


@functools.lru_cache(maxsize=None)
def anchors(page: Path) -> Set[str]:
    """The anchors of a page: those of its headings, and those that it names itself, as `LAWS.md` does for each law."""
    text = prose(page.read_text("utf8"))
    return {anchor(heading) for heading in re.findall(r"(?m)^#+ (.*)$", text)} | set(re.findall(r'<a id="([^"]+)">', text))


def broken_links(page: Path) -> Iterator[str]:
    """The links of a page whose file, or whose heading or anchor in that file, does not exist."""
    for link in LINK.findall(prose(page.read_text("utf8"))):
        if ELSEWHERE.match(link):
            continue
        path, _, heading = link.partition("#")
        target = page.parent / path if path else page
        if not target.exists() or (heading and target.suffix == ".md" and heading not in anchors(target.resolve())):
            yield link


def pages() -> List[Path]:
    """The pages of the repository: those at its top, and those in a folder there."""
    return sorted([*TOP.glob("*.md"), *TOP.glob("*/*.md")])


def main(words: List[str]) -> int:
    """Checks the pages of the command line, or all; returns the exit status."""
    failed = [f"{page}: {link}" for page in [Path(word) for word in words] or pages() for link in broken_links(page)]
    for line in failed:
        print(line)
    return 1 if failed else 0


if __name__ == "__main__":
    sys.exit(main(sys.argv[1:]))

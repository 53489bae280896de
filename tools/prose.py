#!/usr/bin/env python3
"""Checks the sentences of the pages.

    tools/prose.py [--check]

A sentence has at most 30 words, where a name in backticks and a link are one word each. Examples, quotations and pages that
another tool writes are left out. Printed is each longer sentence with its page; with --check the exit status is then 1.
"""
from __future__ import annotations

import argparse
import re
import sys
from pathlib import Path
from typing import Iterator, Sequence, Tuple

from repository import TOP

LONGEST = 30
PAGES = ("README.md", "CONTRIBUTING.md", "CHANGELOG.md", "SECURITY.md", "paper.md", "python/README.md", "docs/*.md")
WRITTEN = ("LAWS.md", "READING.md")
# where a sentence ends: a full stop, a question mark or an exclamation mark, before a space
END = re.compile(r"(?<=[.!?])[*_)\"”]*\s+")


def pages(top: Path) -> Iterator[Path]:
    """The pages that people write."""
    for pattern in PAGES:
        yield from (path for path in sorted(top.glob(pattern)) if path.name not in WRITTEN)


def without_examples(text: str) -> str:
    """A page without its examples, its quotations and the parts that a tool writes."""
    text = re.sub(r"<!-- [^>]*: tools/.*?<!-- end[^>]*-->", "", text, flags=re.S)
    text = re.sub(r"^```.*?^```", "", text, flags=re.S | re.M)
    return "\n".join(line for line in text.split("\n") if not line.startswith(("    ", ">", "#")))


def blocks(text: str) -> Iterator[str]:
    """The paragraphs, list items and cells of tables of a page, each on one line."""
    for block in re.split(r"\n\s*\n|\n(?=\s*(?:[-*|]|\d+\.) )", without_examples(text)):
        yield from (block.split("|") if block.lstrip().startswith("|") else [block])


def words(sentence: str) -> int:
    """The number of words of a sentence."""
    bare = re.sub(r"`[^`]*`", "name", re.sub(r"\[([^\]]*)\]\([^)]*\)", "link", sentence))
    return len([word for word in bare.split() if re.search(r"\w", word)])


def long_sentences(text: str) -> Iterator[str]:
    """The sentences of a page that have more than LONGEST words."""
    for block in blocks(text):
        line = re.sub(r"\s+", " ", re.sub(r"`[^`]*`", lambda name: str(name[0]).replace(". ", "._"), block)).strip()
        yield from (sentence for sentence in END.split(line) if words(sentence) > LONGEST)


def found(top: Path) -> Sequence[Tuple[str, str]]:
    """Each long sentence with its page."""
    return [(path.relative_to(top).as_posix(), sentence) for path in pages(top) for sentence in long_sentences(path.read_text("utf8"))]


def main() -> int:
    """Prints the long sentences, and returns the exit status."""
    parser = argparse.ArgumentParser(description="Checks the sentences of the pages.")
    parser.add_argument("--check", action="store_true", help=f"end with 1 if a sentence has more than {LONGEST} words")
    given = parser.parse_args()
    longer = found(TOP)
    for page, sentence in longer:
        print(f"{page}: {words(sentence)} words: {sentence}")
    return 1 if given.check and longer else 0


if __name__ == "__main__":
    sys.exit(main())

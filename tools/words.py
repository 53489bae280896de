#!/usr/bin/env python3
"""Writes the section "Terms" of docs/REFERENCE.md: the words that python/trinorm/words.json explains, in alphabetical order.

    tools/words.py [--check]

The page in a browser and the launcher (`trinorm help TERM`) show the same table. The launcher reads it line by line, so each word
has a line of its own, without escapes. With --check nothing is written, and the status is 1 if something would be, or if the
table does not have this form.
"""
from __future__ import annotations

import json
import sys
from typing import Dict, Iterator

from repository import TOP

TABLE = TOP / "python" / "trinorm" / "words.json"
PAGE = TOP / "docs" / "REFERENCE.md"
MARKS = ("<!-- words: tools/words.py -->", "<!-- end of words -->")


def faults(text: str) -> Iterator[str]:
    """What is wrong with the text of the table."""
    try:
        table = json.loads(text)
    except ValueError as fault:
        yield f"it is not JSON: {fault}"
        return
    if "\\" in text or text != json.dumps(table, ensure_ascii=False, indent=2) + "\n":
        yield "each word must have one line, indented by four spaces, without escapes"
    if sorted(table) != ["about", "words"] or not all(isinstance(it, str) for it in table["words"].values()):
        yield "it must have `about`, and `words` with a text for each"
        return
    for word, sentences in table["words"].items():
        if not sentences.endswith("."):
            yield f"the sentences of `{word}` must end with a full stop"


def section(words: Dict[str, str]) -> str:
    """The list of the words, between the marks."""
    lines = [f"- **{word}**: {words[word]}" for word in sorted(words, key=str.lower)]
    return "\n".join([MARKS[0], "", *lines, "", MARKS[1]])


def with_section(page: str, words: Dict[str, str]) -> str:
    """A page with the list of the words in the place of that which it has."""
    before, _, rest = page.partition(MARKS[0])
    _, end, after = rest.partition(MARKS[1])
    if not end:
        sys.exit(f"tools/words.py: {PAGE.name} lacks the marks {' and '.join(MARKS)}")
    return before + section(words) + after


def main() -> int:
    """Writes the section, or checks it, and returns the exit status."""
    text = TABLE.read_text("utf8")
    found = list(faults(text))
    if found:
        print("\n".join(f"{TABLE.name}: {fault}" for fault in found))
        return 1
    page = PAGE.read_text("utf8")
    wanted = with_section(page, json.loads(text)["words"])
    if page == wanted:
        return 0
    if "--check" in sys.argv[1:]:
        print(f"docs/{PAGE.name} does not have the words of {TABLE.name}; run tools/words.py")
        return 1
    PAGE.write_text(wanted, "utf8")
    return 0


if __name__ == "__main__":
    sys.exit(main())

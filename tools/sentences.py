#!/usr/bin/env python3
"""Checks the sentences that users are shown as proved.

    tools/sentences.py

tools/sentences.json has each such sentence of the page, the package, the launcher, the examples and docs/GUIDE.md:

    place    the file that shows it
    text     the sentence as it is there, without marks of comments and of emphasis; or a list of wordings, of which one is there
    laws     what it rests on: CRATE.LAW.STATEMENT, or CRATE:CLAUSE for a clause of a contract
    given    the hypotheses that hold wherever the sentence is shown, though it does not name them, each with the reason

Refused are a sentence whose law or statement does not exist, or that is not in its place; one that neither names a hypothesis of
its statements nor has it as given; and one that says "if and only if" or the like of a statement that does not. In the places
each name of a law, and each of the words in CLAIMED, has to be in a sentence. A sentence without laws only says that something is
not proved, or names the program; `why` says so. The status is 1 if something is refused.
"""
from __future__ import annotations

import json
import re
import sys
from pathlib import Path
from typing import Dict, Iterator, List, NamedTuple, Sequence, Tuple

from claims import OF_PAGES, PREMISES, binders_removed, said, unstated
from definitions import Definitions
from laws import Crate, read_crates, statement
from repository import TOP

FILE = TOP / "tools" / "sentences.json"
# what users are shown
PLACES = ("web/*.js", "web/index.html", "python/trinorm/*.py", "python/trinorm/hints.txt", "launcher/*", "examples/*.sh", "examples/*.py",
          "docs/GUIDE.md")
# what a tool makes of texts that are looked at
COPIES = ("python/trinorm/table_methods.py",)
CLAIMED = re.compile(r"\b(?:[Pp]roved|[Pp]roves|[Tt]heorems?|machine-checked|(?:is|are|not|Not) 0-efficient)\b")
# the premises that a sentence for users names; others say of which kind something is
NAMED = (*OF_PAGES, "coordinates", "not quad", "status 0", "text as written", "canonical", "moves within the limit", "333 moves")


class Sentence(NamedTuple):
    """A sentence of tools/sentences.json."""

    place: str
    texts: Tuple[str, ...]
    laws: Tuple[str, ...]
    given: Dict[str, str]
    why: str


def read_sentence(entry: object) -> Sentence:
    """A sentence of the file. Fails with ValueError if it has not the form of one."""
    if not isinstance(entry, dict) or not {"place", "text"} <= set(entry) <= {"place", "text", "laws", "given", "why"}:
        raise ValueError(f"no sentence: {entry}")
    texts = entry["text"] if isinstance(entry["text"], list) else [entry["text"]]
    laws, given, why = entry.get("laws", []), entry.get("given", {}), entry.get("why", "")
    if not (isinstance(laws, list) and isinstance(given, dict)):
        raise ValueError(f"no list of laws, or no hypotheses with reasons: {entry}")
    if not all(isinstance(word, str) for word in [entry["place"], *texts, *laws, *given, *given.values(), why]):
        raise ValueError(f"something is no text: {entry}")
    return Sentence(entry["place"], tuple(texts), tuple(laws), given, why)


def read_sentences(text: str) -> List[Sentence]:
    """The sentences of a file. Fails with ValueError if it is none of sentences."""
    entries = json.loads(text)
    if not isinstance(entries, list):
        raise ValueError("no list of sentences")
    return [read_sentence(entry) for entry in entries]


def plain(text: str) -> str:
    """A text on one line, without marks of emphasis and of code."""
    return re.sub(r"\s+", " ", re.sub(r"[*`]", "", text)).strip()


def shown(path: Path) -> str:
    """What a file may show to users, on one line: its text without comments for readers of the code."""
    text = path.read_text("utf8")
    if path.suffix == ".js":
        text = re.sub(r"/\*.*?\*/", "", text, flags=re.S)
        text = re.sub(r"(?m)(?:^|\s)// .*$", "", text)
    elif path.suffix == ".py":
        text = re.sub(r"(?m)^\s*#.*$", "", text)
    elif path.suffix in (".sh", ".awk"):
        text = re.sub(r"(?m)^\s*#!?", "", text)
    elif path.suffix == ".md":
        text = re.sub(r"(?m)^> ?", "", text)
    return plain(text)


class Book:
    """The laws that there are, by crate and name, and what their statements say."""

    def __init__(self, crates: Sequence[Crate]) -> None:
        self.crates = {crate.name: crate for crate in crates}
        self.names = {law.name for crate in crates for law in crate.laws}
        self.definitions = Definitions()

    def faults(self, sentence: Sentence) -> Iterator[str]:
        """What is wrong with a sentence, as far as its laws say."""
        found = []
        for law in sentence.laws:
            if not (self.has_clause(law) if ":" in law else self.has_statement(law)):
                yield f"there is no {law}"
            elif ":" not in law:
                found.append(said(statement(self.crates[law.split(".")[0]], law.split(".")[2], self.definitions), self.definitions))
        needed = {one.name: one for it in found for one in PREMISES if one.name in NAMED and one.formal.search(binders_removed(it.premises))}
        for text in sentence.texts:
            for name, one in needed.items():
                if name not in sentence.given and not one.words.search(text):
                    yield f"it does not name the hypothesis: {name}"
            if found:
                yield from (f"it {fault}, and its statements do not" for fault in unstated(text, found))
        yield from (f"no statement has the hypothesis {name} that is given" for name in sentence.given if name not in needed)
        if not sentence.laws and not sentence.why:
            yield "it names no law, and no reason why not"

    def has_statement(self, law: str) -> bool:
        """Whether there is a law of a crate, and a statement of it."""
        crate, name, wanted = (law.split(".") + ["", ""])[:3]
        return crate in self.crates and any(it.name == name and wanted in it.statements for it in self.crates[crate].laws)

    @staticmethod
    def has_clause(law: str) -> bool:
        """Whether a contract of a crate has a clause of this name."""
        crate, _, clause = law.partition(":")
        files = (TOP / "crates" / crate / "src").glob("*.rt")
        return any(re.search(rf"(?m)^ +ensures {re.escape(clause)} \{{", path.read_text("utf8")) for path in files)


def covered(text: str, sentences: Sequence[Sentence]) -> List[Tuple[int, int]]:
    """Where in a text its sentences are."""
    spans = []
    for wording in (plain(wording) for sentence in sentences for wording in sentence.texts):
        at = text.find(wording)
        while at >= 0:
            spans.append((at, at + len(wording)))
            at = text.find(wording, at + 1)
    return spans


def uncovered(text: str, sentences: Sequence[Sentence], names: Sequence[str]) -> Iterator[str]:
    """The words in CLAIMED and the names of laws of a text that are in none of its sentences, each with its surroundings."""
    spans = covered(text, sentences)
    words = re.compile(rf"{CLAIMED.pattern}|\b(?:{'|'.join(sorted(names))})\b")
    for found in words.finditer(text):
        if not any(start <= found.start() and found.end() <= end for start, end in spans):
            yield text[max(0, found.start() - 60):found.end() + 60]


def faults(sentences: Sequence[Sentence], book: Book) -> Iterator[str]:
    """What is refused."""
    # names of one word, such as `orbits` or `chains`, are words of any text
    names = [name for name in book.names if name.count("_") > 1]
    copies = [TOP / name for name in COPIES]
    paths = [path for pattern in PLACES for path in sorted(TOP.glob(pattern)) if path.is_file() and path not in copies]
    for sentence in sentences:
        for fault in book.faults(sentence):
            yield f"{sentence.place}: {sentence.texts[0][:60]}..: {fault}"
        if TOP / sentence.place not in paths:
            yield f"{sentence.place}: it is not one of the files that are looked at"
    for path in paths:
        place, text = path.relative_to(TOP).as_posix(), shown(path)
        here = [sentence for sentence in sentences if sentence.place == place]
        for sentence in here:
            if not any(plain(wording) in text for wording in sentence.texts):
                yield f"{place}: it does not say any more: {sentence.texts[0]}"
        for words in uncovered(text, here, names):
            yield f"{place}: not in {FILE.name}: {words}"


def main() -> int:
    """Prints what is refused, and returns the exit status."""
    try:
        sentences = read_sentences(FILE.read_text("utf8"))
    except ValueError as fault:
        print(f"{FILE.relative_to(TOP)}: {fault}")
        return 1
    found = list(faults(sentences, Book(read_crates())))
    for line in found:
        print(line)
    return 1 if found else 0


if __name__ == "__main__":
    sys.exit(main())

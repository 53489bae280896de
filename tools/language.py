#!/usr/bin/env python3
"""Measures the comments and names of the crates by five rules.

    tools/language.py [--check] [--list] [CRATE ..]

parameters: the comment of a function names at least one parameter in backticks; a sole parameter may be named as a word
errors: the comment of a function that may fail, other than by running out of memory, says when or with what
words: a comment uses the words of the subject, none of those in HOUSE
width: a line of a comment, and one of a contract of code, has at most 120 columns
names: the parts of an identifier are words of the subject too, none of those in HOUSE or HOUSE_IN_NAMES; those in
    tools/names_kept.txt stay, each for its reason

The comments of proofs are held to the words, as those of public items are, and all contracts of code to the width. Each
identifier of a file of src or specs is held to the names, and counts once, with its first line; those of proofs are counted,
and not held.

Printed are, for each crate that breaks a rule, how often its public items break each rule, and then its private ones. --list
prints each place. With --check the exit status is 1 if a public item of a crate in tools/language_done.txt breaks a rule, or
if tools/names_kept.txt has a name without a reason or one that no crate has, and only these places are printed.
"""
from __future__ import annotations

import argparse
import re
import sys
from collections import Counter
from pathlib import Path
from typing import Dict, Iterator, List, NamedTuple, Sequence, Set, Tuple

from refusals import end_of_block
from repository import TOP, files_of_crate

DONE = TOP / "tools" / "language_done.txt"
KEPT = TOP / "tools" / "names_kept.txt"
RULES = ("parameters", "errors", "words", "width", "names")
WIDTH = 120
# words that have another meaning here than to a reader of the subject, or none to him
HOUSE = re.compile(
    r"\b(so many|told|tells?|met|behind|beside|wanted|want of|without memory|past|round|stands?|goes (?:to|on)|leads? to"
    r"|way back|inner edges?|loose|rivals?|in front|lesser|hands? on|at hand|from nothing|due|is gone|way round|few)\b", re.I)
# words that a comment may use, but that say nothing in a name
HOUSE_IN_NAMES = re.compile(r"\b(turned|apart|stood)\b")
# parameters that each reader knows, and errors of which the comment needn't speak
KNOWN = ("self", "alloc", "rt")
OF_MEMORY = ("NoMemory", "AllocError", "Fail")
FAILS = re.compile(r"\b[Ff]ail|\b[Ee]rror|`[A-Z]\w*`|\bwhy\b|\bWhy\b")
COMMENT = re.compile(r"\s*(?:///|//!|//|--)(?:\s|$)")
# what has no names of the crate: comments and texts
NO_NAMES = re.compile(r'"(?:\\.|[^"\\])*"|(?://|--)[^\n]*')
CLAUSE = re.compile(r"\s*(?:requires|ensures|decreases)\b[^{]*\{")
NAME = re.compile(r"[A-Za-z_][A-Za-z0-9_]*")
PART = re.compile(r"[A-Z]+(?![a-z])|[A-Z]?[a-z]+|[0-9]+")
PUBLIC = re.compile(r"\s*(?:(?:abbrev|unfoldable|opaque) )*pub(?:\([a-z]+\))?\s")


class Comment(NamedTuple):
    """A comment: the line at which it begins, its lines, and the text of the file after it."""

    line: int
    lines: Sequence[str]
    after: str

    def text(self) -> str:
        """What the comment says, on one line."""
        return " ".join(re.sub(r"^\s*(?:///|//!|//|--) ?", "", line) for line in self.lines)

    def is_public(self) -> bool:
        """Whether the comment is of a public item, or is the head of a file."""
        return self.lines[0].lstrip().startswith("//!") or PUBLIC.match(self.after) is not None


class Place(NamedTuple):
    """A place where a rule is broken: the rule, the file and the line, whether the item is public, and what breaks the rule."""

    rule: str
    path: str
    line: int
    public: bool
    what: str


def comments_of(text: str) -> Iterator[Comment]:
    """The comments of a source that take whole lines, each followed by the item that it is of."""
    lines = text.split("\n")
    at = 0
    while at < len(lines):
        end = at
        while end < len(lines) and COMMENT.match(lines[end]):
            end += 1
        if end > at:
            item = end
            while item < len(lines) and re.match(r"\s*#!?\[.*\]\s*$", lines[item]):
                item += 1
            yield Comment(at + 1, lines[at:end], "\n".join(lines[item:item + 40]))
        at = max(end, at + 1)


def parameters_of(head: str) -> List[str]:
    """The names of the parameters in a function's head, without those that each reader knows."""
    opened = head.index("(", head.index("fn "))
    listed = head[opened + 1:end_of_block(head, opened) - 1]
    names = re.findall(r"(?:^|[,\n])\s*(?:mut )?(\w+)\s*:", listed)
    return [name for name in names if name.lstrip("_") not in KNOWN]


def error_of(head: str) -> str:
    """The type of a function's error, or "" if it returns none or can only run out of memory."""
    after = head[end_of_block(head, head.index("(", head.index("fn "))):]
    result = re.match(r"\s*->\s*Result<([^{]*?)>\s*(?:\{|requires\b|ensures\b|where\b)", after)
    error = result[1].rpartition(", ")[2].strip() if result else ""
    return "" if error in OF_MEMORY else error


def is_named(name: str, text: str, alone: bool) -> bool:
    """Whether a comment names a parameter, in backticks or, if it is the only one, as a word."""
    return re.search(rf"`[^`]*\b{name}\b[^`]*`", text) is not None or (alone and re.search(rf"\b{name}", text, re.I) is not None)


def broken_by(comment: Comment) -> Iterator[Sequence[str]]:
    """The rules that a comment breaks, each with what breaks it."""
    text = comment.text()
    prose = re.sub(r"`[^`]*`", "``", text)
    yield from (("words", found[0].lower()) for found in HOUSE.finditer(prose))
    yield from (("width", f"{len(line)} columns") for line in comment.lines if len(line) > WIDTH)
    head = re.match(r"\s*(?:pub(?:\([a-z]+\))? )?(?:const )?fn (\w+)", comment.after)
    if head is None or not comment.lines[0].lstrip().startswith("///"):
        return
    names = parameters_of(comment.after)
    if names and not any(is_named(name, text, len(names) == 1) for name in names):
        yield "parameters", f"{head[1]} names none of {', '.join(names)}"
    error = error_of(comment.after)
    if error and not FAILS.search(text):
        yield "errors", f"{head[1]} does not say when it fails with {error}"


def lines_of_contracts(text: str) -> Iterator[int]:
    """The numbers of the lines of a source that belong to clauses of contracts."""
    opened = 0
    for number, line in enumerate(text.split("\n"), 1):
        if opened > 0 or CLAUSE.match(line):
            yield number
            opened += line.count("{") - line.count("}")


def wide_contracts(text: str) -> Iterator[Tuple[int, str]]:
    """The lines of contracts that are too long, each with its length."""
    lines = text.split("\n")
    yield from ((number, f"{len(lines[number - 1])} columns") for number in lines_of_contracts(text) if len(lines[number - 1]) > WIDTH)


def names_in(text: str) -> Dict[str, int]:
    """The identifiers of a source, each with the line where it is first."""
    found: Dict[str, int] = {}
    code = NO_NAMES.sub(lambda skipped: "\n" * skipped[0].count("\n"), text)
    for number, line in enumerate(code.split("\n"), 1):
        for name in NAME.findall(line):
            found.setdefault(name, number)
    return found


def is_house_name(name: str) -> bool:
    """Whether the parts of an identifier have a word that a comment must not use, or that says nothing in a name."""
    parts = " ".join(PART.findall(name)).lower()
    return HOUSE.search(parts) is not None or HOUSE_IN_NAMES.search(parts) is not None


def kept_names(text: str) -> Dict[str, str]:
    """The names that stay, by the text of tools/names_kept.txt: lines `NAME: reason`."""
    lines = [line for line in text.split("\n") if line.strip() and not line.startswith("#")]
    return {name.strip(): reason.strip() for name, _, reason in (line.partition(":") for line in lines)}


def places_of(top: Path, crate: str, kept: Sequence[str] = ()) -> Iterator[Place]:
    """The places in a crate where a rule is broken, by other names than those that are kept."""
    for path in files_of_crate(top / "crates" / crate):
        if path.suffix in (".rt", ".antt"):
            parts = path.relative_to(top / "crates" / crate).parts
            in_proofs = "proofs" in parts
            for name, line in names_in(path.read_text("utf8")).items() if {"src", "specs", "proofs"} & set(parts) else ():
                if name not in kept and is_house_name(name):
                    yield Place("names", path.relative_to(top).as_posix(), line, not in_proofs, name)
            for line, what in wide_contracts(path.read_text("utf8")) if "src" in parts else ():
                yield Place("width", path.relative_to(top).as_posix(), line, True, what)
            for comment in comments_of(path.read_text("utf8")):
                for rule, what in broken_by(comment):
                    is_held = rule == "words" if in_proofs else comment.is_public()
                    yield Place(rule, path.relative_to(top).as_posix(), comment.line, is_held, what)


def crates_done() -> List[str]:
    """The crates whose public items break no rule."""
    return [line.strip() for line in DONE.read_text("utf8").split("\n") if line.strip() and not line.startswith("#")]


def idle_names(kept: Dict[str, str], used: Set[str]) -> Iterator[str]:
    """The lines of tools/names_kept.txt that are of no use: without a reason, or of a name that is not in `used`."""
    for name, reason in kept.items():
        if not reason:
            yield f"tools/names_kept.txt: {name} has no reason"
        elif name not in used:
            yield f"tools/names_kept.txt: no crate has the name {name}"


def names_of_crates(top: Path) -> Set[str]:
    """The identifiers in `src` and `specs` of all crates."""
    files = [path for folder in ("src", "specs") for path in top.glob(f"crates/*/{folder}/**/*") if path.suffix in (".rt", ".antt")]
    return {name for path in files for name in names_in(path.read_text("utf8"))}


def counts(places: Sequence[Place], public: bool) -> str:
    """How often the items break each rule."""
    found = Counter(place.rule for place in places if place.public == public)
    return ", ".join(f"{rule} {found[rule]}" for rule in RULES)


def report(crates: Sequence[str], listing: bool) -> None:
    """Prints the counts of each crate, and of all."""
    every: List[Place] = []
    kept = list(kept_names(KEPT.read_text("utf8")))
    for crate in crates:
        places = list(places_of(TOP, crate, kept))
        every += places
        if places:
            print(f"{crate}: public {counts(places, True)}; private {counts(places, False)}")
        for place in places if listing else ():
            print(f"  {place.path}:{place.line}: {place.rule}{'' if place.public else ' (private)'}: {place.what}")
    print(f"{len(crates)} crates: public {counts(every, True)}; private {counts(every, False)}")


def main() -> int:
    """Prints the counts, or with --check what a crate that is done breaks, and returns the exit status."""
    parser = argparse.ArgumentParser(description="Measures the comments and names of the crates.")
    parser.add_argument("crates", nargs="*", metavar="CRATE", help="only these crates")
    parser.add_argument("--check", action="store_true", help="end with 1 if a public item of a crate that is done breaks a rule")
    parser.add_argument("--list", action="store_true", help="print each place")
    given = parser.parse_args()
    crates = given.crates or sorted(path.name for path in (TOP / "crates").iterdir() if (path / "src").is_dir())
    unknown = [name for name in [*given.crates, *crates_done()] if not (TOP / "crates" / name / "src").is_dir()]
    if unknown:
        sys.exit(f"there is no crate {unknown[0]}")
    if not given.check:
        report(crates, given.list)
        return 0
    kept = kept_names(KEPT.read_text("utf8"))
    broken = [place for crate in crates_done() if crate in crates for place in places_of(TOP, crate, list(kept)) if place.public]
    lines = [f"{place.path}:{place.line}: {place.rule}: {place.what}" for place in broken]
    lines += idle_names(kept, names_of_crates(TOP))
    for line in lines:
        print(line)
    return 1 if lines else 0


if __name__ == "__main__":
    sys.exit(main())

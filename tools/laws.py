#!/usr/bin/env python3
"""Writes docs/LAWS.md: each theorem of a definition or law crate, in the words of the doc comment of its law function.

    tools/laws.py            writes the page
    tools/laws.py --check    says whether the page is up to date, with status 1 if it is not

A comment begins with Theorem, Lemma or Example. Its empty lines part paragraphs, and lines that begin with a number and a full
stop are items, at most one for each statement of the contract. If a comment is not so, the law is printed, and the status is 1.
"""
from __future__ import annotations

import re
import sys
from pathlib import Path
from typing import Dict, Iterator, List, NamedTuple, Optional, Sequence, Tuple

from definitions import Definitions, Item, Key, Names
from repository import TOP

PAGE = TOP / "docs" / "LAWS.md"
CLAIMS = TOP / "docs" / "CLAIMS.md"
LAW = re.compile(r"((?:^///[^\n]*\n)+)pub fn (\w+)\(\)\n((?:    [^\n]*\n|\n)+?)\{\}", re.M)
# words of a comment from which on it is noted as long
LONG = 120
OPENING = re.compile(r"(Theorem|Lemma|Example)s?((?: \([^()]*(?:\([^()]*\)[^()]*)*\))?)[.:]?\s*")
ITEM = re.compile(r"(\d+)\. (.*)")

INTRODUCTION = """# Laws

This page contains {theorems} theorems, {examples} examples and {lemmas} lemmas, each with its formal statements. `tools/laws.py` \
writes it from the sources. A theorem can be quoted by itself, as "docs/LAWS.md, `list_decides_efficiency`". A lemma serves one \
algorithm or one proof; the lemmas are [at the end](#lemmas).

Each law is a function with an empty body in `crates/CRATE/src/lib.rt`, and its contract is the theorem. The contract names the \
statements below each entry, which are defined in `specs/`. The text above them is the doc comment of the function. It is written \
by hand; `tools/claims.py` compares some of its words with the statements. [DEFINITIONS](DEFINITIONS.md) lists the words that the \
statements use, and [CLAIMS](CLAIMS.md) says what follows for the program."""


class Law(NamedTuple):
    """A law function: its crate, its name, the lines of its doc comment, and the statements that its contract names."""

    crate: str
    name: str
    lines: Tuple[str, ...]
    statements: Tuple[str, ...]

    @property
    def anchor(self) -> str:
        """The anchor of the law on the page."""
        return f"{self.crate}.{self.name}"

    @property
    def text(self) -> str:
        """The comment on one line."""
        return " ".join(" ".join(self.lines).split())

    @property
    def kind(self) -> str:
        """Theorem, Lemma, Example, or nothing."""
        opening = OPENING.match(self.text)
        return opening[1] if opening else ""


class Block(NamedTuple):
    """A paragraph, or an item with its number."""

    number: int
    text: str


class Crate(NamedTuple):
    """A crate with laws: its name, its first sentence, the paragraphs that define words, its laws, and the names of its file."""

    name: str
    head: str
    words: Sequence[str]
    laws: Sequence[Law]
    names: Names


def blocks(lines: Sequence[str]) -> Iterator[Block]:
    """The paragraphs and items of the lines of a comment. A line begins an item if it has the next number, after an empty line or in a list."""
    text: List[str] = []
    number, last = 0, 0
    for line in [*lines, ""]:
        item = ITEM.match(line)
        if not line.strip() or (item and int(item[1]) == last + 1 and (not text or number)):
            if text:
                yield Block(number, " ".join(" ".join(text).split()))
            text, number = [], 0
        if item and not text and int(item[1]) == last + 1:
            number = last = int(item[1])
            text = [item[2]]
        elif line.strip():
            text.append(line)


def comment_lines(lines: str, mark: str) -> Tuple[str, ...]:
    """The lines of a comment without their mark."""
    return tuple(line[len(mark):].strip() for line in lines.strip().split("\n") if line.startswith(mark))


def laws_of(crate: str, text: str) -> Iterator[Law]:
    """The law functions of the text of a crate's file, in their order."""
    for lines, name, clauses in LAW.findall(text):
        yield Law(crate, name, comment_lines(lines, "///"), tuple(re.findall(r"\{ (\w+) \}", clauses)))


def crate_of(name: str, text: str) -> Crate:
    """A crate with the laws of the text of its file."""
    paragraphs = [block.text for block in blocks(comment_lines(text.partition("\n#")[0], "//!"))]
    first = re.split(r"(?<=\.) ", paragraphs[0], maxsplit=1)[0] if paragraphs else ""
    return Crate(name, first, paragraphs[1:], list(laws_of(name, text)), Names(text))


def read_crates(top: Path = TOP) -> List[Crate]:
    """The crates that have laws, in the order of crates.txt."""
    names = re.findall(r"^(\w+_(?:definitions|laws))\b[^:\n]*:", (top / "crates.txt").read_text("utf8"), re.M)
    crates = [crate_of(name, (top / "crates" / name / "src" / "lib.rt").read_text("utf8")) for name in names]
    return [crate for crate in crates if crate.laws]


def statement_key(crate: Crate, statement: str) -> Optional[Key]:
    """Where a statement that a law names is defined."""
    return crate.names.items.get(statement)


def faults(law: Law) -> Iterator[str]:
    """What is wrong with the form of a law's comment."""
    if not law.kind:
        yield "begins with none of Theorem, Lemma and Example"
    items = sum(1 for block in blocks(law.lines) if block.number)
    if items > len(law.statements):
        yield f"has {items} items, and its contract {len(law.statements)} statements"


class Links:
    """The links of a page to its laws and crates: names in backticks become links."""

    def __init__(self, crates: Sequence[Crate]) -> None:
        self.crates = {crate.name for crate in crates}
        self.of_name: Dict[str, List[Law]] = {}
        for crate in crates:
            for law in crate.laws:
                self.of_name.setdefault(law.name, []).append(law)

    def find(self, name: str, crate: str) -> Optional[Law]:
        """The law of a name in a crate, or the only one of the name, or None."""
        laws = self.of_name.get(name, [])
        here = [law for law in laws if law.crate == crate]
        return here[0] if here else laws[0] if len(laws) == 1 else None

    def linked(self, text: str, here: Law) -> str:
        """A text with links from the names of other laws, and of crates with laws."""

        def link(found: "re.Match[str]") -> str:
            law = self.find(found[1], here.crate)
            if law and law != here:
                return f"[`{law.name}`](#{law.anchor})"
            return f"[`{found[1]}`](#{found[1]})" if found[1] in self.crates and found[1] != here.crate else found[0]

        return re.sub(r"`(\w+)`", link, safe(text))


def safe(text: str) -> str:
    """A text whose signs < begin no tag."""
    return re.sub(r"<(?=[a-zA-Z/!?])", "&lt;", text)


def upper(text: str) -> str:
    """A sentence with a capital at its start, unless it begins with a letter that names something."""
    return text[:1].upper() + text[1:] if re.match(r"[a-z]{2,}|a ", text) else text


def entry(crate: Crate, law: Law, links: Links, definitions: Definitions) -> str:
    """A law as an entry of the page."""
    parts: List[str] = []
    for index, block in enumerate(blocks(law.lines)):
        text = block.text
        if index == 0:
            opening = OPENING.match(text)
            if opening:
                text = f"**{opening[0].split(' (')[0].rstrip(':. ')}**{opening[2]}. {links.linked(upper(text[opening.end():]), law)}".rstrip()
        else:
            text = links.linked(text, law)
        is_next = block.number and parts and re.match(r"\d+\. ", parts[-1].split("\n")[-1])
        line = f"{block.number}. {text}" if block.number else text
        if is_next:
            parts[-1] += f"\n{line}"
        else:
            parts.append(line)
    names = ", ".join(f"<code>{name}</code>" for name in law.statements)
    word = "Statement" if len(law.statements) == 1 else "Statements"
    folded = [f"<details><summary>{word}: {names}</summary>"]
    for name in law.statements:
        item = statement(crate, name, definitions)
        folded += [f"<code>{name}</code>, in {item.path}:", f"```\n{item.body}\n```"]
    return "\n\n".join([f'<a id="{law.anchor}"></a>', f"### `{law.name}`", *parts, *folded, "</details>"])


def statement(crate: Crate, name: str, definitions: Definitions) -> Item:
    """The definition of a statement that a law of a crate names."""
    key = statement_key(crate, name)
    item = definitions.get(key) if key else None
    if item is None:
        raise ValueError(f"{crate.name}: no definition of the statement {name} is found")
    return item


def section(crate: Crate, links: Links, definitions: Definitions) -> str:
    """The theorems and examples of a crate, after its words, with links to its lemmas."""
    here = Law(crate.name, "", (), ())
    parts = [f"## `{crate.name}`", links.linked(crate.head, here), *(links.linked(text, here) for text in crate.words)]
    parts += [entry(crate, law, links, definitions) for law in crate.laws if law.kind != "Lemma"]
    lemmas = [f"[`{law.name}`](#{law.anchor})" for law in crate.laws if law.kind == "Lemma"]
    if lemmas:
        parts.append(f"Lemma{'s' if len(lemmas) > 1 else ''} of this crate: {', '.join(lemmas)}.")
    return "\n\n".join(parts)


def lemmas_of(crate: Crate, links: Links, definitions: Definitions) -> str:
    """The lemmas of a crate, or nothing."""
    entries = [entry(crate, law, links, definitions) for law in crate.laws if law.kind == "Lemma"]
    head = [f"## Lemmas of `{crate.name}`"]
    if crate.words:
        head.append(f"Their words are those of [`{crate.name}`](#{crate.name}).")
    return "\n\n".join([*head, *entries]) if entries else ""


def cited(text: str, links: Links) -> Iterator[Tuple[str, List[str]]]:
    """The titles of the numbered theorems of a page, each with links to the laws, or crates, that it names, once in all."""
    seen: Dict[str, None] = {}
    for line in text.split("\n"):
        title = re.match(r"\d+\. \*\*(.+?)\.?\*\*", line)
        found: List[str] = []
        for target, name in named(line, links):
            if title and target not in seen:
                seen[target] = None
                found.append(f"[`{name}`](#{target})" + (f" of `{target.partition('.')[0]}`" if len(links.of_name.get(name, ())) > 1 else ""))
        if title and found:
            yield title[1], found


def named(line: str, links: Links) -> Iterator[Tuple[str, str]]:
    """The laws that a line names, as anchor and name, and the crates that it names without a law of theirs."""
    crate, alone = "", ""
    for path, anchor, name in re.findall(r"(LAWS\.md#([\w.]+))|`(\w+)`", line):
        law = links.find(*reversed(anchor.split(".", 1))) if "." in anchor else links.find(name, crate) if name else None
        if law:
            alone = "" if law.crate == crate else alone
            yield law.anchor, law.name
        elif name in links.crates:
            if alone:
                yield alone, alone
            crate = alone = name
    if alone:
        yield alone, alone


def index(links: Links) -> str:
    """The theorems of CLAIMS with the laws that they cite, and the crates."""
    lines = [f"- {title}: {', '.join(found)}" for title, found in cited(CLAIMS.read_text("utf8"), links)]
    return "\n\n".join(["## Theorems that CLAIMS cites", "\n".join(lines)]) if lines else ""


def page(crates: Sequence[Crate]) -> str:
    """The page."""
    links, definitions = Links(crates), Definitions()
    kinds = [law.kind for crate in crates for law in crate.laws]
    parts = [INTRODUCTION.format(theorems=kinds.count("Theorem"), examples=kinds.count("Example"), lemmas=kinds.count("Lemma")), index(links)]
    parts.append("## Crates with laws\n\n" + ", ".join(f"[`{crate.name}`](#{crate.name})" for crate in crates))
    parts += [section(crate, links, definitions) for crate in crates]
    parts.append("# Lemmas\n\nEach serves one algorithm or one proof.")
    parts += [lemmas_of(crate, links, definitions) for crate in crates]
    return "\n\n".join(filter(None, parts)) + "\n"


def report(crates: Sequence[Crate]) -> int:
    """Prints each law whose comment has not the form that it should have, and in one line those that are long; returns how many fail."""
    failed = [f"{law.anchor} {fault}" for crate in crates for law in crate.laws for fault in faults(law)]
    for line in failed:
        print(line)
    long = [law.anchor for crate in crates for law in crate.laws if len(law.text.split()) > LONG]
    if long:
        print(f"note: {len(long)} laws have more than {LONG} words: {', '.join(long)}")
    return len(failed)


def written(path: Path, text: str, is_checked: bool) -> int:
    """Writes a page, or with `is_checked` compares it with its text. Returns the exit status: 1 if they differ."""
    if not is_checked:
        path.write_text(text, "utf8")
    elif not path.exists() or path.read_text("utf8") != text:
        print(f"{path.relative_to(TOP)} is not what {Path(sys.argv[0]).name} writes")
        return 1
    return 0


def main(is_checked: bool) -> int:
    """Writes the page, or checks it; returns the exit status."""
    crates = read_crates()
    if report(crates):
        return 1
    try:
        return written(PAGE, page(crates), is_checked)
    except ValueError as fault:
        print(fault)
        return 1


if __name__ == "__main__":
    sys.exit(main("--check" in sys.argv[1:]))

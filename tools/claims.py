#!/usr/bin/env python3
"""Compares the words of each law with its statements.

    tools/claims.py [LAW ..]

The words of a law are its doc comment and what the head of its crate defines. Its statements are those of its contract; an
abbreviation in one is followed up to LEVELS times. Reported is

- a premise of PREMISES in a statement that the words do not name
- "if and only if", "exactly one" or "at most one" in the comment that no statement states: both directions, existence and
  uniqueness, uniqueness
- a statement of both directions of which the comment says one alone

Each numbered theorem of docs/CLAIMS.md is held to the laws that it names in the same way, by the premises in OF_PAGES and by what
it says that no statement does. A law that a page names after its crate has to be one of the crate.

tools/claims_kept.txt has the cases that are right in another way, each with its reason. Without arguments all laws are compared;
the status is 1 if something is reported, or if a kept case is not reported any more.
"""
from __future__ import annotations

import functools
import re
import sys
from pathlib import Path
from typing import Dict, Iterator, List, NamedTuple, Pattern, Sequence

from definitions import WORD, Definitions, Item
from laws import CLAIMS, Crate, Law, Links, blocks, named, read_crates, statement
from repository import TOP

KEPT = TOP / "tools" / "claims_kept.txt"
# how often an abbreviation in a statement is followed
LEVELS = 2


class Premise(NamedTuple):
    """A premise: its name, what it is in a statement, and what names it in words."""

    name: str
    formal: Pattern[str]
    words: Pattern[str]


def premise(name: str, formal: str, words: str) -> Premise:
    """A premise by two patterns; the second one is for words in any case."""
    return Premise(name, re.compile(formal), re.compile(words, re.I))


# an index below the number of what it counts, which is only its type
INDEX = re.compile(r"\b[a-z][\w.]* < (?:\d \* |\d+ \* )?(?:length [\w.]+|[\w.]*\bcount|columns .*|\d|n|length \(.*\))(?=$|[ )])")
BOUND = r"at most|at least|below|above|<|>|exceed|within|up to|no more|fewer|positive|\d or \d"
# the premises that a sentence forgets most easily
PREMISES = (
    premise("coordinates", r"\bHasTriangles\b", r"standard (?:or|and) (?:in )?octagon|coordinates with triangles|octagon coordinates"),
    premise("not quad", r"coords ≢ Quad\b", r"standard (?:or|and) (?:in )?octagon"),
    premise("pairs of two columns", r"\bPairsAreOfTwoColumns\b|pair\.0 ≢ pair\.1", r"different columns"),
    premise("sphere or disc links", r"\bHasSphereAndDisc|\bIsSphereOrDisc\b", r"spheres? or (?:a )?discs?\b"),
    premise("no invalid edge", r"\bIsFirstInvalid \S+ None|\bHasValidEdges\b", r"invalid|valid edge"),
    premise("connected", r"\bIsConnected\b", r"\bconnected"),
    premise("not empty", r"\b0 < length rows|1 ≤ length rows", r"empty|at least one|\b1 to |>= 1\b|\b1 <= n|has a tetrahedron"),
    premise("closed", r"\bis_closed\b", r"\bclosed"),
    premise("orientable", r"\bIsOrientable\b", r"\borient"),
    premise("does not meet the boundary", r"meets_boundary .* ≡ false", r"meets? the boundary|meets no boundary|boundary"),
    premise("most tetrahedra", r"\bmax_tets\b", r"1,000|\b500\b"),
    premise("moves within the limit", r"\bPlays(?:All)?\b", r"within the limit|1,000|accepted"),
    premise("surface coordinates", r"\bIs(?:Connected)?Surface\b(?! \S+ (?:Standard|Octagon|Quad))", r"standard (?:or|and) (?:in )?octagon"),
    premise("standard coordinates", r"(?<!λ )\bStandard\b", r"standard|0-efficient"),
    premise("quad coordinates", r"(?<!≢ )(?<!columns )\bQuad\b", r"\bquad"),
    premise("octagon coordinates", r"\bOctagon\b", r"octagon"),
    premise("333 moves", r"≤ 333\b", r"\b333\b"),
    premise("order", r"\border ≢ Free\b", r"`given`.*`short`.*`zeros`"),
    premise("status 0", r"\bstatus ≡ Done\b", r"status 0|\bdone\b"),
    premise("text as written", r"\btable_text\b", r"as trinorm writes it|text of (?:T|a table)"),
    premise("length of the input", r"\bmost_bytes\b", r"1,048,576|1 MiB"),
    premise("nonzero", r"\bIsNonzero\b", r"nonzero|not 0\b|other than 0"),
    premise("canonical", r"\bIsCanonical\b", r"canonical"),
    premise("admissible", r"\bIsAdmissible", r"admissible|clash|contains? no pair|surface|fit\b"),
    premise("permutation of four", r"\bIsPermutationOfFour\b", r"permutations? of four|gluing"),
    premise("core", r"\bIsCore\b", r"\bcore\b|\bmove"),
    premise("symmetric", r"\bIsSymmetric\b", r"symmetric"),
    premise("injective", r"\bIsInjectiveBelow\b", r"injective"),
    premise("extreme", r"\bIs(?:Primitive)?Extreme\b", r"extreme"),
    premise("primitive", r"\bIsPrimitive(?:Extreme)?\b", r"primitive"),
    premise("vertex surface", r"\bIsVertexSurface(?:Of|By)?\b", r"vertex surface|listed"),
    premise("solution", r"\bIs(?:Standard|Octagon)?Solution\b", r"solution|solves?\b|surface|0 at"),
    premise("list", r"\b(?:IsSurfaceList(?:Of|By)?|IsListOfTable|AreListed|IsListed)\b", r"\blist|\bL\b|vertex surface"),
    premise("lift", r"\bIsLiftOf\b", r"\blift"),
    premise("vertex link", r"\b(?:IsVertexLink|HasLink|AreLinks)\b", r"\blink"),
    premise("component", r"\b(?:AreComponents|AreListedComponents|IsComponent)\b", r"\bcomponents?\b"),
    premise("positive Euler characteristic", r"\bIsPositive\b", r"positive"),
    premise("two-sided", r"\bIsTwoSided\b", r"\bsided|one-sided|two-sided"),
    premise("signature", r"\bIs(?:Component)?Signature\b", r"signature"),
    premise("isomorphic", r"\bAreIsomorphic\b", r"isomorphi"),
    premise("relabelling", r"\b(?:IsRelabelling|Relabels|Carries|IsAutomorphism)\b", r"relabelling|automorphism|isomorphi"),
    premise("move", r"\b(?:IsMoved|PlaysAll|Plays)\b", r"\bmoves?\b"),
    premise("certificate", r"\b(?:IsCertificate|IsMade)\b", r"certificate|makes|made"),
    premise("descent", r"\bIs(?:Descent|Descended)\b", r"descent"),
    premise("crushed", r"\b(?:IsCrushed|IsCrushedAlong|CrushesTo)\b", r"crush"),
    premise("permutation", r"\bIsPermutation\b", r"order|permutation|reordered|all rows"),
    premise("presentation", r"\bIsPresentation\b", r"presentation"),
    premise("limit of numbers", r"≤ (?:e\.)?limit\b|≤ most\b|\bmost ≤", r"limit|2\^127|greatest|most\b"),
    premise("bound", r"(?<![-=])[<≤](?!-)", BOUND),
)
# those that a theorem on a page names too; coordinates are often those of its section
OF_PAGES = ("pairs of two columns", "sphere or disc links", "no invalid edge", "connected", "not empty", "closed", "orientable",
            "does not meet the boundary", "most tetrahedra", "order", "length of the input")
CITED = re.compile(r"`(\w+_(?:laws|definitions))`(?:\\\*)?: (`\w+`(?:, `\w+`)*)")


class Report(NamedTuple):
    """Something that is reported: the law, what its words lack, and the statement."""

    law: str
    fault: str
    statement: str

    def line(self) -> str:
        """The line of the report, as tools/claims_kept.txt has it before the reason."""
        return f"{self.law}: {self.fault}"


def split_arrows(text: str) -> List[str]:
    """The parts of a formula between its outermost arrows; the last one is the conclusion."""
    parts, depth = [""], 0
    for sign in text:
        depth += (sign in "([{") - (sign in ")]}")
        if sign == "→" and depth == 0:
            parts.append("")
        else:
            parts[-1] += sign
    return [" ".join(part.split()) for part in parts]


def formulas(item: Item) -> List[str]:
    """What a definition says: the right-hand side of an abbreviation, or the fields of a record."""
    head, _, rest = item.body.partition("\n")
    if head.startswith("abbrev"):
        equations = re.split(rf"(?m)^{re.escape(item.name)}\b[^=\n]*=", rest)
        return [part for part in equations if part.strip()]
    return [re.sub(r"^\s*(?:pub )?\S+ : ", "", line) for line in re.split(r"\n(?=  (?:pub )?\w+ : )", item.body)[1:]]


# stands among the conclusions for a record, which says that there are values of its fields
HAS_FIELDS = "(fields : Record) × .."


class Said(NamedTuple):
    """What a statement says: its premises, its conclusions, and the text of these with the definitions that they name."""

    premises: List[str]
    conclusions: List[str]
    text: str


@functools.lru_cache(maxsize=None)
def said(item: Item, definitions: Definitions, levels: int = LEVELS) -> Said:
    """What a statement says. Its conclusion may be an abbreviation, whose premises and conclusions are then those of the statement."""
    premises: List[str] = []
    conclusions: List[str] = []
    texts: List[str] = []
    for formula in formulas(item):
        *before, conclusion = split_arrows(formula)
        premises += before
        conclusions.append(conclusion)
        texts.append(conclusion)
        for below in named_in(conclusion, item, definitions) if levels else ():
            more = said(below, definitions, levels - 1)
            texts.append(f"{below.body}\n{more.text}")
            if below.body.startswith("abbrev"):
                premises += more.premises
            if "↔" not in conclusion:
                conclusions += more.conclusions if below.body.startswith("abbrev") else [HAS_FIELDS, *more.conclusions]
    return Said(premises, conclusions, "\n".join(texts))


def named_in(text: str, item: Item, definitions: Definitions) -> Iterator[Item]:
    """The definitions that a text in the file of a definition names."""
    for word in dict.fromkeys(WORD.findall(text)):
        key = definitions.refers(item.crate, item.file, word)
        below = definitions.get(key) if key else None
        if below is not None and below != item:
            yield below


def binders_removed(premises: Sequence[str]) -> str:
    """Premises without the types of what is given, and without the ranges of indices."""
    return " → ".join(INDEX.sub("", re.sub(r"\((?:[\w' ]+) : [^()]*\)", "", part)) for part in premises)


def missing_premises(words: str, found: Said) -> Iterator[str]:
    """The premises that a statement has and words do not name."""
    text = binders_removed(found.premises)
    for one in PREMISES:
        if one.formal.search(text) and not one.words.search(words):
            yield f"premise {one.name}"


def is_both_ways(text: str) -> bool:
    """Whether a text states both directions."""
    return "↔" in text


def exists(found: Said) -> bool:
    """Whether a statement says that there is something: a pair with its first member, or a record with fields."""
    return any(re.match(r"\((?:[\w' ]+) : ", conclusion) for conclusion in found.conclusions)


def is_unique(found: Said) -> bool:
    """Whether a statement says that two things are equal."""
    return any("≡" in conclusion for conclusion in found.conclusions)


def unstated(words: str, found: Sequence[Said]) -> Iterator[str]:
    """What the words of a law say that none of its statements does. Exactly one is also a count that is 1, as that of components."""
    if re.search(r"if and only if", words) and not any(is_both_ways(one.text) for one in found):
        yield "says if and only if"
    is_counted = any(re.search(r"≡ 1\b|\bcomponents 1\b", one.text) for one in found)
    if re.search(r"\bexactly one\b|\bunique\b", words) and not is_counted and not (any(map(exists, found)) and any(map(is_unique, found))):
        yield "says exactly one"
    if re.search(r"\bat most one\b|\bonly one\b", words) and not any(map(is_unique, found)):
        yield "says at most one"


def reports(crate: Crate, law: Law, definitions: Definitions) -> Iterator[Report]:
    """What the words of a law lack, or say too much."""
    items = [statement(crate, name, definitions) for name in law.statements]
    found = [said(item, definitions) for item in items]
    words = " ".join([law.text, *crate.words])
    for item, one in zip(items, found):
        for fault in missing_premises(words, one):
            yield Report(law.anchor, fault, item.name)
        if is_both_ways(item.body) and not re.search(r"if and only if|exactly|the one\b", law.text):
            yield Report(law.anchor, "states both directions", item.name)
    for fault in unstated(law.text, found):
        yield Report(law.anchor, fault, "")
    parts = [block.text for block in blocks(law.lines) if block.number]
    if len(parts) == len(items):
        for part, item, one in zip(parts, items, found):
            for fault in unstated(part, [one]):
                yield Report(law.anchor, fault, item.name)


def miscited(text: str, top: Path = TOP) -> Iterator[str]:
    """The laws, or fields of their statements, that a page names after a crate, and that the crate does not have."""
    for crate, names in CITED.findall(text):
        sources = "\n".join(path.read_text("utf8") for pattern in ("src/lib.rt", "specs/*.antt") for path in (top / "crates" / crate).glob(pattern))
        known = re.findall(r"(?m)^(?:pub fn|  pub) (\w+)", sources)
        yield from (f"{crate} has no law {name}" for name in re.findall(r"\w+", names) if name not in known)


def reports_of_theorem(line: str, links: Links, crates: Dict[str, Crate], definitions: Definitions) -> Iterator[Report]:
    """What a numbered theorem of CLAIMS lacks, or says too much, beside the laws that it names."""
    title = re.match(r"\d+\. \*\*(.+?)[.,]?\*\*", line)
    if not title:
        return
    place = f"{CLAIMS.name}, {title[1]}"
    words = line.replace("(S)", "sphere or disc links").replace(" iff ", " if and only if ").replace("≤", "<=").replace("≥", ">=")
    laws = [law for anchor, _ in named(line, links) for law in links.of_name.get(anchor.partition(".")[2], []) if law.anchor == anchor]
    found = [(name, said(statement(crates[law.crate], name, definitions), definitions)) for law in laws for name in law.statements]
    for name, one in found:
        for fault in missing_premises(words, one):
            if fault.partition(" ")[2] in OF_PAGES:
                yield Report(place, fault, name)
    if found:
        yield from (Report(place, fault, "") for fault in unstated(words, [one for _, one in found]))


def kept() -> Dict[str, str]:
    """The cases of tools/claims_kept.txt, each with its reason."""
    lines = KEPT.read_text("utf8").split("\n") if KEPT.exists() else []
    parted = (line.partition(" # ") for line in lines if line.strip() and not line.startswith("#"))
    return {case.strip(): reason.strip() for case, _, reason in parted}


def main(names: Sequence[str]) -> int:
    """Prints what is reported, and returns the exit status."""
    definitions, known, crates = Definitions(), kept(), read_crates()
    laws = [(crate, law) for crate in crates for law in crate.laws if not names or law.anchor in names or law.name in names]
    missing = [name for name in names if not any(name in (law.anchor, law.name) for _, law in laws)]
    if missing:
        print(f"there is no law {missing[0]}")
        return 1
    found = list(dict.fromkeys(report for crate, law in laws for report in reports(crate, law, definitions)))
    wrong = []
    if not names:
        links, by_name = Links(crates), {crate.name: crate for crate in crates}
        for line in CLAIMS.read_text("utf8").split("\n"):
            found += list(dict.fromkeys(reports_of_theorem(line, links, by_name, definitions)))
        wrong = [f"{path.name}: {fault}" for path in sorted(CLAIMS.parent.glob("*.md")) for fault in miscited(path.read_text("utf8"))]
    print(end="".join(f"{line}\n" for line in wrong))
    shown = [report for report in found if report.line() not in known]
    for report in shown:
        print(f"{report.line()} ({report.statement})" if report.statement else report.line())
    unused = [] if names else sorted(set(known) - {report.line() for report in found})
    for case in unused:
        print(f"{KEPT.name}: not reported any more: {case}")
    return 1 if shown or unused or wrong else 0


if __name__ == "__main__":
    sys.exit(main(sys.argv[1:]))

#!/usr/bin/env python3
"""Lists lemmas, definitions and functions that are written more than once.

    tools/twice.py [--changed BASE | --check]

Lemmas are compared by their whole statement, definitions by statement and clauses, functions by parameters, result and body.
Names that an item binds itself do not count. A word that is imported, or defined in the file, counts by where it comes from, so
two items are in one group only if their words mean the same; words that are copies of each other count as equal. --changed
prints only the groups with a file that differs from the commit BASE. Two statements may be the same today for reasons of their
own: tools/twice_kept.txt has such groups, each with its reason. --check prints the other groups, and the reasons of groups that
are gone, and ends with 1 if there are any.
"""
from __future__ import annotations

import argparse
import re
import sys
from collections import defaultdict
from pathlib import Path
from typing import Dict, FrozenSet, Iterator, List, NamedTuple, Sequence, Set, Tuple

from refusals import code_of, end_of_block, functions_of
from repository import TOP, git, tracked

KEPT = TOP / "tools" / "twice_kept.txt"
WORD = re.compile(r"[A-Za-z_][A-Za-z_0-9'\-]*(?<!-)|\d+|\S")
HEAD = re.compile(r"(?:(?:abbrev|unfoldable|opaque|pub|record|data) )*([^\s:(){}]+)")
# answers to goals have the names and the statements that the prover asks for
ANSWERS = ("Answers.antt", "Invariants.antt")
LEAST_WORDS = 12
# how a result begins or what it holds if it is a proposition, whose proof does not matter
PROPOSITION = re.compile(r"[≡≤<∣∈↔⊎×¬⊥+∥]|^\(?(?:Is|Are|Has|Can|All|Any|Contains|If|On)")
Place = Tuple[str, str]


class Item(NamedTuple):
    """A lemma, a definition or a function: its file, its name, the kind of its file, and its words, in which those that it binds
    are numbered by their first occurrence. `origins` says where the other words come from."""

    path: str
    name: str
    kind: str
    words: Sequence[str]
    origins: Dict[str, str]

    def place(self) -> Place:
        return self.path, self.name


def numbered(text: str, bound: Set[str], name: str) -> List[str]:
    """The words of a text, with numbers for those that are bound."""
    order: Dict[str, str] = {name: "ITSELF"}
    return [order.setdefault(word, f"%{len(order)}") if word in bound or word == name else word for word in WORD.findall(text)]


def split_names(listed: str) -> Iterator[Tuple[str, str]]:
    """The names of a list like `a, b as c`: each with the name under which it is used."""
    for part in listed.split(","):
        name, _, used = part.strip().partition(" as ")
        if name:
            yield name.strip(), (used or name).strip()


def origins_of(text: str, path: str) -> Dict[str, str]:
    """Where the words that a file imports come from, by the name under which it uses them."""
    crate = path.split("/")[1]
    found: Dict[str, str] = {}
    for place, listed in re.findall(r"(?m)^(?:ghost |pub )*use ([\w.:]+?)(?:\.|::)\{([^}]*)\}", text):
        home = re.sub(r"^(?:crate|self)\b", crate, place).replace("::", ".")
        found.update({used: f"{home}.{name}" for name, used in split_names(listed)})
    for place, name in re.findall(r"(?m)^(?:ghost |pub )*use ([\w.:]+?)(?:\.|::)(\w+);?$", text):
        found[name] = re.sub(r"^(?:crate|self)\b", crate, place).replace("::", ".") + f".{name}"
    for name in re.findall(r"(?m)^(?:abbrev |unfoldable |opaque |pub |record |data |const |static |fn |struct |enum |type )*([^\s:(){}<]+)", text):
        found.setdefault(name, f"{module_of(path)}.{name}")
    return found


def module_of(path: str) -> str:
    """The module of a file of specs/ or proofs/, as an import names it, or the path of a file of src/."""
    return "Rattle." + path[len("crates/"):-len(".antt")].replace("/", ".") if path.endswith(".antt") else path


def is_definition(statement: str, path: str, kind: str) -> bool:
    """Whether an item is compared by its clauses too: it is an abbreviation, one of specs/, or its result is no proposition."""
    return "abbrev" in kind or "/specs/" in path or not PROPOSITION.search(statement.rpartition("→")[2].strip())


def items_of_theory(text: str, path: str) -> Iterator[Item]:
    """The lemmas or definitions of a file of specs/ or proofs/."""
    origins, blocks = origins_of(text, path), re.split(r"\n(?=\S)", text)
    for at, block in enumerate(blocks):
        head = HEAD.match(block)
        if head is None or head[1] == "use" or not re.match(r"[^=]*?\s:\s", block):
            continue
        name, statement = head[1], block[head.end():]
        for clause in blocks[at + 1:] if is_definition(statement, path, block[:head.start(1)]) else []:
            if not clause.startswith(f"{name} "):
                break
            statement += f" ; {clause}"
        groups = re.findall(r"[({]([^(){}:]+?)\s*:|λ ([^.]+)\.", statement)
        bound = {word for group in groups for word in " ".join(group).split()}
        for clause in re.findall(rf"; {re.escape(name)} ([^=]*)=", statement) if f"; {name} " in statement else []:
            bound.update(re.findall(r"\b[a-z]\w*'?", clause))
        yield Item(path, name, block[:head.start(1)].replace("pub ", "") + path.split("/")[2], numbered(statement, bound, name), origins)


def functions(text: str, path: str) -> Iterator[Item]:
    """The functions of a file of src/."""
    origins, ends = origins_of(text, path), {head[1]: head.end() for head in reversed([*re.finditer(r"\bfn (\w+)", text)])}
    for function in functions_of(text):
        if not function.body:
            continue
        opened = text.index("(", ends[function.name])
        signature = text[opened:end_of_block(text, opened)]
        binders = r"[(,]\s*(?:mut )?(\w+)\s*:|\blet (?:mut )?(\w+)|\bfor (\w+) in|\|(\w+)\||\b(?:Some|Ok|Err)\((\w+)\)"
        bound = {word for found in re.findall(binders, signature + function.body) for word in found if word}
        is_named = f"{function.name}(" in function.body  # which a pattern of its own would take far longer to say
        calls_itself = is_named and re.search(rf"(?<![.:\w]){function.name}\(", function.body)
        yield Item(path, function.name, "src", numbered(f"{signature} {function.body}", bound, function.name if calls_itself else ""), origins)


def items_of(top: Path, paths: Sequence[str]) -> List[Item]:
    """The items of the sources among some paths."""
    found: List[Item] = []
    for path in paths:
        if re.fullmatch(r"crates/\w+/(?:specs|proofs)/.*\.antt", path) and not path.endswith(ANSWERS):
            found += items_of_theory(code_of(top / path), path)
        elif re.fullmatch(r"crates/\w+/src/.*\.rt", path):
            found += functions(code_of(top / path), path)
    return [item for item in found if len(item.words) >= LEAST_WORDS]


def groups_of(items: Sequence[Item]) -> List[List[Item]]:
    """The items in groups of those that are the same. A word that names an item of a group counts by its group, so copies that
    name copies are in one group too."""
    known = [(item, [item.kind, *(item.origins.get(word, word) for word in item.words)]) for item in items]
    copies: Dict[str, str] = {}
    count = -1
    while True:
        groups: Dict[Tuple[str, ...], List[Item]] = defaultdict(list)
        for item, words in known:
            groups[tuple([copies.get(word, word) for word in words])].append(item)
        if len(groups) == count:
            return sorted((group for group in groups.values() if len(group) > 1), key=lambda group: (-len(group), group[0].place()))
        count = len(groups)
        repeated = [group for group in groups.values() if len(group) > 1]
        copies = {f"{module_of(item.path)}.{item.name}": f"&{number}" for number, group in enumerate(repeated) for item in group}


def kept_groups(text: str) -> Dict[FrozenSet[str], str]:
    """The groups that are kept: paragraphs of a line `PATH: NAME` for each item, and then the reason."""
    found: Dict[FrozenSet[str], str] = {}
    for paragraph in re.split(r"\n{2,}", text.strip()):
        lines = [line for line in paragraph.split("\n") if not line.startswith("#")]
        items = [line for line in lines if re.fullmatch(r"crates/\S+: \S+", line)]
        if items:
            found[frozenset(items)] = " ".join(lines[len(items):])
    return found


def items_in(group: Sequence[Item]) -> List[str]:
    """The items of a group, as tools/twice_kept.txt has them."""
    return [f"{item.path}: {item.name}" for item in group]


def unexplained(groups: Sequence[Sequence[Item]], kept: Dict[FrozenSet[str], str]) -> List[str]:
    """What is wrong: groups without a reason, and reasons of groups that are gone."""
    names = [items_in(group) for group in groups]
    found = {frozenset(items) for items in names}
    gone = [sorted(items) for items in kept if items not in found]
    new = [f"{len(items)} times the same: {', '.join(items)}" for items in names if not kept.get(frozenset(items))]
    return new + [f"no longer the same: {', '.join(items)}" for items in gone]


def main() -> int:
    parser = argparse.ArgumentParser(description="Lists what is written more than once.")
    parser.add_argument("--changed", metavar="BASE", help="only groups with a file that differs from this commit")
    parser.add_argument("--check", action="store_true", help="only groups without a reason in tools/twice_kept.txt; 1 if there are any")
    given = parser.parse_args()
    paths = [path.relative_to(TOP).as_posix() for path in tracked(TOP, "crates")]
    groups = groups_of(items_of(TOP, paths))
    if given.check:
        wrong = unexplained(groups, kept_groups(KEPT.read_text("utf8")))
        print("\n".join(wrong), end="\n" if wrong else "")
        return 1 if wrong else 0
    touched = set((git(TOP, "diff", "--name-only", given.changed) or "").split("\n")) if given.changed else set(paths)
    groups = [group for group in groups if any(item.path in touched for item in group)]
    for group in groups:
        print(f"{len(group)} times the same: {', '.join(items_in(group))}")
    print(f"{len(groups)} groups, {sum(len(group) - 1 for group in groups)} copies")
    return 0


if __name__ == "__main__":
    sys.exit(main())

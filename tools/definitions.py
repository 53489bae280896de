"""The definitions in `specs/` of the crates: where a name comes from, and its text with its comment."""
from __future__ import annotations

import re
from pathlib import Path
from typing import Dict, Iterator, List, NamedTuple, Optional, Tuple

from repository import TOP

Key = Tuple[str, str, str]
HEAD = re.compile(r"^(?:pub |abbrev |unfoldable |computed |opaque )*(?:record |data )?([^\s:({]+)")
USE = re.compile(r"^(?:pub |ghost )*use Rattle\.([\w.]+?)(?:\.\{(.*)\}| as (\w+))?;?$", re.M)
WORD = re.compile(r"[^\s(){}\[\],;.]+(?:\.[a-zA-Z_]\w*)?")


class Item(NamedTuple):
    """A definition: its crate, its file, its name, its comment, its text without it, and the names that it uses."""

    crate: str
    file: str
    name: str
    comment: str
    body: str
    words: Tuple[str, ...]

    @property
    def text(self) -> str:
        """The definition, after its comment."""
        return f"{self.comment}\n{self.body}" if self.comment else self.body

    @property
    def path(self) -> str:
        """The file of the definition, from the top of the repository."""
        return f"crates/{self.crate}/specs/{self.file.replace('.', '/')}.antt"


class Names:
    """What each name of a file refers to: a definition of this repository, or a word of the standard library."""

    def __init__(self, text: str) -> None:
        self.items: Dict[str, Key] = {}
        self.modules: Dict[str, Tuple[str, str]] = {}
        self.library: Dict[str, str] = {}
        for path, names, alias in USE.findall(text):
            crate, _, file = path.partition(".specs.")
            if alias:
                self.modules[alias] = (crate, file)
            for part in (part.strip() for part in names.split(",") if part.strip()):
                first, _, other = part.partition(" as ")
                if crate == "std":
                    self.library[other or first] = first
                else:
                    self.items[other or first] = (crate, file, first)


def paragraphs(text: str) -> Iterator[str]:
    """The paragraphs of a file that are definitions, each with the comment directly before it."""
    for part in re.split(r"\n\s*\n", text):
        lines = [line for line in part.split("\n") if line and not line.startswith("use ")]
        if any(not line.startswith("--") for line in lines):
            yield "\n".join(lines)


class Definitions:
    """The definitions in `specs/` of the crates below `top`, by crate, file and name, read when they are first asked for."""

    def __init__(self, top: Path = TOP) -> None:
        self.top = top
        self.found: Dict[Key, Item] = {}
        self.names: Dict[Tuple[str, str], Names] = {}

    def get(self, key: Key) -> Optional[Item]:
        """The definition of a crate, a file and a name, or None."""
        self.load(key[0], key[1])
        return self.found.get(key)

    def load(self, crate: str, file: str) -> None:
        """Reads a file of a crate, once."""
        if (crate, file) in self.names:
            return
        path = self.top / "crates" / crate / "specs" / f"{file.replace('.', '/')}.antt"
        text = path.read_text("utf8") if path.exists() else ""
        self.names[crate, file] = Names(text)
        for part in paragraphs(text):
            self.add(crate, file, part)

    def add(self, crate: str, file: str, part: str) -> None:
        """Adds the definitions of one paragraph; several may follow each other under one comment."""
        comment: List[str] = []
        body: List[str] = []
        for line in part.split("\n") + ["abbrev"]:
            begins = re.match(r"^(abbrev|unfoldable|computed|pub|record|data)\b", line)
            if begins and body:
                self.put(crate, file, comment, body)
                comment, body = [], []
            if line.startswith("--") and not body:
                comment.append(line)
            elif line != "abbrev":
                body.append(line)

    def put(self, crate: str, file: str, comment: List[str], body: List[str]) -> None:
        """Adds one definition."""
        head = HEAD.match(body[0])
        if head:
            words = tuple(dict.fromkeys(WORD.findall("\n".join(body))))
            self.found[crate, file, head.group(1)] = Item(crate, file, head.group(1), "\n".join(comment), "\n".join(body), words)

    def refers(self, crate: str, file: str, word: str) -> Optional[Key]:
        """The definition of this repository that a word of a file refers to, or None."""
        self.load(crate, file)
        names = self.names[crate, file]
        first, _, rest = word.partition(".")
        if first in names.modules and rest:
            return (*names.modules[first], rest)
        if first in names.items:
            return names.items[first]
        return (crate, file, first) if (crate, file, first) in self.found else None

    def uses(self, item: Item) -> Iterator[Key]:
        """The definitions of this repository that a definition uses."""
        for word in item.words:
            key = self.refers(item.crate, item.file, word)
            if key is not None and key != (item.crate, item.file, item.name):
                yield key

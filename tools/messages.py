#!/usr/bin/env python3
"""Checks the texts that users read outside the pages: help, hints, errors, and the page in a browser.

    tools/messages.py [--check] [--list]

A text has none of the words in PRIVATE, which a reader does not know, or knows with another meaning. The texts are the strings
of more than one word in the package, the launcher, the browser page, the library and the examples; the sentences of hints.txt,
commands.txt and words.json; what the C header and the Rust crate say of themselves; and the help of the tools. Fields in braces, and names
and examples in backticks, are left out.

Printed is each text that has such a word, with its place. --list prints every text instead. With --check the exit status is 1
if a text is refused.
"""
from __future__ import annotations

import argparse
import ast
import re
import sys
from pathlib import Path
from typing import Callable, Iterator, NamedTuple, Pattern, Sequence, Set, Tuple

from repository import TOP

# words with what to write instead. Words of the output (inner, linking, clash, large, turns) are not among them, nor words
# that have a usual meaning besides, as `fit`, `part` and `sum`.
PRIVATE: Sequence[Tuple[str, str]] = (
    (r"answers", "prints, returns; results"), (r"asked", "called, sent"), (r"words?", "argument, command line"),
    (r"documents?", "input"), (r"spell(?:s|ed|ing)?|spelt", "be the text of, describe"), (r"room|lend(?:s|ing)?|lent", "buffer, provide"),
    (r"handfuls?", "batch"), (r"(?:goes|go|compared?) by sums|sums? of (?:the|a|its|all) (?:file|program|source)s?", "checksum"),
    (r"(?<!merge )gate", "merge gate"), (r"edits?|planted|worked (?:rows?|examples?)", "must-fail test, mutated body, stored example"),
    (r"pieces?", "normal disc"), (r"by its numbers", "as far as its invariants show"), (r"told|tells?|says?", "reports, prints"),
    (r"comes|goes on|stands?|(?:is|are|isn't|aren't) there", "arrives, resumes, is, exists"), (r"wants?|wanted", "need, expected"),
    (r"passes|past|pass(?:ed|es)? over", "exceeds; ignore, skip"), (r"parted", "separated"), (r"beside|behind|in front", "besides, after, before"),
    (r"(?<!there )(?:is|are) (?:none|no)", "is not a"), (r"engines?", "executor"),
)
REFUSED = re.compile("|".join(rf"(?<![\w-])(?:{words})(?![\w-])" for words, _ in PRIVATE), re.I)
# where such a word has its usual meaning
USUAL = re.compile(r"\d+ words")
# fields, names and examples
LEFT_OUT = re.compile(r"\\?`[^`]*`|\$?\{[^{}]*\}|\$\w+|--[\w-]+|[\w./-]*[/_.][\w./-]+")


class Text(NamedTuple):
    """A text that users read, with its file and line."""

    path: str
    line: int
    text: str

    def words(self) -> Sequence[str]:
        """The private words that the text has."""
        return [found[0] for found in REFUSED.finditer(USUAL.sub("..", LEFT_OUT.sub("0", self.text)))]


Found = Iterator[Tuple[int, str]]


# ---- Python

def _docstrings(tree: ast.AST) -> Set[ast.AST]:
    """The docstrings, and other strings that are statements of their own."""
    return {node.value for node in ast.walk(tree) if isinstance(node, ast.Expr) and isinstance(node.value, ast.Constant)}


def _text_of(node: ast.AST) -> str:
    """The text of a string, with `{}` for the fields of an f-string; empty if the node is not a string."""
    if isinstance(node, ast.Constant) and isinstance(node.value, str):
        return node.value
    if isinstance(node, ast.JoinedStr):
        return "".join(_text_of(part) if isinstance(part, ast.Constant) else "{}" for part in node.values)
    return ""


def _strings(node: ast.AST, left_out: Set[ast.AST]) -> Found:
    """The strings in a node, an f-string as one."""
    if node in left_out:
        return
    text = _text_of(node)
    if text:
        yield node.lineno, text
    for child in ast.iter_child_nodes(node):
        if not (isinstance(node, ast.JoinedStr) and isinstance(child, ast.Constant)):
            yield from _strings(child, left_out)


def of_python(source: str) -> Found:
    """The strings of a module without its docstrings."""
    tree = ast.parse(source)
    yield from _strings(tree, _docstrings(tree))


def of_errors(source: str) -> Found:
    """The strings and the docstrings of a module: `help` shows these of an exception, and an editor."""
    yield from _strings(ast.parse(source), set())


def of_help(source: str) -> Found:
    """What a tool prints if it is called with --help."""
    for node in ast.walk(ast.parse(source)):
        if isinstance(node, ast.keyword) and node.arg in ("help", "description", "epilog"):
            yield from _strings(node.value, set())


# ---- other languages

QUOTED_C = re.compile(r'"((?:[^"\\\n]|\\.)*)"')
QUOTED_SHELL = re.compile(r"""'([^'\n]*)'|"((?:[^"\\\n]|\\.)*)\"""")
QUOTED_JS = re.compile(r"""//[^\n]*|/\*.*?\*/|'((?:[^'\\\n]|\\.)*)'|`((?:[^`\\]|\\.)*)`|"((?:[^"\\\n]|\\.)*)\"""", re.S)


def _quoted(source: str, pattern: Pattern[str]) -> Found:
    for found in pattern.finditer(source):
        text = next((group for group in found.groups() if group), "")
        if text:
            yield source.count("\n", 0, found.start()) + 1, text


def _without_lines(source: str, start: str) -> str:
    """A source with an empty line for each that begins so, as comments do."""
    return "\n".join("" if line.lstrip().startswith(start) else line for line in source.split("\n"))


def of_c(source: str) -> Found:
    """The strings of a program in C."""
    code = re.sub(r"/\*.*?\*/", lambda found: "\n" * found[0].count("\n"), source, flags=re.S)
    yield from _quoted(_without_lines(_without_lines(code, "//"), "#include"), QUOTED_C)


def of_header(source: str) -> Found:
    """The comments of a header, which users read."""
    for found in re.finditer(r"/\*(.*?)\*/", source, re.S):
        yield source.count("\n", 0, found.start()) + 1, re.sub(r"\n \* ", " ", found[1]).strip()


def of_shell(source: str) -> Found:
    """The strings of a script for a shell."""
    yield from _quoted(_without_lines(source, "#"), QUOTED_SHELL)


def of_awk(source: str) -> Found:
    """The strings of a script for awk."""
    yield from _quoted(_without_lines(source, "#"), QUOTED_C)


def of_rust(source: str) -> Found:
    """The strings of a crate, and the comments that its documentation shows."""
    code = source.partition("#[cfg(test)]")[0]
    for found in re.finditer(r"^ *//[/!] ?(.*)$", code, re.M):
        yield code.count("\n", 0, found.start()) + 1, found[1]
    yield from _quoted(_without_lines(code, "//"), QUOTED_C)


def of_javascript(source: str) -> Found:
    """The strings of a script of the browser page."""
    yield from _quoted(source, QUOTED_JS)


def of_html(source: str) -> Found:
    """The texts of a page in HTML."""
    for found in re.finditer(r">([^<>]+)<|(?:title|aria-label|placeholder)=\"([^\"]*)\"", source):
        yield source.count("\n", 0, found.start()) + 1, (found[1] or found[2]).strip()


def of_table(source: str) -> Found:
    """The last field of each line of a table."""
    for number, line in enumerate(source.split("\n"), 1):
        if line and not line.startswith("#"):
            yield number, line.split("\t")[-1]


def of_words(source: str) -> Found:
    """The sentences of the words that are explained, in the lines of a table in JSON."""
    for number, line in enumerate(source.split("\n"), 1):
        if line.startswith('    "'):
            yield number, line.partition('": "')[2].rstrip('",')


PLACES: Sequence[Tuple[str, Callable[[str], Found]]] = (
    ("python/trinorm/errors.py", of_errors), ("python/trinorm/*.py", of_python), ("tools/pages.py", of_python), ("tools/*.py", of_help),
    ("python/trinorm/hints.txt", of_table), ("python/trinorm/commands.txt", of_table), ("python/trinorm/words.json", of_words),
    ("trinorm", of_shell), ("launcher/*.sh", of_shell),
    ("launcher/*.awk", of_awk), ("examples/*.sh", of_shell), ("examples/*.py", of_python), ("library/*.c", of_c), ("library/trinorm.h", of_header),
    ("library/rust/trinorm/src/lib.rs", of_rust), ("library/rust/trinorm/build.rs", of_rust),
    ("web/*.js", of_javascript), ("web/node/*.js", of_javascript), ("web/*.html", of_html),
)


def shown(text: str) -> str:
    """What a reader sees of a string: of a script, which begins with a comment, the comments."""
    return "\n".join(line for line in text.split("\n") if line.startswith("#")) if text.startswith("#") and "\n" in text else text


def is_read(text: str) -> bool:
    """Whether a string is a text for readers, of more than one word."""
    return re.search(r"[A-Za-z]\S* +\S*[A-Za-z{$`]", text) is not None


def texts(top: Path) -> Iterator[Text]:
    """The texts that users read, each once."""
    seen: Set[str] = set()
    for pattern, read in PLACES:
        for path in sorted(top.glob(pattern)):
            name = path.relative_to(top).as_posix()
            if name not in seen:
                yield from (Text(name, line, shown(text)) for line, text in read(path.read_text("utf8")) if is_read(text))
            seen.add(name)


def main() -> int:
    """Prints the texts with a private word, and returns the exit status."""
    parser = argparse.ArgumentParser(description="Checks the texts that users read outside the pages.")
    parser.add_argument("--check", action="store_true", help="end with 1 if a text has a private term")
    parser.add_argument("--list", action="store_true", help="print every text")
    given = parser.parse_args()
    every = list(texts(TOP))
    if given.list:
        for text in every:
            print(f"{text.path}:{text.line}: {text.text!r}")
        return 0
    refused = [text for text in every if text.words()]
    for text in refused:
        print(f"{text.path}:{text.line}: {', '.join(text.words())}: {text.text!r}")
    return 1 if given.check and refused else 0


if __name__ == "__main__":
    sys.exit(main())

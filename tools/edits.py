#!/usr/bin/env python3
"""Looks at the edits that the prover must refuse, `crates/*/must-fail/*.edit`.

    tools/edits.py [--counts] [--must-fail] [--notes] [LOG]

Without LOG it checks in seconds that each edit has whole pairs `old:` and `new:`, that each text `old:` occurs once in its
file, that the edit changes code and no contract and no definition, that the edited file parses, that each wrong body of
tools/wrong_bodies.txt has its edit, and that the edits of tools/edits_told_apart.txt are there. The last line counts apart
those that change no answer of the program. --counts prints how many edits each crate has.

LOG is the output of `rt ci` (a file, or - for standard input). Each edit needs a line there that the prover refused it, for
its contract. Named are also edits that could not be compiled or read (BAD EDIT), that were not tried (NOT TRIED), that are
still proved (NOT REFUSED), that are refused only because a proof file names what the edit took away, and that are refused
only by a limit of the prover. The last line has to say that nothing failed. `rt must-fail` prints no such line: --must-fail
says that LOG is its output. An edit refused for a name alone is a note, and is not counted, if tools/edits_told_apart.txt
keeps it. With --notes those are notes too that are refused by a limit: the prover has refused them, and where its limits
lie is not the same in each run.

The exit status is 1 if something is named, and 0 otherwise.
"""
from __future__ import annotations

import argparse
import collections
import re
import shutil
import subprocess
import sys
import tempfile
from pathlib import Path
from typing import Dict, Iterable, Iterator, List, NamedTuple, Optional, Set

from refusals import kind
from repository import TOP

REFUSED = "refused, as it must be"
# what `rt` says of an edit that shows nothing of the contracts
NAME_ALONE, BY_A_LIMIT = "only because a proof file names", "only by a limit of the prover"
SHOWS_NOTHING = ("BAD EDIT", "NOT TRIED", "NOT REFUSED", NAME_ALONE, BY_A_LIMIT)
# how tools/edits_told_apart.txt tells edits apart
SAME_ANSWER, NAME_KEPT = "same answer", "name alone"
LABEL = re.compile(r"^(?:rt: )?must-fail ([\w-]+/[\w.-]+)\.edit: (.*)")
LAST = re.compile(r"[1-9]\d* passed, 0 failed")
# how a line begins that belongs to a contract, to a definition, or to what the prover is asked
CLAUSE = re.compile(r"\s*(?:pub )?(?:requires|ensures|ghost)\b|\s*#!?\[tactic\b")


class Replacement(NamedTuple):
    """A text that occurs once in a file, and the text that replaces it."""

    file: str
    old: str
    new: str


class Edit(NamedTuple):
    """An edit of a crate, by its name CRATE/EDIT."""

    crate: str
    name: str
    path: Path

    def __str__(self) -> str:
        return f"{self.crate}/{self.name}"


class NotApplied(Exception):
    """Why an edit can't be applied, or shows nothing."""


def edits_of(top: Path) -> List[Edit]:
    """The edits of all crates, by crate and name."""
    paths = sorted((top / "crates").glob("*/must-fail/*.edit"))
    return [Edit(path.parent.parent.name, path.stem, path) for path in paths]


def replacements_of(edit: Edit) -> Iterator[Replacement]:
    """The replacements of an edit, in their order. Fails with `NotApplied` at an `old:` or a `new:` without its partner."""
    file, old = "", None
    for line in edit.path.read_text("utf8").split("\n"):
        word, _, text = line.partition(": ")
        if word == "file":
            file = text
        elif word == "old":
            if old is not None:
                raise NotApplied("it has `old:` without `new:`")
            old = text
        elif word.rstrip(":") == "new":
            if old is None:
                raise NotApplied("it has `new:` without `old:`")
            yield Replacement(file, old, text)
            old = None
    if old is not None:
        raise NotApplied("it has `old:` without `new:`")


def clauses(text: str) -> List[str]:
    """The lines of a source that are no code: contracts, with all lines of each, ghost items and tactics."""
    found: List[str] = []
    opened = 0
    for line in text.split("\n"):
        code = line.split("//")[0]
        if opened > 0 or CLAUSE.match(line):
            found.append(code.strip())
            opened = max(0, opened + sum(map(code.count, "{[(")) - sum(map(code.count, "}])")))
    return found


def edited_files(top: Path, edit: Edit) -> Dict[str, str]:
    """The texts of the files that an edit changes, with its changes. Fails with `NotApplied` if it can't be applied, or
    changes anything but code."""
    before: Dict[str, str] = {}
    texts: Dict[str, str] = {}
    if kind(edit.crate) in ("definitions", "laws"):
        raise NotApplied(f"{edit.crate} holds {kind(edit.crate)}, and no code whose contract an edit could show")
    for file, old, new in replacements_of(edit):
        if not file.startswith("src/"):
            raise NotApplied(f"{file or 'it'} is no file of src/, so no body is changed")
        if file not in texts:
            try:
                before[file] = texts[file] = (top / "crates" / edit.crate / file).read_text("utf8")
            except OSError as error:
                raise NotApplied(f"{file} is not there") from error
        count = texts[file].count(old)
        if count != 1:
            raise NotApplied(f"the text that it replaces occurs {count} times in {file}")
        texts[file] = texts[file].replace(old, new)
    if texts == before:
        raise NotApplied("it changes nothing")
    for file, text in texts.items():
        if clauses(text) != clauses(before[file]):
            raise NotApplied(f"it changes a contract or a ghost item of {file}")
    return texts


def unparsed(texts: Dict[str, str], formatter: str) -> Iterator[str]:
    """The names of the texts that don't parse, with the reason. One run of the formatter reads them all."""
    with tempfile.TemporaryDirectory(prefix="trinorm-edits-") as room:
        named: Dict[str, str] = {}
        for at, (name, text) in enumerate(sorted(texts.items())):
            path = Path(room, f"{at}{Path(name).suffix}")
            path.write_text(text, "utf8")
            named[str(path)] = name
        ran = subprocess.run([formatter, "fmt", "--check", *named], capture_output=True, text=True, check=False)
        for line in (ran.stdout + ran.stderr).splitlines():
            path_of, _, why = line.partition(": ")
            if path_of in named:
                yield f"{named[path_of]}: {why}"
            elif not line.endswith(" is not in the layout"):
                yield f"the formatter did not say whether the edited files parse: {line}"
        if ran.returncode not in (0, 1):
            yield f"the formatter ended with status {ran.returncode}, so it is unknown whether the edited files parse"


def formatter_of_kit() -> Optional[str]:
    """The command of the kit that reads source files, or `None` if the kit is not on the path."""
    command = shutil.which("rt")
    return str(Path(command).resolve().parent / "rattle") if command else None


def unapplied(top: Path, edits: Iterable[Edit], formatter: Optional[str]) -> Iterator[str]:
    """The edits that can't be applied or show nothing, and those whose texts don't parse."""
    texts: Dict[str, str] = {}
    for edit in edits:
        try:
            for file, text in edited_files(top, edit).items():
                texts[f"{edit}: {file}"] = text
        except NotApplied as why:
            yield f"{edit}: {why}"
    if texts and formatter:
        yield from unparsed(texts, formatter)


def wrong_bodies(top: Path) -> Iterator[List[str]]:
    """Each listed wrong body, followed by the names of its edits."""
    for line in (top / "tools" / "wrong_bodies.txt").read_text("utf8").split("\n"):
        what, _, names = line.partition("#")[0].strip().partition(": ")
        if what:
            yield [what, *names.split()]


def without_edit(top: Path, edits: Iterable[Edit]) -> Iterator[str]:
    """The listed wrong bodies that have no edit, or name one that is not there."""
    known = {str(edit) for edit in edits}
    for what, *names in wrong_bodies(top):
        missing = [name for name in names if name not in known]
        if missing or not names:
            yield f"wrong body without its edit: {what}" + "".join(f" ({name} is not there)" for name in missing)


class ToldApart(NamedTuple):
    """An edit that shows less than a wrong answer does."""

    kind: str
    name: str
    reason: str


def told_apart(top: Path) -> List[ToldApart]:
    """The edits that tools/edits_told_apart.txt tells apart from the others."""
    lines = (top / "tools" / "edits_told_apart.txt").read_text("utf8").split("\n")
    parts = (line.split(":", 2) for line in lines if line.strip() and not line.startswith("#"))
    return [ToldApart(*(part.strip() for part in (*line, "", "")[:3])) for line in parts]


def mistold(listed: List[ToldApart], edits: Iterable[Edit]) -> Iterator[str]:
    """The lines of tools/edits_told_apart.txt that have no known kind, no reason, or an edit that is not there or occurs twice."""
    known, count = {str(edit) for edit in edits}, collections.Counter(it.name for it in listed)
    for kind_of, name, reason in listed:
        if kind_of not in (SAME_ANSWER, NAME_KEPT):
            yield f"tools/edits_told_apart.txt: `{kind_of}` is neither `{SAME_ANSWER}` nor `{NAME_KEPT}`"
        elif name not in known:
            yield f"tools/edits_told_apart.txt: {name or 'an edit without a name'} is not there"
        elif not reason:
            yield f"tools/edits_told_apart.txt: {name} has no reason"
    yield from (f"tools/edits_told_apart.txt: {name} occurs {times} times" for name, times in count.items() if times > 1)


def is_note(line: str, kept: Set[str], notes: bool) -> bool:
    """Whether a line of `not_shown` is no more than a note: an edit refused by a name alone that is one of `kept`, or, with
    `notes`, by a limit of the prover."""
    label = LABEL.match(line)
    if label is None or not label[2].startswith(REFUSED):
        return False
    return label[1] in kept if NAME_ALONE in line else notes and BY_A_LIMIT in line


def last_line(lines: Iterable[str]) -> str:
    """The last line that is not blank."""
    return next((line.strip() for line in reversed(list(lines)) if line.strip()), "")


def not_shown(log: str, edits: Iterable[Edit], ends: bool) -> Iterator[str]:
    """What a log does not show: the edits without a line that the prover refused them for a contract, lines of edits that are
    not there, and, if `ends`, a last line that says that nothing failed."""
    known = {str(edit) for edit in edits}
    shown, named = set(), set()
    for line in log.split("\n"):
        label = LABEL.match(line)
        if label is None:
            continue
        name, what = label.groups()
        if name not in known:
            yield f"{name}: the log has it, and the repository does not"
        elif what.startswith(REFUSED) and not any(words in what for words in SHOWS_NOTHING):
            shown.add(name)
        else:
            named.add(name)
            yield line.strip()
    yield from (f"{name}: the log does not say that the prover refused it" for name in sorted(known - shown - named))
    last = last_line(log.split("\n"))
    if ends and not LAST.fullmatch(last):
        yield f"the log does not end with a line `N passed, 0 failed`, but with: {last[:120] or 'nothing'}"


def read_log(path: str) -> str:
    """The text of a log, or of standard input for `-`."""
    data = sys.stdin.buffer.read() if path == "-" else Path(path).read_bytes()
    return data.decode("utf8", "replace")


def main() -> int:
    """Prints what is to be mended, and returns the exit status."""
    parser = argparse.ArgumentParser(description="Checks the must-fail tests.")
    parser.add_argument("log", nargs="?", help="the output of rt ci; - for standard input")
    parser.add_argument("--must-fail", action="store_true", help="the log is of rt must-fail, which prints no last line")
    parser.add_argument("--counts", action="store_true", help="print the number of must-fail tests of each crate")
    parser.add_argument("--notes", action="store_true", help="do not count must-fail tests that were refused by a limit of the prover")
    words = parser.parse_args()
    edits, formatter = edits_of(TOP), formatter_of_kit()
    if words.counts:
        for crate, count in sorted(collections.Counter(edit.crate for edit in edits).items()):
            print(f"{crate}: {count}")
    if formatter is None:
        print("the command rt is not on the path, so it is unknown whether the edited files parse")
    listed = told_apart(TOP)
    found = [*unapplied(TOP, edits, formatter), *without_edit(TOP, edits), *mistold(listed, edits)]
    if words.log is not None:
        kept = {it.name for it in listed if it.kind == NAME_KEPT}
        for line in not_shown(read_log(words.log), edits, not words.must_fail):
            if is_note(line, kept, words.notes):
                print(f"note: {line}")
            else:
                found.append(line)
    for line in found:
        print(line)
    same = sum(it.kind == SAME_ANSWER for it in listed)
    print(f"{len(edits) - same} edits that change an answer, {same} that change none; {len(found)} of which something is to be mended")
    return 1 if found else 0


if __name__ == "__main__":
    sys.exit(main())

"""tools/edits.py: what it names of edits and of the gate's output."""
import contextlib
import io
import subprocess
import sys
import tempfile
import unittest
from pathlib import Path
from unittest import mock
from typing import List, Optional, Set, Tuple

from trinorm.program import REPOSITORY

sys.path.insert(0, str(REPOSITORY / "tools"))

import edits  # noqa: E402

SOURCE = """\
fn sign(x: u8) -> u8
    requires { x.now ≤
        200 }
    ensures { result ≡ 1 }
{
    1
}
"""
LOG = """\
must-fail signs/one.edit: refused, as it must be: src/lib.rt:3:5: error: `search` did not prove `returns`
must-fail signs/two.edit: BAD EDIT: the prover cannot read the edited text, so no contract was tried
must-fail signs/three.edit: refused, as it must be (only because a proof file names what the edit took away, so ..): ..
must-fail signs/four.edit: NOT REFUSED: the crate is still proved with this edit
rt: must-fail signs/five.edit: NOT TRIED: its check was killed
rt: must-fail signs/six.edit: refused, as it must be (only by a limit of the prover, which gave no verdict, so ..): ..
11 passed, 0 failed
"""


class MadeUp(unittest.TestCase):
    """A repository with one function and its edits."""

    def setUp(self) -> None:
        room = tempfile.TemporaryDirectory()
        self.addCleanup(room.cleanup)
        self.top = Path(room.name)
        self.write("crates/signs/src/lib.rt", SOURCE)
        self.write("tools/wrong_bodies.txt", "# a list\nthe sign is 2: signs/two\n")

    def write(self, name: str, text: str) -> None:
        path = self.top / name
        path.parent.mkdir(parents=True, exist_ok=True)
        path.write_text(text, "utf8")

    def told(self, *lines: str) -> List[edits.ToldApart]:
        self.write("tools/edits_told_apart.txt", "".join(f"{line}\n" for line in ("# a list", "", *lines)))
        return edits.told_apart(self.top)

    def edit(self, name: str = "two", text: str = "file: src/lib.rt\nold:     1\nnew:     2\n", crate: str = "signs") -> None:
        self.write(f"crates/{crate}/must-fail/{name}.edit", text)

    def named(self, formatter: Optional[str] = None) -> List[str]:
        known = edits.edits_of(self.top)
        return [*edits.unapplied(self.top, known, formatter), *edits.without_edit(self.top, known)]


class Edits(MadeUp):
    def test_an_edit_that_applies_is_not_named(self) -> None:
        self.edit()
        self.assertEqual(self.named(), [])

    def test_a_text_that_is_gone_is_named(self) -> None:
        self.edit(text="file: src/lib.rt\nold:     3\nnew:     2\n")
        self.assertEqual(self.named(), ["signs/two: the text that it replaces occurs 0 times in src/lib.rt"])

    def test_a_wrong_body_without_its_edit_is_named(self) -> None:
        self.assertEqual(self.named(), ["wrong body without its edit: the sign is 2 (signs/two is not there)"])

    def test_later_pairs_apply_to_what_the_first_made(self) -> None:
        self.edit(text="file: src/lib.rt\nold:     1\nnew:     2 + 3\nold: 2 + 3\nnew: 4\n")
        texts = edits.edited_files(self.top, edits.edits_of(self.top)[0])
        self.assertEqual(texts, {"src/lib.rt": SOURCE.replace("    1", "    4")})

    def test_what_is_no_change_of_a_body_is_named(self) -> None:
        for text, why in (
            ("", "it changes nothing"),
            ("file: src/lib.rt\nold:     1\n", "it has `old:` without `new:`"),
            ("file: src/lib.rt\nold:     1\nold:     1\nnew:     2\n", "it has `old:` without `new:`"),
            ("file: src/lib.rt\nnew:     2\n", "it has `new:` without `old:`"),
            ("file: src/lib.rt\nold:     1\nnew:     1\n", "it changes nothing"),
            ("file: src/lib.rt\nold: result ≡ 1\nnew: result ≡ 2\n", "it changes a contract or a ghost item of src/lib.rt"),
            ("file: src/lib.rt\nold:         200 }\nnew:         100 }\n", "it changes a contract or a ghost item of src/lib.rt"),
            ("file: src/lib.rt\nold: {\n1\nnew: {\n", "the text that it replaces occurs 3 times in src/lib.rt"),
            ("file: specs/Sign.antt\nold: a\nnew: b\n", "specs/Sign.antt is no file of src/, so no body is changed"),
            ("old: a\nnew: b\n", "it is no file of src/, so no body is changed"),
        ):
            with self.subTest(text):
                self.edit(text=text)
                self.assertEqual(self.named(), [f"signs/two: {why}"])

    def test_an_edit_of_definitions_is_named(self) -> None:
        self.edit()
        self.write("crates/sign_definitions/src/lib.rt", SOURCE)
        self.edit(crate="sign_definitions")
        self.assertEqual(self.named(), ["sign_definitions/two: sign_definitions holds definitions, and no code whose contract an edit could show"])

    def test_edits_told_apart(self) -> None:
        self.edit()
        self.edit("one")
        self.assertEqual(self.told("same answer: signs/one: it is slow: by half", "name alone: signs/two: why"),
                         [("same answer", "signs/one", "it is slow: by half"), ("name alone", "signs/two", "why")])
        self.assertEqual(list(edits.mistold(edits.told_apart(self.top), edits.edits_of(self.top))), [])
        for line, why in (
            ("same answer: signs/six: why", "signs/six is not there"),
            ("same answer:", "an edit without a name is not there"),
            ("same answer: signs/two", "signs/two has no reason"),
            ("same answer: signs/two: ", "signs/two has no reason"),
            ("other: signs/two: why", "`other` is neither `same answer` nor `name alone`"),
            ("signs/two", "`signs/two` is neither `same answer` nor `name alone`"),
            ("same answer: signs/one: again", "signs/one occurs 2 times"),
        ):
            with self.subTest(line):
                listed = self.told("same answer: signs/one: why", line)
                self.assertEqual(list(edits.mistold(listed, edits.edits_of(self.top))), [f"tools/edits_told_apart.txt: {why}"])

    def test_the_formatter(self) -> None:
        """What parses is not named; what doesn't, and what isn't read, is."""
        self.edit()
        for script, named in (
            ('for file; do :; done; echo "$file is not in the layout"; exit 1', []),
            ('for file; do :; done; echo "$file: it does not parse: at 1:6"; exit 1', ["signs/two: src/lib.rt: it does not parse: at 1:6"]),
            ("echo killed; exit 1", ["the formatter did not say whether the edited files parse: killed"]),
            ("exit 9", ["the formatter ended with status 9, so it is unknown whether the edited files parse"]),
        ):
            with self.subTest(script):
                self.write("formatter", f"#!/bin/sh\n{script}\n")
                (self.top / "formatter").chmod(0o755)
                self.assertEqual(self.named(str(self.top / "formatter")), named)


class Logs(unittest.TestCase):
    def named(self, log: str, names: str = "one two three four five six", ends: bool = True) -> List[str]:
        return list(edits.not_shown(log, [edits.Edit("signs", name, Path()) for name in names.split()], ends))

    def test_a_whole_log(self) -> None:
        log = "".join(LOG.splitlines(True)[at] for at in (0, -1))
        self.assertEqual(self.named(log, "one"), [])
        self.assertEqual(self.named(log.replace("11 passed, 0 failed", ""), "one", ends=False), [])

    def test_what_shows_nothing(self) -> None:
        named = [line.partition(".edit")[0].rpartition("/")[2] for line in self.named(LOG)]
        self.assertEqual(named, ["two", "three", "four", "five", "six"])

    def test_what_is_a_note(self) -> None:
        """A refusal for a name alone is one where the edit is kept, that by a limit where notes are asked for, and no other line."""
        cases: Tuple[Tuple[Set[str], bool, List[str]], ...] = (
            (set(), False, []), (set(), True, ["six"]), ({"signs/three"}, False, ["three"]), ({"signs/three"}, True, ["three", "six"]),
            ({"signs/two", "signs/four", "signs/five"}, True, ["six"]),
        )
        for kept, notes, noted in cases:
            lines = [line for line in self.named(LOG) if edits.is_note(line, kept, notes)]
            self.assertEqual([line.partition(".edit")[0].rpartition("/")[2] for line in lines], noted)

    def test_an_edit_that_the_log_lacks_or_has_too_much(self) -> None:
        self.assertEqual(self.named(LOG, "one two three four five six seven")[-1], "signs/seven: the log does not say that the prover refused it")
        self.assertIn("signs/six: the log has it, and the repository does not", self.named(LOG, "one two three four five"))

    def test_a_log_that_is_empty_cut_or_failed(self) -> None:
        for log, last in (
            ("", "nothing"), ("\n\n", "nothing"), (LOG.splitlines()[0], LOG.splitlines()[0][:120]), ("10 passed, 1 failed\n", "10 passed, 1 failed"),
            ("0 passed, 0 failed\n", "0 passed, 0 failed"),
            ("10 passed, 0 failed (signs and the crates below alone: not the gate)", "10 passed, 0 failed (signs and the crates below alone: not the gate)"),
        ):
            with self.subTest(log):
                self.assertIn(f"the log does not end with a line `N passed, 0 failed`, but with: {last}", self.named(log, "one"))

    def test_the_command(self) -> None:
        """No log that lacks the edits of this repository ends with status 0, and without a log nothing is named."""
        known = edits.edits_of(REPOSITORY)
        same = sum(it.kind == edits.SAME_ANSWER for it in edits.told_apart(REPOSITORY))
        count = f"{len(known) - same} edits that change an answer, {same} that change none"
        done = subprocess.run([sys.executable, str(REPOSITORY / "tools" / "edits.py")], capture_output=True, text=True, check=False)
        self.assertEqual((done.returncode, done.stdout.splitlines()[-1]), (0, f"{count}; 0 of which something is to be mended"), done.stdout)
        whole = "".join(f"rt: must-fail {edit}.edit: refused, as it must be: x\n" for edit in known) + "7 passed, 0 failed\n"
        name_alone = whole.replace(": x\n", " (only because a proof file names what the edit took away): x\n", 1)
        by_a_limit = whole.replace(": x\n", " (only by a limit of the prover, which gave no verdict): x\n", 1)
        cases: Tuple[Tuple[str, List[str], int], ...] = (
            ("", [], len(known) + 1), ("7 passed, 0 failed\n", [], len(known)), (whole, [], 0),
            (name_alone, [], 1), (name_alone, ["--notes"], 1), (by_a_limit, [], 1), (by_a_limit, ["--notes"], 0),
        )
        for log, words, found in cases:
            with self.subTest(log=log[:200], words=words), tempfile.TemporaryDirectory() as room:
                path, wrote = Path(room, "log"), io.StringIO()
                path.write_text(log, "utf8")
                with mock.patch.object(sys, "argv", ["edits.py", *words, str(path)]), mock.patch.object(edits, "formatter_of_kit"), \
                        mock.patch.object(edits, "unparsed", return_value=[]), contextlib.redirect_stdout(wrote):
                    status = edits.main()
                self.assertEqual((status, wrote.getvalue().splitlines()[-1]), (int(found > 0), f"{count}; {found} of which something is to be mended"))
                self.assertEqual(wrote.getvalue().count("(only b"), log.count("(only b"))


if __name__ == "__main__":
    unittest.main()

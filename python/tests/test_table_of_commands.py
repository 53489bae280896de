"""The table of commands: what REFERENCE has to have of it, and that the few lists which others keep are those of the table."""
import re
import sys
import unittest

from trinorm import selfcheck
from trinorm.hints import read_hints
from trinorm.options import COMMANDS, reading
from trinorm.program import REPOSITORY

sys.path.insert(0, str(REPOSITORY / "tools"))
sys.path.append(str(REPOSITORY / "bench"))

import commands  # noqa: E402
import faults  # noqa: E402
import hostile  # noqa: E402
import same_answers  # noqa: E402
from commands import Command, Option, faults_of_reference, rows_of_reference  # noqa: E402

PAGE = """\
## Commands

| Command | Prints | Reads | Options |
|---|---|---|---|
| [`list`](#list) | all of them | a triangulation | `--coords`, `--limit` |
| [`one`](#one), [`two`](#two) | a number | nothing | |

## `list`: all

    $ cat a.txt | trinorm list
    $ trinorm list < a.txt

## `one`: one

    $ trinorm one

## Options

| Option | Values | Default |
|---|---|---|
| `--coords` | `plain` (seven) or `quad` | `plain` |
| `--limit` | from 1 to M | M |
"""
LIST = Command("list", "table", [Option("coords", ("plain", "quad"), (0, 0), False), Option("limit", (), (1, 99), False)], "", "")
KNOWN = [LIST, Command("one", "none", [], "", ""), Command("two", "none", [], "", "")]


class Reference(unittest.TestCase):
    def test_a_page_with_all(self) -> None:
        self.assertEqual(faults_of_reference(PAGE, KNOWN), [])

    def test_what_is_lacking(self) -> None:
        for old, new, fault in (("`--coords`, `--limit`", "`--coords`", "other options of list"), (", [`two`](#two)", "", "other options of two"),
                                ("| nothing | |", "| nothing | `--limit` |", "other options of one"), ("[`two`]", "[`two`], [`six`]", "the command six"),
                                ("or `quad`", "", "lacks the value quad of --coords"), ("from 1", "from 0", "lacks the value 1 of --limit")):
            self.assertIn(old, PAGE)
            found = faults_of_reference(PAGE.replace(old, new), KNOWN)
            self.assertTrue(found and fault in "".join(found), (new, found))
        self.assertEqual(len(faults_of_reference("", KNOWN)), 6)

    def test_rows(self) -> None:
        """What a command prints, and its first example without a pipe; a command without one has no row."""
        self.assertEqual(rows_of_reference(PAGE), {"list": ("all of them", "./trinorm list < a.txt"), "one": ("a number", "./trinorm one")})

    def test_list_of_readme(self) -> None:
        known = [Command(name, "table", [], "", f"what {name} prints") for name in ("surfaces", "rays", "info")]
        listed = "Surfaces:\n\n- `surfaces`: what surfaces prints\n- `rays`: what rays prints\n\nTriangulations:\n\n- `info`: what info prints"
        begin, end = commands.MARKS
        self.assertEqual(commands.with_list(f"a\n{begin}\n- `old`: old\n{end}\nb\n", known), f"a\n{begin}\n{listed}\n{end}\nb\n")
        self.assertEqual(commands.with_list("no list\n", known), "no list\n")

    def test_nothing_is_stale(self) -> None:
        self.assertEqual(commands.main(True), 0)


class Lists(unittest.TestCase):
    """Lists by hand of what the table has too."""

    def test_commands_without_input(self) -> None:
        source = (REPOSITORY / "web" / "node" / "trinorm.js").read_text("utf8")
        found = re.findall(r"COMMANDS_WITHOUT_INPUT = \[([^\]]*)\]", source)[0]
        self.assertEqual(tuple(re.findall(r"'([\w-]+)'", found)), reading("none"))
        self.assertIn(",".join(reading("none")), {row.commands for row in read_hints() if row.kind == "usage extra-word"})

    def test_each_command_is_tried(self) -> None:
        self.assertLessEqual(set(hostile.CHECKS), set(COMMANDS))
        self.assertEqual([words[0] for words, _ in faults.first_rows()], list(COMMANDS))
        self.assertEqual({words[0] for words in same_answers.questions()}, set(reading("table")))
        self.assertLessEqual(set(COMMANDS), {words[0] for words, _ in hostile.stored_inputs()})

    def test_answers_of_a_form(self) -> None:
        """What answers without a check of their own are compared with: the words at each place, and the order of lines."""
        form = hostile.Form([b"all 2\nrow 0 yes left\nrow 1 no right\nend\n", b"all 0\nend\n"])
        for answer in (b"all 7\nrow 5 yes right\nend\n", b"all -1\nend\n", b"all 1\nrow 3 no left\n", b""):
            self.assertTrue(form.has(answer), answer)
        for answer in (b"all 7\nrow 5 left yes\nend\n", b"all 0\nend", b"end\nall 0\n", b"all 0\nrow 1 no\n", b"all zero\n", b"all 0\n\n", b"all 0\nend\nend 1\n"):
            self.assertFalse(form.has(answer), answer)
        for row in selfcheck.read_rows():
            if row.status == 0 and row.words[0] not in hostile.CHECKS:
                hostile.formed("", list(row.words), row.input, row.output)
        with self.assertRaises(hostile.Wrong):
            hostile.formed("", ["info"], b"tri 0\n", b"tetrahedra 0\nconnected maybe\n")


if __name__ == "__main__":
    unittest.main()

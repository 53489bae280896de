"""The check of an installation: what it finds, and what it says."""
import contextlib
import doctest
import io
import json
import tempfile
import threading
import unittest
from argparse import Namespace
from pathlib import Path
from types import SimpleNamespace
from typing import Tuple
from unittest import mock

from trinorm import commands, program, selfcheck
from trinorm.errors import Failed

from .programs import script


class Rows(unittest.TestCase):
    def test_rows_are_questions_with_answers_of_all_commands(self) -> None:
        rows = selfcheck.read_rows()
        self.assertGreater(len(rows), 350)
        table = (selfcheck.HERE / "commands.txt").read_text("utf8").splitlines()
        names = {line.split("\t")[0] for line in table if line and not line.startswith("#")}
        self.assertLessEqual(names, {row.words[0] for row in rows if row.words})
        self.assertEqual({row.status for row in rows}, {0, 2, 3, 4, 5})
        self.assertTrue(any(len(row.input) > 1048576 for row in rows))

    def test_each_difference_is_found(self) -> None:
        rows = selfcheck.read_rows()[:5]
        by_row = {row: (row.status, row.output) for row in rows}
        self.assertEqual(selfcheck.check_rows(by_row.__getitem__, rows).differences, [])
        for wrong in ((8, rows[2].output), (rows[2].status, rows[2].output + b"x"), (rows[2].status, b"")):
            by_row[rows[2]] = wrong
            [difference] = selfcheck.check_rows(by_row.__getitem__, rows).differences
            self.assertIn(" ".join(rows[2].words), difference)

    def test_long_texts_are_shown_by_their_beginnings(self) -> None:
        row = selfcheck.Row(("sig", "--x"), b"i" * 200, b"o" * 200, 3)
        [difference] = selfcheck.check_rows(lambda _row: (0, b"a" * 200), [row]).differences
        texts = [b"i" * 80, b"o" * 80, b"a" * 80]
        self.assertEqual(difference, "sig --x < {}: expected {} with status 3, got {} with status 0".format(*map(repr, texts)))

    def test_a_program_that_cannot_be_started(self) -> None:
        with tempfile.NamedTemporaryFile() as file:
            for path in (file.name, f"{file.name}/none"):
                [difference] = selfcheck.check_rows(selfcheck.by_program(path), selfcheck.read_rows()[:1]).differences
                self.assertIn("the program cannot be started: ", difference)

    def test_the_library_answers_all_rows_in_several_threads(self) -> None:
        library = program.find_library()
        if library is None:
            self.skipTest("there is no library")
        rows, outcomes = selfcheck.read_rows(), []
        answer = selfcheck.by_library(library)
        threads = [threading.Thread(target=lambda: outcomes.append(selfcheck.check_rows(answer, rows))) for _ in range(4)]
        for thread in threads:
            thread.start()
        for thread in threads:
            thread.join()
        self.assertEqual([outcome.differences for outcome in outcomes], [[]] * 4)

    def test_each_command_has_examples(self) -> None:
        found = {test.name: len(test.examples) for test in selfcheck.examples()}
        self.assertEqual(set(found), {*commands.__all__, "examples.txt"})
        self.assertTrue(all(found.values()), found)

    def test_an_example_that_differs(self) -> None:
        tests = [doctest.DocTestParser().get_doctest(text, {}, "made up", None, 0) for text in (">>> 1 + 1\n3\n>>> 2\n2\n", ">>> 4\n4\n")]
        with mock.patch.object(selfcheck, "examples", lambda: tests):
            outcome = selfcheck.check_examples()
        self.assertEqual((outcome.checks, len(outcome.differences)), (3, 1))
        self.assertIn("1 + 1", outcome.differences[0])

    def test_limits_and_interruption(self) -> None:
        library = program.find_library()
        if library is None:
            self.skipTest("there is no library")
        outcome = selfcheck.check_limits(library)
        self.assertEqual((outcome.checks, outcome.differences), (3, []))

    def test_a_library_without_limits_is_reported(self) -> None:
        library = mock.Mock()
        library.answer.return_value = 0, b"", 0
        with mock.patch.object(selfcheck, "time", SimpleNamespace(monotonic=lambda: 100.0)):
            outcome = selfcheck.check_limits(library)
        self.assertEqual(outcome, (3, ["time limit: status 0, limit 0, after 0.0 s", "memory limit: status 0, limit 0", "an interruption did not stop a call"], 0.0))

    def test_a_census_is_checked_too(self) -> None:
        with mock.patch.object(selfcheck, "_differing_census", return_value=iter(["made up"])):
            outcome = selfcheck.check_many()
        self.assertEqual((outcome.checks, outcome.differences), (2, ["made up"]))


class Report(unittest.TestCase):
    def report(self) -> Tuple[int, str]:
        said = io.StringIO()
        with contextlib.redirect_stdout(said):
            status = selfcheck.main(Namespace())
        return status, said.getvalue()

    def test_all_is_as_expected(self) -> None:
        status, said = self.report()
        self.assertEqual(status, 0, said)
        self.assertTrue(said.startswith("trinorm "))
        self.assertTrue(said.endswith("everything is as expected\n"))
        self.assertRegex(said, r"(?m)^several triangulations at a time: 2 of 2, [0-9.]+ s$")

    def test_a_wrong_program_is_reported(self) -> None:
        with tempfile.TemporaryDirectory() as folder, mock.patch.object(program, "find_library", return_value=None):
            wrong = script(folder, "echo refused: nonsense; exit 3\n")
            with mock.patch.dict("os.environ", {"TRINORM": wrong}):
                status, said = self.report()
        self.assertEqual(status, 1)
        self.assertRegex(said, "differs: surfaces < ")
        self.assertRegex(said.splitlines()[-1], "^[0-9]+ differences; please report all of the above$")

    def test_a_program_that_can_not_be_started_is_reported(self) -> None:
        """As one for another processor, or in a folder whose files may not be run."""
        with tempfile.TemporaryDirectory() as folder, mock.patch.object(program, "find_library", return_value=None):
            other = Path(folder, "trinorm")
            other.write_bytes(b"\x7fELF of another processor")
            other.chmod(0o755)
            with mock.patch.dict("os.environ", {"TRINORM": str(other)}):
                status, said = self.report()
        self.assertEqual(status, 1)
        self.assertIn("the program cannot be started: ", said)
        self.assertRegex(said.splitlines()[-1], "differences; please report all of the above$")

    def test_where_nothing_is_installed(self) -> None:
        with mock.patch.object(program, "find_library", side_effect=Failed("no program")), mock.patch.object(program, "find", side_effect=Failed("no program")):
            status, said = self.report()
        self.assertEqual(status, 1)
        self.assertIn("differs: no program\n", said)

    def test_without_a_program_the_library_is_checked_alone(self) -> None:
        if program.find_library() is None:
            self.skipTest("there is no library")
        missing = mock.patch.object(program, "find", side_effect=Failed("nowhere"))
        rows = mock.patch.object(selfcheck, "read_rows", return_value=selfcheck.read_rows()[:3])
        with missing, rows:
            status, said = self.report()
        self.assertEqual(status, 0, said)
        self.assertIn("no program: nowhere", said)

    def test_without_anything_it_fails(self) -> None:
        with mock.patch.object(program, "find", side_effect=Failed("nowhere")), mock.patch.object(program, "find_library", return_value=None):
            status, said = self.report()
        self.assertEqual(status, 1)
        self.assertIn("differs: nowhere\n", said)
        self.assertIn("no program and no library: 0 of 1, 0.0 s\n", said)

    def test_the_data_is_not_changed_by_hand_to_nonsense(self) -> None:
        rows = json.loads((selfcheck.HERE / "worked_rows.json").read_text("utf8"))
        self.assertTrue(all(set(row) == {"words", "input", "output", "status"} for row in rows))


if __name__ == "__main__":
    unittest.main()

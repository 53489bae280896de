"""The words behind `python3 -m trinorm`."""
import contextlib
import io
import os
import subprocess
import sys
import tempfile
import unittest
from typing import Tuple
from unittest import mock

import trinorm
from trinorm.__main__ import main
from trinorm.census import Ran


class Words(unittest.TestCase):
    def said(self, *words: str, text: str = "") -> Tuple[int, str, str]:
        """The status, and what is written to standard output and to standard error."""
        with contextlib.redirect_stdout(io.StringIO()) as out, contextlib.redirect_stderr(io.StringIO()) as error, \
                mock.patch("sys.stdin", io.StringIO(text)):
            status = main(list(words))
        return status, out.getvalue(), error.getvalue()

    def test_graph(self) -> None:
        status, dot, _ = self.said("graph", "bkaagj")
        self.assertEqual((status, dot.count(" -- ")), (0, 2))
        self.assertEqual(self.said("graph", "-", text="tri 1\n- - - -\n")[1].count(" -- "), 0)
        self.assertTrue(self.said("graph", "cPcbbbiht", "--svg")[1].startswith("<svg "))

    def test_census_and_growth(self) -> None:
        with tempfile.TemporaryDirectory() as folder:
            given, out = os.path.join(folder, "signatures"), os.path.join(folder, "answers")
            with open(given, "w", encoding="utf8") as file:
                file.write("bkaagj\ncPcbbbiht\n")
            self.assertEqual(self.said("census", given, "--out", out)[0], 0)
            self.assertEqual(self.said("growth", out)[1].count("<circle"), 2)
            self.assertEqual(self.said("census", given, "--out", "-")[1].count('"answer"'), 2)
            self.assertIn("not of `info`", self.said("census", given, "--command", "info", "--out", out)[2])

    def test_help_and_version(self) -> None:
        for words in (["--help"], ["--version"], ["census", "--help"]):
            with self.assertRaises(SystemExit) as caught, contextlib.redirect_stdout(io.StringIO()) as out:
                main(words)
            self.assertEqual(caught.exception.code, 0)
            self.assertIn("trinorm", out.getvalue())
        self.assertEqual(self.said("census", os.devnull, "--command", "describe", "--coords", "quad")[0], 3)

    def test_what_is_wrong(self) -> None:
        self.assertEqual(self.said("graph", "bkaagjx"), (3, "", "trinorm: refused: signature trailing 6 (the signature is complete before this)\n"))
        self.assertEqual(self.said("census", "/no/such/file")[0], 3)
        self.assertEqual(self.said("growth", os.devnull)[0], 3)
        self.assertIn("coords of info must be None", self.said("census", os.devnull, "--command", "info", "--coords", "quad")[2])

    def test_an_answer_file_that_is_not_utf8(self) -> None:
        with tempfile.NamedTemporaryFile() as file:
            file.write(b"\xff\n")
            file.flush()
            self.assertEqual(self.said("growth", file.name), (3, "", f"trinorm: {file.name} is not UTF-8\n"))


class StandardStreams(unittest.TestCase):
    """What is said if standard input, output or error is closed, full, or not UTF-8."""

    def ran(self, words: str, given: bytes = b"bkaagj\n") -> Tuple[int, str, str]:
        """The status of words with redirections, as a shell reads them, and what is written to standard output and to standard error."""
        program = f"exec '{sys.executable}' -m trinorm {words}"
        done = subprocess.run(["sh", "-c", program], input=given, capture_output=True, timeout=60, check=False)
        return done.returncode, done.stdout.decode(), done.stderr.decode()

    def test_an_output_that_cannot_be_written(self) -> None:
        """That has a status and a line, also if only what is in the buffer cannot be written, as at the end of a short answer."""
        for what, why in ((">/dev/full", "No space left on device"), (">&-", "it is closed")):
            for words in ("graph bkaagj", "certify bkaagb", "census - --command sig --jobs 1", "--version"):
                with self.subTest(words + what):
                    status, _, said = self.ran(f"{words} {what}")
                    self.assertEqual((status, said.splitlines()[-1:]), (3, [f"trinorm: standard output: {why}"]))
                    self.assertNotIn("Traceback", said)

    def test_a_reader_that_has_ended(self) -> None:
        ours, theirs = os.pipe()
        os.close(ours)
        with os.fdopen(theirs, "wb") as to:
            done = subprocess.run([sys.executable, "-m", "trinorm", "graph", "bkaagj"], stdout=to, stderr=subprocess.PIPE, timeout=60, check=False)
        self.assertEqual((done.returncode, done.stderr), (3, b"trinorm: standard output: Broken pipe\n"))

    def test_an_input_that_cannot_be_read(self) -> None:
        for words in ("graph -", "certify -", "census - --command sig --jobs 1"):
            with self.subTest(words):
                self.assertEqual(self.ran(f"{words} <&-"), (3, "", "trinorm: standard input is closed\n"))

    def test_an_input_that_is_not_utf8(self) -> None:
        for words in ("graph -", "certify -"):
            with self.subTest(words), mock.patch.dict(os.environ, PYTHONIOENCODING="utf-8:strict"):
                status, out, said = self.ran(words, b"tri 1\n\xff\n")
                self.assertEqual((status, out, said.partition(" (")[0]), (3, "", "trinorm: refused: input 2 1 bad-byte"))

    def test_a_closed_standard_error(self) -> None:
        """A census runs, and its output is no standard error of what it starts."""
        with tempfile.TemporaryDirectory() as folder:
            out = os.path.join(folder, "out")
            self.assertEqual(self.ran(f"census - --out '{out}' --command sig --jobs 1 2>&-")[:2], (0, ""))
            with open(out, encoding="utf8") as file:
                self.assertEqual(file.read().count('"answer": "bkaagj"'), 1)

    def test_a_process_without_standard_streams(self) -> None:
        """As a daemon has none: a census runs without signs, but not on a stream that isn't there."""
        with tempfile.NamedTemporaryFile() as out, mock.patch.object(sys, "stderr", None):
            self.assertEqual(trinorm.census(["bkaagj"], out.name, "sig", jobs=1), Ran(0, 1, 0))
        with mock.patch.object(sys, "stdin", None), self.assertRaisesRegex(trinorm.Failed, "standard input is closed"):
            trinorm.census("-", os.devnull, "sig", jobs=1)
        with mock.patch.object(sys, "stdout", None), self.assertRaisesRegex(trinorm.Failed, "standard output is closed"):
            trinorm.census([], "-", "sig", jobs=1)


if __name__ == "__main__":
    unittest.main()

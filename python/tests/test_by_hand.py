"""The tests that are run by hand: bench/by_hand.py runs scripts, and notes commit, day and result of those that pass."""
import contextlib
import io
import re
import sys
import tempfile
import unittest
from pathlib import Path
from unittest import mock

from trinorm.program import REPOSITORY

sys.path.insert(0, str(REPOSITORY / "bench"))

import by_hand  # noqa: E402


class ByHand(unittest.TestCase):
    def setUp(self) -> None:
        folder = tempfile.TemporaryDirectory()
        self.addCleanup(folder.cleanup)
        self.folder, self.page = Path(folder.name), Path(folder.name, "last_runs.txt")
        (self.folder / "good.py").write_text("import sys\nprint('first')\nprint(len(sys.argv),  'words')\n", "utf8")
        (self.folder / "bad.py").write_text("print('wrong')\nraise SystemExit(1)\n", "utf8")
        for name, value in (("program", lambda: "0" * 12), ("HERE", str(self.folder)), ("PAGE", str(self.page)), ("SCRIPTS", {"good": ["--lines", "7"], "bad": []}), ("SHORT", {"good": ["-1"]})):
            patch = mock.patch.object(by_hand, name, value)
            patch.start()
            self.addCleanup(patch.stop)

    def run_it(self, *names: str) -> int:
        with mock.patch.object(sys, "argv", ["by_hand.py", *names]), contextlib.redirect_stdout(io.StringIO()), \
                contextlib.redirect_stderr(io.StringIO()):
            return by_hand.main()

    def test_what_passes_is_noted(self) -> None:
        self.assertEqual(self.run_it("good"), 0)
        head, line = self.page.read_text("utf8").splitlines()
        self.assertTrue(head.startswith("# "))
        self.assertRegex(line, r"^good\.py --lines 7 \| [0-9a-f]{12}\+? \| 0{12} \| \d{4}-\d\d-\d\d \| 3 words$")

    def test_what_fails_keeps_its_line(self) -> None:
        self.page.write_text(f"{by_hand.HEAD}bad.py | 123 | 456 | 2026-01-01 | right\n", "utf8")
        self.assertEqual(self.run_it(), 1)
        lines = self.page.read_text("utf8").splitlines()
        self.assertEqual(lines[2], "bad.py | 123 | 456 | 2026-01-01 | right")
        self.assertRegex(lines[1], "^good")

    def test_short_runs_are_noted_besides(self) -> None:
        self.assertEqual((self.run_it("--short", "good"), self.run_it("good")), (0, 0))
        lines = [line.split(" | ") for line in self.page.read_text("utf8").splitlines()[1:]]
        self.assertEqual([(line[0], line[-1]) for line in lines], [("good.py --lines 7", "3 words"), ("good.py -1", "2 words")])
        self.assertEqual(by_hand.words_of("bad", True), ["bad.py"])
        self.assertEqual(self.run_it("--short", "no_script"), 2)

    def test_unknown_scripts(self) -> None:
        self.assertEqual(self.run_it("no_script"), 2)
        self.assertFalse(self.page.exists())


class Page(unittest.TestCase):
    def test_the_repository_s_page(self) -> None:
        for line in (REPOSITORY / "bench" / "last_runs.txt").read_text("utf8").splitlines():
            self.assertTrue(re.match(r"#|\w+\.py( \S+)* \| [0-9a-f]{12}\+? \| [0-9a-f]{12} \| \d{4}-\d\d-\d\d \| ", line), line)
        self.assertEqual([name for name in by_hand.SCRIPTS if not (REPOSITORY / "bench" / f"{name}.py").is_file()], [])
        self.assertLessEqual(set(by_hand.SHORT), set(by_hand.SCRIPTS))


if __name__ == "__main__":
    unittest.main()

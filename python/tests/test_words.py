"""The words that are explained: the form of their table, and their list on the page, by tools/words.py."""
import json
import shutil
import subprocess
import sys
import tempfile
import unittest
from pathlib import Path
from typing import Tuple

from trinorm.program import REPOSITORY

sys.path.insert(0, str(REPOSITORY / "tools"))

import words  # noqa: E402

TABLE = '{\n  "about": "Words.",\n  "words": {\n    "b": "The second.",\n    "A": "The first, χ."\n  }\n}\n'


class Form(unittest.TestCase):
    def test_right(self) -> None:
        self.assertEqual(list(words.faults(TABLE)), [])
        self.assertEqual(list(words.faults(words.TABLE.read_text("utf8"))), [])

    def test_wrong(self) -> None:
        for text, fault in (
            ("{", "it is not JSON"), (TABLE.replace("    ", "  "), "one line"), (TABLE[:-1], "one line"), (TABLE.replace("χ", "\\u03c7"), "without escapes"),
            (TABLE.replace("second", 'sec\\"ond'), "without escapes"), (TABLE.replace('"about"', '"what"'), "it must have `about`"), (TABLE.replace('"The second."', "2"), "with a text for each"),
            (TABLE.replace("second.", "second"), "the sentences of `b` must end"), (TABLE.replace('"A"', '"b"'), "one line"),
        ):
            self.assertIn(fault, "\n".join(words.faults(text)), text)

    def test_the_launcher_reads_the_same(self) -> None:
        known = json.loads(words.TABLE.read_text("utf8"))["words"]
        for word in known:
            done = subprocess.run(["awk", "-f", REPOSITORY / "launcher" / "words.awk", words.TABLE], env={"asked": word, "PATH": "/usr/bin:/bin"}, capture_output=True, text=True, check=False)
            self.assertEqual((done.returncode, done.stdout, done.stderr), (0, f"trinorm: {word}: {known[word]}\n", ""))


class Page(unittest.TestCase):
    def test_list(self) -> None:
        page = f"# A\n\n{words.MARKS[0]}\nold\n{words.MARKS[1]}\n\nmore\n"
        known = json.loads(TABLE)["words"]
        wanted = f"# A\n\n{words.MARKS[0]}\n\n- **A**: The first, χ.\n- **b**: The second.\n\n{words.MARKS[1]}\n\nmore\n"
        self.assertEqual(words.with_section(page, known), wanted)
        self.assertEqual(words.with_section(wanted, known), wanted)
        for lacking in (words.MARKS[0], words.MARKS[1], ""):
            with self.assertRaises(SystemExit):
                words.with_section(f"# A\n{lacking}\n", known)

    def test_the_page_of_the_repository(self) -> None:
        self.assertEqual(self.run_in(REPOSITORY, "--check"), (0, ""))

    def run_in(self, top: Path, *arguments: str) -> Tuple[int, str]:
        done = subprocess.run([sys.executable, str(top / "tools" / "words.py"), *arguments], capture_output=True, text=True, check=False)
        self.assertEqual(done.stderr, "")
        return done.returncode, done.stdout

    def test_written_and_checked(self) -> None:
        with tempfile.TemporaryDirectory() as folder:
            top = Path(folder)
            for name in ("tools", "docs", "python/trinorm"):
                (top / name).mkdir(parents=True)
            for name in ("words.py", "repository.py"):
                shutil.copy(REPOSITORY / "tools" / name, top / "tools")
            page, table = top / "docs" / "REFERENCE.md", top / "python" / "trinorm" / "words.json"
            page.write_text(f"{words.MARKS[0]}\n{words.MARKS[1]}\n", "utf8")
            table.write_text(TABLE, "utf8")
            self.assertEqual(self.run_in(top, "--check"), (1, "docs/REFERENCE.md does not have the words of words.json; run tools/words.py\n"))
            self.assertEqual(self.run_in(top), (0, ""))
            self.assertEqual(self.run_in(top, "--check"), (0, ""))
            table.write_text(TABLE[:-1], "utf8")
            self.assertEqual(self.run_in(top, "--check")[0], 1)


if __name__ == "__main__":
    unittest.main()

"""The sentences of the pages: what tools/prose.py finds, and that it finds none in the repository."""
import subprocess
import sys
import unittest
from typing import List

from trinorm.program import REPOSITORY

sys.path.insert(0, str(REPOSITORY / "tools"))

from prose import LONGEST, long_sentences, words  # noqa: E402

LONG = " ".join(["word"] * (LONGEST + 1))
SHORT = " ".join(["word"] * LONGEST)


class Prose(unittest.TestCase):
    def found(self, text: str) -> List[str]:
        return list(long_sentences(text))

    def test_words(self) -> None:
        self.assertEqual(words("A name `of three words` and [a link of five](page.md) - count once."), 7)
        self.assertEqual(words(""), 0)

    def test_sentences(self) -> None:
        self.assertEqual(self.found(f"{SHORT}. {SHORT}! **{SHORT}.** {SHORT}? (it said \"no.\") {SHORT}"), [])
        self.assertEqual(self.found(f"Short: {SHORT}. {SHORT}; word"), [f"Short: {SHORT}.", f"{SHORT}; word"])
        self.assertEqual(self.found(f"Short. {LONG}."), [f"{LONG}."])
        self.assertEqual(self.found(f"word\n{SHORT}."), [f"word {SHORT}."])

    def test_blocks(self) -> None:
        self.assertEqual(self.found(f"{SHORT}\n\n{SHORT}\n- {SHORT}\n1. {SHORT}\n| {SHORT} | {SHORT} |\n"), [])
        self.assertEqual(self.found(f"| a | {LONG} |\n"), [f"{LONG}"])

    def test_what_is_left_out(self) -> None:
        self.assertEqual(self.found(f"# {LONG}\n    {LONG}\n> {LONG}\n```\n{LONG}\n```\n"), [])
        self.assertEqual(self.found(f"<!-- rows: tools/floors.py -->\n{LONG}\n<!-- end of rows -->\n"), [])

    def test_nonsense(self) -> None:
        self.assertEqual(self.found(""), [])
        self.assertEqual(self.found("```\n[]()`|`` . : ! ? ((\n"), [])

    def test_the_repository(self) -> None:
        done = subprocess.run([sys.executable, str(REPOSITORY / "tools" / "prose.py"), "--check"], capture_output=True, text=True, check=False)
        self.assertEqual((done.returncode, done.stdout), (0, ""), done.stderr)


if __name__ == "__main__":
    unittest.main()

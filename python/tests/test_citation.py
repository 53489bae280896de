"""The sentences for a paper: as CLAIMS has them, with what the build noted."""
from __future__ import annotations

import re
import subprocess
import sys
import tempfile
import unittest
import unittest.mock
from pathlib import Path

from trinorm import citation, versions
from trinorm.errors import Failed
from trinorm.program import REPOSITORY

BUILD = "commit 0123abc\nkit rattle-kit-0 logic 12\nprogram aa11\nlibrary bb22\n"


class Citations(unittest.TestCase):
    """Sentences of made-up builds, and that of this one."""

    def sentences(self, build: str, *words: str) -> str:
        with unittest.mock.patch.object(versions, "build", lambda: build), unittest.mock.patch.object(versions, "version", lambda: "9.9"):
            return citation.sentences(*words)

    def test_the_sentences_are_those_of_claims(self) -> None:
        claims = (REPOSITORY / "docs" / "CLAIMS.md").read_text("utf8")
        quoted = re.search(r"(?m)^> (The list of all vertex normal surfaces of T .*)$", claims)
        assert quoted is not None
        made = quoted[1]
        for name, value in (("VERSION", "9.9"), ("COMMIT", "0123abc"), ("SUM", "aa11"), ("KIT", "rattle-kit-0")):
            made = made.replace(name, value)
        self.assertEqual(self.sentences(BUILD), made)
        self.assertIn(citation.READ.strip(), claims)

    def test_the_library_and_coordinates_are_named(self) -> None:
        said = self.sentences(BUILD, "library", "quad")
        self.assertIn("in quad coordinates", said)
        self.assertIn("SHA-256 of the library bb22, Rattle kit rattle-kit-0) and read by its Python package, which is tested. That", said)

    def test_what_is_unknown_cannot_be_cited(self) -> None:
        for build, missing in (("", "commit, kit and checksum"), ("commit 1\nkit k\n", "checksum")):
            with self.assertRaisesRegex(Failed, f"does not know its {missing}, so it cannot be cited"):
                self.sentences(build)

    def test_the_command_line_prints_both(self) -> None:
        with tempfile.TemporaryDirectory() as folder:
            done = subprocess.run([sys.executable, "-m", "trinorm", "cite", "--coords", "octagon"], cwd=folder, capture_output=True, text=True,
                                  env={"PYTHONPATH": str(Path(citation.__file__).parents[1])}, check=False)
        if done.returncode == 3:
            self.assertIn("cannot be cited", done.stderr)
        else:
            self.assertEqual((done.returncode, done.stdout.count("in octagon coordinates")), (0, 2))


if __name__ == "__main__":
    unittest.main()

"""The Rust crate over the proved archive."""
import os
import shutil
import subprocess
import tempfile
import unittest
from pathlib import Path
from typing import ClassVar

from tests.test_library import ARCHIVE
from trinorm.program import REPOSITORY

CRATE = REPOSITORY / "library" / "rust" / "trinorm"


@unittest.skipUnless(ARCHIVE.is_file() and shutil.which("cargo"), "the archive or cargo isn't there")
class Rust(unittest.TestCase):
    folder: ClassVar[Path]

    @classmethod
    def setUpClass(cls) -> None:
        folder = tempfile.TemporaryDirectory()
        cls.addClassCleanup(folder.cleanup)
        cls.folder = Path(folder.name)
        shutil.copytree(CRATE, cls.folder / "crate", ignore=shutil.ignore_patterns("target"))

    def cargo(self, *words: str) -> str:
        around = dict(os.environ, TRINORM_LIB_DIR=str(ARCHIVE.parent), CARGO_TARGET_DIR=str(self.folder / "target"))
        done = subprocess.run(["cargo", *words], cwd=self.folder / "crate", env=around, stdin=subprocess.DEVNULL, stdout=subprocess.PIPE,
                              stderr=subprocess.STDOUT, text=True, check=False)
        self.assertEqual(done.returncode, 0, done.stdout)
        return done.stdout

    def test_the_crate_s_own_tests(self) -> None:
        self.cargo("test", "--offline", "--quiet")

    def test_the_example(self) -> None:
        (self.folder / "signatures").write_text("# two\nbkaagj\ncPcbbbiht name\n")
        said = self.cargo("run", "--offline", "--quiet", "--example", "census", "--", str(self.folder / "signatures"))
        self.assertEqual(said.split("\n")[-3:], ["bkaagj 2", "cPcbbbiht 1", ""])


if __name__ == "__main__":
    unittest.main()

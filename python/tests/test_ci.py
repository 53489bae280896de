"""The merge gate, .ci/run: with which status it ends."""
import os
import shutil
import subprocess
import tempfile
import unittest
from pathlib import Path

from trinorm.program import REPOSITORY


class Gate(unittest.TestCase):
    def test_it_can_be_run(self) -> None:
        self.assertTrue(os.access(REPOSITORY / ".ci" / "run", os.X_OK))

    def test_its_status(self) -> None:
        """That of the tests, but flaky tests that passed in the end refuse no merge."""
        with tempfile.TemporaryDirectory() as folder:
            for name in (".ci", "tools"):
                Path(folder, name).mkdir()
            script = shutil.copy(REPOSITORY / ".ci" / "run", Path(folder, ".ci"))
            for status, expected in ((0, 0), (1, 1), (2, 2), (3, 0), (137, 137)):
                Path(folder, "tools", "test.py").write_text(f"import os, sys\nassert os.path.isdir('.ci') and sys.argv[1:] == []\nsys.exit({status})\n", "utf8")
                with self.subTest(status):
                    done = subprocess.run(["bash", script], cwd="/", stdin=subprocess.DEVNULL, capture_output=True, text=True, check=False)
                    self.assertEqual((done.returncode, done.stdout, done.stderr), (expected, "", ""))


if __name__ == "__main__":
    unittest.main()

"""A census of 20,000 lines whose answers are made up, stopped twice by a signal and resumed to its end: `bench/long_census.py`
does the same with ten million."""
import re
import subprocess
import sys
import unittest
from typing import List, Tuple

from trinorm.program import REPOSITORY

from .cases import timed

SCRIPT = str(REPOSITORY / "bench" / "long_census.py")
LINES = 20000


@unittest.skipUnless((REPOSITORY / "bench" / "long_census.py").exists(), "the repository's bench/ isn't there")
class LongCensus(unittest.TestCase):
    def run_it(self, number: str, status: str) -> List[Tuple[int, int]]:
        """The numbers of lines before and after each start."""
        # a pause, so that the signal comes before the end
        words = [sys.executable, SCRIPT, "--lines", str(LINES), "--signal", number, "--pause", "0.00005"]
        run = subprocess.run(words, capture_output=True, text=True, timeout=300, check=False)
        self.assertEqual(run.returncode, 0, run.stdout + run.stderr)
        *starts, last = run.stdout.splitlines()
        self.assertEqual(last, f"{LINES:,} lines, each once")
        self.assertEqual([line.rpartition(" ")[2] for line in starts], [status, status, "0", "0"])
        found = [re.findall(r"\A([\d,]+) lines before, ([\d,]+) after; ", line)[0] for line in starts]
        return [(int(before.replace(",", "")), int(after.replace(",", ""))) for before, after in found]

    def check(self, starts: List[Tuple[int, int]]) -> None:
        """Each start goes on where the one before ended; the first two end in the middle."""
        (none, first), (before, second), (earlier, third), last = starts
        self.assertEqual((none, before, earlier, third, last), (0, first, second, LINES, (LINES, LINES)))
        self.assertTrue(0 < first < second < LINES, starts)

    @timed
    def test_interrupted(self) -> None:
        self.check(self.run_it("INT", "130"))

    @timed
    def test_terminated(self) -> None:
        self.check(self.run_it("TERM", "143"))

    @timed
    def test_killed(self) -> None:
        self.check(self.run_it("KILL", "-9"))

    def test_nonsense(self) -> None:
        for words in (["--lines", "many"], ["--signal", "HUP"], ["--jobs", "0", "--lines", "10"], ["--pause", "long"]):
            run = subprocess.run([sys.executable, SCRIPT, *words], capture_output=True, timeout=120, check=False)
            self.assertNotEqual(run.returncode, 0, words)


if __name__ == "__main__":
    unittest.main()

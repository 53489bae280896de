"""What `py.typed` promises: mypy passes over the package, and over what its users write."""
import os
import shutil
import subprocess
import tempfile
import unittest
from typing import ClassVar, List

from trinorm.program import REPOSITORY

PACKAGE = REPOSITORY / "python"
# what a user writes, with the types that come out
USER = """
from pathlib import Path
from typing import List, Optional, Tuple

import trinorm
from trinorm import library
from trinorm.server import Server

vectors: List[Tuple[int, ...]] = trinorm.surfaces("cPcbbbiht", "quad", timeout=5)
verdicts: List[trinorm.Verdict] = trinorm.verify("cPcbbbiht", vectors, "quad")
table: trinorm.Table = trinorm.table([[(0, "1023"), (0, "1023"), None, "-"]])
isomorphism: Optional[trinorm.Isomorphism] = trinorm.same("bkaagj", table)
signature: str = trinorm.csig(table)
skeleton: trinorm.Info = table.info()
listed: List[Tuple[int, ...]] = table.surfaces("quad")
verdict: trinorm.Accepted = table.check(["14 0"])
shown: trinorm.ZeroEfficiency = trinorm.zero_efficient(table)
witness: Optional[trinorm.Surface] = shown.witness
if not verdict:
    why: str = verdict.required().hint
path = Path("a")
ran = trinorm.census(path, path, "sig", program=path)
loaded: library.Library = library.at(path)
with Server(path) as server:
    grouping: trinorm.Grouping = trinorm.group(["bkaagj", table], program=server)
    answer: str = server.run(["sig"], str(table), 5)
try:
    trinorm.crush(table, [0, 0, 1, 1, 0, 0, 0])
except trinorm.Refused as refused:
    hint: str = refused.hint
"""
WRONG = """
import trinorm

trinorm.surfaces(7)
vectors: str = trinorm.surfaces("bkaagj")
trinorm.make("one", 2)
trinorm.surfaces("bkaagj", coords="quads")
trinorm.described("bkaagj", "quad")
trinorm.surfaces("bkaagj", order="long")
trinorm.table("bkaagj").surfaces("quads")
trinorm.table("bkaagj").describe([], limit=5)
trinorm.table("bkaagj").count(arrays=True).number + trinorm.table("bkaagj").count().number
"""


@unittest.skipUnless(shutil.which("mypy"), "mypy isn't there")
class Types(unittest.TestCase):
    words: ClassVar[List[str]]

    @classmethod
    def setUpClass(cls) -> None:
        cache = tempfile.TemporaryDirectory()
        cls.addClassCleanup(cache.cleanup)
        cls.words = ["mypy", "--strict", "--python-version", "3.9", "--config-file", str(PACKAGE / "pyproject.toml"), "--cache-dir", cache.name]

    def mypy(self, *words: str) -> str:
        done = subprocess.run([*self.words, *words], cwd=PACKAGE, env=dict(os.environ, MYPYPATH=str(PACKAGE)),
                              stdout=subprocess.PIPE, stderr=subprocess.STDOUT, text=True, check=False)
        return done.stdout

    def test_the_package(self) -> None:
        self.assertIn("Success: no issues found", self.mypy("trinorm"))

    def test_its_users(self) -> None:
        self.assertIn("Success: no issues found", self.mypy("-c", USER))
        said = self.mypy("-c", WRONG)
        self.assertEqual(said.count(": error: "), 9, said)


if __name__ == "__main__":
    unittest.main()

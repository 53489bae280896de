"""A comparison with Regina: what is told of lists that differ, on the command line and in a file."""
import contextlib
import io
import json
import os
import tempfile
import unittest
from typing import Tuple

from trinorm.__main__ import main
from trinorm.comparisons import Comparison, compare
from trinorm.crosscheck import verdict_of

try:
    import regina
except ImportError:
    regina = None


class Lines(unittest.TestCase):
    def test_what_differs(self) -> None:
        same, other = {"trinorm": 1, "regina": 1, "trinorm_alone": [], "regina_alone": []}, {"trinorm": 1, "regina": 2, "trinorm_alone": [[1]], "regina_alone": [[2], [3]]}
        self.assertEqual(verdict_of({"signature": "a", "answer": {"quad": same}}), (True, ["a quad: the same 1"]))
        lines = ["a quad: trinorm 1, Regina 2", "  trinorm only: vec 1", "  Regina only: vec 2", "  Regina only: vec 3"]
        self.assertEqual(verdict_of({"signature": "a", "answer": {"standard": same, "quad": other}}), (False, ["a standard: the same 1", *lines]))
        self.assertEqual(verdict_of({"signature": "a", "refused": {"line": "refused: x"}}), (False, ["a: refused: x"]))
        self.assertEqual(verdict_of({"signature": "a", "failed": "no memory"}), (False, ["a: no memory"]))
        self.assertFalse(Comparison(2, 1, [], []).is_same)


@unittest.skipIf(regina is None, "this Python has no module regina")
class Crosscheck(unittest.TestCase):
    def run_it(self, *words: str) -> Tuple[int, str, str]:
        with contextlib.redirect_stdout(io.StringIO()) as said, contextlib.redirect_stderr(io.StringIO()) as error:
            status = main(["crosscheck", *words])
        return status, said.getvalue(), error.getvalue()

    def test_signatures(self) -> None:
        status, said, _ = self.run_it("bkaagj", "cPcbbbiht")
        self.assertEqual((status, said.count("the same")), (0, 6))
        self.assertEqual(self.run_it("cPcbbbiht", "--coords", "quad")[:2], (0, "cPcbbbiht quad: the same 4\n"))
        self.assertEqual(self.run_it("bkaagjx", "bkaagj")[0], 1)

    def test_a_list_that_differs(self) -> None:
        compared = compare("tri 1\n0:1032 0:1032 - -\n", "quad")["quad"]
        self.assertEqual((compared.is_same, compared.trinorm, compared.regina), (False, 3, 1))

    def test_a_file(self) -> None:
        with tempfile.TemporaryDirectory() as folder:
            given, out = os.path.join(folder, "signatures"), os.path.join(folder, "out")
            with open(given, "w", encoding="utf8") as file:
                file.write("bkaagj one\ncPcbbbiht two\n")
            self.assertEqual(self.run_it("--file", given, "--jobs", "2")[1].count("the same"), 6)
            self.assertEqual(self.run_it("--file", given, "--out", out)[0], 0)
            with open(out, encoding="utf8") as file:
                lines = {it["name"]: it for it in map(json.loads, file)}
            self.assertEqual(lines["two"]["answer"]["quad"], {"trinorm": 4, "regina": 4, "trinorm_alone": [], "regina_alone": []})
            self.assertIn("2 done before; 0 answered", self.run_it("--file", given, "--out", out)[2])
            self.assertEqual(self.run_it("--file", given, "bkaagj")[0], 3)


if __name__ == "__main__":
    unittest.main()

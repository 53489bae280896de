"""tools/twice.py: two items are in one group if and only if they are the same but for their names."""
import sys
import tempfile
import unittest
from pathlib import Path
from typing import List

from trinorm.program import REPOSITORY

sys.path.insert(0, str(REPOSITORY / "tools"))

from twice import groups_of, items_of, kept_groups, unexplained  # noqa: E402

LEMMA = "use Rattle.numbers.specs.Sizes.{small, ◌≤◌}\n%s : (x y : ℕ) → small x →\n    small y → (x + y) ≤ z\n%s x y s t = done\n"
FUNCTION = "use numbers::add;\nfn %s(first: u8, second: u8) -> u8\n    ensures { %s }\n{\n    let sum = add(first, second) + 12;\n    add(sum, sum)\n}\n"


class Groups(unittest.TestCase):
    def setUp(self) -> None:
        folder = tempfile.TemporaryDirectory()
        self.addCleanup(folder.cleanup)
        self.top = Path(folder.name)
        self.paths: List[str] = []

    def write(self, path: str, text: str) -> None:
        path = f"crates/{path}"
        (self.top / path).parent.mkdir(parents=True, exist_ok=True)
        (self.top / path).write_text(text, "utf8")
        self.paths.append(path)

    def groups(self) -> List[List[str]]:
        return [[item.name for item in group] for group in groups_of(items_of(self.top, self.paths))]

    def test_lemmas(self) -> None:
        one = LEMMA % ("one", "one")
        self.write("a/proofs/One.antt", one)
        self.write("b/proofs/Same.antt", one.replace("one", "same").replace("x", "n").replace("done", "by this"))
        self.write("c/proofs/Other.antt", one.replace("one", "other").replace("small y", "small z"))
        self.write("d/proofs/Second.antt", one.replace("one", "second").replace("numbers.specs", "texts.specs"))
        self.write("e/proofs/Call/Answers.antt", one)
        self.assertEqual(self.groups(), [["one", "same"]])

    def test_public_and_private(self) -> None:
        """A private copy of a public lemma or definition is one."""
        self.write("a/proofs/One.antt", "pub " + LEMMA % ("one", "one"))
        self.write("b/proofs/Same.antt", LEMMA % ("same", "same"))
        short = "%s : (List ℕ) → ℕ → ℕ\n%s xs n = length xs + n + 1 + 1 + 1\n"
        self.write("a/specs/Size.antt", "abbrev pub " + short % ("size", "size"))
        self.write("b/specs/Again.antt", "abbrev " + short % ("again", "again"))
        self.assertEqual(sorted(self.groups()), [["one", "same"], ["size", "again"]])

    def test_definitions_count_with_their_clauses(self) -> None:
        text = "pub size : (List ℕ) → ℕ → ℕ\nsize [] n = n + 1 + 1 + 1\nsize (x ∷ xs) n = size xs (n + 1)\n"
        self.write("a/specs/Sizes.antt", text)
        self.write("b/specs/Sizes.antt", text.replace("size", "width").replace("xs", "rest"))
        self.write("c/specs/Sizes.antt", text.replace("n + 1 + 1", "n + 2 + 1"))
        self.assertEqual(self.groups(), [["size", "width"]])

    def test_functions(self) -> None:
        self.write("a/src/lib.rt", FUNCTION % ("total", "result ≡ 3"))
        self.write("b/src/lib.rt", (FUNCTION % ("whole", "result ≡ 4")).replace("second", "last").replace("sum", "both"))
        self.write("c/src/lib.rt", (FUNCTION % ("double", "result ≡ 3")).replace("sum, sum", "sum, first"))
        self.write("d/src/lib.rt", (FUNCTION % ("joined", "result ≡ 3")).replace("numbers", "texts"))
        self.assertEqual(self.groups(), [["total", "whole"]])

    def test_copies_that_name_copies(self) -> None:
        """A function that calls its file's own helper is a copy of another one only if the helpers are copies."""
        caller = "fn call(x: u8) -> u8 {\n    helper(x, x) + helper(x, 2) + helper(1, x)\n}\n"
        for crate, helper in (("a", FUNCTION), ("b", FUNCTION), ("c", FUNCTION.replace("+ 12", "+ 13"))):
            self.write(f"{crate}/src/lib.rt", helper % ("helper", "⊤") + caller)
        self.assertEqual(self.groups(), [["call", "call"], ["helper", "helper"]])

    def test_accessors_of_different_fields(self) -> None:
        body = "fn %s(&self) -> usize\n    ensures { ⊤ }\n{\n    self.%s.len().max(1).min(1_000)\n}\n"
        self.write("a/src/lib.rt", body % ("rows", "rows") + body % ("columns", "columns"))
        self.assertEqual(self.groups(), [])

    def test_abbreviations_count_with_their_clauses(self) -> None:
        """Also if the type of their values has a sign of a proposition."""
        text = "abbrev %s : List (ℕ × ℕ) → ℕ → List (ℕ × ℕ)\n%s xs n = (n, n) ∷ (n, n + %s) ∷ xs\n"
        self.write("a/proofs/One.antt", text % ("one", "one", "1") + text % ("two", "two", "2"))
        self.assertEqual(self.groups(), [])

    def test_kept_groups(self) -> None:
        """A group without a reason is named, and so is a reason whose group is gone."""
        one = LEMMA % ("one", "one")
        self.write("a/proofs/One.antt", one)
        self.write("b/proofs/Same.antt", one.replace("one", "same"))
        groups = groups_of(items_of(self.top, self.paths))
        kept = "# a comment\n\ncrates/a/proofs/One.antt: one\ncrates/b/proofs/Same.antt: same\nTwo examples.\n"
        self.assertEqual(unexplained(groups, kept_groups(kept)), [])
        for text in ("", kept.replace("Two examples.\n", "")):
            self.assertEqual(unexplained(groups, kept_groups(text)),
                             ["2 times the same: crates/a/proofs/One.antt: one, crates/b/proofs/Same.antt: same"])
        gone = kept + "\ncrates/c/proofs/C.antt: gone\ncrates/a/proofs/One.antt: one\nOnce the same.\n"
        self.assertEqual(unexplained(groups, kept_groups(gone)),
                         ["no longer the same: crates/a/proofs/One.antt: one, crates/c/proofs/C.antt: gone"])


if __name__ == "__main__":
    unittest.main()

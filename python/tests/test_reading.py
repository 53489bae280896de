"""The page of the theorem in full: that tools/reading.py explains each word and each sign, and has definitions before their uses."""
import re
import subprocess
import sys
import unittest
from typing import Any, ClassVar, Set

from trinorm.program import REPOSITORY

sys.path.insert(0, str(REPOSITORY / "tools"))

import reading  # noqa: E402
from definitions import Definitions  # noqa: E402


class Words(unittest.TestCase):
    def test_words_and_signs(self) -> None:
        text = "abbrev pub IsHalf : ℕ → ℕ → Type 0\nIsHalf h n = h + h ≡ n"
        self.assertEqual(reading.unexplained([text], ["IsHalf"]), [])
        self.assertEqual(reading.unexplained([text], []), ["IsHalf"])
        self.assertEqual(reading.unexplained([text + " ⊕ unknown"], ["IsHalf"]), ["⊕", "unknown"])
        self.assertEqual(reading.unexplained(["abbrev pub x : ℕ\nx = a - b"], ["x"]), ["a", "-", "b"])
        self.assertEqual(reading.unexplained([""], []), [])

    def test_bound_variables(self) -> None:
        text = "pub record R (a b : ℕ) (f : ℕ → ℕ) : Type 0 where\n  pub field : (c d : ℕ) → f c ≡ a\n  pub other : All (λ x. x ≡ r.g) (map (λ (y : ℕ). y) [])"
        self.assertEqual(reading.bound(text), {"a", "b", "f", "field", "other", "c", "d", "x", "y", "g"})
        self.assertEqual(reading.bound("abbrev pub g : {A : Type 0} → List A → ℕ\ng {A} [] = 0\ng {A} (x ∷ xs) = 1"), {"A", "x", "xs"})

    def test_comments_need_no_explanation(self) -> None:
        self.assertEqual(reading.unexplained(["  -- some words ⊕\n  pub a : ℕ"], []), [])

    def test_no_explanation_twice(self) -> None:
        keys = [key for one in reading.EXPLAINED for key in one.keys]
        self.assertEqual(sorted(keys), sorted(set(keys)))

    def test_each_explanation_has_its_words(self) -> None:
        for one in reading.EXPLAINED:
            for key in one.keys:
                if key not in ("(", ")", "{", "}", "pos", "K"):
                    self.assertIn(key, one.text)

    def test_faults(self) -> None:
        item = Definitions().get(("table_definitions", "Table", "max_tets"))
        assert item is not None
        found = "\n".join(reading.faults([item], ["a ⊕ b"], []))
        for words in ("no explanation of a, ⊕, b", "sentences on what is not on the page: AnswersSurfaces", "explanations of what is not on the page: ≡"):
            self.assertIn(words, found)
        self.assertIn("no sentence on same_faces", "\n".join(reading.faults([item._replace(comment="")], [], ["same_faces"])))

    def test_a_definition_has_the_sentence_of_its_name_on_the_page(self) -> None:
        item = Definitions().get(("cone_definitions", "Rows", "Row"))
        assert item is not None
        self.assertTrue(reading.sentence("EquationRow", item).startswith("The row of an equation: "))
        self.assertTrue(reading.sentence("Row", item).startswith("A row of a gluing table: "))
        self.assertEqual(reading.sentence("Unknown", item._replace(comment="-- a row,\n-- with columns")), "A row, with columns.")


class Page(unittest.TestCase):
    text: ClassVar[str]

    @classmethod
    def setUpClass(cls) -> None:
        cls.text = reading.PAGE.read_text("utf8")

    def test_current(self) -> None:
        done = subprocess.run([sys.executable, str(REPOSITORY / "tools" / "reading.py"), "--check"], capture_output=True, text=True, check=False)
        self.assertEqual((done.returncode, done.stdout), (0, ""), done.stdout + done.stderr)

    def test_parts(self) -> None:
        titles = ["The clause", "Words and signs", "1. The table", "2. The equations", "3. The clashing pairs", "4. The list", "The call"]
        self.assertEqual(re.findall(r"(?m)^## (.*)$", self.text), titles)

    def test_each_definition_is_after_what_it_uses(self) -> None:
        definitions = Definitions()
        seen: Set[Any] = set()
        places = {}
        for part in reading.PARTS:
            for item in reading.ordered(definitions, part.roots, seen):
                for key in definitions.uses(item):
                    self.assertTrue(key in places or key[2] in reading.LEFT_OUT, f"{item.name} uses {key[2]}")
                places[item.crate, item.file, item.name] = item
        self.assertIn(("workbench", "Prints", "IsCutShort"), places)

    def test_two_definitions_of_one_name(self) -> None:
        self.assertIn("EquationRow = List (ℕ × ℤ)", self.text)
        self.assertIn("\nRow = List (Option Gluing)", self.text)
        self.assertIn("IsZeroAt : EquationRow → List ℕ", self.text)

    def test_the_clause_and_the_call(self) -> None:
        self.assertIn("ensures all_surfaces {", self.text)
        self.assertIn("\nfn main(rt: HostRuntime)", self.text)
        self.assertRegex(self.text, r"list rest: \d+ lines in \d+ files\.")


if __name__ == "__main__":
    unittest.main()

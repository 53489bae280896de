"""What is taken for a triangulation."""
import unittest
from typing import Any, Tuple

from trinorm import Gluing, Table
from trinorm.tables import document, size_of_signature

TEXT = "tri 2\n1:0123 1:1203 1:1032 1:3021\n0:0123 0:1320 0:2013 0:1032\n"


class Forms(unittest.TestCase):
    def test_signature(self) -> None:
        self.assertEqual(document("cPcbbbiht"), "sig cPcbbbiht\n")
        self.assertEqual(document("cPcbbbiht\n"), "sig cPcbbbiht\n")

    def test_text(self) -> None:
        self.assertEqual(document(TEXT), TEXT)
        self.assertEqual(document("# a comment\nsig bkaagj"), "# a comment\nsig bkaagj\n")

    def test_rows(self) -> None:
        lines = TEXT.splitlines()[1:]
        self.assertEqual(document(lines), TEXT)
        self.assertEqual(document([line.split() for line in lines]), TEXT)
        self.assertEqual(document(Table.parse(TEXT)), TEXT)
        self.assertEqual(document([[(0, "1023"), (0, (1, 0, 2, 3)), Gluing(0, (1, 2, 3, 0)), "0:3012"]]), "tri 1\n0:1023 0:1023 0:1230 0:3012\n")
        self.assertEqual(document([[None, "-", None, "-"]]), "tri 1\n- - - -\n")
        self.assertEqual(document([]), "tri 0\n")

    def test_what_is_none(self) -> None:
        wrong: Tuple[Any, ...] = (["- - -"], ["0:012 - - -"], [[1, 2, 3, 4]], ["0 - - -"])
        for rows in wrong:
            with self.assertRaises((ValueError, TypeError)):
                document(rows)
        with self.assertRaises(ValueError):
            Table.parse("tri 2\n- - - -\n")


class Sizes(unittest.TestCase):
    def test_head(self) -> None:
        self.assertEqual([size_of_signature(it) for it in ("a", "bkaagj", "+LM", "-b-LM", "-cabLM", "-cLa", "-cOpaaa")], [0, 1, 62, 63, 64, 37, 15 * 64 + 40])


if __name__ == "__main__":
    unittest.main()

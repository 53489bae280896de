"""How vectors are read."""
import random
import unittest
from typing import List, Tuple

from trinorm import Failed
from trinorm.answers import numbers, read_made, read_vector


class Vectors(unittest.TestCase):
    def test_digits_are_read_as_other_numbers_are(self) -> None:
        drawn = random.Random(7)
        for width in range(70):
            for most in (1, 9, 10, 2000, 2 ** 127):
                entries = tuple(drawn.choice((drawn.randrange(most), drawn.randrange(10))) for _ in range(width))
                self.assertEqual(read_vector(" ".join(["vec", *map(str, entries)])), entries)

    def test_other_spaces_and_no_numbers(self) -> None:
        for line in ("vec 123", "vec 1 23", "vec 12 3", "vec  1", "vec 1 ", "vec -1 2"):
            self.assertEqual(read_vector(line), numbers(line))
        for line in ("vec x", "vec 1 x", "vec 1 \ufffd", "vec 1 \u00b2"):
            with self.assertRaises(ValueError):
                read_vector(line)


class Made(unittest.TestCase):
    """What `make` prints has as many moves as were asked for, unless the triangulation is so large that no move may have been legal."""

    @staticmethod
    def lines(tetrahedra: int, moves: List[str]) -> List[str]:
        return [f"tri {tetrahedra}", *["- - - -"] * tetrahedra, *moves]

    def test_moves(self) -> None:
        cases: Tuple[Tuple[int, List[str]], ...] = ((1, []), (4, ["41 0 0"]), (997, ["41 0 0"] * 332))
        for tetrahedra, moves in cases:
            self.assertEqual(len(read_made(self.lines(tetrahedra, moves), len(moves)).moves), len(moves))
            with self.assertRaisesRegex(Failed, f"{len(moves)} moves instead of {len(moves) + 1}"):
                read_made(self.lines(tetrahedra, moves), len(moves) + 1)
        self.assertEqual(len(read_made(self.lines(998, ["41 0 0"] * 332 + ["32 0 01"]), 1000).moves), 333)

    def test_where_they_lead(self) -> None:
        wrong: Tuple[List[str], ...] = ([], ["41 0 0", "41 0 0"], ["32 0 01"], ["14 0"], ["23 0 0"])
        for moves in wrong:
            with self.assertRaisesRegex(Failed, "at the end of the moves instead of 1"):
                read_made(self.lines(4, moves), len(moves))


if __name__ == "__main__":
    unittest.main()

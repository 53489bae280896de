"""The pictures of the pages are those that the package draws."""
import runpy
import sys
import unittest
from pathlib import Path
from unittest import mock

TOP = Path(__file__).resolve().parents[2]


class Pages(unittest.TestCase):
    def test_pictures_are_current(self) -> None:
        with mock.patch.object(sys, "path", [str(TOP / "bench"), *sys.path]):
            drawn = runpy.run_path(str(TOP / "bench" / "draw_pages.py"))["drawn"]()
        for name, picture in drawn.items():
            self.assertEqual((TOP / "docs" / name).read_text("utf8"), picture, f"{name}: run bench/draw_pages.py")
            self.assertIn(f"]({name})", (TOP / "docs" / "PYTHON.md").read_text("utf8"))


if __name__ == "__main__":
    unittest.main()

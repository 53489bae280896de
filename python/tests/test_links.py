"""The links of the pages: what tools/links.py finds, and that it finds none in the repository."""
import subprocess
import sys
import tempfile
import unittest
from pathlib import Path
from typing import List

from trinorm.program import REPOSITORY

sys.path.insert(0, str(REPOSITORY / "tools"))

from links import anchor, broken_links  # noqa: E402


class Links(unittest.TestCase):
    def broken(self, text: str) -> List[str]:
        with tempfile.TemporaryDirectory() as folder:
            page = Path(folder) / "page.md"
            page.write_text(text, "utf8")
            (Path(folder) / "other.md").write_text("# Other page\n\n## `same`: is it so?\n\n    ## no heading\n", "utf8")
            return list(broken_links(page))

    def test_anchors(self) -> None:
        self.assertEqual(anchor("`csig`: the signature of several components"), "csig-the-signature-of-several-components")
        self.assertEqual(anchor("Is it 0-efficient?"), "is-it-0-efficient")

    def test_links_with_a_target(self) -> None:
        text = "# This page\n[a](other.md) [b](other.md#same-is-it-so) [c](#this-page) [d](https://example.org/#x) [e](mailto:a@example.org)\n"
        self.assertEqual(self.broken(text), [])

    def test_links_without_a_target(self) -> None:
        text = "# This page\n[a](gone.md) [b](other.md#no-heading) [c](#there)\n\n    [d](gone.md)\n\n```\n[e](gone.md)\n```\n"
        self.assertEqual(self.broken(text), ["gone.md", "other.md#no-heading", "#there"])

    def test_nonsense(self) -> None:
        self.assertEqual(self.broken(""), [])
        self.assertEqual(self.broken("](((#\n[]()[x]( ) ](#)"), [])

    def test_the_repository(self) -> None:
        done = subprocess.run([sys.executable, str(REPOSITORY / "tools" / "links.py")], capture_output=True, text=True, check=False)
        self.assertEqual((done.returncode, done.stdout), (0, ""))

    def test_no_page(self) -> None:
        done = subprocess.run([sys.executable, str(REPOSITORY / "tools" / "links.py"), "no/page.md"], capture_output=True, text=True, check=False)
        self.assertEqual(done.returncode, 1)


if __name__ == "__main__":
    unittest.main()

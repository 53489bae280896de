"""The places of a command: who keeps them, which files a new one needs, and what recipes lack."""
import subprocess
import sys
import unittest
from typing import ClassVar, List
from unittest import mock

from trinorm.program import REPOSITORY

sys.path.insert(0, str(REPOSITORY / "tools"))

import places  # noqa: E402
from places import BY_TOOL, CODE, PAGES, PROVED, TESTS, File, Place, Recipe, lacking, naming_all, section, word  # noqa: E402

PAGE = """\
`csig` and csig.

<!-- subjects: tools/floors.py -->
| `csig` |
<!-- end of subjects -->

    $ trinorm csig
csig
"""


class Kinds(unittest.TestCase):
    def test_who_keeps_a_file(self) -> None:
        for path, kind in (("crates/workbench/src/dispatch.rt", PROVED), ("crates/worked_rows/src/sig_rows.rt", TESTS),
                           ("crates/skeleton/must-fail/a.edit", TESTS), ("python/tests/test_web.py", TESTS), ("web/tests/memory.js", TESTS),
                           ("python/trinorm/commands.txt", BY_TOOL), ("docs/LAWS.md", BY_TOOL), ("docs/GUIDE.md", PAGES), ("README.md", PAGES),
                           ("python/trinorm/commands.py", CODE), ("launcher/hints.sh", CODE), ("library/rust/trinorm/tests/answers.rs", TESTS)):
            self.assertEqual(File(path, "").kind(), kind, path)

    def test_the_files_of_tools_are_there(self) -> None:
        for path, tool in places.MADE.items():
            self.assertTrue((REPOSITORY / path).is_file(), path)
            self.assertIn(path.rpartition("/")[2], (REPOSITORY / tool).read_text("utf8"), tool)


class Places(unittest.TestCase):
    files: ClassVar[List[File]]

    @classmethod
    def setUpClass(cls) -> None:
        cls.files = places.files_of(REPOSITORY)

    def test_a_name_is_a_whole_word(self) -> None:
        for text, found in (("csig", True), ("Csig(x)", True), ("`csig`,", True), ("csigs", False), ("csig-x", False), ("a_csig", False)):
            self.assertEqual(word("csig", "Csig").search(text) is not None, found, text)

    def test_pages_count_by_their_code(self) -> None:
        """What a tool makes of a page is the tool's, and words outside code do not count."""
        found = places.places([File("docs/A.md", PAGE), File("web/a.js", "'csig', csig\ncsig\n"), File("b.sh", "sig")], word("csig"))
        self.assertEqual(found, [Place(BY_TOOL, "docs/A.md", 1), Place(CODE, "web/a.js", 2), Place(PAGES, "docs/A.md", 2)])

    def test_files_that_name_all(self) -> None:
        names = [word("sig"), word("info")]
        files = [File("a.py", "sig info"), File("b.py", "sig"), File("docs/LAWS.md", "`sig` `info`"), File("c.md", "`sig` info"), File("d.md", "`sig`, `info`")]
        self.assertEqual([file.path for file in naming_all(files, names)], ["a.py", "d.md"])

    def test_the_report_of_each_command(self) -> None:
        for name in ("pi1", "check"):
            lines = list(places.report(self.files, name))
            self.assertRegex(lines[0], rf"^{name}: \d+ files, \d+ lines$")
            self.assertIn("  python/trinorm/commands.py", "\n".join(lines))
        needed = {file.path for file in places.for_a_new_command(self.files)}
        self.assertLessEqual({"docs/REFERENCE.md", "python/trinorm/commands.py", "crates/workbench/src/dispatch.rt"}, needed)
        self.assertFalse(needed & {"README.md", "python/trinorm/commands.txt", "python/trinorm/batch.py", "python/trinorm/__init__.py", "tools/floors.py"})

    def test_no_such_command(self) -> None:
        done = subprocess.run([sys.executable, "tools/places.py", "homology"], cwd=REPOSITORY, stderr=subprocess.PIPE, text=True, check=False)
        self.assertEqual((done.returncode, done.stderr), (1, "no command homology\n"))


class Recipes(unittest.TestCase):
    PAGE = "**After each of these**, change `bench/all.py`.\n\n### One\n\n`reader`: src/lib.rt; `a.py`\n\n### Two\n\n`writer`\n"

    def lacks(self, path: str, by_crate: bool = False) -> List[str]:
        recipe = Recipe("One", lambda files: list(files), by_crate)
        with mock.patch.object(places, "RECIPES", (recipe,)):
            return list(lacking([File(path, "")], self.PAGE))

    def test_sections(self) -> None:
        self.assertIn("src/lib.rt", section(self.PAGE, "One"))
        self.assertNotIn("writer", section(self.PAGE, "One"))
        self.assertIn("bench/all.py", section(self.PAGE, "Two"))

    def test_what_is_named(self) -> None:
        for path in ("crates/reader/src/lib.rt", "python/trinorm/a.py", "bench/all.py"):
            self.assertEqual(self.lacks(path), [])
        for path in ("crates/reader/src/other.rt", "crates/writer/src/lib.rt", "b.py", "a.js"):
            self.assertEqual(self.lacks(path), [f"docs/ARCHITECTURE.md, One: {path} is not named"])
        self.assertEqual(self.lacks("crates/reader/src/other.rt", by_crate=True), [])

    def test_a_case_for_each_system(self) -> None:
        three = "f Standard x = 0\nf Quad x = 1\nf Octagon x = 2\n"
        arms = "    Coords::Standard => 7,\n    Coords::Quad => 3,\n    Coords::Octagon => 10,\n"
        for text, has in ((three, True), (three.replace("f Quad", "g Quad"), False), (arms, True), ("use Coords.{Standard, Quad, Octagon}\n", False)):
            self.assertEqual(places.has_clauses(File("crates/a/specs/A.antt", text), ["Standard", "Quad", "Octagon"]), has, text)

    def test_each_recipe_needs_files_and_names_them(self) -> None:
        files = places.files_of(REPOSITORY)
        for recipe in places.RECIPES:
            self.assertGreater(len(recipe.needs(files)), 4, recipe.heading)
        subprocess.run([sys.executable, "tools/places.py", "--check"], cwd=REPOSITORY, check=True)


if __name__ == "__main__":
    unittest.main()

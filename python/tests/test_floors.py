"""The order of the crates: what tools/floors.py refuses, the longest chain, and that nothing it writes is stale."""
import subprocess
import sys
import tempfile
import unittest
from pathlib import Path
from typing import Collection, Dict, List, Optional

from trinorm.program import REPOSITORY

sys.path.insert(0, str(REPOSITORY / "tools"))

from build_times import NotOfThisRun, Plan, Times, Took, is_sealed, read_times, run_of, sealed, write_times  # noqa: E402
from floors import first_sentence  # noqa: E402
from page_facts import imported, listed, misnamed, numbers, unlisted, with_numbers, wrong_stars  # noqa: E402
from refusals import functions_of, kind, refusals  # noqa: E402


LAW = "pub fn law()\n    ensures { Holds }\n{}\n"
CODE = "fn sign(x: u8) -> u8\n    requires { x.now ≤\n        200 }\n    ensures value { result ≡ 1 }\n{\n    1\n}\n"


class Refusals(unittest.TestCase):
    def setUp(self) -> None:
        folder = tempfile.TemporaryDirectory()
        self.addCleanup(folder.cleanup)
        self.top = Path(folder.name)
        self.crates: Dict[str, List[str]] = {}
        self.add("word_definitions", [], "// words")
        self.add("word_laws", ["word_definitions"], "ghost use Rattle.word_definitions.specs.Words;\n" + LAW)
        self.add("reader", ["word_definitions", "clap"], "use word_definitions::Word;\nuse clap::Arg;\n" + CODE)

    def add(self, name: str, below: List[str], text: str, specs: str = "") -> None:
        for part in ("src", "specs"):
            (self.top / "crates" / name / part).mkdir(parents=True)
        (self.top / "crates" / name / "src" / "lib.rt").write_text(text)
        (self.top / "crates" / name / "specs" / "Laws.antt").write_text(specs)
        self.crates[name] = below

    def faults(self, subjects: Optional[Collection[str]] = None) -> List[str]:
        return refusals(self.top, self.crates, self.crates if subjects is None else subjects)

    def test_nothing_is_refused(self) -> None:
        self.assertEqual(self.faults(), [])

    def test_laws_on_code(self) -> None:
        self.add("reader_laws", ["reader"], "use reader::Reader;\n" + LAW)
        self.add("more_definitions", ["word_laws"], "use word_laws::Law;")
        self.assertEqual(self.faults(), ["refused: reader_laws, of the laws, names reader", "refused: more_definitions, of the definitions, names word_laws"])

    def test_too_much_and_too_little(self) -> None:
        self.add("writer", ["word_definitions"], "// use word_definitions::Word;\nuse reader::Reader;\n" + CODE, "-- Rattle.word_laws.specs.Laws\n")
        self.assertEqual(self.faults(), [
            "refused: writer lists word_definitions, and no file of it names that",
            "refused: writer doesn't list reader, which a file of it names",
        ])

    def test_subjects(self) -> None:
        self.assertEqual(self.faults(["word_laws", "reader", "gone"]), [
            "refused: word_definitions has no subject in tools/floors.py", "refused: gone has a subject in tools/floors.py, and no line in crates.txt",
        ])

    def test_code_where_there_should_be_none(self) -> None:
        self.add("sum_definitions", [], "impl From<Full> for Fault {\n" + CODE.replace("sign", "from") + "}\n" + CODE)
        self.add("sum_laws", [], LAW.replace("{}", "{\n    add(1)\n}"))
        self.add("no_laws", [], "//! Laws.")
        self.add("adder", [], LAW)
        self.assertEqual(self.faults(), [
            "refused: sum_definitions, of the definitions, has the function sign with a body",
            "refused: sum_laws, of the laws, has the function law with a body",
            "refused: no_laws, of the laws, has no law",
            "refused: adder has no code, only laws, and its name does not end in _laws",
        ])

    def test_statements_that_nothing_cites(self) -> None:
        specs = """\
use Rattle.std.specs.Prelude.{ℕ}
-- a number
pub record Number : Type 0 where
  pub value : ℕ

-- Theorem: it is cited.
abbrev pub Holds : Type 0
Holds = Within → Number

abbrev pub Within : Type 0
Within = ℕ

-- Uncited
abbrev pub IsAlone : Type 0
IsAlone = Holds

pub IsSmall : ℕ → Type 0
IsSmall n = n < 2
"""
        self.add("sum_laws", [], LAW, specs)
        self.assertEqual(self.faults(), ["refused: sum_laws states IsAlone, and no contract cites it"])

    def test_what_stands_below_all_names_none(self) -> None:
        self.add("basic_lemmas", ["word_definitions"], "ghost use Rattle.word_definitions.specs.Words;")
        self.assertEqual(self.faults(), ["refused: basic_lemmas, of the laws, names word_definitions"])

    def test_functions(self) -> None:
        """Contracts with several lines and braces, results that hold a `;`, and methods without a body are read."""
        text = "trait T {\n    fn none(&self) -> u8\n        ensures { x ≡ {} };\n}\n" + CODE.replace("u8", "[u8; 4]") + LAW
        self.assertEqual([(it.name, it.body, it.converts) for it in functions_of(text)], [("sign", "1", False), ("law", "", False)])
        self.assertEqual(next(functions_of(CODE)).contract, "requires { x.now ≤\n        200 }ensures value { result ≡ 1 }")

    def test_kinds(self) -> None:
        for name, wanted in (("a_definitions", "definitions"), ("a_laws", "laws"), ("basic_lemmas", "laws"), ("trinorm", "program"), ("reader", "code")):
            self.assertEqual(kind(name), wanted)


class Order(unittest.TestCase):
    def test_longest_chain(self) -> None:
        below: Dict[str, List[str]] = {"a": [], "b": ["a"], "c": ["a"], "d": ["b", "c"]}
        times = Times(0, {name: Took(seconds, 0) for name, seconds in zip("abcd", (1.0, 5.0, 2.0, 1.0))})
        self.assertEqual(Plan(below, times, 2).longest_chain(), ["a", "b", "d"])

    def test_a_measured_table(self) -> None:
        """A table has the checksum of its rows; one in which a row, the run or a comment was changed has not."""
        with tempfile.TemporaryDirectory() as folder:
            path = Path(folder, "times.txt")
            write_times(path, ["a", "b"], {"b": Took(7.4, 300), "a": Took(2.0, 20), "late": Took(1.0, 1)}, Path(folder), "commit abc, kit 1")
            text = path.read_text()
            self.assertEqual(read_times(path).crates, {"a": Took(2.0, 20), "b": Took(7.0, 300), "late": Took(1.0, 1)})
        self.assertTrue(is_sealed(text))
        for old, new in (("b 7", "b 8"), ("late 1 1\n", ""), ("disk", "disk 9\ndisk"), ("commit abc", "commit abd"), ("of a processor", ""), ("# checksum", "#")):
            self.assertIn(old, text)
            self.assertFalse(is_sealed(text.replace(old, new)), old)

    def test_the_table_of_a_run(self) -> None:
        """The log of a run has to prove the crates of the table, to its end, in no less time."""
        table = Times(5, {"a": Took(90.0, 20), "b": Took(30.0, 300)})
        log = ("trinorm: proves all 2 crates and builds the program once: about 1 min, by 2 jobs at a time, and 1 GB of disk\n"
               "trinorm: proving and building, 1 of 2 crates done: a (about 1 min left)\n"
               "trinorm: proving and building, 2 of 2 crates done: b (less than a minute left)\n"
               "trinorm: built in 61 s: version 1, commit abc with changes, rattle-kit-9 logic 12, program sha256 77\n")
        self.assertEqual(run_of(table, log), "commit abc with changes, rattle-kit-9 logic 12")
        self.assertTrue(is_sealed(sealed("disk 5\na 90 20\n", run_of(table, log))))
        for old, new in (("built in", "stopped after"), ("done: b", "done: c"), ("61 s", "59 s"), ("proves all 2", "proves 1 of the 2"), ("2 jobs", "1 job")):
            self.assertIn(old, log)
            with self.assertRaises(NotOfThisRun):
                run_of(table, log.replace(old, new))

    def test_definitions_of_code(self) -> None:
        self.assertEqual(first_sentence("-- Rows | rays,\n-- of a step. And more.\nuse Rattle.std\n-- a ray"), "Rows \\| rays, of a step")
        self.assertEqual(first_sentence("use Rattle.std\n"), "")

    def test_numbers_of_pages(self) -> None:
        counted = numbers(REPOSITORY)
        self.assertGreater(counted["crates"], counted["built-crates"])
        self.assertGreater(counted["edits"], 300)
        self.assertEqual(with_numbers("all <!--crates-->7<!--/--> of <!--x-->8<!--/-->, <!-- a note -->", {"crates": 113}),
                         "all <!--crates-->113<!--/--> of <!--x-->?<!--/-->, <!-- a note -->")
        for path in ("README.md", *(f"docs/{it.name}" for it in (REPOSITORY / "docs").glob("*.md"))):
            self.assertNotIn("-->?<!--", (REPOSITORY / path).read_text("utf8"), path)

    def test_definitions_of_contracts(self) -> None:
        """What the contracts of the program and the library import is named by DEFINITIONS."""
        page = (REPOSITORY / "docs" / "DEFINITIONS.md").read_text("utf8")
        self.assertIn(("workbench", "Prints"), set(imported(REPOSITORY)))
        self.assertIn(("surface_definitions", "`Coords`"), set(imported(REPOSITORY)))
        self.assertEqual(unlisted(REPOSITORY, page), [])
        self.assertEqual(unlisted(REPOSITORY, page.replace("`surface_equation_laws`: Entries, Weights, Caps, Bounds, BoundedTables", "`surface_equation_laws`: Entries")), [
            "refused: docs/DEFINITIONS.md does not name BoundedTables of surface_equation_laws, which a contract of the program or the library imports"])
        self.assertEqual(listed("| rows | `one`: A, the enum `B`, C; `two`: D | E |\n`three`: F"), {("one", "A"), ("one", "the"), ("one", "enum"), ("one", "`B`"), ("one", "C"), ("two", "D")})

    def test_files_of_definitions(self) -> None:
        """Each file that a row of DEFINITIONS names is there."""
        page = (REPOSITORY / "docs" / "DEFINITIONS.md").read_text("utf8")
        self.assertEqual(misnamed(REPOSITORY, page), [])
        self.assertEqual(misnamed(REPOSITORY, page.replace("HoldingRows, Listings", "Met, Listings")), [
            "refused: docs/DEFINITIONS.md names Met of cone_definitions, which has no such file"])

    def test_stars(self) -> None:
        page = (REPOSITORY / "docs" / "CLAIMS.md").read_text("utf8")
        self.assertEqual(wrong_stars(REPOSITORY, page), [])
        self.assertEqual(wrong_stars(REPOSITORY, "(`surface_laws`\\*: `lifts_join`; `surface_euler_laws`: `polygons`; `no_laws`: `x`)"), [
            "refused: docs/CLAIMS.md names surface_euler_laws without a star", "refused: docs/CLAIMS.md names surface_laws with a star"])

    def test_nothing_is_stale(self) -> None:
        done = subprocess.run([sys.executable, str(REPOSITORY / "tools" / "floors.py"), "--check"], capture_output=True, text=True, check=False)
        self.assertEqual((done.returncode, done.stdout), (0, ""))


if __name__ == "__main__":
    unittest.main()

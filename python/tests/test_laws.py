"""The page of laws: what tools/laws.py makes of comments, which it refuses, and that the page is current."""
import contextlib
import io
import subprocess
import sys
import unittest
from typing import List, Tuple

from trinorm.program import REPOSITORY

sys.path.insert(0, str(REPOSITORY / "tools"))

from definitions import Definitions, Names, paragraphs  # noqa: E402
from laws import PAGE, Crate, Law, Links, blocks, cited, crate_of, entry, faults, laws_of, lemmas_of, read_crates, section, written  # noqa: E402
from links import anchors  # noqa: E402

FILE = '''//! Halves of numbers, which are whole. The functions have
//! empty bodies.
//!
//! Words: a number is *even* if it has a half.
#![tactic(auto)]

ghost use Rattle.cone_definitions.specs.Laws.{Descent, EachContainsRay as Contains};

/// Theorem (Euclid 300): let n be an even number,
/// at least
/// 1. Then:
///
/// 1. n has a half h < n
///    below it.
/// 2. h is the only one.
///
/// That halves are <small> is `halves_are_small`, of which see `cone_laws`.
pub fn halves()
    ensures one { Descent }
    ensures { Contains }
{}

/// Lemma: `halves` end.
pub fn halves_are_small()
    ensures { Contains }
{}

/// A helper.
pub fn computes(n: u32) -> u32 {
    n
}
'''


class Comments(unittest.TestCase):
    def laws(self) -> Crate:
        return crate_of("half_laws", FILE)

    def test_laws_of_a_file(self) -> None:
        crate = self.laws()
        self.assertEqual(crate.head, "Halves of numbers, which are whole.")
        self.assertEqual(crate.words, ["Words: a number is *even* if it has a half."])
        self.assertEqual([(law.anchor, law.kind, law.statements) for law in crate.laws],
                         [("half_laws.halves", "Theorem", ("Descent", "Contains")), ("half_laws.halves_are_small", "Lemma", ("Contains",))])

    def test_items(self) -> None:
        found = list(blocks(["Let n be", "1. Two lines.", "", "1. One", "and more.", "2. Two.", "", "After. 3. Not one.", "", "3. Three."]))
        self.assertEqual([(block.number, block.text) for block in found],
                         [(0, "Let n be 1. Two lines."), (1, "One and more."), (2, "Two."), (0, "After. 3. Not one."), (3, "Three.")])

    def test_entry(self) -> None:
        crate = self.laws()
        text = entry(crate, crate.laws[0], Links([crate, Crate("cone_laws", "", [], [], Names(""))]), Definitions())
        self.assertTrue(text.startswith('<a id="half_laws.halves"></a>\n\n### `halves`\n\n**Theorem** (Euclid 300). Let n be an even number, at least 1. Then:\n\n'
                                        "1. n has a half h < n below it.\n2. h is the only one.\n\n"
                                        "That halves are &lt;small> is [`halves_are_small`](#half_laws.halves_are_small), of which see [`cone_laws`](#cone_laws).\n\n"
                                        "<details><summary>Statements: <code>Descent</code>, <code>Contains</code></summary>\n\n"), text)
        self.assertIn("<code>Contains</code>, in crates/cone_definitions/specs/Laws.antt:\n\n```\nabbrev pub EachContainsRay : Type 0\nEachContainsRay =", text)
        self.assertTrue(text.endswith("```\n\n</details>"))

    def test_lemmas_are_apart(self) -> None:
        crate = self.laws()
        links = Links([crate])
        self.assertNotIn("### `halves_are_small`", section(crate, links, Definitions()))
        self.assertIn("Lemma of this crate: [`halves_are_small`](#half_laws.halves_are_small).", section(crate, links, Definitions()))
        self.assertIn("### `halves_are_small`", lemmas_of(crate, links, Definitions()))

    def test_unknown_statement(self) -> None:
        crate = crate_of("half_laws", FILE.replace("Descent,", ""))
        with self.assertRaisesRegex(ValueError, "half_laws: no definition of the statement Descent"):
            section(crate, Links([crate]), Definitions())

    def test_refused(self) -> None:
        def wrong(*lines: str, statements: Tuple[str, ...] = ("One",)) -> List[str]:
            return list(faults(Law("a_laws", "one", lines, statements)))

        self.assertEqual(wrong("Theorem: it is so."), [])
        self.assertEqual(wrong("Theorem (Haken 1961): it is so.", "", "1. So."), [])
        self.assertEqual(wrong("It is so."), ["begins with none of Theorem, Lemma and Example"])
        self.assertEqual(wrong("Theory: it is so."), ["begins with none of Theorem, Lemma and Example"])
        self.assertEqual(wrong(""), ["begins with none of Theorem, Lemma and Example"])
        self.assertEqual(wrong("Lemma:", "", "1. It is.", "2. It is so."), ["has 2 items, and its contract 1 statements"])

    def test_one_name_in_two_crates(self) -> None:
        links = Links([Crate(name, "", [], [Law(name, "same", ("Theorem.",), ())], Names("")) for name in ("a_laws", "b_laws")])
        found = links.find("same", "b_laws")
        assert found is not None
        self.assertEqual(found.anchor, "b_laws.same")
        self.assertIsNone(links.find("same", "c_laws"))

    def test_cited(self) -> None:
        crates = [Crate("a_laws", "", [], [Law("a_laws", "one", (), ()), Law("a_laws", "two", (), ())], Names("")),
                  Crate("b_laws", "", [], [Law("b_laws", "one", (), ())], Names(""))]
        text = "1. **All.** It is. (`a_laws`\\*: `one`; `b_laws`: `one`, `two`)\n2. **Both.** (`b_laws`) [x](LAWS.md#a_laws.two)\n3. **None.** `nothing`\n`a_laws`: `one`\n"
        self.assertEqual(list(cited(text, Links(crates))),
                         [("All", ["[`one`](#a_laws.one) of `a_laws`", "[`one`](#b_laws.one) of `b_laws`", "[`two`](#a_laws.two)"]), ("Both", ["[`b_laws`](#b_laws)"])])


class Specs(unittest.TestCase):
    def test_definitions(self) -> None:
        text = "-- a head\nuse Rattle.std.specs.List.{length as size, map}\nuse Rattle.a.specs.B as Other\nuse Rattle.a.specs.C.{One as Two}\n"
        names = Names(text)
        self.assertEqual(names.library, {"size": "length", "map": "map"})
        self.assertEqual((names.modules, names.items), ({"Other": ("a", "B")}, {"Two": ("a", "C", "One")}))
        self.assertEqual(list(paragraphs(text + "\n-- of one\nabbrev one : ℕ\none = 1\n\n-- alone\n")), ["-- of one\nabbrev one : ℕ\none = 1"])

    def test_nothing_there(self) -> None:
        self.assertIsNone(Definitions().get(("no_crate", "No.file", "Nothing")))


class Page(unittest.TestCase):
    def test_current(self) -> None:
        done = subprocess.run([sys.executable, str(REPOSITORY / "tools" / "laws.py"), "--check"], capture_output=True, text=True, check=False)
        self.assertEqual(done.returncode, 0, done.stdout + done.stderr)

    def test_each_law_has_an_anchor(self) -> None:
        found = anchors(PAGE)
        for crate in read_crates():
            self.assertIn(crate.name, found)
            for law in crate.laws:
                self.assertIn(law.anchor, found)

    def test_each_law_is_read(self) -> None:
        for crate in read_crates():
            text = (REPOSITORY / "crates" / crate.name / "src" / "lib.rt").read_text("utf8")
            self.assertEqual(len(list(laws_of(crate.name, text))), text.count("\n{}\n"), crate.name)

    def test_other_text(self) -> None:
        with contextlib.redirect_stdout(io.StringIO()) as said:
            self.assertEqual(written(PAGE, "another page\n", True), 1)
            self.assertEqual(written(REPOSITORY / "docs" / "NO-PAGE.md", "", True), 1)
        self.assertEqual(said.getvalue().count(" is not what "), 2)


if __name__ == "__main__":
    unittest.main()

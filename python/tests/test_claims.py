"""Words of laws against their statements, and sentences shown to users against laws: tools/claims.py and tools/sentences.py."""
import re
import subprocess
import sys
import unittest
from pathlib import Path
from types import SimpleNamespace
from typing import Dict, List, Optional, Sequence, Set, cast

from trinorm.program import REPOSITORY

sys.path.insert(0, str(REPOSITORY / "tools"))

import claims  # noqa: E402
import sentences  # noqa: E402
from laws import Links, read_crates  # noqa: E402

BOOK = sentences.Book(read_crates())
LINKS = Links(list(BOOK.crates.values()))
EFFICIENCY = "surface_efficiency_laws.list_decides_efficiency.ListDecidesEfficiency"


def reported(name: str, text: str) -> Set[str]:
    """What is reported of a law if its comment is another one and the head of its crate defines nothing."""
    crate_name, law_name = name.split(".")
    crate = BOOK.crates[crate_name]
    law = next(law for law in crate.laws if law.name == law_name)
    return {report.fault for report in claims.reports(crate._replace(words=[]), law._replace(lines=tuple(text.split("\n"))), BOOK.definitions)}


class Words(unittest.TestCase):
    """Comments that were in the repository, and were false or incomplete."""

    def test_converse_of_an_implication(self) -> None:
        self.assertIn("says if and only if", reported("cone_definitions.named_orders", "Theorem: a named order takes the rows in one order, and "
                      "a ray or pair is named in it if and only if there is no list."))

    def test_existence_that_is_not_stated(self) -> None:
        self.assertIn("says exactly one", reported("surface_vector_definitions.properties_are_determined", "Theorem: exactly one answer to "
                      "each vector is right: its properties."))

    def test_pairs_of_one_column(self) -> None:
        for name in ("cone_definitions.surface_lists", "cone_definitions.large_is_determined", "cone_laws.cuts_bound_unions"):
            self.assertIn("premise pairs of two columns", reported(name, "Theorem: each system has a surface list."))

    def test_coordinates(self) -> None:
        for name in ("surface_quad_laws.links_are_surfaces", "surface_quad_laws.linking_solutions_are_links", "surface_link_laws.links_have_vertices",
                     "surface_link_laws.link_characteristics_agree", "surface_link_laws.links_are_one_component",
                     "outcome_list_laws.parts_decide_efficiency"):
            self.assertIn("premise coordinates", reported(name, "Theorem: each vertex link is a surface."))

    def test_premises(self) -> None:
        for name, fault in (("surface_quad_lift_laws.quad_surfaces_lift", "sphere or disc links"),
                            ("surface_euler_laws.surfaces_have_at_most_two_each", "no invalid edge"),
                            ("presentation_laws.presentations_exist", "connected"), ("cover_laws.covers_are_connected", "not empty"),
                            ("cover_laws.covers_are_tables", "most tetrahedra"), ("cone_row_laws.bounded_lists", "order"),
                            ("outcome_written_laws.surfaces_are_read", "status 0"), ("outcome_written_laws.listed_are_verified", "text as written"),
                            ("outcome_written_laws.check_accepts_certificates", "length of the input")):
            self.assertIn(f"premise {fault}", reported(name, "Theorem: it is so."), name)

    def test_one_direction_of_two(self) -> None:
        self.assertIn("states both directions", reported("surface_quad_laws.canonical_are_lifts", "Theorem: canonical standard solutions are lifts."))

    def test_items_are_compared_with_their_statements(self) -> None:
        found = reported("surface_agreement_laws.vertex_surfaces_are_links_or_lifts", "Theorem: in standard or octagon coordinates,\n\n"
                         "1. a vertex surface is a link if and only if it is not canonical;\n2. it has triangles alone if and only if it is a link;\n"
                         "3. in quad coordinates it is a link or a lift.")
        self.assertIn("says if and only if", found)

    def test_right_words(self) -> None:
        self.assertEqual(reported("surface_quad_laws.canonical_are_lifts", "Theorem: a standard solution is a lift of its quad part if and only if it is canonical."),
                         set())

    def test_arrows(self) -> None:
        self.assertEqual(claims.split_arrows("(x : ℕ → ℕ) → (A → B) →\n C × (y : D) → E"), ["(x : ℕ → ℕ)", "(A → B)", "C × (y : D)", "E"])
        self.assertEqual(claims.split_arrows(""), [""])

    def test_indices_are_no_bounds(self) -> None:
        self.assertNotRegex(claims.binders_removed(["(c : ℕ)", "c < s.vertices.count"]), "<")
        self.assertRegex(claims.binders_removed(["2 * length rows ≤ max_tets"]), "≤")

    def theorem(self, text: str) -> Set[str]:
        return {report.fault for report in claims.reports_of_theorem(text, LINKS, BOOK.crates, BOOK.definitions)}

    def test_theorems_of_a_page(self) -> None:
        sphere = "(`surface_double_laws`\\*: `spheres_decide_efficiency`)"
        self.assertEqual(self.theorem(f"9. **Spheres.** Let T be closed and orientable, without invalid edges. It is so iff it is. {sphere}"), set())
        self.assertEqual(self.theorem(f"9. **Spheres** (Jaco 2003). Let T be closed. {sphere}"), {"premise no invalid edge", "premise orientable"})
        self.assertEqual(self.theorem("1. **Lifts.** Under (S) each has a lift. (`surface_quad_lift_laws`: `none_without_lift`)"), set())
        self.assertEqual(self.theorem("1. **Lifts.** Each has a lift iff it has. (`surface_quad_lift_laws`: `none_without_lift`)"),
                         {"premise sphere or disc links", "says if and only if"})
        self.assertEqual(self.theorem("1. **Nothing.** It is so iff it is."), set())
        self.assertEqual(self.theorem(f"It is so. {sphere}"), set())

    def test_laws_that_a_page_names(self) -> None:
        text = "(`cone_ray_laws`\\*: `rays_in_words`, `no_rays`; `text_document_laws`: `leaves`; `no_laws`: `no_clashes`) `cone_ray_laws` `no_rays`"
        self.assertEqual(list(claims.miscited(text)), ["cone_ray_laws has no law no_rays", "no_laws has no law no_clashes"])

    def test_all_laws(self) -> None:
        done = subprocess.run([sys.executable, str(REPOSITORY / "tools" / "claims.py")], capture_output=True, text=True, check=False)
        self.assertEqual((done.returncode, done.stdout), (0, ""), done.stdout + done.stderr)

    def test_no_such_law(self) -> None:
        done = subprocess.run([sys.executable, str(REPOSITORY / "tools" / "claims.py"), "no_such_law"], capture_output=True, text=True, check=False)
        self.assertEqual((done.returncode, done.stdout), (1, "there is no law no_such_law\n"))

    def test_kept_cases_have_reasons(self) -> None:
        for case, reason in claims.kept().items():
            self.assertRegex(case, r"^(\w+\.\w+|CLAIMS.md, [^:]+): ")
            self.assertGreater(len(reason.split()), 2, case)


class Sentences(unittest.TestCase):
    def faults(self, text: str, laws: Sequence[str] = (EFFICIENCY,), given: Optional[Dict[str, str]] = None, why: str = "") -> List[str]:
        return list(BOOK.faults(sentences.Sentence("docs/GUIDE.md", (text,), tuple(laws), given or {}, why)))

    def test_right(self) -> None:
        self.assertEqual(self.faults("In standard and octagon coordinates the list decides.", (EFFICIENCY,)), [])
        self.assertEqual(self.faults("The list decides.", (EFFICIENCY,), {"coordinates": "they are standard here"}), [])
        self.assertEqual(self.faults("All is listed.", ("workbench:all_surfaces",)), [])
        self.assertEqual(self.faults("It is tested.", (), why="it says what is not proved"), [])

    def test_no_such_law(self) -> None:
        for law in ("surface_efficiency_laws.list_decides.ListDecidesEfficiency", "surface_efficiency_laws.list_decides_efficiency.Nothing",
                    "no_laws.list_decides_efficiency.ListDecidesEfficiency", "workbench:nothing", "no_crate:all_surfaces", "", "."):
            self.assertEqual(self.faults("It is so.", (law,)), [f"there is no {law}"])

    def test_hypotheses(self) -> None:
        self.assertEqual(self.faults("The list decides."), ["it does not name the hypothesis: coordinates"])
        self.assertEqual(self.faults("In octagon coordinates it is so.", given={"closed": "it is"}), ["no statement has the hypothesis closed that is given"])
        sphere = "surface_double_laws.spheres_decide_efficiency.SpheresDecideEfficiency"
        self.assertEqual(self.faults("T is 0-efficient if each sphere is a vertex link.", (sphere,)),
                         [f"it does not name the hypothesis: {name}" for name in ("no invalid edge", "closed", "orientable")])

    def test_too_much(self) -> None:
        self.assertEqual(self.faults("In octagon coordinates there is exactly one.", (EFFICIENCY,)), ["it says exactly one, and its statements do not"])

    def test_neither_law_nor_reason(self) -> None:
        self.assertEqual(self.faults("It is so.", ()), ["it names no law, and no reason why not"])

    def test_uncovered(self) -> None:
        one = [sentences.Sentence("a", ("It is *proved* that `one_and_two` is so.",), (EFFICIENCY,), {}, "")]
        self.assertEqual(list(sentences.uncovered("It is proved that one_and_two is so. So.", one, ["one_and_two"])), [])
        self.assertEqual(len(list(sentences.uncovered("It is proved. one_and_two, by a theorem", one, ["one_and_two"]))), 3)
        self.assertEqual(list(sentences.uncovered("unproved, theoremless, one_and_two_three", one, ["one_and_two"])), [])

    def test_comments_of_code_are_not_shown(self) -> None:
        for name, text in (("a.js", "// proved\nconst a = 'x'; // proved\n/** proved\n */\n"), ("a.py", "# proved\na = 1\n")):
            path = REPOSITORY / "python" / "tests" / name
            self.assertNotIn("proved", sentences.shown(fake(path, text)))
        self.assertEqual(sentences.shown(fake(REPOSITORY / "a.md", "> *It* is\n> `so`.\n")), "It is so.")

    def test_each_sentence_is_in_its_place(self) -> None:
        done = subprocess.run([sys.executable, str(REPOSITORY / "tools" / "sentences.py")], capture_output=True, text=True, check=False)
        self.assertEqual((done.returncode, done.stdout), (0, ""), done.stdout + done.stderr)

    def test_a_sentence_that_was_changed(self) -> None:
        book = sentences.read_sentences(sentences.FILE.read_text("utf8"))
        changed = [book[0]._replace(texts=("Proved: all is well.",)), *book[1:]]
        self.assertTrue(any(re.search("it does not say any more: Proved: all is well", fault) for fault in sentences.faults(changed, BOOK)))
        self.assertTrue(any("not in sentences.json" in fault for fault in sentences.faults(book[1:], BOOK)))

    def test_nonsense(self) -> None:
        for text in ("", "[", "{}", '[{"text": "a"}]', "null", '[{"place": 1, "text": "a"}]', '[{"place": "a", "text": [1]}]', '["a"]',
                     '[{"place": "a", "text": "b", "laws": "c"}]', '[{"place": "a", "text": "b", "given": []}]', '[{"place": "a", "text": "b", "low": []}]'):
            with self.assertRaises(ValueError, msg=text):
                sentences.read_sentences(text)
        self.assertEqual(sentences.read_sentences("[]"), [])


def fake(path: Path, text: str) -> Path:
    """A path with a text of its own."""
    return cast(Path, SimpleNamespace(suffix=path.suffix, read_text=lambda _encoding: text))


if __name__ == "__main__":
    unittest.main()

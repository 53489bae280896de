"""tools/language.py: what it finds in comments and names, and that the crates that are done stay so."""
import subprocess
import sys
import tempfile
import unittest
from pathlib import Path
from typing import List, Sequence, Tuple

from trinorm.program import REPOSITORY

sys.path.insert(0, str(REPOSITORY / "tools"))

from language import Place, idle_names, kept_names, places_of  # noqa: E402


class Language(unittest.TestCase):
    def setUp(self) -> None:
        folder = tempfile.TemporaryDirectory()
        self.addCleanup(folder.cleanup)
        self.top = Path(folder.name)

    def places(self, text: str, name: str = "src/lib.rt", kept: Sequence[str] = ()) -> List[Place]:
        path = self.top / "crates" / "sums" / name
        path.parent.mkdir(parents=True, exist_ok=True)
        path.write_text(text, "utf8")
        return list(places_of(self.top, "sums", kept))

    def found(self, text: str, name: str = "src/lib.rt") -> List[Tuple[str, int, bool]]:
        return [(place.rule, place.line, place.public) for place in self.places(text, name)]

    def test_parameters(self) -> None:
        head = "pub fn add(alloc: Global, first: u8, second: &[(u8, u8)]) -> u8\n    ensures { ⊤ }\n{\n    1\n}\n"
        self.assertEqual(self.found(f"/// The sum.\n{head}"), [("parameters", 1, True)])
        self.assertEqual(self.found(f"/// The sum of first and second.\n{head}"), [("parameters", 1, True)])
        self.assertEqual(self.found(f"\n/// The sum.\n#[tactic(auto)]\n{head.replace('pub ', '')}"), [("parameters", 2, False)])
        self.assertEqual(self.found(f"/// The sum of `first + 1` and another.\n{head}"), [])
        self.assertEqual(self.found("/// The length of the row.\npub fn size(row: &[u8]) -> u8 {\n    1\n}\n"), [])
        self.assertEqual(self.found("/// The length.\npub fn size(&self, alloc: Global) -> u8 {\n    1\n}\n"), [])

    def test_errors(self) -> None:
        head = "pub fn read(alloc: Global) -> Result<Vec<u8>, ReadFault>\n    ensures { ⊤ }\n{\n    Ok(1)\n}\n"
        self.assertEqual(self.found(f"/// Reads a byte.\n{head}"), [("errors", 1, True)])
        self.assertEqual(self.found(f"/// Reads a byte. Fails at the end.\n{head}"), [])
        self.assertEqual(self.found(f"/// Reads a byte, or `AtEnd`.\n{head}"), [])
        self.assertEqual(self.found(f"/// Reads a byte.\n{head.replace('ReadFault', 'NoMemory')}"), [])

    def test_words_and_width(self) -> None:
        self.assertEqual(self.found("//! What stands behind.\n"), [("words", 1, True), ("words", 1, True)])
        self.assertEqual(self.found("//! The case `told` of `behind`, and understanding.\n"), [])
        self.assertEqual(self.found(f"// {'x' * 118}\nconst A: u8 = 1;\n"), [("width", 1, False)])
        self.found("")
        self.assertEqual(self.found("-- so many rows\npub size : ℕ\nsize = 1\n", "specs/Size.antt"), [("words", 1, True)])
        self.assertEqual(self.found("-- so many rows\n", "proofs/Size.antt"), [("words", 1, True)] * 2)

    def test_width_of_contracts(self) -> None:
        wide = "x" * 100
        text = f"fn size()\n    ensures some {{ IfSome result (λ {wide}.\n        {wide + wide}) }}\n    requires {{ {wide} }}\n{{\n    {wide + wide};\n}}\n"
        self.assertEqual([(rule, line) for rule, line, _ in self.found(text)], [("width", 2), ("width", 3)])
        self.found("")
        self.assertEqual(self.found(text, "proofs/Size.antt"), [])
        self.assertEqual(self.found(f"fn size()\n    ensures {{ {'→' * 100} }}\n{{\n}}\n"), [])

    def test_names(self) -> None:
        def named(text: str, name: str = "src/lib.rt", kept: Sequence[str] = ()) -> List[Tuple[str, int, bool]]:
            return [(place.what, place.line, place.public) for place in self.places(text, name, kept) if place.rule == "names"]

        self.assertEqual(named("fn is_told(rivals: u8) {\n    rivals;\n}\n"), [("is_told", 1, True), ("rivals", 1, True)])
        self.assertEqual(named("struct FaceBehind;\nfn untold(fewer: Roundness) {}\n"), [("FaceBehind", 1, True)])
        self.assertEqual(named("fn way_back() {}\nfn ways() {}\nfn LeadsTo() {}\nfn leads() {}\n"), [("way_back", 1, True), ("LeadsTo", 3, True)])
        self.assertEqual(named('// few\nconst A: &str = "told\n few";\nfn met() {}\n'), [("met", 4, True)])
        self.assertEqual(named("fn few_rows() {}\nfn few() {}\n", kept=["few"]), [("few_rows", 1, True)])
        self.assertEqual(named("", "src/lib.rt"), [])
        self.assertEqual(named("row-turned : \u2115\n", "specs/Rows.antt"), [("turned", 1, True)])
        named("", "specs/Rows.antt")
        self.assertEqual(named("apart = 1\n", "proofs/Rows.antt"), [("apart", 1, False)])

    def test_names_that_are_kept(self) -> None:
        kept = kept_names("# names\nfew: a reason: it is old\nmet:\ntold: another\n")
        self.assertEqual(kept, {"few": "a reason: it is old", "met": "", "told": "another"})
        self.assertEqual(list(idle_names(kept, {"few", "met"})),
                         ["tools/names_kept.txt: met has no reason", "tools/names_kept.txt: no crate has the name told"])

    def test_the_crates_that_are_done(self) -> None:
        done = subprocess.run([sys.executable, str(REPOSITORY / "tools" / "language.py"), "--check"], capture_output=True, text=True, check=False)
        self.assertEqual((done.returncode, done.stdout), (0, ""), done.stderr)


if __name__ == "__main__":
    unittest.main()

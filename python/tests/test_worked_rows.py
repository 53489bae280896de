"""The stored examples: how rows of the crate are read, and that the file of the package is current."""
import json
import subprocess
import sys
import tempfile
import unittest
from pathlib import Path
from typing import List, Tuple

from trinorm.program import REPOSITORY

sys.path.insert(0, str(REPOSITORY / "tools"))

from worked_rows import NotFound, Row, every_row, in_order, rows_of_source  # noqa: E402

HEAD = "use crate::running::{RunRow};\n\nfn run(words: &[&str], input: &[u8]) {}\n"
ROW = 'RunRow {\n    words: &["sig", "--a"],\n    input: b"tri 1\\n\\xff\\t\\"",\n    status: Status::Input,\n    text: b"refused\\n",\n}'


class Sources(unittest.TestCase):
    def rows(self, text: str) -> List[Row]:
        return list(rows_of_source("made_up.rt", HEAD + text))

    def test_a_row(self) -> None:
        self.assertEqual(self.rows(f"const ROWS: [RunRow; 1] = [{ROW}];"), [Row(["sig", "--a"], 'tri 1\n\xff\t"', "refused\n", 3)])

    def test_constants_and_long_literals(self) -> None:
        text = ROW.replace('b"refused\\n"', "ANSWER").replace('b"tri 1', 'b"tri \\\n            1').replace('&["sig", "--a"]', "&[]")
        self.assertEqual(self.rows(f'const ANSWER: &[u8] = b"yes\\n";\n[{text}, {ROW}]'),
                         [Row([], 'tri 1\n\xff\t"', "yes\n", 3), Row(["sig", "--a"], 'tri 1\n\xff\t"', "refused\n", 3)])

    def test_other_forms_are_refused(self) -> None:
        for old, new in (('b"refused\\n"', "text_of(7)"), ("Status::Input", "STATUS"), ("    input:", "    more: 1,\n    input:")):
            with self.assertRaises(NotFound):
                self.rows(ROW + ROW.replace(old, new))
        with self.assertRaises((KeyError, ValueError)):
            self.rows(ROW.replace("Status::Input", "Status::Other"))

    def test_a_question_occurs_once(self) -> None:
        with tempfile.TemporaryDirectory() as folder:
            top = Path(folder)
            (top / "a.rt").write_text(ROW)
            (top / "b.rt").write_text(ROW.replace("--a", "--b") + ROW)
            further = top / "further.json"
            further.write_text(json.dumps([{"words": ["sig"], "input": {"repeat": "\n", "times": 9}, "output": "", "status": 0}]))
            self.assertEqual([row.words for row in every_row(top, further)], [["sig", "--a"], ["sig", "--b"], ["sig"]])

    def test_the_order(self) -> None:
        asked: Tuple[List[str], ...] = ([], ["rays"], ["sig", "-x"], ["none"], ["rays", "--order", "short"], ["sig"])
        rows = [Row(words, str(at), "", 0) for at, words in enumerate(asked)]
        self.assertEqual([row.input for row in in_order(rows, ["sig", "rays"])], ["2", "5", "1", "4", "0", "3"])


class Current(unittest.TestCase):
    def test_nothing_is_stale(self) -> None:
        subprocess.run([sys.executable, "tools/worked_rows.py", "--check"], cwd=REPOSITORY, check=True)


if __name__ == "__main__":
    unittest.main()

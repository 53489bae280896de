"""A notebook that is executed without a browser: pictures, tables, signs of life and an interrupted cell. Skipped by name without
nbconvert or ipykernel."""
import json
import os
import re
import subprocess
import tempfile
import unittest
import xml.etree.ElementTree as xml
from typing import Any, ClassVar, Dict, List

import trinorm
from tests.engines import environment, python_with, skip_without
from tests.programs import script

PYTHON = python_with("nbconvert, ipykernel")
SLOW = "read kind signature\nsleep 0.02\necho $signature\n"
# what each cell has, by its name
CELLS = {
    "table": "import trinorm\ntrinorm.table('cPcbbbiht')",
    "info": "trinorm.info('cPcbbbiht')",
    "vectors": "trinorm.surfaces('cPcbbbiht', 'quad')",
    "described": "trinorm.describe('bkaagj', [(1, 1, 0, 0, 1, 0, 0)])",
    "picture": "from IPython.display import SVG\nfrom trinorm import pictures\n"
               "SVG(pictures.surface_svg('cPcbbbiht', (1, 1, 1, 1, 0, 0, 0) * 2))",
    "many": "from tqdm.auto import tqdm\nthem = ['cPcbbbiht', 'cPcbbbiht', 'bkaagjx']\n"
            "[it.failure is None for it in tqdm(trinorm.many(them, 'info'), total=3)]",
    "plain": "trinorm.census([f's{k}' for k in range(100)], OUT, 'sig', jobs=2, program=SLOW)",
    "nonsense": "try:\n    trinorm.info('bkaagjx')\nexcept trinorm.Refused as refused:\n    print(refused)",
    # as soon as there is a line
    "stopped": "import os, signal, threading, time\ndef stop():\n    while not os.path.exists(NEXT) or not os.path.getsize(NEXT):\n        time.sleep(0.05)\n"
               "    os.kill(os.getpid(), signal.SIGINT)\nthreading.Thread(target=stop).start()\n"
               "try:\n    trinorm.census([f's{k}' for k in range(400)], NEXT, 'sig', jobs=2, program=SLOW)\n"
               "except KeyboardInterrupt:\n    print('stopped')",
    "resumed": "ran = trinorm.census([f's{k}' for k in range(400)], NEXT, 'sig', jobs=2, program=SLOW)\n"
               "print(ran.before > 0, ran.before + ran.now, ran.failed)",
    "threads": "from concurrent.futures import ThreadPoolExecutor\nwith ThreadPoolExecutor(4) as threads:\n"
               "    made = list(threads.map(trinorm.info, ['cPcbbbiht'] * 20))\nprint(made == [made[0]] * 20)",
}


def notebook(cells: List[str]) -> str:
    """A notebook of these cells, as JSON."""
    made: List[Dict[str, object]] = [{"cell_type": "code", "execution_count": None, "metadata": {}, "outputs": [], "source": source} for source in cells]
    kernel = {"kernelspec": {"name": "python3", "display_name": "Python 3", "language": "python"}}
    return json.dumps({"nbformat": 4, "nbformat_minor": 4, "metadata": kernel, "cells": made})


def execute(folder: str, cells: List[str], around: Dict[str, str]) -> List[Any]:
    """The outputs of each cell."""
    path = os.path.join(folder, "trial.ipynb")
    with open(path, "w", encoding="utf8") as file:
        file.write(notebook(cells))
    words = [PYTHON or "", "-m", "nbconvert", "--to", "notebook", "--execute", "--ExecutePreprocessor.timeout=300", "--stdout", path]
    run = subprocess.run(words, env={**around, "IPYTHONDIR": folder}, capture_output=True, timeout=600, check=False)
    assert run.returncode == 0, run.stderr.decode()[-3000:]
    return [cell["outputs"] for cell in json.loads(run.stdout)["cells"]]


@skip_without("jupyter-nbconvert with python3-ipykernel", PYTHON)
class Notebook(unittest.TestCase):
    outputs: ClassVar[Dict[str, Any]]

    @classmethod
    def setUpClass(cls) -> None:
        with tempfile.TemporaryDirectory() as folder:
            names = {"OUT": os.path.join(folder, "answers"), "NEXT": os.path.join(folder, "next"), "SLOW": script(folder, SLOW)}
            cells = [re.sub("OUT|NEXT|SLOW", lambda it: repr(names[str(it[0])]), source) for source in CELLS.values()]
            cls.outputs = dict(zip(CELLS, execute(folder, cells, environment(trinorm.find()))))

    def data(self, name: str, kind: str) -> str:
        """What a cell shows, of a kind."""
        [result] = [it for it in self.outputs[name] if it["output_type"] == "execute_result"]
        return "".join(result["data"][kind])

    def written(self, name: str) -> str:
        """What a cell wrote."""
        return "".join("".join(it["text"]) for it in self.outputs[name] if it["output_type"] == "stream")

    def rows(self, name: str) -> List[xml.Element]:
        """The rows of the tables that a cell shows."""
        return list(xml.fromstring(f"<all>{self.data(name, 'text/html')}</all>").iter("tr"))

    def test_pictures(self) -> None:
        for name in ("table", "picture"):
            self.assertTrue(xml.fromstring(self.data(name, "image/svg+xml")).tag.endswith("svg"))
        self.assertIn("Table(", self.data("table", "text/plain"))

    def test_tables(self) -> None:
        self.assertEqual(len(self.rows("info")), 2 + 1 + 2)
        self.assertEqual(len(self.rows("vectors")), 1 + 4)
        self.assertEqual(len(self.rows("described")), 1 + 1)
        self.assertEqual(self.data("vectors", "text/plain").count("("), 4)

    def test_signs_of_life(self) -> None:
        """A bar of tqdm's, and the last line of a census."""
        self.assertEqual(self.data("many", "text/plain"), "[True, True, False]")
        self.assertEqual(self.data("plain", "text/plain"), "Ran(before=0, now=100, failed=0)")
        self.assertIn("100 answered, 0 refused, 0 failed in ", self.written("plain"))

    @skip_without("python3-tqdm", python_with("tqdm"))
    def test_bars(self) -> None:
        for name in ("many", "plain"):
            said = self.written(name) + json.dumps(self.outputs[name])
            self.assertRegex(said, r"\d(it)?/s|HBox|widget")

    def test_refusals(self) -> None:
        self.assertIn("refused: signature", self.written("nonsense"))

    def test_a_cell_is_stopped_and_the_next_goes_on(self) -> None:
        self.assertIn("stopped\n", self.written("stopped"))
        self.assertIn("if it is started again with the same arguments, it resumes", self.written("stopped"))
        self.assertIn("True 400 0\n", self.written("resumed"))

    def test_threads(self) -> None:
        self.assertEqual(self.written("threads"), "True\n")


if __name__ == "__main__":
    unittest.main()

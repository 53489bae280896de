"""The page, its module by Node, and both in real browsers. What is not installed is skipped by its name.

TRINORM_WASM names the module; else it is the one that the build made. Pictures of the page go to the folder `pictures`
next to the built program.
"""
import base64
import contextlib
import csv
import functools
import hashlib
import http.server
import io
import json
import os
import re
import shutil
import subprocess
import sys
import tarfile
import tempfile
import threading
import time
import unittest
import urllib.parse
import zlib
from pathlib import Path
from typing import TYPE_CHECKING, Any, ClassVar, Dict, List, Optional, Sequence, Tuple, Type, Union
from xml.etree import ElementTree

from trinorm import regina_surfaces, selfcheck
from trinorm.options import Coords
from trinorm.program import REPOSITORY, find_library

sys.path.insert(0, str(REPOSITORY / "tools"))

import elsewhere  # noqa: E402
import packages  # noqa: E402
import web_page  # noqa: E402
import wasm  # noqa: E402

from . import browsers  # noqa: E402
from .cases import Cases, timed  # noqa: E402

# what `Page` is for those who check types; it is no class of tests itself, so that its tests are run of the classes below it alone
if TYPE_CHECKING:
    Case = unittest.TestCase
else:
    Case = object
Browser = Union[browsers.Chromium, browsers.Firefox]
OUT = REPOSITORY / "crates" / "trinorm" / "out"
COUNT = 2000
BUILD = {"version": "9.9", "commit": "0123abc", "kit": "rattle-kit-0 logic 12"}
OF_9 = "sig jLvLAQQadhfhfggiibuvfgvncab\n"
OF_14 = "sig oLLLPwLAQMcbdfhfgiljjmmlnnabuagwehgoxxfjb\n"
OF_18 = "sig sLLvLvPQAAAQPcdgjmhinikmlpnoqprrawgbdvfdolnbagodbac\n"
OF_24 = "sig yLALvLvAzAQMzzMQQaccehjikqpoornspvuttwwvxxbggggtccanffxwavawcvaeccc\n"


def module() -> Path:
    """The path of trinorm.wasm, or a skip."""
    path = Path(os.environ.get("TRINORM_WASM") or OUT / wasm.NAME)
    if not path.is_file():
        raise unittest.SkipTest(f"there is no {wasm.NAME}: a build makes it if {' and '.join(wasm.PACKAGES)} are installed")
    return path


def node() -> str:
    path = shutil.which("node")
    if path is None:
        raise unittest.SkipTest("node is not installed")
    return path


def import_regina() -> Any:
    """The module of Regina, or a skip."""
    try:
        import regina
    except ImportError:
        raise unittest.SkipTest("Regina is not installed for this Python") from None
    return regina


def rows_in_regina(triangulation: Any) -> List[str]:
    """The rows of the gluing table of a Regina triangulation."""
    def entry(tetrahedron: Any, face: int) -> str:
        other = tetrahedron.adjacentTetrahedron(face)
        return "-" if other is None else f"{other.index()}:{tetrahedron.adjacentGluing(face)}"
    return [" ".join(entry(tetrahedron, face) for face in range(4)) for tetrahedron in triangulation.tetrahedra()]


def generated(count: int) -> List[str]:
    """Cases of the built program, as lines of JSON."""
    library = find_library()
    if library is None:
        raise unittest.SkipTest("there is no library of the built program")
    cases = Cases(1, library.answer)
    return [json.dumps(cases.case()) for _ in range(count)]


def made(seed: int, moves: int) -> str:
    """A triangulation that the built program makes."""
    library = find_library()
    if library is None:
        raise unittest.SkipTest("there is no library of the built program")
    answer = library.answer(["make", "--seed", str(seed), "--moves", str(moves)], "")[1].decode()
    found = re.search(r"^tri \d+\n(?:(?:\d+:\d{4}|-) .*\n)*", answer, re.M)
    assert found is not None
    return found[0]


class Module(unittest.TestCase):
    """trinorm.wasm by Node."""
    module: ClassVar[Path]

    @classmethod
    def setUpClass(cls) -> None:
        cls.module = module()

    def run_node(self, *words: object, text: str = "") -> List[Any]:
        done = subprocess.run([node(), *map(str, words)], input=text, capture_output=True, text=True, check=False)
        self.assertEqual(done.returncode, 0, done.stderr)
        return [json.loads(line) for line in done.stdout.splitlines()]

    def compare(self, lines: Sequence[str]) -> None:
        [outcome] = self.run_node(REPOSITORY / "web" / "tests" / "compare.js", self.module, text="\n".join(lines))
        self.assertEqual(outcome, {"same": len(lines), "different": []})

    def test_it_imports_nothing_and_exports_what_is_listed(self) -> None:
        wasm.check(self.module.read_bytes())

    def test_worked_rows(self) -> None:
        rows = [{"words": list(row.words), "input": row.input.decode("latin-1"), "output": row.output.decode("latin-1"), "status": row.status}
                for row in selfcheck.read_rows()]
        self.compare([json.dumps(row) for row in rows])

    def test_generated_cases(self) -> None:
        self.compare(generated(COUNT))

    def test_the_end_of_memory_is_status_8(self) -> None:
        reports = {report.pop("trial"): report for report in self.run_node(REPOSITORY / "web" / "tests" / "memory.js", self.module)}
        limits = reports.pop("surfaces of 9 under many limits")["statuses"]
        self.assertEqual(set(limits), {"0", "8"})
        held = reports.pop("held")
        self.assertGreater(held["taken"], 3800)
        self.assertLessEqual(held["bytes"], 65535 * 65536)
        statuses = {trial: list(report["statuses"]) for trial, report in reports.items()}
        self.assertEqual(statuses, {
            "surfaces of 24 under 100 MiB": ["8"], "no words": ["2"], "a long word": ["2"], "an input of 2 MiB": ["3"],
            "a comment of 1 MiB": ["3"], "1,000 tetrahedra": ["0"], "room of 1 byte": ["0"], "100,000 steps": ["0"],
            "surfaces of 24 with a full memory": ["8"], "an area of 4 GiB": ["0"], "the same instance afterwards": ["0"],
            "after trinorm_forget": ["0"],
        })


class Program(unittest.TestCase):
    """web/node/trinorm.js, as a program."""
    environment: ClassVar[Dict[str, str]]
    words: ClassVar[List[str]]

    @classmethod
    def setUpClass(cls) -> None:
        cls.environment = {**os.environ, "TRINORM_WASM": str(module())}
        cls.words = [node(), str(REPOSITORY / "web" / "node" / "trinorm.js")]

    def run_program(self, *words: str, data: bytes = b"", **settings: Any) -> Tuple[int, bytes]:
        settings.setdefault("env", self.environment)
        done = subprocess.run([*self.words, *words], input=data, capture_output=True, check=False, **settings)
        return done.returncode, done.stdout

    def test_answers_and_refusals_have_the_statuses_of_the_program(self) -> None:
        self.assertEqual(self.run_program("sig", data=b"sig bkaagn\n"), (0, b"bkaagj\n"))
        self.assertEqual(self.run_program("nonsense"), (2, b"refused: usage\n"))
        self.assertEqual(self.run_program("sig", data=b"\xff"), (3, b"refused: input 1 1 bad-byte\n"))
        self.assertEqual(self.run_program("sig", data=b"#" * (1 << 20) + b"#"), (3, b"refused: input too-long\n"))

    def test_memory_is_limited(self) -> None:
        limited = {**self.environment, "TRINORM_MOST_BYTES": "100000"}
        self.assertEqual(self.run_program("info", data=b"sig bkaagn\n", env=limited), (8, b""))

    def test_failed_reading_and_writing(self) -> None:
        with open(os.devnull, "wb") as unreadable:
            done = subprocess.run([*self.words, "sig"], stdin=unreadable, stdout=subprocess.PIPE, env=self.environment, check=False)
        self.assertEqual((done.returncode, done.stdout), (6, b"refused: read\n"))
        with open("/dev/full", "wb") as full:
            done = subprocess.run([*self.words, "sig"], input=b"sig bkaagn\n", stdout=full, env=self.environment, check=False)
        self.assertEqual(done.returncode, 7)

    def test_a_limit_that_is_no_number_is_refused(self) -> None:
        for value in ("abc", "-1", "1e9", "9" * 30):
            done = subprocess.run([*self.words, "info"], input=b"sig bkaagn\n", capture_output=True, env={**self.environment, "TRINORM_MOST_BYTES": value}, check=False)
            self.assertEqual((done.returncode, done.stdout, done.stderr.decode()), (70, b"", f"trinorm.js: TRINORM_MOST_BYTES must be a number of bytes, not {value}\n"))

    def test_a_missing_module_is_no_answer(self) -> None:
        missing = {**self.environment, "TRINORM_WASM": "/nonexistent"}
        self.assertEqual(self.run_program("sig", data=b"sig bkaagn\n", env=missing), (70, b""))

    def test_a_pipe_that_comes_in_parts(self) -> None:
        process = subprocess.Popen([*self.words, "sig"], stdin=subprocess.PIPE, stdout=subprocess.PIPE, env=self.environment)
        assert process.stdin is not None
        for part in (b"si", b"g bka", b"agn"):
            process.stdin.write(part)
            process.stdin.flush()
        self.assertEqual(process.communicate()[0], b"bkaagj\n")


class Files(unittest.TestCase):
    """What the page is made of, without a browser."""

    def test_the_one_file_fetches_nothing_and_allows_its_own_script_alone(self) -> None:
        page = web_page.one_file(b"\0asm")
        [policy] = re.findall(r'http-equiv="Content-Security-Policy" content="([^"]*)"', page)
        self.assertIn("default-src 'none'", policy)
        self.assertNotIn("unsafe-inline", policy)
        [script] = re.findall(r'<script type="module">(.*?)</script>', page, re.S)
        self.assertIn(web_page.hash_of(script), policy)
        self.assertIsNone(re.search(r'\b(src|href)="(?!data:|#)', page), "a file is loaded")

    def test_the_licences_are_in_the_folder_and_in_the_one_file(self) -> None:
        page, files = web_page.one_file(b"\0asm"), web_page.folder(b"\0asm")
        for name in ("NOTICES", "LICENSE-MIT", "LICENSE-APACHE"):
            text = (REPOSITORY / name).read_text("utf8")
            self.assertIn(text, page)
            self.assertEqual(files[name], text.encode("utf8"))

    def test_the_page_names_the_build_of_its_own_module_only(self) -> None:
        digest = hashlib.sha256(b"\0asm").hexdigest()
        fields = {**BUILD, "wasm": digest, "program": "aa"}
        build = web_page.build_of(b"\0asm", fields)
        self.assertEqual(build, {**BUILD, "wasm": digest})
        no_fields: List[Dict[str, str]] = [{}, {**fields, "wasm": "0" * 64}, {**fields, "commit": ""}, {name: value for name, value in fields.items() if name != "kit"}]
        for wrong in no_fields:
            self.assertEqual(web_page.build_of(b"\0asm", wrong), {})
        self.assertEqual(web_page.build_of(b"other", fields), {})
        builds: List[Tuple[Dict[str, str], Optional[Dict[str, str]]]] = [(build, build), ({}, None)]
        for noted, shown in builds:
            about = json.loads(web_page.folder(b"\0asm", noted)["about.json"])
            self.assertEqual((about["version"], about["build"]), (json.loads(web_page.data_files()["about.json"])["version"], shown))
            self.assertIn(f'data-file="about.json">{json.dumps(about)}', web_page.one_file(b"\0asm", noted))

    def test_a_release_names_its_build(self) -> None:
        lines = "".join(f"{name} {value}\n" for name, value in {**BUILD, "wasm": hashlib.sha256(b"\0asm").hexdigest()}.items())
        files = dict(elsewhere.page(packages.Made("1.0.0", {"wasm": b"\0asm"}, lines)))
        with tarfile.open(fileobj=io.BytesIO(files["trinorm-1.0.0-web.tar.gz"])) as tar:
            file = tar.extractfile("trinorm-1.0.0-web/about.json")
            assert file is not None
            about = json.load(file)
        self.assertEqual(about["build"]["commit"], BUILD["commit"])

    def test_each_file_of_a_release_has_or_names_the_notices(self) -> None:
        made = packages.Made("1.0.0", {"wasm": b"\0asm"}, "")
        files = dict(elsewhere.page(made))
        notices = (REPOSITORY / "NOTICES").read_text("utf8")
        self.assertIn(notices, files["trinorm.wasm.NOTICES"].decode())
        self.assertIn(notices, files["trinorm.html"].decode())
        with tarfile.open(fileobj=io.BytesIO(files["trinorm-1.0.0-web.tar.gz"])) as tar:
            self.assertIn("trinorm-1.0.0-web/NOTICES", tar.getnames())
        self.assertEqual(len(files), 4)

    def test_scripts_of_the_one_file_can_be_joined(self) -> None:
        for names in (web_page.SCRIPTS, web_page.WORKER, web_page.READER):
            with self.subTest(names=names), tempfile.TemporaryDirectory() as folder:
                path = Path(folder, "joined.mjs")
                path.write_text(web_page.joined(names), "utf8")
                done = subprocess.run([node(), "--check", str(path)], capture_output=True, text=True, check=False)
                self.assertEqual(done.returncode, 0, done.stderr)

    def test_no_text_becomes_markup(self) -> None:
        for path in (REPOSITORY / "web").glob("*.js"):
            self.assertNotRegex(path.read_text("utf8"), r"innerHTML|outerHTML|insertAdjacentHTML|document\.write|\beval\b", path.name)

    def test_texts_that_would_end_an_element_are_refused(self) -> None:
        with self.assertRaises(ValueError):
            web_page.element("evil.txt", "</ScRiPt>")


class Lists(unittest.TestCase):
    """How the page keeps a long list, by Node."""

    def kept(self, *texts: str) -> List[Any]:
        lines = "".join(f"{json.dumps(text)}\n" for text in texts)
        done = subprocess.run([node(), str(REPOSITORY / "web" / "tests" / "lists.js")], input=lines, capture_output=True, text=True, check=False)
        self.assertEqual(done.returncode, 0, done.stderr)
        return [json.loads(line) for line in done.stdout.splitlines()]

    def test_every_answer_is_the_same_again(self) -> None:
        """Packed or not: numbers of any length, another head, other lines, and what no program prints."""
        texts = ["# surfaces 2\nvec 1 0 12\nvec 340282366920938463463374607431768211455 0 9\n", "# surfaces 1\nvec 0\n", "vec 10 010 100\n", "a\nb\nvec 1\n", "# surfaces 0\n", "",
                 "vec 1\neuler 2 linking yes boundary no\ncomponent 0 euler 2 sides two orientable yes\nvec 2\n", "vec\nvec\n", "vec 1", "vec 1 \n", "vec  1\n", "vec 1\r\n", "vec -1\n", "vec 1\n\n", "vector\n", "vecvec 1\n"]
        for text, found in zip(texts, self.kept(*texts)):
            with self.subTest(text=text):
                self.assertEqual(found["text"], text)
                self.assertEqual(found["lines"], [line for line in text.split("\n") if line.startswith("vec")])
                self.assertTrue(text.startswith(found["first"]))
                self.assertGreaterEqual(len(found["first"]), min(20, len(text)))

    def test_a_list_takes_little(self) -> None:
        """A fourth of its text, if most numbers have one digit."""
        lines = [" ".join(["vec", "12", *(str((index * place) % 10) for place in range(167))]) for index in range(2000)]
        text = "".join(f"{line}\n" for line in [f"# surfaces {len(lines)}", *lines])
        [found] = self.kept(text)
        self.assertEqual((found["text"], found["lines"]), (text, lines))
        self.assertLess(found["kept"], 0.27 * len(text))

    def test_cases_of_the_built_program(self) -> None:
        library = find_library()
        if library is None:
            self.skipTest("there is no library of the built program")
        texts = [library.answer(words, text)[1].decode() for words in (["surfaces"], ["surfaces", "--coords", "quad"], ["surfaces", "--coords", "octagon"]) for text in ("sig cPcbbbiht\n", OF_9, OF_14)]
        for text, found in zip(texts, self.kept(*texts)):
            self.assertEqual((found["text"], found["lines"]), (text, text.splitlines()[1:]))


class Reading(unittest.TestCase):
    """What the page makes of texts before it asks, by Node."""

    def ask(self, *questions: object) -> List[Any]:
        lines = "".join(f"{json.dumps(question)}\n" for question in questions)
        done = subprocess.run([node(), str(REPOSITORY / "web" / "tests" / "reading.js")], input=lines, capture_output=True, text=True, check=False)
        self.assertEqual(done.returncode, 0, done.stderr)
        return [json.loads(line) for line in done.stdout.splitlines()]

    def understood(self, text: str, reads: str = "table") -> Any:
        [outcome] = self.ask({"text": text, "reads": reads})
        self.assertLess(outcome["milliseconds"], 60_000)
        return outcome

    def test_signatures(self) -> None:
        for text, line, notes in (
                ("cPcbbbiht", "sig cPcbbbiht", ["read as `sig cPcbbbiht`"]), ("a", "sig a", ["read as `sig a`"]), ("baa", "sig baa", ["read as `sig baa`"]),
                ("sig cPcbbbiht", "sig cPcbbbiht", []), ("  sig\tbaa \r", "sig baa", ["read as `sig baa`"]),
                ("cPcbbbiht_BaCB", "sig cPcbbbiht", ["read as `sig cPcbbbiht`", "the decoration was left out"]),
                ("sig cPcbbbiht_BaCB", "sig cPcbbbiht", ["read as `sig cPcbbbiht`", "the decoration was left out"]),
                ("cPcbbbiht_BaCB(1,2)", "sig cPcbbbiht", ["read as `sig cPcbbbiht`", "the decoration was left out", "the Dehn fillings were left out"]),
                ("m9999", "m9999", []), ("K11n34", "K11n34", []), ("L(999,998)", "L(999,998)", []), ("m004(5,1)", "m004(5,1)", []), ("5_2(1,2)", "5_2(1,2)", []), ("a triangulation", "a triangulation", []), ("tri", "tri", []), ("sig", "sig", []), ("", "", []),
                ("<b>", "<b>", []), ("cPcbbbiht_", "sig cPcbbbiht", ["read as `sig cPcbbbiht`", "the decoration was left out"])):
            with self.subTest(text=text):
                outcome = self.understood(text)
                self.assertEqual((outcome["input"], outcome["notes"], outcome["tables"]), (line, notes, None))

    def test_what_is_no_triangulation_stays(self) -> None:
        for text, reads in (("bkaagj\n14 0\nundo\nredo\n", "steps"), ("bkaagj\nvec 1 1 0 0 1 0 0\n", "vectors"), ("bkaagj\nabc\n", "vector"),
                            ("tri 1\n0:1023 0:1023 0:1230 0:3012\nabc\n", "moves")):
            lines, expected = self.understood(text, reads)["input"].split("\n"), text.replace("bkaagj", "sig bkaagj").split("\n")
            self.assertEqual(lines, expected)
        self.assertEqual(self.understood("abc\ndef\n", "cone")["input"], "abc\ndef\n")
        self.assertEqual(self.understood("abc", "none")["input"], "abc")

    def test_a_list_of_triangulations(self) -> None:
        text = "# the first\ncPcbbbiht\n\nm003\ntri 1\n0:1023 0:1023 0:1230 0:3012\nL(3,1)\nsig bkaagj_abc\n"
        tables = self.understood(text)["tables"]
        self.assertEqual([one["label"] for one in tables], ["the first", "m003", "", "L(3,1)", ""])
        self.assertEqual([one["text"] for one in tables], ["sig cPcbbbiht\n", "sig cPcbbbdxm\n", "tri 1\n0:1023 0:1023 0:1230 0:3012\n", "sig cPcbbbaai\n", "sig bkaagj\n"])
        # commands that read several of them get the text, and one with something else is no list
        self.assertIsNone(self.understood(text, "tables")["tables"])
        self.assertIsNone(self.understood("bkaagj\nbkaagn\n", "two-tables")["tables"])
        self.assertIsNone(self.understood("bkaagj\nbkaagn\n14 0\n")["tables"])

    def test_names(self) -> None:
        [by_case, lens, other, figure, none, alias] = self.ask(
            {"find": "M004"}, {"find": "L(3,1)"}, {"find": " l ( 8 , 5 ) "}, {"find": "SFS [S2: (2,1) (3,1) (5,-4)]"},
            {"find": "nonsense"}, {"find": "L(3,2)"})
        self.assertEqual(by_case["found"]["signature"], "cPcbbbiht")
        self.assertEqual([lens["found"]["name"], other["found"]["name"], alias["found"]["name"]], ["L(3,1)", "L(8,3)", "L(3,1)"])
        self.assertEqual(figure["found"]["signature"], "fvPQcdecedekrsnrs")
        self.assertIsNone(none["found"])
        same, negative, far, not_prime = self.ask(*({"find": name} for name in ("L(7,3)", "L(7,-4)", "L(7,10)", "L(6,2)")))
        self.assertEqual([one["found"]["name"] for one in (same, negative, far)], ["L(7,2)"] * 3)
        self.assertIsNone(not_prime["found"])
        # a list of lens spaces that are not known takes no longer than others
        self.assertIsNone(self.understood("L(997,5)\n" * 100000)["tables"])
        notes = self.understood("m004")["notes"]
        self.assertEqual(notes, ["read as `sig cPcbbbiht`", "`m004` is a cusped hyperbolic manifold of the SnapPea census"])
        self.assertEqual(self.understood("L(3,2)")["notes"], ["read as `sig cPcbbbaai`", "`L(3,2)` is `L(3,1)`, a lens space"])

    def test_files_of_other_programs(self) -> None:
        """What Regina writes of triangulations is read as their gluings, with and without boundary."""
        regina = import_regina()
        triangulations = [regina.Triangulation3.fromIsoSig(signature) for signature in ("cPcbbbiht", "bkaagj", "gLLPQcefefefbhggbha", "bGab")]
        ball = regina.Triangulation3()
        ball.newTetrahedron()
        triangulations.append(ball)
        with tempfile.TemporaryDirectory() as folder:
            for number, triangulation in enumerate(triangulations):
                rows = "".join(f"{row}\n" for row in rows_in_regina(triangulation))
                packet = regina.PacketOfTriangulation3(triangulation)
                packet.setLabel("Poincaré & \"<tri>\"\n")
                for form in (regina.REGINA_XML_GEN_2, regina.REGINA_XML_GEN_3):
                    path = str(Path(folder, "file.rga"))
                    packet.save(path, False, form)
                    outcome = self.understood(Path(path).read_text("utf8"))
                    self.assertEqual(outcome["input"], f'# Poincare & "<tri>"\ntri {triangulation.size()}\n{rows}', (number, form))
                    self.assertEqual(outcome["notes"], ["read as 1 triangulation of a Regina file"])
                if not triangulation.hasBoundaryFacets():
                    outcome = self.understood(triangulation.snapPea())
                    self.assertEqual(outcome["input"], f"# Regina_Triangulation\ntri {triangulation.size()}\n{rows}")

    def test_every_triangulation_of_a_regina_file(self) -> None:
        regina = import_regina()
        path = Path("/usr/share/regina-normal/examples/sample.rga")
        if not path.is_file():
            self.skipTest("Regina's sample file is not installed")
        found = self.understood(path.read_text("utf8"))["tables"]
        self.assertEqual([one["label"] for one in found], ["Layered Solid Torus", "Poincare Homology Sphere", "RP2 x S1", "Whitehead Link Complement", "Figure 8 Knot Complement"])
        tree = packet = regina.open(str(path))
        known = []
        while packet:
            if isinstance(packet, (regina.PacketOfTriangulation3, regina.PacketOfSnapPeaTriangulation)):
                known.append(rows_in_regina(packet))
            packet = packet.nextTreePacket()
        del tree
        self.assertEqual([one["text"].split("\n")[1:-1] for one in found], known)

    def test_snappea_triangulations_in_a_regina_file(self) -> None:
        """They are read in both forms of the file, with the names of their packets; an empty one is left out."""
        regina = import_regina()
        root, rows = regina.Container(), []
        for label, signature in (("ideal", "cPcbbbiht"), ("other", "cPcbbbdxm")):
            triangulation = regina.Triangulation3.fromIsoSig(signature)
            for number, packet in enumerate((regina.PacketOfSnapPeaTriangulation(regina.SnapPeaTriangulation(triangulation)), regina.PacketOfTriangulation3(triangulation))):
                packet.setLabel(f"{label} {number}")
                root.append(packet)
                rows.append(rows_in_regina(packet))
        with tempfile.TemporaryDirectory() as folder:
            for form in (regina.REGINA_XML_GEN_2, regina.REGINA_XML_GEN_3):
                path = str(Path(folder, "file.rga"))
                root.save(path, False, form)
                text = Path(path).read_text("utf8").replace("</regina", "<snappeadata> \n</snappeadata></regina")
                tables = self.understood(text)["tables"]
                self.assertEqual([one["label"] for one in tables], ["ideal 0", "ideal 1", "other 0", "other 1"], form)
                self.assertEqual([one["text"].split("\n")[1:-1] for one in tables], rows, form)

    def test_the_name_in_a_snappea_file_is_no_number_of_cusps(self) -> None:
        text = import_regina().Triangulation3.fromIsoSig("cPcbbbiht").snapPea()
        named = text.replace("Regina_Triangulation", "5 2")
        self.assertNotEqual(text, named)
        self.assertEqual(self.understood(named)["input"], self.understood(text)["input"].replace("Regina_Triangulation", "5 2"))

    def test_dehn_fillings_are_told(self) -> None:
        text = (import_regina().Triangulation3.fromIsoSig("cPcbbbiht").snapPea()).replace("\n0 0\n", "\n1 0\n    torus   1.0   2.0\n")
        self.assertEqual(self.understood(text)["notes"], ["read as 1 triangulation of a SnapPea file", "the Dehn fillings of 1 cusp are ignored"])

    def test_hostile_files(self) -> None:
        """None takes long, and none is read as what it isn't."""
        for text in ("<regina>" + "<!--" * 250000, "<regina>" + '<tri x="' * 120000, '<regina><tri dim="3">' + "<simplex> " * 100000, "<regina>" + "<" * 1000000,
                     '<regina><tri dim="3"><simplex> 0 99 0 0 0 0 0 0 </simplex></tri></regina>', '<regina><tri dim="3" perm="index"><simplex> 1 2 </simplex></tri></regina>',
                     "<regina>" + "&amp;" * 200000, "% Triangulation", "% Triangulation\nx\n0 0\n1000000000\n", "% Triangulation\nx\n0 0\n-1\n", "% Triangulation\n1 1\n" * 50000,
                     "<regina><tri " + "a" * 1000000, '<regina><tri dim="4"><simplex> 1 </simplex></tri></regina>'):
            with self.subTest(text=text[:60]):
                outcome = self.understood(text)
                self.assertEqual(outcome["input"], text)
                self.assertRegex(outcome["notes"][0], "^it was not read as a file of another program: ")

    def test_comments_of_a_regina_file_are_left_out(self) -> None:
        row = "<!-- x --> -1 0 -1 <!--<tri dim=\"3\">-->0 -1 0 -1 0 "
        text = f'<?xml version="1.0"?>\n<regina><!-- <tri dim="3"> --><tri label="a > b" perm="index" dim="3"><simplex>{row}</simplex></tri><tri dim="3"/><!--'
        outcome = self.understood(text)
        self.assertEqual([one["text"] for one in outcome["tables"]], ["tri 1\n- - - -\n", "tri 0\n"])
        self.assertEqual(outcome["tables"][0]["label"], "a > b")

    def test_the_names_are_those_of_the_censuses(self) -> None:
        import_regina()
        import names
        if not names.EXAMPLES.is_dir():
            self.skipTest("Regina's censuses are not installed")
        self.assertEqual(names.NAMES.read_text("utf8"), names.text())


class Quiet(http.server.SimpleHTTPRequestHandler):
    """Serves a folder, and notes what was asked for."""

    asked: ClassVar[List[str]] = []

    def log_message(self, *_: object) -> None:
        self.asked.append(self.path)

    def end_headers(self) -> None:
        # so that each file is asked for again
        self.send_header("Cache-Control", "no-store")
        super().end_headers()


class Server(http.server.ThreadingHTTPServer):
    """A server of a folder. A browser asks for all files of a page at once, and the system breaks connections that are too many to wait."""

    request_queue_size = 128


# what the scripts of the tests use
HELPERS = """
const by = (id) => document.getElementById(id);
const until = async (condition, most = 60000) => {
    const begun = performance.now();
    while (!condition()) {
        if (performance.now() - begun > most) throw Error(`waited in vain for ${condition}; the page says: ${message()}`);
        await new Promise((done) => setTimeout(done, 20));
    }
    return true;
};
const message = () => by('message').textContent;
const idle = () => document.documentElement.dataset.ready && by('stop').disabled && message() !== '';
const ask = async (command, input) => {
    by('command').value = command;
    by('command').dispatchEvent(new Event('change'));
    by('input').value = input;
    by('message').textContent = '';
    by('answer').click();
};
const rows = () => document.querySelectorAll('#view tbody:not(.gap) tr').length;
const count_values = (values) => values.reduce((sum, value) => sum + value, 0);
"""


def pages_of(data: bytes) -> int:
    """How many pages a PDF has. Firefox packs what says so."""
    parts = [data]
    for part in re.findall(rb"stream\r?\n(.*?)endstream", data, re.S):
        with contextlib.suppress(zlib.error):
            parts.append(zlib.decompress(part))
    return len(re.findall(rb"/Type\s*/Page\b", b"\n".join(parts)))


class Page(Case):
    """The page in a browser. Those that inherit name the browser, and whether the page is one file from the disk."""

    browser: ClassVar[Type[Browser]] = browsers.Chromium
    from_disk = False
    folder: ClassVar["tempfile.TemporaryDirectory[str]"]
    build: ClassVar[Dict[str, str]]
    server: ClassVar[Server]
    address: ClassVar[str]
    window: Any

    @classmethod
    def setUpClass(cls) -> None:
        cls.folder = tempfile.TemporaryDirectory()
        cls.addClassCleanup(cls.folder.cleanup)
        cls.build = {**BUILD, "wasm": hashlib.sha256(module().read_bytes()).hexdigest()}
        web_page.write(module().read_bytes(), Path(cls.folder.name), cls.build)
        handler = functools.partial(Quiet, directory=f"{cls.folder.name}/web")
        cls.server = Server(("127.0.0.1", 0), handler)
        threading.Thread(target=cls.server.serve_forever, daemon=True).start()
        cls.addClassCleanup(cls.server.server_close)
        cls.addClassCleanup(cls.server.shutdown)
        cls.address = f"file://{cls.folder.name}/{web_page.PAGE}" if cls.from_disk else f"http://127.0.0.1:{cls.server.server_port}/index.html"
        try:
            cls.window = cls.browser()
        except browsers.Missing as fault:
            raise unittest.SkipTest(str(fault)) from None
        cls.addClassCleanup(cls.window.close)

    def new_window(self, **settings: Any) -> Any:
        """A browser of its own for a test, which ends with it."""
        window = self.browser(**settings)
        self.addCleanup(window.close)
        return window

    def window_of_a_test(self) -> None:
        """Lets a test use a browser of its own in place of that of the class."""
        self.window = self.new_window()

    def open(self, window: Optional[Browser] = None, **question: object) -> None:
        (window or self.window).open(self.address + (f"#{urllib.parse.urlencode(question)}" if question else ""))

    def run_script(self, script: str, window: Optional[Browser] = None) -> Any:
        return (window or self.window).run(HELPERS + script)

    def ask(self, command: str, text: str, script: str = "return message();") -> Any:
        """What a script gives once a question is answered."""
        return self.run_script(f"await until(() => document.documentElement.dataset.ready); await ask({json.dumps(command)}, {json.dumps(text)}); await until(idle); {script}")

    def press_until(self, key: str, condition: str, most: int = 60) -> int:
        """Presses a key until a condition of the page holds. Returns how often."""
        for count in range(most):
            if self.run_script(f"return {condition};"):
                return count
            self.window.press(key)
        raise AssertionError(f"{key} does not lead to {condition}")

    def test_an_answer_by_the_keyboard_alone(self) -> None:
        self.open()
        self.run_script("return until(() => document.documentElement.dataset.ready);")
        self.press_until("Tab", "document.activeElement === by('input')")
        self.window.press("Control+Enter")
        answer = "# surfaces 1\nvec 1 1 1 1 0 0 0 1 1 1 1 0 0 0\n"
        self.assertEqual(self.run_script("await until(idle); return by('raw').textContent;"), answer)
        self.run_script("by('message').textContent = by('raw').textContent = '';")
        self.press_until("Tab", "document.activeElement === by('answer')")
        self.window.press("Enter")
        self.assertEqual(self.run_script("await until(idle); return by('raw').textContent;"), answer)

    def test_every_control_is_reached_by_the_tabulator(self) -> None:
        self.open(command="surfaces", input="sig bkaagj\n")
        controls = self.run_script("""
await until(idle);
document.querySelector('#view td button').click();
by('text').open = true;
globalThis.unseen = new Set([...document.querySelectorAll('button, select, input, textarea, a, summary, [tabindex="0"]')].filter((one) => !one.disabled && one.checkVisibility()));
document.addEventListener('focusin', ({target}) => globalThis.unseen.delete(target));
// the first one, which the tabulator reaches from the address
by('input').focus();
return globalThis.unseen.size;""")
        self.assertGreater(controls, 20)
        self.window.press(*["Tab"] * controls)
        self.assertEqual(self.run_script("return [...globalThis.unseen].map((one) => one.outerHTML.slice(0, 80));"), [])

    def test_the_keyboard_stops_a_question(self) -> None:
        self.open()
        self.run_script(f"await until(() => document.documentElement.dataset.ready); by('input').value = {json.dumps(OF_24)};")
        for key, way in (("Enter", "document.activeElement === by('stop')"), ("Escape", "!by('stop').disabled")):
            self.run_script("by('message').textContent = ''; by('input').focus();")
            self.window.press("Control+Enter")
            self.press_until("Tab", way)
            self.window.press(key)
            self.assertEqual(self.run_script("await until(idle); return message();"), "Stopped.")

    def test_the_whole_list_is_described_and_can_be_stopped(self) -> None:
        """Stop keeps what is described; the button goes on with the rest, and goes with the last part."""
        self.open()
        whole = "return [by('tally').textContent.split(';')[0], by('more').hidden, document.querySelector('progress').hidden, by('part').textContent];"
        self.assertEqual(self.ask("surfaces", OF_14, whole), ["787 vertex normal surfaces", True, True, ""])
        self.run_script(f"await ask('surfaces', {json.dumps(OF_18)}); await until(() => by('part')?.textContent.startsWith('The table has') && rows()); by('stop').click(); await until(idle);")
        done, text, hidden = self.run_script("return [document.querySelector('progress').value, by('part').textContent, by('more').hidden];")
        self.assertLess(done, 8115)
        self.assertEqual([text, hidden], [f"The table has the first {done} of 8115; only these are counted, filtered and sorted.", False])
        self.run_script("by('message').textContent = 'x'; by('more').focus();")
        self.window.press("Enter")
        self.assertEqual(self.run_script("await until(() => by('more').hidden && by('part').textContent === ''); return document.activeElement.ariaLabel;"), "Surfaces")
        kinds = self.run_script("return by('tally').textContent;")
        self.assertEqual(sum(int(count) for count in re.findall(r"(\d+) × ", kinds)), 8115)

    def test_every_command_and_question_is_in_the_list(self) -> None:
        self.open()
        names = self.run_script("await until(() => document.documentElement.dataset.ready); return [...by('command').options].map((option) => option.value);")
        table = web_page.data_files()["commands.txt"].splitlines()
        self.assertEqual(names, ["0-efficient", *(line.split("\t")[0] for line in table if line and not line.startswith("#"))])

    def test_every_example_is_answered(self) -> None:
        self.open()
        names = list(json.loads(web_page.data_files()["examples.json"]))
        self.assertGreater(len(names), 15)
        for name in names:
            with self.subTest(name=name):
                script = f"await until(() => document.documentElement.dataset.ready); by('message').textContent = ''; by('example').value = '{name}'; by('example').dispatchEvent(new Event('change')); await until(idle); return message();"
                self.assertRegex(self.run_script(script), "^Answered in ")

    def test_a_link_carries_the_question(self) -> None:
        self.open(command="surfaces", coords="quad", input="sig cPcbbbiht\n")
        kinds = "return [...document.querySelectorAll('#view tbody td:nth-child(2)')].map((cell) => cell.textContent);"
        self.assertEqual(self.run_script(f"await until(idle); {kinds}"), [f"spun-normal at vertex {0}"] * 4)
        self.assertEqual(self.run_script("return [by('command').value, by('input').value, location.hash.includes('coords=quad')];"), ["surfaces", "sig cPcbbbiht\n", True])

    def test_a_link_that_is_not_understood_is_not_answered(self) -> None:
        said = "await until(idle); return [message(), by('result').hidden, rows(), by('command').value, by('input').value];"
        for question, why, command, text in (
                ({"command": "surfaces", "coords": "quads", "input": "sig bkaagj"}, "“coords=quads”, but coords must be one of standard, quad, octagon", "surfaces", "sig bkaagj"),
                ({"command": "homology", "input": "sig bkaagj"}, "the command “homology”, which is unknown", "surfaces", "sig bkaagj"),
                ({"input": "sig bkaagj"}, "no command", "surfaces", "sig bkaagj"),
                ({"command": "sig", "coords": "quad", "input": "sig bkaagj"}, "“coords”, which sig does not take", "sig", "sig bkaagj"),
                ({"command": "surfaces", "max-entry": "0", "input": "sig bkaagj"}, "“max-entry=0”, but max-entry must be a whole number from 1 to 170", "surfaces", "sig bkaagj"),
                ({"command": "make", "seed": "7"}, "no moves, which make needs", "make", ""),
                ({"command": "sig", "input": "\ufffd" * 500}, "an input that is not text", "sig", ""),
                ({"command": "sig", "input": "a" * 60000}, "more than 60,000 characters", "surfaces", "")):
            with self.subTest(why=why):
                self.open(None, **question)
                message, *rest = self.run_script(said)
                self.assertTrue(message.startswith(f"This link was not answered. It has {why}"), message)
                self.assertEqual(rest, [True, 0, command, text])

    def test_back_and_forward(self) -> None:
        # a window of its own: Chromium keeps 50 steps, and drops those that no person made first
        self.window_of_a_test()
        self.open()
        shown = "return [by('command').value, by('input').value, by('raw').textContent];"
        self.assertEqual(self.ask("sig", "sig bkaagn", shown), ["sig", "sig bkaagn", "bkaagj\n"])
        self.assertEqual(self.ask("csig", "sig cPcbbbiht", shown), ["csig", "sig cPcbbbiht", "cPcbbbiht\n"])
        move = "by('message').textContent = ''; history.%s(); await until(() => by('command').value === '%s'); await until(idle); "
        self.assertEqual(self.run_script(move % ("back", "sig") + shown), ["sig", "sig bkaagn", "bkaagj\n"])
        self.assertEqual(self.run_script(move % ("forward", "csig") + shown), ["csig", "sig cPcbbbiht", "cPcbbbiht\n"])
        self.run_script("history.go(-2); await until(() => by('command').value === 'surfaces');")
        self.assertEqual(self.run_script("await until(idle); return [location.hash, by('input').value, by('result').hidden, by('asked').hidden];"), ["", "sig cPcbbbiht\n", False, False])

    def test_a_question_too_long_for_a_link_is_found_again(self) -> None:
        self.window_of_a_test()
        self.open()
        long = ["sig bkaagj\n# " + "x" * 61000, "sig cPcbbbiht\n# " + "y" * 61000]
        for text in (*long, "sig bkaagn"):
            self.assertRegex(self.ask("sig", text), "^Answered")
        back = "by('message').textContent = ''; history.%s(); await until(() => message() && by('input').value[4] === '%s'); await until(idle); return [by('input').value.length, by('raw').textContent, location.hash];"
        self.assertEqual(self.run_script(back % ("back", "c")), [len(long[1]), "cPcbbbiht\n", ""])
        self.assertEqual(self.run_script(back % ("back", "b")), [len(long[0]), "bkaagj\n", ""])
        self.assertEqual(self.run_script(back % ("forward", "c")), [len(long[1]), "cPcbbbiht\n", ""])
        self.assertRegex(self.run_script("by('link').click(); await until(() => message() !== ''); return message();"), "too long for a link|Answered")

    def test_a_visit_is_not_mixed_with_an_older_one(self) -> None:
        """After the page is loaded again, Back does not lead to another question that has the same number."""
        self.window_of_a_test()
        self.open()
        gone = "This question was too long for a link, and its input is not kept any more."
        older = ["sig bkaagj\n# " + "x" * 61000, "sig cPcbbbiht\n# " + "y" * 61000]
        for text in older:
            self.assertRegex(self.ask("sig", text), "^Answered")
        self.run_script("setTimeout(() => location.reload()); return 0;")
        self.run_script_after_loading("await until(() => message() !== ''); return message();", gone)
        for text in ("sig bkaagn\n# " + "z" * 61000, "sig baa\n# " + "w" * 61000):
            self.assertRegex(self.ask("sig", text), "^(Answered|refused)")
        move = "by('message').textContent = ''; history.%s; await until(() => message() !== ''); await until(idle); return [message().split(' ')[0], by('input').value.slice(0, 10)];"
        self.assertEqual(self.run_script(move % "back()"), ["Answered", "sig bkaagn"])
        for _ in older:
            self.assertEqual(self.run_script(move % "back()")[0], "This")
            self.assertEqual(self.run_script("return [message(), by('result').hidden];"), [gone, True])
        self.assertEqual(self.run_script(move % "go(2)"), ["Answered", "sig bkaagn"])

    def run_script_after_loading(self, script: str, expected: object, most: float = 60) -> None:
        """Waits until a script, which a page that is being loaded may interrupt, gives a value."""
        end = time.monotonic() + most
        while True:
            with contextlib.suppress(Exception):
                if self.run_script(f"if (!document.documentElement.dataset.ready) throw Error('not ready'); {script}") == expected:
                    return
            self.assertLess(time.monotonic(), end, f"{script} does not give {expected}")
            time.sleep(0.2)

    def test_bare_and_decorated_signatures(self) -> None:
        self.open()
        asked = "return [message().split(' ')[0], by('asked').textContent.split('; trinorm ')[0], by('input').value];"
        said = "Question: sig of sig cPcbbbiht"
        for text, read in (("sig cPcbbbiht", ""), ("cPcbbbiht", "; read as `sig cPcbbbiht`"), ("# eight\n cPcbbbiht\r\n", None),
                           ("cPcbbbiht_BaCB", "; read as `sig cPcbbbiht`; the decoration was left out"),
                           ("sig cPcbbbiht_BaCB\n", "; read as `sig cPcbbbiht`; the decoration was left out")):
            with self.subTest(text=text):
                first, shown, field = self.ask("sig", text, asked)
                self.assertEqual((first, field), ("Answered", text.replace("\r", "")))
                if read is not None:
                    self.assertEqual(shown, said + read)
        answer = "return [by('raw').textContent, by('asked').textContent];"
        several, shown = self.ask("group", "bkaagj\ntri 1\n0:1023 0:1023 0:1230 0:3012\ncPcbbbiht_BaCB\n", answer)
        self.assertEqual(several.count("class"), self.ask("group", "sig bkaagj\nsig bkaagj\nsig cPcbbbiht", "return by('raw').textContent;").count("class"))
        self.assertIn("2 lines were read as signatures, the first as `sig bkaagj`; the decoration was left out", shown)
        # moves are no signatures
        self.assertRegex(self.ask("play", "bkaagj\n14 0\nundo\nredo\n"), "^Answered")
        self.assertRegex(self.ask("sig", "v3551"), "v3551 is the name of a manifold")
        self.assertEqual(self.ask("sig", "m003", "return [by('raw').textContent, by('asked').textContent.split('; trinorm')[0]];"),
                         ["cPcbbbdxm\n", "Question: sig of sig cPcbbbdxm; read as `sig cPcbbbdxm`; `m003` is a cusped hyperbolic manifold of the SnapPea census"])

    def test_the_question_stands_above_its_answer_and_on_paper(self) -> None:
        hidden = """
const rules = [...document.styleSheets].flatMap((sheet) => [...sheet.cssRules]).filter((rule) => rule.media?.mediaText === 'print').flatMap((rule) => [...rule.cssRules]);
const is_printed = (one) => one === document.body || (!rules.some((rule) => rule.style.display === 'none' && one.matches(rule.selectorText)) && is_printed(one.parentElement));
"""
        about = json.loads(web_page.data_files()["about.json"])["version"]
        self.open(command="surfaces", coords="quad", input="sig cPcbbbiht\n")
        text, asked, result, form = self.run_script(f"await until(idle); {hidden} return [by('asked').textContent, is_printed(by('asked')), is_printed(by('view')), is_printed(by('question'))];")
        digest = hashlib.sha256(module().read_bytes()).hexdigest()
        self.assertRegex(text, f"^Question: surfaces --coords quad of sig cPcbbbiht; trinorm {about}, trinorm.wasm {digest[:12]}…. [0-9]+ [A-Z][a-z]+ 20[0-9][0-9] at [0-9:]+$")
        self.assertEqual(self.run_script("return [document.title, getComputedStyle(document.querySelector('.paper')).display];"), ["surfaces --coords quad of sig cPcbbbiht – trinorm", "none"])
        self.assertEqual([asked, result, form], [True, True, False])
        # a table stands there whole, and a refusal is printed
        table = "tri 1\n0:1023 0:1023 0:1230 0:3012\nvec x"
        self.assertRegex(self.ask("verify", table), "^refused")
        self.assertEqual(self.run_script(f"{hidden} return [by('asked').querySelector('pre').textContent, is_printed(by('asked')), is_printed(by('message'))];"), [table, True, True])

    def open_file(self, data: str, name: str = "file.bin") -> Any:
        """What the page says of a file with bytes, given as a script; with what is in the field, and after how many seconds."""
        return self.run_script(f"""
await until(idle);
const files = new DataTransfer(), begun = performance.now();
files.items.add(new File([{data}], {json.dumps(name)}));
by('message').textContent = '';
by('file').files = files.files;
by('file').dispatchEvent(new Event('change'));
await until(idle);
await new Promise((done) => requestAnimationFrame(() => setTimeout(done)));
return [message(), by('input').value.slice(0, 100), (performance.now() - begun) / 1000];""")

    @timed
    def test_a_file_that_is_no_text_leaves_the_page_alive(self) -> None:
        self.open()
        first = "sig cPcbbbiht\n"
        for data, why in (("new Uint8Array(300000).fill(255)", "is not a text file"), ("new Uint8Array(3 << 20).fill(255)", "is longer than 1 MiB"),
                          ("new Uint8Array(1000)", "is not a text file"), ("'\ufffd'.repeat(100000)", "is not a text file"), ("'é'.repeat(100000)", "is not a text file"),
                          ("new Uint8Array([31, 139, 8, 0])", "is not a text file: this is a compressed file, as Regina saves them"),
                          ("new Uint8Array([255, 254, 115, 0])", "is not a text file: the file is in UTF-16")):
            with self.subTest(data=data):
                said, field, seconds = self.open_file(data)
                self.assertIn(f"file.bin {why}", said)
                self.assertEqual(field, first)
                self.assertLess(seconds, 60)
        self.assertEqual(self.open_file("'# é\\nsig bkaagj\\n'", "one.txt")[:2], ["Opened one.txt.", "# é\nsig bkaagj\n"])

    # files of about 30 MB, and what is said of them
    HOSTILE = (("'<regina>' + '<a>'.repeat(1e7)", "could not be read: it has no triangulation of dimension 3"),
               ("'<regina>' + '<tri x=\"'.repeat(4e6)", "could not be read: it has no triangulation of dimension 3"),
               ("'<regina>' + '<!---->'.repeat(4e6)", "could not be read: it has no triangulation of dimension 3"),
               ("'% Triangulation\\n' + '7 7\\n'.repeat(7e6)", "could not be read: tetrahedron 0 has no gluings"), ("'% Triangulation\\n' + '\\n'.repeat(3e7)", "could not be read: the numbers of cusps are missing"),
               ("'x'.repeat(3e7)", "is longer than 1 MiB"), ("new Uint8Array(3e7).fill(255)", "is longer than 1 MiB"), ("'<regina>' + ' '.repeat(34e6)", "is longer than 32 MiB"))

    BEGIN_TO_READ = """
await until(idle);
const files = new DataTransfer();
files.items.add(new File([%s], 'file.bin'));
by('message').textContent = '';
by('file').files = files.files;
let longest = 0, seen = performance.now();
const pulse = setInterval(() => { longest = Math.max(longest, performance.now() - seen); seen = performance.now(); }, 20);
by('file').dispatchEvent(new Event('change'));
"""

    @timed
    def test_large_files_of_nonsense_hold_nothing_up(self) -> None:
        """The page answers all the time, and the input stays."""
        self.open()
        for data, why in self.HOSTILE:
            with self.subTest(data=data):
                said, field, longest = self.run_script(self.BEGIN_TO_READ % data + "seen = performance.now(); await until(idle, 200000); clearInterval(pulse); return [message(), by('input').value, longest];")
                self.assertIn(f"file.bin {why}", said)
                self.assertEqual(field, "sig cPcbbbiht\n")
                self.assertLess(longest, 3000)

    @timed
    def test_reading_is_stopped_within_a_second(self) -> None:
        self.open()
        for stop in ("by('stop').click();", "document.dispatchEvent(new KeyboardEvent('keydown', {key: 'Escape', bubbles: true}));"):
            said, field, spent = self.run_script(self.BEGIN_TO_READ % self.HOSTILE[0][0] + f"clearInterval(pulse); await until(() => !by('stop').disabled); const begun = performance.now(); {stop} await until(idle); return [message(), by('input').value, performance.now() - begun];")
            self.assertEqual((said, field), ("Stopped. The input was not changed.", "sig cPcbbbiht\n"))
            self.assertLess(spent, 1000)
        self.assertEqual(self.open_file("'sig bkaagj'", "one.txt")[0], "Opened one.txt.")

    def test_a_newer_file_or_question_ends_a_reading(self) -> None:
        self.open()
        said = self.run_script(self.BEGIN_TO_READ % self.HOSTILE[0][0] + "clearInterval(pulse); const one = new DataTransfer(); one.items.add(new File(['sig bkaagj'], 'one.txt')); by('file').files = one.files; by('file').dispatchEvent(new Event('change')); await until(idle); return [message(), by('input').value];")
        self.assertEqual(said, ["Opened one.txt.", "sig bkaagj"])
        said = self.run_script(self.BEGIN_TO_READ % self.HOSTILE[0][0] + "clearInterval(pulse); by('answer').click(); await until(idle); return [message().split(' ')[0], by('input').value];")
        self.assertEqual(said, ["Answered", "sig bkaagj"])

    def test_one_answer_leads_to_the_next(self) -> None:
        self.open()
        said = "await until(idle); return [message().split(' ')[0], by('asked').querySelector('code').textContent, by('asked').querySelector('pre').textContent];"
        press = "by('message').textContent = ''; [...document.querySelectorAll('#view button')].find((one) => one.textContent === '%s').click(); "
        self.ask("surfaces", "bkaagj", "document.querySelector('#view td button').click();")
        crushed = self.run_script(press % "Crush along it" + said)
        self.assertEqual(crushed, ["Answered", "crush", "sig bkaagj\nvec 1 1 0 0 1 0 0"])
        self.open()
        self.ask("0-efficient", "sig eLMkabcddbrrag")
        self.assertRegex(self.run_script(press % "Crush along it" + said)[2], "^sig eLMkabcddbrrag\nvec ")
        table = self.run_script("return by('raw').textContent;")
        self.assertRegex(table, "^tri ")
        self.run_script(press % "Use it as input")
        self.assertEqual(self.run_script("return by('input').value;"), table)
        self.open(command="surfaces", coords="quad", input="sig bkaagj")
        self.run_script("await until(idle); document.querySelector('#view td button').click();")
        self.assertEqual(self.run_script("return [...document.querySelectorAll('#drawing button')].map((one) => one.textContent);"),
                         ["Lift it", "Decompose it", "Copy the vector", "Copy for Regina", "Copy for Python", "Save the picture (SVG)"])
        self.assertEqual(self.run_script(press % "Decompose it" + "await until(idle); return [by('command').value, document.querySelector('[data-option=coords]').value, message().split(' ')[0]];"), ["decompose", "quad", "Answered"])

    @timed
    def test_from_a_bare_signature_to_crush_lift_and_count(self) -> None:
        """Who pastes a signature sees a surface drawn within ten seconds of opening the page, and goes on by buttons alone."""
        begun = time.monotonic()
        self.open()
        drawn = "document.querySelector('#view td button').click(); return document.querySelectorAll('#drawing polygon').length;"
        self.assertGreater(self.ask("surfaces", "dLQbcccajqs", drawn), 0)
        self.assertLess(time.monotonic() - begun, 60)
        counted, shown = self.run_script("return [by('tally').textContent, document.querySelectorAll('#view tbody:not(.gap) tr').length];")
        self.assertEqual(counted.split()[0], str(shown))
        self.assertEqual(sum(int(count) for count in re.findall(r"(\d+) × ", counted)), shown)
        press = "by('message').textContent = ''; [...document.querySelectorAll('%s')].find((one) => one.textContent.startsWith('%s')).click(); await until(idle); return [by('command').value, message().split(' ')[0]];"
        self.assertEqual(self.run_script(press % ("#drawing button", "Crush along it")), ["crush", "Answered"])
        self.assertEqual(self.run_script(press % ("#visited button", "surfaces of dLQbcccajqs")), ["surfaces", "Answered"])
        self.run_script("document.querySelector('[data-option=coords]').value = 'quad'; by('message').textContent = ''; by('answer').click(); await until(idle);")
        self.assertGreater(self.run_script(drawn), 0)
        self.assertEqual(self.run_script(press % ("#drawing button", "Lift it")), ["lift", "Answered"])

    def test_licences(self) -> None:
        self.open()
        self.assertEqual(self.run_script("by('licences').querySelector('summary').click(); await until(() => document.querySelectorAll('#licences pre').length === 3); return [...document.querySelectorAll('#licences pre')].map((one) => one.textContent);"),
                         [(REPOSITORY / name).read_text("utf8") for name in web_page.LICENCES])

    def test_a_link_that_cannot_be_copied_is_shown(self) -> None:
        self.open()
        self.ask("sig", "sig bkaagn")
        shown = self.run_script("Object.defineProperty(navigator, 'clipboard', {value: undefined, configurable: true}); by('link').click(); await until(() => by('address')); return [message(), by('address').value, document.activeElement.id, location.href];")
        self.assertEqual(shown[0], "The browser did not allow copying. This is the link: ")
        self.assertEqual(shown[1:3], [shown[3], "address"])
        self.assertIn("#command=sig&input=sig+bkaagn", shown[1])

    def cited(self) -> str:
        """What the button for citations copies."""
        [text] = self.run_script(f"{self.COPY} by('cite').click(); await until(() => copied.length); return copied;")
        return str(text)

    def test_a_citation_is_that_of_claims(self) -> None:
        claims = (REPOSITORY / "docs" / "CLAIMS.md").read_text("utf8")
        [made] = re.findall(r"(?m)^> (The list of all vertex normal surfaces of T .*)$", claims)
        for one, other in (("computed by", "computed in a browser by"), ("SHA-256 of the program SUM", f"SHA-256 of the module {self.build['wasm']}"),
                           ("about the program's source", "about the source that was compiled for WebAssembly"), ("and on the system", "and on the system and the browser"),
                           ("VERSION", "9.9"), ("COMMIT", "0123abc"), ("kit KIT", "kit rattle-kit-0")):
            self.assertIn(one, made)
            made = made.replace(one, other)
        self.open(command="surfaces", input="sig cPcbbbiht\n")
        self.run_script("return until(idle);")
        self.assertEqual(self.cited(), f"{made}\n\nQuestion: surfaces\nT: sig cPcbbbiht\n")
        self.assertEqual(self.run_script("return message();"), "Copied.")
        self.open(command="surfaces", coords="quad", input="# <b>x</b>\nsig cPcbbbiht\n")
        self.run_script("return until(idle);")
        self.assertEqual(self.cited(), f"{made.replace('standard coordinates', 'quad coordinates')}\n\nQuestion: surfaces --coords quad\nT:\n# <b>x</b>\nsig cPcbbbiht\n")

    def test_citations_of_other_questions(self) -> None:
        self.open()
        by = f"trinorm 9.9 (commit 0123abc, SHA-256 of the module {self.build['wasm']}, Rattle kit rattle-kit-0)"
        self.ask("info", "m004")
        self.assertRegex(self.cited(), f"^{re.escape(f'The result of `info` for the input below was computed in a browser by {by}. That each result is the outcome')}(?s:.*)\n\nQuestion: info\nInput: sig cPcbbbiht\n$")
        self.ask("surfaces", "bkaagj\ncPcbbbiht\n")
        self.assertRegex(self.cited(), "^The results of `surfaces` for each of the 2 triangulations below were computed(?s:.*)\nInput:\nsig bkaagj\nsig cPcbbbiht\n$")
        self.ask("sig", f"# {'x' * 3000}\nsig bkaagj\n")
        digest = hashlib.sha256(f"# {'x' * 3000}\nsig bkaagj\n".encode()).hexdigest()
        self.assertTrue(self.cited().endswith(f"Input: an input of 3014 bytes with the SHA-256 checksum {digest}; keep it\n"))

    def test_citations_of_0_efficiency_have_their_hypotheses(self) -> None:
        self.open()
        closed, cusped = "T is connected, orientable and closed (each vertex link is a sphere), so it is 0-efficient", "each vertex link of T is a torus or a Klein bottle, so T contains no normal sphere"
        for text, there, absent in (("sig bkaagj", [self.DECIDED, closed], [cusped]), ("sig cPcbbbiht", [self.DECIDED, cusped], [closed]),
                                    ("sig bGab", [self.DECIDED], [closed, cusped]),
                                    ("sig eLMkabcddbrrag", ["in standard coordinates has Euler characteristic 1 and is not a vertex link, as computed in a browser by trinorm 9.9"], [self.DECIDED, closed, cusped]),
                                    ("bkaagj\ncPcbbbiht\n", ["for each of the 2 triangulations below"], [closed, cusped])):
            with self.subTest(text=text):
                self.ask("0-efficient", text)
                cited = self.cited()
                for part in there:
                    self.assertIn(part, cited)
                for part in absent:
                    self.assertNotIn(part, cited)

    DECIDED = "By a machine-checked theorem (`list_decides_efficiency`), each connected normal surface of T with positive Euler characteristic is a vertex link."

    def test_a_citation_that_cannot_be_copied_is_shown(self) -> None:
        self.open(command="surfaces", input="sig bkaagj\n")
        text = self.run_script("await until(idle); " + self.COPY + "by('cite').click(); await until(() => copied.length); return copied[0];")
        for clipboard in ("undefined", "{writeText: async () => { throw new DOMException('no', 'NotAllowedError'); }}"):
            self.open(command="surfaces", input="sig bkaagj\n")
            shown = self.run_script(f"await until(idle); Object.defineProperty(navigator, 'clipboard', {{value: {clipboard}, configurable: true}}); by('cite').click(); await until(() => by('address')); return [message(), by('address').value, document.activeElement.id, by('address').ariaLabel];")
            self.assertEqual(shown, ["The browser did not allow copying. This is the citation: ", text, "address", "citation"])

    def test_nonsense_has_no_citation(self) -> None:
        self.open()
        self.assertRegex(self.ask("surfaces", "sig bkaagj"), "^Answered")
        for command, text in (("surfaces", "nonsense <b>"), ("0-efficient", "sig xyz"), ("surfaces", "")):
            self.assertRegex(self.ask(command, text), "^refused")
            self.assertFalse(self.run_script("return by('cite').checkVisibility();"))

    def test_another_module_is_not_cited_as_proved(self) -> None:
        """One with a section more, which answers alike: in place of the module that the build noted, and in a page without a note."""
        other = module().read_bytes() + b"\0\x02\x01x"
        digest = hashlib.sha256(other).hexdigest()
        builds: List[Tuple[Dict[str, str], str]] = [
            (self.build, "It is not the file that the build of the page made, so"), ({}, "The page has no record of its build, so")]
        for build, why in builds:
            with tempfile.TemporaryDirectory() as folder:
                web_page.write(other, Path(folder), build)
                address = Path(folder, web_page.PAGE).as_uri()
                window = self.window
                window.open(f"{address}#command=surfaces&input=sig+bkaagj")
                self.run_script("return until(idle);")
                self.assertEqual(self.cited(), f"The result of `surfaces` for the input below was computed in a browser by a file trinorm.wasm with the SHA-256 checksum {digest}. {why} its version, "
                                 "commit and Rattle kit are unknown, and nothing is cited as proved. The line `wasm` in the MANIFEST of a release has the checksum of its module.\n\nQuestion: surfaces\nInput: sig bkaagj\n")

    def test_without_a_checksum_nothing_is_cited_as_proved(self) -> None:
        """As over http from another machine, where browsers compute none."""
        if self.from_disk:
            self.skipTest("over HTTP alone")
        self.open()
        self.assertEqual(self.run_script("""
await until(idle);
const {citation, module_of} = await import('./citation.js');
return (await citation({words: ['make', '--seed', '5'], input: ''}, module_of('', {wasm: ''}), {wasm: ''})).split('. ')[1];"""),
                         "Without the checksum its version, commit and Rattle kit are unknown, and nothing is cited as proved")

    def test_a_broken_connection_is_tried_again(self) -> None:
        """Once: what breaks twice, and a file that is missing, are said."""
        if self.from_disk:
            self.skipTest("over HTTP alone")
        self.open()
        for broken, name, expected in ((1, "page.css", "2 true"), (2, "page.css", "2 TypeError: broken"), (0, "none.css", "1 Error: none.css is missing (404)")):
            self.assertEqual(self.run_script(f"""
await until(idle);
const {{text_of}} = await import('./files.js');
const whole = window.fetch;
let calls = 0;
window.fetch = (...given) => ++calls <= {broken} ? Promise.reject(new TypeError('broken')) : whole(...given);
const said = await text_of('{name}').then((text) => String(text.length > 100), String);
window.fetch = whole;
return `${{calls}} ${{said}}`;"""), expected)

    def test_over_http_from_another_machine(self) -> None:
        """Browsers compute no checksum there, and let no page copy. The page answers, and says both."""
        if self.from_disk:
            self.skipTest("over HTTP alone")
        self.window.open(f"http://{browsers.ELSEWHERE}:{self.server.server_port}/index.html#command=sig&input=sig+bkaagn")
        self.assertEqual(self.run_script("await until(idle); return [isSecureContext, by('raw').textContent, by('checksum').textContent, by('asked').textContent.includes('trinorm.wasm')];"),
                         [False, "bkaagj\n", "Over http, this browser computes no SHA-256 of trinorm.wasm. Open the page over https or from the disk to see it.", False])
        for button, noun, part in (("link", "link", "#command=sig&input=sig+bkaagn"), ("cite", "citation", "nothing is cited as proved")):
            shown = self.run_script(f"by('{button}').click(); await until(() => by('address')?.ariaLabel === '{noun}'); return [message(), by('address').value];")
            self.assertEqual(shown[0], f"The browser did not allow copying. This is the {noun}: ")
            self.assertIn(part, shown[1])

    def test_a_table_of_surfaces(self) -> None:
        self.open(command="surfaces", input="sig bkaagj\n")
        cells = self.run_script("await until(idle); return [...document.querySelectorAll('#view tbody:not(.gap) tr')].map((row) => [...row.children].map((cell) => cell.textContent));")
        self.assertEqual(cells, [["0", "torus", "Draw ⋯", "0", "two", "yes", "no", "no", "1", "1100·100"],
                                 ["1", "sphere", "Draw ⋯", "2", "two", "yes", "yes", "no", "1", "1111·000"]])

    def test_surfaces_with_boundary_are_named(self) -> None:
        self.open(command="surfaces", input="tri 1\n- - - -\n")
        names = self.run_script("await until(idle); return [...document.querySelectorAll('#view tbody td:nth-child(2)')].map((cell) => cell.textContent);")
        self.assertEqual(names, ["disc"] * 7)

    def test_tables_name_their_rows_and_themselves(self) -> None:
        self.open()
        for command, caption in (("surfaces", "Surfaces"), ("info", "Vertices")):
            named = self.ask(command, "sig bkaagj", "const table = document.querySelector('#view table'); return [table.caption.textContent, table.querySelector('tbody:not(.gap) th').scope, [...table.tHead.rows[0].cells].every((head) => head.textContent && head.scope === 'col')];")
            self.assertEqual(named, [caption, "row", True])

    def test_a_long_list_is_sorted_and_filtered(self) -> None:
        """All of it, though rows are elements only where they can be seen."""
        self.open()
        shown = self.ask("surfaces", OF_18, "return [rows(), by('tally').textContent, document.querySelector('#view table').getAttribute('aria-rowcount')];")
        self.assertLess(shown[0], 200)
        self.assertRegex(shown[1], "^8115 vertex normal surfaces; [0-9]+ × ")
        self.assertEqual(shown[2], "8116")
        column = "[...document.querySelectorAll('#view tbody:not(.gap) td:nth-child(4)')].map((cell) => Number(cell.textContent))"
        scroll = "const table = document.querySelector('.long'); table.scrollTop = %s; await new Promise((done) => requestAnimationFrame(() => requestAnimationFrame(done)));"
        head = "document.querySelectorAll('#view th[scope=col]')[3]"
        ends = self.run_script(f"const ends = []; for (const way of ['ascending', 'descending']) {{ {head}.querySelector('button').click(); ends.push({head}.getAttribute('aria-sort') === way); for (const place of ['0', 'table.scrollHeight']) {{ {scroll.replace('const table', 'var table') % 'eval(place)'} const values = {column}; ends.push(way === 'ascending' ? values[0] : values.at(-1), values.every((value, at) => !at || (way === 'ascending' ? values[at - 1] <= value : values[at - 1] >= value))); }} }} return ends;".replace("eval(place)", "(place === '0' ? 0 : table.scrollHeight)"))
        self.assertEqual([value for value in ends if isinstance(value, bool)], [True] * 6)
        last = self.run_script(scroll % "table.scrollHeight" + "return [...document.querySelectorAll('#view tbody:not(.gap) tr')].at(-1).getAttribute('aria-rowindex');")
        self.assertEqual(last, "8116")
        counts = dict((name, int(count)) for count, name in re.findall(r"(\d+) × ([^,]+)", shown[1]))
        set_filter = """
const [kind, one, link, euler] = document.querySelectorAll('.filter select, .filter input');
kind.value = %s; one.checked = %s; link.checked = %s; euler.value = %s; euler.dispatchEvent(new Event('input'));
return [document.querySelector('.filter output').value, rows()];"""
        self.assertEqual(self.run_script(set_filter % ("'sphere'", "false", "false", "''"))[0], f"{counts['sphere']} of 8115")
        self.assertEqual(self.run_script(set_filter % ("'sphere'", "false", "false", "'0'")), ["0 of 8115", 0])
        links = self.run_script(set_filter % ("''", "false", "true", "''"))[0]
        self.assertRegex(links, "^8[01][0-9][0-9] of 8115$")
        self.assertEqual(self.run_script(set_filter % ("''", "false", "false", "'x'"))[0], "")

    def test_a_table_of_100_000_rows_has_few_elements(self) -> None:
        if self.from_disk:
            self.skipTest("over HTTP alone")
        self.open()
        self.assertEqual(self.run_script("""
await until(idle);
const {LongTable} = await import('./long_table.js');
const table = new LongTable('Numbers', [{name: 'number', is_number: true, key: (record) => record.number}], (record) => [String(record.number)]);
by('view').replaceChildren(table.element);
table.add(Array.from({length: 100000}, (_, number) => ({number})));
await new Promise((done) => requestAnimationFrame(() => requestAnimationFrame(done)));
const first = rows();
table.element.scrollTop = table.element.scrollHeight / 2;
await new Promise((done) => requestAnimationFrame(() => requestAnimationFrame(done)));
const middle = Number(document.querySelector('#view tbody:not(.gap) th').textContent);
document.querySelector('#view tbody:not(.gap) tr').tabIndex = 0;
document.querySelector('#view tbody:not(.gap) tr').focus();
table.element.scrollTop = 0;
await new Promise((done) => requestAnimationFrame(() => requestAnimationFrame(done)));
return [first < 100, rows() < 100, Math.abs(middle - 50000) < 1000, document.activeElement === table.element, table.element.querySelector('tbody:not(.gap) th').textContent];"""),
                         [True, True, True, True, "0"])

    def test_surfaces_are_sorted_by_genus(self) -> None:
        """Genus 10 comes after genus 2, and a sphere before both."""
        library = find_library()
        if library is None:
            self.skipTest("there is no library of the built program")
        vectors = [line for line in library.answer(["surfaces"], OF_18)[1].decode().splitlines() if line.startswith("vec")]
        chosen = OF_18 + "".join(f"{vectors[index]}\n" for index in (0, 1517, 14, 1))
        self.open()
        names = self.ask("describe", chosen, "document.querySelectorAll('#view th')[1].querySelector('button').click(); return [...document.querySelectorAll('#view tbody td:nth-child(2)')].map((cell) => cell.textContent);")
        self.assertEqual(names, ["sphere", "torus", "orientable surface of genus 2", "orientable surface of genus 10"])

    def test_a_surface_is_drawn(self) -> None:
        self.open()
        for command, text, discs in (("surfaces", "sig bkaagj", 3), ("describe", "sig bkaagj\nvec 2 2 0 0 2 0 0", 6)):
            drawn = "document.querySelector('#view td button').click(); return [document.querySelectorAll('#drawing polygon').length, document.activeElement.ariaLabel.slice(0, 9)];"
            self.assertEqual(self.ask(command, text, drawn), [discs, "Surface 0"])
        octagons = "by('command').value = 'describe'; by('command').dispatchEvent(new Event('change')); document.querySelector('[data-option=coords]').value = 'octagon'; by('input').value = 'sig bkaagj\\nvec 0 0 1 1 0 0 0 1 0 0'; by('message').textContent = ''; by('answer').click(); await until(idle); document.querySelector('#view td button').click(); return [...document.querySelectorAll('#drawing polygon')].map((polygon) => polygon.getAttribute('points').split(' ').length);"
        self.assertEqual(sorted(self.run_script(octagons)), [3, 3, 8])

    def test_info_is_tables(self) -> None:
        self.open()
        shown = self.ask("info", "sig cPcbbbiht", "return [...document.querySelectorAll('#view table')].map((table) => table.querySelectorAll('tbody tr').length);")
        self.assertEqual(shown, [1, 2])

    def test_the_graph_has_face_numbers(self) -> None:
        self.open()
        numbers = self.ask("info", "sig cPcbbbiht", "return [document.querySelectorAll('#graph .edge').length, [...document.querySelectorAll('#graph text.face')].map((text) => text.textContent).sort().join('')];")
        self.assertEqual(numbers, [4, "00112233"])

    def test_labels_of_loops_stand_off_their_lines(self) -> None:
        self.open()
        distances = self.ask("info", "sig bkaagj", """return [...document.querySelectorAll('#graph g')].map((group) => {
    const [circle, label] = ['circle', 'text'].map((name) => group.querySelector(name)), at = (one, name) => Number(one.getAttribute(name));
    return Math.hypot(at(label, 'x') - at(circle, 'cx'), at(label, 'y') - 3 - at(circle, 'cy')) - at(circle, 'r');
});""")
        self.assertEqual(len(distances), 2)
        self.assertGreater(min(distances), 8)
        # and in the picture: three figures are about twenty wide
        side, places = self.run_script("return [Number(document.querySelector('#graph svg').getAttribute('width')), [...document.querySelectorAll('#graph text')].map((one) => Number(one.getAttribute('x')))];")
        self.assertGreater(min(min(places), side - max(places)), 10)

    def test_controls_have_one_font(self) -> None:
        self.open()
        fonts = self.run_script("return [...document.querySelectorAll('button, select, .button')].filter((one) => !one.closest('td, #visited')).map((one) => getComputedStyle(one)).map((style) => `${style.fontFamily} ${style.fontSize}`);")
        self.assertEqual(len(set(fonts)), 1, fonts)

    LAW = ("Proved (list_decides_efficiency): each connected normal surface of positive Euler characteristic is a vertex link if and only if each listed "
           "vertex surface of positive Euler characteristic is.")
    JACO_AND_RUBINSTEIN = "0-efficient in the sense of Jaco and Rubinstein"

    def test_zero_efficiency(self) -> None:
        """The law as it is proved, and topology for the kind of triangulation that it is of."""
        self.open()
        verdict = "return [by('view').querySelector('.verdict').textContent, by('view').textContent];"
        holds = "Each connected normal surface of positive Euler characteristic is a vertex link."
        efficient = "0-efficient: each connected normal surface of positive Euler characteristic is a vertex link."
        closed, ideal = "It is closed (each vertex link is a sphere) and orientable, so it is ", "It is an ideal triangulation: its only vertex link is a "
        trials: List[Tuple[str, str, List[str], List[str]]] = [
            ("sig bkaagj", efficient, [closed + self.JACO_AND_RUBINSTEIN], ["ideal", "boundary faces"]),
            ("sig cPcbbbiht", holds, [ideal + "torus, not a sphere", "it contains no normal sphere and no normal projective plane"], [self.JACO_AND_RUBINSTEIN, "closed (each"]),
            ("tri 1\n0:1203 0:2013 0:0231 0:0312\n", holds, [ideal + "Klein bottle, not a sphere", "It is not orientable."], [self.JACO_AND_RUBINSTEIN]),
            ("sig eLMkabcddbrrag", "Not 0-efficient: surface [0-9]+ is a projective plane and not a vertex link.", [closed + "not " + self.JACO_AND_RUBINSTEIN, "the double of this projective plane"], []),
            ("sig dLQbcccajqs", "Surface [0-9]+ is a projective plane and not a vertex link.", ["It is closed (each vertex link is a sphere) and not orientable.", "A two-sided projective plane counts here"], [self.JACO_AND_RUBINSTEIN]),
            ("sig bGad", holds, ["The link of vertex 0 has boundary and is not a disc, so this is not a triangulation of a 3-manifold."], [self.JACO_AND_RUBINSTEIN]),
            ("tri 1\n- - - -\n", "", ["It has boundary faces, so discs count"], [self.JACO_AND_RUBINSTEIN, "closed (each", "not a triangulation"])]
        for text, short, there, absent in trials:
            with self.subTest(text=text):
                said, whole = self.ask("0-efficient", text, verdict)
                self.assertRegex(said, f"^{short}")
                self.assertIn(self.LAW, whole)
                for part in there:
                    self.assertIn(part, whole)
                for part in absent:
                    self.assertNotIn(part, whole)
        self.assertRegex(self.ask("0-efficient", "sig xyz"), "^refused: signature ")
        self.assertRegex(self.ask("0-efficient", (REPOSITORY / "examples" / "with-boundary.txt").read_text()), "^refused: invalid-edge .* not a triangulation of a 3-manifold")

    def test_info_says_the_kind(self) -> None:
        self.open()
        for text, kind in (("bkaagj", "Closed: each vertex link is a sphere."), ("cPcbbbiht", "Ideal: there is no boundary face, and its only vertex link is a torus, not a sphere."),
                           ("tri 1\n- - - -", "With boundary faces.")):
            self.assertEqual(self.ask("info", text, "return by('kind').textContent;"), kind)
        invalid = self.ask("info", (REPOSITORY / "examples" / "with-boundary.txt").read_text(), "return by('view').textContent;")
        self.assertIn("Invalid: edge 3 is identified with its own reverse", invalid)

    def test_refusals_have_a_hint_and_a_button_to_the_place(self) -> None:
        self.open()
        said = self.ask("sig", "foobarbaz")
        self.assertEqual(said, "refused: signature bad-type 1 – the signature is wrong here; copy it again.")
        self.assertEqual(self.ask("info", "a triangulation"), "refused: input 1 1 bad-word – a triangulation begins with `tri N` or `sig SIGNATURE`. Line 1, column 1")
        self.assertEqual(self.run_script("by('place').click(); return [document.activeElement.id, by('input').selectionStart, by('input').selectionEnd];"), ["input", 0, 1])
        self.assertRegex(self.ask("sig", "sig m004"), "m004 is the name of a manifold")
        self.assertRegex(self.ask("info", "tri 1\n- - - x"), "an entry is `-`, or a tetrahedron and the images")
        self.assertRegex(self.ask("info", ""), "the input is empty")
        self.assertRegex(self.ask("check", "sig bkaagj\n14 0"), "the moves are legal, but end at")

    def test_a_long_refusal_is_shown_by_its_beginning(self) -> None:
        """As one with a ray of 168 numbers."""
        self.open(None, **{"command": "surfaces", "input": OF_24, "max-entry": "1"})
        short = self.run_script("await until(idle); return by('message').querySelector('strong').textContent;")
        self.assertRegex(short, "^refused: large step [0-9]+ row [0-9]+ value [0-9 ]+ …$")
        self.assertEqual(len(short), 302)
        whole, focused = self.run_script("by('rest').click(); return [by('message').querySelector('strong').textContent, document.activeElement.tagName];")
        self.assertRegex(whole, "^refused: large step [0-9]+ row [0-9]+ value( [0-9]+){168}$")
        self.assertEqual((whole[:300], focused, self.run_script("return by('rest');")), (short[:300], "STRONG", None))

    def test_the_clock_runs_while_the_page_works(self) -> None:
        """Afterwards the message alone says how long it took."""
        self.open()
        self.assertRegex(self.ask("surfaces", OF_9, "return `${message()}|${by('clock').value}`;"), r"^Answered in [0-9.]+ m?s\.\|$")

    def test_stop_ends_a_long_question_at_once(self) -> None:
        self.open()
        stopped = self.run_script(f"await until(() => document.documentElement.dataset.ready); await ask('surfaces', {json.dumps(OF_24)}); await new Promise((done) => setTimeout(done, 700)); const was = [by('stop').disabled, parseFloat(by('clock').value) > 0.3]; const begun = performance.now(); by('stop').click(); await until(idle); return [...was, message(), performance.now() - begun < 1000];")
        self.assertEqual(stopped, [False, True, "Stopped.", True])
        self.assertRegex(self.ask("sig", "sig bkaagn"), "^Answered")
        self.run_script(f"await ask('surfaces', {json.dumps(OF_24)}); await new Promise((done) => setTimeout(done, 300)); by('input').focus();")
        self.window.press("Escape")
        self.assertEqual(self.run_script("await until(idle); return message();"), "Stopped.")

    def test_a_newer_question_ends_an_older_one(self) -> None:
        self.open()
        self.run_script(f"await until(() => document.documentElement.dataset.ready); await ask('surfaces', {json.dumps(OF_24)}); await new Promise((done) => setTimeout(done, 200));")
        self.assertEqual(self.ask("sig", "sig bkaagn", "return by('raw').textContent;"), "bkaagj\n")

    def test_hostile_inputs_stay_text(self) -> None:
        self.open()
        texts = ["<img src=x onerror=alert(1)>", "sig <script>alert(1)</script>", "tri <svg/onload=alert(1)>", "sig \u202ebkaagj",
                 "sig ../../etc", "sig {word}$&`", "\0\n\ud800"]
        for text in texts:
            with self.subTest(text=text):
                self.assertRegex(self.ask("info", text), "^refused: ")
                made = self.run_script("return [document.images.length, [...by('message').querySelectorAll('*')].map((one) => one.tagName).join(' ')];")
                self.assertEqual(made[0], 0)
                self.assertIn(made[1], ("STRONG", "STRONG BUTTON"))
        self.open(command="<b>x</b>", input="<b>y</b>")
        self.assertEqual(self.run_script("await until(() => document.documentElement.dataset.ready); return document.querySelectorAll('b').length;"), 0)

    def test_the_text_can_be_downloaded_and_copied(self) -> None:
        self.open()
        self.assertRegex(self.ask("sig", "sig bkaagn"), "^Answered")
        self.run_script("by('download').click();")
        self.assertEqual(self.window.downloaded("sig-bkaagn.txt"), b"bkaagj\n")
        self.run_script("by('copy').click();")
        self.assertIn(self.run_script("await until(() => !message().startsWith('Answered')); return message();").split(" This")[0],
                      ("Copied.", "The browser did not allow copying."))

    COPY = "const copied = []; Object.defineProperty(navigator, 'clipboard', {value: {writeText: async (text) => { copied.push(text); }}, configurable: true}); "
    MENU = "document.querySelectorAll('#view td.draw button')[2 * %d + 1].click(); [...document.querySelectorAll('#menu button')].find((one) => one.textContent === '%s').click(); "

    def test_a_surface_is_copied_for_other_programs(self) -> None:
        self.open()
        asked: List[Tuple[str, Coords]] = [("sig cPcbbbiht", "standard"), ("tri 1\n- - - -\n", "standard"), ("sig bkaagj", "quad"), ("sig bkaagj", "octagon")]
        for text, coordinates in asked:
            self.open(command="surfaces", coords=coordinates, input=text)
            vector, in_regina, in_python = self.run_script(f"await until(idle); {self.COPY}" + "".join(self.MENU % (0, name) for name in ("Copy the vector", "Copy for Regina", "Copy for Python")) + "await until(() => copied.length === 3); return copied;")
            self.assertRegex(vector, "^vec [0-9 ]+\n$")
            entries = [int(word) for word in vector.split()[1:]]
            self.assertIn(f"{entries}", in_python)
            self.assertRegex(in_python, "^trinorm.(describe|lift)\\(")
            compile(in_python, "line", "eval")
            regina = import_regina()
            surface = eval(in_regina, {"regina": regina})  # what a user would paste
            self.assertEqual(regina_surfaces.vector_of(surface, coordinates), tuple(entries))

    def test_an_answer_is_saved_in_other_forms(self) -> None:
        self.open(command="surfaces", input="sig bkaagj")
        self.run_script("await until(idle); by('csv').click(); by('json').click(); by('script').click();")
        table = list(csv.reader(io.StringIO(self.window.downloaded("surfaces-bkaagj.csv").decode())))
        self.assertEqual(table[1:], [["0", "torus", "0", "two", "yes", "no", "no", "1", "1 1 0 0 1 0 0"], ["1", "sphere", "2", "two", "yes", "yes", "no", "1", "1 1 1 1 0 0 0"]])
        saved = json.loads(self.window.downloaded("surfaces-bkaagj.json"))
        self.assertEqual(saved["question"], {"command": "surfaces", "options": {}, "input": "sig bkaagj"})
        self.assertEqual([(one["surface"], one["vector"]) for one in saved["surfaces"]], [("torus", [1, 1, 0, 0, 1, 0, 0]), ("sphere", [1, 1, 1, 1, 0, 0, 0])])
        script = self.window.downloaded("surfaces-bkaagj.py").decode()
        self.assertIn('print(trinorm.surfaces("sig bkaagj"))', script)
        compile(script, "script", "exec")
        self.assertEqual(self.ask("sig", "sig bkaagj", "return ['csv', 'json', 'script'].map((id) => by(id).hidden);"), [True, True, False])

    def test_labels_in_csv_are_no_formulas(self) -> None:
        self.open()
        labels = ["=1+1", "@SUM(A1)", "+1", "-2+3", '=HYPERLINK("x","y")', "-5", "plain"]
        self.ask("info", "".join(f"# {label}\nbkaagj\n" for label in labels))
        self.run_script("by('csv').click();")
        rows = list(csv.reader(io.StringIO(self.window.downloaded("info-bkaagj.csv").decode())))
        self.assertEqual([row[1] for row in rows[1:]], [label if label in ("-5", "plain") else f"'{label}" for label in labels])

    def test_a_form_that_is_changed_meanwhile_changes_no_answer(self) -> None:
        """What is saved of an answer has the question that was asked, not what the form says by then."""
        self.open()
        change = "by('command').value = 'make'; by('command').dispatchEvent(new Event('change')); by('input').value = 'bkaagj';"
        self.run_script(f"await until(idle); await ask('surfaces', 'sig bkaagn'); {change} await until(idle); by('json').click(); by('script').click();")
        self.assertEqual(json.loads(self.window.downloaded("surfaces-bkaagn.json"))["question"], {"command": "surfaces", "options": {}, "input": "sig bkaagn"})
        self.assertIn('print(trinorm.surfaces("sig bkaagn"))', self.window.downloaded("surfaces-bkaagn.py").decode())
        self.assertTrue(self.run_script("return !by('triangulation').hidden;"))
        [link] = self.run_script(f"await until(idle); {self.COPY} by('link').click(); await until(() => copied.length); return copied;")
        self.assertTrue(link.endswith("#command=surfaces&input=sig+bkaagn"), link)

    def test_a_picture_is_saved_for_light_paper(self) -> None:
        saved = []
        for dark in (False, True):
            with contextlib.closing(self.browser(dark=dark)) as window:
                window.open(f"{self.address}#command=surfaces&input=sig+bkaagj")
                window.run(f"{HELPERS} await until(idle); document.querySelector('#view td button').click(); [...document.querySelectorAll('#drawing button')].at(-1).click();")
                saved.append(window.downloaded("Surface-0-torus.svg"))
                self.assertFalse(window.run("return document.documentElement.classList.contains('light');"))
        self.assertEqual(saved[0], saved[1])

    def test_a_picture_is_saved(self) -> None:
        self.open(command="surfaces", input="sig bkaagj")
        self.run_script("await until(idle); document.querySelector('#view td button').click(); [...document.querySelectorAll('#drawing button')].at(-1).click();")
        root = ElementTree.fromstring(self.window.downloaded("Surface-0-torus.svg"))
        self.assertEqual(len(root.findall(".//{http://www.w3.org/2000/svg}polygon")), 3)
        self.assertEqual([one for one in root.iter() if "class" in one.attrib or "style" in one.attrib], [])
        self.assertTrue(all(one.attrib["stroke"].startswith("rgb") for one in root.iter("{http://www.w3.org/2000/svg}polygon")))

    def test_pictures_turn_by_keys_and_by_dragging(self) -> None:
        self.open(command="surfaces", input="sig bkaagj")
        points = "[...document.querySelectorAll('#drawing polygon')].map((one) => one.getAttribute('points')).join(';')"
        first = self.run_script(f"await until(idle); document.querySelector('#view td button').click(); document.querySelector('svg.turned').focus(); return {points};")
        seen = [first]
        for key in ("ArrowLeft", "ArrowUp"):
            self.window.press(key)
            seen.append(self.run_script(f"return {points};"))
        self.run_script("document.querySelector('svg.turned').dispatchEvent(new PointerEvent('pointermove', {isPrimary: true, buttons: 1, movementX: 30, movementY: 10}));")
        seen.append(self.run_script(f"return {points};"))
        self.assertEqual(len(set(seen)), 4)
        self.window.press("Home")
        self.assertEqual(self.run_script(f"return {points};"), first)

    def test_a_large_graph_can_be_read(self) -> None:
        """No two labels overlap, also not in the small picture, which has numbers of faces and tetrahedra as far as they can be read."""
        overlaps = """
const boxes = [...document.querySelectorAll('#%s text')].map((text) => text.getBoundingClientRect());
const meet = (a, b) => a.left < b.right && b.left < a.right && a.top + 3 < b.bottom - 3 && b.top + 3 < a.bottom - 3;
return boxes.reduce((sum, box, at) => sum + boxes.slice(at + 1).filter((other) => meet(box, other)).length, 0);"""
        small = """
const labels = (name) => [...document.querySelectorAll(`#graph text.${name}`)].map((text) => text.getBoundingClientRect().height);
return [labels('face').length > 0, labels('name').length > 0, Math.min(100, ...labels('name')), by('triangulation').textContent];"""
        for text, count, has_faces, has_names in ((OF_9, 9, True, True), (OF_18, 18, False, True), (OF_24, 24, False, True), (made(2, 59), 36, False, True), (made(5, 70), 57, False, False)):
            self.open()
            self.ask("info", text)
            faces, names, height, about = self.run_script(small)
            self.assertEqual((faces, names), (has_faces, has_names))
            self.assertGreater(height, 8)
            self.assertEqual(re.findall("The large picture has .*?[.]", about), [] if has_faces else [f"The large picture has the numbers of the {'' if has_names else 'tetrahedra and '}faces."])
            self.assertEqual(self.run_script(overlaps % "graph"), 0)
            self.run_script("by('enlarge').click();")
            self.assertEqual(self.run_script("return [by('large').open, document.querySelectorAll('#large .node').length, document.querySelectorAll('#large text.name').length];"), [True, count, count])
            self.assertEqual(self.run_script(overlaps % "large"), 0)
            self.keep(self.window, f"graph-{count}")
            self.window.press("Escape")
            self.assertEqual(self.run_script("return by('large').open;"), False)

    def test_words_are_explained(self) -> None:
        self.open(command="surfaces", input="sig bkaagj")
        known = json.loads(web_page.data_files()["words.json"])["words"]
        used = self.run_script("await until(idle); return [...document.querySelectorAll('[data-word]')].map((one) => [one.dataset.word, one.getAttribute('aria-description')]);")
        self.assertGreater(len(used), 8)
        for word, sentence in used:
            self.assertEqual(sentence, known[word])
        shown = "return [by('explanation').matches(':popover-open'), by('explanation').textContent];"
        self.assertEqual(self.run_script("document.querySelector('dfn[data-word=coords]').focus();" + shown), [True, f"coords: {known['coords']}"])
        self.window.press("Escape")
        self.assertEqual(self.run_script(shown)[0], False)
        point = "document.querySelector('#view [data-word=sides]').dispatchEvent(new PointerEvent('%s', {bubbles: true}));"
        self.assertEqual(self.run_script(point % "pointerover" + shown), [True, f"sides: {known['sides']}"])
        self.run_script(point % "pointerout")
        self.assertTrue(self.run_script("return until(() => !by('explanation').matches(':popover-open'));"))
        self.ask("info", "sig cPcbbbiht")
        self.assertLessEqual({word for word, _ in self.run_script("return [...document.querySelectorAll('[data-word]')].map((one) => [one.dataset.word, 0]);")}, set(known))

    def test_examples_with_a_story(self) -> None:
        """What the stories say is what the page shows."""
        stories = json.loads(web_page.data_files()["stories.json"])
        self.open()
        first = self.run_script("await until(idle); return [by('story').textContent, by('input').value, message().split(' ')[0], location.hash];")
        self.assertEqual(first, [stories[0]["story"], stories[0]["input"], "Answered", ""])
        shown = []
        for number, story in enumerate(stories):
            self.run_script(f"by('message').textContent = ''; by('example').value = 'story {number}'; by('example').dispatchEvent(new Event('change')); await until(idle);")
            said, text = self.run_script("return [message(), by('view').textContent];")
            self.assertRegex(said, "^Answered")
            self.assertEqual(self.run_script("return [by('story').textContent, by('story').hidden];"), [story["story"], False])
            shown.append(text)
        eight, gieseking, poincare, klein, contrary, lens = shown
        self.assertRegex(eight, "^1 vertex normal surface; 1 × torus")
        self.assertIn("its only vertex link is a Klein bottle, not a sphere", gieseking)
        self.assertIn("orientableno", gieseking)
        self.assertIn("0-efficient: each connected normal surface of positive Euler characteristic is a vertex link.", poincare)
        self.assertRegex(klein, "Klein bottle")
        self.assertRegex(contrary, "is a projective plane and not a vertex link")
        self.assertIn("4 triangulations", lens)
        self.run_script("by('input').value = 'sig a'; by('input').dispatchEvent(new Event('input'));")
        self.assertEqual(self.run_script("return [by('example').value, by('story').hidden];"), ["", True])

    def test_several_triangulations_are_one_table(self) -> None:
        self.open()
        cells = "return [...document.querySelectorAll('#view tbody:not(.gap) tr')].map((row) => [...row.children].map((cell) => cell.textContent));"
        text = "cPcbbbiht\n# two\nsig bkaagj\nxyz\ntri 1\n0:1023 0:1023 0:1230 0:3012\n"
        found = self.ask("surfaces", text, cells)
        self.assertEqual([row[:3] for row in found], [["0", "cPcbbbiht", "Ask"], ["1", "two", "Ask"], ["2", "xyz", "Ask"], ["3", "tri 1", "Ask"]])
        self.assertEqual(found[0][3:], ["1", "0", "0", "1", "0", "0", "0", "1", "0"])
        self.assertEqual(found[1][3:], ["2", "1", "0", "1", "0", "0", "0", "1", "0"])
        self.assertRegex(found[2][3], "^signature ")
        self.assertEqual(found[3][3:], found[1][3:])
        self.assertIn("of each of 4 triangulations; 2 lines were read as signatures", self.run_script("return by('asked').textContent;"))
        self.assertEqual([row[3:] for row in self.ask("sig", "bkaagn\ncPcbbbiht\n", cells)], [["bkaagj"], ["cPcbbbiht"]])
        kinds = self.ask("0-efficient", "bkaagj\neLMkabcddbrrag\n", cells)
        self.assertEqual([row[5] for row in kinds], ["yes", "no"])
        self.assertEqual([row[5] for row in self.ask("info", "bkaagj\ncPcbbbiht\n", cells)], ["closed", "ideal"])
        self.run_script("by('csv').click();")
        self.assertIn("1,cPcbbbiht,1,2,ideal", self.window.downloaded("info-bkaagj.csv").decode())
        self.run_script("by('message').textContent = ''; document.querySelectorAll('#view tbody:not(.gap) button')[1].click(); await until(idle);")
        self.assertEqual(self.run_script("return [by('command').value, by('input').value];"), ["info", "sig cPcbbbiht\n"])

    def test_files_of_regina_and_snappea_are_opened(self) -> None:
        triangulation = import_regina().Triangulation3.fromIsoSig("cPcbbbiht")
        rows = "".join(f"{row}\n" for row in rows_in_regina(triangulation))
        packet = import_regina().PacketOfTriangulation3(triangulation)
        packet.setLabel("eight")
        self.open()
        with tempfile.TemporaryDirectory() as folder:
            for compressed in (False, True):
                packet.save(f"{folder}/file.rga", compressed)
                data = base64.b64encode(Path(folder, "file.rga").read_bytes()).decode()
                said, text, _ = self.open_file(f"Uint8Array.from(atob('{data}'), (one) => one.charCodeAt(0))", "file.rga")
                self.assertEqual((said, text), ("Opened file.rga. It was read as 1 triangulation of a Regina file.", f"# eight\ntri 2\n{rows}"))
        self.assertEqual(self.open_file(json.dumps(triangulation.snapPea()), "m.tri")[1], f"# Regina_Triangulation\ntri 2\n{rows}")
        # pasted as text it stays, and is read when it is asked
        self.assertEqual(self.ask("sig", triangulation.snapPea(), "return [by('raw').textContent, by('asked').textContent.includes('read as 1 triangulation of a SnapPea file')];"), ["cPcbbbiht\n", True])
        bomb = "const made = []; const stream = new Blob([new Uint8Array(80 << 20)]).stream().pipeThrough(new CompressionStream('gzip')); const packed = new Uint8Array(await new Response(stream).arrayBuffer());"
        said = self.run_script(bomb + "await until(idle); const files = new DataTransfer(); files.items.add(new File([packed], 'bomb.rga')); by('message').textContent = ''; by('file').files = files.files; by('file').dispatchEvent(new Event('change')); await until(idle); return message();")
        self.assertIn("bomb.rga is not a text file", said)

    def test_a_file_is_dropped(self) -> None:
        self.open()
        drop = """
await until(idle);
const files = new DataTransfer();
files.items.add(new File(['bkaagj'], 'one.txt'));
by('message').textContent = '';
const over = new DragEvent('dragover', {bubbles: true, cancelable: true, dataTransfer: files}), drop = new DragEvent('drop', {bubbles: true, cancelable: true, dataTransfer: files});
document.body.dispatchEvent(over);
document.body.dispatchEvent(drop);
await until(idle);
return [over.defaultPrevented, drop.defaultPrevented, message(), by('input').value];"""
        self.assertEqual(self.run_script(drop), [True, True, "Opened one.txt.", "bkaagj"])

    def test_a_paste_that_is_no_text_is_kept_out(self) -> None:
        self.open()
        self.run_script("return until(idle);")
        paste = """
if (message() === '') by('message').textContent = 'nothing';
await until(idle);
const begun = performance.now(), data = new DataTransfer();
data.setData('text/plain', %s);
const event = new Event('paste', {bubbles: true, cancelable: true});
Object.defineProperty(event, 'clipboardData', {value: data}); // which the constructor of a ClipboardEvent does not take everywhere
by('message').textContent = '';
by('input').dispatchEvent(event);
const is_alive = performance.now() - begun < 3000;
await until(() => by('stop').disabled);
return [event.defaultPrevented, message(), by('input').value.slice(0, 30), is_alive];"""
        first = "sig cPcbbbiht\n"
        refused = "What was pasted is not text of at most 1 MiB. The input was not changed."
        self.assertEqual(self.run_script(paste % "'\ufffd'.repeat(1 << 20)"), [True, refused, first, True])
        self.assertEqual(self.run_script(paste % "'a'.repeat(1 << 21)"), [True, refused, first, True])
        self.assertEqual(self.run_script(paste % "'bkaagj'"), [False, "", first, True])
        xml = "'<regina><tri dim=\"3\" perm=\"index\"><simplex> -1 0 -1 0 -1 0 -1 0 </simplex></tri>' + ' '.repeat(1 << 20) + '</regina>'"
        self.assertEqual(self.run_script(paste % xml), [True, "The input was replaced. It was read as 1 triangulation of a Regina file.", "tri 1\n- - - -\n", True])

    def test_the_questions_of_the_visit_are_listed(self) -> None:
        self.open()
        self.ask("sig", "sig bkaagn")
        self.ask("info", "cPcbbbiht\n")
        listed = "return [...document.querySelectorAll('#visited button')].map((one) => one.textContent);"
        self.assertEqual(self.run_script(listed), ["info of cPcbbbiht", "sig of sig bkaagn", "surfaces of sig cPcbbbiht"])
        self.run_script("by('message').textContent = ''; document.querySelectorAll('#visited button')[1].click(); await until(idle);")
        self.assertEqual(self.run_script("return [by('command').value, by('input').value];"), ["sig", "sig bkaagn"])
        self.assertEqual(self.run_script(listed), ["sig of sig bkaagn", "info of cPcbbbiht", "surfaces of sig cPcbbbiht"])
        self.assertEqual(self.run_script("return [Object.keys(localStorage), Object.keys(sessionStorage), document.cookie];") if not self.from_disk else [[], [], ""], [[], [], ""])

    def test_what_sig_prints_can_be_used(self) -> None:
        self.open()
        self.assertEqual(self.ask("sig", "sig bkaagn", "[...document.querySelectorAll('#view button')].find((one) => one.textContent === 'Use it as input').click(); return by('input').value;"), "sig bkaagj\n")

    def test_the_space_key_presses_every_button(self) -> None:
        self.open()
        self.ask("sig", "sig bkaagn", "globalThis.pressed = 0; by('download').addEventListener('click', () => { globalThis.pressed++; }); by('download').focus();")
        self.window.press("Space")
        self.assertEqual(self.run_script("return [globalThis.pressed, document.querySelectorAll('[role=button]').length];"), [1, 0])

    def test_all_controls_have_names(self) -> None:
        self.open(command="surfaces", input=OF_9)
        nameless = self.run_script("await until(idle); return [...document.querySelectorAll('button, select, input, textarea, a, [tabindex], svg')].filter((one) => !(one.textContent.trim() || one.labels?.length || one.getAttribute('aria-label'))).map((one) => one.outerHTML.slice(0, 80));")
        self.assertEqual(nameless, [])

    # roles whose elements mean nothing without a name
    NAMED = ("button", "link", "textbox", "combobox", "checkbox", "table", "region", "dialog", "image", "img", "menu", "menuitem", "progressbar", "form", "columnheader",
             "rowheader", "heading", "option", "figure", "DisclosureTriangle", "search")

    def test_each_view_has_roles_and_names(self) -> None:
        """As the browser tells a screen reader, which only Chromium's driver lists."""
        if self.browser is not browsers.Chromium:
            self.skipTest("in Chromium alone")
        self.open()
        views = (("surfaces", "sig bkaagj", "document.querySelector('#view td button').click();"), ("info", OF_9, ""), ("info", "sig bkaagj", "by('enlarge').click();"),
                 ("surfaces", "bkaagj\ncPcbbbiht", ""), ("0-efficient", "sig eLMkabcddbrrag", ""), ("sig", "sig bkaagn", "by('text').open = true;"), ("sig", "nonsense", ""),
                 ("surfaces", "sig bkaagj", "document.querySelectorAll('#view td.draw button')[1].click();"))
        for command, text, act in views:
            with self.subTest(command=command, text=text, act=act):
                self.ask(command, text, act)
                told = self.window.accessible()
                self.assertEqual([(role, properties) for role, name, properties in told if role in self.NAMED and not name.strip()], [])
                levels = [properties["level"] for role, _, properties in told if role == "heading"]
                self.assertTrue("dialog" in {role for role, _, _ in told} or levels[0] == 1 and levels.count(1) == 1, levels)
                self.assertTrue(all(later <= earlier + 1 for earlier, later in zip(levels, levels[1:])), levels)
                self.run_script("if (by('large').open) by('large').close(); if (by('menu').matches(':popover-open')) by('menu').hidePopover();")

    def test_a_table_is_told_with_its_caption_and_its_heads(self) -> None:
        self.open()
        self.ask("surfaces", "sig bkaagj")
        for role, name in (("table", "Surfaces"), ("region", "Surfaces"), ("rowheader", "0"), ("rowheader", "1"), ("columnheader", "surface"), ("columnheader", "χ"),
                           ("columnheader", "what can be done"), ("button", "Draw Surface 0: torus"), ("button", "More for Surface 1: sphere"), ("button", "Copy citation"), ("form", "Question")):
            self.assertEqual(self.window.with_role(role, name), 1, (role, name))
        self.ask("info", "sig cPcbbbiht")
        for role, name in (("table", "Vertices"), ("table", "Edges")):
            self.assertEqual(self.window.with_role(role, name), 1, (role, name))
        graph = "Face-pairing graph: 2 tetrahedra, 4 pairs of glued faces, 0 boundary faces"
        self.assertEqual(max(self.window.with_role(role, graph) for role in ("img", "image")), 1)

    def test_on_a_phone_the_button_is_next_to_the_name(self) -> None:
        """It is seen without scrolling sideways, also for long names."""
        window = self.new_window(size=(375, 812))
        library = find_library()
        vectors = [line for line in library.answer(["surfaces"], OF_18)[1].decode().splitlines() if line.startswith("vec")] if library else []
        for command, text in (("surfaces", OF_9), ("describe", OF_18 + "".join(f"{vectors[index]}\n" for index in (0, 1517, 14, 1) if vectors))):
            self.open(window, command=command, input=text)
            places = self.run_script("""
await until(idle);
return [...document.querySelectorAll('#view tbody:not(.gap) tr')].map((row) => {
    const [name, draw, more] = [row.cells[1], ...row.cells[2].querySelectorAll('button')].map((one) => one.getBoundingClientRect());
    return draw.left >= name.right && more.right <= 375 && draw.top < name.bottom && name.top < draw.bottom;
});""", window)
            self.assertGreater(len(places), 0)
            self.assertTrue(all(places), (command, places))
            self.assertTrue(self.run_script("return document.documentElement.scrollWidth <= innerWidth;", window))
        self.keep(window, "phone")

    def test_the_checksum_is_that_of_the_module(self) -> None:
        self.open()
        self.assertIn(hashlib.sha256(module().read_bytes()).hexdigest(), self.run_script("await until(() => by('checksum').textContent); return by('checksum').textContent;"))

    def test_a_narrow_screen_needs_no_scrolling_sideways(self) -> None:
        window = self.new_window(size=browsers.NARROW)
        self.open(window, command="surfaces", input=OF_9)
        self.assertEqual(self.run_script("await until(idle); return document.documentElement.scrollWidth <= innerWidth;", window), True)
        self.keep(window, "narrow")

    def test_both_colour_schemes(self) -> None:
        colours = []
        for scheme in ("light", "dark"):
            window = self.new_window(dark=scheme == "dark")
            self.open(window, command="surfaces", input=OF_9)
            script = "await until(idle); document.querySelectorAll('#view td button')[3].click(); return getComputedStyle(document.body).backgroundColor;"
            colours.append(self.run_script(script, window))
            self.keep(window, scheme)
        self.assertEqual(len(set(colours)), 2)

    def test_less_motion(self) -> None:
        for still, name in ((False, "turn"), (True, "none")):
            window = self.new_window(still=still)
            self.open(window, command="surfaces", input=OF_24)
            script = "await until(() => by('clock').classList.contains('busy')); return getComputedStyle(by('clock'), '::before').animationName;"
            self.assertEqual(self.run_script(script, window), name)

    def test_print(self) -> None:
        """All rows of a table are printed, over several pages, and no control."""
        self.open(command="surfaces", input=OF_9)
        self.run_script("await until(idle); document.querySelectorAll('#view td button')[3].click();")
        data = self.window.printed()
        self.keep(self.window, "print", data)
        self.assertTrue(data.startswith(b"%PDF"))
        self.assertGreater(pages_of(data), 2)

    def test_a_long_table_is_printed_whole(self) -> None:
        """The rows that cannot be seen are elements on paper, and not afterwards."""
        self.open()
        few = self.ask("surfaces", OF_14, "return rows();")
        self.assertLess(few, 200)
        counts = self.run_script("""
const counts = [], frames = () => new Promise((done) => requestAnimationFrame(() => requestAnimationFrame(done)));
for (const name of ['beforeprint', 'afterprint']) {
    window.dispatchEvent(new Event(name));
    counts.push(rows());
    await frames();
    counts.push(rows());
}
return counts;""")
        self.assertEqual(counts, [787, 787, few, few])

    def keep(self, window: Browser, name: str, data: Optional[bytes] = None) -> None:
        folder = OUT / "pictures"
        folder.mkdir(parents=True, exist_ok=True)
        place = "file" if self.from_disk else "http"
        (folder / f"{window.name}-{place}-{name}.{'pdf' if data else 'png'}").write_bytes(data or window.picture())

    def test_nothing_is_fetched_but_the_files_of_the_folder(self) -> None:
        Quiet.asked.clear()
        self.open()
        self.ask("surfaces", OF_9)
        names = {urllib.parse.urlparse(path).path[1:] for path in Quiet.asked}
        known = set() if self.from_disk else set(web_page.folder(b""))
        self.assertLessEqual(names, known)
        self.assertEqual(bool(names), not self.from_disk)

    def test_cases_in_the_worker(self) -> None:
        if self.from_disk:
            self.skipTest("over HTTP alone")
        lines = generated(COUNT)
        Path(self.folder.name, "web", "cases.tmp").write_text("\n".join(lines), "utf8")
        self.open()
        self.assertEqual(self.run_script("""
const module = await WebAssembly.compile(await (await fetch('trinorm.wasm')).arrayBuffer());
const worker = new Worker('worker.js', {type: 'module'});
let first = module;
const bytes_of = (text) => Uint8Array.from(text, (character) => character.charCodeAt(0));
const answer = (words, input) => new Promise((done) => { worker.onmessage = ({data}) => done(data); worker.postMessage({module: first, words, input, limit: 0}); first = undefined; });
const different = [];
for (const line of (await (await fetch('cases.tmp')).text()).split('\\n')) {
    const {words, input, output, status} = JSON.parse(line), got = await answer(words, bytes_of(input)), expected = bytes_of(output);
    const is_same = got.status === status && got.answer.length === expected.length && expected.every((byte, place) => byte === got.answer[place]);
    if (!is_same) different.push(line.slice(0, 200));
}
worker.terminate();
return different;"""), [])


class ChromiumByHttp(Page, unittest.TestCase):
    pass


class ChromiumFromDisk(Page, unittest.TestCase):
    from_disk = True


class FirefoxByHttp(Page, unittest.TestCase):
    browser = browsers.Firefox


class FirefoxFromDisk(Page, unittest.TestCase):
    browser = browsers.Firefox
    from_disk = True


if __name__ == "__main__":
    unittest.main()

"""The scripts of examples/ that readers copy; those for Regina are left out if this Python has no module regina."""
import os
import subprocess
import sys
import tempfile
import unittest
from pathlib import Path
from typing import ClassVar, List, Optional, Tuple

import trinorm
from trinorm.program import REPOSITORY
from trinorm.tables import Triangulation

from .programs import script
from .test_parts import long_one

try:
    import regina
except ImportError:
    regina = None

SCRIPT = str(REPOSITORY / "examples" / "zero-efficient.sh")
# the status, the lines of standard output, and standard error
Said = Tuple[int, List[str], str]
CENSUS = "/usr/share/regina-normal/examples/closed-or-census.rga"


class ZeroEfficient(unittest.TestCase):
    """examples/zero-efficient.sh"""

    def said(self, text: str, program: Optional[str] = None, shell: str = "sh", folder: Optional[str] = None) -> Said:
        around = {**os.environ, "TRINORM": program or trinorm.find()}
        if folder:
            around["TMPDIR"] = folder
        done = subprocess.run([shell, SCRIPT], input=text, env=around, capture_output=True, text=True, check=False)
        return done.returncode, done.stdout.splitlines(), done.stderr

    def test_answers(self) -> None:
        self.assertEqual(self.said("sig bkaagj\n"), (0, ["orientable yes", "closed yes", "kind closed", "surfaces 2", "positive and not linking 0"], ""))
        status, lines, _ = self.said((REPOSITORY / "examples" / "projective-planes.txt").read_text())
        self.assertEqual((status, lines[:5]), (1, ["orientable yes", "closed yes", "kind closed", "surfaces 9", "positive and not linking 2"]))
        self.assertEqual(lines[6], "euler 1 linking no boundary no components 1")
        self.assertEqual(self.said("tri 0\n")[1][3:], ["surfaces 0", "positive and not linking 0"])
        # without an end of the last line, and with CR LF
        self.assertEqual(self.said("sig bkaagj")[0], 0)
        self.assertEqual(self.said("tri 1\r\n0:1023 0:1023 0:1230 0:3012\r\n")[0], 0)

    def test_the_kind(self) -> None:
        """`closed yes` of `info` says that there is no boundary face, which is so of ideal triangulations too."""
        for text, kind in (("sig bkaagj", "closed"), ("sig cPcbbbiht", "ideal torus 1"), ("tri 1\n- - - -", "bounded"), ("tri 0", "closed"),
                           ("tri 1\n0:1203 0:2013 0:0231 0:0312", "ideal klein 1")):
            self.assertEqual(self.said(f"{text}\n")[1][2], f"kind {kind}", text)

    def test_are_the_package_s(self) -> None:
        tables: Tuple[Triangulation, ...] = ("bkaajj", "cPcbbbiht", "cMcabbjaj", "cMcabbgaj", "cPcbbbaai", trinorm.make(3, 8).table, trinorm.make(4, 8).table)
        for t in tables:
            text = str(t) if len(str(t).split()) > 1 else f"sig {t}\n"
            self.assertEqual(self.said(text)[0] == 0, bool(trinorm.zero_efficient(t)), text)

    def test_a_list_of_several_parts(self) -> None:
        status, lines, _ = self.said(str(long_one()))
        self.assertEqual((status, lines[3:5]), (1, ["surfaces 11027", "positive and not linking 95"]))

    def test_refusals(self) -> None:
        self.assertEqual(self.said("sig bkaagjx\n"), (2, [], "zero-efficient: info: refused: signature trailing 6\n"))
        self.assertEqual(self.said("")[0], 2)
        invalid = (REPOSITORY / "examples" / "with-boundary.txt").read_text()
        self.assertIn("describe: refused: invalid-edge", self.said(invalid)[2])

    def test_cut_answers(self) -> None:
        real = trinorm.find()
        for cut, text in (('case $1 in surfaces) "$real" "$@" | head -n 2 ;; *) exec "$real" "$@" ;; esac', "the output of `surfaces` is incomplete"),
                          ('case $1 in describe) "$real" "$@" | head -n 3 ;; *) exec "$real" "$@" ;; esac', "the output of `describe` is incomplete"),
                          ('case $1 in describe) exit 8 ;; *) exec "$real" "$@" ;; esac', "describe:"),
                          ("exit 0", "the output of `surfaces` is incomplete")):
            with tempfile.TemporaryDirectory() as folder:
                status, lines, error = self.said("sig bkaagj\n", script(folder, f"real='{real}'\n{cut}\n"))
                self.assertEqual((status, lines), (2, []))
                self.assertIn(text, error)

    def test_no_program(self) -> None:
        self.assertEqual(self.said("sig bkaagj\n", "/no/such/program")[0], 2)

    def test_nothing_is_left_behind(self) -> None:
        with tempfile.TemporaryDirectory() as folder:
            self.said("sig bkaagj\n", folder=folder)
            self.said("sig bkaagjx\n", folder=folder)
            self.assertEqual(os.listdir(folder), [])

    def test_folders_with_blanks(self) -> None:
        with tempfile.TemporaryDirectory(prefix="a b\\n'") as folder:
            self.assertEqual(self.said("sig bkaagj\n", folder=folder)[0], 0)

    def test_other_shells(self) -> None:
        for shell in ("dash", "bash", "busybox"):
            if any(os.access(os.path.join(it, shell), os.X_OK) for it in os.get_exec_path()) and shell != "busybox":
                self.assertEqual(self.said("sig bkaagj\n", shell=shell)[0], 0)


@unittest.skipIf(regina is None, "this Python has no module regina")
class OfRegina(unittest.TestCase):
    """The scripts that take a file of Regina's."""

    folder: ClassVar["tempfile.TemporaryDirectory[str]"]
    census: ClassVar[str]

    @classmethod
    def setUpClass(cls) -> None:
        cls.folder = tempfile.TemporaryDirectory()
        root = regina.Container()
        for number, signature in enumerate(("bkaagb", "bkaagj", "cMcabbjaj", "eLMkabcddbrrag", "dLQbcbcaafn", "cPcbbbiht", "bkaagj")):
            packet = regina.PacketOfTriangulation3(regina.Triangulation3.fromIsoSig(signature))
            packet.setLabel(f"number {number}")
            root.insertChildLast(packet)
        root.insertChildLast(regina.Text("no triangulation"))
        cls.census = os.path.join(cls.folder.name, "census.rga")
        root.save(cls.census)

    @classmethod
    def tearDownClass(cls) -> None:
        cls.folder.cleanup()

    def said(self, name: str, *words: str) -> Said:
        around = {**os.environ, "PYTHONPATH": str(REPOSITORY / "python")}
        done = subprocess.run([sys.executable, str(REPOSITORY / "examples" / name), *words], env=around, capture_output=True,
                              text=True, check=False)
        return done.returncode, done.stdout.splitlines(), done.stderr

    def test_efficiency_table(self) -> None:
        status, lines, error = self.said("efficiency_table.py", self.census, "4")
        self.assertEqual((status, error), (0, ""))
        self.assertEqual(lines[1:], ["1\t3\t3\t0\t3", "2\t2\t1\t1\t1", "3\t1\t0\t1\t1", "4\t1\t0\t0\t1"])
        self.assertEqual(self.said("efficiency_table.py", self.census, "0")[1], lines[:1])

    def test_count_census(self) -> None:
        status, lines, error = self.said("count_census.py", self.census)
        self.assertEqual((status, error), (0, ""))
        self.assertEqual([it.split()[0] for it in lines], ["bkaagb", "bkaagj", "cMcabbjaj", "cPcbbbiht", "dLQbcbcaafn", "eLMkabcddbrrag"])
        self.assertEqual(lines[1], "bkaagj surfaces 2 euler 2:1,0:1 linking 1 greatest 1")
        self.assertEqual(self.said("count_census.py", self.census, "2")[1], lines[:4])

    def test_certify_spheres(self) -> None:
        with tempfile.TemporaryDirectory() as folder:
            made = Path(folder) / "certificates"
            status, lines, error = self.said("certify_spheres.py", self.census, str(made))
            self.assertEqual((status, len(lines), error), (0, 4, ""))
            for file in made.iterdir():
                done = subprocess.run([trinorm.find(), "check"], input=file.read_bytes(), stdout=subprocess.PIPE, check=False)
                self.assertEqual(done.stdout, b"accepted\n")
            self.assertEqual(sorted(it.stem for it in made.iterdir()), ["bkaagb", "bkaagj", "dLQbcbcaafn"])

    def test_crush_and_identify(self) -> None:
        given = ("eLMkabcddbrrag", "bkaagb", "cMcabbjaj", "cPcbbbaai")
        status, lines, error = self.said("crush_and_identify.py", *given)
        self.assertEqual((status, error), (0, ""))
        self.assertEqual([it for it in lines if not it.startswith(" ")],
                         ["eLMkabcddbrrag: RP3 # RP3", "bkaagb: S3", "cMcabbjaj: S2 x S1", "cPcbbbaai: L(3,1)"])
        self.assertIn("lost by crushing, and known by homology: RP3, RP3", lines[1])
        self.assertIn("not a closed connected orientable", self.said("crush_and_identify.py", "cPcbbbiht")[2])

    def test_summands(self) -> None:
        whole = regina.Example3.poincare()
        for other in (regina.Example3.lens(7, 2), regina.Example3.lens(3, 1)):
            whole.connectedSumWith(other)
        whole.intelligentSimplify()
        [first, second] = self.said("crush_and_identify.py", whole.isoSig())[1]
        self.assertEqual(sorted(first.partition(": ")[2].split(" # ")), ["L(3,1)", "L(7,2)", "SFS [S2: (2,1) (3,1) (5,-4)]"])
        self.assertIn("L(3,1)", second)

    def test_wrong_words_are_answered_by_the_usage(self) -> None:
        wrong: Tuple[Tuple[str, Tuple[str, ...]], ...] = (
            ("efficiency_table.py", ()), ("efficiency_table.py", (self.census, "x")), ("count_census.py", ()),
            ("count_census.py", (self.census, "-1")), ("count_census.py", (self.census, "1", "2")),
            ("certify_spheres.py", (self.census,)), ("certify_spheres.py", (self.census, self.folder.name, "1.5")),
            ("crush_and_identify.py", ()), ("from_regina.py", ()), ("from_regina.py", ("bkaagj", "quads")))
        for name, words in wrong:
            status, lines, error = self.said(name, *words)
            self.assertEqual((status, lines), (1, []), (name, words))
            self.assertIn(f"examples/{name} ", error)
            self.assertNotIn("Traceback", error)

    def test_what_is_no_signature(self) -> None:
        for name in ("crush_and_identify.py", "from_regina.py"):
            status, lines, error = self.said(name, "bkaagjx")
            self.assertEqual((status, lines), (1, []), name)
            self.assertRegex(error, r"\Abkaagjx: Regina does not read this as a signature: .*\n\Z")

    def test_vertex_surfaces_of_regina_s_are_solutions(self) -> None:
        status, lines, error = self.said("from_regina.py", "bkaagj", "octagon")
        self.assertEqual((status, error), (0, ""))
        done = subprocess.run([trinorm.find(), "verify", "--coords", "octagon"], input="\n".join(lines), stdout=subprocess.PIPE, text=True,
                              check=False)
        self.assertEqual((done.returncode, set(done.stdout.split())), (0, {"solution"}))
        self.assertEqual(len(done.stdout.splitlines()), len(lines) - 2)

    def test_files_that_are_none(self) -> None:
        scripts: Tuple[Tuple[str, List[str]], ...] = (("efficiency_table.py", []), ("count_census.py", []), ("certify_spheres.py", [self.folder.name]))
        for name, more in scripts:
            status, lines, error = self.said(name, "/no/such/file", *more)
            self.assertEqual((status != 0, lines), (True, []))
            self.assertIn("this is not a file of Regina", error)

    @unittest.skipUnless(os.path.isfile(CENSUS), "Regina's census isn't there")
    def test_the_closed_census(self) -> None:
        self.assertEqual(self.said("efficiency_table.py", CENSUS, "3")[1][1:], ["1\t4\t4\t0\t2", "2\t10\t5\t3\t7", "3\t7\t7\t0\t7"])
        self.assertEqual(len(self.said("count_census.py", CENSUS, "3")[1]), 21)


if __name__ == "__main__":
    unittest.main()

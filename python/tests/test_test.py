"""tools/test.py: each part prints its line, a part that fails ends the whole with status 1, and what comes after the gate tries
what the gate has built."""
import contextlib
import importlib.util
import io
import os
import re
import shutil
import signal
import subprocess
import sys
import tempfile
import time
import unittest
from pathlib import Path
from typing import Any, List, Sequence, Tuple

from tests.cases import within
from tests.made_up import MadeUp
from tests.programs import is_running
from trinorm.program import REPOSITORY

sys.path.insert(0, str(REPOSITORY / "tools"))
spec = importlib.util.spec_from_file_location("test_tool", REPOSITORY / "tools" / "test.py")
assert spec is not None and spec.loader is not None
tool: Any = importlib.util.module_from_spec(spec)
sys.modules["test_tool"] = tool
spec.loader.exec_module(tool)

ANSWER = "ground\nleft\nright\ntrinorm\n"
INSTALL = """
import sys
sys.path.insert(0, 'tools')
from pathlib import Path
from typing import Any, List, Sequence, Tuple
from gate import Gate, NotBuilt, run_gate
gate = Gate()
status = run_gate(Path('gate.log'))
if status:
    sys.exit(f'the gate ended with {status}')
try:
    print(gate.install())
except NotBuilt as fault:
    sys.exit(str(fault))
"""


class Parts(unittest.TestCase):
    def printed(self, parts: List[Any], only: Sequence[str] = (), folder: Path = tool.PYTHON / "tests", complete: bool = False) -> Tuple[int, List[str]]:
        """The status and the lines, with N for the seconds."""
        tests, out = tool.Tests(list(only), folder, complete, folder / "kept" / "flaky.txt"), io.StringIO()
        with contextlib.redirect_stdout(out):
            tests.run_all(parts)
            status = tests.report()
        return status, re.sub(r"\b\d+ s$", "N s", out.getvalue(), flags=re.M).splitlines()

    def test_lines_and_statuses(self) -> None:
        good, bad = tool.Part("good", ["true"]), tool.Part("bad", ["sh", "-c", "echo out; echo err >&2; exit 3"])
        counts = "test: %d parts passed, %d failed, 0 left out; 0 tests passed, 0 skipped"
        self.assertEqual(self.printed([good]), (0, ["test: good: ok, N s", counts % (1, 0), "test: all passed"]))
        self.assertEqual(self.printed([bad, good]), (1, ["test: bad: FAILED", "out", "err", "test: good: ok, N s", counts % (1, 1),
                                                         "test: FAILED: bad"]))
        self.assertEqual(self.printed([bad, good], ["good"])[0], 0)

    def made_up(self, folder: str, body: str) -> Any:
        """A part with one test module: a timed test with this body, and one that isn't timed and fails if `other` is there."""
        os.mkdir(os.path.join(folder, "tests"))
        Path(folder, "tests", "__init__.py").touch()
        Path(folder, "tests", "test_made.py").write_text(
            "import os, unittest\n\n\ndef timed(it):\n    return it\n\n\nclass Made(unittest.TestCase):\n    @timed\n    def test_timed(self):\n"
            f"        {body}\n\n    def test_other(self):\n        self.assertFalse(os.path.exists('other'))\n\n"
            "    @unittest.skip('no reason')\n    def test_left_out(self):\n        pass\n", "utf8")
        return tool.Part("made", [sys.executable, "-m", "unittest", "-v", "tests.test_made"], Path(folder))

    def test_timed_tests_are_run_again(self) -> None:
        """Alone, and only if no other one failed; they are named, and the status is neither that of success nor of failure."""
        name = "test_made.Made.test_timed"
        for body, other, status, last in (
                ("if not os.path.exists('mark'):\n            open('mark', 'w').close()\n            self.fail('late')", False, 3, f"passed; flaky: {name}"),
                ("self.fail('late')", False, 1, "FAILED: made"),
                ("self.assertTrue(os.path.exists('mark')) or open('mark', 'w').close()", True, 1, "FAILED: made"),
                ("pass", False, 0, "all passed")):
            with self.subTest(body), tempfile.TemporaryDirectory() as folder:
                part = self.made_up(folder, body)
                if other:
                    Path(folder, "other").touch()
                found, lines = self.printed([part], folder=Path(folder, "tests"))
                self.assertEqual((found, lines[-1]), (status, f"test: {last}"), lines)
                again = f"test: made: timed tests failed, and are run again alone: {name}"
                self.assertEqual(again in lines, status == 3 or body == "self.fail('late')")
                self.assertIn("test: 1 skipped: no reason", lines)
                passed = "1 parts passed, 0 failed, 0 left out; 2 tests passed" if status != 1 else "0 parts passed, 1 failed, 0 left out; 0 tests passed"
                self.assertIn(f"test: {passed}, 1 skipped", lines)
                kept = Path(folder, "tests", "kept", "flaky.txt")
                self.assertEqual(kept.exists(), status == 3)
                if status == 3:
                    os.remove(os.path.join(folder, "mark"))
                    second = self.printed([part], folder=Path(folder, "tests"))[1]
                    self.assertRegex(second[-3], f"^test: flaky: {re.escape(name)}, in 2 runs on this machine since ")
                    self.assertEqual(len(kept.read_text().splitlines()), 2)

    def test_a_run_that_did_not_end_is_not_run_again(self) -> None:
        """Nor one that failed in another way than by timed tests: what it had not tried would be lost."""
        said = "FAIL: test_timed (tests.test_made.Made.test_timed)\n\nRan 1 test in 1s\n\n"
        self.assertEqual(tool.failed_tests(said + "FAILED (failures=1, skipped=2)\n"), ["test_made.Made.test_timed"])
        for end in ("", "FAILED (failures=1, unexpected successes=1)\n", "FAILED (failures=1)\n\nit had not ended after 5 s\n"):
            self.assertEqual(tool.failed_tests(said + end), [])

    def test_what_is_left_open(self) -> None:
        for body, status in (("self.file = open(os.devnull)\n        del self.file", 1), ("open(os.devnull).close()", 0)):
            with self.subTest(body), tempfile.TemporaryDirectory() as folder:
                part = self.made_up(folder, body)._replace(words=tool.tests_in(["tests.test_made"]))
                self.assertEqual(self.printed([part], folder=Path(folder, "tests"))[0], status)

    def test_complete(self) -> None:
        with tempfile.TemporaryDirectory() as folder:
            part = self.made_up(folder, "pass")
            for parts, last in (([part], "FAILED: not complete"), ([tool.Part("one", ["true"], needs="no-such-command")], "FAILED: not complete"),
                                ([tool.Part("one", ["true"])], "all passed")):
                status, lines = self.printed(parts, folder=Path(folder, "tests"), complete=True)
                self.assertEqual((status, lines[-1]), (int(last != "all passed"), f"test: {last}"))

    def test_a_part_that_fails_is_not_run_again(self) -> None:
        with tempfile.TemporaryDirectory() as folder:
            mends = tool.Part("bad", ["sh", "-c", f"cat '{folder}/mark' || {{ touch '{folder}/mark'; echo another list; exit 3; }} 2>&1"])
            status, lines = self.printed([mends])
        self.assertEqual((status, lines[0], lines[-1]), (1, "test: bad: FAILED", "test: FAILED: bad"))

    def test_the_python_that_has_regina(self) -> None:
        has = "import regina, numpy"
        there = [path for path in {sys.executable, shutil.which("python3"), "/usr/bin/python3"}
                 if path and os.path.exists(path) and subprocess.run([path, "-c", has], stderr=subprocess.DEVNULL).returncode == 0]
        self.assertEqual(tool.python_of_tests() in there, bool(there))

    def test_what_is_not_there_is_left_out(self) -> None:
        parts = [tool.Part("one", ["false"], needs="no-such-command"), tool.Part("two", ["false"], needs="/no/such/file")]
        self.assertEqual(self.printed(parts), (0, ["test: one: left out, since no-such-command is not there",
                                                   "test: two: left out, since file is not there",
                                                   "test: left out: one (without no-such-command)", "test: left out: two (without file)",
                                                   "test: 0 parts passed, 0 failed, 2 left out; 0 tests passed, 0 skipped", "test: all passed"]))

    def test_counts(self) -> None:
        said = "test_a (tests.T.test_a)\nWhat it says. ... ok\ntest_b (tests.T.test_b) ... skipped 'no b'\nRan 3 tests in 0.1s\n\nOK (skipped=1)\n"
        result = tool.Result(True, said)
        self.assertEqual((result.note(), dict(result.skipped())), (", 3 tests, 1 of them skipped", {"no b": 1}))
        self.assertEqual(tool.faults_of(said), "Ran 3 tests in 0.1s\n\nOK (skipped=1)\n")
        self.assertEqual(tool.Result(True, "3 examples ran\n").note(), "")

    def test_parts_that_would_not_run(self) -> None:
        """Quick checks alone have no late parts, so one that is asked for does not pass."""
        for words, named in ((["--quick", "--only", "style"], "style"), (["--only", ","], "")):
            done = subprocess.run([sys.executable, str(REPOSITORY / "tools" / "test.py"), *words], stdin=subprocess.DEVNULL,
                                  capture_output=True, text=True, check=False)
            self.assertEqual((done.returncode, done.stdout), (1, ""))
            self.assertTrue(done.stderr.startswith(f"no part '{named}'; there are edits apply, "), done.stderr)

    def test_a_part_that_does_not_end(self) -> None:
        """It is ended with all that it started, and fails."""
        with tempfile.TemporaryDirectory() as folder:
            mark = Path(folder, "mark")
            script = f"sleep 1000 & echo $! >'{mark}.new'; mv '{mark}.new' '{mark}'; sleep 1000"
            for seconds in (0.5, 5, 50):
                result = tool.run(tool.Part("slow", ["sh", "-c", script]), seconds)
                self.assertFalse(result.passed)
                self.assertIn("it had not ended after", result.wrote)
                if mark.exists():
                    break
            for _ in within(60):
                if not is_running(int(mark.read_text())):
                    break
                time.sleep(0.02)
            self.assertFalse(is_running(int(mark.read_text())))

    def test_signals(self) -> None:
        """A part gets Ctrl-C also where a shell in the background has it ignored."""
        script = "import signal; print(signal.getsignal(signal.SIGINT) is signal.default_int_handler, signal.getsignal(signal.SIGHUP) == signal.SIG_DFL)"
        before = [signal.signal(number, signal.SIG_IGN) for number in (signal.SIGINT, signal.SIGHUP)]
        try:
            result = tool.run(tool.Part("signals", [sys.executable, "-c", script]))
        finally:
            for number, handler in zip((signal.SIGINT, signal.SIGHUP), before):
                signal.signal(number, handler)
        self.assertEqual((result.passed, result.wrote), (True, "True True\n"))

    def test_each_test_module_is_in_one_group(self) -> None:
        there = {f"tests.{path.stem}" for path in (REPOSITORY / "python" / "tests").glob("test_*.py")}
        found = [name for group in [*tool.TESTS, "python"] for name in tool.tests_of(group)]
        self.assertEqual((set(found), len(found)), (there, len(there)))

    def test_types_of_each_test_are_checked(self) -> None:
        [part] = [part for part in tool.late_parts() if part.name == "types of tests"]
        there = {path.stem for path in (REPOSITORY / "python" / "tests").glob("*.py")}
        self.assertEqual({Path(word).stem for word in part.words if word.startswith("tests/")}, there)


class Gate(unittest.TestCase):
    def setUp(self) -> None:
        folder = tempfile.TemporaryDirectory()
        self.addCleanup(folder.cleanup)
        self.clone = MadeUp(Path(folder.name))
        self.clone.add_library()
        self.out = self.clone.top / "crates" / "trinorm" / "out"

    def gate(self, script: str = "", words: Sequence[str] = ("python3", "-c", INSTALL)) -> "subprocess.CompletedProcess[str]":
        return self.clone.run(list(words), MADE_UP_GATE=script)

    def test_what_the_gate_built_is_installed(self) -> None:
        done = self.gate()
        self.assertEqual(done.returncode, 0, done.stderr)
        self.assertIn("4 passed, 0 failed\nthe program of rt ci, and its library: sha256 ", done.stdout)
        self.assertEqual(self.clone.proved(), ["for_c", "ground", "left", "right"])
        self.assertEqual((self.clone.launch(), self.clone.proved()), (ANSWER, []))
        self.assertEqual((self.out / "libtrinorm.so").read_text(), "libtrinorm.so by one")
        self.assertIn("echo for_c", (self.out / "libtrinorm_c.a").read_text())
        self.assertIn("echo left", (self.out / "libtrinorm_c.a").read_text())

    def test_the_module_of_the_gate_is_that_of_a_build(self) -> None:
        self.clone.add_wasm()
        self.assertIn("and its library: sha256 ", self.gate().stdout)
        names = ("libtrinorm_c.a", "trinorm_c.bc", "trinorm.wasm")
        of_gate = [(self.out / name).read_bytes() for name in names]
        self.assertEqual(of_gate, [of_gate[0], of_gate[0], b"for WebAssembly: " + of_gate[0]])
        for path in (self.clone.top / "crates").glob("*/out/rlib"):
            shutil.rmtree(path)
        done = self.clone.build("--anew")
        self.assertEqual(done.returncode, 0, done.stderr)
        self.assertEqual([(self.out / name).read_bytes() for name in names], of_gate)

    def test_without_tools_the_line_says_that_there_is_no_module(self) -> None:
        self.clone.add_wasm()
        (self.clone.folder / "kit" / "toolchain" / "bin" / "clang").unlink()
        self.assertIn("; no module was kept\n", self.gate().stdout)
        self.assertFalse((self.out / "trinorm.wasm").exists())

    def test_libraries_of_earlier_checks(self) -> None:
        """They may be of other sources, so a build makes what is tried."""
        (self.clone.top / "crates" / "left" / "out" / "rlib").mkdir(parents=True)
        done = self.gate()
        self.assertIn("the program of tools/build.py, since libraries of earlier checks are in the clone", done.stdout)
        self.assertEqual((self.clone.launch(), (self.out / "libtrinorm.so").read_text()), (ANSWER, "libtrinorm.so by one"))

    def test_an_archive_that_is_not_proved(self) -> None:
        self.clone.write("for_c", "echo wrong\n")
        done = self.gate()
        self.assertEqual(done.returncode, 1)
        self.assertIn("the crate for_c did not build", done.stderr)

    def test_a_gate_that_fails(self) -> None:
        done = self.gate("exit 7")
        self.assertEqual((done.returncode, done.stderr), (1, "the gate ended with 7\n"))
        self.assertFalse((self.out / ".version").exists())

    def test_a_gate_without_a_program(self) -> None:
        self.assertIn("rt ci left no program", self.gate("rm crates/trinorm/out/trinorm").stderr)

    def test_sources_that_change_meanwhile(self) -> None:
        self.assertIn("sources changed during the run", self.gate("echo '# more' >>crates/left/src/lib.rt").stderr)

    def test_the_whole(self) -> None:
        """In the made-up repository the checks of tools fail, and the whole with them; the gate is run once, and its output is on
        standard output."""
        (self.clone.top / "crates" / "left" / "must-fail").mkdir()
        done = self.gate("echo a line of the gate", ["python3", "tools/test.py"])
        lines = done.stdout.splitlines()
        self.assertEqual(done.returncode, 1, done.stderr)
        self.assertEqual(lines.count("a line of the gate"), 1)
        for line in ("test: edits apply: FAILED", "test: edits refused: FAILED"):
            self.assertIn(line, lines)
        self.assertTrue(any(line.startswith("test: program: the program of rt ci") for line in lines), lines)
        self.assertTrue(lines[-1].startswith("test: FAILED: edits apply, "), lines[-1])
        done = self.gate("exit 1", ["python3", "tools/test.py"])
        self.assertEqual(done.returncode, 1)
        self.assertIn("test: the parts after the gate were not run", done.stdout)


if __name__ == "__main__":
    unittest.main()

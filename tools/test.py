#!/usr/bin/env python3
"""Tests all: the quick checks of tools/, then the gate (`rt ci`), then all that is around the proved program.

    tools/test.py [--only PART[,PART ..]] [--without-gate] [--quick] [--complete]

The parts after the gate try the program and the library that the gate has built, which it installs in the clone. Each part
prints one line with the seconds that it took; what it wrote follows only if it failed. A part that needs a command that is not
there is left out. The last lines say how many parts and tests passed, and which were left out or skipped, with the reasons;
--complete fails if any was.

A part that fails is not run again. Only tests that are marked as timed, whose limits may be exceeded on a loaded machine, are run
again alone, if no other test of the part failed. Those that then pass are flaky: the last line names them, and a file in the
user's cache counts them. A resource that a test leaves open (a ResourceWarning) fails its part.

The exit status is 1 if something failed, 3 if all passed but some tests were flaky, and 0 otherwise. --without-gate tries what
tools/build.py builds, --quick runs the checks before the gate alone, and --only the parts of these names.
"""
from __future__ import annotations

import argparse
import ast
import collections
import datetime
import functools
import os
import re
import shutil
import signal
import subprocess
import sys
import tempfile
import time
from pathlib import Path
from typing import Callable, Counter, List, NamedTuple, Optional, Sequence

sys.dont_write_bytecode = True

from gate import Gate, NotBuilt, run_gate  # noqa: E402
from repository import TOP, cache_folder  # noqa: E402

PYTHON = TOP / "python"
# the tests of python/tests that are of tools, launcher, library, other systems and the page; all others are of the package
TESTS = {
    "tools": ("test_build", "test_ci", "test_claims", "test_commits", "test_docs_site", "test_edits", "test_floors", "test_language", "test_laws",
              "test_links", "test_messages", "test_places", "test_prose", "test_reading", "test_release", "test_table_of_commands", "test_test",
              "test_try_release", "test_twice", "test_words", "test_worked_rows"),
    "launcher": ("test_launcher",),
    "library": ("test_c_library", "test_installing", "test_library", "test_server"),
    "rust": ("test_rust",),
    "systems": ("test_native",),
    "page": ("test_web",),
}
# the packages that tests take if they are there
PACKAGES = ("regina", "numpy", "pandas", "distributed", "mpi4py", "selenium", "websocket", "nbconvert")
# what shellcheck doesn't see: files that are read in, their variables, and backquotes that are printed
NOT_SEEN = "SC1091,SC2016,SC2034,SC2154,SC2185"
# seconds after which a part is ended; the longest takes some three minutes on an idle machine, and eleven under a load of ten
LONGEST = 1800.0
# the exit status if all passed, but some tests only when they were run again
FLAKY = 3


class Part(NamedTuple):
    """A part of the tests: its name, its command, the folder in which it runs, and the command or file that it needs."""

    name: str
    words: Sequence[str]
    folder: Path = TOP
    needs: str = ""


class Result(NamedTuple):
    """What came of a part: whether it passed, and what it wrote."""

    passed: bool
    wrote: str

    def tests(self) -> int:
        """How many tests ran, by what unittest wrote; skipped ones are among them."""
        ran = re.search(r"^Ran (\d+) tests? in", self.wrote, re.M)
        return int(ran[1]) if ran else 0

    def skipped(self) -> Counter[str]:
        """How many tests were skipped, by reason."""
        lines = re.findall(r"(?:^|\.\.\. )skipped (?:'(.*)'|\"(.*)\")$", self.wrote, re.M)
        reasons = collections.Counter(one or other for one, other in lines)
        total = re.search(r"\bskipped=(\d+)", self.wrote)
        more = (int(total[1]) if total else 0) - sum(reasons.values())
        return reasons + collections.Counter({"a reason that was not read": max(0, more)})

    def note(self) -> str:
        """How many tests ran, and how many of them were skipped."""
        skipped = sum(self.skipped().values())
        return (f", {self.tests()} tests" if self.tests() else "") + (f", {skipped} of them skipped" if skipped else "")


def python(*words: str) -> List[str]:
    """The words that run Python."""
    return [sys.executable, *words]


@functools.lru_cache(maxsize=None)
def python_of_tests() -> str:
    """The Python that runs the tests: one that has Regina and NumPy, which many of them need, and of these the first with most of the
    other packages; else this one."""
    best, most = sys.executable, (False, -1)
    for path in dict.fromkeys((sys.executable, shutil.which("python3"), "/usr/bin/python3")):
        if path is None or not os.access(path, os.X_OK):
            continue
        has = subprocess.run([path, "-c", "import regina, numpy"], stderr=subprocess.DEVNULL, check=False).returncode == 0
        count = "import sys, importlib.util as it; print(sum(it.find_spec(name) is not None for name in sys.argv[1:]))"
        done = subprocess.run([path, "-c", count, *PACKAGES], capture_output=True, text=True, check=False)
        found = has, int(done.stdout) if done.returncode == 0 else 0
        if found > most:
            best, most = path, found
    return best


def timed_tests(folder: Path) -> List[str]:
    """The tests of a folder that are marked by `@timed`, as `test_parts.LongLists.test_counts`."""
    found = []
    for path in sorted(folder.glob("test_*.py")):
        for kind in ast.parse(path.read_text(encoding="utf8")).body:
            if isinstance(kind, ast.ClassDef):
                found += [f"{path.stem}.{kind.name}.{one.name}" for one in kind.body if isinstance(one, ast.FunctionDef)
                          and any(getattr(mark, "id", "") == "timed" for mark in one.decorator_list)]
    return found


def failed_tests(wrote: str) -> List[str]:
    """The tests that failed by what unittest wrote, as `test_parts.LongLists.test_counts`; what is no test, as `setUpClass`, too.
    None if the run did not end with their number, or failed in another way."""
    if not re.search(r"^FAILED \((?:(?:failures|errors|skipped|expected failures)=\d+(?:, )?)+\)\n*\Z", wrote, re.M):
        return []
    found = re.findall(r"^(?:FAIL|ERROR): (\w+) \((?:tests\.)?([\w.]+)\)", wrote, re.M)
    return sorted({place if place.endswith(f".{name}") else f"{place}.{name}" for name, place in found})


def unclosed(wrote: str) -> bool:
    """Whether a test left a file, a socket or a process open."""
    return re.search(r"^ResourceWarning: ", wrote, re.M) is not None


def tests_of(group: str) -> List[str]:
    """The test modules of a group that are there; of the group `python` all that are in no other one."""
    names = sorted(path.stem for path in (PYTHON / "tests").glob("test_*.py"))
    others = {name for listed in TESTS.values() for name in listed}
    return [f"tests.{name}" for name in names if (name in TESTS[group] if group in TESTS else name not in others)]


def quick_parts() -> List[Part]:
    """The checks that need no program."""
    return [
        Part("edits apply", python("tools/edits.py")),
        Part("crates in order", python("tools/floors.py", "--check")),
        Part("table of commands", python("tools/commands.py", "--check")),
        Part("methods of tables", python("tools/methods.py", "--check")),
        Part("stored examples", python("tools/worked_rows.py", "--check")),
        Part("places in recipes", python("tools/places.py", "--check")),
        Part("times of builds", python("tools/build_times.py", "--check")),
        Part("page of laws", python("tools/laws.py", "--check")),
        Part("words of laws", python("tools/claims.py")),
        Part("sentences on laws", python("tools/sentences.py")),
        Part("page to read", python("tools/reading.py", "--check")),
        Part("words that are explained", python("tools/words.py", "--check")),
        Part("links of pages", python("tools/links.py")),
        Part("sentences of pages", python("tools/prose.py", "--check")),
        Part("words of messages", python("tools/messages.py", "--check")),
        Part("comments", python("tools/language.py", "--check")),
        Part("nothing written twice", python("tools/twice.py", "--check")),
        Part("messages of commits", python("tools/commits.py")),
    ]


def tests_in(words: Sequence[str]) -> List[str]:
    """The words that run tests. What a test leaves open is written as a ResourceWarning."""
    return [python_of_tests(), "-W", "error::ResourceWarning", "-m", "unittest", "-v", *words]


def typed(name: str, folder: Path, *words: str) -> Part:
    """The part that checks the types of some files in a folder."""
    here = ["mypy", "--strict", "--follow-imports=silent", "--cache-dir", os.devnull]
    return Part(name, [*here, "--config-file", str(PYTHON / "pyproject.toml"), *words], folder, "mypy")


def late_parts() -> List[Part]:
    """The tests of all that is around the program."""
    parts = [Part(group, tests_in(tests_of(group)), PYTHON, "cargo" if group == "rust" else "")
             for group in (*TESTS, "python") if tests_of(group)]
    files = {folder: sorted(path.name for path in (TOP / folder).glob("*.py")) for folder in ("tools", "bench")}
    scripts = ["trinorm", *sorted(str(path.relative_to(TOP)) for folder in ("launcher", "examples") for path in (TOP / folder).glob("*.sh"))]
    return parts + [
        Part("style", ["flake8", "python", "tools", "bench", "examples", "library"], TOP, "flake8"),
        Part("style of scripts", ["shellcheck", "-s", "sh", "-e", NOT_SEEN, *scripts], TOP, "shellcheck"),
        typed("types", TOP / "tools", *files["tools"]),
        typed("types of the package", PYTHON, "trinorm"),
        typed("types of bench", TOP / "bench", *files["bench"]),
        typed("types of tests", PYTHON, *(f"tests/{path.name}" for path in sorted((PYTHON / "tests").glob("*.py")))),
        Part("types of the page", ["tsc", "--project", "web"], TOP, "tsc"),
        Part("worked rows", [python_of_tests(), "-m", "trinorm.selfcheck"], PYTHON, str(PYTHON / "trinorm" / "selfcheck")),
        Part("examples", [python_of_tests(), "bench/examples.py"]),
    ]


def lacks(part: Part) -> str:
    """What a part needs and is not there, or nothing."""
    if not part.folder.is_dir():
        return part.folder.name
    is_there = not part.needs or shutil.which(part.needs) or any(Path(f"{part.needs}{ending}").exists() for ending in ("", ".py"))
    return "" if is_there else Path(part.needs).name


def run(part: Part, seconds: float = LONGEST) -> Result:
    """Runs a part, in a process group of its own, which is ended after some seconds."""
    around = {name: value for name, value in os.environ.items() if name not in ("TRINORM", "TRINORM_LIBRARY")}
    around.update(PYTHONPATH=str(PYTHON), MYPYPATH=f"{PYTHON}:{TOP / 'tools'}:{TOP / 'bench'}", PYTHONDONTWRITEBYTECODE="1")
    with tempfile.TemporaryFile() as log:
        running = subprocess.Popen(part.words, cwd=part.folder, env=around, stdin=subprocess.DEVNULL, stdout=log,
                                   stderr=subprocess.STDOUT, start_new_session=True, preexec_fn=take_signals)
        try:
            status: Optional[int] = running.wait(seconds)
        except subprocess.TimeoutExpired:
            status = None
        finally:
            end(running)
        log.seek(0)
        wrote = log.read().decode("utf8", "replace")
    if status is None:
        wrote += f"\nit had not ended after {seconds:.0f} s\n"
    if status == 0 and unclosed(wrote):
        wrote += "\na test left something open: see ResourceWarning above\n"
    return Result(status == 0 and not unclosed(wrote), wrote)


def take_signals() -> None:
    """Lets a part get the signals that its tests send. A shell ignores some for what it runs in the background, and so would all
    that is started from there."""
    for number in (signal.SIGINT, signal.SIGHUP, signal.SIGQUIT, signal.SIGTERM):
        signal.signal(number, signal.SIG_DFL)


def end(running: "subprocess.Popen[bytes]") -> None:
    """Ends a process and all of its group that still run."""
    try:
        os.killpg(running.pid, signal.SIGKILL)
    except OSError:
        pass
    running.wait()


def notes_of(wrote: str) -> str:
    """The lines of what a part wrote that are notes."""
    return "".join(f"{line}\n" for line in wrote.splitlines() if line.startswith("note: "))


def faults_of(wrote: str) -> str:
    """What a part wrote, without the lines of tests that passed or were skipped."""
    return re.sub(r"(?m)^(?:\w+ \([\w.]+\)\n)?.*\.\.\. (?:ok|skipped .*)\n?", "", wrote)


def note_flaky(tests: Sequence[str], file: Path) -> List[str]:
    """Adds tests that were flaky to a file, a line each, and returns a line for each that says how often it is there."""
    try:
        file.parent.mkdir(parents=True, exist_ok=True)
        with open(file, "a", encoding="utf8") as out:
            out.write("".join(f"{datetime.date.today()} {name}\n" for name in tests))
        known = [line.split() for line in file.read_text("utf8").splitlines()]
    except OSError as fault:
        return [f"{file} can't be written: {fault.strerror}"]
    days = {name: [line[0] for line in known if line[1:] == [name]] for name in tests}
    return [f"flaky: {name}, in {len(days[name])} runs on this machine since {days[name][0]} ({file})" for name in tests]


def say(text: str) -> None:
    """Prints a line at once."""
    print(f"test: {text}", flush=True)


class Tests:
    """A run of the tests: the parts that are asked for, those that failed, and the timed tests that passed only in a second run.

    folder: where the test modules are, whose marks are read
    complete: whether it fails if a test was skipped or a part left out
    kept: the file that counts flaky tests; one in the user's cache if it is None
    """

    def __init__(self, only: Sequence[str], folder: Path = PYTHON / "tests", complete: bool = False, kept: Optional[Path] = None) -> None:
        self.only, self.folder, self.complete, self.kept = only, folder, complete, kept
        self.failed: List[str] = []
        self.flaky: List[str] = []
        self.left_out: List[str] = []
        self.skipped: Counter[str] = collections.Counter()
        self.parts = self.tests = 0

    def is_asked(self, name: str) -> bool:
        """Whether a part of this name is to run."""
        return not self.only or name in self.only

    def fail(self, name: str, why: str) -> None:
        """Notes that a part failed, and prints what it wrote."""
        say(f"{name}: FAILED")
        print(faults_of(why.rstrip()), flush=True)
        self.failed.append(name)

    def run_timed_again(self, part: Part, first: Result) -> Result:
        """What came of a part. If no other tests than timed ones failed, these are run again alone, and are flaky if they pass."""
        failed = [] if first.passed or unclosed(first.wrote) else failed_tests(first.wrote)
        if not failed or not set(failed) <= set(timed_tests(self.folder)):
            return first
        say(f"{part.name}: timed tests failed, and are run again alone: {', '.join(failed)}")
        print(faults_of(first.wrote.rstrip()), flush=True)
        second = run(part._replace(words=tests_in([f"{self.folder.name}.{it}" for it in failed])))
        if not second.passed:
            return second
        self.flaky += failed
        return first._replace(passed=True)

    def run_all(self, parts: Sequence[Part]) -> None:
        """Runs parts one after another, and prints a line for each."""
        for part in parts:
            missing = lacks(part)
            if not self.is_asked(part.name):
                continue
            if missing:
                say(f"{part.name}: left out, since {missing} is not there")
                self.left_out.append(f"{part.name} (without {missing})")
                continue
            begun = time.monotonic()
            first = run(part)
            self.skipped += first.skipped()
            result = self.run_timed_again(part, first)
            if result.passed:
                self.parts += 1
                self.tests += result.tests() - sum(result.skipped().values())
                say(f"{part.name}: ok{result.note()}, {time.monotonic() - begun:.0f} s")
                print(notes_of(result.wrote), end="", flush=True)
            else:
                self.fail(part.name, result.wrote)

    def run_gate(self) -> bool:
        """Runs the gate, reads its log, and installs what it built. Returns whether there is something to test."""
        gate, begun = Gate(), time.monotonic()
        with tempfile.TemporaryDirectory(prefix="trinorm-test-") as folder:
            log = Path(folder, "gate.log")
            try:
                status = run_gate(log)
            except OSError as fault:
                self.fail("gate", f"rt ci could not be run: {fault}")
                return False
            if status:
                self.fail("gate", f"rt ci ended with status {status}")
                return False
            say(f"gate: ok, {time.monotonic() - begun:.0f} s")
            self.run_all([Part("edits refused", python("tools/edits.py", "--notes", str(log)))])
        return self.install(gate.install)

    def install(self, make: Callable[[], str]) -> bool:
        """Makes program and library, and returns whether they are there."""
        begun = time.monotonic()
        try:
            say(f"program: {make()}, {time.monotonic() - begun:.0f} s")
        except NotBuilt as fault:
            self.fail("program", str(fault))
            return False
        return True

    def report(self) -> int:
        """Prints how many passed, what was skipped or left out, and the last line. Returns the exit status."""
        for reason, count in self.skipped.most_common():
            say(f"{count} skipped: {reason}")
        for name in self.left_out:
            say(f"left out: {name}")
        for line in note_flaky(self.flaky, self.kept or cache_folder() / "flaky.txt") if self.flaky else []:
            say(line)
        say(f"{self.parts} parts passed, {len(self.failed)} failed, {len(self.left_out)} left out; {self.tests} tests passed, "
            f"{sum(self.skipped.values())} skipped")
        failed = f"FAILED: {', '.join(self.failed)}" if self.failed else ""
        lacks_some = "FAILED: not complete" if self.complete and (self.skipped or self.left_out) else ""
        flaky = f"flaky: {', '.join(self.flaky)}" if self.flaky else ""
        if failed or lacks_some:
            say("; ".join(filter(None, [failed, lacks_some, flaky])))
            return 1
        say(f"passed; {flaky}" if flaky else "all passed")
        return FLAKY if flaky else 0


def main() -> int:
    """Runs the tests, and returns the exit status."""
    parser = argparse.ArgumentParser(description="Runs all tests.")
    parser.add_argument("--only", metavar="PARTS", default="", help="the parts with these names, separated by commas")
    parser.add_argument("--without-gate", action="store_true", help="try what tools/build.py builds, and do not run rt ci")
    parser.add_argument("--quick", action="store_true", help="only the checks before the merge gate")
    parser.add_argument("--complete", action="store_true", help="fail if a test is skipped or a part is left out")
    given = parser.parse_args()
    tests = Tests([name.strip() for name in given.only.split(",")] if given.only else [], complete=given.complete)
    known = [part.name for part in [*quick_parts(), *([] if given.quick else late_parts())]]
    unknown = [name for name in tests.only if name not in known]
    if unknown:
        sys.exit(f"no part '{unknown[0]}'; there are {', '.join(known)}")
    tests.run_all(quick_parts())
    if not given.quick:
        there = tests.install(lambda: Gate().build("the gate was not asked for")) if given.without_gate or tests.only else tests.run_gate()
        if there:
            tests.run_all(late_parts())
        else:
            say("the parts after the gate were not run")
    return tests.report()


if __name__ == "__main__":
    sys.exit(main())

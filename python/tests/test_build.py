"""The build, over a made-up repository and a kit that proves nothing: the right program, and nothing proved twice."""
import contextlib
import io
import os
import shutil
import subprocess
import sys
import tempfile
import threading
import time
import unittest
from pathlib import Path
from typing import List, Optional

from tests.made_up import CRATES, MadeUp
from trinorm.program import REPOSITORY

ALL = sorted(set(CRATES) - {"beside"})
EVERY = sorted(CRATES)
ANSWER = "ground\nleft\nright\ntrinorm\n"


sys.path.insert(0, str(REPOSITORY / "tools"))
from build import held, is_file_of  # noqa: E402
from build_times import is_sealed, read_times  # noqa: E402
from kept import drop_lock  # noqa: E402


class Locks(unittest.TestCase):
    def test_a_file_that_is_removed_while_another_waits(self) -> None:
        """Who waited holds the lock of the new file; a lock that is held is not removed, and one that is free is."""
        with tempfile.TemporaryDirectory() as folder, contextlib.redirect_stderr(io.StringIO()), contextlib.redirect_stdout(io.StringIO()):
            path, found = Path(folder, "lock"), []

            def wait() -> None:
                with held(path, "waiting") as lock:
                    found.append(is_file_of(path, lock))

            waiting = threading.Thread(target=wait)
            with held(path, "nobody has it"):
                drop_lock(path)
                self.assertTrue(path.exists())
                waiting.start()
                time.sleep(0.3)
                path.unlink()
            waiting.join(60)
            self.assertEqual(found, [True])
            drop_lock(path)
            self.assertFalse(path.exists())
            drop_lock(path)


class Build(unittest.TestCase):
    maxDiff = None

    def setUp(self) -> None:
        folder = tempfile.TemporaryDirectory()
        self.addCleanup(folder.cleanup)
        self.folder = Path(folder.name)
        self.clone = MadeUp(self.folder)

    def assert_answers(self, clone: MadeUp, answer: str, proved: List[str]) -> None:
        self.assertEqual(clone.launch(), answer)
        self.assertEqual(clone.proved(), proved)

    def test_a_program_is_proved_once(self) -> None:
        self.assert_answers(self.clone, ANSWER, ALL)
        self.assert_answers(self.clone, ANSWER, [])
        kept = [it.name for it in (self.folder / "cache" / "trinorm" / "programs").iterdir() if it.is_dir()]
        self.assertEqual([name.count("-") for name in kept], [2])

    def test_numbers_of_jobs(self) -> None:
        for jobs in ("0", "-1", "x", "", "9" * 30):
            done = self.clone.build("--jobs", jobs)
            self.assertEqual((done.returncode, self.clone.proved()), (2, []), jobs)
            self.assertIn("expected a whole number of at least 1, not", done.stderr)
        self.assertEqual(self.clone.build("--jobs", "1").returncode, 0)

    def test_a_touched_source_proves_nothing(self) -> None:
        self.clone.launch()
        self.clone.proved()
        self.clone.source("left").touch()
        self.assert_answers(self.clone, ANSWER, [])
        self.clone.source("beside").write_text("echo other\n")
        self.assert_answers(self.clone, ANSWER, [])

    def test_a_changed_source_is_never_answered_by_the_old_program(self) -> None:
        self.clone.launch()
        self.clone.proved()
        self.clone.write("left", "echo other\n")
        os.utime(self.clone.source("left"), (0, 0))
        self.assert_answers(self.clone, ANSWER.replace("left", "other"), ALL)
        self.clone.write("left", "echo left\n")
        os.utime(self.clone.source("left"), (0, 0))
        self.assert_answers(self.clone, ANSWER, [])

    def test_a_measured_table(self) -> None:
        """It has each crate, and a checksum."""
        self.assertEqual(self.clone.build("--measure").returncode, 0)
        table = self.clone.top / "build_times.txt"
        self.assertEqual(sorted(read_times(table).crates), EVERY)
        self.assertTrue(is_sealed(table.read_text()))
        self.assertRegex(table.read_text(), "# measured: commit .+, .+\n")

    def test_a_folder_that_is_exchanged(self) -> None:
        src = self.clone.source("right").parent
        shutil.copytree(src, src.with_name("other"))
        (src.with_name("other") / "lib.rt").write_text("echo other\n")
        self.clone.launch()
        self.clone.proved()
        # past the seconds in which the build takes sources to be unread
        os.utime(self.clone.top / "crates" / "trinorm" / "out" / ".built")
        time.sleep(0.05)
        src.rename(src.with_name("old"))
        src.with_name("other").rename(src)
        self.assert_answers(self.clone, ANSWER.replace("right", "other"), ALL)

    def test_another_clone_and_a_copy(self) -> None:
        self.clone.launch()
        self.clone.proved()
        self.assert_answers(MadeUp(self.folder, "second clone"), ANSWER, [])
        shutil.copytree(self.clone.top, self.folder / "copy", symlinks=True)
        copy = MadeUp(self.folder, "copy")
        self.assert_answers(copy, ANSWER, [])
        copy.write("ground", "echo other\n")
        self.assert_answers(copy, ANSWER.replace("ground", "other"), ALL)
        self.assert_answers(self.clone, ANSWER, [])

    def test_two_clones_at_a_time_prove_once(self) -> None:
        clones = [self.clone, MadeUp(self.folder, "second")]
        slow = dict(self.clone.environment, MADE_UP_SECONDS="0.3")
        runs = [subprocess.Popen(["./trinorm"], cwd=it.top, env=slow, stdin=subprocess.DEVNULL, stdout=subprocess.PIPE,
                                 stderr=subprocess.PIPE, text=True) for it in clones]
        self.assertEqual([run.communicate(timeout=600)[0] for run in runs], [ANSWER, ANSWER])
        self.assertEqual(self.clone.proved(), ALL)

    def test_a_program_that_was_replaced(self) -> None:
        self.clone.launch()
        (self.clone.top / "crates" / "trinorm" / "out" / "trinorm").write_text("#!/bin/sh\necho forged\n")
        self.clone.source("left").touch()
        self.assertEqual(self.clone.launch(), ANSWER)

    def test_what_is_not_proved_answers_nothing(self) -> None:
        self.clone.write("right", "echo wrong\n")
        done = self.clone.run(["./trinorm"])
        self.assertEqual((done.returncode, done.stdout), (9, ""))
        self.assertIn("the crate right did not build", done.stderr)
        self.clone.proved()
        self.clone.write("right", "echo right\n")
        self.assertEqual(self.clone.launch(), ANSWER)
        proved = self.clone.proved() or []
        self.assertIn("right", proved)
        self.assertNotIn("ground", proved)

    def test_kept_libraries(self) -> None:
        for ending in (".tar.zst", ".tar.gz"):
            with self.subTest(ending):
                if ending == ".tar.gz":
                    self.hide_zstd()
                elif shutil.which("zstd") is None:
                    continue
                self.clone.build("--anew", "--keep")
                self.assertEqual(self.clone.proved(), EVERY)
                packs = os.listdir(self.folder / "cache" / "trinorm" / "libraries")
                self.assertEqual(sum(it.endswith(ending) for it in packs), len(EVERY), packs)
                # a comment leaves the library as it was, so what stands above it stays
                self.clone.write("ground", f"// {ending}\necho ground\n")
                self.assert_answers(self.clone, ANSWER, ["ground"])
                self.clone.write("left", f"echo other{ending}\n")
                self.clone.build("--keep")
                self.assertIn(self.clone.proved(), (["ground", "left", "trinorm"], ["left", "trinorm"]))
                self.assertEqual(self.clone.launch(), ANSWER.replace("left", f"other{ending}"))
                self.clone.write("ground", "echo ground\n")
                self.clone.write("left", "echo left\n")

    def test_a_build_over_kept_libraries_goes_on(self) -> None:
        self.clone.build("--keep")
        self.clone.write("left", "echo wrong\n")
        self.assertIn("the crate left did not build", self.clone.launch())
        self.clone.proved()
        self.clone.write("left", "echo other\n")
        self.assert_answers(self.clone, ANSWER.replace("left", "other"), ["left", "trinorm"])
        manifests = (self.folder / "cache" / "trinorm" / "programs").glob("*/MANIFEST")
        self.assertFalse(any("unknown" in path.read_text() for path in manifests))

    def hide_zstd(self) -> None:
        """A path on which no zstd stands."""
        commands = self.folder / "commands"
        commands.mkdir()
        for name in ("sh", "python3", "cat", "grep", "sha256sum", "mkdir", "sleep", "find", "chmod", "dirname", "readlink", "git"):
            path = shutil.which(name)
            if path:
                (commands / name).symlink_to(sys.executable if name == "python3" else path)
        self.clone.environment["PATH"] = f"{self.folder / 'kit' / 'bin'}{os.pathsep}{commands}"

    def test_a_kept_library_that_is_spoilt(self) -> None:
        self.clone.build("--keep")
        self.clone.proved()
        for path in (self.folder / "cache" / "trinorm" / "libraries").glob("*.tar.*"):
            path.write_bytes(path.read_bytes()[:20])
        self.clone.write("trinorm", "echo other\n")
        answer = ANSWER.replace("trinorm", "other")
        for _ in range(4):
            if self.clone.launch() == answer:
                break
        self.assertEqual(self.clone.launch(), answer)

    def test_the_last_ten_are_kept(self) -> None:
        for count in range(12):
            self.clone.write("trinorm", f"echo {count}\n")
            self.assertEqual(self.clone.launch(), ANSWER.replace("trinorm", str(count)))
        programs = self.folder / "cache" / "trinorm" / "programs"
        self.assertEqual(len([path for path in programs.iterdir() if path.is_dir()]), 10)
        self.assertEqual(len([path for path in programs.iterdir() if path.suffix == ".lock"]), 10)

    def test_without_the_kit(self) -> None:
        done = self.clone.run(["./trinorm"], kit=False)
        self.assertEqual((done.returncode, done.stdout), (9, ""))
        self.assertIn("the command rt of the Rattle kit is not there", done.stderr)
        self.clone.launch()
        self.assertEqual(MadeUp(self.folder, "second").launch(kit=False), ANSWER)

    def as_another_user(self) -> Optional[List[str]]:
        """Words that run a command as a user who may not write the clone, or None if there is no way to."""
        if os.geteuid():
            for path in [self.clone.top, *self.clone.top.rglob("*")]:
                if path.is_dir():
                    path.chmod(0o555)
                    self.addCleanup(path.chmod, 0o755)
            return []
        words = ["setpriv", "--reuid=65534", "--regid=65534", "--clear-groups"]
        return words if shutil.which("setpriv") and subprocess.run([*words, "true"], check=False).returncode == 0 else None

    def test_a_clone_that_another_user_runs(self) -> None:
        """It answers, also after a source was touched, without a word: the program is that of the sources."""
        self.clone.launch()
        self.clone.proved()
        self.folder.chmod(0o755)
        self.clone.source("left").touch()
        words = self.as_another_user()
        if words is None:
            self.skipTest("nothing runs as another user here")
        self.clone.environment["XDG_CACHE_HOME"] = str(self.folder / "none")
        done = self.clone.run([*words, "./trinorm"])
        self.assertEqual((done.returncode, done.stdout, done.stderr), (0, ANSWER, ""))

    def test_a_changed_clone_without_a_place_for_the_build(self) -> None:
        self.folder.chmod(0o755)
        words = self.as_another_user()
        if words is None:
            self.skipTest("nothing runs as another user here")
        self.clone.environment["XDG_CACHE_HOME"] = str(self.folder / "none")
        done = self.clone.run([*words, "./trinorm"])
        self.assertEqual((done.returncode, done.stdout, len(done.stderr.splitlines())), (9, "", 1), done.stderr)
        self.assertIn("cannot be written: Permission denied. Set XDG_CACHE_HOME", done.stderr)

    def test_no_proof(self) -> None:
        self.assertEqual(self.clone.build("--no-proof").returncode, 9)
        self.assertEqual(self.clone.proved(), [])
        self.clone.launch()
        self.clone.source("left").touch()
        self.assertEqual(self.clone.build("--no-proof").returncode, 0)

    def test_what_is_told_of_the_program(self) -> None:
        said = self.clone.build().stderr
        out = self.clone.top / "crates" / "trinorm" / "out"
        described = dict(line.split(" ", 1) for line in (out / ".version").read_text().splitlines())
        self.assertEqual((described["proved"], described["kit"]), ("here", "made-up-kit-1"))
        self.assertIn(f"program sha256 {described['program']}\n", said)
        paths = (out / ".sources").read_text().split("\0")
        self.assertIn("crates/left/src/lib.rt", paths)
        self.assertFalse(any(os.path.isabs(it) for it in paths))

    def test_the_library(self) -> None:
        self.clone.add_library()
        self.assert_answers(self.clone, ANSWER, sorted([*ALL, "for_c"]))
        out = self.clone.top / "crates" / "trinorm" / "out"
        self.assertEqual((out / "libtrinorm.so.1").read_text(), "libtrinorm.so by one")
        self.assertIn("echo for_c", (out / "libtrinorm_c.a").read_text())
        # what is linked to it proves nothing anew
        (self.clone.top / "library" / "limits.c").write_text("two")
        self.assert_answers(self.clone, ANSWER, [])
        self.assertEqual((out / "trinorm-server").read_text(), "trinorm-server by two")
        (self.clone.top / "library" / "limits.c").write_text("three")
        self.assertEqual(self.clone.launch(kit=False), ANSWER)
        self.assertFalse((out / "libtrinorm.so").exists())
        self.assertEqual(self.clone.build().returncode, 0)
        self.assertEqual((out / "libtrinorm.so.1").read_text(), "libtrinorm.so by three")
        (self.clone.top / "tools" / "library.py").write_text("from prove import NotProved\ndef build_library(*given):\n    raise NotProved('no cc')\n")
        self.assert_answers(self.clone, ANSWER, [])
        self.assertFalse((out / "libtrinorm.so").exists())

    def verdicts(self) -> List[str]:
        """The crates of which the last kept program has a verdict."""
        kept = max((self.folder / "cache" / "trinorm" / "programs").glob("*-*/MANIFEST"), key=lambda path: path.stat().st_mtime_ns)
        return sorted(line.split()[1] for line in kept.read_text().splitlines() if line.startswith("verdict "))

    def test_clones_with_different_libraries(self) -> None:
        """Each keeps its own, and neither takes that of the other."""
        self.clone.add_library()
        second = MadeUp(self.folder, "second")
        second.add_library()
        (second.top / "library" / "limits.c").write_text("another")
        self.assertIn("links the library for other languages", self.clone.build().stderr)
        self.assertIn("links the library for other languages", second.build().stderr)
        for clone in (self.clone, second, self.clone):
            shutil.rmtree(clone.top / "crates" / "trinorm" / "out")
            said = clone.build().stderr
            self.assertIn("took the program", said)
            self.assertNotIn("links the library", said)
        self.assertEqual(self.clone.proved(), ["for_c", "ground", "left", "right", "trinorm"])
        self.assertEqual(len([it for it in (self.folder / "cache" / "trinorm" / "programs").iterdir() if it.is_dir()]), 2)

    def test_the_module_for_browsers_is_made_if_it_is_asked_for(self) -> None:
        self.clone.add_library()
        self.clone.add_wasm()
        module = self.clone.top / "crates" / "trinorm" / "out" / "trinorm.wasm"
        self.assertNotIn("browsers", self.clone.build().stderr)
        self.assertFalse(module.exists())
        self.assertIn("makes the module for browsers", self.clone.build("--browsers").stderr)
        self.assertTrue(module.exists())
        self.assertEqual(self.clone.build("--browsers").stderr, "")
        shutil.rmtree(module.parent)
        self.assertNotIn("browsers", self.clone.build().stderr)
        self.assertTrue(module.exists())

    def test_a_first_build_says_what_it_proves(self) -> None:
        said = self.clone.run(["./trinorm"]).stderr
        self.assertIn("proves the 4 of 5 crates that program and library stand on (tools/build.py --anew proves all)", said)
        self.assertEqual((self.clone.proved(), self.verdicts()), (ALL, ALL))

    def test_anew_proves_every_crate(self) -> None:
        said = self.clone.build("--anew").stderr
        self.assertIn("proves all 5 crates", said)
        self.assertEqual((self.clone.proved(), self.verdicts()), (EVERY, EVERY))
        self.assert_answers(self.clone, ANSWER, [])
        # a law that isn't proved leaves no program behind, and the one that was there before stays
        self.clone.write("beside", "echo wrong\n")
        done = self.clone.build("--anew")
        self.assertEqual(done.returncode, 9)
        self.assertIn("the crate beside did not build", done.stderr)
        self.clone.proved()
        self.assert_answers(self.clone, ANSWER, [])

    def test_compare_looks_at_laws_too(self) -> None:
        self.clone.build("--anew")
        kept = next((self.folder / "cache" / "trinorm" / "programs").glob("*-*/MANIFEST"))
        manifest = shutil.copy(kept, self.folder / "MANIFEST")
        self.clone.proved()
        self.clone.write("beside", "echo other\n")
        done = self.clone.build("--compare", str(manifest))
        self.assertEqual((done.returncode, self.clone.proved()), (1, []))
        self.assertIn("was made from other sources than those of this clone: 1 differ, first crates/beside/src/lib.rt", done.stderr)

    def test_compare(self) -> None:
        self.clone.launch()
        kept = next((self.folder / "cache" / "trinorm" / "programs").glob("*-*/MANIFEST"))
        manifest = self.folder / "MANIFEST"
        shutil.copy(kept, manifest)
        self.clone.proved()
        done = self.clone.build("--compare", str(manifest))
        self.assertIn("the same program, bit for bit", done.stdout)
        self.assertIn("all 5 crates were proved here", done.stdout)
        self.assertEqual((done.returncode, self.clone.proved()), (0, EVERY))
        text = manifest.read_text()
        described = next(line for line in text.splitlines() if line.startswith("program "))
        manifest.write_text(text.replace(described, "program " + "0" * 64))
        done = self.clone.build("--compare", str(manifest))
        self.assertEqual(done.returncode, 1)
        self.assertIn("another program", done.stderr)
        self.clone.proved()
        self.clone.write("left", "echo other\n")
        done = self.clone.build("--compare", str(manifest))
        self.assertIn("was made from other sources than those of this clone: 1 differ, first crates/left/src/lib.rt", done.stderr)
        self.assertEqual(self.clone.proved(), [])


class Jobs(unittest.TestCase):
    def test_shares(self) -> None:
        sys.path.insert(0, str(REPOSITORY / "tools"))
        self.addCleanup(sys.path.remove, str(REPOSITORY / "tools"))
        from prove import shares

        for ready, free, wanted in ((1, 4, [4]), (3, 4, [1, 1, 2]), (5, 4, [1, 1, 1, 1]), (2, 0, []), (1, 32, [8]), (0, 4, []), (3, 32, [8, 8, 8])):
            self.assertEqual(list(shares(ready, free)), wanted)


if __name__ == "__main__":
    unittest.main()

"""The trials of a release: which files are tried, and what is a failure. Files are made up, but for the tarball of the built program."""
import contextlib
import io
import re
import sys
import tempfile
import unittest
from pathlib import Path
from typing import Any, Dict, NoReturn, Optional, Tuple
from unittest import mock

from tests.test_installing import made
from tests.test_library import ARCHIVE, named
from trinorm.program import REPOSITORY

sys.path.insert(0, str(REPOSITORY / "tools"))

import packages  # noqa: E402
import try_release  # noqa: E402
from manifest import FILES, Manifest, read_manifest  # noqa: E402
from repository import Sources, every_crate, sum_of, version  # noqa: E402

COMMIT = "0123456789abcdef0123456789abcdef01234567"
PASSED = f"trinorm 1.2.3\ncommit {COMMIT}\nstored examples, by the program x: 351 of 351, 1.0 s\nexamples of the package: 32 of 32, 0.1 s\neverything is as expected\n"


def manifest(**changes: Any) -> Manifest:
    verdicts = {name: f"logic=proved functions=1 of={name}" for name in every_crate(REPOSITORY)}
    return Manifest("1.2.3", COMMIT, "a kit", Sources([], {}, {}), {"program": "0" * 64, "wasm": sum_of(b"\0asm")}, True, verdicts, "7 passed, 0 failed")._replace(**changes)


class Trials(unittest.TestCase):
    def setUp(self) -> None:
        folder = tempfile.TemporaryDirectory()
        self.addCleanup(folder.cleanup)
        self.folder = Path(folder.name)

    def write(self, told: Optional[Manifest] = None, **files: bytes) -> try_release.Release:
        """A release of these files."""
        every = {"MANIFEST": (told or manifest()).text().encode(), **{name.replace("_html", ".html").replace("_wasm", ".wasm"): data for name, data in files.items()}}
        for name, data in every.items():
            (self.folder / name).write_bytes(data)
        (self.folder / "SHA256SUMS").write_text("".join(f"{sum_of(data)}  {name}\n" for name, data in every.items()))
        return try_release.Release(self.folder, [])

    def outcome(self, release: try_release.Release, how: str) -> Tuple[str, str]:
        [trial] = [trial for trial in release.tried(how) if trial.how == how]
        return trial.outcome, trial.text

    def run_main(self, *words: str) -> Tuple[int, str]:
        said = io.StringIO()
        with contextlib.redirect_stdout(said):
            status = try_release.main([str(self.folder), *words])
        return status, said.getvalue()

    def test_sums(self) -> None:
        release = self.write(trinorm_wasm=b"\0asm")
        self.assertEqual(self.outcome(release, "checksums"), ("ok", "2 files have their checksums"))
        (self.folder / "more").write_text("")
        self.assertEqual(self.outcome(release, "checksums"), ("FAILED", "it has no line on more"))
        (self.folder / "more").unlink()
        (self.folder / "trinorm.wasm").write_bytes(b"other")
        self.assertEqual(self.outcome(release, "checksums"), ("FAILED", "trinorm.wasm has another checksum"))
        self.assertEqual(self.outcome(release, "checksum"), ("FAILED", "it is not the module of MANIFEST"))

    def test_verdicts(self) -> None:
        count = len(every_crate(REPOSITORY))
        self.assertEqual(self.outcome(self.write(), "verdicts"), ("ok", f"version 1.2.3, commit {COMMIT[:12]}, {count} crates proved; 7 passed, 0 failed"))
        self.assertEqual(self.outcome(self.write(manifest(anew=False)), "verdicts"), ("FAILED", "not all was proved by one build"))
        first = next(iter(every_crate(REPOSITORY)))
        left = {name: line for name, line in manifest().verdicts.items() if name != first}
        self.assertEqual(self.outcome(self.write(manifest(verdicts=left)), "verdicts"), ("FAILED", f"crates without a verdict: {first}"))

    def test_a_folder_that_is_no_release(self) -> None:
        with self.assertRaisesRegex(SystemExit, "has no MANIFEST of a release"):
            try_release.Release(self.folder, [])

    def test_what_selfcheck_printed(self) -> None:
        release = self.write()
        self.assertEqual(release.of_selfcheck(PASSED), "383 checks: everything is as expected")
        for wrong in (PASSED.replace(COMMIT, "f" * 40), PASSED.replace("351 of 351", "350 of 351"), PASSED.replace("everything is as expected", "1 differences"), f"commit {COMMIT}\neverything is as expected\n"):
            with self.assertRaises(try_release.Wrong):
                release.of_selfcheck(wrong)

    def test_each_kind_of_file_has_a_trial(self) -> None:
        """The names are those that the tools and README give to the files of a release."""
        release, told = self.write(), version(REPOSITORY)
        patterns = [pattern for pattern, _, _ in release.trials()]
        wheels = [f"trinorm-{told}-py3-none-{tag}.whl" for tag in ("manylinux_2_34_x86_64", "manylinux_2_34_aarch64", "musllinux_1_2_x86_64", "win_amd64", "macosx_11_0_arm64", "macosx_11_0_x86_64")]
        for name in (*wheels, f"trinorm_{told}_amd64.deb", f"trinorm-{told}-x86_64-linux.tar.gz", f"trinorm-{told}-web.tar.gz", f"trinorm-{told}-docs.tar.gz", "trinorm.html", "trinorm.wasm", "MANIFEST", "SHA256SUMS"):
            self.assertTrue(any(re.fullmatch(pattern, name) for pattern in patterns), name)

    def test_what_cannot_run_is_said(self) -> None:
        """A missing emulator, a missing file, and a trial that breaks down."""
        release = self.write()
        (self.folder / "trinorm-1.2.3-py3-none-manylinux_2_34_aarch64.whl").write_bytes(b"")
        with mock.patch("shutil.which", return_value=None):
            self.assertEqual(self.outcome(release, "program by qemu-user"), ("not run", "qemu-user is not installed"))
        self.assertEqual(self.outcome(release, "program by Wine"), ("not run", "the release has no such file"))

        def broken(*_: Any) -> NoReturn:
            raise KeyError("x")
        self.assertEqual(try_release.one_trial(self.folder / "x", "somehow", broken)[:4], ("x", "somehow", "FAILED", "KeyError: 'x'"))

    def test_the_table_and_the_status(self) -> None:
        self.write()
        status, printed = self.run_main("--only", "verdicts")
        self.assertEqual((status, printed.splitlines()[-1]), (0, "1 trials passed, 0 failed, 0 could not run here"))
        self.assertRegex(printed, r"(?m)^ok       MANIFEST +verdicts +version 1\.2\.3, ")
        self.assertEqual(self.run_main("--only", "Wine")[0], 1)
        self.write(manifest(anew=False))
        status, printed = self.run_main("--only", "verdicts")
        self.assertEqual((status, printed.splitlines()[-1]), (1, "0 trials passed, 1 failed, 0 could not run here"))
        self.assertRegex(printed, "(?m)^FAILED   MANIFEST ")

    @unittest.skipUnless(named() and ARCHIVE.is_file() and ARCHIVE.with_name(FILES["server"]).is_file(), "the library isn't built")
    def test_the_tarball_of_the_built_program(self) -> None:
        """One passes that names the commit of MANIFEST, and the same one under another MANIFEST does not."""
        release, files = self.write(), made()
        files.version_lines += f"commit {COMMIT}\n"
        name, data = packages.tarball(files)
        (self.folder / name).write_bytes(data)
        outcome, text = self.outcome(release, "tar")
        self.assertEqual(outcome, "ok", text)
        self.assertRegex(text, "^[0-9]{3} checks: everything is as expected$")
        self.assertEqual(self.outcome(self.write(manifest(commit="f" * 40)), "tar"), ("FAILED", "the installation does not name the commit of MANIFEST"))


class Kept(unittest.TestCase):
    def test_the_manifests_in_the_repository(self) -> None:
        """The folder of each release is named by a dated version of CHANGELOG, whose sources one build proved."""
        folders = sorted(path for path in (REPOSITORY / "releases").glob("*") if path.is_dir())
        dated = re.findall(r"^## \[([\d.]+)\] - \d{4}-\d\d-\d\d$", (REPOSITORY / "CHANGELOG.md").read_text("utf8"), re.M)
        for folder in folders:
            with self.subTest(folder.name):
                told = read_manifest((folder / "MANIFEST").read_text("utf8"))
                self.assertIn(folder.name, dated)
                self.assertEqual((told.version, told.anew, len(told.commit)), (folder.name, True, 40))
                self.assertTrue(told.gate)
                proved = {line.partition(":")[0] for line in (*told.sources.crates, *told.others.crates)}
                self.assertEqual({name for name in proved if not told.verdicts.get(name, "").startswith("logic=proved ")}, set())
                sums: Dict[str, str] = {}
                for line in (folder / "SHA256SUMS").read_text("utf8").splitlines():
                    digest, _, name = line.partition("  ")
                    sums[name] = digest
                self.assertEqual(sums["MANIFEST"], sum_of((folder / "MANIFEST").read_bytes()))
                self.assertEqual(sums["trinorm.wasm"], told.files["wasm"])
        if not folders:
            self.skipTest("no release is kept yet")


if __name__ == "__main__":
    unittest.main()

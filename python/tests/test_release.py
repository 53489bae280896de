"""A release of a made-up repository: its files, that they are the same whenever they are made, and that they can be used."""
import io
import os
import pty
import re
import subprocess
import sys
import tarfile
import tempfile
import unittest
import venv
import zipfile
from pathlib import Path
from typing import ClassVar, List, Tuple

from tests.made_up import MadeUp
from trinorm.program import REPOSITORY

sys.path.insert(0, str(REPOSITORY / "tools"))

from archives import ar_files  # noqa: E402

ANSWER = "ground\nleft\nright\ntrinorm\n"


class Release(unittest.TestCase):
    folder: ClassVar[Path]
    clone: ClassVar[MadeUp]
    early: ClassVar["subprocess.CompletedProcess[str]"]
    partial: ClassVar["subprocess.CompletedProcess[str]"]
    done: ClassVar["subprocess.CompletedProcess[str]"]

    @classmethod
    def setUpClass(cls) -> None:
        folder = tempfile.TemporaryDirectory()
        cls.addClassCleanup(folder.cleanup)
        cls.folder = Path(folder.name)
        cls.clone = MadeUp(cls.folder)
        cls.clone.add_library()
        cls.clone.lay_out_rest()
        # what git doesn't know is in no release, also where it is hidden
        (cls.clone.top / ".git" / "info" / "exclude").write_text("stray*\n")
        for place in ("python/trinorm/stray.json", "python/trinorm/stray/more.py", "examples/stray.txt", "docs/stray.md"):
            (cls.clone.top / place).parent.mkdir(exist_ok=True)
            (cls.clone.top / place).write_text("stray")
        cls.early = cls.clone.run(["tools/release.py"])
        cls.clone.build()
        cls.partial = cls.clone.run(["tools/release.py"])
        cls.clone.build("--anew")
        (cls.folder / "gate").write_text("one\n12 passed, 0 failed\n\n")
        cls.done = cls.clone.run(["tools/release.py", "--gate", str(cls.folder / "gate")])

    def file(self, ending: str) -> Path:
        return next(path for path in (self.clone.top / "dist").iterdir() if path.name.endswith(ending))

    def unpacked(self, name: str) -> Path:
        """The release's tarball, unpacked."""
        to = self.folder / name
        to.mkdir()
        subprocess.run(["tar", "xzf", str(self.file(".tar.gz")), "-C", str(to), "--strip-components=1"], check=True)
        return to

    def run_alone(self, words: List[str], terminal: bool = False) -> Tuple[int, str, str]:
        """Status, answer and what is said of a run without the kit."""
        environment, cwd = {"PATH": "/usr/bin:/bin", "HOME": str(self.folder)}, self.folder
        if not terminal:
            done = subprocess.run(words, env=environment, cwd=cwd, stdin=subprocess.DEVNULL, capture_output=True, text=True, timeout=600, check=False)
            return done.returncode, done.stdout, done.stderr
        ours, theirs = pty.openpty()
        done = subprocess.run(words, env=environment, cwd=cwd, stdin=subprocess.DEVNULL, stdout=subprocess.PIPE, stderr=theirs, text=True, timeout=600, check=False)
        os.write(theirs, b"|")
        said = ""
        while not said.endswith("|"):
            said += os.read(ours, 10000).decode()
        os.close(ours)
        os.close(theirs)
        return done.returncode, done.stdout, said.replace("\r\n", "\n")[:-1]

    def test_only_what_was_proved_is_released(self) -> None:
        self.assertEqual(self.early.returncode, 1)
        self.assertIn("no program of these sources is kept here", self.early.stderr)
        self.assertEqual(self.partial.returncode, 1)
        self.assertIn("the build has no verdict of beside, and of 1 crates in all", self.partial.stderr)
        (self.clone.top / "other").write_text("")
        self.addCleanup((self.clone.top / "other").unlink)
        self.assertIn("differs from its commit", self.clone.run(["tools/release.py"]).stderr)

    def test_the_same_bit_for_bit(self) -> None:
        self.assertEqual(self.done.returncode, 0, self.done.stderr)
        before = {path.name: path.read_bytes() for path in (self.clone.top / "dist").iterdir()}
        self.assertEqual(len(before), 5)
        again = self.clone.run(["tools/release.py", "--gate", str(self.folder / "gate"), "--out", str(self.folder / "again")])
        self.assertEqual(again.returncode, 0, again.stderr)
        self.assertEqual({path.name: path.read_bytes() for path in (self.folder / "again").iterdir()}, before)
        done = subprocess.run(["sha256sum", "-c", "--quiet", "SHA256SUMS"], cwd=self.clone.top / "dist", check=False)
        self.assertEqual(done.returncode, 0)

    def test_a_gate_that_did_not_pass(self) -> None:
        log = self.folder / "other-gate"
        for text, why in (("11 passed, 1 failed\n", "with: 11 passed, 1 failed"), ("", "with: nothing"), (None, "No such file or directory")):
            if text is not None:
                log.write_text(text)
            done = self.clone.run(["tools/release.py", "--gate", str(log if text is not None else self.folder / "none")])
            self.assertEqual(done.returncode, 1)
            self.assertIn(why, done.stderr)

    def test_manifest(self) -> None:
        lines = self.file("MANIFEST").read_text().splitlines()
        head = subprocess.run(["git", "rev-parse", "HEAD"], cwd=self.clone.top, capture_output=True, text=True, check=True).stdout.strip()
        for line in (f"commit {head}", "kit made-up-kit-1", "anew yes", "gate 12 passed, 0 failed", "verdict left logic=proved functions=1 of=left", "verdict beside logic=proved functions=1 of=beside"):
            self.assertIn(line, lines)
        written = "\n".join(it for it in lines if it.startswith(("crate ", "source "))) + "\n"
        done = subprocess.run(["sha256sum"], input=written, capture_output=True, text=True, check=True)
        self.assertIn(f"sources {done.stdout.split()[0]}", lines)

    def test_tarball(self) -> None:
        top = self.unpacked("tarball")
        program = str(top / "bin" / "trinorm")
        self.assertEqual(self.run_alone([program]), (0, ANSWER, ""))
        self.assertEqual(self.run_alone([program], terminal=True), (0, ANSWER, ""))
        for name in ("lib/libtrinorm.so", "lib/libtrinorm.so.1", "lib/pkgconfig/trinorm.pc", "include/trinorm.h", "share/doc/trinorm/examples/quads.c",
                     "share/trinorm/rust/trinorm/src/lib.rs", "libexec/trinorm/trinorm-server", "libexec/trinorm/words.json", "libexec/trinorm/words.awk", "share/man/man1/trinorm.1", "share/zsh/site-functions/_trinorm", "share/doc/trinorm/NOTICES", "share/doc/trinorm/docs/GUIDE.md"):
            self.assertTrue((top / name).is_file(), name)
        completion = top / "share/bash-completion/completions/trinorm"
        script = f". {completion}; COMP_WORDS=(trinorm describe --coords ''); COMP_CWORD=3; _trinorm; echo ${{COMPREPLY[*]}}"
        self.assertEqual(self.run_alone(["bash", "-c", script])[1], "standard octagon\n")

    def test_debian_package(self) -> None:
        if not os.path.exists("/usr/bin/dpkg-deb"):
            self.skipTest("no dpkg-deb")
        to = self.folder / "deb"
        subprocess.run(["dpkg-deb", "-x", str(self.file(".deb")), str(to)], check=True)
        self.assertEqual(self.run_alone([str(to / "usr/bin/trinorm")]), (0, ANSWER, ""))
        written = subprocess.run(["dpkg-deb", "-f", str(self.file(".deb")), "Depends", "Version"], capture_output=True, text=True, check=True).stdout
        self.assertIn("Depends: libc6 (>= 2.", written)
        script = f"import sys; sys.path.insert(0, '{to}/usr/lib/python3/dist-packages'); import trinorm; print(trinorm.find())"
        self.assertEqual(self.run_alone([sys.executable, "-c", script])[1], f"{to}/usr/libexec/trinorm/trinorm\n")

    def names(self) -> List[str]:
        """The names of all files in the packages."""
        with zipfile.ZipFile(self.file(".whl")) as wheel, tarfile.open(self.file(".tar.gz")) as tarball:
            deb = b"".join(data for name, data in ar_files(self.file(".deb").read_bytes()) if name.startswith("data.tar"))
            with tarfile.open(fileobj=io.BytesIO(deb)) as debian:
                return [*wheel.namelist(), *tarball.getnames(), *debian.getnames()]

    def test_only_what_git_knows(self) -> None:
        names = self.names()
        self.assertEqual([name for name in names if "stray" in name], [])
        for ending in ("trinorm/__main__.py", "trinorm/py.typed", "examples/figure-eight.txt"):
            self.assertGreaterEqual(sum(name.endswith(ending) for name in names), 3, ending)

    def test_the_launcher_is_no_program(self) -> None:
        around = dict(self.clone.environment, TRINORM=str(self.clone.top / "trinorm"))
        script = "import sys; sys.path.insert(0, 'python'); import wheels; wheels.build_wheel('.')"
        done = subprocess.run([sys.executable, "-c", script], cwd=self.clone.top, env=around, capture_output=True, text=True, check=False)
        self.assertEqual(done.returncode, 1)
        self.assertIn("is no program but a script, such as the launcher", done.stderr)

    def test_take(self) -> None:
        other = MadeUp(self.folder, "other clone")
        other.add_library()
        other.environment["XDG_CACHE_HOME"] = str(self.folder / "other cache")
        other.proved()
        for ending in (".tar.gz", ".whl", ".deb"):
            out = other.top / "crates" / "trinorm" / "out" / "trinorm"
            out.unlink(missing_ok=True)
            done = other.build("--take", str(self.file(ending)))
            self.assertEqual(done.returncode, 0, done.stderr)
            self.assertIn("it was proved elsewhere, by made-up-kit-1", done.stderr)
            self.assertEqual(other.launch(kit=False), ANSWER)
            self.assertEqual(out.with_name("libtrinorm.so.1").read_text(), "libtrinorm.so by one")
        other.source("left").touch()
        self.assertEqual((other.launch(), other.proved()), (ANSWER, []))
        other.write("left", "echo changed\n")
        done = other.build("--take", str(self.file(".whl")))
        self.assertEqual(done.returncode, 1)
        self.assertIn("1 differ, first crates/left/src/lib.rt", done.stderr)
        self.assertIn("it is a MANIFEST, which --compare takes", other.build("--take", str(self.file("MANIFEST"))).stderr)

    def test_what_is_no_release(self) -> None:
        """A file that is cut, that holds a link to nothing, or that is none has one line that says so."""
        with tarfile.open(self.folder / "link.tar.gz", "w:gz") as out:
            entry = tarfile.TarInfo("trinorm/libexec/trinorm/trinorm")
            entry.type, entry.linkname = tarfile.LNKTYPE, "nowhere"
            out.addfile(entry)
        given = [("link.tar.gz", "it holds no program with its manifest")]
        for ending in (".whl", ".deb", ".tar.gz"):
            data = self.file(ending).read_bytes()
            for name, part in (("half", data[:len(data) // 2]), ("spoilt", b"spoilt" + data[6:])):
                (self.folder / f"{name}{ending}").write_bytes(part)
                given.append((f"{name}{ending}", "it is no whole tarball, wheel or Debian package"))
        (self.folder / "text").write_text("text")
        for name, why in [*given, ("text", "it is no whole tarball")]:
            done = self.clone.build("--take", str(self.folder / name))
            self.assertEqual((done.returncode, len(done.stderr.splitlines())), (1, 1), (name, done.stderr))
            self.assertRegex(done.stderr, f"{why}|isn't the one that its manifest tells|holds no program", name)

    def test_pip(self) -> None:
        """The wheel, and the package from the clone and from its folder, without network, in fresh environments."""
        for name, given in (("wheel", str(self.file(".whl"))), ("top", str(self.clone.top)), ("folder", str(self.clone.top / "python"))):
            with self.subTest(name):
                place = self.folder / name
                venv.create(place, with_pip=True)
                python = str(place / "bin" / "python3")
                words = [python, "-m", "pip", "install", "-q", "--no-index", "--disable-pip-version-check", given]
                done = subprocess.run(words, env=self.clone.environment, cwd=self.folder, capture_output=True, text=True, check=False)
                self.assertEqual(done.returncode, 0, done.stderr)
                self.assertEqual(self.run_alone([str(place / "bin" / "trinorm")]), (0, ANSWER, ""))
                found = self.run_alone([python, "-c", "import trinorm; print(trinorm.find())"])
                self.assertEqual(found[0], 0, found)
                self.assertTrue(found[1].startswith(str(place)), found)
                self.assertIn("census", self.run_alone([str(place / "bin" / "trinorm-py"), "--help"])[1])

    def test_pip_without_a_program(self) -> None:
        """It says which file of a release can be installed, and which commands make a program."""
        other = MadeUp(self.folder, "without")
        other.lay_out_rest()
        for given in (".", "./python"):
            done = other.run([sys.executable, "-m", "pip", "wheel", "--no-index", "--no-deps", "--no-build-isolation", "--disable-pip-version-check", given],
                             kit=False, XDG_CACHE_HOME=str(self.folder / "no cache"))
            self.assertEqual(done.returncode, 1)
            for part in ("there is no program to put into the package", "trinorm-*.whl of a release", "tools/build.py --take FILE", "./trinorm"):
                self.assertIn(part, done.stdout + done.stderr)

    def test_what_the_wheel_says_of_itself(self) -> None:
        """All wheels have one text, so it names no need of one system."""
        with zipfile.ZipFile(self.file(".whl")) as wheel:
            metadata = wheel.read(next(name for name in wheel.namelist() if name.endswith("/METADATA"))).decode()
        for line in ("Classifier: Typing :: Typed", "Classifier: Intended Audience :: Science/Research", "Classifier: Programming Language :: Python :: 3.9", "Requires-Python: >=3.9"):
            self.assertIn(f"\n{line}\n", metadata)
        self.assertNotRegex(metadata, "(?i)glibc|x86|manylinux|musl")


class Table(unittest.TestCase):
    def test_commands_are_current(self) -> None:
        done = subprocess.run([sys.executable, str(REPOSITORY / "tools" / "commands.py"), "--check"], capture_output=True, text=True, check=False)
        self.assertEqual((done.returncode, done.stdout), (0, ""))

    def test_one_version_and_all_notices(self) -> None:
        """The version stands in pyproject.toml, and what tells it too tells the same; each library of the kit has its notice."""
        sys.path.insert(0, str(REPOSITORY / "tools"))
        self.addCleanup(sys.path.remove, str(REPOSITORY / "tools"))
        from repository import crates_of_build, version

        notices = (REPOSITORY / "NOTICES").read_text("utf8")
        for name in {name for crate in crates_of_build(REPOSITORY).values() for name in crate.of_kit}:
            self.assertIn(f"\n{name}\n", notices)
        written = version(REPOSITORY)
        self.assertRegex(written, r"^\d+\.\d+\.\d+$")
        self.assertIn(f"\nversion: {written}\n", (REPOSITORY / "CITATION.cff").read_text("utf8"))
        self.assertEqual(set(re.findall(r"trinorm[-_](\d[\d.]*)[-_]", (REPOSITORY / "README.md").read_text("utf8"))), {written})


if __name__ == "__main__":
    unittest.main()

"""Packages of the real program and library: README's lines install them, and LIBRARY's commands build a program over each that
runs in any folder."""
import fnmatch
import os
import re
import shutil
import subprocess
import sys
import tempfile
import unittest
from pathlib import Path
from typing import List, Optional, Tuple

from tests.test_library import ARCHIVE, by_process, named
from trinorm.program import REPOSITORY, find

sys.path.insert(0, str(REPOSITORY / "tools"))

import packages  # noqa: E402
from manifest import FILES  # noqa: E402

WORDS = ["surfaces", "--coords", "quad"]


def made() -> packages.Made:
    """What a build made, as it is packed."""
    paths = {"program": Path(os.path.realpath(find())), **{name: ARCHIVE.with_name(FILES[name]) for name in ("archive", "library", "server")}}
    version = packages.fields()["version"]
    return packages.Made(version, {name: path.read_bytes() for name, path in paths.items()}, f"proved elsewhere\nversion {version}\n")


def line_of_readme(word: str) -> str:
    """README's line for a system that installs the file with a word in its name."""
    return str(re.findall(rf"(?m)^\| [^|`]+ \| `([^`]*{re.escape(word)}[^`]*)` \|", (REPOSITORY / "README.md").read_text("utf8"))[0])


def lines_for_c() -> List[str]:
    """LIBRARY's lines that build the example: in a clone, over the Debian package, and over the tarball."""
    return re.findall(r"^    (cc .*)$", (REPOSITORY / "docs" / "LIBRARY.md").read_text("utf8"), re.M)


@unittest.skipUnless(named() and ARCHIVE.is_file() and ARCHIVE.with_name(FILES["server"]).is_file(), "the library isn't built")
class Installing(unittest.TestCase):
    def setUp(self) -> None:
        folder = tempfile.TemporaryDirectory()
        self.addCleanup(folder.cleanup)
        self.home = Path(folder.name)

    def write(self, package: Tuple[str, bytes]) -> str:
        name, data = package
        (self.home / name).write_bytes(data)
        return name

    def shell(self, line: str, cwd: Optional[str] = None, **more: str) -> str:
        around = {"PATH": f"{os.path.dirname(sys.executable)}:/usr/bin:/bin", "HOME": str(self.home), **more}
        done = subprocess.run(["sh", "-c", line], cwd=cwd or self.home, env=around, stdin=subprocess.DEVNULL, stdout=subprocess.PIPE,
                              stderr=subprocess.STDOUT, text=True, check=False)
        self.assertEqual(done.returncode, 0, done.stdout)
        return done.stdout

    def assert_answers(self, program: object, **more: str) -> None:
        """Whether a program answers in another folder, as the example does."""
        with tempfile.TemporaryDirectory() as other:
            self.assertEqual(self.shell(str(program), other, **more), by_process(WORDS, "sig cPcbbbiht\n")[1].decode())

    def install_tarball(self) -> None:
        self.write(packages.tarball(made()))
        self.assertEqual(self.shell(f"{line_of_readme('.tar.gz')} && echo sig bkaagj | trinorm sig"), "bkaagj\n")

    def test_the_tarball(self) -> None:
        self.install_tarball()
        self.assertEqual(self.shell("echo sig bkaagj | ~/.local/bin/trinorm sig"), "bkaagj\n")
        script = "import trinorm; print(trinorm.sig('bkaagj'), trinorm.program.find_library() is not None, trinorm.find())"
        self.assertEqual(self.shell(f'{sys.executable} -c "{script}"', PYTHONPATH=str(self.home / ".local/share/trinorm/python")),
                         f"bkaagj True {self.home}/.local/libexec/trinorm/trinorm\n")

    def test_the_wheel(self) -> None:
        self.write(packages.wheel(made()))
        line = line_of_readme("manylinux").replace("pip install", "pip install -q --no-index --disable-pip-version-check")
        try:
            self.assertEqual(self.shell(f"{line} && echo sig bkaagj | trinorm sig"), "bkaagj\n")
        except AssertionError as fault:
            if "ensurepip is not" in str(fault):
                self.skipTest("this Python can't make environments")
            raise
        self.assertEqual(self.shell("echo sig bkaagj | ~/trinorm/bin/trinorm sig"), "bkaagj\n")
        script = "import trinorm; print(trinorm.sig('bkaagj'), trinorm.program.find_library() is not None)"
        self.assertEqual(self.shell(f'~/trinorm/bin/python3 -c "{script}"'), "bkaagj True\n")

    @unittest.skipUnless(shutil.which("dpkg-deb"), "dpkg-deb isn't there")
    def test_the_debian_package(self) -> None:
        name = self.write(packages.debian(made()))
        self.assertEqual(line_of_readme(".deb"), "sudo apt install ./trinorm_*_amd64.deb")
        self.assertEqual(self.shell("echo ./trinorm_*_amd64.deb"), f"./{name}\n")
        self.shell(f"dpkg-deb -x {name} root")
        self.assertEqual(self.shell("echo sig bkaagj | root/usr/bin/trinorm sig"), "bkaagj\n")

    def test_lines_for_other_systems(self) -> None:
        """The names of wheels of other systems are as README's lines expect them."""
        for word, machine, name in (("manylinux", "aarch64", "trinorm-1.0.0-py3-none-manylinux_2_34_aarch64.whl"),
                                    ("musllinux", "x86_64", "trinorm-1.0.0-py3-none-musllinux_1_2_x86_64.whl"),
                                    ("macosx", "arm64", "trinorm-1.0.0-py3-none-macosx_11_0_arm64.whl"),
                                    ("macosx", "x86_64", "trinorm-1.0.0-py3-none-macosx_11_0_x86_64.whl")):
            found = line_of_readme(word).split("pip install ")[1].replace("$(uname -m)", machine)
            self.assertTrue(fnmatch.fnmatchcase(f"./{name}", found), f"{name}: {found}")
        self.assertIn("trinorm-1.0.0-py3-none-win_amd64.whl", line_of_readme("win_amd64"))

    @unittest.skipUnless(shutil.which("lintian"), "lintian isn't there")
    def test_debian_s_own_checks(self) -> None:
        name = self.write(packages.debian(made()))
        done = subprocess.run(["lintian", "--allow-root", "--fail-on", "none", name], cwd=self.home, capture_output=True, text=True, check=False)
        self.assertEqual([line for line in done.stdout.splitlines() if line.startswith("E:")], [], done.stdout)

    @unittest.skipUnless(shutil.which("cc"), "cc isn't there")
    def test_the_example_in_a_clone(self) -> None:
        (self.home / "crates" / "trinorm").mkdir(parents=True)
        (self.home / "crates" / "trinorm" / "out").symlink_to(ARCHIVE.parent)
        (self.home / "library").symlink_to(REPOSITORY / "library")
        self.shell(lines_for_c()[0])
        self.assert_answers(self.home / "quads")

    @unittest.skipUnless(shutil.which("cc"), "cc isn't there")
    def test_the_example_over_the_tarball(self) -> None:
        self.install_tarball()
        self.shell(lines_for_c()[2])
        self.assert_answers(self.home / "quads")

    @unittest.skipUnless(shutil.which("cc") and shutil.which("dpkg-deb") and shutil.which("pkg-config"), "cc, dpkg-deb or pkg-config isn't there")
    def test_the_example_over_the_debian_package(self) -> None:
        """The package is unpacked below another folder, in which the linker and the program look."""
        self.shell(f"dpkg-deb -x {self.write(packages.debian(made()))} root")
        usr = self.home / "root" / "usr"
        self.shell(lines_for_c()[1].replace("/usr/", f"{usr}/"), PKG_CONFIG_PATH=str(usr / "lib" / "pkgconfig"))
        self.assert_answers(self.home / "quads", LD_LIBRARY_PATH=str(usr / "lib"))
        self.assertEqual(self.shell("pkg-config --modversion trinorm", PKG_CONFIG_PATH=str(usr / "lib" / "pkgconfig")), f"{made().version}\n")

    def test_the_header_is_c_and_cplusplus(self) -> None:
        for compiler, standard in (("cc", "c99"), ("c++", "c++11")):
            if shutil.which(compiler):
                language = "c" if compiler == "cc" else "c++"
                subprocess.run([compiler, f"-std={standard}", "-Wall", "-Wextra", "-pedantic", "-Werror", "-fsyntax-only", "-x", language,
                                str(REPOSITORY / "library" / "trinorm.h")], check=True)


if __name__ == "__main__":
    unittest.main()

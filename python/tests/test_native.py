"""Library and program for other systems: what can be run here, and the files of a release that hold them.

The files are made of the module that the build kept; TRINORM_ELSEWHERE names a folder with those that `tools/native.py MODULE
FOLDER` made, and TRINORM_ARM64_ROOT one with Debian's Python for arm64. What can't be made or run here is skipped by its name.
"""
import concurrent.futures
import functools
import io
import os
import re
import shutil
import struct
import subprocess
import sys
import tempfile
import unittest
import zipfile
from pathlib import Path
from typing import Callable, Dict, List, Optional, Sequence, Tuple, Union
from unittest import mock

from trinorm import selfcheck
from trinorm.program import REPOSITORY

sys.path.insert(0, str(REPOSITORY / "tools"))

import elsewhere  # noqa: E402
import modules  # noqa: E402
import native  # noqa: E402
import packages  # noqa: E402

MODULE = REPOSITORY / "crates" / "trinorm" / "out" / modules.MODULE
ARM64_ROOT = os.environ.get("TRINORM_ARM64_ROOT", "")
WINE = shutil.which("wine64") or "/usr/lib/wine/wine64"
# how a program of another system runs here, and every how many rows
EMULATORS = {
    "linux-x86_64": (["/lib/ld-musl-x86_64.so.1"], 1),
    "linux-aarch64": (["qemu-aarch64", "-L", "/usr/aarch64-linux-gnu"], 1),
    "windows-x86_64": ([WINE], 10),
}
# numbers of the format Mach-O
MAGIC, PROCESSORS, KINDS = 0xFEEDFACF, {"macos-arm64": 0x0100000C, "macos-x86_64": 0x01000007}, {"library": 6, "program": 2}
LOADED, SIGNED = 0x0C, 0x1D


def temporary_folder() -> Path:
    """A folder that goes with the tests of this file."""
    folder = tempfile.mkdtemp(prefix="trinorm-native-")
    unittest.addModuleCleanup(shutil.rmtree, folder, ignore_errors=True)
    return Path(folder)


def made(name: str, kit: Path, folder: Path) -> str:
    """Makes library and program of a system. Returns why they can't be made, or nothing."""
    if native.missing(name):
        return f"{native.missing(name)} of Debian is not installed"
    (folder / name).mkdir()
    for file, data in native.build(kit, MODULE, name).items():
        (folder / name / file).write_bytes(data)
        (folder / name / file).chmod(0o755)
    return ""


@functools.lru_cache(maxsize=None)
def made_here() -> Tuple[Optional[Path], Union[str, Dict[str, str]]]:
    """The folder in which library and program of each system are, and why some are not."""
    if os.environ.get("TRINORM_ELSEWHERE"):
        return Path(os.environ["TRINORM_ELSEWHERE"]), {}
    command = shutil.which("rt")
    if command is None or not MODULE.is_file():
        return None, f"there is no {'command rt of the kit' if command is None else modules.MODULE}"
    folder, kit = temporary_folder(), Path(command).resolve().parents[1]
    with concurrent.futures.ThreadPoolExecutor() as pool:
        return folder, dict(zip(native.SYSTEMS, pool.map(lambda name: made(name, kit, folder), native.SYSTEMS)))


def path_of(name: str, part: str) -> Path:
    """The library or the program of a system, or a skip."""
    folder, why = made_here()
    reason = why if isinstance(why, str) else why.get(name)
    if folder is None or reason:
        raise unittest.SkipTest(f"{name}: {reason}")
    path = folder / name / str(getattr(native.SYSTEMS[name], part))
    if not path.is_file():
        raise unittest.SkipTest(f"{name}: there is no {path.name}")
    return path


@functools.lru_cache(maxsize=None)
def environment() -> Dict[str, str]:
    """What Wine needs: a folder of its own, whose server is ended with the tests."""
    around = {**os.environ, "WINEDEBUG": "-all", "WINEPREFIX": str(temporary_folder() / "wine")}
    server = Path(WINE).with_name("wineserver")
    if server.is_file():
        unittest.addModuleCleanup(functools.partial(subprocess.run, [str(server), "-k"], env=around, check=False, stderr=subprocess.DEVNULL))
    return around


class Emulated(unittest.TestCase):
    """The program over the library of each system that can be run here."""

    def words(self, name: str) -> Tuple[List[str], int]:
        emulator, step = EMULATORS[name]
        if shutil.which(emulator[0]) is None:
            self.skipTest(f"{name}: {Path(emulator[0]).name} is not installed")
        return [*emulator, str(path_of(name, "program"))], step

    def answer(self, words: Sequence[str]) -> Callable[[selfcheck.Row], Tuple[int, bytes]]:
        def answer(row: selfcheck.Row) -> Tuple[int, bytes]:
            done = subprocess.run([*words, *row.words], input=row.input, stdout=subprocess.PIPE, stderr=subprocess.DEVNULL,
                                  check=False, env=environment())
            return done.returncode, done.stdout
        return answer

    def test_worked_rows(self) -> None:
        for name in EMULATORS:
            with self.subTest(system=name):
                words, step = self.words(name)
                outcome = selfcheck.check_rows(self.answer(words), selfcheck.read_rows()[::step])
                self.assertEqual(outcome.differences, [])

    def test_a_failed_sink_is_told(self) -> None:
        for name in ("linux-x86_64", "linux-aarch64"):
            with self.subTest(system=name), open("/dev/full", "wb") as full:
                words, _ = self.words(name)
                done = subprocess.run([*words, "sig"], input=b"sig bkaagn\n", stdout=full, check=False)
                self.assertEqual(done.returncode, 7)

    def test_wrong_words_are_refused_before_the_input_is_read(self) -> None:
        for name in ("linux-x86_64", "linux-aarch64"):
            with self.subTest(system=name):
                words, _ = self.words(name)
                folder = os.open("/", os.O_RDONLY)  # each read of a folder fails
                try:
                    ended = [subprocess.run([*words, command], stdin=folder, stdout=subprocess.DEVNULL, stderr=subprocess.DEVNULL,
                                            check=False).returncode for command in ("foo", "sig")]
                finally:
                    os.close(folder)
                self.assertEqual(ended, [2, 6])


class OnArm(unittest.TestCase):
    """The wheel for arm64 in the Python of Debian for arm64, by an emulator."""

    def setUp(self) -> None:
        if not ARM64_ROOT:
            self.skipTest("TRINORM_ARM64_ROOT names no folder with Debian's Python for arm64")
        if shutil.which("qemu-aarch64") is None:
            self.skipTest("qemu-aarch64 is not installed")
        self.words = ["qemu-aarch64", "-L", ARM64_ROOT]

    def installed(self) -> Path:
        """A folder in which pip has put the wheel."""
        files = {path.name: path.read_bytes() for path in (path_of("linux-aarch64", part) for part in ("library", "program"))}
        name, data = elsewhere.wheel(packages.Made(packages.fields()["version"], {}, ""), "linux-aarch64", files)
        folder = temporary_folder()
        (folder / name).write_bytes(data)
        pip = [*self.python(), "-m", "pip", "install", "-q", "--no-index", "--target", str(folder / "site"), str(folder / name)]
        around = {**os.environ, "PYTHONPATH": f"{ARM64_ROOT}/usr/lib/python3/dist-packages"}
        subprocess.run(pip, env=around, check=True, stderr=subprocess.PIPE)
        return folder / "site"

    def python(self) -> List[str]:
        return [*self.words, f"{ARM64_ROOT}/usr/bin/python3.11"]

    def test_selfcheck(self) -> None:
        site = self.installed()
        program, emulated = site / "libexec" / "trinorm" / "trinorm", site / "emulated"
        # without the system's help no process of another processor starts by itself
        emulated.write_text(f"#!/bin/sh\nexec {' '.join(self.words)} '{program}' \"$@\"\n")
        emulated.chmod(0o755)
        library = program.with_name(native.SYSTEMS["linux-aarch64"].library)
        around = {**os.environ, "PYTHONPATH": str(site), "TRINORM": str(emulated), "TRINORM_LIBRARY": str(library)}
        done = subprocess.run([str(native.emulated_python(ARM64_ROOT, site)), "-m", "trinorm", "selfcheck"], env=around, cwd=site,
                              stdout=subprocess.PIPE, stderr=subprocess.STDOUT, text=True, check=False)
        self.assertEqual(done.returncode, 0, done.stdout)
        self.assertIn("aarch64", done.stdout)
        self.assertIn(f"stored examples, by the library {library}", done.stdout)


class Mac(unittest.TestCase):
    """What is made for macOS can't be run here, so its headers are read."""

    def commands(self, name: str, part: str) -> List[Tuple[int, bytes]]:
        """The numbers and the bytes of the load commands of a file, whose head says for what it is."""
        data = path_of(name, part).read_bytes()
        magic, processor, _, kind, count = struct.unpack_from("<5I", data)
        self.assertEqual((magic, processor, kind), (MAGIC, PROCESSORS[name], KINDS[part]))
        at, found = 32, []
        for _ in range(count):
            number, size = struct.unpack_from("<2I", data, at)
            found.append((number, data[at:at + size]))
            at += size
        return found

    def test_they_are_signed_and_load_what_every_mac_has(self) -> None:
        for name in PROCESSORS:
            for part in KINDS:
                with self.subTest(name=name, part=part):
                    commands = self.commands(name, part)
                    loaded = [body[struct.unpack_from("<I", body, 8)[0]:].rstrip(b"\0") for number, body in commands if number == LOADED]
                    self.assertEqual(sorted(loaded), [b"/usr/lib/libSystem.B.dylib"] + [b"@rpath/libtrinorm.dylib"] * (part == "program"))
                    self.assertIn(SIGNED, [number for number, _ in commands])

    def test_the_calls_of_the_header_are_exported(self) -> None:
        calls = set(re.findall(r"\b(trinorm_\w+)\(", (REPOSITORY / "library" / "trinorm.h").read_text("utf8")))
        self.assertIn("trinorm_run", calls)
        for name in PROCESSORS:
            with self.subTest(name=name):
                data = path_of(name, "library").read_bytes()
                self.assertEqual([call for call in calls if f"_{call}\0".encode() not in data], [])


class Modules(unittest.TestCase):
    """A module's text for another target."""

    TEXT = '''target datalayout = "e-x"
target triple = "x86_64-unknown-linux-gnu"
define noundef i8 @trinorm_answer(ptr %a0) #0 {
declare { i64, i64 } @rattle_realloc(ptr noundef)
declare { i64, i64 } @rattle_alloc(i64 noundef)
declare void @rattle_dealloc(ptr noundef)
declare void @llvm.trap() #1
attributes #0 = { nounwind "probe-stack"="inline-asm" "stack-probe-size"="3072" "target-cpu"="x86-64-v2" }
'''

    def test_two_lines_and_two_attributes_change(self) -> None:
        target = modules.TARGETS["wasm"]
        changed = modules.retargeted(self.TEXT, target).splitlines()
        self.assertEqual(changed[0], f'target datalayout = "{target.layout}"')
        self.assertEqual(changed[1], f'target triple = "{target.triple}"')
        self.assertEqual(changed[2], "define noundef zeroext i8 @trinorm_answer(ptr %a0) #0 {")
        self.assertEqual(changed[-1], "attributes #0 = { nounwind }")

    def test_other_modules_are_refused(self) -> None:
        target = modules.TARGETS["wasm"]
        for wrong in (self.TEXT.replace("rattle_dealloc", "free"), self.TEXT + "declare i32 @puts(ptr)\n",
                      self.TEXT.replace("trinorm_answer", "another"), self.TEXT + self.TEXT, self.TEXT.replace("target triple", "triple")):
            with self.assertRaises(modules.NotCompiled):
                modules.retargeted(wrong, target)

    def test_the_toolchain_keeps_the_module_and_compiles_as_before(self) -> None:
        with tempfile.TemporaryDirectory() as folder:
            kit, to = Path(folder, "kit"), Path(folder, "a b's", "kept.bc")
            (kit / "toolchain" / "bin").mkdir(parents=True)
            (kit / "toolchain" / "lib").mkdir()
            to.parent.mkdir()
            for name, text in (("clang", 'echo "$@"; exit 3'), ("ld.lld", "echo linked")):
                (kit / "toolchain" / "bin" / name).write_text(f"#!/bin/sh\n{text}\n")
                (kit / "toolchain" / "bin" / name).chmod(0o755)
            made = modules.toolchain(kit, Path(folder, "made"), to)
            Path(folder, "module.bc").write_bytes(b"module")
            done = subprocess.run([made / "bin" / "clang", "-c", "module.bc", "-o", "x"], cwd=folder, capture_output=True, check=False)
            self.assertEqual((done.returncode, done.stdout), (3, b"-c module.bc -o x\n"))
            self.assertEqual(to.read_bytes(), b"module")
            self.assertEqual(subprocess.run([made / "bin" / "ld.lld"], capture_output=True, check=True).stdout, b"linked\n")


class Release(unittest.TestCase):
    """The files of a release for other systems, of contents that are made up."""

    def made(self, **files: bytes) -> packages.Made:
        return packages.Made("1.2.3", files, "proved elsewhere\nversion 1.2.3\nprogram 12\nlibrary 34\n")

    def test_a_wheel_holds_library_and_program_where_the_package_looks(self) -> None:
        system = native.SYSTEMS["windows-x86_64"]
        name, data = elsewhere.wheel(self.made(program=b"p", library=b"l"), "windows-x86_64", {system.library: b"dll", system.program: b"exe"})
        self.assertTrue(name.endswith("-py3-none-win_amd64.whl"))
        with zipfile.ZipFile(io.BytesIO(data)) as packed:
            names = {re.sub(r"^trinorm-[^/]*\.data/", "", path): path for path in packed.namelist()}
            self.assertEqual(packed.read(names["data/libexec/trinorm/trinorm.exe"]), b"exe")
            self.assertEqual(packed.read(names["data/libexec/trinorm/trinorm.dll"]), b"dll")
            self.assertNotIn("scripts/trinorm", names)
            # the command of Windows is the program itself, which looks for its library beside it
            self.assertEqual(packed.read(names["scripts/trinorm.exe"]), b"exe")
            self.assertEqual(packed.read(names["scripts/trinorm.dll"]), b"dll")
            self.assertNotIn("data/libexec/trinorm/trinorm", names)
            version = packed.read(names["data/libexec/trinorm/version"]).decode()
        self.assertIn("system windows-x86_64\n", version)
        self.assertNotIn("program 12", version)
        for needed in ("trinorm/selfcheck.py", "trinorm/worked_rows.json", "trinorm/examples.txt", "trinorm/hints.txt"):
            self.assertIn(needed, names)

    def test_a_release_without_tools_says_what_it_lacks(self) -> None:
        said = io.StringIO()
        with mock.patch("sys.stderr", said):
            self.assertEqual(elsewhere.files(self.made(program=b"p"), Path("/nonexistent")), [])
        self.assertIn("the release lacks trinorm.html", said.getvalue())
        self.assertIn("the release lacks wheels for other systems", said.getvalue())

    def test_a_system_without_its_compiler_is_named(self) -> None:
        said = io.StringIO()
        with mock.patch("shutil.which", return_value=None), mock.patch("sys.stderr", said):
            self.assertEqual(list(native.build_all(Path("/kit"), Path("/module"), ["linux-aarch64"])), [])
        self.assertIn("gcc-aarch64-linux-gnu of Debian is not installed", said.getvalue())

    def test_the_page_is_in_a_release(self) -> None:
        names = [name for name, _ in elsewhere.page(self.made(wasm=b"\0asm"))]
        self.assertEqual(names, ["trinorm.html", "trinorm-1.2.3-web.tar.gz", "trinorm.wasm", "trinorm.wasm.NOTICES"])


if __name__ == "__main__":
    unittest.main()

#!/usr/bin/env python3
"""Installs each file of a release, as far as this machine can, and checks each installation.

    tools/try_release.py [FOLDER] [--only TEXT] [--python PATH ..] [--complete]

FOLDER has the files that tools/release.py wrote (default: dist). Wheels, the Debian package and the tarball are installed and
checked by `selfcheck`, and each has to name the commit of MANIFEST. --python names further Pythons for the wheel of this
system. Files for other systems run in emulators, if they are installed: those for musl by its loader, for ARM by
qemu-user, for Windows by Wine. If TRINORM_ARM64_ROOT names a folder with Debian's Python for arm64, that Python is used.
The Debian package is installed by dpkg in a copy of this system that is dropped afterwards, which only root can make;
otherwise it is unpacked. The page is opened in both browsers, and its module is run by Node.

Printed is a line for each trial: `ok`, `FAILED` or `not run`, the file, how it was tried, what it printed last, and the
seconds. The exit status is 1 if a trial failed; with --complete also if one could not run.
"""
from __future__ import annotations

import argparse
import contextlib
import functools
import http.server
import os
import re
import shutil
import subprocess
import sys
import tarfile
import tempfile
import threading
import time
from pathlib import Path
from typing import Any, Callable, Dict, Iterator, List, NamedTuple, Optional, Sequence, Tuple

import docs_site
from manifest import Manifest, NoManifest, read_manifest
from native import emulated_python
from repository import PROGRAM, TOP, every_crate, sum_of_file

sys.path.insert(0, str(TOP / "python"))
from trinorm import selfcheck  # noqa: E402

LONGEST = 1800.0
OK, FAILED, NOT_RUN = "ok", "FAILED", "not run"
MUSL = "/lib/ld-musl-x86_64.so.1"
ARM_LIBRARIES = "/usr/aarch64-linux-gnu"
EVERY_OF_NODE = 5  # of how many stored examples Node runs one, since each takes a process
QUESTION, RESULT = "sig bkaagn\n", "bkaagj\n"
# installs a package in a copy of this system, whose changes are in memory, runs a script there, and removes the package
IN_A_COPY = r"""
mount -t tmpfs none "$1" && mkdir "$1/changes" "$1/work" "$1/all" &&
mount -t overlay overlay -o "lowerdir=/,upperdir=$1/changes,workdir=$1/work" "$1/all" || exit 77
mount --rbind /proc "$1/all/proc" && mount --rbind /dev "$1/all/dev" && cp "$2" "$1/all/root/it.deb" || exit 77
exec chroot "$1/all" /bin/sh -e -c "$3"
"""
DEBIAN = f"""
export HOME=/root; cd /; unset TRINORM TRINORM_LIBRARY
dpkg -i /root/it.deb
test "$(echo {QUESTION.strip()} | {PROGRAM} sig)" = {RESULT.strip()}
/usr/bin/python3 -m {PROGRAM} selfcheck
dpkg -r {PROGRAM} >&2
test ! -e /usr/libexec/{PROGRAM} && test ! -e /usr/bin/{PROGRAM}
"""
NO_COPY = 77
# asks the page for its first result: what it shows of it, and of its module
FIRST_RESULT = """
const by = (id) => document.getElementById(id), begun = performance.now();
while (!(document.documentElement.dataset.ready && by('stop').disabled && by('message').textContent)) {
    if (performance.now() - begun > 120000) throw Error('waited in vain');
    await new Promise((done) => setTimeout(done, 50));
}
return [by('message').textContent, by('raw').textContent, by('checksum').textContent];"""


class Trial(NamedTuple):
    """What came of one file, tried in one way."""

    file: str
    how: str
    outcome: str
    text: str
    seconds: float = 0.0

    def __str__(self) -> str:
        return f"{self.outcome:<8} {self.file:<55} {self.how:<34} {self.text}" + (f" ({self.seconds:.0f} s)" if self.seconds else "")


class Wrong(Exception):
    """A trial failed; the text says why."""


class Missing(Exception):
    """A trial cannot run here; the text says what is missing."""


# ---- running

def environment(home: Path, **more: str) -> Dict[str, str]:
    """That of a user who has set nothing."""
    return {"PATH": "/usr/local/bin:/usr/bin:/bin:/usr/sbin:/sbin", "HOME": str(home), "LANG": "C.UTF-8", **more}


def run(words: Sequence[str], home: Path, text: str = "", **more: str) -> str:
    """What a command prints, with its errors. It has to succeed."""
    done = subprocess.run(words, input=text, cwd=home, env=environment(home, **more), stdout=subprocess.PIPE, stderr=subprocess.STDOUT, text=True,
                          timeout=LONGEST, check=False)
    if done.returncode:
        raise Wrong(f"{' '.join(words[:6])} ended with status {done.returncode}: {last_line(done.stdout)}")
    return done.stdout


def last_line(text: str) -> str:
    """The last line, or what differs by a selfcheck."""
    lines = text.strip().splitlines()
    differs = [line for line in lines if line.startswith("differs: ")]
    return (differs or lines)[-1][:400] if lines else "nothing was printed"


def needed(command: str, package: str) -> str:
    """The path of a command, or `Missing`."""
    path = shutil.which(command)
    if path is None:
        raise Missing(f"{package} is not installed")
    return path


class Release:
    """The files of a release, and the ways to try each of them."""

    def __init__(self, folder: Path, pythons: Sequence[str]) -> None:
        self.folder, self.pythons = folder, list(dict.fromkeys(os.path.abspath(path) for path in (sys.executable, *pythons)))
        self.manifest = self.read()

    def read(self) -> Manifest:
        try:
            return read_manifest((self.folder / "MANIFEST").read_text("utf8"))
        except (OSError, NoManifest) as fault:
            sys.exit(f"try_release: {self.folder} has no MANIFEST of a release: {fault}")

    # ---- the release as a whole

    def check_sums(self, _: Path, __: Path) -> str:
        """Each file has the checksum of SHA256SUMS, and there is no other file."""
        lines = [line.split("  ") for line in (self.folder / "SHA256SUMS").read_text("utf8").splitlines()]
        for noted, name in lines:
            if sum_of_file(self.folder / name) != noted:
                raise Wrong(f"{name} has another checksum")
        others = {path.name for path in self.folder.iterdir()} - {name for _, name in lines} - {"SHA256SUMS"}
        if others:
            raise Wrong(f"it has no line on {', '.join(sorted(others))}")
        return f"{len(lines)} files have their checksums"

    def check_manifest(self, _: Path, __: Path) -> str:
        """All crates were proved by one build, and the merge gate's last line is noted."""
        crates = every_crate(TOP)
        missing = [name for name in crates if not self.manifest.verdicts.get(name, "").startswith("logic=proved ")]
        if missing or not self.manifest.anew:
            raise Wrong(f"crates without a verdict: {', '.join(missing[:5])}" if missing else "not all was proved by one build")
        gate = self.manifest.gate or "no line of the merge gate"
        return f"version {self.manifest.version}, commit {self.manifest.commit[:12]}, {len(crates)} crates proved; {gate}"

    def check_module(self, path: Path, _: Path) -> str:
        if sum_of_file(path) != self.manifest.files.get("wasm"):
            raise Wrong("it is not the module of MANIFEST")
        return "the module of MANIFEST"

    # ---- installations

    def selfchecked(self, python: Sequence[str], home: Path, **more: str) -> str:
        """Runs selfcheck, which has to pass, and to name the commit of the release."""
        printed = run([*python, "-m", PROGRAM, "selfcheck"], home, **more)
        return self.of_selfcheck(printed)

    def of_selfcheck(self, printed: str) -> str:
        if not re.search(rf"^commit {re.escape(self.manifest.commit)}$", printed, re.M):
            raise Wrong("the installation does not name the commit of MANIFEST")
        counts = [(int(good), int(all_)) for good, all_ in re.findall(r": (\d+) of (\d+), [\d.]+ s$", printed, re.M)]
        if not counts or any(good != all_ for good, all_ in counts) or "everything is as expected" not in printed:
            raise Wrong(last_line(printed))
        return f"{sum(good for good, _ in counts)} checks: everything is as expected"

    def wheel_of_this_system(self, python: str) -> Callable[[Path, Path], str]:
        def trial(path: Path, home: Path) -> str:
            run([python, "-m", "venv", "it"], home)
            inside = home / "it" / "bin"
            run([str(inside / "python3"), "-m", "pip", "install", "-q", "--no-index", "--disable-pip-version-check", str(path)], home)
            if run([str(inside / PROGRAM), "sig"], home, QUESTION) != RESULT:
                raise Wrong(f"the command {PROGRAM} prints something else")
            run([str(inside / f"{PROGRAM}-py"), "--help"], home)
            version = run([str(inside / "python3"), "-c", "import platform; print(platform.python_version())"], home).strip()
            return f"Python {version}, {self.selfchecked([str(inside / 'python3')], home)}"
        return trial

    def unpacked_wheel(self, path: Path, home: Path) -> Path:
        """The folder in which pip puts a wheel of another system."""
        system = path.name[:-len(".whl")].split("-none-")[1]
        run([sys.executable, "-m", "pip", "install", "-q", "--no-index", "--no-deps", "--disable-pip-version-check", "--only-binary=:all:",
             "--platform", system, "--target", str(home / "site"), str(path)], home)
        return home / "site"

    def by_program(self, path: Path, home: Path, words: Sequence[str], program: str = PROGRAM, **more: str) -> str:
        """Runs selfcheck by this Python over a program that other words run."""
        site = self.unpacked_wheel(path, home)
        emulated = home / "emulated"
        emulated.write_text(f"#!/bin/sh\nexec {' '.join(words)} '{site}/libexec/{PROGRAM}/{program}' \"$@\"\n", "utf8")
        emulated.chmod(0o755)
        return self.selfchecked([sys.executable], home, PYTHONPATH=str(site), TRINORM=str(emulated), **more)

    def musl(self, path: Path, home: Path) -> str:
        if not os.path.exists(MUSL):
            raise Missing("musl is not installed")
        return self.by_program(path, home, [MUSL])

    def arm(self, path: Path, home: Path) -> str:
        needed("qemu-aarch64", "qemu-user")
        if not os.path.isdir(ARM_LIBRARIES):
            raise Missing("libc6-arm64-cross is not installed")
        return self.by_program(path, home, ["qemu-aarch64", "-L", ARM_LIBRARIES])

    def arm_python(self, path: Path, home: Path) -> str:
        """By a Python for ARM, which loads the library."""
        root = os.environ.get("TRINORM_ARM64_ROOT", "")
        if not root:
            raise Missing("TRINORM_ARM64_ROOT names no Python for arm64")
        words = [needed("qemu-aarch64", "qemu-user"), "-L", root]
        site, emulated = self.unpacked_wheel(path, home), home / "emulated"
        emulated.write_text(f"#!/bin/sh\nexec {' '.join(words)} '{site}/libexec/{PROGRAM}/{PROGRAM}' \"$@\"\n", "utf8")
        emulated.chmod(0o755)
        return self.selfchecked([str(emulated_python(root, home))], home, PYTHONPATH=str(site), TRINORM=str(emulated),
                                TRINORM_LIBRARY=str(site / "libexec" / PROGRAM / f"lib{PROGRAM}.so.1"))

    def windows(self, path: Path, home: Path) -> str:
        wine = shutil.which("wine64") or "/usr/lib/wine/wine64"
        if not os.path.exists(wine):
            raise Missing("wine64 is not installed")
        settings = {"WINEDEBUG": "-all", "WINEPREFIX": str(home / "wine")}
        try:
            return self.by_program(path, home, [wine], f"{PROGRAM}.exe", **settings)
        finally:
            server = Path(wine).with_name("wineserver")
            if server.is_file():
                subprocess.run([str(server), "-k"], env=environment(home, **settings), check=False, stderr=subprocess.DEVNULL)

    def mac(self, path: Path, home: Path) -> str:
        site = self.unpacked_wheel(path, home)
        names = [f"libexec/{PROGRAM}/{name}" for name in (PROGRAM, f"lib{PROGRAM}.dylib")]
        absent = [name for name in names if not (site / name).is_file()]
        if absent:
            raise Wrong(f"it has no {absent[0]}")
        raise Missing("pip unpacks it; nothing on this machine runs programs of macOS")

    def tarball(self, path: Path, home: Path) -> str:
        local = home / ".local"
        local.mkdir()
        run(["tar", "xzf", str(path), "-C", str(local), "--strip-components=1"], home)
        if run([str(local / "bin" / PROGRAM), "sig"], home, QUESTION) != RESULT:
            raise Wrong(f"the command {PROGRAM} prints something else")
        return self.selfchecked([sys.executable], home, PYTHONPATH=str(local / "share" / PROGRAM / "python"))

    def debian(self, path: Path, home: Path) -> str:
        needed("dpkg", "dpkg")
        place = home / "copy"
        place.mkdir()
        words = ["unshare", "--mount", "--propagation", "private", "/bin/sh", "-c", IN_A_COPY, "sh", str(place), str(path), DEBIAN]
        done = subprocess.run(words, stdin=subprocess.DEVNULL, stdout=subprocess.PIPE, stderr=subprocess.STDOUT, env=environment(home), text=True,
                              timeout=LONGEST, check=False)
        if done.returncode == NO_COPY or os.geteuid():
            raise Missing("a copy of this system takes root and an overlay")
        if done.returncode:
            raise Wrong(last_line(done.stdout))
        return f"installed and removed, {self.of_selfcheck(done.stdout)}"

    def unpacked_debian(self, path: Path, home: Path) -> str:
        run([needed("dpkg-deb", "dpkg"), "-x", str(path), "it"], home)
        usr = home / "it" / "usr"
        if run([str(usr / "bin" / PROGRAM), "sig"], home, QUESTION) != RESULT:
            raise Wrong(f"the command {PROGRAM} prints something else")
        return self.selfchecked(["/usr/bin/python3"], home, PYTHONPATH=str(usr / "lib" / "python3" / "dist-packages"))

    # ---- the page and the site

    def page_at(self, browser: str, address: str) -> str:
        """Opens the page, which has to show its first result by the module of the release."""
        with opened(browser) as window:
            window.open(address)
            message, text, module = window.run(FIRST_RESULT)
        if not message.startswith("Answered") or not text.startswith("# surfaces 1\n"):
            raise Wrong(f"it shows: {message}")
        if self.manifest.files.get("wasm", "none") not in module:
            raise Wrong("its module is not that of MANIFEST")
        return f"{browser} shows the first result"

    def page(self, browser: str) -> Callable[[Path, Path], str]:
        return lambda path, _: self.page_at(browser, path.as_uri())

    def folder_of_page(self, browser: str) -> Callable[[Path, Path], str]:
        def trial(path: Path, home: Path) -> str:
            with served(unpacked(path, home)) as address:
                return self.page_at(browser, f"{address}/index.html")
        return trial

    def node(self, path: Path, home: Path) -> str:
        words, rows = [needed("node", "nodejs"), str(unpacked(path, home) / "node" / f"{PROGRAM}.js")], selfcheck.read_rows()[::EVERY_OF_NODE]

        def result(row: selfcheck.Row) -> Tuple[int, bytes]:
            done = subprocess.run([*words, *row.words], input=row.input, stdout=subprocess.PIPE, stderr=subprocess.DEVNULL, check=False)
            return done.returncode, done.stdout
        outcome = selfcheck.check_rows(result, rows)
        if outcome.differences:
            raise Wrong(outcome.differences[0][:200])
        return f"{outcome.checks} stored examples are as expected"

    def site(self, browser: str) -> Callable[[Path, Path], str]:
        def trial(path: Path, home: Path) -> str:
            top = unpacked(path, home)
            files = {one.relative_to(top).as_posix(): one.read_bytes() for one in sorted(top.rglob("*")) if one.is_file()}
            wrong = list(docs_site.faults(files))
            if wrong:
                raise Wrong(wrong[0])
            return f"{len(files)} files, all links hold; {self.page_at(browser, (top / docs_site.TRY).as_uri())}"
        return trial

    # ---- all of it

    def trials(self) -> List[Tuple[str, str, Callable[[Path, Path], str]]]:
        """The pattern of the files' names, how such a file is tried, and what tries it."""
        browsers = ["Chromium", "Firefox"]
        return [
            ("SHA256SUMS", "checksums", self.check_sums),
            ("MANIFEST", "verdicts", self.check_manifest),
            *((r".*manylinux.*_x86_64\.whl", f"pip, {number} of {len(self.pythons)} Pythons", self.wheel_of_this_system(python))
              for number, python in enumerate(self.pythons, 1)),
            (r".*\.deb", "dpkg in a copy of this system", self.debian),
            (r".*\.deb", "unpacked", self.unpacked_debian),
            (r".*-x86_64-linux\.tar\.gz", "tar", self.tarball),
            (r".*musllinux.*\.whl", "program by musl's loader", self.musl),
            (r".*aarch64\.whl", "program by qemu-user", self.arm),
            (r".*aarch64\.whl", "Python for ARM by qemu-user", self.arm_python),
            (r".*win_amd64\.whl", "program by Wine", self.windows),
            (r".*macosx.*\.whl", "unpacked", self.mac),
            (rf"{PROGRAM}\.wasm", "checksum", self.check_module),
            *((rf"{PROGRAM}\.html", f"{name}, from the disk", self.page(name)) for name in browsers),
            *((r".*-web\.tar\.gz", f"{name}, by http", self.folder_of_page(name)) for name in browsers),
            (r".*-web\.tar\.gz", "Node", self.node),
            *((r".*-docs\.tar\.gz", f"{name}, from the disk", self.site(name)) for name in browsers),
        ]

    def tried(self, only: str) -> Iterator[Trial]:
        """What comes of each trial whose file or way has a text in it. A kind of file that the release lacks could not run."""
        for pattern, how, trial in self.trials():
            paths = sorted(path for path in self.folder.iterdir() if re.fullmatch(pattern, path.name))
            for path in paths:
                if only.lower() in f"{path.name} {how}".lower():
                    yield one_trial(path, how, trial)
            if not paths and only.lower() in f"{pattern} {how}".lower():
                yield Trial(pattern.replace("\\", ""), how, NOT_RUN, "the release has no such file")


def one_trial(path: Path, how: str, trial: Callable[[Path, Path], str]) -> Trial:
    """Tries a file in a folder of its own."""
    begun, home = time.monotonic(), Path(tempfile.mkdtemp(prefix="try-release-"))
    try:
        outcome, text = OK, trial(path, home)
    except Missing as fault:
        outcome, text = NOT_RUN, str(fault)
    except Exception as fault:  # pylint: disable=broad-except
        outcome, text = FAILED, str(fault) if isinstance(fault, Wrong) else f"{type(fault).__name__}: {fault}"
    finally:
        shutil.rmtree(home, ignore_errors=True)
    return Trial(path.name, how, outcome, text, time.monotonic() - begun)


def unpacked(path: Path, home: Path) -> Path:
    """The one folder of a tarball."""
    with tarfile.open(path) as files:
        files.extractall(home / "it")
    [top] = (home / "it").iterdir()
    return top


@contextlib.contextmanager
def opened(name: str) -> Iterator[Any]:
    """A browser."""
    from tests import browsers
    try:
        window = getattr(browsers, name)()
    except browsers.Missing as fault:
        raise Missing(str(fault)) from None
    try:
        yield window
    finally:
        window.close()


class Quiet(http.server.SimpleHTTPRequestHandler):
    """Serves a folder, and prints nothing."""

    def log_message(self, *_: object) -> None:
        pass


@contextlib.contextmanager
def served(folder: Path) -> Iterator[str]:
    """The address of a server of a folder."""
    with http.server.ThreadingHTTPServer(("127.0.0.1", 0), functools.partial(Quiet, directory=str(folder))) as server:
        threading.Thread(target=server.serve_forever, daemon=True).start()
        try:
            yield f"http://127.0.0.1:{server.server_port}"
        finally:
            server.shutdown()


def main(words: Optional[Sequence[str]] = None) -> int:
    parser = argparse.ArgumentParser(description="Installs each file of a release, and checks each installation.")
    parser.add_argument("folder", nargs="?", default=str(TOP / "dist"), help="the folder of the release (default: dist)")
    parser.add_argument("--only", metavar="TEXT", default="", help="only trials whose file or way has this text in it")
    parser.add_argument("--python", metavar="PATH", action="append", default=[], help="one more Python for the wheel of this system")
    parser.add_argument("--complete", action="store_true", help="fail if a trial cannot run here")
    given = parser.parse_args(words)
    release, counts = Release(Path(given.folder).resolve(), given.python), {OK: 0, FAILED: 0, NOT_RUN: 0}
    for trial in release.tried(given.only):
        print(trial, flush=True)
        counts[trial.outcome] += 1
    print(f"{counts[OK]} trials passed, {counts[FAILED]} failed, {counts[NOT_RUN]} could not run here")
    return 1 if counts[FAILED] or (given.complete and counts[NOT_RUN]) or not counts[OK] else 0


if __name__ == "__main__":
    sys.exit(main())

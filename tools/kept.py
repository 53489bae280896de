"""What is kept in the user's cache: finished programs, and proved libraries packed, each by the sum of all that it was made from."""
from __future__ import annotations

import fcntl
import gzip
import os
import shutil
import subprocess
import tarfile
import tempfile
from contextlib import contextmanager
from pathlib import Path
from typing import IO, Any, Dict, Iterator, List, Optional, Tuple, cast

from manifest import FILES, Manifest, NoManifest, read_manifest
from repository import Sources, cache_folder, sum_of, sum_of_file

MOST_PROGRAMS = 10
# a build's packed libraries take some 120 MB
MOST_BYTES_OF_LIBRARIES = 1 << 30


class Unusable(Exception):
    """What was kept can't be read any more, and was dropped."""


def last_used(path: Path) -> int:
    return path.stat().st_mtime_ns


def drop_lock(path: Path) -> None:
    """Removes a lock file, unless a build holds its lock."""
    try:
        with open(path, "r+", encoding="utf8") as lock:
            fcntl.flock(lock, fcntl.LOCK_EX | fcntl.LOCK_NB)
            path.unlink(missing_ok=True)
    except OSError:
        pass


class Programs:
    """The programs that were built last, by the sum of their sources and the kit that proved them."""

    def __init__(self, folder: Optional[Path] = None) -> None:
        self.folder = folder or cache_folder() / "programs"

    def proof(self, sources: str, kit: str) -> Path:
        """What the places of one proof begin with."""
        return self.folder / f"{sources[:32]}-{sum_of(kit.encode())[:16]}"

    def place(self, manifest: Manifest, kit: str) -> Path:
        """The folder of a program. Those of one proof with other libraries around it have places of their own."""
        linked = sum_of("".join(f"{line}\n" for line in manifest.sources.lines_of_linked()).encode())
        return Path(f"{self.proof(manifest.sources.sum(), kit)}-{linked[:16]}")

    def find(self, sources: Sources, kit: Optional[str]) -> Optional[Path]:
        """The folder of a program that was proved from these sources, by this kit, or by any where there is none here; the one with
        the same library, if there is one, else the last that was used."""
        begin = f"{sources.sum()[:32]}-" if kit is None else self.proof(sources.sum(), kit).name
        places = sorted((it for it in self.folder.glob(f"{begin}*") if it.is_dir()), key=last_used, reverse=True)
        for place in sorted(places, key=lambda it: not self.has_linked(it, sources)):
            if self.holds(place, sources.sum()):
                os.utime(place)
                return place
        return None

    def has_linked(self, place: Path, sources: Sources) -> bool:
        """Whether the library that is kept there was linked from these sources."""
        try:
            return read_manifest((place / "MANIFEST").read_text("utf8")).sources.linked == sources.linked
        except (OSError, NoManifest):
            return False

    def holds(self, place: Path, sources: str) -> bool:
        """Whether a program stands there, made from these sources, and all files are those that were kept."""
        try:
            manifest = read_manifest((place / "MANIFEST").read_text("utf8"))
            return manifest.sources.sum() == sources and all(sum_of_file(place / FILES[name]) == manifest.files[name] for name in manifest.files)
        except (OSError, NoManifest):
            return False

    def read(self, place: Path) -> Tuple[Dict[str, bytes], Manifest]:
        manifest = read_manifest((place / "MANIFEST").read_text("utf8"))
        return {name: (place / FILES[name]).read_bytes() for name in manifest.files}, manifest

    def keep(self, place: Path, files: Dict[str, bytes], manifest: Manifest) -> None:
        """Keeps what a build made, and of all that is kept the last ones."""
        self.folder.mkdir(parents=True, exist_ok=True)
        fresh = Path(tempfile.mkdtemp(prefix=".new-", dir=self.folder))
        try:
            for name, data in files.items():
                (fresh / FILES[name]).write_bytes(data)
            (fresh / "MANIFEST").write_text(manifest.text(), "utf8")
            fresh.chmod(0o755)
            shutil.rmtree(place, ignore_errors=True)
            fresh.replace(place)
        finally:
            shutil.rmtree(fresh, ignore_errors=True)
        kept = sorted((it for it in self.folder.iterdir() if it.is_dir()), key=last_used, reverse=True)
        for old in kept[MOST_PROGRAMS:]:
            shutil.rmtree(old, ignore_errors=True)
            drop_lock(self.folder / f"{'-'.join(old.name.split('-')[:2])}.lock")


class Libraries:
    """Proved libraries, packed, by the sum of all that each was proved from."""

    def __init__(self, folder: Optional[Path] = None) -> None:
        self.folder = folder or cache_folder() / "libraries"
        self.ending = ".tar.zst" if shutil.which("zstd") else ".tar.gz"

    def pack(self, stamp: str) -> Path:
        return self.folder / f"{stamp}{self.ending}"

    def has(self, stamp: str) -> bool:
        return self.pack(stamp).is_file() and self.note(stamp).is_file()

    def note(self, stamp: str) -> Path:
        return self.folder / f"{stamp}.told"

    def verdict(self, stamp: str) -> Tuple[str, str]:
        """The sum of a kept library, by which those above it name it, and the prover's verdict of its crate."""
        sum_of_library, _, verdict = self.note(stamp).read_text("utf8").partition("\n")
        return sum_of_library, verdict

    def keep(self, stamp: str, library: Path, sum_of_library: str, verdict: str) -> None:
        if self.has(stamp):
            os.utime(self.pack(stamp))
            return
        self.folder.mkdir(parents=True, exist_ok=True)
        fresh = self.folder / f".new-{os.getpid()}"
        try:
            with self.packing(fresh) as out, tarfile.open(fileobj=out, mode="w|") as files:
                files.add(library, arcname=".")
            fresh.replace(self.pack(stamp))
            fresh.write_text(f"{sum_of_library}\n{verdict}", "utf8")
            fresh.replace(self.note(stamp))
        finally:
            fresh.unlink(missing_ok=True)

    def take(self, stamp: str, library: Path) -> None:
        """Unpacks a library, in place of what stands there."""
        shutil.rmtree(library, ignore_errors=True)
        fresh = library.with_name(f".new-{library.name}")
        shutil.rmtree(fresh, ignore_errors=True)
        fresh.mkdir()
        try:
            with self.unpacking(self.pack(stamp)) as data, tarfile.open(fileobj=data, mode="r|") as files:
                # since Python 3.12, and in later releases of older ones
                safely: Dict[str, Any] = {"filter": "data"} if hasattr(tarfile, "data_filter") else {}
                files.extractall(fresh, **safely)
        except (OSError, EOFError, tarfile.TarError, subprocess.CalledProcessError) as fault:
            self.drop(stamp)
            raise Unusable(f"what was kept of {library.stem} can't be unpacked, and was dropped: {fault}") from None
        os.utime(self.pack(stamp))
        fresh.replace(library)

    def drop(self, stamp: str) -> None:
        for path in (self.note(stamp), self.pack(stamp)):
            path.unlink(missing_ok=True)

    def drop_old(self) -> None:
        """Drops those that weren't used for longest, until what is left has its size."""
        kept: List[Path] = sorted(self.folder.glob(f"*{self.ending}"), key=last_used, reverse=True)
        size = 0
        for pack in kept:
            size += pack.stat().st_size
            if size > MOST_BYTES_OF_LIBRARIES:
                self.drop(pack.name[: -len(self.ending)])

    @contextmanager
    def packing(self, path: Path) -> Iterator[IO[bytes]]:
        if self.ending == ".tar.gz":
            with gzip.open(path, "wb", compresslevel=1) as out:
                yield cast(IO[bytes], out)
            return
        command = ["zstd", "-q", "-3", "-f", "-o", str(path)]
        with subprocess.Popen(command, stdin=subprocess.PIPE) as process:
            assert process.stdin is not None
            yield process.stdin
        if process.returncode:
            raise subprocess.CalledProcessError(process.returncode, command)

    @contextmanager
    def unpacking(self, path: Path) -> Iterator[IO[bytes]]:
        if self.ending == ".tar.gz":
            with gzip.open(path, "rb") as data:
                yield cast(IO[bytes], data)
            return
        command = ["zstd", "-q", "-dc", str(path)]
        with subprocess.Popen(command, stdout=subprocess.PIPE, stderr=subprocess.DEVNULL) as process:
            assert process.stdout is not None
            yield process.stdout
            process.stdout.read()
        if process.returncode:
            raise subprocess.CalledProcessError(process.returncode, command)

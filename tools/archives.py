"""Reads a release: the program and its manifest out of a tarball, a wheel or a Debian package."""
from __future__ import annotations

import io
import tarfile
import zipfile
import zlib
from pathlib import Path
from typing import Dict, Iterator, Tuple

from manifest import FILES, Manifest, read_manifest
from repository import PROGRAM, sum_of

PLACE = f"libexec/{PROGRAM}/"


class NoRelease(Exception):
    """A file is no release, or what it holds is another one than its manifest tells."""


def tar_files(data: bytes) -> Iterator[Tuple[str, bytes]]:
    with tarfile.open(fileobj=io.BytesIO(data)) as files:
        for member in files:
            # a link has no data of its own
            found = files.extractfile(member) if member.isfile() else None
            if found is not None:
                yield member.name, found.read()


def zip_files(data: bytes) -> Iterator[Tuple[str, bytes]]:
    with zipfile.ZipFile(io.BytesIO(data)) as files:
        for name in files.namelist():
            yield name, files.read(name)


def ar_files(data: bytes) -> Iterator[Tuple[str, bytes]]:
    """The files of an archive of the command ar, as Debian packages are."""
    at = 8
    while at + 60 <= len(data):
        name, size = data[at:at + 16].decode("ascii").strip(), int(data[at + 48:at + 58])
        yield name, data[at + 60:at + 60 + size]
        at += 60 + size + size % 2


def files_of(data: bytes) -> Iterator[Tuple[str, bytes]]:
    if data.startswith(b"!<arch>\n"):
        for name, part in ar_files(data):
            if name.startswith("data.tar"):
                yield from tar_files(part)
    elif data.startswith(b"PK"):
        yield from zip_files(data)
    else:
        yield from tar_files(data)


def read_release(path: Path) -> Tuple[Manifest, Dict[str, bytes]]:
    """The manifest of a release, and what its build made, as far as it is in there."""
    found: Dict[str, bytes] = {}
    archive = path.read_bytes()
    if archive.startswith(b"version "):
        raise NoRelease("it is a MANIFEST, which --compare takes; --take takes a tarball, a wheel or a Debian package")
    try:
        for name, data in files_of(archive):
            _, place, file = name.rpartition(PLACE)
            if place and "/" not in file:
                found[file] = data
    except (tarfile.TarError, zipfile.BadZipFile, zlib.error, EOFError, OSError, ValueError) as fault:
        why = str(fault).splitlines()[0] if str(fault) else type(fault).__name__
        raise NoRelease(f"it is no whole tarball, wheel or Debian package: {why}") from None
    if "MANIFEST" not in found or PROGRAM not in found:
        raise NoRelease("it holds no program with its manifest")
    manifest = read_manifest(found["MANIFEST"].decode("utf8"))
    files = {name: found[file] for name, file in FILES.items() if file in found}
    for name, data in files.items():
        if manifest.files.get(name) != sum_of(data):
            raise NoRelease(f"its {name} isn't the one that its manifest tells")
    return manifest, files

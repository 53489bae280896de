"""The files of a release, and the packages that are made of them: each the same, bit for bit, whenever it is made."""
from __future__ import annotations

import base64
import gzip
import hashlib
import io
import os
import re
import tarfile
import time
import zipfile
from dataclasses import dataclass
from pathlib import Path
from typing import Dict, Iterator, List, Optional, Tuple

import pages
from commands import read_table
from manifest import FILES, LINKS, Manifest
from repository import PROGRAM, TOP, git, tracked

# each file with its mode, by its path; a link is what it leads to, with this mode
Files = Dict[str, Tuple[bytes, int]]
LINK = 0o120777
# zip knows no earlier time
EARLIEST = 315532800
LICENCES = ("LICENSE-MIT", "LICENSE-APACHE", "NOTICES")


@dataclass
class Made:
    """What is packed: the files that a build made, by their names in FILES, and what describes them.

    version_lines: the lines of the file `version`, which the launcher answers `--version` from
    """

    version: str
    files: Dict[str, bytes]
    version_lines: str
    manifest: Optional[Manifest] = None

    def glibc(self) -> int:
        """The N of the newest glibc 2.N that the symbols of these files want."""
        found = {int(version) for data in self.files.values() for version in re.findall(rb"\0GLIBC_2\.(\d+)(?:\.\d+)?(?=\0)", data)}
        return max(found, default=17)


def epoch() -> int:
    """The time that all files have: that of the commit, unless the environment says another one."""
    seconds = os.environ.get("SOURCE_DATE_EPOCH") or git(TOP, "log", "-1", "--format=%ct")
    return max(EARLIEST, int(seconds)) if seconds else EARLIEST


def day() -> str:
    """The day of that time."""
    return time.strftime("%Y-%m-%d", time.gmtime(epoch()))


def plain(path: Path) -> Tuple[bytes, int]:
    return path.read_bytes(), 0o644


def shared(made: Made) -> Files:
    """What each package has: program, launcher, manual page, completions, header, examples and licences."""
    commands = read_table()
    libexec, doc = f"libexec/{PROGRAM}", f"share/doc/{PROGRAM}"
    files: Files = {
        f"bin/{PROGRAM}": ((TOP / "launcher" / "installed.sh").read_bytes(), 0o755),
        f"{libexec}/version": (made.version_lines.encode(), 0o644),
        f"{libexec}/commands.txt": plain(TOP / "python" / PROGRAM / "commands.txt"),
        f"{libexec}/hints.txt": plain(TOP / "python" / PROGRAM / "hints.txt"),
        f"{libexec}/words.json": plain(TOP / "python" / PROGRAM / "words.json"),
        f"share/man/man1/{PROGRAM}.1": (pages.manual(commands, made.version, day()).encode(), 0o644),
        f"share/bash-completion/completions/{PROGRAM}": (pages.bash(commands).encode(), 0o644),
        f"share/zsh/site-functions/_{PROGRAM}": (pages.zsh(commands).encode(), 0o644),
    }
    for name, data in made.files.items():
        if name in ("program", "library", "server"):
            files[f"{libexec}/{FILES[name]}"] = (data, 0o644 if name == "library" else 0o755)
    for name in ("hints.sh", "fault.awk", "sentences.awk", "usage.awk", "words.awk"):
        files[f"{libexec}/{name}"] = plain(TOP / "launcher" / name)
    for name in LICENCES:
        files[f"{doc}/{name}"] = plain(TOP / name)
    files.update(below(f"{doc}/examples", "examples", ".txt", ".sh"))
    if made.manifest is not None:
        files[f"{libexec}/MANIFEST"] = (made.manifest.text().encode(), 0o644)
    return {**files, **for_c()} if "library" in made.files else files


def below(place: str, folder: str, *endings: str) -> Files:
    """The files of a folder of the repository, below a place of a package; with endings, only those that have one."""
    return {f"{place}/{path.relative_to(TOP / folder).as_posix()}": plain(path)
            for path in tracked(TOP, folder) if not endings or path.suffix in endings}


def for_c() -> Files:
    """The header, and the examples in C."""
    header = {f"include/{PROGRAM}.h": plain(TOP / "library" / f"{PROGRAM}.h")}
    return {**header, **below(f"share/doc/{PROGRAM}/examples", "library/examples", ".c")}


def package_config(version: str) -> bytes:
    """What pkg-config is to say of the library; the folders are found from the place of this file."""
    return (f"prefix=${{pcfiledir}}/../..\nlibdir=${{prefix}}/lib\nincludedir=${{prefix}}/include\n\nName: {PROGRAM}\n"
            f"Description: {pages.PURPOSE}\nVersion: {version}\nLibs: -L${{libdir}} -l{PROGRAM}\nCflags: -I${{includedir}}\n").encode()


def with_library(made: Made) -> Files:
    """The same, with the library for C and Rust, and the pages."""
    files = shared(made)
    if "library" in made.files:
        library = FILES["library"]
        files[f"lib/{library}"] = (f"../libexec/{PROGRAM}/{library}".encode(), LINK)
        files.update({f"lib/{link}": (name.encode(), LINK) for link, name in LINKS.items()})
        files[f"lib/{FILES['archive']}"] = (made.files["archive"], 0o644)
        files[f"lib/pkgconfig/{PROGRAM}.pc"] = (package_config(made.version), 0o644)
        files.update(below(f"share/{PROGRAM}/rust", "library/rust"))
    for name in ("README.md", "CHANGELOG.md", "CONTRIBUTING.md", "SECURITY.md", "CITATION.cff", "paper.md", "paper.bib"):
        files[f"share/doc/{PROGRAM}/{name}"] = plain(TOP / name)
    return {**files, **below(f"share/doc/{PROGRAM}/docs", "docs")}


def tar(files: Files, prefix: str = "") -> bytes:
    raw = io.BytesIO()
    folders = {parent.as_posix() for name in files for parent in Path(name).parents} - {"."}
    with tarfile.open(fileobj=raw, mode="w", format=tarfile.USTAR_FORMAT) as out:
        for name in sorted(folders):
            entry = tarfile.TarInfo(prefix + name)
            entry.type, entry.mode, entry.mtime = tarfile.DIRTYPE, 0o755, epoch()
            out.addfile(entry)
        for name, (data, mode) in sorted(files.items()):
            entry = tarfile.TarInfo(prefix + name)
            entry.mode, entry.mtime = mode & 0o777, epoch()
            if mode == LINK:
                entry.type, entry.linkname = tarfile.SYMTYPE, data.decode()
                out.addfile(entry)
            else:
                entry.size = len(data)
                out.addfile(entry, io.BytesIO(data))
    return gzipped(raw.getvalue())


def gzipped(data: bytes) -> bytes:
    """Packed without a time or a name, and alike by each version of Python."""
    packed = io.BytesIO()
    with gzip.GzipFile(fileobj=packed, mode="wb", mtime=0, filename="") as out:
        out.write(data)
    return packed.getvalue()


def tarball(made: Made) -> Tuple[str, bytes]:
    """The tarball: all that a release has, below one folder, with the package in share/trinorm/python."""
    name = f"{PROGRAM}-{made.version}-x86_64-linux"
    package = {f"share/{PROGRAM}/python/{path}": content for path, content in modules().items()}
    return f"{name}.tar.gz", tar({**with_library(made), **package}, f"{name}/")


def ar(parts: List[Tuple[str, bytes]]) -> bytes:
    out = b"!<arch>\n"
    for name, data in parts:
        out += f"{name:<16}{epoch():<12}{0:<6}{0:<6}{'100644':<8}{len(data):<10}`\n".encode() + data + b"\n" * (len(data) & 1)
    return out


MAINTAINER = f"the {PROGRAM} authors <{PROGRAM}@example.org>"
DESCRIPTION = """\
 It lists all vertex normal surfaces of a triangulated 3-manifold, with a
 machine-checked proof that none is missing, and describes, crushes, adds and
 decomposes surfaces, compares triangulations, and plays and checks Pachner
 moves.
 .
 This package has the command, a library for C, a crate for Rust, and a package
 for Python.
"""
# removes what Python makes of the package's modules when root imports them
BEFORE_REMOVAL = f"""\
#!/bin/sh
set -e
if command -v py3clean >/dev/null; then
  py3clean -p {PROGRAM}
fi
"""
# the program is, bit for bit, the one that was proved
OVERRIDES = f"""\
# The program is the one that MANIFEST names, bit for bit, so that whoever proves it again can compare it.
{PROGRAM}: unstripped-binary-or-object [usr/libexec/{PROGRAM}/{PROGRAM}]
# The package is for one architecture, and its library is in usr/lib, as in the tarball.
{PROGRAM}: pkg-config-unavailable-for-cross-compilation [usr/lib/pkgconfig/{PROGRAM}.pc]
"""


def control(made: Made, files: Files) -> str:
    """What a Debian package says of itself."""
    size = sum(len(data) for data, _ in files.values()) >> 10
    return (f"Package: {PROGRAM}\nVersion: {made.version}\nArchitecture: amd64\nMaintainer: {MAINTAINER}\n"
            f"Installed-Size: {size}\nDepends: libc6 (>= 2.{made.glibc()})\nRecommends: python3 (>= 3.9)\nSection: math\nPriority: optional\n"
            f"Description: {pages.PURPOSE}\n{DESCRIPTION}")


def copyright_page() -> bytes:
    """What a Debian package says of its licence."""
    authors = f"{day()[:4]} the {PROGRAM} authors"
    licence = (TOP / "LICENSE-MIT").read_text("utf8").strip()
    text = "\n".join(f" {line}" if line.strip() else " ." for line in licence.splitlines())
    head = (f"Format: https://www.debian.org/doc/packaging-manuals/copyright-format/1.0/\n\nFiles: *\nCopyright: {authors}\n"
            "License: Expat or Apache-2.0\nComment: NOTICES, next to this file, has the licences of the libraries that the program holds.\n\n"
            f"License: Expat\n{text}\n\nLicense: Apache-2.0\n On Debian systems /usr/share/common-licenses/Apache-2.0 has its text.\n")
    return head.encode()


def changes(version: str) -> bytes:
    """The changelog of a Debian package."""
    moment = time.strftime("%a, %d %b %Y %H:%M:%S +0000", time.gmtime(epoch()))
    return f"{PROGRAM} ({version}) stable; urgency=medium\n\n  * Release {version}.\n\n -- {MAINTAINER}  {moment}\n".encode()


def files_of_debian(made: Made) -> Files:
    """The files of a Debian package, below usr/."""
    files: Files = {}
    for name, (data, mode) in with_library(made).items():
        if name.startswith("share/man/"):
            name, data = f"{name}.gz", gzipped(data)
        # Debian has the one text, and asks that a licence that it has is not repeated
        if not name.endswith(("/LICENSE-MIT", "/LICENSE-APACHE")):
            files["usr/" + name.replace("zsh/site-functions", "zsh/vendor-completions")] = (data, mode)
    doc = f"usr/share/doc/{PROGRAM}"
    files[f"{doc}/copyright"] = (copyright_page(), 0o644)
    files[f"{doc}/changelog.gz"] = (gzipped(changes(made.version)), 0o644)
    files[f"usr/share/lintian/overrides/{PROGRAM}"] = (OVERRIDES.encode(), 0o644)
    files.update({f"usr/lib/python3/dist-packages/{name}": content for name, content in modules().items()})
    return files


def debian(made: Made) -> Tuple[str, bytes]:
    """The Debian package: all that a release has, with the package where Debian's Python finds it."""
    files = files_of_debian(made)
    sums = "".join(f"{hashlib.md5(data).hexdigest()}  {name}\n" for name, (data, mode) in sorted(files.items()) if mode != LINK)
    about: Files = {"control": (control(made, files).encode(), 0o644), "md5sums": (sums.encode(), 0o644),
                    "prerm": (BEFORE_REMOVAL.encode(), 0o755)}
    if "library" in made.files:
        about["triggers"] = (b"activate-noawait ldconfig\n", 0o644)
    parts = [("debian-binary", b"2.0\n"), ("control.tar.gz", tar(about, "./")), ("data.tar.gz", tar(files, "./"))]
    return f"{PROGRAM}_{made.version}_amd64.deb", ar(parts)


def fields() -> Dict[str, str]:
    """The fields of pyproject.toml that are one text, and its classifiers, parted by lines."""
    text = (TOP / "python" / "pyproject.toml").read_text("utf8")
    found = dict(re.findall(r'^([\w-]+) = "([^"]*)"', text, re.M))
    classifiers = re.search(r"^classifiers = \[(.*?)^\]", text, re.M | re.S)
    found["classifiers"] = "\n".join(re.findall(r'"([^"]+)"', classifiers[1])) if classifiers else ""
    keywords = re.search(r"^keywords = \[(.*?)\]", text, re.M | re.S)
    found["keywords"] = ",".join(re.findall(r'"([^"]+)"', keywords[1])) if keywords else ""
    scripts = re.search(r"^\[project\.scripts\]\n((?:.+\n)*)", text, re.M)
    found["scripts"] = scripts[1].replace('"', "") if scripts else ""
    extras = re.search(r"^\[project\.optional-dependencies\]\n((?:.+\n)*)", text, re.M)
    found["extras"] = extras[1] if extras else ""
    return found


def extra_lines(extras: str) -> Iterator[str]:
    """The lines of a wheel's metadata for optional dependencies, as `dask = ["distributed"]`."""
    for extra, names in re.findall(r"^(\w+) = \[(.*)\]$", extras, re.M):
        yield f"Provides-Extra: {extra}"
        for name in re.findall(r'"([^"]+)"', names):
            yield f'Requires-Dist: {name}; extra == "{extra}"'


def metadata() -> str:
    described = fields()
    head = [
        "Metadata-Version: 2.1", f"Name: {described['name']}", f"Version: {described['version']}", f"Summary: {described['description']}",
        "Author: the trinorm authors", "License: MIT OR Apache-2.0", f"Keywords: {described['keywords']}",
        *(f"License-File: {name}" for name in LICENCES),
        *(f"Classifier: {line}" for line in described["classifiers"].splitlines()),
        f"Requires-Python: {described['requires-python']}", "Description-Content-Type: text/markdown", *extra_lines(described["extras"]),
    ]
    return "\n".join(head) + "\n\n" + (TOP / "python" / described["readme"]).read_text("utf8")


def zipped(files: Files) -> bytes:
    out, moment = io.BytesIO(), time.gmtime(epoch())[:6]
    with zipfile.ZipFile(out, "w", zipfile.ZIP_DEFLATED) as packed:
        for name, (data, mode) in files.items():
            entry = zipfile.ZipInfo(name, moment)
            entry.external_attr, entry.compress_type, entry.create_system = (0o100000 | mode) << 16, zipfile.ZIP_DEFLATED, 3
            packed.writestr(entry, data)
    return out.getvalue()


def wheel_of(files: Files, tag: str) -> Tuple[str, bytes]:
    """A wheel of these files, with what a wheel tells of itself."""
    version = fields()["version"]
    info = f"{PROGRAM}-{version}.dist-info"
    files = {**files, f"{info}/METADATA": (metadata().encode(), 0o644)}
    files[f"{info}/WHEEL"] = (f"Wheel-Version: 1.0\nGenerator: {PROGRAM}\nRoot-Is-Purelib: false\nTag: {tag}\n".encode(), 0o644)
    files[f"{info}/entry_points.txt"] = (f"[console_scripts]\n{fields()['scripts']}".encode(), 0o644)
    for name in LICENCES:
        files[f"{info}/{name}"] = plain(TOP / name)
    record = ""
    for name, (data, _) in sorted(files.items()):
        digest = base64.urlsafe_b64encode(hashlib.sha256(data).digest()).rstrip(b"=").decode()
        record += f"{name},sha256={digest},{len(data)}\n"
    record += f"{info}/RECORD,,\n"
    return f"{PROGRAM}-{version}-{tag}.whl", zipped({**dict(sorted(files.items())), f"{info}/RECORD": (record.encode(), 0o644)})


def modules() -> Files:
    """The package's own files."""
    return below(PROGRAM, f"python/{PROGRAM}")


def wheel(made: Made) -> Tuple[str, bytes]:
    """The wheel: the package, and beside it program, launcher, manual page and completions, as in the other packages."""
    files, place = modules(), f"{PROGRAM}-{made.version}.data"
    for name, content in shared(made).items():
        files[f"{place}/scripts/{PROGRAM}" if name == f"bin/{PROGRAM}" else f"{place}/data/{name}"] = content
    return wheel_of(files, f"py3-none-manylinux_2_{made.glibc()}_x86_64")


def editable_wheel() -> Tuple[str, bytes]:
    """A wheel that leads to the repository: its package, and its launcher."""
    launcher = f"#!/bin/sh\nexec '{TOP / PROGRAM}' \"$@\"\n"
    place = f"{PROGRAM}-{fields()['version']}.data"
    files: Files = {f"_{PROGRAM}.pth": (f"{TOP / 'python'}\n".encode(), 0o644), f"{place}/scripts/{PROGRAM}": (launcher.encode(), 0o755)}
    return wheel_of(files, "py3-none-any")

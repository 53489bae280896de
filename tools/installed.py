"""The program as it stands in a clone, where the launcher looks for it, and what is told beside it."""
from __future__ import annotations

import os
from contextlib import suppress
from pathlib import Path, PurePosixPath
from typing import Dict, List

from manifest import FILES, LINKS, Manifest, parts
from repository import PROGRAM, Sources, sum_of_file, sum_of_lines

# so many seconds before a build began are its sources taken to be unread, since clocks of file systems are coarse
MARGIN = 2.0


def watched(sources: Sources) -> List[str]:
    """The sources and their folders, whose times tell of a file that came, went or was moved. The folder of the
    program's crate is none: the build itself makes a folder there."""
    files = sorted({**sources.files, **sources.linked})
    folders = {str(folder) for path in files for folder in PurePosixPath(path).parents}
    return ["crates.txt", *sorted(folders - {".", "tools", "python", f"crates/{PROGRAM}"}), *files]


class Installed:
    """The folder `out` of the program's crate. Beside the program stand the library and its server, where they were made, and

    .version: version, commit, kit, sum of the sources and of the program, and where it was proved
    .sources: the paths of the sources and of their folders, relative to the repository, each ended by a NUL
    .built: empty; its time says when the sources were read
    """

    def __init__(self, top: Path) -> None:
        self.out = top / "crates" / PROGRAM / "out"
        self.program = self.out / PROGRAM

    def fields(self) -> Dict[str, str]:
        try:
            return dict(parts((self.out / ".version").read_text("utf8")))
        except OSError:
            return {}

    def is_of(self, sources: Sources) -> bool:
        """Whether program and library were made from these sources, and are those that were installed."""
        fields = self.fields()
        try:
            return (fields.get("sources") == sources.sum() and fields.get("links") == sum_of_lines(sources.lines_of_linked())
                    and "program" in fields and all(sum_of_file(self.out / FILES[name]) == fields[name] for name in FILES if name in fields))
        except OSError:
            return False

    def files(self) -> Dict[str, bytes]:
        """What stands there, by the names in FILES."""
        return {name: (self.out / file).read_bytes() for name, file in FILES.items() if (self.out / file).is_file()}

    def write(self, name: str, data: bytes, mode: int = 0o644) -> None:
        """Writes a file whole or not at all."""
        fresh = self.out / f".{name}.new"
        fresh.write_bytes(data)
        fresh.chmod(mode)
        fresh.replace(self.out / name)

    def install(self, files: Dict[str, bytes], manifest: Manifest, begun: float, where: str) -> None:
        """Puts there what was made of sources that were read at that time, and drops what wasn't made."""
        self.out.mkdir(parents=True, exist_ok=True)
        (self.out / ".built").unlink(missing_ok=True)
        for name, file in FILES.items():
            if name in files:
                self.write(file, files[name], 0o755)
            else:
                (self.out / file).unlink(missing_ok=True)
        self.make_links()
        self.write(".sources", "".join(f"{path}\0" for path in watched(manifest.sources)).encode())
        self.write(".version", "".join(f"{line}\n" for line in [f"proved {where}", *manifest.head()]).encode())
        self.touch(begun)

    def make_links(self) -> None:
        """Makes the links to what was made, and drops those to what was not."""
        for link, file in LINKS.items():
            (self.out / link).unlink(missing_ok=True)
            if (self.out / file).is_file():
                (self.out / link).symlink_to(file)

    def touch(self, begun: float) -> None:
        """Notes that the sources are, at that time, those of the program. In a clone whose folder this user may not write, the
        next run compares the sources again."""
        with suppress(OSError):
            self.write(".built", b"")
            os.utime(self.out / ".built", (begun - MARGIN, begun - MARGIN))

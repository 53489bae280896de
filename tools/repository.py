"""The repository as a build sees it: its crates, the sums of their sources, its version and its commit."""
from __future__ import annotations

import hashlib
import os
import re
import subprocess
from pathlib import Path
from typing import Dict, Iterable, Iterator, List, NamedTuple, Optional

TOP = Path(__file__).resolve().parents[1]
PROGRAM = "trinorm"
PARTS = ("src", "specs", "proofs")


class Crate(NamedTuple):
    """A crate of the repository: the crates and the kit's libraries that it stands on, and whether a static library for
    other languages is made of it."""

    below: List[str]
    of_kit: List[str]
    is_static: bool = False


class Sources(NamedTuple):
    """What a build is made from, by lines and by sums of files, whose paths are relative to the repository.

    crates: a line for each crate, as `left: ground`
    files: the sources that are proved
    linked: those of the library that are linked to what is proved: C, and the tool that does it
    """

    crates: List[str]
    files: Dict[str, str]
    linked: Dict[str, str]

    def lines(self) -> List[str]:
        """What the program is proved from."""
        return [*(f"crate {line}" for line in self.crates), *(f"source {checksum} {path}" for path, checksum in sorted(self.files.items()))]

    def lines_of_linked(self) -> List[str]:
        return [f"linked {checksum} {path}" for path, checksum in sorted(self.linked.items())]

    def sum(self) -> str:
        """One sum of all that is proved: that of the lines, each with its end."""
        return sum_of_lines(self.lines())


def sum_of_lines(lines: List[str]) -> str:
    return sum_of("".join(f"{line}\n" for line in lines).encode())


def sum_of(data: bytes) -> str:
    return hashlib.sha256(data).hexdigest()


def sum_of_file(path: Path) -> str:
    return sum_of(path.read_bytes())


def lines_of_crates(text: str) -> Dict[str, List[str]]:
    """Each line of a file like crates.txt: the crate's name, with a word on its kind where there is one, and the names
    that it lists, those of the kit's libraries too."""
    parted = (line.split("#")[0].partition(":") for line in text.split("\n"))
    return {name.strip(): below.split() for name, _, below in parted if name.strip()}


def read_crates(top: Path) -> Dict[str, Crate]:
    """Each crate of the repository, with what its line of crates.txt says that it stands on."""
    lines = {tuple(head.split()): below for head, below in lines_of_crates((top / "crates.txt").read_text("utf8")).items()}
    names = {head[0] for head in lines}
    return {
        head[0]: Crate([name for name in below if name in names], [name for name in below if name not in names], "staticlib" in head)
        for head, below in lines.items()
    }


def standing_below(crates: Dict[str, Crate], name: str, found: Optional[Dict[str, Crate]] = None) -> Dict[str, Crate]:
    """A crate and all that it stands on, each behind those below it."""
    found = {} if found is None else found
    for below in crates[name].below:
        if below not in found:
            standing_below(crates, below, found)
    found[name] = crates[name]
    return found


def products(crates: Dict[str, Crate]) -> List[str]:
    """The crates that a build makes something of: the program, and static libraries."""
    return [PROGRAM, *(name for name, crate in crates.items() if crate.is_static)]


def crates_of_build(top: Path) -> Dict[str, Crate]:
    """The products and all that they stand on, each behind those below it."""
    crates = read_crates(top)
    found: Dict[str, Crate] = {}
    for name in products(crates):
        found.update(standing_below(crates, name, found))
    return found


def every_crate(top: Path) -> Dict[str, Crate]:
    """All crates: the products and all that they stand on, then the others, each behind those below it."""
    crates = read_crates(top)
    found = crates_of_build(top)
    for name in crates:
        found.update(standing_below(crates, name, found))
    return found


def files_of_crate(folder: Path) -> Iterator[Path]:
    """The files that a crate is made of, in order. Each is named in another one, so a new file comes with a change."""
    for part in PARTS:
        for place, folders, files in os.walk(folder / part):
            folders.sort()
            yield from (Path(place, name) for name in sorted(files))


def read_other_sources(top: Path, crates: Dict[str, Crate]) -> Sources:
    """The sources of those crates on which no product stands, such as laws that no program cites."""
    needed = crates_of_build(top)
    return read_sources(top, {name: crate for name, crate in crates.items() if name not in needed})._replace(linked={})


def read_sources(top: Path, crates: Dict[str, Crate]) -> Sources:
    """The sources of some crates, and those that are linked to what is proved."""
    lines = [" ".join([f"{name}:", *crate.below, *crate.of_kit]) for name, crate in sorted(crates.items())]
    paths = [path for name in crates for path in files_of_crate(top / "crates" / name)]
    tools = [top / "tools" / f"{name}.py" for name in ("library", "modules", "wasm")]
    # the version in pyproject.toml is told by the library
    linked = [*tools, top / "python" / "pyproject.toml", *(top / "library").glob("*.*"), *(top / "library" / "wasm").glob("*.c")]
    return Sources(lines, sums_of_files(top, paths), sums_of_files(top, [path for path in linked if path.is_file()]))


def sums_of_files(top: Path, paths: Iterable[Path]) -> Dict[str, str]:
    return {path.relative_to(top).as_posix(): sum_of_file(path) for path in paths}


def version(top: Path) -> str:
    """The version, which stands in python/pyproject.toml alone."""
    try:
        text = (top / "python" / "pyproject.toml").read_text("utf8")
    except OSError:
        return "unknown"
    found = re.search(r'^version = "([^"]*)"', text, re.M)
    return found[1] if found else "unknown"


def git(top: Path, *words: str) -> Optional[str]:
    """What git says, or None where this is no checkout."""
    try:
        done = subprocess.run(["git", "-C", str(top), *words], capture_output=True, text=True, check=False)
    except OSError:
        return None
    return done.stdout.strip() if done.returncode == 0 else None


def tracked(top: Path, *folders: str) -> List[Path]:
    """The files of some folders that the commit has or is about to have, in order. Outside a checkout, where git can't say, all
    files but those that tools leave behind."""
    listed = git(top, "ls-files", "-z", "--", *folders)
    if listed is not None:
        return sorted(top / name for name in listed.split("\0") if name and (top / name).is_file())
    left_behind = ("__pycache__", "target", "out", "build")
    paths = (path for folder in folders for path in (top / folder).rglob("*") if path.is_file())
    return sorted(path for path in paths if not any(part.startswith(".") or part in left_behind or part.endswith(".egg-info")
                                                    for part in path.relative_to(top).parts))


def changed(top: Path, paths: Iterable[str] = ()) -> bool:
    """Whether files differ from the commit. Where that can't be told, as outside a checkout, none does."""
    return bool(git(top, "status", "--porcelain", "--", *paths))


def commit(top: Path) -> str:
    """The commit, and whether the sources differ from it; `none` outside a checkout."""
    head = git(top, "rev-parse", "HEAD")
    if head is None:
        return "none"
    return f"{head} with changes" if changed(top, ["crates", "crates.txt"]) else head


def cache_folder() -> Path:
    """The folder of this project in the user's cache."""
    cache = os.environ.get("XDG_CACHE_HOME")
    return (Path(cache) if cache else Path.home() / ".cache") / PROGRAM

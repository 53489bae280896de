"""What is told of a proved program: from which sources, by which kit, with which verdicts, and its sum."""
from __future__ import annotations

from typing import Dict, Iterator, List, NamedTuple, Tuple

from repository import PROGRAM, Sources, sum_of_lines

# what a build makes, by the names in a manifest: the program, the proved archive for other languages, the library that is
# linked of it, and a server over that; the LLVM module of the archive, and what is made of it for WebAssembly
FILES = {"program": PROGRAM, "archive": "libtrinorm_c.a", "library": "libtrinorm.so.1", "server": "trinorm-server",
         "module": "trinorm_c.bc", "wasm": "trinorm.wasm"}
# the names under which a linker looks for them
LINKS = {"libtrinorm.so": FILES["library"]}


class NoManifest(Exception):
    """A text is no manifest."""


class Manifest(NamedTuple):
    """The file MANIFEST, which stands beside each kept program and in each release.

    version, commit, kit: of the clone and of the kit that proved it; files: the sum of each file that was made, by its
    name in FILES; anew: whether all that the program stands on was proved by that one build; verdicts: the prover's last line
    for each crate that was proved; gate: the last line of the gate, where it is told; others: the sources of the crates that
    were proved too, and on which no product stands
    """

    version: str
    commit: str
    kit: str
    sources: Sources
    files: Dict[str, str]
    anew: bool
    verdicts: Dict[str, str]
    gate: str = ""
    others: Sources = Sources([], {}, {})

    def head(self) -> List[str]:
        """The lines on the whole, which are what a launcher tells of its program."""
        head = [f"version {self.version}", f"commit {self.commit}", f"kit {self.kit}", f"sources {self.sources.sum()}"]
        head += [f"links {sum_of_lines(self.sources.lines_of_linked())}"]
        return head + [f"{name} {sum_of_file}" for name, sum_of_file in self.files.items()]

    def text(self) -> str:
        lines = [*self.head(), f"anew {'yes' if self.anew else 'no'}"]
        lines += [f"verdict {name} {line}" for name, line in self.verdicts.items()]
        lines += [f"gate {self.gate}"] if self.gate else []
        lines += [*self.sources.lines_of_linked(), *self.sources.lines(), *(f"other {line}" for line in self.others.lines())]
        return "".join(f"{line}\n" for line in lines)


def parts(text: str) -> Iterator[Tuple[str, str]]:
    for line in text.splitlines():
        name, _, rest = line.partition(" ")
        yield name, rest


def add_source(sources: Sources, name: str, rest: str) -> None:
    """Adds what a line `crate`, `source` or `linked` says to sources."""
    first, _, second = rest.partition(" ")
    if name == "crate":
        sources.crates.append(rest)
    elif name == "source":
        sources.files[second] = first
    else:
        sources.linked[second] = first


def read_manifest(text: str) -> Manifest:
    """Reads what `Manifest.text` wrote. The sum of the sources has to be that of its own lines."""
    fields: Dict[str, str] = {}
    verdicts: Dict[str, str] = {}
    sources, others = Sources([], {}, {}), Sources([], {}, {})
    for name, rest in parts(text):
        first, _, second = rest.partition(" ")
        if name in ("crate", "source", "linked"):
            add_source(sources, name, rest)
        elif name == "other":
            add_source(others, first, second)
        elif name == "verdict":
            verdicts[first] = second
        else:
            fields[name] = rest
    missing = [name for name in ("version", "commit", "kit", "sources", "program", "anew") if name not in fields]
    if missing:
        raise NoManifest(f"it has no line `{missing[0]}`")
    if fields["sources"] != sources.sum():
        raise NoManifest("its lines `crate` and `source` haven't the sum that it tells")
    files = {name: fields[name] for name in FILES if name in fields}
    return Manifest(fields["version"], fields["commit"], fields["kit"], sources, files, fields["anew"] == "yes", verdicts,
                    fields.get("gate", ""), others)

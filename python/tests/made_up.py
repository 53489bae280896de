"""A small made-up repository with the real launcher and tools, and a kit whose prover proves nothing, so that a build
takes a moment: a library is the code of its crate, and the program prints that of all."""
import os
import shutil
import subprocess
from pathlib import Path
from typing import Dict, List, Optional

from trinorm.program import REPOSITORY

CRATES: Dict[str, List[str]] = {"ground": [], "left": ["ground"], "right": ["ground"], "trinorm": ["left", "right"], "beside": ["ground"]}

IGNORED = shutil.ignore_patterns("__pycache__")

PROVER = """#!/bin/sh
# rattle build --crate-name NAME .. --jobs N .. --toolchain FOLDER -o OUT, in the crate's folder
name=$3
for word; do
  [ "$out" = --toolchain ] && toolchain=$word
  out=$word
done
echo "$name" >>"$MADE_UP_PROVED"
sleep "${MADE_UP_SECONDS-0}"
if grep -rq wrong src; then
  echo "fn $name: not proved"
  exit 1
fi
echo "fn $name: proved"
echo "logic=proved functions=1 of=$name"
case $out in
  *.o | *.a)
    for word; do
      case $word in
        dependency=*/libraries)
          for library in "${word#dependency=}"/*.rlib; do
            # no product stands on that one
            case $library in */beside.rlib) ;; *) cat "$library/code/text" ;; esac
          done >"$out" ;;
      esac
    done
    grep -hv '^//' src/*.rt >>"$out"
    # a static library goes through the compiler as a module
    case $out in
      *.a) [ -x "$toolchain/bin/clang" ] && cp "$out" "$out.bc" && "$toolchain/bin/clang" -c "$out.bc" && rm "$out.bc" ;;
    esac
    : ;;
  *)
    mkdir -p "$out/code"
    grep -hv '^//' src/*.rt >"$out/code/text"
    echo "crate $name" >"$out/format"
    for word; do
      case $word in *=*/libraries/*.rlib) sha256sum <"${word#*=}/format" >>"$out/format" ;; esac
    done
    sha256sum <"$out/code/text" >>"$out/format" ;;
esac
"""

# as rt ci, it leaves the libraries and the program; MADE_UP_GATE is a command that it runs before it ends
GATE = """#!/bin/sh
[ "$*" = ci ] || exit 2
for name in ground left right; do
  mkdir -p "crates/$name/out/rlib"
  (cd "crates/$name" && rattle build --crate-name "$name" -o "$PWD/out/rlib/$name.rlib") || exit 1
done
mkdir -p crates/trinorm/out
{ echo '#!/bin/sh'; cat crates/ground/src/lib.rt crates/left/src/lib.rt crates/right/src/lib.rt crates/trinorm/src/main.rt; } >crates/trinorm/out/trinorm
chmod +x crates/trinorm/out/trinorm
eval "${MADE_UP_GATE-}"
echo '4 passed, 0 failed'
"""

# links the library of the archive: that, and a line of library/limits.c
LIBRARY = """import os
import shutil


def build_library(kit, archive, to):
    os.makedirs(to)
    shutil.copy(archive, f"{to}/libtrinorm_c.a")
    here = os.path.dirname(os.path.abspath(__file__))
    with open(f"{here}/../library/limits.c") as source:
        for name in ("libtrinorm.so.1", "trinorm-server"):
            with open(f"{to}/{name}", "w") as file:
                file.write(f"{name.removesuffix('.1')} by {source.read()}")
            source.seek(0)
"""

# makes the module for WebAssembly of the one that was kept
WASM = """NAME, PACKAGES = 'trinorm.wasm', ['tools']


def missing():
    return []


def made(kit, module, say):
    if module is None:
        say('no module was kept')
        return {}
    return {'wasm': b'for WebAssembly: ' + module}
"""

LINKER = """#!/bin/sh
# rattle-link .. -o PROGRAM PROGRAM.o ..
while [ "$1" != -o ]; do shift; done
{ echo '#!/bin/sh'; cat "$3"; } >"$2"
chmod +x "$2"
"""


def make_kit(folder: Path) -> Path:
    """Lays a kit out. Returns the folder with its command rt."""
    kit = folder / "kit"
    (kit / "bin").mkdir(parents=True)
    (kit / "KIT-ID").write_text("made-up-kit-1\n")
    for name, text in (("rattle", PROVER), ("rattle-link", LINKER), ("rt", GATE)):
        (kit / "bin" / name).write_text(text)
        (kit / "bin" / name).chmod(0o755)
    return kit / "bin"


class MadeUp:
    """A clone of the made-up repository. Clones in one folder share the user's cache and the kit."""

    def __init__(self, folder: Path, name: str = "clone") -> None:
        self.folder, self.top = folder, folder / name
        self.proved_file = folder / "proved"
        kit = folder / "kit" / "bin" if (folder / "kit").is_dir() else make_kit(folder)
        self.environment = dict(os.environ, PATH=f"{kit}{os.pathsep}{os.environ['PATH']}", XDG_CACHE_HOME=str(folder / "cache"),
                                MADE_UP_PROVED=str(self.proved_file), PYTHONDONTWRITEBYTECODE="1")
        self.environment.pop("TRINORM", None)
        if not self.top.is_dir():
            self.lay_out()

    def lay_out(self) -> None:
        self.top.mkdir(parents=True)
        shutil.copy(REPOSITORY / "trinorm", self.top)
        for name in ("tools", "launcher"):
            shutil.copytree(REPOSITORY / name, self.top / name, ignore=IGNORED)
        (self.top / "python").mkdir()
        shutil.copy(REPOSITORY / "python" / "pyproject.toml", self.top / "python")
        (self.top / "crates.txt").write_text("".join(f"{name}: {' '.join(below)}\n" for name, below in CRATES.items()))
        for name in CRATES:
            (self.top / "crates" / name / "src").mkdir(parents=True)
            self.write(name, f"echo {name}\n")

    def lay_out_rest(self) -> None:
        """All else that a release is made of, and a commit of it."""
        for name in ("examples", "docs", "python/trinorm"):
            shutil.copytree(REPOSITORY / name, self.top / name, ignore=IGNORED)
        for name in ("README.md", "CHANGELOG.md", "CONTRIBUTING.md", "SECURITY.md", "CITATION.cff", "paper.md", "paper.bib", "LICENSE-MIT",
                     "LICENSE-APACHE", "NOTICES", ".gitignore", "pyproject.toml", "python/README.md", "python/wheels.py"):
            shutil.copy(REPOSITORY / name, self.top / name)
        for name in ("command_definitions", "text_definitions", "outcome_definitions", "surface_definitions"):
            shutil.copytree(REPOSITORY / "crates" / name / "specs", self.top / "crates" / name / "specs")
        for words in (["init", "-q"], ["add", "-A"], ["-c", "user.name=N", "-c", "user.email=E", "commit", "-qm", "Begin"]):
            subprocess.run(["git", *words], cwd=self.top, check=True)

    def add_library(self) -> None:
        """One more product: a static library, and C that is linked to it."""
        with open(self.top / "crates.txt", "a", encoding="utf8") as file:
            file.write("for_c staticlib: left\n")
        (self.top / "crates" / "for_c" / "src").mkdir(parents=True)
        self.write("for_c", "echo for_c\n")
        for name in ("examples", "rust/trinorm/src"):
            (self.top / "library" / name).mkdir(parents=True)
        for name in ("examples/quads.c", "rust/trinorm/src/lib.rs"):
            shutil.copy(REPOSITORY / "library" / name, self.top / "library" / name)
        (self.top / "library" / "limits.c").write_text("one")
        (self.top / "library" / "trinorm.h").write_text("header")
        (self.top / "tools" / "library.py").write_text(LIBRARY)

    def add_wasm(self) -> None:
        """A compiler in the kit, to which the prover hands a module, and a tool that makes one for WebAssembly of it."""
        clang = self.folder / "kit" / "toolchain" / "bin" / "clang"
        clang.parent.mkdir(parents=True)
        (clang.parents[1] / "lib").mkdir()
        clang.write_text("#!/bin/sh\n")
        clang.chmod(0o755)
        (self.top / "tools" / "wasm.py").write_text(WASM)

    def source(self, crate: str) -> Path:
        return self.top / "crates" / crate / "src" / ("main.rt" if crate == "trinorm" else "lib.rt")

    def write(self, crate: str, text: str) -> None:
        self.source(crate).write_text(text)

    def run(self, words: List[str], kit: bool = True, **more: str) -> "subprocess.CompletedProcess[str]":
        environment = dict(self.environment, **more)
        if not kit:
            environment["PATH"] = os.environ["PATH"].replace(os.path.dirname(shutil.which("rt") or "/none"), "")
        return subprocess.run(words, cwd=self.top, env=environment, stdin=subprocess.DEVNULL, capture_output=True, text=True,
                              timeout=600, check=False)

    def launch(self, kit: bool = True) -> str:
        """What the program answers through the launcher."""
        done = self.run(["./trinorm"], kit)
        return done.stdout if done.returncode == 0 else f"status {done.returncode}: {done.stderr}"

    def build(self, *words: str, kit: bool = True, **more: str) -> "subprocess.CompletedProcess[str]":
        return self.run(["python3", "tools/build.py", *words], kit, **more)

    def proved(self) -> Optional[List[str]]:
        """The crates that were proved since this was asked last, in the order of their names."""
        try:
            found = self.proved_file.read_text().split()
        except OSError:
            return []
        self.proved_file.unlink()
        return sorted(found)

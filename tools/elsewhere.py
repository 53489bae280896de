"""The files of a release for a browser and for other systems than Linux with glibc on x86-64.

They are made from the LLVM module and the module for WebAssembly that a build kept, if the tools for them are installed;
what a release lacks is said.
"""
from __future__ import annotations

import sys
import tempfile
from pathlib import Path
from typing import Dict, List, Tuple

import docs_site
import native
import packages
import wasm
import web_page
from manifest import parts
from modules import NotCompiled
from repository import PROGRAM, TOP, sum_of

Named = Tuple[str, bytes]


def page(made: packages.Made) -> List[Named]:
    """The page as one file, its folder packed, and the module with a notice: the other two hold theirs."""
    if "wasm" not in made.files:
        print(f"{PROGRAM}: the release lacks {web_page.PAGE}, since the build made no {wasm.NAME}", file=sys.stderr)
        return []
    module, name, build = made.files["wasm"], f"{PROGRAM}-{made.version}-web", build_of(made)
    files: packages.Files = {path: (data, 0o644) for path, data in web_page.folder(module, build).items()}
    return [(web_page.PAGE, web_page.one_file(module, build).encode("utf8")), (f"{name}.tar.gz", packages.tar(files, f"{name}/")),
            (wasm.NAME, module), (f"{wasm.NAME}.NOTICES", notice().encode("utf8"))]


def build_of(made: packages.Made) -> Dict[str, str]:
    """What citations of the page name of the build."""
    return web_page.build_of(made.files["wasm"], dict(parts(made.version_lines)))


def notice() -> str:
    """What has to be handed on with the module, which holds no text of its own."""
    head = f"{wasm.NAME} is licensed as LICENSE-MIT or LICENSE-APACHE says; NOTICES has the licences of the libraries that it holds.\n"
    parts = [f"\n---- {name}\n\n{(TOP / name).read_text('utf8')}" for name in web_page.LICENCES]
    return head + "".join(parts)


def version_lines(made: packages.Made, name: str, files: Dict[str, bytes]) -> str:
    """The lines of the file `version` in a wheel for another system: those of the build but for its files."""
    lines = [line for line in made.version_lines.splitlines() if line.split(" ")[0] not in made.files]
    lines += [f"system {name}", *(f"file {file} {sum_of(data)}" for file, data in files.items())]
    return "".join(f"{line}\n" for line in lines)


def wheel(made: packages.Made, name: str, files: Dict[str, bytes]) -> Named:
    """The wheel of a system: the package, with library and program where it looks for them."""
    system, place = native.SYSTEMS[name], f"{PROGRAM}-{made.version}.data"
    packed = packages.modules()
    for path, content in packages.shared(packages.Made(made.version, {}, version_lines(made, name, files), made.manifest)).items():
        is_launcher = path == f"bin/{PROGRAM}"
        if not (is_launcher and name.startswith("windows")):
            packed[f"{place}/scripts/{PROGRAM}" if is_launcher else f"{place}/data/{path}"] = content
    for file, data in files.items():
        packed[f"{place}/data/libexec/{PROGRAM}/{file}"] = (data, 0o755)
        if name.startswith("windows"):
            # no shell runs the launcher there, so the command is the program, beside its library
            packed[f"{place}/scripts/{file}"] = (data, 0o755)
    glibc = packages.Made(made.version, files, "").glibc()
    return packages.wheel_of(packed, f"py3-none-{system.tag.format(glibc)}")


def wheels(made: packages.Made, kit: Path) -> List[Named]:
    """A wheel for each system whose compiler is installed."""
    if "module" not in made.files:
        print(f"{PROGRAM}: the release lacks wheels for other systems, since the build kept no module", file=sys.stderr)
        return []
    wheels_made = []
    with tempfile.TemporaryDirectory() as folder:
        module = Path(folder, "module.bc")
        module.write_bytes(made.files["module"])
        for name in native.SYSTEMS:
            try:
                wheels_made += [wheel(made, name, files) for _, files in native.build_all(kit, module, [name])]
            except NotCompiled as fault:
                print(f"{PROGRAM}: the release lacks a wheel for {name}: {fault}", file=sys.stderr)
    return wheels_made


def documentation(made: packages.Made) -> List[Named]:
    """The site of the pages, with the page for a browser in it, packed."""
    if "wasm" not in made.files:
        return []
    name = f"{PROGRAM}-{made.version}-docs"
    try:
        site = docs_site.files(made.files["wasm"], build_of(made))
    except docs_site.NotMade as fault:
        print(f"{PROGRAM}: the release lacks {name}.tar.gz: {fault}", file=sys.stderr)
        return []
    return [(f"{name}.tar.gz", packages.tar({path: (data, 0o644) for path, data in site.items()}, f"{name}/"))]


def files(made: packages.Made, kit: Path) -> List[Named]:
    """All of these files, by name."""
    return [*page(made), *documentation(made), *wheels(made, kit)]

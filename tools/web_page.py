#!/usr/bin/env python3
"""Makes the page: a folder for any file server, and the same page as one file, which opens from the disk.

    tools/web_page.py MODULE FOLDER

MODULE is trinorm.wasm. FOLDER gets the folder `web` and the file trinorm.html. If the module is the one that the build of this
clone made, citations name its version, commit and kit.
"""
from __future__ import annotations

import base64
import hashlib
import json
import re
import shutil
import sys
from pathlib import Path
from typing import Dict, List, Optional, Tuple

from installed import Installed
from repository import PROGRAM, TOP, sum_of, version

PAGE = f"{PROGRAM}.html"
SOURCES = TOP / "web"
# in this order in the one file: each stands after those that it imports
SCRIPTS = ["elements.js", "engine.js", "files.js", "texts.js", "asking.js", "kinds.js", "foreign.js", "reading.js", "understood.js",
           "links.js", "hints.js", "words.js", "long_table.js", "pictures.js", "turning.js", "exports.js", "questions.js", "next.js",
           "surface_list.js", "several.js", "menu.js", "visit.js", "input_field.js", "form.js", "views.js", "citation.js", "page.js"]
WORKER = ["engine.js", "texts.js", "worker.js"]
READER = ["engine.js", "texts.js", "foreign.js", "reading.js", "reader.js"]
LICENCES = ["NOTICES", "LICENSE-MIT", "LICENSE-APACHE"]
# what a citation names of the build that made the module
NOTED = ("version", "commit", "kit", "wasm")
POLICY = ("default-src 'none'; script-src '{script}' 'wasm-unsafe-eval'; worker-src blob:; style-src '{style}'; img-src data:; "
          "base-uri 'none'; form-action 'none'")


def examples(table: str) -> Dict[str, Dict[str, str]]:
    """The examples of the commands, by the names of their files."""
    examples_by_name: Dict[str, Dict[str, str]] = {}
    for command, name in re.findall(r"\./trinorm (\S+) < examples/(\S+)\.txt", table):
        examples_by_name.setdefault(name, {"command": command, "text": (TOP / "examples" / f"{name}.txt").read_text("utf8")})
    return examples_by_name


def build_of(module: bytes, fields: Dict[str, str]) -> Dict[str, str]:
    """What a citation names of a build, whose lines `KEY VALUE` are given; nothing if the build made another module."""
    is_known = fields.get("wasm") == sum_of(module) and all(fields.get(name) for name in NOTED)
    return {name: fields[name] for name in NOTED} if is_known else {}


def data_files(build: Optional[Dict[str, str]] = None, pages: str = "") -> Dict[str, str]:
    """What the page reads besides the module: the table of commands, hints, how discs are drawn, explained words, names of
    manifolds, examples with and without a story, the version with what is known of the build, and the licences."""
    table = (TOP / "python" / PROGRAM / "commands.txt").read_text("utf8")
    return {
        "commands.txt": table,
        "hints.txt": (TOP / "python" / PROGRAM / "hints.txt").read_text("utf8"),
        "discs.json": (TOP / "python" / PROGRAM / "discs.json").read_text("utf8"),
        "words.json": (TOP / "python" / PROGRAM / "words.json").read_text("utf8"),
        "names.json": (SOURCES / "names.json").read_text("utf8"),
        "stories.json": (SOURCES / "stories.json").read_text("utf8"),
        "examples.json": json.dumps(examples(table), indent=1) + "\n",
        "about.json": json.dumps({"version": version(TOP), "build": build or None, "pages": pages}) + "\n",
        **{name: (TOP / name).read_text("utf8") for name in LICENCES},
    }


def folder(module: bytes, build: Optional[Dict[str, str]] = None) -> Dict[str, bytes]:
    """The files of the folder, by name. `build` is what `build_of` returns."""
    names = ["index.html", "page.css", *SCRIPTS, "worker.js", "reader.js", "package.json", f"node/{PROGRAM}.js"]
    files = {name: (SOURCES / name).read_bytes() for name in names}
    files.update((name, text.encode("utf8")) for name, text in data_files(build).items())
    return {**files, f"{PROGRAM}.wasm": module}


def joined(names: List[str]) -> str:
    """Scripts as one, without their imports of each other and without exports. No two declare the same name."""
    parts = []
    for name in names:
        text = (SOURCES / name).read_text("utf8")
        text = re.sub(r"^import .*;\n", "", text, flags=re.M)
        parts.append(re.sub(r"^export ", "", text, flags=re.M))
    return "\n".join(parts)


def hash_of(text: str) -> str:
    """The name by which a content security policy allows a text."""
    return "sha256-" + base64.b64encode(hashlib.sha256(text.encode("utf8")).digest()).decode()


def element(name: str, text: str) -> str:
    """An element that holds a file and does nothing. No text may end it early."""
    if re.search(r"</script|<!--", text, re.I):
        raise ValueError(f"{name} can't be held by an element of the page")
    return f'<script type="text/plain" data-file="{name}">{text}</script>'


def replace(pattern: str, text: str, page: str) -> Tuple[str, int]:
    """The page with each match replaced by a text, which may begin with the match's first group, and their number."""
    keeps = text.startswith("\\1")
    return re.subn(pattern, lambda match: match[1] + text[2:] if keeps else text, page)


def one_file(module: bytes, build: Optional[Dict[str, str]] = None, pages: str = "") -> str:
    """The page as one file, which fetches nothing. `build` is what `build_of` returns; `pages` leads to the folder of the
    documentation, if it is known."""
    script, style = joined(SCRIPTS), (SOURCES / "page.css").read_text("utf8")
    held = {**data_files(build, pages), "worker.js": joined(WORKER), "reader.js": joined(READER)}
    held[f"{PROGRAM}.wasm"] = base64.b64encode(module).decode()
    parts = [*(element(name, text) for name, text in held.items()), f'<script type="module">{script}</script>']
    page = (SOURCES / "index.html").read_text("utf8")
    replaced = {
        r'(http-equiv="Content-Security-Policy" content=)"[^"]*"': rf'\1"{POLICY.format(script=hash_of(script), style=hash_of(style))}"',
        r'<link rel="stylesheet" href="page.css">': f"<style>{style}</style>",
        r'<script type="module" src="page.js"></script>\n': "",
        r"</body>": "\n".join(parts) + "\n</body>",
    }
    for pattern, text in replaced.items():
        page, count = replace(pattern, text, page)
        if count != 1:
            raise ValueError(f"web/index.html has {count} of {pattern}")
    return page


def write(module: bytes, to: Path, build: Optional[Dict[str, str]] = None) -> None:
    """Writes the folder and the one file, in place of older ones. `build` is what `build_of` returns."""
    shutil.rmtree(to / "web", ignore_errors=True)
    for name, data in folder(module, build).items():
        path = to / "web" / name
        path.parent.mkdir(parents=True, exist_ok=True)
        path.write_bytes(data)
    (to / PAGE).write_text(one_file(module, build), "utf8")


def main(words: List[str]) -> Optional[str]:
    if len(words) != 2:
        return __doc__
    module = Path(words[0]).read_bytes()
    write(module, Path(words[1]), build_of(module, Installed(TOP).fields()))
    return None


if __name__ == "__main__":
    sys.exit(main(sys.argv[1:]))

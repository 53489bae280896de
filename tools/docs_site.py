#!/usr/bin/env python3
"""Makes a site of the pages: README and docs, with the page for a browser under try/. It works from the disk too.

    tools/docs_site.py FOLDER [MODULE]

FOLDER gets the site, in place of an older one; a folder with anything else is left as it is. MODULE is trinorm.wasm; without it
the site has no try/, and no links to it. Each page has a field that searches all pages, by the scripts search.js and
search_index.js.
It needs mkdocs of Debian. Made of the same commit again, each file is the same bit for bit.
"""
from __future__ import annotations

import html.parser
import json
import os
import re
import shutil
import subprocess
import sys
import tempfile
import urllib.parse
from pathlib import Path
from typing import Dict, Iterator, List, Optional, Set, Tuple

import web_page
from installed import Installed
from repository import PROGRAM, TOP

# the pages in their order, by subject; what docs/ has besides is the last subject
SUBJECTS: List[Tuple[str, List[str]]] = [
    ("", ["README.md"]),
    ("Use", ["docs/GUIDE.md", "docs/REFERENCE.md", "docs/FORMATS.md", "docs/PYTHON.md", "docs/WEB.md", "docs/LIBRARY.md"]),
    ("Mathematics", ["docs/CLAIMS.md", "docs/LAWS.md", "docs/DEFINITIONS.md", "docs/READING.md"]),
    ("Speed", ["docs/SPEED.md", "docs/SPEED-NOTES.md"]),
    ("Development", ["docs/ARCHITECTURE.md", "docs/PROVING.md", "docs/DECISIONS.md", "CONTRIBUTING.md", "CHANGELOG.md"]),
]
OTHERS = "More"
THEME = TOP / "tools" / "site_theme"  # of plain pages: no script but the search, and nothing from elsewhere
INDEX = "search_index.js"
LINK = re.compile(r"(\]\()([^)\s]+)(\))")
# a block with one command, whose input is a file of examples/ or a text
BLOCK = re.compile(r"^(?:    .*\n)+", re.M)
COMMAND = r"(?:\./)?trinorm (\S+)((?: --[\w-]+[ =]\S+)*)"
FROM_FILE = re.compile(rf"^    \$ {COMMAND} < examples/([\w-]+\.txt)$", re.M)
FROM_TEXT = re.compile(rf"^    \$ (?:printf '([^']*)'|echo ([^|;'\"]*)) \| {COMMAND}$", re.M)
TRY = "try/index.html"
# files of mkdocs that have a date, or work on a server alone
LEFT_OUT = ("sitemap.xml", "sitemap.xml.gz", "404.html")


class NotMade(Exception):
    """mkdocs is not installed, or refused the pages."""


# ---- the sources

def pages() -> List[Tuple[str, List[str]]]:
    """The pages by subject, by their paths in the repository."""
    named = {path for _, paths in SUBJECTS for path in paths}
    found = {path.relative_to(TOP).as_posix() for folder in ("", "docs") for path in (TOP / folder).glob("*.md")}
    subjects = [(subject, [path for path in paths if path in found]) for subject, paths in SUBJECTS]
    return [*subjects, (OTHERS, sorted(found - named))]


def place(path: str) -> str:
    """Where a file of the repository is in the site, as mkdocs reads it."""
    if path == "README.md":
        return "index.md"
    if path.startswith("docs/"):
        return path[len("docs/"):]
    if path.endswith(".md") and "/" not in path:
        return path
    return f"files/{path}" if "." in path.rpartition("/")[2] else f"files/{path}.txt"


def rewritten(text: str, path: str, linked: Set[str]) -> str:
    """A page with its links as the site has them. The files that they lead to are added to `linked`."""
    def link(match: "re.Match[str]") -> str:
        target, mark, anchor = match[2].partition("#")
        if not target or re.match(r"[a-z]+:", target):
            return match[0]
        reached = os.path.normpath(os.path.join(os.path.dirname(path), target))
        if not (TOP / reached).is_file():
            raise NotMade(f"{path} has a link to {target}, which is no file")
        linked.add(reached)
        return f"{match[1]}{os.path.relpath(place(reached), os.path.dirname(place(path)) or '.')}{mark}{anchor}{match[3]}"
    return LINK.sub(link, text)


def question(block: str, commands: Set[str]) -> Optional[Dict[str, str]]:
    """The fields of a link for the one command of a block, if it is one that the page can answer."""
    if len(re.findall(r"^    \$ ", block, re.M)) != 1:
        return None
    from_file, from_text = FROM_FILE.search(block), FROM_TEXT.search(block)
    if from_file:
        command, options, text = from_file[1], from_file[2], (TOP / "examples" / from_file[3]).read_text("utf8")
    elif from_text:
        formatted, plain, command, options = from_text.groups()
        text = f"{plain}\n" if formatted is None else formatted.replace("\\n", "\n").replace("%%", "%")
    else:
        return None
    return {"command": command, **dict(re.findall(r"--([\w-]+)[ =](\S+)", options)), "input": text} if command in commands else None


def with_questions(text: str, commands: Set[str]) -> str:
    """A page with a link behind each example that the page for a browser can answer."""
    def block(match: "re.Match[str]") -> str:
        fields = question(match[0], commands)
        return match[0] if fields is None else f"{match[0]}\n[Try it]({TRY}#{urllib.parse.urlencode(fields)})\n"
    return BLOCK.sub(block, text)


def sources(with_page: bool) -> Dict[str, bytes]:
    """What mkdocs reads, by place."""
    linked: Set[str] = set()
    table = web_page.data_files()["commands.txt"].splitlines() if with_page else []
    commands = {line.split("\t")[0] for line in table if not line.startswith("#")}
    written, known = {}, [path for _, paths in pages() for path in paths]
    for path in known:
        text = rewritten((TOP / path).read_text("utf8"), path, linked)
        written[place(path)] = with_questions(text, commands).encode("utf8")
    written.update((place(path), (TOP / path).read_bytes()) for path in linked - set(known))
    return written


def configuration(with_page: bool) -> str:
    """mkdocs.yml, which JSON can be."""
    nav: List[object] = []
    for subject, paths in pages():
        entries = [place(path) for path in paths]
        if subject and entries:
            nav.append({subject: entries})
        else:
            nav.extend(entries)
    return json.dumps({
        "site_name": PROGRAM, "docs_dir": "docs", "theme": {"name": None, "custom_dir": str(THEME)}, "nav": nav, "plugins": [],
        "use_directory_urls": False, "extra": {"try": TRY if with_page else ""}, "markdown_extensions": ["tables", "fenced_code", "sane_lists"],
    })


# ---- the site

def built(written: Dict[str, bytes], with_page: bool) -> Dict[str, bytes]:
    """What mkdocs makes, by path, without what has a date."""
    command = shutil.which("mkdocs")
    if command is None:
        raise NotMade("mkdocs is not installed")
    with tempfile.TemporaryDirectory() as folder:
        top = Path(folder)
        for name, data in written.items():
            path = top / "docs" / name
            path.parent.mkdir(parents=True, exist_ok=True)
            path.write_bytes(data)
        (top / "mkdocs.yml").write_text(configuration(with_page), "utf8")
        done = subprocess.run([command, "build", "--quiet", "--site-dir", "site"], cwd=top, capture_output=True, text=True, check=False,
                              env={**os.environ, "SOURCE_DATE_EPOCH": "315532800", "PYTHONHASHSEED": "0"})
        if done.returncode:
            raise NotMade(f"mkdocs refused the pages: {done.stderr.strip()}")
        found = sorted(path for path in (top / "site").rglob("*") if path.is_file())
        files = {path.relative_to(top / "site").as_posix(): path.read_bytes() for path in found}
    return {name: data for name, data in files.items() if name not in LEFT_OUT}


def files(module: Optional[bytes], build: Optional[Dict[str, str]] = None) -> Dict[str, bytes]:
    """The files of the site, by path. `build` is what web_page.build_of returns of the module."""
    with_page = module is not None
    site = built(sources(with_page), with_page)
    site[INDEX] = index_of(site)
    if module is not None:
        site[TRY] = web_page.one_file(module, build, "../").encode("utf8")
    wrong = list(faults(site))
    if wrong:
        raise NotMade("\n".join(wrong))
    return site


# ---- the search

class Sections(html.parser.HTMLParser):
    """The sections of a page, each as its anchor, its heading, and its text. What is around the text is left out."""

    HEADINGS = ("h1", "h2", "h3", "h4", "h5", "h6")
    IN_WORDS = ("a", "code", "em", "strong", "sup", "sub")

    def __init__(self, page: str) -> None:
        super().__init__()
        self.sections: List[Tuple[str, List[str], List[str]]] = [("", [], [])]
        self.is_read = self.is_in_heading = False
        self.feed(page)

    def handle_starttag(self, tag: str, attrs: List[Tuple[str, Optional[str]]]) -> None:
        given = dict(attrs)
        if tag in ("main", "footer") or given.get("class") == "contents":
            self.is_read = tag == "main"
        if self.is_read and tag in self.HEADINGS:
            self.sections.append((given.get("id") or "", [], []))
            self.is_in_heading = True
        if tag not in self.IN_WORDS:
            self.handle_data(" ")

    def handle_endtag(self, tag: str) -> None:
        # the contents are the first of all details
        self.is_read = self.is_read or tag == "details"
        self.is_in_heading = self.is_in_heading and tag not in self.HEADINGS
        if tag not in self.IN_WORDS:
            self.handle_data(" ")

    def handle_data(self, data: str) -> None:
        if self.is_read:
            _, heading, text = self.sections[-1]
            (heading if self.is_in_heading else text).append(data)

    def found(self) -> Iterator[Tuple[str, str, str]]:
        """The sections that have a text or a heading."""
        for anchor, heading, text in self.sections:
            plain = [" ".join("".join(parts).split()) for parts in (heading, text)]
            if any(plain):
                yield anchor, plain[0], plain[1]


def index_of(site: Dict[str, bytes]) -> bytes:
    """What the search looks at, as a script: the pages with their titles, and the sections of each by its number."""
    pages_with_titles, sections = [], []
    for number, (name, data) in enumerate(sorted((name, data) for name, data in site.items() if name.endswith(".html") and name != TRY)):
        found = list(Sections(data.decode("utf8")).found())
        pages_with_titles.append([name, next((heading for _, heading, _ in found if heading), name)])
        sections += [[number, *section] for section in found]
    text = json.dumps({"pages": pages_with_titles, "sections": sections}, ensure_ascii=False, separators=(",", ":"))
    return f"var trinorm_index = {text};\n".encode("utf8")


# ---- links and anchors

class Links(html.parser.HTMLParser):
    """The links of a page, and the names that links can lead to."""

    def __init__(self, text: str) -> None:
        super().__init__()
        self.links: List[str] = []
        self.names: Set[str] = set()
        self.feed(text)

    def handle_starttag(self, tag: str, attrs: List[Tuple[str, Optional[str]]]) -> None:
        for name, value in attrs:
            if name in ("href", "src") and value:
                self.links.append(value)
            if name in ("id", "name") and value:
                self.names.add(value)


def faults(site: Dict[str, bytes]) -> Iterator[str]:
    """The links of a site that lead nowhere, and what it would load from elsewhere."""
    parsed = {name: Links(data.decode("utf8")) for name, data in site.items() if name.endswith(".html") and name != TRY}
    for name, page in parsed.items():
        for link in page.links:
            if re.match(r"(?:https?|mailto|data):", link):
                continue
            target, _, anchor = link.partition("#")
            reached = os.path.normpath(os.path.join(os.path.dirname(name), urllib.parse.unquote(target))) if target else name
            if reached not in site:
                yield f"{name}: {link} leads to no file"
            elif anchor and reached in parsed and urllib.parse.unquote(anchor) not in parsed[reached].names:
                yield f"{name}: {link} leads to no anchor"
        for link in re.findall(r"<(?:script|link|img)\b[^>]*(?:src|href)=\"(?:https?:)?//[^\"]*\"", site[name].decode("utf8")):
            yield f"{name}: {link} is loaded from elsewhere"


def write(site: Dict[str, bytes], to: Path) -> None:
    """Writes the site, in place of an older one. Fails with NotMade if the folder holds something that no site has at its top."""
    tops = {name.partition("/")[0] for name in site} | {TRY.partition("/")[0], "files"}
    others = sorted(path.name for path in to.iterdir() if path.name not in tops and path.suffix != ".html") if to.is_dir() else []
    if others or to.is_dir() and any(to.iterdir()) and not (to / "LAWS.html").is_file():
        raise NotMade(f"{to} is no older site{f', since it has {others[0]}' if others else ''}; give a new folder, or empty it")
    if to.is_dir():
        shutil.rmtree(to)
    for name, data in site.items():
        path = to / name
        path.parent.mkdir(parents=True, exist_ok=True)
        path.write_bytes(data)


def main(words: List[str]) -> Optional[str]:
    if len(words) not in (1, 2):
        return __doc__
    module = Path(words[1]).read_bytes() if len(words) == 2 else None
    build = web_page.build_of(module, Installed(TOP).fields()) if module is not None else None
    try:
        write(files(module, build), Path(words[0]))
    except NotMade as fault:
        return f"docs_site: {fault}"
    return None


if __name__ == "__main__":
    sys.exit(main(sys.argv[1:]))

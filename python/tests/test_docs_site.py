"""The site of the pages: its links and anchors, that it loads nothing from elsewhere, and that it is the same whenever it is made."""
import contextlib
import io
import json
import os
import pathlib
import re
import shutil
import sys
import tarfile
import tempfile
import time
import unittest
import urllib.parse
from typing import TYPE_CHECKING, Any, ClassVar, Dict, Type, Union

from trinorm.program import REPOSITORY

sys.path.insert(0, str(REPOSITORY / "tools"))

import docs_site  # noqa: E402
import elsewhere  # noqa: E402
import packages  # noqa: E402
import web_page  # noqa: E402

from . import browsers  # noqa: E402


# what `Search` is for those who check types; it is no class of tests itself, so that its tests are run of the classes below it alone
if TYPE_CHECKING:
    Case = unittest.TestCase
else:
    Case = object


class Site(unittest.TestCase):
    site: ClassVar[Dict[str, bytes]]

    @classmethod
    def setUpClass(cls) -> None:
        if shutil.which("mkdocs") is None:
            raise unittest.SkipTest("mkdocs is not installed")
        cls.site = docs_site.files(b"\0asm")

    def test_each_page_is_there_and_links_hold(self) -> None:
        for _, paths in docs_site.pages():
            for path in paths:
                self.assertIn(docs_site.place(path).replace(".md", ".html"), self.site)
        self.assertEqual(list(docs_site.faults(self.site)), [])
        self.assertGreater(len(self.site), 25)

    def test_wrong_links_are_found(self) -> None:
        pages = {"a.html": b'<a href="b.html#x">b</a><a href="c.html">c</a><img src="//x.example/i.png"><p id="y"></p>', "b.html": b'<a href="a.html#y">a</a>'}
        self.assertEqual([fault.split(":")[0] + fault.rpartition(" leads")[2] for fault in docs_site.faults(pages)][:2], ["a.html to no anchor", "a.html to no file"])
        self.assertEqual(len(list(docs_site.faults(pages))), 4)

    def test_it_works_from_the_disk(self) -> None:
        """No link begins at the top of a server, and no script is loaded but that of the search."""
        for name, data in self.site.items():
            if name.endswith(".html") and name != docs_site.TRY:
                text = data.decode("utf8")
                self.assertNotRegex(text, r'(?:href|src)="/', name)
                self.assertEqual(re.findall(r"<script[^>]*>", text), ['<script defer src="search.js">'], name)
                self.assertIn("default-src 'none'; script-src 'self'; style-src 'self';", text)

    def test_the_page_for_a_browser_leads_to_the_other_pages(self) -> None:
        page = self.site[docs_site.TRY].decode("utf8")
        [text] = re.findall(r'data-file="about.json">(.*?)</script>', page, re.S)
        about = json.loads(text)
        self.assertEqual(os.path.normpath(os.path.join(os.path.dirname(docs_site.TRY), about["pages"])), ".")
        named = re.findall(r"named_page\('(\w+)'(?:, '#([\w-]+)')?\)", (REPOSITORY / "web" / "page.js").read_text("utf8"))
        self.assertGreater(len(named), 2)
        for name, anchor in named:
            text = self.site[f"{name}.html"].decode("utf8")
            self.assertTrue(not anchor or anchor in docs_site.Links(text).names, (name, anchor))
        # a page that is alone does not know where the others are
        self.assertEqual(json.loads(web_page.data_files()["about.json"])["pages"], "")

    def test_the_index_has_all_sections(self) -> None:
        text = self.site[docs_site.INDEX].decode("utf8")
        self.assertTrue(text.startswith("var trinorm_index = ") and text.endswith("};\n"))
        index = json.loads(text[len("var trinorm_index = "):-2])
        names = [name for name, _ in index["pages"]]
        self.assertEqual(names, sorted(name for name in self.site if name.endswith(".html") and name != docs_site.TRY))
        self.assertIn(["GUIDE.html", "Guide"], index["pages"])
        ids = {name: set(re.findall(r'id="([^"]*)"', self.site[name].decode("utf8"))) for name in names}
        for page, anchor, heading, _ in index["sections"]:
            self.assertTrue(anchor in ids[names[page]] or not anchor and not heading, (names[page], anchor, heading))
        headings = {(names[page], heading) for page, _, heading, _ in index["sections"]}
        for path in ("docs/GUIDE.md", "docs/WEB.md"):
            for heading in re.findall(r"(?m)^## ([\w .?-]+)$", (REPOSITORY / path).read_text("utf8")):
                self.assertIn((docs_site.place(path).replace(".md", ".html"), heading), headings)
        [law] = [text for page, _, heading, text in index["sections"] if names[page] == "LAWS.html" and heading == "list_decides_efficiency"]
        self.assertIn("ListDecidesEfficiency", law)

    def test_sections_of_a_page(self) -> None:
        page = ('<nav>outside</nav><main><details class="contents"><summary>On this page</summary></details><p>before</p><h1 id="a">A <code>b</code></h1>'
                "<p>one<br>two</p><details><summary>more</summary>folded &lt;b&gt;</details><h2 id=c>C</h2><table><tr><td>x</td><td>y</td></tr></table><footer>next</footer></main>")
        self.assertEqual(list(docs_site.Sections(page).found()), [("", "", "before"), ("a", "A b", "one two more folded <b>"), ("c", "C", "x y")])

    def test_the_same_bit_for_bit(self) -> None:
        self.assertEqual(docs_site.files(b"\0asm"), self.site)

    def test_the_archive_of_a_release(self) -> None:
        [(name, data)] = elsewhere.documentation(packages.Made("1.0.0", {"wasm": b"\0asm"}, ""))
        self.assertEqual(name, "trinorm-1.0.0-docs.tar.gz")
        with tarfile.open(fileobj=io.BytesIO(data)) as tar:
            self.assertEqual({f"trinorm-1.0.0-docs/{path}" for path in self.site}, {entry.name for entry in tar.getmembers() if entry.isfile()})
        self.assertEqual(elsewhere.documentation(packages.Made("1.0.0", {}, "")), [])

    def test_examples_lead_to_the_page(self) -> None:
        known = {line.split("\t")[0] for line in web_page.data_files()["commands.txt"].splitlines()}
        links = re.findall(r'href="try/index.html#([^"]*)"', self.site["REFERENCE.html"].decode("utf8"))
        self.assertGreater(len(links), 10)
        for link in links:
            fields = dict(urllib.parse.parse_qsl(link.replace("&amp;", "&"), strict_parsing=True))
            self.assertIn(fields["command"], known)
            self.assertIn("input", fields)
        self.assertNotIn("try/index.html", docs_site.sources(False)["REFERENCE.md"].decode("utf8"))

    def test_no_folder_with_other_files_is_emptied(self) -> None:
        with tempfile.TemporaryDirectory() as folder:
            top = pathlib.Path(folder)
            docs_site.write(self.site, top)
            (top / "OLD.html").write_text("of a page that is gone")
            docs_site.write(self.site, top)
            self.assertEqual({path.relative_to(top).as_posix() for path in top.rglob("*") if path.is_file()}, set(self.site))
            (top / "thesis.tex").write_text("years of work")
            with self.assertRaisesRegex(docs_site.NotMade, "thesis.tex"):
                docs_site.write(self.site, top)
            self.assertTrue((top / "thesis.tex").is_file() and (top / "index.html").is_file())
            (top / "own").mkdir()
            (top / "own" / "index.html").write_text("a page of somebody")
            with self.assertRaises(docs_site.NotMade):
                docs_site.write(self.site, top / "own")

    def test_questions_of_blocks(self) -> None:
        known = {"sig", "surfaces"}
        for block, fields in (
                ("    $ echo sig bkaagj | trinorm surfaces --coords quad\n    vec\n", {"command": "surfaces", "coords": "quad", "input": "sig bkaagj\n"}),
                ("    $ printf 'sig a\\nb%%\\n' | ./trinorm sig\n", {"command": "sig", "input": "sig a\nb%\n"}),
                ("    $ trinorm sig --order=short < examples/figure-eight.txt\n", {"command": "sig", "order": "short", "input": (REPOSITORY / "examples" / "figure-eight.txt").read_text()}),
                ("    $ echo a | trinorm sig\n    $ echo b | trinorm sig\n", None), ("    $ echo a | trinorm other\n", None), ("    $ trinorm sig | grep x\n", None), ("    a\n", None)):
            self.assertEqual(docs_site.question(block, known), fields)


class Search(Case):
    """The search in a browser, from the disk and from a server."""

    browser: ClassVar[Type[Union[browsers.Chromium, browsers.Firefox]]] = browsers.Chromium
    window: ClassVar[Union[browsers.Chromium, browsers.Firefox]]
    folder: ClassVar["tempfile.TemporaryDirectory[str]"]
    top: ClassVar[str]

    @classmethod
    def setUpClass(cls) -> None:
        if shutil.which("mkdocs") is None:
            raise unittest.SkipTest("mkdocs is not installed")
        cls.folder = tempfile.TemporaryDirectory()
        cls.addClassCleanup(cls.folder.cleanup)
        docs_site.write(docs_site.files(b"\0asm"), pathlib.Path(cls.folder.name, "site"))
        cls.top = pathlib.Path(cls.folder.name, "site").as_uri()
        try:
            cls.window = cls.browser()
        except browsers.Missing as fault:
            raise unittest.SkipTest(str(fault)) from None
        cls.addClassCleanup(cls.window.close)

    UNTIL = """
const by = (id) => document.getElementById(id);
const until = async (condition, most = 60000) => {
    for (const begun = performance.now(); !condition(); await new Promise((done) => setTimeout(done, 20))) if (performance.now() - begun > most) throw Error(`waited in vain for ${condition}`);
};
const search = async (text) => { by('search').value = text; by('search').dispatchEvent(new Event('input')); await until(() => by('searching').dataset.shown === text); };
"""

    def search(self, text: str, script: str = "return [by('found_count').textContent, [...document.querySelectorAll('#found a')].map((one) => one.textContent)];") -> Any:
        return self.window.run(f"{self.UNTIL} await search({json.dumps(text)}); {script}")

    def test_sections_are_found_on_each_page(self) -> None:
        for page in ("index.html", "LAWS.html", "CONTRIBUTING.html"):
            self.window.open(f"{self.top}/{page}")
            count, links = self.search("list_decides_efficiency")
            self.assertRegex(count, "^[0-9]+ sections found")
            self.assertEqual(links[0], "Laws: list_decides_efficiency")
            self.assertIn("Guide: Is it 0-efficient?", self.search("Jaco rubinstein SPHERES")[1])

    def test_a_section_is_opened(self) -> None:
        self.window.open(f"{self.top}/index.html")
        target = self.search("klein bottle", "return document.querySelector('#found a').href;")
        name, _, anchor = target[len(self.top) + 1:].partition("#")
        self.assertTrue(pathlib.Path(self.folder.name, "site", name).is_file(), target)
        self.window.run(f"{self.UNTIL} by('search').focus();")
        self.window.press("Enter")
        for _ in range(100):
            with contextlib.suppress(Exception):
                if self.window.run("return document.readyState === 'complete' && location.href;") == target:
                    break
            time.sleep(0.1)
        else:
            self.fail(f"{target} was not opened")
        if anchor:
            self.assertTrue(self.window.run(f"return document.getElementById({json.dumps(anchor)}) !== null;"))

    def test_words_are_marked_and_nothing_becomes_markup(self) -> None:
        self.window.open(f"{self.top}/index.html")
        marked = self.search("gluing table", "return [...new Set([...document.querySelectorAll('#found mark')].map((one) => one.textContent.toLowerCase()))].sort();")
        self.assertEqual(marked, ["gluing", "table"])
        for text in ("<img src=x onerror=alert(1)>", "(((", "\\", "[a-", "a" * 100, "$& ${x} %s", ".*"):
            count, links = self.search(text)
            self.assertRegex(count, "^(No|[0-9]+) sections? found")
            self.assertEqual(self.window.run("return [document.querySelectorAll('#found img, #found script').length, document.querySelectorAll('#found *').length];")[0], 0)
            self.assertLessEqual(len(links), 20)
        self.assertEqual(self.search("xyzzy plugh"), ["No sections found", []])
        self.assertEqual(self.search("  "), ["", []])

    def test_the_field_has_a_name_and_goes_away_with_the_scripts(self) -> None:
        self.window.open(f"{self.top}/GUIDE.html")
        self.assertEqual(self.window.run("const form = document.getElementById('searching'); return [form.hidden, document.getElementById('search').labels[0].textContent, form.getAttribute('role')];"), [False, "Search the pages", "search"])
        page = pathlib.Path(self.folder.name, "site", "GUIDE.html").read_text("utf8")
        self.assertIn('<form id="searching" role="search" hidden>', page)

    def test_a_missing_index_is_said(self) -> None:
        path = pathlib.Path(self.folder.name, "site", docs_site.INDEX)
        kept = path.read_bytes()
        path.unlink()
        try:
            self.window.open(f"{self.top}/index.html")
            said = self.window.run(f"{self.UNTIL} by('search').value = 'a'; by('search').dispatchEvent(new Event('input')); await until(() => by('found_count').textContent); return by('found_count').textContent;")
            self.assertEqual(said, "The pages cannot be searched: search_index.js is missing")
        finally:
            path.write_bytes(kept)


class SearchInChromium(Search, unittest.TestCase):
    pass


class SearchInFirefox(Search, unittest.TestCase):
    browser = browsers.Firefox


if __name__ == "__main__":
    unittest.main()

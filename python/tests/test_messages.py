"""The texts that users read outside the pages: what tools/messages.py finds, and that none of the repository has a private word."""
import subprocess
import sys
import tempfile
import unittest
from pathlib import Path

from trinorm.program import REPOSITORY

sys.path.insert(0, str(REPOSITORY / "tools"))

import messages  # noqa: E402
from messages import Text, texts  # noqa: E402

ONE_PLACE = {
    "python/trinorm/a.py": ('"""It answers words."""\nraise ValueError(f"the {engine} is asked {1}")\n', ["the {} is asked {}"]),
    "python/trinorm/errors.py": ('class Ended(Exception):\n    """The engine has ended."""\n', ["The engine has ended."]),
    "python/trinorm/hints.txt": ("# the words\n2\t*\tusage extra-word\t-\t`sig` takes no word\n", ["`sig` takes no word"]),
    "python/trinorm/commands.txt": ("a\ttable\t-\t./a\twhat it answers\n", ["what it answers"]),
    "python/trinorm/words.json": ('{\n  "about": "the words",\n  "words": {\n    "a": "The word a.",\n    "b": "What b answers."\n  }\n}\n', ["The word a.", "What b answers."]),
    "tools/pages.py": ('HEAD = "# The words of it\\nfor word in words"\n', ["# The words of it"]),
    "tools/a.py": ('"""A tool of words."""\nread(help="the words of it")\nprint("the answers come")\n', ["the words of it"]),
    "launcher/a.sh": ("# asks the words\nsay \"$1 answers $words\"\nsay 'two words'\n", ["$1 answers $words", "two words"]),
    "launcher/a.awk": ('# asks "the words"\nprint "the words: " word\n', ["the words: "]),
    "library/a.c": ('/* "asked for" */\n#include "call of.h"\nputs("it was asked");\n', ["it was asked"]),
    "library/trinorm.h": ("int words; /* the words */\n/* What is\n * asked */\n", ["the words", "What is asked"]),
    "library/rust/trinorm/src/lib.rs": ('/// The words.\nfn a() { panic!("a word {b}") }\n#[cfg(test)]\n/// More words.\n', ["The words.", "a word {b}"]),
    "web/a.js": ("// 'the words'\n/* `so many words` */\nsay(`the words ${n}`, 'a word'); const c = 'word-word';\n", ["the words ${n}", "a word"]),
    "web/index.html": ('<p title="the words">The answers<b>more words</b></p>', ["the words", "The answers", "more words"]),
}


class Messages(unittest.TestCase):
    def test_words(self) -> None:
        for text in ("it answers a question", "Words of it", "the document is empty", "no room for it", "what comes behind", "the number passes the limit",
                     "this is no signature", "the surfaces are none", "the engine has ended", "parted by commas", "it wants a number", "the gate said",
                     "the first pieces", "0-efficient by its numbers", "what is there", "it stands here", "an edit of it", "it goes by sums"):
            self.assertTrue(Text("a", 1, text).words(), text)

    def test_usual_words(self) -> None:
        for text in ("there is no such command", "whether there are none", "the merge gate (rt ci)", "pass the vectors in several inputs", "the input missing-word",
                     "read `the words` first", "the field {word} of ${words.length} in $words", "--words of tools/words.py", "more than 30 words", "documentation",
                     "the sum of two surfaces", "an inner edge", "the answer is incomplete", "bandwidth of swords"):
            self.assertEqual(Text("a", 1, text).words(), [], text)

    def test_places(self) -> None:
        with tempfile.TemporaryDirectory() as folder:
            for name, (content, _) in ONE_PLACE.items():
                path = Path(folder, name)
                path.parent.mkdir(parents=True, exist_ok=True)
                path.write_text(content, "utf8")
            for name, (_, wanted) in ONE_PLACE.items():
                self.assertEqual([text.text for text in texts(Path(folder)) if text.path == name], wanted, name)

    def test_lines(self) -> None:
        self.assertEqual(list(messages.of_javascript("\n\nsay('a word');\n")), [(3, "a word")])
        self.assertEqual(list(messages.of_python('\nit = f"a {b}"\n')), [(2, "a {}")])

    def test_each_place_has_texts(self) -> None:
        found = {text.path for text in texts(REPOSITORY)}
        for pattern, _ in messages.PLACES:
            self.assertTrue(any(path.relative_to(REPOSITORY).as_posix() in found for path in REPOSITORY.glob(pattern)), pattern)

    def test_the_repository(self) -> None:
        done = subprocess.run([sys.executable, str(REPOSITORY / "tools" / "messages.py"), "--check"], capture_output=True, text=True, check=False)
        self.assertEqual((done.returncode, done.stdout), (0, ""), done.stderr)


if __name__ == "__main__":
    unittest.main()

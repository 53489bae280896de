"""The launcher: what it says where standard error is a terminal, and that nothing else of a run changes."""
import json
import os
import pty
import re
import shutil
import subprocess
import sys
import tempfile
import time
import unittest
from pathlib import Path
from typing import ClassVar, List, Sequence, Tuple, Union

import trinorm
from tests import repository
from trinorm import hints

# a `tee` that writes a block to the file only when its reader has taken all of it, and ends if the reader has ended
TEE = """
import os, sys
with open(sys.argv[1], "wb") as file:
    for block in iter(lambda: sys.stdin.buffer.read(1 << 18), b""):
        left = memoryview(block)
        while left:
            try:
                left = left[os.write(1, left):]
            except BrokenPipeError:
                sys.exit(141)
        file.write(block)
"""


class Launcher(unittest.TestCase):
    folder: ClassVar["tempfile.TemporaryDirectory[str]"]
    program: ClassVar[Path]
    launcher: ClassVar[str]

    @classmethod
    def setUpClass(cls) -> None:
        """A folder in which the launcher finds a program that is current."""
        cls.folder = tempfile.TemporaryDirectory()
        cls.addClassCleanup(cls.folder.cleanup)
        cls.program = repository.make(cls.folder.name)
        cls.launcher = os.path.join(cls.folder.name, "trinorm")

    def run_with(self, program: Union[str, Path], words: Sequence[str], text: bytes, by_name: bool = False, terminal: bool = True) -> Tuple[int, bytes, str]:
        """Status, answer, and what is said on standard error, with a pipe or a file for standard input."""
        ours, theirs = pty.openpty() if terminal else os.pipe()
        try:
            if by_name:
                with tempfile.TemporaryFile() as file:
                    file.write(text)
                    file.seek(0)
                    done = subprocess.run([program, *words], stdin=file, stdout=subprocess.PIPE, stderr=theirs, timeout=60, check=False)
            else:
                done = subprocess.run([program, *words], input=text, stdout=subprocess.PIPE, stderr=theirs, timeout=60, check=False)
            os.write(theirs, b"<end>\n")
            said = ""
            while not said.replace("\r\n", "\n").endswith("<end>\n"):
                said += os.read(ours, 10000).decode()
        finally:
            os.close(ours)
            os.close(theirs)
        return done.returncode, done.stdout, said.replace("\r\n", "\n")[:-len("<end>\n")]

    def said(self, words: Sequence[str], text: bytes = b"") -> str:
        """What is said; status and answer are the program's, and where standard error is no terminal nothing is said."""
        alone = self.run_with(self.program, words, text)
        self.assertEqual(alone[2], "")
        self.assertEqual(self.run_with(self.launcher, words, text, terminal=False), alone)
        through_pipe, by_name = (self.run_with(self.launcher, words, text, by_name=it) for it in (False, True))
        self.assertEqual(through_pipe, by_name)
        self.assertEqual(through_pipe[:2], alone[:2])
        return through_pipe[2]

    def test_all_commands(self) -> None:
        """Without words, and where help is asked for: each command with a word on it."""
        with open(os.path.join(self.folder.name, "python", "trinorm", "commands.txt"), encoding="utf8") as file:
            rows = [line.rstrip("\n").split("\t") for line in file if not line.startswith("#")]
        asked: List[List[str]] = [[], ["help"], ["--help"], ["-h"]]
        for words in asked:
            said = self.said(words)
            self.assertTrue(said.startswith("trinorm: commands ("), said)
            for name, *_, answers in rows:
                self.assertIn(f"trinorm:   {name:10} {answers}\n", said)
            self.assertIn("each command except make and bulk reads standard input", said)
            self.assertIn(f"for example: {self.launcher} surfaces < {self.folder.name}/examples/", said)

    def test_words(self) -> None:
        """What is wrong with the words, and the options that the command has."""
        help_too = f"trinorm: `{self.launcher} --help` lists the commands\n"
        for word, near in (("surface", "; did you mean `surfaces`?"), ("desribe", "; did you mean `describe`?"), ("crsuh", "; did you mean `crush`?"), ("x", ""), ("a&b\\", "")):
            self.assertEqual(self.said([word]), f"trinorm: there is no command `{word}`{near}\n{help_too}")
        for words, wrong in (
            (["describe", "--coords", "quad"], "`--coords` must be one of standard, octagon, not `quad`"), (["surfaces", "--coords=quads"], "one of standard, quad, octagon, not `quads`; did you mean `quad`?"),
            (["info", "--order", "zeros"], "`info` has no option `--order`"), (["surfaces", "--cords", "quad"], "`surfaces` has no option `--cords`; did you mean `--coords`?"),
            (["make"], "`make` needs the option `--seed`: a whole number from 0 to 18446744073709551615"), (["make", "--seed", "1"], "`make` needs the option `--moves`: a whole number from 0 to 1000"),
            (["make", "--seed", "1", "--moves", "1001"], "`--moves` must be a whole number from 0 to 1000, not `1001`"), (["surfaces", "--max-entry", "0"], "a whole number from 1 to 170141183460469231731687303715884105727, not `0`"),
            (["make", "--seed", "18446744073709551616", "--moves", "1"], ", not `18446744073709551616`"), (["surfaces", "--order"], "`--order` needs a value: one of given, short, zeros"),
            (["make", "--seed=1", "--seed=1"], "`--seed` is given twice; give it once"), (["sig", "x"], "leave `x` out, and write `< FILE`"), (["make", "--seed=1", "--moves=1", "x"], "takes options only; leave `x` out"), (["sig", "--"], "has no option `--`"),
        ):
            said = self.said(words).splitlines()
            self.assertIn(wrong, said[0])
            self.assertTrue(said[1].startswith(f"trinorm: options of {words[0]}: "), said)
            self.assertEqual(len(said), 2)
        self.assertEqual(self.said(["describe", "--coords", "quad"]).splitlines()[1], "trinorm: options of describe: --coords standard|octagon")
        self.assertEqual(self.said(["info", "--order", "zeros"]).splitlines()[1], "trinorm: options of info: none")
        self.assertEqual(self.said(["make"]).splitlines()[1], "trinorm: options of make: --seed 0..18446744073709551615 and --moves 0..1000, both required")

    def test_checks_and_limits(self) -> None:
        """Status 4 and 5."""
        for words, text, said in (
            (["describe"], b"sig bkaagj\nvec 0 0 1\n", "vector 0 has 3 entries; standard coordinates have 7 for each tetrahedron. `lift` converts quad vectors to standard ones"),
            (["describe", "--coords", "octagon"], b"sig bkaagj\nvec 0 0 1\n", "octagon coordinates have 10"), (["lift"], b"sig bkaagj\nvec 0\n", "`lift` reads quad coordinates, with 3 for"),
            (["decompose", "--coords=quad"], b"sig bkaagj\nvec 0\n", "quad coordinates have 3"), (["lift"], b"sig cPcbbbiht\nvec 2 0 0 0 0 1\n", "vector 0 is spun-normal at vertex 0"),
            (["crush"], b"sig bkaagj\nvec 0 0 1 1 0 1 1\n", "at most one of columns 5 and 6 may be positive"), (["describe"], b"sig bkaagj\nvec 1 0 0 0 0 0 0\n", "does not solve equation 0"),
            (["sig"], b"tri 2\n- - - -\n- - - -\n", "tetrahedron 1 cannot be reached from tetrahedron 0. Use `csig`"), (["same"], b"tri 2\n- - - -\n- - - -\nsig bkaagj\n", "Use `csame`"),
            (["check"], b"sig bkaagb\n", "end at bkaagb, not at the standard sphere bkaagj"), (["check"], b"sig bkaagj\n14 0\n41 0 3\n23 0 0\n", "move 3 is illegal: the tetrahedron across the face opposite label 3"),
            (["pi1"], b"tri 1\n0:1032 0:1032 - -\n", "is glued to itself in reverse"), (["rays", "--max-entry", "2"], b"cone 3 2\n1 -2 0\n0 1 -2\n", "a number exceeds the limit (`--max-entry`, or"),
            (["describe"], b"sig bkaagj\nvec 0 0 100001 100001 0 0 0\n", ""),
        ):
            self.assertIn(said, self.said(words, text))

    def test_sentences_are_the_package_s(self) -> None:
        """The hints of the package, which reads the same table."""
        for words, text in (
            (["describe"], "sig bkaagj\nvec 0 0 1\n"), (["info"], "cPcbbbiht_BaCB\n"), (["info"], "m004\n"), (["info"], "sig m004\n"), (["info"], "sig cPcbbbiht_BaCB\n"), (["info"], "sig bka\n"), (["info"], "tri 1\n- - -\n"),
            (["info"], "tri 1\n- - - - -\n"), (["info"], "sig bkaagj x\n"), (["info"], "tri x\n"), (["info"], "tri 1\n- - - 4:0123\n"), (["verify"], "sig bkaagj\nvec -1\n"), (["verify"], "sig bkaagj\n1 1\n"), (["play"], "sig bkaagj\nmove\n"),
            (["check"], "sig bkaagj\n23 0 9\n"), (["addup"], "tri 0\nvec\nterm 1\n"), (["addup"], "tri 0\nvec 1\ntimes 1 1\nvec 1\n"), (["rays"], "cone 2 2\n1 1\n1 x\n"), (["rays"], "tri 1\n"), (["crush"], "sig bkaagj\nvec 1\nvec 1\n"),
            (["crush"], "sig bkaagj\n"), (["info"], ""), (["rays"], ""), (["info"], "\ufefftri 0\n"), (["info"], '<?xml version="1.0"?>\n'), (["info"], "% Triangulation\n"), (["same"], "sig bkaagj\n"), (["check"], "sig bkaagb\n"),
            (["sig"], "tri 2\n- - - -\n- - - -\n"), (["surfaces", "--coords", "quads"], ""), (["surface"], ""), (["make", "--seed", "1"], ""), (["info"], "# c\n\ntri 1\n\t99999999999:0123 - - -\r\n"),
        ):
            with self.assertRaises(trinorm.Refused) as caught:
                trinorm.program.run(words, text, program=str(self.program))
            refused = caught.exception
            hint = refused.hint or hints.hint(refused, words, text)
            self.assertGreater(len(hint), 5)
            self.assertIn(hint, self.said(words, text.encode()), (words, text))

    def test_other_awks(self) -> None:
        """What plays the part of awk elsewhere says the same."""
        for command in ("mawk", "gawk", "original-awk", "busybox"):
            if not shutil.which(command):
                continue
            with tempfile.TemporaryDirectory() as folder:
                path = os.path.join(folder, "awk")
                with open(path, "w", encoding="utf8") as file:
                    file.write(f'#!/bin/sh\nexec {command}{" awk" if command == "busybox" else ""} "$@"\n')
                os.chmod(path, 0o755)
                for words, text in ((["help", "linking"], b""), (["help", "terms"], b""), (["info"], b"cPcbbbiht_BaCB"), (["surface"], b""), (["make", "--seed", "18446744073709551616", "--moves", "1"], b""), (["verify"], b"tri 0\nvec -1\n"),
                                    (["describe"], b"sig bkaagj\nvec 0 0 1\n"), (["info"], b"tri 1\n- - - 4:0123\n"), (["info"], b"sig b.aagj\n"), (["surfaces", "-f", "a=b"], b"")):
                    script = f'PATH={folder}:$PATH; export PATH; exec {self.launcher} "$@"'
                    ours = self.run_with("sh", ["-c", script, self.launcher, *words], text)
                    self.assertEqual(ours, self.run_with(self.launcher, words, text), (command, words))

    def test_help_of_a_command(self) -> None:
        for words in (["surfaces", "--help"], ["surfaces", "--coords", "quad", "-h"]):
            said = self.said(words)
            for text in ("surfaces prints all vertex normal surfaces", "--order given|short|zeros", "reads a triangulation", "for example: "):
                self.assertIn(text, said)
        self.assertNotIn("triangulation is", self.said(["rays", "--help"]))
        self.assertNotIn("reads", self.said(["make", "--help"]))

    def test_help_on_a_term(self) -> None:
        """A term by itself, those that contain it, a command, and all of them; and what has no explanation."""
        with open(os.path.join(self.folder.name, "python", "trinorm", "words.json"), encoding="utf8") as file:
            known = json.load(file)["words"]
        for asked, found in ((["orientable"], ["orientable"]), (["Vertex", "LINK"], ["vertex link"]), (["linking"], ["vertex linking"]), (["0-efficient"], ["0-efficient"]),
                             (["surface"], ["normal surface", "vertex normal surface"]), (["isomorphism"], ["isomorphism"])):
            self.assertEqual(self.said(["help", *asked]), "".join(f"trinorm: {it}: {known[it]}\n" for it in found), asked)
        self.assertEqual(self.said(["help", "terms"]), f"trinorm: terms that are explained: {', '.join(known)}\n")
        for command in ("crush", "surfaces"):
            self.assertEqual(self.said(["help", command]), self.said([command, "--help"]))
        for words in (["help", "xyz"], ["help", "a&b\\n"], ["help", "surfaces", "quad"], ["help", ".*"], ["help", "words\": {"]):
            said = self.said(words)
            self.assertTrue(said.startswith(f"trinorm: there is no explanation of `{' '.join(words[1:])}`; `"), said)
            self.assertEqual(said.count("\n"), 1)
        self.assertIn(f"trinorm: `{self.launcher} help TERM` explains a term", self.said([]))

    def test_examples_of_help_run(self) -> None:
        with open(os.path.join(self.folder.name, "python", "trinorm", "commands.txt"), encoding="utf8") as file:
            names = [line.split("\t")[0] for line in file if not line.startswith("#")]
        for name in names:
            example = self.said([name, "--help"]).rpartition("for example: ")[2]
            self.assertEqual(subprocess.run(["sh", "-c", example], stdout=subprocess.PIPE, check=False).returncode, 0, example)

    def test_other_shells(self) -> None:
        """What plays the part of sh elsewhere reads the launcher too, and says the same."""
        for shell in filter(shutil.which, ("bash", "dash", "ksh", "busybox")):
            words = [shutil.which(shell) or shell, *(["sh"] if shell == "busybox" else []), self.launcher]
            for given, text in ((["surfaces", "--help"], b""), (["info"], b"cPcbbbiht_BaCB"), (["surfaces", "a'b", "cPcbbbiht"], b""), (["verify"], b"tri 0\nvec -1\n")):
                self.assertEqual(self.run_with(words[0], [*words[1:], *given], text), self.run_with(self.launcher, given, text), (shell, given))

    def test_version(self) -> None:
        for words in (["--version"], ["version"]):
            self.assertEqual(self.said(words), "trinorm: version 1.2, commit abc, program sha256 34, proved here by made-up\n")

    def test_input_among_the_words(self) -> None:
        head, me = "trinorm: surfaces reads a triangulation from standard input:", self.launcher
        path = os.path.join(self.folder.name, "a file.txt")
        open(path, "w", encoding="utf8").close()
        self.assertEqual(self.said(["surfaces", path]), f"{head} {me} surfaces < '{path}'\n")
        self.assertEqual(self.said(["surfaces", "--coords", "quad", "cPcbbbiht"]), f"{head} echo sig cPcbbbiht | {me} surfaces --coords quad\n")
        self.assertEqual(self.said(["surfaces", "sig", "cPcbbbiht_BaCB"]), f"{head} echo sig cPcbbbiht | {me} surfaces\n")
        self.assertEqual(self.said(["surfaces", "-", "--order=zeros"]), f"{head} {me} surfaces --order=zeros < FILE\n")

    def test_options_are_the_program_s(self) -> None:
        commands = [line.split()[1] for line in self.said([]).splitlines() if line.startswith("trinorm:   ")]
        self.assertEqual(len(commands), 21)
        for command in commands:
            said = self.said([command, "--no-option"]).strip().splitlines()[-1]
            self.assertTrue(said.startswith(f"trinorm: options of {command}: "), said)
            options = [] if said.endswith("none") else said.partition(f"{command}: ")[2].replace(" and ", ", ").split(", ")
            words = [re.sub(r"^\d+\.\.\d+$", "1", it) for option in options if option.startswith("--") for it in option.split()]
            for values in zip(*(it.split("|") * 6 for it in words)) if words else [[]]:
                status = subprocess.run([self.program, command, *values[:6]], stdin=subprocess.DEVNULL, stdout=subprocess.PIPE, check=False).returncode
                self.assertNotEqual(status, 2, (command, values))

    def test_a_signature_without_its_word(self) -> None:
        for text in (b"cPcbbbiht", b"cPcbbbiht\n", b"# a comment\n\n  cPcbbbiht\r\nvec 1\n"):
            self.assertTrue(self.said(["info"], text).endswith("^ write `sig` before cPcbbbiht\n"))
        self.assertEqual(self.said(["surfaces", "--order", "zeros"], b"bkaagj"), "trinorm: line 1: bkaagj\n                 ^ write `sig` before bkaagj\n")

    def test_a_decorated_signature(self) -> None:
        self.assertIn("^ write `sig` before cPcbbbiht, and leave out SnapPy's decoration _BaCB\n", self.said(["info"], b"cPcbbbiht_BaCB\n"))
        for text in (b"sig cPcbbbiht_BaCB\n", b"#\n  sig   cPcbbbiht_BaCB"):
            self.assertIn("^ _BaCB is SnapPy's decoration; leave it out: `sig cPcbbbiht`\n", self.said(["info"], text))

    def test_the_line_is_shown(self) -> None:
        """For each place of a fault what is wanted there, and a caret under the column that the program names."""
        for words, text, wanted in (
            (["info"], b"trj 1\n", "a triangulation begins with"), (["info"], b"tri\n", "the number of tetrahedra"),
            (["info"], b"tri 1\nbkaagj\n", "an entry is"), (["info"], b"# c\n\ntri 1\n\t- - - - -\r\n", "this is the fifth entry of the row; a row has four"),
            (["info"], b"sig bkaagj x\n", "the line should end here"), (["info"], b"sig bkaagj\nsig bkaagj\n", "the input should end here"),
            (["info"], b"tri 1\n- - \xff - -\n", "use plain ASCII"), (["info"], b"tri 1\n99999999999:0123 - - -\n", "this number is too large"),
            (["verify"], b"sig bkaagj\n1 1\n", "begins with `vec`"), (["verify"], b"tri 0\nvec 1 1.5\n", "are whole numbers"),
            (["crush"], b"sig bkaagj\nvec 1\nvec 1\n", "the input should end here"), (["play"], b"sig bkaagj\nmove\n", "`undo` or `redo`"),
            (["check"], b"sig bkaagj\n23 0 9\n", "a face or vertex"), (["same"], b"tri 0\nvec 1\n", "a triangulation begins with"),
            (["addup"], b"tri 0\nvec\nterm 1\n", "`times S T`"), (["addup"], b"tri 0\nvec 1\ntimes 1 1\nvec 1\n", "`term K`"),
            (["rays"], b"cone 2 2\n1 1\n1 x\n", "from -1,000,000 to 1,000,000"), (["rays"], b"tri 1\n", "a cone begins with"),
            (["rays"], b"bkaagj\n", "a cone begins with"), (["group"], b"sig bkaagj\nbkaagj\n", "write `sig` before bkaagj"),
            (["info"], b"#" * 200 + b"\n" + b"sig " + b" " * 90 + b"bkaagj x" + b" " * 90 + b"\n", "the line should end here"),
        ):
            refusal = subprocess.run([self.program, *words], input=text, stdout=subprocess.PIPE, check=False).stdout.split()
            said = self.said(words, text).split("\n")
            self.assertEqual(len(said), 3, said)
            line, column = text.split(b"\n")[int(refusal[2]) - 1].decode("latin1"), int(refusal[3]) - 1
            self.assertTrue(said[0].startswith(f"trinorm: line {int(refusal[2])}: "))
            caret = said[1].index("^")
            self.assertIn(wanted, said[1][caret:])
            shown = said[0][caret:caret + 1]
            self.assertEqual(shown.strip(), line[column:column + 1].strip() if line[column:column + 1].isascii() else "", said)

    def test_faults_of_tables_and_signatures(self) -> None:
        for words, text, column, wanted in (
            (["info"], b"tri 1\n- - 0:1032  0:0132\n", 5, "is not glued back by the inverse permutation"), (["info"], b"tri 1\n- - - 4:0123\n", 7, "a tetrahedron that does not exist"),
            (["info"], b"tri 1\n0:0123 - - -\n", 1, "glued to itself"), (["info"], b"sig bkaagjx\n", 11, "complete before this"),
            (["info"], b"sig bka\n", 8, "the signature is incomplete"), (["info"], b"sig b!aagj\n", 6, "letters, digits, + and -"), (["info"], b"sig baa.bkaagj\n", 8, "the signatures of several components"), (["info"], b"sig m004\n", 5, "the name of a manifold"), (["info"], b"sig L(5,2)\n", 6, "the name of a lens space"), (["info"], b"L(5,2)\n", 1, "the name of a lens space"),
            (["info"], b'sig "bkaagj"\n', 5, "quotation marks"),
        ):
            said = self.said(words, text).split("\n")
            self.assertEqual(said[1].index("^"), len("trinorm: line 1: ") + column - 1, said)
            self.assertIn(wanted, said[1])

    def test_nothing_came_and_too_little_came(self) -> None:
        self.assertEqual(self.said(["info"], b""), "trinorm: the input is empty; a triangulation begins with `tri N` or `sig SIGNATURE`\n")
        self.assertTrue(self.said(["info"], b"# c\n").startswith("trinorm: the input is empty; "))
        self.assertTrue(self.said(["info"], b"tri 1\n").startswith("trinorm: the input is incomplete: an entry is"))
        self.assertTrue(self.said(["same"], b"tri 0\n").startswith("trinorm: the input is incomplete: a triangulation begins"))

    def test_files_of_others(self) -> None:
        for text, wanted in (
            (b"\xef\xbb\xbfsig bkaagj\n", "a byte order mark"), ("sig bkaagj\n".encode("utf-16"), "UTF-16"), (b"\x1f\x8b\x08\x00", "compressed"),
            (b'<?xml version="1.0"?>\n<regina engine="7.3">\n', "a file of Regina"), (b"% Triangulation\nm004\n", "SnapPy"),
        ):
            self.assertIn(wanted, self.said(["info"], text))

    def test_other_refusals(self) -> None:
        self.assertIn("the input is longer than 1 MiB", self.said(["info"], b"bkaagj\n" + b"#\n" * 600000))
        self.assertIn("compare the signatures", self.said(["group"], b"sig bkaagj\n" * 100000))
        self.assertEqual(self.said(["group"], b"sig bkaagj\nsig bkaagjx\n"), "trinorm: the signature is complete before this\n")

    def test_more_than_the_program_reads(self) -> None:
        """The second run reads what the first one has read, also if `tee` writes blocks that are larger than a pipe."""
        with tempfile.TemporaryDirectory() as folder:
            path = os.path.join(folder, "tee")
            with open(path, "w", encoding="utf8") as file:
                file.write(f"#!{sys.executable}\n{TEE}")
            os.chmod(path, 0o755)
            script = f"PATH={folder}:$PATH; {self.launcher} info"
            text = b"sig bkaagj\n" + b"#\n" * 600000
            self.assertEqual(self.run_with("sh", ["-c", script], text), (*self.run_with(self.program, ["info"], text)[:2], self.said(["info"], text)))
            self.assertIn("longer than 1 MiB", self.run_with("sh", ["-c", script], text)[2])

    def test_reading_and_writing_that_fails(self) -> None:
        script = "exec %s info %s; echo $?"
        for given in ("<&-", "</", "<%s/crates.txt" % self.folder.name):
            alone, ours = (self.run_with("sh", ["-c", script % (it, given)], b"") for it in (self.program, self.launcher))
            self.assertEqual(alone[:2], ours[:2])
        self.assertEqual(self.run_with("sh", ["-c", f"{self.launcher} info >/dev/full"], b"sig bkaagj\n")[2], "trinorm: the output could not be written, or its reader has ended\n")
        script = f"ulimit -v 30000; printf 'tri 1000\\n' >&2; {self.launcher} surfaces"
        program = os.path.join(self.folder.name, "eight")
        with open(program, "w", encoding="utf8") as file:
            file.write("#!/bin/sh\nexit 8\n")
        os.chmod(program, 0o755)
        script = f"set -- sig; program={program} commands={self.folder.name}/python/trinorm/commands.txt here={self.folder.name}/launcher; . {self.folder.name}/launcher/hints.sh"
        self.assertEqual(self.run_with("sh", ["-c", script], b"")[2], "trinorm: out of memory\n")

    def test_a_file_that_was_read_in_part(self) -> None:
        with tempfile.TemporaryFile() as file:
            file.write(b"sig bkaagj\nsig bkaagj x\n")
            file.seek(11)
            ours, theirs = pty.openpty()
            done = subprocess.run([self.launcher, "info"], stdin=file, stdout=subprocess.PIPE, stderr=theirs, timeout=60, check=False)
            os.close(ours)
            os.close(theirs)
        self.assertEqual(done.stdout, b"refused: input 1 12 extra-word\n")

    def test_waiting_on_a_terminal(self) -> None:
        ours, theirs = pty.openpty()
        run = subprocess.Popen([self.launcher, "sig"], stdin=theirs, stdout=subprocess.PIPE, stderr=theirs)
        said = b""
        while b"Ctrl-D" not in said and run.poll() is None:
            said += os.read(ours, 10000)
        self.assertIn(b"trinorm: sig reads a triangulation from the terminal", said)
        os.write(ours, b"sig bkaagj\n\x04")
        self.assertEqual(run.communicate(timeout=60)[0], b"bkaagj\n")
        os.close(ours)
        os.close(theirs)

    def test_a_long_run(self) -> None:
        """What is said after ten seconds, which a made-up `sleep` makes shorter; what waits ends with the program."""
        with tempfile.TemporaryDirectory() as folder:
            for name, text in (("sleep", "exec /bin/sleep $wait"), ("slow", "cat; exec /bin/sleep 6"), ("quick", "cat")):
                path = os.path.join(folder, name)
                with open(path, "w", encoding="utf8") as file:
                    file.write(f"#!/bin/sh\n{text}\n")
                os.chmod(path, 0o755)
            start = f"export wait; PATH={folder}:$PATH commands={self.folder.name}/python/trinorm/commands.txt here={self.folder.name}/launcher version_file=x"
            for shell in ("dash", "bash"):
                if not shutil.which(shell):
                    continue
                for name, wait, said in (("slow", 1, "trinorm: sig has been running for ten seconds; Ctrl-C stops it\n"), ("quick", 100, "")):
                    script = f"wait={wait}; {start}; program={folder}/{name}; set -- sig; . {self.folder.name}/launcher/hints.sh"
                    self.assertEqual(self.run_with(shell, ["-c", script], b"answer\n"), (0, b"answer\n", said))

    def test_what_waits_ends(self) -> None:
        """After ten short runs no process of them is left, and a reader of the answer doesn't wait for one."""
        mark = f"mark-{os.getpid()}"
        ours, theirs = pty.openpty()
        script = f"for n in 1 2 3 4 5 6 7 8 9 10; do echo sig bkaagj | {self.launcher} sig; done"
        done = subprocess.run(["sh", "-c", script], env=dict(os.environ, TRINORM_MARK=mark), stdin=subprocess.DEVNULL, stdout=subprocess.PIPE,
                              stderr=theirs, timeout=300, check=False)
        os.close(ours)
        os.close(theirs)
        self.assertEqual(done.stdout, b"bkaagj\n" * 10)
        until = time.monotonic() + 60
        while self.marked(mark) and time.monotonic() < until:
            time.sleep(0.1)
        self.assertEqual(self.marked(mark), [])

    def marked(self, mark: str) -> List[str]:
        """The processes that have this mark in their environment."""
        left = []
        for process in filter(str.isdigit, os.listdir("/proc")):
            try:
                with open(f"/proc/{process}/environ", "rb") as file:
                    if f"TRINORM_MARK={mark}".encode() in file.read():
                        left.append(process)
            except OSError:
                pass
        return left

    def test_no_place_for_what_was_read(self) -> None:
        script = f"TMPDIR=/no/such/folder; export TMPDIR; echo sig bkaagj | {self.launcher} sig"
        self.assertEqual(self.run_with("sh", ["-c", script], b""), (0, b"bkaagj\n", ""))

    def test_answers(self) -> None:
        self.assertEqual(self.said(["surfaces"], b"sig bkaagj\n"), "")
        self.assertEqual(self.said(["make", "--seed", "1", "--moves", "3"]), "")
        self.assertEqual(self.said(["group"], b""), "")

    def test_standard_input_is_left_to_others_where_it_is_not_read(self) -> None:
        ours, theirs = pty.openpty()
        script = f"{self.launcher} make --seed 1 --moves 0 >/dev/null; {self.launcher} help >/dev/null; cat"
        done = subprocess.run(["sh", "-c", script], input=b"kept", stdout=subprocess.PIPE, stderr=theirs, timeout=60, check=False)
        os.close(ours)
        os.close(theirs)
        self.assertEqual(done.stdout, b"kept")


if __name__ == "__main__":
    unittest.main()

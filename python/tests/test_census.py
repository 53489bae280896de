"""A census: JSON lines, going on where it stopped, refusals, killed runs, and what is ended with it."""
import contextlib
import io
import json
import os
import signal
import subprocess
import sys
import tempfile
import time
import unittest
import unittest.mock
from typing import Any, Callable, Dict, List, Optional, Tuple

import trinorm
from tests.programs import is_running, script
from trinorm.__main__ import main
from trinorm.census import NAMES, Ran, Source, blocks_of, by_processes, entry_of, key_of, run_census
from trinorm.options import WithTriangles
from trinorm.program import REPOSITORY, Failed
from trinorm.tasks import Entry, Task, head_of, line_of

KNOT = "cPcbbbiht"
SIGNATURES = """# the smallest triangulations
bkaagj sphere
sig bkaagb

bkaajj  a name with spaces
cPcbbbiht figure-eight
bkaagjx not one
bkaagj sphere
"""


class Folder(unittest.TestCase):
    """Tests with a file of signatures and an output."""

    def setUp(self) -> None:
        folder = tempfile.TemporaryDirectory()
        self.addCleanup(folder.cleanup)
        self.folder = folder.name
        self.given = os.path.join(self.folder, "signatures.txt")
        self.out = os.path.join(self.folder, "answers.jsonl")
        self.put(self.given, SIGNATURES)

    def put(self, path: str, content: str) -> None:
        with open(path, "w", encoding="utf8") as file:
            file.write(content)

    def lines(self, path: Optional[str] = None) -> List[str]:
        with open(path or self.out, encoding="utf8") as file:
            return file.readlines()

    def answers(self, path: Optional[str] = None) -> Dict[str, Any]:
        return {it["name"]: it for it in map(json.loads, self.lines(path))}


class Lines(unittest.TestCase):
    def entries(self, *lines: bytes) -> List[Entry]:
        """The triangulations of lines, which are the same however many are read at a time."""
        listed = [[entry_of(found) for block in blocks_of(Source("file", None, blocks)) for found in block if found is not None]
                  for blocks in ([list(lines)], [[line] for line in lines])]
        self.assertEqual(*listed)
        return listed[0]

    def test_entries(self) -> None:
        listed = self.entries(*SIGNATURES.encode().splitlines(keepends=True))
        self.assertEqual(listed, [("bkaagj", "sphere"), ("bkaagb", "bkaagb"), ("bkaajj", "a name with spaces"),
                                  ("cPcbbbiht", "figure-eight"), ("bkaagjx", "not one"), ("bkaagj", "sphere")])

    def test_keys_are_no_lines(self) -> None:
        """A line with the text of a key that is written as JSON is another triangulation."""
        for signature, name in (("sig", "x"), ("a", ""), ("a", " b")):
            key = key_of(signature, name)
            self.assertFalse(any(key == found[0] for line in (key, key.strip()) for block in blocks_of(Source("f", None, [[line]]))
                                 for found in block if found is not None))

    def test_lines_within_a_line(self) -> None:
        """A text that was given as one line stays one."""
        for text in (b"a\nb", b"a\nb\n", b"a b\nc d"):
            self.assertEqual([it.signature for it in self.entries(text)], ["a"], text)

    def test_plain_lines_are_read_as_others(self) -> None:
        """The quick way for plain characters is no other than the long one, which a tab or a missing end takes."""
        for words in ("sig", "sig ", "sig a", "a", "a b  c ", "sig sig", "sig sig b", "sig #a", "#a", " a", "a #b", "sig a sig b", "a\\b",
                      'a "b"', "", " "):
            plain, other, third = (self.entries(words.encode() + end) for end in (b"\n", b"\t\n", b""))
            self.assertEqual(plain, other, words)
            self.assertEqual(plain, third, words)
        self.assertEqual(self.entries(b"sig\n", b"sig \n", b"sig bkaagj one\r\n", b"\tbkaagj\tone\n"),
                         [("sig", "sig"), ("sig", "sig"), ("bkaagj", "one"), ("bkaagj", "one")])


class Processes(unittest.TestCase):
    def test_each_has_work_for_a_second_one(self) -> None:
        for jobs in (1, 3):
            with by_processes(jobs) as engine:
                self.assertEqual(engine.hands, 2 * jobs)


class Census(Folder):
    def run_it(self, *, task: Optional[Task] = None, **named: Any) -> Dict[str, Any]:
        with contextlib.redirect_stderr(io.StringIO()) as said:
            with by_processes(2) as engine:
                self.ran = run_census(self.given, self.out, task or Task("surfaces", "standard"), engine, **named)
        self.said = said.getvalue()
        return self.answers()

    def test_coordinates(self) -> None:
        """Those of the task, and standard ones by default."""
        entry = Entry(KNOT, "figure-eight")
        several: Tuple[Optional[WithTriangles], ...] = (None, "standard", "octagon")
        for coords in several:
            given = coords or "standard"
            self.assertEqual(line_of(entry, Task("surfaces", coords))["answer"], trinorm.surfaces(KNOT, given))
            self.assertEqual(line_of(entry, Task("describe", coords))["answer"], trinorm.described(KNOT, given))
            self.assertEqual(line_of(entry, Task("count", coords))["answer"], trinorm.count(KNOT, given))
        self.assertEqual(line_of(entry, Task("surfaces", "quad"))["answer"], trinorm.surfaces(KNOT, "quad"))
        self.assertEqual(head_of(entry, Task("surfaces", "quad"), 2 / 3),
                         {"name": "figure-eight", "signature": KNOT, "command": "surfaces --coords quad", "seconds": 0.6667})

    def test_answers_and_refusals(self) -> None:
        listed = self.run_it()
        self.assertEqual(self.ran, Ran(0, 5, 0))
        self.assertEqual(set(listed), {"sphere", "bkaagb", "a name with spaces", "figure-eight", "not one"})
        self.assertEqual(listed["figure-eight"]["answer"], [[1, 1, 1, 1, 0, 0, 0] * 2])
        self.assertEqual(listed["not one"]["refused"], {"status": 3, "line": "refused: signature trailing 6", "kind": "signature trailing", "places": [6]})
        self.assertGreaterEqual(listed["sphere"]["seconds"], 0)
        self.assertIn("4 answered, 1 refused, 0 failed", self.said)

    def test_goes_on_where_it_stopped(self) -> None:
        whole = self.run_it()
        self.put(self.out, "".join(self.lines()[:2]) + self.lines()[2][:9])
        again = self.run_it()
        self.assertEqual(self.ran, Ran(2, 3, 0))
        self.assertIn("2 done before; ", self.said)
        self.assertEqual({name: it.get("answer") for name, it in again.items()}, {name: it.get("answer") for name, it in whole.items()})
        self.run_it()
        self.assertEqual(self.ran, Ran(5, 0, 0))
        self.assertIn("5 done before; 0 answered", self.said)

    def test_a_killed_run_loses_no_other(self) -> None:
        kills = "[ $signature != bkaajj ] || kill -9 $$"
        path = script(self.folder, f'read kind signature\n{kills}\necho "$kind $signature" | {trinorm.find()} "$@"\n')
        listed = self.run_it(task=Task("surfaces", "standard", program=path))
        self.assertEqual((self.ran, len(listed)), (Ran(0, 5, 1), 5))
        self.assertIn("signal 9", listed["a name with spaces"]["failed"])
        self.run_it()
        self.assertEqual(self.ran, Ran(5, 0, 0))
        listed = self.run_it(retry=True)
        self.assertEqual(self.ran, Ran(4, 1, 0))
        self.assertIn("answer", listed["a name with spaces"])

    def test_a_killed_worker_loses_no_other(self) -> None:
        kills = "[ $signature != bkaajj ] || kill -9 $PPID"
        path = script(self.folder, f'read kind signature\n{kills}\necho "$kind $signature" | {trinorm.find()} "$@"\n')
        listed = self.run_it(task=Task("surfaces", "standard", program=path))
        self.assertEqual((self.ran, len(listed)), (Ran(0, 5, 1), 5))
        self.assertEqual(listed["a name with spaces"]["failed"], "a worker process: killed by signal 9")

    def test_a_run_past_its_limit_loses_no_other(self) -> None:
        self.put(self.given, "bkaagj one\nuLMzMzMzMzMzMPcbcdefghijklmnopqrsttthhhhhhhhhhhhhhhhhhhah slow\nbkaajj two\n")
        listed = self.run_it(task=Task("surfaces", "standard", timeout=0.02))
        self.assertIn("no result within 0.02 s", listed["slow"]["failed"])
        self.assertEqual(len(listed), 3)
        listed = self.run_it(task=Task("surfaces", "standard", timeout=60), retry=True)
        self.assertEqual({name: len(it["answer"]) for name, it in listed.items()}, {"one": 2, "slow": 15129, "two": 2})

    def test_many(self) -> None:
        self.put(self.given, "".join(f"bkaagj {number}\n" for number in range(300)))
        self.assertEqual(set(self.run_it(task=Task("sig"))), set(map(str, range(300))))

    def fails_with(self, text: str, task: Optional[Task] = None) -> None:
        with self.assertRaisesRegex(Failed, text):
            self.run_it(task=task)

    def test_an_output_that_is_none(self) -> None:
        self.run_it()
        self.fails_with("has results of `surfaces --coords standard`, not of `info`", Task("info"))
        whole = self.lines()
        for line in ("{broken\n", "[]\n", '{"name": 1}\n', "[" * 100_000 + "\n"):
            self.put(self.out, "".join(whole[:2]) + line + whole[2])
            self.fails_with("answers.jsonl, line 3: ")
            self.assertEqual(len(self.lines()), 4)
        self.assertEqual(len(os.listdir(self.folder)), 2)

    def test_files_in_other_encodings(self) -> None:
        for content, text in (("bkaagj\n".encode("utf-16"), "signatures.txt is in UTF-16"), (b"bkaagj\n\xff\n", "signatures.txt, line 2: byte 1")):
            with open(self.given, "wb") as file:
                file.write(content)
            self.fails_with(text)
        with open(self.given, "wb") as file:
            file.write(b"# one\r\nbkaagj\rcPcbbbiht\r")
        self.fails_with("signatures.txt, line 2: a carriage return without a line feed")
        with open(self.given, "wb") as file:
            file.write("\ufeffbkaagj\n".encode())
        self.assertIn("bkaagj", self.run_it())

    def test_other_commands(self) -> None:
        with contextlib.redirect_stderr(io.StringIO()):
            for command in set(NAMES) - {"surfaces"}:
                self.assertEqual(main(["census", self.given, "--command", command, "--jobs", "2"]), 0)
        self.assertEqual(self.answers(f"{self.given}.descend.jsonl")["sphere"]["answer"],
                         {"reached": True, "moves": [], "table": "tri 1\n0:1023 0:1023 0:1230 0:3012\n"})
        listed = self.answers(f"{self.given}.certify.jsonl")
        self.assertTrue(trinorm.check(listed["bkaagb"]["answer"]["table"], listed["bkaagb"]["answer"]["moves"]))
        self.assertIsNone(listed["figure-eight"]["answer"])
        listed = self.answers(f"{self.given}.describe.jsonl")
        self.assertEqual([it["euler"] for it in listed["sphere"]["answer"]], [0, 2])
        listed = self.answers(f"{self.given}.count.jsonl")
        self.assertEqual(listed["sphere"]["answer"], {"surfaces": 2, "euler": {"2": 1, "0": 1}, "linking": 1, "greatest": 1})


class Ends(Folder):
    """A census as a process of its own, which is ended from outside."""

    def start(self, program: str) -> "subprocess.Popen[bytes]":
        self.put(self.given, "bkaagj one\nbkaagj two\nbkaagj three\n")
        around = dict(os.environ, PYTHONPATH=str(REPOSITORY / "python"), TRINORM=program)
        words = [sys.executable, "-m", "trinorm", "census", self.given, "--jobs", "2", "--out", self.out]
        return subprocess.Popen(words, env=around, stderr=subprocess.PIPE, start_new_session=True)

    def waiting(self) -> str:
        """A program that tells its process, and then takes long."""
        return script(self.folder, f"echo $$ >>{self.folder}/processes\nexec sleep 100\n")

    def processes(self) -> List[int]:
        with contextlib.suppress(FileNotFoundError):
            return [int(it) for it in self.lines(os.path.join(self.folder, "processes"))]
        return []

    def until(self, is_so: Callable[[], bool]) -> None:
        end = time.monotonic() + 120
        while not is_so():
            self.assertLess(time.monotonic(), end)
            time.sleep(0.02)

    def test_what_runs_is_ended_too(self) -> None:
        for number, status in ((signal.SIGTERM, 143), (signal.SIGINT, 130), (signal.SIGKILL, -9)):
            with self.subTest(number), self.start(self.waiting()) as run:
                self.until(lambda: len(self.processes()) == 2)
                run.send_signal(number)
                self.assertEqual(run.wait(120), status)
                self.until(lambda: not any(map(is_running, self.processes())))
                self.assertEqual(self.lines(), [])
            os.unlink(os.path.join(self.folder, "processes"))

    def test_killed_in_the_middle_of_a_line(self) -> None:
        with self.start(trinorm.find()) as run:
            run.wait(60)
        whole = self.lines()
        self.put(self.out, whole[0] + whole[1][:-3])
        with self.start(trinorm.find()) as run:
            self.assertIn(b"1 done before; 2 answered", run.communicate(timeout=60)[1])
        self.assertEqual(set(self.answers()), {"one", "two", "three"})

    def test_a_second_one_is_told(self) -> None:
        with self.start(self.waiting()) as run:
            self.until(lambda: len(self.processes()) == 2)
            with self.start(trinorm.find()) as other:
                self.assertIn(b"another run is writing to", other.communicate(timeout=60)[1])
                self.assertEqual(other.returncode, 3)
            run.terminate()

    def test_a_worker_that_can_not_start(self) -> None:
        self.put(self.given, "bkaagj\n")
        with unittest.mock.patch("sys.executable", "/bin/false"), contextlib.redirect_stderr(io.StringIO()) as said, \
                self.assertRaisesRegex(Failed, "could not be started: status 1"), by_processes(1) as engine:
            run_census(self.given, self.out, Task("sig", program="/bin/true"), engine)
        self.assertIn("stopped: 0 answered", said.getvalue())


if __name__ == "__main__":
    unittest.main()

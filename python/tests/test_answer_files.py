"""The output of a census: what is replaced, what is only written to, and that one run at a time has it."""
import io
import os
import stat
import tempfile
import threading
import unittest
import unittest.mock
from typing import Callable, List

from trinorm import answer_files
from trinorm.answer_files import BadLine, Output, count_lines, digests, read_blocks


class Lines(unittest.TestCase):
    def read(self, content: bytes) -> List[bytes]:
        """The lines of a content, which are the same however many are read at a time."""
        several, alone = ([line for block in read_blocks(io.BytesIO(content), "file", are_alone) for line in block] for are_alone in (False, True))
        with unittest.mock.patch.object(answer_files, "BLOCK", 2):
            few = [line for block in read_blocks(io.BytesIO(content), "file") for line in block]
        self.assertEqual((several, few), (alone, alone))
        return alone

    def test_lines_keep_their_ends(self) -> None:
        self.assertEqual(self.read(b"one\r\ntwo\n\nthree"), [b"one\r\n", b"two\n", b"\n", b"three"])

    def test_byte_order_mark(self) -> None:
        self.assertEqual(self.read("\ufeffone\n".encode()), [b"one\n"])

    def test_other_encodings(self) -> None:
        with self.assertRaisesRegex(ValueError, "file is in UTF-16"):
            self.read("one\n".encode("utf-16"))
        for content in (b"one\nab\xff\n", b"one\nab\xff"):
            with self.assertRaisesRegex(BadLine, "file, line 2: byte 3 is not UTF-8") as caught:
                count_lines(io.BytesIO(content), "file")
            self.assertEqual((caught.exception.number, caught.exception.text), (2, "ab\\xff"))
        self.assertEqual(count_lines(io.BytesIO(b"one\nab\xff"), "file", accept_bad=True), 2)

    def test_faults_have_the_numbers_of_lines(self) -> None:
        content = b"one\n" * 1000 + "tw\xe4\n".encode() * 1000 + b"thr\xff\n"
        for size in (1, 100, 1 << 18):
            with unittest.mock.patch.object(answer_files, "BLOCK", size):
                with self.assertRaisesRegex(BadLine, "file, line 2001: byte 4 is not UTF-8"):
                    count_lines(io.BytesIO(content), "file")
                self.assertEqual(count_lines(io.BytesIO(content), "file", accept_bad=True), 2001)

    def test_digests_differ(self) -> None:
        """By Python's hash, and where that isn't good enough by a sum."""
        for is_keyed in (answer_files.IS_KEYED, False):
            with unittest.mock.patch.object(answer_files, "IS_KEYED", is_keyed):
                them = [str(number).encode() for number in range(10000)]
                self.assertEqual(len(set(digests(them))), 10000)
                self.assertEqual(digests(them), digests(iter(them)))
                self.assertEqual(digests([]), [])


class Files(unittest.TestCase):
    def setUp(self) -> None:
        folder = tempfile.TemporaryDirectory()
        self.addCleanup(folder.cleanup)
        self.folder = folder.name
        self.out = os.path.join(folder.name, "out")

    def content(self, path: str) -> str:
        with open(path, encoding="utf8") as file:
            return file.read()

    def put(self, path: str, content: str) -> None:
        with open(path, "w", encoding="utf8") as file:
            file.write(content)

    def write(self, path: str, is_kept: Callable[[int, bytes], bool] = lambda number, line: True) -> None:
        def kept(first: int, lines: List[bytes]) -> List[bytes]:
            return [line for number, line in enumerate(lines, first) if is_kept(number, line)]
        with Output(path) as output:
            output.keep(kept)
            output.write("new\n")

    def test_a_file_is_made_and_gone_on_with(self) -> None:
        self.write(self.out)
        self.write(self.out)
        self.assertEqual(self.content(self.out), "new\nnew\n")

    def test_a_line_that_was_cut_goes(self) -> None:
        self.put(self.out, "one\ntwo\nthr")
        self.write(self.out)
        self.assertEqual(self.content(self.out), "one\ntwo\nnew\n")

    def test_lines_are_dropped_and_rights_stay(self) -> None:
        self.put(self.out, "one\ntwo\nthree\n")
        os.chmod(self.out, 0o640)
        self.write(self.out, lambda number, line: line != b"two\n")
        self.assertEqual(self.content(self.out), "one\nthree\nnew\n")
        self.assertEqual(stat.S_IMODE(os.stat(self.out).st_mode), 0o640)
        self.assertEqual(os.listdir(self.folder), ["out"])

    def test_many_blocks(self) -> None:
        """Numbers go on from block to block, and a line that is dropped or cut in one of them is dropped or cut."""
        lines = [f"{number}\n" for number in range(1, 2001)]
        for size in (1, 50, 1 << 18):
            with unittest.mock.patch.object(answer_files, "BLOCK", size):
                self.put(self.out, "".join(lines) + "cut")
                self.write(self.out, lambda number, line: number == int(line))
                self.assertEqual(self.content(self.out), "".join(lines) + "new\n")
                self.put(self.out, "".join(lines) + "cut")
                self.write(self.out, lambda number, line: number != 1234)
                self.assertEqual(self.content(self.out), "".join(lines[:1233] + lines[1234:]) + "new\n")

    def test_a_file_is_replaced_only_if_a_line_is_dropped(self) -> None:
        self.put(self.out, "one\ntwo\nthr")
        before = os.stat(self.out).st_ino
        self.write(self.out)
        self.assertEqual((self.content(self.out), os.stat(self.out).st_ino), ("one\ntwo\nnew\n", before))
        self.write(self.out, lambda number, line: number != 1)
        self.assertEqual(self.content(self.out), "two\nnew\nnew\n")

    def test_a_fault_leaves_the_file(self) -> None:
        def fails(_number: int, line: bytes) -> bool:
            raise ValueError(line)
        self.put(self.out, "one\ntwo")
        with self.assertRaises(ValueError):
            self.write(self.out, fails)
        self.assertEqual((self.content(self.out), os.listdir(self.folder)), ("one\ntwo", ["out"]))

    def test_a_link_leads_to_its_target(self) -> None:
        link = os.path.join(self.folder, "link")
        os.symlink("out", link)
        self.write(link)
        self.put(self.out, "one\ntw")
        self.write(link)
        self.assertTrue(os.path.islink(link))
        self.assertEqual(self.content(self.out), "one\nnew\n")

    def device(self, name: str, number: int) -> str:
        """A device of Linux, made in the folder by the superuser, who could replace the system's if it were taken for a file."""
        path = os.path.join(self.folder, name)
        try:
            os.mknod(path, 0o666 | stat.S_IFCHR, os.makedev(1, number))
            os.close(os.open(path, os.O_WRONLY))
        except PermissionError:  # also in a folder without devices
            return f"/dev/{name}"
        return path

    def test_a_device_is_only_written_to(self) -> None:
        null, full = self.device("null", 3), self.device("full", 7)
        self.write(null)
        self.assertTrue(stat.S_ISCHR(os.stat(null).st_mode))
        with self.assertRaises(OSError):
            self.write(full)
        self.assertTrue(stat.S_ISCHR(os.stat(full).st_mode))

    def test_a_pipe_is_only_written_to(self) -> None:
        os.mkfifo(self.out)
        came = []
        reader = threading.Thread(target=lambda: came.append(self.content(self.out)))
        reader.start()
        self.write(self.out)
        reader.join(60)
        self.assertEqual(came, ["new\n"])
        self.assertTrue(stat.S_ISFIFO(os.stat(self.out).st_mode))

    def test_a_second_run_is_told(self) -> None:
        self.put(self.out, "one\ntwo")
        with Output(self.out) as output:
            output.keep(lambda number, lines: lines)
            output.write("new\n")
            with self.assertRaisesRegex(ValueError, "another run is writing to"):
                Output(self.out)
        self.write(self.out)
        self.assertEqual(self.content(self.out), "one\nnew\nnew\n")


if __name__ == "__main__":
    unittest.main()

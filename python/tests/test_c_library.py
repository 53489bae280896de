"""The files of library/ over an archive that stands in the place of the proved one: memory, limits, and what is linked."""
import ctypes
import os
import re
import shutil
import subprocess
import sys
import tempfile
import threading
import unittest
from pathlib import Path
from typing import ClassVar, List, Optional, Sequence, Tuple

from trinorm.program import REPOSITORY

sys.path.insert(0, str(REPOSITORY / "tools"))

import library  # noqa: E402
from prove import Kit  # noqa: E402
from repository import version  # noqa: E402

SOURCES = REPOSITORY / "library"
MAIN = """
#include "trinorm.h"
#include <stdio.h>
int main(void) {
    uint8_t room[64];
    size_t needed;
    uint8_t status = trinorm_run((const uint8_t *)"x", 1, (const uint8_t *)"20000", 5, room, sizeof room, &needed);
    printf("%d %zu %s\\n", status, needed, trinorm_version());
    return 0;
}
"""

# a program that calls the archive without the library's own calls, so with malloc's blocks alone
DIRECT = """
#include "trinorm.h"
#include <stdio.h>
int main(void) {
    uint8_t room[64];
    size_t needed;
    uint8_t status = trinorm_answer((const uint8_t *)"x", 1, (const uint8_t *)"20000", 5, room, sizeof room, &needed);
    printf("%d %zu\\n", status, needed);
    return 0;
}
"""

STOP = ctypes.CFUNCTYPE(ctypes.c_int, ctypes.c_void_p)


class Limits(ctypes.Structure):
    _fields_ = [("most_bytes", ctypes.c_uint64), ("most_nanoseconds", ctypes.c_uint64), ("stop", STOP),
                ("stop_argument", ctypes.c_void_p), ("reached", ctypes.c_uint8)]


@unittest.skipUnless(shutil.which("cc") and shutil.which("ar") and shutil.which("rt"), "cc, ar or rt isn't there")
class Linked(unittest.TestCase):
    folder: ClassVar[Path]
    made: ClassVar[ctypes.CDLL]

    @classmethod
    def setUpClass(cls) -> None:
        folder = tempfile.TemporaryDirectory()
        cls.addClassCleanup(folder.cleanup)
        cls.folder = Path(folder.name)
        subprocess.run(["cc", "-O1", "-fPIC", "-Wall", "-Wextra", "-Werror", "-c", SOURCES / "tests" / "requests.c", "-o", "requests.o"], cwd=cls.folder, check=True)
        subprocess.run(["ar", "rcs", "archive.a", "requests.o"], cwd=cls.folder, check=True)
        library.build_library(Kit(shutil.which("rt") or ""), str(cls.folder / "archive.a"), str(cls.folder / "made"))
        cls.made = ctypes.CDLL(str(cls.folder / "made" / "libtrinorm.so.1"))

    def answer(self, rounds: int, limits: Optional[Limits] = None) -> Tuple[int, int]:
        room, needed, text = ctypes.create_string_buffer(64), ctypes.c_size_t(), str(rounds).encode()
        status = self.made.trinorm_run_within(ctypes.byref(limits) if limits else None, b"x", ctypes.c_size_t(1), text, ctypes.c_size_t(len(text)), room,
                                              ctypes.c_size_t(64), ctypes.byref(needed))
        return status, needed.value

    def test_blocks_are_whole_and_aligned(self) -> None:
        for rounds in (0, 1, 100, 100_000):
            self.assertEqual(self.answer(rounds), (0, 0), rounds)

    def test_threads(self) -> None:
        found = []
        threads = [threading.Thread(target=lambda: found.append(self.answer(30_000))) for _ in range(8)]
        for thread in threads:
            thread.start()
        for thread in threads:
            thread.join()
        self.assertEqual(found, [(0, 0)] * 8)

    def test_a_limit_of_memory(self) -> None:
        for most, wanted in ((1, (8, 0)), (100_000, (8, 0)), (1 << 30, (0, 0))):
            limits = Limits(most_bytes=most)
            self.assertEqual((self.answer(20_000, limits), limits.reached), (wanted, 1 if wanted[0] else 0), most)

    def test_a_limit_of_time_and_a_stop(self) -> None:
        limits = Limits(most_nanoseconds=1)
        self.assertEqual((self.answer(1_000_000_000, limits), limits.reached), ((8, 0), 2))
        limits = Limits(stop=STOP(lambda _: 1))
        self.assertEqual((self.answer(1_000_000_000, limits), limits.reached), ((8, 0), 3))

    def test_version(self) -> None:
        self.made.trinorm_version.restype = ctypes.c_char_p
        self.assertEqual(self.made.trinorm_version().decode(), version(REPOSITORY))

    @unittest.skipUnless(shutil.which("readelf"), "readelf isn't there")
    def test_names(self) -> None:
        """The library has a name with the number of its calls, the server asks for that name, and only calls are exported."""
        def said(*words: str) -> str:
            return subprocess.run(["readelf", "-W", *words], capture_output=True, text=True, check=True, env=dict(os.environ, LC_ALL="C")).stdout

        made = self.folder / "made"
        self.assertIn("soname: [libtrinorm.so.1]", said("-d", str(made / "libtrinorm.so.1")))
        self.assertIn("Shared library: [libtrinorm.so.1]", said("-d", str(made / "trinorm-server")))
        self.assertEqual(os.readlink(made / "libtrinorm.so"), "libtrinorm.so.1")
        rows = [line.split() for line in said("--dyn-syms", str(made / "libtrinorm.so.1")).splitlines()]
        exported = sorted(row[7] for row in rows if len(row) > 7 and row[6] not in ("UND", "Ndx") and row[4] in ("GLOBAL", "WEAK"))
        declared = re.findall(r"\b(trinorm_\w+)\(", re.sub(r"/\*.*?\*/", "", (SOURCES / "trinorm.h").read_text("utf8"), flags=re.S))
        self.assertEqual(exported, sorted([*declared, "trinorm_python_raises", "trinorm_python_stops"]))

    def run_program(self, *flags: str, before: Sequence[str] = (), main: str = MAIN) -> Tuple[int, str]:
        (self.folder / "main.c").write_text(main)
        files = [*(str(SOURCES / name) for name in ("limits.c", "memory.c", "tests/requests.c")), "main.c"]
        subprocess.run(["cc", "-g", "-O1", "-Wall", "-Wextra", "-Werror", "-I", SOURCES, *flags, *files, "-o", "program"], cwd=self.folder, check=True)
        done = subprocess.run([*before, "./program"], cwd=self.folder, stdout=subprocess.PIPE, text=True, check=False)
        return done.returncode, done.stdout

    def test_each_block_is_malloc_s(self) -> None:
        self.assertEqual(self.run_program("-DSMALL=0"), (0, "0 0 unknown\n"))

    @unittest.skipUnless(shutil.which("valgrind"), "valgrind isn't there")
    def test_nothing_is_lost(self) -> None:
        check = ["valgrind", "--quiet", "--leak-check=full", "--show-leak-kinds=all", "--error-exitcode=9"]
        several: Tuple[List[str], ...] = ([], ["-DSMALL=0"])
        for flags in several:
            self.assertEqual(self.run_program(*flags, before=check), (0, "0 0 unknown\n"))

    @unittest.skipUnless(shutil.which("valgrind"), "valgrind isn't there")
    def test_outside_a_call_no_block_is_read_beyond_its_end(self) -> None:
        check = ["valgrind", "--quiet", "--leak-check=full", "--error-exitcode=9"]
        self.assertEqual(self.run_program(before=check, main=DIRECT), (0, "0 0\n"))


if __name__ == "__main__":
    unittest.main()

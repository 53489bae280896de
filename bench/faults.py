#!/usr/bin/env python3
"""Lets each allocation, each read and each write of the built program fail in turn, command by command.

    bench/faults.py [--command NAME] [--program PROGRAM]

Each command runs on the input of its first stored example that it answers, and on those of ROWS. Then it runs again with its
first allocation refused, its second, and so on until a run ends before; the same with each read and each write, of which the
program gets and puts only a few bytes at a time. Checked: where memory is refused, the answer is the ordinary one, or the status
is 8 and nothing was written; where a read fails, the status is 6 and the line is `refused: read`; where a write fails, the status
is 7 and a prefix of the answer was written; a command without input never reads. Prints for each command how many allocations,
reads and writes there were.

The faults come from a small library that is put before the C library, so a C compiler (`cc`) is needed.
"""
import argparse
import os
import subprocess
import sys
import tempfile
from typing import Callable, Dict, Iterator, List, Tuple

import common  # noqa: F401  (with the path of the package)
from trinorm import find
from trinorm.options import COMMANDS
from trinorm.selfcheck import Row, read_rows

# a status, and what was written
End = Tuple[int, bytes]

LIBRARY = r"""
#define _GNU_SOURCE
#include <dlfcn.h>
#include <errno.h>
#include <stdlib.h>
#include <unistd.h>
#include <fcntl.h>
#include <stdio.h>

static long allocations, reads, writes;

static long wanted(const char *name) {
  const char *value = getenv(name);
  return value ? atol(value) : 0;
}

static int fails(const char *name, long *count) {
  *count += 1;
  return *count == wanted(name);
}

void *malloc(size_t size) {
  static void *(*next)(size_t);
  if (!next) next = dlsym(RTLD_NEXT, "malloc");
  return fails("FAIL_ALLOCATION", &allocations) ? (errno = ENOMEM, (void *)0) : next(size);
}

void *realloc(void *old, size_t size) {
  static void *(*next)(void *, size_t);
  if (!next) next = dlsym(RTLD_NEXT, "realloc");
  return fails("FAIL_ALLOCATION", &allocations) ? (errno = ENOMEM, (void *)0) : next(old, size);
}

static size_t few(size_t size) {
  size_t most = wanted("MOST_BYTES");
  return most && size > most ? most : size;
}

ssize_t read(int file, void *bytes, size_t size) {
  static ssize_t (*next)(int, void *, size_t);
  if (!next) next = dlsym(RTLD_NEXT, "read");
  if (file) return next(file, bytes, size);
  return fails("FAIL_READ", &reads) ? (errno = EIO, -1) : next(file, bytes, few(size));
}

ssize_t write(int file, const void *bytes, size_t size) {
  static ssize_t (*next)(int, const void *, size_t);
  if (!next) next = dlsym(RTLD_NEXT, "write");
  if (file != 1) return next(file, bytes, size);
  return fails("FAIL_WRITE", &writes) ? (errno = EIO, -1) : next(file, bytes, few(size));
}

__attribute__((destructor)) static void tell(void) {
  const char *name = getenv("COUNTS");
  if (!name) return;
  int file = open(name, O_WRONLY | O_CREAT | O_TRUNC, 0600);
  char line[80];
  int size = snprintf(line, sizeof line, "%ld %ld %ld\n", allocations, reads, writes);
  static ssize_t (*next)(int, const void *, size_t);
  next = dlsym(RTLD_NEXT, "write");
  if (file >= 0 && next(file, line, size) == size) close(file);
}
"""

SPHERE = "tri 1\n0:1023 0:1023 0:1230 0:3012\n"
SUM = SPHERE + "vec 3 3 1 1 2 0 0\ntimes 1 2\nterm 2 1 1 0 0 1 0 0\nterm 1 1 1 1 1 0 0 0\n"
# more inputs of some commands
ROWS = [
    (["surfaces"], SPHERE),
    (["surfaces", "--coords", "octagon", "--order", "zeros"], "sig cPcbbbiht\n"),
    (["rays"], "cone 3 2\n1 -2 0\n0 1 -2\n"),
    (["info"], "sig cPcbbbiht\n"),
    (["csig"], "tri 2\n- - - -\n1:1023 1:1023 1:1230 1:3012\n"),
    (["cover"], "sig bkaaid\n"),
    (["describe"], "sig bkaajj\nvec 0 0 0 0 0 1 0\nvec 1 1 1 1 0 0 0\n"),
    (["crush"], "tri 2\n1:0123 1:0123 - -\n0:0123 0:0123 - -\nvec 1 1 0 0 0 0 0 0 0 0 0 1 0 0\n"),
    (["decompose"], "sig bkaagj\nvec 3 3 1 1 2 0 0\n"),
    (["addup"], SUM),
    (["play"], SPHERE + "14 0\nundo\nredo\n23 0 0\n"),
    (["check"], SPHERE + "14 0\n41 0 3\n"),
    (["descend"], "tri 4\n1:0123 2:1023 3:1203 1:0123\n0:0123 2:0123 3:0213 0:0123\n0:1023 1:0123 3:0123 3:1203\n0:2013 1:0213 2:0123 2:2013\n"),
    (["bulk", "--seed", "0", "--moves", "1"], ""),
    (["info"], "tri 1\n0:1023 - - -\n"),
]


def first_rows() -> Iterator[Tuple[List[str], str]]:
    """For each command the words and the input of the first stored example with an answer."""
    answered = [row for row in read_rows() if row.status == 0]
    first: Dict[str, Row] = {row.words[0]: row for row in reversed(answered)}
    return ((list(first[name].words), first[name].input.decode("ascii")) for name in COMMANDS)


class Runner:
    """Runs the program with one fault."""

    def __init__(self, program: str, folder: str) -> None:
        self.program = program
        self.counts = os.path.join(folder, "counts")
        self.library = os.path.join(folder, "faults.so")
        source = os.path.join(folder, "faults.c")
        with open(source, "w", encoding="utf8") as file:
            file.write(LIBRARY)
        subprocess.run(["cc", "-shared", "-fPIC", "-O1", "-o", self.library, source, "-ldl"], check=True)

    def run(self, words: List[str], text: str, **faults: int) -> Tuple[int, bytes, List[int]]:
        """The status, the answer, and how many allocations, reads and writes there were."""
        around = dict(os.environ, LD_PRELOAD=self.library, COUNTS=self.counts, **{name: str(value) for name, value in faults.items()})
        done = subprocess.run([self.program, *words], input=text.encode(), stdout=subprocess.PIPE, env=around, timeout=60, check=False)
        with open(self.counts, encoding="utf8") as file:
            return done.returncode, done.stdout, [int(n) for n in file.read().split()]


def refused_memory(runner: Runner, words: List[str], text: str, ordinary: End, count: int) -> None:
    for call in range(1, count + 1):
        got = runner.run(words, text, FAIL_ALLOCATION=call)[:2]
        if got not in (ordinary, (8, b"")):
            raise SystemExit(f"{words}: allocation {call} refused: {got}")


def is_told(got: int, said: bytes) -> bool:
    """Whether a failed read is told."""
    return (got, said) == (6, b"refused: read\n")


def failing_calls(run: Callable[[int], Tuple[int, bytes, List[int]]], kind: int, ordinary: End, is_right: Callable[[int, bytes], bool]) -> int:
    """How many calls of a kind a run makes; where one fails, the end is right, and where none does, the ordinary one."""
    call = 0
    while True:
        call += 1
        got, said, counts = run(call)
        failed = counts[kind] >= call
        if not (is_right(got, said) if failed else (got, said) == ordinary):
            raise SystemExit(f"call {call} of kind {kind}: {got} {said!r}")
        if not failed:
            return call - 1


def main() -> None:
    parser = argparse.ArgumentParser()
    parser.add_argument("--command")
    parser.add_argument("--program")
    given = parser.parse_args()
    with tempfile.TemporaryDirectory() as folder:
        runner = Runner(find(given.program), folder)
        for words, text in [*first_rows(), *ROWS]:
            if given.command not in (None, words[0]):
                continue
            status, answer, (allocations, _, _) = runner.run(words, text)
            refused_memory(runner, words, text, (status, answer), allocations)
            reads = failing_calls(lambda call: runner.run(words, text, FAIL_READ=call, MOST_BYTES=7), 1, (status, answer), is_told)
            if COMMANDS[words[0]].reads == "none" and reads:
                raise SystemExit(f"{words}: {reads} reads")
            writes = failing_calls(
                lambda call: runner.run(words, text, FAIL_WRITE=call, MOST_BYTES=5), 2, (status, answer),
                lambda got, said: got == 7 and said == answer[:len(said)] and len(said) < len(answer),
            )
            print(f"{' '.join(words):48} status {status}: {allocations:5} allocations, {reads:3} reads, {writes:3} writes")
            sys.stdout.flush()
    print("each refused allocation, failed read and failed write was answered as it should be")


if __name__ == "__main__":
    main()

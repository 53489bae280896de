#!/usr/bin/env python3
"""Runs the built program on many mutated inputs, and checks what needs no second program.

    bench/hostile.py [--inputs N] [--seed S] [--processes P] [--program PROGRAM]

Each input is that of a stored example of the package with some bytes changed, dropped or doubled, numbers made wide, words or
lines exchanged. Checked of each run: the status is one of those told; a refusal is one line of the grammar of refusals and
nothing else; what was answered is read again as itself (its form is written here once more, as a second opinion beside the
package's, or compared with stored answers); the program ends within a time and a size. Prints the first that fails,
with its words and input, and ends with inputs, statuses and seconds.
"""
import argparse
import collections
import functools
import itertools
import multiprocessing
import random
import re
import resource
import subprocess
import time
from typing import Callable, Counter, DefaultDict, Dict, List, Optional, Sequence, Set, Tuple

import common  # noqa: F401  (with the path of the package)
from trinorm import find
from trinorm.selfcheck import read_rows

Words = List[str]
# words with an input
Inputs = List[Tuple[Words, str]]

SECONDS = 30
BYTES = 2 << 30
# longer inputs are those of limits
LONGEST = 4000

FAULT = r"(no-such-tet|boundary \d|repeated \d|not-matched \d \d|too-many)"
RAY = r"\d+( \d+)*"
REFUSALS = {
    2: r"usage",
    3: r"input (too-long|\d+ \d+ (bad-byte|missing-word|too-wide|extra-word|bad-word))"
    r"|table (too-many|(no-such-tet|self-glued|not-mutual) \d+ [0-3])"
    r"|signature (too-many|unreached|(bad-char|short|bad-type|leftover|destination|gluing|face-taken|trailing|width) \d+)",
    4: r"not-connected \d+ \d+|invalid-edge \d+|vector \d+ (length \d+|fails \d+|clash \d+ \d+|too-many-pieces \d+|no-lift \d+)"
    rf"|check (illegal \d+ {FAULT}|not-standard \S+)|cover too-many"
    r"|vector \d+ (term \d+ (length \d+|fails \d+|clash \d+ \d+)|zero-times|not-equal \d+)",
    5: rf"large step \d+ row \d+ (value {RAY}|pair {RAY} and {RAY})"
    r"|vector \d+ (large \d+|large-sum (points|arcs|points-and-pieces)|large-lift|large-times \d+ \d+|large-equation \d+|term \d+ large \d+)",
    6: r"read",
}


class Wrong(Exception):
    """What was wrong with a run."""


def run(program: str, words: Words, text: bytes) -> Tuple[int, bytes]:
    try:
        done = subprocess.run([program] + words, input=text, stdout=subprocess.PIPE, stderr=subprocess.PIPE, timeout=SECONDS, check=False)
    except subprocess.TimeoutExpired as late:
        raise Wrong(f"no answer in {SECONDS} s") from late
    if done.stderr:
        raise Wrong(f"standard error: {done.stderr[:200]!r}")
    return done.returncode, done.stdout


def refusal(status: int, answer: bytes) -> None:
    if status == 8:
        if answer:
            raise Wrong("no memory, and something was written")
    elif status not in REFUSALS:
        raise Wrong(f"status {status}")
    elif not re.fullmatch(rf"refused: ({REFUSALS[status]})\n", answer.decode("latin-1")):
        raise Wrong(f"status {status} with {answer[:200]!r}")


def again(program: str, words: Words, text: bytes, wanted: Optional[bytes], what: str) -> None:
    status, answer = run(program, words, text)
    if status != 0 or (wanted is not None and answer != wanted):
        raise Wrong(f"{what}: {' '.join(words)} on {text[:300]!r} has status {status} and answers {answer[:300]!r}")


def option(words: Words, name: str) -> Optional[str]:
    for place, word in enumerate(words):
        if word == f"--{name}":
            return words[place + 1]
        if word.startswith(f"--{name}="):
            return word.partition("=")[2]
    return None


def table_text(program: str, table: bytes) -> None:
    """A table that was written is read as itself: a script without steps writes it once more."""
    again(program, ["play"], table, table, "a table that was written")


def lines_of(text: bytes) -> bytes:
    """The text of a document, with the end of its last line."""
    return text if text.endswith(b"\n") else text + b"\n"


def lists(program: str, words: Words, text: bytes, answer: bytes) -> None:
    lines = answer.split(b"\n")[:-1]
    vectors = [tuple(map(int, line.split()[1:])) for line in lines[1:]]
    if lines[0] != b"# %s %d" % (words[0].encode(), len(vectors)) or any(not line.startswith(b"vec") for line in lines[1:]):
        raise Wrong(f"a list that is none: {answer[:200]!r}")
    if any(one >= other for one, other in zip(vectors, vectors[1:])):
        raise Wrong("a list that doesn't ascend")
    if words[0] == "surfaces":
        coords = option(words, "coords") or "standard"
        document = lines_of(text) + answer
        if len(document) <= 1048576:
            again(program, ["verify", "--coords", coords], document, b"solution\n" * len(vectors), "a list behind its table")


def signed(program: str, words: Words, text: bytes, answer: bytes) -> None:
    again(program, ["sig"], b"sig " + answer, answer, "a signature")


def compared(program: str, words: Words, text: bytes, answer: bytes) -> None:
    if answer != b"different\n" and not re.fullmatch(rb"same\n(\d+ \d+ [0-3]{4}\n)*", answer):
        raise Wrong(f"no comparison: {answer[:200]!r}")


def grouped(program: str, words: Words, text: bytes, answer: bytes) -> None:
    for signature in re.findall(rb"^class \d+ (\S+)$", answer, re.M):
        again(program, ["sig"], b"sig " + signature + b"\n", signature + b"\n", "a class's signature")


def played(program: str, words: Words, text: bytes, answer: bytes) -> None:
    match = re.fullmatch(rb"(?:(?:done|undone|redone|nothing|illegal %s)\n)*(tri \d+\n(?s:.*))" % FAULT.encode(), answer)
    if not match:
        raise Wrong(f"no answer to a script: {answer[:200]!r}")
    table_text(program, match[2])


class Form:
    """What stored answers of a command look like: the words at each place of their lines, and the order of the lines' first words."""

    def __init__(self, answers: Sequence[bytes]) -> None:
        self.words: DefaultDict[Tuple[bytes, int, int], Set[bytes]] = collections.defaultdict(set)
        for words in (line.split(b" ") for answer in answers for line in answer.split(b"\n")[:-1]):
            for at, word in enumerate(words):
                self.words[words[0], len(words), at].add(without_numbers(word))
        self.orders = {first_words(answer) for answer in answers}

    def has(self, answer: bytes) -> bool:
        """Whether each word of an answer is known at its place, and the first words of its lines are in a known order, some left out."""
        lines = [line.split(b" ") for line in answer.split(b"\n")[:-1]]
        known = all(without_numbers(word) in self.words.get((words[0], len(words), at), ()) for words in lines for at, word in enumerate(words))
        return known and answer[-1:] in (b"", b"\n") and any(is_part(first_words(answer), order) for order in self.orders)


def without_numbers(word: bytes) -> bytes:
    return re.sub(rb"-?\d+", b"0", word)


def first_words(answer: bytes) -> Tuple[bytes, ...]:
    """The first words of the lines, one for lines with the same that follow each other."""
    return tuple(word for word, _ in itertools.groupby(line.split(b" ")[0] for line in answer.split(b"\n")[:-1]))


def is_part(words: Sequence[bytes], order: Sequence[bytes]) -> bool:
    """Whether words are in this order, with or without others between them."""
    left = iter(order)
    return all(word in left for word in words)


@functools.lru_cache(maxsize=None)
def form_of(name: str) -> Form:
    """The form of a command's stored answers."""
    return Form([row.output for row in read_rows() if row.words[:1] == (name,) and row.status == 0])


def formed(program: str, words: Words, text: bytes, answer: bytes) -> None:
    """An answer of a command that has no check of its own."""
    if not form_of(words[0]).has(answer):
        raise Wrong(f"an answer unlike the stored ones: {answer[:200]!r}")


def judged(program: str, words: Words, text: bytes, answer: bytes) -> None:
    if not re.fullmatch(rb"(?:(?:solution|(?:length|large|fails) \d+|clash \d+ \d+)\n)*", answer):
        raise Wrong(f"no verdicts: {answer[:200]!r}")


def written_table(program: str, words: Words, text: bytes, answer: bytes) -> None:
    table_text(program, answer)


def certified(program: str, words: Words, text: bytes, answer: bytes) -> None:
    again(program, ["check"], answer, b"accepted\n", "a certificate")


def descended(program: str, words: Words, text: bytes, answer: bytes) -> None:
    """The moves that were told lead to the table that was told."""
    match = re.fullmatch(rb"(?:reached|stuck) (\d+)\n((?:(?:41|32) \d+ \d+\n)*)(tri (?s:.*))", answer)
    if not match or int(match[1]) != match[2].count(b"\n"):
        raise Wrong(f"no descent: {answer[:200]!r}")
    again(program, ["play"], lines_of(text) + match[2], b"done\n" * int(match[1]) + match[3], "moves of a descent")


def lifted(program: str, words: Words, text: bytes, answer: bytes) -> None:
    """Each lift is a solution on its table."""
    if not re.fullmatch(rb"(?:vec(?: \d+)*\n)*", answer):
        raise Wrong(f"no lifts: {answer[:200]!r}")
    table = lines_of(re.split(rb"(?m)^[ \t]*vec(?=[ \t\r\n]|$)", text)[0])
    again(program, ["verify"], table + answer, b"solution\n" * answer.count(b"\n"), "lifts behind their table")


def signed_apart(program: str, words: Words, text: bytes, answer: bytes) -> None:
    if not re.fullmatch(rb"[A-Za-z0-9+.-]+\n", answer):
        raise Wrong(f"no component signature: {answer[:200]!r}")
    for signature in answer[:-1].split(b"."):
        again(program, ["sig"], b"sig " + signature + b"\n", signature + b"\n", "a part's signature")


def described(program: str, words: Words, text: bytes, answer: bytes) -> None:
    """Each vector is told, and its components, which add up to it."""
    vector = rb"vec((?: \d+)*)\neuler (-?\d+) linking (?:yes|no) boundary (?:yes|no) components (\d+)\n"
    component = rb"component euler (-?\d+) sides (?:one|two) orientable (?:yes|no) vec((?: \d+)*)\n"
    if not re.fullmatch(rb"(?:%s(?:%s)*)*" % (vector, component), answer):
        raise Wrong(f"no description: {answer[:200]!r}")
    for found in re.finditer(rb"%s((?:%s)*)" % (vector, component), answer):
        parts = re.findall(component, found[4])
        sums = [sum(column) for column in zip(*(map(int, entries.split()) for _, entries in parts))]
        entries = list(map(int, found[1].split()))
        if len(parts) != int(found[3]) or (sums or [0] * len(entries)) != entries or sum(int(euler) for euler, _ in parts) != int(found[2]):
            raise Wrong(f"components that don't add up: {found[0][:200]!r}")


def presented(program: str, words: Words, text: bytes, answer: bytes) -> None:
    match = re.fullmatch(rb"generators (\d+)\n((?:generator \d+ face \d+ turns (?:yes|no)\n)*)"
                         rb"relators (\d+)\n((?:relator \d+(?: -?\d+)*\n)*)", answer)
    if not match or int(match[1]) != match[2].count(b"\n") or int(match[3]) != match[4].count(b"\n"):
        raise Wrong(f"no presentation: {answer[:200]!r}")


def accepted(program: str, words: Words, text: bytes, answer: bytes) -> None:
    if answer != b"accepted\n":
        raise Wrong(f"status 0 and not accepted: {answer[:200]!r}")


def summed_up(program: str, words: Words, text: bytes, answer: bytes) -> None:
    numbers = rb"seed \d+\nmoves \d+\ntetrahedra \d+\ncertificate accepted \d+\nsurfaces \d+\nlargest \d+\nlinking \d+\n"
    if not re.fullmatch(numbers, answer):
        raise Wrong(f"nothing summed up: {answer[:200]!r}")


def decomposed(program: str, words: Words, text: bytes, answer: bytes) -> None:
    coords = option(words, "coords") or "standard"
    again(program, ["addup", "--coords", coords], answer, b"accepted\n", "a sum")


def covered(program: str, words: Words, text: bytes, answer: bytes) -> None:
    again(program, ["csig"], answer, None, "a cover")


# the checks of commands whose answers can be read again, or have sums to compare; the others have `formed`
CHECKS: Dict[str, Callable[[str, Words, bytes, bytes], None]] = {
    "surfaces": lists, "rays": lists, "sig": signed, "same": compared, "group": grouped, "play": played,
    "verify": judged, "crush": written_table, "make": certified, "descend": descended, "lift": lifted, "decompose": decomposed,
    "cover": covered, "csame": compared, "csig": signed_apart, "describe": described, "pi1": presented, "check": accepted,
    "addup": accepted, "bulk": summed_up,
}


def stored_inputs() -> Inputs:
    """Words and input of each stored example that names a command, except long inputs."""
    return [(list(row.words), row.input.decode("latin-1")) for row in read_rows() if row.words and len(row.input) <= LONGEST]


def mutate(draw: random.Random, text: bytes) -> bytes:
    """One change of a text."""
    if not text:
        return bytes([draw.choice(b"tvs-#\n 0\xff")])
    at = draw.randrange(len(text))
    kind = draw.randrange(8)
    if kind == 0:
        return text[:at] + bytes([draw.choice(b"0123456789:- \n\r\t#abctrisgvecone\xff\x00")]) + text[at + 1:]
    if kind == 1:
        return text[:at] + text[at + draw.randrange(1, 4):]
    if kind == 2:
        return text[:at] + text[at:at + draw.randrange(1, 6)] + text[at:]
    if kind == 3:
        return re.sub(rb"\d+", lambda number: number[0] * draw.choice([1, 1, 1, 2, 45]), text)
    words = re.split(rb"(\s+)", text)
    if kind == 4 and len(words) > 4:
        one, other = draw.randrange(0, len(words), 2), draw.randrange(0, len(words), 2)
        words[one], words[other] = words[other], words[one]
        return b"".join(words)
    lines = text.split(b"\n")
    one, other = draw.randrange(len(lines)), draw.randrange(len(lines))
    if kind == 5:
        lines[one], lines[other] = lines[other], lines[one]
        return b"\n".join(lines)
    if kind == 6:
        return b"\n".join(lines[:one] + [lines[other]] + lines[one:])
    return text[:at]


def try_one(program: str, inputs: Inputs, seed: int, number: int) -> Tuple[Optional[int], Optional[str]]:
    """The status of one run; raises Wrong with words and input where something is wrong."""
    draw = random.Random(seed * 1000003 + number)
    words, chosen = draw.choice(inputs)
    text = chosen.encode("latin-1")
    other = draw.choice(inputs)[1].encode("latin-1")
    # a large table is left to the commands that it was written for: an enumeration of it doesn't end
    if draw.randrange(10) == 0 and b"sig -" not in other:
        text = other
    for _ in range(draw.choice([0, 0, 1, 1, 1, 2, 3])):
        text = mutate(draw, text)
    try:
        status, answer = run(program, words, text)
        if status == 0:
            CHECKS.get(words[0], formed)(program, words, text, answer)
        else:
            refusal(status, answer)
    except Wrong as wrong:
        return None, f"input {number}: {' '.join(words)} on {text[:1000]!r}: {wrong}"
    return status, None


def work(given: Tuple[str, Inputs, int, Sequence[int]]) -> Tuple[Counter[Optional[int]], Optional[str]]:
    program, inputs, seed, numbers = given
    resource.setrlimit(resource.RLIMIT_AS, (BYTES, BYTES))
    statuses: Counter[Optional[int]] = collections.Counter()
    for number in numbers:
        status, wrong = try_one(program, inputs, seed, number)
        if wrong:
            return statuses, wrong
        statuses[status] += 1
    return statuses, None


def main() -> int:
    reader = argparse.ArgumentParser(description=str(__doc__).split("\n")[0])
    reader.add_argument("--inputs", type=int, default=100000)
    reader.add_argument("--seed", type=int, default=1)
    reader.add_argument("--processes", type=int, help="at most so many at a time; one for each processor where it is left out")
    reader.add_argument("--program")
    given = reader.parse_args()
    program, inputs = find(given.program), stored_inputs()
    begun = time.time()
    shares = [range(first, min(first + 500, given.inputs)) for first in range(0, given.inputs, 500)]
    statuses: Counter[Optional[int]] = collections.Counter()
    with multiprocessing.Pool(given.processes) as pool:
        for counted, wrong in pool.imap(work, [(program, inputs, given.seed, share) for share in shares]):
            statuses += counted
            if wrong:
                print(wrong)
                pool.terminate()
                return 1
    counts = ", ".join(f"status {status}: {count}" for status, count in sorted(statuses.items()))
    print(f"{sum(statuses.values())} inputs, seed {given.seed}: {counts}; {time.time() - begun:.0f} s")
    return 0


if __name__ == "__main__":
    raise SystemExit(main())

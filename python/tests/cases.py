"""Questions of all commands, made at random, with the answers of the built program. No answer is stored."""
import random
import time
from typing import Callable, Dict, Iterable, Iterator, List, Tuple, TypeVar

from trinorm import selfcheck
from trinorm.options import OPTIONS, reading
from trinorm.program import REPOSITORY

# a triangulation alone is an input of these
OF_TABLES = [*reading("table"), *reading("steps"), *reading("moves")]
OF_VECTORS = {"standard": ["verify", "describe", "crush", "decompose"], "quad": ["verify", "lift", "decompose"],
              "octagon": ["verify", "describe", "decompose"]}
LIMITS = [1, 2, 3, 7, 2**63, 2**64, 2**127 - 1, 2**127, 0]
NUMBERS = [0, 1, 2**32, 2**63, 2**64 - 1, 2**127, 10**40]

# the status and the bytes of what a program prints, and what more it says
Answer = Callable[[List[str], str], Tuple[int, bytes, object]]
# the words of a command line, and an input
Question = Tuple[List[str], str]
Test = TypeVar("Test", bound=Callable[..., object])


class Cases:
    """Makes cases {words, input, output, status}, the same ones for one seed.

    answer: the status and the bytes of the program's answer to words and a text
    """

    def __init__(self, seed: int, answer: Answer) -> None:
        self.random = random.Random(seed)
        self.answer = answer
        bench = REPOSITORY / "bench"
        self.signatures = (bench / "census_signatures.txt").read_text("ascii").split()
        self.hostile = [(list(row.words), row.input.decode("latin-1")) for row in selfcheck.read_rows() if row.words and len(row.input) <= 4000]
        self.examples = [path.read_text("utf8") for path in sorted((REPOSITORY / "examples").glob("*.txt"))]

    def ask(self, words: List[str], text: str = "") -> str:
        """The text of an answer, or an empty one of a refusal."""
        status, output = self.answer(words, text)[:2]
        return output.decode("latin-1") if status == 0 else ""

    def case(self) -> Dict[str, object]:
        """One more case."""
        words, text = self.question()
        status, output = self.answer(words, text)[:2]
        return {"words": words, "input": text, "output": output.decode("latin-1"), "status": status}

    def question(self) -> Question:
        kinds = [(35, self.hostile_question), (25, self.table_question), (18, self.vector_question), (8, self.cone_question),
                 (5, self.sphere_question), (5, self.two_tables_question), (4, self.sum_question), (3, self.changed_example)]
        [make] = self.random.choices([make for _, make in kinds], [weight for weight, _ in kinds])
        return make()

    def options(self, command: str) -> List[str]:
        """A command with options, which may exceed their limits."""
        words = [command]
        if "coords" in OPTIONS[command] and self.random.random() < 0.6:
            words += ["--coords", self.random.choice(["standard", "quad", "octagon"])]
        if "order" in OPTIONS[command] and self.random.random() < 0.4:
            words += ["--order", self.random.choice(["given", "short", "zeros"])]
        if "max-entry" in OPTIONS[command] and self.random.random() < 0.2:
            words += ["--max-entry", str(self.random.choice(LIMITS))]
        return words

    def changed(self, text: str) -> str:
        """A text with up to four faults."""
        content = bytearray(text.encode("latin-1"))
        for _ in range(self.random.randint(1, 4)):
            self.change(content, self.random.randrange(len(content) + 1))
        return ascii_only(content)

    def change(self, content: bytearray, place: int) -> None:
        kind = self.random.randrange(7)
        if kind == 0:
            del content[place:place + self.random.randint(1, 6)]
        elif kind == 1:
            content[place:place] = bytes([self.random.randrange(128)])
        elif kind == 2 and content:
            content[place % len(content)] = self.random.randrange(128)
        elif kind == 3:
            content[place:place] = str(self.random.choice(NUMBERS)).encode()
        elif kind == 4:
            content[place:place] = content[:self.random.randint(0, 40)]
        elif kind == 5:
            content[place:place] = b" vec " + b"1 " * self.random.randint(0, 30)
        else:
            lines = content.split(b"\n")
            self.random.shuffle(lines)
            content[:] = b"\n".join(lines)

    def table(self) -> str:
        kind = self.random.randrange(4)
        if kind == 3:
            made = self.ask(["make", "--seed", str(self.random.randrange(2**64)), "--moves", str(self.random.randint(1, 9))])
            return made[:made.index("\n14") + 1] if "\n14" in made else "tri 0\n"
        signature = f"sig {self.random.choice(self.signatures)}\n"
        return signature if kind < 2 else self.ask(["play"], signature)

    def hostile_question(self) -> Question:
        words, text = self.random.choice(self.hostile)
        return words, self.changed(text) if self.random.random() < 0.85 else ascii_only(text.encode("latin-1", "replace"))

    def table_question(self) -> Question:
        command, text = self.random.choice(OF_TABLES), self.table()
        if command == "play":
            steps = [f"14 {self.random.randrange(4)}", f"23 0 {self.random.randrange(4)}", "undo", "redo"]
            text += "".join(f"{step}\n" for step in steps[:self.random.randint(0, 4)])
        return self.options(command), text

    def listed(self, table: str, coordinates: str) -> List[str]:
        lines = self.ask(["surfaces", "--coords", coordinates], table).splitlines()[1:]
        self.random.shuffle(lines)
        return lines

    def vector_question(self) -> Question:
        table, coordinates = self.table(), self.random.choice(["standard", "standard", "quad", "octagon"])
        command, lines = self.random.choice(OF_VECTORS[coordinates]), self.listed(table, coordinates)
        words = [command, "--coords", coordinates] if command in ("verify", "describe", "decompose") else [command]
        chosen = lines[:1 if command in ("crush", "decompose") else self.random.randint(0, 12)]
        return words, table + "".join(f"{line}\n" for line in chosen)

    def sum_question(self) -> Question:
        """A sum of listed surfaces, to be written as one, or such an answer, perhaps with another number."""
        table, coordinates = self.table(), self.random.choice(["standard", "quad", "octagon"])
        lines = self.listed(table, coordinates)[:3]
        if not lines:
            return ["decompose"], table
        total = [0] * (len(lines[0].split()) - 1)
        for line in lines:
            factor = self.random.choice([1, 2, 9, 2**self.random.randint(1, 110)])
            total = [entry + factor * int(word) for entry, word in zip(total, line.split()[1:])]
        options, text = ["--coords", coordinates], f"{table}vec {' '.join(map(str, total))}\n"
        if self.random.random() < 0.5:
            return ["decompose", *options], text
        words = self.ask(["decompose", *options], text).split(" ")
        if self.random.random() < 0.5:
            place = self.random.randrange(len(words))
            words[place] = str(self.random.choice([0, 1, 2, 2**64, 2**126])) if words[place].isdigit() else words[place]
        return ["addup", *options], " ".join(words)

    def cone_question(self) -> Question:
        columns, rows, limit = self.random.randint(1, 9), self.random.randint(0, 5), self.random.choice([1, 3, 20, 10**6])
        lines = [" ".join(str(self.random.randint(-limit, limit)) for _ in range(columns)) for _ in range(rows)]
        return self.options("rays"), "".join(f"{line}\n" for line in [f"cone {columns} {rows}", *lines])

    def sphere_question(self) -> Question:
        command = self.random.choice(["make", "bulk"])
        return [command, "--seed", str(self.random.randrange(2**64)), "--moves", str(self.random.randint(0, 5))], ""

    def two_tables_question(self) -> Question:
        return [self.random.choice(["same", "csame", "group"])], self.table() + self.table()

    def changed_example(self) -> Question:
        return self.options(self.random.choice(OF_TABLES)), self.changed(self.random.choice(self.examples))


def ascii_only(content: Iterable[int]) -> str:
    """A text of these bytes, with ? for those that UTF-8 spells by several."""
    return bytes(byte if byte < 128 else 63 for byte in content).decode("ascii")


def timed(test: Test) -> Test:
    """Marks a test with a limit of time that may pass on a loaded machine: tools/test.py runs it again alone if it fails."""
    return test


def within(seconds: float) -> Iterator[None]:
    """Goes round for so many seconds: for loops that a signal ends, which may never come."""
    end = time.monotonic() + seconds
    while time.monotonic() < end:
        yield

"""Asking the request program, and its answers as values."""
import os
import subprocess
from dataclasses import dataclass, field

ROOT = os.path.dirname(os.path.dirname(os.path.abspath(__file__)))
PROGRAM = os.path.join(ROOT, "target", "oracle", "build", "release", "oracle")
# A batch fits into a pipe, so that writing it never waits for the program,
# which may itself be waiting for its answers to be read.
BATCH_BYTES = 32768


@dataclass
class Answer:
    what: str  # number, kind, refused, compiled, dimensions, signature, groups, not-asked
    index: int = 0
    number: int = 0
    place: object = 0  # None where it isn't known
    values: list = field(default_factory=list)
    twins: list = field(default_factory=list)
    kinds: list = field(default_factory=list)
    rows: list = field(default_factory=list)
    text: str = ""

    @property
    def name(self):
        """The answer's class: the refusal's number, or the word."""
        return str(self.number) if self.what == "refused" else self.what


@dataclass
class CompiledKind:
    role: str
    exponents: object  # None, or a list of (base, numerator, denominator)
    grade: int
    difference: object
    rate_of: object
    rate: object


@dataclass
class CompiledRow:
    left: int
    operation: int
    right: int
    result: int
    declared: int


def optional(word):
    return None if word == "-" else int(word)


def exponents(word):
    if word == "?":
        return None
    if word == "1":
        return []
    parts = [part.replace("/", ":").split(":") for part in word.split(",")]
    return [tuple(int(number) for number in part) for part in parts]


def compiled(words):
    answer = Answer("compiled")
    kinds, rows = int(words[2]), int(words[4])
    at = 7
    for _ in range(kinds):
        role, given, grade, difference, rate_of, rate = words[at + 1:at + 7]
        answer.kinds.append(CompiledKind(role, exponents(given), int(grade), optional(difference),
                                         optional(rate_of), optional(rate)))
        at += 7
    for _ in range(rows):
        answer.rows.append(CompiledRow(*(int(word) for word in words[at + 1:at + 6])))
        at += 6
    if at != len(words):
        raise ValueError("a compiled answer has another length than its counts give")
    return answer


def refused(words):
    values, twins = words.index("values"), words.index("twins")
    place = None if words[3] == "?" else int(words[3])
    return Answer("refused", number=int(words[1]), place=place,
                  values=[int(word) for word in words[values + 1:twins]],
                  twins=[int(word) for word in words[twins + 1:]])


def parsed(line):
    words = line.split()
    if words[0] == "refused":
        answer = refused(words)
    elif words[0] == "compiled":
        answer = compiled(words)
    elif words[0] == "kind":
        answer = Answer("kind", index=int(words[1]))
    elif words[0] == "dimensions":
        answer = Answer("dimensions", values=[int(word) for word in words[1:]])
    elif words[0] in ("number", "signature", "groups", "not-asked"):
        answer = Answer(words[0])
    else:
        raise ValueError(f"the program answered {line!r}")
    answer.text = line
    return answer


def batches(lines):
    """Lines in parts of a batch's size; a longer line stands alone."""
    batch, size = [], 0
    for line in lines:
        if batch and size + len(line) >= BATCH_BYTES:
            yield batch
            batch, size = [], 0
        batch.append(line)
        size += len(line) + 1
    if batch:
        yield batch


class Oracle:
    def __init__(self):
        if not os.path.exists(PROGRAM):
            raise SystemExit("the request program is not there: run oracle/build")
        self.process = subprocess.Popen([PROGRAM], stdin=subprocess.PIPE, stdout=subprocess.PIPE,
                                        text=True)
        self.asked = 0

    def __enter__(self):
        return self

    def __exit__(self, *_):
        self.process.stdin.close()
        self.process.wait()
        self.process.stdout.close()

    def ask_all(self, lines):
        answers = []
        for batch in batches(lines):
            self.process.stdin.write("".join(line + "\n" for line in batch))
            self.process.stdin.flush()
            for _ in batch:
                answers.append(parsed(self.process.stdout.readline().rstrip("\n")))
        self.asked += len(lines)
        return answers

    def ask(self, line):
        return self.ask_all([line])[0]

    def image(self, image):
        return self.ask("image " + image.hex())

    def formula(self, tokens):
        return self.ask("formula " + tokens.hex())


def report(answer, catalog):
    """An answer as the program kindcheck prints it: a kind by index and id, a
    refusal by number and place."""
    if answer.what == "kind":
        return f"kind {answer.index} {catalog.kinds[answer.index].id}"
    if answer.what == "refused":
        return f"refused {answer.number} {answer.place}"
    return answer.text


def combine_line(code, left, right):
    return f"combine {code} {left} {right}"


def power_line(base, exponent):
    """The exponent is a pair, or None for the inexact one."""
    return f"power {base} " + ("inexact" if exponent is None else "{} {}".format(*exponent))

"""The stored answers as bytes: writing and reading crates/*/data/*.bin.

docs/VECTORS.md has the layout in words.
"""
import os
import struct

from oracle.ask import ROOT, Answer, CompiledKind, CompiledRow

# The program that each file is the data of.
PROGRAMS = {"exponents.bin": "vectors", "images.bin": "vectors", "compile.bin": "replay",
            "lookups.bin": "replay", "formulas.bin": "replay",
            "lines.bin": "replay"}
MAGIC = b"KCA1"
EXPONENTS, COMPILE, LOOKUPS, FORMULAS, IMAGES, LINES = 1, 2, 3, 4, 5, 6
NUMBER, KIND, REFUSED, COMPILED = 0, 1, 2, 3
UNKNOWN = NONE = 0xFFFF
ROLES = ("linear", "point", "difference")
OPERATIONS = ("reduced", "sum", "difference", "product",
              "dimension product", "dimension quotient", "dimension power")
SCALAR_OPERATIONS = OPERATIONS[:4]
BASES = 12


def path(name):
    return os.path.join(ROOT, "crates", PROGRAMS[name], "data", name)


# ---- Images: zeros are left out. Pairs of bytes (zeros, literals), each
# followed by its literal bytes, until the image's length is reached.

def packed(image):
    output, at = bytearray(), 0
    while at < len(image):
        zeros = at
        while at < len(image) and image[at] == 0 and at - zeros < 255:
            at += 1
        literals = at
        # A lone zero between literals costs less as a literal.
        while (at < len(image) and at - literals < 255
               and (image[at] or (at + 1 < len(image) and image[at + 1] and at > literals))):
            at += 1
        output += bytes([literals - zeros, at - literals]) + image[literals:at]
    return bytes(output)


def unpacked(data, length):
    image, at = bytearray(), 0
    while len(image) < length:
        zeros, literals = data[at], data[at + 1]
        image += bytes(zeros) + data[at + 2:at + 2 + literals]
        at += 2 + literals
    if len(image) != length or at != len(data):
        raise ValueError("a packed image doesn't give its length")
    return bytes(image)


# ---- Answers.

def optional_bytes(index):
    return struct.pack("<H", NONE if index is None else index)


def kind_bytes(kind):
    bases = kind.exponents or []
    return (bytes([ROLES.index(kind.role), kind.grade, kind.exponents is not None, len(bases)])
            + optional_bytes(kind.difference) + optional_bytes(kind.rate_of)
            + optional_bytes(kind.rate)
            + b"".join(struct.pack("<HhH", *base) for base in bases))


def row_bytes(row):
    return struct.pack("<5H", row.left, row.operation, row.right, row.result, row.declared)


def answer_bytes(answer):
    if answer.what == "compiled":
        return (struct.pack("<BBHHH", COMPILED, 0, 0, len(answer.kinds), len(answer.rows))
                + b"".join(kind_bytes(kind) for kind in answer.kinds)
                + b"".join(row_bytes(row) for row in answer.rows))
    if answer.what == "refused":
        place = UNKNOWN if answer.place is None else answer.place
        return (struct.pack("<BBHHH", REFUSED, answer.number, place, len(answer.values),
                            len(answer.twins))
                + struct.pack(f"<{len(answer.values)}i", *answer.values)
                + struct.pack(f"<{len(answer.twins)}H", *answer.twins))
    if answer.what == "kind":
        return struct.pack("<BBHHH", KIND, 0, answer.index, 0, 0)
    if answer.what == "number":
        return struct.pack("<BBHHH", NUMBER, 0, 0, 0, 0)
    raise ValueError(f"{answer.text!r} can't be stored")


class Bytes:
    """Bytes taken from the front."""

    def __init__(self, data):
        self.data, self.at = data, 0

    def take(self, layout):
        found = struct.unpack_from("<" + layout, self.data, self.at)
        self.at += struct.calcsize("<" + layout)
        return found

    def part(self, length):
        self.at += length
        if self.at > len(self.data):
            raise ValueError("the file ends too early")
        return self.data[self.at - length:self.at]

    def optional(self):
        index, = self.take("H")
        return None if index == NONE else index

    def kind(self):
        role, grade, given, bases = self.take("4B")
        difference, rate_of, rate = self.optional(), self.optional(), self.optional()
        exponents = [self.take("HhH") for _ in range(bases)]
        return CompiledKind(ROLES[role], exponents if given else None, grade, difference, rate_of,
                            rate)

    def answer(self):
        what, number, place, first, second = self.take("BBHHH")
        if what == COMPILED:
            kinds = [self.kind() for _ in range(first)]
            rows = [CompiledRow(*self.take("5H")) for _ in range(second)]
            return Answer("compiled", kinds=kinds, rows=rows)
        if what == REFUSED:
            values, twins = list(self.take(f"{first}i")), list(self.take(f"{second}H"))
            return Answer("refused", number=number, place=None if place == UNKNOWN else place,
                          values=values, twins=twins)
        return Answer("kind", index=place) if what == KIND else Answer("number")


# ---- Requests.

def lookup_bytes(lookup):
    code, left, right, exponent = lookup
    return struct.pack("<BBHiIHH", code, 0, left, *(exponent or (0, 0)), right, 0)


def read_lookup(data):
    code, _, left, numerator, denominator, right, _ = data.take("BBHiIHH")
    return code, left, right, (numerator, denominator) if code == 8 else None


def formula_bytes(tokens):
    return struct.pack("<HH", len(tokens) // 12, 0) + tokens


def read_formula(data):
    count, _ = data.take("HH")
    return data.part(12 * count)


def nothing_bytes(_):
    return b""


def read_nothing(_):
    return None


REQUESTS = {COMPILE: (nothing_bytes, read_nothing), LOOKUPS: (lookup_bytes, read_lookup),
            FORMULAS: (formula_bytes, read_formula)}


# ---- Whole files.

def file_header(group, sections, requests):
    return MAGIC + struct.pack("<III", group, sections, requests)


def read_header(data, group):
    magic, found = data.part(4), data.take("III")
    if magic != MAGIC or found[0] != group:
        raise ValueError("the file is of another group")
    return found[1], found[2]


def sections_bytes(group, sections):
    """Images, each with its pairs of request and answer."""
    write = REQUESTS[group][0]
    output = file_header(group, len(sections), sum(len(pairs) for _, pairs in sections))
    for image, pairs in sections:
        body = packed(image)
        output += struct.pack("<IIHH", len(image), len(body), len(pairs), 0) + body
        for request, answer in pairs:
            output += write(request) + answer_bytes(answer)
    return output


def read_sections(group, content):
    read = REQUESTS[group][1]
    data = Bytes(content)
    count, requests = read_header(data, group)
    sections = []
    for _ in range(count):
        length, body, pairs, _ = data.take("IIHH")
        image = unpacked(data.part(body), length)
        sections.append((image, [(read(data), data.answer()) for _ in range(pairs)]))
    if data.at != len(content) or sum(len(pairs) for _, pairs in sections) != requests:
        raise ValueError("the file has another length than its counts give")
    return sections


def exponents_of(operation):
    """How many exponents the two operands and the result have."""
    if operation in SCALAR_OPERATIONS:
        return 1, 1, 1
    return BASES, 1 if operation == "dimension power" else BASES, BASES


def exponents_bytes(records):
    """Records are an operation and the exponents of left, right, result."""
    output = file_header(EXPONENTS, len(records), len(records))
    for operation, *parts in records:
        output += struct.pack("<BBH", OPERATIONS.index(operation), 0, 0)
        for part in parts:
            output += b"".join(struct.pack("<iI", *exponent) for exponent in part)
    return output


def read_exponents(content):
    data = Bytes(content)
    count, _ = read_header(data, EXPONENTS)
    records = []
    for _ in range(count):
        operation = OPERATIONS[data.take("BBH")[0]]
        parts = [[data.take("iI") for _ in range(size)] for size in exponents_of(operation)]
        records.append((operation, *parts))
    if data.at != len(content):
        raise ValueError("the file has another length than its count gives")
    return records

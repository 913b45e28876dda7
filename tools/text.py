"""A catalog as text: one declaration a line, `#` before a comment.

    dimensionless one
    time clock
    kind flow b0^3 b1^-1 rate of volume
    kind clock b1 difference duration
    kind shift b0 grade 1
    row area * bore = volume
    commutative row area * bore = volume
"""
import re

from tools.errors import BadInput
from tools.image import exponent_bytes, id_bytes
from tools.records import ABSENT, BASES, OPERATIONS, Catalog, Kind, Row
from tools.words import Reader, written_exponent, written_name

BASE = re.compile(r"b(0|[1-9][0-9]*)\Z")


def read_base(reader):
    """A base such as b0 or b11, if the next word is one."""
    match = BASE.match(reader.next.text) if reader.next.type == "name" else None
    if not match:
        return None
    base = int(match.group(1))
    if base >= BASES:
        reader.fail(f"base {reader.next.text} is past b{BASES - 1}")
    reader.take()
    return base


def read_dimensions(reader):
    """Twelve exponents, or None for `?`."""
    if reader.takes("?"):
        return None
    exponents = [ABSENT] * BASES
    if reader.next.type == "whole" and reader.next.text == "1":
        reader.take()
        return exponents
    seen = set()
    while True:
        word = reader.next
        base = read_base(reader)
        if base is None:
            break
        if base in seen:
            reader.fail(f"base b{base} stands twice", word)
        seen.add(base)
        exponents[base] = reader.exponent() if reader.takes("^") else (1, 1)
        checked(reader, word, exponent_bytes, [exponents[base]])
    if not seen:
        reader.fail("expected dimensions (such as b0^3 b1^-1, 1 for dimension one, "
                    f"? for unresolved), found {reader.next.text!r}")
    return exponents


def checked(reader, word, write, value):
    """What can't be written as bytes is charged to its word."""
    try:
        write(value)
    except BadInput as error:
        reader.fail(error.message, word)
    return value


def read_name(reader, what):
    word = reader.next
    return checked(reader, word, id_bytes, reader.name(what))


def read_declared_name(reader, what):
    """A name where the empty one would mean that nothing is declared."""
    word = reader.next
    name = read_name(reader, what)
    if not name:
        reader.fail(f"an empty id means no {what}: leave the clause off", word)
    return name


def read_kind(reader):
    kind = Kind(id=read_name(reader, "a kind's name"))
    kind.exponents = read_dimensions(reader)
    if reader.takes("grade"):
        word = reader.next
        kind.grade = reader.integer("a grade from 0 to 3")
        if not 0 <= kind.grade <= 3:
            reader.fail("a grade is 0 to 3", word)
    if reader.takes("difference"):
        kind.difference = read_declared_name(reader, "difference kind")
    if reader.takes("rate"):
        reader.expect("of")
        kind.rate_of = read_declared_name(reader, "kind that this is the rate of")
    return kind


def read_row(reader, commutative):
    row = Row(left=read_name(reader, "a row's left kind"), commutative=commutative)
    for operation, sign in enumerate(OPERATIONS):
        if reader.takes(sign):
            row.operation = operation
            break
    else:
        reader.fail(f"expected *, /, dot or wedge, found {reader.next.text!r}")
    row.right = read_name(reader, "a row's right kind")
    reader.expect("=")
    row.result = read_name(reader, "a row's result kind")
    return row


def read_header(reader, catalog, word):
    if getattr(catalog, word):
        reader.fail(f"{word} is declared twice", reader.words[0])
    setattr(catalog, word, read_declared_name(reader, f"{word} kind"))


def read_line(reader, catalog):
    if reader.takes("kind"):
        catalog.kinds.append(read_kind(reader))
    elif reader.takes("row"):
        catalog.rows.append(read_row(reader, 0))
    elif reader.takes("commutative"):
        reader.expect("row")
        catalog.rows.append(read_row(reader, 1))
    elif reader.takes("dimensionless"):
        read_header(reader, catalog, "dimensionless")
    elif reader.takes("time"):
        read_header(reader, catalog, "time")
    else:
        reader.fail("a line begins with kind, row, commutative row, dimensionless or time, "
                    f"not {reader.next.text!r}")
    if not reader.ends():
        reader.fail(f"{reader.next.text!r} is not expected here")


def read_text(text):
    catalog = Catalog()
    for line, content in enumerate(text.split("\n"), 1):
        reader = Reader(content, line)
        if not reader.ends():
            read_line(reader, catalog)
    return catalog


def written_base(base, exponent):
    return f"b{base}" if exponent == (1, 1) else f"b{base}^{written_exponent(*exponent)}"


def written_dimensions(exponents):
    if exponents is None:
        return "?"
    present = [written_base(base, tuple(exponent)) for base, exponent in enumerate(exponents)
               if tuple(exponent) != ABSENT]
    return " ".join(present) or "1"


def written_kind(kind):
    line = f"kind {written_name(kind.id)} {written_dimensions(kind.exponents)}"
    if kind.grade:
        line += f" grade {kind.grade}"
    if kind.difference:
        line += f" difference {written_name(kind.difference)}"
    if kind.rate_of:
        line += f" rate of {written_name(kind.rate_of)}"
    return line


def written_row(row):
    line = (f"row {written_name(row.left)} {OPERATIONS[row.operation]} "
            f"{written_name(row.right)} = {written_name(row.result)}")
    return "commutative " + line if row.commutative else line


def written_header(word, catalog):
    return f"{word} {written_name(getattr(catalog, word))}"


def write_text(catalog):
    """The one way in which this catalog is written: header, kinds, rows."""
    header = [written_header(word, catalog) for word in ("dimensionless", "time") if getattr(catalog, word)]
    parts = [header, [written_kind(k) for k in catalog.kinds], [written_row(r) for r in catalog.rows]]
    return "\n\n".join("\n".join(part) for part in parts if part) + "\n"

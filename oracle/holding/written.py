"""Values as antt text: what stands in the statements that oracle/hold writes.

The short words (u, m, o, one, plainly, ..) are those of the module Said, which
scratch.py puts beside the statements.
"""
from tools.records import ABSENT, BASES

OPERATIONS = ("Mul", "Div", "Dot", "Wedge")
WITH_DIMENSIONS = (20, 25, 45, 47)
WITH_TWINS = (44, 48)
# A run of zeros this long is written as one word.
LONG = 8


def listed(items):
    return "(" + " ∷ ".join([*items, "[]"]) + ")"


def numbers(values):
    """A list of numbers; long runs of zeros as `zeros n`, put in front of what
    follows them."""
    parts, zeros = [], 0
    for value in values:
        if value == 0:
            zeros += 1
            continue
        parts += zero_run(zeros) + [f"{value} ∷ "]
        zeros = 0
    parts += zero_run(zeros)
    return "(" + "".join(parts) + "[]" + ")" * (1 + sum(part.startswith("zeros") for part in parts))


def zero_run(count):
    return [f"zeros {count} ("] if count >= LONG else ["0 ∷ "] * count


def optional(index):
    return "None" if index is None else f"(Some {index})"


def truth(value):
    return "true" if value else "false"


# ---- Exponents and dimensions.

def integer(value):
    return f"(pos {value})" if value >= 0 else f"(neg_ℤ (pos {-value}))"


def rational(numerator, denominator):
    if (numerator, denominator) == ABSENT:
        return "o"
    return f"u {numerator} {denominator}" if numerator >= 0 else f"m {-numerator} {denominator}"


def rationals(exponents):
    return listed([rational(*exponent) for exponent in exponents])


def all_bases(present):
    """Twelve exponents from (base, numerator, denominator) of those present."""
    exponents = [ABSENT] * BASES
    for base, numerator, denominator in present:
        exponents[base] = numerator, denominator
    return exponents


def dimensions(exponents):
    """Of twelve exponents, or unresolved."""
    return "None" if exponents is None else f"(Some (D.dimensions {rationals(exponents)}))"


# ---- What the Rust compiled.

def compiled_kind(kind):
    exponents = None if kind.exponents is None else all_bases(kind.exponents)
    links = " ".join(optional(link) for link in (kind.difference, kind.rate_of, kind.rate))
    return f"one {dimensions(exponents)} {kind.grade} {links}"


def compiled_kinds(answer):
    return listed([compiled_kind(kind) for kind in answer.kinds])


def entry(left, operation, right, result):
    return f"entry {left} {OPERATIONS[operation]} {right} {result}"


def entries(answer):
    return "(words " + listed([entry(row.left, row.operation, row.right, row.result) for row in answer.rows]) + ")"


# ---- What a catalog declares. Ids stand without their padding.

def id_bytes(text):
    return numbers(text.encode("ascii"))


def declared_kind(kind):
    """The exponents are reduced as they are read."""
    if kind.exponents is None:
        dims = "None"
    else:
        fractions = [f"F.lowest {integer(n)} {d}" for n, d in kind.exponents]
        dims = f"(Some (D.dimensions {listed(fractions)}))"
    ids = " ".join(id_bytes(text) for text in (kind.id, kind.difference, kind.rate_of))
    return f"declares {ids} {dims} {kind.grade}"


def declared_row(row):
    ids = " ".join(id_bytes(text) for text in (row.left, row.right, row.result))
    return f"rules {ids} {OPERATIONS[row.operation]} {truth(row.commutative)}"


def catalog(declared):
    return " ".join(["declared", listed([declared_kind(kind) for kind in declared.kinds]),
                     id_bytes(declared.dimensionless), id_bytes(declared.time),
                     listed([declared_row(row) for row in declared.rows])])


# ---- Answers.

def refusal(answer):
    place, number = answer.place, answer.number
    if number in WITH_DIMENSIONS:
        pairs = list(zip(answer.values[0:-1:2], answer.values[1:-1:2]))
        return f"with_dims {place} {number} {rationals(pairs)} {answer.values[-1]}"
    if number in WITH_TWINS:
        return f"with_twins {place} {number} {answer.values[0]} {numbers(answer.twins)}"
    return f"plainly {place} {number} {numbers(answer.values)}"


def answered(answer):
    if answer.what == "refused":
        return refusal(answer)
    return f"kind {answer.index}" if answer.what == "kind" else "number"

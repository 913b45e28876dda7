"""Fractions, dimensions, grades; lookups over kinds and rows."""

from oracle import stored
from oracle.holding import expected, written
from oracle.holding.common import over_catalogs, sections, sheets_of, spread
from oracle.holding.scratch import Case
from tools.formula import INEXACT, POWER
from tools.image import read_image

LARGE_POWERS = [(2**31 - 1, 1), (1 - 2**31, 1), (2**31 - 1, 2), (1, 2**31 - 1), (-1, 2**31 - 1),
                (65537, 1), (65536, 1), (-65536, 1), (1, 65537), (2**30, 1), (715827883, 1)]


# ---- Exponents and dimensions.

SCALARS = {"sum": "F.sum", "difference": "F.difference", "product": "F.product"}
WHOLE = {"dimension product": "D.product", "dimension quotient": "D.quotient"}


def bracketed(exponent):
    return f"({written.rational(*exponent)})"


def scalar_case(operation, left, right, result):
    wanted = f"Some {bracketed(result[0])}"
    about = f"{operation} {left[0]} {right[0]}"
    if operation == "reduced":
        return Case(f"F.answer {written.integer(left[0][0])} {left[0][1]}", wanted, about)
    return Case(f"{SCALARS[operation]} {bracketed(left[0])} {bracketed(right[0])}", wanted, about)


def dimensions_case(operation, left, right, result):
    def of(exponents):
        return f"(D.dimensions {written.rationals(exponents)})"
    wanted, about = f"Some {of(result)}", f"{operation} {left} {right}"
    if operation == "dimension power":
        return Case(f"D.power {of(left)} {bracketed(right[0])}", wanted, about)
    return Case(f"{WHOLE[operation]} {of(left)} {of(right)}", wanted, about)


def exponents(_, most):
    with open(stored.path("exponents.bin"), "rb") as file:
        records = spread(stored.read_exponents(file.read()), most)
    scalar = [record for record in records if record[0] in stored.SCALAR_OPERATIONS]
    whole = [record for record in records if record[0] not in stored.SCALAR_OPERATIONS]
    return (sheets_of("Exponents", [scalar_case(*record) for record in scalar], 200)
            + sheets_of("Dimensions", [dimensions_case(*record) for record in whole], 100))


# ---- Lookups over kinds and rows.

def lookup_case(lookup, answer, about):
    code, left, right, exponent = lookup
    if code == POWER:
        numerator, denominator = exponent
        asked = f"exactly K {left} (F.lowest {written.integer(numerator)} {denominator})"
    elif code == INEXACT:
        asked = f"inexactly K {left}"
    else:
        asked = f"looked K R {code} {left} {right}"
    return Case(asked, written.answered(answer), f"{about}code, left, right, exponent {lookup}")


def lookups(fresh, most):
    found = sections("lookups.bin", stored.LOOKUPS) + fresh.lookups
    return over_catalogs("Lookups", found, most, lookup_case)


def over_lookup(random, kinds):
    """A power whose exponents leave the 32-bit limits, which is 28; None where
    another answer comes before it or there is none to leave."""
    base = random.randrange(len(kinds))
    exponent = random.choice(LARGE_POWERS)
    if expected.power_leaves_limits(kinds[base], exponent):
        return (POWER, base, 0, exponent), expected.refused(28, 0, base)
    return None


def over_limits(sources, most):
    """28, of which the Rust has no word: it goes on exactly."""
    found = []
    for image, _ in spread(sections("lookups.bin", stored.LOOKUPS), max(1, most // 4)):
        kinds = expected.compiled(read_image(image)).kinds
        tried = [over_lookup(sources.random, kinds) for _ in range(40)]
        found.append((image, list(dict((pair[0], pair) for pair in tried if pair).values())))
    return over_catalogs("Over", found, most, lookup_case)


def grades(_, most):
    """The four tables, and beside them."""
    cases = []
    for place, name in enumerate(written.OPERATIONS):
        for left in range(5):
            for right in range(5):
                grade = expected.grade_of(place, left, right) if max(left, right) < 4 else None
                wanted = "no_grade" if grade is None else f"Some {grade}"
                cases.append(Case(f"dimension-Grade.product {name} {left} {right}", wanted,
                                  f"grades {left} {name} {right}"))
    return sheets_of("Grades", spread(cases, most), 100)

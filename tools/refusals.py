"""Refusals in words: the cause of each number, and what is returned with it by
name. What is told here is an answer of the proved programs; nothing is judged.
"""
from tools.records import BASES
from tools.words import written_name

CAUSES = {
    1: "the image's length is not 1 to 121 blocks",
    2: "a block's place or sum is wrong",
    3: "the schema is not 4",
    4: "a field, count or length goes against the layout",
    5: "the table is under 9,296 words, or the twin list under 240 entries",
    10: "a kind's id is empty",
    11: "a kind's id is repeated",
    12: "an id is unknown",
    13: "a difference has other dimensions than its point",
    14: "a difference is itself a point",
    15: "the dimensionless kind is not linear and of dimension one",
    16: "the time kind is not a scalar point",
    17: "a rate is declared without a time kind",
    18: "a rate or its target is a point",
    19: "a kind's dimensions are unresolved",
    20: "rate times duration misses the target, or the grades differ",
    21: "the target has a rate already",
    22: "a quotient is declared commutative",
    23: "a point stands in a product",
    24: "the product has no single grade",
    25: "the row's result does not have the product's dimensions and grade",
    26: "the row's product is derived already",
    27: "a second row for the same pair",
    28: "an exponent of the power is over the 32-bit limits",
    40: "the words are no table",
    41: "a kind's index is past the end",
    42: "the kinds differ",
    43: "the operation is undefined for these kinds",
    44: "several kinds fit the product and no row chooses one",
    45: "no kind has the product's dimensions and grade",
    46: "a power of a kind that is no scalar",
    47: "no kind has the power's dimensions and grade",
    48: "several kinds fit the power",
    49: "a number stands with a kind",
    50: "the formula is malformed",
}

# What is returned: {0} is the first value as it is, {kind0} the kind of that index by
# name, {sign0} the sign of that operation.
RETURNED = {
    1: "it is {0} bytes",
    2: "block {0}, counted from 0",
    3: "it is {0}",
    4: "byte {0}, counted from 0",
    5: "{0} were lent",
    10: "kind {0}, counted from 0",
    11: "{kind0}",
    12: "",
    13: "point {kind0}, difference {kind1}",
    14: "point {kind0}, difference {kind1}",
    15: "{kind0}",
    16: "{kind0}",
    17: "{kind0} is the rate of {kind1}",
    18: "{kind0} is the rate of {kind1}, and {kind2} is a point",
    19: "{kind0}",
    20: "the product has {dimensions}, the rate grade {grade}",
    21: "{kind0}",
    22: "row {0}, counted from 0",
    23: "{kind0} {sign1} {kind2}, with the point {kind3}",
    24: "{kind0} has grade {2}, {kind1} has grade {3}",
    25: "the product has {dimensions}, grade {grade}",
    26: "it is {kind0}",
    27: "{kind0} and {kind1}",
    28: "base {kind0}",
    40: "",
    41: "index {0}",
    42: "expected {kind0}, actual {kind1}",
    43: "{kind1} {sign0} {kind2}",
    44: "{twins}",
    45: "{dimensions}, grade {grade}",
    46: "grade {0}",
    47: "{dimensions}, grade {grade}",
    48: "{twins}",
    49: "{sign0} with {kind1}",
    50: "an unknown token, an exponent over its limits, too few or too many terms, or a bad length",
}

# An operation with no second kind, as 43 returns it.
WITH_ONE = {
    4: "the product of a number and {kind1}",
    5: "the quotient of a number and {kind1}",
    8: "a power of {kind1}",
    9: "an inexact power of {kind1}",
    10: "the absolute value of {kind1}",
}
SIGNS = {2: "+", 3: "-", 4: "*", 5: "/", 6: "dot", 7: "wedge", 8: "^", 9: "^ inexact", 10: "abs", 11: "=="}
ABSENT = 65535
FIRST, GRADE = 3, 27  # the words of an answer from which on values stand, and of the grade after dimensions


class Refusal:
    """A refusal as the program `details` tells it: the words of an answer, and
    the twins that 44 and 48 list."""

    def __init__(self, words, twins=()):
        self.number, self.place = words[1], words[2]
        self.values = words[FIRST:]
        self.grade = words[GRADE]
        self.twins = list(twins)


def kind_words(catalog, place):
    """A kind by its name, or by its index where the name alone doesn't say
    which."""
    if place >= len(catalog.kinds):
        return f"kind {place}"
    name = catalog.kinds[place].id
    if not name:
        return f"kind {place}"
    if sum(kind.id == name for kind in catalog.kinds) > 1:
        return f"{written_name(name)} (kind {place})"
    return written_name(name)


def exponent_words(numerator, denominator):
    """The numerator is in two's complement."""
    signed = numerator - 2**32 if numerator >= 2**31 else numerator
    return str(signed) if denominator == 1 else f"{signed}/{denominator}"


def dimension_words(values):
    """`b0=3 b1=-1`, an absent base left off."""
    pairs = [values[2 * base:2 * base + 2] for base in range(BASES)]
    present = [f"b{base}={exponent_words(*pair)}" for base, pair in enumerate(pairs) if pair[0]]
    return " ".join(present) or "dimension one"


def returned(refusal, catalog):
    """What the refusal returns, in words; empty where there is nothing to
    say."""
    values = refusal.values
    template = RETURNED.get(refusal.number, "")
    if refusal.number == 43 and values[2] == ABSENT:
        template = WITH_ONE.get(values[0], "{sign0} of {kind1}")
    words = {f"kind{i}": kind_words(catalog, values[i]) for i in range(4)}
    words.update({f"sign{i}": SIGNS.get(values[i], "") for i in range(2)})
    return template.format(
        *values, **words, dimensions=dimension_words(values), grade=refusal.grade,
        twins=", ".join(kind_words(catalog, twin) for twin in refusal.twins))


def sentence(refusal, catalog):
    """The cause in words, and what is returned."""
    cause = CAUSES.get(refusal.number, f"{refusal.number} is a refusal that has no words here")
    said = returned(refusal, catalog)
    return f"{cause}: {said}." if said else f"{cause}."

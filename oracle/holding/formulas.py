"""Formulas: read from bytes, run, malformed, calculated from their leaves."""
import struct

from oracle import damage, stored
from oracle.holding import expected, written
from oracle.holding.common import kinds_and_rows, over_catalogs, sections, sheets_of, spread
from oracle.holding.scratch import Case, Sheet
from tools.formula import INEXACT, KIND, NUMBER, POWER, TOKEN, token
from tools.image import read_image

# Longer formulas are not read from bytes but for a few.
READ_TOKENS = 30

# ---- Formulas, as bytes over kinds and rows.

COMBINED = ["rules-Arithmetic.summed rules-Arithmetic.Add",
            "rules-Arithmetic.summed rules-Arithmetic.Sub",
            *(f"rules-Arithmetic.multiplied {name}" for name in written.OPERATIONS)]
BINARY = [f"(rules-Formula.combined ({name}))" for name in COMBINED]


def token_text(data):
    code, _, kind, numerator, denominator = struct.unpack("<BBHiI", data)
    if code == POWER:
        return f"unary (rules-Formula.exact (F.lowest {written.integer(numerator)} {denominator}))"
    names = ["number", f"kind {kind}", *(f"binary {name}" for name in BINARY), "",
             "unary rules-Formula.inexact", "unary rules-Formula.absolute",
             "binary rules-Formula.compared"]
    return names[code]


def tokens_text(formula):
    """The tokens of a formula as values."""
    found = [token_text(formula[at:at + TOKEN]) for at in range(0, len(formula), TOKEN)]
    return written.listed([f"rules-Formula.{text}" for text in found])


def formula_case(formula, answer, about):
    return Case(f"placed (rules-Call.formula_in K R {written.numbers(formula)})",
                written.answered(answer), f"{about}formula {formula.hex()}")


def run_case(formula, answer, about):
    """The run alone, its tokens already read."""
    return Case(f"placed (rules-Call.ending (rules-Formula.formula K R {tokens_text(formula)}))",
                written.answered(answer), f"{about}formula {formula.hex()}")


def split_by_length(found):
    """Short formulas and long ones, each with their images."""
    def kept(test):
        return [(image, [pair for pair in pairs if test(len(pair[0]) // TOKEN)])
                for image, pairs in found]
    return kept(lambda count: count <= READ_TOKENS), kept(lambda count: count > READ_TOKENS)


def formulas(sources, most):
    """Short ones as bytes; of long ones the tokens are given, since to read
    byte i takes i steps."""
    short, long = split_by_length(sections("formulas.bin", stored.FORMULAS) + sources.formulas)
    return (over_catalogs("Runs", long, max(1, most // 4), run_case, 40)
            + over_catalogs("Formulas", short, most, formula_case, 40))


def long_formulas(sources, most):
    """Long ones as bytes, one to a statement."""
    _, long = split_by_length(sections("formulas.bin", stored.FORMULAS))
    return over_catalogs("Long", long, most, formula_case, 1)


def replaced(formula, place, new):
    return formula[:TOKEN * place] + new + formula[TOKEN * (place + 1):]


BAD_TOKENS = [token(12), token(255), token(NUMBER, 1), token(2, 3), token(KIND, 0, 1, 0),
              token(KIND, 0, 0, 1), token(INEXACT, 0, 0, 1), token(POWER, 1, 1, 1),
              token(POWER, 0, 1, 0), token(POWER, 0, 0, 0), token(POWER, 0, -2**31, 1),
              token(POWER, 0, 1, 2**31), token(POWER, 0, 2**31 - 1, 2**32 - 1),
              bytes([NUMBER, 1]) + bytes(10), token(4), token(10), token(INEXACT), token(11)]
GOOD_ENDS = [token(POWER, 0, -2**31, 2), token(POWER, 0, 2, 2**31), token(POWER, 0, 0, 2**32 - 1)]


def spoiled_formula(random, formula):
    """A formula with something wrong in it, most of the time."""
    way = random.randrange(6)
    place = random.randrange(len(formula) // TOKEN)
    if way == 0:
        return replaced(formula, place, random.choice(BAD_TOKENS))
    if way == 1:
        return replaced(formula, place, b"")
    if way == 2:
        return formula[:TOKEN * place] + random.choice(BAD_TOKENS + GOOD_ENDS) + formula[TOKEN * place:]
    if way == 3:
        return token(NUMBER) * random.choice([31, 32, 33]) + formula
    if way == 4:
        return formula * random.choice([2, 3])
    return damage.damaged_tokens(random, formula)


def short_and_long():
    """Lengths at their ends, and past them."""
    one, more = token(NUMBER), token(NUMBER) + token(2)
    terms = [one * count + token(2) * (count - 1) for count in (32, 33)]
    return [b"", one[:11], one + b"\0", one, token(4), one + one,
            one + more * 63, one + more * 63 + token(10), one + more * 64, *terms]


def malformed(sources, most):
    """What 50 is about, over two catalogs; no answer of the Rust is needed,
    since 50 comes before any kind is looked at."""
    found = sections("formulas.bin", stored.FORMULAS)
    well = [formula for _, pairs in split_by_length(found)[0] for formula, _ in pairs]
    bad = [formula for formula in short_and_long() if expected.malformed(formula)]
    while len(bad) < most:
        formula = spoiled_formula(sources.random, sources.random.choice(well))
        if expected.malformed(formula) and len(formula) <= 2 * READ_TOKENS * TOKEN:
            bad.append(formula)
    cases = [formula_case(formula, expected.malformed(formula), "") for formula in bad[:most]]
    return sheets_of("Malformed", cases, 50, kinds_and_rows(read_image(found[0][0])))


def past_the_end(random, formula, answer, count):
    """The formula with a kind's index past the end, and its answer: 41 there,
    unless an earlier token is refused."""
    places = [place for place in range(len(formula) // TOKEN) if formula[TOKEN * place] == KIND]
    if not places:
        return None
    place, index = random.choice(places), random.choice([count, count + 1, 255, 256, 65535])
    if index < count:
        return None
    if answer.what != "refused" or answer.place > place:
        answer = expected.refused(41, place, index)
    return replaced(formula, place, token(KIND, index)), answer


def indexes(sources, most):
    sheets = []
    found = sections("formulas.bin", stored.FORMULAS)
    found, _ = split_by_length(found)
    for place, (image, pairs) in enumerate(spread(found, max(1, most // 10))):
        catalog = read_image(image)
        some = [past_the_end(sources.random, *pair, len(catalog.kinds))
                for pair in sources.random.sample(pairs, min(10, len(pairs)))]
        cases = [formula_case(*each, f"catalog {place}: ") for each in some if each]
        sheets.append(Sheet(f"Indexes{place}", kinds_and_rows(catalog), cases))
    return [sheet for sheet in sheets if sheet.cases]


# ---- Calculation from leaves.

def calculated_text(found):
    if found == "plain" or found is None:
        return found or "none_of_it"
    dims, grade = found
    pairs = None if dims is None else [(f.numerator, f.denominator) for f in dims]
    return f"of {written.dimensions(pairs)} {grade}"


def leaves_case(formula, kinds, about):
    found = expected.calculated(formula, kinds)
    return None if found == "over" else Case(
        f"calculated (rules-Formula.calculation K {tokens_text(formula)})",
        calculated_text(found), f"{about}formula {formula.hex()}")


def leaves(sources, most):
    found = sections("formulas.bin", stored.FORMULAS) + sources.formulas
    kinds = {image: expected.compiled(read_image(image)).kinds for image, _ in found}
    pairs = [(image, [(formula, kinds[image]) for formula, _ in pairs]) for image, pairs in found]
    return over_catalogs("Leaves", pairs, most, leaves_case)

"""Lone lookups and formulas over lent words, with the twin list after them."""
from oracle import stored
from oracle.holding import expected, written
from oracle.holding.common import SMALL_BLOCKS, sections, sheets_of, words_of
from oracle.holding.formulas import spoiled_formula
from oracle.holding.scratch import Case
from oracle.holding.tables import spoiled_words
from tools.formula import INEXACT, POWER, TOKEN
from tools.image import BLOCK, read_image

# ---- Lookups and formulas over lent words.

TWINS = [9] * 240


def twins_after(answer, twins):
    return answer.twins + twins[len(answer.twins):] if answer.what == "refused" else twins


def lent_refusal(table, twins, rows):
    """5 and 40 of what is lent; None where it is in order."""
    if len(table) < expected.TABLE_WORDS:
        return expected.refused(5, 0, len(table))
    if len(twins) < expected.TWIN_ENTRIES:
        return expected.refused(5, 0, len(twins))
    if not expected.is_table(table) or not expected.rows_are_fine(rows, table[0]):
        return expected.refused(40, 0, 0)
    return None


def lent_pair(answer, twins):
    return f"({written.answered(answer)}, {written.numbers(twins_after(answer, twins))})"


def spoiled_call(random, table, rows):
    """Lent table, twin list and rows, with nothing or something wrong."""
    way = random.randrange(8)
    twins = TWINS[:239] if way in (1, 2) else TWINS
    if way == 2:
        table = table[:9295]
    elif way == 3:
        table = spoiled_words(random, table)
    elif way == 4:
        rows = rows + [0, 4, 0, 0]
    elif way == 5:
        rows = rows + [0]
    return table, twins, rows


def spoiled_lookup(random, lookup, kinds):
    """The lookup with nothing or one thing wrong, and its own refusal: 50 for
    an operation or exponent that is none, 41 for an index past the end."""
    code, left, right, exponent = lookup
    power, way = code in (POWER, INEXACT), random.randrange(6)
    if way == 0 and code == POWER:
        exponent = random.choice([(1, 0), (-2**31, 1), (1, 2**31)])
        return (code, left, right, exponent), expected.refused(50, 0, 0)
    if way == 0 and not power:
        code = random.choice([0, 1, 8, 11, 255])
        return (code, left, right, exponent), expected.refused(50, 0, 0)
    if way == 1:
        left = random.choice([kinds, 65535])
        return (code, left, right, exponent), expected.refused(41, 0, left)
    if way == 2 and not power:
        return (code, left, kinds, exponent), expected.refused(41, 0, kinds)
    return lookup, None


def asked_of_words(power, table, rows, twins, lookup):
    code, left, right, exponent = lookup
    table, rows, twins = (written.numbers(part) for part in (table, rows, twins))
    if not power:
        return f"rules-Lookup.combine {table} {rows} {twins} {code} {left} {right}"
    handed = "inexact" if exponent is None else f"(exact {written.integer(exponent[0])} {exponent[1]})"
    return f"rules-Lookup.power {table} {twins} {left} {handed}"


def lent_lookup(random, catalog, lookup, answer, about):
    """A lone lookup. The Rust's answer is wanted where nothing is wrong; of
    words that are another table nothing is known."""
    power = lookup[0] in (POWER, INEXACT)
    table = words_of(catalog)
    rows = [] if power else expected.row_words(expected.compiled(catalog).rows)
    lent_table, twins, rows = spoiled_call(random, table, rows)
    lookup, own = spoiled_lookup(random, lookup, table[0])
    wanted = lent_refusal(lent_table, twins, [] if power else rows)
    if wanted is None and lent_table != table:
        return None
    asked = asked_of_words(power, lent_table, rows, twins, lookup)
    return Case(f"lent ({asked}) {written.numbers(twins)}", lent_pair(wanted or own or answer, twins),
                f"{about}lookup {lookup}, rows {rows}, {len(lent_table)} words, {len(twins)} twins")


def lent(sources, most):
    """Lone lookups over lent words."""
    found = [(image, pairs) for image, pairs in sections("lookups.bin", stored.LOOKUPS)
             if len(image) <= SMALL_BLOCKS * BLOCK]
    cases, random = [], sources.random
    while len(cases) < most:
        place = random.randrange(len(found))
        image, pairs = found[place]
        case = lent_lookup(random, read_image(image), *random.choice(pairs), f"catalog {place}, ")
        cases += [case] if case else []
    return sheets_of("Lent", cases, 10)


def called_formula(random, image, formula, answer, about):
    catalog = read_image(image)
    table, rows = words_of(catalog), expected.row_words(expected.compiled(catalog).rows)
    lent_table, twins, lent_rows = spoiled_call(random, table, rows)
    wanted = lent_refusal(lent_table, twins, lent_rows)
    if wanted is None and lent_table != table:
        return None
    if random.random() < 0.3:
        formula = spoiled_formula(random, formula)
        if wanted is None:
            wanted = expected.malformed(formula)
            if wanted is None:
                return None
    handed = " ".join(written.numbers(part) for part in (lent_table, lent_rows, twins, formula))
    return Case(f"called (rules-Call.call {handed}) {written.numbers(twins)}",
                lent_pair(wanted or answer, twins), f"{about}formula {formula.hex()}")


def calls(sources, most):
    """Formulas over lent words."""
    found = [(image, [pair for pair in pairs if len(pair[0]) <= 12 * TOKEN])
             for image, pairs in sections("formulas.bin", stored.FORMULAS)]
    cases, random = [], sources.random
    while len(cases) < most:
        place = random.randrange(len(found))
        image, pairs = found[place]
        case = called_formula(random, image, *random.choice(pairs), f"catalog {place}, ")
        cases += [case] if case else []
    return sheets_of("Calls", cases, 10)

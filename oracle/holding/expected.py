"""Answers that the Rust has no word for, worked out here from document 01.

Images that meet 1 to 5, token lists that meet 50, the words of a table and
which words are one (40), and what a catalog that compiles comes to. Each is
written from the document's text and layout, not from the definitions that it
is held against.
"""
import math
import struct
from fractions import Fraction

from oracle.ask import Answer, CompiledKind, CompiledRow
from tools.formula import ABSOLUTE, COMPARE, INEXACT, KIND, MOST_TOKENS, NUMBER, POWER, TOKEN
from tools.image import (BLOCK, ID, KIND_SIZE, KINDS_PER_BLOCK, MOST_KINDS, MOST_ROWS, ROW_SIZE,
                         ROWS_PER_BLOCK, SCHEMA, SUM, block_sum)
from tools.records import BASES

MOST_BLOCKS = 121
TABLE_WORDS, TWIN_ENTRIES = 9296, 240
KIND_WORDS, ROW_WORDS, HEAD_WORDS = 32, 4, 16
FIRST_ROW = HEAD_WORDS + MOST_KINDS * KIND_WORDS
NONE = 65535
GREATEST = 2**31 - 1
MOST_TERMS = 32


def refused(number, place, *values):
    return Answer("refused", number=number, place=place, values=list(values))


# ---- A catalog that compiles, as the Rust tells it.

def lowest_terms(numerator, denominator):
    shared = math.gcd(numerator, denominator)
    return numerator // shared, denominator // shared


def bases_present(exponents):
    """Base, numerator and denominator in lowest terms, of each base that is
    there; None for unresolved dimensions."""
    if exponents is None:
        return None
    return [(base, *lowest_terms(*exponent)) for base, exponent in enumerate(exponents)
            if exponent[0]]


def rows_in_force(catalog, place):
    rows = []
    for declared, row in enumerate(catalog.rows):
        left, right, result = place[row.left], place[row.right], place[row.result]
        rows.append(CompiledRow(left, row.operation, right, result, declared))
        if row.commutative and left != right:
            rows.append(CompiledRow(right, row.operation, left, result, declared))
    return rows


def compiled(catalog):
    place = {kind.id: index for index, kind in enumerate(catalog.kinds)}
    rates = {kind.rate_of: index for index, kind in enumerate(catalog.kinds) if kind.rate_of}
    named = {kind.difference for kind in catalog.kinds}
    kinds = []
    for kind in catalog.kinds:
        role = "point" if kind.difference else "difference" if kind.id in named else "linear"
        kinds.append(CompiledKind(role, bases_present(kind.exponents), kind.grade,
                                  place.get(kind.difference), place.get(kind.rate_of),
                                  rates.get(kind.id)))
    return Answer("compiled", kinds=kinds, rows=rows_in_force(catalog, place))


def header_kinds(catalog):
    """The dimensionless kind and the time kind, None where undeclared."""
    place = {kind.id: index for index, kind in enumerate(catalog.kinds)}
    return place.get(catalog.dimensionless), place.get(catalog.time)


# ---- Images: 1, 5, 2, 3, 4.

def image_blocks(kinds, rows):
    return 1 + -(-kinds // KINDS_PER_BLOCK) + -(-rows // ROWS_PER_BLOCK)


def wrong_id_byte(image, start):
    """The first byte that no id could have after the bytes before it."""
    ended = False
    for place in range(start, start + ID):
        byte = image[place]
        if byte and (ended or not 33 <= byte <= 126):
            return [place]
        ended = ended or not byte
    return []


def wrong_unnamed(image, start, end):
    return [place for place in range(start, end) if image[place]]


def wrong_exponents(image, start, flag):
    if flag == 0:
        return wrong_unnamed(image, start, start + 4 * BASES)
    if flag > 1:
        return []
    places = range(start + 2, start + 4 * BASES, 4)
    return [place for place in places
            if not 1 <= struct.unpack_from("<H", image, place)[0] <= 32767]


def wrong_kind(image, start):
    wrong = [place for field in (0, 32, 64) for place in wrong_id_byte(image, start + field)]
    wrong += wrong_exponents(image, start + 96, image[start + 144])
    wrong += [start + 144] if image[start + 144] > 1 else []
    wrong += [start + 145] if image[start + 145] > 3 else []
    return wrong + wrong_unnamed(image, start + 146, start + KIND_SIZE)


def wrong_row(image, start):
    wrong = [place for field in (0, 32, 64) for place in wrong_id_byte(image, start + field)]
    wrong += [start + 96] if image[start + 96] > 3 else []
    wrong += [start + 97] if image[start + 97] > 1 else []
    return wrong + wrong_unnamed(image, start + 98, start + ROW_SIZE)


def wrong_blocks(image, first, count, block_type, size, per_block, wrong_record):
    """The wrong bytes of the blocks of one type, which begin at block first."""
    wrong = []
    for block in range(-(-count // per_block)):
        start, held = (first + block) * BLOCK, min(per_block, count - block * per_block)
        wrong += [start + 2] if image[start + 2] != block_type else []
        wrong += [start + 3] if image[start + 3] != held else []
        for record in range(held):
            wrong += wrong_record(image, start + 4 + record * size)
        wrong += wrong_unnamed(image, start + 4 + held * size, start + SUM)
    return wrong


def wrong_bytes(image):
    kinds, rows = struct.unpack_from("<HH", image, 8)
    wrong = wrong_unnamed(image, 2, 4)
    if kinds > MOST_KINDS or len(image) != BLOCK * image_blocks(kinds, rows):
        return wrong + [8]
    if rows > MOST_ROWS:
        return wrong + [10]
    wrong += wrong_id_byte(image, 12) + wrong_id_byte(image, 44) + wrong_unnamed(image, 76, SUM)
    first_row_block = 1 + -(-kinds // KINDS_PER_BLOCK)
    wrong += wrong_blocks(image, 1, kinds, 1, KIND_SIZE, KINDS_PER_BLOCK, wrong_kind)
    wrong += wrong_blocks(image, first_row_block, rows, 2, ROW_SIZE, ROWS_PER_BLOCK, wrong_row)
    return wrong


def block_is_wrong(image, block):
    data = image[block * BLOCK:(block + 1) * BLOCK]
    place, = struct.unpack_from("<H", data, 0)
    total, = struct.unpack_from("<I", data, SUM)
    return place != block or total != block_sum(data)


def image_refusal(image, room=TABLE_WORDS):
    """Refusal 1 to 5 of an image; None where it has none of them."""
    if not image or len(image) % BLOCK or len(image) > MOST_BLOCKS * BLOCK:
        return refused(1, 0, len(image))
    if room < TABLE_WORDS:
        return refused(5, 0, room)
    for block in range(len(image) // BLOCK):
        if block_is_wrong(image, block):
            return refused(2, block, block)
    schema, = struct.unpack_from("<I", image, 4)
    if schema != SCHEMA:
        return refused(3, 0, schema)
    wrong = wrong_bytes(image)
    return refused(4, min(wrong), min(wrong)) if wrong else None


# ---- Token lists: 50.

def exponent_fits(numerator, denominator):
    """Within the 32-bit limits once it is in lowest terms."""
    if denominator == 0:
        return False
    numerator, denominator = lowest_terms(numerator, denominator)
    return abs(numerator) <= GREATEST and denominator <= GREATEST


def token_is_bad(token):
    code, zero, kind, numerator, denominator = struct.unpack("<BBHiI", token)
    if code > COMPARE or zero or (kind and code != KIND):
        return True
    if code == POWER:
        return not exponent_fits(numerator, denominator)
    return bool(numerator or denominator)


def terms_after(code, terms):
    """How many terms there are after a token; None where it takes too many or
    leaves more than can be held."""
    if code in (NUMBER, KIND):
        return terms + 1 if terms < MOST_TERMS else None
    if code in (POWER, INEXACT, ABSOLUTE):
        return terms if terms >= 1 else None
    return terms - 1 if terms >= 2 else None


def malformed_at(formula):
    """The place of refusal 50; None for a formula that is well formed."""
    count, rest = divmod(len(formula), TOKEN)
    if rest or not 1 <= count <= MOST_TOKENS:
        return 0
    terms = 0
    for place in range(count):
        token = formula[TOKEN * place:TOKEN * (place + 1)]
        terms = None if token_is_bad(token) else terms_after(token[0], terms)
        if terms is None:
            return place
    return None if terms == 1 else count


def malformed(formula):
    place = malformed_at(formula)
    return None if place is None else refused(50, place, place)


# ---- Tables: the words that a compilation writes, and 40.

def kind_words(kind):
    exponents = [(0, 1)] * BASES
    for base, numerator, denominator in kind.exponents or []:
        exponents[base] = numerator % 2**32, denominator
    links = [NONE if index is None else index
             for index in (kind.difference, kind.rate_of, kind.rate)]
    role = ("linear", "point", "difference").index(kind.role)
    return ([word for exponent in exponents for word in exponent]
            + [int(kind.exponents is not None), kind.grade, role, *links, 0, 0])


def row_words(rows):
    return [word for row in rows for word in (row.left, row.operation, row.right, row.result)]


def table_words(answer, one, time):
    """docs/TABLE.md's layout of what the Rust compiled."""
    header = [len(answer.kinds), len(answer.rows)]
    header += [NONE if index is None else index for index in (one, time)]
    words = header + [0] * (HEAD_WORDS - len(header))
    for kind in answer.kinds:
        words += kind_words(kind)
    words += [0] * (FIRST_ROW - len(words)) + row_words(answer.rows)
    return words + [0] * (TABLE_WORDS - len(words))


def is_link(word, kinds):
    return word < kinds or word == NONE


def exponent_is_declared(numerator, denominator):
    numerator -= 2**32 if numerator >= 2**31 else 0
    return (-32768 <= numerator <= 32767 and 1 <= denominator <= 32767
            and math.gcd(numerator, denominator) == 1)


def kind_is_fine(words, kinds):
    flag, grade, role, difference, rate_of, rate = words[24:30]
    if flag > 1 or grade > 3 or role > 2:
        return False
    if (difference >= kinds) if role == 1 else (difference != NONE):
        return False
    if not is_link(rate_of, kinds) or not is_link(rate, kinds):
        return False
    return not flag or all(exponent_is_declared(*words[2 * base:2 * base + 2])
                           for base in range(BASES))


def rows_are_fine(words, kinds):
    rows = [words[start:start + ROW_WORDS] for start in range(0, len(words), ROW_WORDS)]
    return all(len(row) == ROW_WORDS and row[0] < kinds and row[1] < 4 and row[2] < kinds
               and row[3] < kinds for row in rows)


def is_table(words):
    kinds, rows = words[:2]
    if kinds > MOST_KINDS or rows > 2 * MOST_ROWS:
        return False
    if not is_link(words[2], kinds) or not is_link(words[3], kinds):
        return False
    starts = range(HEAD_WORDS, HEAD_WORDS + kinds * KIND_WORDS, KIND_WORDS)
    return (all(kind_is_fine(words[start:start + KIND_WORDS], kinds) for start in starts)
            and rows_are_fine(words[FIRST_ROW:FIRST_ROW + ROW_WORDS * rows], kinds))


# ---- Powers: 28.

def power_leaves_limits(kind, exponent):
    """Whether 28 is the answer: no point, scalar, resolved, an exponent that is
    not one, and a power of which some exponent leaves the limits."""
    power = Fraction(*exponent)
    if kind.role == "point" or kind.grade or kind.exponents is None or power == 1:
        return False
    powers = [Fraction(n, d) * power for _, n, d in kind.exponents]
    return any(not exponent_fits(each.numerator, each.denominator) for each in powers)


# ---- Calculation from leaves: a number; dimensions (None where unresolved) and
# grade; None where a rule has no answer.

def grade_of(operation, left, right):
    """01's rule, operations 0 Mul, 1 Div, 2 Dot, 3 Wedge; None for none."""
    either, neither = left == 0 or right == 0, left > 0 and right > 0
    grade = {0: left + right if either else None, 1: left if right == 0 else None,
             2: abs(left - right) if neither else None,
             3: left + right if neither else None}[operation]
    return None if grade is None or grade > 3 else grade


def raised(term, exponent):
    dims, grade = term
    if exponent == 1:
        return term
    return None if dims is None else [power * exponent for power in dims], 0


def multiplied(operation, left, right):
    if left == "plain" and right == "plain":
        return "plain"
    if "plain" in (left, right):
        if operation > 1:
            return None
        if right == "plain":
            return left
        return right if operation == 0 else raised(right, Fraction(-1))
    grade = grade_of(operation, left[1], right[1])
    if grade is None:
        return None
    if left[0] is None or right[0] is None:
        return None, grade
    sign = -1 if operation == 1 else 1
    return [a + sign * b for a, b in zip(left[0], right[0])], grade


def leaf(kind):
    if kind.exponents is None:
        return None, kind.grade
    dims = [Fraction(0)] * BASES
    for base, numerator, denominator in kind.exponents:
        dims[base] = Fraction(numerator, denominator)
    return dims, kind.grade


def calculated_step(code, exponent, stack, kinds, index):
    """The term that a token leaves; the stack's terms that it takes go."""
    if code == NUMBER:
        return "plain"
    if code == KIND:
        return leaf(kinds[index])
    last = stack.pop()
    if code in (POWER, INEXACT, ABSOLUTE):
        if last == "plain" or code == ABSOLUTE:
            return last
        return raised(last, exponent) if code == POWER else None
    left = stack.pop()
    return multiplied(code - 4, left, last) if 4 <= code <= 7 else left


def over_limits(term):
    return term != "plain" and term[0] is not None and any(
        not exponent_fits(power.numerator, power.denominator) for power in term[0])


def calculated(formula, kinds):
    """What a well-formed formula comes to; "over" where an exponent on the way
    leaves the limits, of which the calculation says nothing."""
    stack = []
    for place in range(0, len(formula), TOKEN):
        code, _, index, numerator, denominator = struct.unpack_from("<BBHiI", formula, place)
        exponent = Fraction(numerator, denominator) if code == POWER else None
        term = calculated_step(code, exponent, stack, kinds, index)
        if term is None:
            return None
        if over_limits(term):
            return "over"
        stack.append(term)
    return stack[0]

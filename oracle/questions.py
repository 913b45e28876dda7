"""Random lookups, formulas and exponents, with the answers that come back."""
from oracle.ask import combine_line, power_line
from tools.formula import (ABSOLUTE, COMPARE, INEXACT, KIND, MOST_TOKENS, NUMBER, POWER, TOKEN,
                           token)

GREATEST = 2147483647
POWERS = [(0, 1), (1, 1), (2, 1), (3, 1), (-1, 1), (-2, 1), (1, 2), (1, 3), (2, 3), (-1, 2),
          (2, 2), (4, 2), (0, 7), (-6, 4), (3, 2)]
END_POWERS = [(GREATEST, 1), (-GREATEST, 1), (1, GREATEST), (-1, GREATEST),
              (GREATEST, GREATEST), (-2**31, 2), (2, 2**31), (32767, 32767), (GREATEST, 2)]
BINARY = (2, 3, 4, 5, 6, 7)


# ---- Lookups: (code, left, right, exponent), the exponent None for the
# inexact power and for everything that is no power.

def random_exponent(random):
    return random.choice(END_POWERS if random.random() < 0.12 else POWERS)


def all_lookups(random, count, powers_each):
    """Every pair under every operation, and some powers of every kind."""
    lookups = [(code, left, right, None) for code in BINARY
               for left in range(count) for right in range(count)]
    for base in range(count):
        lookups.append((INEXACT, base, 0, None))
        lookups += [(POWER, base, 0, random_exponent(random)) for _ in range(powers_each)]
    return lookups


def lookup_line(lookup):
    code, left, right, exponent = lookup
    if code in (POWER, INEXACT):
        return power_line(left, exponent)
    return combine_line(code, left, right)


def answered(oracle, lookups):
    """Lookups with answers, those left out that aren't asked of the Rust."""
    answers = oracle.ask_all([lookup_line(lookup) for lookup in lookups])
    return [pair for pair in zip(lookups, answers) if pair[1].what != "not-asked"]


def lookup_class(lookup, answer, rows):
    """By answer and operation, and by whether a row is there for the pair:
    what is rare in one class isn't crowded out by another."""
    code, left, right, _ = lookup
    return answer.name, code, (left, code - 4, right) in rows


def spread(random, items, classes, most):
    """At most so many of the items, their classes taken in turn."""
    groups = {}
    for item, name in zip(items, classes):
        groups.setdefault(name, []).append(item)
    for group in groups.values():
        random.shuffle(group)
    chosen, names = [], sorted(groups)
    random.shuffle(names)
    while len(chosen) < most and any(groups[name] for name in names):
        for name in names:
            if groups[name] and len(chosen) < most:
                chosen.append(groups[name].pop())
    return chosen


def random_lookups(random, oracle, compiled, most):
    """Over the catalog that the oracle holds, which it told as `compiled`."""
    rows = {(row.left, row.operation, row.right) for row in compiled.rows}
    lookups = all_lookups(random, len(compiled.kinds), 4)
    if len(lookups) > 6000:
        lookups = random.sample(lookups, 6000)
        lookups += [(operation + 4, left, right, None) for left, operation, right in sorted(rows)]
        lookups = list(dict.fromkeys(lookups))
    pairs = answered(oracle, lookups)
    return spread(random, pairs, [lookup_class(*pair, rows) for pair in pairs], most)


# ---- Formulas, grown from parts whose answer is known.

def leaf(random, count):
    if random.random() < 0.15:
        return token(NUMBER)
    return token(KIND, random.randrange(count))


def power_token(random):
    if random.random() < 0.08:
        return token(INEXACT)
    numerator, denominator = random_exponent(random)
    return token(POWER, 0, numerator, denominator)


def grown(random, parts):
    """One more operation over parts."""
    if random.random() < 0.3:
        tail = token(ABSOLUTE) if random.random() < 0.4 else power_token(random)
        return random.choice(parts) + tail
    left, right = random.choice(parts), random.choice(parts)
    if random.random() < 0.35:
        right = left
    code = random.choice([2, 3, 4, 4, 4, 5, 5, 5, 6, 7, COMPARE])
    return left + right + token(code)


def terms_first(random, count):
    """Up to 32 terms of one kind, and only then what joins them."""
    kind, terms = random.randrange(count), random.choice([2, 5, 31, 32])
    code = random.choice([2, 3, 4, COMPARE])
    return token(KIND, kind) * terms + token(code) * (terms - 1)


def chain(random, count):
    """A sum or product carried on and on, to the last token that is allowed."""
    kind, code = token(KIND, random.randrange(count)), random.choice([2, 3, 5])
    steps = random.choice([12, 63])
    return kind + (kind + token(code)) * steps + token(ABSOLUTE)


def random_formulas(random, oracle, count, most):
    """Well-formed formulas with answers: parts that are given a kind grow on,
    and some that are refused grow too, so that a refusal lies deep inside."""
    parts = [leaf(random, count) for _ in range(6)] + [token(KIND, k) for k in range(count)]
    found = {}
    for tries in range(12 * most):
        if tries % 40 == 0:
            formula = terms_first(random, count)
        elif tries % 40 == 20:
            formula = chain(random, count)
        elif tries % 25 == 1:
            formula = random.choice(parts)
        else:
            formula = grown(random, parts)
        if len(formula) > TOKEN * MOST_TOKENS or formula in found:
            continue
        answer = oracle.formula(formula)
        if answer.what == "not-asked":
            continue
        found[formula] = answer
        if answer.what != "refused" or random.random() < 0.06:
            parts.append(formula)
    given = [item for item in found.items() if item[1].what != "refused"]
    refused = [item for item in found.items() if item[1].what == "refused"]
    chosen = spread(random, given, [formula_class(*item) for item in given], most // 2)
    return chosen + spread(random, refused, [formula_class(*item) for item in refused],
                           most - len(chosen))


def formula_class(formula, answer):
    """By answer and by how much of the formula was run."""
    run = answer.place if answer.what == "refused" else len(formula) // TOKEN
    return answer.name, sum(run > bound for bound in (4, 20))


# ---- Exponents.

def declared_exponent(random):
    """Within a kind record's limits, its ends not seldom."""
    ends = [0, 1, -1, 32767, -32768, -32767, 32766]
    numerator = random.choice(ends) if random.random() < 0.3 else random.randint(-32768, 32767)
    if random.random() < 0.3:
        numerator = random.randint(-12, 12)
    denominator = random.choice([1, 1, 2, 3, 32767, 32766, random.randint(1, 32767),
                                 random.randint(1, 12)])
    return numerator, denominator


def wide_exponent(random):
    """Within the 32-bit limits, its ends not seldom."""
    ends = [GREATEST, -GREATEST, GREATEST - 1, 1, -1, 0, 65536, -65537]
    if random.random() < 0.6:
        numerator = random.choice(ends)
    else:
        numerator = random.randint(-GREATEST, GREATEST)
    denominator = random.choice([1, 1, 1, 2, 3, GREATEST, GREATEST - 1, 65536, 46341,
                                 random.randint(1, GREATEST)])
    return numerator, denominator


def any_exponent(random):
    return random.choice([declared_exponent, declared_exponent, wide_exponent])(random)


def any_dimensions(random, exponent):
    return [exponent(random) if random.random() < 0.5 else (0, 1) for _ in range(12)]


def written(exponents):
    return ",".join(f"{numerator}/{denominator}" for numerator, denominator in exponents)


def one_base(exponent):
    return written([exponent] + [(0, 1)] * 11)

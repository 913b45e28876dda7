"""Random catalogs, most of which compile, and faults put into them."""
import copy

from oracle.ask import combine_line
from tools.image import write_image
from tools.records import ABSENT, BASES, Catalog, Kind, Row

LETTERS = "abcdefghijklmnopqrstuvwxyz"
ODD = "!\"#$%&'()*+,-./0:;<=>?@A[\\]^_`a{|}~"
SMALL = [(-3, 1), (-2, 1), (-1, 1), (1, 1), (1, 1), (2, 1), (2, 1), (3, 1), (1, 2), (-1, 2), (2, 3)]
ENDS = [(32767, 1), (-32768, 1), (1, 32767), (-32768, 32767), (32766, 32767)]
MUL, DIV, DOT, WEDGE = range(4)
ROW_CODES = (4, 5, 6, 7)


def fresh_id(random, taken):
    """An id that no kind has: mostly short, some odd, some of 32 bytes that
    differ at their end only."""
    while True:
        shape = random.random()
        if shape < 0.7:
            name = "".join(random.choice(LETTERS) for _ in range(random.randint(1, 5)))
        elif shape < 0.85:
            name = "".join(random.choice(ODD) for _ in range(random.randint(1, 4)))
        elif shape < 0.95:
            name = "k" * random.randint(1, 4) + random.choice(LETTERS)
        else:
            name = "long" * 7 + "".join(random.choice(LETTERS) for _ in range(4))
        if name not in taken:
            taken.add(name)
            return name


def unreduced(random, exponent):
    """The same fraction, now and then not in lowest terms."""
    numerator, denominator = exponent
    factor = random.choice([1, 1, 1, 1, 2, 3, 7])
    if abs(numerator * factor) > 32767 or denominator * factor > 32767:
        return exponent
    return numerator * factor, denominator * factor


def random_dimensions(random, bases):
    exponents = [ABSENT] * BASES
    for base in bases:
        if random.random() < 0.55:
            pool = ENDS if random.random() < 0.02 else SMALL
            exponents[base] = random.choice(pool)
    return exponents


def over(exponents, divisor):
    """Exponents less those of the divisor, if they fit a record."""
    result = []
    for (a, b), (c, d) in zip(exponents, divisor):
        top, bottom = a * d - c * b, b * d
        if top == 0:
            top, bottom = ABSENT
        if abs(top) > 32767 or bottom > 32767:
            return None
        result.append((top, bottom))
    return result


def dimensions_and_grade(kind):
    return kind.exponents, kind.grade


class Builder:
    """The kinds of one catalog, before they are shuffled."""

    def __init__(self, random, size):
        self.random, self.size = random, size
        self.taken, self.kinds = set(), []
        self.bases = random.sample(range(BASES), random.choice([1, 1, 2, 2, 3, 3, 4, 12]))
        self.pool = [random_dimensions(random, self.bases) for _ in range(max(2, size // 3))]
        self.catalog = Catalog()
        self.duration = None

    def add(self, exponents, grade=0, difference="", rate_of=""):
        if exponents is not None:
            exponents = [unreduced(self.random, exponent) for exponent in exponents]
        kind = Kind(id=fresh_id(self.random, self.taken), exponents=exponents, grade=grade,
                    difference=difference, rate_of=rate_of)
        self.kinds.append(kind)
        return kind

    def dimensionless(self):
        if self.random.random() < 0.75:
            grade = 1 if self.random.random() < 0.05 else 0
            self.catalog.dimensionless = self.add([ABSENT] * BASES, grade).id

    def time(self):
        if self.random.random() < 0.8:
            exponents = [ABSENT] * BASES
            exponents[self.random.choice(self.bases)] = (1, 1)
            if self.random.random() < 0.04:
                exponents = None
            grade = self.random.randint(1, 3) if self.random.random() < 0.04 else 0
            self.duration = self.add(exponents, grade)
            self.catalog.time = self.add(exponents, 0, self.duration.id).id

    def linear(self):
        grade = self.random.choice([0, 0, 0, 0, 1, 1, 2, 3])
        exponents = None if self.random.random() < 0.06 else self.random.choice(self.pool)
        self.add(exponents, grade)

    def product_of_two(self):
        """A kind that fits a product of others, so that products are found."""
        left, right = self.random.choice(self.kinds), self.random.choice(self.kinds)
        if left.exponents is None or right.exponents is None:
            return
        turned = [(-n, d) for n, d in right.exponents]
        exponents = over(left.exponents, self.random.choice([right.exponents, turned]))
        if exponents is not None:
            self.add(exponents, self.random.choice([0, 0, left.grade, right.grade]))

    def twin(self):
        kind = self.random.choice(self.kinds)
        self.add(*dimensions_and_grade(kind))

    def point(self):
        target = self.random.choice(self.kinds)
        if target.difference or target.id == self.catalog.dimensionless:
            return
        grade = target.grade if self.random.random() < 0.85 else self.random.randint(0, 3)
        self.add(target.exponents, grade, target.id)

    def rate(self):
        target = self.random.choice(self.kinds)
        if self.duration is None or self.duration.exponents is None or target.exponents is None:
            return
        rated = any(kind.rate_of == target.id for kind in self.kinds)
        exponents = over(target.exponents, self.duration.exponents)
        if not target.difference and not rated and exponents is not None:
            self.add(exponents, target.grade, "", target.id)

    def built(self):
        self.dimensionless()
        self.time()
        self.linear()
        steps = [self.linear, self.linear, self.product_of_two, self.product_of_two, self.twin,
                 self.twin, self.point, self.rate]
        tries = 0
        while len(self.kinds) < self.size and tries < 8 * self.size:
            self.random.choice(steps)()
            tries += 1
        self.catalog.kinds = self.kinds[:240]
        self.random.shuffle(self.catalog.kinds)
        return self.catalog


def twin_pairs(random, oracle, catalog, most):
    """Products that the Rust leaves to a row, with the kinds that fit."""
    if oracle.image(write_image(catalog)).what != "compiled":
        return []
    count = len(catalog.kinds)
    pairs = [(l, op, r) for l in range(count) for op in range(4) for r in range(count)]
    if len(pairs) > most:
        pairs = random.sample(pairs, most)
    answers = oracle.ask_all([combine_line(ROW_CODES[op], l, r) for l, op, r in pairs])
    return [(pair, answer.twins) for pair, answer in zip(pairs, answers) if answer.number == 44]


def add_rows(random, oracle, catalog, count):
    """Rows that choose among twins; no pair twice."""
    choices = twin_pairs(random, oracle, catalog, 4000)
    random.shuffle(choices)
    ids = [kind.id for kind in catalog.kinds]
    used = set()
    for (left, op, right), twins in choices:
        if len(catalog.rows) >= count:
            return
        commutative = int(op != DIV and random.random() < 0.5)
        pairs = {(left, op, right)} | ({(right, op, left)} if commutative else set())
        if pairs & used:
            continue
        used |= pairs
        catalog.rows.append(Row(ids[left], ids[right], ids[random.choice(twins)], op, commutative))


def random_catalog(random, oracle, size, rows=None):
    catalog = Builder(random, size).built()
    add_rows(random, oracle, catalog, random.choice([0, 0, 1, 2, 4, 7]) if rows is None else rows)
    return catalog


# ---- Faults. Each takes a catalog and changes it in place, so that the Rust
# may find the fault of that number; what it does find is asked afterwards.

def any_kind(random, catalog, test=lambda kind: True):
    fitting = [kind for kind in catalog.kinds if test(kind)]
    return random.choice(fitting) if fitting else None


def is_point(kind):
    return bool(kind.difference)


def is_other(kind):
    return not kind.difference


def unknown_id(random, catalog):
    """An id that no kind has, often one that differs little from one."""
    taken = {kind.id for kind in catalog.kinds}
    near = random.choice(catalog.kinds).id
    for name in (near[:-1], near + "x", near.upper(), near[:31] + "~"):
        if name and name not in taken and len(name) <= 32 and random.random() < 0.5:
            return name
    return fresh_id(random, taken)


def other_dimensions(random, exponents):
    if exponents is None or random.random() < 0.3:
        return None if exponents is not None else [ABSENT] * BASES
    changed = list(exponents)
    base = random.randrange(BASES)
    changed[base] = (1, 1) if changed[base][0] == 0 else ABSENT
    return changed


def empty_id(random, catalog):
    random.choice(catalog.kinds).id = ""


def repeated_id(random, catalog):
    if len(catalog.kinds) > 1:
        first, later = random.sample(catalog.kinds, 2)
        later.id = first.id


def unknown_reference(random, catalog):
    name, kind = unknown_id(random, catalog), random.choice(catalog.kinds)
    place = random.randrange(6)
    if place == 0:
        kind.difference = name
    elif place == 1:
        kind.rate_of = name
    elif place == 2:
        catalog.dimensionless = name
    elif place == 3:
        catalog.time = name
    else:
        row = random_row(random, catalog)
        setattr(row, random.choice(["left", "right", "result"]), random.choice([name, name, ""]))
        put_row(random, catalog, row)


def difference_of_other_dimensions(random, catalog):
    point = any_kind(random, catalog, is_point)
    if point:
        point.exponents = other_dimensions(random, point.exponents)


def difference_that_is_a_point(random, catalog):
    point, kind = any_kind(random, catalog, is_point), random.choice(catalog.kinds)
    way = random.randrange(3)
    if way == 0:
        kind.difference = kind.id
    elif point and way == 1:
        kind.difference, kind.exponents = point.id, point.exponents
    elif point:
        target = next((k for k in catalog.kinds if k.id == point.difference), kind)
        target.difference = unknown_id(random, catalog)


def other_dimensionless(random, catalog):
    catalog.dimensionless = random.choice(catalog.kinds).id


def other_time(random, catalog):
    if random.random() < 0.3 and catalog.time:
        point = next((kind for kind in catalog.kinds if kind.id == catalog.time), None)
        if point:
            point.grade = random.randint(1, 3)
    else:
        catalog.time = random.choice(catalog.kinds).id


def rate_without_time(random, catalog):
    catalog.time = ""
    if not any(kind.rate_of for kind in catalog.kinds):
        random.choice(catalog.kinds).rate_of = random.choice(catalog.kinds).id


def rate_with_a_point(random, catalog):
    point, other = any_kind(random, catalog, is_point), random.choice(catalog.kinds)
    if point and random.random() < 0.5:
        point.rate_of = other.id
    elif point:
        other.rate_of = point.id


def unresolved_in_rate_or_row(random, catalog):
    way = random.randrange(4)
    rate = any_kind(random, catalog, lambda kind: kind.rate_of)
    if way == 0 and rate:
        rate.exponents = None
    elif way == 1 and rate:
        target = any_kind(random, catalog, lambda kind: kind.id == rate.rate_of)
        if target:
            target.exponents = None
    elif way == 2:
        kind = any_kind(random, catalog, lambda k: is_other(k) and not k.rate_of)
        if kind:
            kind.exponents = None
            put_row(random, catalog, random_row(random, catalog))
    else:
        unresolved = any_kind(random, catalog, lambda kind: kind.exponents is None)
        if unresolved:
            row = random_row(random, catalog)
            setattr(row, random.choice(["left", "right", "result"]), unresolved.id)
            put_row(random, catalog, row)


def rate_that_misses(random, catalog):
    rate = any_kind(random, catalog, lambda kind: kind.rate_of)
    if rate is None:
        random.choice(catalog.kinds).rate_of = random.choice(catalog.kinds).id
    elif random.random() < 0.5:
        rate.grade = (rate.grade + random.randint(1, 3)) % 4
    else:
        rate.rate_of = random.choice(catalog.kinds).id


def second_rate(random, catalog):
    rate = any_kind(random, catalog, lambda kind: kind.rate_of)
    if rate and len(catalog.kinds) < 240:
        taken = {kind.id for kind in catalog.kinds}
        second = copy.deepcopy(rate)
        second.id = fresh_id(random, taken)
        catalog.kinds.insert(random.randrange(len(catalog.kinds) + 1), second)


def commutative_quotient(random, catalog):
    row = random_row(random, catalog)
    row.operation, row.commutative = DIV, 1
    if random.random() < 0.3:
        row.left = unknown_id(random, catalog)
    put_row(random, catalog, row)


def row_with_a_point(random, catalog):
    point = any_kind(random, catalog, is_point)
    if point:
        row = random_row(random, catalog)
        setattr(row, random.choice(["left", "right", "result"]), point.id)
        put_row(random, catalog, row)


def row_without_a_grade(random, catalog):
    graded = any_kind(random, catalog, lambda k: is_other(k) and k.exponents and k.grade)
    if graded:
        row = random_row(random, catalog)
        way = random.randrange(3)
        if way == 0:
            row.left, row.right = graded.id, graded.id
            row.operation = random.choice([MUL, DIV])
        elif way == 1:
            row.right, row.operation = graded.id, random.choice([DIV, DOT, WEDGE])
        else:
            row.left, row.operation = graded.id, random.choice([DOT, WEDGE])
        put_row(random, catalog, row)


def row_that_misses(random, catalog):
    row = random_row(random, catalog)
    kind = any_kind(random, catalog, lambda k: is_other(k) and k.exponents)
    if kind:
        row.result = kind.id
    put_row(random, catalog, row)


def row_already_derived(random, catalog):
    """A row for what is derived anyway: neutral, a kind by itself, a rate."""
    row = random_row(random, catalog)
    rate = any_kind(random, catalog, lambda kind: kind.rate_of)
    clock = any_kind(random, catalog, lambda kind: kind.id == catalog.time)
    scalar = any_kind(random, catalog, lambda k: is_other(k) and k.exponents and not k.grade)
    way = random.randrange(4)
    if way == 0 and rate and clock:
        row = Row(rate.id, clock.difference, rate.rate_of, MUL, random.randrange(2))
    elif way == 1 and rate and clock:
        row = Row(rate.rate_of, clock.difference, rate.id, DIV, 0)
    elif way == 2 and scalar and catalog.dimensionless:
        row = Row(scalar.id, catalog.dimensionless, scalar.id, random.choice([MUL, DIV]), 0)
    elif scalar and catalog.dimensionless:
        row = Row(scalar.id, scalar.id, catalog.dimensionless, DIV, 0)
    put_row(random, catalog, row)


def second_row(random, catalog):
    if catalog.rows:
        row = copy.deepcopy(random.choice(catalog.rows))
        if row.operation != DIV and random.random() < 0.6:
            row.commutative = 1
            if random.random() < 0.5:
                row.left, row.right = row.right, row.left
        put_row(random, catalog, row)


FAULTS = {
    10: empty_id,
    11: repeated_id,
    12: unknown_reference,
    13: difference_of_other_dimensions,
    14: difference_that_is_a_point,
    15: other_dimensionless,
    16: other_time,
    17: rate_without_time,
    18: rate_with_a_point,
    19: unresolved_in_rate_or_row,
    20: rate_that_misses,
    21: second_rate,
    22: commutative_quotient,
    23: row_with_a_point,
    24: row_without_a_grade,
    25: row_that_misses,
    26: row_already_derived,
    27: second_row,
}


def random_row(random, catalog):
    """Any kinds, more often those that products are made of."""
    def kind():
        plain = any_kind(random, catalog, lambda k: is_other(k) and k.exponents)
        return (plain if plain and random.random() < 0.85 else random.choice(catalog.kinds)).id
    operation = random.choice([MUL, MUL, MUL, DIV, DIV, DOT, WEDGE])
    commutative = int(operation != DIV and random.random() < 0.3)
    return Row(kind(), kind(), kind(), operation, commutative)


def put_row(random, catalog, row):
    if len(catalog.rows) < 200:
        catalog.rows.insert(random.randrange(len(catalog.rows) + 1), row)


def with_fault(random, catalog, number):
    """A copy with the fault of that number, and sometimes with others: which
    of them is found first is part of the answer."""
    changed = copy.deepcopy(catalog)
    others = random.choice([0, 0, 0, 1, 1, 2])
    numbers = [number] + [random.choice(sorted(FAULTS)) for _ in range(others)]
    for each in numbers:
        FAULTS[each](random, changed)
    return changed

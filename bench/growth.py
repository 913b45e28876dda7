"""Catalogs and formulas of growing size, made from nothing but their numbers.

Kinds have places in a lattice of three bases, nearest to the origin first. Half
of the kinds are alone with their dimensions, the others are twins, two for each
dimension; rows choose among twins.
"""
import itertools
import os

from tools.formula import KIND, token
from tools.image import write_image
from tools.records import Catalog, Kind, Row, dimensions

KINDS = (30, 60, 120, 240)
ROWS = (0, 50, 100, 200)
TOKENS = (17, 33, 65, 125)
MUL, DIV = 4, 5
PAIRS = 100


def lattice(count):
    """The first places, by their distance from the origin, which is left out:
    a kind of dimension one is cheaper than the rest."""
    places = itertools.product(range(-4, 5), repeat=3)
    return sorted(places, key=lambda place: (sum(map(abs, place)), place))[1:count + 1]


def added(left, right):
    return tuple(a + b for a, b in zip(left, right))


class Grown:
    def __init__(self, kinds, rows):
        twins = kinds // 4
        self.alone = kinds - 2 * twins
        self.places = lattice(self.alone + twins)
        placed = self.places + self.places[self.alone:]
        self.catalog = Catalog(kinds=[
            Kind(id=f"kind{index}", exponents=dimensions(dict(enumerate(place))))
            for index, place in enumerate(placed)])
        self.index = {place: index for index, place in enumerate(self.places)}
        self.catalog.rows = list(itertools.islice(self.possible_rows(), rows))
        if len(self.catalog.rows) < rows:
            raise ValueError(f"{kinds} kinds have no {rows} rows")

    def possible_rows(self):
        for left, right in itertools.combinations(self.places, 2):
            result = self.index.get(added(left, right), 0)
            if result >= self.alone:
                names = (f"kind{index}" for index in (self.index[left], self.index[right], result))
                yield Row(*names, 0, 1)

    def products(self):
        """Products that one kind answers: left, code, right, answer."""
        alone = range(self.alone)
        for left, right in itertools.product(alone, alone):
            result = self.index.get(added(self.places[left], self.places[right]), self.alone)
            if result < self.alone:
                yield left, MUL, right, result

    def formula(self, tokens):
        """A product and the quotient that undoes it, over and over; the pair
        that is found last of all."""
        left, _, right, _ = max(self.products(), key=lambda pair: min(pair[0], pair[2], pair[3]))
        there_and_back = (token(KIND, right) + token(MUL) + token(KIND, right) + token(DIV))
        return token(KIND, left) + there_and_back * ((tokens - 1) // 4)

    def write(self, folder, name, formulas):
        with open(os.path.join(folder, f"{name}.image"), "wb") as file:
            file.write(write_image(self.catalog))
        with open(os.path.join(folder, f"{name}.pairs"), "w", encoding="ascii") as file:
            for pair in itertools.islice(self.products(), PAIRS):
                print(*pair, file=file)
        for tokens in formulas:
            with open(os.path.join(folder, f"{name}-{tokens}.formula"), "wb") as file:
                file.write(self.formula(tokens))


def write_all(folder):
    """Writes them; the names by what grows."""
    for kinds in KINDS:
        Grown(kinds, 0).write(folder, f"kinds{kinds}", TOKENS if kinds == KINDS[-1] else (65,))
    for rows in ROWS:
        Grown(KINDS[-1], rows).write(folder, f"rows{rows}", ())

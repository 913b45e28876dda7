"""What every group of statements is made with: stored answers and fresh ones,
cases put on sheets, and the kinds and rows of a catalog as definitions."""
from random import Random

from oracle import generate, stored
from oracle.ask import Oracle
from oracle.holding import expected, written
from oracle.holding.scratch import Sheet
from tools.image import BLOCK, read_image

# To read byte i of a list takes i steps, and each byte of an image is read
# some twenty times: only images of so few blocks are put through whole, or
# have single bytes asked, or are compiled from what they declare.
WHOLE_BLOCKS, PART_BLOCKS, SMALL_BLOCKS = 3, 5, 9


def sections(name, group):
    with open(stored.path(name), "rb") as file:
        return stored.read_sections(group, file.read())


def spread(items, most):
    """So many of the items, evenly from first to last."""
    if len(items) <= most:
        return items
    return [items[place * len(items) // most] for place in range(most)]


def parts(items, size):
    return [items[start:start + size] for start in range(0, len(items), size)]


def sheets_of(name, cases, size, given=""):
    return [Sheet(f"{name}{place}", given, part) for place, part in enumerate(parts(cases, size))]


def over_catalogs(name, found, most, case, size=200):
    """A sheet for each catalog, over its kinds and rows as the Rust compiled
    them; `found` has images with pairs of request and answer."""
    asked = spread([(place, *pair) for place, (_, pairs) in enumerate(found) for pair in pairs], most)
    cases = {}
    for place, request, answer in asked:
        cases.setdefault(place, []).append(case(request, answer, f"catalog {place}: "))
    return [sheet for place, here in cases.items()
            for sheet in sheets_of(f"{name}{place}x", [each for each in here if each], size,
                                   kinds_and_rows(read_image(found[place][0])))]


def kinds_and_rows(catalog):
    answer = expected.compiled(catalog)
    links = " ".join(written.optional(link) for link in expected.header_kinds(catalog))
    return (f"abbrev K : Kinds\nK = these {written.compiled_kinds(answer)} {links}\n\n"
            f"abbrev R : Rows\nR = rules-Table.rows_of {written.numbers(expected.row_words(answer.rows))}\n")


def small_images(sources, blocks):
    found = [(image, pairs[0][1]) for image, pairs in sections("compile.bin", stored.COMPILE)]
    return [pair for pair in found + sources.compilations if len(pair[0]) <= blocks * BLOCK]


def compiled_catalogs(sources, most):
    """Catalogs of few kinds that compile, those with rows first."""
    found = [read_image(image) for image, answer in small_images(sources, SMALL_BLOCKS)
             if answer.what == "compiled"]
    return spread(sorted(found, key=lambda catalog: not catalog.rows), most)


def words_of(catalog):
    return expected.table_words(expected.compiled(catalog), *expected.header_kinds(catalog))


class Sources:
    """Random choices from a seed, and answers of the Rust to fresh random
    catalogs beside the stored ones."""

    def __init__(self, seed, fresh):
        self.seed, self.random = seed, Random(seed)
        self.lookups, self.compilations, self.formulas = [], [], []
        if fresh:
            with Oracle() as oracle:
                self.ask(oracle, fresh)

    def begin(self, group):
        """A group's choices are the same whichever groups come before it."""
        self.random = Random(f"{self.seed} {group}")

    def ask(self, oracle, fresh):
        self.compilations = generate.compilations(self.random, oracle, fresh, -(-fresh // 10))
        images = generate.random_images(self.random, oracle, fresh)
        self.lookups = generate.lookups(self.random, oracle, images, 60)
        self.formulas = generate.formulas(self.random, oracle, images, 20)

#!/usr/bin/env python3
"""Makes requests from a seed and has the Rust answer them.

    oracle/generate.py [--seed N] [--rounds N]

Prints the seed and how often each class of answer came. The functions are
what oracle/store takes its requests from.
"""
import argparse
import collections
import os
import random
import sys

sys.path.insert(0, os.path.dirname(os.path.dirname(os.path.abspath(__file__))))

from oracle import catalogs, damage, questions  # noqa: E402
from oracle.ask import Oracle  # noqa: E402
from tools.image import write_image  # noqa: E402
from tools.records import Catalog, Kind, Row, dimensions  # noqa: E402

FAULT_NUMBERS = sorted(catalogs.FAULTS)


def compilations(generator, oracle, good, each_fault, most=14):
    """Images with answers, of 3 to `most` kinds: so many that compile, and so many of each fault."""
    found, have, seen = [], collections.Counter(), set()
    wanted = {"compiled": good, **{str(number): each_fault for number in FAULT_NUMBERS}}

    def keep(catalog):
        image = write_image(catalog)
        answer = oracle.image(image)
        if image not in seen and have[answer.name] < wanted.get(answer.name, 0):
            seen.add(image)
            have[answer.name] += 1
            found.append((image, answer))

    while any(have[name] < count for name, count in wanted.items()):
        lacking = [n for n in FAULT_NUMBERS if have[str(n)] < each_fault]
        catalog = catalogs.random_catalog(generator, oracle, generator.randint(3, most))
        keep(catalog)
        for number in lacking:
            keep(catalogs.with_fault(generator, catalog, number))
    return found


def large_catalog(generator, oracle):
    """As many kinds and rows as an image holds, as far as twins give rows."""
    return catalogs.random_catalog(generator, oracle, 240, 200)


def full_catalog():
    """240 kinds and 200 commutative rows, of which 400 are in force: as much as
    a table has room for."""
    bores = [Kind(id=f"bore{place}", exponents=dimensions({11: 1})) for place in range(200)]
    areas = [Kind(id=f"area{place}", exponents=dimensions({11: 2})) for place in range(40)]
    rows = [Row(bores[place].id, bores[(place + 1) % 200].id, areas[place % 40].id, 0, 1)
            for place in range(200)]
    return Catalog(kinds=bores + areas, rows=rows)


def over_images(oracle, images, make):
    """Each image that compiles, with what `make` finds over it."""
    found = []
    for image in images:
        compiled = oracle.image(image)
        if compiled.what == "compiled" and compiled.kinds:
            found.append((image, make(compiled)))
    return found


def random_images(generator, oracle, count):
    return [write_image(catalogs.random_catalog(generator, oracle, generator.randint(4, 16)))
            for _ in range(count)]


def lookups(generator, oracle, images, each):
    """Images with lookups and answers over each."""
    return over_images(oracle, images, lambda compiled: questions.random_lookups(
        generator, oracle, compiled, each))


def formulas(generator, oracle, images, each):
    """Images with formulas and answers over each."""
    return over_images(oracle, images, lambda compiled: questions.random_formulas(
        generator, oracle, len(compiled.kinds), each))


def count_answers(pairs):
    return collections.Counter(answer.name for _, answer in pairs)


def shown_counts(counts):
    def order(name):
        return (name.isdigit(), int(name) if name.isdigit() else 0, name)
    return ", ".join(f"{name}: {counts[name]}" for name in sorted(counts, key=order))


def damage_round(generator, images, token_lists):
    """How many damaged inputs differ from what they were made of."""
    images = [damage.damaged_image(generator, image) != image for image in images]
    token_lists = [damage.damaged_tokens(generator, tokens) != tokens for tokens in token_lists]
    return sum(images), sum(token_lists)


def main():
    options = argparse.ArgumentParser(description=__doc__.split("\n")[0])
    options.add_argument("--seed", type=int, default=1)
    options.add_argument("--rounds", type=int, default=1)
    options = options.parse_args()
    for seed in range(options.seed, options.seed + options.rounds):
        generator = random.Random(seed)
        with Oracle() as oracle:
            compiled = compilations(generator, oracle, 40, 4)
            looked_up = lookups(generator, oracle, random_images(generator, oracle, 20), 60)
            run = formulas(generator, oracle, random_images(generator, oracle, 10), 40)
            pairs = [pair for _, found in looked_up for pair in found]
            runs = [pair for _, found in run for pair in found]
            damaged = damage_round(generator, [image for image, _ in compiled],
                                   [tokens for tokens, _ in runs])
            print(f"seed {seed}, {oracle.asked} requests asked")
        print(f"  compile: {shown_counts(count_answers(compiled))}")
        print(f"  lookups: {shown_counts(count_answers(pairs))}")
        print(f"  formulas: {shown_counts(count_answers(runs))}")
        print(f"  damaged: {damaged[0]} images, {damaged[1]} token lists")


if __name__ == "__main__":
    main()

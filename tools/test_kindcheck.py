#!/usr/bin/env python3
"""Tests of what ./kindcheck says in words: python3 tools/test_kindcheck.py

Those that ask the proved programs build them first if they are missing."""
import os
import shlex
import subprocess
import sys
import tempfile
import unittest

ROOT = os.path.dirname(os.path.dirname(os.path.abspath(__file__)))
sys.path.insert(0, ROOT)

from tools.catalog import read_catalog  # noqa: E402
from tools.formula import parsed  # noqa: E402
from tools.image import write_image  # noqa: E402
from tools.places import in_catalog, in_formula, marked  # noqa: E402
from tools.refusals import CAUSES, RETURNED, Refusal, sentence  # noqa: E402
from tools.text import read_text  # noqa: E402

EXAMPLES = os.path.join(ROOT, "examples")
# the numbers of document 01's table
NUMBERS = [*range(1, 6), *range(10, 29), *range(40, 51)]
# of a catalog, those that its text can bring about: 1 to 4 take an image, 5 and 40 other buffers
OF_A_CATALOG = [*range(10, 28)]


def teaching():
    return read_catalog(os.path.join(EXAMPLES, "teaching.catalog"))


def refusal(number, place=0, values=(), twins=()):
    words = [2, number, place, *values]
    return Refusal(words + [0] * (32 - len(words)), twins)


def run(*arguments):
    result = subprocess.run(["./kindcheck", *arguments], cwd=ROOT, capture_output=True, text=True, check=False)
    return result.stdout + result.stderr, result.returncode


class Sentences(unittest.TestCase):
    def test_every_number_has_one(self):
        self.assertEqual(sorted(CAUSES), NUMBERS)
        self.assertEqual(sorted(RETURNED), NUMBERS)
        said = {sentence(refusal(number), teaching()) for number in NUMBERS}
        self.assertEqual(len(said), len(NUMBERS))

    def test_kinds_by_name(self):
        self.assertEqual(sentence(refusal(42, 2, [1, 5]), teaching()),
                         "the kinds differ: expected volume, actual intake.")
        self.assertEqual(sentence(refusal(44, 2, [2], [1, 5]), teaching()),
                         "several kinds fit the product and no row chooses one: volume, intake.")

    def test_a_name_that_does_not_say_which(self):
        catalog = read_text('kind a b0\nkind a b0\nkind "" b0\n')
        self.assertEqual(sentence(refusal(11, 1, [1]), catalog), "a kind's id is repeated: a (kind 1).")
        self.assertEqual(sentence(refusal(42, 2, [2, 3]), catalog), "the kinds differ: expected kind 2, actual kind 3.")

    def test_dimensions(self):
        bases = [3, 1, 2**32 - 1, 2] + [0, 1] * 10
        self.assertEqual(sentence(refusal(45, 2, [*bases, 2]), teaching()),
                         "no kind has the product's dimensions and grade: b0=3 b1=-1/2, grade 2.")
        self.assertEqual(sentence(refusal(47, 1, [0, 1] * 12), teaching()),
                         "no kind has the power's dimensions and grade: dimension one, grade 0.")

    def test_an_operation_with_one_kind(self):
        cases = [(4, "the product of a number and clock"), (5, "the quotient of a number and clock"),
                 (8, "a power of clock"), (9, "an inexact power of clock"), (10, "the absolute value of clock")]
        for code, words in cases:
            self.assertEqual(sentence(refusal(43, 1, [code, 3, 65535]), teaching()),
                             f"the operation is undefined for these kinds: {words}.")


class Places(unittest.TestCase):
    def parts(self, formula):
        return [formula[start:end] for start, end in parsed(formula, teaching())[1]]

    def test_a_part_for_every_token(self):
        for formula, wanted in [
            ("flow * duration", ["flow", "duration", "*"]),
            ("abs( -2.5*volume)==@1", ["-2.5", "volume", "*", "abs", "@1", "=="]),
            ("(area ^ (1/2)) wedge shift", ["area", "^", "shift", "wedge"]),
            ("area ^ ~-0.5 / number", ["area", "^", "number", "/"]),
            ('"bore" dot shift # a comment', ['"bore"', "shift", "dot"]),
        ]:
            self.assertEqual(self.parts(formula), wanted)

    def test_a_part_for_every_token_of_every_example(self):
        catalog = read_catalog(os.path.join(EXAMPLES, "parlour.catalog"))
        with open(os.path.join(EXAMPLES, "parlour.formulas"), encoding="ascii") as file:
            for line in file:
                if line.strip() and not line.startswith("#"):
                    tokens, spans = parsed(line.rstrip("\n"), catalog)
                    self.assertEqual(len(tokens), 12 * len(spans))
                    self.assertTrue(all(start < end for start, end in spans))

    def test_a_mark(self):
        self.assertEqual(marked("area * bore", (5, 6)), ["  area * bore", "       ^"])
        self.assertEqual(marked("a\tdot b", (2, 5)), ["  a\tdot b", "   \t^^^"])

    def test_a_formula_that_is_too_long(self):
        _, spans = parsed(" + ".join(["volume"] * 65), teaching())
        self.assertEqual(in_formula(refusal(50), "", spans), ["  129 tokens; a formula has 1 to 128"])

    def test_a_header_s_id(self):
        catalog = read_text("dimensionless nobody\ntime someone\n" + "kind a b0\n" * 13)
        self.assertEqual(in_catalog(refusal(12, 12, [0]), catalog), ["  dimensionless nobody"])
        self.assertEqual(in_catalog(refusal(12, 44, [0]), catalog), ["  time someone"])
        self.assertEqual(in_catalog(refusal(12, 12, [12]), catalog), [])


class Stored(unittest.TestCase):
    def test_the_examples(self):
        with open(os.path.join(EXAMPLES, "kindcheck.txt"), encoding="ascii") as file:
            cases = file.read().split("\n\n")
        self.assertGreater(len(cases), 12)
        for case in cases:
            command, *wanted = case.rstrip("\n").split("\n")
            told, status = run(*shlex.split(command)[2:])
            self.assertEqual(told.rstrip("\n").split("\n") + [f"exit {status}"], wanted, command)


class Programs(unittest.TestCase):
    def test_both_answer_alike(self):
        run(os.path.join(EXAMPLES, "teaching.catalog"), "2")  # builds what is missing
        catalog = read_catalog(os.path.join(EXAMPLES, "parlour.catalog"))
        names = [kind.id for kind in catalog.kinds]
        for left in names:
            for right in names[::3]:
                for sign in ("+", "*", "/"):
                    data = write_image(catalog) + parsed(f"{left} {sign} {right}", catalog)[0]
                    line, _ = self.lines("kindcheck", data)
                    words = self.lines("details", data)[1].split()
                    told = {"1": f"kind {words[1]} {names[int(words[1]) % len(names)]}",
                            "2": f"refused {words[1]} {words[2]}"}
                    self.assertEqual(line, told[words[0]])

    def lines(self, name, data):
        program = os.path.join(ROOT, "crates", name, "out", name)
        result = subprocess.run([program], input=data, capture_output=True, check=True)
        return result.stdout.decode("ascii").split("\n")


# A catalog that is refused, the place and the words.
CLOCK = "time clock\nkind clock b1 difference span\nkind span b1\n"
CATALOGS = {
    10: ('kind a b0\nkind "" b0\n', 1, 'kind "" b0', "a kind's id is empty: kind 1, counted from 0."),
    11: ("kind a b0\nkind a b1\n", 1, "kind a b1", "a kind's id is repeated: a (kind 1)."),
    12: ("kind a b0\nrow a * b = a\n", 0, "row a * b = a", "an id is unknown."),
    13: ("kind a b0 difference b\nkind b b1\n", 0, "kind a b0 difference b",
         "a difference has other dimensions than its point: point a, difference b."),
    14: ("kind a b0 difference b\nkind b b0 difference c\nkind c b0\n", 0, "kind a b0 difference b",
         "a difference is itself a point: point a, difference b."),
    15: ("dimensionless a\nkind a b0\n", 12, "dimensionless a",
         "the dimensionless kind is not linear and of dimension one: a."),
    16: ("time a\nkind a b0\n", 44, "time a", "the time kind is not a scalar point: a."),
    17: ("kind a b0 rate of b\nkind b b0\n", 0, "kind a b0 rate of b",
         "a rate is declared without a time kind: a is the rate of b."),
    18: (CLOCK + "kind a b1 rate of clock\n", 2, "kind a b1 rate of clock",
         "a rate or its target is a point: a is the rate of clock, and clock is a point."),
    19: (CLOCK + "kind a ? rate of b\nkind b b0\n", 2, "kind a ? rate of b", "a kind's dimensions are unresolved: a."),
    20: (CLOCK + "kind a b0 rate of b\nkind b b0\n", 2, "kind a b0 rate of b",
         "rate times duration misses the target, or the grades differ: the product has b0=1 b1=1, the rate grade 0."),
    21: (CLOCK + "kind a b0 b1^-1 rate of b\nkind b b0\nkind c b0 b1^-1 rate of b\n", 4, "kind c b0 b1^-1 rate of b",
         "the target has a rate already: a."),
    22: ("kind a b0\ncommutative row a / a = a\n", 0, "commutative row a / a = a",
         "a quotient is declared commutative: row 0, counted from 0."),
    23: (CLOCK + "row span * clock = span\n", 0, "row span * clock = span",
         "a point stands in a product: span * clock, with the point clock."),
    24: ("kind a b0\nkind b b0 grade 1\nrow a dot b = a\n", 0, "row a dot b = a",
         "the product has no single grade: a has grade 0, b has grade 1."),
    25: ("kind a b0\nkind b b0^2\nkind c b0^2\nrow a * a = a\n", 0, "row a * a = a",
         "the row's result does not have the product's dimensions and grade: the product has b0=2, grade 0."),
    26: ("kind a b0\nkind b b0^2\nrow a * a = b\n", 0, "row a * a = b", "the row's product is derived already: it is b."),
    27: ("kind a b0\nkind b b0^2\nkind c b0^2\nrow a * a = b\nrow a * a = c\n", 1, "row a * a = c",
         "a second row for the same pair: a and a."),
}


class Refused(unittest.TestCase):
    def ask(self, data, formula):
        with tempfile.NamedTemporaryFile() as file:
            file.write(data)
            file.flush()
            return run(file.name, formula)

    def test_catalogs(self):
        self.assertEqual(list(CATALOGS), OF_A_CATALOG)
        for number, (text, place, line, words) in CATALOGS.items():
            told = f"refused {number} {place}\n  {line}\n{words}\n"
            self.assertEqual(self.ask(text.encode(), "2"), (told, 1))
            self.assertEqual(self.ask(write_image(read_text(text)), "2"), (told, 1))

    def test_images(self):
        image = write_image(teaching())
        damaged = image[:600] + bytes([image[600] ^ 1]) + image[601:]
        self.assertEqual(self.ask(damaged, "2"),
                         ("refused 2 1\na block's place or sum is wrong: block 1, counted from 0.\n", 1))
        self.assertEqual(self.ask(image[:-1], "2"),
                         ("refused 1 0\nthe image's length is not 1 to 121 blocks: it is 2047 bytes.\n", 1))
        told, status = self.ask(image + bytes(512), "2")
        self.assertIn("the image has 5", told)
        self.assertEqual(status, 2)

    def test_a_formula_that_is_too_long(self):
        path = os.path.join(EXAMPLES, "teaching.catalog")
        told, status = run(path, " + ".join(["volume"] * 65))
        self.assertIn("refused 50 0\n  129 tokens; a formula has 1 to 128\n", told)
        self.assertEqual(status, 1)

    def test_misuse(self):
        path = os.path.join(EXAMPLES, "teaching.catalog")
        for arguments in [(), (path,), (path, "volume", "volume"), (path, "volume +"), (path + "x", "volume"),
                          (path, "nobody")]:
            self.assertEqual(run(*arguments)[1], 2)


if __name__ == "__main__":
    unittest.main()

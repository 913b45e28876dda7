#!/usr/bin/env python3
"""Tests of the generators and of the stored form: python3 oracle/test_oracle.py

Those that ask the Rust need oracle/build first.
"""
import collections
import os
import random
import subprocess
import sys
import unittest

ROOT = os.path.dirname(os.path.dirname(os.path.abspath(__file__)))
sys.path.insert(0, ROOT)

from oracle import catalogs, damage, generate, stored  # noqa: E402
from oracle.ask import Answer, CompiledKind, CompiledRow, Oracle, parsed  # noqa: E402
from oracle.holding import common, expected  # noqa: E402
from tools.catalog import read_catalog  # noqa: E402
from tools.errors import BadInput  # noqa: E402
from tools.formula import MOST_TOKENS, formula_lines, token, tokens  # noqa: E402
from tools.image import read_image, write_image  # noqa: E402
from tools.records import Catalog, Kind, Row, dimensions  # noqa: E402

SEED = 17


def example(name):
    return os.path.join(ROOT, "examples", name)


def teaching_image():
    return write_image(read_catalog(example("teaching.catalog")))


class Packing(unittest.TestCase):
    def test_there_and_back(self):
        generator = random.Random(SEED)
        for _ in range(300):
            data = bytes(generator.choice([0, 0, 0, 1, 255]) for _ in range(generator.randint(0, 900)))
            self.assertEqual(stored.unpacked(stored.packed(data), len(data)), data)
        for data in (bytes(2000), b"\1" * 2000, bytes(255) + b"\1" * 255, b"\1\0\1\0\0\1"):
            self.assertEqual(stored.unpacked(stored.packed(data), len(data)), data)

    def test_an_image_shrinks(self):
        image = teaching_image()
        self.assertLess(len(stored.packed(image)), len(image) // 4)

    def test_a_wrong_length_is_found(self):
        data = stored.packed(teaching_image())
        with self.assertRaises(ValueError):
            stored.unpacked(data, 2047)


class StoredForm(unittest.TestCase):
    answers = [
        Answer("number"), Answer("kind", index=239),
        Answer("refused", number=44, place=2, values=[3], twins=[1, 5, 239]),
        Answer("refused", number=12, place=None, values=[0]),
        Answer("refused", number=47, place=0, values=[-2147483647, 2147483647] * 12 + [0]),
        Answer("compiled", kinds=[CompiledKind("point", None, 3, 1, None, None),
                                  CompiledKind("difference", [(0, -32768, 1), (11, 1, 32767)], 0,
                                               None, 1, 0)],
               rows=[CompiledRow(1, 3, 0, 1, 199)]),
    ]

    def test_answers(self):
        for answer in self.answers:
            data = stored.Bytes(stored.answer_bytes(answer))
            self.assertEqual(data.answer(), answer)
            self.assertEqual(data.at, len(data.data))

    def test_what_is_not_asked_is_not_stored(self):
        with self.assertRaises(ValueError):
            stored.answer_bytes(Answer("not-asked"))

    def test_sections(self):
        lookups = [((8, 3, 0, (-1, 2)), self.answers[1]), ((9, 3, 0, None), self.answers[2]),
                   ((4, 1, 2, None), self.answers[4])]
        sections = [(teaching_image(), lookups), (write_image(Catalog()), [])]
        content = stored.sections_bytes(stored.LOOKUPS, sections)
        self.assertEqual(stored.read_sections(stored.LOOKUPS, content), sections)
        with self.assertRaises(ValueError):
            stored.read_sections(stored.LOOKUPS, content + b"\0")
        with self.assertRaises(ValueError):
            stored.read_sections(stored.FORMULAS, content)

    def test_formulas(self):
        sections = [(teaching_image(), [(token(1, 3) + token(10), self.answers[0])])]
        content = stored.sections_bytes(stored.FORMULAS, sections)
        self.assertEqual(stored.read_sections(stored.FORMULAS, content), sections)

    def test_exponents(self):
        records = [("sum", [(-1, 2)], [(1, 2)], [(0, 1)]),
                   ("dimension power", [(1, 3)] * 12, [(3, 1)], [(1, 1)] * 12),
                   ("dimension quotient", [(1, 3)] * 12, [(1, 3)] * 12, [(0, 1)] * 12)]
        self.assertEqual(stored.read_exponents(stored.exponents_bytes(records)), records)


class Damage(unittest.TestCase):
    def test_the_same_seed_damages_alike(self):
        image, formula = teaching_image(), token(1, 6) + token(1, 7) + token(4)
        first, second = random.Random(SEED), random.Random(SEED)
        for _ in range(50):
            self.assertEqual(damage.damaged_image(first, image), damage.damaged_image(second, image))
            self.assertEqual(damage.damaged_tokens(first, formula),
                             damage.damaged_tokens(second, formula))

    def test_most_damage_is_seen(self):
        """A damaged image is no image, or another one than before."""
        generator, image = random.Random(SEED), teaching_image()
        outcome = collections.Counter()
        for _ in range(400):
            damaged = damage.damaged_image(generator, image)
            try:
                outcome["same" if write_image(read_image(damaged)) == image else "another"] += 1
            except BadInput:
                outcome["no image"] += 1
        self.assertGreater(outcome["no image"], 200)
        self.assertGreater(outcome["another"], 5)
        self.assertLess(outcome["same"], 100)

    def test_resealed_sums_are_right(self):
        image = bytearray(teaching_image())
        image[512 + 4] = ord("z")
        with self.assertRaises(BadInput):
            read_image(bytes(image))
        self.assertEqual(read_image(damage.resealed(bytes(image))).kinds[0].id, "zne")


class Answers(unittest.TestCase):
    def test_lines(self):
        self.assertEqual(parsed("refused 44 place ? values 2 twins 1 5").place, None)
        self.assertEqual(parsed("refused 44 place 7 values 2 twins 1 5").twins, [1, 5])
        self.assertEqual(parsed("kind 7").index, 7)
        with self.assertRaises(ValueError):
            parsed("bad-request")


class WithTheRust(unittest.TestCase):
    def setUp(self):
        self.oracle = Oracle()

    def tearDown(self):
        self.oracle.__exit__()

    def test_most_random_catalogs_compile(self):
        generator = random.Random(SEED)
        names = [self.oracle.image(write_image(
            catalogs.random_catalog(generator, self.oracle, 10))).name for _ in range(60)]
        self.assertGreater(names.count("compiled"), 50)

    def test_the_full_catalog_fills_a_table(self):
        compiled = self.oracle.image(write_image(generate.full_catalog()))
        self.assertEqual((compiled.what, len(compiled.kinds), len(compiled.rows)),
                         ("compiled", 240, 400))

    def test_every_compile_fault_is_found_from_its_own_change(self):
        generator = random.Random(SEED)
        have = collections.Counter(
            answer.name for _, answer in generate.compilations(generator, self.oracle, 10, 2))
        self.assertEqual([have[str(number)] for number in range(10, 28)], [2] * 18)

    def test_lookups_have_every_class(self):
        generator = random.Random(SEED)
        images = generate.random_images(generator, self.oracle, 25)
        found = generate.lookups(generator, self.oracle, images, 60)
        have = generate.count_answers([pair for _, pairs in found for pair in pairs])
        for name in ("kind", "19", "23", "24", "42", "43", "44", "45", "46", "47", "48"):
            self.assertGreater(have[name], 0, name)

    def test_the_same_seed_asks_alike(self):
        def made():
            generator = random.Random(SEED)
            images = generate.random_images(generator, self.oracle, 3)
            return generate.formulas(generator, self.oracle, images, 20)
        self.assertEqual(made(), made())

    def test_formulas_stay_within_the_limits(self):
        generator = random.Random(SEED)
        images = generate.random_images(generator, self.oracle, 5)
        for _, pairs in generate.formulas(generator, self.oracle, images, 40):
            for formula, answer in pairs:
                self.assertLessEqual(len(formula), 12 * MOST_TOKENS)
                self.assertNotEqual(answer.what, "not-asked")

    def test_a_faulty_row_is_found_at_its_place(self):
        bores = [Kind(id=f"bore{i}", exponents=dimensions({0: 1})) for i in range(5)]
        areas = [Kind(id=name, exponents=dimensions({0: 2})) for name in ("area", "field")]
        good = [Row(left.id, right.id, "area") for left in bores for right in bores]
        for place in range(len(good) + 1):
            rows = good[:place] + [Row("bore0", "nobody", "area")] + good[place:]
            answer = self.oracle.image(write_image(Catalog(kinds=bores + areas, rows=rows)))
            self.assertEqual((answer.number, answer.place, answer.values), (12, place, [place]))

    def test_a_faulty_kind_is_found_at_its_place(self):
        for field in ("difference", "rate_of", "id"):
            for place in range(1, 9):
                kinds = [Kind(id=f"bore{i}", exponents=dimensions({0: 1})) for i in range(9)]
                setattr(kinds[place], field, "nobody" if field != "id" else "bore0")
                answer = self.oracle.image(write_image(Catalog(kinds=kinds)))
                self.assertEqual((answer.number, answer.place, answer.values),
                                 (11 if field == "id" else 12, place, [place]))

    def test_layout_faults_are_not_asked(self):
        image = bytearray(teaching_image())
        image[600] ^= 1
        self.assertEqual(self.oracle.image(bytes(image)).text, "not-asked the image meets 2")
        self.assertEqual(self.oracle.image(damage.resealed(bytes(image))).text,
                         "not-asked the image meets 4")
        image[4] = 5
        self.assertEqual(self.oracle.image(damage.resealed(bytes(image))).text,
                         "not-asked the image meets 3")
        self.assertEqual(self.oracle.image(teaching_image()[:-1]).text,
                         "not-asked the image meets 1")
        self.assertEqual(self.oracle.ask("combine 4 0 0").text, "not-asked no catalog is compiled")

    def test_the_oracle_and_the_tools_agree_on_what_is_an_image(self):
        """Two readers in two languages; damage would tell them from each other."""
        generator, image = random.Random(SEED), teaching_image()
        for _ in range(400):
            damaged = damage.damaged_image(generator, image)
            if not damaged:
                continue
            try:
                read_image(damaged)
                good = True
            except BadInput:
                good = False
            self.assertEqual(self.oracle.image(damaged).what != "not-asked", good)

    def test_parlour_compiles_and_its_formulas_are_answered(self):
        catalog = read_catalog(example("parlour.catalog"))
        compiled = self.oracle.image(write_image(catalog))
        self.assertEqual(compiled.what, "compiled")
        self.assertEqual({kind.role for kind in compiled.kinds}, {"linear", "point", "difference"})
        self.assertTrue(15 <= len(compiled.kinds) <= 20)
        self.assertTrue(compiled.rows and any(kind.rate_of for kind in compiled.kinds))
        with open(example("parlour.formulas"), encoding="ascii") as file:
            lines = file.read().split("\n")
        for line, formula in formula_lines("\n".join(lines)):
            answer = self.oracle.formula(tokens(formula, catalog, line))
            wanted = "refused" if "# refused" in lines[line - 1] else "kind"
            self.assertEqual(answer.what, wanted, formula)


class Expected(unittest.TestCase):
    """What oracle/hold wants where the Rust has no word."""

    def compilations(self):
        return [(image, pairs[0][1])
                for image, pairs in common.sections("compile.bin", stored.COMPILE)]

    def test_what_compiles_is_told_as_the_rust_does(self):
        found = [(image, answer) for image, answer in self.compilations()
                 if answer.what == "compiled"]
        self.assertGreater(len(found), 200)
        for image, answer in found:
            self.assertEqual(expected.compiled(read_image(image)), answer)

    def test_stored_images_and_formulas_are_well_formed(self):
        for image, _ in self.compilations():
            self.assertIsNone(expected.image_refusal(image))
        for _, pairs in common.sections("formulas.bin", stored.FORMULAS):
            for formula, _ in pairs:
                self.assertIsNone(expected.malformed(formula))

    def test_faults_of_an_image(self):
        image = teaching_image()
        for change, wanted in (
                (image[:-1], (1, 0)), (image + bytes(512), (2, 4)), (changed(image, 4, 5), (3, 0)),
                (changed(image, 8, 241), (4, 8)), (changed(image, 10, 201), (4, 8)),
                (changed(image, 13, 0), (4, 14)), (changed(image, 512 + 4 + 98, 0), (4, 614)),
                (changed(image, 512 + 4 + 144, 2), (4, 660)), (changed(image, 3, 1), (4, 3))):
            answer = expected.image_refusal(change)
            self.assertEqual((answer.number, answer.place), wanted)
        self.assertEqual(expected.image_refusal(image, 9295).values, [9295])

    def test_faults_of_a_formula(self):
        one, add = token(0), token(2)
        for formula, place in ((b"", 0), (one + b"\0", 0), (add, 0), (one + one, 2),
                               (one * 33 + add * 32, 32), (one + token(8, 0, -2**31, 1), 1),
                               (one + token(12), 1), (one + token(9, 1), 1), (one * 129, 0)):
            self.assertEqual(expected.malformed_at(formula), place)
        for formula in (one, one * 32 + add * 31, one + token(8, 0, -2**31, 2)):
            self.assertIsNone(expected.malformed_at(formula))

    def test_words_of_a_table(self):
        words = common.words_of(read_image(teaching_image()))
        self.assertEqual((len(words), words[:4]), (9296, [9, 0, 0, 3]))
        self.assertEqual(words[16 + 32 * 2:16 + 32 * 2 + 4], [3, 1, 2**32 - 1, 1])
        self.assertEqual(words[16 + 32 * 3 + 24:16 + 32 * 3 + 30], [1, 0, 1, 4, 65535, 65535])
        self.assertTrue(expected.is_table(words))
        for place, word in ((0, 241), (2, 9), (16, 32768), (17, 0), (40, 2), (43, 0), (1, 401)):
            self.assertFalse(expected.is_table(words[:place] + [word] + words[place + 1:]))


def changed(image, place, byte):
    return damage.resealed(image[:place] + bytes([byte]) + image[place + 1:])


KINDCHECK = """
import sys
sys.path.insert(0, {root!r})
from oracle.ask import Oracle, report
from tools.image import read_image
data = sys.stdin.buffer.read()
kinds, rows = data[8] + 256 * data[9], data[10] + 256 * data[11]
end = 512 * (1 + -(-kinds // 3) + -(-rows // 5))
with Oracle() as oracle:
    answer = oracle.image(data[:end])
    if answer.what == "compiled":
        answer = oracle.formula(data[end:])
print(report(answer, read_image(data[:end])))
"""


class Compare(unittest.TestCase):
    """A kindcheck that asks the Rust passes; one that guesses fails."""

    def run_compare(self, *program):
        return subprocess.run([sys.executable, os.path.join(ROOT, "oracle", "compare"),
                               "--most", "8", *program], capture_output=True, text=True, check=False)

    def test_the_rust_agrees_with_itself(self):
        result = self.run_compare(sys.executable, "-c", KINDCHECK.format(root=ROOT))
        self.assertEqual((result.returncode, result.stdout), (0, "24 passed, 0 failed\n"))

    def test_a_guess_is_found_out(self):
        result = self.run_compare(sys.executable, "-c", "print('number')")
        self.assertEqual(result.returncode, 1)
        self.assertIn("where the Rust says 'refused", result.stdout)


if __name__ == "__main__":
    unittest.main()

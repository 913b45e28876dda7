#!/usr/bin/env python3
"""Tests of catalogs and formulas as text: python3 tools/test_catalog.py"""
import os
import random
import struct
import subprocess
import sys
import tempfile
import unittest

ROOT = os.path.dirname(os.path.dirname(os.path.abspath(__file__)))
sys.path.insert(0, ROOT)

from tools.catalog import read_catalog  # noqa: E402
from tools.errors import BadInput  # noqa: E402
from tools.formula import formula_lines, infix, token, tokens  # noqa: E402
from tools.image import BLOCK, SUM, block_sum, read_image, write_image  # noqa: E402
from tools.records import BASES, Catalog, Kind, Row, dimensions  # noqa: E402
from tools.text import read_text, write_text  # noqa: E402

PROGRAM = os.path.join(ROOT, "tools", "catalog.py")
EXAMPLES = os.path.join(ROOT, "examples")


def example(name):
    with open(os.path.join(EXAMPLES, name), encoding="ascii") as file:
        return file.read()


def teaching():
    return read_text(example("teaching.catalog"))


def resealed(image):
    blocks = [image[start:start + BLOCK] for start in range(0, len(image), BLOCK)]
    return b"".join(block[:SUM] + struct.pack("<I", block_sum(block)) for block in blocks)


def any_id(generator):
    letters = "".join(map(chr, range(33, 127)))
    return "".join(generator.choice(letters) for _ in range(generator.randint(0, 32)))


def any_exponents(generator):
    if generator.random() < 0.2:
        return None
    return [(generator.randint(-32768, 32767), generator.randint(1, 32767))
            if generator.random() < 0.3 else (0, generator.choice([1, 1, 9]))
            for _ in range(BASES)]


def any_catalog(generator):
    """Anything that bytes can say, sense or not."""
    kinds = [Kind(any_id(generator), any_id(generator), any_id(generator),
                  any_exponents(generator), generator.randint(0, 3))
             for _ in range(generator.randint(0, 9))]
    rows = [Row(any_id(generator), any_id(generator), any_id(generator),
                generator.randint(0, 3), generator.randint(0, 1))
            for _ in range(generator.randint(0, 12))]
    return Catalog(any_id(generator), any_id(generator), kinds, rows)


def any_formula(generator, kinds, size):
    if size < 2:
        return token(0) if generator.random() < 0.3 else token(1, generator.randrange(kinds + 2))
    if generator.random() < 0.4:
        tail = generator.choice([token(9), token(10), token(8, 0, -1, 2), token(8, 0, 3, 1),
                                 token(8, 0, 2, 4), token(8, 0, -2**31, 2**32 - 1)])
        return any_formula(generator, kinds, size - 1) + tail
    left = generator.randint(1, size - 1)
    return (any_formula(generator, kinds, left) + any_formula(generator, kinds, size - left)
            + token(generator.choice([2, 3, 4, 5, 6, 7, 11])))


class Images(unittest.TestCase):
    def test_teaching_header(self):
        image = write_image(teaching())
        self.assertEqual(len(image), 4 * BLOCK)
        self.assertEqual(image[:12], bytes([0, 0, 0, 0, 4, 0, 0, 0, 9, 0, 0, 0]))
        self.assertEqual(image[12:16], b"one\0")
        self.assertEqual(image[44:50], b"clock\0")

    def test_a_kind_record(self):
        record = write_image(teaching())[BLOCK + 4 + 2 * 148:][:148]
        self.assertEqual(record[:5], b"flow\0")
        self.assertEqual(record[64:71], b"volume\0")
        self.assertEqual(struct.unpack("<hHhH", record[96:104]), (3, 1, -1, 1))
        self.assertEqual(record[144:148], bytes([1, 0, 0, 0]))

    def test_the_empty_catalog_sums_to_20(self):
        image = write_image(Catalog())
        self.assertEqual(struct.unpack("<I", image[SUM:])[0], 20)

    def test_a_row_record(self):
        catalog = read_text("kind a b0\nkind b 1\ncommutative row a wedge b = a")
        block = write_image(catalog)[2 * BLOCK:]
        self.assertEqual(block[:4], bytes([2, 0, 2, 1]))
        self.assertEqual((block[4], block[36], block[68], block[100], block[101]),
                         (ord("a"), ord("b"), ord("a"), 3, 1))

    def test_any_image_to_text_and_back(self):
        generator = random.Random(3)
        for _ in range(200):
            image = write_image(any_catalog(generator))
            text = write_text(read_image(image))
            self.assertEqual(write_image(read_text(text)), image)
            self.assertEqual(write_text(read_text(text)), text)

    def test_241_kinds(self):
        with self.assertRaisesRegex(BadInput, "241 kinds"):
            write_image(Catalog(kinds=[Kind(id="a")] * 241))
        write_image(Catalog(kinds=[Kind(id="a")] * 240, rows=[Row()] * 200))
        with self.assertRaisesRegex(BadInput, "201 rows"):
            write_image(Catalog(rows=[Row()] * 201))

    def test_a_changed_byte_is_found(self):
        image = bytearray(write_image(teaching()))
        image[200] = 7
        with self.assertRaisesRegex(BadInput, "byte 200 is 7, where the layout has 0"):
            read_image(resealed(bytes(image)))
        with self.assertRaisesRegex(BadInput, "byte 200"):
            read_image(bytes(image))

    def test_faults_of_an_image_are_named(self):
        good = write_image(teaching())
        for place, value, message in [(4, 5, "schema is 5"), (8, 20, "take 8 blocks"),
                                      (BLOCK + 4, 32, "kind 0: the id"),
                                      (BLOCK + 4 + 144, 2, "kind 0: the dimension flag is 2"),
                                      (BLOCK + 4 + 145, 4, "grade 4"),
                                      (BLOCK + 4 + 98, 0, "exponent 0/0")]:
            image = bytearray(good)
            image[place] = value
            with self.assertRaisesRegex(BadInput, message):
                read_image(resealed(bytes(image)))
        with self.assertRaisesRegex(BadInput, "511 bytes"):
            read_image(good[:511])

    def test_an_unresolved_kind_has_no_exponents(self):
        image = bytearray(write_image(read_text("kind a ?")))
        image[BLOCK + 4 + 100] = 1
        with self.assertRaisesRegex(BadInput, "unresolved kind has exponent bytes"):
            read_image(resealed(bytes(image)))


class Texts(unittest.TestCase):
    def test_examples_are_unchanged(self):
        for name in ("teaching.catalog", "parlour.catalog"):
            text = example(name)
            self.assertEqual(write_text(read_image(write_image(read_text(text)))), text)

    def test_teaching_is_the_paper_s(self):
        kinds = teaching().kinds
        self.assertEqual([kind.id for kind in kinds],
                         "one volume flow clock duration intake area bore shift".split())
        self.assertEqual([kind.exponents for kind in kinds],
                         [dimensions(powers) for powers in ({}, {0: 3}, {0: 3, 1: -1}, {1: 1},
                                                            {1: 1}, {0: 3}, {0: 2}, {0: 1}, {0: 1})])
        self.assertEqual([kind.grade for kind in kinds], [0] * 8 + [1])
        self.assertEqual((kinds[2].rate_of, kinds[3].difference), ("volume", "duration"))

    def test_exponents_stay_as_given(self):
        kind = read_text("kind a b0^(2/4) b1^(0/9) b2^-3 b11^(-32768/32767)").kinds[0]
        self.assertEqual([kind.exponents[base] for base in (0, 1, 2, 11)],
                         [(2, 4), (0, 9), (-3, 1), (-32768, 32767)])

    def test_comments_and_spaces(self):
        catalog = read_text('# all\n\n  kind   a  b0 # a "kind\n\tkind "#" ?\r\n')
        self.assertEqual([kind.id for kind in catalog.kinds], ["a", "#"])
        self.assertIsNone(catalog.kinds[1].exponents)

    def test_any_name_can_be_written(self):
        for name in ("time", "a-b", '"', "\\", '\\"', "7", "", "~" * 32, "b0", "dot"):
            text = write_text(Catalog(kinds=[Kind(id=name)]))
            self.assertEqual(read_text(text).kinds[0].id, name)

    def test_a_repeated_or_unknown_name_is_no_fault_here(self):
        catalog = read_text("kind a b0 difference nobody\nkind a 1\nrow x * y = z")
        self.assertEqual(read_image(write_image(catalog)), catalog)

    def test_any_letters_give_a_catalog_or_a_fault(self):
        generator = random.Random(7)
        lines = example("parlour.catalog").split("\n")
        outcome = {True: 0, False: 0}
        for _ in range(1500):
            changed = list(generator.choice(lines))
            for _ in range(generator.randint(0, 3)):
                changed.insert(generator.randint(0, len(changed)),
                               chr(generator.choice([9, 32, *range(33, 127)])))
            try:
                write_image(read_text("".join(changed)))
                outcome[True] += 1
            except BadInput as fault:
                self.assertEqual(fault.line, 1)
                outcome[False] += 1
        self.assertGreater(min(outcome.values()), 100)

    def test_faults_have_line_and_column(self):
        for text, line, column, message in [
                ("kind", 1, 5, "expected a kind's name"),
                ("\nkind a", 2, 7, "expected dimensions"),
                ("kind time b0", 1, 6, "in quotes"),
                ("kind a b12", 1, 8, "past b11"),
                ("kind a b0 b0", 1, 11, "stands twice"),
                ("kind a b0^(1/0)", 1, 8, "1/0 doesn't fit"),
                ("kind a b0^40000", 1, 8, "40000/1 doesn't fit"),
                ("kind a b0^x", 1, 11, "expected an exponent"),
                ("kind a b0 grade 4", 1, 17, "grade is 0 to 3"),
                ("kind a b0 rate a", 1, 16, "expected 'of'"),
                ('kind a b0 difference ""', 1, 22, "leave the clause off"),
                ("kind a b0 c", 1, 11, "'c' is not expected"),
                ("kind " + "a" * 33 + " 1", 1, 6, "longer than 32"),
                ('kind "a b" 1', 1, 6, "outside 33 to 126"),
                ("row a + b = c", 1, 7, "expected \\*, /, dot or wedge"),
                ("row a * b", 1, 10, "expected '='"),
                ("commutative kind a 1", 1, 13, "expected 'row'"),
                ("time a\ntime b", 2, 1, "declared twice"),
                ('kind "a', 1, 6, "quote is not closed"),
                ("kind a b0 ;", 1, 11, "';' is not expected"),
                ("volume b0^3", 1, 1, "a line begins with")]:
            with self.subTest(text=text):
                with self.assertRaisesRegex(BadInput, message) as caught:
                    read_text(text)
                self.assertEqual((caught.exception.line, caught.exception.column), (line, column))


class Formulas(unittest.TestCase):
    def check(self, formula, *wanted):
        self.assertEqual(tokens(formula, teaching()), b"".join(wanted), formula)

    def test_precedence(self):
        volume, flow, area = token(1, 1), token(1, 2), token(1, 6)
        self.check("flow", flow)
        self.check("volume + flow * area", volume, flow, area, token(4), token(2))
        self.check("volume - flow - area", volume, flow, token(3), area, token(3))
        self.check("volume - (flow - area)", volume, flow, area, token(3), token(3))
        self.check("volume / flow * area", volume, flow, token(5), area, token(4))
        self.check("volume dot flow wedge area", volume, flow, token(6), area, token(7))
        self.check("volume * area ^ 2", volume, area, token(8, 0, 2, 1), token(4))
        self.check("volume == flow + area", volume, flow, area, token(2), token(11))

    def test_forms(self):
        area = token(1, 6)
        self.check("area ^ (1/2)", area, token(8, 0, 1, 2))
        self.check("area ^ (-2/4)", area, token(8, 0, -2, 4))
        self.check("area ^ -1", area, token(8, 0, -1, 1))
        self.check("area ^ ~0.5", area, token(9))
        self.check("area ^ ~-3", area, token(9))
        self.check("area ^ inexact - area", area, token(9), area, token(3))
        self.check("abs(area)", area, token(10))
        self.check("2.5e3 * area", token(0), area, token(4))
        self.check("-1 * area", token(0), area, token(4))
        self.check("number / area", token(0), area, token(5))
        self.check('"area" + @6', area, area, token(2))
        self.check("(clock - clock) / duration", token(1, 3), token(1, 3), token(3), token(1, 4),
                   token(5))

    def test_faults_have_a_column(self):
        for formula, column, message in [
                ("flow * fluss", 8, "no kind is named 'fluss'"), ("flow *", 7, "expected a kind"),
                ("(flow", 6, "expected '\\)'"), ("flow flow", 6, "not expected"),
                ("area ^ 0.5", 8, "write it as a fraction"), ("area ^ 2 ^ 3", 10, "takes brackets"),
                ("-flow", 2, "minus stands before a number"), ("", 1, "expected a kind"),
                ("area ^ 9999999999", 8, "doesn't fit 32 bits"), ("@70000", 2, "0 to 65535"),
                ("flow % area", 6, "'%' is not expected"), ("abs flow", 5, "expected '\\('"),
                ("area ^ (1/-2)", 8, "doesn't fit"), ("area ^ ~ - area", 12, "after ~"), ("time", 1, "in quotes")]:
            with self.subTest(formula=formula):
                with self.assertRaisesRegex(BadInput, message) as caught:
                    tokens(formula, teaching(), 4)
                self.assertEqual((caught.exception.line, caught.exception.column), (4, column))

    def test_a_repeated_name_needs_its_index(self):
        catalog = read_text("kind a b0\nkind a 1\nkind b 1")
        with self.assertRaisesRegex(BadInput, "2 kinds are named 'a'"):
            tokens("a", catalog)
        self.assertEqual(infix(token(1, 1), catalog), "@1")
        self.assertEqual(infix(token(1, 2), catalog), "b")

    def test_any_formula_to_text_and_back(self):
        generator, catalog = random.Random(5), teaching()
        for size in range(1, 200):
            data = any_formula(generator, len(catalog.kinds), size % 40 + 1)
            self.assertEqual(tokens(infix(data, catalog), catalog), data)

    def test_as_deep_as_128_tokens_go(self):
        for tail in (token(10), token(8, 0, 2, 1)):
            data = token(1, 6) + tail * 127
            self.assertEqual(tokens(infix(data, teaching()), teaching()), data)
        with self.assertRaisesRegex(BadInput, "column 129: brackets nest deeper than 128"):
            tokens("(" * 5000, teaching())

    def test_any_letters_give_tokens_or_a_fault(self):
        generator, catalog = random.Random(11), teaching()
        parts = ["flow", "area", "abs", "(", ")", "^", "*", "==", "~", "2", "0.5", "-", "+", "@",
                 "dot", '"', "#", "/", "number", "inexact", "\\", " ", "?", "="]
        given = 0
        for _ in range(3000):
            text = " ".join(generator.choice(parts) for _ in range(generator.randint(0, 9)))
            try:
                given += len(tokens(text, catalog)) > 0
            except BadInput as fault:
                self.assertEqual(fault.line, 1)
                self.assertTrue(1 <= fault.column <= len(text) + 1)
        self.assertGreater(given, 20)

    def test_only_needed_brackets(self):
        for formula in ("volume + flow * area", "(volume + flow) * area", "area ^ (1/2)",
                        "(area ^ 2) ^ 3", "volume - (flow - area)", "abs(volume + flow)",
                        "(volume == flow) == area", "number * area ^ inexact"):
            self.assertEqual(infix(tokens(formula, teaching()), teaching()),
                             formula.replace("(volume == flow) == area", "volume == flow == area"))

    def test_malformed_tokens_are_refused(self):
        for data, message in [(b"", "0 bytes"), (b"\0" * 13, "13 bytes"), (token(4), "finds 0 terms"),
                              (token(0) * 2, "2 terms are left"), (token(12), "token 0"),
                              (token(0, 1), "token 0"), (token(0) + token(10, 0, 1), "token 1")]:
            with self.assertRaisesRegex(BadInput, message):
                infix(data, teaching())

    def test_formula_lines(self):
        self.assertEqual(formula_lines('# x\n\na * b # c\n"#" + "\\"#" # d\n'),
                         [(3, "a * b"), (4, '"#" + "\\"#"')])

    def test_every_example_formula_has_tokens(self):
        catalog = read_text(example("parlour.catalog"))
        found = formula_lines(example("parlour.formulas"))
        self.assertGreaterEqual(len(found), 12)
        for line, formula in found:
            data = tokens(formula, catalog, line)
            self.assertEqual(tokens(infix(data, catalog), catalog), data)


class CommandLine(unittest.TestCase):
    def run_tool(self, *arguments):
        return subprocess.run([sys.executable, PROGRAM, *arguments], capture_output=True, check=False)

    def test_there_and_back(self):
        path = os.path.join(EXAMPLES, "teaching.catalog")
        with tempfile.TemporaryDirectory() as folder:
            image, formula = os.path.join(folder, "t.image"), os.path.join(folder, "f.tokens")
            with open(image, "wb") as file:
                file.write(self.run_tool("image", path).stdout)
            self.assertEqual(self.run_tool("text", image).stdout.decode(), example("teaching.catalog"))
            self.assertEqual(read_catalog(image), read_catalog(path))
            with open(formula, "wb") as file:
                file.write(self.run_tool("tokens", path, "flow * duration").stdout)
            self.assertEqual(self.run_tool("infix", image, formula).stdout, b"flow * duration\n")

    def test_faults_are_told_on_standard_error(self):
        path = os.path.join(EXAMPLES, "teaching.catalog")
        result = self.run_tool("tokens", path, "flow * nobody")
        self.assertEqual((result.returncode, result.stdout), (1, b""))
        self.assertIn(b"line 1, column 8: no kind is named 'nobody'", result.stderr)
        self.assertEqual(self.run_tool("image", path + "x").returncode, 1)
        self.assertEqual(self.run_tool("draw", path).returncode, 2)
        self.assertEqual(self.run_tool().returncode, 2)

    def test_text_that_is_not_ascii(self):
        with tempfile.NamedTemporaryFile(suffix=".catalog") as file:
            file.write("kind a b0\nkind stößel b0\n".encode())
            file.flush()
            result = self.run_tool("image", file.name)
        self.assertIn(b"line 2: the text is not ASCII", result.stderr)


if __name__ == "__main__":
    unittest.main()

"""What kindcheck prints, and the part of a lent slice that is reported."""
import os

from oracle import damage, stored
from oracle.ask import ROOT, report
from oracle.holding import expected, written
from oracle.holding.common import WHOLE_BLOCKS, sections, sheets_of, small_images, spread
from oracle.holding.compilation import spoiled_image
from oracle.holding.scratch import Case
from tools.catalog import read_catalog
from tools.formula import KIND, NUMBER, TOKEN, token
from tools.image import BLOCK, read_image, write_image
from tools.records import Catalog, Kind

# The caller's own word for a number; it comes back whole.
WORD = b"a word\0"


# ---- What kindcheck prints.

def printed_case(data, line, about):
    return Case(f"rules-Report.kindcheck {written.numbers(data)}",
                written.numbers((line + "\n").encode("ascii")), about)


def printed_line(answer, catalog):
    return "number" if answer.what == "number" else report(answer, catalog)


def teaching_lines():
    """01's own: kind 6, kind 7, Mul; and others over the teaching catalog."""
    catalog = read_catalog(os.path.join(ROOT, "examples", "teaching.catalog"))
    image = write_image(catalog)
    two = token(KIND, 6) + token(KIND, 7) + token(4)
    return [(image + two, "refused 44 2"), (image + token(KIND, 2) + token(KIND, 4) + token(4),
                                            "kind 1 volume"),
            (image, "refused 50 0"), (image[:-1], "refused 1 0")]


def short_lines():
    """Input that ends early, and over the empty catalog."""
    empty = write_image(Catalog())
    header = write_image(Catalog(kinds=[Kind(id="one")]))[:BLOCK]
    return [(b"", "refused 1 0"), (empty[:9], "refused 1 0"), (empty[:-1], "refused 1 0"),
            (header, "refused 4 8"), (empty, "refused 50 0"), (empty + token(NUMBER), "number"),
            (empty + token(KIND, 0), "refused 41 0"), (empty + token(NUMBER) * 2, "refused 50 2"),
            (damage.resealed(empty[:4] + b"\5" + empty[5:]) + token(NUMBER), "refused 3 0"),
            (empty[:4] + b"\5" + empty[5:] + token(NUMBER), "refused 2 0")]


def small_lines(sources, most):
    """Formulas over small images, some of them cut short or damaged."""
    found = [(image, pair) for image, pairs in sections("formulas.bin", stored.FORMULAS)
             for pair in pairs if len(image) <= WHOLE_BLOCKS * BLOCK and len(pair[0]) <= 8 * TOKEN]
    lines = []
    for image, (formula, answer) in spread(found, most):
        lines.append((image + formula, printed_line(answer, read_image(image))))
    for image, answer in spread(small_images(sources, 2), most // 3):
        line = "number" if answer.what == "compiled" else f"refused {answer.number} {answer.place}"
        lines.append((image + token(NUMBER), line))
    return lines


def printed(sources, most):
    lines = (teaching_lines() + short_lines() + small_lines(sources, most))[:most]
    return sheets_of("Printed", [printed_case(data, line, f"input {data.hex()}")
                                 for data, line in lines], 1)


def word_of(image, index):
    """The part of an image that is a kind's id; empty where the image meets 1
    to 4 or the index is past the end."""
    if expected.image_refusal(image):
        return b""
    kinds = read_image(image).kinds
    return kinds[index].id.encode("ascii") if index < len(kinds) else b""


def report_case(random, image):
    if random.random() < 0.3:
        image = spoiled_image(random, image)
    index = random.choice([0, 1, 2, 3, 65535])
    wanted, term = word_of(image, index), f"(rules-Formula.Kind {index})"
    if random.random() < 0.1:
        wanted, term = WORD, "rules-Formula.Number"
    return Case(f"rules-Report.report {written.numbers(image)} {written.numbers(WORD)} {term}",
                written.numbers(wanted), f"{term} of image {image.hex()}")


def reports(sources, most):
    """The part of a lent slice that is reported."""
    good = [image for image, _ in small_images(sources, 2)]
    return sheets_of("Reports", [report_case(sources.random, sources.random.choice(good))
                                 for _ in range(most)], 1)

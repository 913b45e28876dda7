"""Catalogs compiled: as declarations, and as the bytes of images, good and bad."""
import struct

from oracle import damage, stored
from oracle.holding import expected, written
from oracle.holding.common import (PART_BLOCKS, SMALL_BLOCKS, WHOLE_BLOCKS, sections, sheets_of,
                                   small_images, spread)
from oracle.holding.scratch import Case, Sheet
from tools.image import BLOCK, ID, KIND_SIZE, ROW_SIZE, read_image

# ---- Compilations of declarations.

def probes(rows):
    """Some left, operation and right, and what the rows in force say of each:
    those of rows, turned, and under another operation."""
    in_force = {(row.left, row.operation, row.right): row.result for row in rows}
    asked = [(0, 0, 0)]
    for left, operation, right in list(in_force)[:4]:
        asked += [(left, operation, right), (right, operation, left),
                  (left, (operation + 1) % 4, right)]
    return [(*pair, 0) for pair in asked], [in_force.get(pair) for pair in asked]


def compiled(catalog, answer):
    """What to ask beside a compilation, and the wanted answer."""
    if answer.what == "refused":
        return "[]", written.refusal(answer)
    asked, results = probes(answer.rows)
    links = " ".join(written.optional(link) for link in expected.header_kinds(catalog))
    wanted = (f"compiled {written.compiled_kinds(answer)} {links} {written.entries(answer)} "
              f"{written.listed([written.optional(result) for result in results])}")
    return written.listed([written.entry(*pair) for pair in asked]), wanted


def compile_case(place, image, answer):
    catalog = read_image(image)
    asked, wanted = compiled(catalog, answer)
    return Case(f"compile ({written.catalog(catalog)}) {asked}", wanted,
                f"catalog {place}, which the Rust says is {answer.name}")


def compilations(fresh, most):
    """Those of few kinds: with 240 the ids alone take more steps than the
    prover gives a statement."""
    found = [(image, pairs[0][1]) for image, pairs in sections("compile.bin", stored.COMPILE)]
    found = [(place, *pair) for place, pair in enumerate(found + fresh.compilations)]
    small = [each for each in found if len(each[1]) <= SMALL_BLOCKS * BLOCK]
    return sheets_of("Compile", [compile_case(*each) for each in spread(small, most)], 20)


# ---- Images.

def image_case(image, room, answer, about):
    if answer.what == "refused":
        asked, wanted = "[]", written.refusal(answer)
    else:
        asked, wanted = compiled(read_image(image), answer)
    return Case(f"compile_image {written.numbers(image)} {room} {asked}", wanted, about)


def images(sources, most):
    """Whole images that are well formed, through every check."""
    found = spread(small_images(sources, WHOLE_BLOCKS), most)
    cases = [image_case(image, expected.TABLE_WORDS, answer, f"image {image.hex()}")
             for image, answer in found]
    return sheets_of("Images", cases, 1)


def record_places(image):
    """The first byte of each record."""
    kinds, rows = struct.unpack_from("<HH", image, 8)
    first_row_block = 1 + -(-kinds // 3)
    places = [BLOCK * (1 + k // 3) + 4 + k % 3 * KIND_SIZE for k in range(kinds)]
    return places, [BLOCK * (first_row_block + r // 5) + 4 + r % 5 * ROW_SIZE for r in range(rows)]


def field_places(random, image):
    """Bytes at which a value is likely to be wrong."""
    kinds, rows = record_places(image)
    block = BLOCK * random.randrange(len(image) // BLOCK)
    places = [2, 3, 4, 8, 10, 12, 44, 76, 507, block + 2, block + 3, block + 4, block + 507]
    for start in kinds:
        places += [start + field for field in (0, 1, 31, 32, 63, 64, 95, 98, 99, 142, 143, 144,
                                               145, 146, 147)]
    for start in rows:
        places += [start + field for field in (0, 31, 32, 64, 95, 96, 97, 98, 99)]
    return places


EDGES = [0, 1, 2, 3, 4, 32, 33, 126, 127, 128, 255]


def spoiled_image(random, image):
    """An image with one or two bytes changed, most with their sums set right."""
    if random.random() < 0.25:
        return damage.damaged_image(random, image)
    changed = bytearray(image)
    for _ in range(random.choice([1, 1, 2])):
        changed[random.choice(field_places(random, image))] = random.choice(EDGES)
    return damage.resealed(bytes(changed))


def speckled_image(random, image):
    """An image with bytes changed in many fields, its counts kept."""
    changed = bytearray(image)
    for _ in range(12):
        place = random.choice(field_places(random, image))
        if not 8 <= place < 12:
            changed[place] = random.choice(EDGES)
    return damage.resealed(bytes(changed)) if random.random() < 0.7 else bytes(changed)


def damaged(sources, most):
    """Images that meet 1 to 5, worked out from document 01's layout."""
    good = [image for image, _ in small_images(sources, WHOLE_BLOCKS)]
    cases = []
    while len(cases) < most:
        image = spoiled_image(sources.random, sources.random.choice(good))
        room = sources.random.choice([9296] * 8 + [9295, 0])
        answer = expected.image_refusal(image, room)
        if answer:
            cases.append(image_case(image, room, answer, f"room {room}, image {image.hex()}"))
    return sheets_of("Damaged", cases, 1)


def unsaid(image):
    """The bytes of an id after its first wrong one: of them 01 says nothing."""
    kinds, rows = record_places(image)
    starts = [12, 44] + [start + field for start in kinds + rows for field in (0, 32, 64)]
    return {byte for start in starts for wrong in expected.wrong_id_byte(image, start)
            for byte in range(wrong + 1, start + ID)}


def byte_cases(random, image):
    """byte_wrong at bytes that are wrong, beside them and elsewhere. Past byte
    10 nothing is said of an image whose counts or length are wrong."""
    wrong = set(expected.wrong_bytes(image))
    asked = {place + step for place in wrong for step in (-1, 0, 1)} | set(range(11))
    if not {8, 10} & wrong:
        asked |= {random.choice(field_places(random, image)) for _ in range(20)}
        asked |= {random.randrange(len(image)) for _ in range(20)}
        asked -= unsaid(image)
    else:
        asked &= set(range(11))
    return [Case(f"rules-Layout.byte_wrong s {place}", written.truth(place in wrong),
                 f"byte {place} of {image.hex()}")
            for place in sorted(asked) if 0 <= place < len(image)]


def block_cases(image):
    """The first blocks alone: a sum reads 508 bytes."""
    return [Case(f"rules-Image.sum_wrong s {block}", written.truth(expected.block_is_wrong(image, block)),
                 f"block {block} of {image.hex()}") for block in range(min(3, len(image) // BLOCK))]


def bytes_and_blocks(sources, most):
    """Single bytes and blocks of larger images, most of them damaged."""
    good = [image for image, _ in small_images(sources, PART_BLOCKS)]
    sheets, count = [], 0
    while count < most:
        spoil = sources.random.choice([spoiled_image, speckled_image, speckled_image])
        image = spoil(sources.random, sources.random.choice(good))
        if image and len(image) % BLOCK == 0:
            cases = byte_cases(sources.random, image) + block_cases(image)
            sheets.append(Sheet(f"Bytes{len(sheets)}", image_given(image), cases[:most - count]))
            count += len(cases)
    return sheets


def image_given(image):
    return f"abbrev s : List ℕ\ns = {written.numbers(image)}\n"


def read_case(image, answer):
    asked, wanted = compiled(read_image(image), answer)
    return Case(f"compile (rules-Catalog.catalog_in {written.numbers(image)}) {asked}", wanted,
                f"image {image.hex()}")


def readings(sources, most):
    """What an image's bytes declare, compiled without the checks of bytes."""
    found = spread(small_images(sources, PART_BLOCKS), most)
    return sheets_of("Readings", [read_case(*pair) for pair in found], 1)

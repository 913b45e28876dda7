"""The binary image of a catalog: blocks of 512 bytes, each with its sum."""
import struct

from tools.errors import BadInput
from tools.records import BASES, Catalog, Kind, Row

BLOCK = 512
SUM = 508
ID = 32
SCHEMA = 4
KIND_SIZE, KINDS_PER_BLOCK = 148, 3
ROW_SIZE, ROWS_PER_BLOCK = 100, 5
MOST_KINDS, MOST_ROWS = 240, 200


def block_sum(block):
    return sum((i + 1) * block[i] for i in range(SUM))


def sealed(place, block_type, records, content):
    """A whole block: its place, type and record count, content, sum."""
    block = struct.pack("<HBB", place, block_type, records) + content
    block = block.ljust(SUM, b"\0")
    return block + struct.pack("<I", block_sum(block))


def id_bytes(text):
    if len(text) > ID:
        raise BadInput(f"the id {text!r} is longer than {ID} bytes")
    if any(not 33 <= ord(c) <= 126 for c in text):
        raise BadInput(f"the id {text!r} has a character outside 33 to 126")
    return text.encode("ascii").ljust(ID, b"\0")


def exponent_bytes(exponents):
    if exponents is None:
        return bytes(4 * BASES)
    for numerator, denominator in exponents:
        if not -32768 <= numerator <= 32767 or not 1 <= denominator <= 32767:
            raise BadInput(
                f"the exponent {numerator}/{denominator} doesn't fit: "
                "numerators are -32768 to 32767, denominators 1 to 32767")
    return b"".join(struct.pack("<hH", *exponent) for exponent in exponents)


def kind_bytes(kind):
    if not 0 <= kind.grade <= 3:
        raise BadInput(f"the grade {kind.grade} is not 0 to 3")
    record = (id_bytes(kind.id) + id_bytes(kind.difference) + id_bytes(kind.rate_of)
              + exponent_bytes(kind.exponents)
              + bytes([kind.exponents is not None, kind.grade]))
    return record.ljust(KIND_SIZE, b"\0")


def row_bytes(row):
    record = (id_bytes(row.left) + id_bytes(row.right) + id_bytes(row.result)
              + bytes([row.operation, row.commutative]))
    return record.ljust(ROW_SIZE, b"\0")


def record_blocks(first, block_type, records, per_block):
    blocks = []
    for start in range(0, len(records), per_block):
        here = records[start:start + per_block]
        blocks.append(sealed(first + len(blocks), block_type, len(here), b"".join(here)))
    return blocks


def write_image(catalog):
    kinds, rows = len(catalog.kinds), len(catalog.rows)
    if kinds > MOST_KINDS:
        raise BadInput(f"{kinds} kinds; an image holds {MOST_KINDS} at most")
    if rows > MOST_ROWS:
        raise BadInput(f"{rows} rows; an image holds {MOST_ROWS} at most")
    header = (struct.pack("<IHH", SCHEMA, kinds, rows)
              + id_bytes(catalog.dimensionless) + id_bytes(catalog.time))
    blocks = [sealed(0, 0, 0, header)]
    blocks += record_blocks(1, 1, [kind_bytes(k) for k in catalog.kinds], KINDS_PER_BLOCK)
    blocks += record_blocks(len(blocks), 2, [row_bytes(r) for r in catalog.rows], ROWS_PER_BLOCK)
    return b"".join(blocks)


def read_id(data):
    text = data.rstrip(b"\0")
    if any(not 33 <= byte <= 126 for byte in text):
        raise BadInput(f"the id {bytes(text)!r} has a byte outside 33 to 126")
    return text.decode("ascii")


def read_exponents(data, flag):
    if flag == 0:
        if any(data):
            raise BadInput("an unresolved kind has exponent bytes that are not zero")
        return None
    if flag != 1:
        raise BadInput(f"the dimension flag is {flag}, not 0 or 1")
    return [struct.unpack_from("<hH", data, 4 * base) for base in range(BASES)]


def read_kind(data):
    return Kind(id=read_id(data[:32]), difference=read_id(data[32:64]),
                rate_of=read_id(data[64:96]),
                exponents=read_exponents(data[96:144], data[144]), grade=data[145])


def read_row(data):
    if data[96] > 3:
        raise BadInput(f"the operation {data[96]} is not 0 to 3")
    if data[97] > 1:
        raise BadInput(f"the commutative mark {data[97]} is not 0 or 1")
    return Row(left=read_id(data[:32]), right=read_id(data[32:64]),
               result=read_id(data[64:96]), operation=data[96], commutative=data[97])


def read_records(image, first_block, count, size, per_block, name, read):
    records = []
    for place in range(count):
        start = (first_block + place // per_block) * BLOCK + 4 + place % per_block * size
        try:
            records.append(read(image[start:start + size]))
        except BadInput as error:
            raise BadInput(f"{name} {place}: {error.message}") from None
    return records


def read_image(image):
    """The catalog of a well-formed image. That it is one is tested by writing
    the catalog again: every byte is given by what it declares."""
    if not image or len(image) % BLOCK:
        raise BadInput(f"the image has {len(image)} bytes, which are no whole blocks of {BLOCK}")
    schema, kinds, rows = struct.unpack_from("<IHH", image, 4)
    if schema != SCHEMA:
        raise BadInput(f"the schema is {schema}, not {SCHEMA}")
    kind_blocks = -(-kinds // KINDS_PER_BLOCK)
    blocks = 1 + kind_blocks + -(-rows // ROWS_PER_BLOCK)
    if len(image) != blocks * BLOCK:
        raise BadInput(f"{kinds} kinds and {rows} rows take {blocks} blocks, "
                       f"the image has {len(image) // BLOCK}")
    catalog = Catalog(
        dimensionless=read_id(image[12:44]), time=read_id(image[44:76]),
        kinds=read_records(image, 1, kinds, KIND_SIZE, KINDS_PER_BLOCK, "kind", read_kind),
        rows=read_records(image, 1 + kind_blocks, rows, ROW_SIZE, ROWS_PER_BLOCK, "row", read_row))
    written = write_image(catalog)
    if written != image:
        place = next(i for i in range(len(image)) if image[i] != written[i])
        raise BadInput(f"byte {place} is {image[place]}, where the layout has {written[place]}")
    return catalog

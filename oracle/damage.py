"""Damage to images and token lists: what a caller may hand over by mistake.

The Rust has no word for most of it, so nothing here is asked of the Rust. It
feeds programs that must answer every sequence of bytes.
"""
import struct

from tools.formula import TOKEN
from tools.image import BLOCK, SUM, block_sum


def resealed(image):
    """The same bytes with every block's sum set right."""
    blocks = [image[start:start + BLOCK] for start in range(0, len(image), BLOCK)]
    return b"".join(block[:SUM] + struct.pack("<I", block_sum(block))
                    if len(block) == BLOCK else block for block in blocks)


def flipped(random, data):
    changed = bytearray(data)
    for _ in range(random.choice([1, 1, 2, 5])):
        changed[random.randrange(len(changed))] ^= 1 << random.randrange(8)
    return bytes(changed)


def overwritten(random, data):
    changed = bytearray(data)
    place = random.randrange(len(changed))
    changed[place] = random.choice([0, 1, 2, 3, 4, 32, 33, 126, 127, 128, 255])
    return bytes(changed)


def shortened(random, data):
    return data[:random.randrange(len(data))]


def lengthened(random, data):
    more = random.choice([1, 12, BLOCK, random.randint(1, BLOCK)])
    return data + bytes(random.randrange(256) for _ in range(more))


def swapped(random, data, size):
    """Two whole blocks or tokens in each other's place."""
    parts = [data[start:start + size] for start in range(0, len(data), size)]
    first, second = random.randrange(len(parts)), random.randrange(len(parts))
    parts[first], parts[second] = parts[second], parts[first]
    return b"".join(parts)


def recounted(random, image):
    """Another number of kinds or rows in the header."""
    changed = bytearray(image)
    struct.pack_into("<H", changed, random.choice([8, 10]),
                     random.choice([0, 1, 2, 3, 5, 6, 200, 201, 240, 241, 65535]))
    return bytes(changed)


def damaged_image(random, image):
    """An image that differs from a good one; half of them with right sums, so
    that the fault lies in what the bytes say."""
    change = random.choice([flipped, overwritten, overwritten, shortened, lengthened, recounted,
                            lambda r, data: swapped(r, data, BLOCK)])
    damaged = change(random, image)
    return resealed(damaged) if random.random() < 0.5 else damaged


def damaged_tokens(random, tokens):
    change = random.choice([flipped, overwritten, shortened, lengthened,
                            lambda r, data: swapped(r, data, TOKEN),
                            lambda r, data: data * r.choice([2, 12, 130])])
    return change(random, tokens)

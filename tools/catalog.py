#!/usr/bin/env python3
"""Catalogs and formulas as text, and as the bytes that the kind check reads.

    catalog.py image FILE.catalog > FILE.image       text to image
    catalog.py text FILE.image                       image to text
    catalog.py tokens FILE.catalog 'flow * duration' > F.tokens
    catalog.py infix FILE.catalog F.tokens           tokens to a formula
    catalog.py formulas FILE.catalog FILE.formulas   each formula's tokens, in hex

A catalog may be given as text or as an image. Nothing here judges kinds: any
catalog that can be written as bytes can be written as text.
"""
import os
import sys

sys.path.insert(0, os.path.dirname(os.path.dirname(os.path.abspath(__file__))))

from tools.errors import BadInput  # noqa: E402
from tools.formula import formula_lines, infix, tokens  # noqa: E402
from tools.image import read_image, write_image  # noqa: E402
from tools.text import read_text, write_text  # noqa: E402


def read_bytes(path):
    with open(path, "rb") as file:
        return file.read()


def is_image(data):
    """Whether a catalog is an image: every image has zero bytes, and no text
    has."""
    return b"\0" in data


def text_catalog(data):
    try:
        return read_text(data.decode("ascii"))
    except UnicodeDecodeError as error:
        line = data[:error.start].count(b"\n") + 1
        raise BadInput("the text is not ASCII", line) from None


def catalog_of(data):
    """A catalog from its text or its image."""
    return read_image(data) if is_image(data) else text_catalog(data)


def read_catalog(path):
    return catalog_of(read_bytes(path))


def write_bytes(data):
    sys.stdout.buffer.write(data)
    sys.stdout.buffer.flush()


def image_command(path):
    write_bytes(write_image(read_catalog(path)))


def text_command(path):
    sys.stdout.write(write_text(read_catalog(path)))


def tokens_command(path, formula):
    write_bytes(tokens(formula, read_catalog(path)))


def infix_command(path, token_path):
    print(infix(read_bytes(token_path), read_catalog(path)))


def formulas_command(path, formulas_path):
    catalog = read_catalog(path)
    with open(formulas_path, encoding="ascii") as file:
        for line, formula in formula_lines(file.read()):
            print(tokens(formula, catalog, line).hex(), formula)


COMMANDS = {
    "image": (image_command, 1),
    "text": (text_command, 1),
    "tokens": (tokens_command, 2),
    "infix": (infix_command, 2),
    "formulas": (formulas_command, 2),
}


def main(arguments):
    command, count = COMMANDS.get(arguments[0] if arguments else "", (None, 0))
    if command is None or len(arguments) != 1 + count:
        print(__doc__.strip(), file=sys.stderr)
        return 2
    try:
        command(*arguments[1:])
    except (BadInput, OSError) as error:
        print(f"catalog.py: {error}", file=sys.stderr)
        return 1
    return 0


if __name__ == "__main__":
    sys.exit(main(sys.argv[1:]))

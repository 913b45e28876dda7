"""Where a refusal is: a part of the formula, marked under it, or the lines of
the catalog that it is about.
"""
from tools.text import written_header, written_kind, written_row

# What a place counts where a catalog is refused: 12 and 19 have a kind or a row.
KINDS = {10, 11, 12, 13, 14, 17, 18, 19, 20, 21}
ROWS = {12, 19, 22, 23, 24, 25, 26, 27}
HEADER = {12: "dimensionless", 44: "time"}  # by the id's first byte


def marked(formula, span):
    """The formula, and a line that has a mark under each letter of its part."""
    start, end = span
    # a tab stays one, so that the mark stands under its letters
    before = "".join("\t" if letter == "\t" else " " for letter in formula[:start])
    return [f"  {formula}", f"  {before}{'^' * (end - start)}"]


def in_formula(refusal, formula, spans):
    """The refused token's place, or the whole formula where its length is what
    is wrong and no token is to blame."""
    if refusal.number == 50 and not 1 <= len(spans) <= 128:
        return [f"  {len(spans)} tokens; a formula has 1 to 128"]
    if refusal.place < len(spans):
        return marked(formula, spans[refusal.place])
    return [f"  {formula}"]


def in_header(refusal):
    """Whether the place is the byte of a header's id. An unknown id of a
    record returns that record, one of the header 0."""
    return refusal.number in (15, 16) or (
        refusal.number == 12 and refusal.place in HEADER and refusal.values[0] == 0)


def in_catalog(refusal, catalog):
    """The lines of the catalog that have the place. Where it may be a kind's
    or a row's, those of both."""
    number, place = refusal.number, refusal.place
    if in_header(refusal):
        return [f"  {written_header(HEADER[place], catalog)}"]
    lines = []
    if number in KINDS and place < len(catalog.kinds) and may_be(number, catalog.kinds[place]):
        lines.append(f"  {written_kind(catalog.kinds[place])}")
    if number in ROWS and place < len(catalog.rows):
        lines.append(f"  {written_row(catalog.rows[place])}")
    return lines


def may_be(number, kind):
    """12 is about a kind that names another, 19 about a rate."""
    if number == 12:
        return bool(kind.difference or kind.rate_of)
    return number != 19 or bool(kind.rate_of)

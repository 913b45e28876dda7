"""The table's words: written, read, and which words are a table."""
from oracle.holding import expected, written
from oracle.holding.common import compiled_catalogs, sheets_of, spread, words_of
from oracle.holding.scratch import Case

# A table's words are asked in so many parts.
PARTS = 16


def used_places(random, catalog):
    """Words that are written as something else than 0, the ends of each part,
    and some others."""
    words = words_of(catalog)
    places = {place for place, word in enumerate(words) if word}
    rows = expected.FIRST_ROW + 4 * len(expected.compiled(catalog).rows)
    places |= {4, 15, 30, 46, 47, 16 + 32 * len(catalog.kinds), expected.FIRST_ROW - 1,
               rows, rows + 1, expected.TABLE_WORDS - 1}
    return sorted(places | {random.randrange(expected.TABLE_WORDS) for _ in range(10)})


def word_sheet(random, place, catalog):
    words = words_of(catalog)
    cases = [Case(f"rules-Table.table_word C {at}", str(words[at]), f"catalog {place}, word {at}")
             for at in used_places(random, catalog)]
    return sheets_of(f"Words{place}x", cases, 150, f"abbrev C : Catalog\nC = {written.catalog(catalog)}\n")


def words(sources, most):
    """Words of the tables that compilations write."""
    sheets = []
    for place, catalog in enumerate(compiled_catalogs(sources, max(1, most // 150))):
        sheets += word_sheet(sources.random, place, catalog)
    return sheets


def all_words(sources, most):
    """Every word of whole tables, 581 at a time. `table_words` itself puts each
    word behind the list so far, too long for a statement."""
    catalogs = compiled_catalogs(sources, -(-most // PARTS))
    cases = [part_case(place, catalog, part)
             for place, catalog in enumerate(catalogs) for part in range(PARTS)]
    return sheets_of("AllWords", cases, 4)


def part_case(place, catalog, part):
    size = expected.TABLE_WORDS // PARTS
    wanted = words_of(catalog)[part * size:(part + 1) * size]
    return Case(f"map (rules-Table.table_word ({written.catalog(catalog)})) "
                f"(up_from {part * size} {size})",
                written.numbers(wanted), f"catalog {place}, {size} words from {part * size} on")


def table_case(place, catalog):
    """What the words of a table are read as."""
    answer = expected.compiled(catalog)
    links = " ".join(written.optional(link) for link in expected.header_kinds(catalog))
    text = f"(rules-Table.kinds_of {written.numbers(words_of(catalog))})"
    return Case(f"compiled (seen {text}) {text}.dimensionless {text}.time [] []",
                f"compiled {written.compiled_kinds(answer)} {links} [] []",
                f"catalog {place}, its words read")


def tables(sources, most):
    cases = [table_case(place, catalog)
             for place, catalog in enumerate(compiled_catalogs(sources, most))]
    return sheets_of("Tables", cases, 10)


EDGES = [0, 1, 2, 3, 4, 5, 239, 240, 241, 400, 401, 32766, 32767, 32768, 65534, 65535, 65536,
         2**31, 2**32 - 32768, 2**32 - 32769, 2**32 - 1]


def spoiled_words(random, words):
    """The words of a table, one or two of them others; most in the parts that
    are read."""
    changed, kinds, rows = list(words), words[0], words[1]
    for _ in range(random.choice([1, 1, 2])):
        part = random.random()
        if part < 0.2 or not kinds:
            place = random.randrange(6)
        elif part < 0.45 and rows:
            place = expected.FIRST_ROW + random.randrange(4 * rows + 4)
        elif part < 0.75:
            place = 16 + 32 * random.randrange(kinds) + random.randrange(24, 32)
        else:
            place = 16 + 32 * random.randrange(kinds) + random.randrange(24)
        values = [*EDGES, kinds, max(kinds - 1, 0)]
        # Many rows in force would each be read, past 7,696 words.
        changed[place] = random.choice([0, rows + 1, 401, 65535] if place == 1 else values)
    return changed


def forty(sources, most):
    """Which words are a table: those of compilations, and others."""
    good = [words_of(catalog) for catalog in compiled_catalogs(sources, 60)]
    chosen = [sources.random.choice(good) for _ in range(most)]
    tried = [*good[:most // 10], *edge_tables(good[0]),
             *(spoiled_words(sources.random, words) for words in chosen)]
    cases = [Case(f"rules-Table.is_table {written.numbers(words)}",
                  written.truth(expected.is_table(words)), f"words {changes(words)}")
             for words in tried[:most]]
    return sheets_of("Forty", cases, 20)


def heads(_, most):
    """The header's four words: counts, dimensionless and time kind."""
    cases = []
    for kinds in (0, 1, 240, 241):
        for rows in (0, 400, 401):
            for link in (0, kinds, max(kinds, 1) - 1, 65534, 65535, 65536):
                for words in ([kinds, rows, link, 65535], [kinds, rows, 65535, link]):
                    fine = kinds <= 240 and rows <= 400 and (link < kinds or link == 65535)
                    cases.append(Case(f"rules-Table.head_fine {written.numbers(words)}",
                                      written.truth(fine), f"header {words}"))
    return sheets_of("Heads", spread(cases, most), 100)


def changes(words):
    """The words that are not 0, by place."""
    return {place: word for place, word in enumerate(words) if word}


def edge_tables(words):
    """Each edge of a table's fields, one at a time."""
    found = []
    for place, values in ((0, (240, 241)), (1, (401,)), (2, (words[0], 65534)),
                          (3, (words[0], 65536)), (16, (32767, 32768, 2**32 - 32768, 2**32 - 32769)),
                          (17, (0, 2, 32767, 32768)), (40, (2, 3)), (41, (3, 4)), (42, (0, 1, 2, 3)),
                          (43, (0, words[0], 65534)), (44, (words[0], 65535)), (45, (words[0],))):
        found += [words[:place] + [value] + words[place + 1:] for value in values]
    return found


def row_lists(sources, most):
    """Lent rows: in range or not, whole or not."""
    cases, random = [], sources.random
    for _ in range(most):
        kinds = random.choice([0, 1, 3, 240])
        words = [random.choice([0, 1, 2, kinds - 1 if kinds else 0, 3]) for _ in
                 range(random.choice([0, 3, 4, 5, 8, 12]))]
        if words and random.random() < 0.5:
            words[random.randrange(len(words))] = random.choice([3, 4, kinds, 65535])
        cases.append(Case(f"rules-Table.are_rows {written.numbers([kinds])} {written.numbers(words)}",
                          written.truth(expected.rows_are_fine(words, kinds)),
                          f"{kinds} kinds, rows {words}"))
    return sheets_of("RowLists", cases, 100)


def lent_rows(sources, most):
    """What lent rows name for a left, operation and right: the first counts."""
    cases, random = [], sources.random
    for _ in range(most):
        rows = [[random.randrange(3), random.randrange(4), random.randrange(3), random.randrange(9)]
                for _ in range(random.choice([0, 1, 2, 6]))]
        asked = random.choice(rows)[:3] if rows and random.random() < 0.8 else [1, 0, 2]
        named = next((row[3] for row in rows if row[:3] == asked), None)
        words = [word for row in rows for word in row]
        left, operation, right = asked
        cases.append(Case(f"rules-Table.rows_of {written.numbers(words)} {left} "
                          f"{written.OPERATIONS[operation]} {right}",
                          written.optional(named), f"rows {rows}, asked {asked}"))
    return sheets_of("LentRows", cases, 100)

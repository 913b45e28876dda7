"""The groups of statements by name."""
from oracle.holding import arithmetic, compilation, formulas, lent, reports, tables

# What each group asks, and at most how much of it.
ALL = 10**6
GROUPS = {
    "exponents": (arithmetic.exponents, ALL),
    "lookups": (arithmetic.lookups, ALL),
    "over-limits": (arithmetic.over_limits, 400),
    "grades": (arithmetic.grades, ALL),
    "compilations": (compilation.compilations, ALL),
    "formulas": (formulas.formulas, ALL),
    "long": (formulas.long_formulas, 12),
    "malformed": (formulas.malformed, 400),
    "indexes": (formulas.indexes, 300),
    "leaves": (formulas.leaves, ALL),
    "images": (compilation.images, 40),
    "damaged": (compilation.damaged, 80),
    "bytes": (compilation.bytes_and_blocks, 1000),
    "readings": (compilation.readings, 30),
    "words": (tables.words, 3000),
    "all-words": (tables.all_words, 64),
    "tables": (tables.tables, 100),
    "heads": (tables.heads, ALL),
    "forty": (tables.forty, 200),
    "row-lists": (tables.row_lists, 300),
    "lent-rows": (tables.lent_rows, 300),
    "lent": (lent.lent, 100),
    "calls": (lent.calls, 60),
    "printed": (reports.printed, 36),
    "reports": (reports.reports, 20),
}

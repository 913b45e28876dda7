"""What a catalog declares: kinds and rows, as they stand in the bytes.

An id is text; the empty one means undeclared where that is allowed. Exponents
stay as they were given: 2/4 is not 1/2 here.
"""
from dataclasses import dataclass, field

BASES = 12
ABSENT = (0, 1)
OPERATIONS = ("*", "/", "dot", "wedge")


@dataclass
class Kind:
    id: str = ""
    difference: str = ""
    rate_of: str = ""
    # Twelve pairs of numerator and denominator; None where unresolved.
    exponents: list = field(default_factory=lambda: [ABSENT] * BASES)
    grade: int = 0


@dataclass
class Row:
    left: str = ""
    right: str = ""
    result: str = ""
    operation: int = 0
    commutative: int = 0


@dataclass
class Catalog:
    dimensionless: str = ""
    time: str = ""
    kinds: list = field(default_factory=list)
    rows: list = field(default_factory=list)


def dimensions(powers):
    """Twelve exponents from a mapping of base to a number or a pair."""
    exponents = [ABSENT] * BASES
    for base, power in powers.items():
        exponents[base] = power if isinstance(power, tuple) else (power, 1)
    return exponents

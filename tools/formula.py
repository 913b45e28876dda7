"""Formulas as a person writes them, and as postfix tokens of 12 bytes.

Lowest first: `==`; then `+` and `-`; then `*`, `/`, `dot` and `wedge`; then
`^`. All group from the left, and a power of a power takes brackets. A number
is any decimal number, or the word `number`; `@7` is the kind at index 7. An
exponent is `2`, `-1` or `(1/2)`; one that is known inexactly is `~0.5`, or the
word `inexact`.
"""
import struct

from tools.errors import BadInput
from tools.words import Reader, written_exponent, written_name

TOKEN = 12
MOST_TOKENS = 128
NUMBER, KIND, POWER, INEXACT, ABSOLUTE, COMPARE = 0, 1, 8, 9, 10, 11
LEVELS = (("==",), ("+", "-"), ("*", "/", "dot", "wedge"))
CODES = {"+": 2, "-": 3, "*": 4, "/": 5, "dot": 6, "wedge": 7, "==": COMPARE}
SIGNS = {code: sign for sign, code in CODES.items()}
OPERAND = len(LEVELS) + 1


def token(code, kind=0, numerator=0, denominator=0):
    return struct.pack("<BBHiI", code, 0, kind, numerator, denominator)


class Parser:
    def __init__(self, text, catalog, line):
        self.reader, self.output, self.spans, self.depth = Reader(text, line), [], [], 0
        self.places = {}
        for place, kind in enumerate(catalog.kinds):
            self.places.setdefault(kind.id, []).append(place)

    def whole_formula(self):
        self.expression(0)
        if not self.reader.ends():
            self.reader.fail(f"{self.reader.next.text!r} is not expected here")
        return b"".join(self.output), self.spans

    def put(self, data, first, last=None):
        """A token, with the part of the text that it came from: from one word
        to another, or one alone."""
        self.output.append(data)
        self.spans.append((first.column - 1, (last or first).end - 1))

    def expression(self, lowest):
        """An operand and what follows it at this precedence or a tighter one,
        from the left."""
        self.power()
        while True:
            found = self.sign(lowest)
            if found is None:
                return
            level, sign = found
            self.expression(level + 1)
            self.put(token(CODES[sign.text]), sign)

    def sign(self, lowest):
        """Takes a sign of at least this precedence, if one is next."""
        word = self.reader.next
        for level in range(lowest, len(LEVELS)):
            for sign in LEVELS[level]:
                if self.reader.takes(sign):
                    return level, word
        return None

    def bracket(self):
        """What stands in brackets; no formula of 128 tokens nests deeper."""
        opening = self.reader.next
        self.reader.expect("(")
        self.depth += 1
        if self.depth > MOST_TOKENS:
            self.reader.fail(f"brackets nest deeper than {MOST_TOKENS}", opening)
        self.expression(0)
        self.depth -= 1
        self.reader.expect(")")

    def power(self):
        self.operand()
        sign = self.reader.next
        if not self.reader.takes("^"):
            return
        if self.reader.takes("inexact"):
            self.put(token(INEXACT), sign)
        elif self.reader.takes("~"):
            self.inexact_value()
            self.put(token(INEXACT), sign)
        else:
            word = self.reader.next
            if word.type == "real":
                self.reader.fail("a decimal exponent is known only inexactly: write it as a "
                                 f"fraction, or with ~ as in ^ ~{word.text}")
            numerator, denominator = self.reader.exponent()
            if not -2**31 <= numerator < 2**31 or not 0 <= denominator < 2**32:
                self.reader.fail(f"the exponent {numerator}/{denominator} doesn't fit 32 bits",
                                 word)
            self.put(token(POWER, 0, numerator, denominator), sign)
        if self.reader.next.text == "^" and self.reader.next.type == "symbol":
            self.reader.fail("a power of a power takes brackets: (a ^ 2) ^ 3")

    def inexact_value(self):
        """The number after ~ is for the reader of the formula; the token has
        no room for it."""
        self.reader.takes("-")
        if self.reader.next.type not in ("whole", "real"):
            self.reader.fail(f"expected a number after ~, found {self.reader.next.text!r}")
        self.reader.take()

    def operand(self):
        reader, first = self.reader, self.reader.next
        if first.type == "symbol" and first.text == "(":
            self.bracket()
        elif reader.takes("abs"):
            self.bracket()
            self.put(token(ABSOLUTE), first)
        elif reader.takes("number"):
            self.put(token(NUMBER), first)
        elif reader.takes("@"):
            word = reader.next
            place = reader.integer("a kind's index after @")
            if not 0 <= place < 2**16:
                reader.fail("a kind's index is 0 to 65535", word)
            self.put(token(KIND, place), first, word)
        elif reader.takes("-"):
            if reader.next.type not in ("whole", "real"):
                reader.fail("a minus stands before a number only; write -1 * x for a negative x")
            self.put(token(NUMBER), first, reader.take())
        elif first.type in ("whole", "real"):
            self.put(token(NUMBER), reader.take())
        else:
            self.put(token(KIND, self.place()), first)

    def place(self):
        word = self.reader.next
        name = self.reader.name("a kind, a number or a bracket")
        places = self.places.get(name, [])
        if not places:
            self.reader.fail(f"no kind is named {name!r}", word)
        if len(places) > 1:
            self.reader.fail(f"{len(places)} kinds are named {name!r}; write one by its index, "
                             f"as @{places[0]}", word)
        return places[0]


def parsed(formula, catalog, line=1):
    """The bytes of a formula's tokens, and for each token the part of the text
    that it came from: where it begins and where it ends, from 0."""
    return Parser(formula, catalog, line).whole_formula()


def tokens(formula, catalog, line=1):
    return parsed(formula, catalog, line)[0]


def formula_lines(text):
    """Line numbers and formulas of a text, one a line, comments left off."""
    found = []
    for line, content in enumerate(text.split("\n"), 1):
        reader = Reader(content, line)
        if not reader.ends():
            found.append((line, without_comment(content)))
    return found


def without_comment(content):
    """The line up to a `#` that no quote holds."""
    quoted = escaped = False
    for at, letter in enumerate(content):
        if letter == "#" and not quoted:
            return content[:at].rstrip()
        if letter == '"' and not escaped:
            quoted = not quoted
        escaped = letter == "\\" and quoted and not escaped
    return content.rstrip()


def kind_name(catalog, place):
    """A kind's name where the name alone says which, else its index."""
    if place < len(catalog.kinds):
        name = catalog.kinds[place].id
        if name and sum(kind.id == name for kind in catalog.kinds) == 1:
            return written_name(name)
    return f"@{place}"


def bracketed(operand, level):
    text, own = operand
    return text if own >= level else f"({text})"


def read_token(data, place):
    code, zero, kind, numerator, denominator = struct.unpack_from("<BBHiI", data, TOKEN * place)
    unused = [zero]
    if code != KIND:
        unused.append(kind)
    if code != POWER:
        unused += [numerator, denominator]
    if code > COMPARE or any(unused):
        written = data[TOKEN * place:TOKEN * (place + 1)].hex()
        raise BadInput(f"token {place} ({written}) is malformed")
    return code, kind, numerator, denominator


def infix(data, catalog):
    """The formula of a token list, with only the brackets that it needs."""
    if not data or len(data) % TOKEN:
        raise BadInput(f"{len(data)} bytes are no whole tokens of {TOKEN}")
    stack = []
    for place in range(len(data) // TOKEN):
        code, kind, numerator, denominator = read_token(data, place)
        needed = 0 if code in (NUMBER, KIND) else 1 if code in (POWER, INEXACT, ABSOLUTE) else 2
        if len(stack) < needed:
            raise BadInput(f"token {place} finds {len(stack)} terms and takes {needed}")
        operands = stack[len(stack) - needed:]
        del stack[len(stack) - needed:]
        stack.append(step(catalog, code, kind, (numerator, denominator), operands))
    if len(stack) != 1:
        raise BadInput(f"{len(stack)} terms are left at the end")
    return stack[0][0]


def step(catalog, code, kind, exponent, operands):
    """A token's text and its precedence."""
    if code == NUMBER:
        return "number", OPERAND
    if code == KIND:
        return kind_name(catalog, kind), OPERAND
    if code == ABSOLUTE:
        return f"abs({operands[0][0]})", OPERAND
    if code in (POWER, INEXACT):
        written = "inexact" if code == INEXACT else written_exponent(*exponent)
        return f"{bracketed(operands[0], OPERAND)} ^ {written}", OPERAND - 1
    sign = SIGNS[code]
    level = next(i for i, signs in enumerate(LEVELS) if sign in signs)
    left, right = bracketed(operands[0], level), bracketed(operands[1], level + 1)
    return f"{left} {sign} {right}", level

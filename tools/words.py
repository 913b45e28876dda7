"""The words of catalog text and of formulas, with the column of each.

A name is letters, digits and underscores, not beginning with a digit and not
reserved; any other id stands in double quotes, where a quote or a backslash
has a backslash before it.
"""
import re
from dataclasses import dataclass

from tools.errors import BadInput

RESERVED = {"kind", "row", "commutative", "dimensionless", "time", "grade", "difference",
            "rate", "of", "dot", "wedge", "abs", "number", "inexact"}
WORD = re.compile(r"""
    (?P<space>[ \t\r]+)
  | (?P<comment>\#.*)
  | (?P<name>[A-Za-z_][A-Za-z0-9_]*)
  | (?P<real>[0-9]+\.[0-9]*(?:[eE][+-]?[0-9]+)?|\.[0-9]+(?:[eE][+-]?[0-9]+)?|[0-9]+[eE][+-]?[0-9]+)
  | (?P<whole>[0-9]+)
  | (?P<quoted>"(?:[^"\\]|\\["\\])*")
  | (?P<symbol>==|[-+*/^()=?@~])
""", re.VERBOSE)
PLAIN = re.compile(r"[A-Za-z_][A-Za-z0-9_]*\Z")


@dataclass
class Word:
    type: str  # name, reserved, id (quoted), whole, real, symbol or end
    text: str
    column: int  # of its first character, from 1
    end: int  # the column after its last


def written_name(name):
    """An id as text: bare where that can be read back, else in quotes."""
    if PLAIN.match(name) and name not in RESERVED:
        return name
    return '"' + name.replace("\\", "\\\\").replace('"', '\\"') + '"'


def words(text, line):
    """The words of one line, a comment left off, and an end."""
    found, at = [], 0
    while at < len(text):
        match = WORD.match(text, at)
        if not match:
            wrong = "a quote is not closed" if text[at] == '"' else f"{text[at]!r} is not expected here"
            raise BadInput(wrong, line, at + 1)
        kind, part = match.lastgroup, match.group()
        if kind == "name" and part in RESERVED:
            kind = "reserved"
        if kind == "quoted":
            kind, part = "id", re.sub(r'\\(["\\])', r"\1", part[1:-1])
        if kind not in ("space", "comment"):
            found.append(Word(kind, part, at + 1, match.end() + 1))
        at = match.end()
    found.append(Word("end", "the end of the line", len(text) + 1, len(text) + 1))
    return found


class Reader:
    """The words of a line, taken from the left."""

    def __init__(self, text, line):
        self.line, self.words, self.at = line, words(text, line), 0

    @property
    def next(self):
        return self.words[self.at]

    def fail(self, message, word=None):
        word = word or self.next
        raise BadInput(message, self.line, word.column)

    def take(self):
        word = self.next
        if word.type != "end":
            self.at += 1
        return word

    def ends(self):
        return self.next.type == "end"

    def takes(self, text):
        """Takes the next word if it is this reserved word or symbol."""
        if self.next.type in ("reserved", "symbol") and self.next.text == text:
            self.at += 1
            return True
        return False

    def expect(self, text):
        if not self.takes(text):
            self.fail(f"expected {text!r}, found {self.next.text!r}")

    def name(self, what):
        word = self.next
        if word.type == "reserved":
            self.fail(f"{word.text!r} is a word of this language; as {what} write \"{word.text}\" in quotes")
        if word.type not in ("name", "id"):
            self.fail(f"expected {what}, found {word.text!r}")
        return self.take().text

    def integer(self, what):
        """A whole number, a minus allowed."""
        negative = self.takes("-")
        if self.next.type != "whole":
            self.fail(f"expected {what}, found {self.next.text!r}")
        value = int(self.take().text)
        return -value if negative else value

    def exponent(self):
        """`3`, `-1`, `(1/2)` or `(-1/2)`, as numerator and denominator."""
        if not self.takes("("):
            return self.integer("an exponent such as 3, -1 or (1/2)"), 1
        numerator = self.integer("a numerator")
        denominator = 1
        if self.takes("/"):
            denominator = self.integer("a denominator")
        self.expect(")")
        return numerator, denominator


def written_exponent(numerator, denominator):
    return str(numerator) if denominator == 1 else f"({numerator}/{denominator})"

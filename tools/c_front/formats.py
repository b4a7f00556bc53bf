"""The formats of printf and scanf, which have to be known."""
import re

from .faults import Refusal

PART = re.compile(r"%([-+ #0]*)(\*|\d+)?(?:\.(\*|-?\d+)?)?(hh|h|ll|l|j|z|t|L|q)?(.)", re.S)
WIDE = ("ll", "j", "q")
DOT = re.compile(r"%[-+ #0]*(?:\*|\d+)?\.")


class Piece:
    """A text, or a conversion: its letter, flags, width and precision, each a number, '*' or None."""

    def __init__(self, text=None, letter=None, flags="", width=None, precision=None, length=""):
        self.text = text
        self.letter = letter
        self.flags = flags
        self.width = width
        self.precision = precision
        self.length = length


def number_or_star(word):
    return word if word in (None, "*") else int(word)


def parse(data, place, name):
    """The pieces of a format; what cannot be printed here is refused."""
    text = data.decode("latin-1").split("\0")[0]
    pieces, at = [], 0
    while at < len(text):
        next_ = text.find("%", at)
        if next_ != at:
            end = len(text) if next_ < 0 else next_
            pieces.append(Piece(text=text[at:end]))
            at = end
            continue
        match = PART.match(text, at)
        if not match:
            raise Refusal(f"the format of {name} ends within a conversion", place)
        pieces.append(conversion(match, bool(DOT.match(match[0])), place, name))
        at = match.end()
    return pieces


def conversion(match, dotted, place, name):
    flags, width, precision, length, letter = match.groups()
    if letter == "%":
        return Piece(text="%")
    if letter not in "diuxXocs":
        raise Refusal(f"%{letter} in a format of {name}", place, "only %d %i %u %x %X %o %c %s and %% are translated")
    if length == "L" or length in WIDE and (letter in "cs" or name.endswith("scanf")):
        raise Refusal(f"%{length}{letter} in a format of {name}", place, "read an int")
    precision = number_or_star(precision) if precision else (0 if dotted else None)
    return Piece(None, letter, flags, number_or_star(width), precision, length or "")

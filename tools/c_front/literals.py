"""The values of numbers, characters and strings in C."""
import re

from . import c_types as t
from .faults import Refusal

ESCAPES = {"n": 10, "t": 9, "r": 13, "a": 7, "b": 8, "f": 12, "v": 11, "\\": 92, "'": 39, '"': 34, "?": 63, "e": 27}
PART = re.compile(r"\\x([0-9a-fA-F]+)|\\([0-7]{1,3})|\\(.)|([^\\])", re.S)


def characters(text, place):
    """The bytes of what stands between quotes."""
    found = []
    for digits, octal, escape, plain in PART.findall(text):
        if digits:
            found.append(int(digits, 16) & 255)
        elif octal:
            found.append(int(octal, 8) & 255)
        elif escape:
            if escape not in ESCAPES:
                raise Refusal(f"the escape \\{escape}", place)
            found.append(ESCAPES[escape])
        else:
            found += plain.encode("utf-8", "surrogateescape")
    return found


def character(text, place):
    """The value of a character constant, as gcc has it."""
    if text[:2] == "L'" and len(text) == 4 and text[2] != "\\":
        return ord(text[2])
    if text[0] != "'":
        raise Refusal("a wide character", place, "leave out the L")
    value = 0
    found = characters(text[1:-1], place)
    for byte in found:
        value = value << 8 | byte
    return t.CHAR.wrap(value) if len(found) == 1 else t.INT.wrap(value)


def string(text, place):
    """The bytes of a string literal, without the last zero."""
    if text[0] != '"':
        raise Refusal("a wide string", place, "leave out the L")
    return bytes(characters(text[1:-1], place))


def number(text, place):
    """The value and the type of an integer constant."""
    match = re.fullmatch(r"(0[xX][0-9a-fA-F]+|0[bB][01]+|\d+)([uUlL]*)", text)
    if not match:
        raise Refusal(f"the number {text}", place, "only integers are translated")
    digits, suffix = match[1], match[2].lower()
    base = 16 if digits[:2].lower() == "0x" else 2 if digits[:2].lower() == "0b" else 8 if digits[0] == "0" else 10
    value = int(digits[2:] if base in (2, 16) else digits, base)
    if value >> 64:
        raise Refusal(f"the number {text}, which has more than 64 bits", place)
    if suffix.count("l") == 2 or value > 0xffffffff or (base == 10 and "u" not in suffix and value > 0x7fffffff):
        return value, t.UWIDE if "u" in suffix or value >> 63 else t.WIDE
    unsigned = "u" in suffix or value > 0x7fffffff
    if "l" in suffix:
        return value, t.ULONG if unsigned else t.LONG
    return value, t.UINT if unsigned else t.INT

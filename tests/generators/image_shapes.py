"""Images of one form each: headers of one kind over and over, words of one kind, and loops of one kind of step.

An image is as large as its headers and what its segments have in memory. Beside these shapes stand the usual image, a text of
instructions of all sorts, and the usual loop, of which some are executed.
"""
import struct

import image_makers
from image_makers import SYSCALL, service, word_of
from machine import DATA, ENTRY_BYTES, HEADER, IDENT, LOADED, NOTE, TEXT

# The number of bytes of an image, and the number of steps of a loop, that count as one token of a
# source text.
BYTES, STEPS = 8, 20
# The maximum cost for each byte of an image, relative to the cost for a byte of the usual image (a
# text of instructions of all sorts). The maximum cost of an executed step is relative to the cost of
# a step of the usual loop.
MOST, MOST_STEP = 1.5, 5.0
SPENT = "budget spent"
# An image that runs no loop: it only ends, so its cost contains no step of a loop.
NOTHING = image_makers.image([(TEXT, service(3), 0)])


def headed(headers, behind=b"", entry=TEXT):
    """A file of such headers, each a type, a place in the file, an address, and a size in the file and in memory."""
    rest = struct.pack(">HHIIIIIHHHHHH", 2, 8, 1, entry, HEADER, 0, 0, HEADER, ENTRY_BYTES, len(headers), 0, 0, 0)
    table = b"".join(struct.pack(">8I", kind, at, to, to, size, memory, 5, 4) for kind, at, to, size, memory in headers)
    return IDENT + bytes(9) + rest + table + behind


class Image:
    """A shape of an image, made by the number of its parts: its file, and how many bytes it has in headers and in memory."""

    def __init__(self, make, part, ran=SPENT, listed="done"):
        self.make, self.part = make, part
        self.said, self.most = {"run": ran, "disasm": listed}, MOST

    def count(self, length):
        return max(1, BYTES * length // self.part)

    def given(self, count):
        return *self.make(count), ["--steps", "1"]

    def usual(self, length):
        return *(of_words(BYTES * length // 4) if length else (NOTHING, 0)), ["--steps", "1"]


class Steps:
    """A loop of these words behind some others, whose steps are its parts."""

    def __init__(self, before, body):
        self.words = before + body + [word_of("j", i=(TEXT >> 2) + len(before)), 0]
        self.said, self.most = {"run": SPENT}, MOST_STEP

    def count(self, length):
        return STEPS * length

    def given(self, count):
        return image_makers.image([(TEXT, self.words, 0)]), count, ["--steps", str(count)]

    def usual(self, length):
        return USUAL_STEPS.given(STEPS * length) if length else (NOTHING, 0, [])


# ---- files

SORTS = [
    word_of("addu", 8, 9, 10), word_of("addiu", 8, 9, i=1), word_of("lw", 29, 8, i=-4), word_of("sw", 29, 8, i=-8), word_of("sll", 0, 8, 9, 2),
    word_of("beq", 8, 9, i=1), word_of("lui", t=8, i=1), word_of("mult", 8, 9), word_of("mflo", d=8), 0,
]


def of_words(count):
    words = (SORTS * (count // len(SORTS) + 1))[:count]
    return image_makers.image([(TEXT, words, 0)]), HEADER + ENTRY_BYTES + 4 * count


def of_no_words(count):
    """A segment whose words are not in the file."""
    return image_makers.image([(TEXT, [0], 4 * count)]), HEADER + ENTRY_BYTES + 4 * (count + 1)


def of_segments(count, place=lambda number, count: number):
    """Segments of one word each, at these places one behind the other, which all have the same bytes."""
    headers = [(LOADED, HEADER + ENTRY_BYTES * count, TEXT + 4 * place(number, count), 4, 4) for number in range(count)]
    return headed(headers, bytes(4)), HEADER + (ENTRY_BYTES + 4) * count


def of_data(count):
    """Segments of a word in each second word of the data range, behind one of text."""
    at = HEADER + ENTRY_BYTES * (count + 1)
    headers = [(LOADED, at, TEXT, 4, 4)] + [(LOADED, at, DATA + 8 * number, 4, 4) for number in range(count)]
    return headed(headers, bytes(4)), HEADER + (ENTRY_BYTES + 4) * (count + 1)


def of_empty_segments(count):
    headers = [(LOADED, 0, TEXT, 0, 0)] * count + [(LOADED, HEADER + ENTRY_BYTES * (count + 1), TEXT, 4, 4)]
    return headed(headers, bytes(4)), HEADER + ENTRY_BYTES * (count + 1) + 4


def of_others(kind):
    """Headers that are of no segment."""
    return lambda count: (headed([(kind, HEADER, 0, 4, 4)] * count + [(LOADED, HEADER, TEXT, 4, 4)]), HEADER + ENTRY_BYTES * (count + 1))


IMAGES = {
    "words of instructions": Image(of_words, 4),
    "words that are not in the file": Image(of_no_words, 4),
    "segments of one word": Image(of_segments, ENTRY_BYTES + 4),
    "segments from the last to the first": Image(lambda count: of_segments(count, lambda number, all: all - 1 - number), ENTRY_BYTES + 4),
    "segments by turns from both ends": Image(
        lambda count: of_segments(count, lambda number, all: number // 2 if number % 2 == 0 else all - 1 - number // 2), ENTRY_BYTES + 4),
    # a single segment is valid, so an image with one segment is run
    "segments at one address": Image(
        lambda count: of_segments(count + 1, lambda number, all: 0), ENTRY_BYTES + 4, "image fault", "image fault"),
    "segments of data": Image(of_data, ENTRY_BYTES + 4),
    "empty segments": Image(of_empty_segments, ENTRY_BYTES),
    "headers of no segment": Image(of_others(0), ENTRY_BYTES),
    "notes of other owners": Image(of_others(NOTE), ENTRY_BYTES),
}

# ---- steps

OF_TEXT, OF_DATA, OF_STACK = word_of("lui", t=9, i=TEXT >> 16), word_of("lui", t=9, i=DATA >> 16), word_of("addu", 29, 0, 9)
SET = [word_of("addiu", 0, 8, i=3), word_of("addiu", 0, 10, i=5)]
USUAL_STEPS = Steps([OF_DATA, *SET], [
    word_of("lw", 9, 10, i=0), word_of("addiu", 10, 10, i=1), word_of("sw", 9, 10, i=0), word_of("addu", 11, 10, 11), word_of("xor", 11, 8, 12),
])


def number(register, value):
    return word_of("addiu", 0, register, i=value)


def made(words):
    """A unique block is made of so many words, and given back."""
    return service(9, number(4, 2), number(5, words)) + service(10, image_makers.moved(4, 2))


LOOPS = {
    "arithmetic": Steps(SET, [word_of("addu", 8, 10, 11), word_of("subu", 11, 8, 12), word_of("slt", 12, 11, 13), word_of("nor", 13, 12, 14)]),
    "products and quotients": Steps(SET, [word_of("mult", 8, 10), word_of("mflo", d=11), word_of("div", 8, 10), word_of("mfhi", d=11)]),
    "branches": Steps(SET, [word_of("bne", 8, 10, i=1), 0, word_of("beq", 8, 10, i=1), 0]),
    "jumps": Steps(SET, [word_of("j", i=(TEXT >> 2) + 4), 0]),
    "loads of text": Steps([OF_TEXT], [word_of("lw", 9, 8, i=0), word_of("lw", 9, 10, i=4)]),
    "bytes of text": Steps([OF_TEXT], [word_of("lbu", 9, 8, i=1), word_of("lbu", 9, 10, i=6)]),
    "loads of data that nothing wrote": Steps([OF_DATA], [word_of("lw", 9, 8, i=0), word_of("lw", 9, 10, i=4096)]),
    "loads of the stack that nothing wrote": Steps([OF_STACK], [word_of("lw", 9, 8, i=-4), word_of("lw", 9, 10, i=-1024)]),
    "stores to data": Steps([OF_DATA], [word_of("sw", 9, 8, i=0), word_of("sb", 9, 10, i=4097)]),
    "loads of a block": Steps(
        service(9, number(4, 2), number(5, 9)) + [image_makers.moved(9, 2)], [word_of("lw", 9, 8, i=4), word_of("sw", 9, 8, i=8)]),
    "blocks of one word": Steps([], made(1)),
    "blocks of 1,000 words": Steps([], made(1000)),
    "lexical regions": Steps([], service(5) + service(6, image_makers.moved(4, 3))),
    "dynamic regions": Steps([], service(7) + service(8, image_makers.moved(4, 2))),
    "bytes that are printed": Steps([number(4, 65), number(2, 2)], [SYSCALL, SYSCALL, SYSCALL, SYSCALL]),
    "bytes that are read": Steps([], service(1)),
}

"""Makes programs of a few instructions with edge operands, which store their results as words of the data range and use no service.

Each ends in two ways: by the machine's services, which print those words, and by Linux's calls, for qemu-mips. Left out is what MIPS32
leaves open: `div` by 0, `jalr` with one register twice, jumps in slots; and `div` of -2147483648 by -1.
"""
import itertools
import random
import struct

import image_makers
import machine
import stores
from image_makers import EDGES, NOP, constant, moved, service, word_of

IMMEDIATES = [0, 1, 2, 0xFF, 0x100, 0x7FFF, 0x8000, 0x8001, 0xFFFE, 0xFFFF]
AMOUNTS = [0, 1, 2, 15, 16, 30, 31]
RESULTS, ENDS = 24, 25
# The number of data bytes is small enough for a single write to a pipe.
DATA_BYTES = 0x8000
RANDOM_PROGRAMS = 40
# The numbers of Linux's system calls `write` and `exit`.
WRITE, EXIT = 4004, 4001


class Body:
    """The words of a program. Register 24 goes over the results."""

    def __init__(self):
        self.words = constant(RESULTS, machine.DATA)
        self.results = 0

    def add(self, *words):
        self.words += words

    def set(self, register, value):
        self.words += constant(register, value)

    def keep(self, *registers):
        for register in registers:
            self.add(word_of("sw", RESULTS, register), word_of("addiu", RESULTS, RESULTS, i=4))
            self.results += 1

    def here(self, over=0):
        """The word of text so many words further, as jumps name it."""
        return (machine.TEXT >> 2) + len(self.words) + over


# The registers chosen as s, t and d: three different registers, then the cases in which two are equal
# or the result is discarded (register 0).
REGISTERS = [(8, 9, 10), (8, 9, 8), (8, 9, 9), (8, 8, 10), (8, 8, 8), (0, 9, 10), (8, 0, 10), (8, 9, 0)]


def of_registers(name):
    body = Body()
    pairs = [((8, 9, 10), pair) for pair in itertools.product(EDGES, repeat=2)]
    pairs += [(registers, (EDGES[-3], EDGES[5])) for registers in REGISTERS]
    for (s, t, d), (first, second) in pairs:
        body.set(8, first)
        body.set(9, second)
        body.add(word_of(name, s, t, d))
        body.keep(d)
    return body


def of_numbers(name):
    body = Body()
    for (s, t), first, number in itertools.product([(8, 10), (8, 8), (8, 0), (0, 10)], EDGES, IMMEDIATES):
        body.set(8, first)
        body.add(word_of(name, s, t, i=number))
        body.keep(t)
    return body


def of_lui(name):
    body = Body()
    for t, number in itertools.product([10, 0], IMMEDIATES):
        body.add(word_of(name, t=t, i=number))
        body.keep(t)
    return body


def of_amounts(name):
    body = Body()
    for (t, d), first, amount in itertools.product([(9, 10), (9, 9), (9, 0), (0, 10)], EDGES, AMOUNTS):
        body.set(9, first)
        body.add(word_of(name, t=t, d=d, a=amount))
        body.keep(d)
    return body


def of_products(name):
    body = Body()
    for first, second in itertools.product(EDGES, repeat=2):
        if name == "div" and (second == 0 or (first, second) == (0x80000000, 0xFFFFFFFF)):
            continue
        body.set(8, first)
        body.set(9, second)
        body.add(word_of(name, 8, 9), word_of("mfhi", d=10), word_of("mflo", d=11))
        body.keep(10, 11)
    body.add(word_of("mfhi", d=0), word_of("mflo", d=0))
    body.keep(0)
    return body


def of_branches(name):
    """Forwards and backwards; the slot runs in each case, and what it does to the register is too late."""
    body = Body()
    has_two = name in ("beq", "bne")
    for first, second in itertools.product(EDGES, EDGES if has_two else [0]):
        t = 9 if has_two else 0
        body.set(8, first)
        body.set(9, second)
        body.add(word_of(name, 8, t, i=3), word_of("addiu", 8, 8, i=1), word_of("addiu", 0, 8, i=2), word_of("addiu", 8, 8, i=4))
        body.keep(8)
        body.set(8, first)
        # the branch's target is the instruction after the first jump and its delay slot
        body.add(word_of("j", i=body.here(5)), word_of("addiu", 0, 10, i=0), word_of("addiu", 10, 10, i=4))
        body.add(word_of("j", i=body.here(5)), NOP)
        body.add(word_of(name, 8, t, i=-4), word_of("addiu", 8, 8, i=1), word_of("addiu", 10, 10, i=8))
        body.keep(8, 10)
    return body


def of_jumps(name):
    """Over one word, by a way back that is kept; the slot runs before, and behind the jump's own reading of its register."""
    body = Body()
    for d in [31, 10, 0]:
        body.set(10, 0)
        body.set(31, 0)
        body.set(8, 4 * body.here(2 + 3))
        slot = word_of("addiu", 8, 8, i=4)
        if name in ("j", "jal"):
            body.add(word_of(name, i=body.here(3)), slot)
        else:
            body.add(word_of(name, 8, d=d if name == "jalr" else 0), slot)
        body.add(word_of("addiu", 8, 8, i=64))
        body.keep(8, 10, 31)
    return body


def of_accesses(name):
    """At both ends of what an offset reaches, from registers before and behind the word."""
    body = Body()
    word = machine.DATA + DATA_BYTES - 64
    for offset, value in itertools.product([0, 4, 32, 0x7FFC, 0x8000, 0x8004, 0xFFFC], EDGES[::3]):
        body.set(8, (word - (offset - 0x10000 if offset & 0x8000 else offset)) % stores.WORD)
        body.set(9, value)
        body.add(word_of("sw", 8, 9, i=offset), word_of("lw", 8, 10, i=offset), word_of("lw", 8, 0, i=offset))
        body.set(11, word)
        body.add(word_of("lw", 11, 12), word_of("lw", 11, 11))
        body.keep(0, 10, 11, 12)
    return body


def of_bytes(name):
    """Each byte of a word, from registers before and behind it, and what its other three are then."""
    body = Body()
    word = machine.DATA + DATA_BYTES - 64
    for offset, value in itertools.product([0, 1, 2, 3, 0x7FFD, 0x7FFF, 0x8000, 0x8003, 0xFFFE, 0xFFFF], [*EDGES[::3], 0x80, 0x12345678]):
        place = offset % 4
        body.set(8, (word + place - (offset - 0x10000 if offset & 0x8000 else offset)) % stores.WORD)
        body.set(9, value)
        body.set(11, word)
        body.set(13, 0x89ABCDEF)
        body.add(word_of("sw", 11, 13), word_of("sb", 8, 9, i=offset), word_of("lbu", 8, 10, i=offset), word_of("lbu", 8, 0, i=offset))
        body.add(word_of("lw", 11, 12), word_of("lbu", 11, 13, i=3 - place), word_of("lbu", 11, 11, i=place))
        body.keep(0, 10, 11, 12, 13)
    return body


MAKERS = [
    (image_makers.OF_REGISTERS + image_makers.SHIFTS_BY, of_registers), (image_makers.WITH_NUMBERS, of_numbers), (["lui"], of_lui),
    (image_makers.SHIFTS, of_amounts), (["mult", "div"], of_products), (image_makers.BRANCHES, of_branches),
    (["j", "jal", "jr", "jalr"], of_jumps), (["lw", "sw"], of_accesses),
    (["lbu", "sb"], of_bytes),
]


def of_all(numbers):
    """A random program of all instructions but jumps back, whose registers and products are its results."""
    body = Body()
    registers = [*range(2, 24)]
    for register in registers:
        body.set(register, numbers.choice([*EDGES, numbers.getrandbits(32)]))
    body.add(word_of("mult", 8, 9))
    for _ in range(150):
        names, make = numbers.choice([row for row in MAKERS if row[1] is not of_jumps])
        name = numbers.choice(names)
        s, t, d = (numbers.choice([0, *registers]) for _ in range(3))
        if name == "div":
            # instructions that make the divisor neither 0 nor -1
            body.add(word_of("ori", t, 9, i=1), word_of("andi", 9, 9, i=0x7FFF), word_of("div", s, 9))
        elif name in ("lw", "sw"):
            body.add(word_of(name, RESULTS, t, i=0x4000 + 4 * numbers.randrange(8)))
        elif name in ("lbu", "sb"):
            body.add(word_of(name, RESULTS, t, i=0x4000 + numbers.randrange(32)))
        elif make is of_branches:
            body.add(word_of(name, s, t if name in ("beq", "bne") else 0, i=2), word_of("addiu", s, d, i=7), word_of("addu", s, t, d))
        elif make is of_numbers or make is of_lui:
            body.add(word_of(name, s if make is of_numbers else 0, d, i=numbers.choice(IMMEDIATES)))
        else:
            is_product, is_shift = make is of_products, make is of_amounts
            body.add(word_of(name, 0 if is_shift else s, t, 0 if is_product else d, numbers.randrange(32) if is_shift else 0))
    body.add(word_of("mfhi", d=ENDS), word_of("mflo", d=1))
    body.keep(0, 1, ENDS, *registers)
    return body


def programs():
    """Each program with its name."""
    for names, make in MAKERS:
        yield from ((name, make(name)) for name in names)
    for number in range(RANDOM_PROGRAMS):
        yield f"random program {number}", of_all(random.Random(number))


def ours(body):
    """The end that prints the results by the machine's service, byte by byte."""
    loop = [word_of("lw", 8, 9)]
    for amount in (24, 16, 8, 0):
        loop += service(2, word_of("srl", t=9, d=4, a=amount))
    loop += [word_of("addiu", 8, 8, i=4), word_of("bne", 8, RESULTS, i=-len(loop) - 2), NOP]
    return body.words + constant(8, machine.DATA) + loop + service(3, moved(4, 0))


def results(body):
    """The results by the reference, as those ends print them."""
    run = machine.Run(machine.Image(executable(body.words + service(3))))
    run.end()
    return image_makers.bytes_of([run.content(machine.DATA + 4 * number) for number in range(body.results)])


def linux(body):
    """The end that writes the results by Linux's call."""
    write = service(WRITE, word_of("addiu", 0, 4, i=1), *constant(5, machine.DATA), word_of("subu", RESULTS, 5, 6))
    return body.words + write + service(EXIT, moved(4, 0))


def executable(words):
    """An image as Linux loads it: each segment begins a page of the file."""
    text = image_makers.bytes_of(words)
    front = machine.IDENT + bytes(9) + struct.pack(">HHIIIIIHHHHHH", 2, 8, 1, machine.TEXT, 52, 0, 0x1000, 52, 32, 2, 0, 0, 0)
    front += struct.pack(">8I", 1, 0x1000, machine.TEXT, machine.TEXT, len(text), len(text), 5, 0x1000)
    front += struct.pack(">8I", 1, 0, machine.DATA, machine.DATA, 0, DATA_BYTES, 6, 0x1000)
    return front + bytes(0x1000 - len(front)) + text

"""Generates random images that no compiler writes: words of instructions, calls of the store, and wrong headers.

Each image depends only on a seed and a number. The words are chosen so that runs do not end at once: most loads and stores access existing
words, and most services get valid arguments.
"""
import struct

import machine
import stores

STEPS = 1000
# The step budgets for images written by the compiler and for changed images, and the number of changed images derived
# from each image.
STEPS_OF_COMPILED, STEPS_OF_CHANGED, CHANGED = 30_000, 3_000, 5
# An image with one segment, which ends with result 3 after five instructions; and the same image with
# an ELF note that states 8 heap pages and 32 calls.
PLAIN = bytes.fromhex("""
7f454c46010201000000000000000000 0002000800000001 00400000 00000034 0000000000000000 0034002000010000 00000000
00000001 00000054 00400000 00400000 00000018 00000018 00000005 00000004
24040001 10000002 24840002 24840004 24020003 0000000c""")
WITH_NOTE = bytes.fromhex("""
7f454c46010201000000000000000000 0002000800000001 00400000 00000034 0000000000000000 0034002000020000 00000000
00000001 00000074 00400000 00400000 00000018 00000018 00000005 00000004
00000004 0000008c 00000000 00000000 0000001c 0000001c 00000004 00000004
24040001 10000002 24840002 24840004 24020003 0000000c
00000008 00000008 00000001 4379636c6f6e6500 00000008 00000020""")
# An image with two segments: code that prints the first word of the data, and two words of data in a
# segment of four words.
WITH_DATA = bytes.fromhex("""
7f454c46010201000000000000000000 0002000800000001 00400000 00000034 0000000000000000 0034002000020000 00000000
00000001 00000074 00400000 00400000 00000018 00000018 00000005 00000004
00000001 0000008c 10000000 10000000 00000008 00000010 00000006 00000004
3c081000 8d040000 24020002 0000000c 24020003 0000000c
00000048 00000069""")
# An image with two segments at one address, which is invalid. No random image is derived from this
# image.
DOUBLED = bytes.fromhex("""
7f454c46010201000000000000000000 0002000800000001 00400000 00000034 0000000000000000 0034002000020000 00000000
00000001 00000074 00400000 00400000 00000018 00000018 00000005 00000004
00000001 00000074 00400000 00400000 00000018 00000018 00000005 00000004
24040001 10000002 24840002 24840004 24020003 0000000c""")
SMALL_IMAGES = {"one segment": PLAIN, "a note": WITH_NOTE, "two segments": WITH_DATA}
SET_TO = (0x00, 0x7F, 0xFF)
# The extreme values of an ELF header field, and the values one beyond them.
FIELDS = [
    0, 1, 2, 3, 4, 5, 6, 7, 8, 0x14, 0x17, 0x18, 0x19, 0x1B, 0x1C, 0x1D, 0x20, 0x34, 0x54, 0x58, 0x74, 0x8C, 0x3FFFFC,
    0x400000, 0x400002, 0x400004, 0x400014, 0x400018, 0x1FFFFFC, 0x2000000, 0xFFFFFFC, 0x10000000, 0x10000004, 0x103FFFFC, 0x10400000,
    0x20000000, 0x30000000, 0x7FFFEFFC, 0x7FFFFFFF, 0x80000000, 0xFFFFFFF8, 0xFFFFFFFC, 0xFFFFFFFF,
]
EDGES = [0, 1, 2, 3, 4, 31, 32, 255, 0x7FFF, 0x8000, 0xFFFF, 0x10000, 0x7FFFFFFF, 0x80000000, 0x80000001, 0xFFFFFFFE, 0xFFFFFFFF]
# Sizes of heap blocks in words: the limits of the size classes of unique blocks, of a page, and of the allowed sizes; and
# invalid sizes.
SIZES = [1, 1, 2, 3, 4, 8, 24, 25, 64, 127, 128, 129, 256, 257, 400, 512, 513, 999, 1000]
NO_SIZES = [0, 1001, 1024, 0xFFFFFFFF]

OPCODE_OF = {name: opcode for opcode, (name, _) in machine.OPCODES.items()}
BRANCH_OF = {name: number for number, (name, _) in machine.BRANCHES.items()}
FUNCTION_OF = {name: number for number, (name, _) in machine.FUNCTIONS.items()}
SYSCALL, BREAK, NOP = 0x0C, 0x0D, 0
WITH_NUMBERS = ["addiu", "slti", "sltiu", "andi", "ori", "xori"]
OF_REGISTERS = ["addu", "subu", "and", "or", "xor", "nor", "slt", "sltu"]
SHIFTS, SHIFTS_BY = ["sll", "srl", "sra"], ["sllv", "srlv", "srav"]
BRANCHES = ["beq", "bne", "blez", "bgtz", "bltz", "bgez"]


def word_of(name, s=0, t=0, d=0, a=0, i=0):
    """Returns the word of an instruction; `i` is its 16-bit immediate, or the 26 bits of a jump."""
    if name in FUNCTION_OF:
        return s << 21 | t << 16 | d << 11 | a << 6 | FUNCTION_OF[name]
    if name in BRANCH_OF:
        return 1 << 26 | s << 21 | BRANCH_OF[name] << 16 | i & 0xFFFF
    if name in ("j", "jal"):
        return OPCODE_OF[name] << 26 | i & 0x3FFFFFF
    return OPCODE_OF[name] << 26 | s << 21 | t << 16 | i & 0xFFFF


def constant(register, value):
    """Returns two instructions that set a register."""
    return [word_of("lui", t=register, i=value >> 16), word_of("ori", register, register, i=value)]


def service(number, *moves):
    return [*moves, word_of("addiu", 0, 2, i=number), SYSCALL]


def moved(to, register):
    return word_of("addu", register, 0, to)


def number_in(register, value):
    return [word_of("addiu", 0, register, i=value)] if value < 0x8000 else constant(register, value)


def bytes_of(words):
    return b"".join(struct.pack(">I", word) for word in words)


def image(segments, entry=machine.TEXT, note=None):
    """Returns an image of segments, each an address, its words, and the number of further bytes in memory; and a note of limits."""
    parts = [(machine.LOADED, address, bytes_of(words), more) for address, words, more in segments]
    if note:
        parts.append((machine.NOTE, 0, struct.pack(">III8sII", 8, 8, 1, machine.NOTE_NAME, *note), 0))
    offset = machine.HEADER + machine.ENTRY_BYTES * len(parts)
    table, contents = b"", b""
    for kind, address, content, more in parts:
        table += struct.pack(">8I", kind, offset + len(contents), address, address, len(content), len(content) + more, 5, 4)
        contents += content
    rest = struct.pack(">HHIIIIIHHHHHH", 2, 8, 1, entry, machine.HEADER, 0, 0, machine.HEADER, machine.ENTRY_BYTES, len(parts), 0, 0, 0)
    return machine.IDENT + bytes(9) + rest + table + contents


class Made:
    """An image, and the options with which it is run."""

    def __init__(self, family, file, given=b"", pages=None, calls=None, steps=STEPS):
        self.family, self.file, self.given, self.pages, self.calls, self.steps = family, file, given, pages, calls, steps

    def options(self, steps):
        """Returns the command-line options for the limits of a run of so many steps."""
        limits = [("--pages", self.pages), ("--calls", self.calls), ("--steps", steps)]
        return [word for name, value in limits if value is not None for word in (name, str(value))]


class Words:
    """Random instructions, in a text that begins by setting some registers to addresses of words."""

    REGISTERS = [0, 2, 3, 4, 5, 8, 9, 10, 11, 16, 17, 18, 29, 31]
    BASES = [16, 16, 16, 17, 29, 18]

    def __init__(self, numbers):
        self.numbers, self.words = numbers, []
        for register, value in ((16, machine.DATA + 64), (17, machine.STACK_END - 64), (18, machine.TEXT)):
            self.words += constant(register, value)
        for register in (8, 9):
            self.words += constant(register, numbers.choice(EDGES))
        self.length = numbers.randint(8, 60)
        while len(self.words) < self.length:
            self.words += numbers.choice(self.MAKERS)(self)
        self.spoil()
        for register in (8, 9, 10, 11):
            self.words += [*self.print_byte(register, 0), *self.print_byte(register, 24)]
        self.words += numbers.choice([[], service(3), service(3, moved(4, 8)), service(4, moved(5, 9)), service(11)])

    def register(self):
        return self.numbers.choice(self.REGISTERS)

    def calculation(self):
        name = self.numbers.choice(WITH_NUMBERS + OF_REGISTERS + SHIFTS + SHIFTS_BY + ["lui", "mult", "mfhi", "mflo", "div"])
        s, t, d = self.register(), self.register(), self.numbers.choice([0, 2, 3, 4, 5, 8, 9, 10, 11])
        if name in WITH_NUMBERS:
            return [word_of(name, s, d, i=self.numbers.choice(EDGES))]
        if name == "lui":
            return [word_of(name, t=d, i=self.numbers.choice(EDGES))]
        if name in ("mult", "div"):
            return [word_of(name, s, t), word_of("mflo", d=8), word_of("mfhi", d=9)]
        amount = self.numbers.randrange(32) if name in SHIFTS else 0
        return [word_of(name, s if name in OF_REGISTERS + SHIFTS_BY else 0, t if name not in ("mfhi", "mflo") else 0, d, amount)]

    def access(self):
        name = self.numbers.choice(["lw", "sw", "lbu", "sb"])
        base = self.register() if self.numbers.random() < 0.1 else self.numbers.choice(self.BASES)
        if name in ("sw", "sb") and base == 18 and self.numbers.random() < 0.8:
            base = 16
        odd = [0, 1, 2, 3] if name in ("lbu", "sb") else [0] * 24 + [1, 2, 3]
        offset = 4 * self.numbers.randint(0 if base == 18 else -16, 15) + self.numbers.choice(odd)
        return [word_of(name, base, self.register(), i=offset)]

    def address(self):
        """Returns the number of a word of the text, usually one of these."""
        return self.numbers.randrange(self.length + 2) if self.numbers.random() < 0.95 else self.numbers.choice(EDGES)

    def jump(self):
        """Returns a jump, usually with no jump in its delay slot."""
        name = self.numbers.choice(BRANCHES * 2 + ["j", "jal", "jr", "jalr"])
        slot = self.jump() if self.numbers.random() < 0.05 else self.numbers.choice([self.calculation, self.access, self.print])()[:1]
        s, t, to = self.register(), self.register(), self.address()
        if name in ("j", "jal"):
            return [word_of(name, i=(machine.TEXT >> 2) + to), *slot]
        if name in ("jr", "jalr"):
            near = len(self.words) + 4 + self.numbers.randint(0, 3)
            return [*constant(10, machine.TEXT + 4 * near), word_of(name, 10, d=31 if name == "jalr" else 0), *slot]
        offset = self.numbers.randint(-4, 6) if self.numbers.random() < 0.9 else self.numbers.choice(EDGES)
        return [word_of(name, s, t if name in ("beq", "bne") else 0, i=offset), *slot]

    @staticmethod
    def print_byte(register, place):
        return service(2, word_of("srl", t=register, d=4, a=place))

    def print(self):
        return self.print_byte(self.register(), self.numbers.choice([0, 0, 8, 16, 24]))

    def read(self):
        return service(1) + self.print_byte(2, 0)

    def ask(self):
        return service(self.numbers.choice([5, 6, 7, 8, 9, 10, self.numbers.randint(0, 13)]))

    def rarity(self):
        """Returns usually nothing; sometimes an instruction that the machine refuses, or any word."""
        words = [
            [self.numbers.getrandbits(32)], [self.numbers.getrandbits(26)], [BREAK], [word_of("div", 8, 0)],
            [*constant(8, 1 << 31), word_of("addiu", 0, 9, i=-1), word_of("div", 8, 9)],
            [*constant(10, machine.TEXT), word_of("jalr", 10, d=10), NOP],
            [*constant(10, stores.STORE + 4 * self.numbers.randrange(2_048)), word_of("lw", 10, 8)],
            [*constant(10, self.numbers.choice(FIELDS)), word_of(self.numbers.choice(["lw", "sw", "lbu", "sb"]), 10, 8)],
        ]
        return self.numbers.choice(words) if self.numbers.random() < 0.3 else [NOP]

    MAKERS = [calculation] * 4 + [access] * 4 + [jump] * 3 + [print] * 3 + [read, read, ask, rarity]

    def spoil(self):
        """Sometimes inverts a bit of a word."""
        if self.numbers.random() < 0.3:
            self.words[self.numbers.randrange(len(self.words))] ^= 1 << self.numbers.randrange(32)


class Calls:
    """Calls of the store. Handles and addresses are kept in registers 16 to 23, and only values that do not depend on the store's choices
    are printed.

    Most calls refer to open regions or live blocks; some do not. Often the same calls are repeated until an invalid call becomes valid, or
    there is no room.
    """

    KEPT = range(16, 24)

    def __init__(self, numbers):
        self.numbers, self.words, self.next = numbers, [], 0
        # the registers that hold region handles and block addresses, and the number of open lexical
        # regions
        self.lexical, self.dynamic, self.blocks, self.unique, self.opened = [], [], [], [], 0
        for _ in range(numbers.randint(3, 24)):
            self.words += numbers.choice(self.MAKERS)(self)
        if numbers.random() < 0.5:
            self.words += [word_of("j", i=machine.TEXT >> 2), NOP]
        self.words += service(3)

    def happens(self, chance):
        return self.numbers.random() < chance

    def kept(self, names):
        """Saves the result of a call in the next register, and overwrites its former content."""
        register = self.KEPT[self.next]
        self.next = (self.next + 1) % len(self.KEPT)
        for others in (self.lexical, self.dynamic, self.blocks, self.unique):
            if register in others:
                others.remove(register)
        names.append(register)
        return moved(register, 2)

    def open(self):
        if self.happens(0.6):
            self.opened += 1
            return [*service(5), self.kept(self.lexical), word_of("addiu", 3, 4, i=48), *service(2)]
        return [*service(7), self.kept(self.dynamic)]

    def make(self):
        """Allocates a block in the heap, in a region, or a unique one."""
        size = number_in(5, self.numbers.choice(SIZES if self.happens(0.97) else NO_SIZES))
        if self.happens(0.03):
            return [*number_in(4, self.numbers.choice([0, 3, 77, stores.STORE])), *size, *service(9), self.kept(self.blocks)]
        handles = self.lexical + self.dynamic
        if handles and self.happens(0.6):
            return [moved(4, self.numbers.choice(handles)), *size, *service(9), self.kept(self.blocks)]
        is_unique = self.happens(0.6)
        first = number_in(4, stores.UNIQUE if is_unique else stores.HEAP)
        return [*first, *size, *service(9), self.kept(self.unique if is_unique else self.blocks)]

    def rush(self):
        """Allocates several large unique blocks of one size, and frees most of them at once: their pages stay in use."""
        size, words = self.numbers.choice([200, 256, 257, 512, 513, 1000]), []
        for _ in range(self.numbers.randint(2, 6)):
            words += [*number_in(4, stores.UNIQUE), *number_in(5, size), *service(9), self.kept(self.unique)]
        while self.unique and self.happens(0.9):
            words += [moved(4, self.unique.pop()), *service(10)]
        return words

    def use(self):
        """Stores a word and prints the word loaded from the same place, or does so with a byte of a stored word. A block of one word has
        only one such place."""
        blocks = self.blocks + self.unique
        if not blocks:
            return self.make()
        base, offset = self.numbers.choice(blocks), 0 if self.happens(0.9) else self.numbers.choice([4, 8, 12, 1, 2, -4])
        value = self.numbers.choice([65, 66, 67, 300])
        if self.happens(0.5):
            byte, other = self.numbers.randrange(4), self.numbers.randrange(4)
            begun = [*number_in(8, value), word_of("sw", base, 8, i=offset)] if self.happens(0.9) else number_in(8, value)
            return [*begun, word_of("sb", base, 8, i=offset + byte), word_of("lbu", base, 4, i=offset + other), *service(2)]
        return [*number_in(8, value), word_of("sw", base, 8, i=offset), word_of("lw", base, 4, i=offset), *service(2)]

    def free(self):
        """Frees a block, which is usually not used again."""
        others = self.blocks + self.unique
        if others and self.happens(0.03):
            return [moved(4, self.numbers.choice(others)), word_of("addiu", 4, 4, i=4 * self.numbers.randrange(2)), *service(10)]
        if not self.unique:
            return self.make()
        register = self.numbers.choice(self.unique)
        if self.happens(0.85):
            self.unique.remove(register)
        return [moved(4, register), *service(10)]

    def close(self):
        """Closes some regions, whose handles are usually not used again."""
        if self.dynamic and self.happens(0.5):
            register = self.numbers.choice(self.dynamic)
            if self.happens(0.85):
                self.dynamic.remove(register)
            return [moved(4, register), *service(8)]
        if self.happens(0.06):
            return number_in(4, self.numbers.choice([0, 1, 2, 77])) + service(self.numbers.choice([6, 8]))
        if self.lexical and self.happens(0.06):
            return service(8, moved(4, self.numbers.choice(self.lexical)))
        mark = self.numbers.randint(0, self.opened)
        if self.happens(0.85):
            del self.lexical[len(self.lexical) - min(self.opened - mark, len(self.lexical)):]
        self.opened = mark
        return [*number_in(4, mark), *service(6)]

    MAKERS = [open] * 2 + [make] * 5 + [use] * 4 + [free] * 2 + [close] * 2 + [rush]


def given(numbers):
    return bytes(numbers.choice([0, 10, 65, 255]) for _ in range(numbers.randint(0, 6)))


def note(numbers):
    """Returns the limits of a note, sometimes invalid ones."""
    if numbers.random() < 0.1:
        return numbers.choice([(2, 32), (65_537, 32), (8, 0), (8, 4_097)])
    return numbers.choice([3, 4, 8, 65_536]), numbers.choice([1, 2, 32, 4_096])


def of_words(numbers):
    """Returns a run of random words, sometimes with data and a note."""
    words = Words(numbers).words
    segments = [(machine.TEXT, words, 0)]
    if numbers.random() < 0.4:
        segments.append((machine.DATA, [numbers.choice(EDGES) for _ in range(numbers.randint(0, 40))], numbers.randint(0, 9)))
    limits = note(numbers) if numbers.random() < 0.2 else None
    pages, calls, steps = numbers.choice([None, 3, 4]), numbers.choice([None, 1, 2, 4_096]), numbers.choice([1, 20, STEPS, STEPS])
    return Made("words", image(segments, note=limits), given(numbers), pages, calls, steps)


def of_calls(numbers):
    """Returns a run of calls of a store of few pages."""
    limits = note(numbers) if numbers.random() < 0.2 else None
    return Made("calls", image([(machine.TEXT, Calls(numbers).words, 0)], note=limits), b"", numbers.choice([None, 3, 3, 4, 5, 8]))


def field(numbers):
    return numbers.choice(FIELDS) if numbers.random() < 0.9 else numbers.getrandbits(32)


def of_changes(numbers):
    """Returns a small image with some fields replaced, bytes changed, or bytes removed or added."""
    file = bytearray(numbers.choice(list(SMALL_IMAGES.values())))
    for _ in range(numbers.choice([1, 1, 2, 3])):
        at = 4 * numbers.randrange(4, len(file) // 4)
        if numbers.random() < 0.7:
            file[at:at + 4] = struct.pack(">I", field(numbers))
        else:
            file[numbers.randrange(len(file))] = numbers.choice([0, 1, 2, 3, 4, 0x7F, 0x80, 0xFF])
    if numbers.random() < 0.1:
        file = file[:numbers.randrange(len(file))]
    if numbers.random() < 0.1:
        file += numbers.randbytes(numbers.randint(1, 40))
    return Made("changes", bytes(file), given(numbers))


# Addresses at which test segments begin: at both ends of the code and data ranges and within these
# ranges.
ADDRESSES = [
    machine.TEXT, machine.TEXT, machine.TEXT + 0x1000, machine.TEXT_END - 24, machine.DATA, machine.DATA + 0x1000, machine.DATA_END - 24,
]


def of_headers(numbers):
    """Returns a file with a random table of program headers, most of which are valid."""
    count = numbers.randint(0, 6)
    offset = machine.HEADER + machine.ENTRY_BYTES * count
    content = bytes_of(Words(numbers).words) + WITH_NOTE[-28:]
    table = b""
    for _ in range(count):
        kind = numbers.choice([1] * 8 + [4] * 4 + [0, 2, 6, 0x70000003] + [3])
        size = 4 * numbers.randint(0, 6)
        more = numbers.choice([0, 0, 4, 1, 0x1000])
        address = numbers.choice(ADDRESSES)
        place, end = offset + 4 * numbers.randint(0, 4), size + more
        if kind == machine.NOTE and numbers.random() < 0.8:
            place, size, end = offset + len(content) - 28, 28, 28
        fields = [kind, place, address + 4 * numbers.randint(0, 6), 0, size, end, 5, 4]
        if numbers.random() < 0.1:
            fields[numbers.randrange(8)] = field(numbers)
        table += struct.pack(">8I", *fields)
    entry = numbers.choice([machine.TEXT, machine.TEXT + 4, machine.TEXT + 0x1000, machine.DATA, field(numbers)])
    rest = struct.pack(">HHIIIIIHHHHHH", 2, 8, 1, entry, machine.HEADER, 0, 0, machine.HEADER, machine.ENTRY_BYTES, count, 0, 0, 0)
    return Made("headers", machine.IDENT + bytes(9) + rest + table + content, given(numbers))


def of_compiled(name, file, given, numbers):
    """Returns an image written by the compiler, and some that differ from it in up to three words of the text."""
    yield Made(name, file, given, steps=STEPS_OF_COMPILED)
    text = machine.Image(file).segments[0]
    for _ in range(CHANGED):
        changed = bytearray(file)
        for _ in range(numbers.randint(1, 3)):
            at = file.index(text.content) + 4 * numbers.randrange(len(text.words()))
            word = int.from_bytes(changed[at:at + 4], "big") ^ 1 << numbers.randrange(32)
            changed[at:at + 4] = struct.pack(">I", numbers.choice([word, word, NOP, SYSCALL, numbers.getrandbits(32)]))
        yield Made(f"{name}, changed", bytes(changed), given, steps=STEPS_OF_CHANGED)


FAMILIES = [of_words] * 4 + [of_calls] * 3 + [of_changes] * 2 + [of_headers]


def made(numbers):
    """Returns a random image."""
    return numbers.choice(FAMILIES)(numbers)


def spoiled():
    """Yields each small image cut at each length, and with each byte set to 00, 7f and ff."""
    for name, file in {**SMALL_IMAGES, "one place": DOUBLED}.items():
        for length in range(len(file)):
            yield Made(f"{name}, cut at {length}", file[:length])
        for at in range(len(file)):
            for value in SET_TO:
                yield Made(f"{name}, byte {at} is {value:02x}", file[:at] + bytes([value]) + file[at + 1:])

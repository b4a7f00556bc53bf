"""Makes images that call the store: of rows of calls that were worked by hand, long ones at random, and ones that use every page.

Handles and addresses, which a store is free to choose, are kept in words of the data range and never printed. What an image has to print is
known here, from the row or from the lists of `stores.py`, so that nothing needs to run the image to know it.
"""
import machine
import stores
from image_makers import NOP, constant, image, moved, number_in, service, word_of

# Register 28 points to the memory words that store region handles and block addresses; register 20
# holds the sum that the program prints at the end.
KEPT, SUM = 28, 20
LEAVES = machine.DATA + 0x1000
BLOCK = stores.BLOCK_AT_MOST
# The number of words of a page that remain after the largest block, and the distance between the
# words of a page that are written.
REST, APART = stores.PAGE_WORDS - BLOCK, 11


def made(words):
    return image([(machine.TEXT, words, 0)])


def begun():
    return constant(KEPT, machine.DATA)


def load_kept(register, slot, more=0):
    """A handle or an address, with so many bytes added."""
    added = [word_of("addiu", register, register, i=more)] if more else []
    return [word_of("lw", KEPT, register, i=4 * slot), *added]


def keep(slot, register=2):
    return [word_of("sw", KEPT, register, i=4 * slot)]


def shown(register):
    """Prints the low byte of a register."""
    return service(2, moved(4, register))


def shown_word(register):
    """Prints the four bytes of a register, the high one first."""
    return [word for shift in (24, 16, 8, 0) for word in service(2, word_of("srl", t=register, d=4, a=shift))]


def returned():
    return service(3, moved(4, 0))


# ---- rows of calls that were worked by hand

WHY = {"BadHandle": stores.BAD_SERVICE, "BadSize": stores.BAD_SERVICE, "BadMark": stores.BAD_SERVICE, "NotABlock": stores.BAD_SERVICE}


class Row:
    """A row of calls: the images that make them, each with its name, what it has to print, and its last line and status."""

    def __init__(self, pages, calls):
        self.pages, self.calls = pages, [call.split(": ") for call in calls.split("; ")]

    def images(self):
        """One image that ends at each call that is refused, with the calls before it that are not, and one of all these."""
        words, output = begun(), b""
        for call, answer in self.calls:
            made_by = self.words_of(call)
            printed = self.printed(call, answer)
            if printed is None:
                yield f"{call}: {answer}", made(words + made_by), output, *self.end_of(call, answer)
            else:
                words, output = words + made_by, output + printed
        yield "all calls", made(words + returned()), output, "returned 0", 0

    @staticmethod
    def operand(register, word):
        """Sets a register to a number, or to what a letter names with more after a plus."""
        letter, _, more = word.partition("+")
        return number_in(register, int(word)) if letter.isdecimal() else load_kept(register, ord(letter) - ord("a"), int(more or 0))

    def words_of(self, call):
        verb, *words = call.split()
        slot = lambda word: ord(word) - ord("a")
        if verb == "lexical":
            return [*service(5), *keep(slot(words[0])), *shown(3)]
        if verb == "dynamic":
            return [*service(7), *keep(slot(words[0]))]
        if verb == "alloc":
            return [*self.operand(4, words[0]), *self.operand(5, words[1]), *service(9), *keep(slot(words[2]))]
        if verb == "save":
            return [*self.operand(8, words[0]), *self.operand(9, words[1]), word_of("sw", 8, 9)]
        if verb == "load":
            return [*self.operand(8, words[0]), word_of("lw", 8, 9), *shown_word(9)]
        return [*self.operand(4, words[0]), *service({"close_to": 6, "close": 8, "free": 10}[verb])]

    @staticmethod
    def printed(call, answer):
        """What a call prints with such an answer, or None if it is refused."""
        if answer in ("made", "opened", "done", "true"):
            return b""
        if answer.startswith("mark "):
            return bytes([int(answer.removeprefix("mark "))])
        return int(answer).to_bytes(4, "big") if answer.isdecimal() and call.startswith("load ") else None

    def end_of(self, call, answer):
        """The last line and the status of a run that ends by a call."""
        if answer == "Full":
            return stores.FULL
        if answer in WHY:
            return f"trap {WHY[answer]}", 6
        letter, _, more = call.split()[1].partition("+")
        address = int(letter) if letter.isdecimal() else stores.STORE + int(more or 0)
        if address % 4:
            return "trap misaligned", 6
        is_in = stores.STORE <= address < stores.STORE + stores.PAGE_BYTES * self.pages
        return ("trap dead cell" if is_in else "trap no such address"), 6


def rows_of(path):
    """The images of the rows of a file, each with its name, its pages, and how it has to end."""
    with open(path, encoding="utf-8") as file:
        for line in file:
            if not line.startswith("#"):
                name, pages, calls = line.rstrip("\n").split("|")
                for call, *rest in Row(int(pages), calls).images():
                    yield f"{name}, {call}", int(pages), *rest


# ---- many calls, at random, beside lists


class Refused(Exception):
    """A call that the store refuses: the last line and the status of a run that ends so."""


class Many:
    """Calls of a store at random, each of which succeeds by the lists of `stores.py`, and one at the end that does not."""

    # The block sizes in words that the generated programs request, all equally likely.
    SIZES = [1, 2, 3, 4, 5, 8, 16, 24, 25, 31, 64, 128, 129, 256, 512, 513, 999, 1000]
    SLOTS = 8_000

    def __init__(self, numbers, pages):
        self.numbers, self.pages, self.store = numbers, pages, stores.Store(pages)
        self.words, self.sum = begun() + constant(SUM, 0), 0
        self.slots = list(range(self.SLOTS))
        # the memory slot of each region handle and block address, with the first and the last word
        # written to each block
        self.handles, self.blocks = {}, {}

    def asked(self, call):
        """What the lists answer; a call that they refuse changes nothing."""
        try:
            return call()
        except stores.Trap as cause:
            raise Refused(f"trap {cause}", 6) from None
        except stores.End as end:
            raise Refused(end.line, end.status) from None

    def open(self, is_lexical):
        handle, mark = self.asked(lambda: self.store.open(is_lexical))
        slot = self.handles[handle.region] = self.slots.pop()
        self.words += [*service(5 if is_lexical else 7), *keep(slot)]
        if is_lexical:
            self.add([moved(8, 3)], mark)

    def add(self, words, value):
        """Adds what register 8 holds then to the sum that is printed in the end."""
        self.words += [*words, word_of("sll", t=SUM, d=9, a=5), word_of("addu", SUM, 9, SUM), word_of("addu", SUM, 8, SUM)]
        self.sum = (33 * self.sum + value) % stores.WORD

    def region(self):
        """An open region, one of the newest mostly, as the word of its handle and the code that has it in register 4."""
        those = self.store.opened()
        if not those or self.numbers.random() < 0.2:
            return stores.HEAP, number_in(4, stores.HEAP)
        region = self.numbers.choice(those[-8:])
        return stores.Handle(region), load_kept(4, self.handles[region])

    def make(self, is_unique):
        size = self.numbers.choice(self.SIZES)
        handle, code = (stores.UNIQUE, number_in(4, stores.UNIQUE)) if is_unique else self.region()
        block = self.asked(lambda: self.store.make(handle, size)).block
        slot, first, last = self.slots.pop(), self.numbers.randrange(stores.WORD), self.numbers.randrange(stores.WORD)
        self.words += [*code, *number_in(5, size), *service(9), *keep(slot)]
        for value, at in ((first, 0), (last, size - 1)):
            self.words += [*constant(9, value), word_of("sw", 2, 9, i=4 * at)]
        self.blocks[block] = slot, size, last if size == 1 else first, last

    def look(self, block):
        """Loads the first and the last word of a block."""
        slot, size, first, last = self.blocks[block]
        for value, at in ((first, 0), (last, size - 1)):
            self.add([*load_kept(2, slot), word_of("lw", 2, 8, i=4 * at)], value)

    def forget(self, gone):
        """Looks at blocks that are about to go, and has their slots free."""
        for block in gone:
            self.look(block)
            self.slots.insert(0, self.blocks.pop(block)[0])

    def free(self):
        live = [block for block in self.store.live if block.is_unique]
        if live:
            block = self.numbers.choice(live)
            slot = self.blocks[block][0]
            self.forget([block])
            self.store.free(stores.Place(block, 0))
            self.words += [*load_kept(4, slot), *service(10)]

    def close(self):
        if self.store.dynamic and self.numbers.random() < 0.5:
            region = self.numbers.choice(self.store.dynamic)
            slot = self.handles.pop(region)
            self.forget(region.blocks)
            self.store.close_dynamic(stores.Handle(region))
            self.words += [*load_kept(4, slot), *service(8)]
        elif self.store.lexical:
            count = len(self.store.lexical)
            mark = 0 if self.numbers.random() < 0.1 else count - 1
            for region in self.store.lexical[mark:]:
                self.forget(region.blocks)
                self.slots.insert(0, self.handles.pop(region))
            self.store.close_to(mark)
            self.words += [*number_in(4, mark), *service(6)]

    def call(self):
        """Makes a call, unless the store would refuse it."""
        try:
            self.numbers.choice(self.CALLS)(self)
        except Refused:
            pass

    MAKE = [lambda it: it.make(False)] * 6 + [lambda it: it.make(True)] * 3
    CALLS = [lambda it: it.open(True), lambda it: it.open(False), *[close] * 2, *MAKE, *[free] * 3]

    def image(self, count):
        """An image of so many calls, which then prints a sum of all that was loaded, and an O for each page that is left: the file, the
        output and the end."""
        for number in range(count):
            self.call()
            if number % 100 == 99:
                for block in list(self.store.live):
                    self.look(block)
        for block in list(self.store.live):
            self.look(block)
        left = self.pages - self.store.demand()
        opened = [*service(7), *service(2, *number_in(4, ord("O")))]
        self.words += [*shown_word(SUM), *opened, word_of("beq", 0, 0, i=-len(opened) - 1), NOP]
        return made(self.words), self.sum.to_bytes(4, "big") + b"O" * left, *stores.FULL


# ---- every page


def looped(register, body):
    """Does a body as often as a register says."""
    body = [*body, word_of("addiu", register, register, i=-1)]
    return [*body, word_of("bgtz", register, i=-len(body) - 1), NOP]


def leaf(is_first):
    """Opens a region with a block that fills its page, and has the region's handle in its first word; at 16 both are kept."""
    close = [] if is_first else [word_of("lw", 16, 4), *service(8)]
    opened = [*service(7), word_of("sw", 16, 2), moved(4, 2), *number_in(5, BLOCK), *service(9), word_of("sw", 16, 2, i=4)]
    return [*close, *opened, word_of("lw", 16, 8), word_of("sw", 2, 8), word_of("addiu", 16, 16, i=8)]


def bad_unless_equal(one, other):
    """Ends the run by a break unless two registers are equal."""
    return [word_of("beq", one, other, i=2), NOP, 0x0D]


def each_page_again(pages, gone=None):
    """Takes every page of a store by a region, closes each and opens one in its place while all others are in use, and looks at all words.
    Where `gone` is a number of a region, its block is loaded once it is closed, and nothing comes then."""
    count = pages - 1
    words = [*constant(16, LEAVES), *constant(17, count), *looped(17, leaf(True)), *constant(16, LEAVES)]
    if gone is not None:
        words += [*constant(17, gone), *looped(17, leaf(False))] if gone else []
        words += [word_of("lw", 16, 4), *service(8), word_of("lw", 16, 8, i=4), word_of("lw", 8, 9)]
        return made(words), b"", "trap dead cell", 6
    looks = [word_of("lw", 16, 8), word_of("lw", 16, 9, i=4), word_of("lw", 9, 9), *bad_unless_equal(8, 9), word_of("addiu", 16, 16, i=8)]
    words += [*constant(17, count), *looped(17, leaf(False)), *constant(16, LEAVES), *constant(17, count), *looped(17, looks)]
    return made(words + [*service(2, *number_in(4, ord("K"))), *service(7)]), b"K", *stores.FULL


def all_pages_filled(pages):
    """Fills each page of the heap by two blocks, writes words of both, another one each time, and looks at all of them."""
    steps = [(block, 4 * at) for block, size in ((0, BLOCK), (4, REST)) for at in range(0, size, APART)]
    fill = [word for at, size in ((0, BLOCK), (4, REST)) for word in (
        *number_in(4, stores.HEAP), *number_in(5, size), *service(9), word_of("sw", 16, 2, i=at))]
    for block, at in steps:
        load = [word_of("lw", 16, 2, i=block)] if at == 0 else []
        fill += [*load, word_of("addiu", 18, 18, i=1), word_of("sw", 2, 18, i=at)]
    look = []
    for block, at in steps:
        load = [word_of("lw", 16, 2, i=block)] if at == 0 else []
        look += [*load, word_of("addiu", 18, 18, i=1), word_of("lw", 2, 8, i=at), *bad_unless_equal(8, 18)]
    begin = [*constant(16, LEAVES), *constant(18, 0), *constant(17, pages)]
    step = [word_of("addiu", 16, 16, i=8)]
    words = [*begin, *looped(17, fill + step), *begin, *looped(17, look + step), *service(2, *number_in(4, ord("K")))]
    return made(words + [*number_in(4, stores.HEAP), *number_in(5, 1), *service(9)]), b"K", *stores.FULL

"""The store of the machine, for `machine.py`: what it is free to choose has no number here."""
STORE, PAGE_BYTES, PAGE_WORDS = 0x20000000, 4096, 1024
BLOCK_AT_MOST = 1000
HEAP, UNIQUE = 1, 2
WORD = 1 << 32
SMALLEST = 1 << 31


def signed(word):
    return word - WORD if word >= SMALLEST else word


class Open(Exception):
    """What comes next hangs on what a store is free to choose."""


class Trap(Exception):
    """The machine refuses the instruction."""


class End(Exception):
    """The run is over, with a last line and a status."""

    def __init__(self, line, status):
        super().__init__(line)
        self.line, self.status = line, status


FULL = "full", 5
BAD_SERVICE = "bad service"


class Unknown:
    """A word of which nothing is known."""


ANYTHING = Unknown()


class Region:
    """A region: the words of its blocks in order, and when it was opened and closed."""

    def __init__(self, now, is_lexical=False):
        self.is_lexical, self.opened, self.closed, self.sizes, self.blocks = is_lexical, now, None, [], []

    def pages(self, more=()):
        """Pages filled in order; a block that the rest of the last does not hold begins the next."""
        taken, left = 1, PAGE_WORDS
        for words in [*self.sizes, *more]:
            if words > left:
                taken, left = taken + 1, PAGE_WORDS
            left -= words
        return taken


class Block:
    """A block of words at an address that the store chose, and when it was made and died."""

    def __init__(self, words, now, is_unique):
        self.words, self.made, self.died, self.is_unique = words, now, None, is_unique


class Handle:
    """The handle of a region."""

    def __init__(self, region):
        self.region = region

    def __eq__(self, other):
        return isinstance(other, Handle) and other.region is self.region


class Place:
    """So many bytes behind the beginning of a block."""

    def __init__(self, block, offset):
        self.block, self.offset = block, signed(offset % WORD)

    def __eq__(self, other):
        return isinstance(other, Place) and (other.block, other.offset) == (self.block, self.offset)

    def is_inside(self):
        return 0 <= self.offset < 4 * self.block.words


def known(value):
    """A value that is a number."""
    if not isinstance(value, int):
        raise Open
    return value


def class_of(words):
    """The least power of two that holds so many words."""
    return 1 << (words - 1).bit_length()


class Store:
    """The regions and blocks of a run, as lists."""

    def __init__(self, pages):
        self.pages, self.now, self.heap = pages, 0, Region(0)
        self.lexical, self.dynamic, self.live, self.unique_pages = [], [], [], {}

    def tick(self):
        self.now += 1
        return self.now

    def opened(self):
        return self.lexical + self.dynamic

    def demand(self):
        return sum(region.pages() for region in [self.heap, *self.opened()]) + sum(self.unique_pages.values())

    def open(self, is_lexical):
        """Service 5 or 7: the new region's handle, and how many lexical ones were open."""
        if self.demand() + 1 > self.pages:
            raise End(*FULL)
        region, before = Region(self.tick(), is_lexical), len(self.lexical)
        (self.lexical if is_lexical else self.dynamic).append(region)
        return Handle(region), before

    def close(self, region):
        region.closed = self.tick()
        for block in region.blocks:
            self.kill(block)

    def kill(self, block):
        block.died = self.tick()
        self.live.remove(block)

    def close_to(self, mark):
        """Service 6."""
        if known(mark) > len(self.lexical):
            raise Trap(BAD_SERVICE)
        while len(self.lexical) > mark:
            self.close(self.lexical.pop())

    def named(self, handle):
        """The open region with this handle, other than the heap, or None. A handle that was closed may be another region's by now."""
        if isinstance(handle, Handle):
            region = handle.region
            if region.closed is None:
                return region
            others = [other for other in self.opened() if other.opened > region.closed]
        else:
            others = self.opened() if known(handle) not in (HEAP, UNIQUE) else []
        if others:
            raise Open
        return None

    def close_dynamic(self, handle):
        """Service 8."""
        region = self.named(handle)
        if not region or region.is_lexical:
            raise Trap(BAD_SERVICE)
        self.dynamic.remove(region)
        self.close(region)

    def make(self, handle, words):
        """Service 9."""
        region = self.heap if handle == HEAP else self.named(handle)
        if not region and handle != UNIQUE:
            raise Trap(BAD_SERVICE)
        if not 1 <= known(words) <= BLOCK_AT_MOST:
            raise Trap(BAD_SERVICE)
        if not region:
            return self.make_unique(class_of(words))
        if self.demand() - region.pages() + region.pages([words]) > self.pages:
            raise End(*FULL)
        region.sizes.append(words)
        block = self.made(words, False)
        region.blocks.append(block)
        return Place(block, 0)

    def make_unique(self, words):
        """A unique block of a class: its pages are the most that the blocks alive at one time ever took."""
        alive = 1 + sum(block.is_unique and block.words == words for block in self.live)
        before = self.unique_pages.get(words, 0)
        after = max(before, -(-alive // (PAGE_WORDS // words)))
        if self.demand() - before + after > self.pages:
            raise End(*FULL)
        self.unique_pages[words] = after
        return Place(self.made(words, True), 0)

    def made(self, words, is_unique):
        block = Block(words, self.tick(), is_unique)
        self.live.append(block)
        return block

    def might_be_another(self, block):
        """Whether a live block may lie where a dead one did."""
        return any(other.made > block.died for other in self.live)

    def free(self, address):
        """Service 10."""
        if isinstance(address, Place):
            block = address.block
            if block.died is None and block.is_unique and address.offset == 0:
                return self.kill(block)
            if not (block.died is None and address.is_inside() or block.died and address.is_inside() and not self.might_be_another(block)):
                raise Open
        elif not isinstance(address, int) or self.is_in(address) and address % 4 == 0 and any(block.is_unique for block in self.live):
            raise Open
        raise Trap(BAD_SERVICE)

    def is_in(self, address):
        return STORE <= address < STORE + PAGE_BYTES * self.pages

    def cell(self, place):
        """The cell of a block at a place that is a multiple of 4 behind its beginning."""
        if not place.is_inside() or place.block.died and self.might_be_another(place.block):
            raise Open
        if place.block.died:
            raise Trap("dead cell")
        return place.block, place.offset // 4

"""Values of a run, how many words and bytes they take, and the store. Regions and objects are marked when they are closed or freed, and an
access to one of them is an error of the rules, not of the program: `Dead`. So is a state that no case speaks of: `Wrong`."""
from typing import NamedTuple

from .types import CHAR, NULL, is_fat, is_number, is_pointer, narrowed, wrapped

PAGE_WORDS, WORD_BYTES = 1_024, 4
ARRAY_WORDS_AT_MOST = 1_000
NULL_EXCEPTION, ARRAY_BOUNDS, ARRAY_SIZE, DIVISION_BY_ZERO = 1, 2, 3, 4
# The value that stands for a memory cell that was never written.
NOTHING_YET = object()


class End(Exception):
    """A run's end before `main` returned, with its exit status."""

    def __init__(self, line, status):
        super().__init__(line)
        self.line, self.status = line, status


class Thrown(Exception):
    """An exception of the language that is on its way to a clause."""

    def __init__(self, tag, value=0):
        super().__init__(f"exception {tag} with {value}")
        self.tag, self.value = tag, value


class Dead(Exception):
    """An access to what is closed or freed: the rules should have refused the program."""


class Wrong(Exception):
    """A state that no case speaks of: the rules should have refused the program."""


# --- Values: an int is a number, null is None ---


class Thin(NamedTuple):
    object: "Object"
    offset: int


class Fat(NamedTuple):
    object: "Object"
    start: int
    length: int
    index: int


class Handle(NamedTuple):
    region: "Region"


class Key(NamedTuple):
    region: "Region"


class Region:
    """A region, with the pages that its blocks fill in order."""

    __slots__ = ("has_pages", "is_open", "pages", "filled")

    def __init__(self, has_pages):
        self.has_pages, self.is_open, self.pages, self.filled = has_pages, True, 1, 0

    def takes_page(self, words):
        """Whether a block of so many words begins the next page."""
        return self.filled + words > PAGE_WORDS


class Object:
    """Cells that a region owns, or a unique object with the class of its block. No two objects are equal."""

    __slots__ = ("cells", "region", "is_live", "size")

    def __init__(self, cells, region, size=None):
        self.cells, self.region, self.is_live, self.size = cells, region, True, size

    @property
    def is_there(self):
        return self.region.is_open if self.region else self.is_live


class Frame:
    """What a call knows: the object of each local, the region in which its block's variables live, and the block's lexical regions."""

    __slots__ = ("locals", "home", "lexical")

    def __init__(self, count, home):
        self.locals, self.home, self.lexical = [None] * count, home, []


def cell_of(place):
    """The cells of an object that is there, and the offset of a place in it."""
    thing, offset = place
    if not thing.is_there:
        raise Dead("a cell of what is closed or freed")
    if not 0 <= offset < len(thing.cells):
        raise Wrong("no such cell")
    return thing.cells, offset


def load(place):
    cells, offset = cell_of(place)
    if cells[offset] is NOTHING_YET:
        raise Wrong("a cell that holds nothing yet")
    return cells[offset]


def store(place, value):
    cells, offset = cell_of(place)
    cells[offset] = value


def followed(value):
    """The place that a pointer leads to."""
    if value is None:
        raise Thrown(NULL_EXCEPTION)
    if isinstance(value, Thin):
        return value
    return thinned(value)


def thinned(value):
    if not 0 <= value.index < value.length:
        raise Thrown(ARRAY_BOUNDS)
    return Thin(value.object, value.start + value.index)


def moved(value, by):
    return None if value is None else value._replace(index=wrapped(value.index + by))


def converted(value, wanted):
    """What a value becomes where one of this type is wanted."""
    if not is_pointer(wanted):
        return narrowed(value, wanted) if is_number(wanted) else value
    if value is None:
        if wanted[1] == "@":
            raise Thrown(NULL_EXCEPTION)
        return None
    if is_fat(wanted):
        return value if isinstance(value, Fat) else Fat(value.object, value.offset, 1, 0)
    return value if isinstance(value, Thin) else thinned(value)


# --- Sizes: a cell of a char takes the next byte, any other begins at the next word ---


def bytes_of(type):
    if type == CHAR:
        return 1
    return 3 * WORD_BYTES if type != NULL and is_fat(type) else WORD_BYTES


def words_for(count):
    """The words that so many bytes take."""
    return -(-count // WORD_BYTES)


def words_of(types):
    """The words of an object with cells of these types."""
    end = 0
    for type in types:
        end = (end if type == CHAR else words_for(end) * WORD_BYTES) + bytes_of(type)
    return words_for(end)


def number_of_elements(value):
    if value is None or not 0 <= value.index <= value.length:
        return 0
    return value.length - value.index


def is_zero(value):
    return value is None or isinstance(value, int) and value == 0


def equal_pointers(one, other):
    if one is None or other is None:
        return one is other
    for value in (one, other):
        if isinstance(value, Fat):
            raise Wrong("a fat pointer that is compared with another")
        if not value.object.is_there:
            raise Dead("a pointer to what is closed or freed is compared")
    return one.object is other.object and one.offset == other.offset


def quotient(one, other):
    """The quotient, rounded towards zero."""
    if other == 0:
        raise Thrown(DIVISION_BY_ZERO)
    size = abs(one) // abs(other)
    return wrapped(size if (one < 0) == (other < 0) else -size)


def remainder(one, other):
    """What the quotient leaves: it has the sign of what is divided."""
    if other == 0:
        raise Thrown(DIVISION_BY_ZERO)
    size = abs(one) % abs(other)
    return -size if one < 0 else size


UNARY = {"-": lambda a: wrapped(-a), "~": lambda a: -a - 1, "!": lambda a: int(is_zero(a))}
BINARY = {
    "|": lambda a, b: a | b,
    "^": lambda a, b: a ^ b,
    "&": lambda a, b: a & b,
    "==": lambda a, b: int(a == b),
    "!=": lambda a, b: int(a != b),
    "<": lambda a, b: int(a < b),
    "<=": lambda a, b: int(a <= b),
    ">": lambda a, b: int(a > b),
    ">=": lambda a, b: int(a >= b),
    "<<": lambda a, b: wrapped(a << (b & 31)),
    ">>": lambda a, b: a >> (b & 31),
    "+": lambda a, b: wrapped(a + b),
    "-": lambda a, b: wrapped(a - b),
    "*": lambda a, b: wrapped(a * b),
    "/": quotient,
    "%": remainder,
}


# --- The store ---


class Store:
    """Regions, objects, and the pages that they need: a call that needs more than there are ends the run."""

    def __init__(self, pages):
        self.limit, self.pages, self.most = pages, 0, 0
        self.live, self.class_pages = {}, {}
        self.heap = self.open(True)
        self.globals = self.open(False)

    def demand(self, pages):
        """Asks for so many pages more."""
        if self.pages + pages > self.limit:
            raise End("full", 5)
        self.pages += pages
        self.most = max(self.most, self.pages)

    def open(self, has_pages):
        if has_pages:
            self.demand(1)
        return Region(has_pages)

    def close(self, region):
        if not region.is_open:
            raise Dead("a region is closed twice")
        region.is_open = False
        if region.has_pages:
            self.pages -= region.pages

    def make(self, region, count, words):
        """A new object in a region, or a unique one where there is none."""
        words = max(words, 1)
        if region is None:
            return self.make_unique(count, words)
        if not region.is_open:
            raise Dead("an object is made in a closed region")
        if region.takes_page(words):
            self.demand(1)
            region.pages, region.filled = region.pages + 1, 0
        region.filled += words
        return Object([NOTHING_YET] * count, region)

    def make_unique(self, count, words):
        size = 1 << (words - 1).bit_length()
        live = self.live.get(size, 0) + 1
        pages = -(-live // (PAGE_WORDS // size))
        more = max(0, pages - self.class_pages.get(size, 0))
        self.demand(more)
        self.live[size], self.class_pages[size] = live, self.class_pages.get(size, 0) + more
        return Object([NOTHING_YET] * count, None, size)

    def free(self, value):
        if value is None:
            return
        thing = value.object
        if not thing.is_there:
            raise Dead("an object is freed twice")
        if thing.region or (value.start if isinstance(value, Fat) else value.offset) != 0:
            raise Wrong("what is freed is no unique object")
        thing.is_live = False
        self.live[thing.size] -= 1

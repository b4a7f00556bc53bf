"""Pieces of the translation: expressions with their precedence, lines with their places, and names that are free."""

RESERVED = set("""
int char void struct datatype exn region region_t uregion_key_t open let alias NewDynamicRegion new_ukey new rnew for if
else while return break continue throw try catch case default NULL numelts ufree free_ukey unique_region heap_region H U
putchar getchar
""".split())
LEVELS = {"||": 2, "&&": 3, "|": 4, "^": 5, "&": 6, "==": 7, "!=": 7, "<": 8, "<=": 8, ">": 8, ">=": 8, "<<": 9, ">>": 9, "+": 10, "-": 10,
          "*": 11, "/": 11, "%": 11}
ASSIGN, UNARY, POSTFIX, PRIMARY = 1, 12, 13, 14
COUNTER_SENSE = {"==": "!=", "!=": "==", "<": ">=", ">=": "<", ">": "<=", "<=": ">"}


class X:
    """The text of an expression. `chain` is how many operators of its level stand side by side in it."""
    __slots__ = ("text", "level", "chain")

    def __init__(self, text, level=PRIMARY, chain=0):
        self.text = text
        self.level = level
        self.chain = chain

    def at(self, level):
        """The text where an expression of at least this level is wanted."""
        return self.text if self.level >= level else f"({self.text})"

    def __str__(self):
        return self.text


def join(op, left, right):
    """An operation on two expressions; brackets stand where C programmers write them too."""
    level = LEVELS[op]
    left_text = left.at(level)
    chain = left.chain + 1 if left.level == level else 1
    if chain > 60:
        left_text, chain = f"({left.text})", 1
    if needs_brackets(op, left):
        left_text = f"({left.text})"
    right_text = f"({right.text})" if needs_brackets(op, right) else right.at(level + 1)
    return X(f"{left_text} {op} {right_text}", level, chain)


def needs_brackets(op, side):
    """Brackets that the grammar does not want, and readers do: `&&` in `||`, sums in shifts, and bits in what is tighter."""
    if side.level >= UNARY or side.level == LEVELS[op]:
        return False
    mixed = {2: (3,), 4: (5, 6, 9, 10), 5: (6, 9, 10), 6: (7, 9, 10), 9: (10, 11)}
    return side.level in mixed.get(LEVELS[op], ())


def number(value):
    """A number of 32 bits as an int."""
    value &= 0xffffffff
    if value >= 1 << 31:
        value -= 1 << 32
    if value == -(1 << 31):
        return X("-2147483647 - 1", LEVELS["-"])
    return X(str(value), PRIMARY if value >= 0 else UNARY)


CHARACTERS = {10: "'\\n'", 9: "'\\t'", 13: "'\\r'", 0: "'\\0'", 92: "'\\\\'", 39: "'\\''"}


def character(value):
    """A byte as a character constant where it has one."""
    if value in CHARACTERS:
        return CHARACTERS[value]
    return f"'{chr(value)}'" if 32 <= value < 127 else str(value)


def negate(x):
    return X("!" + x.at(UNARY), UNARY)


class Line:
    """A line of the translation, how deep it stands, and its place in the C program."""
    __slots__ = ("text", "depth", "place", "function")

    def __init__(self, text, depth, place, function):
        self.text = text
        self.depth = depth
        self.place = place
        self.function = function


class Names:
    """Names that nothing else has."""

    def __init__(self, taken):
        self.taken = set(taken) | RESERVED

    def free(self, wanted):
        name, number_ = wanted, 2
        while name in self.taken:
            name = f"{wanted}_{number_}" if wanted not in RESERVED else f"{wanted}_" + "_" * (number_ - 2)
            number_ += 1
        self.taken.add(name)
        return name

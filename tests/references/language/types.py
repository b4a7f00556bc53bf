"""Types and regions, how they are written, and what the rules of a construct say that it breaks.

A type is `INT`, `CHAR`, or a tuple: `pointer` with its mark, its target and its region, `handle` or `key` with a region, or
`struct` with its name and its regions. A region is its name; those that a text does not name have one with a sign that no name has.
"""
from .texts import Refused

HEAP, UNIQUE = "H", "U"
INT, CHAR = ("int",), ("char",)
# The types of an expression without a value and of the null pointer.
NOTHING, NULL = "nothing", "null"


def pointer(mark, target, region):
    return ("pointer", mark, target, region)


def is_number(type):
    """Whether a value of the type serves where an int is asked for."""
    return type in (INT, CHAR)


def is_pointer(type):
    return type[0] == "pointer"


def is_thin(type):
    return is_pointer(type) and type[1] != "?"


def is_fat(type):
    return is_pointer(type) and type[1] == "?"


def is_unique(type):
    return is_pointer(type) and type[3] == UNIQUE


def is_owned(type):
    """Whether a use of a variable of this type empties it."""
    return is_unique(type) or type[0] == "key"


def with_regions(type, regions):
    """The type with other regions in the place of those that are named there."""
    def other(region):
        return regions.get(region, region)

    if type[0] == "pointer":
        return pointer(type[1], with_regions(type[2], regions), other(type[3]))
    if type[0] in ("handle", "key"):
        return (type[0], other(type[1]))
    if type[0] == "struct":
        return ("struct", type[1], tuple(other(region) for region in type[2]))
    return type


def regions_of(type):
    """The regions in a type in the order in which they are written: a struct's or a handle's, then the marks' from the left."""
    if type[0] == "pointer":
        return regions_of(type[2]) + [type[3]]
    if type[0] == "struct":
        return list(type[2])
    return [type[1]] if type[0] in ("handle", "key") else []


def keys_of(types):
    return {type[1] for type in types if type[0] == "key"}


class Faults:
    """The rules that one construct breaks. The lowest code is the refusal, and among equal ones the first. The rules of a code
    that is overlooked are left out, so that what they forbid can be run."""

    overlooked = None

    def __init__(self):
        self.found = []

    def add(self, code, place):
        self.found.append((code, place))

    def settle(self):
        found = [fault for fault in self.found if fault[0] != Faults.overlooked]
        if found:
            raise Refused(*min(found, key=lambda fault: fault[0]))


class Variable:
    """A parameter, a local, a global, or what a `region` item or a `for` declares."""

    def __init__(self, name, type, region, sort, slot=None):
        self.name, self.type, self.region, self.sort, self.slot = name, type, region, sort, slot

    @property
    def is_place(self):
        return self.sort in ("local", "global")


class Signature:
    """What a call of a function is held against."""

    def __init__(self, parameters, result, effect, constraints):
        self.parameters, self.result, self.effect, self.constraints = parameters, result, effect, constraints


PUTCHAR = Signature([INT], INT, [], [])
GETCHAR = Signature([], INT, [], [])


# --- Types as they are written ---


class Written:
    """Makes types of what is written. `known` says of a region's name whether it is in scope."""

    def __init__(self, structs, faults, known):
        self.structs, self.faults, self.known = structs, faults, known

    def region(self, node, is_behind_mark):
        if node.name == UNIQUE and not is_behind_mark:
            self.faults.add(29, node.place)
        elif node.name not in (HEAP, UNIQUE) and not self.known(node):
            self.faults.add(20, node.place)
        return node.name

    def arguments(self, name, regions, place):
        """The regions of a struct's parameters. Those left out are the heap."""
        if name.text not in self.structs:
            self.faults.add(20, name.place)
        found = [self.region(region, False) for region in regions]
        if name.text not in self.structs:
            return None
        count = len(self.structs[name.text].parameters)
        if found and len(found) != count:
            self.faults.add(22, place)
        return ("struct", name.text, tuple(found or [HEAP] * count))

    def base(self, node):
        if node.base in ("int", "char"):
            return INT if node.base == "int" else CHAR
        if node.base == "struct":
            return self.arguments(node.name, node.arguments, node.place)
        region = self.region(node.arguments[0], False)
        if node.base == "region_t":
            return ("handle", region)
        if region == HEAP:
            self.faults.add(29, node.arguments[0].place)
        return ("key", region)

    def type(self, node, left_out):
        """`left_out` gives the region of a mark without one, by whether it is the outermost."""
        type = self.base(node)
        if node.base == "uregion_key_t" and node.marks:
            self.faults.add(22, node.place)
        if node.base == "struct" and (not node.marks or node.marks[0][0] == "?"):
            self.faults.add(22, node.place)
        for number, (mark, region) in enumerate(node.marks):
            is_outermost = number == len(node.marks) - 1
            type = pointer(mark, type, self.region(region, True) if region else left_out(is_outermost))
        return type


def written_regions(node):
    return node.arguments + [region for _, region in node.marks if region]


# --- Values of types ---


def wrapped(number):
    """The number that 32 bits hold of it, signed."""
    return ((number + 2**31) & 0xFFFFFFFF) - 2**31


def narrowed(number, type):
    """What a variable or a cell of a type holds of a number."""
    return number & 0xFF if type == CHAR else wrapped(number)


def converted(faults, outlives, type, wanted, place):
    """Adds what is wrong where a value of a type is converted to another."""
    if type == NULL:
        if not is_pointer(wanted):
            faults.add(22, place)
        elif wanted[1] == "@":
            faults.add(23, place)
    elif is_pointer(type) and is_pointer(wanted):
        if type[2] != wanted[2]:
            faults.add(22, place)
        elif not outlives(type[3], wanted[3]):
            faults.add(25, place)
    elif type != wanted and not (is_number(type) and is_number(wanted)):
        faults.add(22, place)


def paired(parameter, type):
    """The regions of a parameter's type with those of an argument's, as far as both have one shape."""
    if parameter[0] != type[0]:
        return []
    if parameter[0] == "pointer":
        return paired(parameter[2], type[2]) + [(parameter[3], type[3])]
    if parameter[0] == "struct":
        return list(zip(parameter[2], type[2])) if parameter[1] == type[1] else []
    return [(parameter[1], type[1])] if parameter[0] in ("handle", "key") else []

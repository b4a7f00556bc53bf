"""The types of C: numbers, pointers with what is inferred of them, arrays, structs and functions."""
from .faults import Refusal


class Type:
    """A type; the classes below are all there are."""


class Void(Type):
    def __str__(self):
        return "void"


class Int(Type):
    """A number without a fraction. `bits` is 8, 16 or 32, or less for a bit-field; `boolean` stores 0 or 1."""

    def __init__(self, name, bits, signed, rank, boolean=False):
        self.name = name
        self.bits = bits
        self.signed = signed
        self.rank = rank
        self.boolean = boolean

    def __str__(self):
        return self.name

    @property
    def size(self):
        return 1 if self.boolean else (self.bits + 7) // 8

    @property
    def is_char(self):
        return self.bits == 8 and not self.boolean

    def limits(self):
        if self.boolean:
            return 0, 1
        if self.signed:
            return -(1 << self.bits - 1), (1 << self.bits - 1) - 1
        return 0, (1 << self.bits) - 1

    def wrap(self, value):
        """The value of this type that is equal to `value` modulo 2 to the power of its bits."""
        if self.boolean:
            return int(value != 0)
        value &= (1 << self.bits) - 1
        if self.signed and value >> self.bits - 1:
            value -= 1 << self.bits
        return value


class Node:
    """What is known of all pointers of one class: those that are assigned to one another are of one class, and have one form."""

    def __init__(self):
        self.up = None
        self.fat = False
        self.compared = False
        self.inside = False
        self.bound = None

    def root(self):
        node = self
        while node.up is not None:
            node = node.up
        if node is not self:
            self.up = node
        return node


class Ptr(Type):
    """A pointer. `node` is its class; where its target is void, the class knows what it leads to."""

    def __init__(self, target, fat=False):
        self.target = target
        self.node = Node()
        self.node.fat = fat

    def __str__(self):
        return f"{self.target} *"

    @property
    def fat(self):
        return self.node.root().fat

    def make_fat(self):
        self.node.root().fat = True

    def leads_to(self):
        """The type that the pointer leads to; for a `void *` the one that it is used for, or None."""
        if isinstance(self.target, Void):
            return self.node.root().bound
        return self.target


class Array(Type):
    def __init__(self, element, length):
        self.element = element
        self.length = length

    def __str__(self):
        return f"{self.element}[{'' if self.length is None else self.length}]"


class Field:
    """A field; `unnamed` if C gives it no name, so that its own fields are those of the struct outside."""

    def __init__(self, name, type_, place, unnamed=False):
        self.name = name
        self.type = type_
        self.place = place
        self.unnamed = unnamed


class Struct(Type):
    """A struct, whose fields are None until it is defined; or a union, whose `uses` say which field is used where and by which function.

    Only unions of which the whole program uses one field are translated: `chosen`."""

    def __init__(self, tag, union=False):
        self.tag = tag
        self.name = tag
        self.fields = None
        self.place = None
        self.used = False
        self.union = union
        self.uses = []
        self.chosen = None
        self.laid_out = True        # by C's rules, and not by an attribute

    def __str__(self):
        return f"{'union' if self.union else 'struct'} {self.tag}"

    def way(self, name):
        """The fields that lead to the one of this name: more than one if it lies in a struct without a name; none if there is none."""
        for field in self.fields or []:
            if field.name == name:
                return [field]
        for field in self.fields or []:
            inner = field.type.way(name) if field.unnamed and isinstance(field.type, Struct) else []
            if inner:
                return [field] + inner
        return []


class Func(Type):
    """A function; `params` is None for `()`, of which nothing is known."""

    def __init__(self, result, params, variadic=False):
        self.result = result
        self.params = params
        self.variadic = variadic

    def __str__(self):
        inside = ", ".join(str(p) for p in self.params or [])
        return f"{self.result} ({inside})"


class Wide(Type):
    """A number of 64 bits."""
    size, bits, boolean = 8, 64, False

    def __init__(self, name, signed):
        self.name = name
        self.signed = signed

    def __str__(self):
        return self.name

    def wrap(self, value):
        """The value of this type that is equal to `value` modulo 2 to the power of 64."""
        value &= (1 << 64) - 1
        return value - (1 << 64) if self.signed and value >> 63 else value


class Absent(Type):
    """A type that has no counterpart: its use is refused, its mention is not."""

    def __init__(self, name, hint, size=8):
        self.name = name
        self.hint = hint
        self.size = size

    def __str__(self):
        return self.name


VOID = Void()
BOOL = Int("_Bool", 8, False, 1, True)
CHAR = Int("char", 8, True, 2)
SCHAR = Int("signed char", 8, True, 2)
UCHAR = Int("unsigned char", 8, False, 2)
SHORT = Int("short", 16, True, 3)
USHORT = Int("unsigned short", 16, False, 3)
INT = Int("int", 32, True, 4)
UINT = Int("unsigned int", 32, False, 4)
LONG = Int("long", 32, True, 5)
ULONG = Int("unsigned long", 32, False, 5)
FLOAT = Absent("float", "only integers are translated")
WIDE = Wide("long long", True)
UWIDE = Wide("unsigned long long", False)


def is_int(type_):
    return isinstance(type_, Int)


def is_wide(type_):
    return isinstance(type_, Wide)


def is_number(type_):
    return isinstance(type_, (Int, Wide))


def is_aggregate(type_):
    return isinstance(type_, (Array, Struct))


def is_tag(type_):
    """Whether a value of this type is a pointer to a function, whose form is a number."""
    return isinstance(type_, Ptr) and isinstance(type_.target, Func)


def is_object_pointer(type_):
    return isinstance(type_, Ptr) and not isinstance(type_.target, Func)


def promote(type_):
    """The integer promotions: what is narrower than an int becomes one."""
    if type_.rank < INT.rank or type_.bits < 32:
        return INT
    return type_


def usual(left, right):
    """The type of an operation on two numbers, by the usual arithmetic conversions."""
    left, right = promote(left), promote(right)
    if left.signed == right.signed:
        return left if left.rank >= right.rank else right
    unsigned, signed = (right, left) if left.signed else (left, right)
    if unsigned.rank >= signed.rank:
        return unsigned
    return ULONG


def size_of(type_, place):
    """The size in bytes, on a machine of 32 bits."""
    if isinstance(type_, (Int, Wide)):
        return type_.size
    if isinstance(type_, Ptr):
        return 4
    if isinstance(type_, Array):
        if type_.length is None:
            raise Refusal("sizeof of an array without a length", place)
        if not isinstance(type_.length, int):
            raise Refusal("sizeof of an array whose length is not constant", place, "write the number of bytes")
        return type_.length * size_of(type_.element, place)
    if isinstance(type_, Struct) and type_.fields is not None:
        return struct_size(type_, place)
    if isinstance(type_, Absent):
        return type_.size
    if isinstance(type_, (Void, Func)):
        return 1
    raise Refusal(f"sizeof of an incomplete type: {type_}", place)


def align_of(type_):
    if isinstance(type_, Array):
        return align_of(type_.element)
    if isinstance(type_, Struct):
        return max([align_of(f.type) for f in type_.fields or []] or [1])
    if isinstance(type_, Absent):
        return min(type_.size, 4)
    return min(size_of(type_, None), 4)


def offsets(struct, place):
    """Where each field of a struct or a union begins, with where the last one ends, by the usual layout."""
    if not struct.laid_out:
        raise Refusal("the size of a struct whose layout an attribute changes", place, "write the number of bytes")
    at, end, found = 0, 0, {}
    for field in struct.fields:
        if is_int(field.type) and field.type.bits not in (8, 16, 32):
            raise Refusal("the size of a struct with bit-fields", place, "write the number of bytes")
        align = align_of(field.type)
        at = 0 if struct.union else (at + align - 1) // align * align
        found[field] = at
        at += size_of(field.type, place)
        end = max(end, at)
    return found, end


def struct_size(struct, place):
    """The size of a struct or a union by the usual layout."""
    _, end = offsets(struct, place)
    widest = align_of(struct)
    return (end + widest - 1) // widest * widest


def unify(left, right, place):
    """Gives two pointers that meet in an assignment one class, and so what they lead to."""
    if isinstance(left, Array) and isinstance(right, Array):
        unify(left.element, right.element, place)
        return
    if isinstance(left, Func) and isinstance(right, Func):
        unify_functions(left, right, place)
        return
    if not (isinstance(left, Ptr) and isinstance(right, Ptr)):
        return
    one, other = left.node.root(), right.node.root()
    left_target, right_target = left.leads_to(), right.leads_to()
    if one is not other:
        other.up = one
        one.fat |= other.fat
        one.compared |= other.compared
        one.inside |= other.inside
        one.bound = one.bound or other.bound
    bind_void(one, left, right)
    if left_target is not None and right_target is not None:
        same_form(left_target, right_target, place)
        unify(left_target, right_target, place)


def bind_void(root, left, right):
    """Says of the class of a `void *` what it leads to, if one of the two knows."""
    for pointer in (left, right):
        if root.bound is None and not isinstance(pointer.target, Void):
            root.bound = pointer.target


def unify_functions(left, right, place):
    unify(left.result, right.result, place)
    for a, b in zip(left.params or [], right.params or []):
        unify(a, b, place)


def same_form(left, right, place):
    """Refuses two targets whose objects have different forms."""
    if form(left) != form(right):
        raise Refusal(f"a pointer to {left} meets a pointer to {right}", place, "use one type for both: pointers are not cast here")


def form(type_):
    """A word for how an object of the type is kept and read; pointers through which one object may be used have one form."""
    if isinstance(type_, Int):
        if type_.is_char:
            return "char"
        return f"int{type_.bits}" + ("" if type_.bits == 32 else str(type_.signed)) + ("b" if type_.boolean else "")
    if isinstance(type_, Ptr):
        return "function" if is_tag(type_) else "pointer"
    if isinstance(type_, Array):
        return "array of " + form(type_.element)
    if isinstance(type_, Struct):
        return f"struct {id(type_)}"
    return type(type_).__name__

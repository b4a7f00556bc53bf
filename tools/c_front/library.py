"""Calls of C's library: the types of their arguments."""
from . import c_types as t
from . import formats
from .expressions import Expressions
from .faults import Refusal
from .library_table import LIBRARY
from .tree import Node, has_effect

RESULTS = {"int": t.INT, "uint": t.UINT, "ushort": t.USHORT, "long": t.LONG, "ulong": t.ULONG, "void": t.VOID, "wide": t.WIDE,
           "uwide": t.UWIDE}
NUMBERS = {"i": t.INT, "u": t.ULONG, "l": t.LONG, "v": t.UINT, "w": t.WIDE}
STREAMS = ("stdin", "stdout", "stderr")


def without_casts(node):
    """The pointer inside casts to `void *` or `char *`."""
    while node.op in ("pcast", "recast") or (node.op == "cast" and isinstance(node.a[0].type, t.Ptr)):
        node = node.a[0]
    return node


class LibraryCalls(Expressions):
    """The typing of calls of the library."""

    def library_call(self, name, args, place):
        result, letters = LIBRARY[name]
        self.called.add(name)
        if name in ("constant_p", "prefetch"):
            return self.compiler_hint(name, args, place)
        fixed = letters.rstrip(".")
        if len(args) < len(fixed) or (len(args) > len(fixed) and "." not in letters):
            raise Refusal(f"a call with {len(args)} arguments of {name}", place)
        typed = [self.argument(letter, arg, name, place) for letter, arg in zip(fixed, args)]
        node = Node("lib", self.result_type(result, typed), typed, v=name, place=place)
        if name == "expect":
            return Node("comma", typed[0].type, [typed[1], typed[0]], place=place) if has_effect(typed[1]) else typed[0]
        if "." in letters:
            self.format_arguments(node, args[len(fixed):], name, place)
        self.relate(node, name)
        return node

    def compiler_hint(self, name, args, place):
        if name == "constant_p":
            return Node("num", t.INT, v=int(bool(args) and args[0].op in ("num", "string")), place=place)
        zero = Node("num", t.INT, v=0, place=place)
        return Node("void", t.VOID, [Node("comma", t.INT, [arg for arg in args if has_effect(arg)] + [zero], place=place)], place=place)

    @staticmethod
    def result_type(result, typed):
        if result == "0":
            pointer = without_casts(typed[0]).type
            return pointer
        if result == "p":
            return t.Ptr(t.VOID)
        if result == "text":
            return t.Ptr(t.CHAR, fat=True)
        return RESULTS[result]

    def argument(self, letter, arg, name, place):
        if letter in NUMBERS:
            return self.convert(arg, NUMBERS[letter], "an argument")
        if letter == "f":
            return self.stream(arg, name, place)
        if letter == "c":
            return self.decayed(arg)
        if letter == "n":
            return self.convert(arg, t.Ptr(t.Ptr(t.CHAR)), "an argument")
        pointer = without_casts(self.decayed(arg))
        if pointer.op == "num" and pointer.v == 0:
            pointer = Node("null", t.Ptr(t.CHAR), place=place)
        if not isinstance(pointer.type, t.Ptr) or t.is_tag(pointer.type):
            raise Refusal(f"an argument of {name} is no pointer to an object", place)
        if letter == "k":
            return pointer
        return self.text(pointer, name, place) if letter == "s" else self.memory(pointer, name)

    @staticmethod
    def memory(pointer, name):
        """A pointer whose objects are copied, filled or freed: a single struct is one object."""
        target = pointer.type.leads_to()
        if name != "free" and (target is None or isinstance(target, (t.Int, t.Ptr))):
            pointer.type.make_fat()
        return pointer

    def text(self, pointer, name, place):
        target = pointer.type.leads_to()
        if target is None:
            t.unify(pointer.type, t.Ptr(t.CHAR), place)
            target = t.CHAR
        if not (t.is_int(target) and target.is_char):
            raise Refusal(f"{name} of a pointer to {target}", place, "pass a text")
        pointer.type.make_fat()
        return pointer

    @staticmethod
    def stream(arg, name, place):
        if arg.op == "var" and arg.v.name in STREAMS:
            return Node("stream", t.VOID, v=arg.v.name, place=place)
        if arg.op in ("num", "null") and name == "fflush":
            return Node("stream", t.VOID, v="stdout", place=place)
        if isinstance(arg.type, t.Ptr) and isinstance(arg.type.target, t.Struct) and arg.type.target.tag == "_IO_FILE" and name != "fwrite":
            return arg
        raise Refusal(f"a file in a call of {name}", place, "only stdin, stdout and stderr are there: read from stdin, write to stdout")

    def relate(self, node, name):
        """Gives the pointers of a copy one class where the library stores no pointer of its own."""
        args = node.a
        if name in ("memcpy", "memmove", "mempcpy", "bcopy", "memcmp"):
            left, right = args[0].type, args[1].type
            if left.leads_to() is None or right.leads_to() is None:
                t.unify(left, right, node.place)
            else:
                t.same_form(left.leads_to(), right.leads_to(), node.place)
                t.unify(left.leads_to(), right.leads_to(), node.place)
        elif name == "realloc":
            t.unify(node.type, args[0].type, node.place)
            node.type.make_fat()
        elif name.startswith("strto") and name != "strtok" and args[1].op != "null":
            t.unify(args[1].type.target, args[0].type, node.place)
        elif name == "qsort":
            self.relate_sort(args[0], [args[0], args[0]], args[3], node.place)
        elif name == "bsearch":
            self.relate_sort(args[1], args[:2], args[4], node.place)
            t.unify(node.type, args[1].type, node.place)

    @staticmethod
    def relate_sort(array, compared, function, place):
        """Gives the parameters of a function that compares the types of what it gets."""
        if not t.is_tag(function.type) or not function.type.target.params or len(function.type.target.params) != 2:
            raise Refusal("a function that compares has two parameters", place)
        array.type.make_fat()
        for param, pointer in zip(function.type.target.params, compared):
            t.unify(param, t.Ptr(pointer.type.leads_to() or t.VOID), place)

    # Formats

    def format_arguments(self, node, rest, name, place):
        which = {"printf": 0, "fprintf": 1, "sprintf": 1, "snprintf": 2, "scanf": 0, "sscanf": 1}[name]
        literal = node.a[which]
        if literal.op == "decay" and literal.a[0].op == "string":
            pieces = formats.parse(literal.a[0].v, place, name)
        elif name in ("printf", "fprintf"):
            self.computed_format(node, rest, place)
            return
        else:
            raise Refusal(f"a format of {name} that is computed", place, "write the format as a text in the call")
        rest = list(rest)
        values = []
        for piece in pieces:
            if piece.letter:
                values += self.scanned(piece, rest, place) if name.endswith("scanf") else self.printed(piece, rest, name, place)
        node.extra = pieces
        node.a[which] = Node("null", t.Ptr(t.CHAR), place=place)
        node.a += values
        for extra in rest:
            node.a.append(self.promoted(extra))

    def computed_format(self, node, rest, place):
        """A format that only the run knows: each argument is a number or a text, and the run looks for its conversion."""
        node.extra = "computed"
        for arg in rest:
            arg = self.decayed(arg)
            if t.is_wide(arg.type):
                raise Refusal(f"a value of type {arg.type} with a format that is computed", place, "write the format as a text in the call")
            if isinstance(arg.type, t.Ptr) and not t.is_tag(arg.type):
                node.a.append(self.text(without_casts(arg), "printf", place))
            else:
                node.a.append(self.to_int(arg, t.promote(arg.type) if t.is_int(arg.type) else t.INT))

    def printed(self, piece, rest, name, place):
        wanted = ["number"] * ((piece.width == "*") + (piece.precision == "*")) + [piece.letter]
        values = []
        for letter in wanted:
            if not rest:
                raise Refusal(f"{name} has too few arguments for its format", place)
            arg = self.decayed(rest.pop(0))
            values.append(self.one_printed(letter, arg, piece, name, place))
        return values

    def one_printed(self, letter, arg, piece, name, place):
        if letter == "s":
            arg = without_casts(arg)
            if not isinstance(arg.type, t.Ptr):
                raise Refusal(f"%s of {name} with no text", place)
            return self.text(arg, name, place)
        if piece.length in formats.WIDE and letter != "number" and t.is_wide(arg.type):
            return self.to_wide(arg, t.UWIDE if letter in "uxXo" else t.WIDE)
        if piece.length in formats.WIDE and letter != "number" or not t.is_int(arg.type) and arg.op != "num":
            raise Refusal(f"%{piece.length}{piece.letter} of {name} with a value of type {arg.type}", place)
        type_ = t.UINT if letter in "uxXo" else t.INT
        if piece.length in ("h", "hh"):
            narrow = {("h", True): t.SHORT, ("h", False): t.USHORT, ("hh", True): t.SCHAR, ("hh", False): t.UCHAR}
            type_ = narrow[piece.length, type_.signed]
        return self.to_int(arg, type_)

    def scanned(self, piece, rest, place):
        if piece.flags or piece.letter not in "discux" or piece.length in ("h", "hh") or piece.width == "*":
            raise Refusal(f"%{piece.letter} in a format of scanf", place, "only %d, %u, %x, %c and %s are translated")
        if not rest:
            raise Refusal("scanf has too few arguments for its format", place)
        arg = self.decayed(rest.pop(0))
        if not isinstance(arg.type, t.Ptr):
            raise Refusal("scanf with an argument that is no pointer", place, "pass the address: &x")
        target = arg.type.leads_to()
        if piece.letter == "s" or piece.letter == "c" and piece.width is not None:
            return [self.text(arg, "scanf", place)]
        if piece.letter == "c" and t.is_int(target) and target.is_char:
            return [arg]
        if not t.is_int(target) or target.bits != 32:
            raise Refusal(f"%{piece.letter} of scanf into {target}", place, "read an int")
        return [arg]

"""Expressions of the translation. What has no expression in the language is written as statements before it."""
import re

from . import c_types as t
from .faults import Refusal
from .library import STREAMS
from .ranges import fits, plain, span
from .text import ASSIGN, LEVELS, POSTFIX, UNARY, COUNTER_SENSE, X, character, join, negate, number
from .tree import Node, has_effect, walk
from .write_wide import WideWriter

PLACES = ("var", "index", "deref", "field", "raw")


def is_own(symbol):
    """Whether only the function itself changes a variable."""
    return symbol.scope in ("local", "parameter") and not symbol.address


def assigns(node, symbol):
    return any(n.op in ("assign", "opassign", "pstep") and n.a[0].op == "var" and n.a[0].v is symbol for n in walk(node))


class ExpressionWriter(WideWriter):
    """The part of a function's writer that is about expressions."""

    # Returns the translation of an expression whose value is a number, a pointer, or a pointer to
    # an aggregate; wide types are refused.

    def value(self, node):
        if t.is_wide(node.type):
            raise Refusal(f"a value of type {node.type} in this place", node.place, "put it into a variable, or cast it to int")
        return getattr(self, "x_" + node.op)(node)

    def text(self, node, level=0):
        return self.value(node).at(level)

    def x_num(self, node):
        hint = node.extra
        if isinstance(hint, str) and hint.startswith("'") and 0 <= node.v < 128:
            return X(character(node.v))
        if isinstance(hint, str) and hint.startswith("0x") and 9 < node.v < 1 << 31 and int(hint.rstrip("ul"), 16) == node.v:
            return X(hint.rstrip("ul"))
        if not t.is_int(node.type):
            raise Refusal("a number of more than 32 bits", node.place, "only integers of up to 32 bits are translated")
        return number(node.v)

    def x_raw(self, node):
        return node.v

    def x_var(self, node):
        return self.load(node)

    x_index = x_deref = x_field = x_var

    def load(self, node):
        """The value of a place; a signed char gets its sign."""
        found = self.place(node)
        if self.is_byte(node) and node.type.signed:
            return join(">>", X(join("<<", found, X("24")).text, LEVELS["<<"]), X("24"))
        return found

    def is_byte(self, node):
        """Whether a place is kept as a byte without a sign."""
        if node.op not in PLACES or not t.is_int(node.type) or not node.type.is_char:
            return False
        return node.op != "var" or self.program.form_of(node.v) == "char"

    def place(self, node):
        """A variable, an element or a field as it can be assigned; an aggregate as the pointer to it."""
        if node.op == "var":
            is_stream = node.v.name in STREAMS and node.v.scope == "global" and not node.v.defined
            return X(self.program.stream_name(node.v, node.place)) if is_stream else self.variable(node.v)
        if node.op == "raw":
            return node.v
        if node.op == "deref":
            return self.pointed(node)
        if node.op == "index":
            return X(f"{self.movable(node.a[0]).at(POSTFIX)}[{self.text(node.a[1])}]", POSTFIX)
        if node.op == "field":
            if getattr(node.v, "absent", False) or isinstance(node.type, t.Absent):
                raise Refusal(f"a field of type {node.type}", node.place, node.type.hint)
            return X(f"{self.text(node.a[0], POSTFIX)}->{self.program.field_name(node.v)}", POSTFIX)
        return self.value(node)

    def variable(self, symbol):
        if symbol.cell or (symbol.single and isinstance(symbol.type, t.Struct)):
            return X("*" + symbol.text, UNARY)
        return X(symbol.text)

    def pointed(self, node):
        pointer = node.a[0]
        if isinstance(node.type, t.Struct) and not pointer.type.fat:
            return self.value(pointer)
        return X("*" + self.text(pointer, UNARY), UNARY)

    def x_string(self, node):
        return X(self.program.text_name(node.v))

    def x_fn(self, node):
        return X(str(self.program.tag_of(node.v)))

    def x_nofn(self, node):
        return number(node.v)

    def x_null(self, node):
        return X("0" if t.is_tag(node.type) else "NULL")

    def x_decay(self, node):
        handle = self.value(node.a[0])
        if isinstance(node.type.target, t.Struct) and not node.type.fat:
            return X(f"{handle.at(POSTFIX)}[0]", POSTFIX)
        return handle

    def x_addr(self, node):
        inside = node.a[0]
        aggregate = t.is_aggregate(inside.type)
        if inside.op == "compound":
            handle = self.value(inside)
            return X(inside.v.text) if inside.v.single and node.type.fat else handle
        if inside.op == "var" and (inside.v.cell or aggregate):
            if isinstance(inside.type, t.Array):
                raise Refusal("the address of a whole array", node.place, "pass the array: it is the address of its first element")
            if inside.v.single and not node.type.fat:
                return self.variable(inside.v)
            return X(inside.v.text)
        if inside.op == "index" and node.type.fat:
            return join("+", self.value(inside.a[0]), self.value(inside.a[1]))
        if aggregate:
            if node.type.fat or isinstance(inside.type, t.Array):
                raise Refusal("the address of an array or a struct inside a struct, which is indexed or moved", node.place,
                              "pass the array itself, or use the struct through the outer one")
            return self.place(inside)
        return X("&" + self.place(inside).at(UNARY), UNARY)

    def movable(self, node):
        """A pointer that can be moved: the address of a variable or a field becomes an array of one first."""
        found = self.value(node)
        if node.op == "addr" and node.a[0].op != "index" and not t.is_aggregate(node.a[0].type):
            return self.temporary(self.program.type_text(node.type), found)
        return found

    def x_padd(self, node):
        return join(node.v, self.movable(node.a[0]), self.value(node.a[1]))

    def x_pcast(self, node):
        return self.value(node.a[0])

    def x_recast(self, node):
        raise Refusal(f"a cast of a {node.a[0].type} to a {node.type}", node.place, "use one type for the object")

    def x_compound(self, node):
        self.make_compound(node)
        return self.variable(node.v)

    def x_void(self, node):
        self.effect(node.a[0])
        return X("0")

    def x_comma(self, node):
        for part in node.a[:-1]:
            self.effect(part)
        return self.value(node.a[-1])

    def x_truth(self, node):
        return join("!=", self.value(node.a[0]), self.x_null(node.a[0]))

    # Numbers

    def x_cast(self, node):
        type_, inside = node.type, node.a[0]
        if type_.boolean:
            return self.as_bit(inside)
        if type_.bits == 32 or fits(inside, type_):
            return self.value(inside)
        if type_ .is_char and not type_.signed:
            return X(f"char({self.low(inside).text})")
        inner = self.low(inside) if type_.is_char else self.value(inside)
        if not type_.signed:
            return join("&", inner, number((1 << type_.bits) - 1))
        count = X(str(32 - type_.bits))
        return join(">>", join("<<", inner, count), count)

    def as_bit(self, node):
        """0 or 1."""
        if span(node) in ((0, 1), (0, 0), (1, 1)) and t.is_int(node.type):
            return self.value(node)
        return join("!=", self.value(node), X("0"))

    def low(self, node):
        """A number of which only the low eight bits matter."""
        while node.op == "cast" and node.type.bits >= 8 and not node.type.boolean:
            node = node.a[0]
        if self.is_byte(node):
            return self.place(node)
        if node.op == "num" and not 0 <= node.v <= 255 and t.is_int(node.type):
            return number(node.v & 255)
        return self.value(node)

    def x_neg(self, node):
        inside = self.text(node.a[0], UNARY)
        return X("-" + (f"({inside})" if inside.startswith("-") else inside), UNARY)

    def x_compl(self, node):
        return X("~" + self.text(node.a[0], UNARY), UNARY)

    def x_bin(self, node):
        op, (a, b) = node.v, node.a
        if node.type.signed or op not in ("/", "%", ">>") or op in "/%" and plain(a) and plain(b) or op == ">>" and plain(a):
            return self.operation(op, a, b)
        if op == ">>" and b.op == "num" and 0 < b.v < 32:
            return join("&", join(">>", self.value(a), number(b.v)), number((1 << 32 - b.v) - 1))
        name = {"/": "unsigned_quotient", "%": "unsigned_remainder", ">>": "unsigned_shift"}[op]
        return self.helper_call(name, a, b)

    def operation(self, op, a, b):
        left, right = self.pair(a, b)
        return join(op, left, right)

    def pair(self, a, b):
        """Two operands; the first is kept in a variable if the second needs statements and may change it."""
        left = self.value(a)
        before = len(self.lines)
        right = self.value(b)
        if len(self.lines) > before and a.op not in ("num", "string", "null", "fn") and (has_effect(a) or has_effect(b)):
            later = self.lines[before:]
            del self.lines[before:]
            left = self.temporary(self.program.type_text(a.type), left)
            self.lines += later
        return left, right

    def helper_call(self, name, *operands):
        texts = []
        for operand in operands:
            texts.append(self.text(operand))
        return X(f"{self.program.helper(name)}({', '.join(texts)})")

    def x_cmp(self, node):
        a, b = node.a
        if node.v in ("==", "!="):
            bytes_ = self.bytes_compared(a, b)
            if bytes_ is not None:
                return join(node.v, *bytes_)
        elif not node.extra.signed and not (plain(a) and plain(b)):
            return self.unsigned_order(node.v, a, b)
        return self.operation(node.v, a, b)

    def bytes_compared(self, a, b):
        """Two bytes, or a byte and a small number, which are equal with their signs if they are equal without."""
        left, right = self.byte_inside(a), self.byte_inside(b)
        if left is not None and right is not None and left.type.signed == right.type.signed:
            return self.place(left), self.place(right)
        if left is not None and b.op == "num" and 0 <= b.v < 128:
            return self.place(left), self.value(b)
        if right is not None and a.op == "num" and 0 <= a.v < 128:
            return self.value(a), self.place(right)
        return None

    def byte_inside(self, node):
        while node.op == "cast" and node.type.bits == 32:
            node = node.a[0]
        return node if self.is_byte(node) else None

    def unsigned_order(self, op, a, b):
        if op in ("<", ">="):
            found = self.helper_call("unsigned_below", a, b)
        else:
            found = self.helper_call("unsigned_below", b, a)
        return found if op in ("<", ">") else negate(found)

    # Truth

    def condition(self, node):
        """An expression that is asked whether it is 0."""
        while node.op == "cast" and node.type.bits == 32:
            node = node.a[0]
        if self.is_byte(node):
            return self.place(node)
        return self.value(node)

    def negated(self, node):
        """The opposite of a condition."""
        if node.op == "not":
            return self.condition(node.a[0])
        if node.op == "cmp" and (node.extra.signed or node.v in ("==", "!=")):
            return self.x_cmp(Node("cmp", node.type, node.a, COUNTER_SENSE[node.v], node.place, node.extra))
        return negate(self.condition(node))

    def x_not(self, node):
        return negate(self.condition(node.a[0]))

    def x_and(self, node):
        return self.logical(node, "&&")

    def x_or(self, node):
        return self.logical(node, "||")

    def logical(self, node, op):
        left = self.condition(node.a[0])
        right, before = self.captured(lambda: self.condition(node.a[1]))
        if not before:
            return join(op, left, right)
        found = self.temporary("int", X("0"))
        if op == "||":
            self.line(f"if ({left}) {found} = 1;")
            self.line("else {")
        else:
            self.line(f"if ({left}) {{")
        self.lines += self.deeper(before)
        self.line(f"  {found} = {right if self.is_bit(node.a[1]) else join('!=', right, self.zero_of(node.a[1]))};")
        self.line("}")
        return found

    def zero_of(self, node):
        return self.x_null(node) if isinstance(node.type, t.Ptr) else X("0")

    @staticmethod
    def is_bit(node):
        return node.op in ("cmp", "pcmp", "not", "and", "or", "truth")

    def x_cond(self, node):
        if isinstance(node.type, t.Void):
            self.effect(node)
            return X("0")
        start = "0" if t.is_int(node.type) or t.is_tag(node.type) else "NULL"
        found = self.temporary(self.program.type_text(node.type, self.region_of(node)), X(start))
        self.choose(node, lambda chosen: self.line(f"{found} = {self.text(chosen)};"))
        return found

    def choose(self, node, write):
        """An `if` for `c ? a : b`, in whose branches the two are written."""
        condition = self.condition(node.a[0])
        _, left = self.captured(lambda: write(node.a[1]))
        _, right = self.captured(lambda: write(node.a[2]))
        self.branches(condition, left, right)

    # Pointers

    def x_pcmp(self, node):
        a, b = node.a
        if t.is_tag(a.type) or "null" in (a.op, b.op) or not a.type.fat:
            left, right = self.pair(a, b)
            if left.text == right.text == "NULL":
                left = right = X("0")
            return join(node.v, self.thin(a, left), self.thin(b, right))
        if node.v in ("==", "!="):
            found = X(f"{self.program.pointer_helper('same', a.type)}({self.text(a)}, {self.text(b)})")
            return found if node.v == "==" else negate(found)
        return join(node.v, self.x_pdiff(node), X("0"))

    @staticmethod
    def thin(node, found):
        """A pointer as it is compared with a thin one: an array is the address of its first element."""
        while node.op == "pcast":
            node = node.a[0]
        whole = node.op == "decay" and not node.type.fat and not isinstance(node.type.target, t.Struct)
        return X(f"&{found.at(POSTFIX)}[0]", UNARY) if whole else found

    def x_pdiff(self, node):
        a, b = node.a
        return X(f"{self.program.pointer_helper('distance', a.type)}({self.text(a)}, {self.text(b)})")

    # Assignments

    def x_assign(self, node):
        target, source = node.a
        if isinstance(node.type, t.Struct):
            self.effect(node)
            return self.place(target)
        place, value = self.target_and_value(target, source)
        found = X(f"{place} = {value}", ASSIGN)
        if self.is_byte(target) and target.type.signed and not 0 <= span(source)[0] <= span(source)[1] < 128:
            return join(">>", join("<<", found, X("24")), X("24"))
        return found

    def target_and_value(self, target, source):
        """Both sides of an assignment; the place is fixed first where the value needs statements."""
        if target.op == "index" and any(inner.op in ("call", "icall") for inner in walk(source)):
            return self.after_value(target, source)
        place = self.place(target)
        before = len(self.lines)
        value = self.stored(target, source)
        if len(self.lines) > before and target.op != "var" and has_effect(target):
            later = self.lines[before:]
            del self.lines[before:]
            place = self.place(self.fixed(target))
            self.lines += later
        return place.text, value.text

    def after_value(self, target, source):
        """An element whose index is looked at after the value is there: a call in it may end the program."""
        operands = []
        for operand in target.a:
            stable = operand.op in ("num", "decay") or operand.op == "var" and is_own(operand.v) and not assigns(source, operand.v)
            if not stable:
                kind = self.program.type_text(operand.type, self.region_of(operand))
                operand = Node("raw", operand.type, v=self.temporary(kind, self.value(operand)), place=operand.place)
            operands.append(operand)
        target = Node(target.op, target.type, operands, target.v, target.place, target.extra)
        value = self.value(source)
        if not re.fullmatch(r"\w+", value.text):
            value = self.temporary(self.program.type_text(source.type, self.region_of(source)), value)
        return self.place(target).text, value.text

    def stored(self, target, source):
        """A value as it is stored in a place."""
        if self.is_byte(target):
            return self.low(source)
        return self.value(source)

    def fixed(self, place):
        """The same place without effects: what has some is evaluated before."""
        if not has_effect(place):
            return place
        operands = []
        for operand in place.a:
            if has_effect(operand) and isinstance(operand.type, t.Struct):
                operands.append(self.fixed(operand))
            elif has_effect(operand):
                kind = self.program.type_text(operand.type, self.region_of(operand))
                operands.append(Node("raw", operand.type, v=self.temporary(kind, self.value(operand))))
            else:
                operands.append(operand)
        return Node(place.op, place.type, operands, place.v, place.place, place.extra)

    def stepped(self, node, target):
        """The assignment that `target op= value` is; a value with effects is evaluated before the old value is read, as gcc does."""
        op, _ = node.v
        if has_effect(node.a[1]) and t.is_wide(node.a[1].type):
            node = Node(node.op, node.type, [node.a[0], self.kept_wide(node.a[1])], node.v, node.place, node.extra)
        elif has_effect(node.a[1]):
            value = Node("raw", node.a[1].type, v=self.temporary("int", self.value(node.a[1])), place=node.place)
            node = Node(node.op, node.type, [node.a[0], value], node.v, node.place, node.extra)
        if node.op == "pstep":
            moved = Node("padd", node.type, [target, node.a[1]], op, node.place)
            return Node("assign", node.type, [target, moved], place=node.place)
        type_ = node.extra
        if t.is_wide(type_) or t.is_wide(target.type):
            return self.stepped_wide(node, target)
        old = target if target.type is type_ else Node("cast", type_, [target], place=node.place)
        new = Node("bin", type_, [old, node.a[1]], op, node.place)
        if target.type is not type_:
            new = Node("cast", target.type, [new], place=node.place)
        return Node("assign", target.type, [target, new], place=node.place)

    def x_opassign(self, node):
        target = self.fixed(node.a[0])
        _, post = node.v
        if not post:
            return self.value(self.stepped(node, target))
        if target.type.bits < 32 or target.type.boolean:
            old = self.temporary("int", self.value(target))
            self.effect(self.stepped(node, target))
            return old
        back = "-" if node.v[0] == "+" else "+"
        return join(back, X(f"({self.value(self.stepped(node, target))})"), X("1"))

    def x_pstep(self, node):
        target = self.fixed(node.a[0])
        stepped = self.value(self.stepped(node, target))
        if not node.v[1]:
            return stepped
        return join("-" if node.v[0] == "+" else "+", X(f"({stepped})"), X("1"))

    # Calls

    def x_call(self, node):
        arguments = self.arguments(node.a)
        name = self.program.function_name(node.v, node.place)
        return self.call(name, arguments, node.type)

    def x_icall(self, node):
        name = self.program.dispatcher(node.a[0].type.target, node.a[1:], node.place)
        arguments = self.arguments(node.a)
        return self.call(name, arguments, node.type)

    def call(self, name, arguments, result_type):
        """A call; a struct is returned through a first argument."""
        if isinstance(result_type, t.Struct):
            result = self.struct_temporary(result_type)
            self.line(f"{name}({', '.join([result.text] + arguments)});")
            return result
        return X(f"{name}({', '.join(arguments)})")

    def arguments(self, nodes):
        """The arguments of a call. C leaves their order open; as gcc does, the last one with an effect is evaluated first."""
        effects = [has_effect(node) for node in nodes]
        if sum(effects) < 2:
            return self.in_order(nodes)
        found = [None] * len(nodes)
        for at in range(len(nodes) - 1, -1, -1):
            if effects[at] and not isinstance(nodes[at].type, (t.Struct, t.Void)):
                node = nodes[at]
                if t.is_wide(node.type):
                    found[at] = "{}, {}".format(*self.kept_wide(node).v)
                    continue
                found[at] = self.temporary(self.program.type_text(node.type, self.region_of(node)), self.value(node)).text
        for at, node in enumerate(nodes):
            if found[at] is None:
                found[at] = self.argument_text(node)
        return found

    def argument_text(self, node):
        return "{}, {}".format(*self.wide(node)) if t.is_wide(node.type) else self.text(node)

    def in_order(self, nodes):
        return [self.argument_text(node) for node in nodes]

    def x_lib(self, node):
        return self.library(node)

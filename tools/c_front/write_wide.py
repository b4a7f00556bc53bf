"""Numbers of 64 bits in the translation: two ints, the low and the high half, and helpers for what takes more than a few operators."""
import re

from . import c_types as t
from .faults import Refusal
from .text import POSTFIX, X, join, number
from .tree import Node, has_effect
from .wide import narrowed, widened


class WideWriter:
    """The part of a function's writer that is about numbers of 64 bits."""

    def wide(self, node):
        """The two halves of a number, as expressions that can be written more than once."""
        handler = getattr(self, "wide_" + node.op, None)
        if handler is None:
            raise Refusal(f"a value of type {node.type} of this form", node.place, "put it into a variable first")
        return handler(node)

    def simple(self, found):
        """An expression that is one word, or a variable that has its value."""
        return found if re.fullmatch(r"-?\w+", found.text) else self.temporary("int", found)

    def in_two(self, low):
        """The halves that a helper left: the one it returned, and the other."""
        low = self.temporary("int", low)
        return low, self.temporary("int", X(self.program.helper("wide_high")))

    def wide_call_of(self, name, *halves):
        return self.in_two(X(f"{self.program.helper(name)}({', '.join(half.text for half in halves)})"))

    def wide_num(self, node):
        return number(node.v), number(node.v >> 32)

    def wide_raw(self, node):
        return node.v

    def wide_var(self, node):
        if node.v.cell:
            raise Refusal(f"the address of a value of type {node.type}", node.place)
        return X(node.v.text), X(node.v.high)

    def wide_field(self, node):
        fixed = self.fixed(node)
        base = self.text(fixed.a[0], POSTFIX)
        low, high = self.program.field_name(node.v), self.program.high_field(node.v)
        return X(f"{base}->{low}", POSTFIX), X(f"{base}->{high}", POSTFIX)

    def wide_widen(self, node):
        low = self.simple(self.value(node.a[0]))
        return low, join(">>", low, X("31")) if node.a[0].type.signed else X("0")

    def wide_wcast(self, node):
        return self.wide(node.a[0])

    def wide_pair(self, a, b, second):
        """The halves of two operands; the first is kept in variables if the second needs statements."""
        left = self.wide(a)
        before = len(self.lines)
        right = second(b)
        if len(self.lines) > before and a.op != "num" and (has_effect(a) or has_effect(b)):
            later = self.lines[before:]
            del self.lines[before:]
            left = tuple(self.temporary("int", half) for half in left)
            self.lines += later
        return left, right

    def wide_wbin(self, node):
        op, (a, b) = node.v, node.a
        if op in ("<<", ">>"):
            (low, high), count = self.wide_pair(a, b, self.value)
            name = "wide_left" if op == "<<" else "wide_right" if node.type.signed else "wide_unsigned_right"
            return self.wide_call_of(name, low, high, count)
        (low, high), (other, other_high) = self.wide_pair(a, b, self.wide)
        if op in "&|^":
            return join(op, low, other), join(op, high, other_high)
        if op in "+-":
            return self.wide_sum(op, low, high, other, other_high)
        name = {"*": "wide_product", "/": "wide_quotient", "%": "wide_remainder"}[op]
        name += "_signed" if op != "*" and node.type.signed else ""
        return self.wide_call_of(name, low, high, other, other_high)

    def wide_sum(self, op, low, high, other, other_high):
        low, below = self.simple(low), self.program.helper("unsigned_below")
        found = self.temporary("int", join(op, low, other))
        over = f"{below}({found}, {low})" if op == "+" else f"{below}({low}, {other})"
        return found, self.temporary("int", join(op, join(op, high, other_high), X(over)))

    def wide_wneg(self, node):
        low, high = self.wide(node.a[0])
        return self.wide_sum("-", X("0"), X("0"), low, high)

    def wide_wcompl(self, node):
        low, high = self.wide(node.a[0])
        return X(f"~{low.at(12)}", 12), X(f"~{high.at(12)}", 12)

    def wide_cond(self, node):
        found = self.temporary("int", X("0")), self.temporary("int", X("0"))
        self.choose(node, lambda chosen: self.store_wide(found, self.wide(chosen)))
        return found

    def wide_comma(self, node):
        for part in node.a[:-1]:
            self.effect(part)
        return self.wide(node.a[-1])

    def wide_assign(self, node):
        target = self.fixed(node.a[0])
        self.effect(Node("assign", node.type, [target, node.a[1]], place=node.place))
        return self.wide(target)

    def wide_opassign(self, node):
        target = self.fixed(node.a[0])
        old = tuple(self.temporary("int", half) for half in self.wide(target)) if node.v[1] else None
        self.effect(self.stepped(node, target))
        return old or self.wide(target)

    def wide_call(self, node):
        return self.in_two(self.x_call(node))

    # Uses

    def store_wide(self, places, halves):
        for place, half in zip(places, halves):
            if place.text != half.text:
                self.line(f"{place} = {half};")

    def effect_wide_assign(self, node):
        target = self.fixed(node.a[0])
        halves = self.wide(node.a[1])
        self.store_wide(self.wide(target), halves)

    def kept_wide(self, node):
        """A node that stands for the halves in variables of their own."""
        return Node("raw", node.type, v=tuple(self.temporary("int", half) for half in self.wide(node)), place=node.place)

    def stepped_wide(self, node, target):
        """The assignment that `target op= value` is, if one of the two has 64 bits."""
        value, type_ = node.a[1], node.extra
        if not t.is_wide(type_):
            new = Node("bin", type_, [target if target.type is type_ else Node("cast", type_, [target]), value], node.v[0], node.place)
        else:
            new = Node("wbin", type_, [widened(target, type_), value], node.v[0], node.place)
        if t.is_wide(target.type):
            new = widened(new, target.type)
        elif t.is_wide(new.type):
            new = narrowed(new, target.type)
        return Node("assign", target.type, [target, new], place=node.place)

    def x_narrow(self, node):
        return self.wide(node.a[0])[0]

    def x_wtruth(self, node):
        low, high = self.wide(node.a[0])
        return join("!=", join("|", low, high), X("0"))

    def x_wcmp(self, node):
        (low, high), (other, other_high) = self.wide_pair(*node.a, self.wide)
        if node.v in ("==", "!="):
            return join("&&" if node.v == "==" else "||", join(node.v, low, other), join(node.v, high, other_high))
        name = self.program.helper("wide_below" if node.extra.signed else "wide_unsigned_below")
        left, right = (f"{low}, {high}", f"{other}, {other_high}")
        if node.v in (">", "<="):
            left, right = right, left
        return X(f"{'' if node.v in '<>' else '!'}{name}({left}, {right})", 14 if node.v in "<>" else 12)

    def print_wide(self, arg, base, flags, width, precision):
        low, high = self.wide(arg)
        return X(f"{self.program.helper('print_wide')}({low}, {high}, {base}, {flags}, {width or 0}, {precision})")

"""Numbers of 64 bits: their conversions and operations, by C's rules."""
from . import c_types as t
from .declare import Declarations
from .faults import Refusal
from .tree import Node

COMPARISONS = ("==", "!=", "<", "<=", ">", ">=")


def divide(a, b):
    """C's quotient, rounded toward 0."""
    quotient = abs(a) // abs(b)
    return quotient if (a < 0) == (b < 0) else -quotient


FOLDS = {"+": lambda a, b: a + b, "-": lambda a, b: a - b, "*": lambda a, b: a * b, "&": lambda a, b: a & b, "|": lambda a, b: a | b,
         "^": lambda a, b: a ^ b, "/": divide, "%": lambda a, b: a - b * divide(a, b), "<<": lambda a, b: a << b, ">>": lambda a, b: a >> b,
         "==": lambda a, b: a == b, "!=": lambda a, b: a != b, "<": lambda a, b: a < b, "<=": lambda a, b: a <= b,
         ">": lambda a, b: a > b, ">=": lambda a, b: a >= b}


def folded(op, left, right, type_):
    """The value of an operation on two constants; None if it has none."""
    if left.op != "num" or right.op != "num":
        return None
    if op in "/%" and right.v == 0 or op in ("<<", ">>") and not 0 <= right.v < type_.bits:
        return None
    value = FOLDS[op](left.v, right.v)
    return int(value) if op in COMPARISONS else type_.wrap(value)


def usual_wide(left, right):
    return t.UWIDE if t.UWIDE in (left, right) else t.WIDE


def widened(node, type_):
    """A number as one of 64 bits."""
    if node.op == "num":
        return Node("num", type_, v=type_.wrap(node.v), place=node.place)
    if node.type is type_:
        return node
    return Node("wcast" if t.is_wide(node.type) else "widen", type_, [node], place=node.place)


def narrowed(node, type_):
    """A number of 64 bits as one of fewer."""
    if type_.boolean:
        return Node("wtruth", type_, [node], place=node.place)
    low = Node("narrow", type_ if type_.bits == 32 else t.INT, [node], place=node.place)
    return low if type_.bits == 32 else Node("cast", type_, [low], place=node.place)


class WideNumbers(Declarations):
    """The typing of what has 64 bits."""

    def to_wide(self, node, type_):
        if node.op != "num" and not t.is_number(node.type):
            raise Refusal(f"a value of type {node.type} where {type_} is wanted", node.place)
        if t.is_int(node.type) and node.op != "num":
            node = self.to_int(node, t.promote(node.type))
        return widened(node, type_)

    def wide_operation(self, op, left, right, place):
        if op in ("<<", ">>"):
            type_ = left.type
            right = self.to_int(right, t.INT if t.is_wide(right.type) else t.promote(right.type))
            if not t.is_wide(type_):
                return self.binary(op, left, right, place)
        else:
            type_ = usual_wide(left.type, right.type)
            left, right = self.to_wide(left, type_), self.to_wide(right, type_)
        value = folded(op, left, right, type_)
        if value is not None:
            return Node("num", t.INT if op in COMPARISONS else type_, v=value, place=place)
        if op in COMPARISONS:
            return Node("wcmp", t.INT, [left, right], v=op, place=place, extra=type_)
        return Node("wbin", type_, [left, right], v=op, place=place)

    def wide_compound(self, target, op, value, place, post):
        """`target op= value` where one of the two has 64 bits."""
        if not t.is_number(target.type) or not t.is_number(value.type):
            raise Refusal(f"{op}= of a value of type {target.type}", place)
        if op in ("<<", ">>"):
            type_ = target.type if t.is_wide(target.type) else t.promote(target.type)
            value = self.to_int(value, t.INT)
        else:
            type_ = usual_wide(target.type, value.type)
            value = self.to_wide(value, type_)
        return Node("opassign", target.type, [target, value], v=(op, post), place=place, extra=type_)

"""Initial values: from C's lists, with or without braces and designators, to one value a path."""
from pycparser import c_ast

from . import c_types as t
from .declare import place_of
from .faults import Refusal
from .library import LibraryCalls


class Cursor:
    """The items of one pair of braces, and which comes next."""

    def __init__(self, items):
        self.items = items
        self.at = 0

    def more(self):
        return self.at < len(self.items)

    def here(self):
        return self.items[self.at]


class InitialValues(LibraryCalls):
    """The typing of initial values."""

    def initial(self, type_, node, place):
        """The type, with its length if that was left out, and the values: (path, node), a path of indexes and fields."""
        out = []
        if isinstance(type_, t.Array):
            type_ = self.initial_array(type_, node, out, place)
        elif isinstance(type_, t.Struct) and isinstance(node, c_ast.InitList):
            self.fill(type_, Cursor(node.exprs or []), (), out, True)
        else:
            if isinstance(node, c_ast.InitList):
                if len(node.exprs) != 1:
                    raise Refusal("an initial value in braces of what is no array and no struct", place)
                node = node.exprs[0]
            out.append(((), self.convert(self.expression(node), type_, "an initial value")))
        return type_, out

    def initial_array(self, type_, node, out, place):
        text = self.text_of(type_, node)
        if text is not None:
            length = type_.length if type_.length is not None else len(text.v) + 1
            out.append(((), text))
            return t.Array(type_.element, length)
        if not isinstance(node, c_ast.InitList):
            raise Refusal("an array is initialised by what is no list", place)
        most = self.fill(type_, Cursor(node.exprs or []), (), out, True)
        if type_.length is None:
            type_ = t.Array(type_.element, most)
        return type_

    def text_of(self, type_, node):
        """The string literal that initialises an array of chars; None where the initial value is none."""
        if not (isinstance(type_, t.Array) and t.is_int(type_.element) and type_.element.is_char):
            return None
        if isinstance(node, c_ast.InitList) and len(node.exprs or []) == 1:
            node = node.exprs[0]
        if isinstance(node, c_ast.Constant) and node.type == "string":
            return self.expression(node)
        return None

    def fill(self, type_, cursor, path, out, braced):
        """Fills an array or a struct from a list; returns how many elements the list reaches."""
        at, most = 0, 0
        while cursor.more():
            item = cursor.here()
            if isinstance(item, c_ast.NamedInitializer):
                if not braced:
                    break
                at = self.designated(type_, item, cursor, path, out)
            elif self.member(type_, at) is not None:
                self.one_of(type_, self.member(type_, at), cursor, path, out)
                at += 1
            elif braced:
                raise Refusal("more initial values than there are elements", place_of(item))
            else:
                break
            most = max(most, at)
        return most

    @staticmethod
    def member(type_, at):
        """The step of a path to an element or field, and its type; None where there is none such."""
        if isinstance(type_, t.Array):
            if isinstance(type_.length, int) and at >= type_.length:
                return None
            return at, type_.element
        if type_.fields is None:
            raise Refusal(f"{type_} is not defined")
        named = [field for field in type_.fields if field.name][:1 if type_.union else None]
        return (named[at], named[at].type) if at < len(named) else None

    def one_of(self, type_, member, cursor, path, out):
        """One element or field; a field of a union is used if its value is not 0."""
        before, place = len(out), place_of(cursor.here())
        self.one(member, cursor, path, out)
        if isinstance(type_, t.Struct) and any(node.op not in ("num", "null") or node.v for _, node in out[before:]):
            self.use_member(type_, member[0], place)

    def designated(self, type_, item, cursor, path, out):
        """An item with a designator; returns the number of the element after it."""
        cursor.at += 1
        here, inner, first = path, type_, None
        for step in item.name:
            for at, inner_step in self.designator(inner, step):
                outer, inner = inner, inner.element if isinstance(inner, t.Array) else inner_step.type
                first = at if first is None else first
                here = here + (inner_step,)
                if isinstance(outer, t.Struct):
                    self.use_member(outer, inner_step, place_of(step))
        self.one((here[-1], inner), Cursor([item.expr]), here[:-1], out)
        return first + 1

    def designator(self, type_, step):
        """The elements or fields that a designator names, one inside the other: the number of each, and its step of a path."""
        if isinstance(type_, t.Struct) and isinstance(step, c_ast.ID):
            way = type_.way(step.name)
            if not way:
                raise Refusal(f"{type_} has no field {step.name}", place_of(step))
            found, outer = [], type_
            for field in way:
                found.append(([f for f in outer.fields if f.name].index(field), field))
                outer = field.type
            return found
        at = self.constant(self.expression(step))
        if at is None or not isinstance(type_, t.Array):
            raise Refusal("a designator that fits no element", place_of(step))
        return [(at, at)]

    def one(self, member, cursor, path, out):
        step, type_ = member
        item = cursor.here()
        here = path + (step,)
        text = self.text_of(type_, item)
        if text is not None:
            out.append((here, text))
        elif isinstance(item, c_ast.InitList):
            if t.is_aggregate(type_):
                self.fill(type_, Cursor(item.exprs or []), here, out, True)
            else:
                _, found = self.initial(type_, item, place_of(item))
                out.append((here, found[0][1]))
        elif t.is_aggregate(type_):
            self.elided(type_, cursor, here, out)
            return
        else:
            out.append((here, self.convert(self.expression(item), type_, "an initial value")))
        cursor.at += 1

    def elided(self, type_, cursor, path, out):
        """An array or a struct whose braces are left out, or that a struct value initialises."""
        if isinstance(type_, t.Struct):
            value = self.expression(cursor.here())
            if value.type is type_:
                out.append((path, value))
                cursor.at += 1
                return
        self.fill(type_, cursor, path, out, False)

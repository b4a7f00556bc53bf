"""Expressions: from the parser's trees to typed nodes, by C's own conversions."""
from pycparser import c_ast

from . import c_types as t
from . import literals
from .declare import place_of
from .faults import Refusal
from .library_table import LIBRARY
from .preprocess import SAME_MARK
from .tree import Node, Symbol, has_effect
from .wide import COMPARISONS, WideNumbers, folded, narrowed, usual_wide


def is_left_out(node):
    return isinstance(node, c_ast.ID) and node.name == SAME_MARK


class Expressions(WideNumbers):
    """The typing of expressions."""

    @staticmethod
    def constant(node):
        return node.v if node.op == "num" else None

    def expression(self, node):
        """The typed node of an expression as it stands: an array or a function is not yet a pointer."""
        handler = getattr(self, "on_" + type(node).__name__, None)
        if handler is None:
            raise Refusal(f"an expression of an unknown form: {type(node).__name__}", place_of(node))
        found = handler(node)
        if found.place is None:
            found.place = place_of(node)
        return found

    def value(self, node):
        return self.decayed(self.expression(node))

    def decayed(self, node):
        """The node as a value: an array is a pointer to its first element, and a function its address."""
        if isinstance(node.type, t.Array):
            pointer = t.Ptr(node.type.element)
            if node.op == "string" or not isinstance(node.type.element, (t.Struct, t.Int, t.Ptr)):
                pointer.make_fat()
            return Node("decay", pointer, [node], place=node.place)
        if isinstance(node.type, t.Func):
            return self.address_of_function(node)
        if isinstance(node.type, t.Absent) and node.op != "num":
            raise Refusal(f"a value of type {node.type}", node.place, node.type.hint)
        return node

    def address_of_function(self, node):
        if node.op == "deref":
            return node.a[0]
        symbol = node.v
        symbol.address = True
        symbol.uses += 1
        return Node("fn", t.Ptr(symbol.type), v=symbol, place=node.place)

    # Conversions

    def convert(self, node, type_, what="a value"):
        """The node as a value of the type, as an assignment converts it."""
        node = self.decayed(node)
        if isinstance(type_, t.Int):
            return self.to_int(node, type_)
        if isinstance(type_, t.Ptr):
            return self.to_pointer(node, type_)
        if t.is_wide(type_):
            return self.to_wide(node, type_)
        if isinstance(type_, t.Absent):
            raise Refusal(f"{what} of type {type_}", node.place, type_.hint)
        if isinstance(type_, t.Struct) and node.type is type_:
            return node
        raise Refusal(f"{what} of type {node.type} where {type_} is wanted", node.place)

    def to_int(self, node, type_):
        if isinstance(node.type, t.Ptr):
            if type_.boolean:
                return Node("truth", type_, [node], place=node.place)
            raise Refusal("a pointer as a number", node.place, "keep it as a pointer: what a pointer leads to is checked by its type")
        if node.op == "num":
            if not t.is_number(node.type):
                raise Refusal("a number is wanted here", node.place)
            return Node("num", type_, v=type_.wrap(node.v), place=node.place, extra=node.extra)
        if t.is_wide(node.type):
            return narrowed(node, type_)
        if not t.is_int(node.type):
            raise Refusal(f"a value of type {node.type} where {type_} is wanted", node.place)
        if node.type is type_:
            return node
        return Node("cast", type_, [node], place=node.place)

    def to_pointer(self, node, type_):
        if node.op == "num" and node.v == 0:
            return Node("null", type_, place=node.place)
        if node.op == "num" and t.is_tag(type_) and t.is_int(node.type):
            # No function has an index below 0. A number converted to a function pointer becomes an
            # index below 0, so different numbers stay different when compared, and a call through such
            # a pointer ends the run.
            return Node("nofn", type_, v=-(node.v & 0x7fffffff), place=node.place)
        if not isinstance(node.type, t.Ptr):
            raise Refusal("a number as a pointer", node.place, "only 0 is a pointer: NULL")
        if node.op == "null":
            return Node("null", type_, place=node.place)
        if t.is_tag(node.type) != t.is_tag(type_):
            raise Refusal("a pointer to a function meets one to an object", node.place)
        t.unify(type_, node.type, node.place)
        if node.type.target is type_.target:
            return node
        return Node("pcast", type_, [node], place=node.place)

    def condition(self, node):
        """A value that is asked whether it is 0."""
        found = self.value(node)
        if t.is_wide(found.type):
            return Node("num", t.INT, v=int(found.v != 0), place=found.place) if found.op == "num" else narrowed(found, t.BOOL)
        if not isinstance(found.type, (t.Int, t.Ptr)):
            raise Refusal("a condition is a number or a pointer", found.place)
        return found

    def number(self, node):
        found = self.value(node)
        if not t.is_int(found.type) and not (found.op == "num"):
            raise Refusal(f"a number is wanted here, not {found.type}", found.place)
        return found

    # Leaves

    def on_Constant(self, node):
        place = place_of(node)
        kind, text = node.type, node.value
        if kind == "char":
            return Node("num", t.INT, v=literals.character(text, place), place=place, extra=text)
        if kind == "string":
            data = literals.string(text, place)
            return Node("string", t.Array(t.CHAR, len(data) + 1), v=data, place=place)
        if "int" in kind:
            value, type_ = literals.number(text, place)
            return Node("num", type_, v=value, place=place, extra=text.lower() if text[:2].lower() == "0x" else None)
        raise Refusal("a number with a fraction", place, "only integers are translated")

    def on_ID(self, node):
        place = place_of(node)
        found = self.lookup(node.name)
        if found is None:
            return self.implicit(node.name, place)
        if isinstance(found, tuple):
            if found[0] == "typedef":
                raise Refusal(f"the type {node.name} as a value", place)
            return Node("num", t.INT, v=found[1], place=place)
        found.uses += 1
        return self.name(found, place)

    @staticmethod
    def name(symbol, place):
        return Node("var", symbol.type, v=symbol, place=place)

    def implicit(self, name, place):
        if name in ("__func__", "__FUNCTION__", "__PRETTY_FUNCTION__") and self.function:
            data = self.function.name.encode()
            return Node("string", t.Array(t.CHAR, len(data) + 1), v=data, place=place)
        raise Refusal(f"{name} is not declared", place, "include its header, or declare it")

    # Operators

    def on_UnaryOp(self, node):
        place = place_of(node)
        if node.op == "sizeof":
            return self.size(node, place)
        if node.op in ("++", "--", "p++", "p--"):
            return self.step(node, place)
        if node.op == "&":
            return self.address(self.expression(node.expr), place)
        if node.op == "*":
            return self.indirect(self.value(node.expr), place)
        if node.op == "!":
            return self.negated(self.condition(node.expr), place)
        if node.op not in ("-", "+", "~"):
            raise Refusal(f"the operator {node.op}", place)
        inside = self.value(node.expr)
        return self.unary(node.op, inside if t.is_wide(inside.type) else self.number(node.expr), place)

    def negated(self, inside, place):
        if inside.op == "num":
            return Node("num", t.INT, v=int(not inside.v), place=place)
        return Node("not", t.INT, [inside], place=place)

    def unary(self, op, inside, place):
        if t.is_wide(inside.type) and inside.op == "num":
            return Node("num", inside.type, v=inside.type.wrap({"-": -inside.v, "+": inside.v, "~": ~inside.v}[op]), place=place)
        if t.is_wide(inside.type):
            return inside if op == "+" else Node("wneg" if op == "-" else "wcompl", inside.type, [inside], place=place)
        type_ = t.promote(inside.type)
        inside = self.to_int(inside, type_)
        if op == "+":
            return inside
        if inside.op == "num":
            return Node("num", type_, v=type_.wrap(-inside.v if op == "-" else ~inside.v), place=place)
        return Node("neg" if op == "-" else "compl", type_, [inside], place=place)

    def size(self, node, place):
        if isinstance(node.expr, c_ast.Typename):
            type_ = self.type_of(node.expr)
        else:
            type_ = self.expression(node.expr).type
        if isinstance(type_, t.Array) and isinstance(type_.length, Node):
            each = Node("num", t.ULONG, v=t.size_of(type_.element, place), place=place, extra=("sizeof", type_.element))
            return self.binary("*", self.to_int(type_.length, t.ULONG), each, place)
        if isinstance(type_, t.Ptr) or type_ in (t.LONG, t.ULONG):
            self.warnings.once("the size of a pointer and of long is 4 here", place, "do not print it or rely on it")
        return Node("num", t.ULONG, v=t.size_of(type_, place), place=place, extra=("sizeof", type_))

    def place_node(self, node, place, what):
        """Refuses what is no variable, element or field."""
        if node.op not in ("var", "deref", "index", "field"):
            raise Refusal(f"{what} of what is no variable, element or field", place)
        if isinstance(node.type, t.Absent):
            raise Refusal(f"a value of type {node.type}", place, node.type.hint)
        if node.op == "var":
            node.v.assigned = True
        return node

    def step(self, node, place):
        target = self.place_node(self.expression(node.expr), place, f"{node.op[-2:]}")
        post = node.op[0] == "p"
        return self.compound(target, node.op[-1], Node("num", t.INT, v=1, place=place), place, post)

    def compound(self, target, op, value, place, post=False):
        """`target op= value`; its own value is the new one, or the old one if `post`."""
        if t.is_wide(value.type) and isinstance(target.type, t.Ptr):
            value = self.to_int(value, t.INT)
        if t.is_wide(target.type) or t.is_wide(value.type):
            return self.wide_compound(target, op, value, place, post)
        if isinstance(target.type, t.Ptr):
            if op not in "+-" or t.is_tag(target.type) or not t.is_int(value.type):
                raise Refusal(f"{op}= of a pointer", place)
            self.moves(target.type, place)
            return Node("pstep", target.type, [target, self.to_int(value, t.promote(value.type))], v=(op, post), place=place)
        if not t.is_int(target.type) or not (t.is_int(value.type) or value.op == "num"):
            raise Refusal(f"{op}= of a value of type {target.type}", place)
        if op in ("<<", ">>"):
            type_ = t.promote(target.type)
            value = self.to_int(value, t.promote(value.type))
        else:
            type_ = t.usual(target.type, value.type)
            value = self.to_int(value, type_)
        return Node("opassign", target.type, [target, value], v=(op, post), place=place, extra=type_)

    def address(self, inside, place):
        if isinstance(inside.type, t.Func):
            return self.address_of_function(inside)
        if inside.op in ("deref",):
            return inside.a[0]
        if inside.op == "string":
            return self.decayed(inside)
        if inside.op not in ("var", "index", "field", "compound"):
            raise Refusal("the address of what is no variable, element or field", place)
        if isinstance(inside.type, (t.Absent, t.Wide)):
            hint = getattr(inside.type, "hint", "what has 64 bits is two numbers here: return it, or keep it in a struct")
            raise Refusal(f"the address of a value of type {inside.type}", place, hint)
        pointer = t.Ptr(inside.type)
        if inside.op == "var":
            inside.v.address = True
            inside.v.assigned = True
        if getattr(inside.type, "bit_field", False):
            raise Refusal("the address of a bit-field", place)
        if inside.op == "index":
            return self.address_of_element(inside, pointer, place)
        if isinstance(inside.type, t.Array):
            return self.address_of_array(inside, pointer, place)
        return Node("addr", pointer, [inside], place=place)

    @staticmethod
    def address_of_element(inside, pointer, place):
        pointer.node.inside = True
        if not isinstance(inside.type, (t.Struct, t.Int, t.Ptr)):
            pointer.make_fat()
        return Node("addr", pointer, [inside], place=place)

    @staticmethod
    def address_of_array(inside, pointer, place):
        """`&a` of a whole array: a pointer to one row."""
        pointer.make_fat()
        return Node("addr", pointer, [inside], place=place)

    def indirect(self, pointer, place):
        if not isinstance(pointer.type, t.Ptr):
            raise Refusal("* of what is no pointer", place)
        target = pointer.type.target
        if isinstance(target, t.Func):
            return Node("deref", target, [pointer], place=place)
        if isinstance(target, t.Void):
            raise Refusal("* of a void *", place, "give the pointer the type of what it leads to")
        self.needs_fields(target, place)
        return Node("deref", target, [pointer], place=place)

    @staticmethod
    def needs_fields(target, place):
        if isinstance(target, t.Absent):
            raise Refusal(f"a value of type {target}", place, target.hint)

    def moves(self, type_, place):
        """Notes that a pointer is moved."""
        if t.is_tag(type_):
            raise Refusal("a pointer to a function is moved", place)
        type_.make_fat()

    def on_BinaryOp(self, node):
        place = place_of(node)
        if node.op in ("&&", "||"):
            return self.logical(node.op, self.condition(node.left), self.condition(node.right), place)
        left, right = self.value(node.left), self.value(node.right)
        if isinstance(left.type, t.Ptr) and t.is_wide(right.type):
            right = self.to_int(right, t.INT)
        if isinstance(left.type, t.Ptr) or isinstance(right.type, t.Ptr):
            return self.pointers(node.op, left, right, place)
        for side in (left, right):
            if not t.is_number(side.type) and side.op != "num":
                raise Refusal(f"{node.op} of a value of type {side.type}", place)
        return self.binary(node.op, left, right, place)

    def logical(self, op, left, right, place):
        if left.op == "num" and (left.v == 0) == (op == "&&"):
            return Node("num", t.INT, v=int(op == "||"), place=place)
        if left.op == "num" and right.op == "num":
            return Node("num", t.INT, v=int(right.v != 0), place=place)
        return Node("and" if op == "&&" else "or", t.INT, [left, right], place=place)

    def binary(self, op, left, right, place):
        if t.is_wide(left.type) or t.is_wide(right.type):
            return self.wide_operation(op, left, right, place)
        if op in ("<<", ">>"):
            type_ = t.promote(left.type)
            left, right = self.to_int(left, type_), self.to_int(right, t.promote(right.type))
        else:
            type_ = t.usual(left.type, right.type)
            left, right = self.to_int(left, type_), self.to_int(right, type_)
        value = folded(op, left, right, type_)
        if value is not None:
            return Node("num", t.INT if op in COMPARISONS else type_, v=value, place=place)
        if op in COMPARISONS:
            return Node("cmp", t.INT, [left, right], v=op, place=place, extra=type_)
        return Node("bin", type_, [left, right], v=op, place=place)

    def pointers(self, op, left, right, place):
        if op in ("+", "-") and t.is_int(right.type):
            return self.moved(op, left, right, place)
        if op == "+" and t.is_int(left.type):
            return self.moved(op, right, left, place)
        if op not in COMPARISONS + ("-",):
            raise Refusal(f"{op} of a pointer", place)
        if op == "-":
            return self.difference(left, right, place)
        if not isinstance(left.type, t.Ptr):
            left = self.to_pointer(left, right.type)
        right = self.to_pointer(right, left.type)
        if "null" not in (left.op, right.op):
            left.type.node.root().compared = True
        if op not in ("==", "!="):
            self.moves(left.type, place)
        return Node("pcmp", t.INT, [left, right], v=op, place=place)

    def moved(self, op, pointer, number, place):
        self.moves(pointer.type, place)
        if isinstance(pointer.type.target, t.Void):
            raise Refusal("a void * is moved", place, "give the pointer the type of what it leads to")
        number = self.to_int(number, t.promote(number.type))
        return Node("padd", pointer.type, [pointer, number], v=op, place=place)

    def difference(self, left, right, place):
        if not isinstance(right.type, t.Ptr) or not isinstance(left.type, t.Ptr):
            raise Refusal("- of a number and a pointer", place)
        right = self.to_pointer(right, left.type)
        self.moves(left.type, place)
        return Node("pdiff", t.LONG, [left, right], place=place)

    # Assignments, conditions, commas

    def on_Assignment(self, node):
        place = place_of(node)
        target = self.place_node(self.expression(node.lvalue), place, "an assignment")
        if node.op != "=":
            return self.compound(target, node.op[:-1], self.value(node.rvalue), place)
        if isinstance(target.type, t.Array):
            raise Refusal("an assignment to an array", place)
        value = self.convert(self.expression(node.rvalue), target.type)
        return Node("assign", target.type, [target, value], place=place)

    def on_TernaryOp(self, node):
        place = place_of(node)
        condition = self.condition(node.cond)
        left = self.same_again(condition, place) if is_left_out(node.iftrue) else self.value(node.iftrue)
        right = self.value(node.iffalse)
        type_ = self.common(left, right, place)
        if isinstance(type_, (t.Int, t.Ptr, t.Wide)):
            left, right = self.convert(left, type_), self.convert(right, type_)
        if condition.op == "num":
            return left if condition.v else right
        return Node("cond", type_, [condition, left, right], place=place)

    @staticmethod
    def same_again(condition, place):
        """The middle of `a ?: b`."""
        if has_effect(condition):
            raise Refusal("?: with nothing between, after what has an effect", place, "put the value into a variable first")
        return condition

    @staticmethod
    def common(left, right, place):
        """The type of `c ? left : right`."""
        if isinstance(left.type, t.Void) or isinstance(right.type, t.Void):
            return t.VOID
        if isinstance(left.type, t.Ptr) or isinstance(right.type, t.Ptr):
            null = left.op in ("null", "num") or (isinstance(left.type, t.Ptr) and isinstance(left.type.target, t.Void))
            found = right if null and isinstance(right.type, t.Ptr) else left
            return found.type
        if t.is_int(left.type) and t.is_int(right.type):
            return t.usual(left.type, right.type)
        if isinstance(left.type, t.Struct) and left.type is right.type:
            return left.type
        if t.is_number(left.type) and t.is_number(right.type):
            return usual_wide(left.type, right.type)
        raise Refusal("the two values of ?: have different types", place)

    def on_ExprList(self, node):
        parts = [self.expression(e) for e in node.exprs]
        last = self.decayed(parts[-1])
        return Node("comma", last.type, parts[:-1] + [last], place=place_of(node))

    def on_Cast(self, node):
        place = place_of(node)
        type_ = self.type_of(node.to_type)
        inside = self.value(node.expr)
        if isinstance(type_, t.Void):
            return Node("void", t.VOID, [inside], place=place)
        if isinstance(type_, t.Ptr) and isinstance(inside.type, t.Ptr) and inside.op != "null":
            return self.cast_pointer(inside, type_, place)
        if isinstance(type_, t.Struct) and inside.type is type_:
            return inside
        found = self.convert(inside, type_, "a cast")
        return found

    def cast_pointer(self, inside, type_, place):
        if isinstance(type_.target, t.Void) or isinstance(inside.type.target, t.Void) or t.form(type_.target) == t.form(inside.type.target):
            found = self.to_pointer(inside, type_)
            return found
        if inside.op in ("pcast", "cast") and isinstance(inside.a[0].type, t.Ptr):
            return self.cast_pointer(inside.a[0], type_, place)
        if t.is_tag(type_):
            raise Refusal("a cast of a pointer to a function", place, "use one signature for all of its functions")
        return Node("recast", type_, [inside], place=place)

    # Elements and fields

    def on_ArrayRef(self, node):
        place = place_of(node)
        base, index = self.value(node.name), self.value(node.subscript)
        if t.is_wide(index.type):
            index = self.to_int(index, t.INT)
        if t.is_int(base.type) and isinstance(index.type, t.Ptr):
            base, index = index, base
        if not isinstance(base.type, t.Ptr) or not t.is_int(index.type):
            raise Refusal("an index of what is no array", place)
        if index.op == "num" and index.v == 0 and base.op != "decay":
            return self.indirect(base, place)
        self.moves(base.type, place)
        if isinstance(base.type.target, t.Void):
            raise Refusal("an index of a void *", place)
        self.needs_fields(base.type.target, place)
        index = self.to_int(index, t.promote(index.type))
        return Node("index", base.type.target, [base, index], place=place)

    def on_StructRef(self, node):
        place = place_of(node)
        base = self.expression(node.name)
        if node.type == "->":
            base = self.indirect(self.decayed(base), place)
        if not isinstance(base.type, t.Struct):
            hint = base.type.hint if isinstance(base.type, t.Absent) else ""
            raise Refusal(f"a field of {base.type}", place, hint)
        way = base.type.way(node.field.name)
        if not way:
            raise Refusal(f"{base.type} has no field {node.field.name}", place)
        for field in way:
            base.type.used = True
            self.use_member(base.type, field, place)
            base = Node("field", field.type, [base], v=field, place=place)
        return base

    def use_member(self, struct, field, place):
        """Notes which field of a union is used."""
        if struct.union:
            struct.uses.append((field, place, self.function))

    def on_Compound(self, node):
        raise Refusal("an expression of statements", place_of(node), "write a function")

    def on_CompoundLiteral(self, node):
        place = place_of(node)
        type_ = self.type_of(node.type)
        if self.function is None:
            raise Refusal("a compound literal outside of functions", place, "declare a variable")
        if not t.is_aggregate(type_):
            return self.convert(self.expression(node.init.exprs[0]), type_)
        type_, inits = self.initial(type_, node.init, place)
        symbol = self.new_symbol("value", type_, place, "local")
        symbol.hoisted = True
        self.function.locals.append(symbol)
        return Node("compound", type_, [value for _, value in inits], v=symbol, place=place, extra=[path for path, _ in inits])

    # Calls

    def on_FuncCall(self, node):
        place = place_of(node)
        if isinstance(node.name, c_ast.ID) and node.name.name == "offsetof":
            return self.offset(node.args.exprs, place)
        args = [self.expression(e) for e in (node.args.exprs if node.args else [])]
        if isinstance(node.name, c_ast.ID):
            found = self.callee(node.name.name)
            if isinstance(found, str):
                return self.library_call(found, args, place)
            if found is None:
                found = self.declare_global(node.name.name, t.Func(t.INT, None), place, "function")
            if isinstance(found, Symbol) and isinstance(found.type, t.Func):
                found = self.stand_in(found, args, place) if self.partial and self.is_open(found) else found
                found.uses += 1
                return Node("call", found.type.result, self.arguments(found.type, args, place), v=found, place=place)
        return self.indirect_call(self.value(node.name), args, place)

    def offset(self, parts, place):
        """offsetof: where a field of a struct begins."""
        struct = self.type_of(parts[0])
        if not isinstance(struct, t.Struct) or struct.fields is None or not isinstance(parts[1], c_ast.ID):
            raise Refusal("offsetof of what is no field of a struct", place, "write the number of bytes")
        at = 0
        for field in struct.way(parts[1].name):
            at += t.offsets(struct, place)[0][field]
            struct = field.type
        return Node("num", t.ULONG, v=at, place=place)

    def is_open(self, symbol):
        """Whether a function takes arguments of unknown number, or is elsewhere and nothing says what it takes."""
        return symbol.type.variadic or symbol.type.params is None and symbol.name not in self.defined_names

    def stand_in(self, symbol, args, place):
        """For a function that is not translated and takes any arguments, one that takes those of this call."""
        known = symbol.type.params or []
        params = known + [self.promoted(arg).type for arg in args[len(known):]]
        key = (symbol.name, tuple(map(str, params)))
        if key not in self.stand_ins:
            name = f"{symbol.name}_{len(self.stand_ins) + 1}"
            self.stand_ins[key] = self.new_symbol(name, t.Func(symbol.type.result, params), place, "function")
        return self.stand_ins[key]

    def callee(self, name):
        """The symbol that a call names, or the name of a library function."""
        found = self.lookup(name)
        plain = name[len("__builtin_"):] if name.startswith("__builtin_") else name
        if isinstance(found, Symbol) and (not isinstance(found.type, t.Func) or found.name in self.defined_names):
            return found
        if plain in LIBRARY and (found is None or isinstance(found, Symbol)):
            return plain
        return found

    def indirect_call(self, pointer, args, place):
        if not t.is_tag(pointer.type):
            raise Refusal("a call of what is no function", place)
        if pointer.op == "fn":
            pointer.v.uses += 1
            return Node("call", pointer.v.type.result, self.arguments(pointer.v.type, args, place), v=pointer.v, place=place)
        type_ = pointer.type.target
        return Node("icall", type_.result, [pointer] + self.arguments(type_, args, place), place=place)

    def arguments(self, type_, args, place):
        if type_.variadic:
            raise Refusal("a call of a function with a list of arguments of unknown number", place)
        if isinstance(type_.result, t.Absent):
            raise Refusal(f"a call of a function that returns {type_.result}", place, type_.result.hint)
        if type_.params is None:
            return [self.promoted(arg) for arg in args]
        if len(args) != len(type_.params):
            raise Refusal(f"a call with {len(args)} arguments of a function with {len(type_.params)}", place)
        return [self.convert(arg, param, "an argument") for arg, param in zip(args, type_.params)]

    def promoted(self, arg):
        arg = self.decayed(arg)
        if t.is_int(arg.type):
            return self.to_int(arg, t.promote(arg.type))
        if isinstance(arg.type, (t.Ptr, t.Struct, t.Wide)):
            return arg
        raise Refusal(f"an argument of type {arg.type}", arg.place)

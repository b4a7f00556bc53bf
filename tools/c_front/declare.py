"""Declarations: from the parser's trees to types and symbols, with C's scopes."""
from pycparser import c_ast

from . import c_types as t
from .faults import Place, Refusal
from .preprocess import LAYOUT_MARK
from .text import RESERVED
from .tree import Node, Symbol

NUMBERS = {
    ("int",): t.INT, ("signed",): t.INT, ("int", "signed"): t.INT, ("unsigned",): t.UINT, ("int", "unsigned"): t.UINT,
    ("char",): t.CHAR, ("char", "signed"): t.SCHAR, ("char", "unsigned"): t.UCHAR, ("_Bool",): t.BOOL,
    ("short",): t.SHORT, ("int", "short"): t.SHORT, ("short", "signed"): t.SHORT, ("int", "short", "signed"): t.SHORT,
    ("short", "unsigned"): t.USHORT, ("int", "short", "unsigned"): t.USHORT,
    ("long",): t.LONG, ("int", "long"): t.LONG, ("long", "signed"): t.LONG, ("int", "long", "signed"): t.LONG,
    ("long", "unsigned"): t.ULONG, ("int", "long", "unsigned"): t.ULONG, ("void",): t.VOID}


def place_of(node):
    coord = getattr(node, "coord", None)
    return Place(coord.file or "", coord.line or 0, coord.column or 1) if coord else Place()


def acts(node):
    """Whether an expression of the parser may assign something."""
    if node is None:
        return False
    if isinstance(node, (c_ast.Assignment, c_ast.FuncCall)) or isinstance(node, c_ast.UnaryOp) and node.op in ("++", "--", "p++", "p--"):
        return True
    return any(acts(child) for _, child in node.children())


class Declarations:
    """Names and their scopes. The classes of expressions and statements build on it."""

    partial = False

    def __init__(self, warnings):
        self.warnings = warnings
        self.stand_ins = {}
        self.least = {}
        self.scopes = [{}]
        self.tags = [{}]
        self.built = {}
        self.structs = []
        self.symbols = []
        self.functions = []
        self.globals = []
        self.function = None
        self.names_used = set()

    # Scopes

    def open_scope(self):
        self.scopes.append({})
        self.tags.append({})

    def close_scope(self):
        self.scopes.pop()
        self.tags.pop()

    def lookup(self, name):
        for scope in reversed(self.scopes):
            if name in scope:
                return scope[name]
        return None

    def lookup_tag(self, tag):
        for scope in reversed(self.tags):
            if tag in scope:
                return scope[tag]
        return None

    # Types

    def type_of(self, node, inits=None):
        """The type that a tree of the parser declares; each use of a typedef has pointers of its own."""
        if isinstance(node, c_ast.TypeDecl):
            return self.type_of(node.type, inits)
        if isinstance(node, (c_ast.Typename, c_ast.Decl)):
            return self.type_of(node.type, inits)
        if isinstance(node, c_ast.PtrDecl):
            return t.Ptr(self.type_of(node.type))
        if isinstance(node, c_ast.ArrayDecl):
            return self.array_type(node)
        if isinstance(node, c_ast.FuncDecl):
            return self.function_type(node)
        if isinstance(node, c_ast.IdentifierType):
            return self.named_type(node)
        if isinstance(node, (c_ast.Struct, c_ast.Union)):
            return self.struct_type(node)
        if isinstance(node, c_ast.Enum):
            return self.enum_type(node)
        raise Refusal(f"a type of an unknown form: {type(node).__name__}", place_of(node))

    def named_type(self, node):
        names = tuple(sorted(node.names))
        if names in NUMBERS:
            if "long" in names:
                self.warnings.once("long has 32 bits here", place_of(node), "write int, and check that the values fit")
            return NUMBERS[names]
        if names.count("long") == 2:
            return t.UWIDE if "unsigned" in names else t.WIDE
        if "float" in names or "double" in names:
            return t.Absent(" ".join(node.names), "only integers are translated", 4 if "float" in names else 8)
        found = self.lookup(node.names[-1])
        if isinstance(found, tuple) and found[0] == "typedef":
            return self.type_of(found[1])
        if node.names[-1] in ("__builtin_va_list", "_Complex", "__int128"):
            return t.Absent(node.names[-1], "a function with a list of arguments of unknown number is not translated")
        raise Refusal(f"the type {' '.join(node.names)} is not known", place_of(node))

    def array_type(self, node):
        element = self.type_of(node.type)
        if node.dim is None:
            return t.Array(element, None)
        dim = self.expression(node.dim)
        length = self.constant(dim)
        if length is None:
            if self.function is None or isinstance(element, t.Array):
                raise Refusal("an array whose length is not constant", place_of(node), "write a constant, or use malloc")
            return t.Array(element, self.convert(dim, t.INT))
        if length < 0 or length > 1 << 28:
            raise Refusal("an array of so many elements", place_of(node))
        return t.Array(element, length)

    def function_type(self, node):
        result = self.type_of(node.type)
        if node.args is None:
            return t.Func(result, None)
        params, variadic = [], False
        for param in node.args.params:
            if isinstance(param, c_ast.EllipsisParam):
                variadic = True
            elif isinstance(param, c_ast.ID):
                params.append(t.INT)
            elif isinstance(param.type, c_ast.ArrayDecl):
                if acts(param.type.dim):
                    raise Refusal("a length of a parameter that has an effect", place_of(param), "write the effect into the function")
                params.append(t.Ptr(self.type_of(param.type.type)))
            else:
                params.append(self.adjusted(self.type_of(param.type)))
        if len(params) == 1 and isinstance(params[0], t.Void):
            params = []
        return t.Func(result, params, variadic)

    @staticmethod
    def adjusted(type_):
        """A parameter's type: arrays and functions become pointers."""
        if isinstance(type_, t.Array):
            return t.Ptr(type_.element)
        if isinstance(type_, t.Func):
            return t.Ptr(type_)
        return type_

    def struct_type(self, node):
        """The struct or the union of a tree: the same for each mention of its tag."""
        if id(node) in self.built:
            return self.built[id(node)][1]
        union = isinstance(node, c_ast.Union)
        tag = ("union " if union else "") + node.name if node.name else None
        found = (self.tags[-1].get(tag) if node.decls else self.lookup_tag(tag)) if tag else None
        if found is None:
            found = t.Struct(node.name or "", union)
            found.place = place_of(node)
            self.structs.append(found)
            if tag:
                self.tags[-1][tag] = found
        self.built[id(node)] = (node, found)
        if node.decls is not None:
            found.fields = []
            found.place = place_of(node)
            self.fields(found, node)
        return found

    def fields(self, struct, node):
        for decl in node.decls:
            if isinstance(decl, (c_ast.Pragma, c_ast.StaticAssert)):
                continue
            if decl.name == LAYOUT_MARK:
                struct.laid_out = False
                continue
            type_ = self.type_of(decl.type)
            place = place_of(decl)
            if getattr(decl, "bitsize", None) is not None:
                type_ = self.bit_field(type_, decl)
                if decl.name is None:
                    continue
            if isinstance(type_, t.Array) and isinstance(type_.length, Node):
                raise Refusal("a field that is an array whose length is not constant", place, "write a constant")
            if isinstance(type_, t.Array) and type_.length is None:
                type_ = t.Absent("an array without a length", "use a pointer")
            unnamed = decl.name is None and isinstance(type_, t.Struct)
            if unnamed and not type_.tag:
                struct.fields.append(t.Field(f"unnamed_{len(struct.fields) + 1}", type_, place, True))
            elif not unnamed:
                struct.fields.append(t.Field(decl.name, type_, place))
        self.name_halves(struct.fields)

    @staticmethod
    def name_halves(fields):
        """Names for the high halves of the fields of 64 bits."""
        taken = {field.name for field in fields}
        for field in fields:
            if t.is_wide(field.type):
                field.high = field.name + "_high"
                while field.high in taken:
                    field.high += "_"
                taken.add(field.high)

    def bit_field(self, type_, decl):
        bits = self.constant(self.expression(decl.bitsize))
        if not t.is_int(type_):
            return t.Absent("a wide bit-field", "use an int")
        if type_.boolean:
            return t.BOOL
        if bits is None or not 0 <= bits <= 32:
            return t.Absent("a wide bit-field", "use an int")
        signed = type_.signed and not self.counts(decl.type)
        field = t.Int(f"{'int' if signed else 'unsigned int'}:{bits}", max(bits, 1), signed, t.INT.rank)
        field.bit_field = True
        return field

    def counts(self, node):
        """Whether a type is an enum without a constant below 0, whose bit-fields gcc makes unsigned."""
        while isinstance(node, (c_ast.TypeDecl, c_ast.Typename, c_ast.IdentifierType)):
            if isinstance(node, c_ast.IdentifierType):
                found = self.lookup(node.names[-1])
                if not isinstance(found, tuple) or found[0] != "typedef":
                    return False
                node = found[1]
            else:
                node = node.type
        if not isinstance(node, c_ast.Enum):
            return False
        least = self.lookup_tag("enum " + node.name) if node.name else self.least.get(id(node))
        return least is not None and least >= 0

    def enum_type(self, node):
        if id(node) in self.built:
            return t.INT
        self.built[id(node)] = (node, t.INT)
        value, least = -1, 0
        for item in (node.values.enumerators if node.values else []):
            value = value + 1 if item.value is None else self.constant(self.expression(item.value))
            if value is None:
                raise Refusal("an enumeration constant that is not constant", place_of(item))
            self.scopes[-1][item.name] = ("enum", value)
            least = min(least, value)
        self.least[id(node)] = least
        if node.name and node.values:
            self.tags[-1]["enum " + node.name] = least
        return t.INT

    # Symbols

    def new_symbol(self, name, type_, place, scope):
        symbol = Symbol(name, type_, place, scope)
        symbol.owner = self.function
        if name in RESERVED:
            symbol.text = name + "_"
        self.symbols.append(symbol)
        return symbol

    def declare_global(self, name, type_, place, scope="global"):
        """A global or a function: the same symbol for each of its declarations."""
        found = self.scopes[0].get(name)
        if isinstance(found, Symbol):
            self.merge(found, type_, place)
        else:
            found = self.new_symbol(name, type_, place, scope)
            self.scopes[0][name] = found
            (self.functions if scope == "function" else self.globals).append(found)
        if len(self.scopes) > 1:
            self.scopes[-1][name] = found
        return found

    @staticmethod
    def merge(symbol, type_, place):
        """Notes what a second declaration says: the length of an array, the parameters of a function."""
        old = symbol.type
        if isinstance(old, t.Func) and isinstance(type_, t.Func):
            if old.params is None and type_.params is not None:
                t.unify(old.result, type_.result, place)
                symbol.type = type_
                return
        elif isinstance(old, t.Array) and isinstance(type_, t.Array) and old.length is None:
            t.unify(old, type_, place)
            symbol.type = type_
            return
        t.unify(old, type_, place)

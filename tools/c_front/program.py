"""A whole C file: its declarations first, then the bodies of its functions."""
import collections

from pycparser import c_ast

from . import c_types as t
from .declare import place_of
from .entering import Entering
from .faults import Refusal
from .statements import Label, Statements


class Program(Statements):
    """The typing of a file. `refusals` has one for each function that is refused, and the first of the declarations."""

    def __init__(self, warnings, left_out=(), partial=False):
        super().__init__(warnings)
        self.left_out = left_out
        self.partial = partial
        self.refusals = []
        self.defined_names = set()
        self.bodies = []
        self.pending = []
        self.order = []
        self.called = set()
        self.typedef_names = {}

    def read(self, ast):
        self.defined_names = {e.decl.name for e in ast.ext if isinstance(e, c_ast.FuncDef)}
        for item in ast.ext:
            try:
                self.external(item)
            except Refusal as refusal:
                self.refuse(refusal, place_of(item))
        for symbol, init, place in self.pending:
            try:
                symbol.type, symbol.inits = self.initial(symbol.type, init, place)
            except Refusal as refusal:
                self.refuse(refusal, place)
        for symbol, node in self.bodies:
            if symbol.name not in self.left_out:
                self.function_body(symbol, node)
            else:
                self.warnings.add(f"{symbol.name} is left out: it is not translated, and main does not lead to it", symbol.place)
        for struct in self.structs:
            self.choose_member(struct)
        for symbol in self.globals:
            if symbol.defined and isinstance(symbol.type, t.Array) and symbol.type.length is None:
                # In C, an array whose length no declaration gives has one element.
                symbol.type = t.Array(symbol.type.element, 1)
        return self

    def choose_member(self, struct):
        """The field of a union that is used; each function that uses another one is refused."""
        uses = [use for use in struct.uses if use[2] is None or use[2].body is not None]
        if not uses:
            return
        counts = collections.Counter(field for field, _, _ in uses)
        struct.chosen = counts.most_common(1)[0][0]
        for field, place, function in uses:
            if field is not struct.chosen and (function is None or function.body is not None):
                message = f"a union of which both {struct.chosen.name} and {field.name} are used"
                self.refuse(Refusal(message, place, "use a struct: its fields do not share memory"), place, function)
                if function is not None:
                    function.body = None

    def refuse(self, refusal, place, function=None):
        if refusal.place is None:
            refusal.place = place
        refusal.function = function
        self.refusals.append(refusal)

    def external(self, node):
        if isinstance(node, c_ast.FuncDef):
            self.function_head(node)
        elif isinstance(node, c_ast.Typedef):
            self.do_Typedef(node, [])
            self.name_struct(node)
        elif isinstance(node, c_ast.Decl):
            self.external_decl(node)
        elif isinstance(node, (c_ast.Pragma, c_ast.StaticAssert)):
            return
        else:
            raise Refusal(f"a declaration of an unknown form: {type(node).__name__}", place_of(node))

    def name_struct(self, node):
        """Notes the name of a typedef for a struct that has no tag."""
        inside = node.type
        if isinstance(inside, c_ast.TypeDecl) and isinstance(inside.type, c_ast.Struct) and inside.type.name is None:
            self.typedef_names.setdefault(id(self.type_of(inside)), node.name)

    def external_decl(self, node):
        place = place_of(node)
        if node.name is None or isinstance(node.type, (c_ast.Struct, c_ast.Union, c_ast.Enum)):
            self.type_of(node.type)
            return
        type_ = self.type_of(node.type)
        if isinstance(type_, t.Func):
            self.declare_global(node.name, type_, place, "function")
            return
        symbol = self.declare_global(node.name, type_, place)
        if "extern" not in node.storage or node.init is not None:
            if not symbol.defined:
                self.order.append(symbol)
            symbol.defined = True
        if node.init is not None:
            symbol.place = place
            self.size_by_values(symbol, node.init, place)
            self.pending.append((symbol, node.init, place))

    def size_by_values(self, symbol, init, place):
        """Completes an array's length before any body is read, so that sizeof knows it."""
        if not isinstance(symbol.type, t.Array) or symbol.type.length is not None:
            return
        values = (init.exprs or []) if isinstance(init, c_ast.InitList) else None
        plain = values is not None and not any(isinstance(e, (c_ast.NamedInitializer, c_ast.InitList)) for e in values)
        if plain and not t.is_aggregate(symbol.type.element) and self.text_of(symbol.type, init) is None:
            symbol.type = t.Array(symbol.type.element, len(values))
        else:
            symbol.type, _ = self.initial(symbol.type, init, place)

    def function_head(self, node):
        place = place_of(node.decl)
        type_ = self.type_of(node.decl.type)
        names = self.parameters(node, type_)
        symbol = self.declare_global(node.decl.name, type_, place, "function")
        t.unify(symbol.type, type_, place)
        symbol.type = type_
        symbol.place = place
        symbol.defined = True
        symbol.param_names = names
        symbol.locals = []
        self.bodies.append((symbol, node))
        self.order.append(symbol)

    def parameters(self, node, type_):
        """The names of the parameters; declarations below an old head give their types."""
        params = node.decl.type.args.params if node.decl.type.args else []
        names = [p.name for p in params if not isinstance(p, c_ast.EllipsisParam)]
        if len(params) == 1 and isinstance(params[0], c_ast.Typename):
            names = []
        old = {d.name: d for d in node.param_decls or []}
        if type_.params is None:
            type_.params = []
        for at, name in enumerate(names):
            if name in old:
                type_.params[at] = self.adjusted(self.type_of(old[name].type))
        return names

    def function_body(self, symbol, node):
        self.function = symbol
        depth = len(self.scopes)
        self.open_scope()
        try:
            self.refuse_head(symbol)
            symbol.params = []
            for name, type_ in zip(symbol.param_names, symbol.type.params):
                param = self.new_symbol(name or "unnamed", type_, symbol.place, "parameter")
                self.name_local(param, False)
                symbol.params.append(param)
                self.scopes[-1][param.name] = param
            self.jumps = set(jumps_of(node.body))
            symbol.body = self.items(node.body.block_items)
            Entering(symbol.body, self.flag, Label).run()
        except Refusal as refusal:
            symbol.body = None
            self.refuse(refusal, symbol.place, symbol)
        except RecursionError:
            symbol.body = None
            self.refuse(Refusal("an expression or a statement that nests too deep", symbol.place), symbol.place, symbol)
        finally:
            del self.scopes[depth:]
            del self.tags[depth:]
            del self.breaks[:], self.continues[:]
            self.function = None

    @staticmethod
    def refuse_head(symbol):
        if symbol.type.variadic:
            raise Refusal("a function with a list of arguments of unknown number", symbol.place, "pass an array and its length")
        for type_ in [symbol.type.result] + symbol.type.params:
            if isinstance(type_, t.Absent):
                raise Refusal(f"a function with a value of type {type_}", symbol.place, type_.hint)

    def flag(self, name, place):
        """A variable that says that a jump goes to a label inside a block."""
        symbol = self.new_symbol(f"to_{name}", t.INT, place, "local")
        symbol.hoisted = symbol.assigned = True
        self.function.locals.append(symbol)
        return symbol


def jumps_of(node):
    """The names of the labels to which a tree of the parser jumps, one for each jump."""
    if isinstance(node, c_ast.Goto):
        return [node.name]
    return [name for _, child in node.children() for name in jumps_of(child)]

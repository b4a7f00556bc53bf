"""Statements: from the parser's trees to typed statements, with jumps that have a target."""
from pycparser import c_ast

from . import c_types as t
from .declare import place_of
from .faults import Refusal
from .initial import InitialValues
from .jumps import resolve_jumps
from .tree import Stmt, Symbol, statements


class Label:
    """The target of `break` and `continue`: a loop, a switch or a block."""
    count = 0

    def __init__(self, kind):
        self.kind = kind
        Label.count += 1
        self.number = Label.count

    def __repr__(self):
        return f"{self.kind}{self.number}"


class Statements(InitialValues):
    """The typing of statements."""

    def __init__(self, warnings):
        super().__init__(warnings)
        self.breaks = []
        self.continues = []
        self.jumps = set()

    def block(self, items):
        """The statements of a block, in a scope of their own."""
        self.open_scope()
        try:
            return self.items(items)
        finally:
            self.close_scope()

    def items(self, items):
        out = []
        for item in items or []:
            self.item(item, out)
        return resolve_jumps(self.with_entries(out), Label)

    def with_entries(self, stmts):
        """Notes where the labels to which something jumps stand, for the jumps from outside of the block."""
        out = []
        for stmt in stmts:
            out.append(stmt)
            if stmt.kind == "label" and stmt.label in self.jumps:
                out.append(Stmt("entry", stmt.place, label=stmt.label))
        return out

    def item(self, node, out):
        handler = getattr(self, "do_" + type(node).__name__, None)
        if handler is not None:
            handler(node, out)
            return
        out.append(Stmt("expr", place_of(node), self.expression(node)))

    def single(self, node):
        """A statement as the list that a block has."""
        if node is None:
            return []
        if isinstance(node, c_ast.Compound):
            return self.block(node.block_items)
        return self.block([node])

    # Declarations

    def do_Decl(self, node, out):
        place = place_of(node)
        if node.name is None or isinstance(node.type, (c_ast.Struct, c_ast.Union, c_ast.Enum)):
            self.type_of(node.type)
            return
        if isinstance(node.type, c_ast.FuncDecl):
            self.declare_global(node.name, self.type_of(node.type), place, "function")
            return
        if "extern" in node.storage:
            if any(isinstance(s.get(node.name), Symbol) and s[node.name].scope in ("local", "parameter") for s in self.scopes[1:]):
                raise Refusal(f"extern {node.name} where a variable of the function hides it", place, "rename the variable")
            self.declare_global(node.name, self.type_of(node.type), place)
            return
        self.local(node, place, out)

    def local(self, node, place, out):
        type_ = self.type_of(node.type)
        static = "static" in node.storage
        symbol = self.new_symbol(node.name, type_, place, "global" if static else "local")
        self.name_local(symbol, static)
        self.scopes[-1][node.name] = symbol
        inits = None
        if node.init is not None:
            symbol.type, inits = self.initial(type_, node.init, place)
        self.complete(symbol.type, node.name, place)
        if static:
            symbol.defined = True
            symbol.inits = inits
            self.globals.append(symbol)
            return
        self.function.locals.append(symbol)
        out.append(Stmt("decl", place, symbol=symbol, inits=inits))

    @staticmethod
    def complete(type_, name, place):
        if isinstance(type_, t.Absent):
            raise Refusal(f"{name} of type {type_}", place, type_.hint)
        if isinstance(type_, t.Array) and type_.length is None or isinstance(type_, t.Struct) and type_.fields is None:
            raise Refusal(f"{name} has a type that is not complete", place)
        if isinstance(type_, t.Void):
            raise Refusal(f"{name} is void", place)

    def name_local(self, symbol, static):
        """Gives a local a name that no visible local of the function has."""
        if static:
            symbol.text = f"{self.function.name}_{symbol.name}"
            return
        taken = {s.text for scope in self.scopes[1:] for s in scope.values() if isinstance(s, Symbol) and s.scope in ("local", "parameter")}
        number = 2
        while symbol.text in taken:
            symbol.text = f"{symbol.name}_{number}"
            number += 1

    def do_DeclList(self, node, out):
        for decl in node.decls:
            self.do_Decl(decl, out)

    def do_Typedef(self, node, _out):
        self.scopes[-1][node.name] = ("typedef", node.type)
        self.type_of(node.type)

    def do_Pragma(self, _node, _out):
        """A pragma says nothing here."""

    def do_StaticAssert(self, _node, _out):
        """gcc has looked at it."""

    def do_EmptyStatement(self, _node, _out):
        """Nothing is written for it."""

    # Control flow

    def do_Compound(self, node, out):
        out.append(Stmt("block", place_of(node), body=self.block(node.block_items)))

    def do_If(self, node, out):
        condition = self.condition(node.cond)
        then, other = self.single(node.iftrue), self.single(node.iffalse)
        out.append(Stmt("if", place_of(node), condition, then, other))

    def loop_body(self, node, label):
        self.breaks.append(label)
        self.continues.append(label)
        try:
            return self.single(node)
        finally:
            self.breaks.pop()
            self.continues.pop()

    def do_While(self, node, out):
        label = Label("loop")
        condition = self.condition(node.cond)
        out.append(Stmt("while", place_of(node), condition, self.loop_body(node.stmt, label), label=label))

    def do_DoWhile(self, node, out):
        label = Label("loop")
        body = self.loop_body(node.stmt, label)
        out.append(Stmt("do", place_of(node), self.condition(node.cond), body, label=label))

    def do_For(self, node, out):
        label = Label("loop")
        self.open_scope()
        try:
            inside = []
            if node.init is not None:
                self.item(node.init, inside)
            condition = self.condition(node.cond) if node.cond is not None else None
            next_ = [Stmt("expr", place_of(node.next), self.expression(node.next))] if node.next is not None else []
            body = self.loop_body(node.stmt, label)
            inside.append(Stmt("while", place_of(node), condition, body, label=label, next_=next_))
        finally:
            self.close_scope()
        if any(s.kind == "decl" for s in inside):
            out.append(Stmt("block", place_of(node), body=inside))
        else:
            out += inside

    def do_Break(self, node, out):
        if not self.breaks:
            raise Refusal("break outside of a loop", place_of(node))
        out.append(Stmt("break", place_of(node), label=self.breaks[-1]))

    def do_Continue(self, node, out):
        if not self.continues:
            raise Refusal("continue outside of a loop", place_of(node))
        out.append(Stmt("continue", place_of(node), label=self.continues[-1]))

    def do_Return(self, node, out):
        place = place_of(node)
        result = self.function.type.result
        if node.expr is None:
            out.append(Stmt("return", place))
        elif isinstance(result, t.Void):
            out.append(Stmt("expr", place, self.expression(node.expr)))
            out.append(Stmt("return", place))
        else:
            out.append(Stmt("return", place, self.convert(self.expression(node.expr), result, "a result")))

    def do_Goto(self, node, out):
        out.append(Stmt("goto", place_of(node), label=node.name))

    def do_Label(self, node, out):
        out.append(Stmt("label", place_of(node), label=node.name))
        self.item(node.stmt, out)

    # switch

    def do_Switch(self, node, out):
        place = place_of(node)
        subject = self.number(node.cond)
        subject = self.to_int(subject, t.promote(subject.type))
        label = Label("switch")
        self.breaks.append(label)
        self.open_scope()
        try:
            groups = self.groups(node.stmt, subject.type, out)
        finally:
            self.close_scope()
            self.breaks.pop()
        out.append(Stmt("switch", place, subject, groups, label=label))

    def groups(self, body, type_, out):
        """The groups of a switch: the values of each, or None for the default, and its statements."""
        items = (body.block_items or []) if isinstance(body, c_ast.Compound) else [body]
        groups, values, place = [], [], place_of(body)
        for item in items:
            if isinstance(item, (c_ast.Case, c_ast.Default)):
                values.append(self.case_value(item, type_))
                inside = self.case_items(item, values, type_)
                if not inside:
                    continue
                groups.append(Stmt("group", place_of(item), body=self.items(inside), label=values))
                values = []
            elif groups:
                groups[-1].body += self.items([item])
            elif isinstance(item, c_ast.Decl):
                self.do_Decl(item, out)
        if values:
            groups.append(Stmt("group", place, body=[], label=values))
        for stmt in statements(groups):
            if stmt.kind == "decl":
                stmt.symbol.hoisted = True
        return groups

    def case_value(self, item, type_):
        if isinstance(item, c_ast.Default):
            return None
        value = self.constant(self.to_int(self.number(item.expr), type_))
        if value is None:
            raise Refusal("a case that is not constant", place_of(item))
        return value

    def case_items(self, item, values, type_):
        """The statements of a case; cases that stand directly in it join its values."""
        inside = list(item.stmts or [])
        while len(inside) == 1 and isinstance(inside[0], (c_ast.Case, c_ast.Default)):
            values.append(self.case_value(inside[0], type_))
            inside = list(inside[0].stmts or [])
        return inside

    def do_Case(self, node, _out):
        raise Refusal("a case inside a block of its switch", place_of(node), "put it directly into the switch")

    do_Default = do_Case

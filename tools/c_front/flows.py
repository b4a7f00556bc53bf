"""Which pointers may leave their function: their objects live in the heap; all others in a region of the function.

An item is (symbol, "content"), what a pointer variable leads to, or (symbol, "place"), the variable or object itself."""
from . import c_types as t
from .tree import PURE_CALLS, Stmt, expressions, has_effect, statements, walk


# The C library functions that keep a pointer passed as first argument, or store it elsewhere.
KEPT_FIRST = ("sprintf", "snprintf", "sscanf", "strtok", "strtol", "strtoul", "strtoll", "strtoull", "qsort", "realloc")


def is_local(symbol):
    return symbol.scope in ("local", "parameter")


def sources(node):
    """The items in whose regions the object that a pointer or an aggregate expression leads to may lie; the heap has none."""
    op = node.op
    if op in ("var", "compound"):
        if not is_local(node.v) or t.is_tag(node.type):
            return set()
        return {(node.v, "place" if t.is_aggregate(node.type) else "content")}
    if op == "addr":
        return address_sources(node.a[0])
    if op in ("index", "deref"):
        return sources(node.a[0]) if t.is_aggregate(node.type) else set()
    if op in ("decay", "padd", "pcast", "recast", "pstep"):
        return sources(node.a[0])
    if op == "assign":
        return sources(node.a[0]) | sources(node.a[1])
    if op == "cond":
        return sources(node.a[1]) | sources(node.a[2])
    if op == "comma":
        return sources(node.a[-1])
    if op == "lib" and node.a and isinstance(node.type, t.Ptr) and isinstance(node.a[0].type, t.Ptr):
        return sources(node.a[0])
    return set()


def has_kept_part(node, whole):
    """Whether a pointer is in a variable of the translation's own while what is assigned is evaluated: that variable names a region.

    A `c ? a : b` is not where the assignment is a `whole` statement, which becomes an `if`."""
    parts = walk(node)
    if node.op == "cond" and whole:
        parts = (part for branch in node.a[1:] for part in walk(branch))
    return any(t.is_object_pointer(part.type) and (part.op in ("cond", "comma", "assign") or part.op == "lib" and part.v not in PURE_CALLS)
               for part in parts)


def address_sources(place):
    if place.op in ("var", "compound"):
        return {(place.v, "place")} if is_local(place.v) else set()
    if place.op == "index":
        return sources(place.a[0])
    if place.op == "field":
        return set() if t.is_aggregate(place.type) else sources(place.a[0])
    return set()


class Flows:
    """The flow of pointers in a whole program."""

    def __init__(self, program):
        self.edges = {}
        self.heap = set()
        self.stored = set()
        self.program = program
        self.into = {}
        self.kept = {}
        self.kept_inside = set()

    def run(self, in_heap=frozenset()):
        """Decides for each object; of the functions that `in_heap` names, of all where it is True, all objects live in the heap."""
        for function in self.program.functions:
            if function.body is not None:
                self.function(function)
        for symbol in self.program.symbols:
            self.forced(symbol, in_heap is True or symbol.owner is not None and symbol.owner.name in in_heap)
        self.spread()
        for symbol, what in self.heap:
            if what == "content" or t.is_aggregate(symbol.type):
                symbol.heap = True
            else:
                symbol.cell = True
        for symbol in self.program.symbols:
            self.settle(symbol)

    def forced(self, symbol, all_heap):
        """What has to lead to the heap by its own form."""
        if not is_local(symbol):
            return
        if isinstance(symbol.type, t.Ptr) and not t.is_tag(symbol.type):
            target = symbol.type.leads_to()
            handles = isinstance(target, t.Array) or isinstance(target, t.Struct) and symbol.type.fat
            moved = handles and (symbol.scope == "local" or symbol.assigned)
            called = symbol.scope == "parameter" and symbol.owner.address
            if symbol.address or moved or called or all_heap:
                self.heap.add((symbol, "content"))
        if all_heap and (symbol.address or t.is_aggregate(symbol.type)):
            self.heap.add((symbol, "place"))

    def spread(self):
        """Whatever flows to what is in the heap is in the heap."""
        work = list(self.heap)
        while work:
            item = work.pop()
            for source in self.edges.get(item, ()):
                if source not in self.heap:
                    self.heap.add(source)
                    work.append(source)

    def settle(self, symbol):
        """A parameter that gets what lives shorter, or a value by way of a variable of the translation's own, becomes a local.

        A variable whose address is kept is declared for the function."""
        if symbol.scope == "parameter" and not symbol.heap:
            others = self.into.get((symbol, "content"), set()) - {(symbol, "content")}
            symbol.shadow = any(s not in self.heap for s in others | self.kept.get(symbol, set()))
        kept = (symbol, "place") in self.stored or (symbol, "place") in self.kept_inside and not symbol.cell
        if kept and not t.is_aggregate(symbol.type):
            symbol.hoisted = symbol.scope == "local"

    # Gathering

    def flow(self, source_items, target):
        self.edges.setdefault(target, set()).update(source_items)

    def sink(self, node):
        if t.is_object_pointer(node.type):
            self.heap.update(sources(node))

    def stores(self, symbol, node, whole):
        """A pointer is assigned to a variable, in a whole statement or inside an expression."""
        found = sources(node)
        self.stored.update(found)
        if is_local(symbol):
            self.flow(found, (symbol, "content"))
            self.into.setdefault((symbol, "content"), set()).update(found)
            if has_kept_part(node, whole):
                self.kept.setdefault(symbol, set()).update(found)
        else:
            self.heap.update(found)

    def function(self, function):
        for stmt in statements(function.body):
            if stmt.kind == "decl":
                self.declaration(stmt)
            elif stmt.kind == "return" and stmt.e is not None:
                self.sink(stmt.e)
        for expression in expressions(function.body):
            for node in walk(expression):
                self.node(node, node is expression)

    def declaration(self, stmt: Stmt):
        for path, node in stmt.inits or []:
            if not t.is_object_pointer(node.type):
                continue
            if path == ():
                self.stores(stmt.symbol, node, True)
            else:
                self.sink(node)

    def node(self, node, whole):
        if node.op == "lib" and not node.v.endswith("scanf"):
            for arg in node.a:
                self.kept_inside.update(sources(arg))
        elif t.is_object_pointer(node.type) and (node.op == "cond" or has_effect(node)):
            self.kept_inside.update(sources(node))
        if node.op == "assign" and t.is_object_pointer(node.type):
            if node.a[0].op == "var":
                self.stores(node.a[0].v, node.a[1], whole)
            else:
                self.sink(node.a[1])
        elif node.op == "call":
            self.call(node)
        elif node.op == "icall":
            for arg in node.a[1:]:
                self.sink(arg)
        elif node.op == "compound":
            for value in node.a:
                self.sink(value)
        elif node.op == "lib" and node.extra == "computed":
            self.sink(node.a[0 if node.v == "printf" else 1])
        elif node.op == "lib" and node.v == "bsearch":
            for arg in node.a[:2]:
                self.sink(arg)
        elif node.op == "lib" and node.v in KEPT_FIRST:
            for arg in node.a[:1]:
                self.sink(arg)

    def call(self, node):
        params = getattr(node.v, "params", None)
        if params is None:
            for arg in node.a:
                self.sink(arg)
            return
        for param, arg in zip(params, node.a):
            if t.is_object_pointer(arg.type):
                self.flow(sources(arg), (param, "content"))


def settle_kinds(program):
    """Makes fat what is compared and may lead past the last element, and notes the structs that are arrays of one.

    Memory whose type nothing tells is bytes."""
    nodes = [node for function in program.functions for e in expressions(function.body) for node in walk(e)]
    for node in nodes:
        if node.op == "lib" and node.v in ("malloc", "calloc", "realloc") and node.type.leads_to() is None:
            t.unify(node.type, t.Ptr(t.CHAR, fat=True), node.place)
    for root in {node.type.node.root() for node in nodes if isinstance(node.type, t.Ptr)}:
        if root.inside and root.compared:
            root.fat = True
    for function in program.functions:
        for expression in expressions(function.body):
            mark_single(expression)
    for symbol in program.globals:
        for _, node in symbol.inits or []:
            mark_single(node)


def mark_single(expression):
    for node in walk(expression):
        if node.op == "addr" and isinstance(node.a[0].type, t.Struct) and node.type.fat and node.a[0].op in ("var", "compound"):
            node.a[0].v.single = True

"""`goto` into a block: a variable says that a jump goes there, and what stands on the way to the label asks it.

After each label stands a statement `entry` meanwhile. The jump sets the variable and goes to a label before the outermost of the blocks
round the entry; there the conditions on the way hold if it is set, and what stands before the entry is left out."""
from . import c_types as t
from .faults import Refusal
from .jumps import gotos, resolve_jumps
from .tree import Node, Stmt, statements


class Entering:
    """Resolves the jumps into blocks of one function; `new_flag` makes a variable of it."""

    def __init__(self, body, new_flag, label_class):
        self.body = body
        self.new_flag = new_flag
        self.label_class = label_class
        self.flag = None

    def run(self):
        """Resolves one label after another, until no jump is left or one leads to no label."""
        while True:
            jump = next((s for s in statements(self.body) if s.kind == "goto"), None)
            if jump is None:
                break
            self.resolve(jump)
        remove_entries(self.body)

    def resolve(self, jump):
        way = way_to(self.body, jump.label)
        if way is None:
            raise Refusal(f"goto {jump.label}: there is no such label", jump.place, "write the label")
        jumps = gotos(self.body, jump.label)
        start = max(at for at, (stmts, _, _) in enumerate(way) if len(gotos(stmts, jump.label)) == len(jumps))
        if start == len(way) - 1:
            last, at, _ = way[-1]
            last[:] = resolve_jumps(last[:at] + [Stmt("label", jump.place, label=jump.label)] + last[at + 1:], self.label_class)
            return
        self.flag = self.new_flag(jump.label, jump.place)
        target = f"into {jump.label}"
        for stmt in jumps:
            stmt.kind, stmt.body = "block", [self.set(1, stmt.place), Stmt("goto", stmt.place, label=target)]
            stmt.label = None
        stmts, at, _ = way[start]
        self.open(way[start:])
        stmts[:] = resolve_jumps(stmts[:at] + [Stmt("label", jump.place, label=target)] + stmts[at:], self.label_class)

    def open(self, way):
        """Lets the flag lead through each block of the way; the last step of it is the label itself."""
        last, at, _ = way[-1]
        last[at] = self.set(0, last[at].place)
        for stmts, outer_at, part in way[:-1]:
            self.enter(stmts[outer_at], part)
        for inside, inner_at, _ in way[1:]:
            self.skip(inside, inner_at)

    def enter(self, stmt, part):
        """Changes what a statement asks, so that a jump comes to one of its parts."""
        if stmt.kind == "if" and part == "other":
            stmt.e = Node("and", t.INT, [Node("not", t.INT, [self.read(stmt.place)], place=stmt.place), stmt.e], place=stmt.place)
        elif stmt.kind == "if" or stmt.kind == "while" and stmt.e is not None and not (stmt.e.op == "num" and stmt.e.v):
            stmt.e = Node("or", t.INT, [self.read(stmt.place), stmt.e], place=stmt.place)
        elif stmt.kind == "switch":
            value = Node("num", stmt.e.type, v=value_of(stmt.body, part), place=stmt.place)
            stmt.e = Node("cond", stmt.e.type, [self.read(stmt.place), value, stmt.e], place=stmt.place)

    def skip(self, stmts, at):
        """Leaves out what stands before the way goes on; its variables are those of the function."""
        before = stmts[:at]
        for stmt in before:
            if stmt.kind == "decl":
                stmt.symbol.hoisted = True
        if any(stmt.kind != "decl" or stmt.inits is not None for stmt in before):
            test = Node("not", t.INT, [self.read(before[0].place)], place=before[0].place)
            stmts[:at] = [Stmt("if", before[0].place, test, before, [])]

    def read(self, place):
        return Node("var", t.INT, v=self.flag, place=place)

    def set(self, value, place):
        return Stmt("expr", place, Node("assign", t.INT, [self.read(place), Node("num", t.INT, v=value, place=place)], place=place))


def remove_entries(stmts):
    stmts[:] = [stmt for stmt in stmts if stmt.kind != "entry"]
    for stmt in stmts:
        for _, inside in parts(stmt):
            remove_entries(inside)


def way_to(stmts, name):
    """The steps to the label of a name: the list, the number in it, and in which part of that statement the next list lies."""
    for at, stmt in enumerate(stmts):
        if stmt.kind == "entry" and stmt.label == name:
            return [(stmts, at, None)]
        for part, inside in parts(stmt):
            found = way_to(inside, name)
            if found is not None:
                return [(stmts, at, part)] + found
    return None


def parts(stmt):
    """The lists inside a statement, each with its name; a group of a switch is one of them."""
    if stmt.kind == "switch":
        return [(group, group.body) for group in stmt.body]
    return [(name, inside) for name, inside in (("body", stmt.body), ("other", stmt.other)) if isinstance(inside, list)]


def value_of(groups, group):
    """A value that leads a switch to a group: one of its own, or for the default one that no other group has."""
    own = [value for value in group.label if value is not None]
    if own:
        return own[0]
    taken = {value for other in groups for value in other.label}
    return next(value for value in range(len(taken) + 1) if value not in taken)

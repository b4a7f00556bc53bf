"""Variables that are read before anything could have given them a value."""
from . import c_types as t
from .faults import Refusal
from .tree import expressions, walk

LOOPS = ("while", "do")


def refuse_unset(program):
    """Adds a refusal for the first variable of each function that is read where no assignment to it can have come before."""
    for function in program.functions:
        if function.body is not None:
            found = first_unset(function.body)
            if found:
                program.refuse(found, function.place, function)


def first_unset(body):
    state = {"declared": set(), "set": set(), "found": None, "loops": 0}
    walk_statements(body, state)
    return state["found"]


def walk_statements(stmts, state):
    for stmt in stmts or []:
        if state["found"]:
            return
        if stmt.kind == "decl":
            declare(stmt, state)
        looping = stmt.kind in LOOPS
        if looping:
            mark_assigned([stmt], state)
        if stmt.e is not None and stmt.kind != "do":
            look(stmt.e, state)
        walk_statements(stmt.body if isinstance(stmt.body, list) else [], state)
        walk_statements(stmt.other, state)
        walk_statements(stmt.next, state)
        if stmt.e is not None and stmt.kind == "do":
            look(stmt.e, state)


def declare(stmt, state):
    for _, node in stmt.inits or []:
        look(node, state)
    if not stmt.inits and not t.is_aggregate(stmt.symbol.type) and not stmt.symbol.address and stmt.symbol.scope == "local":
        state["declared"].add(stmt.symbol)
    state["set"].discard(stmt.symbol)


def mark_assigned(stmts, state):
    """In a loop an assignment further down may come before a use further up."""

    for expression in expressions(stmts):
        for node in walk(expression):
            if node.op in ("assign", "opassign", "pstep") and node.a[0].op == "var":
                state["set"].add(node.a[0].v)


def look(node, state):
    """Goes over an expression: what it assigns is set, what it reads has to be."""
    if node.op == "assign" and node.a[0].op == "var":
        look(node.a[1], state)
        state["set"].add(node.a[0].v)
        return
    if node.op == "var":
        symbol = node.v
        if symbol in state["declared"] and symbol not in state["set"] and not state["found"]:
            hint = f"give it one: {symbol.name} = 0, or --zero"
            state["found"] = Refusal(f"{symbol.name} is used and was never given a value", node.place, hint)
        return
    for operand in node.a:
        look(operand, state)
    if node.op in ("opassign", "pstep") and node.a[0].op == "var":
        state["set"].add(node.a[0].v)

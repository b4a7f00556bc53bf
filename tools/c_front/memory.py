"""What malloc and free show before a run: memory that is freed twice in a row, or never."""
from .faults import Refusal
from .tree import expressions, statements, walk

MAKERS = ("malloc", "calloc", "realloc", "strdup")


def freed_variable(stmt):
    """The variable that a statement frees; None where it frees none."""
    node = stmt.e if stmt.kind == "expr" else None
    while node is not None and node.op == "void":
        node = node.a[0]
    if node is not None and node.op == "lib" and node.v == "free" and node.a[0].op == "var":
        return node.a[0].v
    return None


def touched(stmts):
    """The variables that statements assign, or whose address they take."""
    found = set()
    for stmt in statements(stmts):
        if stmt.kind in ("label", "decl"):
            found.add(stmt.symbol)
    for expression in expressions(stmts):
        for node in walk(expression):
            if node.op in ("assign", "opassign", "pstep", "addr") and node.a[0].op == "var":
                found.add(node.a[0].v)
    return found


def refuse_double_free(program):
    """Adds a refusal for a variable that two statements of one block free, with no assignment between."""
    for function in program.functions:
        for block in blocks(function.body):
            for symbol, place in freed_twice(block):
                refusal = Refusal(f"{symbol.name} is freed twice", place, "assign it before, or free it once")
                program.refuse(refusal, place, function)


def freed_twice(block):
    """The variables that a block frees twice, each with the place of the second time."""
    freed, found = set(), []
    for stmt in block:
        symbol = freed_variable(stmt)
        if symbol in freed:
            found.append((symbol, stmt.e.place))
        elif symbol is not None and symbol.scope in ("local", "parameter"):
            freed.add(symbol)
        else:
            freed -= touched([stmt])
    return found


def blocks(stmts):
    """A list of statements, and all lists inside it."""
    if not stmts:
        return
    yield stmts
    for stmt in stmts:
        for part in (stmt.body, stmt.other):
            if isinstance(part, list):
                yield from blocks(part)


def warn_of_leaks(program, warnings):
    """Warns of a local that gets memory which nothing frees, returns, stores or passes on."""
    for function in program.functions:
        if function.body is None:
            continue
        made, kept = {}, set()
        for stmt in statements(function.body):
            for _, node in stmt.inits or []:
                note(stmt.symbol, node, made, kept)
            if stmt.kind == "return" and stmt.e is not None:
                kept |= variables(stmt.e)
        for expression in expressions(function.body):
            for node in walk(expression):
                look(node, made, kept)
        for symbol, place in made.items():
            if symbol not in kept:
                warnings.add(f"the memory of {symbol.name} is never freed", place, f"free({symbol.name}) where it is no longer used")


def plain(node):
    while node.op in ("pcast", "recast"):
        node = node.a[0]
    return node


def variables(node):
    node = plain(node)
    return {node.v} if node.op == "var" else set().union(*[variables(a) for a in node.a if node.op in ("padd", "cond", "comma")])


def note(symbol, node, made, kept):
    """An initial value or an assignment to a local."""
    inside = plain(node)
    if inside.op == "lib" and inside.v in MAKERS and symbol is not None and symbol.scope == "local":
        made.setdefault(symbol, inside.place)
    kept |= variables(node)


def look(node, made, kept):
    if node.op == "assign":
        note(node.a[0].v if node.a[0].op == "var" else None, node.a[1], made, kept)
    elif node.op in ("call", "icall", "addr") or node.op == "lib" and node.v in ("free", "realloc"):
        for operand in node.a:
            kept |= variables(operand)

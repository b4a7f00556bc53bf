"""`goto`: a jump forward leaves a block with a name, and one backward begins a turn of a loop."""
from .tree import Stmt, statements


def gotos(stmts, name):
    return [s for s in statements(stmts) if s.kind == "goto" and s.label == name]


def resolve_jumps(stmts, label_class):
    """The statements of one block with the jumps to its labels resolved; jumps to labels elsewhere stay as they are."""
    at = next((i for i, s in enumerate(stmts) if s.kind == "label" and gotos(stmts[i:], s.label)), None)
    if at is None:
        return forward(stmts, label_class)
    name = stmts[at].label
    loop = label_class("loop")
    for jump in gotos(stmts[at:], name):
        jump.kind, jump.label = "continue", loop
    place = stmts[at].place
    body = resolve_jumps(stmts[at + 1:], label_class)
    body.append(Stmt("break", place, label=loop))
    before = stmts[:at] + [Stmt("label", place, label=name)]
    return forward(before, label_class) + [Stmt("while", place, None, body, label=loop, next_=[])]


def forward(stmts, label_class):
    """Resolves the jumps to labels further down in the block."""
    at = next((i for i in range(len(stmts) - 1, -1, -1) if stmts[i].kind == "label"), None)
    if at is None:
        return stmts
    name = stmts[at].label
    before, after = stmts[:at], stmts[at + 1:]
    jumps = gotos(before, name)
    if jumps:
        label = label_class("block")
        for jump in jumps:
            jump.kind, jump.label = "break", label
        inside = forward(before, label_class)
        hoist(inside)
        return [Stmt("labeled", stmts[at].place, body=inside, label=label)] + after
    return forward(before, label_class) + after


def hoist(stmts):
    """Declares the variables of a block where the whole function sees them."""
    for stmt in stmts:
        if stmt.kind == "decl":
            stmt.symbol.hoisted = True
        elif stmt.kind in ("labeled", "while") and stmt.body:
            hoist(stmt.body)

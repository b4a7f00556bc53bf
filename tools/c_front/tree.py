"""The typed tree: expressions and statements with their types, before anything is written."""

PURE_CALLS = {"strlen", "strcmp", "strncmp", "strchr", "strrchr", "strstr", "abs", "labs", "atoi", "toupper", "tolower", "memcmp"}


class Symbol:
    """A variable, a parameter or a function of the C program."""

    def __init__(self, name, type_, place, scope):
        self.name = name            # in C
        self.text = name            # in the translation
        self.type = type_
        self.place = place
        self.scope = scope          # "local", "parameter", "global" or "function"
        self.heap = False           # what it points to, or it itself if it is an object, lives in the heap
        self.address = False        # its address is taken
        self.cell = False           # a variable that lives in the heap, as one word behind a pointer
        self.assigned = False
        self.shadow = False         # a parameter that is copied to a local pointer of its own region
        self.single = False         # a struct that is an array of one
        self.hoisted = False
        self.body = None
        self.defined = False
        self.tag = 0                # the number that stands for a function
        self.sources = set()
        self.inits = None
        self.uses = 0
        self.owner = None           # the function that declares it

    def __repr__(self):
        return f"<{self.scope} {self.name}>"


class Node:
    """An expression: an operation, its type, its operands, and a value that the operation explains."""
    __slots__ = ("op", "type", "a", "v", "place", "extra")

    def __init__(self, op, type_, a=(), v=None, place=None, extra=None):
        self.op = op
        self.type = type_
        self.a = list(a)
        self.v = v
        self.place = place
        self.extra = extra

    def __repr__(self):
        return f"({self.op} {self.v if self.v is not None else ''} {' '.join(map(repr, self.a))})"


class Stmt:
    """A statement; `kind` says which of the fields are used."""
    __slots__ = ("kind", "place", "e", "body", "other", "label", "symbol", "next", "inits", "end")

    def __init__(self, kind, place, e=None, body=None, other=None, label=None, symbol=None, next_=None, inits=None):
        self.kind = kind
        self.place = place
        self.e = e
        self.body = body
        self.other = other
        self.label = label
        self.symbol = symbol
        self.next = next_
        self.inits = inits
        self.end = None

    def __repr__(self):
        return f"<{self.kind} {self.label or ''} {self.e or ''} {self.body or ''} {self.other or ''}>"


def walk(node):
    """All nodes of an expression, the node itself first."""
    yield node
    for operand in node.a:
        if isinstance(operand, Node):
            yield from walk(operand)


def has_effect(node):
    """Whether the evaluation of a node changes or reads more than variables."""
    for inner in walk(node):
        if inner.op in ("assign", "opassign", "pstep", "call", "icall", "compound"):
            return True
        if inner.op == "lib" and inner.v not in PURE_CALLS and not inner.v.startswith("is"):
            return True
    return False


def statements(stmts):
    """All statements of a list, with those inside them."""
    for stmt in stmts or []:
        yield stmt
        for part in (stmt.body, stmt.other, stmt.next):
            if isinstance(part, list):
                yield from statements(part)


def expressions(stmts):
    """The topmost expressions of all statements of a list."""
    for stmt in statements(stmts):
        if stmt.e is not None:
            yield stmt.e
        for _, e in stmt.inits or []:
            yield e

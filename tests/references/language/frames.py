"""The words of a function's frame, which the limit of frames speaks of: they are counted on the tree alone."""
from .types import NOTHING, NULL, is_fat

# The counts of machine words that a stack frame holds for itself, for a `try`, for an address, and for an array `for`
# (besides the array's element).
FRAME_ITSELF = 24
TRY_WORDS = 6
PLACE_WORDS = 3
ARRAY_WORDS = 4
# The number of machine words in a frame for a lexical region's handle, and for the handle of a
# region opened by a key.
LEXICAL_WORDS, HANDLE_WORDS = 2, 1


def words(type):
    if type == NOTHING:
        return 0
    return 3 if type != NULL and is_fat(type) else 1


def together(operands, own):
    """The need of an expression by its operands, each with its words and its need, and its own words."""
    most = before = 0
    for size, need in operands:
        most = max(most, before + need)
        before += size
    return max(most, before + own)


def plain(node):
    return words(node.type), need(node)


def converted(node):
    """A converted operand counts the more of its words before and after."""
    return max(words(node.type), words(node.wanted)), need(node)


def place(node):
    """A place as an operand."""
    if node.kind == "variable":
        return PLACE_WORDS, PLACE_WORDS
    return PLACE_WORDS, together(operands_of(node), PLACE_WORDS)


def operands_of(node):
    """The operands of an expression with their words and their needs, in the order in which they are evaluated."""
    if node.kind in ("unary", "char", "target", "numelts", "ufree"):
        return [plain(node.operand)]
    if node.kind == "binary":
        return [plain(node.left), plain(node.right)]
    if node.kind == "member":
        return [plain(node.base)]
    if node.kind == "element":
        return [plain(node.base), plain(node.index)]
    if node.kind == "address":
        return [place(node.operand)]
    if node.kind == "assign":
        return [place(node.target), converted(node.value)]
    if node.kind == "call":
        return [converted(argument) for argument in node.arguments]
    return [(1, 1)] if node.kind == "free_ukey" else []


def need(node):
    """The most words that the values of an expression take at one time."""
    if node.kind == "new":
        return need_of_new(node)
    return together(operands_of(node), words(node.type))


def need_of_new(node):
    handle, initial = [], node.initial
    if node.handle:
        handle = [(1, 1) if node.handle.kind == "unique_region" else plain(node.handle)]
    if initial.kind == "plain":
        return together(handle + [plain(initial.value)], words(node.type))
    if initial.kind == "fields":
        return together(handle + [converted(value) for value in initial.values], words(node.type))
    kept = [(ARRAY_WORDS, ARRAY_WORDS), plain(initial.element)]
    return max(together(handle + [plain(initial.length)], 0), together(handle + kept, words(node.type)))


def expressions_of(item):
    """The expressions that stand in a statement, each with all its operands."""
    for part in (getattr(item, "value", None), getattr(item, "condition", None)):
        if part and item.kind != "case":
            yield part
    for inner in inner_items(item):
        yield from expressions_of(inner)


def inner_items(item):
    parts = getattr(item, "items", []) + getattr(item, "clauses", [])
    return parts + [part for part in (getattr(item, "body", None), getattr(item, "other", None)) if part]


def kept_words(item):
    """The words of what a statement declares, and of the `try`s in it."""
    own = {"try": TRY_WORDS, "region": LEXICAL_WORDS, "open": HANDLE_WORDS}.get(item.kind, 0)
    if item.kind in ("local", "alias", "key"):
        own = words(item.type)
    if item.kind == "case" and item.value:
        own = 1
    return own + sum(kept_words(inner) for inner in inner_items(item))


def need_of_swap(item):
    return together([place(item.left), place(item.right)], 0)


def swaps_of(item):
    if item.kind == "swap":
        yield item
    for inner in inner_items(item):
        yield from swaps_of(inner)


def frame_words(function):
    """The words of a function's frame."""
    declared = sum(words(parameter.type) for parameter in function.parameters) + kept_words(function.body)
    needs = [need(part) for part in expressions_of(function.body)] + [need_of_swap(swap) for swap in swaps_of(function.body)]
    return FRAME_ITSELF + declared + max(needs, default=0)

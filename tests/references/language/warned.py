"""What an accepted text is warned of, read a second time: over the tree as the rules of types leave it, where each name is the variable
that it stands for and each expression has its type."""
import re

from .texts import LEVEL_OF, Node
from .types import CHAR, is_fat, is_unique

COMPARISONS = ("==", "!=", "<", "<=", ">", ">=")
ORDERS = ("<", "<=", ">", ">=")
EFFECTS = ("call", "assign", "new", "ufree", "free_ukey")
# What declares a name in a block, and what a condition may consist of that only an assignment to its locals changes.
DECLARED = ("local", "region", "open", "alias", "key")
STEADY = ("variable", "number", "null", "unary", "binary", "numelts", "char")
LEAVES = ("return", "break", "throw")
WIDTH = 32
# Characters beyond ASCII that a reader cannot see: control characters, direction marks and embeddings, zero-width characters, line
# separators, the byte-order mark, tags.
HIDDEN = re.compile("[\x80-\x9f\u061c\u200b-\u200f\u2028-\u202e\u2060-\u206f\ufeff\U000e0000-\U000e007f]")
# The ints at both ends; what each comparison says of an int; and how it reads from its right operand.
LEAST, MOST = -(2**31), 2**31 - 1
HOLDS = {"==": lambda x, c: x == c, "!=": lambda x, c: x != c, "<": lambda x, c: x < c, "<=": lambda x, c: x <= c,
         ">": lambda x, c: x > c, ">=": lambda x, c: x >= c}
TURNED = {"==": "==", "!=": "!=", "<": ">", "<=": ">=", ">": "<", ">=": "<="}
# The numbers of chars, fat pointers and other elements that occupy 1,000 machine words.
CHARS_AT_MOST, FATS_AT_MOST, CELLS_AT_MOST = 4000, 333, 1000


def parts_of(node):
    """The parts of a node that are nodes."""
    for name, part in vars(node).items():
        if name in ("type", "variable", "wanted"):
            continue
        for one in part if isinstance(part, (list, tuple)) else [part]:
            if isinstance(one, Node):
                yield one


def all_of(node):
    yield node
    for part in parts_of(node):
        yield from all_of(part)


def is_bracketed(node):
    return hasattr(node, "is_bracketed")


def signed(value):
    return (value + 2**31) % 2**32 - 2**31


def constant(node):
    """The value of constants, as an int; None where a run says it, or where it is a quotient of what is negative."""
    if node.kind == "number":
        return node.value
    if node.kind == "unary":
        value = constant(node.operand)
        return None if value is None else signed({"-": -value, "~": ~value, "!": int(value == 0)}[node.sign])
    if node.kind != "binary":
        return None
    left, right = constant(node.left), constant(node.right)
    if left is None or right is None:
        return None
    whole = {"+": lambda: left + right, "-": lambda: left - right, "*": lambda: left * right, "&": lambda: left & right,
             "|": lambda: left | right, "^": lambda: left ^ right, "<<": lambda: left << right % WIDTH}
    positive = {"/": lambda: left // right, "%": lambda: left % right}
    if node.sign in whole:
        return signed(whole[node.sign]())
    if node.sign == ">>" and left >= 0:
        return left >> right % WIDTH
    return positive[node.sign]() if node.sign in positive and left >= 0 and right > 0 else None


def chained(node):
    """The part of a chain that stands before its last operator, where one of the same level goes before it without brackets."""
    if node.kind == "binary":
        before = node.left if node.left.kind == "binary" and LEVEL_OF[node.left.sign] == LEVEL_OF[node.sign] else None
    else:
        before = node.base if node.kind in ("element", "member") and node.base.kind in ("element", "member") else None
    return None if before is None or is_bracketed(before) else before


def brackets_of(node):
    """How many pairs of brackets stand around an expression."""
    return getattr(node, "brackets", 0)


def are_same(one, other):
    """Whether two expressions are written with the same words, and neither call, assign, make nor free anything."""
    if one.kind != other.kind or one.kind in EFFECTS or brackets_of(one) != brackets_of(other) or words_of(one) != words_of(other):
        return False
    return all(are_same(*pair) for pair in zip(parts_of(one), parts_of(other)))


def words_of(node):
    """What an expression is written with beside its parts."""
    words = [getattr(node, word, None) for word in ("name", "sign", "field")] + [node.value if node.kind == "number" else None]
    return [getattr(word, "text", word) for word in words]


def is_truth(node):
    return node.kind == "binary" and node.sign in COMPARISONS + ("&&", "||") or node.kind == "unary" and node.sign == "!"


def with_constant(node):
    """What a comparison compares with a constant, the sign as it reads from there, and the constant; None for any other expression."""
    if node.kind != "binary" or node.sign not in COMPARISONS or chained(node):
        return None
    left, right = constant(node.left), constant(node.right)
    if (left is None) == (right is None):
        return None
    return (node.left, node.sign, right) if left is None else (node.right, TURNED[node.sign], left)


def never(answer, *compared):
    """Whether no int gives each of these comparisons with constants this answer: tried with each int that can matter."""
    near = {x + step for _, _, x in compared for step in (-1, 0, 1)} | {LEAST, MOST}
    return not any(all(HOLDS[sign](x, c) == answer for _, sign, c in compared) for x in near if LEAST <= x <= MOST)


def place_of(item):
    """Where an item of a block begins."""
    if item.kind in ("region", "open", "alias", "key"):
        return item.region.place
    if item.kind == "block" and item.label:
        return item.label.place
    return item.written.place if item.kind == "local" else item.value.start if item.kind == "expression" else item.place


def is_blank(node):
    return node.kind == "nothing" or node.kind == "block" and all(item.kind == "nothing" for item in node.items)


def ends_of(node, head=None):
    """The statements without braces at the end of an `if` or a loop, each with the one that it hangs on."""
    if node.kind not in ("if", "while"):
        return []
    if node.other and node.other.kind == "if":
        return ends_of(node.other, head or node)
    body = node.other or node.body
    return ([] if body.kind == "block" else [(head or node, body)]) + ends_of(body)


class Warned:
    """The places and the names of the warnings of one function, and the words that they name."""

    def __init__(self, function):
        self.found = []
        self.nodes = [node for item in function.body.items for node in all_of(item)]
        self.parents = {id(part): node for node in self.nodes for part in parts_of(node)}
        self.function = function
        for items in [function.body.items] + [node.items for node in self.nodes if hasattr(node, "items")]:
            self.order(items)
            self.indents(items)
        self.hides(function.body, {parameter.name for parameter in function.parameters})
        for node in self.nodes:
            getattr(self, "at_" + node.kind, lambda node: None)(node)
            if getattr(node, "wanted", None) == CHAR and constant(node) is not None and not 0 <= constant(node) <= 255:
                self.warn(node.start, "CharConstant")
        for node in function.parameters + [node for node in self.nodes if node.kind in ("local", "key")]:
            self.local(node)

    def warn(self, place, name, word=None):
        """Notes a warning, with the word that it names if it names one."""
        self.found.append((place, name, word))

    # Statements

    def leaves(self, node):
        if node.kind == "block":
            return bool(node.items) and self.leaves(node.items[-1])
        if node.kind == "if":
            return node.other is not None and self.leaves(node.body) and self.leaves(node.other)
        return node.kind in ("return", "break", "continue", "throw")

    def order(self, items):
        """The first item that stands behind one that leaves the block; semicolons do not count."""
        items = [item for item in items if item.kind != "nothing"]
        for before, item in zip(items, items[1:]):
            if self.leaves(before):
                self.warn(place_of(item), "Unreachable", "}" if before.kind == "block" else before.kind)
                return

    def indents(self, items):
        """Each item that is as deep as the end of the statement before it, though that hangs on an `if` or a loop and the item does not."""
        items = [item for item in items if item.kind != "nothing"]
        for before, item in zip(items, items[1:]):
            line, column = place_of(item)
            for head, body in ends_of(before):
                if head.place[1] < place_of(body)[1] == column and place_of(body)[0] < line:
                    self.warn((line, column), "MisleadingIndent", head.kind)
                    break

    def hides(self, node, names):
        """Each local of the name of another that is in scope; these are the names of those."""
        if node.kind == "local" and node.name in names:
            self.warn(node.place, "HidesLocal", node.name)
        if not hasattr(node, "items"):
            for part in parts_of(node):
                self.hides(part, names)
            return
        if getattr(node, "value", None):
            names = names | {node.value.name}
        for item in node.items:
            self.hides(item, names)
            names = names | ({item.name} if item.kind in DECLARED else set())

    def has_effect(self, node):
        return any(part.kind in EFFECTS for part in all_of(node))

    def at_if(self, node):
        if node.condition.kind == "assign" and not is_bracketed(node.condition):
            self.warn(node.place, "ConditionAssigns")
        if node.kind == "if" and node.body.kind == "nothing" and not node.other:
            self.warn(node.body.place, "EmptyIf")
        if node.kind == "while" and node.body.kind == "nothing" and not self.has_effect(node.condition):
            self.warn(node.body.place, "EmptyWhile")

        if node.kind == "if":
            self.at_else(node)

    def at_else(self, node):
        inner = node.body
        while inner.kind == "while":
            inner = inner.body
        if not node.other and inner.kind == "if" and inner.other:
            self.warn(inner.place, "DanglingElse")
        later = node.other
        while later and later.kind == "if" and not are_same(node.condition, later.condition) and not self.has_effect(later.condition):
            later = later.other
        if later and later.kind == "if" and are_same(node.condition, later.condition):
            self.warn(later.condition.start, "SameCondition")

    def at_while(self, node):
        self.at_if(node)
        parts = list(all_of(node.condition))
        mine = {id(part.variable) for part in parts if part.kind == "variable"}
        is_steady = all(part.kind in STEADY and not self.is_double(part) for part in parts)
        is_steady = is_steady and all(part.variable.sort != "global" for part in parts if part.kind == "variable")
        if is_blank(node.body) or not mine or not is_steady or any(part.kind in LEAVES for part in all_of(node.body)):
            return
        inside = {id(part) for part in all_of(node.body)}
        others = [other for other in self.nodes if other.kind == "variable" and id(other.variable) in mine]
        uses = [self.use(other) for other in others if id(other) in inside or self.use(other) == "taken"]
        if not {"taken", "assigned", "assigned and used"} & set(uses):
            self.warn(node.place, "UnchangedCondition")

    def at_assign(self, node):
        if are_same(node.target, node.value):
            self.warn(node.target.start, "SelfAssigned")

    def at_expression(self, node):
        value = node.value
        may_throw = value.kind in ("target", "member", "element") or value.kind == "binary" and value.sign in "/%"
        is_lost = value.kind in ("unary", "address", "numelts", "char") or value.kind == "binary" and value.sign not in ("&&", "||")
        if not may_throw and not self.is_double(value) and (is_lost or not self.has_effect(value)):
            self.warn(value.start, "NoEffect")

    # Expressions

    def begins_with_minus(self, node):
        """The place of the minus that an operand begins with."""
        while node.kind == "binary" and not is_bracketed(node):
            node = node.left
        return node.place if node.kind == "unary" and node.sign == "-" and not is_bracketed(node) else None

    def is_double(self, node):
        """Whether two minus signs of their own stand together."""
        if node.kind != "unary" or node.sign != "-" or is_bracketed(node.operand):
            return False
        second = node.operand
        return second.kind == "unary" and second.sign == "-" and second.place == (node.place[0], node.place[1] + 1)

    def at_unary(self, node):
        if self.is_double(node):
            self.warn(node.place, "DoubleMinus")

    def at_binary(self, node):
        left, right, sign = node.left, node.right, node.sign
        count = constant(right)
        if sign in ("<<", ">>") and count is not None and not 0 <= count < WIDTH:
            self.warn(node.at, "ShiftCount")
        if sign in ("/", "%") and count == 0:
            self.warn(node.at, "DivisionByZero")
        if sign in ORDERS and left.kind == "binary" and left.sign in ORDERS and not is_bracketed(left):
            self.warn(node.at, "OrderChain")
        if sign in COMPARISONS:
            for one, other in ((left, right), (right, left)):
                value = constant(other)
                if one.type == CHAR and value is not None and not 0 <= value <= 255:
                    self.warn(node.at, "CharCompared")
        second = self.begins_with_minus(right)
        if sign == "-" and second == (node.at[0], node.at[1] + 1):
            first = right
            while first.kind == "binary":
                first = first.left
            if first.operand.kind != "unary" or first.operand.sign != "-" or is_bracketed(first.operand):
                self.warn(node.at, "AddedMinus")
        if sign in ("&", "|", "^"):
            self.bits(node)
        if sign in COMPARISONS and not chained(node):
            self.compared(node)
        if sign in ("<<", ">>") and right.kind == "binary" and not is_bracketed(right) and count is None:
            first = right
            while chained(first):
                first = chained(first)
            if first.sign == "+" and constant(first.left) in range(WIDTH):
                self.warn(node.at, "ShiftOfSum")
        if sign in ("&&", "||"):
            before = chained(node)
            both = with_constant(before.right if before else left), with_constant(right)
            if all(both) and are_same(both[0][0], both[1][0]) and never(sign == "&&", *both):
                self.warn(node.at, "NeverBoth" if sign == "&&" else "AlwaysOne")
        for operand in (left, right) if sign in ("&&", "||") else ():
            if constant(operand) not in (None, 0, 1):
                self.warn(operand.start, "ConstantOperand")

    def compared(self, node):
        left, right = node.left, node.right
        if are_same(left, right) and constant(left) is None:
            self.warn(node.at, "SelfCompared")
        is_negated = left.kind == "unary" and left.sign == "!" and not is_bracketed(left)
        if is_negated and not is_truth(right) and constant(right) not in (0, 1):
            self.warn(left.place, "NotCompared")

    def bits(self, node):
        """A chain of one of the signs of bits, once, at its last operator."""
        above = self.parents[id(node)]
        if above.kind == "binary" and above.sign == node.sign and above.left is node and not is_bracketed(node):
            return
        operands, signs = [], []
        while node.kind == "binary" and node.sign == (signs[0][0] if signs else node.sign) and not (signs and is_bracketed(node)):
            operands.insert(0, node.right)
            signs.insert(0, (node.sign, node.at))
            node = node.left
        operands.insert(0, node)
        compared = [operand.kind == "binary" and operand.sign in COMPARISONS and not is_bracketed(operand) for operand in operands]
        if any(compared) and not all(is_truth(operand) for operand in operands):
            last = max(number for number, is_compared in enumerate(compared) if is_compared)
            self.warn(signs[max(last, 1) - 1][1], "ComparedFirst")

    def at_array(self, node):
        length, type = constant(node.length), node.element.type
        most = CHARS_AT_MOST if type == CHAR else FATS_AT_MOST if is_fat(type) else CELLS_AT_MOST
        if length is not None and not 0 <= length <= most:
            self.warn(node.place, "ArraySize")

    # Locals

    def local(self, node):
        """What becomes of a local, by each place where its name stands."""
        mine = [other for other in self.nodes if other.kind == "variable" and other.variable is node.variable]
        uses = [self.use(other) for other in mine]
        values = [node.value] if getattr(node, "value", None) else []
        values += [self.parents[id(other)].value for other in mine if self.use(other) in ("assigned", "assigned and used")]
        is_parameter = node in self.function.parameters
        if not hasattr(node, "written") and node.kind != "key":
            return
        is_key = node.type[0] == "key"
        is_filled = is_parameter or node.kind == "key" or any(value.kind != "null" for value in values)
        if (is_key or is_unique(node.type)) and is_filled and not {"moved", "taken"} & set(uses):
            self.warn(node.place, "KeyNeverFreed" if is_key else "NeverGivenBack", node.name)
        elif node.kind == "local" and not is_parameter and not set(uses) - {"assigned"}:
            self.warn(node.place, "NeverRead", node.name)
        if not {"assigned", "assigned and used", "taken"} & set(uses):
            self.index(node, mine)

    def use(self, node):
        above = self.parents[id(node)]
        if above.kind == "assign" and above.target is node:
            return "assigned" if self.parents[id(above)].kind == "expression" else "assigned and used"
        if above.kind in ("swap", "address"):
            return "taken"
        looks = ("target", "member", "numelts", "if", "while", "alias", "open")
        is_seen = above.kind in looks or above.kind == "element" and above.base is node or above.kind == "unary" and above.sign == "!" \
            or above.kind == "binary" and above.sign in ("==", "!=", "&&", "||")
        return "seen" if is_seen else "moved"

    def index(self, node, mine):
        """The indices of a local that keeps the array which it is declared with."""
        value = getattr(node, "value", None)
        if not value or value.kind != "new" or value.initial.kind != "array" or constant(value.initial.length) is None:
            return
        for other in mine:
            above = self.parents[id(other)]
            if above.kind == "element" and above.base is other and not is_bracketed(other):
                number, length = constant(above.index), constant(value.initial.length)
                if number is not None and not 0 <= number < length % 2**32:
                    self.warn(above.index.start, "IndexOutside")


def hidden_in(text):
    """The first character of a text, a string of its bytes, that is not seen: its place and the warning, if there is one."""
    for number, line in enumerate(text.split("\n"), 1):
        line = line.encode("latin-1").decode("utf-8", "surrogateescape")
        match = HIDDEN.search(line)
        if match:
            return [((number, len(line[:match.start()].encode("utf-8", "surrogateescape")) + 1), "HiddenCharacter", None)]
    return []


def of_globals(program):
    """The constants of globals that are chars."""
    return [(part.value.place, "CharConstant", None) for part in program.tree
            if part.kind == "global" and program.globals[part.name].type == CHAR and part.value and not 0 <= part.value.value <= 255]


def warnings_of(program, text):
    """What a program is warned of: the places, in order, the names, and the word that each names."""
    found = [found for function in program.functions.values() for found in Warned(function).found]
    return sorted(found + of_globals(program) + hidden_in(text))

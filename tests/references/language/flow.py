"""The rules of variables that are empty or locked, of loops that empty one, and of functions that return nothing at their end.

The state says of each variable how full it is, or is None where no run comes to. In a state that no run comes to no rule is broken.
"""
from .texts import Refused
from .types import is_owned, is_unique

EMPTY, LOCKED, FULL = 0, 1, 2


def met(one, other):
    """The state where two ways come together: each variable is as full as in the emptier one."""
    if one is None or other is None:
        return one if other is None else other
    return {variable: min(level, other[variable]) for variable, level in one.items() if variable in other}


class Loop:
    """A loop that is walked: its place, the state at its head, how many locks there are outside, and the states at its breaks."""

    def __init__(self, place, head, locks):
        self.place, self.head, self.locks, self.breaks = place, head, locks, []

    def hold(self, state):
        """Refuses a state in which a variable is emptier than at the head."""
        if state is not None and any(state[variable] < level for variable, level in self.head.items()):
            raise Refused(42, self.place)


class Expressions:
    """What expressions do to variables. A peek looks through a unique pointer, or at it, and leaves it where it is."""

    def look(self, node):
        """A use of any kind."""
        level = FULL if self.state is None else self.state.get(node.variable, FULL)
        if level != FULL:
            raise Refused(40 if level == EMPTY else 41, node.place)

    def hold_pending(self, node):
        if self.state is not None and node.variable in self.pending:
            raise Refused(41, node.place)

    def note(self, variable):
        """What the body of a `try` consumes, assigns or locks is empty in its clauses."""
        if is_owned(variable.type):
            for touched in self.touched:
                touched.add(variable)

    def consume(self, node):
        """A use of the value, which empties a variable that owns what it holds."""
        self.look(node)
        if is_owned(node.variable.type) and node.variable.sort != "global":
            self.hold_pending(node)
            self.note(node.variable)
            self.set(node.variable, EMPTY)

    def set(self, variable, level):
        if self.state is not None:
            self.state[variable] = level

    def assigned(self, node):
        if node.variable.sort == "global":
            return
        if self.state is not None and self.state[node.variable] == LOCKED:
            raise Refused(41, node.place)
        self.hold_pending(node)
        self.note(node.variable)
        self.set(node.variable, FULL)

    @staticmethod
    def is_peek(node):
        return node.kind == "variable" and is_unique(node.variable.type) and node.variable.sort != "global"

    def peeked(self, node):
        """An operand that is looked at only; the variable, if it is directly one."""
        if self.is_peek(node):
            self.look(node)
            return node.variable
        self.expression(node)
        return None

    def while_pending(self, variable, walk):
        """Walks what is evaluated while a peek of a variable waits for it."""
        if variable:
            self.pending.append(variable)
        walk()
        if variable:
            self.pending.pop()

    def expression(self, node):
        getattr(self, "expression_" + node.kind)(node)

    def expression_number(self, node):
        pass

    expression_null = expression_heap_region = expression_number

    def expression_variable(self, node):
        self.consume(node)

    def place(self, node):
        """A place; the variable that it is reached through by a peek."""
        if node.kind == "variable":
            return None
        if node.kind != "element":
            return self.peeked(node.operand if node.kind == "target" else node.base)
        variable = self.peeked(node.base)
        self.while_pending(variable, lambda: self.expression(node.index))
        return variable

    expression_target = expression_member = expression_element = place

    def expression_address(self, node):
        if node.operand.kind == "variable":
            self.look(node.operand)
        else:
            self.place(node.operand)

    def expression_numelts(self, node):
        self.peeked(node.operand)

    def expression_unary(self, node):
        self.peeked(node.operand) if node.sign == "!" else self.expression(node.operand)

    def expression_char(self, node):
        self.expression(node.operand)

    def expression_binary(self, node):
        if node.sign in ("==", "!="):
            variable = self.peeked(node.left)
            self.while_pending(variable, lambda: self.peeked(node.right))
        elif node.sign in ("&&", "||"):
            self.peeked(node.left)
            before = self.copied()
            self.peeked(node.right)
            self.state = met(before, self.state)
        else:
            self.expression(node.left)
            self.expression(node.right)

    def copied(self):
        return None if self.state is None else dict(self.state)

    def expression_assign(self, node):
        variable = self.place(node.target)
        self.while_pending(variable, lambda: self.expression(node.value))
        if node.target.kind == "variable":
            self.assigned(node.target)

    def expression_call(self, node):
        for argument in node.arguments:
            self.expression(argument)

    def expression_ufree(self, node):
        self.expression(node.operand)

    def expression_free_ukey(self, node):
        self.consume(node.key)

    def expression_new(self, node):
        if node.handle and node.handle.kind != "unique_region":
            self.expression(node.handle)
        initial = node.initial
        if initial.kind == "plain":
            self.expression(initial.value)
        elif initial.kind == "fields":
            for value in initial.values:
                self.expression(value)
        else:
            self.array(initial)

    def array(self, initial):
        self.expression(initial.length)
        head = self.copied()
        self.set(initial.counter.variable, FULL)
        self.expression(initial.element)
        if head is not None:
            Loop(initial.place, head, 0).hold(self.state)
        self.state = head


class Flow(Expressions):
    """Walks a function that keeps the rules of types."""

    def __init__(self, function):
        self.state = {parameter.variable: FULL for parameter in function.parameters}
        self.pending, self.touched, self.locked, self.loops = [], [], [], []
        self.items(function.body.items)
        if self.state is not None and not function.is_void:
            raise Refused(43, function.body.end)

    def items(self, items):
        """The items of a block. What they lock is full again at its end."""
        locks = len(self.locked)
        for item in items:
            self.item(item)
        self.unlock(self.state, locks)
        del self.locked[locks:]

    def unlock(self, state, locks):
        for variable in self.locked[locks:] if state is not None else []:
            state[variable] = FULL

    def item(self, item):
        getattr(self, "item_" + item.kind)(item)

    def item_local(self, item):
        if item.value:
            self.expression(item.value)
        self.set(item.variable, FULL if item.value else EMPTY)

    def item_region(self, item):
        self.set(item.variable, FULL)

    item_key = item_region

    def lend(self, node):
        self.look(node)
        self.note(node.variable)
        self.set(node.variable, LOCKED)
        self.locked.append(node.variable)

    def item_open(self, item):
        self.lend(item.key)
        self.set(item.variable, FULL)

    def item_alias(self, item):
        self.lend(item.source)
        self.set(item.variable, FULL)

    def item_nothing(self, item):
        pass

    def item_block(self, item):
        self.items(item.items)

    def item_expression(self, item):
        self.expression(item.value)

    def item_swap(self, item):
        left, right = item.left, item.right
        variable = self.place(left)
        self.while_pending(variable, lambda: self.place(right))
        faults = [self.fault_of_side(left, None), self.fault_of_side(right, variable)]
        faults = [fault for fault in faults if fault]
        if faults:
            raise min(faults, key=lambda fault: fault.code)

    def fault_of_side(self, side, peeked):
        """What is wrong with the use of a side, while a peek of a variable waits. A swap uses both at once."""
        if side.kind != "variable" or side.variable.sort == "global":
            return None
        try:
            self.look(side)
            self.while_pending(peeked, lambda: self.hold_pending(side))
        except Refused as refused:
            return refused
        return None

    def item_if(self, item):
        self.peeked(item.condition)
        before = self.copied()
        self.item(item.body)
        after, self.state = self.state, before
        if item.other:
            self.item(item.other)
        self.state = met(after, self.state)

    def item_while(self, item):
        head = self.copied()
        self.peeked(item.condition)
        after = self.copied()
        loop = Loop(item.place, head, len(self.locked))
        self.loops.append(loop)
        self.item(item.body)
        self.loops.pop()
        loop.hold(self.state)
        for state in loop.breaks:
            after = met(after, state)
        self.state = after

    def at_body_end(self):
        """The state at the end of the innermost loop's body, where the locks of its scopes end."""
        state = self.copied()
        self.unlock(state, self.loops[-1].locks)
        self.state = None
        return state

    def item_break(self, item):
        self.loops[-1].breaks.append(self.at_body_end())

    def item_continue(self, item):
        self.loops[-1].hold(self.at_body_end())

    def item_return(self, item):
        if item.value:
            self.expression(item.value)
        self.state = None

    item_throw = item_return

    def item_try(self, item):
        before = self.copied()
        self.touched.append(set())
        self.item(item.body)
        touched = self.touched.pop()
        after = self.state
        for clause in item.clauses:
            self.state = None if before is None else {
                variable: EMPTY if variable in touched and level != LOCKED else level for variable, level in before.items()
            }
            if clause.kind == "case" and clause.value:
                self.set(clause.value.variable, FULL)
            self.items(clause.items)
            after = met(after, self.state)
        self.state = after

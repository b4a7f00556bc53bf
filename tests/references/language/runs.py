"""Runs of a program, as the tree stands."""
from .types import CHAR, INT, NULL, is_number, narrowed
from .values import (
    ARRAY_SIZE, ARRAY_WORDS_AT_MOST, BINARY, NOTHING_YET, UNARY, Dead, End, Fat, Frame, Handle, Key, Object, Region, Store, Thin, Thrown,
    bytes_of, converted, equal_pointers, followed, is_zero, load, moved, number_of_elements, store, words_for, words_of,
)

CALLS, PAGES, STEPS = 4_096, 1_024, 1_000_000_000


class Run:
    """A run of a program: its parts become closures over the frame of a call."""

    def __init__(self, program, given, calls=CALLS, steps=STEPS, pages=PAGES):
        self.program, self.given, self.calls, self.steps = program, given, calls, steps
        self.read, self.depth, self.deepest = 0, 0, 0
        self.output = bytearray()
        self.store = Store(pages)
        self.globals = {}
        for name, variable in program.globals.items():
            self.globals[name] = Object([variable.value], self.store.globals)
        self.bodies = {name: self.call_of(part) for name, part in program.functions.items()}

    def end(self):
        """The last line and the exit status of the whole run."""
        try:
            value = self.call("main", [])
        except End as end:
            return end.line, end.status
        except Thrown as thrown:
            return f"uncaught {thrown.tag} {thrown.value}", 4
        return f"returned {value}", value & 0xFF

    def step(self):
        self.steps -= 1
        if self.steps < 0:
            raise End("budget spent", 7)

    # Calls

    def call(self, name, arguments):
        if self.depth == self.calls:
            raise End("full", 5)
        self.step()
        self.depth += 1
        self.deepest = max(self.deepest, self.depth)
        try:
            return self.bodies[name](arguments)
        finally:
            self.depth -= 1

    def call_of(self, part):
        slots = [parameter.slot for parameter in part.parameters]
        body = self.block(part.body.items)

        def run(arguments):
            frame = Frame(part.slots, None)

            def bind():
                for slot, value in zip(slots, arguments):
                    frame.locals[slot] = Object([value], frame.home)

            left = body(frame, bind)
            return left[0] if left else None

        return run

    def putchar(self, value):
        self.output.append(value & 0xFF)
        return value & 0xFF

    def getchar(self):
        if self.read == len(self.given):
            return -1
        self.read += 1
        return self.given[self.read - 1]

    # Executes a statement. Returns None if the next statement follows, "break", "continue", or a list with the
    # returned value.

    def statement(self, item):
        return getattr(self, "statement_" + item.kind)(item)

    def block(self, items):
        """The items of a block. However it is left, its lexical regions are closed, newest first, and then its own."""
        parts = [self.statement(inner) for inner in items]

        def run(frame, first=None):
            outer, around = frame.home, frame.lexical
            frame.home, frame.lexical = Region(False), []
            try:
                if first:
                    first()
                for part in parts:
                    left = part(frame)
                    if left is not None:
                        return left
                return None
            finally:
                for region in reversed(frame.lexical):
                    self.store.close(region)
                frame.home.is_open = False
                frame.home, frame.lexical = outer, around

        return run

    @staticmethod
    def declare(frame, slot, value):
        frame.locals[slot] = Object([value], frame.home)

    def statement_nothing(self, item):
        return lambda frame: None

    def statement_local(self, item):
        slot = item.slot
        value = self.converted(item.value) if item.value else lambda frame: NOTHING_YET
        return lambda frame: self.declare(frame, slot, value(frame))

    def statement_region(self, item):
        def run(frame):
            region = self.store.open(True)
            frame.lexical.append(region)
            self.declare(frame, item.slot, Handle(region))

        return run

    def statement_open(self, item):
        key = item.key.slot

        def run(frame):
            region = load((frame.locals[key], 0)).region
            if not region.is_open:
                raise Dead("a closed region is opened")
            self.declare(frame, item.slot, Handle(region))

        return run

    def statement_alias(self, item):
        source = item.source.slot
        return lambda frame: self.declare(frame, item.slot, load((frame.locals[source], 0)))

    def statement_key(self, item):
        return lambda frame: self.declare(frame, item.slot, Key(self.store.open(True)))

    def statement_expression(self, item):
        value = self.expression(item.value)

        def run(frame):
            value(frame)

        return run

    def statement_block(self, item):
        return self.block(item.items)

    def statement_swap(self, item):
        left, right = self.place(item.left), self.place(item.right)

        def run(frame):
            one, other = left(frame), right(frame)
            first, second = load(one), load(other)
            store(one, second)
            store(other, first)

        return run

    def statement_if(self, item):
        condition, body = self.expression(item.condition), self.statement(item.body)
        other = self.statement(item.other) if item.other else lambda frame: None
        return lambda frame: other(frame) if is_zero(condition(frame)) else body(frame)

    def statement_while(self, item):
        condition, body = self.expression(item.condition), self.statement(item.body)

        def run(frame):
            while not is_zero(condition(frame)):
                self.step()
                left = body(frame)
                if left == "break":
                    return None
                if isinstance(left, list):
                    return left
            return None

        return run

    def statement_break(self, item):
        return lambda frame: "break"

    def statement_continue(self, item):
        return lambda frame: "continue"

    def statement_return(self, item):
        if not item.value:
            return lambda frame: [None]
        value = self.converted(item.value)
        return lambda frame: [value(frame)]

    def statement_throw(self, item):
        value = self.expression(item.value) if item.value else lambda frame: 0

        def run(frame):
            raise Thrown(item.tag, value(frame))

        return run

    def statement_try(self, item):
        body = self.statement(item.body)
        clauses = [(getattr(clause, "tag", None), self.clause(clause)) for clause in item.clauses]

        def run(frame):
            try:
                return body(frame)
            except Thrown as thrown:
                caught = thrown
            for tag, clause in clauses:
                if tag in (None, caught.tag):
                    return clause(frame, caught.value)
            raise caught

        return run

    def clause(self, clause):
        body = self.block(clause.items)
        value = getattr(clause, "value", None)
        if not value:
            return lambda frame, caught: body(frame)
        return lambda frame, caught: body(frame, lambda: self.declare(frame, value.slot, caught))

    # Expressions

    def expression(self, node):
        return getattr(self, "expression_" + node.kind)(node)

    def converted(self, node):
        value, wanted = self.expression(node), node.wanted
        if wanted == INT:
            return value
        return lambda frame: converted(value(frame), wanted)

    def expression_number(self, node):
        value = node.value
        return lambda frame: value

    def expression_null(self, node):
        return lambda frame: None

    def expression_heap_region(self, node):
        handle = Handle(self.store.heap)
        return lambda frame: handle

    def expression_variable(self, node):
        if node.variable.sort == "counter":
            slot = node.slot
            return lambda frame: frame.locals[slot]
        place = self.place(node)
        return lambda frame: load(place(frame))

    # Returns the storage of a variable or of a pointer's target. Access through a pointer performs
    # the checks.

    def place(self, node):
        return getattr(self, "place_" + node.kind)(node)

    def place_variable(self, node):
        if node.slot is None:
            place = Thin(self.globals[node.name], 0)
            return lambda frame: place
        slot = node.slot
        return lambda frame: Thin(frame.locals[slot], 0)

    def place_target(self, node):
        pointer = self.expression(node.operand)
        return lambda frame: followed(pointer(frame))

    def place_member(self, node):
        pointer, offset = self.expression(node.base), node.offset
        return lambda frame: Thin(followed(pointer(frame)).object, offset)

    def place_element(self, node):
        base, index = self.expression(node.base), self.expression(node.index)

        def run(frame):
            pointer = base(frame)
            return followed(moved(pointer, index(frame)))

        return run

    def expression_target(self, node):
        place = self.place(node)
        return lambda frame: load(place(frame))

    expression_member = expression_element = expression_target

    def expression_address(self, node):
        return self.place(node.operand)

    def expression_assign(self, node):
        place, value = self.place(node.target), self.converted(node.value)

        def run(frame):
            found = place(frame)
            new = value(frame)
            store(found, new)
            return new

        return run

    def expression_unary(self, node):
        operand, act = self.expression(node.operand), UNARY[node.sign]
        return lambda frame: act(operand(frame))

    def expression_char(self, node):
        operand = self.expression(node.operand)
        return lambda frame: narrowed(operand(frame), CHAR)

    def expression_binary(self, node):
        left, right = self.expression(node.left), self.expression(node.right)
        if node.sign == "&&":
            return lambda frame: int(not is_zero(left(frame)) and not is_zero(right(frame)))
        if node.sign == "||":
            return lambda frame: int(not is_zero(left(frame)) or not is_zero(right(frame)))
        act = self.operator(node)
        return lambda frame: act(left(frame), right(frame))

    @staticmethod
    def operator(node):
        """What an operator computes: it works on ints, on a fat pointer and an int, or it compares pointers."""
        if is_number(node.left.type):
            return BINARY[node.sign]
        if node.sign in ("+", "-"):
            return moved if node.sign == "+" else lambda value, by: moved(value, -by)
        is_with_null = NULL in (node.left.type, node.right.type)
        equal = (lambda one, other: one is None and other is None) if is_with_null else equal_pointers
        return lambda one, other: int(equal(one, other) == (node.sign == "=="))

    def expression_numelts(self, node):
        pointer = self.expression(node.operand)
        return lambda frame: number_of_elements(pointer(frame))

    def expression_ufree(self, node):
        pointer = self.expression(node.operand)
        return lambda frame: self.store.free(pointer(frame))

    def expression_free_ukey(self, node):
        slot = node.key.slot
        return lambda frame: self.store.close(load((frame.locals[slot], 0)).region)

    def expression_call(self, node):
        name = node.name
        arguments = [self.converted(argument) for argument in node.arguments]
        if name == "putchar":
            return lambda frame: self.putchar(arguments[0](frame))
        if name == "getchar":
            return lambda frame: self.getchar()
        return lambda frame: self.call(name, [argument(frame) for argument in arguments])

    # New objects

    def expression_new(self, node):
        region = self.region_of(node)
        make = getattr(self, "initial_" + node.initial.kind)(node.initial)
        return lambda frame: make(frame, region(frame))

    def region_of(self, node):
        """The region where an object is made; None of a unique one."""
        if node.handle is None:
            return lambda frame: self.store.heap
        if node.handle.kind == "unique_region":
            return lambda frame: None
        handle = self.expression(node.handle)
        return lambda frame: handle(frame).region

    def initial_plain(self, initial):
        value, words = self.expression(initial.value), words_of([initial.value.type])

        def make(frame, region):
            held = value(frame)
            thing = self.store.make(region, 1, words)
            thing.cells[0] = held
            return Thin(thing, 0)

        return make

    def initial_fields(self, initial):
        values = [self.converted(value) for value in initial.values]
        words = words_of([value.wanted for value in initial.values])

        def make(frame, region):
            held = [value(frame) for value in values]
            thing = self.store.make(region, len(held), words)
            thing.cells[:] = held
            return Thin(thing, 0)

        return make

    def initial_array(self, initial):
        length, element = self.expression(initial.length), self.expression(initial.element)
        size, slot = bytes_of(initial.element.type), initial.counter.variable.slot

        def make(frame, region):
            count = length(frame)
            words = words_for(count * size)
            if count < 0 or words > ARRAY_WORDS_AT_MOST:
                raise Thrown(ARRAY_SIZE)
            thing = self.store.make(region, count, words)
            for index in range(count):
                frame.locals[slot] = index
                store((thing, index), element(frame))
            return Fat(thing, 0, count, 0)

        return make

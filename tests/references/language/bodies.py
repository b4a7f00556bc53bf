"""The rules of types, regions and effects in the bodies of functions: each name finds what it stands for, and each expression its type."""
from .texts import Node, Refused
from .types import (
    CHAR, HEAP, INT, NOTHING, NULL, UNIQUE, Faults, Variable, Written, converted, is_fat, is_number, is_owned, is_pointer, is_thin,
    is_unique, paired, pointer, regions_of, with_regions,
)


class Regions:
    """The regions of a function: those that are live, those whose names are in scope, and which outlives which."""

    def __init__(self, signature):
        self.live = [HEAP] + list(signature.effect)
        self.longer = list(signature.constraints)
        self.count = 0

    def another(self):
        self.count += 1
        return f"#{self.count}"

    def is_live(self, region):
        return region == UNIQUE or region in self.live

    def outlives(self, one, other):
        if UNIQUE in (one, other):
            return one == other
        reached, left = {one}, [one]
        while left:
            region = left.pop()
            for longer, shorter in self.longer:
                if longer == region and shorter not in reached:
                    reached.add(shorter)
                    left.append(shorter)
        return other in reached or HEAP in reached

    def open_scope(self, region):
        """A block or a lexical region opens: what is live outlives it."""
        self.longer += [(longer, region) for longer in self.live]
        self.live.append(region)


class Expressions:
    """The types of expressions. A construct's operands are walked before the rules of its own, and that an operand has a value is one
    of these."""

    def variable_of(self, name):
        for scope in reversed(self.scopes):
            if name in scope:
                return scope[name]
        return self.program.globals.get(name)

    def expression(self, node):
        node.type = getattr(self, "expression_" + node.kind)(node)
        return node.type

    def expression_number(self, node):
        return INT

    def expression_null(self, node):
        return NULL

    def expression_heap_region(self, node):
        return ("handle", HEAP)

    def expression_unique_region(self, node):
        raise Refused(29, node.place)

    # Places

    def expression_variable(self, node):
        type, faults = self.found(node), Faults()
        if node.variable.sort == "global" and is_unique(type):
            faults.add(27, node.place)
        faults.settle()
        return type

    def found(self, node):
        """Finds a variable, and gives its type."""
        node.variable = self.variable_of(node.name)
        if not node.variable:
            raise Refused(22 if node.name in self.program.signatures else 20, node.place)
        node.slot = node.variable.slot
        return node.variable.type

    def expression_target(self, node):
        return self.read(node)

    def expression_member(self, node):
        return self.read(node)

    def expression_element(self, node):
        return self.read(node)

    def read(self, node):
        """The value in a cell."""
        faults = Faults()
        type = self.cell(node, faults)
        if type and type[0] == "struct":
            faults.add(22, node.start)
        if type and is_unique(type):
            faults.add(27, node.place)
        faults.settle()
        return type

    def cell(self, node, faults):
        """The type of a place that a pointer leads to; None where it has none."""
        return getattr(self, "cell_" + node.kind)(node, faults)

    def cell_target(self, node, faults):
        type = self.expression(node.operand)
        if not is_pointer(type):
            faults.add(22, node.operand.start)
            return None
        return self.led_to(node, node.operand, type, type[2], faults)

    def cell_member(self, node, faults):
        type = self.expression(node.base)
        if not is_thin(type) or type[2][0] != "struct":
            faults.add(22, node.base.start)
            return None
        struct = self.program.structs[type[2][1]]
        names = [field.name for field in struct.fields]
        if node.field.text not in names:
            faults.add(20, node.field.place)
            return None
        node.offset = names.index(node.field.text)
        regions = dict(zip((region.name for region in struct.parameters), type[2][2]))
        return self.led_to(node, node.base, type, with_regions(struct.fields[node.offset].type, regions), faults)

    def cell_element(self, node, faults):
        type, index = self.expression(node.base), self.expression(node.index)
        if not is_fat(type):
            faults.add(22, node.base.start)
        if not is_number(index):
            faults.add(22, node.index.start)
        return self.led_to(node, node.base, type, type[2], faults) if is_fat(type) else None

    def led_to(self, node, operand, type, target, faults):
        node.region = type[3]
        node.type = target
        if not self.regions.is_live(node.region):
            faults.add(24, operand.start)
        return target

    def place(self, node):
        """The type of what stands where a place is wanted."""
        if node.kind in ("target", "member", "element"):
            faults = Faults()
            type = self.cell(node, faults)
            faults.settle()
            return type
        if node.kind != "variable":
            self.expression(node)
            raise Refused(28, node.start)
        if not self.variable_of(node.name) and node.name in self.program.signatures:
            raise Refused(28, node.start)
        node.type = self.found(node)
        if not node.variable.is_place:
            raise Refused(28, node.start)
        return node.type

    def expression_address(self, node):
        type, operand = self.place(node.operand), node.operand
        if operand.kind == "variable":
            if type[0] == "key":
                raise Refused(29, operand.place)
            region = operand.variable.region
        else:
            region = operand.region
        faults = Faults()
        if is_unique(type) or region == UNIQUE:
            faults.add(27, operand.place)
        faults.settle()
        return pointer("@", type, region)

    def expression_assign(self, node):
        type = self.place(node.target)
        self.convert(node.value, self.expression(node.value), type)
        return NOTHING if is_owned(type) else type

    def convert(self, node, type, wanted, faults=None):
        """A value of a type becomes one of another."""
        own = faults or Faults()
        converted(own, self.regions.outlives, type, wanted, node.start)
        node.wanted = wanted
        if faults is None:
            own.settle()

    # Operators

    def expression_unary(self, node):
        type = self.expression(node.operand)
        if not is_number(type) and not (node.sign == "!" and is_pointer(type)):
            raise Refused(22, node.operand.start)
        return INT

    def expression_char(self, node):
        if not is_number(self.expression(node.operand)):
            raise Refused(22, node.operand.start)
        return CHAR

    def expression_binary(self, node):
        left, right = self.expression(node.left), self.expression(node.right)
        if node.sign in ("==", "!="):
            self.compared(node, left, right)
            return INT
        if node.sign in ("&&", "||"):
            self.condition(node.left, left)
            self.condition(node.right, right)
            return INT
        is_moved = node.sign in ("+", "-") and is_fat(left) and not is_unique(left)
        if not is_number(left) and not is_moved:
            raise Refused(22, node.left.start)
        if not is_number(right):
            raise Refused(22, node.right.start)
        return left if is_moved else INT

    def condition(self, node, type):
        if not is_number(type) and not is_pointer(type):
            raise Refused(22, node.start)

    def compared(self, node, left, right):
        # The source position of a comparison is the start of its left operand, inside the
        # parentheses around the comparison.
        for side, type in ((node.left, left), (node.right, right)):
            if type != NULL and not is_number(type) and not is_pointer(type):
                raise Refused(22, side.start)
        if is_number(left) and is_number(right):
            return
        if NULL in (left, right):
            if left == right or is_number(left) or is_number(right):
                raise Refused(22, node.left.start)
            return
        if not (is_thin(left) and is_thin(right)) or left[2] != right[2]:
            raise Refused(22, node.left.start)
        faults = Faults()
        for side, type in ((node.left, left), (node.right, right)):
            if not self.regions.is_live(type[3]):
                faults.add(24, side.start)
        faults.settle()

    def expression_numelts(self, node):
        type = self.expression(node.operand)
        if not is_fat(type):
            raise Refused(22, node.operand.start)
        return INT

    # Calls

    def expression_call(self, node):
        types = [self.expression(argument) for argument in node.arguments]
        if self.variable_of(node.name):
            raise Refused(22, node.place)
        signature = self.program.signatures.get(node.name)
        if not signature:
            raise Refused(20, node.place)
        if len(types) != len(signature.parameters):
            raise Refused(22, node.place)
        node.is_void = signature.result == NOTHING
        faults = Faults()
        regions = self.instance(node, signature, types, faults)
        for argument, type, parameter in zip(node.arguments, types, signature.parameters):
            self.convert(argument, type, with_regions(parameter, regions), faults)
        for longer, shorter in signature.constraints:
            if not self.regions.outlives(regions.get(longer, longer), regions.get(shorter, shorter)):
                faults.add(25, node.place)
        for region in signature.effect:
            if not self.regions.is_live(regions.get(region, region)):
                faults.add(26, node.place)
        faults.settle()
        return signature.result if node.is_void else with_regions(signature.result, regions)

    def instance(self, node, signature, types, faults):
        """The region of each region variable: that at its first place where the argument is not `NULL`, or the heap."""
        regions = {region: HEAP for type in signature.parameters for region in regions_of(type) if region not in (HEAP, UNIQUE)}
        fixed = set()
        for argument, type, parameter in zip(node.arguments, types, signature.parameters):
            for variable, region in [] if type == NULL else paired(parameter, type):
                if variable in regions and variable not in fixed:
                    fixed.add(variable)
                    regions[variable] = region
                    if region == UNIQUE:
                        faults.add(29, argument.start)
        return regions

    def expression_ufree(self, node):
        type = self.expression(node.operand)
        if not is_unique(type):
            raise Refused(22 if type == NOTHING else 29, node.operand.start)
        return NOTHING

    def expression_free_ukey(self, node):
        node.key.type = self.found(node.key)
        if node.key.type[0] != "key":
            raise Refused(29, node.key.place)
        return NOTHING

    # New objects

    def expression_new(self, node):
        region, faults = HEAP, Faults()
        if node.handle and node.handle.kind == "unique_region":
            region = UNIQUE
        elif node.handle:
            handle = self.expression(node.handle)
            region = self.handled(node.handle, handle, faults)
        mark, target = getattr(self, "initial_" + node.initial.kind)(node.initial, faults)
        if region and region != UNIQUE and not self.regions.is_live(region):
            faults.add(24, node.handle.start)
        faults.settle()
        return pointer(mark, target, region)

    def handled(self, node, type, faults):
        if type[0] != "handle":
            faults.add(22, node.start)
            return None
        return type[1]

    def initial_plain(self, initial, faults):
        return "@", self.held(initial.value, self.expression(initial.value), faults)

    def held(self, node, type, faults):
        """What a cell of a new object may hold."""
        if type in (NULL, NOTHING):
            faults.add(22, node.start)
        if type[0] == "key":
            faults.add(29, node.start)
        return type

    def initial_fields(self, initial, faults):
        types = [self.expression(value) for value in initial.values]
        name = Node("name", initial.place, text=initial.name)
        type = Written(self.program.structs, faults, self.knows).arguments(name, initial.arguments, initial.place)
        if not type:
            return "@", None
        struct = self.program.structs[initial.name]
        if len(types) != len(struct.fields):
            faults.add(22, initial.place)
        regions = dict(zip((region.name for region in struct.parameters), type[2]))
        for value, found, field in zip(initial.values, types, struct.fields):
            self.convert(value, found, with_regions(field.type, regions), faults)
        return "@", type

    def initial_array(self, initial, faults):
        length = self.expression(initial.length)
        if not is_number(length):
            faults.add(22, initial.length.start)
        counter = Variable(initial.counter.name, INT, None, "counter", self.slots)
        self.slots += 1
        initial.counter.variable = counter
        self.scopes.append({counter.name: counter})
        type = self.expression(initial.element)
        self.scopes.pop()
        return "?", self.held(initial.element, type, faults)


class Body(Expressions):
    """Holds the body of a function against the rules. Each variable gets a slot of its own."""

    def __init__(self, program, function):
        self.program, self.function = program, function
        self.signature = function.signature
        self.regions = Regions(self.signature)
        self.known = {region for type in self.signature.parameters for region in regions_of(type)}
        self.declared = set(self.known) | {function.name}
        self.scopes, self.slots, self.loops, self.homes = [], 0, 0, []
        self.types = []
        self.enter(function.name)
        for parameter, type in zip(function.parameters, self.signature.parameters):
            self.declare(parameter, type)
        for item in function.body.items:
            self.item(item)
        function.slots = self.slots

    def knows(self, node):
        return node.name in self.known

    def enter(self, region):
        self.regions.open_scope(region)
        self.known.add(region)
        self.homes.append(region)
        self.scopes.append({})

    def declare(self, node, type, sort="local"):
        if node.name in self.scopes[-1]:
            raise Refused(21, node.place)
        node.type, node.slot = type, self.slots
        node.variable = self.scopes[-1][node.name] = Variable(node.name, type, self.homes[-1], sort, self.slots)
        self.slots += 1

    def new_region(self, node):
        if node.name in self.declared or node.name in (HEAP, UNIQUE):
            raise Refused(21, node.place)
        self.declared.add(node.name)
        self.known.add(node.name)

    def inside(self, region, items, first=lambda: None):
        """The items of a block, whose regions and names end with it."""
        live, known = len(self.regions.live), set(self.known)
        self.enter(region)
        first()
        for item in items:
            self.item(item)
        self.scopes.pop()
        self.homes.pop()
        del self.regions.live[live:]
        self.known = known

    def item(self, item):
        getattr(self, "item_" + item.kind)(item)

    # Declarations

    def item_local(self, item):
        faults = Faults()
        written = Written(self.program.structs, faults, self.knows).type(item.written, lambda is_outermost: "?" if is_outermost else HEAP)
        faults.settle()
        if not item.value:
            self.declare(item, with_regions(written, {"?": HEAP}))
            return
        type = self.expression(item.value)
        outermost = type[3] if is_pointer(type) else HEAP
        if is_pointer(written) and written[3] == "?":
            written = pointer(written[1], written[2], outermost)
        self.convert(item.value, type, written, faults)
        if item.name in self.scopes[-1]:
            faults.add(21, item.place)
        faults.settle()
        self.declare(item, written)

    def item_region(self, item):
        self.new_region(item.region)
        self.regions.open_scope(item.region.name)
        self.declare(item, ("handle", item.region.name), "handle")

    def item_open(self, item):
        if not self.knows(item.region) and item.region.name not in (HEAP, UNIQUE):
            raise Refused(20, item.region.place)
        type = self.found(item.key)
        if type[0] != "key":
            raise Refused(29, item.key.place)
        if item.name in self.scopes[-1]:
            raise Refused(21, item.place)
        if type[1] != item.region.name:
            raise Refused(29, item.region.place)
        self.regions.live.append(item.region.name)
        self.declare(item, ("handle", item.region.name), "handle")

    def item_alias(self, item):
        self.new_region(item.region)
        faults = Faults()
        left_out = lambda is_outermost: UNIQUE if is_outermost else HEAP
        written = Written(self.program.structs, faults, self.knows).type(item.written, left_out)
        faults.settle()
        type = self.found(item.source)
        if item.source.variable.sort == "global" and is_unique(type):
            raise Refused(27, item.source.place)
        if not is_unique(type):
            raise Refused(29, item.source.place)
        if item.name in self.scopes[-1]:
            raise Refused(21, item.place)
        if written != pointer(type[1], type[2], item.region.name):
            raise Refused(22, item.written.place)
        self.regions.live.append(item.region.name)
        self.declare(item, written)

    def item_key(self, item):
        self.new_region(item.region)
        self.declare(item, ("key", item.region.name))

    # Statements

    def item_nothing(self, item):
        pass

    def item_block(self, item):
        if item.label:
            if item.label.name in self.declared or item.label.name in (HEAP, UNIQUE):
                raise Refused(21, item.label.place)
            self.declared.add(item.label.name)
        self.inside(item.label.name if item.label else self.regions.another(), item.items)

    def item_expression(self, item):
        self.expression(item.value)

    def item_swap(self, item):
        left = self.place(item.left)
        right = self.place(item.right)
        faults = Faults()
        if left != right or left[0] == "struct":
            faults.add(22, item.place)
        faults.settle()

    def item_if(self, item):
        self.condition(item.condition, self.expression(item.condition))
        self.item(item.body)
        if item.other:
            self.item(item.other)

    def item_while(self, item):
        self.condition(item.condition, self.expression(item.condition))
        self.loops += 1
        self.item(item.body)
        self.loops -= 1

    def item_break(self, item):
        if not self.loops:
            raise Refused(31, item.place)

    item_continue = item_break

    def item_return(self, item):
        if self.function.is_void:
            if item.value:
                self.expression(item.value)
                raise Refused(22, item.place)
        elif not item.value:
            raise Refused(22, item.place)
        else:
            self.convert(item.value, self.expression(item.value), self.signature.result)

    def item_throw(self, item):
        type = self.expression(item.value) if item.value else None
        item.tag = self.constructor(item.name, bool(item.value))
        if type and not is_number(type):
            raise Refused(22, item.value.start)

    def constructor(self, name, has_int):
        """The number of an exception that is thrown or caught with its int or without."""
        if name.text not in self.program.exceptions:
            raise Refused(20, name.place)
        number, wants_int = self.program.exceptions[name.text]
        if has_int != wants_int:
            raise Refused(22, name.place)
        return number

    def item_try(self, item):
        self.item(item.body)
        caught = set()
        for clause in item.clauses:
            if clause.kind == "default":
                self.inside(self.regions.another(), clause.items)
            else:
                self.clause(clause, caught)

    def clause(self, clause, caught):
        if clause.name.text in self.program.exceptions and clause.name.text in caught:
            raise Refused(21, clause.name.place)
        clause.tag = self.constructor(clause.name, bool(clause.value))
        caught.add(clause.name.text)
        self.inside(self.regions.another(), clause.items, lambda: clause.value and self.declare(clause.value, INT))

"""The declarations of a tree, held against the rules of heads: all top-level names are known in the whole text."""
from .bodies import Body
from .texts import Refused
from .types import (
    GETCHAR, HEAP, INT, NOTHING, NULL, PUTCHAR, UNIQUE, Faults, Signature, Variable, Written, converted, is_number, is_pointer, keys_of,
    narrowed, regions_of, written_regions,
)

BUILT_IN_EXCEPTIONS = ["Null_Exception", "Array_bounds", "Array_size", "Div_zero"]


class Program:
    """The declarations of a tree, held against the rules of heads, and then the bodies of its functions."""

    def __init__(self, tree):
        self.structs, self.functions, self.globals, self.exceptions = {}, {}, {}, {}
        self.signatures = {"putchar": PUTCHAR, "getchar": GETCHAR}
        for number, name in enumerate(BUILT_IN_EXCEPTIONS, 1):
            self.exceptions[name] = (number, False)
        self.tree = tree
        self.seen = {"struct": set(), "exception": set(BUILT_IN_EXCEPTIONS), "name": {"putchar", "getchar"}}
        self.collect()
        for part in tree:
            getattr(self, "head_" + part.kind)(part)
        if "main" not in self.functions:
            raise Refused(30, (1, 1))
        for function in self.functions.values():
            Body(self, function)

    def collect(self):
        """All names are known in the whole text."""
        for part in self.tree:
            if part.kind == "struct":
                self.structs.setdefault(part.name, part)
            elif part.kind == "exceptions":
                for constructor in part.constructors:
                    self.exceptions.setdefault(constructor.name, (len(self.exceptions) + 1, constructor.has_int))

    def declare(self, space, node, faults):
        if node.name in self.seen[space]:
            faults.add(21, node.place)
        self.seen[space].add(node.name)

    def head_struct(self, part):
        faults = Faults()
        self.declare("struct", part, faults)
        faults.settle()
        parameters = set()
        for region in part.parameters:
            if region.name in (HEAP, UNIQUE) or region.name in parameters:
                raise Refused(21, region.place)
            parameters.add(region.name)
        names = set()
        for field in part.fields:
            faults = Faults()
            field.type = Written(self.structs, faults, lambda node: node.name in parameters).type(field.written, lambda _: HEAP)
            if field.type and field.type[0] == "key":
                faults.add(29, field.written.place)
            faults.settle()
            if field.name in names:
                raise Refused(21, field.place)
            names.add(field.name)

    def head_exceptions(self, part):
        for constructor in part.constructors:
            faults = Faults()
            self.declare("exception", constructor, faults)
            faults.settle()

    def head_global(self, part):
        faults = Faults()
        type = Written(self.structs, faults, lambda node: False).type(part.written, lambda _: HEAP)
        if type and not is_number(type) and not is_pointer(type):
            faults.add(22, part.written.place)
        if not faults.found and part.value is None and is_pointer(type) and type[1] == "@":
            faults.add(23, part.written.place)
        faults.settle()
        self.declare("name", part, faults)
        if part.name == "main":
            faults.add(30, part.place)
        faults.settle()
        if part.value:
            converted(faults, None, NULL if part.value.kind == "null" else INT, type, part.value.place)
            faults.settle()
        value = part.value.value if part.value and part.value.kind == "number" else 0
        self.globals[part.name] = Variable(part.name, type, HEAP, "global")
        self.globals[part.name].value = narrowed(value, type) if is_number(type) else None

    def head_function(self, part):
        Head(self, part)


class Head:
    """Holds the head of a function against the rules, and makes its signature."""

    def __init__(self, program, part):
        self.program, self.part = program, part
        self.fresh = 0
        self.names = {region.name for parameter in part.parameters for region in written_regions(parameter.written)}
        self.names -= {HEAP, UNIQUE}
        result = self.result()
        self.name()
        types = [self.parameter(parameter, part.parameters[:number]) for number, parameter in enumerate(part.parameters)]
        keyed = keys_of(types + [result] if result else types)
        effect = self.effect(keyed)
        constraints = self.constraints()
        if effect is None:
            effect = [region for type in types + ([result] if result else []) if type[0] != "key" for region in regions_of(type)]
            effect = [region for region in effect if region != UNIQUE and region not in keyed]
        part.signature = Signature(types, result or NOTHING, effect, constraints)
        program.functions.setdefault(part.name, part)
        program.signatures.setdefault(part.name, part.signature)

    def written(self, faults, known):
        return Written(self.program.structs, faults, known)

    def result(self):
        if self.part.is_void:
            return None
        faults = Faults()
        type = self.written(faults, lambda node: node.name in self.names).type(self.part.result, lambda _: HEAP)
        faults.settle()
        return type

    def name(self):
        faults, part = Faults(), self.part
        self.program.declare("name", part, faults)
        # a function's block is a region named after the function, so the name must differ from the built-in
        # regions `heap` and `unique`
        if part.name in (HEAP, UNIQUE):
            faults.add(21, part.place)
        is_plain = not part.is_void and part.result.base == "int" and not part.result.marks
        if part.name == "main" and (not is_plain or part.parameters or part.effect is not None or part.constraints):
            faults.add(30, part.place)
        faults.settle()

    def parameter(self, parameter, before):
        faults = Faults()

        def declares(node):
            if node.name == self.part.name:
                faults.add(21, node.place)
            return True

        type = self.written(faults, declares).type(parameter.written, lambda _: self.another())
        faults.settle()
        if parameter.name in [other.name for other in before]:
            raise Refused(21, parameter.place)
        return type

    def another(self):
        """A region that stands for what an argument has."""
        self.fresh += 1
        return f"?{self.fresh}"

    def effect(self, keyed):
        if self.part.effect is None:
            return None
        faults = Faults()
        for node in self.part.effect:
            self.named(node, faults)
            if node.name == UNIQUE or node.name in keyed:
                faults.add(29, node.place)
        faults.settle()
        return [node.name for node in self.part.effect]

    def constraints(self):
        faults = Faults()
        for pair in self.part.constraints:
            for node in pair:
                self.named(node, faults)
                if node.name == UNIQUE:
                    faults.add(29, node.place)
        faults.settle()
        return [(longer.name, shorter.name) for longer, shorter in self.part.constraints]

    def named(self, node, faults):
        if node.name not in self.names | {HEAP, UNIQUE}:
            faults.add(20, node.place)

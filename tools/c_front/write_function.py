"""One function of the translation: its head, its region, its variables and its body."""
from . import c_types as t
from .faults import Place, Refusal
from .text import UNARY, Line, X
from .tree import Node, expressions, walk
from .write_library import LibraryWriter
from .write_statements import ends


class FunctionWriter(LibraryWriter):
    """Writes a function as lines with their places."""

    def __init__(self, program, symbol):
        self.program = program
        self.symbol = symbol
        self.lines = []
        self.loops = []
        self.flags = {}
        self.top = []
        self.at = symbol.place or Place()
        self.is_main = symbol.name == "main"
        self.taken = {s.text for s in symbol.params + symbol.locals}
        self.depth = 0
        self.result = "result"
        if isinstance(symbol.type.result, t.Struct):
            self.result = program.local_name("result", self.taken)
        for wide in [s for s in symbol.params + symbol.locals if t.is_wide(s.type)]:
            wide.high = program.local_name(wide.text + "_high", self.taken)
        self.mark_hoisted(symbol.body, False)
        self.uses_region = self.needs_region()
        self.region = "`" + (program.region_name if self.uses_region else program.function_name(symbol, symbol.place))

    # The facts that must be known before a function's body is translated, such as the objects that
    # a loop declares, which are made before the loop.

    def mark_hoisted(self, stmts, inside):
        """Objects that a loop declares are made once, before it."""
        for stmt in stmts or []:
            if stmt.kind == "decl" and inside and t.is_aggregate(stmt.symbol.type):
                stmt.symbol.hoisted = True
            for part in (stmt.body, stmt.other):
                self.mark_hoisted(part, inside or stmt.kind in ("while", "do"))
        for symbol in self.symbol.locals if not inside and stmts is self.symbol.body else []:
            if symbol.hoisted:
                self.rename(symbol)

    def rename(self, symbol):
        """Gives a variable that the whole function sees a name that no other has."""
        others = [s.text for s in self.symbol.params + self.symbol.locals if s is not symbol]
        if symbol.text in others:
            symbol.text = self.program.local_name(symbol.text, self.taken)

    def needs_region(self):
        for symbol in self.symbol.locals:
            if t.is_aggregate(symbol.type) and not symbol.heap:
                return True
        if any(isinstance(p.type, t.Struct) and not p.heap for p in self.symbol.params):
            return True
        for expression in expressions(self.symbol.body):
            for node in walk(expression):
                if node.op in ("call", "icall") and isinstance(node.type, t.Struct):
                    return True
        return False

    # The whole

    def run(self):
        """The lines of the function."""
        body = self.body(self.symbol.body)
        body += self.program.comments_to_end(self.symbol)
        before = self.prologue()
        if not isinstance(self.symbol.type.result, (t.Void, t.Struct)) or self.is_main:
            if not ends(self.symbol.body):
                body.append(Line(f"return {self.nothing()};", 0, self.at, self.symbol))
        head = self.head()
        out = [Line(head + " {", 0, self.symbol.place, self.symbol)]
        out += self.deeper(before) + self.deeper(body)
        out.append(Line("}", 0, self.at, self.symbol))
        return out

    def head(self):
        result = self.symbol.type.result
        params = []
        if isinstance(result, t.Struct):
            params.append(f"struct {self.program.struct_name(result)} *{self.result}")
        if self.is_main:
            params = []
        else:
            params += [self.parameter(p) for p in self.symbol.params]
        text = "int" if self.is_main or t.is_wide(result) else self.program.result_text(result)
        name = self.program.function_name(self.symbol, self.symbol.place)
        space = "" if text[-1] in "*?@" else " "
        return f"{text}{space}{name}({', '.join(params) or 'void' if name != 'main' else ''})"

    def parameter(self, symbol):
        if t.is_wide(symbol.type):
            return f"int {symbol.text}, int {symbol.high}"
        text = self.program.parameter_type(symbol)
        space = "" if text[-1] in "*?@" else " "
        return f"{text}{space}{self.passed_name(symbol)}"

    def passed_name(self, symbol):
        if self.is_copied(symbol):
            if not hasattr(symbol, "passed"):
                symbol.passed = self.program.local_name(symbol.text + "_passed", self.taken)
            return symbol.passed
        return symbol.text

    @staticmethod
    def is_copied(symbol):
        return symbol.cell or symbol.shadow or isinstance(symbol.type, t.Struct)

    def prologue(self):
        """The region, the copies of parameters, and the variables that the whole function sees."""
        _, lines = self.captured(self.write_prologue)
        return lines

    def write_prologue(self):
        if self.uses_region:
            self.line(f"region<`{self.program.region_name}> {self.program.handle};")
        if self.is_main:
            self.main_parameters()
        else:
            for symbol in self.symbol.params:
                self.copy_parameter(symbol)
        for symbol in self.symbol.locals:
            if symbol.hoisted:
                self.declare(symbol, None)
        for text in self.top:
            self.line(text)

    def main_parameters(self):
        for at, symbol in enumerate(self.symbol.params):
            if symbol.uses == 0 and not symbol.assigned:
                continue
            if at == 0 and t.is_int(symbol.type):
                self.line(f"int {symbol.text} = {len(self.program.arguments)};")
            elif at == 1 and isinstance(symbol.type, t.Ptr):
                self.line(f"{self.program.type_text(symbol.type)}{symbol.text} = {self.program.argument_list(symbol.type)};")
            else:
                raise Refusal("a parameter of main other than argc and argv", symbol.place)

    def copy_parameter(self, symbol):
        passed = self.passed_name(symbol)
        if isinstance(symbol.type, t.Struct):
            self.declare(symbol, None)
            self.line(f"{self.program.copier(symbol.type)}({self.variable(symbol)}, {passed});")
        elif symbol.cell:
            kind = self.program.form_text(symbol)
            self.line(f"{kind} @{symbol.text} = new {self.as_form(symbol, passed)};")
        elif symbol.shadow:
            self.line(f"{self.program.type_text(symbol.type, self.region)} {symbol.text} = {passed};")

    def as_form(self, symbol, text):
        return f"char({text})" if self.program.form_of(symbol) == "char" else text

    # Declarations

    def write_decl(self, stmt):
        symbol = stmt.symbol
        if symbol.hoisted:
            if t.is_aggregate(symbol.type):
                self.initial_values(symbol, stmt.inits, clear=stmt.inits is not None)
            elif stmt.inits:
                self.assign_initial(symbol, stmt.inits[0][1])
            return
        self.declare(symbol, stmt.inits)

    def assign_initial(self, symbol, node):
        target = Node("var", symbol.type, v=symbol, place=node.place)
        self.effect(Node("assign", symbol.type, [target, node], place=node.place))

    def declare(self, symbol, inits):
        """Declares a variable with its initial value, or 0."""
        if isinstance(symbol.type, t.Struct) and inits and inits[0][0] == () and not symbol.single:
            self.declare_copy(symbol, inits[0][1])
        elif t.is_wide(symbol.type):
            low, high = self.wide(inits[0][1]) if inits else ("0", "0")
            self.line(f"int {symbol.text} = {low};")
            self.line(f"int {symbol.high} = {high};")
        elif t.is_aggregate(symbol.type):
            text = self.program.handle_type(symbol, "" if symbol.heap else self.region)
            space = "" if text[-1] in "*?@" else " "
            self.line(f"{text}{space}{symbol.text} = {self.make(symbol)};")
            self.initial_values(symbol, inits)
        else:
            self.declare_scalar(symbol, inits)

    def declare_copy(self, symbol, node):
        text = self.program.handle_type(symbol, "")
        self.line(f"{text}{symbol.text} = {self.make(symbol)};")
        self.copy(symbol_node(symbol), node)

    def declare_scalar(self, symbol, inits):
        node = inits[0][1] if inits else None
        zero = X("NULL" if t.is_object_pointer(symbol.type) else "0")
        chosen = node is not None and node.op == "cond"
        value = zero
        if node is not None and not chosen:
            value = self.stored(symbol_node(symbol), node)
        text = self.program.form_text(symbol, "" if symbol.heap or not t.is_object_pointer(symbol.type) else self.region)
        space = "" if text[-1] in "*?@" else " "
        if symbol.cell:
            self.declare_cell(symbol, text, value)
        else:
            self.line(f"{text}{space}{symbol.text} = {value};")
        if chosen:
            self.choose(node, lambda branch: self.assign_initial(symbol, branch))

    def declare_cell(self, symbol, text, value):
        """A variable in the heap. An address is stored after it is made: its own mark would become that of the variable."""
        address = t.is_object_pointer(symbol.type)
        start = X(self.program.null_of(symbol.type)) if address else value
        self.line(f"{text} @{symbol.text} = new {self.as_form(symbol, start.at(UNARY))};")
        if address and value.text != "NULL":
            self.line(f"*{symbol.text} = {value};")

    def make(self, symbol):
        """The expression that makes the object of a variable."""
        if symbol.hoisted and isinstance(symbol.type, t.Array) and not isinstance(symbol.type.length, int):
            raise Refusal("an array whose length is not constant, in a loop", symbol.place, "write a function for what the loop does")
        if isinstance(symbol.type, t.Array) and not isinstance(symbol.type.length, int):
            length = self.value(symbol.type.length)
            return self.program.make_array(symbol.type, self.maker(symbol), str(length), symbol.place)
        if symbol.single and isinstance(symbol.type, t.Struct):
            return self.program.make_array(t.Array(symbol.type, 1), self.maker(symbol), "1", symbol.place)
        return self.program.make(symbol.type, self.maker(symbol), symbol.place)

    def maker(self, symbol):
        return None if symbol.heap else self.program.handle

    def struct_temporary(self, type_):
        """An object for the result of a call, made once for each place of a call."""
        name = self.program.local_name("t", self.taken)
        made = self.program.make(type_, self.program.handle, self.at)
        self.top.append(f"struct {self.program.struct_name(type_)} *{name} = {made};")
        return X(name)

    def make_compound(self, node):
        inits = list(zip(node.extra, node.a))
        self.initial_values(node.v, inits, clear=True)

    # Initial values

    def initial_values(self, symbol, inits, clear=False):
        base = self.variable(symbol)
        if clear:
            self.line(f"{self.program.clearer(symbol.type)}({base});")
        for path, node in inits or []:
            self.initial_value(symbol.type, base, path, node)

    def initial_value(self, type_, base, path, node):
        target = Node("raw", type_, v=base, place=node.place)
        for step in path:
            if isinstance(step, int):
                pointer = Node("decay", t.Ptr(target.type.element, fat=True), [target], place=node.place)
                target = Node("index", target.type.element, [pointer, Node("num", t.INT, v=step)], place=node.place)
            else:
                target = Node("field", step.type, [target], step, node.place)
        if node.op == "string" and isinstance(target.type, t.Array):
            self.fill_text(self.value(target), node.v, target.type.length)
        elif isinstance(target.type, t.Struct):
            self.copy(target, node)
        elif not (node.op in ("num", "null") and not node.v):
            self.effect(Node("assign", target.type, [target, node], place=node.place))

    def fill_text(self, handle, data, length):
        data = data[:length]
        for text in self.program.text_words(str(handle), data):
            self.line(text)


def symbol_node(symbol):
    return Node("var", symbol.type, v=symbol, place=symbol.place)


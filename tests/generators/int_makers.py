"""Makes the texts of random programs of ints: what each maker of programs begins with."""

NAMES = list("abcdefgh") + ["x_1", "total"]
CHAR_NAMES = list("ABCDEFG")
# The name of a global that no local hides.
CHAR_GLOBAL = "Z"
EDGES = [0, 0, 1, 1, 2, 3, 5, 7, 10, 31, 32, 33, 64, 100, 127, 128, 255, 256, 1000]
EDGES += [32767, 32768, 32769, 65535, 65536, 65537, 98304, 131071]
EDGES += [2**30, 2**31 - 2**16, 2**31 - 2**15, 2**31 - 2, 2**31 - 1, 2**31 - 1]
# Operators whose result depends strongly on their operands occur more often in the list.
SIGNS = ["+", "-", "*", "^", "<<", ">>", "/", "%"] * 3 + ["&", "|"] * 2 + ["==", "!=", "<", "<=", ">", ">=", "&&", "||"]
# The prelude of every generated program: it can print a number, and call itself deeply.
SHOW = """int deep(int n) { if (n <= 0) return 0; return deep(n - 1) + 1; }
void digits(int n) { if (n / 10 != 0) digits(n / 10); putchar('0' - n % 10); }
void show(int n) { if (n < 0) putchar('-'); else n = -n; digits(n); putchar('\\n'); }
"""


def filling(name):
    """Where a function may be filled up with locals."""
    return f"/* {name} */"


class Maker:
    """Makes the text of one program."""

    # The names of variables that hold numbers; a name tells the type of its variable.
    NAMES = NAMES
    # The functions that print a number, which every generated program contains.
    SHOW = SHOW

    def __init__(self, random_numbers):
        self.random = random_numbers
        # For each function: its name, its number of parameters, and a flag that is true if it has
        # no result.
        count = self.random.randint(1, 5)
        self.functions = [(f"f{number}", self.number_of_parameters(), self.chance(20)) for number in range(count)]
        self.globals = [f"g{number}" for number in range(self.random.randint(0, 4))] + self.random.sample(self.NAMES, 2)
        self.lines = []
        # For each open block: the names that the block declares, each with a flag that is true if
        # the name may be assigned.
        self.scopes = []
        self.loops = 0
        self.is_void = False
        self.prepare()

    def prepare(self):
        """What a profile has beside ints."""

    def type_of(self, name):
        return "int"

    def result(self):
        """The type of a function's result."""
        return "int"

    def ints(self):
        """The variables that are ints and may be assigned."""
        return self.names(True)

    def chance(self, percent):
        return self.random.randrange(100) < percent

    def pick(self, choices):
        return self.random.choice(choices)

    def number_of_parameters(self):
        return self.random.randint(0, 4) if self.chance(95) else self.random.randint(5, 64)

    def put(self, line):
        self.lines.append("  " * len(self.scopes) + line)

    def enter(self, names):
        self.scopes.append(names)

    def exit(self):
        self.scopes.pop()

    def declarations(self):
        """Further parts of a text, each of whole declarations."""
        return []

    def begin(self):
        """What `main` does first."""

    def callees(self):
        """The functions that may be called where the text stands."""
        return self.functions

    def text(self):
        parts = [self.SHOW.splitlines()] + self.declarations()
        self.lines = []
        for name in self.globals:
            value = self.pick(["", " = " + self.literal(), " = -" + self.literal()])
            self.put(f"{self.type_of(name)} {name}{value};")
        self.put(f"int fuel = {self.pick([3, 10, 30, 60])};")
        parts.append(self.lines)
        for function in self.functions + [None]:
            self.lines = []
            self.function(function) if function else self.main()
            parts.append(self.lines)
        if self.chance(50):
            self.random.shuffle(parts)
        return "\n".join(line for part in parts for line in part) + "\n"

    def function(self, function):
        name, count, self.is_void = function
        parameters = self.random.sample(self.NAMES, count) if count <= len(self.NAMES) else [f"p{number}" for number in range(count)]
        listed = ", ".join(f"{self.type_of(parameter)} {parameter}" for parameter in parameters) or self.pick(["", "void"])
        self.put(f"{'void' if self.is_void else self.result()} {name}({listed}) {{")
        self.enter({parameter: True for parameter in parameters})
        self.put(filling(name))
        self.put("if (fuel <= 0) return%s;" % ("" if self.is_void else " " + self.literal()))
        self.put("fuel = fuel - 1;")
        self.statements(self.random.randint(1, 5), 3)
        for name in self.scopes[-1]:
            self.seen(name, 20)
        self.leave()
        self.exit()
        self.put("}")

    def main(self):
        self.is_void = False
        self.put(self.pick(["int main() {", "int main(void) {"]))
        self.enter({})
        self.put(filling("main"))
        self.begin()
        self.statements(self.random.randint(3, 9), 3)
        if self.chance(10):
            self.put(f"show(deep({self.pick([40, 1000, 4090, 4094, 4095])}));")
        for name in self.names(False):
            self.seen(name, 70)
        self.leave()
        self.exit()
        self.put("}")

    def leave(self):
        if not self.is_void:
            self.put(f"return {self.expression(3)};")

    # Statements

    def statements(self, count, depth):
        for _ in range(count):
            kinds = self.simple_statements()
            if depth > 0:
                kinds = kinds + self.nested_statements()
            if self.loops and self.chance(40):
                kinds = [self.jump]
            self.pick(kinds)(depth - 1)

    def simple_statements(self):
        return [self.local, self.local, self.assignment, self.assignment, self.print, self.print, self.effect]

    def nested_statements(self):
        return [self.branch, self.branch, self.loop, self.loop, self.block, self.two_ways]

    def local(self, depth):
        free = [name for name in self.NAMES if name not in self.scopes[-1]]
        if free:
            name = self.pick(free)
            self.put(f"{self.type_of(name)} {name} = {self.expression(3)};")
            self.scopes[-1][name] = True
            self.seen(name, 30)

    def two_ways(self, depth):
        """A local that gets its value in both ways of a branch."""
        free = [name for name in self.NAMES if name not in self.globals and not any(name in scope for scope in self.scopes)]
        if free:
            name = self.pick(free)
            self.put(f"{self.type_of(name)} {name};")
            self.put(f"if ({self.expression(2)}) {name} = {self.expression(2)}; else {name} = {self.expression(2)};")
            self.scopes[-1][name] = True

    def assignment(self, depth):
        target = self.target()
        self.put(f"{target} = {self.expression(4)};")
        self.seen(target, 50)

    def seen(self, name, percent):
        """Prints a variable, mostly not."""
        if self.chance(percent):
            self.put(f"show({name});")

    def print(self, depth):
        self.put(f"{self.pick(['putchar', 'show', 'show'])}({self.expression(3)});")

    def effect(self, depth):
        """An expression whose value nothing uses."""
        void = [function for function in self.callees() if function[2]]
        self.put((self.call(self.pick(void), 2) if void and self.chance(60) else self.expression(3)) + ";")

    def open(self, line):
        self.put(line)
        self.enter({})

    def close(self):
        self.exit()
        self.put("}")

    def block(self, depth):
        self.open("{")
        self.statements(self.random.randint(1, 3), depth)
        self.close()

    def branch(self, depth):
        self.open(f"if ({self.expression(3)}) {{")
        self.statements(self.random.randint(0, 3), depth)
        self.close()
        if self.chance(50):
            self.open("else {")
            self.statements(self.random.randint(0, 3), depth)
            self.close()

    def loop(self, depth):
        """A loop with a counter that nothing else assigns; an inner block may hide it."""
        self.open("{")
        name, passes = self.pick(self.NAMES), self.random.randint(0, 4)
        self.scopes[-1][name] = False
        more = " && " + self.operand(2) if self.chance(40) else ""
        first, condition, step = self.pick(
            [
                (0, f"{name} < {passes}{more}", f"{name} = {name} + 1;"),
                (passes, name, f"{name} = {name} - 1;"),
                (passes + 1, f"({name} = {name} - 1){more}", ""),
                (0, f"({name} = {name} + 1) <= {passes}{more}", ""),
            ]
        )
        self.put(f"{self.type_of(name)} {name} = {first};")
        self.loops += 1
        self.open(f"while ({condition}) {{")
        if step:
            self.put(step)
        self.statements(self.random.randint(0, 3), depth)
        self.close()
        self.loops -= 1
        self.close()

    def jump(self, depth):
        leaves = ["break;", "continue;", "break;", "continue;", "return;" if self.is_void else f"return {self.expression(2)};"]
        self.put((f"if ({self.expression(2)}) " if self.chance(85) else "") + self.pick(leaves))

    # Expressions

    def literal(self):
        number = self.pick(EDGES) if self.chance(80) else self.random.randrange(2**31)
        return self.pick([str(number), str(number), hex(number)])

    def names(self, only_assignable):
        found = {name: True for name in self.globals}
        for scope in self.scopes:
            found.update(scope)
        return [name for name, assignable in found.items() if assignable or not only_assignable]

    def target(self):
        return self.pick(self.names(True) or ["fuel"])

    def expression(self, depth):
        if depth == 0 or self.chance(15):
            return self.pick(self.names(False)) if self.chance(60) else self.pick(["", "", "-"]) + self.literal()
        return self.pick(self.expressions())(depth - 1)

    def expressions(self):
        return [self.sum] * 10 + [self.sign] * 2 + [self.set, self.called, self.called, self.byte]

    def operand(self, depth):
        """An operand in brackets, or bare: then its own operators may group otherwise."""
        text = self.expression(depth)
        return text if self.chance(10 if " " in text else 80) else f"({text})"

    def sum(self, depth):
        sign, right = self.pick(SIGNS), self.operand(depth)
        if sign in ("<<", ">>") and self.chance(50):
            right = self.pick(["1", "7", "16", "31", "32", "35", "-1", "-30", "2147483647"])
        if sign in ("/", "%") and self.chance(95):
            right = f"({right} | 1)" if self.chance(50) else self.pick(["2", "-1", "10", "-3", "32768", "65537"])
        return f"{self.operand(depth)} {sign} {right}"

    def sign(self, depth):
        return f"{self.pick('-!~')}({self.expression(depth)})"

    def set(self, depth):
        return f"({self.target()} = {self.expression(depth)})"

    def byte(self, depth):
        return self.pick(["getchar()", f"putchar({self.expression(depth)})"])

    def called(self, depth):
        with_result = [function for function in self.callees() if not function[2]]
        return self.call(self.pick(with_result), depth) if with_result else self.literal()

    def call(self, function, depth):
        """A call; an argument that prints shows what was done before a call that there is no room for."""
        arguments = [self.byte(1) if self.chance(15) else self.expression(min(depth, 1)) for _ in range(function[1])]
        return f"{function[0]}({', '.join(arguments)})"

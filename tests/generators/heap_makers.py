"""Generates random programs with objects in the heap, pointers to them, and exceptions."""
from language.types import CHAR, HEAP, INT, pointer
from int_makers import NAMES, Maker

INT_STAR, INT_AT, INT_FAT = (pointer(mark, INT, HEAP) for mark in "*@?")
NODE = ("struct", "T", ())
NODE_STAR, NODE_AT = (pointer(mark, NODE, HEAP) for mark in "*@")
FATS, STARS = pointer("?", INT_FAT, HEAP), pointer("?", INT_STAR, HEAP)
WAY_STAR, WAY_AT = (pointer(mark, INT_STAR, HEAP) for mark in "*@")
ROUTINES = [
    "int ?make(int n) { return new {for i < (n & 3) + 1 : i * n + 1}; }",
    "int @cell(int n) { return new n; }",
    "struct T @node(int n, int ?`H f, struct T *`H next) { return new T{n, new (n + 1), f, next}; }",
    "int *choice(int *`H one, int *`H other, int n) { if (n & 1) return one; return other; }",
    "int get(int *p) { if (p) return *p; return -1; }",
    "int sum(int ?p) { int n = 0; int i = 0; while (i < numelts(p)) { n = n + p[i]; i = i + 1; } return n; }",
    "int last(struct T *t) { while (t) { if (!t->next) return t->a; t = t->next; } return -2; }",
]
THIN_ROUTINES = [
    "int @cell(int n) { return new n; }",
    "struct T @node(int n, struct T *`H next) { return new T{n, new (n + 1), next}; }",
    "int *choice(int *`H one, int *`H other, int n) { if (n & 1) return one; return other; }",
    "struct T *chain(int n) { struct T *t = NULL; while (n & 255) { t = node(n, t); n = n - 1; } return t; }",
] + [line for line in ROUTINES if line.startswith(("int get(", "int last("))]


def spelled(type, keeps_heap=False):
    """Returns the spelling of a type, with the heap's name if requested."""
    if type in (INT, CHAR):
        return type[0]
    if type[0] == "struct":
        return f"struct {type[1]}"
    region = f"`{type[3]}" if keeps_heap or type[3] != HEAP else ""
    return f"{spelled(type[2], keeps_heap)}{'' if type[2][0] == 'pointer' else ' '}{type[1]}{region}"


class HeapMaker(Maker):
    """Generates objects in the heap, and the three kinds of pointers to them."""

    TYPES = [INT_STAR, INT_AT, INT_AT, INT_FAT, INT_FAT, NODE_STAR, NODE_AT, FATS, STARS]
    FIELDS = {"a": INT, "n": INT_STAR, "f": INT_FAT, "next": NODE_STAR}

    def prepare(self):
        self.count = 0
        self.routines = list(ROUTINES)
        # For each open block, the names of its pointers with their types; the first entry contains
        # the globals.
        self.known = [{"gp": INT_STAR, "gf": INT_FAT, "gt": NODE_STAR}]

    def fresh(self, letter):
        """Returns an unused name."""
        self.count += 1
        return f"{letter}{self.count}_"

    def declarations(self):
        given = self.pick(["", " = NULL"])
        parts = [["struct T { int a; int *n; int ?f; struct T *next; };"], [f"int *gp{given};", "int ?gf;", "struct T *gt = NULL;"]]
        return parts + [[routine] for routine in self.routines]

    def enter(self, names):
        super().enter(names)
        self.known.append({})

    def exit(self):
        super().exit()
        self.known.pop()

    def simple_statements(self):
        ours = [self.pointer_local, self.pointer_local, self.pointer_assignment, self.store, self.store]
        return super().simple_statements() + ours

    def expressions(self):
        ours = [self.through, self.element, self.element, self.member, self.elements, self.comparison, self.routine]
        return super().expressions() + ours * 2

    def begin(self):
        for line in ("gp = cell(7);", "gf = make(6);", "gt = node(5, gf, node(4, gf, NULL));"):
            if self.chance(85):
                self.put(line)

    # Pointers

    def visible(self, fits):
        """Returns the visible pointers that fit, each with its type."""
        return [(name, type) for scope in self.known for name, type in scope.items() if fits(type)]

    def to(self, target, marks="*@?"):
        return self.visible(lambda type: type[2] == target and type[1] in marks and type[3] == HEAP)

    def pointer(self, type, depth):
        """Returns an expression that converts to a type of pointer into the heap."""
        mark, target = type[1], type[2]
        # converting a pointer to a pointer of a different kind (`*`, `@` or `?`) may raise an
        # exception
        marks = "*@?" if self.chance(15) else {"*": "*@", "@": "@", "?": "?@"}[mark]
        found = [name for name, _ in self.to(target, marks)]
        if found and self.chance(50):
            return self.pick(found)
        if mark != "@" and self.chance(15):
            return "NULL"
        ways = [self.made_pointer, self.made_pointer, self.derived]
        return self.pick(ways)(type, max(depth - 1, 0))

    def made_pointer(self, type, depth):
        mark, target = type[1], type[2]
        if mark == "?":
            return self.array(target, depth)
        if target == NODE:
            return f"node({self.simple(depth)}, {self.pointer(INT_FAT, 0)}, {self.pointer(NODE_STAR, 0)})"
        return f"new {self.held(target, depth)}"

    def array(self, target, depth):
        """Returns an array whose elements have exactly this type."""
        counter = self.fresh("i")
        length = self.random.randint(2, 5) if self.chance(93) else self.pick([0, 1, 334, 1000, 1001, "-1"])
        self.scopes.append({counter: False})
        element = self.held(target, depth) if self.chance(60) or target != INT else counter
        self.scopes.pop()
        return f"new {{for {counter} < {length} : {element}}}"

    def held(self, target, depth):
        """Returns an expression of exactly this type."""
        if target == INT:
            return self.bracketed(depth)
        if target == INT_FAT:
            return self.pick([f"make({self.simple(depth)})", "gf"])
        return f"choice({self.pointer(INT_STAR, 0)}, {self.pointer(INT_STAR, 0)}, {self.simple(depth)})"

    def bracketed(self, depth):
        return f"({self.expression(depth)})"

    def simple(self, depth):
        return self.expression(min(depth, 1))

    def index(self, depth):
        way = self.random.randrange(20)
        if way < 15:
            return str(way % 3)
        return f"({self.bracketed(min(depth, 1))} & 1)" if way < 19 else self.pick(["3", "-1", self.bracketed(min(depth, 1))])

    def derived(self, type, depth):
        """Returns a pointer derived from another one."""
        mark, target = type[1], type[2]
        fats = [name for name, _ in self.to(target, "?")]
        ways = [f"{name} + {self.bracketed(0)}" if self.chance(30) else f"{name} + {self.index(0)}" for name in fats if mark == "?"]
        ways += [f"&{name}[{self.index(depth)}]" for name in fats]
        ways += [f"&{name}->a" for name, _ in self.to(NODE, "@") if target == INT]
        ways += [f"{name}->{field}" for name, _ in self.to(NODE, "@") for field, found in self.FIELDS.items() if found == type]
        ways += [f"({name} = {self.pointer(found, 0)})" for name, found in self.to(target) if found[1] == mark]
        return self.pick(ways) if ways else self.made_pointer(type, depth)

    # Statements

    def pointer_local(self, depth):
        type, name = self.pick(self.TYPES), self.fresh("q")
        self.put(f"{spelled(type, self.chance(20))} {name} = {self.pointer(type, 2)};")
        self.known[-1][name] = type

    def pointer_assignment(self, depth):
        name, type = self.pick(self.visible(lambda type: type[3] == HEAP))
        self.put(f"{name} = {self.pointer(type, 2)};")

    def store(self, depth):
        ways = [(f"*{name}", INT) for name, _ in self.to(INT, "@")]
        ways += [(f"{name}[{self.index(1)}]", INT) for name, _ in self.to(INT, "?")]
        ways += [(f"{name}->{field}", type) for name, _ in self.to(NODE, "@") for field, type in self.FIELDS.items()]
        ways += [(f"{name}[{self.index(0)}]", type[2]) for name, type in self.to(INT_FAT) + self.to(INT_STAR)]
        place, type = self.pick(ways + [("gp", INT_STAR)])
        self.put(f"{place} = {self.expression(2) if type == INT else self.pointer(type, 1)};")

    # Returns the text of an int expression that reads an int through a pointer.

    def through(self, depth):
        found = self.to(INT, "*@")
        if not found:
            return self.literal()
        name, type = self.pick(found)
        return f"*{name}" if type[1] == "@" or self.chance(8) else f"({name} && *{name})"

    def element(self, depth):
        found = [name for name, _ in self.to(INT, "?")]
        found += [f"{name}[{self.index(0)}]" for name, _ in self.to(INT_FAT)]
        if not found:
            return self.literal()
        name = self.pick(found)
        return f"{name}[{self.index(depth)}]" if self.chance(15) else f"(numelts({name}) > 2 && {name}[{self.index(depth)}])"

    def member(self, depth):
        found = self.to(NODE, "*@")
        if not found:
            return self.literal()
        name, type = self.pick(found)
        value = self.pick([f"{name}->a", f"get({name}->n)", f"sum({name}->f)", f"last({name}->next)"])
        return value if type[1] == "@" or self.chance(8) else f"({name} != NULL && {value})"

    def elements(self, depth):
        name = self.pick(self.visible(lambda type: type[1] == "?"))[0]
        return f"numelts({self.pick([name, name, f'{name} + {self.index(depth)}', f'make({self.simple(depth)})'])})"

    def comparison(self, depth):
        name, type = self.pick(self.visible(lambda type: True))
        others = [other for other, found in self.visible(lambda found: found[2] == type[2] and found[1] != "?")]
        if type[1] != "?" and others and self.chance(60):
            return f"({name} {self.pick(['==', '!='])} {self.pick(others)})"
        return self.pick([f"({name} == NULL)", f"(NULL != {name})", f"!{name}", f"({name} && {self.bracketed(depth)})"])

    def routine(self, depth):
        call = self.pick(["get", "sum", "last"])
        return f"{call}({self.pointer({'get': INT_STAR, 'sum': INT_FAT, 'last': NODE_STAR}[call], depth)})"


class PointerMaker(HeapMaker):
    """Generates objects in the heap, with only thin pointers to them."""

    TYPES = [INT_STAR, INT_STAR, INT_AT, INT_AT, NODE_STAR, NODE_AT, WAY_STAR, WAY_AT]
    FIELDS = {"a": INT, "n": INT_STAR, "next": NODE_STAR}

    def prepare(self):
        super().prepare()
        self.routines = list(THIN_ROUTINES)
        self.known = [{"gp": INT_STAR, "gw": WAY_STAR, "gt": NODE_STAR}]

    def declarations(self):
        given = self.pick(["", " = NULL"])
        parts = [["struct T { int a; int *n; struct T *next; };"], [f"int *gp{given};", "int **gw;", "struct T *gt = NULL;"]]
        return parts + [[routine] for routine in self.routines]

    def expressions(self):
        return Maker.expressions(self) + [self.through, self.member, self.member, self.comparison, self.routine] * 2

    def begin(self):
        for line in ("gp = cell(7);", "gw = new gp;", "gt = node(5, node(4, NULL));", f"gt = chain({self.random.randrange(256)});"):
            if self.chance(85):
                self.put(line)

    def made_pointer(self, type, depth):
        if type[2] == NODE:
            return f"node({self.simple(depth)}, {self.pointer(NODE_STAR, 0)})"
        return f"new {self.held(type[2], depth)}"

    def derived(self, type, depth):
        ways = [f"*{name}" for name, _ in self.to(INT_STAR, "@") if type == INT_STAR]
        ways += [f"&*{name}" for name, _ in self.to(type[2], "*@")]
        return self.pick(ways) if ways and self.chance(40) else super().derived(type, depth)

    def store(self, depth):
        ways = [(f"*{name}", target) for target in (INT, INT_STAR) for name, _ in self.to(target, "@")]
        ways += [(f"{name}->{field}", type) for name, _ in self.to(NODE, "@") for field, type in self.FIELDS.items()]
        place, type = self.pick(ways + [("gp", INT_STAR)])
        self.put(f"{place} = {self.expression(2) if type == INT else self.pointer(type, 1)};")

    def member(self, depth):
        found = self.to(NODE, "*@")
        if not found:
            return self.literal()
        name, type = self.pick(found)
        value = self.pick([f"{name}->a", f"get({name}->n)", f"last({name}->next)"])
        return value if type[1] == "@" or self.chance(8) else f"({name} != NULL && {value})"

    def routine(self, depth):
        call = self.pick(["get", "last"])
        return f"{call}({self.pointer({'get': INT_STAR, 'last': NODE_STAR}[call], depth)})"


# --- Exceptions ---


class ExceptionMaker(HeapMaker):
    """Generates explicit throws and failed checks, and clauses that catch them."""

    OWN = {"E0": False, "E1": True, "E2": True}
    BUILT_IN = ["Null_Exception", "Array_bounds", "Array_size", "Div_zero"]

    def declarations(self):
        exceptions = ["datatype exn { E0; E1(int); };", "datatype exn { E2(int); };"]
        risky = "int risky(int n) { if (n % 7 == 3) throw new E0; if (n < 0) throw new E1(n); return 100 / (n % 5) + n; }"
        return super().declarations() + [exceptions, [risky]]

    def simple_statements(self):
        return super().simple_statements() + [self.throw]

    def nested_statements(self):
        return super().nested_statements() + [self.tried] * 4

    def expressions(self):
        return super().expressions() + [self.risky] * 2

    def risky(self, depth):
        return f"risky({self.simple(depth)})"

    def throw(self, depth):
        name = self.pick(list(self.OWN) + self.BUILT_IN)
        value = f"({self.expression(2)})" if self.OWN.get(name) else ""
        self.put(f"{'if (' + self.expression(2) + ') ' if self.chance(90) else ''}throw new {name}{value};")

    def tried(self, depth):
        self.open("try {")
        self.statements(self.random.randint(1, 4), depth)
        if self.chance(30):
            self.throw(depth)
        self.close()
        self.put("catch {")
        names = self.random.sample(list(self.OWN) + self.BUILT_IN, self.random.randint(0, 3))
        for name in names:
            self.clause(f"case &{name}", self.OWN.get(name), depth)
        if not names or self.chance(50):
            self.clause("default", False, depth)
        self.put("}")

    def clause(self, head, has_int, depth):
        name = self.pick(NAMES)
        self.put(f"{head}{'(' + name + ')' if has_int else ''}:")
        self.enter({name: True} if has_int else {})
        self.put(f"putchar({self.pick([33, 35, 63])});")
        self.statements(self.random.randint(0, 2), depth)
        self.exit()

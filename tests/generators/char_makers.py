"""Generates random programs with chars, combined with ints only or with all other forms."""
from language.types import CHAR, HEAP, pointer
from heap_makers import INT_FAT
from int_makers import CHAR_GLOBAL, CHAR_NAMES, NAMES, Maker
from region_makers import RegionMaker


class Chars:
    """Adds variables, parameters and results of type char to another generator."""

    NAMES = NAMES + CHAR_NAMES

    def prepare(self):
        super().prepare()
        self.globals += self.random.sample([name for name in CHAR_NAMES if name not in self.globals], 2) + [CHAR_GLOBAL]

    def type_of(self, name):
        return "char" if name in CHAR_NAMES or name == CHAR_GLOBAL else "int"

    def result(self):
        return self.pick(["int", "char"])

    def ints(self):
        return [name for name in self.names(True) if self.type_of(name) == "int"] or ["fuel"]

    def chars(self):
        return [name for name in self.names(True) if self.type_of(name) == "char"]

    def expressions(self):
        return super().expressions() + [self.low_byte] * 3

    def low_byte(self, depth):
        return f"char({self.expression(depth)})"


class CharMaker(Chars, Maker):
    """Generates programs with only ints and chars in variables."""


CHAR_STAR, CHAR_AT, CHAR_FAT = (pointer(mark, CHAR, HEAP) for mark in "*@?")
BYTES = ("struct", "B", ())
BYTES_AT = pointer("@", BYTES, HEAP)
BYTE_FIELDS = ["a", "b", "c", "d"]
BYTE_ROUTINES = [
    "struct B @bytes(char a, int n, char b, int ?`H f) { return new B{a, n, b, a + b, f, a - b}; }",
    "char ?word(int n) { return new {for i < (n & 7) + 1 : char(n + i)}; }",
    "void print(char ?s) { int i = 0; while (i < numelts(s)) { putchar(s[i]); i = i + 1; } putchar('\\n'); }",
    "char mixed(char ?`r s) { char h = 7; int i = 0; while (i < numelts(s)) { h = h * 31 + s[i]; i = i + 1; } return h; }",
    "char got(char *p) { if (p) return *p; return -1; }",
    "int spent(char ?`U u) { int n = numelts(u); if (n > 0) n = n * 256 + u[n - 1]; ufree(u); return n; }",
    "char ?`U kept(int n) { return rnew(unique_region) {for i < n : char(i * n)}; }",
    "int fields(struct B *`r b) { if (b) return (((b->a * 31 + b->b) * 31 + b->c) * 31 + b->d) * 31 + b->n + numelts(b->f); return -5; }",
    "char cut(int n) { return n; }",
    "int widened(char c) { return c; }",
    "char tossed(char c, int n) { if (n & 1) throw new E1(c + n); if (n & 2) throw new E2(c); return c + n; }",
]


class ByteMaker(Chars, RegionMaker):
    """Generates programs with cells that are chars: elements, and fields among ints and fat pointers."""

    TYPES = RegionMaker.TYPES + [CHAR_STAR, CHAR_AT, CHAR_FAT, CHAR_FAT, CHAR_FAT, BYTES_AT, BYTES_AT]
    LENGTHS = [1, 2, 3, 4, 5, 6, 7, 8, 9]
    ODD_LENGTHS = [0, 255, 256, 3999, 4000, 4001, "-1"]

    def prepare(self):
        super().prepare()
        self.routines += BYTE_ROUTINES
        self.known[0].update({"gs": CHAR_FAT, "gb": BYTES_AT[:1] + ("*",) + BYTES_AT[2:]})

    def declarations(self):
        struct = ["struct B { char a; int n; char b; char c; int ?f; char d; };"]
        return super().declarations() + [struct, ["char ?gs;", "struct B *gb = NULL;"]]

    def begin(self):
        super().begin()
        for line in ("gs = word(6);", "gb = bytes('x', 1, 'y', gf);"):
            if self.chance(85):
                self.put(line)
        for name in ("cut", "widened"):
            self.put(f"show({name}({self.pick(['', '-'])}{self.literal()}));")

    def simple_statements(self):
        ours = [self.char_store, self.char_store, self.char_swap, self.char_swap, self.char_address, self.printed, self.unique_chars]
        return super().simple_statements() + ours + [self.char_edge, self.char_tossed]

    def expressions(self):
        return super().expressions() + [self.char_cell, self.char_cell, self.char_routine] * 2

    def bracketed(self, depth):
        """Returns an expression of type int, made by an operator."""
        return f"({self.expression(depth)} | 0)"

    def held(self, target, depth):
        return self.low_byte(depth) if target == CHAR else super().held(target, depth)

    def made_pointer(self, type, depth):
        if type[2] == BYTES:
            values = ", ".join(self.simple(depth) for _ in range(3))
            return self.pick([f"bytes({values}, gf)", f"new B{{{values}, {self.simple(0)}, {self.pointer(INT_FAT, 0)}, {self.simple(0)}}}"])
        if type == CHAR_FAT and self.chance(30):
            return f"word({self.simple(depth)})"
        return super().made_pointer(type, depth)

    def derived(self, type, depth):
        fields = [f"&{name}->{self.pick(BYTE_FIELDS)}" for name, _ in self.to(BYTES, "@") if type[2] == CHAR]
        return self.pick(fields) if fields and self.chance(50) else super().derived(type, depth)

    def array(self, target, depth):
        """Returns an array of chars, whose length differs from those of arrays of words."""
        if target != CHAR:
            return super().array(target, depth)
        counter = self.fresh("i")
        length = self.pick(self.LENGTHS) if self.chance(93) else self.pick(self.ODD_LENGTHS)
        self.scopes.append({counter: False})
        element = self.low_byte(depth) if self.chance(60) else f"char({counter} + {self.pick([0, 65, 250])})"
        self.scopes.pop()
        return f"new {{for {counter} < {length} : {element}}}"

    def char_cells(self):
        """Returns lvalues of type char."""
        places = [f"*{name}" for name, _ in self.to(CHAR, "@")]
        places += [f"{name}[{self.pick([0, 1, 2, 3, self.index(1)])}]" for name, _ in self.to(CHAR, "?")]
        return places + [f"{name}->{field}" for name, _ in self.to(BYTES, "@") for field in BYTE_FIELDS]

    def char_cell(self, depth):
        cells = self.char_cells() or self.names(False)
        fats = [name for name, _ in self.to(CHAR, "?")]
        if fats and self.chance(40):
            name = self.pick(fats)
            return self.pick([f"(numelts({name}) > 3 && {name}[{self.random.randrange(4)}])", f"(numelts({name}) ^ {self.literal()})"])
        return self.pick(cells)

    def char_routine(self, depth):
        if self.chance(40):
            return self.converting_call()
        if self.chance(50):
            return f"got({self.pointer(CHAR_STAR, depth)})"
        return f"mixed({self.pointer(CHAR_FAT, depth)})"

    def converting_call(self):
        """Returns a call that converts an int to a char, as its argument or as its result."""
        return f"{self.pick(['cut', 'widened'])}({self.expression(1)})"

    def char_store(self, depth):
        place = self.pick(self.char_cells() + self.chars())
        self.put(f"{place} = {self.expression(2)};")

    def char_swap(self, depth):
        cells = self.char_cells() + self.chars()
        self.put(f"{self.pick(cells)} :=: {self.pick(cells)};")

    def char_address(self, depth):
        """Returns a pointer to a variable of type char; adjacent memory must stay unchanged."""
        name, value = self.fresh("q"), self.pick(self.chars())
        self.put(f"char {self.pick('@*?')} {name} = &{value};")
        self.put(f"*{name} = *{name} {self.pick('+-^*')} {self.literal()};")
        self.seen(value, 50)

    def printed(self, depth):
        structs = [f"show(fields({name}));" for name, _ in self.to(BYTES, "*@")]
        chars = [f"print({self.pointer(CHAR_FAT, 1)});", f"show(mixed({self.pointer(CHAR_FAT, 1)}));"]
        self.put(self.pick(structs if structs and self.chance(50) else chars))

    def char_edge(self, depth):
        """Returns a store to the last byte of an array, or to the one after it, which throws a caught exception."""
        name = self.pick([name for name, _ in self.to(CHAR, "?")])
        place = f"{name}[numelts({name}){self.pick(['', '', ' - 1', ' - 1', ' + 1'])}]"
        self.put(f"try {place} = {self.expression(1)}; catch {{ case &Array_bounds: show(mixed({name})); default: ; }}")
        self.put(f"show(mixed({name}));")

    def char_tossed(self, depth):
        """Returns a char that a function returns, or that is thrown as an int and caught."""
        clauses = "case &E1(n): show(n); case &E2(n): { putchar(n); show(n); }" + self.pick(["", " default: ;"])
        self.put(f"show({self.converting_call()});")
        self.put(f"try show(tossed({self.expression(1)}, {self.expression(1)})); catch {{ {clauses} }}")

    def unique_chars(self, depth):
        """Returns an array whose block belongs to a class of unique blocks, and frees it."""
        name, length = self.fresh("w"), self.pick([1, 4, 5, 64, 65, 4000])
        made = [f"kept({length})", f"rnew(unique_region) {{for {name}i_ < {length} : char({name}i_ ^ {self.random.randrange(300)})}}"]
        self.open("{")
        self.put(f"char ?`U {name} = {self.pick(made)};")
        self.put(f"{name}[{self.random.randrange(length)}] = {self.expression(1)};")
        self.put(f"show(spent({name}));")
        self.close()

"""Makes the texts of random programs with unique pointers, regions and keys."""
from language.types import HEAP, INT, UNIQUE, pointer
from heap_makers import ExceptionMaker, spelled
from int_makers import Maker

# --- Unique pointers ---

OWN_AT, OWN_STAR, OWN_FAT = (pointer(mark, INT, UNIQUE) for mark in "@*?")
UNIQUE_ROUTINES = [
    "void eat(int *`U u) { ufree(u); }",
    "int eaten(int ?`U u) { int n = numelts(u); ufree(u); return n; }",
    "int @`U grown(int @`U u) { *u = *u + 1; return u; }",
    "int *`U fresh(int n) { return rnew(unique_region) n; }",
    "int ?`U row(int n) { return rnew(unique_region) {for i < (n & 3) + 1 : n - i}; }",
]


class Owned:
    """A unique pointer in a local: its type, whether it is full, and the block and the loop in which it may be emptied."""

    def __init__(self, type, block):
        self.type, self.block, self.is_full = type, block, True


class UniqueMaker(ExceptionMaker):
    """Unique pointers, which are moved and given back where they are declared, and swaps."""

    def prepare(self):
        super().prepare()
        self.routines += UNIQUE_ROUTINES
        self.owned = []
        self.blocks = 0

    def declarations(self):
        owner = ["struct O { int a; int *`U own; };", "int *`U gu;", "int ?`U gv = NULL;"]
        return super().declarations() + [owner]

    def enter(self, names):
        super().enter(names)
        self.blocks += 1
        self.owned.append({})

    def exit(self):
        super().exit()
        self.owned.pop()

    def simple_statements(self):
        ours = [self.own_local, self.own_local, self.consume, self.give_again, self.write_own, self.swap, self.swap]
        return super().simple_statements() + ours

    def nested_statements(self):
        return super().nested_statements() + [self.both_ways, self.lent]

    def expressions(self):
        return super().expressions() + [self.peek] * 3

    def full(self, marks="*@?", is_here=False):
        """The unique pointers that are full, or those that may be emptied here."""
        scopes = self.owned[-1:] if is_here else self.owned
        return [(name, one.type) for scope in scopes for name, one in scope.items() if one.is_full and one.type[1] in marks]

    def own(self, type, depth):
        """A new unique pointer of a type."""
        if type[1] == "?":
            return self.pick([f"row({self.simple(depth)})", "rnew(unique_region) " + self.array(INT, depth)[4:]])
        ways = [f"rnew(unique_region) {self.bracketed(depth)}", f"grown(rnew(unique_region) {self.bracketed(depth)})"]
        return self.pick(ways + ([f"fresh({self.simple(depth)})", "NULL"] if type[1] == "*" else []))

    def own_local(self, depth):
        type, name = self.pick([OWN_AT, OWN_STAR, OWN_FAT]), self.fresh("u")
        self.put(f"{spelled(type)} {name} = {self.own(type, 1)};")
        self.owned[-1][name] = Owned(type, self.blocks)

    def emptied(self, name):
        self.owned[-1][name].is_full = False

    def consume(self, depth):
        found = self.full(is_here=True)
        if not found:
            return self.own_local(depth)
        name, type = self.pick(found)
        self.emptied(name)
        self.put(self.consumed(name, type))

    def consumed(self, name, type):
        ways = [f"ufree({name});", f"show(eaten({name}));"]
        ways += [f"eat({name});"] if type[1] != "?" else []
        ways += [f"{name} = grown({name});"] if type == OWN_AT and self.chance(50) else []
        text = self.pick(ways)
        if text.startswith(f"{name} = "):
            self.owned[-1][name].is_full = True
        return text

    def give_again(self, depth):
        found = list(self.owned[-1])
        if not found:
            return self.own_local(depth)
        name = self.pick(found)
        self.owned[-1][name].is_full = True
        self.put(f"{name} = {self.own(self.owned[-1][name].type, 1)};")

    def write_own(self, depth):
        found = self.full("@?")
        if found:
            name, type = self.pick(found)
            self.put(f"{'*' + name if type[1] == '@' else name + '[0]'} = {self.expression(2)};")

    def peek(self, depth):
        found = self.full()
        if not found:
            return self.literal()
        name, type = self.pick(found)
        if type[1] == "?":
            return self.pick([f"numelts({name})", f"{name}[{self.index(0)}]", f"({name} == NULL)"])
        value = f"*{name}"
        return self.pick([value if type[1] == "@" else f"({name} && {value})", f"!{name}", f"({name} != NULL)"])

    def swap(self, depth):
        name, type = self.pick(self.full("*?") or [("gu", OWN_STAR)])
        mates = [other for other, found in self.full(type[1])] + [{"*": "gu", "?": "gv"}[type[1]]]
        ints = [f"*{found}" for found, _ in self.to(INT, "@")] + [f"{found}[0]" for found, _ in self.to(INT, "?")]
        ints += self.ints()
        if self.chance(50):
            name, mates = self.pick(ints), ints
        self.put(f"{name} :=: {self.pick(mates)};")

    def both_ways(self, depth):
        """A unique pointer that is emptied in both ways of a branch."""
        found = self.full(is_here=True)
        if not found:
            return self.own_local(depth)
        name, type = self.pick(found)
        self.emptied(name)
        one, other = (self.pick([f"ufree({name});", f"show(eaten({name}));"]) for _ in range(2))
        self.put(f"if ({self.expression(2)}) {one} else {{ {other} {self.pick(['', 'putchar(64);'])} }}")

    def lent(self, depth):
        """A list of owners that is built and given back by swaps."""
        name, count = self.fresh("o"), self.random.randint(1, 3)
        self.put(f"struct O @{name} = new O{{{self.simple(1)}, NULL}};")
        mate = self.fresh("u")
        self.put(f"int *`U {mate} = {self.own(OWN_STAR, 1)};")
        for _ in range(count):
            self.put(f"{name}->own :=: {mate};")
            self.put(f"if ({mate}) show(*{mate});")
        self.put(f"ufree({mate});")


# --- Regions and keys ---

REGION_ROUTINES = [
    "int look(int *`r p) { if (p) return *p; return -3; }",
    "int both(int *`a p, int @`b q) { return look(p) + *q; }",
    "int *`b keep(int *`a p, int *`b q; {} : `a > `b) { return p; }",
    "int @`r inside(region_t<`r> h, int n) { return rnew(h) n; }",
    "int ?`r rowed(region_t<`r> h, int n) { return rnew(h) {for i < (n & 3) + 1 : i + n}; }",
    "struct L<`r> @`r linked(region_t<`r> h, int n, struct L<`r> *`r next) { return rnew(h) L<`r>{n, next}; }",
    "int length(struct L<`r> *`r l) { int n = 0; while (l) { n = n + l->v; l = l->next; } return n; }",
    "void shut(uregion_key_t<`k> k) { free_ukey(k); }",
    "int keyed(uregion_key_t<`k> k, int n) { region<`k> h = open(k); int @`k p = rnew(h) n; return *p + look(p); }",
]


class RegionMaker(UniqueMaker):
    """Addresses of variables, lexical regions, labels, aliases, dynamic regions and their keys."""

    def prepare(self):
        super().prepare()
        self.routines += REGION_ROUTINES

    def declarations(self):
        return super().declarations() + [["struct L<`r> { int v; struct L<`r> *`r next; };"]]

    def simple_statements(self):
        return super().simple_statements() + [self.address] * 2

    def nested_statements(self):
        return super().nested_statements() + [self.lexical, self.lexical, self.labelled, self.aliased, self.dynamic, self.dynamic]

    def expressions(self):
        return super().expressions() + [self.stacked]

    def stacked(self, depth):
        """The value in a pointer to something that is no heap object."""
        found = self.visible(lambda type: type[3] not in (HEAP, UNIQUE) and type[2] == INT)
        if not found:
            return self.literal()
        name, type = self.pick(found)
        if type[1] == "?":
            return self.pick([f"{name}[0]", f"numelts({name})"])
        one = self.pick(found)[0]
        return self.pick([f"*{name}", f"look({name})", f"both({one}, {name})", f"get({name})"])

    def to(self, target, marks="*@?"):
        """Also pointers to places that are no heap objects may be written through."""
        return super().to(target, marks)

    def address(self, depth):
        """A pointer to an int variable, whose region is left out."""
        name, value = self.fresh("q"), self.pick(self.ints())
        self.put(f"int @{name} = &{value};")
        self.known[-1][name] = pointer("@", INT, "?")
        self.put(f"*{name} = *{name} {self.pick('+-^')} {self.literal()};")

    def open_region(self, name, handle):
        """Pointers into a region by its handle, and what is done with them."""
        for _ in range(self.random.randint(1, 3)):
            one = self.fresh("q")
            mark = self.pick("@@?")
            made = [f"rnew({handle}) {self.bracketed(1)}", f"inside({handle}, {self.simple(1)})"]
            if mark == "?":
                made = [f"rowed({handle}, {self.simple(1)})", f"rnew({handle}) " + self.array(INT, 1)[4:]]
            self.put(f"int {mark}`{name} {one} = {self.pick(made)};")
            self.known[-1][one] = pointer(mark, INT, name)
        if self.chance(40):
            one = self.fresh("l")
            self.put(f"struct L<`{name}> *`{name} {one} = linked({handle}, 5, linked({handle}, {self.simple(1)}, NULL));")
            self.put(f"show(length({one}));")

    def lexical(self, depth):
        name, handle = self.fresh("r"), self.fresh("h")
        self.open("{")
        self.put(f"region<`{name}> {handle};")
        self.open_region(name, handle)
        self.statements(self.random.randint(1, 3), depth)
        self.close()

    def labelled(self, depth):
        label, value, one = self.fresh("B"), self.fresh("y"), self.fresh("q")
        self.open(f"{label}: {{")
        self.put(f"int {value} = {self.expression(2)};")
        self.scopes[-1][value] = True
        self.put(f"int *`{label} {one} = &{value};")
        self.known[-1][one] = pointer("@", INT, label)
        for outer in self.ints()[:1]:
            kept = self.fresh("q")
            self.put(f"int *{kept} = keep(&{outer}, {one});")
            self.put(f"show(*{kept});")
        self.statements(self.random.randint(0, 2), depth)
        self.close()

    def aliased(self, depth):
        if not self.full("@*"):
            name = self.fresh("u")
            self.put(f"{spelled(OWN_AT)} {name} = {self.own(OWN_AT, 1)};")
            self.owned[-1][name] = Owned(OWN_AT, self.blocks)
        name, type = self.pick(self.full("@*"))
        region, alias = self.fresh("a"), self.fresh("x")
        locked = [scope[name] for scope in self.owned if name in scope][0]
        self.open("{")
        self.put(f"let alias <`{region}> int {type[1]}`{region} {alias} = {name};")
        self.known[-1][alias] = pointer("@", INT, region) if type[1] == "@" else pointer("*", INT, "?")
        locked.is_full = False
        self.put(f"show(look({alias}));")
        if type[1] == "@":
            self.put(f"*{alias} = {self.expression(2)};")
        self.statements(self.random.randint(0, 2), depth)
        locked.is_full = True
        self.known[-1].pop(alias)
        self.close()

    def dynamic(self, depth):
        """A dynamic region that is opened once or twice, and then mostly closed."""
        region, key, handle, one = (self.fresh(letter) for letter in "kkhq")
        self.open("{")
        self.put(f"let NewDynamicRegion{{<`{region}> {key}}} = new_ukey();")
        self.put(f"int *`{region} {one} = NULL;")
        for _ in range(self.random.randint(0, 2)):
            self.open("{")
            self.put(f"region<`{region}> {handle} = open({key});")
            self.put(f"if ({one}) show(*{one});")
            self.put(f"{one} = rnew({handle}) {self.bracketed(1)};")
            self.open_region(region, handle)
            self.statements(self.random.randint(0, 2), depth)
            self.close()
        self.put(self.pick([f"shut({key});", f"free_ukey({key});", f"show(keyed({key}, {self.simple(1)}));", ""]))
        self.put(f"if ({one} != NULL) putchar(61);")
        self.close()


# --- Regions that are opened turn by turn ---

TURN_ROUTINES = [
    "int @`r inside(region_t<`r> h, int n) { return rnew(h) n; }",
    "int ?`r rowed(region_t<`r> h, int n) { return rnew(h) {for i < (n & 3) + 1 : i + n}; }",
    "int summed(int n) { region<`s> h; int ?`s p = rowed(h, n); int @`s q = inside(h, numelts(p)); return *q + p[0]; }",
]


class TurnMaker(Maker):
    """Ints, and lexical regions that are opened in each turn of a loop, now and then one inside another, and what is made in them."""

    def prepare(self):
        super().prepare()
        self.count = 0

    def declarations(self):
        return super().declarations() + [[line] for line in TURN_ROUTINES]

    def nested_statements(self):
        return super().nested_statements() + [self.turns] * 3 + [self.lasting] * self.chance(15)

    def expressions(self):
        return super().expressions() + [self.summed]

    def summed(self, depth):
        """A call of a function that opens a region of its own."""
        return f"summed({self.operand(depth)})"

    def opened(self, depth):
        """A region to the end of the block, and what is made in it."""
        self.count += 1
        name, handle = f"r{self.count}_", f"h{self.count}_"
        self.put(f"region<`{name}> {handle};")
        for number in range(self.random.randint(0, 3)):
            made = f"q{self.count}_{number}"
            if self.chance(50):
                self.put(f"int @`{name} {made} = {self.pick([f'rnew({handle}) ({self.expression(1)})', f'inside({handle}, {self.expression(1)})'])};")
                self.put(f"show(*{made});")
            else:
                self.put(f"int ?`{name} {made} = {self.pick([f'rowed({handle}, {self.expression(1)})', f'rnew({handle}) {{for i_ < {self.pick([3, 40, 600])} : i_}}'])};")
                self.put(f"show(numelts({made}) + {made}[0]);")
        self.statements(self.random.randint(0, 2), depth)

    def turns(self, depth):
        """A loop of which each turn opens a region, or a region that is opened once."""
        self.count += 1
        name = f"t{self.count}_"
        self.open("{")
        is_loop = self.chance(70)
        if is_loop:
            self.put(f"int {name} = {self.random.randint(0, 3)};")
            self.loops += 1
            self.open(f"while ({name} > 0) {{")
            self.put(f"{name} = {name} - 1;")
        self.opened(depth)
        if is_loop:
            self.close()
            self.loops -= 1
        self.close()

    def lasting(self, depth):
        """An object on the heap, by `new` or by the heap's handle."""
        self.put(self.pick([f"show(*new ({self.expression(1)}));", f"show(*rnew(heap_region) ({self.expression(1)}));"]))

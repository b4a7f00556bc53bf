"""Makes the texts of random programs, by profile: ints, and beside them thin pointers, heap objects, exceptions, unique pointers, regions
and keys; and chars, beside ints alone and beside all of them.

A program is made so that it is mostly accepted and ends soon. Whether it is, the reference says (`tests/references/reference.py`). The
makers stand in modules by what their programs have: `int_makers`, `heap_makers`, `region_makers` and `char_makers`.
"""
from char_makers import ByteMaker, CharMaker
from heap_makers import ExceptionMaker, HeapMaker, PointerMaker
from int_makers import Maker
from region_makers import RegionMaker, TurnMaker, UniqueMaker

PROFILES = {"ints": Maker, "pointers": PointerMaker, "heap": HeapMaker, "exceptions": ExceptionMaker, "unique": UniqueMaker}
PROFILES.update({"regions": RegionMaker, "chars": CharMaker, "bytes": ByteMaker})


class InRows:
    """Before a profile: each function calls those before it alone, so that none leads back to itself."""

    SHOW = """int deep(int n) { return n; }
void show(int n) {
  int place = 1;
  if (n < 0) putchar('-'); else n = -n;
  while (n / place / 10 != 0) place = place * 10;
  while (place > 0) { putchar('0' - n / place % 10); place = place / 10; }
  putchar('\\n');
}
"""
    caller = None

    def function(self, function):
        self.caller = function
        super().function(function)
        self.caller = None

    def callees(self):
        return self.functions if self.caller is None else self.functions[: self.functions.index(self.caller)]


class WithoutLoops(InRows):
    """Before a profile: beside that, no statement of the program's own functions is a loop."""

    SHOW = """int deep(int n) { return n; }
void digit(int n) { if ((n & 15) < 10) putchar('0' + (n & 15)); else putchar('a' - 10 + (n & 15)); }
void show(int n) { digit(n >> 12); digit(n >> 8); digit(n >> 4); digit(n); putchar('\\n'); }
"""

    def nested_statements(self):
        return [statement for statement in super().nested_statements() if statement != self.loop]


def before(way):
    """The profiles with what stands before them."""
    return {name: type(f"{way.__name__}{maker.__name__}", (way, maker), {}) for name, maker in PROFILES.items()}


# The makers of random programs without recursion, whose calls therefore have a bound; and the
# makers of random programs without loops, whose number of steps has a bound.
IN_ROWS, WITHOUT_LOOPS = before(InRows), before(WithoutLoops)
# The program makers whose regions mostly close before a loop's next iteration.
IN_TURNS = {"turns": type("InRowsTurnMaker", (InRows, TurnMaker), {})}
# The program makers that use only ints and chars.
OF_NUMBERS = ("ints", "chars")
# The program makers whose programs are compared with equal programs in C.
BESIDE_C = ("chars", "bytes")

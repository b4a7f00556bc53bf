"""Texts of one form each, over and over: a production of the grammar, or a table of the program, where it is longest or deepest.

A text is so many tokens long. Each word between spaces is one token, but for two minus signs that stand close, and but in the shapes whose
length is told by bytes. Beside these shapes stands the usual text, a program of this language and of C.
"""
import chosen_names

# ---- the usual text

FUNCTION = """
int f{0} ( int a , int b ) {{
  int c = a * 3 + b ; int d = 0 ;
  while ( c > 10 && d < 100 ) {{
    c = c / 2 - ( d << 1 ) ;
    if ( c == b ) d = d + f{1} ( c - 1 , a ) ; else {{ d = d + 2 ; }}
  }}
  return c * d - ( a + b ) % 7 ;
}}
"""
MAIN = "int main ( ) { @ return f0 ( 1 , 2 ) ; }"
SMALL = "int main ( ) { return 0 ; }"


def text_of(count):
    """A program of so many tokens. It is filled up with empty statements in `main`."""
    functions, tokens = [], len(MAIN.split()) - 1
    while True:
        function = FUNCTION.format(len(functions), max(len(functions) - 1, 0))
        tokens += len(function.split())
        if tokens > count:
            break
        functions.append(function)
    text = "".join(functions) + MAIN
    return text.replace("@", ";" * (count - len(text.split()) + 1))


# ---- shapes

# The last lines that `check` and `compile` print: for an accepted text, and for a text that needs a
# stack frame that is too large.
DONE, FRAME = "done", "fault 51"
# The maximum cost of a text for each token or byte, relative to the cost of the usual text (an ordinary program). The first limit is for
# an accepted text, the second for a rejected text, whose faults need a further pass. A shape of texts in which every token causes more
# work of one sort sets its own maximum, as docs/FIGURES.md explains.
MOST, MOST_REFUSED, MOST_ONE_KEY = 1.5, 10.0, 2.1


class Shape:
    """What stands before, a part that is repeated with its number for each `#`, and what stands behind, in which a second part is repeated
    for each `@`. Most texts are accepted, and some are so by `check` alone, since a frame is too large."""

    def __init__(self, before, part, behind, more="", checked=DONE, compiled=None, by_bytes=False, most=None):
        self.before, self.part, self.behind, self.more, self.by_bytes = before, part, behind, more, by_bytes
        self.said = {"check": checked, "compile": compiled or checked}
        self.most = most or (MOST if checked == DONE else MOST_REFUSED)

    def size(self, text):
        return len(text) if self.by_bytes else len(text.replace("--", " - - ").split())

    def count(self, length):
        """How many parts fit in a text as long as the usual one of so many tokens; one at least."""
        room = len(text_of(length)) if self.by_bytes else length
        fixed = self.size(self.before + self.behind)
        return max(1, (room - fixed) // (self.size(self.part) + self.size(self.more)))

    def text(self, count):
        """A text of so many parts."""
        parts = "".join(self.part.replace("#", str(number)) for number in range(count))
        more = "".join(self.more.replace("#", str(number)) for number in range(count))
        return self.before + parts + self.behind.replace("@", more)

    def given(self, count):
        """The file of so many parts, how large it is, and the options of its commands."""
        text = self.text(count)
        return text.encode("latin-1"), self.size(text), []

    def usual(self, length):
        """The same of the usual text of so many tokens, or of a program of one line, which has none that count."""
        text = text_of(length) if length else SMALL
        return text.encode("latin-1"), (len(text) if self.by_bytes else length) if length else 0, []


class Named(Shape):
    """Exceptions whose names are chosen, as many as are asked for, as `datatype exn` takes them. Beside them stand random ones of the same
    lengths."""

    def __init__(self, names, most_names=60_000, **rest):
        super().__init__("", "A ; ", PROGRAM_BEHIND, **rest)
        self.names, self.most_names = names, most_names

    def size(self, text):
        return len(text.replace(";", " ; ").split())

    def count(self, length):
        return min(length * 30 // 64, self.most_names)

    def declared(self, names):
        lists = [names[at:at + AS_MANY] for at in range(0, len(names), AS_MANY)]
        return "".join("datatype exn { " + " ; ".join(part) + " ; } ; " for part in lists) + self.behind

    def text(self, count):
        return self.declared(self.names(count))

    def usual(self, length):
        if length == 0:
            return super().usual(0)
        text = self.declared(chosen_names.at_random(self.names(self.count(length))))
        return text.encode("ascii"), self.size(text), []


class Long(Shape):
    """A text of a few tokens, with a name of so many letters for each `~`."""

    def __init__(self, text, **rest):
        super().__init__("", "a" * text.count("~"), text.replace("~", ""), by_bytes=True, **rest)
        self.whole = text

    def text(self, count):
        return self.whole.replace("~", "a" * count)


IN_MAIN = "int main ( ) { "
BEHIND = " return 0 ; }"
PROGRAM_BEHIND = " int main ( ) { return 0 ; }"
# The maximum number of a list's elements, an operator chain's operators or a type's pointer signs (`*`, `@`, `?`); the
# maximum nesting depth in a function body; and the maximum nesting depth in an initial value.
AS_MANY, IN_BODY, IN_VALUE = 64, 199, 198


def listed(item, between=" , ", count=AS_MANY, first=0):
    """A list whose items have their numbers for `%`."""
    return between.join(item.replace("%", str(number)) for number in range(first, first + count))


def nested(opening, middle, closing, count):
    """A form in itself."""
    return opening * count + middle + closing * count


def chained(operand, operator, count=AS_MANY):
    """A chain of so many operators."""
    return f" {operator} ".join([operand] * (count + 1))


FIELDS = listed("int f%", " ; ") + " ; "
REGIONS = listed("`r%")
MARKS = " ".join("*" * AS_MANY)
# A struct with 64 region parameters, and a pointer to the struct with about 60 pointer signs (`*`, `@`, `?`).
# In the type of a parameter, each pointer sign has its own region.
WIDE = f"struct W < {REGIONS} > {{ int * `r63 f ; }} ; "
WIDE_POINTER = f"struct W < {REGIONS} > " + " ".join("*" * 60)


def wide_parameters(count):
    """Parameters of pointers to such structs, with regions of their own."""
    return " , ".join(f"struct W < {listed(f'`q{number}_%')} > {' '.join('*' * 60)} p{number}" for number in range(count))


def in_a_row(count):
    """So many constraints, each between what the one before it ends with and the next region."""
    return " , ".join(f"`r{number} > `r{number + 1}" for number in range(count))


DECLARATIONS = {
    "functions over pointers": Shape("", "int f# ( int * a ) { return * a ; } ", PROGRAM_BEHIND),
    "functions with a constraint": Shape("", "int f# ( int * `r a , int * `s b : `r > `s ) { b = a ; return * b ; } ", PROGRAM_BEHIND),
    "functions of 64 parameters": Shape("", f"int f# ( {listed('int a%')} ) {{ return a63 ; }} ", PROGRAM_BEHIND),
    "functions with an effect of 64 regions": Shape(
        WIDE, f"int f# ( {WIDE_POINTER} a ; {{ {REGIONS} }} ) {{ return 0 ; }} ", PROGRAM_BEHIND),
    "functions with 64 constraints in a row": Shape(
        WIDE, f"int f# ( {WIDE_POINTER} a : {in_a_row(63)} , `r0 > `r63 ) {{ return 0 ; }} ", PROGRAM_BEHIND),
    "functions with 32 constraints in a row, and 32 of one region": Shape(
        WIDE, f"int f# ( {WIDE_POINTER} a : {listed('`r63 > `r0', count=32)} , {in_a_row(32)} ) {{ return 0 ; }} ", PROGRAM_BEHIND),
    "parameters of 64 marks": Shape("", f"int f# ( int {MARKS} a ) {{ return 0 ; }} ", PROGRAM_BEHIND),
    "64 parameters of 64 regions and 60 marks": Shape(
        WIDE, f"int f# ( {wide_parameters(AS_MANY)} ) {{ return 0 ; }} ", PROGRAM_BEHIND),
    "structs": Shape("", "struct S# { int a ; int * b ; struct S# * c ; } ; ", PROGRAM_BEHIND),
    "structs of 64 fields": Shape("", "struct S# { " + FIELDS + "} ; ", PROGRAM_BEHIND),
    "structs of 64 regions": Shape("", f"struct S# < {REGIONS} > {{ int * `r63 f ; }} ; ", PROGRAM_BEHIND),
    "exceptions": Shape("", "datatype exn { A# ; } ; ", PROGRAM_BEHIND),
    "64 exceptions at once": Shape("", f"datatype exn {{ {listed('A#_% ; B#_% ( int )', ' ; ', 32)} ; }} ; ", PROGRAM_BEHIND),
    "globals": Shape("", "int * g# ; ", PROGRAM_BEHIND),
    "globals with values": Shape("", "int a# = - 1 ; char b# = 'b' ; int ? c# = NULL ; ", PROGRAM_BEHIND),
    "globals of 64 marks": Shape("", f"int {MARKS} g# ; ", PROGRAM_BEHIND),
    "globals of 64 regions": Shape(WIDE, f"struct W < {listed('`H')} > * g# ; ", PROGRAM_BEHIND),
}

# A function whose constraints relate the regions of its two pointer parameters and the region of its key.
BY_KEY = "int f ( uregion_key_t < `k > k , int * `a p , int * `b q ; { `a , `b } : `k > `a , `a > `b ) { region < `k > h = open ( k ) ; "
ITEMS = {
    "locals": Shape(IN_MAIN, "int @ p# = new 1 ; ", BEHIND, compiled=FRAME),
    "functions of 200 locals": Shape("", f"void f# ( ) {{ {listed('int a% = %', ' ; ', 200)} ; }} ", PROGRAM_BEHIND),
    "locals that hide each other": Shape(IN_MAIN, nested("{ int x ; ", "", "} ", IN_BODY - 1), BEHIND, compiled=FRAME),
    "blocks": Shape(IN_MAIN, "{ } ", BEHIND),
    "blocks in blocks": Shape(IN_MAIN, nested("{ ", "", "} ", IN_BODY), BEHIND),
    "labels": Shape(IN_MAIN, "L# : { } ", BEHIND),
    "regions": Shape(IN_MAIN, "region < `r# > h# ; ", BEHIND, compiled=FRAME),
    "functions of 50 regions": Shape("", f"void f# ( ) {{ {listed('region < `r% > h%', ' ; ', 50)} ; }} ", PROGRAM_BEHIND),
    "regions and pointers into older ones": Shape(
        IN_MAIN + "int x = 1 ; ", "region < `r# > h# ; int * `r# p# = & x ; ", BEHIND, compiled=FRAME),
    "objects in new regions": Shape(IN_MAIN, "region < `r# > h# ; int * `r# p# = rnew ( h# ) 1 ; ", BEHIND, compiled=FRAME),
    "keys": Shape(IN_MAIN, "let NewDynamicRegion { < `k# > k# } = new_ukey ( ) ; ", BEHIND, compiled=FRAME),
    "opened keys": Shape(
        IN_MAIN, "let NewDynamicRegion { < `k# > k# } = new_ukey ( ) ; region < `k# > h# = open ( k# ) ; ", BEHIND, compiled=FRAME),
    "a key that is opened again and again": Shape(
        IN_MAIN + "let NewDynamicRegion { < `k > k } = new_ukey ( ) ; ", "{ region < `k > h = open ( k ) ; } ", BEHIND, compiled=FRAME),
    "regions behind a key that a constraint names": Shape(
        BY_KEY, "region < `r# > h# ; ", BEHIND + PROGRAM_BEHIND, compiled=FRAME),
    "pointers into older regions behind such a key": Shape(
        BY_KEY, "region < `r# > h# ; int * `r# p# = p ; p# = q ; ", BEHIND + PROGRAM_BEHIND, compiled=FRAME),
    "unique pointers and aliases": Shape(
        IN_MAIN, "int @ `U u# = rnew ( unique_region ) 1 ; let alias < `a# > int @ `a# x# = u# ; ", BEHIND, compiled=FRAME),
}

TWO_THOUSAND = IN_MAIN + "int x = 1 ; " + "".join(f"int @ `U u{number} = rnew ( unique_region ) 1 ; " for number in range(2000))
LISTS = "struct L { int n ; struct L * next ; } ; " + IN_MAIN + "struct L * p = NULL ; struct L * q = NULL ; "
STATEMENTS = {
    "empty statements": Shape(IN_MAIN, "; ", BEHIND),
    "values that nobody uses": Shape(IN_MAIN + "int x = 1 ; ", "x == 2 ; ", BEHIND),
    "two minus signs": Shape(IN_MAIN + "int x = 1 ; ", "x = --x ; ", BEHIND),
    "branches": Shape(IN_MAIN + "int x = 1 ; ", "if ( x ) x = 2 ; else x = 3 ; ", BEHIND),
    "branches in branches": Shape(IN_MAIN + "int x = 1 ; ", nested("if ( x ) ", "x = 2 ; ", "", IN_BODY - 1), BEHIND),
    "branches behind else": Shape(IN_MAIN + "int x = 1 ; ", nested("if ( x ) x = 2 ; else ", "x = 3 ; ", "", IN_BODY - 1), BEHIND),
    "loops": Shape(IN_MAIN + "int x = 1 ; ", "while ( x ) { if ( x == 2 ) break ; if ( x == 3 ) continue ; x = x - 1 ; } ", BEHIND),
    "loops in loops": Shape(IN_MAIN + "int x = 1 ; ", nested("while ( x ) ", "x = x - 1 ; ", "", IN_BODY - 1), BEHIND),
    "a loop of everything": Shape(IN_MAIN + "int x = 1 ; int y = 2 ; while ( x ) { ", "x = x + y ; ", "}" + BEHIND),
    "ways out of a loop": Shape(IN_MAIN + "int x = 1 ; while ( x ) { ", "if ( x == 2 ) break ; ", "}" + BEHIND),
    "returns": Shape(IN_MAIN + "int x = 1 ; ", "if ( x ) return x ; ", BEHIND),
    "a local and a branch": Shape(IN_MAIN, "int x# = 1 ; if ( x# ) ; ", BEHIND, compiled=FRAME),
    "a local and a loop": Shape(IN_MAIN, "int x# = 1 ; while ( x# ) ; ", BEHIND, compiled=FRAME),
    "a local and a try": Shape(IN_MAIN, "int x# ; try ; catch { default : } ", BEHIND, compiled=FRAME),
    "a local and an array": Shape(IN_MAIN, "int ? x# = new { for i < 1 : 1 } ; ", BEHIND, compiled=FRAME),
    "2,000 locals and branches": Shape(TWO_THOUSAND, "if ( x = 1 ) ; else { } ", BEHIND, compiled=FRAME),
    "locks and ways out of a loop": Shape(
        IN_MAIN + "int x = 1 ; " + listed("int @ `U u% = rnew ( unique_region ) 1", " ; ", 400) + " ; while ( x ) { "
        + listed("let alias < `a% > int @ `a% x% = u%", " ; ", 400) + " ; ", "if ( x ) break ; ", "}" + BEHIND, compiled=FRAME),
    "throws": Shape("datatype exn { A ( int ) ; } ; " + IN_MAIN + "int x = 1 ; ", "if ( x ) throw new A ( x ) ; ", BEHIND),
    "throws and clauses": Shape("", "void f# ( ) { try throw new Div_zero ; catch { case & Div_zero : ; default : ; } } ", PROGRAM_BEHIND),
    "clauses of one try": Shape("", "datatype exn { A# ; } ; ", " int main ( ) { try ; catch { @ } return 0 ; }", "case & A# : "),
    "clauses with an int": Shape(
        "", "datatype exn { A# ( int ) ; } ; ", " int main ( ) { int x = 0 ; try ; catch { @ } return x ; }", "case & A# ( n ) : x = n ; ",
        compiled=FRAME),
    "a try in a try": Shape(IN_MAIN + "int x = 1 ; ", nested("try ", "x = 2 ; ", "catch { default : } ", IN_BODY - 1), BEHIND, compiled=FRAME),
    "20 tries in each other": Shape("", "void f# ( int x ) { " + nested("try ", "x = 2 ; ", "catch { default : } ", 20) + "} ", PROGRAM_BEHIND),
    "moves in 190 tries": Shape(
        "int main ( ) { int @ `U u = rnew ( unique_region ) 1 ; " + "try " * 190 + "{ ", "u = u ; ", "} " + "catch { default : } " * 190 + BEHIND,
        compiled=FRAME),
    "swaps": Shape(IN_MAIN + "int * p = NULL ; int * q = NULL ; ", "p :=: q ; ", BEHIND, most=1.7),
    "swaps of fields": Shape(LISTS, "p -> next :=: q -> next ; ", BEHIND),
    "swaps of fat elements": Shape(IN_MAIN + "int ? none = NULL ; int ? ? a = new { for i < 2 : none } ; ", "a [ 0 ] :=: a [ 1 ] ; ", BEHIND),
}

ALL_LEVELS = "1 || 1 && 1 | 1 ^ 1 & 1 == 1 < 1 << 1 + 1 * "
WITH_INTS = IN_MAIN + "int x = 1 ; int y = 2 ; "
WITH_ARRAY = IN_MAIN + "int x = 1 ; int ? a = new { for i < 2 : 0 } ; "
WITH_FUNCTION = "int f ( int n ) { return n ; } " + WITH_INTS


def value(before, expression, behind=BEHIND, **rest):
    """A shape of assignments of such an expression."""
    return Shape(before, f"x = {expression} ; ", behind, **rest)


EXPRESSIONS = {
    "sums of 65": value(WITH_INTS, chained("y", "+")),
    "products of 65": value(WITH_INTS, chained("y", "*")),
    "quotients of 65": value(WITH_INTS, chained("y", "/")),
    "65 behind `||`": value(WITH_INTS, chained("y", "||")),
    "65 behind `&&`": value(WITH_INTS, chained("y", "&&")),
    "conditions of 65": Shape(WITH_INTS, f"if ( {chained('y', '&&')} ) ; ", BEHIND),
    "loops with conditions of 65": Shape(WITH_INTS, f"while ( {chained('y', '||')} ) ; ", BEHIND),
    "operators of all levels": value(WITH_INTS, ALL_LEVELS + "y"),
    "brackets behind operators of all levels": value(WITH_INTS, nested(ALL_LEVELS + "( ", "y ", ") ", IN_VALUE), compiled=FRAME),
    "20 brackets behind operators of all levels": value(WITH_INTS, nested(ALL_LEVELS + "( ", "y ", ") ", 20)),
    "brackets in brackets": value(WITH_INTS, nested("( ", "y ", ") ", IN_VALUE)),
    "minus signs": value(WITH_INTS, nested("- ", "y ", "", IN_VALUE)),
    "negations": value(WITH_INTS, nested("! ", "y ", "", IN_VALUE)),
    "complements": value(WITH_INTS, nested("~ ", "y ", "", IN_VALUE)),
    "bytes of bytes": value(WITH_INTS, nested("char ( ", "y ", ") ", IN_VALUE)),
    "addresses and what they lead to": value(WITH_INTS, nested("* & ", "y ", "", 99)),
    "dereferences of 64 marks": value(IN_MAIN + f"int x = 1 ; int {MARKS} p = NULL ; ", "* " * AS_MANY + "p"),
    "indices of 64 marks": value(IN_MAIN + f"int x = 1 ; int {MARKS.replace('*', '?')} p = NULL ; ", "p " + "[ 0 ] " * AS_MANY),
    "64 fields": Shape(LISTS, "p = q " + "-> next " * AS_MANY + "; ", BEHIND),
    "the last of 64 fields": Shape(
        "struct S { " + FIELDS + "} ; int f ( struct S @ s ) { ", "s -> f63 ; ", " return 0 ; } " + PROGRAM_BEHIND),
    "elements": Shape(WITH_ARRAY, "a [ x ] = a [ 0 ] + 1 ; ", BEHIND),
    "indices in indices": value(WITH_ARRAY, nested("a [ ", "x ", "] ", IN_VALUE), compiled=FRAME, most=2.2),
    "50 indices in each other": value(WITH_ARRAY, nested("a [ ", "x ", "] ", 50)),
    "peeks in peeks": value(IN_MAIN + "int x = 1 ; int ? `U a = rnew ( unique_region ) { for i < 2 : 0 } ; ",
                            nested("a [ ", chained("x", "+") + " ", "] ", IN_VALUE), compiled=FRAME, most=2.0),
    "elements of bytes": Shape(
        IN_MAIN + "int x = 1 ; char ? a = new { for i < 2 : char ( 0 ) } ; ", "a [ x ] = a [ 0 ] + 1 ; ", BEHIND),
    "calls": Shape(WITH_FUNCTION, "f ( x ) ; ", BEHIND),
    "calls in calls": value(WITH_FUNCTION, nested("f ( ", "y ", ") ", IN_VALUE)),
    "calls of 64 arguments": Shape(f"int f ( {listed('int a%')} ) {{ return a0 ; }} " + WITH_INTS, f"f ( {listed('x')} ) ; ", BEHIND),
    "calls of 60 fat arguments": Shape(
        f"int f ( {listed('int ? a%', count=60)} ) {{ return 0 ; }} " + IN_MAIN + "int ? p = NULL ; ", f"f ( {listed('p', count=60)} ) ; ", BEHIND),
    "calls with 64 constraints": Shape(
        "int f ( int * `a p , int * `b q : " + " , ".join(["`a > `b"] * AS_MANY) + " ) { return * q ; } " + IN_MAIN + "int * p = NULL ; ",
        "f ( p , p ) ; ", BEHIND),
    "calls with 64 marks": Shape(
        f"int f ( int {MARKS} p ) {{ return 0 ; }} " + IN_MAIN + f"int {MARKS} p = NULL ; ", "f ( p ) ; ", BEHIND),
    "calls over 64 regions and 60 marks": Shape(
        WIDE + f"int f ( {WIDE_POINTER} p ) {{ return 0 ; }} int g ( {WIDE_POINTER} p ) {{ ", "f ( p ) ; ", BEHIND + PROGRAM_BEHIND),
    "calls of 64 arguments over 64 regions and 60 marks": Shape(
        WIDE + f"int f ( {wide_parameters(AS_MANY)} ) {{ return 0 ; }} int g ( {WIDE_POINTER} p ) {{ ", f"f ( {listed('p')} ) ; ",
        BEHIND + PROGRAM_BEHIND),
    "objects where 8,000 regions are live": Shape(
        WIDE + f"int f ( {wide_parameters(AS_MANY - 1)} , int @ y ) {{ ", "* y = 1 ; ", BEHIND + PROGRAM_BEHIND),
    "assignments in assignments": value(WITH_INTS, "x = " * (IN_VALUE - 1) + "y", compiled=FRAME),
    "70 assignments in each other": value(WITH_INTS, "x = " * 69 + "y"),
    "assignments in 190 operands of `&&`": value(
        f"int f ( {listed('int a%')} ) {{ return a0 ; }} " + WITH_INTS,
        nested("1 && ( ", chained(f"f ( {listed('x = 1')} )", "+", 9), ") ", 190), compiled=FRAME),
    "moves in 190 operands of `&&`": Shape(
        f"int f ( {listed('int @ `U u%')} ) {{ return 1 ; }} ", "void g# ( ) { int x = 1 ; "
        + listed("int @ `U u% = rnew ( unique_region ) 1", " ; ", 320) + " ; x = "
        + nested("1 && ( ", " + ".join(f"f ( {listed('u%', first=64 * call)} )" for call in range(5)), " ) ", 190) + " ; } ",
        PROGRAM_BEHIND, compiled=FRAME),
    "objects": Shape(IN_MAIN + "int * p = NULL ; ", "p = new 1 ; ", BEHIND),
    "objects of 64 fields": Shape(
        "struct S { " + FIELDS + "} ; " + IN_MAIN + "struct S * p = NULL ; ", f"p = new S {{ {listed('%')} }} ; ", BEHIND),
    "objects in a region": Shape(IN_MAIN + "region < `r > h ; int * `r p = NULL ; ", "p = rnew ( h ) 1 ; ", BEHIND),
    "unique objects": Shape(IN_MAIN, "ufree ( rnew ( unique_region ) 1 ) ; ", BEHIND),
    "moves": Shape(IN_MAIN + "int * `U p = rnew ( unique_region ) 1 ; int * `U q = NULL ; ", "q = p ; p = q ; ", BEHIND),
    "arrays": Shape(IN_MAIN + "int ? a = NULL ; ", "a = new { for i < 4 : i } ; ", BEHIND),
    "arrays in arrays": value(WITH_INTS, "numelts ( " + nested("new { for i < 1 : ", "y ", "} ", 98) + ")", compiled=FRAME),
    "lengths": value(WITH_ARRAY, "numelts ( a )", most=1.6),
    "conversions": Shape(IN_MAIN + "int ? a = NULL ; int * p = NULL ; ", "p = a ; a = p ; ", BEHIND),
    "pointers that move": Shape(WITH_ARRAY, "a = a + 1 ; ", BEHIND),
    "comparisons of pointers": value(IN_MAIN + "int x = 1 ; int * p = NULL ; ", "p == p"),
    "great numbers": Shape(IN_MAIN + "int x = 1 ; ", "x = x + 12345# ; ", BEHIND),
}


# ---- names, and bytes

NAMES = {
    "names, each once": Shape("", f"datatype exn {{ {listed('A#x% ;', ' ')} }} ; ", PROGRAM_BEHIND),
    "names at one end of a table": Named(chosen_names.clustered),
    "names of one key": Named(chosen_names.of_one_key, most=MOST_ONE_KEY),
    "names of one key that begin alike": Named(chosen_names.alike_of_one_key, 9_000, most=MOST_ONE_KEY),
    "names of one key for any base": Named(chosen_names.woven, 1_900, most=MOST_ONE_KEY),
    "names in order": Named(chosen_names.in_order),
    "names of a thousand letters": Shape("", f"int {'a' * 990}# ; ", PROGRAM_BEHIND, by_bytes=True),
    "comments": Shape(IN_MAIN, "/* a * / */ // b\n", BEHIND, by_bytes=True),
    "a comment": Shape(IN_MAIN + "/*", " it is said * here", "*/" + BEHIND, by_bytes=True),
    "bytes beyond ASCII in a comment": Shape(IN_MAIN + "/*", "\xc3\xa9\xe2\x82\xac", "*/" + BEHIND, by_bytes=True),
    "spaces": Shape(IN_MAIN, " \t\r\n", BEHIND, by_bytes=True),
    "digits": Shape("int x = 0x", "0", "1 ;" + PROGRAM_BEHIND, by_bytes=True),
}

# ---- texts that are refused

REFUSED = {
    "a name that is unknown at the end": Shape(IN_MAIN + "int x = 1 ; ", "x = x + 1 ; ", "y = 1 ;" + BEHIND, checked="fault 20"),
    "an int for a pointer at the end": Shape(IN_MAIN + "int * p = NULL ; ", "p = new 1 ; ", "p = 1 ;" + BEHIND, checked="fault 22"),
    "a region that is gone at the end": Shape(
        IN_MAIN + "int x = 1 ; int * p = & x ; ", "L# : { int y = 1 ; int * `L# q = & y ; } ", "M : { int y = 1 ; p = & y ; }" + BEHIND,
        checked="fault 25"),
    "a local that is empty at the end": Shape(IN_MAIN + "int y ; ", "int x# = 1 ; x# = 2 ; ", "x0 = y ;" + BEHIND, checked="fault 40"),
    "a pointer that is moved in a branch": Shape(
        IN_MAIN + "int @ `U u = rnew ( unique_region ) 1 ; int x = 1 ; if ( x ) ufree ( u ) ; ", "if ( x ) ; ", "ufree ( u ) ;" + BEHIND,
        checked="fault 40"),
    "a loop that empties a variable": Shape(
        IN_MAIN + "int @ `U u = rnew ( unique_region ) 1 ; int x = 1 ; while ( x ) { ufree ( u ) ; ", "if ( x ) ; ", "}" + BEHIND,
        checked="fault 42"),
    "an end that is reached": Shape(IN_MAIN + "int x = 1 ; ", "if ( x ) return 1 ; ", "}", checked="fault 43"),
    "a token too many": Shape(IN_MAIN + "int x = 1 ; ", "x = 2 ; ", ") ;" + BEHIND, checked="fault 10"),
    "a text that is cut off": Shape(IN_MAIN + "int x = 1 ; ", "x = 2 ; ", "x = 2", checked="fault 11"),
    "a long name that is unknown": Shape("int main ( ) { ", "a", " = 1 ; return 0 ; }", checked="fault 20", by_bytes=True),
    # for each kind of text listed below, a message is printed for the first fault of the text and
    # for up to twenty further faults
    "a name that is unknown in each function": Shape("", "void f# ( int x ) { x = 1 ; x = y ; } ", PROGRAM_BEHIND, checked="fault 20"),
    "an int for a pointer in each function": Shape("", "void f# ( int * p ) { p = NULL ; p = 1 ; } ", PROGRAM_BEHIND, checked="fault 22"),
    "a local that is empty in each function": Shape("", "void f# ( ) { int x ; int y = 1 ; y = x ; } ", PROGRAM_BEHIND, checked="fault 40"),
    "a token too many in each function": Shape("", "void f# ( int x ) { x = 1 ; x = ) ; } ", PROGRAM_BEHIND, checked="fault 10"),
    "a byte that is none in each function": Shape("", "void f# ( int x ) { x = 1 ; x = $ ; } ", PROGRAM_BEHIND, checked="fault 1"),
    "mistakes in the last functions": Shape(
        "", "void f# ( int x ) { x = 1 ; x = x + 2 ; } ",
        "".join(f"void g{n} ( int x ) {{ x = y ; }} " for n in range(21)) + PROGRAM_BEHIND, checked="fault 20"),
    "a type of long names": Long(
        "struct A~ < `b~ > { int f ; } ; int f ( struct A~ < `c~ > * `d~ p ) { p = 1 ; return 0 ; }" + PROGRAM_BEHIND, checked="fault 22"),
}

TEXTS = {**DECLARATIONS, **ITEMS, **STATEMENTS, **EXPRESSIONS, **NAMES, **REFUSED}

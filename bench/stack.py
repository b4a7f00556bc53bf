#!/usr/bin/env python3
"""Measures the stack of the program, and finds the texts that need the most. Not a test: it prints figures.

    make bench        or        python3 bench/stack.py [PROGRAM]

Each form of the language that nests is nested in itself, and alternately in each other form, as deep as a text may nest. Before each form
come the operators of all ten levels, the two that take no word of a frame, or none. For the pairs that take the most, a third form is tried
at each place. The innermost expression is a number, or, if the text takes much, an invalid expression; that is then put at each possible
place. The longest lists are measured too. The maxima of accepted and of rejected texts come last. A MB is 2^20 bytes.

The figure is the size of the stack when the program ends, with the few words of the command line and the environment; stack.c, compiled by
cc and loaded before the C library, reports it. Each run has at least the stack that a shell gives.
"""
import itertools
import os
import resource
import subprocess
import sys
import tempfile

HERE = os.path.dirname(os.path.abspath(__file__))
PROGRAM = os.path.join(HERE, "..", "crates", "cyclone", "out", "cyclone")
STACK = 64 * 1024 * 1024
# The operators that stand before the nested expression in each variant of the generated texts:
# none, two operators that branch, or operators of all precedence levels.
OPERATORS = {"": "", ", behind two operators that branch": "1||1&&", ", behind operators of all levels": "1||1&&1|1^1&1==1<1<<1+1*"}
DEEPEST = 199
# The beginning of each generated text: structs, functions, and the declarations of the body of
# `main`.
STRUCTS = "struct S { int m; }; struct T { " + "".join(f"int m{number}; " for number in range(64)) + "}; datatype exn { X(int); }; "
FUNCTIONS = (
    "int f(int x){ return x; } int g(" + ", ".join(f"int x{number}" for number in range(64)) + "){ return x0; } "
    "int ?h(int x){ return NULL; } struct S *k(int x){ return NULL; } region_t<`H> r(int x){ return heap_region; } "
)
HEAD = STRUCTS + FUNCTIONS + "int main(){ int a; int ?p = new {for i < 1 : 0}; int *q = NULL; struct S *s = NULL; "
# The contexts in which an expression can stand within an expression, and the number of nesting
# levels that each context adds.
EXPRESSIONS = {
    "brackets": ("(", ")", 1),
    "an operand in front": ("(", ")+1", 1),
    "an operand in front of all levels": ("(", ")*1+1<<1<1==1&1^1|1&&1||1", 1),
    "an index": ("p[", "]", 1),
    "an index of what a call answers": ("h(", ")[0]", 1),
    "a field of what a call answers": ("k(", ")->m", 1),
    "a call": ("f(", ")", 1),
    "the first of 64 arguments": ("g(", ",1" * 63 + ")", 1),
    "the last of 64 arguments": ("g(" + "1," * 63, ")", 1),
    "a minus sign": ("-", "", 1),
    "a negation": ("!", "", 1),
    "a complement": ("~", "", 1),
    "an address of an element": ("*&p[", "]", 3),
    "a dereference of a new object": ("*new ", "", 2),
    "a dereference of an object in a region": ("*rnew(heap_region)", "", 2),
    "the handle of an object's region": ("*rnew(r(", "))1", 4),
    "a field of a new struct": ("(new S{", "})->m", 3),
    "the last of 64 fields": ("(new T{" + "1," * 63, "})->m0", 3),
    "the length of a new array": ("numelts(new {for i<", ":1})", 3),
    "elements of a new array": ("numelts(new {for i<1:", "})", 3),
    "an assignment": ("(a=", ")", 2),
    "an assignment to an element": ("(p[0]=", ")", 2),
    "an assignment by a pointer": ("(*q=", ")", 2),
    "an assignment to a field": ("(s->m=", ")", 2),
    "an index that is assigned": ("(p[", "]=1)", 2),
    "a cast to char": ("char(", ")", 1),
    "an assignment in an index": ("p[a=", "]", 2),
}
# The syntactic positions in which an expression can stand outside any other expression.
PLACES = {
    "what is returned": ("return ", ";"),
    "a statement": ("", ";"),
    "an initial value": ("int z=", ";"),
    "a condition": ("if(", ");"),
    "the condition of a loop": ("while(", ");"),
    "what is thrown": ("throw new X(", ");"),
    "the left side of a swap": ("p[", "]:=:p[0];"),
    "the right side of a swap": ("p[0]:=:p[", "];"),
    "what is freed": ("ufree(rnew(unique_region)(", "));"),
}
# The contexts in which a statement can stand within a statement, with the number of nesting levels
# that each context adds.
STATEMENTS = {
    "a block": ("{", "}", 1),
    "a block of a label": ("L#:{", "}", 1),
    "an if": ("if(1)", "", 1),
    "an else": ("if(1)return 1;else ", "", 1),
    "a while": ("while(1)", "", 1),
    "a block with a variable": ("{int a#=1;", "}", 1),
    "a block with a region": ("{region<`r#> h#;", "}", 1),
    "a block with an alias": ("{int@`U u#=rnew(unique_region)1;let alias<`a#>int@`a# x#=u#;", "}", 1),
    "a block with an opened key": ("{let NewDynamicRegion{<`k#>k#}=new_ukey();region<`k#>h#=open(k#);", "}", 1),
    "a try": ("try ", "catch{default:}", 1),
    "a clause": ("try;catch{case&Div_zero:", "}", 1),
    "a clause with an int": ("try;catch{case&X(n):", "}", 1),
    "the default of a catch": ("try;catch{default:", "}", 1),
    "an if in a block": ("{if(1)", "return 0;}", 2),
}
# The innermost expressions that replace the nested expression: a valid one, and invalid ones.
VALUES = {"a number": "1", "a name that is not declared": "x", "a variable that is empty": "a", "NULL": "NULL", "nothing": ""}
ENDS = {"a return": "return 0;", "nothing to return": ";", "a name that is not declared": "return x;", "no statement": ""}


def numbered(text, count):
    return "".join(text.replace("#", str(number)) for number in range(1, count + 1))


# The longest possible lists of each kind, in texts of 60,000 tokens.
LISTS = {
    "statements": "int main(){" + ";" * 59991 + "return 0;}",
    "globals": numbered("int a#;", 19997) + "int main(){return 0;}",
    "variables": "int main(){" + numbered("int a#;", 19997) + "return 0;}",
    "functions": numbered("void f#(){}", 9998) + "int main(){return 0;}",
}


# The commands that take no source text, and the commands that take the most recently compiled
# image.
OTHERS = (["run", "text.elf"], ["disasm", "text.elf"], ["info", "text.elf"], ["explain", "51"], ["explain"], ["--help"])


class Shape:
    """Forms nested alternately, down to the innermost expression, and the place of the outermost one."""

    def __init__(self, forms, before, middle, kind, place="what is returned"):
        self.forms, self.before, self.middle, self.kind, self.place = forms, before, middle, kind, place

    def name(self):
        forms = ", ".join(form for form, _ in self.forms)
        return f"{forms}{self.before}; in the middle {self.middle[0]}" + (f"; {self.place}" if self.kind is EXPRESSIONS else "")

    def text(self, deepest):
        """Returns the text with this depth of nesting."""
        opened, closed, depth = "", "", 0
        for number, (_, (opening, closing, levels)) in enumerate(itertools.cycle(self.forms)):
            if depth + levels > deepest:
                break
            opened += OPERATORS[self.before] + opening.replace("#", str(number))
            closed = closing + closed
            depth += levels
        whole = opened + self.middle[1] + closed
        front, back = PLACES[self.place] if self.kind is EXPRESSIONS else ("", "")
        return HEAD + front + whole + back + " return 0; }"


class Meter:
    """Runs the program on texts, and records its maximum stack."""

    def __init__(self, program, folder):
        self.program, self.folder, self.most = program, folder, {}
        self.library, self.said = os.path.join(folder, "stack.so"), os.path.join(folder, "said")
        subprocess.run(["cc", "-shared", "-fPIC", "-O1", "-o", self.library, os.path.join(HERE, "stack.c")], check=True)

    def run(self, words):
        """Returns the stack in bytes, the last line and the status."""

        def limit():
            resource.setrlimit(resource.RLIMIT_STACK, (STACK, resource.getrlimit(resource.RLIMIT_STACK)[1]))

        environment = {"LD_PRELOAD": self.library, "STACK_TOLD": self.said}
        done = subprocess.run([self.program, *words], cwd=self.folder, capture_output=True, env=environment, preexec_fn=limit)
        with open(self.said, encoding="ascii") as file:
            stack = int(file.read())
        os.remove(self.said)
        return stack, ["", *done.stderr.decode("latin-1").split("\n")][-2], done.returncode

    def measure(self, name, text):
        """Returns the most stack of the commands on a text, and whether it nests too deeply."""
        with open(os.path.join(self.folder, "text.cyc"), "w", encoding="ascii") as file:
            file.write(text)
        most = 0
        for words in (["check", "text.cyc"], ["compile", "text.cyc", "-o", "text.elf"]):
            stack, last, status = self.run(words)
            if last.startswith("fault 12 "):
                return 0
            kind = "accepted" if status == 0 else "refused"
            self.most[kind] = max(self.most.get(kind, (0, "", "")), (stack, f"{words[0]}: {name}", last))
            most = max(most, stack)
        return most

    def measure_shape(self, shape):
        """Returns the most stack of the commands on a shape, nested as deeply as allowed."""
        return next((stack for less in range(5) if (stack := self.measure(shape.name(), shape.text(DEEPEST - less)))), 0)


def shapes_of(kind, middle, counts):
    """Returns the shapes with so many alternating forms."""
    for count in counts:
        for forms in itertools.product(kind.items(), repeat=count):
            if len(set(forms)) == count:
                yield from (Shape(list(forms), before, middle, kind) for before in (OPERATORS if kind is EXPRESSIONS else [""]))


def search(meter, kind, middles):
    """Measures the shapes of a kind, and prints the single forms and the five shapes that take the most."""
    names = list(middles.items())
    found = []
    for shape in shapes_of(kind, names[0], (1, 2)):
        found.append((meter.measure_shape(shape), shape))
    for stack, shape in [it for it in found if len(it[1].forms) == 1] + sorted(found, key=lambda it: -it[0])[:5]:
        print(f"{stack / 2**20:6.2f} MB  {shape.name()}")
    best = sorted(found, key=lambda it: -it[0])[:8]
    for (_, shape), (form, place) in itertools.product(best, itertools.product(kind.items(), range(3))):
        forms = shape.forms[:place] + [form] + shape.forms[place:]
        found.append((meter.measure_shape(Shape(forms, shape.before, shape.middle, kind)), shape))
    for (_, shape), middle in itertools.product(best, names[1:]):
        meter.measure_shape(Shape(shape.forms, shape.before, middle, kind))
    for (_, shape), place in itertools.product(best, PLACES if kind is EXPRESSIONS else []):
        meter.measure_shape(Shape(shape.forms, shape.before, shape.middle, kind, place))


def main():
    program = os.path.abspath(sys.argv[1] if len(sys.argv) > 1 else PROGRAM)
    with tempfile.TemporaryDirectory() as folder:
        meter = Meter(program, folder)
        search(meter, EXPRESSIONS, VALUES)
        search(meter, STATEMENTS, ENDS)
        for name, text in LISTS.items():
            print(f"{meter.measure(name, text) / 2**20:6.2f} MB  {name}")
        for words in OTHERS:
            print(f"{meter.run(words)[0] / 2**20:6.2f} MB  {' '.join(words)}")
    for kind, (stack, name, last) in sorted(meter.most.items()):
        print(f"the most of the texts that are {kind}: {stack / 2**20:.2f} MB ({name}): {last}")


if __name__ == "__main__":
    main()

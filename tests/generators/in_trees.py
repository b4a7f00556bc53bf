#!/usr/bin/env python3
"""Programs as typed trees with what the reference says of their runs, for the definitions of the meaning to be held against it.

    python3 tests/generators/in_trees.py TEXT.cyc .. > crates/cyc_meaning/proofs/Texts.antt

Each text becomes a tree as `crates/cyc_types/specs/TypedTrees.antt` has it, and three equations that hold by computation: how its run
ends, what it prints, and how many words the frames of its functions have. A text that the rules of empty and locked variables
refuse is run all the same: then the run may be dead. With `pub mod Texts` in `crates/cyc_meaning/proofs/Lib.antt`, `rt check` there
says whether the definitions agree. Runs should be short: the prover makes every step.

    python3 tests/generators/in_trees.py --accepted > crates/cyc_soundness/proofs/examples/AcceptedPrograms.antt
    python3 tests/generators/in_trees.py --refused-by-types > crates/cyc_soundness/proofs/examples/RefusedByTypes.antt
    python3 tests/generators/in_trees.py --refused-by-flow > crates/cyc_soundness/proofs/examples/RefusedByFlow.antt

These are the programs of `sound/accepted.programs` and `sound/refused.programs`, each with how its run ends. A program that the rules
refuse is made a tree by leaving out the rules of the code that refuses it.
"""
import os
import sys

TESTS = os.path.dirname(os.path.dirname(os.path.abspath(__file__)))
sys.path.append(os.path.join(TESTS, "references"))

import reference
from language import runs, types, values
from language.frames import frame_words, inner_items
from language.heads import Program
from language.texts import LEVEL_OF, tree_of

FUEL = 6_000
STEPS = 400
OPERATORS = {
    "|": "Or", "^": "Xor", "&": "And", "==": "Equal", "!=": "NotEqual", "<": "Less", "<=": "LessOrEqual", ">": "Greater",
    ">=": "GreaterOrEqual", "<<": "ShiftLeft", ">>": "ShiftRight", "+": "Add", "-": "Subtract", "*": "Multiply", "/": "Divide",
    "%": "Remainder",
}
UNARY = {"-": "Negate", "~": "Complement", "!": "Not"}
HEAD = """-- Made by tests/generators/in_trees.py.
use Rattle.std.proofs.Common.{◌≡◌, ℕ, [], ◌∷◌, Some, None, pos, negsuc, refl}
use Rattle.std.specs.Prelude.{map}
use Rattle.cyc_words.specs.Word.{slt_of, sar_of, div_of, rem_of}
use Rattle.cyc_words.specs.Ending.{Returned, Uncaught, Full}
use Rattle.cyc_syntax.specs.declared.tree.PointerKind.TheVariants as marks
use Rattle.cyc_types.specs.declared.region.Region.TheVariants.{Heap}
use Rattle.cyc_types.specs.declared.typed.Kind.TheVariants as kinds
use Rattle.cyc_types.specs.declared.typed.Callee.TheVariants as callees
use Rattle.cyc_types.specs.declared.typed.UnaryOperator.TheVariants as unary
use Rattle.cyc_types.specs.declared.typed.Operator.TheVariants as operators
use Rattle.cyc_types.specs.declared.typed.LogicalOperator.TheVariants as logical
use Rattle.cyc_types.specs.declared.typed.PointerOperator.TheVariants as pointers
use Rattle.cyc_types.specs.Types as types
use Rattle.cyc_types.specs.TypedTrees as t
use Rattle.cyc_meaning.specs.State.{HasEnded, IsDead, IsWrong, status_of, output_of}
use Rattle.cyc_meaning.specs.Run.{run, limited_run}
use Rattle.cyc_meaning.specs.FrameCount.{frame_count}
use Rattle.cyc_meaning.proofs.ExampleTrees.{here, function, star, at, fat}
"""


def kind(type):
    if type == types.NULL:
        return "kinds.Nullable"
    if types.is_pointer(type):
        return {"*": "kinds.Nullable", "@": "kinds.NonNull", "?": "kinds.Fat"}[type[1]]
    return {"int": "kinds.Int", "char": "kinds.Char", "handle": "kinds.Handle", "key": "kinds.Key"}[type[0]]


def spelled(type):
    """A type as far as a run depends on it."""
    if type in (types.NULL, types.NOTHING):
        return "types.Int"
    if types.is_pointer(type):
        if type[2] == types.INT:
            return {"*": "star", "@": "at", "?": "fat"}[type[1]]
        mark = {"*": "Nullable", "@": "NonNull", "?": "Fat"}[type[1]]
        return f"(types.Pointer marks.{mark} {spelled(type[2])} Heap)"
    if type[0] == "struct":
        return "(types.Struct 0 [])"
    return {"int": "types.Int", "char": "types.Char", "handle": "(types.Handle Heap)", "key": "(types.Key Heap)"}[type[0]]


def given(type):
    """What an expression gives, which may be nothing."""
    return "types.Void" if type == types.NOTHING else f"(types.Value {spelled(type)})"


def declared_in(item):
    """What a statement declares that is a local."""
    found = [item] if item.kind in ("local", "region", "open", "alias", "key") else []
    if item.kind == "case" and item.value:
        found.append(item.value)
    return found + [local for inner in inner_items(item) for local in declared_in(inner)]


def listed(parts, last="[]"):
    return "(" + " ∷ ".join(parts + [last]) + ")" if parts else last


class Writer:
    """Writes the functions of a program as trees."""

    def __init__(self, program):
        self.program = program
        self.functions = list(program.functions)
        self.globals = list(program.globals)
        self.structs = list(program.structs)
        self.level = 0
        self.levels = {}

    def program_tree(self):
        structs = [f"record {{ parameters = 0; fields = {listed([spelled(field.type) for field in struct.fields])} }}"
                   for struct in self.program.structs.values()]
        variables = [self.global_variable(variable) for variable in self.program.globals.values()]
        functions = [self.function(function) for function in self.program.functions.values()]
        return (f"record {{ structs = {listed(structs)}; exceptions = []; globals = {listed(variables)};"
                f" functions = {listed(functions)}; main = {self.functions.index('main')} }}")

    @staticmethod
    def global_variable(variable):
        value = "t.Null" if variable.value is None else f"(t.Word {variable.value & 0xFFFFFFFF})"
        return f"record {{ name = 0; of_type = {spelled(variable.type)}; value = {value} }}"

    def function(self, function):
        parameters = listed([spelled(parameter.type) for parameter in function.parameters])
        declared = listed([spelled(item.type) for item in declared_in(function.body)])
        return f"record (function {parameters} []) {{ locals = {declared}; body = {self.items(function.body.items)} }}"

    def items(self, items):
        if not items:
            return "t.NoItems"
        return f"(t.MoreItems {self.item(items[0])} {self.items(items[1:])})"

    def item(self, item):
        if item.kind == "local":
            value = f"(Some {self.converted(item.value)})" if item.value else "None"
            return f"(t.Declare {item.slot} {spelled(item.type)} {value})"
        if item.kind == "region":
            return f"(t.DeclareRegion 1 {item.slot})"
        if item.kind == "open":
            return f"(t.OpenRegion 1 {item.slot} here {item.key.slot})"
        if item.kind == "alias":
            return f"(t.DeclareAlias 1 {item.slot} {spelled(item.type)} here {item.source.slot})"
        if item.kind == "key":
            return f"(t.DeclareKey 1 {item.slot})"
        return f"(t.Execute {self.statement(item)})"

    def statement(self, item):
        return getattr(self, "statement_" + item.kind)(item)

    def statement_nothing(self, item):
        return "t.Empty"

    def statement_block(self, item):
        return f"(t.Block 1 {self.items(item.items)})"

    def statement_expression(self, item):
        return f"(t.Evaluate {self.expression(item.value)})"

    def statement_swap(self, item):
        return f"(t.Swap {self.side(item.left)} {self.side(item.right)})"

    def statement_if(self, item):
        other = self.statement(item.other) if item.other else "t.Empty"
        return f"(t.If {self.tested(item.condition)} {self.statement(item.body)} {other})"

    def statement_while(self, item):
        return f"(t.While here {self.tested(item.condition)} {self.statement(item.body)})"

    def statement_break(self, item):
        return "t.Break"

    def statement_continue(self, item):
        return "t.Continue"

    def statement_return(self, item):
        return f"(t.Return (Some {self.converted(item.value)}))" if item.value else "(t.Return None)"

    def statement_throw(self, item):
        value = f"(Some {self.as_int(item.value)})" if item.value else "None"
        return f"(t.Throw {item.tag} {value})"

    def statement_try(self, item):
        clauses = "t.NoClauses"
        for clause in reversed(item.clauses):
            if clause.kind == "default":
                clauses = f"(t.Default 1 {self.items(clause.items)})"
            else:
                number = f"(Some {clause.value.slot})" if clause.value else "None"
                clauses = f"(t.Case {clause.tag} {number} 1 {self.items(clause.items)} {clauses})"
        return f"(t.Try {self.statement(item.body)} {clauses})"

    def side(self, node):
        if node.kind == "variable":
            return f"(t.VariableSide {self.variable(node)} {spelled(node.type)})"
        return f"(t.CellSide {self.cell(node)})"

    def variable(self, node):
        if node.variable.sort == "global":
            return f"(t.Global {self.globals.index(node.name)})"
        return f"(t.Local here {node.slot})"

    def cell(self, node):
        if node.kind == "target":
            return f"(t.Target {kind(node.operand.type)} {self.looked(node.operand)} {spelled(node.type)})"
        if node.kind == "member":
            struct = self.structs.index(node.base.type[2][1])
            return f"(t.Member {kind(node.base.type)} {self.looked(node.base)} {struct} {node.offset} {spelled(node.type)})"
        return f"(t.Element {self.looked(node.base)} {self.as_int(node.index)} {spelled(node.type)})"

    @staticmethod
    def is_peek(node):
        return node.kind == "variable" and types.is_unique(node.variable.type) and node.variable.sort != "global"

    def looked(self, node):
        """What is only looked at or through."""
        if self.is_peek(node):
            return f"(t.Peek here {node.slot} {spelled(node.type)})"
        return self.expression(node)

    @staticmethod
    def widened(node, text):
        """A char where an int is asked for."""
        return f"(t.Unary unary.Widen {text})" if node.type == types.CHAR else text

    def as_int(self, node):
        return self.widened(node, self.expression(node))

    def tested(self, node):
        return self.widened(node, self.looked(node))

    def converted(self, node):
        return f"(t.Convert {kind(node.type)} {kind(node.wanted)} {self.expression(node)})"

    def arguments(self, nodes):
        if not nodes:
            return "t.NoArguments"
        return f"(t.MoreArguments {self.converted(nodes[0])} {self.arguments(nodes[1:])})"

    def expression(self, node):
        return getattr(self, "expression_" + node.kind)(node)

    def expression_number(self, node):
        return f"(t.Number {node.value})"

    def expression_null(self, node):
        return "t.NullPointer"

    def expression_heap_region(self, node):
        return "t.HeapRegion"

    def expression_variable(self, node):
        if node.variable.sort == "counter":
            return f"(t.Counter {self.levels[node.variable]})"
        if types.is_owned(node.type) and node.variable.sort != "global":
            return f"(t.Move here {node.slot} {spelled(node.type)})"
        return f"(t.Copy {self.variable(node)} {spelled(node.type)})"

    def expression_target(self, node):
        return f"(t.Load {self.cell(node)})"

    expression_member = expression_element = expression_target

    def expression_address(self, node):
        if node.operand.kind == "variable":
            return f"(t.AddressOf {self.variable(node.operand)} {spelled(node.type)})"
        return f"(t.AddressOfCell {self.cell(node.operand)} {spelled(node.type)})"

    def expression_numelts(self, node):
        return f"(t.NumberOfElements {self.looked(node.operand)})"

    def expression_ufree(self, node):
        return f"(t.FreeUnique {self.expression(node.operand)})"

    def expression_free_ukey(self, node):
        return f"(t.FreeKey (t.Move here {node.key.slot} (types.Key Heap)))"

    def expression_unary(self, node):
        return f"(t.Unary unary.{UNARY[node.sign]} {self.tested(node.operand)})"

    def expression_char(self, node):
        return f"(t.Unary unary.LowByte {self.as_int(node.operand)})"

    def expression_assign(self, node):
        if node.target.kind == "variable":
            return f"(t.Assign {self.variable(node.target)} {self.converted(node.value)} {given(node.type)})"
        return f"(t.Store {self.cell(node.target)} {self.converted(node.value)} {given(node.type)})"

    def expression_call(self, node):
        callee = {"putchar": "callees.Putchar", "getchar": "callees.Getchar"}.get(node.name)
        callee = callee or f"(callees.Function {self.functions.index(node.name)})"
        return f"(t.Call {callee} {self.arguments(node.arguments)} {given(node.type)})"

    def expression_binary(self, node):
        """A chain of operators of one level."""
        chain, left = [], node
        while left.kind == "binary" and LEVEL_OF[left.sign] == LEVEL_OF[node.sign] and not (chain and hasattr(left, "is_bracketed")):
            chain.append(left)
            left = left.left
        rest = "t.NoOperations"
        for link in chain:
            rest = f"(t.{self.operation(link)} {self.operand(link, link.right)} {rest})"
        first = self.operand(node, left)
        return f"(t.Binary {first} {rest} {spelled(node.type)})"

    def operand(self, node, side):
        return self.tested(side) if node.sign in ("==", "!=", "&&", "||") else self.as_int(side)

    def operation(self, node):
        left, right = node.left.type, node.right.type
        if node.sign in ("&&", "||"):
            return f"ThenTest logical.{'AndThen' if node.sign == '&&' else 'OrElse'}"
        if types.is_number(left):
            return f"ThenCompute operators.{OPERATORS[node.sign]}"
        peek = f"Peek {node.left.slot}" if self.is_peek(node.left) and node.sign in ("==", "!=") else ""
        return f"ThenPointer{peek} pointers.{self.pointer_operator(node.sign, left, right)}"

    @staticmethod
    def pointer_operator(sign, left, right):
        if sign in ("+", "-"):
            return "AddFat" if sign == "+" else "SubtractFat"
        negated = sign == "!="
        if left == types.NULL:
            return "NullIsNot" if negated else "NullIs"
        if right == types.NULL:
            return ("Fat" if types.is_fat(left) else "Thin") + ("IsNotNull" if negated else "IsNull")
        return "NotEqualThin" if negated else "EqualThin"

    def expression_new(self, node):
        initial, placement = node.initial, "t.OnHeap"
        if node.handle:
            placement = "t.AsUnique" if node.handle.kind == "unique_region" else f"(t.ByHandle {self.expression(node.handle)})"
        if initial.kind == "plain":
            made = f"(t.Plain {kind(initial.value.type)} {self.expression(initial.value)})"
        elif initial.kind == "fields":
            made = f"(t.Fields {self.arguments(initial.values)})"
        else:
            made = self.array(initial)
        return f"(t.New {placement} {made} {spelled(node.type)})"

    def array(self, initial):
        length, level = self.as_int(initial.length), self.level
        self.levels[initial.counter.variable] = level
        self.level += 1
        element = self.expression(initial.element)
        self.level -= 1
        return f"(t.Array here {level} {length} {kind(initial.element.type)} {element})"


def integer(value):
    return f"(pos {value})" if value >= 0 else f"(negsuc {-value - 1})"


def status(run):
    """How a run ends, in the words of the definitions."""
    try:
        words = run.end()[0].split()
    except values.Dead:
        return "IsDead"
    except values.Wrong:
        return "IsWrong"
    if words[0] == "full":
        return "HasEnded Full"
    if words[0] == "returned":
        return f"HasEnded (Returned {integer(int(words[1]))})"
    return f"HasEnded (Uncaught {words[1]} {integer(int(words[2]))})" if words[0] == "uncaught" else None


def equations(name, text, read=b"", pages=None):
    """A program and its equations; None where it is refused by more than its flow, or runs for long."""
    program = Program(tree_of(text))
    run = runs.Run(program, read, steps=STEPS, pages=pages or runs.PAGES)
    end = status(run)
    if end is None:
        return None
    unfold = "unfolding slt_of sar_of div_of rem_of"
    input, output = (listed([str(byte) for byte in bytes]) for bytes in (read, run.output))
    runs_for = f"run {name} {input} {FUEL}" if not pages else f"limited_run {name} {pages} {runs.CALLS} {input} {FUEL}"
    frames = listed([str(frame_words(function)) for function in program.functions.values()])
    return f"""
abbrev {name} : t.Program
{name} = {Writer(program).program_tree()}

{name}_ends : status_of ({runs_for}) ≡ {end}
{unfold}
{name}_ends = refl

{name}_prints : output_of ({runs_for}) ≡ {output}
{unfold}
{name}_prints = refl

{name}_frames : map frame_count {name}.functions ≡ {frames}
{name}_frames = refl
"""


# --- Programs with the ending of their runs ---

STEPS_STATED = 500
ACCEPTED = """-- Programs that the rules accept, run past the ends of their scopes: none is dead or wrong. Each example is proved by computation.
-- Generated by tests/generators/in_trees.py of tests/sound."""
REFUSED = """-- Programs that the {rules} reject, as the trees of a checker without the rules of that one code. Each example is dead or wrong, which
-- is proved by computation. Generated by tests/generators/in_trees.py of tests/sound."""
FIRST_OF_FLOW = 40  # the codes of the typing rules are smaller


def programs_in(name):
    """The programs of a file: for each what stands behind its `==`, and its text."""
    found = []
    for line in reference.read(os.path.join(TESTS, "sound", name + ".programs")).splitlines():
        if line.startswith("== "):
            found.append(([part.strip() for part in line[3:].split("|")], []))
        elif line and not line.startswith("#"):
            found[-1][1].append(line)
    return [(head, "\n".join(lines)) for head, lines in found]


def overlooking(code, text):
    """The program of a text, with the rules of a code left out."""
    types.Faults.overlooked = code
    try:
        return Program(tree_of(text))
    finally:
        types.Faults.overlooked = None


def refusal_of(head):
    """What a program is refused with, and its code, if it is."""
    return (head[2], int(head[2].split()[1])) if len(head) > 2 else ("done", None)


def run_of(text, code):
    """How the run of a program would end, in one word where it has no end."""
    run = runs.Run(overlooking(code, text), b"", steps=STEPS)
    try:
        return run.end()[0]
    except values.Dead:
        return "dead"
    except values.Wrong:
        return "wrong"


def stated(head, text):
    """A program as a tree, and how its run ends."""
    name, (refusal, code) = head[0], refusal_of(head)
    program = overlooking(code, text)
    end = status(runs.Run(program, b"", steps=STEPS))
    first = [f"The checker rejects this program with {refusal}."] if code else []
    comment = "".join(f"-- {line}\n" for line in first + text.split("\n"))
    return f"""
{comment}abbrev {name} : t.Program
{name} = {Writer(program).program_tree()}

{name}_ends : status_of (run {name} [] {STEPS_STATED}) ≡ {end}
unfolding slt_of sar_of div_of rem_of
{name}_ends = refl
"""


def imported(line, body):
    """An import without the names that a module does not use; nothing where none is left."""
    if "{" not in line:
        return line + "\n" if line.split()[-1] + "." in body else ""
    path, names = line.rstrip("}").split("{")
    used = [name for name in names.split(", ") if name.strip("◌") in body]
    return f"{path}{{{', '.join(used)}}}\n" if used else ""


def module(programs, purpose):
    """A module of these programs."""
    body = "".join(stated(head, text) for head, text in programs)
    code = "\n".join(line for line in body.split("\n") if not line.startswith("--"))
    imports = "".join(imported(line, code) for line in HEAD.splitlines()[1:])
    return f"{purpose}\n{imports}{body}"


def refused_by(flow):
    """The programs that the rules of flow refuse, or else the typing rules."""
    return [(head, text) for head, text in programs_in("refused") if (refusal_of(head)[1] >= FIRST_OF_FLOW) == flow]


def main():
    if sys.argv[1:] == ["--accepted"]:
        return print(module(programs_in("accepted"), ACCEPTED), end="")
    if sys.argv[1:] == ["--refused-by-types"]:
        return print(module(refused_by(False), REFUSED.format(rules="typing rules")), end="")
    if sys.argv[1:] == ["--refused-by-flow"]:
        return print(module(refused_by(True), REFUSED.format(rules="flow rules")), end="")
    found = [equations(f"text_{number}", reference.read(path)) for number, path in enumerate(sys.argv[1:])]
    print(HEAD + "".join(part for part in found if part))


if __name__ == "__main__":
    reference.with_room(main)

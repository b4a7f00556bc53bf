"""C to the language: reads a C program and writes one that means the same, or says what it does not translate.

    from c_front import translate
    text, places, refusals, warnings = translate(source, "name.c")

`text` is None where there are refusals. A refusal has a `message`, a `place` (file, line, column) and a `hint`."""
import re
import sys
from typing import NamedTuple

from pycparser import c_parser

from .comments import Comments
from .faults import Place, Refusal, Warnings
from .flows import Flows, settle_kinds
from .memory import refuse_double_free, warn_of_leaks
from .places import Places
from .preprocess import preprocess, strange_form
from .program import Program
from .tree import expressions, walk
from .unset import refuse_unset
from .write_program import ProgramWriter


class Translation(tuple):
    """What comes of a C program: text, places, refusals, warnings; and how many functions its file defines, headers left aside."""
    functions = 0

    def __new__(cls, *parts):
        return super().__new__(cls, parts)

    text, places, refusals, warnings = (property(lambda self, at=at: self[at]) for at in range(4))


def parse(text, clean, name):
    """The parser's tree."""
    prelude = "typedef int __builtin_va_list;\n"
    parser = c_parser.CParser()
    try:
        return parser.parse(prelude + clean, name)
    except RecursionError as error:
        raise Refusal("an expression that nests too deep", Place(name, 1, 1)) from error
    except Exception as error:
        if type(error).__name__ != "ParseError" and not isinstance(error, (AssertionError, AttributeError)):
            raise
        raise parse_refusal(with_line(str(error), parser), text, name) from error


def with_line(said, parser):
    """What the parser said, with the line that its lexer has come to where it names none."""
    file = getattr(parser.clex, "filename", "")
    line = getattr(parser.clex, "lineno", None) or getattr(parser.clex, "_lineno", None)
    start = f"{file}: "
    return f"{file}:{line}: {said[len(start):]}" if line and file and said.startswith(start) else said


def parse_refusal(said, text, name):
    """The refusal for what the parser does not know, with a word on the form of GNU that the line may have."""
    if "end of input" in said:
        return Refusal("the file ends within a declaration", Place(name, text.count("\n") + 1, 1), "a bracket or a semicolon is missing")
    match = re.match(r"(.*?):(\d+):(?:(\d+):)? ?(.*)", said, re.S)
    if not match:
        return Refusal(f"this is not understood: {said}", Place(name, 1, 1))
    file, line = match[1] or name, int(match[2])
    lines = text.split("\n")
    shown = lines[line - 1] if file == name and line <= len(lines) else ""
    form, hint = strange_form(shown)
    message = form if form and "{" in shown or form not in (None, "the address of a label, or what is there") else None
    rest = match[4].strip() or "it ends too early"
    return Refusal(message or f"this is not understood here: {rest.replace('before: ', '')}", Place(file, line, int(match[3] or 1)), hint)


def last_lines(text, program, name):
    """Notes on which line each function of the file ends, for the comments in it."""
    starts = sorted(s.place.line for s in program.functions if s.defined and s.place.file == name)
    lines = text.split("\n")
    for symbol in program.functions:
        if symbol.defined and symbol.place.file == name:
            after = [line for line in starts if line > symbol.place.line]
            last = after[0] - 1 if after else len(lines)
            found = [n for n in range(symbol.place.line, last + 1) if n <= len(lines) and lines[n - 1].startswith("}")]
            symbol.end_line = found[0] if found else None


class Options(NamedTuple):
    """How a program is translated; `left_out` are functions that main does not lead to, and that are refused.

    `heap` names the functions whose objects all live in the heap, and is True for all functions."""
    heap: bool | frozenset = frozenset()
    zero: bool = False
    arguments: tuple = ("program",)
    partial: bool = False
    left_out: frozenset = frozenset()


def translate(text, name, *, heap=False, zero=False, arguments=("program",), folders=(), defines=(), partial=False, after=(), left_out=(),
              ask=None):
    """The translation of a C text that is called `name`; headers lie in `folders`, and in `after` those that nothing else has.

    With `partial` each function that is refused, and each that `left_out` names, is one that throws. `ask` says of a translation the
    line whose regions the checker refuses, or None: then the objects of the function there live in the heap, or those of all."""
    sys.setrecursionlimit(max(sys.getrecursionlimit(), 20000))
    options = Options(heap or frozenset(), zero, tuple(arguments), partial, frozenset(left_out))
    try:
        clean = preprocess(text, name, folders, defines, after)
        ast = parse(text, clean, name)
    except Refusal as refusal:
        return Translation(None, None, [refusal], [])
    while True:
        try:
            found, idle = attempt(ast, text, name, options)
        except (RecursionError, AttributeError, KeyError, IndexError, TypeError) as error:
            refusal = Refusal(f"the translator fails: {type(error).__name__}: {error}"[:200], Place(name, 1, 1), "tell who keeps it")
            return Translation(None, None, [refusal], [])
        heap = options.heap if idle or ask is None else more_in_heap(found, options.heap, ask)
        if not idle and heap == options.heap:
            return found
        options = options._replace(left_out=options.left_out | idle, heap=heap)


def more_in_heap(found, heap, ask):
    """The functions whose objects all live in the heap, with the one of the line whose regions the checker refuses."""
    line = None if found.text is None or heap is True else ask(found.text)
    if line is None:
        return heap
    place = found.places.at(line)
    return True if place is None or not place[2] or place[2] in heap else heap | {place[2]}


def attempt(ast, text, name, options):
    """A translation, and the functions that are refused if main leads to none of them: without them it may succeed."""
    warnings = Warnings()
    program = Program(warnings, options.left_out, options.partial).read(ast)
    if not options.zero:
        refuse_unset(program)
    refuse_double_free(program)
    warn_of_leaks(program, warnings)
    if program.refusals and not options.partial:
        found = Translation(None, None, program.refusals, warnings.list)
    else:
        found = written(program, text, name, warnings, options)
    return found, set() if options.partial else idle_functions(program, found.refusals)


def idle_functions(program, refusals):
    """The names of the functions that are refused, if main leads to none of them, and nothing else is refused."""
    if not refusals or any(getattr(r, "function", None) is None for r in refusals):
        return set()
    reached = reached_functions(program)
    if any(r.function in reached for r in refusals):
        return set()
    return {r.function.name for r in refusals}


def reached_functions(program):
    """The functions that main and the initial values of globals lead to."""
    work = [s for s in program.functions if s.name == "main"]
    nodes = [node for symbol in program.globals for _, value in symbol.inits or [] for node in walk(value)]
    work += [node.v for node in nodes if node.op == "fn"]
    reached = set()
    while work:
        symbol = work.pop()
        if symbol not in reached:
            reached.add(symbol)
            nodes = [node for e in expressions(symbol.body) for node in walk(e)]
            work += [node.v for node in nodes if node.op in ("call", "fn")]
    return reached


def written(program, text, name, warnings, options):
    """The translation of a program that was read."""
    if not any(s.name == "main" and s.defined for s in program.functions) and not options.partial:
        refusal = Refusal("there is no function main", Place(name, 1, 1), "one file is the program")
        return Translation(None, None, [refusal], warnings.list)
    last_lines(text, program, name)
    identifiers = set(re.findall(r"[A-Za-z_]\w*", text)) | {s.name for s in program.symbols} | {s.text for s in program.symbols}
    settle_kinds(program)
    Flows(program).run(options.heap)
    writer = ProgramWriter(program, Comments(text, name), identifiers, options.arguments, warnings, options.partial)
    lines = None
    try:
        lines = writer.run()
    except Refusal as refusal:
        writer.refusals.append(refusal)
    refusals = program.refusals + writer.refusals
    for refusal in refusals:
        refusal.place = refusal.place or Place(name, 1, 1)
    if lines is None or refusals and not options.partial:
        return Translation(None, None, refusals, warnings.list)
    out = "\n".join("  " * line.depth + line.text for line in lines).rstrip("\n") + "\n"
    found = Translation(out, Places.of(name, lines), refusals, warnings.list)
    found.functions = sum(s.defined and s.place.file == name for s in program.functions)
    return found

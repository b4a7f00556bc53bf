"""The whole translation: its structs, globals, functions, texts and helpers, in C's order."""
import re

from . import c_types as t
from . import helpers
from .faults import Refusal
from .library import STREAMS
from .text import RESERVED, Line, Names, X, number
from .tree import Node, Symbol
from .write_function import FunctionWriter
from .write_library import comment_of, word_text
from .write_types import TypeWriter

OPENERS = ("fopen", "freopen", "fdopen", "popen", "tmpfile")


class ProgramWriter(TypeWriter):
    """Writes a program that was read."""

    def __init__(self, program, comments, identifiers, arguments, warnings, partial=False):
        self.program = program
        self.comments = comments
        self.warnings = warnings
        self.partial = partial
        self.arguments = arguments
        self.identifiers = set(identifiers)
        self.names = Names(self.identifiers)
        self.struct_names = Names(())
        self.typedef_names = program.typedef_names
        self.region_name = "r" if "r" not in self.identifiers else "local"
        self.handle = self.names.free("h")
        self.plain = {}
        self.nulls = {}
        self.texts = {}
        self.tags = []
        self.used_helpers = set()
        self.helper_names = {}
        self.made = {}
        self.pieces = []
        self.exceptions = {}
        self.dispatchers = {}
        self.put = self.get_name = None
        self.refusals = []
        self.elsewhere = {}
        self.streams = {}
        self.prepare()

    def prepare(self):
        """Chooses what the whole text agrees on: the function that prints a byte, and whether exit is called."""
        called = self.program.called
        self.put = self.helper("put_byte") if called & {"sprintf", "snprintf"} else "putchar"
        self.reads = bool(called & {"scanf", "sscanf", "ungetc", "feof"})
        self.scans_texts = "sscanf" in called
        self.ends = bool(called & {"exit", "_exit", "_Exit"})
        for symbol in self.program.globals:
            if t.is_wide(symbol.type):
                symbol.high = self.names.free(symbol.text + "_high")
        self.main_called = any(s.name == "main" and s.uses for s in self.program.functions)

    # Names

    def plain_name(self, name):
        """The name itself, or another one where the language reserves it."""
        if name not in self.plain:
            self.plain[name] = self.names.free(name + "_") if name in RESERVED else name
        return self.plain[name]

    def function_name(self, symbol, place):
        if symbol.name in OPENERS and not symbol.defined and not self.partial:
            raise Refusal(f"a file that {symbol.name} opens", place, "only stdin, stdout and stderr are there")
        if not symbol.defined and self.partial and symbol.type.params is not None and not symbol.type.variadic:
            self.elsewhere.setdefault(symbol.name, symbol)
        elif not symbol.defined:
            raise Refusal(f"the function {symbol.name} has no body here", place, "write it, or use one of the library")
        if symbol.body is None and not self.partial:
            raise Refusal(f"the function {symbol.name} is not translated", place)
        return self.plain_name(symbol.name)

    def local_name(self, wanted, taken):
        name, number = wanted, 2
        while name in taken or name in self.names.taken:
            name = f"{wanted}_{number}"
            number += 1
        taken.add(name)
        return name

    def generated(self, wanted, key, build):
        """The name of a function that is written once for each type that wants it."""
        if key not in self.made:
            name = self.names.free(wanted)
            self.made[key] = name
            self.pieces.append([])
            at = len(self.pieces) - 1
            try:
                self.pieces[at] = build(name)
            except Refusal:
                del self.made[key]
                raise
        return self.made[key]

    def helper(self, name):
        if name not in self.helper_names:
            self.used_helpers.add(name)
            self.helper_names[name] = name if name not in self.identifiers else self.names.free(name)
            self.names.taken.add(self.helper_names[name])
        return self.helper_names[name]

    def get(self):
        return self.helper("next_byte") if self.reads else "getchar"

    def exception(self, name):
        if name not in self.exceptions:
            self.exceptions[name] = self.names.free(name)
        return self.exceptions[name]

    def tag_of(self, symbol):
        """The number that stands for a function; 0 is no function."""
        if not symbol.tag:
            self.function_name(symbol, symbol.place)
            self.tags.append(symbol)
            symbol.tag = len(self.tags)
        return symbol.tag

    def text_name(self, data):
        """The global that leads to a string literal."""
        if data not in self.texts:
            self.texts[data] = self.names.free(f"text_{len(self.texts) + 1}")
        return self.texts[data]

    def text_words(self, handle, data):
        """The statements that store bytes in a text, four at a time."""
        lines = []
        for at in range(0, len(data), 4):
            word = data[at:at + 4]
            if len(word) == 1:
                if word[0]:
                    lines.append(f"{handle}[{at}] = {word[0]};")
            elif any(word):
                lines.append(f"{self.helper('put_word')}({handle}, {at}, {word_text(word)});")
        return lines

    def stream_name(self, symbol, place):
        """The global that leads to a standard stream, which is used as a value: an object with its number."""
        if symbol.name == "stderr":
            self.note_stderr(place)
        self.streams[symbol.name] = symbol
        return self.plain_name(symbol.name)

    def note_stderr(self, place):
        self.warnings.once("what goes to stderr is not printed", place)

    def note_clock(self, place):
        self.warnings.once("there is no clock: time and clock return -1", place)

    def note_free(self, place):
        self.warnings.once("free gives no memory back: it is there to the end of the run", place)

    # Calls through pointers

    def dispatcher(self, type_, args, place):
        """The function that calls the one whose number it gets."""
        result = type_.result
        params = type_.params if type_.params is not None else [a.type for a in args]
        key = self.signature(result, params)
        if "wide" in key:
            raise Refusal("a call through a pointer of a function with a value of 64 bits", place, "call the function itself")
        if key not in self.dispatchers:
            self.dispatchers[key] = (self.names.free(f"call_{len(self.dispatchers) + 1}"), type_, params, place)
        return self.dispatchers[key][0]

    def signature(self, result, params):
        words = [self.signature_word(p) for p in [result] + list(params)]
        return tuple(words)

    def signature_word(self, type_):
        if isinstance(type_, t.Void):
            return "void"
        if isinstance(type_, t.Int):
            return f"{type_.bits}{type_.signed}{type_.boolean}"
        if isinstance(type_, t.Struct):
            return f"struct {self.struct_name(type_)}"
        return "wide" if t.is_wide(type_) else self.type_text(type_)

    def dispatcher_lines(self, name, type_, params):
        result = type_.result
        key = self.signature(result, params)
        heads = [self.handed(p, f"p{at + 1}") for at, p in enumerate(params)]
        passed = [f"p{at + 1}" for at in range(len(params))]
        if isinstance(result, t.Struct):
            heads.insert(0, f"struct {self.struct_name(result)} *result")
            passed.insert(0, "result")
        nothing = isinstance(result, (t.Void, t.Struct))
        text = "void " if nothing else self.type_text(result)
        lines = [f"{text}{'' if text[-1] in '*? ' else ' '}{name}({', '.join(['int which'] + heads)}) {{"]
        for symbol in list(self.tags):
            if self.signature(symbol.type.result, symbol.type.params or []) == key:
                call = f"{self.function_name(symbol, symbol.place)}({', '.join(passed)})"
                if nothing:
                    lines += [f"  if (which == {symbol.tag}) {{", f"    {call};", "    return;", "  }"]
                else:
                    lines.append(f"  if (which == {symbol.tag}) return {call};")
        lines += ["  throw new Null_Exception;", "}"]
        return lines

    def handed(self, type_, name):
        if t.is_int(type_):
            return f"int {name}"
        if isinstance(type_, t.Struct):
            return f"{self.type_text(type_)}{name}"
        text = "int " if t.is_tag(type_) else self.parameter_text(type_, "`H ")
        return text + name

    # Globals

    def global_lines(self, symbol):
        """The declaration of a global, with its initial value where that is a constant of the language."""
        symbol.text = self.global_name(symbol)
        if isinstance(symbol.type, t.Absent):
            return []
        if t.is_wide(symbol.type):
            node = symbol.inits[0][1] if symbol.inits else None
            halves = [X(half.text if re.fullmatch(r"-?\w+", half.text) else "0") for half in (number(node.v), number(node.v >> 32))] \
                if node is not None and node.op == "num" else ["0", "0"]
            return [f"int {symbol.text} = {halves[0]};", f"int {symbol.high} = {halves[1]};"]
        if t.is_aggregate(symbol.type):
            text = self.handle_type(symbol, "")
            return [f"{text}{'' if text[-1] in '*?' else ' '}{symbol.text} = NULL;"]
        text = self.form_text(symbol)
        value = self.constant_text(symbol)
        return [f"{text}{'' if text[-1] in '*?' else ' '}{symbol.text} = {value};"]

    def global_name(self, symbol):
        if symbol.text != symbol.name:
            return self.names.free(symbol.text)
        return self.plain_name(symbol.name)

    def constant_text(self, symbol):
        node = symbol.inits[0][1] if symbol.inits else None
        if t.is_object_pointer(symbol.type):
            return "NULL"
        if node is not None and node.op == "num" and -(1 << 31) < node.v:
            value = node.v if node.v < 1 << 31 else node.v - (1 << 32)
            return str(value if value != -(1 << 31) else 0) if self.form_of(symbol) == "int" else str(value & 255)
        return "0"

    def set_up(self):
        """The lines that make the objects of globals and the texts, and then store initial values."""
        starter = Symbol("set_up", t.Func(t.VOID, []), None, "function")
        starter.params, starter.locals, starter.body, starter.defined = [], [], [], True
        writer = FunctionWriter(self, starter)
        made = [s for s in self.program.globals if s.defined and t.is_aggregate(s.type)]
        for symbol in self.streams.values():
            writer.line(f"{symbol.name} = {self.make(symbol.type.target, None, symbol.place)};")
            if STREAMS.index(symbol.name):
                writer.line(f"{symbol.name}->number = {STREAMS.index(symbol.name)};")
        for symbol in made:
            writer.at = symbol.place
            maker = t.Array(symbol.type, 1) if symbol.single and isinstance(symbol.type, t.Struct) else symbol.type
            writer.line(f"{symbol.text} = {self.make(maker, None, symbol.place)};")
        values = FunctionWriter(self, starter)
        for symbol in self.program.globals:
            if symbol.defined and symbol.inits and not isinstance(symbol.type, t.Absent):
                values.at = symbol.place
                self.initial_value(values, symbol)
        return writer, values

    def initial_value(self, writer, symbol):
        if t.is_aggregate(symbol.type):
            writer.initial_values(symbol, symbol.inits)
            return
        node = symbol.inits[0][1]
        simple = node.op == "num" and (1 << 31) not in (node.v & 0xffffffff, node.v >> 32 & 0xffffffff) or node.op == "null"
        if not simple:
            writer.effect(Node("assign", symbol.type, [Node("var", symbol.type, v=symbol), node], place=node.place))

    def text_lines(self, writer):
        """The lines that make the texts; those of later texts come as they are found."""
        for data, name in self.texts.items():
            writer.line(f"{name} = new {{for i < {len(data) + 1} : char(0)}};")
            if len(data) + 1 > 4000:
                raise Refusal("a text of more than 3,999 bytes", writer.at)
            for text in self.text_words(name, data):
                writer.line(text)

    def argument_list(self, type_):
        element = type_.leads_to()
        text = self.type_text(type_)

        def build(function):
            fat = self.type_text(t.Array(element, None))
            lines = [f"{text}{function}(void) {{", f"  {fat}list = new {{for i < {len(self.arguments) + 1} : {self.null_of(element)}}};"]
            for at, argument in enumerate(self.arguments):
                lines.append(f"  list[{at}] = {self.text_name(argument.encode('utf-8', 'surrogateescape'))};")
            return lines + ["  return list;", "}"]
        return self.generated("arguments", ("arguments",), build) + "()"

    # Comments

    def comments_before(self, place, symbol):
        return [Line(text, 0, place, symbol) for text in self.comments.before(place)]

    def comments_to_end(self, symbol):
        end = getattr(symbol, "end_line", None)
        if end is None:
            return []
        return [Line(text, 0, symbol.place, symbol) for text in self.comments.before_line(symbol.place.file, end)]

    # The whole text

    def run(self):
        """The lines of the translation."""
        for symbol in self.program.functions:
            if symbol.name == "main":
                symbol.is_main = True
        parts = []
        for symbol in self.program.globals:
            if not symbol.defined and symbol.uses and symbol.name not in STREAMS and self.partial:
                parts.append(self.part(symbol))
            elif not symbol.defined and symbol.uses and symbol.name not in STREAMS:
                refusal = Refusal(f"the variable {symbol.name} is declared and not defined here", symbol.place)
                self.refusals.append(self.placed(refusal, symbol))
        for symbol in self.order():
            parts.append(self.part(symbol))
        parts += [([], self.stub(symbol)) for symbol in list(self.elsewhere.values())]
        if self.partial and not any(s.name == "main" and s.defined for s in self.program.functions):
            parts.append(([], [Line("int main() {", 0, None, None), Line("return 0;", 1, None, None), Line("}", 0, None, None)]))
        starter, values = self.set_up_lines()
        return self.assemble(parts, starter, values)

    def order(self):
        seen, found = set(), []
        statics = [s for s in self.program.globals if s.owner is not None and s.defined]
        for symbol in statics + self.program.order:
            if id(symbol) not in seen:
                seen.add(id(symbol))
                found.append(symbol)
        return sorted(found, key=lambda s: s.scope == "function" and False)

    def part(self, symbol):
        """The lines of a global or a function, after the comments that stand before it."""
        place = symbol.place
        before = [Line(text, 0, place, None) for text in self.comments.before(place)] if symbol.owner is None else []
        try:
            if symbol.scope != "function":
                return before, [Line(text, 0, place, None) for text in self.global_lines(symbol)]
            if symbol.body is None:
                return before, self.stub(symbol) if self.partial else []
            writer = FunctionWriter(self, symbol)
            if symbol.name == "main" and (self.ends or self.main_called):
                return before, self.wrapped_main(writer)
            return before, writer.run()
        except Refusal as refusal:
            self.refusals.append(self.placed(refusal, symbol))
            return before, self.stub(symbol) if self.partial and symbol.scope == "function" else []

    @staticmethod
    def placed(refusal, symbol):
        if refusal.place is None:
            refusal.place = symbol.place
        refusal.function = symbol if symbol.scope == "function" else None
        return refusal

    def stub(self, symbol):
        """A function that is not translated, as one that throws; for measuring how many are."""
        try:
            symbol.params = [self.parameter_symbol(p, at) for at, p in enumerate(symbol.type.params or [])]
            symbol.locals, symbol.body = [], []
            writer = FunctionWriter(self, symbol)
            return [Line(writer.head() + " {", 0, symbol.place, symbol),
                    Line(f"throw new {self.exception('Untranslated')};", 1, symbol.place, symbol), Line("}", 0, symbol.place, symbol)]
        except Refusal:
            return []

    @staticmethod
    def parameter_symbol(type_, at):
        return Symbol(f"p{at + 1}", type_, None, "parameter")

    def wrapped_main(self, writer):
        """main as a function of its own, called by one that ends where exit was called."""
        writer.is_main = True
        name = self.names.free("program")
        self.plain["main"] = name
        writer.region = writer.region if writer.uses_region else "`" + name
        try:
            lines = writer.run()
        except Refusal:
            del self.plain["main"]
            raise
        lines[0].text = f"int {name}() {{"
        status = self.names.free("status")
        call = [f"return {name}();"]
        if self.ends:
            clause = [f"case &{self.exception('Exit')}({status}):", f"  return {status};"]
            call = [f"try return {name}();", "catch {"] + clause + ["}", "return 0;"]
        self.outer_main = [Line("int main() {", 0, writer.symbol.place, writer.symbol)] + \
            [Line(text, 1, writer.symbol.place, writer.symbol) for text in call] + [Line("}", 0, writer.symbol.place, writer.symbol)]
        return lines

    def set_up_lines(self):
        try:
            try:
                writer, values = self.set_up()
            finally:
                self.all_dispatchers()
            texts = FunctionWriter(self, writer.symbol)
            texts.at = writer.at
            self.text_lines(texts)
            return writer.lines + texts.lines, values.lines
        except Refusal as refusal:
            refusal.function = None
            self.refusals.append(refusal)
            return [], []

    def all_dispatchers(self):
        """Writes the functions that call through pointers, now that all functions have their numbers."""
        for name, type_, params, _ in self.dispatchers.values():
            self.pieces.append(self.dispatcher_lines(name, type_, params))

    def assemble(self, parts, starter, values):
        out = []

        def add(texts):
            out.extend(Line(text, 0, None, None) for text in texts)

        self.finish_main(parts, starter + values)
        helper_texts = self.helper_texts()
        structs = [s for s in self.program.structs if hasattr(s, "text")]
        done = set()
        body_structs = []
        while structs:
            for struct in structs:
                done.add(id(struct))
                body_structs.append((struct, self.struct_lines(struct)))
            structs = [s for s in self.program.structs if hasattr(s, "text") and id(s) not in done]
        if self.exceptions:
            words = {"Exit": "(int)"}
            inside = " ".join(f"{text}{words.get(name, '')};" for name, text in self.exceptions.items())
            add([f"datatype exn {{ {inside} }};", ""])
        for _, lines in sorted(body_structs, key=lambda pair: self.program.structs.index(pair[0])):
            add(lines + [""])
        for text, name in self.nulls.items():
            add([f"{text}{'' if text[-1] in '*?' else ' '}{name} = NULL;"])
        for name, symbol in self.streams.items():
            add([f"{self.type_text(symbol.type)}{name} = NULL;"])
        for data, name in self.texts.items():
            add([f"char ?{name} = NULL; /* {comment_of(data)} */"])
        out.append(Line("", 0, None, None))
        self.add_parts(out, parts)
        if starter or values:
            add(["/* Makes the objects of globals and the texts. */", f"void {self.set_up_name}(void) {{"])
            out.extend(FunctionWriter.deeper(starter + values))
            add(["}", ""])
        for piece in self.pieces:
            add(piece + [""])
        for text in helper_texts:
            add(text.rstrip("\n").split("\n") + [""])
        return out

    def add_parts(self, out, parts):
        last_global = True
        for before, lines in parts:
            is_function = bool(lines) and lines[0].function is not None
            if lines and is_function and last_global and out and out[-1].text:
                out.append(Line("", 0, None, None))
            out.extend(before + lines)
            if is_function:
                out.append(Line("", 0, None, None))
            last_global = not is_function
        if getattr(self, "outer_main", None):
            out.extend(self.outer_main + [Line("", 0, None, None)])

    def finish_main(self, parts, starter):
        """Lets main make the objects of globals first."""
        if not starter:
            return
        self.set_up_name = self.names.free("set_up")
        call = f"{self.set_up_name}();"
        if getattr(self, "outer_main", None):
            self.outer_main.insert(1, Line(call, 1, self.outer_main[0].place, self.outer_main[0].function))
            return
        for _, lines in parts:
            if lines and lines[0].function is not None and lines[0].function.name == "main":
                lines.insert(1, Line(call, 1, lines[0].place, lines[0].function))

    def helper_texts(self):
        names = helpers.needed(self.used_helpers | ({"source_byte"} if self.scans_texts else set()))
        texts = []
        rename = {}
        for name in names:
            for word in re.findall(r"\w+", helpers.HELPERS[name]):
                if word in helpers.NAMES and word not in rename:
                    rename[word] = self.helper_names.get(word) or (word if word not in self.identifiers else self.names.free(word))
        for name in names:
            text = helpers.HELPERS[name]
            if self.put != "putchar" and name.startswith("print") and name not in ("print_into", "printed"):
                text = text.replace("putchar(", "put_byte(")
            if self.reads and name == "read_line":
                text = text.replace("getchar()", "next_byte()")
            if self.scans_texts and name == "next_byte":
                text = text.replace("getchar()", "source_byte()")
            texts.append(re.sub(r"\w+", lambda m: rename.get(m[0], m[0]), text))
        return texts




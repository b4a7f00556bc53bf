"""Resolves the names of a text: the place and type of each declaration, and the meaning of each use.

Any text can be analysed, also one with faults: after a syntax error, reading continues after the next semicolon or brace, and an unknown
name has no meaning. Places are character offsets from the beginning of the text.
"""
import bisect
import collections
import itertools
import re

TOKEN = re.compile(
    r"(?P<space>[ \t\r\n]+|/\*.*?(?:\*/|\Z)|//[^\n]*)"
    r"|(?P<name>[A-Za-z_][A-Za-z_0-9]*)"
    r"|(?P<region>`[A-Za-z_][A-Za-z_0-9]*)"
    r"|(?P<number>0[xX][0-9a-fA-F]+|0|[1-9][0-9]*)"
    r"|(?P<character>'(?:[ -&(-\[\]-~]|\\[ntr0\\'])')"
    r"|(?P<sign>:=:|&&|\|\||==|!=|<=|>=|<<|>>|->|[-+*/%&|^~!<>=()\[\]{},;:@?])"
    r"|(?P<other>.)",
    re.DOTALL,
)
KEYWORDS = set(
    "int char void struct datatype exn region region_t uregion_key_t open let alias NewDynamicRegion new_ukey new rnew for if else"
    " while return break continue throw try catch case default NULL numelts ufree free_ukey unique_region heap_region".split()
)
BASES = ("int", "char", "struct", "region_t", "uregion_key_t")
MARKS = ("*", "@", "?")
OPERATORS = set("|| && | ^ & == != < <= > >= << >> + - * / %".split())
# `UNKNOWN` stands for a region that no type can name, such as the region of a block without a label or an unknown region.
# `HEAP` stands for the heap region. Regions chosen by a caller are represented by numbers.
UNKNOWN, HEAP = "`0", "`H"
# The maximum nesting of brackets and statements that this reader accepts; the language allows 200.
DEEPEST = 210

Token = collections.namedtuple("Token", "kind text start end")
# The source position of a declaration of the library: the path and the text of its file, and where
# the declaration starts and ends there.
Home = collections.namedtuple("Home", "path text start end")


class Lost(Exception):
    """Reports a syntax error at this point."""


class Declared:
    """A declaration: its kind, its type or None, its function or struct or None, a description, and its place; -1 for a built-in name."""

    def __init__(self, kind, name, type_text=None, owner=None, about="", token=None):
        self.kind, self.name, self.type, self.owner, self.about = kind, name, type_text, owner, about
        self.start, self.end = (token.start, token.end) if token else (-1, -1)
        # The range of the whole declaration in the text, from its first character to its last, and
        # the list of the declarations inside it.
        self.whole, self.parts = (self.start, self.end), []
        # The result type of a call, and the fields of a struct. For a variable, a flag tells if the variable has an initial value. The
        # last field is the region of the variable's block, or None if this region has no name.
        self.result, self.fields, self.has_value, self.block = None, {}, False, None
        # The type of a variable or of a function's result, with all regions; the types of a function's parameters, and their source
        # texts; and the region parameters of a struct.
        self.full, self.parameters, self.written, self.regions = type_text, [], [], []
        # The range of the text in which a name declared in a block is visible.
        self.since, self.until = -1, -1
        # For a name of the library: the source position of its declaration, and the text of the
        # declaration.
        self.home, self.shown = None, ""


GIVEN = {
    it.name: it for it in (
        Declared("function", "putchar", "int putchar(int)", about="prints the low 8 bits of its argument and answers them"),
        Declared("function", "getchar", "int getchar()", about="answers the next byte of the input, or -1 at its end"),
        Declared("region", "`H", about="the heap, which lives for the whole run"),
        Declared("region", "`U", about="the home of unique pointers: each object in it has one owner"),
    )
}
GIVEN_EXCEPTIONS = {
    name: Declared("exception", name, name, about=about) for name, about in (
        ("Null_Exception", "thrown where a pointer is followed that is NULL, or is converted to @"),
        ("Array_bounds", "thrown where a fat pointer is followed, or converted, out of its bounds"),
        ("Array_size", "thrown where an array would have fewer than 0 elements, or too many"),
        ("Div_zero", "thrown where a number is divided by 0"),
    )
}


def tokens_of(text):
    """Returns the tokens of a text, without spaces and comments, and one for its end."""
    tokens = []
    for match in TOKEN.finditer(text):
        kind = "keyword" if match.group() in KEYWORDS else match.lastgroup
        if kind != "space":
            tokens.append(Token(kind, match.group(), match.start(), match.end()))
    return [*tokens, Token("end", "", len(text), len(text))]


def spelled(tokens):
    """Returns the tokens of a type in the usual spelling."""
    text = ""
    for before, token in zip([None, *tokens], tokens):
        is_close = before is None or token.text in ("<", ">", ",") or before.text == "<" or before.text in MARKS
        text += token.text if is_close else " " + token.text
    return text


def target_of(type_text):
    """Returns the target type of a pointer type; None for another type."""
    found = re.fullmatch(r"(.*?)\s*[*@?](?:`\w+)?", type_text or "")
    return found and found[1]


def pointer_to(type_text):
    return type_text and f"{type_text}{'' if type_text[-1] in MARKS else ' '}@"


def struct_in(type_text):
    """Returns the name of the struct of a type or of its target."""
    found = re.match(r"struct (\w+)", type_text or "")
    return found and found[1]


def region_of(type_text):
    """Returns the region of a pointer or handle type; for another type, an unknown one."""
    found = re.search(r"[*@?](`\w+)$", type_text or "") or re.fullmatch(r"region_t<(`\w+)>", type_text or "")
    return found[1] if found else UNKNOWN


def replaced(type_text, regions):
    """Returns a type with some regions replaced."""
    return type_text and re.sub(r"`\w+", lambda it: regions.get(it[0], it[0]), type_text)


def bound(parameters, arguments):
    """Returns the region for each region parameter at a call: that of the argument at its first place, or the heap for `NULL`."""
    found = {"`U": "`U"}
    for parameter, argument in zip(parameters, arguments):
        theirs = re.findall(r"`\w+", parameter)
        given = [HEAP] * len(theirs) if argument == "NULL" else re.findall(r"`\w+", argument or "")
        for one, other in zip(theirs, given if len(given) == len(theirs) else [UNKNOWN] * len(theirs)):
            found.setdefault(one, other)
    return {HEAP: HEAP, **found}


class Reading:
    """The tokens of a text, and the current position."""

    def __init__(self, text):
        self.text, self.tokens, self.at = text, tokens_of(text), 0

    def ahead(self, count):
        return self.tokens[min(self.at + count, len(self.tokens) - 1)]

    @property
    def next(self):
        return self.ahead(0)

    def take(self):
        token = self.next
        self.at = min(self.at + 1, len(self.tokens) - 1)
        return token

    def is_next(self, *wanted):
        """Returns true if these tokens are next, each given as a text, or as a kind after a dot."""
        return all(self.fits(self.ahead(count), it) for count, it in enumerate(wanted))

    @staticmethod
    def fits(token, wanted):
        return token.kind == wanted[1:] if len(wanted) > 1 and wanted[0] == "." else token.text == wanted

    def accept(self, text):
        """Consumes the next token if it is this one, and returns true if it was."""
        is_there = self.next.text == text
        if is_there:
            self.take()
        return is_there

    def expect(self, wanted):
        """Consumes the next token, which must be this one, or of this kind."""
        if not self.fits(self.next, wanted):
            raise Lost
        return self.take()

    def closing(self, at):
        """Returns the place of the bracket that closes the one at a place."""
        depth = 0
        while at < len(self.tokens) - 1:
            depth += (self.tokens[at].text in ("(", "[", "{")) - (self.tokens[at].text in (")", "]", "}"))
            if depth == 0:
                break
            at += 1
        return at

    def end_of_type(self):
        """Returns the place after the type that begins here; this place if none does."""
        at = self.at
        if self.next.text not in BASES or self.next.text == "struct" and self.ahead(1).kind != "name":
            return at
        at += 2 if self.next.text == "struct" else 1
        if self.next.text not in ("int", "char") and self.tokens[at].text == "<":
            at += 1
            while self.tokens[at].kind == "region" or self.tokens[at].text == ",":
                at += 1
            if self.tokens[at].text != ">":
                return self.at
            at += 1
        while self.tokens[at].text in MARKS:
            at += 1
            at += self.tokens[at].kind == "region"
        return at

    def declared_name(self):
        """Returns the place of the name after the type, or the `void`, that begins here; None if there is none."""
        end = self.at + 1 if self.next.text == "void" else self.end_of_type()
        return end if end > self.at and self.tokens[end].kind == "name" else None

    def is_struct(self):
        """Returns true if a struct is declared here."""
        return self.is_next("struct", ".name") and self.ahead(2).text in ("{", "<") and self.declared_name() is None


class Names(Reading):
    """The names of a text: `declared`, all declarations; `top`, the outermost in order; and `uses`, each with its place and its meaning. A
    name that the text does not declare may be one of a library."""

    def __init__(self, text, library=None):
        super().__init__(text)
        self.declared, self.top, self.uses = [], [], []
        # The positions of omitted regions, each with its meaning; and the types before each `->`, indexed by the
        # position after the `->`.
        self.left_out, self.arrows = [], {}
        self.structs, self.globals, self.exceptions = {}, {}, {}
        # The declarations in `top`, indexed by the source positions of their names.
        self.heads = {}
        self.each(self.find_head)
        for own, name in ((self.structs, "structs"), (self.globals, "globals"), (self.exceptions, "exceptions")):
            own.update({it: one for it, one in getattr(library, name, {}).items() if it not in own})
        self.find_types()
        self.each(self.read)
        self.uses.sort(key=lambda use: use[0])
        self.left_out.sort()
        self.starts = [start for start, _, _ in self.uses]

    def each(self, read):
        """Iterates over the declarations of the text, and skips syntax errors."""
        self.at = 0
        while self.next.kind != "end":
            start = self.at
            try:
                read()
            except Lost:
                pass
            self.at = max(self.at, start + 1)

    def meaning_at(self, place):
        """Returns the use at a place, or just before it, with its meaning; None if there is none."""
        for at in (place, place - 1):
            number = bisect.bisect_right(self.starts, at) - 1
            if number >= 0 and self.uses[number][1] > at:
                return self.uses[number]
        return None

    # ---- recorded uses

    def declare(self, kind, token, type_text=None, owner=None, about="", name=None):
        it = Declared(kind, name or token.text, type_text, owner, about, token)
        self.declared.append(it)
        self.use(token, it)
        return it

    def use(self, token, meaning):
        if meaning is not None:
            self.uses.append((token.start, token.end, meaning))

    def whole_type(self, tokens, outermost=HEAP, inner=HEAP):
        """Returns a type with all regions, and records the places of omitted ones. The last mark gets `outermost`, the others `inner`: each
        is a text, or a function that makes one."""
        parts = []
        marks = [number for number, token in enumerate(tokens) if token.text in MARKS]
        for number, token in enumerate(tokens):
            parts.append(token)
            behind = tokens[number + 1] if number + 1 < len(tokens) else None
            text = None
            if token.text in MARKS and (behind is None or behind.kind != "region"):
                meant = outermost if number == marks[-1] else inner
                text = meant() if callable(meant) else meant
                parts.append(Token("region", text, token.end, token.end))
            elif token.kind == "name" and token.text in self.structs and (behind is None or behind.text != "<"):
                count = len(self.structs[token.text].regions)
                text = count and f"<{','.join([HEAP] * count)}>"
                parts += tokens_of(text or "")[:-1]
            if text:
                self.left_out.append((token.end, text))
        return spelled(parts)

    # ---- declarations outside of blocks, visible in the whole text

    def find_head(self):
        if self.is_struct():
            self.find_struct()
        elif self.is_next("datatype", "exn", "{"):
            self.find_exceptions()
        elif self.declared_name() is not None:
            self.find_function_or_global()

    def find(self, kind, token, type_text, table, whole, about=""):
        it = self.declare(kind, token, type_text, about=about)
        it.whole = whole
        table.setdefault(token.text, it)
        self.heads[token.start] = it
        self.top.append(it)
        return it

    def find_struct(self):
        start, name, regions = self.take().start, self.take(), []
        while self.next.text != "{":
            if self.next.kind == "end":
                raise Lost
            regions += [self.next.text] if self.next.kind == "region" else []
            self.take()
        end = self.closing(self.at)
        it = self.find("struct", name, f"struct {name.text}", self.structs, (start, self.tokens[end].end))
        it.regions = regions
        self.take()
        while self.at < end:
            at = self.declared_name()
            if at is not None:
                field = self.declare("field", self.tokens[at], spelled(self.tokens[self.at:at]), it)
                field.full = self.tokens[self.at:at]
                it.fields.setdefault(field.name, field)
                it.parts.append(field)
                self.at = at
            self.take()
        self.at = end + 1

    def find_exceptions(self):
        end = self.closing(self.at + 2)
        for at in range(self.at + 3, end):
            token = self.tokens[at]
            if token.kind == "name":
                text = token.text + ("(int)" if self.tokens[at + 1].text == "(" else "")
                about = f"exception {5 + len(self.exceptions)}"
                self.find("exception", token, text, self.exceptions, (token.start, token.end), about)
        self.at = end + 1

    def find_function_or_global(self):
        start, at = self.next.start, self.declared_name()
        name, type_text, close = self.tokens[at], spelled(self.tokens[self.at:at]), at
        if self.tokens[at + 1].text != "(":
            while self.tokens[close].kind != "end" and self.tokens[close].text != ";":
                close += 1
            self.find("global", name, type_text, self.globals, (start, self.tokens[close].end)).full = self.tokens[self.at:at]
        else:
            close = self.closing(at + 1)
            head = " ".join(self.text[start:self.tokens[close].end].split())
            if self.tokens[min(close + 1, len(self.tokens) - 1)].text == "{":
                close = self.closing(close + 1)
            it = self.find("function", name, head, self.globals, (start, self.tokens[close].end))
            it.result, it.full = type_text, self.tokens[self.at:at]
            it.parameters = list(self.parameters_at(at + 2))
            it.written = [" ".join(self.text[one:other].split()) for one, other, _ in it.parameters]
        self.at = close + 1

    def parameters_at(self, at):
        """Returns the parameters of a function from its bracket on: the range and the type of each."""
        before = self.at
        self.at = at
        while self.end_of_type() > self.at:
            start, tokens = self.next.start, self.tokens[self.at:self.end_of_type()]
            self.at += len(tokens)
            if self.next.kind == "name":
                self.take()
            yield start, self.tokens[self.at - 1].end, tokens
            if not self.accept(","):
                break
        self.at = before

    def find_types(self):
        """Computes the type with all regions of each outer declaration, once all structs are known."""
        for it in self.declared:
            if it.kind == "field":
                it.full = self.whole_type(it.full)
            elif it.kind == "function":
                numbers = itertools.count(1)
                choose = lambda: f"`{next(numbers)}"
                noted = len(self.left_out)
                it.parameters = [self.whole_type(tokens, choose, choose) for _, _, tokens in it.parameters]
                self.left_out[noted:] = [(place, text) for place, text in self.left_out[noted:] if text[0] == "<"]
                it.full = self.whole_type(it.full)
            elif it.kind == "global":
                it.full = self.whole_type(it.full)

    # ---- bodies

    def read(self):
        """Reads a declaration whose name was found; after a syntax error, reading may continue at another one."""
        if self.is_struct():
            found, inside = self.heads.get(self.ahead(1).start), Inside.struct
        elif self.declared_name() is not None:
            found, inside = self.heads.get(self.tokens[self.declared_name()].start), Inside.function_or_global
        else:
            raise Lost
        if found:
            inside(Inside(self, found))


class Library:
    """The outer declarations of files that a text may use without a declaration of its own, by kind and name. As for names of the language,
    their places are -1."""

    def __init__(self, files):
        # All files are one text: a function may use a struct of another file.
        text = "\n".join(content for _, content in files)
        starts = [0, *itertools.accumulate(len(content) + 1 for _, content in files)]
        found = Names(text)
        self.structs, self.globals, self.exceptions = found.structs, found.globals, found.exceptions
        for it in found.top:
            path, content = files[bisect.bisect_right(starts, it.start) - 1]
            first = starts[bisect.bisect_right(starts, it.start) - 1]
            it.about, it.shown = comment_above(text, it), text[slice(*it.whole)]
            for one in (it, *it.fields.values()):
                one.home = Home(path, content, one.start - first, one.end - first)
                one.start, one.end = -1, -1


def comment_above(text, it):
    """Returns the words of the comment that ends before a declaration; no words if there is none."""
    start = text.rfind("datatype", 0, it.start) if it.kind == "exception" else it.whole[0]
    before = text[:start].rstrip()
    return " ".join(before[before.rfind("/*") + 2:-2].split()) if before.endswith("*/") else ""


class Inside:
    """A declaration while it is read, with the visible names of each open block."""

    def __init__(self, names, owner):
        self.names, self.owner = names, owner
        self.variables, self.regions, self.depth = [{}], [{}], 0
        self.blocks = ["`" + owner.name]
        # The region that contains the object to which the last parsed expression refers.
        self.lies = UNKNOWN

    # ---- visible names

    def variable(self, kind, token, type_text):
        it = self.names.declare(kind, token, type_text, self.owner)
        it.block = self.blocks[-1]
        self.variables[-1][token.text] = it
        self.owner.parts.append(it)
        self.begin(it)
        return it

    def region(self, token, about, name=None):
        it = self.names.declare("region", token, None, self.owner, about, name)
        self.regions[-1][it.name] = it
        self.begin(it)
        return it

    def begin(self, it):
        """Records that a name is visible from here on, or from the place after its name."""
        it.since = max(it.end, self.names.tokens[self.names.at - 1].end if self.names.at else 0)

    def end(self, place):
        """Ends the visibility of the names declared in the innermost block."""
        for it in (*self.variables[-1].values(), *self.regions[-1].values()):
            it.until = place

    def meaning(self, name):
        known = (scope[name] for scope in reversed(self.variables) if name in scope)
        return next(known, None) or self.names.globals.get(name) or GIVEN.get(name)

    def exception(self, token):
        self.names.use(token, self.names.exceptions.get(token.text) or GIVEN_EXCEPTIONS.get(token.text))

    def use_region(self, token, about=None):
        """Records the use of a region; with `about`, declares an unknown one."""
        known = next((scope[token.text] for scope in reversed(self.regions) if token.text in scope), GIVEN.get(token.text))
        if known is None and about:
            self.region(token, about)
        else:
            self.names.use(token, known)

    def type(self, about=None):
        """Consumes a type, and returns its spelling."""
        names = self.names
        end = names.end_of_type()
        if end == names.at:
            raise Lost
        tokens = names.tokens[names.at:end]
        for token in tokens:
            if token.kind == "name":
                names.use(token, names.structs.get(token.text))
            elif token.kind == "region":
                self.use_region(token, about)
        names.at = end
        self.read = tokens
        return spelled(tokens)

    def nested(self, read, *more):
        """Reads a bracket, an operand or a statement, within the allowed depth."""
        if self.depth == DEEPEST:
            raise Lost
        self.depth += 1
        try:
            return read(*more)
        finally:
            self.depth -= 1

    def within(self, read, block=None):
        """Reads a scope in a block with this region, or without a name."""
        self.variables.append({})
        self.regions.append({})
        self.blocks.append(block)
        try:
            return self.nested(read)
        finally:
            last = self.names.tokens[self.names.at - 1]
            self.end(last.start if read in (self.block, self.labelled) and last.text == "}" else self.names.next.start)
            self.variables.pop()
            self.regions.pop()
            self.blocks.pop()

    # ---- declarations

    def struct(self):
        names = self.names
        names.at += 2
        while names.next.text != "{":
            if names.next.kind == "region":
                self.region(names.next, f"a region that struct {self.owner.name} is given")
            names.take()
        end = names.closing(names.at)
        while names.at < end:
            if names.end_of_type() > names.at:
                self.type()
            else:
                names.take()
        self.end(names.tokens[end].end)
        names.at = end + 1

    def function_or_global(self):
        names = self.names
        start, name_at = names.at, names.declared_name()
        if names.tokens[name_at + 1].text != "(":
            self.type()
            while names.next.kind != "end" and not names.accept(";"):
                names.take()
            return
        # The regions in a result type are declared by the parameters, which follow the result type
        # in the text.
        about = "where this function's own variables lie, to its last brace"
        own = Declared("region", "`" + self.owner.name, owner=self.owner, about=about)
        own.start, own.end = self.owner.start, self.owner.end
        self.regions[0][own.name] = own
        names.at = name_at + 1
        close, self.own = names.closing(names.at), iter(self.owner.parameters)
        self.parameters(close)
        names.at = start
        if not names.accept("void"):
            self.type(f"a region that the caller of {self.owner.name} chooses")
        names.at = close + 1
        if names.next.text == "{":
            self.body()

    def parameters(self, close):
        names = self.names
        about = f"a region that the caller of {self.owner.name} chooses"
        while names.at < close:
            if names.end_of_type() > names.at:
                type_text, full = self.type(about), next(self.own, None)
                if names.next.kind == "name":
                    self.variable("parameter", names.next, type_text).full = full
            elif names.next.kind == "region":
                self.use_region(names.next, about)
            names.take()

    def body(self):
        """Reads the block of a function, in which its parameters are declared too."""
        end = self.names.closing(self.names.at)
        self.names.take()
        self.items(("}",))
        self.end(self.names.tokens[end].start)
        self.names.at = max(self.names.at, end + 1)

    # ---- blocks

    def items(self, stops):
        """Reads items up to one of these tokens, which is not consumed. Continues after a syntax error."""
        names = self.names
        while names.next.kind != "end" and names.next.text not in stops:
            start = names.at
            try:
                self.item()
            except Lost:
                self.pass_over(start)

    def pass_over(self, start):
        """Skips to the place after the next semicolon, or to the next brace."""
        names = self.names
        if names.at == start:
            names.take()
        while names.next.kind != "end" and names.next.text not in ("{", "}") and not names.accept(";"):
            names.take()

    def item(self):
        names = self.names
        if names.is_next("region", "<"):
            self.region_item()
        elif names.is_next("let", "alias"):
            self.alias_item()
        elif names.is_next("let"):
            self.dynamic_item()
        elif names.end_of_type() > names.at and not names.is_next("char", "("):
            self.local_item()
        else:
            self.statement()

    def local_item(self):
        names = self.names
        type_text, tokens = self.type(), self.read
        name = names.expect(".name")
        has_value, found = names.accept("="), "NULL"
        try:
            found = self.expression() if has_value else found
        finally:
            # The name of a local variable is visible only after its declaration.
            it = self.variable("local", name, type_text)
            it.has_value, it.full = has_value, names.whole_type(tokens, HEAP if found == "NULL" else region_of(found))
        names.expect(";")

    def region_item(self):
        names = self.names
        names.at += 2
        region = names.expect(".region")
        names.expect(">")
        handle = names.expect(".name")
        if names.accept("="):
            names.expect("open")
            names.expect("(")
            key = names.expect(".name")
            names.use(key, self.meaning(key.text))
            names.expect(")")
            self.use_region(region, "a dynamic region, which is open to the end of this block")
        else:
            self.region(region, "a lexical region, which lives to the end of its block")
        self.variable("handle", handle, f"region_t<{region.text}>")
        names.expect(";")

    def alias_item(self):
        names = self.names
        names.at += 2
        names.expect("<")
        self.region(names.expect(".region"), "where a unique pointer is lent out, to the end of this block")
        names.expect(">")
        type_text, tokens = self.type(), self.read
        name = names.expect(".name")
        names.expect("=")
        lent = names.expect(".name")
        names.use(lent, self.meaning(lent.text))
        self.variable("local", name, type_text).full = names.whole_type(tokens)
        names.expect(";")

    def dynamic_item(self):
        names = self.names
        names.take()
        for wanted in ("NewDynamicRegion", "{", "<"):
            names.expect(wanted)
        region = names.expect(".region")
        names.expect(">")
        key = names.expect(".name")
        self.region(region, "a dynamic region, which lives until its key is given to free_ukey")
        self.variable("key", key, f"uregion_key_t<{region.text}>")
        for wanted in ("}", "=", "new_ukey", "(", ")", ";"):
            names.expect(wanted)

    def block(self):
        names = self.names
        names.expect("{")
        self.items(("}",))
        names.expect("}")

    def labelled(self):
        """Reads a label with its block, whose region it names."""
        names = self.names
        label = names.take()
        names.take()
        self.region(label, "the region of the block with this label, which lives to its last brace", "`" + label.text)
        self.block()

    # ---- statements

    def statement(self):
        self.nested(self.one_statement)

    def one_statement(self):
        names = self.names
        text = names.next.text
        if text == "{":
            self.within(self.block)
        elif names.is_next(".name", ":", "{"):
            self.within(self.labelled, "`" + names.next.text)
        elif text in ("if", "while"):
            self.conditional()
        elif text == "try":
            self.try_statement()
        elif text == "throw":
            self.throw()
        else:
            if text in ("return", "break", "continue"):
                names.take()
            if names.next.text != ";":
                self.expression()
            if names.accept(":=:"):
                self.unary()
            names.expect(";")

    def conditional(self):
        names = self.names
        names.take()
        names.expect("(")
        self.expression()
        names.expect(")")
        self.statement()
        if names.accept("else"):
            self.statement()

    def throw(self):
        names = self.names
        names.take()
        names.expect("new")
        self.exception(names.expect(".name"))
        if names.next.text == "(":
            self.arguments()
        names.expect(";")

    def try_statement(self):
        names = self.names
        names.take()
        self.statement()
        names.expect("catch")
        names.expect("{")
        while names.next.text in ("case", "default"):
            self.within(self.clause)
        names.expect("}")

    def clause(self):
        names = self.names
        if names.take().text == "case":
            names.expect("&")
            self.exception(names.expect(".name"))
            if names.accept("("):
                self.variable("local", names.expect(".name"), "int")
                names.expect(")")
        names.expect(":")
        self.items(("case", "default", "}"))

    # ---- expressions; each returns the type of the expression, or None if it is unknown

    def expression(self):
        return self.nested(self.one_expression)

    def one_expression(self):
        found = self.binary()
        if self.names.accept("="):
            self.expression()
        return found

    def binary(self):
        found = self.unary()
        while self.names.next.text in OPERATORS:
            is_sum = self.names.take().text in ("+", "-")
            self.unary()
            found = found if is_sum and target_of(found) is not None else "int"
            self.lies = UNKNOWN
        return found

    def unary(self):
        return self.nested(self.one_unary)

    def one_unary(self):
        names = self.names
        text = names.next.text
        if text in ("-", "!", "~"):
            names.take()
            self.unary()
            return "int"
        if text == "*":
            names.take()
            return self.led_to(self.unary())
        if text == "&":
            names.take()
            found = self.unary()
            return found and f"{found} @{self.lies}"
        if text == "new":
            names.take()
            return self.initial(HEAP)
        if text == "rnew":
            names.take()
            return self.initial(region_of((self.arguments() or [None])[0]))
        return self.postfix()

    def led_to(self, found):
        """Returns the type of a pointer's target, which is in the pointer's region."""
        self.lies = region_of(found)
        return target_of(found)

    def initial(self, region):
        """Reads an allocation in a region, and returns the type of the pointer to it."""
        names = self.names
        if names.is_next("{", "for"):
            found, mark = self.within(self.elements), "?"
        elif names.is_next(".name", "{") or names.is_next(".name", "<", ".region"):
            found, mark = self.fields(), "@"
        else:
            found, mark = self.unary(), "@"
        return found and f"{found} {mark}{region}"

    def fields(self):
        names = self.names
        struct, regions = names.take(), []
        it = names.structs.get(struct.text)
        names.use(struct, it)
        if names.next.text == "{" and it and it.regions:
            regions = [HEAP] * len(it.regions)
            names.left_out.append((struct.end, f"<{','.join(regions)}>"))
        while names.next.text != "{":
            token = names.take()
            if token.kind == "region":
                self.use_region(token)
                regions.append(token.text)
            elif token.text not in ("<", ",", ">"):
                raise Lost
        self.list("{", "}")
        return f"struct {struct.text}" + (f"<{', '.join(regions)}>" if regions else "")

    def elements(self):
        names = self.names
        names.at += 2
        counter = names.expect(".name")
        names.expect("<")
        self.binary()
        names.expect(":")
        self.variable("counter", counter, "int")
        found = self.expression()
        names.expect("}")
        return found

    def list(self, opening, closing):
        """Reads comma-separated expressions in brackets, and returns their types."""
        names, found = self.names, []
        names.expect(opening)
        if names.next.text != closing:
            found.append(self.expression())
            while names.accept(","):
                found.append(self.expression())
        names.expect(closing)
        return found

    def arguments(self):
        return self.list("(", ")")

    def postfix(self):
        names = self.names
        found = self.primary()
        while names.next.text in ("[", "->"):
            token = names.take()
            if token.text == "[":
                self.expression()
                names.expect("]")
                found = self.led_to(found)
            else:
                names.arrows[token.end] = found
                found = self.field(names.expect(".name"), found)
        return found

    def field(self, token, found):
        """Reads a field of the target of `found`; if that is unknown, of the only struct with a field of this name."""
        structs = self.names.structs
        struct = structs.get(struct_in(found))
        if struct is None:
            having = [it for it in structs.values() if token.text in it.fields and it.home is None]
            struct = having[0] if len(having) == 1 else None
        it = struct and struct.fields.get(token.text)
        self.names.use(token, it)
        given = re.match(r"struct \w+<([^>]*)>", found or "")
        self.lies = region_of(found)
        regions = dict(zip(struct.regions, re.findall(r"`\w+", given[1] if given else ""))) if struct else {}
        return it and replaced(it.full, {**{one: UNKNOWN for one in struct.regions}, **regions})

    def primary(self):
        names = self.names
        token = names.next
        if token.kind in ("number", "character"):
            names.take()
            return "int"
        if token.kind == "name":
            return self.named(names.take())
        if token.text == "(":
            names.take()
            found = self.expression()
            names.expect(")")
            return found
        if token.text in ("NULL", "heap_region", "unique_region"):
            names.take()
            return {"NULL": "NULL", "heap_region": "region_t<`H>", "unique_region": "region_t<`U>"}[token.text]
        if token.text in ("numelts", "char", "ufree", "free_ukey"):
            names.take()
            self.arguments()
            return "int"
        raise Lost

    def named(self, token):
        names = self.names
        it = self.meaning(token.text)
        names.use(token, it)
        if names.next.text != "(":
            self.lies = (it.block or UNKNOWN) if it and it.owner else HEAP
            return it and it.full
        given = self.arguments()
        self.lies = UNKNOWN
        if it is None or it.name in GIVEN and it.home is None and it.start < 0:
            return it and "int"
        regions = bound(it.parameters, given)
        return re.sub(r"`\w+", lambda found: regions.get(found[0], UNKNOWN), it.full or "")

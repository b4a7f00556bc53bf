"""Texts of the language become trees, or are refused: tokens, the grammar, and the limits of a text."""
import re

BYTES_AT_MOST = 1_048_576
TOKENS_AT_MOST = 60_000
NESTING_AT_MOST = 200
ITEMS_AT_MOST = 64
GREATEST_NUMBER = 2**31 - 1

KEYWORDS = set(
    "int char void struct datatype exn region region_t uregion_key_t open let alias NewDynamicRegion new_ukey new rnew for if else"
    " while return break continue throw try catch case default NULL numelts ufree free_ukey unique_region heap_region".split()
)
TOKEN = re.compile(
    r"(?P<space>[ \t\r\n]+|/\*.*?\*/|//[^\n]*)"
    r"|(?P<name>[A-Za-z_][A-Za-z_0-9]*)"
    r"|(?P<region>`[A-Za-z_][A-Za-z_0-9]*)"
    r"|(?P<number>0[xX][0-9a-fA-F]+|0|[1-9][0-9]*)"
    r"|(?P<character>'(?:[ -&(-\[\]-~]|\\[ntr0\\'])')"
    r"|(?P<sign>(?!/\*)(?::=:|&&|\|\||==|!=|<=|>=|<<|>>|->|[-+*/%&|^~!<>=()\[\]{},;:@?]))",
    re.DOTALL,
)
ESCAPES = {"n": 10, "t": 9, "r": 13, "0": 0, "\\": 92, "'": 39}
# The binary operators by precedence, from the lowest to the highest.
LEVELS = [["||"], ["&&"], ["|"], ["^"], ["&"], ["==", "!="], ["<", "<=", ">", ">="], ["<<", ">>"], ["+", "-"], ["*", "/", "%"]]
LEVEL_OF = {sign: level for level, signs in enumerate(LEVELS) for sign in signs}
MARKS = ("*", "@", "?")
TYPE_WORDS = ("int", "char", "struct", "region_t", "uregion_key_t")
EXPRESSION_SIGNS = ("-", "!", "~", "*", "&", "(")
EXPRESSION_WORDS = ("new", "rnew", "NULL", "heap_region", "unique_region", "numelts", "char", "ufree", "free_ukey")


class Refused(Exception):
    """A text that is not of the language, with the code and the place of the refusal."""

    def __init__(self, code, place):
        super().__init__(f"fault {code} at {place[0]}:{place[1]}")
        self.code, self.place = code, place


class Token:
    def __init__(self, kind, text, place):
        self.kind, self.text, self.place = kind, text, place


class Node:
    """A part of the tree: a kind, a place, and what the kind says. An expression has the place of its first bracket too, as `start`."""

    def __init__(self, kind, place, **parts):
        self.kind, self.place, self.start = kind, place, place
        self.__dict__.update(parts)


# --- Tokens ---


def tokens_of(text):
    if len(text) > BYTES_AT_MOST:
        raise Refused(4, (1, 1))
    tokens, at, line, start = [], 0, 1, 0
    while at < len(text):
        place = (line, at - start + 1)
        match = TOKEN.match(text, at)
        if not match:
            raise Refused(2 if text.startswith("/*", at) else 1, place)
        kind, at = match.lastgroup, match.end()
        if kind == "space":
            line += match.group().count("\n")
            start = text.rfind("\n", 0, at) + 1
            continue
        if kind == "name" and match.group() in KEYWORDS:
            kind = "keyword"
        if kind == "number" and int(match.group(), 0) > GREATEST_NUMBER:
            raise Refused(3, place)
        if len(tokens) == TOKENS_AT_MOST:
            raise Refused(6, place)
        tokens.append(Token(kind, match.group(), place))
    tokens.append(Token("end", "", (line, at - start + 1)))
    return tokens


def number_of(token):
    if token.kind == "number":
        return int(token.text, 0)
    inside = token.text[1:-1]
    return ESCAPES[inside[1]] if inside[0] == "\\" else ord(inside)


# --- The tree ---


class Reading:
    """What all parts of the parser use: the next token, what is expected of it, and the limits."""

    def __init__(self, text):
        self.tokens = tokens_of(text)
        self.at = 0
        self.nesting = 0

    @property
    def next(self):
        return self.tokens[self.at]

    @property
    def behind(self):
        """The token behind the next one; the end is behind itself."""
        return self.tokens[min(self.at + 1, len(self.tokens) - 1)]

    def hold_nesting(self):
        if self.nesting > NESTING_AT_MOST:
            raise Refused(12, self.next.place)

    def take(self):
        """The next token, which is one that is expected."""
        self.hold_nesting()
        self.at += 1
        return self.tokens[self.at - 1]

    def refuse(self):
        raise Refused(11 if self.next.kind == "end" else 10, self.next.place)

    def sees(self, *texts):
        return self.next.text in texts and self.next.kind in ("sign", "keyword")

    def takes(self, text):
        return self.take() if self.sees(text) else None

    def want(self, text):
        return self.takes(text) or self.refuse()

    def want_kind(self, kind):
        return self.take() if self.next.kind == kind else self.refuse()

    def want_name(self):
        return self.want_kind("name")

    def enclosed(self, first, parse, last):
        """What stands between two brackets."""
        self.want(first)
        inside = self.deeper(parse, lambda: self.want(last))
        return inside

    def deeper(self, *parses):
        """What stands one level deeper; the answer of the first of the parses, which are done in order."""
        self.nesting += 1
        answers = [parse() for parse in parses]
        self.nesting -= 1
        return answers[0]

    def hold_count(self, count, begins):
        """Refuses an item that is one too many, where one begins here."""
        if count == ITEMS_AT_MOST and begins:
            self.hold_nesting()
            raise Refused(13, self.next.place)

    def listed(self, item, begins):
        """One or more items with commas between them."""
        items = [item()]
        while self.takes(","):
            self.hold_count(len(items), begins())
            items.append(item())
        return items

    def begins_type(self):
        return self.sees(*TYPE_WORDS)

    def begins_expression(self):
        return self.next.kind in ("number", "character", "name") or self.sees(*EXPRESSION_SIGNS, *EXPRESSION_WORDS)


class Types(Reading):
    """Types, and the regions that are written in them."""

    def region(self):
        token = self.want_kind("region")
        return Node("region", token.place, name=token.text[1:])

    def regions(self):
        return self.listed(self.region, lambda: self.next.kind == "region")

    def region_arguments(self):
        """Regions between `<` and `>`, if they are written."""
        if not self.takes("<"):
            return []
        found = self.regions()
        self.want(">")
        return found

    def one_region(self):
        self.want("<")
        found = self.region()
        self.want(">")
        return found

    def type(self):
        if not self.begins_type():
            self.refuse()
        token = self.take()
        written = Node("type", token.place, base=token.text, name=None, arguments=[], marks=[])
        if token.text == "struct":
            written.name = self.want_name()
            written.arguments = self.region_arguments()
        elif token.text not in ("int", "char"):
            written.arguments = [self.one_region()]
        return self.marked(written)

    def marked(self, written):
        """The type with the marks that follow, each with its region if that is written."""
        while self.sees(*MARKS):
            self.hold_count(len(written.marks), True)
            mark = self.take().text
            written.marks.append((mark, self.region() if self.next.kind == "region" else None))
        return written


class Expressions(Types):
    def expression(self):
        left = self.binary(0)
        if not self.takes("="):
            return left
        return Node("assign", left.start, target=left, value=self.deeper(self.expression))

    def binary(self, level):
        left, chain, count = self.unary(), None, 0
        while self.next.kind == "sign" and LEVEL_OF.get(self.next.text, -1) >= level:
            count = count + 1 if LEVEL_OF[self.next.text] == chain else 1
            chain = LEVEL_OF[self.next.text]
            self.hold_count(count - 1, True)
            sign = self.take()
            right = self.binary(chain + 1)
            left = Node("binary", left.start, sign=sign.text, at=sign.place, left=left, right=right)
        return left

    def unary(self):
        token = self.next
        if self.sees("-", "!", "~"):
            return Node("unary", self.take().place, sign=token.text, operand=self.deeper(self.unary))
        if self.sees("*"):
            return Node("target", self.take().place, operand=self.deeper(self.unary))
        if self.sees("&"):
            return Node("address", self.take().place, operand=self.deeper(self.unary))
        if self.takes("new"):
            return Node("new", token.place, handle=None, initial=self.deeper(self.initial))
        if self.takes("rnew"):
            self.nesting += 1
            handle = self.enclosed("(", self.expression, ")")
            initial = self.initial()
            self.nesting -= 1
            return Node("new", token.place, handle=handle, initial=initial)
        return self.postfix()

    def initial(self):
        """What a new object holds: a value, a struct's fields, or an array's elements."""
        token = self.next
        if self.sees("{"):
            return self.enclosed("{", self.array, "}")
        opens_fields = self.behind.text == "{" or self.behind.text == "<" and self.tokens[self.at + 2].kind == "region"
        if token.kind != "name" or not opens_fields:
            value = self.unary()
            return Node("plain", value.start, value=value)
        self.take()
        arguments = self.region_arguments()
        values = self.enclosed("{", self.values, "}")
        return Node("fields", token.place, name=token.text, arguments=arguments, values=values)

    def values(self):
        values = [self.expression()]
        while self.takes(","):
            values.append(self.expression())
        return values

    def array(self):
        token = self.want("for")
        name = self.want_name()
        self.want("<")
        length = self.binary(0)
        self.want(":")
        counter = Node("counter", name.place, name=name.text)
        return Node("array", token.place, counter=counter, length=length, element=self.expression())

    def postfix(self):
        left, count = self.primary(), 0
        while self.sees("[", "->"):
            self.hold_count(count, True)
            count += 1
            if self.sees("["):
                left = Node("element", left.start, base=left, index=self.enclosed("[", self.expression, "]"))
            else:
                self.take()
                left = Node("member", left.start, base=left, field=self.want_name())
        return left

    def primary(self):
        token = self.next
        if token.kind in ("number", "character"):
            return Node("number", self.take().place, value=number_of(token))
        if self.sees("("):
            inner = self.enclosed("(", self.expression, ")")
            inner.start, inner.is_bracketed = token.place, True
            inner.brackets = getattr(inner, "brackets", 0) + 1
            return inner
        if self.sees("NULL", "heap_region", "unique_region"):
            return Node({"NULL": "null"}.get(token.text, token.text), self.take().place)
        if self.sees("numelts", "char", "ufree"):
            return Node(self.take().text, token.place, operand=self.enclosed("(", self.expression, ")"))
        if self.takes("free_ukey"):
            return Node("free_ukey", token.place, key=self.enclosed("(", self.variable, ")"))
        name = self.variable()
        if not self.sees("("):
            return name
        return Node("call", token.place, name=token.text, arguments=self.enclosed("(", self.arguments, ")"))

    def variable(self):
        name = self.want_name()
        return Node("variable", name.place, name=name.text)

    def arguments(self):
        return [] if self.sees(")") else self.listed(self.expression, self.begins_expression)


def ends_with_new_name(node, is_new=False):
    """Whether a `<` behind an operand may still open the regions of a struct that is made."""
    if hasattr(node, "is_bracketed"):
        return False
    if node.kind in ("unary", "target", "address"):
        return ends_with_new_name(node.operand)
    if node.kind == "new":
        return node.initial.kind == "plain" and ends_with_new_name(node.initial.value, True)
    return is_new and node.kind == "variable"


class Statements(Expressions):
    def block(self, label=None):
        place = self.next.place
        self.want("{")
        self.nesting += 1
        items = self.items()
        end = self.want("}")
        self.nesting -= 1
        return Node("block", place, items=items, end=end.place, label=label)

    def items(self):
        found = []
        while not self.sees("}", "case", "default"):
            found.append(self.item())
        return found

    def begins_low_byte(self):
        """Whether `char` and a bracket come: an expression. Behind `char` that is a type a mark or a name comes."""
        return self.sees("char") and self.behind.kind == "sign" and self.behind.text == "("

    def item(self):
        if self.begins_type() and not self.begins_low_byte():
            return self.local()
        if self.sees("region"):
            return self.region_item()
        if self.takes("let"):
            return self.alias() if self.takes("alias") else self.dynamic()
        return self.statement()

    def local(self):
        written = self.type()
        name = self.want_name()
        value = self.deeper(self.expression) if self.takes("=") else None
        self.want(";")
        return Node("local", name.place, name=name.text, written=written, value=value)

    def region_item(self):
        token, region = self.take(), self.one_region()
        name, key = self.want_name(), None
        if self.takes("="):
            key = self.deeper(self.opened)
        self.want(";")
        kind = "open" if key else "region"
        return Node(kind, name.place, at=token.place, name=name.text, region=region, key=key)

    def opened(self):
        self.want("open")
        return self.enclosed("(", self.variable, ")")

    def alias(self):
        region, written = self.one_region(), self.type()
        name = self.want_name()
        self.want("=")
        source = self.deeper(self.variable)
        self.want(";")
        return Node("alias", name.place, name=name.text, region=region, written=written, source=source)

    def dynamic(self):
        self.want("NewDynamicRegion")
        region, name = self.enclosed("{", lambda: (self.one_region(), self.want_name()), "}")
        self.want("=")
        self.deeper(lambda: self.want("new_ukey"), lambda: self.enclosed("(", lambda: None, ")"))
        self.want(";")
        return Node("key", name.place, name=name.text, region=region)

    def statement(self):
        token = self.next
        if self.sees("{"):
            return self.block()
        if token.kind == "name" and self.behind.kind == "sign" and self.behind.text == ":":
            name = self.take()
            self.take()
            return self.block(Node("region", name.place, name=name.text))
        if self.takes(";"):
            return Node("nothing", token.place)
        if self.sees("if", "while"):
            return self.branch()
        if self.sees("break", "continue", "return"):
            self.take()
            value = None if token.text != "return" or self.sees(";") else self.expression()
            self.want(";")
            return Node(token.text, token.place, value=value)
        if self.sees("throw"):
            return self.throw()
        if self.sees("try"):
            return self.tried()
        return self.expression_statement()

    def branch(self):
        token = self.take()
        condition = self.enclosed("(", self.expression, ")")
        body = self.deeper(self.statement)
        other = self.deeper(self.statement) if token.text == "if" and self.takes("else") else None
        return Node(token.text, token.place, condition=condition, body=body, other=other)

    def throw(self):
        token = self.take()
        self.want("new")
        self.nesting += 1
        name, value = self.want_name(), None
        if self.sees("("):
            value = self.enclosed("(", self.expression, ")")
        self.nesting -= 1
        self.want(";")
        return Node("throw", token.place, name=name, value=value)

    def tried(self):
        token = self.take()
        body = self.deeper(self.statement)
        self.want("catch")
        return Node("try", token.place, body=body, clauses=self.enclosed("{", self.clauses, "}"))

    def clauses(self):
        if not self.sees("case", "default"):
            self.refuse()
        found = []
        while self.sees("case"):
            found.append(self.clause())
        if self.sees("default"):
            token = self.take()
            self.want(":")
            found.append(Node("default", token.place, items=self.clause_items()))
        return found

    def clause(self):
        token = self.take()
        self.want("&")
        name, value = self.want_name(), None
        if self.sees("("):
            caught = self.enclosed("(", self.want_name, ")")
            value = Node("local", caught.place, name=caught.text)
        self.want(":")
        return Node("case", token.place, name=name, value=value, items=self.clause_items())

    def clause_items(self):
        return self.items()

    def expression_statement(self):
        token, left = self.next, self.binary(0)
        is_unary = left.kind != "binary" or hasattr(left, "is_bracketed")
        if is_unary and self.takes(":=:"):
            right = self.unary()
            if ends_with_new_name(right) and self.takes("<"):
                self.refuse()
            self.want(";")
            return Node("swap", token.place, left=left, right=right)
        if self.takes("="):
            left = Node("assign", left.start, target=left, value=self.deeper(self.expression))
        self.want(";")
        return Node("expression", token.place, value=left)


class Parser(Statements):
    """Makes the tree of a text: its declarations, in order."""

    def program(self):
        parts = []
        while self.next.kind != "end" or not parts:
            parts.append(self.declaration())
        return parts

    def declaration(self):
        if self.sees("datatype"):
            return self.exceptions()
        if self.takes("void"):
            return self.function(None, self.want_name())
        if not self.begins_type():
            self.refuse()
        if not self.sees("struct"):
            return self.typed(self.type())
        token = self.take()
        written = Node("type", token.place, base="struct", name=self.want_name(), arguments=self.region_arguments(), marks=[])
        return self.struct(written) if self.sees("{") else self.typed(self.marked(written))

    def typed(self, written):
        """A global or a function, behind its type."""
        name = self.want_name()
        if self.sees("("):
            return self.function(written, name)
        value = self.deeper(self.constant) if self.takes("=") else None
        self.want(";")
        return Node("global", name.place, name=name.text, written=written, value=value)

    def constant(self):
        token = self.next
        if self.takes("-"):
            return Node("number", token.place, value=-self.deeper(lambda: number_of(self.want_kind("number"))))
        if self.takes("NULL"):
            return Node("null", token.place)
        if token.kind not in ("number", "character"):
            self.refuse()
        return Node("number", token.place, value=number_of(self.take()))

    def struct(self, written):
        fields = self.enclosed("{", self.fields, "}")
        self.want(";")
        name = written.name
        return Node("struct", name.place, name=name.text, parameters=written.arguments, fields=fields)

    def fields(self):
        found = [self.field()]
        while not self.sees("}"):
            self.hold_count(len(found), self.begins_type())
            found.append(self.field())
        return found

    def field(self):
        written = self.type()
        name = self.want_name()
        self.want(";")
        return Node("field", name.place, name=name.text, written=written)

    def exceptions(self):
        token = self.take()
        self.want("exn")
        constructors = self.enclosed("{", self.constructors, "}")
        self.want(";")
        return Node("exceptions", token.place, constructors=constructors)

    def constructors(self):
        found = [self.constructor()]
        while not self.sees("}"):
            self.hold_count(len(found), self.next.kind == "name")
            found.append(self.constructor())
        return found

    def constructor(self):
        name = self.want_name()
        has_int = self.sees("(")
        if has_int:
            self.enclosed("(", lambda: self.want("int"), ")")
        self.want(";")
        return Node("constructor", name.place, name=name.text, has_int=has_int)

    def function(self, result, name):
        function = Node("function", name.place, name=name.text, is_void=result is None, result=result)
        self.enclosed("(", lambda: self.parameters(function), ")")
        function.body = self.block()
        return function

    def parameters(self, function):
        function.parameters, function.effect, function.constraints = [], None, []
        if self.begins_type():
            function.parameters = self.listed(self.parameter, self.begins_type)
        else:
            self.takes("void")
        if self.takes(";"):
            function.effect = self.enclosed("{", lambda: [] if self.sees("}") else self.regions(), "}")
        if self.takes(":"):
            function.constraints = self.listed(self.constraint, lambda: self.next.kind == "region")

    def parameter(self):
        written = self.type()
        name = self.want_name()
        return Node("local", name.place, name=name.text, written=written, value=None)

    def constraint(self):
        longer = self.region()
        self.want(">")
        return longer, self.region()


def tree_of(text):
    return Parser(text).program()

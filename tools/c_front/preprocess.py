"""The C text as the parser takes it: run through cpp on this folder's headers, without the forms of GNU that say nothing of meaning."""
import os
import re
import subprocess

from .faults import Place, Refusal

HEADERS = os.path.join(os.path.dirname(os.path.abspath(__file__)), "include")
PLAIN = {"__extension__": "", "__inline__": "inline", "__inline": "inline", "__restrict": "restrict", "__restrict__": "restrict",
         "__const": "const", "__const__": "const", "__volatile__": "volatile", "__volatile": "volatile", "__signed__": "signed",
         "__signed": "signed", "_Noreturn": "", "__noreturn__": "", "auto": "", "_Thread_local": "", "__thread": "",
         "__builtin_offsetof": "offsetof"}
LIMITS = {"__INT_MAX__": "2147483647", "__SCHAR_MAX__": "127", "__SHRT_MAX__": "32767", "__LONG_MAX__": "2147483647L",
          "__CHAR_BIT__": "8", "__SIZEOF_INT__": "4", "__SIZEOF_LONG__": "4", "__SIZEOF_POINTER__": "4", "__SIZEOF_SHORT__": "2",
          "__SIZE_TYPE__": "unsigned long", "__PTRDIFF_TYPE__": "long", "__INTPTR_TYPE__": "long", "__UINTPTR_TYPE__": "unsigned long",
          "__INT8_TYPE__": "signed char", "__UINT8_TYPE__": "unsigned char", "__INT16_TYPE__": "short",
          "__LONG_LONG_MAX__": "9223372036854775807LL",
          "__UINT16_TYPE__": "unsigned short", "__INT32_TYPE__": "int", "__UINT32_TYPE__": "unsigned int", "__WCHAR_TYPE__": "int",
          "__INT64_TYPE__": "long long", "__UINT64_TYPE__": "unsigned long long", "__SIZEOF_LONG_LONG__": "8", "__BYTE_ORDER__": "1234",
          "__ILP32__": "1",
          "__ORDER_LITTLE_ENDIAN__": "1234", "__ORDER_BIG_ENDIAN__": "4321", "__UINTMAX_TYPE__": "unsigned long long"}
MEANINGFUL = re.compile(r"vector_size|mode|(?<!may_)alias|cleanup|constructor|destructor|weak|transparent_union|scalar_storage|ifunc")
LAYOUT = re.compile(r"packed|aligned")
# The name of a field that marks a struct whose layout a C attribute changes, and the name that replaces the omitted
# middle operand of `a ?: b`.
LAYOUT_MARK, SAME_MARK = "cyclone_layout", "cyclone_same"
KEYWORDS = set("void int char short long unsigned signed float double struct union enum typedef _Bool".split())
STORAGE = ("static", "extern", "register", "const", "volatile", "inline")
NAME = re.compile(r"[A-Za-z_]\w*\Z")
SPACES = re.compile(r"\s+\Z")
STRANGE = [("({", "an expression of statements", "write a function"), ("__typeof", "typeof", "write the type"),
           ("typeof", "typeof", "write the type"),
           ("__label__", "__label__", "use one label of the function"), ("__complex__", "complex numbers", ""),
           ("_Complex", "complex numbers", ""),
           ("...", "a range of cases or of elements", "write each"), ("__int128", "a number of 128 bits", ""), ("__alignof", "alignof", ""),
           ("__builtin_va_arg", "va_arg", ""), ("&&", "the address of a label, or what is there", "")]
MARKER = re.compile(r'^# (\d+) "((?:[^"\\]|\\.)*)"')
TOKEN = re.compile(r'"(?:[^"\\\n]|\\.)*"|\'(?:[^\'\\\n]|\\.)*\'|[A-Za-z_]\w*|\n|.', re.S)


def run_cpp(text, name, folders, defines, after):
    """The text of cpp; its first error is a refusal. Headers of `after` are those that are found nowhere else."""
    own = os.path.dirname(os.path.abspath(name))
    command = ["cpp", "-undef", "-nostdinc", "-std=gnu99", "-w", "-iquote", own]
    for folder in list(folders) + [HEADERS, own]:
        command += ["-I", folder]
    for folder in after:
        command += ["-idirafter", folder]
    command += [f"-D{key}={value}" for key, value in LIMITS.items()] + [f"-D{word}" for word in defines]
    done = subprocess.run(command + ["-"], input=text.encode("utf-8", "surrogateescape"), capture_output=True, check=False)
    if done.returncode:
        raise cpp_refusal(done.stderr.decode("utf-8", "replace"), name)
    return done.stdout.decode("utf-8", "surrogateescape").replace('"<stdin>"', f'"{name}"')


def cpp_refusal(said, name):
    for line in said.splitlines():
        match = re.match(r"(.*?):(\d+):(\d+): (?:fatal )?error: (.*)", line)
        if match:
            file = name if match[1] == "<stdin>" else match[1]
            return Refusal(f"the preprocessor: {match[4]}", Place(file, int(match[2]), int(match[3])), "write what the header declares")
    return Refusal("the preprocessor failed: " + said.strip()[:200], Place(name, 1, 1))


class Cleaner:
    """Goes over the tokens of a preprocessed text, and leaves out attributes and empty assembler."""

    def __init__(self, text, name):
        self.tokens = TOKEN.findall(text)
        self.at = 0
        self.out = []
        self.file = name
        self.line = 0
        self.fresh = True
        self.measures = "sizeof" in text or "__alignof" in text
        self.depth = 0
        self.begins = True
        self.stored = False
        self.blocks, self.marked = [], []
        self.opening = self.closed = None
        self.marked_next = False
        self.last = None

    def place(self):
        return Place(self.file, self.line, 1)

    def run(self):
        while self.at < len(self.tokens):
            self.one(self.tokens[self.at])
        return "".join(self.out)

    def one(self, token):
        if token == "#" and self.fresh:
            self.directive()
            return
        if token == "\n":
            self.line += 1
        self.fresh = token == "\n" or (self.fresh and token.isspace())
        if token in ("__attribute__", "__attribute"):
            self.attribute()
        elif token in ("asm", "__asm__", "__asm"):
            self.assembler()
        else:
            self.plain(token)

    def plain(self, token):
        """A token that stays; the int that an old head or declaration leaves out is written."""
        if token == "$":
            raise Refusal("a $ in a name", self.place(), "rename it")
        token = PLAIN.get(token, token)
        if self.begins and self.depth == 0 and NAME.match(token) and self.leaves_int_out(token):
            self.out.append("int ")
        if token == ":" and self.last == "?":
            self.out.append(f" {SAME_MARK} ")
        if token and not token.isspace():
            self.last = token
            self.brace(token)
            self.depth += (token in "{(") - (token in "})")
            self.begins = self.depth == 0 and (token in ";}" or self.begins and token in STORAGE)
            self.stored = token in STORAGE
        self.out.append(token)
        self.at += 1

    def brace(self, token):
        """Notes which braces are those of a struct or an enum."""
        if token in ("struct", "union", "enum"):
            self.opening = "enum" if token == "enum" else "struct"
        elif token == "{":
            self.blocks.append(self.opening)
            self.marked.append(self.marked_next)
            self.opening, self.marked_next = None, False
        elif token == "}" and self.blocks:
            self.closed = self.blocks.pop()
            if self.marked.pop():
                self.out.append(f" int {LAYOUT_MARK} : 1; ")
        elif not NAME.match(token):
            self.opening = None

    def leaves_int_out(self, token):
        """Whether a declaration begins with the name itself, or has only a storage class before it."""
        at = self.at + 1
        while at < len(self.tokens) and self.tokens[at].isspace():
            at += 1
        after = self.tokens[at] if at < len(self.tokens) else ""
        if "".join(self.tokens[at + 1:at + 3]).lstrip().startswith("*") and after == "(":
            return False
        if token in STORAGE or token in KEYWORDS:
            return False
        return after == "(" or self.stored and after in ("=", ";", ",", "[")

    def directive(self):
        """A marker of cpp, which is kept, or a pragma, which says nothing here."""
        end = self.at
        while end < len(self.tokens) and self.tokens[end] != "\n":
            end += 1
        line = "".join(self.tokens[self.at:end])
        match = MARKER.match(line)
        if match:
            self.line, self.file = int(match[1]) - 1, match[2]
            self.out.append(f'# {match[1]} "{match[2]}"')
        elif "pack" in line and "pragma" in line:
            raise Refusal("#pragma pack", self.place(), "leave it out: the layout of a struct cannot be chosen")
        self.at = end

    def bracketed(self):
        """The tokens of the brackets that follow, with the brackets; the lines in them stay."""
        start = self.at
        depth = 0
        while self.at < len(self.tokens):
            token = self.tokens[self.at]
            depth += (token == "(") - (token == ")")
            self.at += 1
            if token == "\n":
                self.line += 1
                self.out.append("\n")
            elif depth == 0 and not token.isspace():
                break
        return "".join(self.tokens[start:self.at])

    def attribute(self):
        place = self.place()
        self.at += 1
        inside = self.bracketed()
        if MEANINGFUL.search(inside) or LAYOUT.search(inside) and self.measures and not self.mark_layout():
            raise Refusal("an attribute that changes what a program means: " + re.sub(r"[()\s]+", " ", inside).strip(), place)

    def mark_layout(self):
        """Marks the struct to which an attribute belongs that changes its layout; False for the attribute of an enum.

        It stands in the braces, directly after them, or between the tag and them; elsewhere it changes no size."""
        last = next((at for at in range(len(self.out) - 1, -1, -1) if not self.out[at].isspace()), None)
        if self.blocks and self.blocks[-1] == "struct":
            self.marked[-1] = True
        elif last is not None and self.out[last] == "}":
            if self.closed == "enum":
                return False
            if self.closed == "struct":
                self.out.insert(last, f" int {LAYOUT_MARK} : 1; ")
        elif self.opening in ("struct", "enum"):
            self.marked_next = self.opening == "struct"
            return self.marked_next
        return True

    def assembler(self):
        place = self.place()
        self.at += 1
        while self.tokens[self.at].isspace() or self.tokens[self.at] in ("volatile", "__volatile__", "__volatile", "goto"):
            self.at += 1
        inside = self.bracketed()
        first = re.match(r'\(\s*((?:"(?:[^"\\]|\\.)*"\s*)+)', inside)
        if not first or first[1].replace('"', "").strip() or not is_barrier(inside[first.end():]):
            raise Refusal("assembler", place, "write it in C")


def is_barrier(operands):
    """Whether empty assembler leaves all values: it reads them, or gives each back to the operand that it comes from."""
    parts = operands.rstrip(")").split(":")
    outputs = parts[1] if len(parts) > 1 else ""
    if re.search(r"\+\+|--|\w\s*\(", re.sub(r'"[^"]*"', "", operands)):
        return False
    fresh = re.findall(r'"=[^"]*"\s*\(([^()]*)\)', outputs)
    given = re.findall(r'"\d"\s*\(([^()]*)\)', parts[2] if len(parts) > 2 else "")
    return [x.strip() for x in fresh] == [x.strip() for x in given]


def preprocess(text, name, folders=(), defines=(), after=()):
    """The text for the parser, with markers of files and lines."""
    return Cleaner(run_cpp(text, name, folders, defines, after), name).run()


def strange_form(line):
    """What a line has that the parser does not know, and what to write; nothing where it has none such."""
    for sign, name, hint in STRANGE:
        if sign in line:
            return name, hint
    return None, ""

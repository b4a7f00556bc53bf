"""Calls of C's library in the translation."""
from . import c_types as t
from .faults import Refusal
from .text import UNARY, X, character, join, number
from .tree import Node, has_effect
from .write_statements import with_first
from .write_streams import StreamWriter, is_computed

# C library functions that a helper implements exactly, each with the name of the helper.
SAME = {"strlen": "text_length", "strcmp": "compare_texts", "strncmp": "compare_texts_within", "strcasecmp": "compare_small",
        "strncasecmp": "compare_small", "strchr": "find_byte", "index": "find_byte", "strrchr": "find_last_byte",
        "rindex": "find_last_byte",
        "strstr": "find_text", "strspn": "span_of", "strcspn": "span_without", "strpbrk": "find_among", "strtok": "next_word",
        "strdup": "new_text", "strndup": "new_text_within",
        "strnlen": "text_length_within", "atoi": "number_in", "atol": "number_in", "abs": "absolute",
        "labs": "absolute",
        "isalpha": "is_letter", "isdigit": "is_digit", "isalnum": "is_letter_or_digit", "isspace": "is_space", "isupper": "is_capital",
        "islower": "is_small", "isxdigit": "is_hexadecimal", "ispunct": "is_sign", "isprint": "is_printed", "iscntrl": "is_control",
        "isgraph": "is_graphic", "isblank": "is_blank", "toupper": "large", "tolower": "small", "rand": "random_next",
        "srand": "random_seed", "random": "random_next", "srandom": "random_seed",
        "ffs": "first_bit", "popcount": "count_bits", "popcountl": "count_bits", "clz": "zeros_before", "clzl": "zeros_before",
        "bswap32": "swap_bytes", "ungetc": "put_back"}
FILLED = {"strcpy": "copy_text", "strncpy": "copy_text_within", "strcat": "append_text", "strncat": "append_text_within"}
FLAGS = {"-": 1, "0": 2, "+": 4, " ": 8, "#": 16}


class LibraryWriter(StreamWriter):
    """The part of a function's writer that is about the library."""

    def library(self, node):
        """The value of a call of the library."""
        name = node.v
        if is_computed(node):
            return self.by_stream(node, True)
        handler = getattr(self, "lib_" + name.strip("_"), None)
        if handler:
            return handler(node)
        if name in SAME:
            return self.same(node)
        if name in FILLED:
            node = with_first(node, self.settled(node.a[0]))
            self.line(f"{self.library_effect(node)};")
            return self.value(node.a[0])
        if isinstance(node.type, t.Void):
            found = self.library_effect(node)
            if found is not None:
                self.line(f"{found};")
            return X("0")
        raise Refusal(f"{name} is not translated", node.place)

    def library_effect(self, node):
        """Writes a call whose value nobody uses, or returns the expression that does it."""
        name = node.v
        if is_computed(node):
            return self.by_stream(node, False)
        handler = getattr(self, "do_" + name.strip("_"), None)
        if handler:
            return handler(node)
        if name in FILLED:
            return self.helper_call(FILLED[name], *node.a)
        if name in ("strchr", "strlen", "strcmp", "isalpha"):
            return None
        return self.library(node)

    def settled(self, node):
        """The node, or a variable with its value if it has effects."""
        if node.op in ("raw", "var", "string", "decay") and not has_effect(node):
            return node
        return self.kept_value(node)

    def same(self, node):
        extra = [Node("num", t.INT, v=-1)] if node.v == "strcasecmp" else []
        args = [arg for arg in node.a if arg.op != "stream"]
        return self.helper_call(SAME[node.v], *(args + extra))

    # Bytes

    def lib_putchar(self, node):
        return X(f"{self.program.put}({self.low(node.a[-1] if node.v != 'putc' else node.a[0])})")

    def lib_putc(self, node):
        if node.a[1].v == "stderr":
            self.effect(node.a[0])
            return X("0")
        return X(f"{self.program.put}({self.low(node.a[0])})")

    lib_fputc = lib_putc

    def do_putc(self, node):
        found = self.lib_putc(node)
        return None if found.text == "0" else found

    do_fputc = do_putc

    def lib_putchar_unlocked(self, node):
        return self.lib_putchar(node)

    def lib_getchar(self, node):
        if any(part.v == "stdout" for part in node.a):
            raise Refusal("a read from an output", node.place)
        return X(f"{self.program.get()}()")

    lib_getc = lib_fgetc = lib_getchar_unlocked = lib_getchar

    def lib_fgets(self, node):
        target = self.settled(node.a[0])
        done = self.helper_call("read_line", target, node.a[1])
        kind = self.program.type_text(node.type, self.region_of(node.a[0]))
        found = self.temporary(kind, X("NULL"))
        self.line(f"if ({done}) {found} = {self.value(target)};")
        return found

    def do_fgets(self, node):
        return self.helper_call("read_line", node.a[0], node.a[1])

    def lib_feof(self, node):
        return X(f"{self.program.helper('end_seen')}()" if node.a[0].v == "stdin" else "0")

    def lib_ferror(self, _node):
        return X("0")

    def do_feof(self, _node):
        return None

    do_ferror = do_feof

    def do_fflush(self, _node):
        return None

    do_setbuf = do_setvbuf = do_fclose = do_fflush

    def lib_fflush(self, _node):
        return X("0")

    lib_setvbuf = lib_fclose = lib_fflush

    def do_perror(self, node):
        self.effect(node.a[0])

    # The translation of calls of C library functions that print texts.

    def constant_text(self, node):
        return node.a[0].v if node.op == "decay" and node.a[0].op == "string" else None

    def print_bytes(self, data):
        """Prints bytes that are known."""
        data = bytes(data)
        if len(data) > 3:
            self.line("/* " + comment_of(data) + " */")
        for at in range(0, len(data), 4):
            word = data[at:at + 4]
            if len(word) < 4:
                for byte in word:
                    self.line(f"{self.program.put}({character(byte)});")
            else:
                self.line(f"{self.program.helper('print_word')}({word_text(word)});")

    def do_puts(self, node):
        data = self.constant_text(node.a[0])
        if data is not None:
            self.print_bytes(data.split(b"\0")[0] + b"\n")
            return None
        self.line(f"{self.helper_call('print_text', node.a[0])};")
        return X(f"{self.program.put}('\\n')")

    def lib_puts(self, node):
        found = self.do_puts(node)
        if found is not None:
            self.line(f"{found};")
        return X("1")

    def do_fputs(self, node):
        if node.a[1].v == "stderr":
            self.program.note_stderr(node.place)
            self.effect(node.a[0])
            return None
        data = self.constant_text(node.a[0])
        if data is not None:
            self.print_bytes(data.split(b"\0")[0])
            return None
        return self.helper_call("print_text", node.a[0])

    def lib_fputs(self, node):
        found = self.do_fputs(node)
        if found is not None:
            self.line(f"{found};")
        return X("1")

    # printf

    def print_computed(self, node):
        """printf of a format that only the run knows."""
        args = self.kept(node.a if node.v == "printf" else node.a[1:])
        self.line(f"{self.program.helper('begin_format')}({self.text(args[0])});")
        for arg in args[1:]:
            name = "print_next_text" if isinstance(arg.type, t.Ptr) else "print_next_int"
            self.line(f"{self.program.helper(name)}({self.text(arg)});")
        return X(f"{self.program.helper('end_format')}()")

    def do_printf(self, node):
        if node.extra == "computed":
            return self.print_computed(node)
        return self.print_pieces(node, node.a[1:], False)

    def lib_printf(self, node):
        if node.extra == "computed":
            return self.print_computed(node)
        return self.print_pieces(node, node.a[1:], True)

    def do_fprintf(self, node):
        if node.a[0].v == "stderr":
            self.program.note_stderr(node.place)
            for arg in node.a[2:]:
                self.effect(arg)
            return None
        if node.extra == "computed":
            return self.print_computed(node)
        return self.print_pieces(node, node.a[2:], False)

    def lib_fprintf(self, node):
        if node.a[0].v == "stderr":
            raise Refusal("how many bytes fprintf prints to stderr", node.place)
        if node.extra == "computed":
            return self.print_computed(node)
        return self.print_pieces(node, node.a[2:], True)

    def print_pieces(self, node, args, counted):
        """Prints the pieces of a format; the arguments are evaluated first if one of them calls or assigns something."""
        if any(has_effect(arg) for arg in args):
            args = self.kept(args)
        args = list(args)
        count, number_ = 0, []
        for piece in node.extra:
            if piece.text is not None:
                self.print_bytes(piece.text.encode("latin-1"))
                count += len(piece.text)
                continue
            found = self.conversion(piece, args)
            if counted and not (piece.letter == "c" and piece.width is None):
                number_.append(self.temporary("int", found))
            else:
                self.line(f"{found};")
                count += 1
        if not counted:
            return None
        total = X(str(count))
        for part in number_:
            total = join("+", total, part)
        return total

    def kept(self, args):
        """The arguments in variables, evaluated from the last to the first as gcc does."""
        found = list(args)
        for at in range(len(args) - 1, -1, -1):
            node = args[at]
            if node.op not in ("num", "string", "null", "decay") and (has_effect(node) or node.op not in ("decay",)):
                found[at] = self.kept_wide(node) if t.is_wide(node.type) else self.kept_value(node)
        return found

    def kept_value(self, node):
        """A node that stands for the value in a variable of its own."""
        kind = self.program.type_text(node.type, self.region_of(node))
        return Node("raw", node.type, v=self.temporary(kind, self.value(node)), place=node.place)

    def conversion(self, piece, args):
        """The expression that prints one conversion."""
        width = self.size(piece.width, args)
        precision = self.size(piece.precision, args)
        arg = args.pop(0)
        flags = sum(FLAGS[flag] for flag in set(piece.flags))
        if piece.letter == "c":
            return self.print_byte(arg, flags, width)
        if piece.letter == "s":
            if width is None and precision is None:
                return self.helper_call("print_text", arg)
            return X(f"{self.program.helper('print_field')}({self.text(arg)}, {flags}, {width or 0}, {precision or -1})")
        if piece.letter in "di" and not flags and width is None and precision is None and not t.is_wide(arg.type):
            return self.helper_call("print_int", arg)
        base = {"o": 8, "x": 16, "X": 16}.get(piece.letter, 10)
        flags |= (64 if piece.letter in "di" else 0) | (32 if piece.letter == "X" else 0)
        if t.is_wide(arg.type):
            return self.print_wide(arg, base, flags, width, precision if precision is not None else -1)
        return X(f"{self.program.helper('print_number')}({self.text(arg)}, {base}, {flags}, {width or 0}, "
                 f"{precision if precision is not None else -1})")

    def size(self, size, args):
        if size == "*":
            return self.text(args.pop(0))
        return None if size is None else str(size)

    def print_byte(self, arg, flags, width):
        if width is None:
            return X(f"{self.program.put}({self.low(arg)})")
        blanks = f"{self.program.helper('print_many')}(' ', {width} - 1);"
        kept = self.settled(arg)
        if not flags & 1:
            self.line(blanks)
            return X(f"{self.program.put}({self.low(kept)})")
        self.line(f"{self.program.put}({self.low(kept)});")
        return X(blanks[:-1])

    # sprintf

    def lib_sprintf(self, node):
        self.line(f"{self.program.helper('print_into')}({self.text(node.a[0])}, 2147483647);")
        self.print_pieces(node, node.a[2:], False)
        return X(f"{self.program.helper('printed')}()")

    def lib_snprintf(self, node):
        if node.a[0].op == "null":
            raise Refusal("snprintf into nothing", node.place, "print into an array")
        args = self.kept(node.a[3:])
        self.line(f"{self.program.helper('print_into')}({self.text(node.a[0])}, {self.text(node.a[1])});")
        self.print_pieces(node, args, False)
        return X(f"{self.program.helper('printed')}()")

    # scanf

    def lib_scanf(self, node):
        return self.scan_pieces(node.extra, node.a[1:])

    def lib_sscanf(self, node):
        self.line(f"{self.helper_call('scan_from', node.a[0])};")
        found = self.scan_pieces(node.extra, node.a[2:])
        self.line(f"{self.program.helper('scan_done')}();")
        return found

    def scan_pieces(self, pieces, args):
        """Reads the pieces of a format, and returns the variable that has how many were read."""
        found = self.temporary("int", X("0"))
        going = self.temporary("int", X("1"))
        args = [self.settled(arg) if has_effect(arg) else arg for arg in args]
        for piece in pieces:
            if piece.text is not None:
                self.scan_bytes(piece.text.encode("latin-1"), going)
            else:
                self.scan_piece(piece, args, found, going)
        return found

    def do_scanf(self, node):
        self.library(node)

    do_sscanf = do_scanf

    def scan_bytes(self, data, going):
        for byte in data:
            self.line(f"if ({going} == 1) {going} = {self.program.helper('scan_text')}({character(byte)});")

    def scan_piece(self, piece, args, found, going):
        arg = args.pop(0)
        width = piece.width if piece.width is not None else -1
        if piece.letter == "c" and piece.width is None:
            _, lines = self.captured(lambda: self.scan_one_byte(arg, going))
        else:
            if piece.letter in "sc":
                call = f"{self.program.helper('scan_word' if piece.letter == 's' else 'scan_bytes')}({self.text(arg)}, {width})"
            else:
                base = {"x": 16, "i": 0}.get(piece.letter, 10)
                call = f"{self.program.helper('scan_int')}({self.text(arg)}, {base}, {width})"
            _, lines = self.captured(lambda: self.line(f"{going} = {call};"))
        self.branches(X(f"{going} == 1"), lines, [])
        self.line(f"if ({going} == 1) {found} = {found} + 1;")
        self.line(f"if ({going} == -1 && {found} == 0) {found} = -1;")

    def scan_one_byte(self, arg, going):
        byte = self.temporary("int", X(f"{self.program.helper('next_byte')}()"))
        self.line(f"if ({byte} == -1) {going} = -1;")
        target = Node("deref", arg.type.target, [arg], place=arg.place)
        self.line(f"else {self.place(target)} = {byte};")

    # Ends

    def do_exit(self, node):
        value = self.text(node.a[0])
        self.line(f"throw new {self.program.exception('Exit')}({value});")

    do_Exit = do_exit

    def do_abort(self, _node):
        self.line(f"throw new {self.program.exception('Aborted')};")

    do_assert_fail = do_unreachable = do_trap = do_abort

    # Order

    def whole_element(self, array, size, name, place):
        """The type of the elements that are sorted, whose size C gives too."""
        element = self.element_of(array, name)
        if size.op != "num" or size.v != t.size_of(element, place):
            raise Refusal(f"{name} of elements of another size than that of {element}", place, "pass the size of an element")
        return element

    def do_qsort(self, node):
        array, count, size, compare = node.a
        element = self.whole_element(array, size, "qsort", node.place)
        name = self.program.sorter(element, compare.type.target, node.place)
        self.line(f"{name}({self.text(array)}, {self.text(count)}, {self.text(compare)});")

    def lib_bsearch(self, node):
        key, array, count, size, compare = node.a
        element = self.whole_element(array, size, "bsearch", node.place)
        name = self.program.finder(element, key.type, compare.type.target, node.place)
        return X(f"{name}({self.text(key)}, {self.text(array)}, {self.text(count)}, {self.text(compare)})")

    # Memory

    def element_of(self, node, what):
        target = node.type.leads_to()
        if target is None:
            raise Refusal(f"{what} of memory whose type is not known", node.place, "cast the pointer to its type")
        return target

    def count_of(self, size, element, place):
        """How many elements a number of bytes is."""
        each = t.size_of(element, place)
        if each == 1:
            return self.value(size)
        if size.op == "num":
            if size.v % each:
                raise Refusal(f"{size.v} bytes are no whole number of {element}", place, "use sizeof")
            return X(str(size.v // each))
        if size.op == "bin" and size.v == "*":
            for one, other in (size.a, size.a[::-1]):
                factor = one
                while factor.op == "cast":
                    factor = factor.a[0]
                if factor.op == "num" and factor.v % each == 0:
                    times = factor.v // each
                    return self.value(other) if times == 1 else join("*", self.value(other), X(str(times)))
        if size.op == "cast":
            return self.count_of(size.a[0], element, place)
        return join("/", self.value(size), X(str(each)))

    def lib_malloc(self, node):
        element = self.element_of(node, "malloc") if node.type.leads_to() is not None else t.CHAR
        return self.allocated(node, element, lambda: self.count_of(node.a[0], element, node.place))

    lib_alloca = lib_malloc

    def lib_calloc(self, node):
        element = self.element_of(node, "calloc")
        each = t.size_of(element, node.place)
        if node.a[1].op == "num" and node.a[1].v == each:
            return self.allocated(node, element, lambda: self.value(node.a[0]))
        size = Node("bin", t.ULONG, [node.a[0], node.a[1]], "*", node.place)
        return self.allocated(node, element, lambda: self.count_of(size, element, node.place))

    def allocated(self, node, element, count):
        number_ = count()
        if node.type.fat or number_.text != "1":
            if not node.type.fat and isinstance(element, t.Struct):
                raise Refusal("memory for several structs whose pointer is not indexed", node.place)
            name = self.program.array_maker(element, node.place)
            return X(f"{name}({number_})")
        if isinstance(element, t.Struct):
            return X(self.program.make(element, None, node.place))
        return X(f"new {self.program.zero(element, None, node.place)}", 12)

    def lib_realloc(self, node):
        element = self.element_of(node, "realloc")
        old = self.text(node.a[0])
        return X(f"{self.program.resizer(element, node.place)}({old}, {self.count_of(node.a[1], element, node.place)})")

    def do_free(self, node):
        """Nothing is freed, and the variable leads nowhere from here on, so that a later use ends the run."""
        self.program.note_free(node.place)
        target = node.a[0]
        if target.op in ("var", "field", "index", "deref") and isinstance(target.type, t.Ptr):
            self.line(f"{self.place(target)} = NULL;")
        else:
            self.effect(target)

    def do_memset(self, node):
        pointer = self.settled(node.a[0])
        element = self.element_of(pointer, node.v)
        count = self.count_of(node.a[2], element, node.place)
        byte = node.a[1]
        if t.is_int(element) and element.size == 1:
            self.line(f"{self.program.filler(element)}({self.value(pointer)}, {self.low(byte)}, {count});")
        elif byte.op == "num" and t.is_int(element):
            word = element.wrap(int.from_bytes(bytes([byte.v & 255]) * element.size, "big"))
            self.line(f"{self.program.filler(element)}({self.value(pointer)}, {number(word)}, {count});")
        elif byte.op == "num" and byte.v == 0:
            self.clear_many(pointer, element, count)
        else:
            raise Refusal(f"memset of {element} with a value that is not constant", node.place)

    def clear_many(self, pointer, element, count):
        if count.text == "1" and not pointer.type.fat:
            self.line(f"{self.program.clearer(element)}({self.value(pointer)});")
        else:
            whole = pointer.op == "decay" and not pointer.type.fat
            self.line(f"{self.program.clearer(t.Array(element, None))}({self.value(pointer.a[0] if whole else pointer)}, {count});")

    def lib_memset(self, node):
        node = with_first(node, self.settled(node.a[0]))
        self.do_memset(node)
        return self.value(node.a[0])

    def do_bzero(self, node):
        self.do_memset(Node("lib", node.type, [node.a[0], Node("num", t.INT, v=0), node.a[1]], "memset", node.place))

    def do_memcpy(self, node):
        target, source = self.settled(node.a[0]), node.a[1]
        element = self.element_of(target, node.v)
        count = self.count_of(node.a[2], element, node.place)
        if isinstance(element, t.Struct) and count.text == "1":
            for pointer in (target, source):
                if pointer.type.fat:
                    raise Refusal(f"{node.v} of a struct by a pointer that is indexed", node.place, "assign the struct")
            self.line(f"{self.program.copier(element)}({self.value(target)}, {self.text(source)});")
            return
        self.line(f"{self.program.mover(element, node.place)}({self.value(target)}, {self.text(source)}, {count});")

    do_memmove = do_memcpy

    def lib_memcpy(self, node):
        node = with_first(node, self.settled(node.a[0]))
        self.do_memcpy(node)
        return self.value(node.a[0])

    lib_memmove = lib_memcpy

    def lib_mempcpy(self, node):
        node = with_first(node, self.settled(node.a[0]))
        self.do_memcpy(node)
        element = self.element_of(node.a[0], "mempcpy")
        return join("+", self.value(node.a[0]), self.count_of(node.a[2], element, node.place))

    def lib_stpcpy(self, node):
        target = self.settled(node.a[0])
        self.line(f"{self.helper_call('copy_text', target, node.a[1])};")
        return join("+", self.value(target), self.helper_call("text_length", target))

    def do_bcopy(self, node):
        self.do_memcpy(Node("lib", node.type, [node.a[1], node.a[0], node.a[2]], "memmove", node.place))

    def lib_memcmp(self, node):
        element = self.element_of(node.a[0], "memcmp")
        if not (t.is_int(element) and element.size == 1):
            raise Refusal(f"memcmp of {element}", node.place, "compare the elements")
        return self.helper_call("compare_bytes", *node.a)

    def lib_memchr(self, node):
        element = self.element_of(node.a[0], "memchr")
        if not (t.is_int(element) and element.size == 1):
            raise Refusal(f"memchr in {element}", node.place)
        return self.helper_call("find_within", *node.a)

    # Numbers

    def lib_strtol(self, node):
        text, end, base = node.a
        signed = Node("num", t.INT, v=int(node.v == "strtol"))
        if end.op == "null":
            return self.helper_call("number_in_base", text, base, signed)
        text = self.settled(text)
        found = self.temporary("int", self.helper_call("number_in_base", text, base, signed))
        self.store_end(text, end, node.place)
        return found

    lib_strtoul = lib_strtol

    def store_end(self, text, end, place):
        """Stores where the number that was read ends."""
        rest = Node("padd", text.type, [text, Node("raw", t.INT, v=X(f"{self.program.helper('digits_end')}()"))], "+", place)
        self.effect(Node("assign", text.type, [Node("deref", end.type.target, [end], place=place), rest], place=place))

    def wide_lib(self, node):
        """The functions that return a number of 64 bits."""
        if node.v == "llabs":
            return self.wide_call_of("wide_absolute", *self.wide(node.a[0]))
        text, end, base = node.a if len(node.a) == 3 else (node.a[0], None, Node("num", t.INT, v=10))
        if end is not None and end.op != "null":
            text = self.settled(text)
        found = self.in_two(self.helper_call("wide_in_base", text, base, Node("num", t.INT, v=int(node.type.signed))))
        if end is not None and end.op != "null":
            self.store_end(text, end, node.place)
        return found

    def lib_time(self, node):
        """There is no clock, which C allows; the place that gets the time too is given -1."""
        self.program.note_clock(node.place)
        if node.a and node.a[0].op != "null":
            target = Node("deref", node.a[0].type.target, [node.a[0]], place=node.place)
            self.effect(Node("assign", t.LONG, [target, Node("num", t.LONG, v=-1)], place=node.place))
        return X("-1", UNARY)

    lib_clock = lib_time

    def lib_ctz(self, node):
        return join("-", self.helper_call("first_bit", node.a[0]), X("1"))

    lib_ctzl = lib_ctz

    def lib_parity(self, node):
        return join("&", self.helper_call("count_bits", node.a[0]), X("1"))

    def lib_bswap16(self, node):
        kept = self.value(self.settled(node.a[0]))
        return X(f"{kept} >> 8 & 255 | ({kept} & 255) << 8", 4)

    def lib_toascii(self, node):
        return join("&", self.value(node.a[0]), X("127"))

    def lib_isascii(self, node):
        return join("==", join("&", self.value(node.a[0]), X("-128", 12)), X("0"))


def word_text(word):
    value = int.from_bytes(word.ljust(4, b"\0"), "big")
    return f"0x{value:08x}" if value < 1 << 31 else number(value).text


def comment_of(data):
    """A text as a comment shows it."""
    named = {10: "\\n", 9: "\\t", 34: '\\"', 92: "\\\\"}
    shown = "".join(named.get(b) or (chr(b) if 32 <= b < 127 else f"\\x{b:02x}") for b in data)
    shown = shown if len(shown) < 70 else shown[:66] + " .."
    return '"' + shown.replace("*/", "* /").replace("/*", "/ *") + '"'

"""Types and objects of the translation: what a C type is written as, and how its objects are made, copied and cleared."""
import re

from . import c_types as t
from .faults import Refusal


MOST_WORDS = 1000


def words_of(element):
    """How many words an element of an array takes, times four."""
    if isinstance(element, t.Int):
        return 1 if element.is_char else 4
    if isinstance(element, t.Array) or t.is_object_pointer(element) and element.fat:
        return 12
    return 4


class TypeWriter:
    """The part of a program's writer that is about types."""

    # Types

    def struct_name(self, struct):
        if not hasattr(struct, "text"):
            wanted = struct.tag or self.typedef_names.get(id(struct)) or "Struct"
            struct.text = self.struct_names.free(wanted)
        return struct.text

    def field_name(self, field):
        return self.plain_name(field.name)

    def high_field(self, field):
        """The name of the high half of a field of 64 bits."""
        return self.plain_name(field.high)

    def form_of(self, symbol):
        """Whether a number's variable is a char or an int of the language."""
        type_ = symbol.type
        if t.is_int(type_) and type_.is_char and (not type_.signed or symbol.address):
            return "char"
        return "int"

    def form_text(self, symbol, region=""):
        if t.is_int(symbol.type):
            return self.form_of(symbol)
        return self.type_text(symbol.type, region)

    def result_text(self, type_):
        """The type that a function returns: nothing in place of a struct, which it writes into its first argument."""
        return "void" if isinstance(type_, (t.Void, t.Struct)) else self.type_text(type_)

    def type_text(self, type_, region="", inner=""):
        """A value's type; `region` stands after the outermost mark, and `inner` after the marks inside."""
        if isinstance(type_, t.Int):
            return "int"
        if t.is_tag(type_):
            return "int"
        if isinstance(type_, t.Struct):
            return f"struct {self.struct_name(type_)} *{region}"
        if isinstance(type_, t.Array):
            return self.element_text(type_.element, inner) + "?" + region
        if isinstance(type_, t.Ptr):
            target = type_.leads_to() or t.INT
            mark = "?" if type_.fat else "*"
            if isinstance(target, t.Struct) and not type_.fat:
                return f"struct {self.struct_name(target)} *{region}"
            return self.element_text(target, inner) + mark + region
        raise Refusal(f"a value of type {type_}", None, getattr(type_, "hint", ""))

    def element_text(self, target, inner):
        """The type of an element, with a space before a mark that follows it."""
        if isinstance(target, t.Int):
            return "char " if target.is_char else "int "
        if isinstance(target, t.Void):
            return "int "
        if t.is_tag(target) or isinstance(target, t.Func):
            return "int "
        if isinstance(target, t.Absent):
            raise Refusal(f"a value of type {target}", None, target.hint)
        if isinstance(target, t.Ptr):
            return self.type_text(target, inner if inner == "`H " else "", inner if inner == "`H " else "")
        return self.type_text(target, inner, inner)

    def parameter_type(self, symbol):
        type_ = symbol.type
        if isinstance(type_, (t.Absent, t.Void)):
            raise Refusal(f"a value of type {type_}", symbol.place, getattr(type_, "hint", ""))
        if t.is_int(type_):
            return "char" if self.form_of(symbol) == "char" and not symbol.cell else "int"
        if isinstance(type_, t.Struct):
            return self.type_text(type_)
        region = "`H " if symbol.heap else ""
        if t.is_tag(type_):
            return "int"
        return self.parameter_text(type_, region).rstrip()

    def parameter_text(self, type_, region):
        """In a parameter a mark without a region is any region: so that of pointers inside objects is named."""
        target = type_.leads_to() or t.INT
        mark = "?" if type_.fat else "*"
        if isinstance(target, t.Struct):
            name = f"struct {self.struct_name(target)} *"
            return f"{name}{region}?{region}" if type_.fat else name + region
        if isinstance(target, t.Ptr) and not t.is_tag(target):
            return self.type_text(target, "`H ", "`H ") + mark + region
        if isinstance(target, t.Array):
            return self.row_text(target, region) + mark + region
        return self.element_text(target, "") + mark + region

    def row_text(self, type_, region):
        element = type_.element
        if isinstance(element, t.Array):
            return self.row_text(element, region) + "?" + region
        if isinstance(element, t.Struct):
            return f"struct {self.struct_name(element)} *{region}?{region}"
        if isinstance(element, t.Ptr) and not t.is_tag(element):
            return self.type_text(element, "`H ", "`H ") + "?" + region
        return self.element_text(element, "") + "?" + region

    def handle_type(self, symbol, region):
        """The type of the variable that leads to an aggregate; its own region is that of its initial value."""
        inner = region and region + " "
        if isinstance(symbol.type, t.Struct):
            name = f"struct {self.struct_name(symbol.type)} *"
            return f"{name}{inner}?" if symbol.single else name
        return self.type_text(symbol.type, "", inner)

    # Making objects

    def region_word(self, handle):
        return "new" if handle is None else f"rnew({handle})"

    def make(self, type_, handle, place):
        """The expression that makes an object of a type, all of it 0."""
        if isinstance(type_, t.Array):
            return self.make_array(type_, handle, str(type_.length), place)
        return f"{self.struct_maker(type_)}({handle or 'heap_region'})"

    def make_array(self, type_, handle, count, place, depth=0):
        if isinstance(type_.length, int) and type_.length * words_of(type_.element) > MOST_WORDS * 4:
            most = MOST_WORDS * 4 // words_of(type_.element)
            raise Refusal(f"an array of {type_.length} elements: at most {most} of this type", place, "use a smaller one, or rows of it")
        name = "ijklmnopq"[depth]
        return f"{self.region_word(handle)} {{for {name} < {count} : {self.zero(type_.element, handle, place, depth + 1)}}}"

    def zero(self, type_, handle, place, depth=0):
        """The expression of an element or a field that is 0."""
        if isinstance(type_, t.Int):
            return "char(0)" if type_.is_char else "0"
        if t.is_tag(type_):
            return "0"
        if isinstance(type_, t.Ptr):
            return self.null_of(type_)
        if isinstance(type_, t.Array):
            return self.make_array(type_, handle, str(type_.length), place, depth)
        if isinstance(type_, t.Struct):
            return self.make(type_, handle, place)
        raise Refusal(f"an object of type {type_}", place, getattr(type_, "hint", ""))

    def null_of(self, type_):
        """A global that is NULL, whose type the language knows where it does not know that of NULL."""
        text = self.type_text(type_)
        if text not in self.nulls:
            word = re.sub(r"\W+", "", text.replace("struct ", "").replace("?", "s").replace("*", ""))
            name = self.names.free("no_" + (word or "pointer"))
            self.nulls[text] = name
        return self.nulls[text]

    def translated_fields(self, struct, place=None):
        if struct.fields is None:
            raise Refusal(f"{struct} is not defined", place or struct.place)
        fields = struct.fields
        if struct.union:
            fields = [struct.chosen] if struct.chosen else []
        return [f for f in fields if f.name and not isinstance(f.type, t.Absent)]

    def struct_lines(self, struct):
        """The definition of a struct."""
        name = self.struct_name(struct)
        if struct.fields is None:
            return [f"struct {name} {{", "  int unknown;", "};"]
        lines = [f"struct {name} {{"]
        for field in self.translated_fields(struct):
            if t.is_wide(field.type):
                lines += [f"  int {self.field_name(field)};", f"  int {self.high_field(field)};"]
                continue
            text = "char" if t.is_int(field.type) and field.type.is_char else self.type_text(field.type).rstrip()
            space = "" if text[-1] in "*?@" else " "
            lines.append(f"  {text}{space}{self.field_name(field)};")
        if len(lines) == 1:
            lines.append("  int empty;")
        return lines + ["};"]

    def struct_maker(self, struct):
        name = self.struct_name(struct)

        def build(function):
            values = [("NULL" if t.is_object_pointer(f.type) else "0" if t.is_int(f.type) else "0, 0" if t.is_wide(f.type)
                       else self.zero(f.type, None, f.place))
                      for f in self.translated_fields(struct)] or ["0"]
            return [f"struct {name} *`r {function}(region_t<`r> at) {{", f"  return rnew(at) {name}{{{', '.join(values)}}};", "}"]
        return self.generated(f"make_{name}", ("make", id(struct)), build)

    # Copying and clearing

    def copier(self, type_):
        if isinstance(type_, t.Array):
            return self.mover(type_.element, None)
        name = self.struct_name(type_)

        def build(function):
            lines = [f"void {function}(struct {name} *to, struct {name} *from) {{"]
            for field in self.translated_fields(type_):
                lines.append("  " + self.copy_line(field.type, f"to->{self.field_name(field)}", f"from->{self.field_name(field)}"))
                if t.is_wide(field.type):
                    lines.append(f"  to->{self.high_field(field)} = from->{self.high_field(field)};")
            return lines + ["}"]
        return self.generated(f"copy_{name}", ("copy", id(type_)), build)

    def copy_line(self, type_, to, from_):
        if isinstance(type_, t.Struct):
            return f"{self.copier(type_)}({to}, {from_});"
        if isinstance(type_, t.Array):
            return f"{self.mover(type_.element, None)}({to}, {from_}, {type_.length});"
        return f"{to} = {from_};"

    def clearer(self, type_):
        if isinstance(type_, t.Array):
            return self.array_clearer(type_)
        name = self.struct_name(type_)

        def build(function):
            lines = [f"void {function}(struct {name} *object) {{"]
            for field in self.translated_fields(type_):
                lines.append("  " + self.clear_line(field.type, f"object->{self.field_name(field)}"))
                if t.is_wide(field.type):
                    lines.append(f"  object->{self.high_field(field)} = 0;")
            return lines + ["}"]
        return self.generated(f"clear_{name}", ("clear", id(type_)), build)

    def clear_line(self, type_, target):
        if t.is_aggregate(type_):
            return f"{self.clearer(type_)}({target});"
        return f"{target} = {'NULL' if t.is_object_pointer(type_) else '0'};"

    def array_clearer(self, type_):
        """Clears a whole array, or as many elements as are asked for where its length is not known."""
        text = self.array_parameter(type_)
        counted = type_.length is None

        def build(function):
            count = ", int count" if counted else ""
            limit = "count" if counted else "numelts(array)"
            return [f"void {function}({text}array{count}) {{", "  int i = 0;", f"  while (i < {limit}) {{",
                    "    " + self.clear_line(type_.element, "array[i]"), "    i = i + 1;", "  }", "}"]
        word = "clear_some_" if counted else "clear_"
        return self.generated(word + self.key(text), ("clear", counted, text), build)

    def array_parameter(self, type_):
        return self.row_text(t.Array(type_.element, None), "")

    def mover(self, element, _place):
        """Copies elements as memmove does: from the last one on if `to` stands after `from`, should they be of one array."""
        text = self.array_parameter(t.Array(element, None))

        def build(function):
            up = "    " + self.copy_line(element, "to[i]", "from[i]")
            return [f"void {function}({text}to, {text}from, int count) {{", "  if (numelts(to) < numelts(from)) {", "    int i = count;",
                    "    while (i > 0) {", "      i = i - 1;", "  " + up, "    }", "    return;", "  }", "  int i = 0;",
                    "  while (i < count) {", up, "    i = i + 1;", "  }", "}"]
        return self.generated("copy_" + self.key(text), ("move", text), build)

    def filler(self, element):
        text = self.array_parameter(t.Array(element, None))

        def build(function):
            return [f"void {function}({text}array, int value, int count) {{", "  int i = 0;", "  while (i < count) {",
                    "    array[i] = value;", "    i = i + 1;", "  }", "}"]
        return self.generated("fill_" + self.key(text), ("fill", text), build)

    def array_maker(self, element, place):
        """A function that makes an array of a number of elements in the heap."""
        text = self.type_text(t.Array(element, None))

        def build(function):
            lines = [f"{text}{function}(int count) {{"]
            lines.append(f"  return new {{for i < count : {self.zero(element, None, place, 1)}}};")
            return lines + ["}"]
        return self.generated("new_" + self.key(text), ("new", text), build)

    def resizer(self, element, place):
        """realloc: a new array with the old elements."""
        text = self.type_text(t.Array(element, None))
        maker = self.array_maker(element, place)
        mover = self.mover(element, place)

        def build(function):
            first = text.rstrip()
            param = self.row_text(t.Array(element, None), "`H ")
            return [f"{first}{function}({param}old, int count) {{", f"  {text}array = {maker}(count);", "  int kept = numelts(old);",
                    "  if (kept > count) kept = count;", f"  if (kept > 0) {mover}(array, old, kept);", "  return array;", "}"]
        return self.generated("resize_" + self.key(text), ("resize", text), build)

    def element_pointer(self, element, param, at):
        """The pointer to an element of an array as a function's parameter takes it."""
        if param.fat:
            return f"array + {at}"
        return f"array[{at}]" if isinstance(element, t.Struct) else f"&array[{at}]"

    def sorter(self, element, compare, place):
        """qsort for elements of a type: insertion, which keeps the order of equal ones as glibc does."""
        text = self.row_text(t.Array(element, None), "`H ")
        call = self.dispatcher(compare, [], place)
        first, second = (self.element_pointer(element, param, at) for param, at in zip(compare.params, ("at - 1", "at")))
        if isinstance(element, t.Struct):
            copy, name = self.copier(element), self.struct_name(element)
            before = [f"  struct {name} *kept = {self.struct_maker(element)}(heap_region);"]
            swap = [f"{copy}(kept, array[at]);", f"{copy}(array[at], array[at - 1]);", f"{copy}(array[at - 1], kept);"]
        else:
            before = []
            swap = [f"{self.type_text(element)} kept = array[at];", "array[at] = array[at - 1];", "array[at - 1] = kept;"]

        def build(function):
            return [f"void {function}({text}array, int count, int compare) {{"] + before + \
                ["  int i = 1;", "  while (i < count) {", "    int at = i;",
                 f"    while (at > 0 && {call}(compare, {first}, {second}) > 0) {{"] + ["      " + line for line in swap] + \
                ["      at = at - 1;", "    }", "    i = i + 1;", "  }", "}"]
        return self.generated("sort_" + self.key(text), ("sort", text, call), build)

    def finder(self, element, key, compare, place):
        """bsearch in an array of a type, by halves as glibc does."""
        text = self.row_text(t.Array(element, None), "`H ")
        call = self.dispatcher(compare, [], place)
        found = self.element_pointer(element, compare.params[1], "at")

        def build(function):
            result, wanted = self.type_text(t.Array(element, None)), self.parameter_text(key, "`H ")
            return [f"{result}{function}({wanted}key, {text}array, int count, int compare) {{", "  int low = 0;",
                    "  while (low < count) {", "    int at = (low + count) / 2;",
                    f"    int order = {call}(compare, key, {found});", "    if (order == 0) return array + at;",
                    "    if (order < 0) count = at;", "    else low = at + 1;", "  }", "  return NULL;", "}"]
        return self.generated("search_" + self.key(text), ("search", text, call), build)

    @staticmethod
    def key(text):
        """A word for a type in the name of a function."""
        word = re.sub(r"`\w+", "", text).replace("struct ", "").replace("?", "s").replace("*", "").replace(" ", "")
        return {"chars": "bytes"}.get(word, word)

    def pointer_helper(self, what, type_):
        """The function that compares two fat pointers: `same`, or `distance`, into one array."""
        target = type_.leads_to() or t.INT
        text = self.parameter_text(type_, "")
        single = "char *" if text.startswith("char ?") else "int *"

        def build(function):
            if isinstance(target, t.Struct):
                same = ["p[numelts(p) - 1] == q[numelts(q) - 1]"]
                before = []
            elif t.is_int(target) or t.is_tag(target):
                before = [f"  {single}a = p + (numelts(p) - 1);", f"  {single}b = q + (numelts(q) - 1);"]
                same = ["a == b"]
            else:
                same, before = self.last_rows(target) if isinstance(target, t.Array) else self.last_pointers(type_)
            head = f"int {function}({text}p, {text}q) {{"
            if what == "same":
                return [head, "  if (p == NULL || q == NULL) return p == NULL && q == NULL;"] + before + \
                    [f"  return {same[0]} && numelts(p) == numelts(q);", "}"]
            return [head, "  if (p == NULL && q == NULL) return 0;"] + before + [f"  if (!({same[0]})) throw new Array_bounds;",
                                                                                   "  return numelts(q) - numelts(p);", "}"]
        name = {"same": "same_place", "distance": "distance"}[what]
        return self.generated(f"{name}_{self.key(text)}", (what, text), build)

    def last_pointers(self, type_):
        """How the last elements of two arrays of pointers are compared: the comparison, and the lines before it."""
        inside = self.parameter_text(type_, "").rstrip()[:-1].rstrip()
        return ["a == b"], [f"  {inside}*{name} = {of} + (numelts({of}) - 1);" for name, of in (("a", "p"), ("b", "q"))]

    def last_rows(self, target):
        """The same for arrays of rows: the first objects of their last rows are compared."""
        ways, element = ["p[numelts(p) - 1]", "q[numelts(q) - 1]"], target.element
        while isinstance(element, t.Array):
            ways, element = [way + "[0]" for way in ways], element.element
        if isinstance(element, t.Struct):
            return ["[0] == ".join(ways) + "[0]"], []
        text = self.element_text(element, "`H ")
        return ["a == b"], [f"  {text}*{name} = {way};" for name, way in zip("ab", ways)]



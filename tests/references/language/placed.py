"""Where a run of a program ends before the program does: the place of the throw, of the check, or of the call or the object that there is
no room for, and those of the calls that are under way, as `cyclone run --places` says them."""
from .runs import Run
from .types import is_number
from .values import End, Thrown

# The built-in exceptions of the language, in the order of their indices.
BUILT_IN = ("Null_Exception", "Array_bounds", "Array_size", "Div_zero")
# The maximum number of calls that a report of a stopped run lists.
MOST_CALLS = 32


def place_of_value(node):
    """The place that the value of an expression has by itself, brackets aside; None where it is that of what is around it."""
    if node.kind == "variable" and node.variable.sort == "global":
        return None
    if node.kind in ("variable", "call", "new"):
        return node.place
    if node.kind == "address" and node.operand.kind in PLACES:
        return place_of_value(node.operand)
    return PLACES[node.kind](node) if node.kind in PLACES else None


# The source position reported for a memory cell: that of the pointer, of the field's name or of the
# index.
PLACES = {
    "target": lambda node: node.operand.start,
    "member": lambda node: node.field.place,
    "element": lambda node: node.index.start,
}


class PlacedRun(Run):
    """A run that notes at which place it stops, and by which calls it came there."""

    def __init__(self, *given, **options):
        # for each active call: the source position of the call; and the names of the called
        # functions, starting with `main`
        self.sites, self.names = [], []
        self.stop = None
        super().__init__(*given, **options)

    # Where

    def note(self, place, stopped, said="no pages for what is wanted here"):
        if not hasattr(stopped, "trail"):
            stopped.trail, stopped.said = (place, list(self.sites), list(self.names)), said

    def at(self, place, act):
        """What an act throws, or has no room for, is so at a place, if no part of it has a place of its own."""
        if place is None:
            return act

        def run(*given):
            try:
                return act(*given)
            except (End, Thrown) as stopped:
                self.note(place, stopped)
                raise

        return run

    def end(self):
        try:
            value = self.call("main", [])
        except End as end:
            self.stop = end
            return end.line, end.status
        except Thrown as thrown:
            self.stop = thrown
            return f"uncaught {thrown.tag} {thrown.value}", 4
        return f"returned {value}", value & 0xFF

    def call(self, name, arguments):
        if self.depth == self.calls:
            return super().call(name, arguments)
        self.names.append(name)
        try:
            return super().call(name, arguments)
        finally:
            self.names.pop()

    # Executes a statement and records its source position, if the statement has one.

    def statement(self, item):
        act = super().statement(item)
        if item.kind in ("block", "nothing", "break", "continue"):
            return act
        return self.at(item.region.place if item.kind in ("region", "key") else item.place, act)

    def converted(self, node):
        return self.at(place_of_value(node), super().converted(node))

    def expression_call(self, node):
        act = super().expression_call(node)
        if node.name in ("putchar", "getchar"):
            return self.at(node.place, act)
        arguments = [self.converted(argument) for argument in node.arguments]

        def run(frame):
            values = [argument(frame) for argument in arguments]
            if self.depth == self.calls:
                return self.no_room(node, values)
            self.sites.append(node.place)
            try:
                return self.call(node.name, values)
            finally:
                self.sites.pop()

        return self.at(node.place, run)

    def no_room(self, node, values):
        try:
            return self.call(node.name, values)
        except End as end:
            self.note(node.place, end, "no room for this call")
            raise

    def expression_new(self, node):
        return self.at(node.place, super().expression_new(node))

    def place(self, node):
        act = super().place(node)
        return self.at(place_of_value(node), act) if node.kind in PLACES else act

    def expression_binary(self, node):
        if node.sign in ("&&", "||") or not is_number(node.left.type):
            return super().expression_binary(node)
        left, right = self.expression(node.left), self.at(node.right.start, self.expression(node.right))
        act = self.at(node.right.start, self.operator(node))
        return lambda frame: act(left(frame), right(frame))


def exception_name(program, thrown):
    """An exception as it is told: its name, with its int if it has one."""
    for name, (tag, has_int) in program.exceptions.items():
        if tag == thrown.tag:
            return f"{name}({thrown.value})" if has_int else name
    return BUILT_IN[thrown.tag - 1]


def told(run, name):
    """The lines on where a run stopped that ended before its program did, of a text with a name."""
    place, sites, functions = run.stop.trail
    said = f"{exception_name(run.program, run.stop)} thrown here" if isinstance(run.stop, Thrown) else run.stop.said
    lines = [f"{name}:{place[0]}:{place[1]}: {said}, in {functions[-1]}"]
    under_way = list(zip(sites, functions))[::-1]
    for (line, column), function in under_way[:MOST_CALLS]:
        lines.append(f"{name}:{line}:{column}: called here, in {function}")
    if len(under_way) > MOST_CALLS:
        lines.append(f"    .. and {len(under_way) - MOST_CALLS} more calls")
    return lines

"""Statements of the translation: blocks, loops, jumps and switches, with the language's `while`, `break` and `continue`."""
import re

from . import c_types as t
from .flows import sources
from .text import X, Line, negate
from .tree import Node, Stmt, has_effect, statements, walk
from .write_expressions import ExpressionWriter

NEEDS_BLOCK = re.compile(r"(int|char|struct|region|if|while|try)\b")
LEAVING = ("exit", "abort", "__assert_fail", "_exit", "_Exit", "unreachable", "trap")


class Loop:
    """A loop of the translation: whose `break` and `continue` it takes, what it does before its next turn, and which jumps cross it."""

    def __init__(self, label, tail):
        self.label = label
        self.tail = tail
        self.crossed = []


def ends(stmts):
    """Whether the end of a list of statements is not reached, as far as the language's checker tells."""
    if not stmts:
        return False
    last = stmts[-1]
    if last.kind in ("return", "break", "continue"):
        return True
    if last.kind == "expr":
        return last.e.op == "lib" and last.e.v in LEAVING
    if last.kind == "if":
        return bool(last.other) and ends(last.body) and ends(last.other)
    return last.kind == "block" and ends(last.body)


def jumps_to(stmts, label):
    return any(s.kind in ("break", "continue") and s.label is label for s in statements(stmts))


def without_last_breaks(stmts, label):
    """The statements without the jumps to what comes after them; what follows a conditional one stands in its `else`."""
    out = []
    for at, stmt in enumerate(stmts):
        rest = stmts[at + 1:]
        if stmt.kind == "break" and stmt.label is label:
            return out
        if stmt.kind == "if" and jumps_to([stmt], label):
            then, other = stmt.body, stmt.other or []
            if ends(then):
                return out + [Stmt("if", stmt.place, stmt.e, without_last_breaks(then, label), without_last_breaks(other + rest, label))]
            if other and ends(other):
                return out + [Stmt("if", stmt.place, stmt.e, without_last_breaks(then + rest, label), without_last_breaks(other, label))]
            if not rest:
                return out + [Stmt("if", stmt.place, stmt.e, without_last_breaks(then, label), without_last_breaks(other, label))]
        elif stmt.kind == "block" and not rest:
            return out + [Stmt("block", stmt.place, body=without_last_breaks(stmt.body, label))]
        out.append(stmt)
    return out


class StatementWriter(ExpressionWriter):
    """The part of a function's writer that is about statements."""

    def line(self, text):
        self.lines.append(Line(text, 0, self.at, self.symbol))

    @staticmethod
    def deeper(lines):
        for line in lines:
            line.depth += 1
        return lines

    def captured(self, write):
        """What a function returns, and the lines that it writes meanwhile."""
        kept, self.lines = self.lines, []
        try:
            found = write()
            return found, self.lines
        finally:
            self.lines = kept

    def temporary(self, type_text, value):
        name = self.program.local_name("t", self.taken)
        space = "" if type_text[-1] in "*?@" else " "
        self.line(f"{type_text}{space}{name} = {value};")
        return X(name)

    def body(self, stmts):
        """The lines of a list of statements."""
        _, lines = self.captured(lambda: self.write(stmts))
        return lines

    def write(self, stmts):
        for stmt in stmts or []:
            kept = self.at
            if stmt.place is not None and stmt.place.line:
                self.at = stmt.place
                self.lines += self.program.comments_before(stmt.place, self.symbol)
            getattr(self, "write_" + stmt.kind)(stmt)
            self.at = kept

    def write_label(self, _stmt):
        """Jumps to it are resolved."""

    write_entry = write_label

    def write_goto(self, _stmt):
        """Never written: refused before."""

    def write_block(self, stmt):
        lines = self.body(stmt.body)
        if any(re.match(r"(int|char|struct)\b", line.text) and line.depth == 0 for line in lines):
            self.line("{")
            self.lines += self.deeper(lines)
            self.line("}")
        else:
            self.lines += lines

    # Effects

    def write_expr(self, stmt):
        node, later = self.postponed(stmt.e)
        self.effect(node)
        for step in later:
            self.effect(step)

    def postponed(self, node):
        """A statement's expression without the `x++` whose variable stands nowhere else in it, and these, for afterwards."""
        if node.op in ("opassign", "pstep", "cond", "and", "or", "comma"):
            return node, []
        counts, steps = {}, []
        for inner in walk(node):
            if inner.op == "var":
                counts[inner.v] = counts.get(inner.v, 0) + 1
            if inner.op in ("cond", "and", "or", "comma"):
                return node, []
            if inner.op in ("opassign", "pstep") and inner.v[1] and inner.a[0].op == "var":
                steps.append(inner)
        later, plain = [], {}
        for step in steps:
            symbol = step.a[0].v
            if counts[symbol] == 1 and symbol.scope != "global" and not symbol.address:
                later.append(Node(step.op, step.type, step.a, (step.v[0], False), step.place, step.extra))
                plain[id(step)] = step.a[0]
        return replaced(node, plain), later

    def effect(self, node):
        """Writes what an expression does, and not its value."""
        handler = getattr(self, "effect_" + node.op, None)
        if handler:
            handler(node)
        elif has_effect(node):
            for part in node.a:
                self.effect(part)

    def effect_assign(self, node):
        target, source = node.a
        if isinstance(node.type, t.Struct):
            self.copy(target, source)
            return
        if t.is_wide(node.type):
            self.effect_wide_assign(node)
            return
        choice = source
        while choice.op in ("cast", "pcast") and choice.a[0].op == "cond" and not has_effect(target):
            wrap, inner = choice, choice.a[0]
            both = [Node(wrap.op, wrap.type, [x], wrap.v, wrap.place) for x in inner.a[1:]]
            choice = Node("cond", wrap.type, [inner.a[0]] + both, place=inner.place)
        if choice.op == "cond" and not has_effect(target):
            self.choose(choice, lambda chosen: self.effect(Node("assign", node.type, [target, chosen], place=node.place)))
            return
        if source.op == "assign" and not isinstance(source.type, t.Struct) and not has_effect(source.a[0]):
            self.effect(source)
            source = source.a[0]
        place, value = self.target_and_value(target, source)
        self.line(f"{place} = {value};")

    def copy(self, target, source):
        to = self.text(target)
        self.line(f"{self.program.copier(target.type)}({to}, {self.text(source)});")

    def effect_opassign(self, node):
        target = self.fixed(node.a[0])
        self.effect(self.stepped(node, target))

    effect_pstep = effect_opassign

    def effect_call(self, node):
        found = getattr(self, "x_" + node.op)(node)
        if not isinstance(node.type, t.Struct):
            self.line(f"{found};")

    effect_icall = effect_call

    def effect_lib(self, node):
        found = self.library_effect(node)
        if found is not None:
            self.line(f"{found};")

    def effect_comma(self, node):
        for part in node.a:
            self.effect(part)

    def effect_void(self, node):
        self.effect(node.a[0])

    def effect_compound(self, node):
        self.value(node)

    def effect_cond(self, node):
        self.choose(node, self.effect)

    def effect_and(self, node):
        condition = self.condition(node.a[0])
        _, lines = self.captured(lambda: self.effect(node.a[1]))
        self.branches(condition, lines, [])

    def effect_or(self, node):
        condition = self.negated(node.a[0])
        _, lines = self.captured(lambda: self.effect(node.a[1]))
        self.branches(condition, lines, [])

    # if

    def branches(self, condition, left, right):
        """Writes an `if`; brackets stand round bodies that are more than one simple statement."""
        if not left and not right:
            self.line(f"{condition};" if not re.fullmatch(r"[\w ]+", condition.text) else "")
            if not self.lines[-1].text:
                self.lines.pop()
            return
        if not left:
            condition, left, right = negate(condition), right, []
        self.guarded(f"if ({condition})", left)
        if right:
            self.otherwise(right)

    def guarded(self, head, lines):
        if len(lines) == 1 and not NEEDS_BLOCK.match(lines[0].text) and not lines[0].text.startswith("/*"):
            line = lines[0]
            self.lines.append(Line(f"{head} {line.text}", line.depth, self.at, self.symbol))
            return
        self.line(f"{head} {{")
        self.lines += self.deeper(lines)
        self.line("}")

    def otherwise(self, lines):
        closed = self.lines[-1].text == "}" and self.lines[-1].depth == 0
        head = "else"
        if closed:
            self.lines.pop()
            head = "} else"
        if lines[0].text.startswith("if (") and is_one_if(lines):
            self.lines.append(Line(f"{head} {lines[0].text}", 0, lines[0].place, self.symbol))
            self.lines += lines[1:]
            return
        self.guarded(head, lines)

    def write_if(self, stmt):
        if stmt.e.op == "num":
            self.write_block(Stmt("block", stmt.place, body=stmt.body if stmt.e.v else stmt.other or []))
            return
        if not stmt.body and stmt.other:
            condition, then, other = self.negated(stmt.e), stmt.other, []
        else:
            condition, then, other = self.condition(stmt.e), stmt.body, stmt.other or []
        self.branches(condition, self.body(then), self.body(other))

    # Loops

    def write_while(self, stmt):
        condition, before = X("1"), []
        if stmt.e is not None and not (stmt.e.op == "num" and stmt.e.v):
            condition, before = self.captured(lambda: self.condition(stmt.e))
        last = stmt.body[-1] if stmt.body else None
        once = stmt.e is None and last is not None and last.kind == "break" and last.label is stmt.label

        def tail():
            self.write(stmt.next)

        loop = Loop(stmt.label, tail)
        lines = []
        if before:
            lines, condition = before, X("1")
            _, test = self.captured(lambda: self.leave_unless(stmt.e))
            lines = test
        lines += self.looped(loop, stmt.body, [] if once else stmt.next or [])
        self.finish_loop(f"while ({condition})", lines, loop)

    def leave_unless(self, node):
        self.branches(self.negated(node), [Line("break;", 0, self.at, self.symbol)], [])

    def looped(self, loop, stmts, next_):
        self.loops.append(loop)
        try:
            lines = self.body(stmts)
            if not ends(stmts):
                lines += self.body(next_)
            return lines
        finally:
            self.loops.pop()

    def finish_loop(self, head, lines, loop):
        for flag, _, _ in loop.resets if hasattr(loop, "resets") else []:
            self.line(f"{flag} = 0;")
        if lines:
            self.guarded(head, lines)
        else:
            self.line(f"{head} ;")
        done = []
        for flag, label, kind in loop.crossed:
            if (flag, kind) not in done:
                done.append((flag, kind))
                self.after_crossing(flag, label, kind)

    def after_crossing(self, flag, label, kind):
        """After a loop that a jump has left: goes on with the jump."""
        def go_on():
            if kind == "continue" and self.loops and self.loops[-1].label is label:
                self.line(f"{flag} = 0;")
            self.jump(label, kind, flag)
        _, lines = self.captured(go_on)
        self.branches(X(flag), lines, [])

    def write_do(self, stmt):
        if stmt.e.op == "num" and not stmt.e.v:
            for inner in statements(stmt.body):
                if inner.kind == "continue" and inner.label is stmt.label:
                    inner.kind = "break"
            self.write_labeled(stmt)
            return
        forever = stmt.e.op == "num"

        def tail():
            if not forever:
                self.leave_unless(stmt.e)

        loop = Loop(stmt.label, tail)
        self.loops.append(loop)
        lines = self.body(stmt.body)
        if not ends(stmt.body):
            _, test = self.captured(tail)
            lines += test
        self.loops.pop()
        self.finish_loop("while (1)", lines, loop)

    def write_labeled(self, stmt):
        """A block that is left by name: a loop of one turn, if a jump stands elsewhere than at its end."""
        body = without_last_breaks(stmt.body, stmt.label)
        if not jumps_to(body, stmt.label):
            self.write_block(Stmt("block", stmt.place, body=body))
            return
        loop = Loop(stmt.label, lambda: None)
        self.loops.append(loop)
        lines = self.body(stmt.body)
        self.loops.pop()
        if not ends(stmt.body):
            lines.append(Line("break;", 0, self.at, self.symbol))
        self.finish_loop("while (1)", lines, loop)

    # Jumps

    def write_break(self, stmt):
        self.jump(stmt.label, "break")

    def write_continue(self, stmt):
        self.jump(stmt.label, "continue")

    def jump(self, label, kind, flag=None):
        if self.loops and self.loops[-1].label is label:
            if kind == "continue":
                self.loops[-1].tail()
            self.line(f"{kind};")
            return
        at = next(i for i in range(len(self.loops) - 1, -1, -1) if self.loops[i].label is label)
        if flag is None:
            flag = self.flag(label, kind, self.loops[at])
            self.line(f"{flag} = 1;")
        self.loops[-1].crossed.append((flag, label, kind))
        self.line("break;")

    def flag(self, label, kind, loop):
        key = (label, kind)
        if key not in self.flags:
            name = self.program.local_name("leave" if kind == "break" else "again", self.taken)
            self.flags[key] = name
            self.top.append(f"int {name} = 0;")
        found = (self.flags[key], label, kind)
        loop.resets = getattr(loop, "resets", [])
        if found not in loop.resets:
            loop.resets.append(found)
        return self.flags[key]

    # return

    def write_return(self, stmt):
        result = self.symbol.type.result
        if stmt.e is None:
            self.line("return;" if isinstance(result, (t.Void, t.Struct)) and not self.is_main else f"return {self.nothing()};")
        elif isinstance(result, t.Struct):
            self.line(f"{self.program.copier(result)}({self.result}, {self.text(stmt.e)});")
            self.line("return;")
        elif stmt.e.op == "cond":
            self.choose(stmt.e, lambda chosen: self.write_return(Stmt("return", stmt.place, chosen)))
        elif t.is_wide(result):
            self.line("return {}({}, {});".format(self.program.helper("wide_result"), *self.wide(stmt.e)))
        else:
            self.line(f"return {self.text(stmt.e)};")

    def nothing(self):
        """The result where C gives none."""
        result = self.symbol.type.result
        return "NULL" if t.is_object_pointer(result) else "0"

    # switch

    def write_switch(self, stmt):
        groups = [g for g in stmt.body]
        falls = [not self.leaves(g.body) and at + 1 < len(groups) for at, g in enumerate(groups)]
        subject = self.subject(stmt, any(falls))
        copies = self.copied(groups, falls) if any(falls) else groups
        if copies is None or len(groups) > 40:
            self.numbered_switch(stmt, groups, falls, subject)
            return
        chain = self.chain(copies, subject, stmt)
        self.write_labeled(Stmt("labeled", stmt.place, body=chain, label=stmt.label))

    def subject(self, stmt, falls):
        """The value that is compared: a variable where it is one that nothing changes meanwhile."""
        node = stmt.e
        plain = node
        while plain.op == "cast" and plain.a[0].op == "var":
            plain = plain.a[0]
        if node.op == "var" and node.v.scope != "global" and not node.v.address and not falls:
            return node
        return Node("raw", node.type, v=self.temporary("int", self.value(node)))

    @staticmethod
    def leaves(stmts):
        """Whether a group does not fall into the next one."""
        if not stmts:
            return False
        if ends(stmts):
            return True
        last = stmts[-1]
        if last.kind == "while" and (last.e is None or last.e.op == "num" and last.e.v):
            return not any(s.kind == "break" and s.label is last.label for s in statements(last.body))
        if last.kind == "switch":
            return False
        return False

    def copied(self, groups, falls):
        """The groups with a copy of what they fall into, if that is short; None where it is not."""
        bodies = [g.body for g in groups]
        for at in range(len(groups) - 2, -1, -1):
            if falls[at]:
                bodies[at] = bodies[at] + bodies[at + 1]
        added = sum(len(list(statements(b))) for b in bodies) - sum(len(list(statements(g.body))) for g in groups)
        if added > 12:
            return None
        return [Stmt("group", group.place, body=body, label=group.label) for group, body in zip(groups, bodies)]

    def chain(self, groups, subject, stmt):
        """The groups as one `if` after another, the default last."""
        default = [g for g in groups if None in g.label]
        chain = list(default[0].body) if default else []
        for group in reversed([g for g in groups if None not in g.label]):
            chain = [Stmt("if", group.place or stmt.place, self.one_of(subject, group.label), list(group.body), chain)]
        return chain

    @staticmethod
    def one_of(subject, values):
        """The condition that the subject is one of the values; runs of them are compared at their ends."""
        found = None
        for low, high in runs(values):
            def compare(op, value):
                other = Node("num", subject.type, v=value, place=subject.place)
                return Node("cmp", t.INT, [subject, other], op, subject.place, t.INT if op == "==" else subject.type)
            if high - low < 2:
                tests = [compare("==", v) for v in range(low, high + 1)]
            else:
                tests = [Node("and", t.INT, [compare(">=", low), compare("<=", high)])]
            for test in tests:
                found = test if found is None else Node("or", t.INT, [found, test])
        return found

    def numbered_switch(self, stmt, groups, falls, subject):
        """The number of the group is found first; each group then sets the number of that into which it falls."""
        name = self.program.local_name("group", self.taken)
        default = next((at + 1 for at, g in enumerate(groups) if None in g.label), 0)
        self.line(f"int {name} = {default};")
        for at, group in enumerate(groups):
            values = [v for v in group.label if v is not None]
            if values:
                self.line(f"if ({self.condition(self.one_of(subject, values))}) {name} = {at + 1};")
        chain = []
        marker = Node("raw", t.INT, v=X(name))
        for at, group in enumerate(groups):
            body = list(group.body)
            if falls[at]:
                body.append(Stmt("expr", group.place, Node("assign", t.INT, [marker, Node("num", t.INT, v=at + 2)])))
            test = Node("cmp", t.INT, [marker, Node("num", t.INT, v=at + 1)], "==", group.place, t.INT)
            chain.append(Stmt("if", group.place, test, self.stripped(body, stmt.label), []))
        self.write_labeled(Stmt("labeled", stmt.place, body=chain, label=stmt.label))

    @staticmethod
    def stripped(body, label):
        found = without_last_breaks(body, label)
        return found if not jumps_to(found, label) else body

    def region_of(self, node):
        """The region that a variable for a pointer has to name; nothing where it is the heap."""
        if not t.is_object_pointer(node.type) and not isinstance(node.type, t.Struct):
            return ""
        local = [s for s, what in sources(node) if not (s.cell if what == "place" and not t.is_aggregate(s.type) else s.heap)]
        return self.region if local else ""


def replaced(node, others):
    """An expression with other nodes in the place of some, which are named by their id."""
    if not others:
        return node
    if id(node) in others:
        return others[id(node)]
    return Node(node.op, node.type, [replaced(a, others) for a in node.a], node.v, node.place, node.extra)


def with_first(node, first):
    """A call with another first argument."""
    return Node(node.op, node.type, [first] + node.a[1:], node.v, node.place, node.extra)


def runs(values):
    """The values as runs that follow one another without a gap."""
    found = []
    for value in sorted(set(values)):
        if found and found[-1][1] == value - 1:
            found[-1] = (found[-1][0], value)
        else:
            found.append((value, value))
    return found


def is_one_if(lines):
    """Whether lines are one `if` with its branches, and nothing after."""
    return all(line.depth > 0 or line.text.startswith(("}", "else")) for line in lines[1:]) or len(lines) == 1



"""Calls of C's library with a stream to which a variable leads."""
from . import c_types as t
from .faults import Refusal
from .text import POSTFIX, X, join
from .tree import Node, has_effect
from .write_statements import StatementWriter

# For each C library function on streams: the index of its stream argument, and the standard stream
# on which the function has an effect.
STREAM_AT = {"putc": 1, "fputc": 1, "getc": 0, "fgetc": 0, "ungetc": 1, "fputs": 1, "fgets": 2, "fprintf": 0, "fflush": 0, "setbuf": 0,
             "setvbuf": 0, "feof": 0, "ferror": 0, "fclose": 0}
STANDARD = {"putc": "stdout", "fputc": "stdout", "getc": "stdin", "fgetc": "stdin", "ungetc": "stdin", "fputs": "stdout",
            "fgets": "stdin", "fprintf": "stdout", "feof": "stdin"}


class StreamWriter(StatementWriter):
    """The part of a function's writer that is about streams which only the run knows."""

    def by_stream(self, node, wanted):
        """A call with a stream that only the run knows, by its number: each standard one is handled as if the call named it."""
        at = STREAM_AT[node.v]
        args = list(node.a)
        for other in range(len(args) - 1, -1, -1):
            if other != at and has_effect(args[other]) and not t.is_wide(args[other].type):
                args[other] = self.kept_value(args[other])
        which = self.temporary("int", X(f"{self.text(args[at], POSTFIX)}->number", POSTFIX))
        named = STANDARD.get(node.v)
        if named is None:
            return X("0") if wanted else None
        args[at] = Node("stream", t.VOID, v=named, place=node.place)
        call = Node("lib", node.type, args, node.v, node.place, node.extra)
        pointer = isinstance(node.type, t.Ptr)
        start = "NULL" if pointer else "0" if node.v == "feof" else "-1"
        kind = self.program.type_text(node.type, self.region_of(args[0]) if pointer else "")
        found = self.temporary(kind, X(start)) if wanted else None

        def write():
            if wanted:
                self.line(f"{found} = {self.value(call)};")
            else:
                self.effect(call)
        _, lines = self.captured(write)
        test = join("==", which, X(str(("stdin", "stdout").index(named))))
        if wanted and named == "stdout":
            _, unseen = self.captured(lambda: self.line(f"{found} = {self.unseen(call)};"))
            self.branches(test, lines, unseen)
        else:
            self.branches(test, lines, [])
        return found

    def unseen(self, call):
        """What a call returns whose output nobody sees."""
        if call.v in ("putc", "fputc"):
            return self.value(Node("cast", t.UCHAR, [call.a[0]], place=call.place))
        if call.v == "fputs":
            return X("1")
        raise Refusal(f"how many bytes {call.v} prints to a file", call.place)


def is_computed(node):
    """Whether a call has a stream that only the run knows."""
    return node.v in STREAM_AT and node.a[STREAM_AT[node.v]].op != "stream"

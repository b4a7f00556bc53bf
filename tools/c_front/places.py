"""Which place of the C file each line of the translation comes from."""
import re

TOKEN = re.compile(r"/\*.*?\*/|//[^\n]*|'(?:\\.|[^'])'|`\w+|\w+|:=:|&&|\|\||==|!=|<=|>=|<<|>>|->|\S", re.S)
HEADER = "cyclone-c places 1"


class Places:
    """The places of a translation: for each of its lines a file, a line and a function of C, or nothing."""

    def __init__(self, source, lines):
        self.source = source
        self.lines = lines

    @classmethod
    def of(cls, source, lines):
        found = []
        for line in lines:
            place = line.place
            name = line.function.name if line.function is not None else ""
            found.append((place.file, place.line, name) if place is not None and place.line else None)
        return cls(source, found)

    def at(self, line):
        """The place of a line of the translation; None in the translation's own functions."""
        return self.lines[line - 1] if 0 < line <= len(self.lines) else None

    def with_more(self, more):
        """The same with the places of more lines, by their numbers."""
        lines = self.lines + [None] * (max(more, default=0) - len(self.lines))
        return Places(self.source, [more.get(number, place) for number, place in enumerate(lines, 1)])

    def laid_out(self, before, after):
        """The places for the same tokens in another layout."""
        old, new = token_lines(before), token_lines(after)
        lines = [None] * (after.count("\n") + 1)
        if len(old) == len(new):
            for was, is_ in zip(old, new):
                if lines[is_] is None and was < len(self.lines):
                    lines[is_] = self.lines[was]
        return Places(self.source, lines)

    def text(self):
        """The file of places: a line for each line of the translation that comes from one of C."""
        out = [HEADER, f"source {self.source}"]
        for number, place in enumerate(self.lines, 1):
            if place is not None:
                out.append(f"{number} {place[1]} {place[2] or '-'} {place[0]}")
        return "\n".join(out) + "\n"

    @classmethod
    def read(cls, text):
        lines = text.splitlines()
        if len(lines) < 2 or lines[0] != HEADER or not lines[1].startswith("source "):
            raise ValueError("no file of places")
        found = []
        for line in lines[2:]:
            number, at, function, file = line.split(" ", 3)
            found += [None] * (int(number) - len(found))
            found[int(number) - 1] = (file, int(at), "" if function == "-" else function)
        return cls(lines[1][len("source "):], found)


def token_lines(text):
    """The number of the line, from 0, of each token of a text."""
    found, line, at = [], 0, 0
    for match in TOKEN.finditer(text):
        line += text.count("\n", at, match.start())
        at = match.start()
        found.append(line)
    return found

"""Finds the definitions that a contract means by name, and the names of the library and the signs that these use.

A definition begins with its name and its type, at the left margin or in a module with parameters, and has all lines up to the next one. It
means the definitions whose names stand in it: those of its file, and those that the file takes from others by its `use` lines. The parts of
a record and the cases of a type belong to their definition. `trusted.py` counts the lines, without comments and empty ones.
"""
import collections
import functools
import re

HEAD = re.compile(r"^( {0,2})(?:(?:abbrev|unfoldable|pub) )*(?:(?:data|record) (\S+)|([^\s(]\S*) :(?= |$))")
PART = re.compile(r"^ +(?:pub )?(\S+) :(?= |$)")
USE = re.compile(r"^ *(pub )?use ([^\s{]+?)\.?(?:\{([^}]*)\})?(?: as (\S+))?$", re.M)
TOKEN = re.compile(r"[^\s(){},;]+")
LIBRARY = re.compile(r"(?:Rattle\.(?!cyc_)|Prim\.)")

Definition = collections.namedtuple("Definition", "file name lines")


def without_comments(text):
    return re.sub(r"--(?= |-|$).*", "", text, flags=re.M)


def parts_of(name):
    """Returns the words of a name: of `if◌then◌else◌`, three."""
    return [part for part in name.split("◌") if part] if "◌" in name else [name]


def tokens_in(lines):
    """Returns the words and signs of lines, also those beside a dot."""
    found = set()
    for token in TOKEN.findall(re.sub(r'"(?:[^"\\]|\\.)*"', "", "\n".join(lines))):
        token = token.removeprefix("λ")
        found |= {token, *token.split("."), token.strip(".")}
    return found


class File:
    """A file of definitions: its definitions by the words of their names, and what it takes from other files."""

    def __init__(self, path, text, target_of):
        self.path, self.names, self.taken, self.modules = path, {}, {}, {}
        text = without_comments(text)
        for _, place, names, alias in USE.findall(text):
            if alias and not names:
                self.modules[alias] = place
            for name in (it.strip() for it in names.split(",") if it.strip()):
                name, _, other = name.partition(" as ")
                for part in parts_of(other or name):
                    self.taken[part] = (place, name)
        self.define([line for line in text.split("\n") if line.strip() and not USE.match(line)])

    def define(self, lines):
        current, is_type = None, False
        for line in lines:
            head = HEAD.match(line)
            if head and not (is_type and head[1]):
                name, is_type = head[2] or head[3], bool(head[2])
                current = Definition(self.path, name, [])
                for part in parts_of(name):
                    self.names[part] = current
            elif is_type and PART.match(line):
                self.names[PART.match(line)[1]] = current
            if current:
                current.lines.append(line)


class Meaning:
    """The definitions that are reached from names, with the names of the library that they use."""

    def __init__(self, content, target_of):
        self.content, self.target_of, self.reached, self.library = content, target_of, {}, {}
        self.file = functools.cache(lambda path: File(path, content(path), target_of))

    def add(self, path, names):
        """Adds definitions of a file, and all that these mean; if no names are given, all of the file."""
        waiting = [(path, name) for name in names or list(self.file(path).names)]
        while waiting:
            waiting += self.met(*waiting.pop())

    def met(self, path, name):
        """Notes a name of a file, and returns those that its definition means."""
        file, found = self.file(path), []
        for part in parts_of(name):
            definition = file.names.get(part)
            if definition is None:
                found += self.led_to(*file.taken[part]) if part in file.taken else []
            elif (path, definition.name) not in self.reached:
                self.reached[path, definition.name] = definition
                found += self.used_by(file, definition)
        return found

    def used_by(self, file, definition):
        tokens, found = tokens_in(definition.lines), []
        for token in tokens:
            if token in file.names:
                found.append((file.path, token))
            elif token in file.taken:
                found += self.led_to(*file.taken[token])
        for alias, place in file.modules.items():
            for token in tokens:
                if token.startswith(alias + "."):
                    found += self.led_to(place, token[len(alias) + 1:].split(".")[0])
        return found

    def led_to(self, place, name):
        """Returns the name in the file of this repository that a `use` line names; a name of the library is noted."""
        if LIBRARY.match(place):
            self.library.setdefault(name, place)
            return []
        path, _ = self.target_of(place)
        return [(path, name)] if path and path.endswith(".antt") else []

    def count(self):
        """Returns the number of lines of all definitions that are reached."""
        return sum(len(definition.lines) for definition in self.reached.values())

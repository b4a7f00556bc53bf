#!/usr/bin/env python3
"""A program with the declarations of a library that it reaches, as one text: a second reading of `cyclone compile F --with L`.

    python3 tests/references/with_library.py F L ..

prints the text. A library is a text of declarations without `main`. One of them is reached if its name is among the tokens of the program,
which does not declare that name itself, or among those of a declaration that is reached. The text is the program, and then each declaration
that is reached, in the order of the libraries and in each in its order, with an empty line before it and without the comments around it. A
program that reaches nothing is that text itself.
"""
import functools
import glob
import os
import sys

if __name__ == "__main__":
    sys.path.insert(0, os.path.dirname(os.path.abspath(__file__)))

from language import texts

LIBRARY = sorted(glob.glob(os.path.join(os.path.dirname(os.path.abspath(__file__)), "..", "..", "lib", "*.cyc")))
OPENING, CLOSING = "([{", ")]}"


class Clash(Exception):
    """A name that is declared twice where both are meant."""


class Declaration:
    """A declaration of a text: the names that it declares, those among its tokens, those that a bracket follows, and its bytes."""

    def __init__(self, tokens, text):
        self.text = text
        self.declared = names_declared(tokens)
        self.used = {token.text for token in tokens if token.kind == "name"}
        self.is_function = is_function(tokens)
        pairs = list(zip(tokens, tokens[1:]))
        self.called = [one.text for one, other in pairs if one.kind == "name" and other.text == "("][self.is_function:]


def offset_of(starts, place):
    return starts[place[0] - 1] + place[1] - 1


def is_function(tokens):
    """Whether a declaration, or its beginning, is a function: of the others only those of exceptions have brackets."""
    return tokens[0].text != "datatype" and any(token.text == "(" for token in tokens)


def names_declared(tokens):
    """The names that a declaration gives to the whole program."""
    words = [token.text for token in tokens]
    names = [number for number, token in enumerate(tokens) if token.kind == "name"]
    if words[:1] == ["datatype"]:
        return [words[number] for number in names if words[number - 1] in "{;"]
    if words[:1] == ["struct"] and words[-1] == ";" and "{" in words:
        return [words[1]]
    end = next((number for number, word in enumerate(words) if word in ("(", "=", ";")), len(words))
    return [words[number] for number in names if number < end][-1:]


@functools.cache
def declarations_of(text):
    """The declarations of a text, in their order; what is not closed at its end is left out."""
    tokens = texts.tokens_of(text)[:-1]
    starts = [0]
    for line in text.split("\n"):
        starts.append(starts[-1] + len(line) + 1)
    found, begun, depth = [], 0, 0
    for number, token in enumerate(tokens):
        depth += (token.text in OPENING) - (token.text in CLOSING) if token.kind == "sign" else 0
        if depth or token.text not in (";", "}"):
            continue
        part = tokens[begun:number + 1]
        if token.text == ";" or is_function(part):
            found.append(Declaration(part, text[offset_of(starts, part[0].place):offset_of(starts, token.place) + 1]))
            begun = number + 1
    return found


def declared_in(libraries):
    """The declarations of libraries by the names that they declare. Clash if one is declared twice."""
    found = {}
    for declaration in [it for library in libraries for it in declarations_of(library)]:
        for name in declaration.declared:
            if name in found:
                raise Clash(f"{name} is declared twice")
            found[name] = declaration
    return found


def reached_by(text, libraries):
    """The declarations of libraries that a program reaches, in no order. Clash if one of them needs a name that the program takes."""
    known = declared_in(libraries)
    own = {name for declaration in declarations_of(text) for name in declaration.declared}
    found, names = [], {token.text for token in texts.tokens_of(text) if token.kind == "name"} - own
    while names:
        declaration = known.get(names.pop())
        if declaration is None or declaration in found:
            continue
        clashing = sorted(own & declaration.used & set(known))
        if clashing:
            raise Clash(f"{declaration.declared[0]} needs {clashing[0]}, which the program declares too")
        found.append(declaration)
        names |= declaration.used
    return found


def with_library(text, libraries):
    """The text of a program with what it reaches of libraries."""
    reached = {it.text for it in reached_by(text, libraries)}
    parts = [it.text for library in libraries for it in declarations_of(library) if it.text in reached]
    if not parts:
        return text
    end = "" if text.endswith("\n") else "\n"
    return text + end + "".join(f"\n{part}\n" for part in parts)


def content(path):
    with open(path, encoding="latin-1") as file:
        return file.read()


def whole(path, libraries=tuple(LIBRARY)):
    """The text of a program in a file, with what it reaches of libraries in files."""
    return with_library(content(path), [content(it) for it in libraries])


def main(words):
    if not words:
        sys.exit("python3 tests/references/with_library.py F L ..")
    try:
        sys.stdout.buffer.write(whole(words[0], words[1:]).encode("latin-1"))
    except (Clash, texts.Refused) as error:
        sys.exit(str(error))


if __name__ == "__main__":
    main(sys.argv[1:])

#!/usr/bin/env python3
"""Checks the documents: their lines, their code spans, the files that they name, and the tables and numbers from data.

    python3 tests/runners/documents.py [--write]

Outside of tables and programs a line of a document has at most 120 characters, and a code span ends on its line. A path in a code span that
begins with a folder of the repository names an existing file or folder. In the document of a crate all paths must exist, also those
relative to the crate's folders (`places.py`). Tables and numbers must equal those computed from data (`facts.py`). --write updates them,
wraps the lines of the documents at 120 characters without breaking code spans, and checks nothing. It is also checked that no crate has an
unused dependency, that definitions name their sources, that each name of a lemma has one statement (`lemmas.py`), and that import lines are
short enough to read (`house.py`). The last line is `N passed, M failed`, of the documents and these checks.
"""
import argparse
import os
import re

import facts
import house
import lemmas
import places
import suite
from facts import content

WIDTH = 120
FOLDERS = ("crates", "docs", "tests", "examples", "lib", "bench", "editors", "tools")
# The pattern of paths that the gate creates and that a fresh clone lacks.
MADE = re.compile(r"crates/\w+/out\b")
ITEM = re.compile(r" *(- |\d+\. )")


def documents():
    """Returns the documents of the repository, by their paths from its root."""
    found = []
    for folder, folders, names in os.walk(suite.ROOT):
        folders[:] = [name for name in folders if name != "out" and not name.startswith(".")]
        found += [os.path.relpath(os.path.join(folder, name), suite.ROOT) for name in names if name.endswith(".md")]
    return sorted(found)


def code_spans(line):
    """Returns the code spans of a line, and the rest of the line if a span does not end."""
    spans, rest = [], line
    while "`" in rest:
        opening = re.search("`+", rest)
        closing = re.search(rf"(?<!`){opening.group()}(?!`)", rest[opening.end():])
        if not closing:
            return spans, rest[opening.start():]
        spans.append(rest[opening.end():][:closing.start()].strip())
        rest = rest[opening.end():][closing.end():]
    return spans, ""


def faults_of_line(line):
    """Returns the faults of a line."""
    faults = []
    if len(line) > WIDTH and not line.startswith("|"):
        faults.append(f"has {len(line)} characters")
    spans, rest = code_spans(line)
    if rest:
        faults.append(f"a code span does not end on its line: {rest}")
    for span in spans:
        if re.fullmatch(rf"({'|'.join(FOLDERS)})/[\w./-]+", span) and not MADE.match(span) \
                and not os.path.exists(os.path.join(suite.ROOT, span)):
            faults.append(f"there is no {span}")
    return faults


def faults_of_programs(lines):
    """Returns the faults of programs after a list item that are indented like other items: they would be text of the item."""
    faults, is_in_list, is_behind = [], False, False
    for number, line in enumerate(lines, 1):
        if is_in_list and is_behind and re.match(" {4,5}(?! )", line) and not ITEM.match(line):
            faults.append(f"line {number}: a program behind an item of a list is text, unless it is indented by six spaces")
        is_in_list = bool(ITEM.match(line)) or is_in_list and (not line.strip() or line.startswith(" ") or not is_behind)
        is_behind = not line.strip()
    return faults


def faults_of(path, text):
    """Returns the faults of a document. A program is indented by four spaces, or by six in a list."""
    lines = text.split("\n")
    faults = [f"line {number}: {fault}" for number, line in enumerate(lines, 1)
              if not line.startswith("    ") for fault in faults_of_line(line)]
    return faults + faults_of_programs(lines) + places.faults_of(path, text) + facts.faults_of(path, text)


def is_text(line):
    """Returns true if a line belongs to a paragraph: it is no heading, table, program or empty line."""
    return line.strip() != "" and not line.startswith(("#", "|", "    "))


def goes_on(line, rest):
    """Returns true if a line continues a paragraph whose lines begin with `rest`."""
    return line.startswith(rest) and is_text(line[len(rest):]) and not ITEM.match(line)


def pieces_of(text):
    """Returns the words of a text, with code spans unbroken."""
    pattern = re.compile(r"(?:(?P<ticks>`+)(?!`)(?:.|\n)*?(?<!`)(?P=ticks)(?!`)|[^\s`])+")
    return [" ".join(found.group().split()) for found in pattern.finditer(text)]


def filled(text, first, rest):
    """Returns a wrapped paragraph whose first line begins with `first` and whose other lines begin with `rest`."""
    lines, line = [], None
    for piece in pieces_of(text):
        if line is None:
            line = first + piece
        elif len(line) + 1 + len(piece) <= WIDTH:
            line += " " + piece
        else:
            lines.append(line)
            line = rest + piece
    return lines + [line]


def filled_document(text):
    """Returns a document with its paragraphs wrapped."""
    lines, done, at = text.split("\n"), [], 0
    while at < len(lines):
        line = lines[at]
        at += 1
        if not is_text(line):
            done.append(line)
            continue
        item = ITEM.match(line)
        first = item.group() if item else line[: len(line) - len(line.lstrip())]
        rest = " " * len(first)
        paragraph = [line[len(first):]]
        while at < len(lines) and goes_on(lines[at], rest):
            paragraph.append(lines[at])
            at += 1
        done += filled("\n".join(paragraph), first, rest)
    return "\n".join(done)


def write(path):
    text = filled_document(facts.with_facts(path, content(path)))
    with open(os.path.join(suite.ROOT, path), "w", encoding="utf-8") as file:
        file.write(text)


def main():
    parser = argparse.ArgumentParser(description=__doc__.split("\n")[0])
    parser.add_argument("--write", action="store_true")
    if parser.parse_args().write:
        for path in documents():
            write(path)
    else:
        things = [(path, lambda path=path: faults_of(path, content(path))) for path in documents()]
        things += [("crates.txt", facts.faults_of_crates), ("the sources of definitions", facts.faults_of_sources)]
        things += [("the names of lemmas", lemmas.faults), ("the lines of imports", house.long_imports)]
        suite.try_each(things, lambda thing: thing[0], lambda thing: thing[1]())


if __name__ == "__main__":
    main()

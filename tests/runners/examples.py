#!/usr/bin/env python3
"""Compiles and runs the programs in examples/ that have an expected output, checks those in docs/ and in tests/sound, and reports failures.

    python3 tests/runners/examples.py [--program PATH]

`examples/README.md` has a line for each program. `NAME.cyc` is compiled with `lib/`, and run on `NAME.in`, or on no input where
there is none. `NAME.out` is what a terminal then shows: the standard output, and behind it the last line on standard
error, which also tells the exit status. `check` has
to take the program too. A program in docs/LANGUAGE.md whose first line is `// done` or `// fault C at L:K` has this verdict, and a
program in tests/sound the one that its head says. A fragment on the right of a table in docs/FROM_C.md is accepted where the program
above the table says `/* here */`, and what stands on the left gets the hint that tests/from_c.txt has for it. The last line is
`N passed, M failed`.
"""
import os
import re
import tempfile

import suite  # first: it makes the references and the generators importable
import in_trees
from with_library import LIBRARY

FOLDER = os.path.join(suite.ROOT, "examples")
INDEX = os.path.join(FOLDER, "README.md")
# The pattern of the line about an example program in the index of the examples.
LISTED = re.compile(r"^\| `(\w+\.cyc)` \|", re.M)
LANGUAGE = os.path.join(suite.ROOT, "docs", "LANGUAGE.md")
FROM_C = os.path.join(suite.ROOT, "docs", "FROM_C.md")
HINTS = os.path.join(suite.TESTS, "from_c.txt")
# The pattern of a program with a placeholder for fragments, and that of a line of the table below it. A table line has a
# number and, as the first code span of its last cell, a fragment.
FRAME = re.compile(r"^(?:    .*\n)+", re.M)
HERE = "/* here */"
FRAGMENT = re.compile(r"^\| (\d+) \|.* \| (?:`` (.+?) ``|`([^`]+)`)[^|]*\|$", re.M)
# The pattern of the left cells of a table line: the line's number, and the first code span after
# it.
LEFT = re.compile(r"^\| (\d+) \| (?:`` (.+?) ``|`([^`]+)`)", re.M)
# A program in a document: indented lines, with empty lines between them; the first line states the
# program's verdict.
SHOWN = re.compile(r"^    // (done|fault \d+ at \d+:\d+)\n(?:    .*\n|\n(?=    ))*", re.M)
WITH = ["--with", *LIBRARY]
PARTS = ("standard output", "last line on standard error", "exit status")


def status_of(line):
    """Returns the exit status that belongs to a last line of a run."""
    if line.startswith("returned "):
        return int(line.split()[1]) & 0xFF
    return {"full": 5, "uncaught": 4}[line.split()[0]]


def content(path):
    """Returns the content of a file; empty if there is no such file."""
    if not os.path.exists(path):
        return b""
    with open(path, "rb") as file:
        return file.read()


def faults_of(program, source, beside, folder):
    """Returns the differences between a program's compilation and run and the expected files, given by the path without its extension."""
    image = os.path.join(folder, "image.elf")
    given = content(beside + ".in")
    output, _, last = content(beside + ".out")[:-1].rpartition(b"\n")
    last = last.decode("latin-1")
    steps = (
        ("check", [program, "check", source, *WITH], (b"", "done", 0)),
        ("compile", [program, "compile", source, *WITH, "-o", image], (b"", "done", 0)),
        ("run", [program, "run", image], (output + b"\n", last, status_of(last))),
    )
    for step, words, wanted in steps:
        got = suite.answer(words, given)
        differing = [part for part in zip(PARTS, wanted, got) if part[1] != part[2]]
        if differing:
            return [suite.difference(f"{step}: {what}", one, other) for what, one, other in differing]
    return []


def faults_of_index():
    """Returns the programs that the index lacks, and the listed ones that do not exist."""
    with open(INDEX, encoding="utf-8") as file:
        listed = LISTED.findall(file.read())
    there = [name for name in os.listdir(FOLDER) if name.endswith(".cyc")]
    return [f"{name} stands there {listed.count(name)} times" for name in sorted({*listed, *there}) if listed.count(name) != there.count(name)]


def shown_programs():
    """Returns the programs in the document that begin with their verdict: the line in the document, the text, and the verdict."""
    with open(LANGUAGE, encoding="utf-8") as file:
        document = file.read()
    return [(document[: found.start()].count("\n") + 1, re.sub("^    ", "", found[0], flags=re.M), found[1]) for found in SHOWN.finditer(document)]


def within(document, pattern):
    """Returns the fragments that a pattern finds in a document's tables: the number, the fragment, and its text within the program above.
    """
    frames = [frame for frame in FRAME.finditer(document) if HERE in frame[0]]
    found = []
    for frame, after in zip(frames, frames[1:] + [None]):
        table = document[frame.end(): after.start() if after else len(document)]
        for number, ticked, plain in pattern.findall(table):
            fragment = (ticked or plain).replace("\\|", "|")
            found.append((int(number), fragment, re.sub("^    ", "", frame[0], flags=re.M).replace(HERE, fragment)))
    return found


def hints():
    """Returns the hint of each row by its number."""
    with open(HINTS, encoding="utf-8") as file:
        lines = [line.split(maxsplit=1) for line in file.read().split("\n") if line and not line.startswith("#")]
    return {int(number): hint for number, hint in lines}


def foreign():
    """Returns the left column of the page for C programmers: the number of each row, its text, and its hint."""
    with open(FROM_C, encoding="utf-8") as file:
        document = file.read()
    wanted = hints()
    found = []
    for number, fragment, text in within(document, LEFT):
        whole = fragment + " { return 0; }" if fragment.startswith("int main(") else text
        found.append((number, whole, wanted.pop(number)))
    if wanted:
        raise ValueError(f"{HINTS} has rows that docs/FROM_C.md lacks")
    return found


def fragments():
    """Returns the fragments in the page for C programmers: each one's number, and its text within the program above its table."""
    with open(FROM_C, encoding="utf-8") as file:
        document = file.read()
    found = [(number, text) for number, _, text in within(document, FRAGMENT)]
    if [number for number, _ in found] != list(range(1, len(re.findall(r"^\| \d+ \|", document, flags=re.M)) + 1)):
        raise ValueError("docs/FROM_C.md has rows that are not read, or not numbered in order")
    return found


def faults_of_shown(program, text, verdict, folder):
    """Returns a fault unless the program gives a text the verdict in its first line."""
    path = os.path.join(folder, "text.cyc")
    with open(path, "w", encoding="ascii") as file:
        file.write(text)
    wanted, got = (b"", verdict, 0 if verdict == "done" else 2), suite.answer([program, "check", path, *WITH])
    return [] if got == wanted else [suite.difference("check", wanted, got)]


def faults_of_foreign(program, text, hint, folder):
    """Returns a fault unless the program gives this hint on a text."""
    path = os.path.join(folder, "text.cyc")
    with open(path, "w", encoding="ascii") as file:
        file.write(text)
    lines = suite.said([program, "check", path])
    wanted = "done" if hint == "done" else f"    hint: {hint}"
    got = lines[-1] if hint == "done" else lines[-2]
    return [] if got == wanted else [suite.difference("check", wanted, got)]


def judged_programs():
    """Returns the programs in tests/sound: the path, the text, and the verdict."""
    return [(f"tests/sound/{name}.programs: {head[0]}", text, in_trees.refusal_of(head)[0])
            for name in ("accepted", "refused") for head, text in in_trees.programs_in(name)]


def main():
    options = suite.command_line(__doc__).parse_args()
    names = sorted(name[: -len(".out")] for name in os.listdir(FOLDER) if name.endswith(".out"))
    judged = [(f"docs/LANGUAGE.md:{line}", text, verdict) for line, text, verdict in shown_programs()] + judged_programs()
    judged += [(f"docs/FROM_C.md: {number}", text, "done") for number, text in fragments()]
    advised = foreign()
    program = suite.program_of(options, 1 + len(names) + len(judged) + len(advised))
    with tempfile.TemporaryDirectory(prefix="cyclone-example-") as folder:
        things = [("examples/README.md", faults_of_index)]
        things += [(f"examples/{name}.cyc", lambda path=os.path.join(FOLDER, name): faults_of(program, path + ".cyc", path, folder)) for name in names]
        for place, text, verdict in judged:
            things.append((place, lambda one=(text, verdict): faults_of_shown(program, *one, folder)))
        for number, text, hint in advised:
            things.append((f"docs/FROM_C.md: {number}, on the left", lambda one=(text, hint): faults_of_foreign(program, *one, folder)))
        suite.try_each(things, lambda thing: thing[0], lambda thing: thing[1]())


if __name__ == "__main__":
    main()

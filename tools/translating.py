#!/usr/bin/env python3
"""Translates C for tools/page, tools/judge and tools/lsp: as a process of its own, so that their limits hold for it.

    translating.py TEXT PROGRAM [--name NAME]

    TEXT           the file with the C program
    PROGRAM        cyclone, which lays the translation out
    --name NAME    the path of the program for messages and its own headers; without it the text comes from a stranger, is called program.c,
                   and may include the headers of cyclone-c only: the words of another file would stand in a message

prints an object of JSON: `text`, the translation, null if the program is refused; `places`, for each line of it null or the numbers of a
file, a line and a function of C, with `files` and `functions`; and `findings`, the refusals and warnings, as `cyclone check --json` has
them.
"""
import argparse
import bisect
import importlib
import json
import os
import re
import shutil
import subprocess
import sys

HERE = os.path.dirname(os.path.realpath(__file__))
sys.path.insert(0, HERE)
import asked

NAME = "program.c"
# A line that ends in a backslash continues on the next line; cpp also allows spaces after the
# backslash.
SPLICE = re.compile(r"\\[ \t\f\v\0]*\n")
GAP = r"(?:[^\S\n]|\0|/\*.*?\*/)*"
INCLUDE = re.compile(rf"(?:#|%:|\?\?=){GAP}(?:include_next|include|import)\b{GAP}(?:<(?P<one>[^>\n]*)>|\"(?P<other>[^\"\n]*)\")?", re.S)
# Names, besides `#include`, by which a C text can make cpp tell whether a file exists.
PROBE = re.compile(r"__has_include\w*|_Pragma\b|\bdependency\b|\bpch_preprocess\b")
# The pattern of the start of a compiler message about the translation: the translation's file name,
# which is `source.cyc` or a path of the form `/proc/self/fd/N`.
COMPILED = re.compile(r"^(?:source\.cyc|/proc/self/fd/\d+):(?=\d+:\d+: )")
IN_C = re.compile(r"(?P<file>[^\n]*?):(?P<line>\d+): (?P<text>.*)")
WORD = re.compile(r"\d[\w.]*|\w+|\S", re.A)
# The maximum number of bytes of a tool's output that are printed.
LONGEST = 4_000_000


class Untranslated(Exception):
    """No translation and no refusal came, as without pycparser or memory."""


# ---- what the tools ask


def is_there():
    """Whether this Python and this machine have what the translation needs. It is read now, and not at the first program."""
    try:
        importlib.import_module("c_front.command")
    except ModuleNotFoundError:
        return False
    return shutil.which("cpp") is not None


def words_for(text, program, name=None):
    """The command that translates a file."""
    return [sys.executable, os.path.realpath(__file__), text, program, *([] if name is None else ["--name", name])]


class Translated:
    """A translation: its text in bytes, None if it is refused; its places; and the findings in the C program."""

    def __init__(self, output, said, name=NAME):
        try:
            found = json.loads(output)
            self.findings, self.files, self.functions, self.places = (found[it] for it in ("findings", "files", "functions", "places"))
            self.text = None if found["text"] is None else found["text"].encode("utf-8", "surrogateescape")
        except (ValueError, KeyError, TypeError, RecursionError):
            lines = [it for it in said.decode("utf-8", "replace").split("\n") if it.strip()]
            raise Untranslated(lines[-1].strip() if lines else "the translator was ended") from None
        self.name = name

    def at(self, line):
        """The file, line and function of C of a line of the translation; None for one of its own."""
        place = self.places[line - 1] if 0 < line <= len(self.places) else None
        return place and (self.files[place[0]], place[1], self.functions[place[2]])

    def line_in_c(self, line):
        """The line of the C program itself that a line of the translation comes from, or None."""
        place = line and self.at(line)
        return place[1] if place and place[0] == self.name else None

    def refusals_in_c(self, findings, source):
        """The refusals of the translation in the C program; its warnings say nothing of that."""
        found = []
        for it in findings:
            if it["kind"] == "refusal":
                line = next((self.line_in_c(number) for number in range(it["line"], 0, -1) if self.line_in_c(number)), 1)
                found.append(finding("refusal", not found, source, line, 1, f"the compiler refuses the translation: {it['message']}", ""))
        return found

    def ends_in_c(self, lines):
        """The lines of a run with places, each as a line of the C program, or None, and words."""
        from c_front.command import all_in_c
        found = []
        for line in all_in_c([COMPILED.sub("program.cyc:", it) for it in lines], self):
            place = IN_C.fullmatch(line)
            is_here = place and place["file"] == self.name
            found.append((int(place["line"]), place["text"]) if is_here else (None, line))
        return found


def finding(kind, is_first, source, line, column, message, hint):
    """A finding as `check --json` has it, from a column in characters to the end of the word there, or of a whole line."""
    lines = source.split("\n")
    text = lines[line - 1] if 0 < line <= len(lines) else ""
    start = column - 1 if column > 1 else len(text) - len(text.lstrip())
    word = WORD.match(text, start) if column > 1 else None
    end = word.end() if word else len(text.rstrip())
    columns = (len(text[:it].encode("utf-8", "surrogateescape")) + 1 for it in (start, max(start, end)))
    return {
        "kind": kind, "rule": "C", "code": None, "first": is_first, "line": line, "column": next(columns), "endLine": line,
        "endColumn": next(columns), "message": message, "detail": None, "hint": hint or None, "edit": None, "related": []}


# ---- the process


def strange_file(text):
    """The number of the line where a text names a file that is no header of cyclone-c, and what it names; None if none does."""
    from c_front.preprocess import HEADERS
    known = {os.path.relpath(os.path.join(folder, it), HEADERS) for folder, _, names in os.walk(HEADERS) for it in names}
    splices, length = [], 0
    for part in SPLICE.split(text):
        length += len(part)
        splices.append(length)
    whole = SPLICE.sub("", text)
    strange = [it for it in INCLUDE.finditer(whole) if (it["one"] or it["other"]) not in known]
    first = min([*strange, *PROBE.finditer(whole)], key=lambda it: it.start(), default=None)
    if first is None:
        return None
    line = 1 + whole.count("\n", 0, first.start()) + bisect.bisect_left(splices[:-1], first.start() + 1)
    return line, " ".join(first[0].split())


def laid_out(text, places, program):
    """The text and its places as the program lays it out."""
    number = asked.in_memory(text.encode("utf-8", "surrogateescape"))
    done = subprocess.run([program, "format", asked.name_of(number)], capture_output=True, pass_fds=(number,), check=False)
    if done.returncode:
        return text, places
    new = done.stdout.decode("utf-8", "surrogateescape")
    return new, places.laid_out(text, new)


def in_file(refusal, kind, is_first, source, name):
    """A refusal or a warning as a finding in the C program; one in a header names it."""
    place = refusal.as_dict()
    if place["file"] == name:
        return finding(kind, is_first, source, place["line"], place["column"], place["message"], place["hint"])
    file = os.path.basename(place["file"])
    return finding(kind, is_first, source, 1, 1, f"{file}:{place['line']}: {place['message']}", place["hint"])


def numbered(places, count):
    """The places of so many lines, with the files and the functions that they name by numbers."""
    files, functions, lines = {}, {}, []
    for number in range(1, count + 1):
        place = places.at(number)
        lines.append(place and [files.setdefault(place[0], len(files)), place[1], functions.setdefault(place[2], len(functions))])
    return {"files": list(files), "functions": list(functions), "places": lines}


def translated(source, name, program, is_own):
    """The object that is printed."""
    import c_front
    from c_front.command import asker
    found = {"text": None, "files": [], "functions": [], "places": []}
    strange = None if is_own else strange_file(source)
    if strange:
        line, what = strange
        hint = "write what the header declares: only headers of C are there"
        return {**found, "findings": [finding("refusal", True, source, line, 1, f"this names another file: {what[:100]}", hint)]}
    text, places, refusals, warnings = c_front.translate(source, name, arguments=[name], ask=asker(program))
    found["findings"] = [in_file(it, "refusal", number == 0, source, name) for number, it in enumerate(refusals)]
    found["findings"] += [in_file(it, "warning", False, source, name) for it in warnings]
    if text is not None:
        text, places = laid_out(text, places, program)
        found.update(numbered(places, text.count("\n") + 1), text=text)
    return found


def main():
    parser = argparse.ArgumentParser(description=__doc__.split("\n")[0])
    parser.add_argument("text")
    parser.add_argument("program")
    parser.add_argument("--name")
    options = parser.parse_args()
    # The file is read as cyclone-c reads it: every kind of line end becomes a line feed.
    with open(options.text, encoding="utf-8", errors="surrogateescape") as file:
        source = file.read()
    try:
        from c_front.preprocess import HEADERS
    except ModuleNotFoundError as error:
        sys.exit(f"{sys.executable} has no module {error.name}: Debian has it in python3-{error.name}")
    if options.name is None:
        # The C preprocessor searches its working folder for headers first, so the working folder
        # becomes that of the headers.
        os.chdir(HEADERS)
    try:
        found = translated(source, options.name or NAME, options.program, options.name is not None)
    except MemoryError:
        sys.exit("no memory")
    print(json.dumps(found))
    return 0


if __name__ == "__main__":
    sys.exit(main())

#!/usr/bin/env python3
"""Compares all tables of fault codes with docs/codes.txt, and tries the texts of each code. These are the smallest rejected text, the one
on the code's page, and its correction. Does the same for the habits of C programmers in docs/habits.txt.

    python3 tests/runners/codes.py [--program PATH] [--write]

The docstrings of crates/cyc_words/src/fault.rt, the messages and hints of crates/cyc_cli/src/advice.rt, the lines of
crates/cyc_rendering/src/named.rt, the pages in
crates/cyc_cli/src/pages.rt, the folder beside it and docs/CODES.md, what `cyclone explain` prints and the table of codes in
docs/LANGUAGE.md have to say what docs/codes.txt says. --write generates the pages and the table in docs/LANGUAGE.md from docs/codes.txt,
and tries nothing. The table in crates/cyc_cli/src/habits.rt has to be that of docs/habits.txt, row by row. `cyclone --version` has to name
the toolchain's logic as `rt --version` does. The last line is `N passed, M failed`, of the files, the version, the codes and the habits.
"""
import os
import re
import subprocess
import sys
import tempfile
import textwrap

import suite

TABLE = os.path.join(suite.ROOT, "docs", "codes.txt")
LANGUAGE = os.path.join(suite.ROOT, "docs", "LANGUAGE.md")
FAULTS = os.path.join(suite.ROOT, "crates", "cyc_words", "src", "fault.rt")
ADVICE = os.path.join(suite.ROOT, "crates", "cyc_cli", "src", "advice.rt")
NAMED = os.path.join(suite.ROOT, "crates", "cyc_rendering", "src", "named.rt")
PAGES = os.path.join(suite.ROOT, "crates", "cyc_cli", "src", "pages.rt")
# The parts of the documentation about the codes, each a file of the program with the pages of many codes. For each part: the first code
# number after those whose pages the part contains, and a description of its codes.
PARTS = {
    "syntax": (20, "the codes of tokens and of the grammar"),
    "types": (40, "the codes of the typing rules"),
    "flow": (50, "the codes of the flow rules"),
    "limits": (60, "the codes by which `compile` alone refuses"),
}
BOOK = os.path.join(suite.ROOT, "docs", "CODES.md")
FIELDS = {"meaning", "place", "message", "line", "hint", "text", "at", "by", "rule", "breaks", "mended"}
HABITS = os.path.join(suite.ROOT, "docs", "habits.txt")
HABITS_CODE = os.path.join(suite.ROOT, "crates", "cyc_cli", "src", "habits.rt")
HABIT_FIELDS = {"code", "before", "at", "expected", "hint", "text", "place"}
# The words that may stand in the table of programmers' habits in place of a list of words; each
# denotes a class of words, as `number` and `name` do.
KINDS = ("any", "number", "marked", "name", "call", "method", "wide")
# The table of codes in docs/LANGUAGE.md, from its header to the empty line after it.
HEAD = "| Code | What it means | Its place | Smallest text |\n|---|---|---|---|\n"
PART = re.compile(r'"([^"]*)"(?: \* (\d+))?')
# The prefix of a source line on a documentation page about a code; the line is in the field
# `breaks` (the rejected text) or `mended` (the corrected text). `REPEATED` is the pattern of a line
# that ends with `(N times)` and stands for N copies.
LINE = "  | "
REPEATED = re.compile(r"(.*\S) +\((\d+) times\)")
MANY = "A line below that ends with (N times) stands N times, with the number of the copy in place of #."
# The width, in characters, of the text on a documentation page about a fault code.
WIDTH = 78
BOOK_HEAD = """# The codes of refusals

Each refusal has a code, by which its last line names it: `fault 22 at 3:14` is code 22. Below stands what
`cyclone explain 22` prints of it, and so for each: the rule, a text that breaks it, and that text mended. The suite
checks each text. `docs/LANGUAGE.md` has the codes in one table.
"""
MADE = "//! They are made of `docs/codes.txt` by `python3 tests/runners/codes.py --write`.\n"
PAGES_HEAD = f"""//! The page of each code of a refusal, which `cyclone explain` prints: the rule, a text that breaks it, and that text mended.
{MADE}
ghost use Rattle.std.specs.Prelude.{{◌≡◌}};
ghost use Rattle.cyc_cli.specs.inside.Pages.{{page_of}};

use cyc_words::Code;

"""
PAGES_FUNCTION = """
/// The page of a code, in lines.
pub fn page(code: Code) -> &'static str
    ensures { result.now ≡ page_of code }
{
    match code {
"""


class Code:
    """A code of the table in docs/codes.txt."""

    def __init__(self, number, name):
        self.number = int(number)
        self.name = name
        # The source lines of the rejected text on the documentation page of a fault code, and those
        # of the corrected text.
        self.broken, self.whole = [], []

    def parts(self):
        """Returns the smallest text as repeated pieces; empty if the table describes it in words."""
        if not self.text.startswith('"'):
            return None
        return [(piece, int(times or 1)) for piece, times in PART.findall(self.text)]

    def source(self):
        """Returns the smallest rejected text."""
        pieces = [piece.replace("#", str(copy)) if times > 1 else piece
                  for piece, times in self.parts() for copy in range(1, times + 1)]
        return "".join(pieces).encode("ascii")

    def page(self):
        """Returns the page that `cyclone explain` prints for the code."""
        said = [f"fault {self.number}: {self.message}", filled(f"{self.meaning}. Its place: {self.place}."), filled(self.rule)]
        if self.broken:
            refused = f"Accepted by check, and refused by compile with fault {self.number}" if self.by == "compile" else "Refused"
            if any(map(REPEATED.fullmatch, self.broken)):
                said.append(filled(MANY))
            said += [f"{refused}, at {self.breaks}:", indented(self.broken), "Mended, and accepted:", indented(self.whole)]
        return "\n\n".join(said) + "\n"

    def constant(self):
        """Returns the name of the constant with the code's page."""
        return re.sub(r"(?<=[a-z])(?=[A-Z])|(?<=A)(?=Place)", "_", self.name).upper()

    def row(self):
        """Returns the code's row of the table in docs/LANGUAGE.md."""
        parts = self.parts()
        if parts is None:
            smallest = self.text
        else:
            smallest = " and then ".join(words_of(*part) for part in parts if part[0]) or "the empty text"
            smallest += f", at {self.at}"
        if self.by == "compile":
            smallest += "; `compile` alone refuses it"
        return f"| {self.number} | {self.meaning} | {self.place} | {smallest} |\n"


class Habit:
    """A habit of the table in docs/habits.txt."""

    def __init__(self, name):
        self.name = name

    def row(self, names):
        """Returns the row that the table in the code must have for the habit, with names of codes instead of numbers."""
        return names[int(self.code)], listed(self.before), listed(self.at), listed(self.expected), self.hint

    def source(self):
        """Returns the text that is rejected because of the habit."""
        return characters(self.text).encode("utf-8")


def filled(words):
    return textwrap.fill(words, WIDTH, break_on_hyphens=False)


def indented(lines):
    return "\n".join("    " + line if line else "" for line in lines)


def repeated(lines):
    """Returns the source text that the lines on a page denote, with repeated lines expanded."""
    found = []
    for line in lines:
        match = REPEATED.fullmatch(line)
        found += [match[1].replace("#", str(copy + 1)) for copy in range(int(match[2]))] if match else [line]
    return "".join(line + "\n" for line in found).encode("ascii")


def listed(words):
    """Returns a list of words of the table: each in brackets, or the kind that replaces them."""
    return [words] if words in KINDS else [characters(word) for word in re.findall(r"\[(.+?)\](?= \[|$)", words)]


def characters(words):
    """Replaces each Unicode escape in a text by its character."""
    return re.sub(r"\\u\{(\w+)\}", lambda found: chr(int(found[1], 16)), words)


def words_of(piece, times):
    """Returns the description of a repeated piece of a text for readers."""
    if times == 1:
        return f"`` {piece} ``" if "`" in piece else f"`{piece}`"
    if "#" in piece:
        return f"`{piece.replace('#', '1')}` to `{piece.replace('#', str(times))}`"
    return f"{times:,} " + ("spaces" if piece == " " else f"times `{piece}`")


def content(path):
    with open(path, encoding="utf-8") as file:
        return file.read()


def codes():
    """Returns the codes of the table."""
    found, lines = [], []
    for line in content(TABLE).split("\n"):
        word, _, rest = line.partition(" ")
        if line.startswith(LINE):
            lines.append(line[len(LINE):])
        elif word.isdigit():
            found.append(Code(word, rest.strip()))
        elif word in FIELDS:
            setattr(found[-1], word, rest.strip())
            if word in ("breaks", "mended"):
                lines = []
                setattr(found[-1], "broken" if word == "breaks" else "whole", lines)
        elif line and not line.startswith("#"):
            sys.exit(f"{TABLE}: no field is called {word}")
    for code in found:
        code.by = getattr(code, "by", "check")
    return found


def habits():
    """Returns the habits of the table."""
    found = []
    for line in content(HABITS).split("\n"):
        word, _, rest = line.partition(" ")
        if word == "habit":
            found.append(Habit(rest.strip()))
        elif word in HABIT_FIELDS:
            setattr(found[-1], word, rest.strip())
        elif line and not line.startswith("#"):
            sys.exit(f"{HABITS}: no field is called {word}")
    for habit in found:
        habit.expected = getattr(habit, "expected", "any")
    return found


def faults_of_habits(found, kinds):
    """Returns the differences between the table in the code and that of the habits."""
    names = {kind.number: kind.name for kind in kinds}
    code = content(HABITS_CODE)
    lines = dict(re.findall(r'^const (\w+): &str = "\\\n(.*?)";\n', code, re.M | re.S))
    written = []
    for kind, constant in re.findall(r"Code::(\w+) => (\w+),", code):
        for line in re.sub(r"\\(.)", r"\1", characters(lines.pop(constant))).split("\n"):
            before, at, expected, hint = line.split(" ~~ ")
            written.append((kind, before.split("~"), at.split("~"), expected.split("~"), hint))
    wanted = [habit.row(names) for habit in found]
    faults = [suite.difference("a row", one, other) for one, other in zip(wanted, written) if one != other]
    faults += [suite.difference("rows of no code", [], name) for name in lines]
    return faults or ([] if len(wanted) == len(written) else ["the tables are not of one length"])


def faults_of_habit(habit, program, folder):
    """Returns the differences between the expected and the actual diagnostics on a habit's text."""
    source = os.path.join(folder, "habit.cyc")
    with open(source, "wb") as file:
        file.write(habit.source())
    done = suite.said([program, "check", source])
    wanted = [f"    hint: {habit.hint}", f"fault {habit.code} at {habit.place}"]
    return [suite.difference(habit.text, wanted, done[-2:])] if done[-2:] != wanted else []


def faults_of_docstrings(found):
    """Returns the differences between docs/codes.txt and the doc comments in the code."""
    body = content(FAULTS).split("pub enum Code {\n")[1].split("\n}\n")[0]
    written, words = {}, []
    for line in body.split("\n"):
        line = line.strip()
        if line.startswith("///"):
            words.append(line[3:].strip())
        else:
            name, number = re.fullmatch(r"(\w+) = (\d+),", line).groups()
            written[name] = (int(number), " ".join(words))
            words = []
    wanted = {code.name: (code.number, f"{code.meaning}. Place: {code.place}.") for code in found}
    return differences(wanted, written)


def faults_of_advice(found):
    """Returns the differences between docs/codes.txt and the program's messages and hints."""
    faults = []
    for path, function, field in ((ADVICE, "meaning", "message"), (ADVICE, "hint", "hint"), (NAMED, "named", "line")):
        body = content(path).split(f"fn {function}(")[1].split("\n}\n")[0]
        written = dict(re.findall(r'Code::(\w+) =>\s*"([^"]*)",', body))
        faults += differences({code.name: getattr(code, field) for code in found if hasattr(code, field)}, written)
    return faults


def differences(wanted, written):
    """Returns the names for which two tables differ."""
    names = sorted(wanted.keys() | written.keys())
    pairs = [(name, wanted.get(name), written.get(name)) for name in names]
    return [suite.difference(*pair) for pair in pairs if pair[1] != pair[2]]


def table_of(text):
    """Splits a document at its table of codes: the text before, the table, and the text after."""
    before, behind = text.split(HEAD)
    rows, rest = behind.split("\n\n", 1) if "\n\n" in behind else (behind[:-1], None)
    return before, HEAD + rows + "\n", "" if rest is None else "\n" + rest


def table_for(found):
    return HEAD + "".join(code.row() for code in found)


def faults_of_language(found):
    """Returns the differences between docs/codes.txt and docs/LANGUAGE.md."""
    _, table, _ = table_of(content(LANGUAGE))
    wanted, got = table_for(found).split("\n"), table.split("\n")
    faults = [suite.difference("a row", one, other) for one, other in zip(wanted, got) if one != other]
    return faults or ([] if wanted == got else ["the tables are not of one length"])


def faults_of_text(code, text, place, program, folder):
    """Returns a fault unless a text is rejected with a code at a place, or accepted if no place is given."""
    source = os.path.join(folder, "text.cyc")
    with open(source, "wb") as file:
        file.write(text)
    done = (b"", "done", 0)
    refusal = (b"", f"fault {code.number} at {place}", 2) if place else done
    checked = suite.answer([program, "check", source])
    compiled = suite.answer([program, "compile", source, "-o", os.path.join(folder, "text.elf")])
    expected = [
        ("check", done if code.by == "compile" else refusal, checked),
        ("compile", refusal, compiled),
    ]
    return [suite.difference(what, wanted, got) for what, wanted, got in expected if wanted != got]


def faults_of_code(code, program, folder):
    """Returns the faults of the texts of a code and of its page."""
    wanted, got = (code.page().encode("ascii"), "done", 0), suite.answer([program, "explain", str(code.number)])
    faults = [] if wanted == got else [suite.difference("explain", wanted, got)]
    if code.parts() is not None:
        faults += faults_of_text(code, code.source(), code.at, program, folder)
        faults += faults_of_text(code, repeated(code.broken), code.breaks, program, folder)
        faults += faults_of_text(code, repeated(code.whole), None, program, folder)
    return faults


def literal(text):
    return text.replace("\\", "\\\\").replace('"', '\\"')


def part_of(code):
    """Returns the part of the pages that contains a code's page."""
    return next(part for part, (end, _) in PARTS.items() if code.number < end)


def pages_in_code(found):
    """Returns the files with pages in the program, by path."""
    modules = [f"mod {part};\n" for part in sorted(PARTS)]
    arms = [f"        Code::{code.name} => {part_of(code)}::{code.constant()},\n" for code in found]
    files = {PAGES: PAGES_HEAD + "".join(modules) + PAGES_FUNCTION + "".join(arms) + "    }\n}\n"}
    for part, (_, kept) in PARTS.items():
        constants = [f'\npub(super) const {code.constant()}: &str = "\\\n{literal(code.page())}";\n' for code in found if part_of(code) == part]
        files[os.path.join(PAGES.removesuffix(".rt"), part + ".rt")] = f"//! The pages of {kept}.\n{MADE}" + "".join(constants)
    return files


def book(found):
    """Returns the document with all pages."""
    return BOOK_HEAD + "".join(f"\n## {code.number}: {code.message}\n\n{indented(code.page().splitlines())}\n" for code in found)


def faults_of_file(path, wanted):
    """Returns the difference between a generated file and the table."""
    lines, wanted = content(path).split("\n"), wanted.split("\n")
    faults = [suite.difference("a line", one, other) for one, other in zip(wanted, lines) if one != other]
    return faults[:1] or ([] if len(wanted) == len(lines) else ["the pages are not of one length"])


def faults_of_version(program):
    """Returns a fault unless the program names the logic of the toolchain that proved and built it. Toolchains with one logic prove the
    same."""
    told = subprocess.run(["rt", "--version"], check=True, capture_output=True, text=True).stdout
    wanted = re.search(r"logic \w+", told)[0]
    got = subprocess.run([program, "--version"], capture_output=True, text=True).stdout
    return [] if wanted in got.split("\n")[0] else [suite.difference("the toolchain", wanted, got)]


def main():
    parser = suite.command_line(__doc__)
    parser.add_argument("--write", action="store_true")
    options = parser.parse_args()
    found = codes()
    if options.write:
        before, _, behind = table_of(content(LANGUAGE))
        for path, text in ((LANGUAGE, before + table_for(found) + behind), *pages_in_code(found).items(), (BOOK, book(found))):
            with open(path, "w", encoding="utf-8") as file:
                file.write(text)
        return
    usual = habits()
    files = [
        (FAULTS, faults_of_docstrings),
        (ADVICE, faults_of_advice),
        (LANGUAGE, faults_of_language),
        *((path, lambda _, path=path, text=text: faults_of_file(path, text)) for path, text in pages_in_code(found).items()),
        (BOOK, lambda found: faults_of_file(BOOK, book(found))),
    ]
    program = suite.program_of(options, len(files) + 2 + len(found) + len(usual))
    suite.need(["rt"], len(files) + 2 + len(found) + len(usual))
    with tempfile.TemporaryDirectory(prefix="cyclone-codes-") as folder:
        things = [(os.path.relpath(path), lambda compare=compare: compare(found)) for path, compare in files]
        things += [(os.path.relpath(HABITS_CODE), lambda: faults_of_habits(usual, found))]
        things += [("the toolchain that --version names", lambda: faults_of_version(program))]
        things += [(f"code {code.number}", lambda code=code: faults_of_code(code, program, folder)) for code in found]
        things += [(habit.name, lambda habit=habit: faults_of_habit(habit, program, folder)) for habit in usual]
        suite.try_each(things, lambda thing: thing[0], lambda thing: thing[1]())


if __name__ == "__main__":
    main()

"""The lists of `claims.py`: the words of documents that come from outside, and the counts that documents have."""
import collections
import functools
import glob
import os
import re

import suite  # first: it makes the tools importable
import declared
import facts
import trusted

# Words in code spans that are of no file of the tree: of tools, of C and of other systems.
OUTSIDE = set("""
tidy --fail-alloc dac8208d650f15bf
no_new_privs fdinfo serde_json indexmap buffered
rotr PT_NOTE cnext
copy_P is_point Outer
""".split())

Count = collections.namedtuple("Count", "document pattern number")


def is_same(said, number):
    """Returns true if a word or a numeral is this number."""
    return said.lower() == facts.spelled(number, said).lower() or said == f"{number}" or (said, number) == ("hundred", 100)


def lines(path, pattern):
    """Returns the number of lines of a file that match a pattern."""
    return len(re.findall(pattern, facts.content(path), re.M))


def in_folder(pattern):
    """Returns the number of files whose paths match a pattern."""
    return len(glob.glob(os.path.join(suite.ROOT, pattern)))


@functools.cache
def constant(path, name):
    """Returns the value of a constant in a file of code or of a test."""
    found = re.search(rf"\b{name}\b(?:: \w+)?(?:, [\w, ]+)? = ([\d_]+)", facts.content(path))
    return int(found[1].replace("_", ""))


def default_of(script, option="count"):
    """Returns the number that a script takes where an option is left out."""
    found = re.search(rf'"--{option}", type=int, default=([\w.]+)', facts.content(f"tests/runners/{script}.py"))[1]
    return int(found) if found[0].isdigit() else constant(f"tests/runners/{script}.py", found)


def checker_crates():
    """Returns the number of the crates of the checker of types, which stand in a row."""
    names = facts.crates()
    return names.index("cyc_check") - names.index("cyc_scope") + 1


def libraries():
    """Returns the number of ported libraries on which crates stand."""
    ours = set(facts.crates())
    return len({below for belows in declared.stands_on(suite.ROOT).values() for below in belows} - ours)


def section(path, head):
    """Returns the text of a section of a document."""
    text = facts.content(path)
    start = re.search(rf"(?m)^## {head}.*$", text).end()
    return re.split(r"(?m)^## ", text[start:])[0]


CONSTANTS = "crates/cyc_machine_model/src/constants.rt"
TABLE, TREE = "crates/cyc_isa/specs/Table.antt", "crates/cyc_isa/src/instr.rt"
TESTS, ANY = "tests/README.md", "*"
COUNTS = [
    # The parts of the tree.
    Count(ANY, r"last of (\w+) crates: `cyc_scope`", checker_crates),
    Count(ANY, r"`check`, which has (\w+) \(`cyc_scope`", checker_crates),
    Count(ANY, r"The checker is (\w+) crates", checker_crates),
    Count(ANY, r"(\w+) programs with a line each", lambda: in_folder("examples/*.cyc")),
    Count(ANY, r"the (\w+) ported libraries", libraries),
    Count("README.md", r"a screen for each of (\w+) readers", lambda: lines("README.md", r"^## To ")),
    Count("CONTRIBUTING.md", r"## (\w+) loops", lambda: section("CONTRIBUTING.md", r"\w+ loops").count("\n| ") - 1),
    Count("CONTRIBUTING.md", r"## (\w+) changes", lambda: section("CONTRIBUTING.md", r"\w+ changes").count("\n### ")),
    Count(ANY, r"(\w+) instructions in \d+ formats", lambda: lines(TABLE, r'\bcodes? "')),
    Count(ANY, r"instructions in (\w+) formats", lambda: len(re.findall(r"(?m)^    [A-Z]\w*(?: \{|\(|,)", declared.type_named("cyc_isa", "Instr")))),
    Count(ANY, r"(?:its|The) (\w+) services", lambda: sum(constant(CONSTANTS, name) > 0 for name in
          ("OPEN_LEXICAL", "CLOSE_LEXICAL", "OPEN_DYNAMIC", "CLOSE_DYNAMIC", "ALLOCATE", "FREE"))),
    Count(ANY, r"are the (\w+) parts of its contract", lambda: lines("crates/cyc_words/specs/Decision.antt", r"^  pub \w+ : ")),
    Count(ANY, r"(\w+) functions (?:use the raw pointer|of a line each)", lambda: raw_functions()),
    # The limits.
    Count(ANY, r"\b(\d+) to [\d,]+ pages", lambda: constant(CONSTANTS, "MIN_PAGES")),
    Count(ANY, r"\b\d to ([\d,]+) pages", lambda: constant(CONSTANTS, "MAX_PAGES")),
    Count(ANY, r"(\d+) pages at least", lambda: constant(CONSTANTS, "MIN_PAGES")),
    Count(ANY, r"\b1 to ([\d,]+) calls", lambda: constant(CONSTANTS, "MAX_CALLS")),
    Count(ANY, r"at most ([\d,]+) pages", lambda: constant(CONSTANTS, "MAX_PAGES")),
    Count(ANY, r"text has at most ([\d,]+) tokens", lambda: constant("crates/cyc_lex/src/lexer.rt", "MAX_TOKENS")),
    Count(ANY, r"([\d,]+) bytes, [\d,]+ tokens", lambda: constant("crates/cyc_lex/src/lexer.rt", "MAX_BYTES")),
    Count(ANY, r"frames? of (?:at most )?(\d+) words", lambda: constant(CONSTANTS, "WORDS_PER_CALL")),
    Count("docs/TRUSTED.md", r"the gate allows ([\d,]+) lines by name", lambda: trusted.MOST_BY_NAME),
    Count("docs/TRUSTED.md", r"lines by name, in (\d+) files", lambda: trusted.MOST_FILES),
    Count("docs/TRUSTED.md", r"lines by name, in \d+ files of ([\d,]+) lines", lambda: trusted.MOST_LINES),
    # The suites.
    Count(TESTS, r"(\w+) submissions \(`judged/submissions`", lambda: lines("tests/judged/verdicts.txt", r"^== ")),
    Count(TESTS, r"At last ([\d,]+) submissions", lambda: default_of("judged")),
    Count(TESTS, r"a (\w+) mistakes of those", lambda: lines("tests/cases/mistakes.cases", r"^\? ")),
    Count(TESTS, r"([\d,]+) where it is left out, and a quarter", lambda: default_of("differential")),
    Count(TESTS, r"random ones, ([\d,]+) where it is left out", lambda: default_of("images")),
    Count(TESTS, r"Of the examples and of ([\d,]+) random programs", lambda: default_of("warned")),
    Count(TESTS, r"Of ([\d,]+) random programs of all profiles, and", lambda: default_of("formatted")),
    Count(TESTS, r"into ([\d,]+) random programs of all profiles a mistake", lambda: default_of("whereabouts")),
    Count(TESTS, r"of each example and of ([\d,]+) random programs", lambda: default_of("bounded")),
    Count("docs/PLACES.md", r"on ([\d,]+) random programs, with mistakes", lambda: default_of("whereabouts")),
    Count(TESTS, r"`--count N` random programs, (\d+) by default", lambda: default_of("edited")),
    Count(TESTS, r"([\d,]+) runs from \d+ connections", lambda: constant("tests/runners/served.py", "LOADED")),
    Count(TESTS, r"a stack of (\d+) MB", lambda: suite.STACK),
    Count(TESTS, r"may take (\d+) seconds of processor", lambda: suite.SECONDS),
    Count(TESTS, r"and (\d+) times as long if other work", lambda: suite.CLOCK),
]


def raw_functions():
    """Returns the number of functions of the pool of pages that use its raw pointer."""
    text = declared.files("cyc_rawpages")[os.path.join("crates", "cyc_rawpages", "src", "cells.rt")]
    return sum("unsafe {" in it or "alloc.allocate(" in it for it in re.split(r"\bfn \w+", text)[1:])

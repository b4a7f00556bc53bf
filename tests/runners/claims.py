#!/usr/bin/env python3
"""Compares what the documents claim with the tree: names, the crates of names, contracts and counts.

    python3 tests/runners/claims.py [--list] [DOCUMENT ..]

1. Each name in a code span is a word of the tree: of code without its comments, of a test, a tool, an example or a file's name. In the
   document of a crate a name of a crate's code is one of this crate, of those below it, or of those that the paragraph names. Words from
   outside, as of other tools, are in `claimed.OUTSIDE`, and each of them must be needed.
2. Where a sentence says whose a name is, as "`name` of `crate`", the crate has that name.
3. What a document calls a contract has one: the function is there with `ensures`, and so are clauses and laws that are named. This is asked
   of the contracts in the first lines of a crate's document, of the rows and sections of docs/GUARANTEES.md, of the paragraphs of
   docs/TRUSTED.md, and of sentences. What promises nothing, by a document, has no `ensures`.
4. Counts are those of the tree (`claimed.COUNTS`), and lists of suites, of examples and of crates with decisions are whole.
5. In manual pages an entry begins as one, and options are the program's.

--list prints each claim. The last line is `N passed, M failed`, of the claims.
"""
import argparse
import collections
import fnmatch
import functools
import os
import re
import sys

import suite  # first: it makes the tools importable
import claimed
import declared
import documents
import facts
import places
import trusted

# The parts of the tree whose words count beside those of the crates, and what is in them and is no word of the tree: documents and manual
# pages, the lists of this suite, and the texts of its self test.
FOLDERS = ("tests", "tools", "examples", "lib", "bench", "editors", "docs")
LEFT_OUT = ("claims.py", "claimed.py", "claims_tried.py")
NO_TEXT = (".md", ".1", ".png", ".svg", ".elf", ".pyc")
GUARANTEES, TRUSTED = "docs/GUARANTEES.md", "docs/TRUSTED.md"
# The crate that passes on the product's calls: its document names all that have a contract.
WHOLE = "cyc_system"

# A word; dots beside it stand for any letters, as in `check_..`, and one in capitals alone, as OFFSET, for what a person writes there.
WORD = re.compile(r"(?:(?<=\.\.)|(?<![\w'\\.-])|(?<=[^.\w'\\-]\.)|(?<=\w\.))[^\W\d][\w'-]+(?:\.\.)?")
GAP = re.compile(r"[A-Z]+")
OPTION = re.compile(r"(?<![\w-])--[a-z][\w-]*")
FILE = re.compile(r"[\w*-][\w*./-]*\.(?:py|rt|antt|cases|sums|dialog|programs)\b")
COMMAND = re.compile(r"^(cyclone|make) ([a-z][\w-]*)")
IN_CRATE = re.compile(r"(?<![\w/.-])(?:src|specs|proofs)/[\w*./-]+")
# A name that only code has: it has an underscore or a capital within.
OF_CODE = re.compile(r"[^\W\d]\w*_\w[\w'-]*|[A-Z]\w*[a-z]\w*[A-Z][\w'-]*|[a-z]+[A-Z]\w*")
PATH = re.compile(r"[^\W\d][\w'-]*(::[^\W\d][\w'-]*)*")
SPAN, CRATE = r"`([^`]+)`", r"`(cyc_\w+|cyclone)`"
LIST, PAIR = (rf"(?:`[^`]+`(?:{between}))*`[^`]+`" for between in (", and |, or |, | and | or ", " and | or "))
# The forms of a sentence that says whose names are, and whether the crate comes first.
OWNERS = (
    (re.compile(rf"({PAIR}),? (?:of|in) {CRATE}"), False),
    (re.compile(rf"(`[^`]+`) \({CRATE}\)"), False),
    (re.compile(rf"{CRATE}'s (`[^`]+`)"), True),
    (re.compile(rf"{CRATE}(?: \([\w ]+\))?: ((?:`[^`]+`(?:, and |, | and | \.\. ))*`[^`]+`)"), True),
)
IN_MODULE = re.compile(r"`([^`]+)`,? (?:of|in) `([A-Z]\w+)`")
LAW = re.compile(rf"\blaws? (?:of \w+ )?({LIST})|`(laws::\w+)`")
CONTRACT = re.compile(rf"\b[Cc]ontracts? of (?:all that )?({LIST})")
CLAUSE = re.compile(rf"\b[Cc]lauses? (?:of its own )?\(?({LIST})")

# A claim: the line of its paragraph, what is claimed, and what is wrong about it, or None.
Claim = collections.namedtuple("Claim", "line what fault")


# ---- the words of the tree


@functools.cache
def outside():
    """Returns the words, the options and the names of files of the tree outside the crates. Of wrong bodies only the names count."""
    words, options, names = set(), set(), set()
    for path in tree_files():
        name = os.path.basename(path)
        names.add(name)
        if name in LEFT_OUT or name.endswith(NO_TEXT):
            continue
        with open(os.path.join(suite.ROOT, path), encoding="utf-8", errors="replace") as file:
            text = file.read()
        if path.startswith("tests/wrong/"):
            text = "\n".join(re.findall(r"(?m)^== (.*)$", text))
        words |= declared.words_in(text)
        options |= set(OPTION.findall(text.replace("\\-", "-")))
    parts = {part for path in tree_files() for part in path.replace(".", os.sep).split(os.sep)}
    return words | parts, options, names


@functools.cache
def tree_files():
    """Returns the files of the tree outside the crates, and their own documents, by their paths."""
    found = [name for name in os.listdir(suite.ROOT) if os.path.isfile(os.path.join(suite.ROOT, name))]
    for folder in FOLDERS:
        for where, folders, names in os.walk(os.path.join(suite.ROOT, folder)):
            folders[:] = sorted(name for name in folders if name not in ("out", "__pycache__"))
            found += [os.path.relpath(os.path.join(where, name), suite.ROOT) for name in sorted(names)]
    return found


@functools.cache
def crates():
    return tuple(facts.crates())


@functools.cache
def file_names():
    """Returns the names of all files."""
    return outside()[2] | {os.path.basename(path) for crate in crates() for path in declared.files(crate)}


@functools.cache
def words_of(these):
    """Returns the words of these crates."""
    return set().union(*(declared.words(crate) for crate in these))


@functools.cache
def commands():
    """Returns the commands of the program and the targets of the Makefile. A file of places begins like a command."""
    program = re.findall(r'(?m)^        name: "(\w+)"', facts.content("crates/cyc_cli/src/commands.rt"))
    targets = " ".join(re.findall(r"(?m)^([a-z][a-z -]*):", facts.content("Makefile"))).split()
    return {f"cyclone {name}" for name in [*program, "help", "places"]} | {f"make {name}" for name in targets}


@functools.cache
def paths_of(crate):
    """Returns the paths of a crate's files from its folder, with and without their endings, and those of its folders."""
    found = set()
    for path in declared.files(crate):
        parts = path.split(os.sep)[2:]
        found |= {"/".join(parts[:count]) for count in range(1, len(parts) + 1)} | {"/".join(parts).rsplit(".", 1)[0]}
    return found


def has_path(crate, path):
    """Returns true if a crate has a path, in which a star or two dots stand for any letters."""
    pattern = path.replace("..", "*").rstrip("/.")
    return bool(fnmatch.filter(paths_of(crate), pattern)) if "*" in pattern else pattern in paths_of(crate)


def is_file(name):
    """Returns true if a file has this name, in which stars, and words in capitals alone, stand for any letters."""
    pattern = re.sub(r"\b[A-Z]+(?=\.)", "*", os.path.basename(name))
    return any(fnmatch.fnmatch(there, pattern) for there in file_names())


def is_word(word, these):
    """Returns true if a word stands in the tree outside the crates, or in one of these crates, or if some word there begins or ends so."""
    forms = {word, word.rstrip("'-")}
    if word.endswith(".."):
        return any(there.startswith(word[:-2]) for there in words_of(these) | outside()[0])
    if word.startswith("_"):
        return any(there.endswith(word) for there in words_of(these) | outside()[0])
    return any(form in outside()[0] or form in words_of(these) for form in forms)


# ---- the names in code spans


def named_crates(text):
    return [crate for crate in re.findall(CRATE, text) if crate in crates()]


def speaks_of(path, paragraph):
    """Returns the crates whose names a paragraph may use: all, or in a crate's document it, those below, and those that are named."""
    own = places.DOCUMENT.fullmatch(path)
    if not own:
        return crates()
    return tuple(sorted({below for crate in [own[1], *named_crates(paragraph)] for below in declared.below(crate)}))


def names_in(span):
    """Returns the names in a code span: commands, options, paths, files, and words that stand in no text between quotation marks."""
    text = re.sub(r"\"[^\"]*\"|'(?:[^'\\]|\\.)*'", " ", span)
    found = [("command", " ".join(words)) for words in COMMAND.findall(span)] + [("option", name) for name in OPTION.findall(text)]
    text = OPTION.sub(" ", text)
    found += [("path", name) for name in IN_CRATE.findall(text)]
    found += [("file", name) for name in FILE.findall(text)]
    return found + [("word", name) for name in WORD.findall(FILE.sub(" ", text))]


# What is said of a name that is not there.
ABSENT = {"command": "there is no command", "option": "no command has the option", "path": "no crate has", "file": "there is no file",
          "word": "nothing in the tree is called"}


def is_known(kind, name, these):
    """Returns true if the tree has a command, an option, a path in a crate, a file or a word of this name."""
    if kind == "command":
        return name in commands()
    if kind == "option":
        return name in outside()[1]
    if kind == "path":
        return any(has_path(crate, name) for crate in these)
    return is_file(name) if kind == "file" else GAP.fullmatch(name) is not None or is_word(name, crates())


def fault_of_name(kind, name, these):
    if name in claimed.OUTSIDE:
        return None
    if not is_known(kind, name, these):
        return f"{ABSENT[kind]} {name}"
    if kind == "word" and OF_CODE.fullmatch(name) and not is_word(name, these):
        return f"{name} stands neither in this crate nor in those below it, and the paragraph names no other"
    return None


def claims_of_names(path, text):
    """Returns a claim for each name of a document; a name that stands there more than once counts once."""
    seen = set()
    for line, paragraph in places.paragraphs(text):
        these = speaks_of(path, paragraph)
        for kind, name in [pair for span in documents.code_spans(paragraph)[0] for pair in names_in(span)]:
            fault = fault_of_name(kind, name, these)
            if fault or name not in seen:
                seen.add(name)
                yield Claim(line, f"the {kind} {name}", fault)


def needed_outside():
    """Returns the names that stand in documents and not in the tree."""
    found = set()
    for path in documents.documents():
        for _, paragraph in places.paragraphs(facts.content(path)):
            for kind, name in [pair for span in documents.code_spans(paragraph)[0] for pair in names_in(span)]:
                if not is_known(kind, name, crates()):
                    found.add(name)
    return found


# ---- whose names are


def spans_in(text):
    return re.findall(SPAN, text)


def fault_of_owner(crate, name):
    if crate not in crates():
        return f"there is no crate {crate}"
    if PATH.fullmatch(name):
        return None if name.split("::")[-1] in declared.names(crate) else f"{crate} has no {name}"
    if re.fullmatch(r"[\w*.-]+(/[\w*.-]+)+/?", name):
        return None if places.is_there(crate, name) else f"{crate} has no {name}"
    return None


def claims_of_owners(path, text):
    """Returns a claim for each name that a sentence gives to a crate or to a file of definitions."""
    for line, paragraph in places.paragraphs(text):
        for pattern, crate_first in OWNERS:
            for one, other in pattern.findall(paragraph):
                crate, names = (one, other) if crate_first else (other, one)
                for name in spans_in(names):
                    if name not in crates():
                        yield Claim(line, f"{name} of {crate}", fault_of_owner(crate, name))
        for name, module in IN_MODULE.findall(paragraph):
            files = declared.modules(module)
            if files and PATH.fullmatch(name):
                has = any(name.split("::")[-1] in declared.names_in(file, declared.files(file.split(os.sep)[1])[file]) for file in files)
                yield Claim(line, f"{name} in {module}", None if has or is_part_of(module, name) else f"{module} has no {name}")


def is_part_of(module, name):
    """Returns true if a type of this name has a part or a method of that name: "`ends` of `Reader`" is said of no file."""
    return any(declared.type_named(crate, module) is not None and (name in declared.type_named(crate, module)
               or any(it.name == name for it in declared.methods_of(crate, module))) for crate in crates())


# ---- contracts


def claims_of_head(path, text):
    """Returns a claim for each contract in the first lines of a crate's document."""
    own = places.DOCUMENT.fullmatch(path)
    if not own:
        return
    for line, paragraph in places.paragraphs(text):
        if paragraph.startswith("- Contract: "):
            for part in re.split(r"; ", paragraph.removeprefix("- Contract: ")):
                yield from claims_of_part(line, own[1], part)
            if own[1] == WHOLE:
                calls = sorted(name for name in declared.passed_on(WHOLE) if name[0].islower() and fault_of_law(name))
                for name in [name for name in calls if declared.is_promised(WHOLE, name)]:
                    yield Claim(line, f"the contract of {name}", None if f"`{name}`" in paragraph else f"{name} is not named, and has a contract")
            return


def claims_of_part(line, crate, part):
    if part.strip() == "none":
        promised = sorted({it.name for it in declared.functions(crate) if it.public and it.ensures})
        yield Claim(line, f"{crate} has no contract", f"{crate} has contracts: {', '.join(promised)}" if promised else None)
    if re.search(r"\blaws\b", part):
        yield Claim(line, f"{crate} has laws", None if declared.laws(crate) else f"{crate} has no laws")
    # What stands after `which` or `of which` says more of the names before it.
    for name in spans_in(re.split(r",? (?:of )?which ", part)[0]):
        if name not in crates():
            yield Claim(line, f"a contract of {name}", fault_of_contract(crate, name, "of which nothing is promised" not in part))


def fault_of_contract(crate, name, is_wanted=True):
    if not declared.named(crate, name) and declared.type_named(declared.home(crate, name), name) is None:
        return f"{crate} has no {name}"
    if declared.is_promised(crate, name) != is_wanted:
        return f"{name} of {crate} has " + ("no `ensures`" if is_wanted else "a contract, and nothing should be promised of it")
    return None


def claims_of_rows(path, text):
    """Returns a claim for each contract in the table at the beginning of docs/GUARANTEES.md."""
    if path != GUARANTEES:
        return
    for line, paragraph in places.paragraphs(text):
        cells = paragraph.split(" | ")
        if paragraph.startswith("| ") and len(cells) == 4:
            for crate, names in re.findall(rf"{CRATE}(?: \([\w ]+\))?: ((?:`[^`]+`(?:, | \.\. |(?=[;, |]|$)))+)", cells[2]):
                for name in spans_in(names):
                    if name not in crates():
                        yield Claim(line, f"a contract of {name} of {crate}", fault_of_contract(crate, name))


def claims_of_sentences(path, text):
    """Returns a claim for each function, law and clause that a sentence calls so."""
    for line, paragraph in places.paragraphs(text):
        these = set(named_crates(paragraph)) | set(places.DOCUMENT.findall(path)) | set(headed(path, text, line)) or set(crates())
        for one, other in LAW.findall(paragraph):
            for name in spans_in(one) or [other]:
                if PATH.fullmatch(name):
                    yield Claim(line, f"the law {name}", fault_of_law(name.split("::")[-1]))
        for names in CONTRACT.findall(paragraph):
            for name in spans_in(names):
                if PATH.fullmatch(name) and name not in crates():
                    has = any(declared.named(crate, name) and declared.is_promised(crate, name) for crate in crates())
                    yield Claim(line, f"the contract of {name}", None if has else f"no {name} has `ensures`")
        for names in CLAUSE.findall(paragraph):
            for name in spans_in(names):
                if re.fullmatch(r"[a-z]\w*", name):
                    yield Claim(line, f"the clause {name}", fault_of_clause(name, these))


def headed(path, text, line):
    """Returns the crates that the nearest heading above a line names, with those between the two of a range."""
    head = [it for it in text.split("\n")[:line] if it.startswith("## ")]
    found = named_crates(head[-1]) if head and path in (GUARANTEES, TRUSTED) else []
    if len(found) == 2 and "` to `" in head[-1]:
        return crates()[crates().index(found[0]):crates().index(found[1]) + 1]
    return found


def fault_of_law(name):
    there = any(it.name == name for crate in crates() for it in declared.laws(crate))
    return None if there else f"there is no law {name}"


def fault_of_clause(name, these):
    """Returns a fault if no contract of these crates, and no record of those below, has a part of this name."""
    for crate in these:
        if any(name in it.ensures for it in declared.functions(crate)) or any(name in declared.names(below) for below in declared.below(crate)):
            return None
    return f"no contract has a clause {name}"


def claims_of_sections(path, text):
    """Returns a claim for each name of code in a section of docs/GUARANTEES.md that is headed by crates: one of them has it, or one below
    them, or one that the paragraph names."""
    if path != GUARANTEES:
        return
    for line, paragraph in places.paragraphs(text):
        heads = headed(path, text, line)
        if not heads or paragraph.startswith("#"):
            continue
        these = tuple(sorted({below for crate in [*heads, *named_crates(paragraph)] for below in declared.below(crate)}))
        for name in dict.fromkeys(it for it in spans_in(paragraph) if PATH.fullmatch(it) and it not in crates()):
            last = name.split("::")[-1]
            if "::" in name or OF_CODE.fullmatch(last):
                has = any(last in declared.names(crate) for crate in these) or is_word(last, ())
                yield Claim(line, f"{name} in the section on {heads[0]}", None if has else f"no crate of this section has {name}")


def claims_of_calls(path, text):
    """Returns a claim for each definition by which a paragraph of docs/TRUSTED.md says what a call or a law promises: it means that."""
    if path != TRUSTED:
        return
    readings = {owner and f"{owner}::{name}" or name: (trusted.reading_of, name, crate, owner) for _, name, crate, owner in trusted.CALLS}
    readings |= {name: (trusted.law_reading, name, crate) for _, crate in trusted.LAWS for name in trusted.laws_of(crate)}
    for line, paragraph in places.paragraphs(text):
        bold = [name for name in re.findall(r"\*\*`([\w:]+)[^`]*`\*\*", paragraph) if name in readings]
        groups = re.findall(r"\(([^()]*`[^()]*)\)", paragraph)
        said = [it for group in groups for it in spans_in(group) if re.fullmatch(r"[A-Z]\w*[a-z]\w*", it)]
        if bold and said:
            meant = set().union(*(definitions_of(reading(*words)) for reading, *words in map(readings.get, bold)))
            for name in said:
                fault = None if name in meant else f"the contract of {', '.join(bold)} does not mean {name}"
                yield Claim(line, f"{name} of {bold[0]}", fault)


def definitions_of(reading):
    """Returns the names of the definitions that a reading means, with those of their parts, and the names in its files of types."""
    reached, found = reading.meaning.reached, set()
    for path in {path for path, _ in reached}:
        found |= {name for name, it in reading.meaning.file(path).names.items() if (path, it.name) in reached}
    for file in reading.types:
        found |= declared.names_in(file, declared.without_comments(trusted.content(file), file))
    return found


# ---- counts, and lists of what is there


def claims_of_lists(path, text):
    """Returns a claim for each suite, which tests/README.md has to tell of, for each example, which has a row, and for each crate with
    decisions, which docs/DECISIONS.md has to name."""
    if path == "tests/README.md":
        suites = [line.split("|") for line in facts.content("tests/suites.txt").splitlines() if not line.startswith("#")]
        for script in dict.fromkeys(cells[3].split()[0] for cells in suites):
            has = f"- **`{script}`**" in text and re.search(rf"(?m)^\|.*\| `{re.escape(script)}`", text)
            yield Claim(1, f"the suite {script}", None if has else f"there is no paragraph or no question for {script}")
    if path == "examples/README.md":
        for name in sorted(os.path.basename(it) for it in tree_files() if it.startswith("examples/") and it.endswith(".cyc")):
            yield Claim(1, f"the example {name}", None if f"| `{name}` |" in text else f"there is no row for {name}")
    if path == "docs/DECISIONS.md":
        rows = "\n".join(line for line in text.split("\n") if line.startswith("| "))
        for crate in crates():
            is_told, has = f"`{crate}`" in rows, "\n## Decisions\n" in facts.content(facts.document_of(crate))
            yield Claim(1, f"the decisions of {crate}", None if is_told == has else f"{crate} " + ("has no decisions" if is_told else "has decisions"))


def claims_of_counts(path, text):
    """Returns a claim for each count of a document that the tree has too."""
    for count in claimed.COUNTS:
        if fnmatch.fnmatch(path, count.document):
            for found in re.finditer(count.pattern.replace(" ", r"\s+"), text):
                line, wanted = text[:found.start(1)].count("\n") + 1, count.number()
                said = facts.spelled(wanted, found[1])
                words = " ".join(found.group().split())
                yield Claim(line, words, None if claimed.is_same(found[1], wanted) else f"`{words}`: the tree has {said}")


def missing_counts():
    """Returns a fault for each count that stands in no document."""
    texts = {path: facts.content(path) for path in documents.documents()}
    for count in claimed.COUNTS:
        pattern = re.compile(count.pattern.replace(" ", r"\s+"))
        if not any(pattern.search(text) for path, text in texts.items() if fnmatch.fnmatch(path, count.document)):
            yield f"no document says `{count.pattern}`"


KINDS = (claims_of_names, claims_of_owners, claims_of_head, claims_of_rows, claims_of_sentences, claims_of_sections, claims_of_calls,
         claims_of_lists, claims_of_counts)


def manuals():
    """Returns the manual pages."""
    return sorted(path for path in tree_files() if path.startswith("docs/") and path.endswith(".1"))


def claims_of_manual(path, text):
    """Returns a claim for each entry of a manual page, which has to begin as one, and for each option of the program in its own page."""
    lines = text.split("\n")
    for number, line in enumerate(lines, 1):
        if re.match(r'\.BI \S+ " ', line):
            yield Claim(number, f"the entry {line}", "no .TP stands before it" if re.search(r"[a-z)]\.$", lines[number - 2]) else None)
        for name in re.findall(r"(?<![\w-])--([a-z][a-z-]*)", line.replace("\\-", "-")) if path == "docs/cyclone.1" else ():
            there = name in ("help", "version") or f'"{name}"' in facts.content("crates/cyc_cli/src/commands.rt")
            yield Claim(number, f"the option --{name}", None if there else f"no command has the option --{name}")


def claims_of(path, text):
    """Returns the claims of a document or of a manual page."""
    return [claim for kind in ((claims_of_manual,) if path in manuals() else KINDS) for claim in kind(path, text)]


def faults_of_lists():
    """Returns what is wrong with the lists of this suite: words from outside that no document needs, and counts that none has."""
    needed = needed_outside()
    idle = sorted(name for name in claimed.OUTSIDE if name not in needed)
    return [f"{name} is no word from outside that a document needs" for name in idle] + list(missing_counts())


def main():
    parser = argparse.ArgumentParser(description=__doc__.split("\n")[0])
    parser.add_argument("--list", action="store_true", help="print each claim")
    parser.add_argument("documents", nargs="*", metavar="DOCUMENT")
    asked = parser.parse_args()
    passed, failed = 0, 0
    for path in asked.documents or documents.documents() + manuals():
        for claim in claims_of(path, facts.content(path)):
            passed, failed = passed + (claim.fault is None), failed + (claim.fault is not None)
            if claim.fault or asked.list:
                print(f"{'FAILED ' if claim.fault else ''}{path}:{claim.line}: {claim.fault or claim.what}")
    for fault in [] if asked.documents else faults_of_lists():
        failed += 1
        print(f"FAILED {fault}")
    suite.end(passed, failed)


if __name__ == "__main__":
    sys.exit(main())

"""Measures how easy the repository is to change: duplicates, long files, unused lemmas and imports, and items without comments.

`facts.py` has these numbers for the documents. A lemma is a name with a type in `proofs/`; the imports of its file determine which crates
its statement mentions.
"""
import collections
import functools
import os
import re

import suite  # first: it makes the tools importable
from sources import stands_on

LONG_FILE, LONG_IMPORT = 600, 300
CRATES = os.path.join(suite.ROOT, "crates")
# The pattern of a definition's name and type, at the left margin or in a module with parameters; continuation
# lines are indented more than the line with the name.
SIGNATURE = re.compile(r"^( {0,2})(pub )?([A-Za-z_][\w'-]*) : (.*(?:\n(?:\1 +\S.*|\s*))*)", re.M)
WORD = re.compile(r"[^\W\d][\w'-]*")
IMPORT = re.compile(r"^(?:ghost )?use (.+)$", re.M)
ITEM = re.compile(r"^ *pub (?:const |unsafe )?(?:fn|struct|enum|trait|type|const) \w+")

Lemma = collections.namedtuple("Lemma", ("crate", "path", "name", "statement"))


@functools.cache
def sources(folder="", ending=""):
    """Returns the files in a folder of each crate, by path, without build output."""
    found = {}
    for where, folders, names in os.walk(CRATES):
        folders[:] = sorted(name for name in folders if name != "out")
        inside = os.path.relpath(where, CRATES).split(os.sep)[1:]
        for name in sorted(names):
            if name.endswith((".rt", ".antt")) and name.endswith(ending) and (not folder or inside[:1] == [folder]):
                path = os.path.join(where, name)
                with open(path, encoding="utf-8") as file:
                    found[os.path.relpath(path, suite.ROOT)] = file.read()
    return found


def without_comments(text):
    return re.sub(r"--.*", "", text)


@functools.cache
def lemmas():
    """Returns all lemmas, each with its statement in one line."""
    found = []
    for path, text in sources("proofs", ".antt").items():
        if path.endswith("Answers.antt"):
            continue
        for match in SIGNATURE.finditer(without_comments(text)):
            # A parameter of a module is declared but has no defining equation.
            if not re.search(rf"^{match[1]}{re.escape(match[3])}(?![\w'-])(?! :)", text[match.start():], re.M):
                continue
            lines = match[4].split("\n")
            # Removes the equations of the last declaration; the lines after an empty line are part of the
            # next declaration.
            kept = [lines[0]]
            for line in lines[1:]:
                if not line.strip() or re.match(rf" *{re.escape(match[3])}\b.* = ", line):
                    break
                kept.append(line)
            found.append(Lemma(path.split(os.sep)[1], path, match[3], " ".join(" ".join(kept).split())))
    return found


def imported(text):
    """Returns the names that a file imports, each with the root of its module: `std`, or a crate."""
    found = {}
    for line in IMPORT.findall(text):
        root = line.removeprefix("Rattle.").split(".")[0]
        names = line[line.index("{") + 1:line.rindex("}")].split(",") if "{" in line else [line.split(" as ")[-1]]
        found.update((name.split(" as ")[-1].strip(), root) for name in names)
    return found


def of_std(lemma):
    """Returns true if a lemma's statement mentions only names of std and its own variables."""
    names = imports_of(lemma.path)
    bound = set(re.findall(r"[({]([\w' -]+) :", lemma.statement))
    bound = {word for group in bound for word in group.split()}
    spoken = [word for word in WORD.findall(lemma.statement) if word not in bound and len(word) > 1]
    return all(names.get(word, "std" if word in ("Type", "let", "in") else "") == "std" for word in spoken)


@functools.cache
def imports_of(path):
    return imported(sources()[path])


def lemmas_of_std():
    """Returns the lemmas about std only that are not in the lowest crate, in crates that depend on it."""
    graph = stands_on(suite.ROOT)
    return [lemma for lemma in lemmas() if "cyc_words" in graph[lemma.crate] and of_std(lemma)]


@functools.cache
def asked_for():
    """Returns the names that files refer to: module and name, from imports and from hints beside functions."""
    found = set()
    for text in sources().values():
        for module, names in re.findall(r"^(?:ghost |pub )*use Rattle\.([\w.]+)\.\{(.*)\}$", text, re.M):
            found.update((module, name.split(" as ")[0].strip()) for name in names.split(","))
        for module in re.findall(r"^(?:ghost |pub )*use Rattle\.([\w.]+) as \w+$", text, re.M):
            alias = re.search(rf"use Rattle\.{re.escape(module)} as (\w+)$", text, re.M)[1]
            found.update((module, name) for name in re.findall(rf"\b{alias}\.([A-Za-z_][\w'-]*)", text))
    for path, text in sources("src", ".rt").items():
        for crate, names in re.findall(r"\b(crate|cyc_\w+)::proofs::([\w:'-]+)", text):
            *module, name = names.split("::")
            found.add((".".join([path.split(os.sep)[1] if crate == "crate" else crate, "proofs", *module]), name))
    return found


def without_lemma(text, name):
    """Returns a file without a lemma's statement and equations: their continuation lines are indented further, or begin with the name
    again."""
    kept, inside, margin = [], False, 0
    for line in without_comments(text).split("\n"):
        head = re.match(rf"^( {{0,2}})(?:pub )?{re.escape(name)} : ", line)
        indent = len(line) - len(line.lstrip())
        if head:
            inside, margin = True, len(head[1])
        elif inside and line.strip() and indent <= margin:
            inside = indent == margin and bool(re.match(rf"(?:{re.escape(name)}(?![\w'-])|unfolding\b|[\])}}])", line.lstrip()))
        if not inside:
            kept.append(line)
    return "\n".join(kept)


# Files whose lemmas need not be used by any other file: worked examples, and lemmas that laws name.
READ_ALONE = re.compile(r"Examples|examples/|Programs\.antt|Texts\.antt|/laws/|KeyFields|LaterRegions|ReadsFirst|/(Answers|Invariants|Proof)\.antt")


def lemmas_that_nothing_names():
    """Returns the lemmas that no file uses, except in worked examples."""
    found = []
    for path, text in sources("proofs", ".antt").items():
        if READ_ALONE.search(path):
            continue
        module = path.removesuffix(".antt").removeprefix("crates/").replace("/", ".")
        own = [lemma.name for lemma in lemmas() if lemma.path == path]
        found += [f"{path} {name}" for name in own
                  if (module, name) not in asked_for() and name not in WORD.findall(without_lemma(text, name))]
    return found


def items_without_words():
    """Returns the public items without a doc comment: `path:line`."""
    found = []
    for path, text in sources("src", ".rt").items():
        lines = text.split("\n")
        for number, line in enumerate(lines):
            above = number - 1
            while above >= 0 and re.match(r" *(#\[|//(?!/))", lines[above]):
                above -= 1
            if ITEM.match(line) and not lines[above].lstrip().startswith("///"):
                found.append(f"{path}:{number + 1}")
    return found


def hints():
    """Counts the hints to the prover beside functions."""
    return sum(len(re.findall(r"#\[tactic\([^\]]*\b(?:using|unfolding)\(", text)) for text in sources("src", ".rt").values())


def long_files():
    return [path for path, text in sources().items() if text.count("\n") > LONG_FILE]


def long_imports(files=None):
    """Returns a line for each file, of these or of all, with an import that is too long to read: its names may be split over two imports.
    """
    return [f"{path}: an import has more than {LONG_IMPORT} characters" for path, text in (files or sources()).items()
            if any(len(line) > LONG_IMPORT for line in text.split("\n") if re.match(r"(pub |ghost )*use ", line))]


def files_with(word):
    """Returns the files of all crates that mention a form of the language, by the name of its variant."""
    return sum(bool(re.search(rf"\b{word}\b", text)) for text in sources().values())


# Kinds of additions to the language, each with an existing construct as an example and the name of
# the tree variant of that construct.
FORMS = (
    ("a construct that a typing rule gives a meaning", "`char(e)`", "LowByteOf"),
    ("an operator", "`~`", "Complement"),
    ("a node of its own", "`numelts(e)`", "NumberOfElements"),
    ("a statement", "`p :=: q`", "Swap"),
)


def rows_of_changes():
    for what, form, variant in FORMS:
        yield what, f"{form}: `{variant}`", f"{files_with(variant):,}"


def rows():
    yield f"files above {LONG_FILE} lines", f"{len(long_files()):,}"
    yield "lemmas of the library alone, outside `cyc_words`", f"{len(lemmas_of_std()):,}"
    yield "lemmas that nothing names", f"{len(lemmas_that_nothing_names()):,}"
    yield "public items without a comment", f"{len(items_without_words()):,}"
    yield "hints to the prover beside functions", f"{hints():,}"
    for what, form, variant in FORMS:
        yield f"files of crates that name {form}, {what}", f"{files_with(variant):,}"


if __name__ == "__main__":
    for what, count in rows():
        print(f"{count:>8}  {what}")

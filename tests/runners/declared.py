"""Finds what the crates declare: the names in their code, and their functions with the clauses of their contracts.

A crate's words are those of its code, without comments and texts. A function has its crate, its owner (the type or the trait of the block
around it), whether it is public, and the names of its `ensures` clauses. What a crate passes on from crates below counts as its own. A
method of a trait keeps the trait's contract whatever type it is of. `claims.py` compares the documents with this.
"""
import collections
import functools
import os
import re

import suite  # first: it makes the tools importable
from sources import in_order, stands_on

PARTS = ("src", "specs", "proofs")
NAME = re.compile(r"[^\W\d][\w'-]*")
# The first line of a block of methods, and that of a function, in files of code.
BLOCK = re.compile(r"(?:pub )?(impl|trait)\b(?:<[^{]*?>)? ?(?:(\w+)(?:<[^{]*?>)? for )?(\w+)")
FUNCTION = re.compile(r"( *)(pub (?:\(\w+\) ?)?|pub\(\w+\) )?(?:const |unsafe )*fn (\w+)")
CLAUSE = re.compile(r"^ *(ensures|requires)(?: (\w+))? \{", re.M)
TYPE = re.compile(r"^(?:pub(?:\(\w+\))? )?(struct|enum|trait) (\w+)", re.M)

Function = collections.namedtuple("Function", "crate path owner trait name public ensures")


@functools.cache
def below(crate):
    """Returns a crate with all that it stands on."""
    return in_order(crate, stands_on(suite.ROOT))


@functools.cache
def files(crate):
    """Returns the files of a crate's code, definitions and proofs, each by its path from the root, without comments."""
    found = {}
    for part in PARTS:
        for where, _, names in sorted(os.walk(os.path.join(suite.ROOT, "crates", crate, part))):
            for name in sorted(names):
                if name.endswith((".rt", ".antt")):
                    path = os.path.join(where, name)
                    with open(path, encoding="utf-8") as file:
                        found[os.path.relpath(path, suite.ROOT)] = without_comments(file.read(), name)
    return found


def without_comments(text, name):
    """Returns a file without comments, and code without the texts in it."""
    if name.endswith(".antt"):
        return re.sub(r"--(?= |-|$).*", "", text, flags=re.M)
    return re.sub(r"//.*", "", re.sub(r'b?"(?:[^"\\]|\\.)*"', '""', text, flags=re.S))


def words_in(text):
    """Returns the words of a text; of those with signs within, as `follows-preserves`, their parts too."""
    return set(NAME.findall(text)) | set(re.findall(r"[^\W\d]\w*", text))


@functools.cache
def words(crate):
    """Returns the words of a crate's files, and the names of these files and of its folders."""
    found = {crate}
    for path, text in files(crate).items():
        found |= words_in(text)
        found |= {part.split(".")[0] for part in path.split(os.sep)[2:]} | {os.path.basename(path)}
    return found


@functools.cache
def functions(crate):
    """Returns the functions of a crate's code."""
    found = []
    for path, text in files(crate).items():
        if path.endswith(".rt"):
            found += functions_in(crate, path, text)
    return found


def functions_in(crate, path, text):
    """Returns the functions of a file: those at the left margin, and the methods of blocks that begin there."""
    found, owner, trait, lines = [], None, None, text.split("\n")
    for number, line in enumerate(lines):
        block, head = BLOCK.match(line), FUNCTION.match(line)
        if block:
            owner, trait = block[3], block[3] if block[1] == "trait" else block[2]
        elif line[:1] not in (" ", "", ")", "}") and not line.startswith(("where", "#")):
            owner = trait = None
        if head and len(head[1]) in (0, 4):
            inner = bool(head[1])
            public = bool(head[2]) and "(" not in head[2] or inner and trait is not None
            clauses = clauses_of("\n".join(signature_from(lines, number)))
            found.append(Function(crate, path, owner if inner else None, trait if inner else None, head[3], public, clauses))
    return found


def signature_from(lines, start):
    """Returns the lines of a function up to its body, or up to its end where it has none."""
    margin = len(lines[start]) - len(lines[start].lstrip())
    for end in range(start, len(lines)):
        line = lines[end].rstrip()
        is_clause = re.match(r" *(ensures|requires)\b", line)
        if line == " " * margin + "{" or line == " " * margin + "{}" or line.endswith(";") or line.endswith((" {", "{}")) and not is_clause:
            return lines[start:end + 1]
    return lines[start:]


def clauses_of(signature):
    """Returns the names of a signature's `ensures` clauses, in order; of one without a name, an empty text."""
    return tuple(name for kind, name in CLAUSE.findall(signature) if kind == "ensures")


def type_named(crate, name):
    """Returns the text of a type's or a trait's declaration in a crate, or None."""
    for path, text in files(crate).items():
        if path.endswith(".rt"):
            for found in TYPE.finditer(text):
                if found[2] == name:
                    return text[found.start():].split("\n}", 1)[0]
    return None


@functools.cache
def passed_on(crate):
    """Returns the names that a crate passes on from other crates, each with the crate."""
    found = {}
    for text in files(crate).values():
        for path, names in re.findall(r"(?ms)^pub use ((?:\w+::)+)(\{[^}]*\}|\w+);", text):
            for name in re.findall(r"\w+", names):
                found[name] = path.split("::")[0]
    return {name: other for name, other in found.items() if other in stands_on(suite.ROOT)}


def home(crate, name):
    """Returns the crate that declares what this crate has by this name: itself, or the one that it is passed on from."""
    while name in passed_on(crate) and passed_on(crate)[name] != crate:
        crate = passed_on(crate)[name]
    return crate


def methods_of(crate, name):
    """Returns the methods of a type or a trait in a crate; for a type also those of the traits that it keeps."""
    own = [it for it in functions(crate) if it.owner == name]
    traits = {it.trait for it in own if it.trait} | set(traits_of(crate, name))
    return own + [it for other in below(crate) for it in functions(other) if it.owner == it.trait and it.trait in traits and it.owner != name]


def traits_of(crate, name):
    """Returns the traits that a type keeps by blocks of this crate."""
    return [found[2] for path, text in files(crate).items() if path.endswith(".rt")
            for found in map(BLOCK.match, text.split("\n")) if found and found[2] and found[3] == name]


def named(crate, path):
    """Returns the functions that a crate has by a name, as `run`, `laws::one_tree` or `Names::intern`; of a type, its methods."""
    *owners, name = path.split("::")
    crate = home(crate, owners[0] if owners else name)
    if not owners and type_named(crate, name) is not None:
        return methods_of(crate, name)
    found = [it for it in functions(crate) if it.name == name]
    if owners and owners[-1][:1].isupper():
        return [it for it in methods_of(crate, owners[-1]) if it.name == name]
    if owners:
        return [it for it in found if os.path.basename(it.path) == owners[-1] + ".rt"]
    return found


def has_fact(crate, name):
    """Returns true if a type carries facts, as ghost members, or if what it is written as is defined (`ghost output`)."""
    crate = home(crate, name)
    text = type_named(crate, name)
    if text is None or re.search(r"\bghost\b|\binvariant\b", text):
        return text is not None
    block = re.compile(rf"^impl(?:<[^{{]*?>)? [\w:]+ for {name}\b[^\n]*\{{\n(?:    ghost use [^\n]*\n)*    ghost output = ", re.M)
    return any(block.search(text) for path, text in files(crate).items() if path.endswith(".rt"))


def is_promised(crate, path):
    """Returns true if a contract stands at what a crate has by a name: a clause of a function or of a method, or a fact of a type."""
    return any(it.ensures for it in named(crate, path)) or "::" not in path and has_fact(crate, path)


def laws(crate):
    """Returns the laws of a crate: public functions that do nothing, and whose contract is a fact on definitions."""
    return [it for it in functions(crate) if re.search(r"laws(\.rt|/)", it.path) and it.public and it.ensures]


# ---- names that are declared

IN_CODE = re.compile(
    r"\b(?:fn|struct|enum|trait|type|const|static|mod|macro_rules!) (\w+)|^ {4,}(?:pub(?:\(\w+\))? )?(\w+)(?=:|,$|\(.*\),$| \{|\{)", re.M)
IN_DEFINITIONS = re.compile(r"^ *(?:(?:pub|abbrev) )*([^\s(){}:]+) (?=: )|^(?:pub )?(?:record|data|mod) ([^\s(){}:]+)", re.M)


@functools.cache
def names(crate):
    """Returns the names that a crate declares or passes on: of functions, types, their parts, clauses, definitions, lemmas and files."""
    found = set(passed_on(crate)) | {crate}
    for path, text in files(crate).items():
        found |= {part.split(".")[0] for part in path.split(os.sep)[2:]}
        found |= names_in(path, text)
    return found | {clause for it in functions(crate) for clause in it.ensures if clause}


@functools.cache
def names_in(path, text):
    """Returns the names that a file declares."""
    if path.endswith(".rt"):
        return {name for pair in IN_CODE.findall(text) for name in pair if name} | {name for _, name in CLAUSE.findall(text) if name}
    passed = {name for line in re.findall(r"(?m)^pub use .*$", text) for name in NAME.findall(line)}
    return passed | {name for pair in IN_DEFINITIONS.findall(text) for name in pair if name}


def modules(name):
    """Returns the files of definitions, proofs and code of this name, in all crates."""
    return [path for crate in stands_on(suite.ROOT) for path in files(crate) if os.path.basename(path).split(".")[0] == name]

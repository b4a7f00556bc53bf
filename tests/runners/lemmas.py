#!/usr/bin/env python3
"""Lists the ambiguous names of lemmas: those with different statements in different files of proofs.

    python3 tests/runners/lemmas.py [CRATE ..]

There must be none: `documents.py` checks that. A lemma is a name at the left margin of a file in `proofs`, followed by a colon and its
statement. Answers and invariants of functions, whose names the prover gives, and definitions are no lemmas. Two statements are equal if
they consist of the same words. If crates are given, only names of their lemmas are listed.
"""
import collections
import os
import re
import sys

import suite

# File names that the prover prescribes; these are not names of lemmas.
GIVEN = ("Answers.antt", "Invariants.antt", "Proof.antt", "Lib.antt")
# The pattern of a lemma's name with its statement, which continues in the following indented lines.
LEMMA = re.compile(r"^(?:pub )?([^\s:]+) : ((?:.|\n(?=[ \t]+\S))*)", re.M)
COMMENT = re.compile(r"^ *--.*\n", re.M)


def lemmas_in(text):
    """Returns the lemmas of a file, each with its statement in one line."""
    return [(name, " ".join(statement.split())) for name, statement in LEMMA.findall(COMMENT.sub("", text))]


def files_of_proofs(root):
    """Returns the files with lemmas below a folder, by their relative paths."""
    found = []
    for folder, _, names in os.walk(root):
        path = os.path.relpath(folder, root)
        if path.split(os.sep)[1:2] == ["proofs"]:
            found += [os.path.join(path, name) for name in names if name.endswith(".antt") and name not in GIVEN]
    return sorted(found)


def meanings(root):
    """Returns the names of lemmas, each with its statements, and for each statement the files that contain it."""
    found = collections.defaultdict(lambda: collections.defaultdict(list))
    for path in files_of_proofs(root):
        with open(os.path.join(root, path), encoding="utf-8") as file:
            for name, statement in lemmas_in(file.read()):
                found[name][statement].append(path)
    return found


def ambiguous(root=os.path.join(suite.ROOT, "crates")):
    """Returns the names with more than one statement."""
    return {name: statements for name, statements in meanings(root).items() if len(statements) > 1}


def faults(crates=(), root=os.path.join(suite.ROOT, "crates")):
    """Returns a line for each ambiguous name of a lemma of these crates, or of any crate."""
    found = {name: sorted(path for files in statements.values() for path in files) for name, statements in sorted(ambiguous(root).items())}
    return [f"{name}: {len(meanings(root)[name])} statements, in {', '.join(paths)}"
            for name, paths in found.items() if not crates or any(path.split(os.sep)[0] in crates for path in paths)]


def main():
    for fault in faults(sys.argv[1:]):
        print(fault)


if __name__ == "__main__":
    main()

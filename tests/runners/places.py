"""The files that the document of a crate names by their paths from the crate's folder, or from `src`, `specs` or `proofs` in it.

Checks the files that a crate's document names. A path in a code span must name a file or a folder of the crate, or of a crate that the same
paragraph names. A name after a path and a comma, or an `and`, is a file beside it or elsewhere in the crate, as `Formed` in
"`proofs/layout/Counts` and `Formed`". The same holds for names in the first cells of a table of a folder's files, and for the definitions
in the first lines.
"""
import glob
import os
import re

import suite

DOCUMENT = re.compile(r"crates/(\w+)/README\.md")
CRATE = re.compile(r"`(cyc_\w+|cyclone)`")
SPAN = re.compile(r"(?<!`)`([^`]+)`(?!`)")
# The pattern of a path in a document: names separated by slashes, or the name of a source file. A star, or two dots
# at the path's end, stand for any characters.
PATH = re.compile(r"[\w*-]+(/[\w*-]+)+(\.rt|\.antt|\.md|\.\.)?|([\w*-]+/)+|[\w*-]+\.rt")
NAME = re.compile(r"[A-Z]\w*(\.\.)?")
# The pattern of the text between a path and the next name of the same enumeration in a sentence: a
# comma, `and` or `or`.
BETWEEN = re.compile(r",? (and |or )?")
PARTS = ("", "src", "specs", "proofs")
FILES_OF = re.compile(r"\| File of `(\w+)/` \|")
DEFINITIONS = "- Definitions: "


def is_there(crate, path):
    """Returns true if a path exists in a crate, relative to its folder or to one of its parts."""
    path = path.replace("..", "*").rstrip("/")
    for part in PARTS:
        whole = os.path.join(suite.ROOT, "crates", crate, part, path)
        if any(glob.glob(whole + ending) for ending in ("", ".rt", ".antt")):
            return True
    return False


def is_below(crate, name):
    """Returns true if some file of a crate has this name."""
    whole = os.path.join(suite.ROOT, "crates", crate, "**", name.replace("..", "*"))
    return any(glob.glob(whole + ending, recursive=True) for ending in ("", ".rt", ".antt"))


def paragraphs(text):
    """Returns the paragraphs, list items and table rows of a document, with the numbers of their first lines, without programs."""
    found = []
    for number, line in enumerate(text.split("\n"), 1):
        goes_on = found and found[-1][1] and line.strip() and not re.match(r" *(- |\d+\. )|[|#]", line) and found[-1][1][0] not in "|#"
        if line.startswith("    ") and not goes_on:
            continue
        if goes_on:
            found[-1][1] += " " + line.strip()
        else:
            found.append([number, line])
    return found


def named(paragraph, files_of):
    """Returns the paths and the names of files in a paragraph. In a table of a folder's files, the first cell contains names."""
    paths, names = [], []
    first_cell = paragraph.split(" | ")[0] if files_of and paragraph.startswith("| ") else ""
    at, is_behind = 0, False
    for span in SPAN.finditer(paragraph):
        is_next = is_behind and BETWEEN.fullmatch(paragraph[at:span.start()])
        is_first = span.end() <= len(first_cell)
        if PATH.fullmatch(span[1]):
            paths.append(span[1])
            is_behind = True
        elif NAME.fullmatch(span[1]) and (is_next or is_first or paragraph.startswith(DEFINITIONS)):
            names.append(span[1])
        else:
            is_behind = False
        at = span.end()
    return paths, names


def faults_of(document, text):
    """Returns the missing files that the document of a crate names."""
    found = DOCUMENT.fullmatch(document)
    if not found:
        return []
    faults, files_of = [], None
    for number, paragraph in paragraphs(text):
        head = FILES_OF.match(paragraph)
        files_of = head or (files_of if paragraph.startswith("|") else None)
        crates = [found[1]] + [crate for crate in CRATE.findall(paragraph) if os.path.isdir(os.path.join(suite.ROOT, "crates", crate))]
        paths, names = named(paragraph, files_of)
        faults += [f"line {number}: there is no {path}" for path in paths
                   if not any(is_there(crate, path) for crate in crates) and not os.path.exists(os.path.join(suite.ROOT, path))
                   and not os.path.exists(os.path.join(suite.ROOT, "crates", path))]
        faults += [f"line {number}: there is no file {name}" for name in names if not any(is_below(crate, name) for crate in crates)]
    return faults

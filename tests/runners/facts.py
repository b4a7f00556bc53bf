"""Computes the parts of documents that come from data: tables, whole or in part, and numbers in sentences.

The data are `crates.txt`, the first lines of the crates' own documents, their files, the cases of wrong bodies, the programs in
`tests/sound`, and the generated images and programs. `tests/runners/documents.py` compares the documents with them, and updates the
documents.
"""
import collections
import functools
import os
import random
import re

import suite  # first: it makes the references and the generators importable
import house
import image_makers
import in_trees
import instruction_makers
import machine
import stores
import wrong

FOLDERS = (("src", ".rt"), ("specs", ".antt"), ("proofs", ".antt"))
# The English words that sentences use for the numbers from 0 to 16.
WORDS = "no one two three four five six seven eight nine ten eleven twelve thirteen fourteen fifteen sixteen".split()
# The fields in the first lines of the document about a crate, in this order. The document about a crate
# that has only tests or figures may lack some of these fields.
FIELDS = ("Definitions", "Contract", "Proved")

Head = collections.namedtuple("Head", ("what", *FIELDS))


def content(path):
    with open(os.path.join(suite.ROOT, path), encoding="utf-8") as file:
        return file.read()


# ---- crates


def crates():
    """Returns the crates, in the order of the pipeline."""
    return list(wrong.stands_on(suite.ROOT))


def document_of(crate):
    return f"crates/{crate}/README.md"


def head_of(crate):
    """Returns the first lines of a crate's document: `# NAME: description`, and a list of its fields."""
    text = content(document_of(crate))
    title = re.match(rf"# {crate}: (.+)\n\n", text)
    items = text[title.end():].split("\n\n")[0] if title else ""
    found = dict(re.findall(r"^- (\w+): ((?:.|\n(?=  ))+)$", items, re.M))
    if not title or list(found) not in (list(FIELDS), list(FIELDS[:2])):
        raise ValueError(f"{document_of(crate)} does not begin with `# {crate}: ..` and a list of {', '.join(FIELDS)}")
    return Head(title[1], *(" ".join(found[field].split()) if field in found else None for field in FIELDS))


def rows_of_architecture():
    for crate in crates():
        head = head_of(crate)
        yield f"`{crate}`", head.what, head.Proved or "none", head.Definitions, head.Contract


def lines_in(crate, folder, ending):
    """Counts the lines of a folder's files, without tests."""
    count = 0
    for where, _, names in os.walk(os.path.join(suite.ROOT, "crates", crate, folder)):
        for name in names:
            if name.endswith(ending) and name != "tests.rt":
                count += content(os.path.join(where, name)).count("\n")
    return count


def rows_of_sizes():
    """Returns for each crate the lines of its code, definitions and proofs, and its number of wrong bodies; and the sums."""
    bodies = collections.Counter(case.crate for case in wrong.all_cases())
    total = [0] * (len(FOLDERS) + 1)
    for crate in crates():
        row = [lines_in(crate, *folder) for folder in FOLDERS] + [bodies[crate]]
        total = [one + other for one, other in zip(total, row)]
        yield f"`{crate}`", *(f"{number:,}" for number in row)
    yield "all", *(f"{number:,}" for number in total)


# A table in a document: the document, the first line of the table, and the rows that the table must
# have.
Table = collections.namedtuple("Table", "document head rows")
TABLES = [
    Table("docs/ARCHITECTURE.md", "| Crate | What it is | Proved | Definitions (`specs/`) | Contract |", rows_of_architecture),
    Table("docs/FIGURES.md", "| Crate | Code | Definitions | Proofs | Wrong bodies |", rows_of_sizes),
    Table("docs/FIGURES.md", "| What a change meets | How many |", house.rows),
    Table("CONTRIBUTING.md", "| Change | One that is there | Files in `crates/` |", house.rows_of_changes),
]


# ---- numbers


def wrong_rules():
    """Returns the number of wrong rules of types and flow for which the theorem on dead accesses is tried."""
    return sum(case.crate == "cyc_soundness" and "cyc_types" in case.changed() for case in wrong.all_cases())


def programs_of_sound(name):
    return len(in_trees.programs_in(name))


def small_images():
    return [*image_makers.SMALL_IMAGES.values(), image_makers.DOUBLED]


def random_images():
    """Returns the number of random images that the gate tries."""
    return int(re.search(r'"--count", type=int, default=([\d_]+)', content("tests/runners/images.py"))[1])


def has_open_end(made):
    """Returns true if an image's run reaches a point at which a store may choose how it continues."""
    try:
        machine.Run(machine.Image(made.file), made.given, made.pages, made.calls, made.steps).end()
    except machine.ImageFault:
        return False
    except stores.Open:
        return True
    return False


@functools.cache
def open_ends():
    return sum(has_open_end(image_makers.made(random.Random(f"image 1 {number}"))) for number in range(random_images()))


@functools.cache
def results_of_instructions():
    return sum(body.results for _, body in instruction_makers.programs())


def files_in(folder, ending):
    return sum(name.endswith(ending) for name in os.listdir(os.path.join(suite.ROOT, folder)))


# A number in a sentence: its document, a pattern of the words around it, and the function that computes it.
Number = collections.namedtuple("Number", "document pattern count")
GUARANTEES, SOUNDNESS, FIGURES = "docs/GUARANTEES.md", document_of("cyc_soundness"), "docs/FIGURES.md"
NUMBERS = [
    Number(GUARANTEES, r"(\w+) programs that the rules refuse, by premises", lambda: programs_of_sound("refused")),
    Number(GUARANTEES, r"and (\w+) accepted ones to end", lambda: programs_of_sound("accepted")),
    Number(GUARANTEES, r"(\w+) wrong rules are each put in the place", wrong_rules),
    Number(GUARANTEES, r"(\w+) small images, one of them", lambda: len(small_images())),
    Number(GUARANTEES, r"cut at each of their ([\w,]+) lengths", lambda: sum(map(len, small_images()))),
    Number(GUARANTEES, r"set to 00, 7f and ff: ([\w,]+) files", lambda: sum(1 for _ in image_makers.spoiled())),
    Number(GUARANTEES, r"random images: ([\w,]+) in each gate", random_images),
    Number(GUARANTEES, r"Of seed 1, (\w+) runs come to a place", open_ends),
    Number(GUARANTEES, r"(\w+) examples as they are compiled", lambda: files_in("examples", ".out")),
    Number(GUARANTEES, r"and (\w+) random programs of them", lambda: instruction_makers.RANDOM_PROGRAMS),
    Number(GUARANTEES, r"random programs of them: ([\w,]+) results", results_of_instructions),
    Number(SOUNDNESS, r"has (\w+) programs that the rules accept", lambda: programs_of_sound("accepted")),
    Number(SOUNDNESS, r"has (\w+) that the rules refuse", lambda: programs_of_sound("refused")),
    Number(FIGURES, r"executed instructions of (\w+) pairs of equal programs", lambda: files_in("bench/pairs", ".cyc")),
    Number(FIGURES, r"runs the (\w+) programs of `bench/unseen`", lambda: files_in("bench/unseen", "")),
    Number(FIGURES, r"for the (\w+) that are programs of this language too", lambda: files_in("bench/unseen", ".cyc")),
]


def spelled(number, before):
    """Returns a number as a sentence spells it: in words if the sentence has a word and the number has one."""
    if before.isalpha() and number < len(WORDS):
        return WORDS[number].capitalize() if before[0].isupper() else WORDS[number]
    return f"{number:,}"


def with_number(text, number):
    """Returns a text with a number replaced, whatever spaces and line ends surround it."""
    pattern = re.compile(number.pattern.replace(" ", r"\s+"))
    found = pattern.findall(text)
    if len(found) != 1:
        raise ValueError(f"{number.document} has {len(found)} places that are as {number.pattern}")
    at = pattern.search(text)
    return text[:at.start(1)] + spelled(number.count(), at[1]) + text[at.end(1):]


def with_table(text, table):
    """Returns a text with the rows of a table replaced."""
    parts = re.split(f"^{re.escape(table.head)}\n(?:\\|.*\n)+", text, flags=re.M)
    if len(parts) != 2:
        raise ValueError(f"{table.document} has {len(parts) - 1} tables that begin with {table.head}")
    rule = "|" + "---|" * (table.head.count("|") - 1)
    rows = [f"| {' | '.join(row)} |" for row in table.rows()]
    return parts[0] + "\n".join([table.head, rule, *rows, ""]) + parts[1]


def with_facts(path, text):
    """Returns the text of a document with all parts from data updated."""
    for table in TABLES:
        if table.document == path:
            text = with_table(text, table)
    for number in NUMBERS:
        if number.document == path:
            text = with_number(text, number)
    return text


def faults_of(path, text):
    """Returns the differences between a document and the data."""
    try:
        wanted, got = with_facts(path, text).split("\n"), text.split("\n")
    except ValueError as fault:
        return [str(fault)]
    faults = [suite.difference(f"line {number}", one, other)
              for number, (one, other) in enumerate(zip(wanted, got), 1) if one != other]
    if len(wanted) != len(got):
        faults.append(f"it has {len(got)} lines, and would have {len(wanted)}")
    # After a missing or extra line of a document all following lines differ, so only the first
    # three faults are returned.
    return faults[:3]


# The crates whose definitions are compared with a public source, the pattern of a source's name in a file's first comment, and the
# files without definitions.
DEFINING = ("cyc_syntax", "cyc_types", "cyc_meaning", "cyc_isa", "cyc_elf", "cyc_store", "cyc_machine_model", "cyc_machine")
SOURCE = re.compile(r"own\s+choice|[Mm]anual|Grossman|System\s+V|MIPS32\s+architecture|C\s+and\s+Cyclone")
DEFINES_NOTHING = re.compile(r"(Lib|\w*View|\w*Examples|Readings|[a-z_]+)\.antt")


def faults_of_sources():
    """Returns the definitions whose comments name no source."""
    paths = [os.path.relpath(os.path.join(where, name), suite.ROOT)
             for crate in DEFINING for where, _, names in os.walk(os.path.join(suite.ROOT, "crates", crate, "specs")) for name in names]
    defining = [path for path in sorted(paths) if not DEFINES_NOTHING.fullmatch(os.path.basename(path))]
    comments = {path: " ".join(re.findall(r"^ *-- ?(.*)$", content(path), re.M)) for path in defining}
    return [f"{path} names no source" for path in defining if not SOURCE.search(comments[path])] if defining else ["there are no definitions"]


def names_in(crate):
    """Returns the words of a crate's code, definitions and proofs, including comments."""
    found = set()
    for folder, ending in FOLDERS:
        for where, _, names in os.walk(os.path.join(suite.ROOT, "crates", crate, folder)):
            for name in names:
                if name.endswith(ending):
                    found.update(re.findall(r"\w+", content(os.path.join(where, name))))
    return found


def idle_edges(graph):
    """Returns the dependencies of crates that no file of theirs names: each causes needless proofs."""
    return [f"{crate} stands on {below}, which no file of it names"
            for crate, belows in graph.items() for names in [names_in(crate)] for below in belows if below not in names]


def faults_of_crates():
    """Returns the differences between `crates.txt` and the folders, and the unused dependencies in it."""
    listed = crates()
    there = [name for name in os.listdir(os.path.join(suite.ROOT, "crates"))
             if os.path.exists(os.path.join(suite.ROOT, "crates", name, "src"))]
    differ = [suite.difference("the crates", sorted(there), sorted(listed))] if sorted(there) != sorted(listed) else []
    return differ + idle_edges(wrong.stands_on(suite.ROOT))

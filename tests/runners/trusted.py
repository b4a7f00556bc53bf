#!/usr/bin/env python3
"""Compares docs/TRUSTED.md with the definitions that the contracts of the public calls and the laws use: the files that an auditor must read.

    python3 tests/runners/trusted.py [--write]

A contract uses the definitions that its clauses name, by the `ghost use` lines of its file. It also uses those of the views of types and of
the traits in its signature, and all definitions that these files use in turn. A path through `specs.declared` or `specs.contracts` names a
file of `src`, whose types and constants are read there, as are the types and traits of the signature. --write generates the tables of
docs/TRUSTED.md. The first comment of each such file must name a public source, or say that the file is this project's own choice. A file of
`specs` outside `specs/inside` must be used by such a contract. The definitions of `compile` have a limited size, in files and by name
(`meant.py`). The page has a paragraph for each call and each law, a line for each name of the library that is meant, and each sign that
occurs in what is meant. The last line is `N passed, M failed`, of calls, laws, files, crates, names, signs and that limit.
"""
import argparse
import functools
import os
import re
import sys

import suite  # first: it makes the tools importable
import meant

PAGE = os.path.join(suite.ROOT, "docs", "TRUSTED.md")
CRATES = os.path.join(suite.ROOT, "crates")
# The public calls: for each, the symbol that stands for it in the tables of docs/TRUSTED.md, its name, its
# crate, and the type of the receiver if the call is a method.
CALLS = (
    ("a", "accept", "cyc_front", None),
    ("c", "compile", "cyc_compiler", None),
    ("c", "compile_with", "cyc_compiler", None),
    ("b", "bounds", "cyc_compiler", None),
    ("r", "run", "cyc_emulator", None),
    ("r", "run_plain", "cyc_emulator", None),
    ("r", "run_counting", "cyc_emulator", None),
    ("r", "run_with", "cyc_emulator", None),
    ("d", "disassemble", "cyc_emulator", None),
    ("m", "step", "cyc_machine", "Machine"),
    ("p", "PageStore", "cyc_pagestore", None),
    ("e", "read_image", "cyc_elf", None),
    ("f", "format", "cyc_format", None),
    ("i", "run_source", "cyc_interpret", None),
    ("i", "Course", "cyc_interpret", None),
    ("t", "load", "cyc_resuming", None),
    ("t", "resume", "cyc_resuming", None),
)
# The crates whose laws have rows and paragraphs on the page, each with the symbol that stands for them in the tables.
LAWS = (("a", "cyc_front"), ("b", "cyc_bound"), ("l", "cyc_image"), ("l", "cyc_compiler"), ("s", "cyc_system"), ("t", "cyc_resuming"))
# The crates with definitions in `specs/` that public contracts use.
PUBLIC = ("cyc_front", "cyc_image", "cyc_compiler", "cyc_emulator", "cyc_system", "cyc_machine_model", "cyc_machine", "cyc_store", "cyc_elf", "cyc_isa", "cyc_format", "cyc_bound", "cyc_interpret", "cyc_resuming")
# Results of the front end that the program uses only for its messages; docs/TRUSTED.md promises
# nothing about them.
FOR_MESSAGES = ("run_phases", "Phases", "compile_with_tokens", "Compilation", "compile_with_places", "Placed", "bounds_with_tokens", "Bounded")
# For each public source: the words by which the first comment of a file names the source.
SOURCES = (
    ("Cyclone's manual", r"Cyclone (User's )?[Mm]anual|User's Manual"),
    ("Grossman et al.", r"Grossman et al\."),
    ("ISO C", r"ISO C\b"),
    ("MIPS32", r"MIPS32 architecture"),
    ("System V ABI", r"System V ABI"),
    ("own choice", r"own choice"),
)
INSIDE = "inside"
# The maximum numbers that a reader must read to trust `compile`: of files of definitions, of their lines, and of the lines of those
# definitions in them that are meant by name.
MOST_FILES, MOST_LINES, MOST_BY_NAME = 81, 9_600, 5_550
CALL_TABLE = "| Call | Mark | Files | Lines | By name | Files of types | Lines |\n|---|---|---|---|---|---|---|\n"
LAW_TABLE = "| Law | Crate | Mark | Files | Lines | By name | Files of types | Lines |\n|---|---|---|---|---|---|---|---|\n"
# The heads of the section and of the table that are written by hand: the signs of definitions, and the names of the library.
SIGNS, NAMES = "## How a definition is read\n", "| Name | What it is |\n|---|---|\n"
SIGN = re.compile(r"[^\w\s\"'(){},;`◌]+|λ")
KEYWORDS = ("abbrev", "unfoldable", "data", "record", "where", "let", "in")
FILE_TABLE = "| File | Lines | Calls | What it says | Source |\n|---|---|---|---|---|\n"
TYPE_TABLE = "| File | Lines | Calls | What is read there |\n|---|---|---|---|\n"


@functools.lru_cache(maxsize=None)
def content(path):
    with open(path, encoding="utf-8") as file:
        return file.read()


def lines_of(path):
    return content(path).count("\n")


def named(path):
    """Returns the name of a file on the page."""
    return os.path.relpath(path, CRATES)


def crate_of(path):
    return named(path).split(os.sep)[0]


@functools.lru_cache(maxsize=None)
def crates():
    """Returns the crates in the order of crates.txt."""
    lines = content(os.path.join(suite.ROOT, "crates.txt")).splitlines()
    return [line.split(":")[0] for line in lines if line and not line.startswith("#")]


def files_below(folder, ending):
    """Returns the files with this extension in a folder and below it, in order."""
    found = []
    for place, _, names in os.walk(folder):
        found += [os.path.join(place, name) for name in names if name.endswith(ending)]
    return sorted(found)


def spec_modules(crate):
    """Returns the modules of a crate's `specs`, without those that only list others."""
    folder = os.path.join(CRATES, crate, "specs")
    return [path for path in files_below(folder, ".antt") if re.search(r"(?m)^(?!--|(pub )?mod |pub use [\w.]+$|$)", content(path))]


def path_of(words, folder, ending):
    """Returns the longest prefix of a path that is a file in this folder."""
    for count in range(len(words), 0, -1):
        path = os.path.join(folder, *words[:count]) + ending
        if os.path.exists(path):
            return path, words[count:]
    return None, words


@functools.lru_cache(maxsize=None)
def target_of(path):
    """Returns the file of this repository that a path of a `use` line names, and the rest of the path; None for other files."""
    words = path.split(".")
    if words[0] != "Rattle" or not os.path.isdir(os.path.join(CRATES, words[1])) or words[2:3] != ["specs"]:
        return None, []
    crate = os.path.join(CRATES, words[1])
    if words[3] in ("declared", "contracts"):
        return path_of(words[4:], os.path.join(crate, "src"), ".rt")
    below = passed_on(crate, words[3])
    if below:
        return target_of(".".join([below] + words[4:]))
    return path_of(words[3:], os.path.join(crate, "specs"), ".antt")


def passed_on(crate, name):
    """Returns the path of the module of a lower crate that a crate re-exports by this name, if it does."""
    lines = os.path.join(crate, "specs", "Lib.antt")
    found = re.search(rf"(?m)^pub use ([\w.]+\.specs\.{name})$", content(lines)) if os.path.exists(lines) else None
    return found and found[1]


@functools.lru_cache(maxsize=None)
def uses_of(text):
    """Returns the `use` lines for definitions in a text: the path, the imported names, and the alias."""
    pattern = r"(?m)^ *(?:pub )?(?:ghost )?use (Rattle\.[^\s{;]*?)\.?(?:\{([^}]*)\})?(?: as ([^\s;]+))?;?$"
    return [(path, [part.strip() for part in names.split(",") if part.strip()], name) for path, names, name in re.findall(pattern, text)]


class Reading:
    """The files to be read, as far as known: files of definitions, and the names that are read in files of types."""

    def __init__(self):
        self.specs = set()
        self.types = {}
        self.meaning = meant.Meaning(content, target_of)
        # The texts of the contracts themselves.
        self.texts = []

    def mean(self, path, names):
        """Adds what a contract names of a `use` line: the files, and the definitions by name."""
        self.add(path, names)
        file, rest = target_of(path)
        if file and file.endswith(".antt"):
            self.meaning.add(file, [re.split(" as ", name)[0] for name in names] or rest)
        elif file is None and names and meant.LIBRARY.match(path):
            for name in names:
                self.meaning.library.setdefault(re.split(" as ", name)[0], path)

    def add(self, path, names):
        """Adds the target of a `use` line, and all that the target uses."""
        file, rest = target_of(path)
        if file is None:
            return
        if file.endswith(".rt"):
            if rest[:1] == ["TheConstants"]:
                read = names
            else:
                read = rest[:1] or [re.sub("^the_", "", name) for name in names[:1]]
            self.types.setdefault(file, set()).update(read)
        elif file not in self.specs:
            self.specs.add(file)
            for path, names, _ in uses_of(content(file)):
                self.add(path, names)


class Source:
    """A file of Rust: its items, and the origins of its names."""

    def __init__(self, path):
        self.path = path
        self.text = content(path)
        self.items = self.split()

    def split(self):
        """Splits the file into top-level items, each from its first line to the line before the next item."""
        items, lines = [], self.text.split("\n")
        for line in lines:
            if re.match(r"(pub |ghost )?(const |unsafe )?(fn|struct|enum|trait|impl|const|use|mod|macro_rules|type)\b", line):
                items.append([])
            if items:
                items[-1].append(line)
        return ["\n".join(item) for item in items]

    def named(self, words):
        """Returns the items that begin with these words."""
        return [item for item in self.items if re.match(words, item)]


@functools.lru_cache(maxsize=None)
def source(path):
    return Source(path)


@functools.lru_cache(maxsize=None)
def declaring(crate, name):
    """Returns the file of a crate that declares this type, trait or function, with the item."""
    for path in files_below(os.path.join(CRATES, crate, "src"), ".rt"):
        for item in source(path).named(rf"pub (const |unsafe )?(struct|enum|trait|fn) {name}\b"):
            return path, item
    return None, None


def rust_uses(text):
    """Returns the crate of each name that a file imports, or None for its own crate."""
    found = {}
    for path, names in re.findall(r"(?ms)^use ((?:\w+::)+)(\{[^}]*\}|\w+)[^;]*;", text):
        crate = path.split("::")[0]
        for name in re.findall(r"\w+", names):
            found[name] = crate if os.path.isdir(os.path.join(CRATES, crate)) else None
    return found


def signature_of(text):
    """Returns a function's signature with its clauses, without its body: it ends at a bracket on a line that is no clause, or at a
    semicolon."""
    lines = text.split("\n")
    for count, line in enumerate(lines):
        is_clause = line.lstrip().startswith(("requires", "ensures"))
        if line.endswith(";") or line.endswith(("{", "{}")) and not is_clause:
            return "\n".join(lines[:count + 1])
    return text


def functions_in(block, public):
    """Returns the signatures of the functions of an `impl` or a trait."""
    found, lines = [], block.split("\n")
    for count, line in enumerate(lines):
        if re.match(r"    pub (const |unsafe )?fn " if public else r"    (pub )?(const |unsafe )?fn ", line):
            found.append(signature_of("\n".join(lines[count:])))
    return found


def without_comments(text):
    return re.sub(r"(?m)^ *//.*$", "", text)


def read_names(reading, text, file, extra=""):
    """Adds the definitions of the names in a text, by the `ghost use` lines of its file and of the enclosing block."""
    words = set(re.findall(r"(?<![\w.'])[\w'-]+", without_comments(text)))
    reading.texts.append(without_comments(text))
    for path, names, name in uses_of("\n".join(source(file).named("ghost use")) + "\n" + extra):
        if name:
            if name in words:
                reading.mean(path, names or re.findall(rf"\b{name}\.([\w'-]+)", text))
        else:
            taken = [part for part in names if re.split(" as ", part)[-1] in words]
            if taken:
                reading.mean(path, taken)


def read_contract(reading, signature, file, crate, seen, block=""):
    """Adds the definitions that a signature with its clauses uses."""
    ghost = "\n".join(line for line in block.split("\n") if line.lstrip().startswith("ghost use"))
    read_names(reading, signature, file, ghost)
    takes = rust_uses(source(file).text)
    for name in sorted(set(re.findall(r"\b[A-Z]\w*", without_comments(signature)))):
        read_type(reading, takes.get(name) or crate, name, seen)


def read_type(reading, crate, name, seen):
    """Adds the definitions of a type's view, or of the contracts of a trait's methods. A name of another library adds nothing."""
    file, item = declaring(crate, name)
    if file is None or (crate, name) in seen:
        return
    seen.add((crate, name))
    if not item.startswith("pub fn"):
        reading.types.setdefault(file, set()).add(name)
    if item.startswith("pub trait"):
        for signature in functions_in(item, False):
            read_contract(reading, signature, file, crate, seen, item)
        read_names(reading, "\n".join(re.findall(r"(?m)^    ghost (?!use).*$", item)), file)
    elif item.startswith(("pub struct", "pub enum")):
        for place in files_below(os.path.join(CRATES, crate, "src"), ".rt"):
            for view in source(place).named(rf"impl(<[^{{]*>)? Model for {name}\b"):
                ghost = "\n".join(line for line in view.split("\n") if "ghost use" in line)
                read_names(reading, "\n".join(re.findall(r"(?ms)^    ghost (?:Value|view) = .*?;$", view)), place, ghost)


def methods_of(crate, name):
    """Returns the public methods of a type, each with its file and its block."""
    for file in files_below(os.path.join(CRATES, crate, "src"), ".rt"):
        for block in source(file).named(rf"impl(<[^{{]*>)? {name}\b"):
            for signature in functions_in(block, True):
                yield file, block, signature


def read_traits(reading, crate, name, seen):
    """Adds the contracts of the traits of this repository that a type implements."""
    for file in files_below(os.path.join(CRATES, crate, "src"), ".rt"):
        for block in source(file).named(rf"impl(<[^{{]*>)? \w+ for {name}\b"):
            trait = re.search(r" (\w+) for ", block).group(1)
            read_type(reading, rust_uses(source(file).text).get(trait) or crate, trait, seen)


@functools.lru_cache(maxsize=None)
def reading_of(name, crate, owner=None):
    """Returns the definitions that a public call uses; for a type, those of its public methods."""
    reading, seen = Reading(), set()
    file, item = declaring(crate, owner or name)
    if item.startswith(("pub fn", "pub const fn", "pub unsafe fn")):
        read_contract(reading, signature_of(item), file, crate, seen)
        return reading
    read_type(reading, crate, owner or name, seen)
    for file, block, signature in methods_of(crate, owner or name):
        if not owner or re.search(rf"\bfn {name}\b", signature):
            read_contract(reading, block.split("\n")[0] + signature, file, crate, seen, block)
    if not owner:
        read_traits(reading, crate, name, seen)
    return reading


def public_names(crate):
    """Returns the names that a crate exports, and the files all of whose public functions it exports."""
    top = content(os.path.join(CRATES, crate, "src", "lib.rt"))
    names, files = [], []
    for part in re.findall(r"(?ms)^pub use (?:\w+::)+(\{[^}]*\}|\w+);", top):
        names += re.findall(r"\w+", part)
    for name in re.findall(r"(?m)^pub mod (\w+);", top):
        files.append(os.path.join(CRATES, crate, "src", name + ".rt"))
    return names, files


def public_reading():
    """Returns the definitions that all public contracts of the crates with `specs/` use."""
    reading = Reading()
    for crate in PUBLIC:
        names, files = public_names(crate)
        for name in names:
            if declaring(crate, name)[0] and name not in FOR_MESSAGES:
                merge(reading, reading_of(name, crate))
        for file in files:
            for item in source(file).named(r"pub (const |unsafe )?(fn|struct|enum|trait) "):
                name = re.search(r"(?:fn|struct|enum|trait) (\w+)", item).group(1)
                if item.startswith("pub fn"):
                    read_contract(reading, signature_of(item), file, crate, set())
                else:
                    merge(reading, reading_of(name, crate))
    for _, name, crate, owner in CALLS:
        merge(reading, reading_of(name, crate, owner))
    return reading


def merge(reading, more):
    reading.specs |= more.specs
    reading.texts += more.texts
    reading.meaning.reached.update(more.meaning.reached)
    reading.meaning.library.update(more.meaning.library)
    for file, names in more.types.items():
        reading.types.setdefault(file, set()).update(names)


def reading_order(files):
    """Returns files of definitions ordered so that each follows those that it uses, crate by crate along the pipeline."""
    ordered = []

    def place(file):
        if file in ordered or file not in files:
            return
        for path, _, _ in uses_of(content(file)):
            below = target_of(path)[0]
            if below and below.endswith(".antt") and below != file and crate_of(below) == crate_of(file):
                place(below)
        ordered.append(file)

    for crate in crates():
        for file in sorted(file for file in files if crate_of(file) == crate):
            place(file)
    return ordered


def head_of(file):
    """Returns the comment at the beginning of a file, as one line."""
    head = []
    for line in content(file).splitlines():
        if not line.startswith("--"):
            break
        head.append(line[2:].strip())
    return " ".join(head)


def sentence_of(head):
    """Returns the first sentence of a file's first comment."""
    return re.split(r"(?<=\.) +(?=[A-Z(`])", head)[0].strip()


def sources_of(head):
    """Returns the public sources that a file's first comment names."""
    return [name for name, words in SOURCES if re.search(words, head, re.I)]


def laws_of(crate):
    """Returns the names of a crate's laws, in the order of their file."""
    return re.findall(r"(?m)^pub fn (\w+)\(", content(os.path.join(CRATES, crate, "src", "laws.rt")))


@functools.lru_cache(maxsize=None)
def law_reading(name, crate):
    reading, file = Reading(), os.path.join(CRATES, crate, "src", "laws.rt")
    item = next(item for item in source(file).items if re.match(rf"pub fn {name}\(", item))
    read_contract(reading, signature_of(item), file, crate, set())
    return reading


def figures(reading):
    """Returns the cells of a row that say how much is read."""
    lines, types = sum(map(lines_of, reading.specs)), sum(map(lines_of, reading.types))
    return f"{len(reading.specs)} | {lines:,} | {reading.meaning.count():,} | {len(reading.types)} | {types:,} |"


def tables():
    """Returns the four tables of the page that are made, and the reading of all calls and laws."""
    readings = [(mark, owner and f"{owner}::{name}" or name, reading_of(name, crate, owner)) for mark, name, crate, owner in CALLS]
    calls = "".join(f"| `{name}` | {mark} | {figures(reading)}\n" for mark, name, reading in readings)
    of_laws = [(mark, name, crate) for mark, crate in LAWS for name in laws_of(crate)]
    laws = "".join(f"| `{name}` | `{crate}` | {mark} | {figures(law_reading(name, crate))}\n" for mark, name, crate in of_laws)
    readings += [(mark, name, law_reading(name, crate)) for mark, name, crate in of_laws]
    marks = list(dict.fromkeys(mark for mark, _, _ in readings))
    union = Reading()
    for _, _, reading in readings:
        merge(union, reading)

    def needed(file):
        return "".join(mark for mark in marks if any(file in reading.specs or file in reading.types for other, _, reading in readings if other == mark))

    files = ""
    for file in reading_order(union.specs):
        head = head_of(file)
        files += f"| `{named(file)}` | {lines_of(file)} | {needed(file)} | {sentence_of(head)} | {', '.join(sources_of(head))} |\n"
    types = ""
    for file in sorted(union.types, key=lambda file: (crates().index(crate_of(file)), file)):
        names = ", ".join(f"`{name}`" for name in sorted(union.types[file]))
        types += f"| `{named(file)}` | {lines_of(file)} | {needed(file)} | {names} |\n"
    return [(CALL_TABLE, calls), (LAW_TABLE, laws), (FILE_TABLE, files), (TYPE_TABLE, types)], union


def section_of(page, head):
    start = page.index(head) + len(head)
    return page[start:].split("\n## ")[0]


def signs_of(reading):
    """Returns the signs and the keywords in the definitions that a reading means, and in the clauses of the contracts."""
    texts = ["\n".join(definition.lines) for definition in reading.meaning.reached.values()]
    clauses = [clause for text in reading.texts for clause in re.findall(r"(?s)\bensures\b.*", text)]
    plain = re.sub(r'"(?:[^"\\]|\\.)*"', "", "\n".join(texts + clauses))
    return set(SIGN.findall(plain)) | {word for word in KEYWORDS if re.search(rf"(?m)^ *(?:abbrev )?(?:pub )?{word}\b|\b{word} ", plain)}


def faults_of_words(page, union):
    """Returns what the page lacks of what is written by hand: paragraphs of calls and laws, signs, and names of the library. Returns how
    many of these are there too."""
    told = set(re.findall(r"\*\*`([\w:]+)", page))
    calls = [owner and f"{owner}::{name}" or name for _, name, _, owner in CALLS] + [name for _, crate in LAWS for name in laws_of(crate)]
    faults = [f"docs/TRUSTED.md has no paragraph on {name}" for name in calls if name not in told]
    shown = " ".join(re.findall(r"`+([^`]+)`+", section_of(page, SIGNS).replace("\\|", "|")))
    signs = sorted(signs_of(union))
    faults += [f"docs/TRUSTED.md does not say how {sign} is read" for sign in signs if sign not in shown.split() and sign not in SIGN.findall(shown)]
    start, end = table_in(page, NAMES)
    # In a table a bar has a stroke before it.
    rows = {name.replace("\\|", "|") for row in page[start:end].splitlines() for name in re.findall(r"`([^`]+)`", row.split(" | ")[0])}
    wanted = {name for name in union.meaning.library}
    faults += [f"docs/TRUSTED.md has no line on {name} of {union.meaning.library[name]}" for name in sorted(wanted - rows)]
    faults += [f"docs/TRUSTED.md has a line on {name}, which is not meant" for name in sorted(rows - wanted)]
    return faults, len(calls) + len(signs) + len(wanted | rows) - len(faults)


def table_in(page, head):
    """Returns the position of a table's rows in the page."""
    if head not in page:
        return None
    start = page.index(head) + len(head)
    end = page.find("\n\n", start - 1)
    return start, len(page) if end < 0 else end + 1


def strangers():
    """Returns the files of `specs` outside `inside` that no public contract uses, and the files in `inside` that one uses."""
    used = public_reading().specs
    for crate in crates():
        for file in spec_modules(crate):
            within = f"{os.sep}specs{os.sep}{INSIDE}{os.sep}" in file
            if (file in used) == within:
                yield file, within


def main():
    parser = argparse.ArgumentParser(description=__doc__.split("\n")[0])
    parser.add_argument("--write", action="store_true")
    asked = parser.parse_args()
    made, union = tables()
    page = content(PAGE)
    if asked.write:
        for head, rows in made:
            start, end = table_in(page, head)
            page = page[:start] + rows + page[end:]
        with open(PAGE, "w", encoding="utf-8") as file:
            file.write(page)
        return
    passed, faults = 0, []
    for head, rows in made:
        place = table_in(page, head)
        there = page[slice(*place)].splitlines() if place else []
        wanted = rows.splitlines()
        faults += [f"docs/TRUSTED.md lacks: {row}" for row in wanted if row not in there]
        faults += [f"docs/TRUSTED.md has too much: {row}" for row in there if row not in wanted]
        passed += sum(row in there for row in wanted)
        if sorted(there) == sorted(wanted) and there != wanted:
            faults.append(f"docs/TRUSTED.md has rows in another order, from: {next(row for row, other in zip(there, wanted) if row != other)}")
    for file in reading_order(union.specs):
        if sources_of(head_of(file)):
            passed += 1
        else:
            faults.append(f"{named(file)} names no public source in its head, and does not say that it is this project's own choice")
    wrong = list(strangers())
    faults += [f"{named(file)} {'is meant by a public contract, and stands inside' if within else 'is meant by no public contract'}" for file, within in wrong]
    passed += sum(all(crate_of(file) != crate for file, _ in wrong) for crate in crates())
    lacking, there = faults_of_words(page, union)
    faults, passed = faults + lacking, passed + there
    reading = reading_of("compile", "cyc_compiler")
    read = len(reading.specs), sum(map(lines_of, reading.specs)), reading.meaning.count()
    if all(one <= most for one, most in zip(read, (MOST_FILES, MOST_LINES, MOST_BY_NAME))):
        passed += 1
    else:
        faults.append("compile means {} files, {} lines, {} of them by name; ".format(*read)
                      + f"at most {MOST_FILES}, {MOST_LINES} and {MOST_BY_NAME} are to be read")
    for fault in faults:
        print(f"FAILED {fault}")
    print(f"{passed} passed, {len(faults)} failed")
    sys.exit(bool(faults))


if __name__ == "__main__":
    main()

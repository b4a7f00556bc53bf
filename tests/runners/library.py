#!/usr/bin/env python3
"""Tests the library in source, `lib/`, with the programs in tests/lib, and reports failures.

    python3 tests/runners/library.py [--program PATH]

`NAME.cyc` is checked, compiled and run with lib/ as an example is, with `NAME.in` and `NAME.out` beside it. Of these programs and of the
examples `--emit` writes the text that a second reading joins (`references/with_library.py`), and of that text alone the image is the same.
Each declaration of `lib/NAME.cyc` is reached by `tests/lib/NAME.cyc`. Each file of lib/ is laid out as `format` lays
it out; its names have an underscore, and no name is declared twice. No function of lib/ calls itself, and as many calls are under way as
the comment at the top of the file says; `cyclone bound` says the same of each program, by the calls that a second reading finds. It has a
bound on pages, unless a comment of the file says that a loop leaves them without one. A hint that names a file of lib/ for a name is right:
the file declares it (docs/habits.txt). The last line is `N passed, M failed`.
"""
import functools
import os
import re
import tempfile

import suite  # first: it makes the references and the generators importable
import codes
import examples
from with_library import LIBRARY, Clash, content, declarations_of, whole

FOLDER = os.path.join(suite.ROOT, "lib")
PROGRAMS = os.path.join(suite.TESTS, "lib")
WORDS = ("no", "one", "two", "three", "four", "five", "six")
MOST_CALLS = re.compile(r"at\s+most\s+(\w+)\s+calls?\s")
# The patterns of two hints of the compiler. The first hint names the library function to write in
# place of a C function; the second hint names the library file that declares a missing name.
INSTEAD = re.compile(r"write (\w+)\(.*\bcompile --with lib/(\w+\.cyc)")
DECLARES = re.compile(r"compile --with lib/(\w+\.cyc), which declares it")
NO_BOUND = re.compile(r"pages\s+of\s+a\s+program\s+without\s+a\s+bound")


@functools.cache
def libraries():
    """The files of the library by their names."""
    return {os.path.basename(path): content(path) for path in LIBRARY}


def heights(declarations):
    """Returns the maximum depth of calls of each function, counting itself; None for a recursive function."""
    by_name = {it.declared[0]: it for it in declarations if it.is_function}
    found = {}

    def height(name, above):
        if name in above:
            return None
        if name not in found:
            below = [height(callee, above | {name}) for callee in set(by_name[name].called) & set(by_name)]
            found[name] = None if None in below else 1 + max(below, default=0)
        return found[name]

    return {name: height(name, frozenset()) for name in by_name}


def faults_of_names(name):
    """Returns the faults of the names in a file."""
    others = {one for other, text in libraries().items() if other != name for it in declarations_of(text) for one in it.declared}
    own = [one for it in declarations_of(libraries()[name]) for one in it.declared]
    faults = [f"{one} has no underscore" for one in own if "_" not in one]
    faults += [f"{one} is declared twice" for one in sorted(set(own)) if own.count(one) > 1 or one in others]
    return faults


def faults_of_calls(name):
    """Returns the differences between the comment at the top of a file and the calls of its functions."""
    found = heights([it for text in libraries().values() for it in declarations_of(text)])
    own = {it.declared[0]: found[it.declared[0]] for it in declarations_of(libraries()[name]) if it.is_function}
    faults = [f"{one} may call itself" for one, height in own.items() if height is None]
    said = MOST_CALLS.search(libraries()[name].split("*/")[0])
    if not said:
        return faults + ["the comment at the top does not say how many calls are under way at most"]
    most = WORDS[max((height for height in own.values() if height), default=0)]
    return faults + ([] if said[1] == most else [f"at most {said[1]} calls are under way: they are {most}"])


def faults_of_hints(name):
    """Returns the names for which a hint names a file that does not declare them."""
    own = {one for it in declarations_of(libraries()[name]) for one in it.declared}
    named = set()
    for habit in codes.habits():
        use, declared = INSTEAD.match(habit.hint), DECLARES.match(habit.hint)
        named |= {use[1]} if use and use[2] == name else set()
        named |= set(codes.listed(habit.at)) if declared and declared[1] == name else set()
    return [f"a hint says that it declares {one}" for one in sorted(named - own)]


def faults_of_layout(program, name):
    done = suite.run([program, "format", os.path.join(FOLDER, name)])
    return [] if done.stdout.decode("latin-1") == libraries()[name] else ["format lays it out otherwise"]


def faults_of_bounds(program, source, text, has_pages):
    """What `bound` says otherwise of a program, whose height `main` has."""
    wanted = heights(declarations_of(text))["main"]
    lines = suite.run([program, "bound", source, *examples.WITH]).stdout.decode().split("\n")
    faults = [] if f"calls {wanted}" in lines else [suite.difference("bound", f"calls {wanted}", lines)]
    if has_pages and not any(re.fullmatch(r"pages \d+", line) for line in lines):
        faults.append("there is no bound on its pages")
    return faults


def faults_of_text(program, source, folder):
    """What `--emit` writes otherwise than a second reading joins, and what the image of that text is otherwise than that of the program."""
    image, emitted, alone = (os.path.join(folder, name) for name in ("joined.elf", "joined.cyc", "alone.elf"))
    last = suite.answer([program, "compile", source, *examples.WITH, "--emit", emitted, "-o", image])[1]
    if last != "done":
        return [f"compile --emit: {last}"]
    faults = [] if content(emitted) == whole(source) else [suite.difference("the text of --emit", whole(source), content(emitted))]
    last = suite.answer([program, "compile", emitted, "-o", alone])[1]
    return faults + ([] if last == "done" and content(alone) == content(image) else [f"the text of --emit has another image: {last}"])


def faults_of_program(program, name, folder):
    """What a program with its library does otherwise than its files say, and what of lib/ it does not try."""
    source, library = os.path.join(PROGRAMS, name), libraries()[name]
    try:
        text = whole(source)
    except Clash as error:
        return [str(error)]
    missing = [it.declared[0] for it in declarations_of(library) if it.text not in text]
    faults = [f"it does not try {one}" for one in missing] + faults_of_text(program, source, folder)
    faults += examples.faults_of(program, source, source.removesuffix(".cyc"), folder)
    return faults + faults_of_bounds(program, source, text, not NO_BOUND.search(library))


def faults_of_folder():
    """Returns the files of lib/ without a program, and the programs without a file."""
    return [f"{name} stands only in one of lib and tests/lib" for name in sorted(
        set(libraries()) ^ {name for name in os.listdir(PROGRAMS) if name.endswith(".cyc")})]


def main():
    options = suite.command_line(__doc__).parse_args()
    joined = sorted(os.path.join(examples.FOLDER, name) for name in os.listdir(examples.FOLDER) if name.endswith(".out"))
    program = suite.program_of(options, 1 + 5 * len(libraries()) + len(joined))
    with tempfile.TemporaryDirectory(prefix="cyclone-library-") as folder:
        things = [("lib and tests/lib", faults_of_folder)]
        for name in libraries():
            things += [(f"lib/{name}: names", lambda name=name: faults_of_names(name)),
                       (f"lib/{name}: calls", lambda name=name: faults_of_calls(name)),
                       (f"lib/{name}: hints", lambda name=name: faults_of_hints(name)),
                       (f"lib/{name}: layout", lambda name=name: faults_of_layout(program, name)),
                       (f"tests/lib/{name}", lambda name=name: faults_of_program(program, name, folder))]
        for path in joined:
            things.append((f"examples/{os.path.basename(path)}", lambda path=path: faults_of_text(program, path.replace(".out", ".cyc"), folder)))
        suite.try_each(things, lambda thing: thing[0], lambda thing: thing[1]())


if __name__ == "__main__":
    main()

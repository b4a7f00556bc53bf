#!/usr/bin/env python3
"""Measures the quality of the code: instructions that equal programs execute, in this language and in C. Not a test, but it fails if the
outputs of a pair differ.

    make bench        or        python3 bench/pairs.py [NAME ..]

Each pair of bench/pairs/ is NAME.cyc and NAME.c, with the input NAME.in if they read one. `cyclone compile` makes an image of the one, and
mips-linux-gnu-gcc two of the other, without optimisation (-O0) and with its first level (-O1), for the same machine: its services are in
start.s, and machine.h declares them. The fourth image is made by mips-linux-gnu-g++ -O1 from the C program with the pointers of checked.h,
which checks each access as this language does: the same work with a good optimiser. The fifth is made as the fourth, with the whole program
known (-fwhole-program), as it is known here: no other file calls a function, so each may be inlined and left out. All five images must have
the same output and result. The machine counts the instructions, and `run --report` reports them. The pairs are grouped by style, each group
with its geometric means. Those of the group APART are of many styles: who works on a pass reads their figures alone, and neither their
texts nor their images, so that they say what a pass does to programs that it was not made for.

With --sizes the table has the sizes of the images, in words of text, compared with those of both compilers with -Os; nothing is run. What
an image has before the program, to start it and for its services, is not counted: for C that is start.s, and here what --places calls
`start`.
"""
import argparse
import concurrent.futures
import functools
import json
import math
import os
import re
import shutil
import struct
import subprocess
import sys
import tempfile

HERE = os.path.dirname(os.path.abspath(__file__))
PROGRAM = os.path.join(HERE, "..", "crates", "cyclone", "out", "cyclone")
PAIRS = os.path.join(HERE, "pairs")
GCC, GXX = "mips-linux-gnu-gcc", "mips-linux-gnu-g++"
LEVELS = ("-O0", "-O1")
CHECKED, STATIC = "checked -O1", "checked static"
WHOLE = "-fwhole-program"
SMALL = "-Os"
APART = "kept from tuning"
GROUPS = {
    "ints, calls, exceptions": "arithmetic collatz dispatch divisors errors fibonacci loop mandelbrot throws",
    "arrays of ints": "bytecode factorials fourier heapsort knapsack matrices mazes queens quicksort sieve sudoku",
    "chars": "base64 checks echo fields letters numerals runs search strings tokens wildcards words",
    "structs behind pointers": "events formulas hashes inserted list merged search_tree tree unique vectors",
    "small functions in loops": "edits fractions grids rotations stacks",
    "tables of tables": "boards roads",
    "lengths by `numelts` or constant in `main`": "checksums scanning tallies",
    APART: "accounts cache calendar huffman replaced slices unions",
}
# Restricts gcc to the machine's instructions: no traps on division by 0, no branch-likely instructions (which may skip their
# delay slot), no registers that the machine lacks.
FLAGS = "-w -fwrapv -mips2 -mabi=32 -msoft-float -mno-abicalls -fno-pic -G0 -mno-check-zero-division -mno-branch-likely".split()
FLAGS += "-ffreestanding -fno-builtin -nostdlib -static -Wl,--build-id=none".split()
LINKED = ["-x", "none", os.path.join(PAIRS, "start.s"), "-Wl,-T," + os.path.join(PAIRS, "layout.ld")]
# If a program is compiled as C++ with these options, it performs the checks that the language
# requires for each memory access.
AS_CHECKED = ["-x", "c++", "-fno-exceptions", "-fno-rtti", "-I", PAIRS]
# The layout of an ELF32 file's header up to its segment table, and the layout of a table entry; the lowest bit of a segment's flags
# marks code.
LOADED, CODE = 1, 1
MOST = 1_000_000_000
SHOWN = 40


class Fault(Exception):
    """The reason why a pair has no figures."""


def compiled(words):
    """Runs a compiler, which must not reject its text."""
    done = subprocess.run(words, capture_output=True, text=True, errors="replace")
    if done.returncode != 0:
        raise Fault(f"{os.path.basename(words[0])} refuses it: {done.stderr.strip()}")


def run(program, image, given):
    """Returns the output and the last line of an image, and the number of executed instructions."""
    report = image + ".json"
    done = subprocess.run([program, "run", image, "--steps", str(MOST), "--report", report], input=given, capture_output=True)
    with open(report, encoding="utf-8") as file:
        count = json.load(file)["instructions"]
    return (done.stdout, done.stderr.decode("latin-1").rstrip("\n").split("\n")[-1]), count


def difference(in_c, here):
    """Returns the difference between a run of the C program and one of the Cyclone program."""
    at = len(os.path.commonprefix([in_c[0], here[0]]))
    texts = [f"{output[at:at + SHOWN]!r} and ends with `{last}`" for output, last in (in_c, here)]
    return f"it prints, behind {at} bytes, {texts[0]}, and here {texts[1]}"


def text_words(image):
    """Returns the number of words of an image's code."""
    with open(image, "rb") as file:
        data = file.read()
    (first,), (size, count) = struct.unpack_from(">I", data, 28), struct.unpack_from(">HH", data, 42)
    segments = [struct.unpack_from(">8I", data, first + size * number) for number in range(count)]
    return sum(length for kind, _, _, _, length, _, flags, _ in segments if kind == LOADED and flags & CODE) // 4


def in_c(options, source, level, image):
    """Compiles the program in C to an image."""
    compiled([options.gcc, level, "-I", PAIRS] + FLAGS + [source + ".c", "-o", image] + LINKED)


def in_checked_c(options, source, level, image, *more):
    """Compiles the program in C to an image, with all checks."""
    compiled([options.gxx, level, *more] + FLAGS + AS_CHECKED + [source + ".c", "-o", image] + LINKED)


@functools.cache
def start_in_c(gcc):
    """Returns the number of words of text that each image in C has before the program."""
    with tempfile.TemporaryDirectory() as folder:
        image = os.path.join(folder, "start.elf")
        compiled([gcc] + FLAGS + LINKED + ["-Wl,--defsym,main=0x400000", "-o", image])
        return text_words(image)


def start_here(places):
    """Returns the number of words of text before the program's functions, by the table of places of an image."""
    with open(places, encoding="utf-8") as file:
        start, end = re.search("^([0-9a-f]{8}) start\n([0-9a-f]{8}) ", file.read(), re.M).groups()
    return (int(end, 16) - int(start, 16)) // 4


def sizes_of(name, options):
    """Returns the words of text of a pair: the program in this language, and the one in C, without checks and with all."""
    source = os.path.join(options.pairs, name)
    with tempfile.TemporaryDirectory() as folder:
        images = [os.path.join(folder, which + ".elf") for which in ("ours", "small", "checked")]
        places = os.path.join(folder, "places")
        compiled([options.program, "compile", source + ".cyc", "-o", images[0], "--places", places])
        in_c(options, source, SMALL, images[1])
        in_checked_c(options, source, SMALL, images[2])
        starts = [start_here(places)] + 2 * [start_in_c(options.gcc)]
        return [text_words(image) - start for image, start in zip(images, starts)]


def counts_of(name, options):
    """Returns the instruction counts of a pair: the program in this language, and the one in C, by level, and twice with all checks."""
    source, given = os.path.join(options.pairs, name), b""
    if os.path.exists(source + ".in"):
        with open(source + ".in", "rb") as file:
            given = file.read()
    with tempfile.TemporaryDirectory() as folder:
        images = [os.path.join(folder, which + ".elf") for which in ("ours", *LEVELS, "checked", "static")]
        compiled([options.program, "compile", source + ".cyc", "-o", images[0]])
        for level, image in zip(LEVELS, images[1:]):
            in_c(options, source, level, image)
        in_checked_c(options, source, LEVELS[-1], images[-2])
        in_checked_c(options, source, LEVELS[-1], images[-1], WHOLE)
        runs = [run(options.program, image, given) for image in images]
        ends = [end for end, _ in runs]
        for level, end in zip((*LEVELS, CHECKED, STATIC), ends[1:]):
            if not end[1].startswith("returned "):
                raise Fault(f"with {level} it ends with: {end[1]}")
            if end != ends[0]:
                raise Fault(f"with {level} {difference(end, ends[0])}")
        return [count for _, count in runs]


def mean(ratios):
    """Returns the geometric mean, for which a factor of 2 and a factor of 1/2 cancel."""
    return math.exp(sum(math.log(ratio) for ratio in ratios) / len(ratios))


def row_of_means(what, ratios):
    """Returns the line of some programs' geometric means."""
    means = " | ".join(f"{mean(column):.3f}" for column in zip(*ratios))
    return f"| {what}: geometric mean | | | | | | {means} |"


def table(counts):
    """Returns the lines of the table, for the counts by name, group by group."""
    ratios = {name: [ours / theirs for theirs in others] for name, (ours, *others) in counts.items()}
    others = ("`-O0`", "`-O1`", CHECKED, STATIC)
    counted = ("`cyclone compile`", "`gcc -O0`", "`gcc -O1`", CHECKED, STATIC)
    yield f"| Program | {' | '.join(counted)} | {' | '.join('To ' + other for other in others)} |"
    yield "|" + 10 * "---|"
    for group, names in grouped(counts):
        for name in names:
            numbers = [f"{count:,}" for count in counts[name]] + [f"{ratio:.2f}" for ratio in ratios[name]]
            yield f"| `{name}` | {' | '.join(numbers)} |"
        yield row_of_means(group, [ratios[name] for name in names])
    yield row_of_means("all", list(ratios.values()))


def table_of_sizes(sizes):
    """Returns the lines of the table of sizes."""
    yield f"| Program, words of text | `cyclone compile` | `gcc {SMALL}` | checked {SMALL} | To {SMALL} | To checked {SMALL} |"
    yield "|---|---|---|---|---|---|"
    ratios = []
    for name, (ours, *others) in sizes.items():
        ratios.append([ours / theirs for theirs in others])
        yield f"| `{name}` | {ours:,} | {others[0]:,} | {others[1]:,} | {ratios[-1][0]:.2f} | {ratios[-1][1]:.2f} |"
    yield f"| all: geometric mean | | | | {' | '.join(f'{mean(column):.3f}' for column in zip(*ratios))} |"


def grouped(names):
    """Returns the groups, each with its pairs among these names; a pair outside of all groups is a group by itself."""
    known = {name for group in GROUPS.values() for name in group.split()}
    for group, members in (*GROUPS.items(), ("others", " ".join(name for name in names if name not in known))):
        here = [name for name in members.split() if name in names]
        if here:
            yield group, here


def read_options():
    reader = argparse.ArgumentParser(description="Counts the instructions of equal programs in this language and in C.")
    reader.add_argument("names", nargs="*", metavar="NAME", help="a pair; all where none is named")
    reader.add_argument("--program", default=PROGRAM, help="the compiler and the machine")
    reader.add_argument("--gcc", default=GCC, help="the compiler of C")
    reader.add_argument("--gxx", default=GXX, help="the compiler of C++")
    reader.add_argument("--pairs", default=PAIRS, help="the folder of the pairs")
    reader.add_argument("--sizes", action="store_true", help="how large the images are, and not what they execute")
    return reader.parse_args()


def main():
    options = read_options()
    if not os.access(options.program, os.X_OK):
        sys.exit(f"there is no program {options.program}: `make build` proves and builds it")
    for command, package in ((options.gcc, "gcc-mips-linux-gnu"), (options.gxx, "g++-mips-linux-gnu")):
        if not shutil.which(command):
            sys.exit(f"there is no command {command}: Debian has it in {package}")
    names = options.names or sorted(file[:-4] for file in os.listdir(options.pairs) if file.endswith(".cyc"))
    counts, faults = {}, []
    # The instruction counts are exact, even if many runs execute in parallel.
    with concurrent.futures.ThreadPoolExecutor(os.cpu_count()) as threads:
        found = {name: threads.submit(sizes_of if options.sizes else counts_of, name, options) for name in names}
        for name, future in found.items():
            try:
                counts[name] = future.result()
            except Fault as fault:
                faults.append(f"{name}: {fault}")
    print(f"{'words of text' if options.sizes else 'instructions'} that equal programs {'have' if options.sizes else 'execute'}, compiled here and by gcc")
    if counts:
        print("\n".join((table_of_sizes if options.sizes else table)(counts)))
    if faults:
        sys.exit("\n".join(faults))


if __name__ == "__main__":
    main()

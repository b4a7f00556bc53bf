"""Tests the measuring scripts: the table of the gate's costs, pairs of programs, and the costs of texts by length."""
import os
import struct
import subprocess
import sys

import suite  # first: it makes the references and the generators importable
import facts
import gate_table
import growth
import jobs
import shapes

BENCH = os.path.join(suite.ROOT, "bench")
sys.path.insert(0, BENCH)
import pairs as bench_pairs

# Three samples of the running processes during a gate, taken one second apart. The samples contain two checks of one crate in parallel,
# one of them with a helper process, and the check of a wrong function body. The samples also contain a proof that ends, a proof whose
# parent process has ended, and a check that is no part of the gate.
LOOKS = """\
100 1 5 0.2 python3 /usr/local/bin/rt ci
101 100 10 3.0 /opt/bin/rattle build --crate-name low src/lib.rt -o /x/low.rlib
102 101 11 1.0 /opt/bin/rattle build --crate-name low src/lib.rt -o /x/low.rlib
103 100 12 2.0 /opt/bin/rattle build --crate-name low src/lib.rt --test -o out/low_tests.o
900 1 13 50.0 /opt/bin/rattle check --crate-name low src/lib.rt

100 1 5 0.2 python3 /usr/local/bin/rt ci
103 100 12 4.0 /opt/bin/rattle build --crate-name low src/lib.rt --test -o out/low_tests.o
104 100 20 1.0 /opt/bin/rattle check --crate-name low src/lib.rt --incremental /tmp/kept
105 100 21 0.1 setpriv --reuid=65534 true
106 105 22 7.0 /opt/bin/rattle check --crate-name top src/main.rt -o /x/checked

100 1 5 0.2 python3 /usr/local/bin/rt ci
101 100 30 1.0 /opt/bin/rattle check --crate-name low src/lib.rt --incremental /tmp/kept
106 1 22 9.0 /opt/bin/rattle check --crate-name top src/main.rt -o /x/checked"""

COSTS = """\
| | Proof | Tests | Wrong bodies | All |
|---|---|---|---|---|
| `low` | 4 (1) | 4 (2) | 2 (2) | 10 |
| `top` | 9 (2) | - | - | 9 |
| all crates | 13 (3) | 4 (2) | 2 (2) | 19 |
| proofs, the rest | - | - | - | 1 |
| suite | - | - | - | 40 |

Seconds of processors, and in brackets those on the clock while such a check ran.
The whole gate: 1.0 processor minutes in 0.5 minutes, on 4 processors, 2026-01-01."""


# The sizes of the processes in each sample, in bytes, and the memory peaks expected in MB; the second sample has no sizes. The two
# processes of the proof of `low` take more memory than its tests.
SIZES = {101: 600 << 20, 102: 200 << 20, 103: 500 << 20, 106: (900 << 20) + 1, 900: 5000 << 20}
MEMORY = "low 800\ntop 901\n"


def is_table_right():
    account = gate_table.Account(100)
    for number, look in enumerate(LOOKS.split("\n\n")):
        processes = [gate_table.process_of(line) for line in look.split("\n")]
        account.take(processes, 1.0, None if number == 1 else lambda pid: SIZES.get(pid, 0))
    wholes = [
        {"name": "proofs", "processors": 20.0, "clock": 20.0, "checks": account.rows(), "memory": account.sizes()},
        {"name": "suite", "processors": 40.0, "clock": 10.0, "checks": [], "memory": {}},
    ]
    got = "\n".join(gate_table.table(wholes, 4, "2026-01-01")), gate_table.memory(wholes)
    wanted = COSTS, gate_table.MEMORY_HEAD + MEMORY
    if got != wanted:
        print(suite.difference("the tables of costs and of memory", wanted, got))
    return got == wanted


# The memory peaks of crates, and the number of crates expected to be proved in parallel for a number of processors and megabytes. The
# crate `new` has no measured peak. The crates of a dependency chain are never proved in parallel.
PEAKS = {"low": 1000, "middle": 2000, "top": 4000}
CHAIN = {"low": [], "middle": ["low"], "top": ["middle"], "beside": ["low"]}
SIDE_BY_SIDE = [
    (PEAKS, {}, 4, 100_000, 3), (PEAKS, {}, 2, 100_000, 2), (PEAKS, {}, 4, 7_800, 3), (PEAKS, {}, 4, 7_700, 2), (PEAKS, {}, 2, 6_600, 1),
    (PEAKS, {}, 4, 100, 1), ({"low", "middle"}, {}, 4, 3_400, 2), ({"low", "new"}, {}, 4, 5_500, 1), ({"low", "new"}, {}, 4, 5_600, 2),
    ({"low"}, {}, 1, 100_000, 1), (PEAKS, CHAIN, 3, 4_500, 3), (PEAKS, CHAIN, 3, 4_400, 1), ({*PEAKS, "beside"}, CHAIN, 2, 8_800, 1),
    ({*PEAKS, "beside"}, CHAIN, 2, 8_900, 2),
]


def are_jobs_right():
    """Returns true if as many crates are proved in parallel as their measured peaks allow."""
    right = True
    for crates, graph, cores, megabytes, wanted in SIDE_BY_SIDE:
        got = jobs.jobs(crates, graph, cores, megabytes, PEAKS)
        if got != wanted:
            print(f"of {sorted(crates)}, with {cores} processors and {megabytes} MB, {got} are proved at once, and {wanted} should be")
            right = False
    return right and jobs.jobs_here(jobs.peaks(), {}) >= 1


# The output of a finished gate, and replacements of one piece of it, after each of which no table
# is published: not finished, a failure, changed sources, no commit.
GATE_LEFT = f"""{COSTS}
The commit: Words wrap
1234 passed, 0 failed
"""
UNPUBLISHED = [("| | Proof", "Not finished.\n\n| | Proof"), (" 0 failed", " 1 failed"), ("wrap", "wrap (with changes)"), ("The commit: Words wrap\n", "")]


def is_gate_published():
    """Returns true if docs/FIGURES.md has a place for the gate's table and accepts only the table of a whole gate of one commit."""
    part = gate_table.published(GATE_LEFT)
    right = part is not None and '"Words wrap"' in part and "1,234 passed" in part and COSTS.split("\n\n")[0] in part
    right = right and not any(gate_table.published(GATE_LEFT.replace(*change)) for change in UNPUBLISHED)
    right = right and len(gate_table.PUBLISHED.findall(facts.content("docs/FIGURES.md"))) == 1
    if not right:
        print(f"of\n{GATE_LEFT}\nis published\n{part}")
    return right


# Stand-ins for the compiler and for gcc when bench/pairs.py compiles and runs pairs. A stand-in image contains its number of
# instructions, the last line of its run, and its output. A stand-in C source file has one image for each optimisation level, after the
# level's name.
PAIRS_PROGRAM = """#!/bin/sh
case "$1" in
compile) cp "$2" "$4";;
run)
    exec < "$2"
    read -r count
    read -r last
    if [ "$4" -lt "$count" ]; then last='budget spent'; else cat; fi
    echo "{\\"instructions\\": $count}" > "$6"
    echo "$last" >&2;;
esac
"""
PAIRS_GCC = """#!/bin/sh
for word; do case "$word" in *.c) source=$word;; *.elf) image=$word;; esac; done
sed -n "s/^$1 //p" "$source" > "$image"
"""
PAIRS_GXX = """#!/bin/sh
level=checked
for word; do case "$word" in *.c) source=$word;; *.elf) image=$word;; -fwhole-program) level=static;; esac; done
sed -n "s/^$level //p" "$source" > "$image"
"""

# Stand-in programs, for pairs of programs that must be accepted as equal and pairs that must be rejected as unequal. Each pair lists the
# image in Cyclone, with -O0, with -O1, with all checks if that differs, and with all checks and the whole program known if that differs.
# Each line of an image ends at a `|`.
EQUAL_PAIRS = {
    "one": ("9|returned 7|a|b|", "3|returned 7|a|b|", "1|returned 7|a|b|", "1|returned 7|a|b|", "9|returned 7|a|b|"),
    "two": ("1001|returned 0|c|", "3003|returned 0|c|", "1001|returned 0|c|"),
}
UNEQUAL_PAIRS = {
    "less_with_o1": ("8|returned 7|a|b|", "4|returned 7|a|b|", "2|returned 7|a|"),
    "other_byte_here": ("8|returned 7|b|", "4|returned 7|a|", "2|returned 7|a|"),
    "other_value_with_o0": ("8|returned 7|a|", "4|returned 8|a|", "2|returned 7|a|"),
    "no_output_here": ("8|returned 7|", "4|returned 7|a|", "2|returned 7|a|"),
    "uncaught_here": ("8|uncaught 1 0|a|", "4|returned 7|a|", "2|returned 7|a|"),
    "other_value_when_checked": ("8|returned 7|a|", "4|returned 7|a|", "2|returned 7|a|", "2|returned 8|a|"),
    "other_value_when_static": ("8|returned 7|a|", "4|returned 7|a|", "2|returned 7|a|", "2|returned 7|a|", "2|returned 8|a|"),
    "traps": ("8|trap break|a|", "4|trap break|a|", "2|trap break|a|"),
    "has_no_end": ("2000000000|returned 7|", "2000000000|returned 7|", "2000000000|returned 7|"),
}

# The ratio 9 / 3 is 3 and the ratio 1,001 / 3,003 is a third, so their geometric mean is 1. The geometric mean of 9 / 1 and
# 1,001 / 1,001 is the square root of 9.
PAIRS_TABLE = """\
instructions that equal programs execute, compiled here and by gcc
| Program | `cyclone compile` | `gcc -O0` | `gcc -O1` | checked -O1 | checked static | To `-O0` | To `-O1` | To checked -O1 | To checked static |
|---|---|---|---|---|---|---|---|---|---|
| `one` | 9 | 3 | 1 | 1 | 9 | 3.00 | 9.00 | 9.00 | 1.00 |
| `two` | 1,001 | 3,003 | 1,001 | 1,001 | 1,001 | 0.33 | 1.00 | 1.00 | 1.00 |
| others: geometric mean | | | | | | 1.000 | 3.000 | 3.000 | 1.000 |
| all: geometric mean | | | | | | 1.000 | 3.000 | 3.000 | 1.000 |
"""


def write_pair(folder, name, images):
    """Writes the two source files of a pair."""
    here, *in_c = [image.replace("|", "\n") for image in images]
    with open(os.path.join(folder, name + ".cyc"), "w", encoding="ascii") as file:
        file.write(here)
    with open(os.path.join(folder, name + ".c"), "w", encoding="ascii") as file:
        for level, image in zip(("-O0", "-O1", "checked", "static"), in_c + 2 * in_c[-1:]):
            file.writelines(f"{level} {line}" for line in image.splitlines(keepends=True))


def are_words_counted(folder):
    """Returns true if exactly the words of an image's loaded code are counted, and those before its functions by its table of places."""
    header = b"\0" * 28 + struct.pack(">I", 52) + b"\0" * 10 + struct.pack(">HH", 32, 4) + b"\0" * 6
    # The segments of a test image: notes, code, data, and code again. Each has a kind, an offset, two addresses, lengths in
    # the file and in memory, flags and alignment.
    segments = [(4, 0, 0, 0, 8, 8, 4, 4), (1, 0, 0, 0, 40, 40, 5, 4), (1, 0, 0, 0, 16, 16, 6, 4), (1, 0, 0, 0, 8, 8, 1, 4)]
    image = os.path.join(folder, "words.elf")
    with open(image, "wb") as file:
        file.write(header + b"".join(struct.pack(">8I", *segment) for segment in segments))
    words = bench_pairs.text_words(image)
    if words != 12:
        print(f"an image of 12 words of code is said to have {words}")
    places = os.path.join(folder, "words.places")
    with open(places, "w", encoding="ascii") as file:
        file.write("cyclone places 2\nsource start\nfunction main 1 5\n00400000 start\n00400018 0 1 14\n00400040 end\n")
    start = bench_pairs.start_here(places)
    if start != 6:
        print(f"6 words before the functions are said to be {start}")
    return words == 12 and start == 6


def are_pairs_right(folder):
    """Returns true if pairs of equal programs have figures, and the others have none and fail."""
    pairs = os.path.join(folder, "pairs")
    os.mkdir(pairs)
    words = [sys.executable, os.path.join(BENCH, "pairs.py"), "--pairs", pairs]
    for option, script in (("program", PAIRS_PROGRAM), ("gcc", PAIRS_GCC), ("gxx", PAIRS_GXX)):
        path = os.path.join(folder, option)
        with open(path, "w", encoding="ascii") as file:
            file.write(script)
        os.chmod(path, 0o755)
        words += ["--" + option, path]
    for name, parts in (EQUAL_PAIRS | UNEQUAL_PAIRS).items():
        write_pair(pairs, name, parts)
    with open(os.path.join(pairs, "not_in_c.cyc"), "w", encoding="ascii") as file:
        file.write("1\nreturned 0\n")
    right = True
    for names, faults in (list(EQUAL_PAIRS), []), ([], sorted([*UNEQUAL_PAIRS, "not_in_c"])):
        done = subprocess.run(words + names, capture_output=True, text=True)
        wanted = (PAIRS_TABLE, faults, 1 if faults else 0)
        got = (done.stdout, [line.split(":")[0] for line in done.stderr.splitlines()], done.returncode)
        if got != wanted:
            print(suite.difference("figures of pairs", wanted, got))
            right = False
    return right


# Test cases: a shape of texts, its cost by number of tokens (the usual text costs 1,000 for each token), the last line of the output,
# and the expected faults.
GROWING, BEHIND_MUCH = shapes.Shape("a b ", "c d # ", "e"), shapes.Shape("a " * 500, "c ", "e")
WITH_FAULT = shapes.Shape("", "c ", "e", checked="fault 20")
COSTS_OF_TEXTS = [
    (GROWING, lambda tokens: 1000 * tokens, "done", []),
    (GROWING, lambda tokens: 1450 * tokens, "done", []),
    (GROWING, lambda tokens: 1550 * tokens, "done", ["for each part"]),
    (GROWING, lambda tokens: tokens * tokens, "done", ["twice as long"]),
    (GROWING, lambda tokens: 3 * tokens * tokens, "done", ["for each part", "twice as long"]),
    (GROWING, lambda tokens: 1000 * tokens, "fault 20 at 1:1", ["the last line"]),
    (GROWING, lambda tokens: 1000 * tokens, "signal 11", ["the last line"]),
    (WITH_FAULT, lambda tokens: 9500 * tokens, "fault 20 at 1:1", []),
    (WITH_FAULT, lambda tokens: 10500 * tokens, "fault 20 at 1:1", ["for each part"]),
    (WITH_FAULT, lambda tokens: 1000 * tokens, "done", ["the last line"]),
    (WITH_FAULT, lambda tokens: 2 * tokens * tokens, "fault 20 at 1:1", ["twice as long"]),
    # The beginning of a text, before its repeated pieces, has a constant length, and each token is
    # charged its share of the cost of this beginning.
    (BEHIND_MUCH, lambda tokens: 1000 * tokens + 400_000, "done", []),
    (BEHIND_MUCH, lambda tokens: 1000 * tokens + 600_000, "done", ["for each part"]),
    (BEHIND_MUCH, lambda tokens: 500_000 + (tokens - 500) ** 2, "done", ["twice as long"]),
]


class Planted(growth.Meter):
    """A meter with invented costs of texts, of the usual text, and of the program of one line."""

    def __init__(self, cost, said):
        super().__init__("no program")
        self.planted, self.said = cost, said

    def cost(self, command, content, options):
        text = content.decode("ascii")
        tokens, is_usual = len(text.replace(";", " ; ").split()), text.startswith("\nint f0")
        counted = 0 if text == shapes.SMALL else 1000 * tokens if is_usual else self.planted(tokens)
        return growth.Cost(50_000 + counted, 1, 1, self.said, 0)


def is_growth_judged(folder):
    """Returns true if the costs of texts are judged as expected, and are counted on a stand-in."""
    right = True
    for shape, cost, said, wanted in COSTS_OF_TEXTS:
        faults = growth.faults_of(shape, "check", growth.figures_of(Planted(cost, said), shape, "check", 1000))
        if len(faults) != len(wanted) or not all(part in fault for part, fault in zip(wanted, faults)):
            print(suite.difference(f"what is said of the costs of {shape.text(1)!r}", wanted, faults))
            right = False
    for cost, wanted in ((growth.Cost(1, 257, 1, "done", 0), "MB"), (growth.Cost(1, 1, 100_000, "done", 0), "bytes of messages")):
        faults = growth.faults_of(GROWING, "check", growth.Figures(1.0, 2.0, cost))
        right = right and len(faults) == 1 and wanted in faults[0]
    meter = growth.Meter(os.path.join(folder, "stand_in"))
    good, bad = (meter.cost("check", text, []) for text in (b"good", b"bad"))
    got = good.said, bad.said, good.length, good.instructions > 1000, good.memory > 0
    if got != ("done", "fault 1 at 1:1", 5, True, True):
        print(suite.difference("what a stand-in costs", ("done", "fault 1 at 1:1", 5, True, True), got))
        right = False
    return right


def tried(folder):
    """Yields whether each tested script works as expected."""
    return [is_table_right(), are_jobs_right(), are_words_counted(folder), are_pairs_right(folder), is_gate_published(), is_growth_judged(folder)]

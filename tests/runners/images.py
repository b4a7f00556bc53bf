#!/usr/bin/env python3
"""Runs and lists unusual images and compares the results with tests/references/machine.py, and instructions with qemu-mips and objdump.

    python3 tests/runners/images.py [--program PATH] [--count N] [--seed N] [--part NAME] [--one-store]
                                    [--without-qemu] [--without-objdump]

The test has four parts; --part selects one:

- spoiled: four small images, cut at each length, and with each byte set to 00, 7f and ff; - random: words of instructions, calls of a store
of few pages, changed and random headers, with limits and without; `--count` of them, and the same seed gives the same images; - compiled:
the examples, as the program compiles them, and each with some of its words changed; - instructions: each one of the table with edge
operands, and random programs of them, run by qemu-mips as Linux programs too, and listed by mips-linux-gnu-objdump. If one of these tools
is missing, the test fails unless an option excludes it; then the last line says so.

Each command must end in time with a documented answer, without a crash. Output, last line and status must equal the reference's, with
exactly the number of steps that the reference counts and with one less. The same holds for each line of a listing. If the result depends on
a choice of the store, as the reference reports, the output must begin as the reference's does. A very long listing is cut off.

Each image, except those of instructions, is run over both stores (`run --store`). Output, end and count must be equal, or both outputs must
begin as the reference's if they depend on a choice of the store.

The last line is `N passed, M failed`, of images, followed by the excluded tools.
"""
import collections
import concurrent.futures
import itertools
import os
import random
import re
import subprocess
import tempfile

import suite  # first: it makes the references and the generators importable
import image_makers
import instruction_makers
import machine
import objdump
import stores
from with_library import whole

# A run of a thousand steps takes a few milliseconds of processor time, and so does a listing of LISTED_AT_MOST
# words.
SECONDS = 20
LISTED_AT_MOST = 5_000
# The number of images that one test process tries, one after another.
SHARE = 25
EXAMPLES = os.path.join(suite.ROOT, "examples")
# The external tools, an emulator and a disassembler, whose results for machine instructions are
# compared with the results of the program under test. The reference interpreter's results are
# compared too.
QEMU = "qemu-mips"
BESIDE = (QEMU, objdump.OBJDUMP)
INSTRUCTIONS_AT_MOST = 10_000_000
CAUSES = [
    "reserved instruction", "unpredictable", "misaligned", "no such address", "dead cell", "write to text", "break", "bad service",
]
# The documented last lines of each command, with the exit status of each. None means that the
# number in the line determines the status.
NAMED = {
    "run": [
        (r"returned (-?\d+)", None), (r"uncaught \d+ -?\d+", 4), ("full", 5), (f"trap ({'|'.join(CAUSES)})", 6), ("budget spent", 7),
        (r"image fault [1-68]", 3), ("no memory", 8),
    ],
    "disasm": [("done", 0), (r"image fault [1-6]", 3), ("no memory", 8)],
}


def unnamed(command, line, status):
    """Returns the fault of an undocumented end, or None."""
    if status is None:
        return f"{command}: no end within {SECONDS} seconds of processor"
    if status < 0:
        return f"{command}: crashed with signal {-status}"
    for pattern, wanted in NAMED[command]:
        found = re.fullmatch(pattern, line)
        if found and status == (int(found[1]) & 255 if wanted is None else wanted):
            return None
    return f"{command}: no such end: {line!r} with status {status}"


def fault_of(command, wanted, got):
    """Returns the difference from the expected answer, or None. An answer is an output, a last line and a status; an expected one without a
    line is open."""
    output, line, status = got
    fault = unnamed(command, line, status)
    if fault or wanted == got or wanted[1] is None and output.startswith(wanted[0]):
        return fault
    return suite.difference(command, wanted, got)


def asked(words, given=b"", most=None):
    """Returns the answer of a program, of which at most so many bytes are read; the status is None if the program was killed."""
    with subprocess.Popen(words, stdin=subprocess.PIPE, stdout=subprocess.PIPE, stderr=subprocess.PIPE) as process:
        with suite.Watch(process, SECONDS) as watch:
            if most is None:
                output, error = process.communicate(given)
            else:
                output = process.stdout.read(most)
                process.stdout.close()
                error = process.stderr.read()
            status = process.wait()
    return output, suite.last_line(error), None if watch.late else status


class Tried:
    """An image in a file, and the ends of its runs."""

    def __init__(self, program, path, made, is_one):
        self.program, self.path, self.made, self.is_one, self.end, self.printed = program, path, made, is_one, None, b""
        with open(path, "wb") as file:
            file.write(made.file)

    def fault(self):
        """Returns the first fault, or None."""
        return self.fault_of_run() or not self.is_one and self.fault_of_stores() or self.fault_of_listing()

    def run(self, steps):
        """Returns the reference's answer to a run, and its count of instructions."""
        try:
            run = machine.Run(machine.Image(self.made.file), self.made.given, self.made.pages, self.made.calls, steps)
        except machine.ImageFault as fault:
            return (b"", str(fault), 3), None
        try:
            line, status = run.end()
        except stores.Open:
            line, status = None, None
        return (bytes(run.output), line, status), run.count

    def fault_of_run(self):
        wanted, count = self.run(self.made.steps)
        self.end, self.printed = wanted[1] or "open", wanted[0]
        if count is None or wanted[1] in (None, "budget spent"):
            return self.fault_with(self.made.steps, wanted)
        fault = self.fault_with(count, wanted)
        return fault or count > 1 and self.fault_with(count - 1, (wanted[0], "budget spent", 7)) or None

    def fault_with(self, steps, wanted):
        options = self.made.options(steps)
        fault = fault_of("run", wanted, asked([self.program, "run", self.path, *options], self.made.given))
        return fault and f"{' '.join(options)} on {self.made.given}: {fault}"

    def fault_of_stores(self):
        """Returns the difference between the two stores, or None."""
        words = [self.path, *self.made.options(self.made.steps)]
        answers = suite.over_stores(self.program, words, self.made.given)
        for store, (output, line, status, _) in zip(suite.STORES, answers):
            fault = unnamed("run", line, status)
            if fault or not output.startswith(self.printed):
                return f"over the store {store}, {' '.join(words[1:])}: {fault or suite.difference('output', self.printed, output)}"
        return None if self.end == "open" or answers[0] == answers[1] else suite.difference("plain and paged", *answers)

    def fault_of_listing(self):
        words = [self.program, "disasm", self.path]
        try:
            lines = list(itertools.islice(machine.listing(self.made.file), LISTED_AT_MOST + 1))
        except machine.ImageFault as refused:
            return fault_of("disasm", (b"", str(refused), 3), asked(words))
        listed = "".join(lines[:LISTED_AT_MOST]).encode("ascii")
        if len(lines) <= LISTED_AT_MOST:
            return fault_of("disasm", (listed, "done", 0), asked(words))
        wanted, got = (listed, "write fault", 8), asked(words, most=len(listed))
        return None if wanted == got else suite.difference("disasm, broken off", wanted, got)


def compiled(program, seed):
    """Returns the examples with an expected output, with their inputs, and with changed words."""
    with tempfile.TemporaryDirectory(prefix="cyclone-image-") as folder:
        for name in sorted(name[:-4] for name in os.listdir(EXAMPLES) if name.endswith(".out")):
            source, path = os.path.join(EXAMPLES, name), os.path.join(folder, "image.elf")
            text = os.path.join(folder, "whole.cyc")
            with open(text, "w", encoding="latin-1") as file:
                file.write(whole(source + ".cyc"))
            answer = suite.answer([program, "compile", text, "-o", path])
            if answer != (b"", "done", 0):
                raise SystemExit(f"{source}.cyc is not compiled: {answer}")
            given = b""
            if os.path.exists(source + ".in"):
                with open(source + ".in", "rb") as file:
                    given = file.read()
            with open(path, "rb") as file:
                yield from image_makers.of_compiled(name, file.read(), given, random.Random(f"{name} {seed}"))


def named(program, part, options):
    """Returns the images of a part, each with its name; those of `random` are generated where they are tried."""
    if part != "random":
        return [(made.family, made) for made in (image_makers.spoiled() if part == "spoiled" else compiled(program, options.seed))]
    return [(f"image {number}, seed {options.seed}", None) for number in range(options.count)]


def try_some(program, options, names):
    """Returns the end of each image, and the failures with their images."""
    tried = []
    with tempfile.TemporaryDirectory(prefix="cyclone-image-") as folder:
        for number, (name, made) in names:
            made = made or image_makers.made(random.Random(f"image {options.seed} {number}"))
            image = Tried(program, os.path.join(folder, "image.elf"), made, options.one_store)
            fault = image.fault()
            kind = re.sub(r" -?\d.*", "", image.end) if image.end.startswith(("returned", "uncaught")) else image.end
            tried.append((kind, fault and f"{name} ({made.family}): {fault}\n  {made.file.hex()}"))
    return tried


def try_images(program, part, options, workers):
    """Tries the images of a part in parallel, and returns the failures."""
    names = list(enumerate(named(program, part, options)))
    shares = [names[start:start + SHARE] for start in range(0, len(names), SHARE)]
    ends, faults = collections.Counter(), []
    for tried in workers.map(try_some, itertools.repeat(program), itertools.repeat(options), shares):
        ends.update(end for end, _ in tried)
        faults += [fault for _, fault in tried if fault]
    print(f"{part}, {len(names)} images: " + ", ".join(f"{end} {count}" for end, count in ends.most_common()))
    return len(names), faults


def try_program(program, beside, name, body):
    """Runs a program of instructions by the reference, the program and the other tools. Returns its fault if they differ."""
    output, words = instruction_makers.results(body), instruction_makers.ours(body)
    listed = "".join(machine.line_of(word, machine.TEXT + 4 * number) for number, word in enumerate(words))
    files = {"linux": instruction_makers.executable(instruction_makers.linux(body)), "ours": instruction_makers.executable(words)}
    with tempfile.TemporaryDirectory(prefix="cyclone-image-") as folder:
        paths = {end: os.path.join(folder, end) for end in (*files, "words")}
        for end, content in (*files.items(), ("words", image_makers.bytes_of(words))):
            with open(paths[end], "wb") as file:
                file.write(content)
            os.chmod(paths[end], 0o755)
        answers = [
            (QEMU, (output, "", 0), lambda: asked([QEMU, paths["linux"]])),
            (objdump.OBJDUMP, listed, lambda: "".join(objdump.listing(paths["words"], machine.TEXT))),
            ("run", (output, "returned 0", 0), lambda: asked([program, "run", paths["ours"], "--steps", str(INSTRUCTIONS_AT_MOST)])),
            ("disasm", (listed.encode("ascii"), "done", 0), lambda: asked([program, "disasm", paths["ours"]])),
        ]
        for by, wanted, ask in answers:
            got = wanted if by in BESIDE and by not in beside else ask()
            if got != wanted:
                return suite.difference(f"{name}: {by}, beside the reference", wanted, got)
    return None


def try_instructions(program, beside, workers):
    """Tries each program of instructions with these commands."""
    programs = list(instruction_makers.programs())
    faults = list(workers.map(try_program, itertools.repeat(program), itertools.repeat(beside), *zip(*programs)))
    others = " and ".join(beside) or "nothing"
    print(f"instructions, {len(programs)} programs with {sum(body.results for _, body in programs)} results, beside {others}")
    return len(programs), [fault for fault in faults if fault]


PARTS = ["spoiled", "random", "compiled", "instructions"]


def main():
    parser = suite.command_line_of_runs(__doc__)
    parser.add_argument("--count", type=int, default=2_000)
    parser.add_argument("--seed", type=int, default=1)
    parser.add_argument("--part", choices=PARTS)
    parser.add_argument("--without-qemu", dest="left_out", action="append_const", const=QEMU, default=[])
    parser.add_argument("--without-objdump", dest="left_out", action="append_const", const=objdump.OBJDUMP)
    options = parser.parse_args()
    program = suite.program_of(options, options.count)
    parts = [options.part] if options.part else PARTS
    beside = [command for command in BESIDE if command not in options.left_out]
    if "instructions" in parts:
        suite.need(beside, options.count)
    tried, failed = 0, 0
    with concurrent.futures.ProcessPoolExecutor() as workers:
        for part in parts:
            if part == "instructions":
                count, faults = try_instructions(program, beside, workers)
            else:
                count, faults = try_images(program, part, options, workers)
            tried, failed = tried + count, failed + len(faults)
            print("\n".join(f"FAILED {fault}" for fault in faults), end="\n" if faults else "")
    suite.end(tried - failed, failed, " and ".join(options.left_out))


if __name__ == "__main__":
    main()

#!/usr/bin/env python3
"""Checks that the cost of a text or an image grows linearly with its length, whatever its form.

    python3 tests/runners/growth.py [--program PATH] [--tokens N] [--table] [NAME ..]

Each shape of `generators/shapes.py` is checked and compiled, and each of `generators/image_shapes.py` run and listed, or the named ones:
one form repeated, at two lengths, the second twice the first. The host's instructions are counted (`valgrind`), without those for a program
of one line. The cost for each token, byte or step is at most the factor of the shape times the usual cost. Doubling the length multiplies
the cost by at most MOST_GROWTH. Memory is at most MOST_MEMORY, and the diagnostics have at most MOST_SAID bytes. If a text is compiled to
more code than the usual text of its length, the cost for each byte of the image is compared.

The longer text has N tokens, or more if four forms have more. --table prints the figures as tables, with the peak of memory. The last line
is `N passed, M failed`; each shape is one.
"""
import collections
import concurrent.futures
import os
import re
import resource
import subprocess
import sys
import tempfile

import suite
import image_shapes
import shapes

TOKENS = 15_000
MOST_GROWTH = 2.1
# The maximum memory of a command in MB of 2^20 bytes, and the maximum output on standard error in
# bytes: that of 22 messages.
MOST_MEMORY, MOST_SAID = 256, 22 * 4096
# The minimum number of copies of the repeated piece in a generated text.
FORMS = 4
# The number of seconds of processor time after which a command is stopped.
SECONDS = 120
COUNTER = ["valgrind", "--tool=cachegrind", "--cache-sim=no", f"--cachegrind-out-file={os.devnull}"]
COUNTED = re.compile(r"I +refs: +([\d,]+)")
BEHIND = {"check": [], "compile": ["-o", "image"], "run": [], "disasm": []}
KINDS = {"Text": shapes.TEXTS, "Image": image_shapes.IMAGES, "Loop": image_shapes.LOOPS}

# `Cost` is the cost of a command on a file: instructions (None if the command did not end), peak memory in MB, and the size of the image
# made. `Cost` also has the number of bytes on standard error and the last line printed there. `Figures` is the cost of the files of one
# shape: the ratio to the usual file, and the ratio to a file with half as many repeated pieces.
Cost = collections.namedtuple("Cost", ("instructions", "memory", "length", "said", "made"))
Figures = collections.namedtuple("Figures", ("share", "growth", "cost"))


class Meter:
    """Counts the instructions of the program."""

    def __init__(self, program, counter=COUNTER):
        self.program, self.counter, self.known = program, counter, {}

    def cost(self, command, content, options):
        """Returns the cost of a command on a file."""
        with tempfile.TemporaryDirectory(prefix="cyclone-growth-") as folder:
            with open(os.path.join(folder, "given"), "wb") as file:
                file.write(content)
            log = os.path.join(folder, "log")
            # only `run` takes the options for a run's limits; the listing command does not
            words = [self.program, command, "given", *(options if command == "run" else ()), *BEHIND[command]]
            ended([*self.counter, f"--log-file={log}", *words], folder)
            with open(log, encoding="utf-8") as file:
                counted = COUNTED.search(file.read())
            error, memory = ended(words, folder)
            image = os.path.join(folder, "image")
            made = os.path.getsize(image) if os.path.exists(image) else 0
            return Cost(int(counted[1].replace(",", "")) if counted else None, memory / 1024, len(error), suite.last_line(error), made)

    def known_cost(self, command, given):
        """Returns the cost of a command on a file, measured only once."""
        content, _, options = given
        key = command, content, *options
        if key not in self.known:
            self.known[key] = self.cost(command, content, options)
        return self.known[key]


def ended(words, folder):
    """Returns a command's standard error, and its peak of memory in KB. For a command ended by a signal, names the signal."""

    def confine():
        resource.setrlimit(resource.RLIMIT_CPU, (SECONDS, SECONDS))

    with tempfile.TemporaryFile() as error:
        process = subprocess.Popen(words, cwd=folder, stdin=subprocess.DEVNULL, stdout=subprocess.DEVNULL, stderr=error, preexec_fn=confine)
        _, status, used = os.wait4(process.pid, 0)
        process.returncode = os.waitstatus_to_exitcode(status)
        error.seek(0)
        return error.read() if process.returncode >= 0 else b"signal %d\n" % -process.returncode, used.ru_maxrss


def counts_of(shape, length):
    """Returns the number of parts of the shortest file of a shape, of the shorter one and of the longer one."""
    more = max(shape.count(length) - 1, FORMS - 2) // 2
    return 1, 1 + more, 1 + 2 * more


def figures_of(meter, shape, command, length):
    """Returns the figures of a shape's files."""
    files = [shape.given(count) for count in counts_of(shape, length)]
    first, shorter, longer = (meter.cost(command, content, options) for content, _, options in files)
    if None in (first.instructions, shorter.instructions, longer.instructions):
        return Figures(None, None, longer)
    usual, start = shape.usual(length), shape.usual(0)
    whole, least = meter.known_cost(command, usual), meter.known_cost(command, start)
    parts = max(files[2][1] / usual[1], longer.made / max(whole.made, 1))
    return Figures(
        (longer.instructions - least.instructions) / (whole.instructions - least.instructions) / parts,
        (longer.instructions - first.instructions) / max(shorter.instructions - first.instructions, 1), longer)


def faults_of(shape, command, figures):
    """Returns the violations of the limits."""
    cost = figures.cost
    if not cost.said.startswith(shape.said[command]):
        return [suite.difference(f"the last line of {command}", shape.said[command], cost.said)]
    if figures.share is None:
        return [f"{command} takes more than {SECONDS} s of processor while it is counted"]
    wanted = [
        (f"{figures.share:.2f} times what is usual for each part", figures.share, shape.most),
        (f"{figures.growth:.2f} times as much where it is twice as long", figures.growth, MOST_GROWTH),
        (f"{cost.memory:.1f} MB", cost.memory, MOST_MEMORY), (f"{cost.length} bytes of messages", cost.length, MOST_SAID),
    ]
    return [f"{command} takes {what}, and at most {most} are wanted" for what, value, most in wanted if value > most]


def chosen(names):
    """Returns the shapes of these names, or all, in their order."""
    found = {name: shape for kind in KINDS.values() for name, shape in kind.items()}
    return {name: found[name] for name in names or found}


def row_of(name, figures):
    """Returns a line of a table."""
    cells = []
    for one in figures.values():
        cells += [f"{one.share:.2f}", f"{one.growth:.2f}"] if one.share is not None else [f"over {SECONDS} s", ""]
        cells.append(f"{one.cost.memory:.1f}")
    return f"| {name} | {' | '.join(cells)} |"


def show_tables(meter, length, found):
    """Prints the figures as tables, with the usual costs."""
    for kind, them in KINDS.items():
        rows = [row_of(name, found[name]) for name in them if name in found]
        if not rows:
            continue
        shape = next(iter(them.values()))
        print(f"| {kind} | " + " | ".join(f"`{command}` | twice as long | MB" for command in shape.said) + " |")
        print("|---" * (1 + 3 * len(shape.said)) + "|")
        print("\n".join(rows))
        for command in shape.said:
            usual = shape.usual(length)
            cost, start = (meter.known_cost(command, it) for it in (usual, shape.usual(0)))
            each = (cost.instructions - start.instructions) / usual[1]
            print(f"{command}, what is usual: {cost.instructions:,} instructions, {each:,.1f} for each part, {cost.memory:.1f} MB")


def measured(meter, names, length):
    """Returns the figures of the shapes of these names, by command."""
    asked = chosen(names)
    for shape in asked.values():
        for command in shape.said:
            for it in (0, length):
                meter.known_cost(command, shape.usual(it))
    with concurrent.futures.ThreadPoolExecutor(os.cpu_count()) as lanes:
        found = {name: {command: lanes.submit(figures_of, meter, shape, command, length) for command in shape.said}
                 for name, shape in asked.items()}
        return {name: {command: future.result() for command, future in them.items()} for name, them in found.items()}


def main():
    parser = suite.command_line(__doc__)
    parser.add_argument("names", nargs="*", metavar="NAME")
    parser.add_argument("--tokens", type=int, default=TOKENS)
    parser.add_argument("--table", action="store_true")
    options = parser.parse_args()
    asked = chosen(options.names)
    meter = Meter(suite.program_of(options, len(asked)))
    suite.need(COUNTER[:1], len(asked))
    found = measured(meter, options.names, options.tokens)
    if options.table:
        show_tables(meter, options.tokens, found)
    suite.try_each(
        found.items(), lambda one: one[0],
        lambda one: [fault for command, figures in one[1].items() for fault in faults_of(asked[one[0]], command, figures)])


if __name__ == "__main__":
    sys.exit(main())

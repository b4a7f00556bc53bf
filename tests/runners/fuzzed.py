#!/usr/bin/env python3
"""Fuzzes the program with texts and images: mutates them at random, keeps those that reach new code of the program, and mutates these
again.

    python3 tests/runners/fuzzed.py [--program PATH] [--minutes N] [--lanes N] [--seed N] [--keep FOLDER]

A text is checked and compiled; its image is listed, and run with a small budget. An image is listed and run. No command may be ended by a
signal, take more than half a second of processor time or 512 MB of memory, or end with an undocumented status. The output is cut, since a
small image may describe large segments. `qemu-x86_64` reports the blocks of the program that a command executes: an input that reaches a
new block joins the pool. The initial inputs are the examples, the texts of `tests/sound` and of the cases, and the images of
`generators/image_makers.py`.

An input that breaks a rule is stored in the folder of `--keep`, with the command that breaks the rule. The last line is `N passed, M
failed`; each command is one.
"""
import collections
import glob
import os
import random
import re
import resource
import signal
import subprocess
import sys
import tempfile
import threading
import time

import suite
import image_makers
import in_trees

MINUTES = 1
# The maximum size of a fuzzed text or image in bytes. The next limit is the number of copies that
# the fuzzer makes of a section of an input.
MOST_BYTES = 200_000
MOST_COPIES = 3_000
MOST_CHANGES = 6
SECONDS, MEMORY = 0.5, 512 * 1024 * 1024
# The maximum size of a written file in bytes: a write beyond this size fails.
MOST_WRITTEN = 16 * 1024 * 1024
# The time limit, in seconds, of a command on an input of the fuzzer.
WAITED = 20
STEPS = "200000"
# The exit statuses of faults, and the exit statuses that a compiled program may return.
REFUSED, OWN = range(1, 9), range(0, 256)
# `qemu-x86_64` loads a position-independent program at this address; the program's libraries are at
# higher addresses.
BASE, SIZE = 0x4000000000, 0x10000000
TRACED = re.compile(rb"^IN:.*\n0x([0-9a-f]+):", re.M)
TOKENS = (
    b"int char void struct if else while for return break continue throw try catch new rnew malloc sizeof region alias open static "
    b"datatype exception numelts ufree NULL let switch case default do `H `U `r ? * @ & ! ~ - + / % << >> < > <= >= == != && || = { } ( ) "
    b"[ ] ; , : . -> 0 1 2147483647 -2147483648 0x7fffffff 'a' '\\n' getchar putchar main x p s f"
).split()


class Pool:
    """The inputs to mutate, the blocks reached so far, and the inputs that broke a rule."""

    def __init__(self, options, folder):
        self.program, self.folder, self.keep = options.program, folder, options.keep
        self.until = time.monotonic() + options.minutes * 60
        self.lock = threading.Lock()
        self.seeds = collections.defaultdict(list)
        self.blocks = set()
        self.tried = 0
        self.slowest = (0.0, "")
        self.faults = []

    def grow(self, kind, content, blocks):
        """Adds an input that reached a new block."""
        with self.lock:
            if blocks - self.blocks:
                self.blocks |= blocks
                self.seeds[kind].append(content)

    def note(self, what, command, content, seconds):
        """Counts a command, and stores its input if it broke a rule."""
        with self.lock:
            self.tried += 1
            self.slowest = max(self.slowest, (seconds, " ".join(command)))
            if what:
                self.faults.append(f"{what}: {' '.join(command)}")
                if self.keep:
                    with open(os.path.join(self.keep, f"{len(self.faults)}-{command[0]}"), "wb") as file:
                        file.write(content)


# ---- initial inputs


def texts():
    """Returns programs, and texts that are no programs."""
    for path in sorted(glob.glob(os.path.join(suite.ROOT, "examples", "*.cyc"))):
        with open(path, "rb") as file:
            yield file.read()
    for name in ("accepted", "refused"):
        yield from (text.encode("latin-1") for _, text in in_trees.programs_in(name))


def images():
    yield from image_makers.SMALL_IMAGES.values()
    yield image_makers.DOUBLED


# ---- mutations


def cut(content, rng):
    """Returns two positions in a text or an image, the first before the second."""
    one, other = rng.randrange(len(content) + 1), rng.randrange(len(content) + 1)
    one, other = min(one, other), max(one, other)
    return one, min(other, one + rng.choice((1, 4, 16, 64, 1024)))


def changed_once(content, others, rng, tokens):
    """Returns the input with one mutation: a byte, a bit or a word of the language is changed, or a part is removed, copied, or taken from
    another input."""
    at, end = cut(content, rng)
    part, way = content[at:end], rng.randrange(8)
    if way == 0:
        put = bytes([rng.randrange(256)])
    elif way == 1 and part:
        put = bytes([part[0] ^ 1 << rng.randrange(8)]) + part[1:]
    elif way == 2:
        put = b""
    elif way == 3:
        put = part * min(rng.choice((2, 3, 50, MOST_COPIES)), MOST_BYTES // (len(part) + 1) + 1)
    elif way == 4:
        other = rng.choice(others)
        start, stop = cut(other, rng)
        put = other[start:stop]
    elif way == 5:
        put = part + b" " + rng.choice(tokens) + b" "
    elif way == 6:
        put = rng.choice(tokens)
    else:
        put = rng.choice(image_makers.FIELDS).to_bytes(4, "big") if rng.random() < 0.5 else part[::-1]
    return (content[:at] + put + content[end:])[:MOST_BYTES]


def changed(content, others, rng, tokens):
    for _ in range(rng.randint(1, MOST_CHANGES)):
        content = changed_once(content, others, rng, tokens)
    return content


# ---- commands


def confine():
    resource.setrlimit(resource.RLIMIT_AS, (MEMORY, MEMORY))
    resource.setrlimit(resource.RLIMIT_FSIZE, (MOST_WRITTEN, MOST_WRITTEN))


def ended(words, given):
    """Returns the status of a command, negative if a signal ended it, and its processor time. A command that does not end is killed."""
    with tempfile.TemporaryFile() as source, tempfile.TemporaryFile() as written:
        source.write(given)
        source.seek(0)
        process = subprocess.Popen(words, stdin=source, stdout=written, stderr=subprocess.DEVNULL, preexec_fn=confine)
        killer = threading.Timer(WAITED, process.kill)
        killer.start()
        _, status, used = os.wait4(process.pid, 0)
        killer.cancel()
        process.returncode = os.waitstatus_to_exitcode(status)
    return process.returncode, used.ru_utime + used.ru_stime


def blocks_of(words, given, log):
    """Returns the blocks of the program that a command reaches, as they are translated; none after a timeout."""
    filtered = ["qemu-x86_64", "-d", "in_asm", "-D", log, "-dfilter", f"{BASE:#x}+{SIZE:#x}"]
    try:
        subprocess.run(filtered + words, input=given, stdout=subprocess.DEVNULL, stderr=subprocess.DEVNULL, timeout=WAITED, check=False)
    except subprocess.TimeoutExpired:
        return set()
    with open(log, "rb") as file:
        return {int(found, 16) for found in TRACED.findall(file.read())}


def fault_of(status, seconds, allowed):
    """Returns the rule that a command breaks, if any."""
    if status < 0:
        return f"ended by {signal.Signals(-status).name}"
    if seconds > SECONDS:
        return f"{seconds:.2f} s of processor"
    return "" if status in allowed else f"status {status}"


def commands_on(kind, path, image):
    """Returns the commands for a text or an image, with the statuses that each may return."""
    if kind == "text":
        yield ["check", path], (0, *REFUSED)
        yield ["compile", path, "-o", image], (0, *REFUSED)
    there = image if kind == "text" else path
    yield ["disasm", there], (0, *REFUSED)
    yield ["run", there, "--steps", STEPS], OWN


def try_one(pool, kind, content, rng, lane):
    """Tries one text or image with all of its commands."""
    path, image, log = (os.path.join(pool.folder, f"{lane}.{name}") for name in ("given", "image", "log"))
    with open(path, "wb") as file:
        file.write(content)
    if os.path.exists(image):
        os.remove(image)
    given = rng.randbytes(rng.choice((0, 8, 64)))
    for command, allowed in commands_on(kind, path, image):
        if image in command and command[0] != "compile" and not os.path.exists(image):
            continue
        status, seconds = ended([pool.program, *command], given)
        fault = fault_of(status, seconds, allowed)
        pool.note(fault, command, content, seconds)
        if not fault:
            pool.grow(kind, content, blocks_of([pool.program, *command], given, log))


def work(pool, lane, seed):
    """Mutates and tries inputs until the time is over."""
    rng = random.Random(seed)
    try:
        while time.monotonic() < pool.until:
            kind = rng.choice(("text", "text", "image"))
            with pool.lock:
                seeds = list(pool.seeds[kind])
            # The newest inputs reached new code, so the fuzzer mutates them more often.
            first = max(0, len(seeds) - 50) if rng.random() < 0.5 else 0
            try_one(pool, kind, changed(seeds[rng.randrange(first, len(seeds))], seeds, rng, TOKENS), rng, lane)
    except Exception as problem:  # a lane that ends is a fault, and must be reported
        pool.note(f"the lane ended by {problem!r}", ["lane", str(lane)], b"", 0.0)


def begin(pool):
    """Tries the initial inputs unchanged."""
    rng = random.Random(0)
    for kind, contents in (("text", texts()), ("image", images())):
        for content in contents:
            pool.seeds[kind].append(content)
    for kind in ("text", "image"):
        for content in pool.seeds[kind][:20]:
            try_one(pool, kind, content, rng, "first")


def main():
    parser = suite.command_line(__doc__)
    parser.add_argument("--minutes", type=float, default=MINUTES)
    parser.add_argument("--lanes", type=int, default=os.cpu_count())
    parser.add_argument("--seed", type=int, default=1)
    parser.add_argument("--keep", metavar="FOLDER")
    options = parser.parse_args()
    options.program = suite.program_of(options, 1)
    suite.need(["qemu-x86_64"], 1)
    if options.keep:
        os.makedirs(options.keep, exist_ok=True)
    with tempfile.TemporaryDirectory(prefix="cyclone-fuzzed-") as folder:
        pool = Pool(options, folder)
        begin(pool)
        lanes = [threading.Thread(target=work, args=(pool, n, options.seed * 1000 + n)) for n in range(options.lanes)]
        for lane in lanes:
            lane.start()
        for lane in lanes:
            lane.join()
    for fault in pool.faults:
        print(f"FAILED {fault}")
    kept = sum(len(seeds) for seeds in pool.seeds.values())
    print(f"{len(pool.blocks)} blocks of the program executed, {kept} texts and images kept; the slowest took {pool.slowest[0]:.2f} s")
    suite.end(pool.tried - len(pool.faults), len(pool.faults))


if __name__ == "__main__":
    sys.exit(main())

#!/usr/bin/env python3
"""Measures how fast the machine runs and loads, compared with an interpreter in C and qemu-mips. Not a test: it prints figures.

    make bench

Five loops are written in two forms: as images for `cyclone run` and for the interpreter (interpreter.c, compiled by gcc -O2), which end by
the machine's service, and as Linux executables for qemu-mips, which end by a system call. Each is run five times, in turn, and the least
processor time counts. One more loop, of loads and stores alone, is run by `cyclone run` on words of the stack and of two blocks of the
store.

The programs of bench/unseen/ are run by `cyclone run` and by the interpreter, as mips-linux-gnu-gcc -O1 compiles them and, where the text
is one of this language too, as `cyclone compile` does. The machine was not tuned for these programs.
"""
import glob
import math
import os
import shutil
import struct
import subprocess
import sys
import tempfile
import time

import pairs

HERE = os.path.dirname(os.path.abspath(__file__))
PROGRAM = os.path.join(HERE, "..", "crates", "cyclone", "out", "cyclone")
UNSEEN = os.path.join(HERE, "unseen")
TEXT, DATA = 0x00400000, 0x10000000
TURNS = 20_000_000
MOST = 10_000_000_000
NOP = 0


def immediate(op, t, s, i):
    return op << 26 | s << 21 | t << 16 | i & 0xFFFF


def registers(funct, d, s, t, amount=0):
    return s << 21 | t << 16 | d << 11 | amount << 6 | funct


def lui(t, i):
    return immediate(15, t, 0, i)


def ori(t, s, i):
    return immediate(13, t, s, i)


def addiu(t, s, i):
    return immediate(9, t, s, i)


def lw(t, i, s):
    return immediate(35, t, s, i)


def sw(t, i, s):
    return immediate(43, t, s, i)


def addu(d, s, t):
    return registers(33, d, s, t)


def branch(op, s, t, over):
    """Returns a branch over so many words after its delay slot; `op` 4 is beq, 5 bne, 7 bgtz, and 1 bltz."""
    return immediate(op, t, s, over)


def jump(op, number):
    """Returns a jump to the word of text with this number; `op` 2 is j, 3 is jal."""
    return op << 26 | (TEXT >> 2) + number


START = [lui(8, TURNS >> 16), ori(8, 8, TURNS & 0xFFFF), lui(9, DATA >> 16)]


def loop(body, slot):
    """Returns a loop that executes a body so often; register 9 points to the data range, and register 8 counts."""
    return START + body + [addiu(8, 8, -1), branch(5, 8, 0, -len(body) - 2), slot]


ARITHMETIC = [
    addu(11, 11, 10), addiu(10, 10, 7), registers(38, 12, 11, 8), registers(0, 13, 0, 12, 3), registers(35, 14, 13, 11),
    registers(36, 15, 14, 12), registers(42, 16, 15, 11), registers(37, 17, 16, 15), registers(2, 18, 0, 17, 2),
]
MEMORY = [
    lw(10, 0, 9), addiu(10, 10, 1), sw(10, 0, 9), lw(11, -4, 29), addu(11, 11, 10), sw(11, -4, 29), lw(12, 4, 9), sw(12, -8, 29),
]
BRANCHES = [
    registers(43, 11, 10, 8), branch(4, 11, 0, 2), addiu(10, 10, 1), addiu(12, 12, 1), branch(7, 12, 0, 2), NOP, addiu(12, 12, 3),
    branch(1, 12, 0, 3), NOP, branch(5, 10, 8, 1), NOP,
]
CALLS = START + [
    jump(3, 10), addiu(4, 4, 3), addiu(8, 8, -1), branch(5, 8, 0, -4), NOP, jump(2, 16), NOP,
    # the machine code of a function that saves its return address on the stack
    addiu(29, 29, -8), sw(31, 4, 29), addu(2, 4, 2), lw(31, 4, 29), registers(8, 0, 31, 0), addiu(29, 29, 8),
]
MIXED = [lw(10, 0, 9), addiu(10, 10, 1), sw(10, 0, 9), addu(11, 11, 10)]

# for each benchmark loop: its description, its machine words, and the number of instructions
# executed until the program ends
LOOPS = [
    ("arithmetic", loop(ARITHMETIC, registers(43, 19, 18, 17)), 3 + 12 * TURNS),
    ("loads and stores", loop(MEMORY, addu(13, 13, 12)), 3 + 11 * TURNS),
    ("branches", loop(BRANCHES, NOP), 3 + 25 * TURNS // 2),
    ("calls", CALLS, 3 + 11 * TURNS + 2),
    ("some of each", loop(MIXED, registers(38, 12, 11, 8)), 3 + 7 * TURNS),
]

SYSCALL = 0x0000000C


def allocate(handle, size):
    """Returns code in which service 9 allocates a block in the region with this handle, with register 9 pointing to it."""
    return [addiu(4, 0, handle), addiu(5, 0, size), addiu(2, 0, 9), SYSCALL, addu(9, 2, 0)]


ACCESSES = [
    lw(10, 0, 9), lw(11, 4, 9), sw(10, 8, 9), sw(11, 12, 9), lw(12, 8, 9), sw(12, 0, 9), lw(13, 12, 9), sw(13, 4, 9),
    addiu(8, 8, -1), branch(5, 8, 0, -10), NOP,
]
# the memory range that the benchmark loop accesses, and the code that makes register 9 point into
# that range
RANGES = [
    ("the stack", [addiu(9, 29, -16)]),
    ("a block of the heap", allocate(1, 4)),
    ("a unique block", allocate(2, 4)),
]
# system call 3 of this project's machine ends a run with the value of register 4; in Linux, system
# call 4001 is `exit`
OURS = [addiu(4, 0, 7), addiu(2, 0, 3), SYSCALL]
LINUX = [addiu(4, 0, 7), addiu(2, 0, 4001), SYSCALL]


def executable(words):
    """Returns a file with this text, and a page of data at the data range."""
    text = b"".join(struct.pack(">I", word) for word in words)
    # this ELF header satisfies Linux's requirements on offsets and alignment; the image reader of
    # the MIPS machine accepts this header
    header = bytes.fromhex("7f454c46010201") + bytes(9)
    header += struct.pack(">HHIIIIIHHHHHH", 2, 8, 1, TEXT, 52, 0, 0x1000, 52, 32, 2, 0, 0, 0)
    segments = struct.pack(">8I", 1, 0x1000, TEXT, TEXT, len(text), len(text), 5, 0x1000)
    segments += struct.pack(">8I", 1, 0x2000, DATA, DATA, 0, 4096, 6, 0x1000)
    front = header + segments
    return front + bytes(0x1000 - len(front)) + text + bytes(0x1000 - len(text))


def processor_time(words, status):
    """Returns the processor time of a run, in seconds."""
    process = subprocess.Popen(words, stdout=subprocess.DEVNULL, stderr=subprocess.DEVNULL)
    _, ended, usage = os.wait4(process.pid, 0)
    process.returncode = os.waitstatus_to_exitcode(ended)
    if process.returncode != status:
        sys.exit(f"{words[0]}: status {process.returncode} in place of {status}")
    return usage.ru_utime + usage.ru_stime


def runners(folder):
    """Returns the installed programs, each with the command that runs a file."""
    found = [("cyclone run", OURS, lambda path: [PROGRAM, "run", "--steps", str(MOST), path])]
    if shutil.which("gcc"):
        interpreter = os.path.join(folder, "interpreter")
        subprocess.run(["gcc", "-O2", "-o", interpreter, os.path.join(HERE, "interpreter.c")], check=True)
        found.append(("C interpreter", OURS, lambda path: [interpreter, path, str(MOST)]))
    if shutil.which("qemu-mips"):
        found.append(("qemu-mips", LINUX, lambda path: ["qemu-mips", path]))
    else:
        print("qemu-mips is not here (Debian's qemu-user has it)")
    return found


def range_times(folder):
    """Returns the least processor time of the loop of loads and stores on the words of each range."""
    path = os.path.join(folder, "range.elf")
    best = {}
    for _ in range(5):
        for name, to_words in RANGES:
            with open(path, "wb") as file:
                file.write(executable(START[:2] + to_words + ACCESSES + OURS))
            taken = processor_time([PROGRAM, "run", "--steps", str(MOST), path], 7)
            best[name] = min(best.get(name, taken), taken)
    return best


def load_time(folder):
    """Returns the least wall time of a run of three instructions, and of a command that does nothing, in seconds."""
    path = os.path.join(folder, "short.elf")
    with open(path, "wb") as file:
        file.write(executable(OURS))
    best = {}
    for _ in range(40):
        for words in ([PROGRAM, "run", path], [PROGRAM, "--version"]):
            start = time.perf_counter()
            subprocess.run(words, stdout=subprocess.DEVNULL, stderr=subprocess.DEVNULL)
            taken = time.perf_counter() - start
            best[words[1]] = min(best.get(words[1], taken), taken)
    return best["run"], best["--version"]


def images_of(folder):
    """Yields images of the programs of bench/unseen/, each with a name."""
    for source in sorted(glob.glob(os.path.join(UNSEEN, "*.c*"))):
        name, kind = os.path.splitext(os.path.basename(source))
        if shutil.which(pairs.GCC):
            image = os.path.join(folder, name + "-gcc.elf")
            # machine.h contains the declarations that a source text valid in both C and Cyclone
            # cannot contain
            text = ["-x", "c", "-include", os.path.join(pairs.PAIRS, "machine.h"), source, "-x", "none"]
            pairs.compiled([pairs.GCC, "-O1"] + pairs.FLAGS + text + ["-o", image] + pairs.LINKED)
            yield name + ", gcc", image
        if kind == ".cyc":
            image = os.path.join(folder, name + ".elf")
            pairs.compiled([PROGRAM, "compile", source, "-o", image])
            yield name, image


def unseen(folder, found):
    """Returns the speed of `cyclone run` relative to the interpreter in C on the programs of bench/unseen/."""
    both = [command for runner, _, command in found if runner != "qemu-mips"]
    if len(both) < 2:
        return
    print("programs of bench/unseen/: the speed of `cyclone run` to that of the C interpreter")
    ratios = []
    for name, image in images_of(folder):
        times = [[processor_time(command(image), 0) for command in both] for _ in range(7)]
        ours, in_c = (min(column) for column in zip(*times))
        ratios.append(in_c / ours)
        print(f"{name}: {ratios[-1]:.2f}")
    print(f"geometric mean of {len(ratios)}: {math.exp(sum(math.log(ratio) for ratio in ratios) / len(ratios)):.2f}")


def main():
    with tempfile.TemporaryDirectory() as folder:
        found = runners(folder)
        print(f"million instructions a second, and the ratio to the C interpreter: {', '.join(name for name, _, _ in found)}")
        for name, words, count in LOOPS:
            best = {}
            for _ in range(5):
                for runner, end, command in found:
                    path = os.path.join(folder, f"{len(end)}{end[1]}.elf")
                    with open(path, "wb") as file:
                        file.write(executable(words + end))
                    os.chmod(path, 0o755)
                    taken = processor_time(command(path), 7)
                    best[runner] = min(best.get(runner, taken), taken)
            speeds = [f"{(count + 3) / best[runner] / 1e6:.0f}" for runner, _, _ in found]
            ratio = f", {best['C interpreter'] / best['cyclone run']:.2f}" if "C interpreter" in best else ""
            print(f"{name}: {', '.join(speeds)}{ratio}")
        unseen(folder, found)
        best = range_times(folder)
        for name in list(best)[1:]:
            print(f"loads and stores in {name}: {best[name] / best['the stack']:.2f} of the time of those in the stack")
        run, nothing = load_time(folder)
        print(f"loading and running three instructions: {run * 1e3:.1f} ms, a call that does nothing: {nothing * 1e3:.1f} ms")


if __name__ == "__main__":
    main()

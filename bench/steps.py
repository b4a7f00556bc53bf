#!/usr/bin/env python3
"""Measures the most expensive steps of a run, compared with arithmetic. Not a test: it prints figures.

    make bench
    python3 bench/steps.py [--program PATH] [--instructions]

Each case is a loop that repeats one kind of step, with as few others as possible. It is run alternately under two budgets, five times each;
the least processor time under each counts, and the difference is the cost of the additional steps. The table has the nanoseconds for a step
of the loop, including its other steps, and the seconds for a run of the default budget.

With --instructions the host's instructions for a step are counted instead (`valgrind`), which do not depend on the machine's load.
"""
import argparse
import os
import re
import subprocess
import sys
import tempfile

from machine import (DATA, PROGRAM, SYSCALL, TEXT, NOP, addiu, addu, allocate, executable, jump, lui, lw, processor_time, registers,
                     immediate, sw)

FEW, MANY = 2_000_000, 42_000_000
DEFAULT = 1_000_000_000
TIMES = 5
COPIES = 32
SPENT = 7
# The factor by which the step budget of a run is divided when the run's instructions are counted. A run with
# counted instructions takes longer than a run without, and it need not be repeated.
SMALLER = 100
COUNTER = ["valgrind", "--tool=cachegrind", "--cache-sim=no", f"--cachegrind-out-file={os.devnull}"]
COUNTED = re.compile(rb"I +refs: +([\d,]+)")


def service(number):
    """Returns code that calls a service; if register 2 contains the number already, `SYSCALL` suffices."""
    return [addiu(2, 0, number), SYSCALL]


def lb(t, i, s):
    return immediate(36, t, s, i)


def sb(t, i, s):
    return immediate(40, t, s, i)


TO_TEXT, TO_DATA, TO_STACK = [lui(9, TEXT >> 16)], [lui(9, DATA >> 16)], [addiu(9, 29, -256)]
FAR_STACK = [lui(10, 0x30), registers(35, 9, 29, 10)]  # 3 MB below the end of the stack

# the code that is executed once before the loop, and the code that the loop repeats
CASES = {
    "arithmetic": ([], [addu(11, 11, 10)]),
    "products": ([], [registers(24, 0, 11, 10)]),
    "divisions": ([addiu(10, 0, 7)], [registers(26, 0, 11, 10)]),
    "loads of the stack": (TO_STACK + [sw(0, 0, 9)], [lw(10, 0, 9)]),
    "loads of a block of the heap": (allocate(1, 4), [lw(10, 0, 9)]),
    "loads of a unique block": (allocate(2, 4), [lw(10, 0, 9)]),
    "bytes stored in a unique block": (allocate(2, 4), [sb(10, 1, 9)]),
    "loads of text": (TO_TEXT, [lw(10, 0, 9)]),
    "bytes loaded of text": (TO_TEXT, [lb(10, 1, 9)]),
    "loads of the data range, of a word never written": (TO_DATA, [lw(10, 0x4000, 9)]),
    "loads of the stack, of a word never written": (FAR_STACK, [lw(10, 0, 9)]),
    "a byte printed": (service(2), [addiu(2, 0, 2), SYSCALL]),
    "a byte asked for at the end of the input": ([], service(1)),
    "blocks of 1,000 words made unique and freed": (
        [addiu(5, 0, 1000)], [addiu(4, 0, 2)] + service(9) + [addu(4, 2, 0)] + service(10)),
    "blocks of 512 words made unique and freed": (
        [addiu(5, 0, 512)], [addiu(4, 0, 2)] + service(9) + [addu(4, 2, 0)] + service(10)),
    "regions with a block of 1,000 words opened and closed": (
        [addiu(5, 0, 1000)], service(5) + [addu(4, 2, 0)] + service(9) + [addu(4, 0, 0)] + service(6)),
}


def looped(once, again):
    """Returns the words that execute the first code, and then repeat the second forever."""
    return once + again * COPIES + [jump(2, len(once)), NOP]


def instructions(words, status=SPENT):
    """Returns the host's instructions of a run, which must end with this status."""
    counted = subprocess.run(COUNTER + words, stdin=subprocess.DEVNULL, stdout=subprocess.DEVNULL, stderr=subprocess.PIPE, check=False)
    if counted.returncode != status:
        sys.exit(f"{words[0]}: status {counted.returncode} in place of {status}")
    return int(COUNTED.search(counted.stderr)[1].replace(b",", b""))


def steps_price(program, path, is_counted):
    """Returns the cost of a step of the loop in a file: nanoseconds, or instructions if they are counted."""
    few, many = (budget // SMALLER if is_counted else budget for budget in (FEW, MANY))
    taken = {}
    for _ in range(1 if is_counted else TIMES):
        for budget in (few, many):
            words = [program, "run", "--steps", str(budget), path]
            cost = instructions(words) if is_counted else processor_time(words, SPENT) * 1e9
            taken[budget] = min(taken.get(budget, cost), cost)
    return (taken[many] - taken[few]) / (many - few)


def main():
    parser = argparse.ArgumentParser(description=__doc__.split("\n")[0])
    parser.add_argument("--program", default=PROGRAM)
    parser.add_argument("--instructions", action="store_true")
    options = parser.parse_args()
    if options.instructions:
        print("the host's instructions for a step of a loop of each")
    else:
        print("nanoseconds for a step of a loop of each, and seconds for a run of the default budget")
    with tempfile.TemporaryDirectory() as folder:
        path = os.path.join(folder, "loop.elf")
        for name, (once, again) in CASES.items():
            with open(path, "wb") as file:
                file.write(executable(looped(once, again)))
            price = steps_price(options.program, path, options.instructions)
            behind = "" if options.instructions else f", {price * DEFAULT / 1e9:.0f}"
            print(f"{name}: {price:.1f}{behind}", flush=True)


if __name__ == "__main__":
    main()

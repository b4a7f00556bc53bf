#!/usr/bin/env python3
"""Measures the speed of both stores, compared with malloc and free of the C library. Not a test: it prints figures.

    make bench
    python3 bench/store.py [--program PATH] [--instructions]

Images ask `cyclone run --store` for services, with 65,536 pages. With 1, 1,000 and 60,000 pages in use a unique block of 16 words is made
and freed, a region is opened and closed, blocks of 16 words are made in regions of 64, and words of the pages are loaded and saved. Regions
of 1 and of 60,000 pages are filled and closed. Each image is run alternately with few iterations and with many, five times each. The least
processor time of each counts, and the difference is the cost of the additional iterations: a call with the surrounding instructions. The
case `the loop alone` has the loads and saves without calls. store.c performs the first three with malloc and free, with blocks of 64 bytes
and of 4,096.

A run of one instruction gives the cost of creating a store of 1,024 or 65,536 pages. The loop of loads and stores of machine.py is run on
words of a block of the heap, of one on the heap's second page, and of a unique block. With --instructions the host's instructions are
counted in place of nanoseconds (`valgrind`), which other work does not change.
"""
import argparse
import os
import subprocess
import sys
import tempfile

from machine import (ACCESSES, DATA, OURS, PROGRAM, SYSCALL, addiu, addu, allocate, branch, executable, immediate, lui, lw, ori,
                     processor_time, registers, sw)
from steps import instructions

HERE = os.path.dirname(os.path.abspath(__file__))
STORES = ("plain", "pages")
IN_USE = (1, 1_000, 60_000)
PAGES, MOST = 65_536, 1_000_000_000_000
# The large and the small number of loop iterations, and the factor by which both numbers are divided when
# instructions are counted.
MANY, FEW, FEWER = 2_000_000, 100_000, 100
RUNS = 5
IN_REGION = 64
# The expected result of a run: every image of this script returns 7.
RETURNED = 7
# The addresses of blocks are stored in the words of the data range, from its second page on.
ADDRESSES = DATA + 4096


def constant(register, value):
    return [lui(register, value >> 16), ori(register, register, value & 0xFFFF)]


def service(number):
    return [addiu(2, 0, number), SYSCALL]


def looped(register, turns, body):
    """Returns a loop that executes a body so often; the register counts."""
    return constant(register, turns) + body + [addiu(register, register, -1), branch(7, register, 0, -len(body) - 2), 0]


def filled(pages):
    """Returns code that opens a region with a block on each of so many pages, and writes a word of each. Register 20 then contains the
    handle."""
    block = [addu(4, 20, 0), addiu(5, 0, 1000), *service(9), sw(2, 0, 2), sw(2, 0, 21), addiu(21, 21, 4)]
    return [*service(7), addu(20, 2, 0), *constant(21, ADDRESSES), *looped(8, pages, block)]


# Loop bodies: one allocates and frees a unique block, one opens and closes a region, and one allocates 64 blocks in a
# region.
FREE = [*allocate(2, 16), addu(4, 9, 0), *service(10)]
OPEN = [*service(7), addu(4, 2, 0), *service(8)]
BLOCKS = looped(9, IN_REGION, [addu(4, 23, 0), addiu(5, 0, 16), *service(9)])
MAKE = [*service(5), addu(22, 3, 0), addu(23, 2, 0), *BLOCKS, addu(4, 22, 0), *service(6)]
# Computes the address of a word of a pseudo-random block. Register 10 holds the pseudo-random number, register 11 the number of blocks,
# and register 12 the address.
ANY = [
    registers(24, 0, 10, 13), registers(18, 10, 0, 0), registers(2, 12, 0, 10, 8), registers(26, 0, 12, 11), registers(16, 12, 0, 0),
    registers(0, 12, 0, 12, 2), addu(12, 12, 14), lw(12, 0, 12), immediate(12, 15, 10, 0x7FC), addu(12, 12, 15),
]


def started(pages):
    return [*filled(pages), *constant(10, 12_345), *constant(11, pages), *constant(13, 69_069), *constant(14, ADDRESSES)]


# For each kind of loop: the loop's body, the number of system calls in it, and the code before the loop. The
# last field is the mode in which store.c makes the same calls, if it does.
KINDS = {
    "blocks made and freed": (FREE, 1, filled, "free"),
    "regions opened and closed": (OPEN, 1, filled, "close"),
    "blocks made in regions": (MAKE, IN_REGION, filled, "make"),
    "words loaded": ([*ANY, lw(16, 0, 12)], 1, started, None),
    "words saved": ([*ANY, sw(10, 0, 12)], 1, started, None),
    "the loop alone": (ANY, 1, started, None),
}
PLACES = {
    "a block of the heap": allocate(1, 4),
    "one on its second page": [*allocate(1, 1000), *allocate(1, 1000), *allocate(1, 4)],
    "a unique block": allocate(2, 4),
}


class Runs:
    """Runs of a program, with the measured unit: nanoseconds of processor time, or instructions of the host."""

    def __init__(self, program, folder, is_counted):
        self.program, self.path, self.is_counted = program, os.path.join(folder, "image.elf"), is_counted

    def cost(self, store, words, status=RETURNED, pages=PAGES, steps=MOST):
        with open(self.path, "wb") as file:
            file.write(executable(words))
        command = [self.program, "run", "--pages", str(pages), "--steps", str(steps), "--store", store, self.path]
        return instructions(command, status) if self.is_counted else processor_time(command, status) * 1e9

    def price(self, store, image, many, few):
        """Returns the cost of an additional iteration, if `image` makes the words for a number of iterations."""
        if self.is_counted:
            many, few = max(many // FEWER, 2), max(few // FEWER, 1)
        costs = {turns: [] for turns in (few, many)}
        for _ in range(1 if self.is_counted else RUNS):
            for turns, them in costs.items():
                them.append(self.cost(store, image(turns)))
        return (min(costs[many]) - min(costs[few])) / (many - few)


def in_c(folder):
    """Returns the nanoseconds of a call of each kind of malloc and free, by pages in use."""
    program = os.path.join(folder, "store")
    subprocess.run(["gcc", "-O2", "-o", program, os.path.join(HERE, "store.c")], check=True)
    lines = subprocess.run([program], check=True, capture_output=True, text=True).stdout.splitlines()
    return {(kind, int(pages)): float(time) * 1e3 / MANY for kind, pages, time in map(str.split, lines)}


def of_kinds(runs, folder):
    """Returns the costs of calls, with so many pages in use."""
    beside = {} if runs.is_counted else in_c(folder)
    for what, (turn, calls, before, kind) in KINDS.items():
        for pages in IN_USE:
            image = lambda turns, turn=turn, before=before, pages=pages: before(pages) + looped(19, turns, turn) + OURS
            prices = [runs.price(store, image, MANY // calls, FEW // calls) / calls for store in STORES]
            prices += [beside[kind, pages]] if (kind, pages) in beside else []
            print(f"  {what:26} {pages:6,} pages in use:" + "".join(f" {it:8.1f}" for it in prices), flush=True)


def of_regions(runs):
    """Returns the costs of a page of a region that is filled and closed, and of a new store."""
    for pages in (1, 60_000):
        turns = 200_000 // pages
        image = lambda turns, pages=pages: looped(19, turns, [*filled(pages), addu(4, 20, 0), *service(8)]) + OURS
        prices = [runs.price(store, image, 10 + turns, 5) / pages for store in STORES]
        print(f"  a page of a region of {pages:6,}, filled and closed:" + "".join(f" {it:8.1f}" for it in prices), flush=True)
    for pages in (1_024, 65_536):
        prices = [min(runs.cost(store, OURS, pages=pages) for _ in range(RUNS)) for store in STORES]
        print(f"  a run of three instructions, with {pages:6,} pages:" + "".join(f" {it:12.0f}" for it in prices), flush=True)


def of_accesses(runs):
    """Returns the costs of an instruction of the loop of loads and stores."""
    for what, before in PLACES.items():
        image = lambda turns, before=before: [*before, *constant(8, turns)] + ACCESSES + OURS
        prices = [runs.price(store, image, 20 * MANY, FEW) / len(ACCESSES) for store in STORES]
        print(f"  loads and stores of {what:26}:" + "".join(f" {it:8.2f}" for it in prices), flush=True)


def main():
    parser = argparse.ArgumentParser(description=__doc__.split("\n")[0])
    parser.add_argument("--program", default=PROGRAM)
    parser.add_argument("--instructions", action="store_true")
    options = parser.parse_args()
    what = "the host's instructions" if options.instructions else "nanoseconds"
    print(f"stores: {what} of each, over the store in memory and over that on a pool, and of malloc and free")
    with tempfile.TemporaryDirectory() as folder:
        runs = Runs(options.program, folder, options.instructions)
        of_kinds(runs, folder)
        of_regions(runs)
        of_accesses(runs)


if __name__ == "__main__":
    sys.exit(main())

#!/usr/bin/env python3
"""Tests images, instructions and stores on tables with answers computed by hand; and stores with many calls and all their pages.

    python3 tests/runners/worked.py [--program PATH] [--one-store] [--part NAME] [--quick]

The tables are in tests/worked: `files` of images with their faults and limits, small programs of the `machine` with their ends, counts and
registers, the ends of its `ranges`, `listings` of instructions, the results of `operations`, and calls of `stores`. Each row of the last
kind yields an image with the calls that succeed, and one for each refused call, which ends the run. `calls` are some thousand random calls,
compared with a model of lists; `pages` are images that use every page of a store, up to 65,536.

Each run uses both stores, with the same count of instructions, unless --one-store is given. The references in tests/references must give
the rows' answers, unless they leave the answer open. With --quick the calls are fewer, and the stores smaller. The last line is `N passed,
M failed`; each image is one.
"""
import os
import random
import re
import struct
import tempfile

import suite  # first: it makes the references and the generators importable
import image_makers
import machine
import store_makers
import stores

WORKED = os.path.join(suite.TESTS, "worked")
# The memory where registers are saved until they are printed, and the register that holds the
# address of this memory.
ROOM, POINTER = machine.DATA + 0x300000, 26
BREAK = 0x0D
# The text segment, of six machine words, of those test images whose other segments are tested.
TEXT = "3c081000 8d090004 8d0a0008 3c0b0040 8d6c0100 8d6d0018"
# The code of an image that stores 7 at an address, loads it again, and stops.
STORED = "3c08{high} 3508{low} 24090007 ad090000 8d0a0000 0000000d"
STATUSES = {"uncaught": 4, "full": 5, "trap": 6, "budget": 7}
LIES = {"word": ("trap break", 6), "dead": ("trap dead cell", 4), "nothing": ("trap no such address", 4)}
OPERATIONS = {"add": "addu", "sub": "subu", "shl": "sllv", "shr": "srlv", "sar": "srav", "slt": "slt", "sltu": "sltu"}
# The sizes of the stores that are tested with many calls and with all pages; the number of images and of calls in each, and the same with
# --quick.
PAGES, FEW_PAGES = (3, 4, 64, 65_536), (3, 64)
MANY, FEW = (6, 1_500), (1, 300)


def lines_of(name):
    """Returns the rows of a file."""
    with open(os.path.join(WORKED, f"{name}.txt"), encoding="utf-8") as file:
        return [line.rstrip("\n") for line in file if line.strip() and not line.startswith("#")]


def bytes_of(words):
    """Returns the bytes of hexadecimal words; words with fewer digits are padded with zeros at the front."""
    return b"".join(struct.pack(">I", int(word, 16)) for word in words.split())


class Row:
    """An image with its name, and the command with its expected answer."""

    def __init__(self, name, file, words, wanted, given=b"", count=None, is_run=True):
        self.name, self.file, self.words, self.wanted, self.given, self.count, self.is_run = name, file, words, wanted, given, count, is_run

    def faults(self, program, is_one):
        with tempfile.TemporaryDirectory(prefix="cyclone-worked-") as folder:
            path = os.path.join(folder, "image.elf")
            with open(path, "wb") as file:
                file.write(self.file)
            if not self.is_run:
                got = suite.answer([program, *self.words, path])
                return [] if got == self.wanted else [suite.difference(" ".join(self.words), self.wanted, got)]
            return list(filter(None, self.faults_of_run(program, path, is_one))) + self.faults_of_reference()

    def faults_of_run(self, program, path, is_one):
        if is_one:
            got = suite.answer([program, "run", path, *self.words], self.given)
            yield None if got == self.wanted else suite.difference("run", self.wanted, got)
            return
        counts = []
        for store, (*got, report) in zip(suite.STORES, suite.over_stores(program, [path, *self.words], self.given)):
            counts.append(report and report["instructions"])
            yield None if tuple(got) == self.wanted else suite.difference(f"over the store {store}", self.wanted, tuple(got))
        wanted = [counts[0] if self.count is None else self.count] * len(counts)
        yield None if counts == wanted else suite.difference("instructions", wanted, counts)

    def faults_of_reference(self):
        """Returns the difference between the reference's answer and the row. The reference counts the trapping instruction too."""
        limits = {name[2:]: int(number) for name, number in zip(self.words[::2], self.words[1::2])}
        if limits["steps"] > machine.STEPS:
            return []
        try:
            run = machine.Run(machine.Image(self.file), self.given, **limits)
            end = run.end()
        except machine.ImageFault as fault:
            return [] if self.wanted[1:] == (str(fault), 3) else [suite.difference("by the reference", self.wanted, str(fault))]
        except stores.Open:
            return []
        got = bytes(run.output), *end
        return [] if got == self.wanted else [suite.difference("by the reference", self.wanted, got)]


def limits(pages=3, calls=1, steps=1000):
    return ["--pages", str(pages), "--calls", str(calls), "--steps", str(steps)]


# ---- files


def files(_):
    name, words = None, ""
    for line in lines_of("files"):
        if line.startswith("== "):
            name, words = line.removeprefix("== "), ""
        elif line.startswith(" "):
            words += line
        else:
            changes, answer = line.split("|")
            file = bytearray(bytes_of(words))
            for place, word in (change.split("=") for change in changes.split()):
                file[int(place):int(place) + 4] = bytes_of(word)
            yield Of(f"{name}, with {changes or 'no change'}", bytes(file), answer)
    whole = bytes_of(" ".join(line for line in lines_of("files")[1:5] if line.startswith(" ")))
    for length in range(len(whole)):
        yield Of(f"the first {length} bytes of a file", whole[:length], "1")


class Of(Row):
    """A file, and the number of its fault, or the limits that `info` prints."""

    def __init__(self, name, file, answer):
        super().__init__(name, file, ["info"], answer, is_run=False)

    def faults(self, program, is_one):
        with tempfile.TemporaryDirectory(prefix="cyclone-worked-") as folder:
            path = os.path.join(folder, "image.elf")
            with open(path, "wb") as file:
                file.write(self.file)
            output, line, status = suite.answer([program, "info", path])
        by_program = self.shown(output.decode("ascii"), line, status)
        got = by_program, self.by_reference()
        return [] if got == (self.wanted,) * 2 else [suite.difference("by the program and by the reference", (self.wanted,) * 2, got)]

    @staticmethod
    def shown(output, line, status):
        if status == 3:
            return line.removeprefix("image fault ")
        found = re.search(r"^limits (?:none|(\d+) pages, (\d+) calls)$", output, re.M)
        return f"{found[1]} {found[2]}" if found and found[1] else "none" if found and status == 0 else f"{line} {status}"

    def by_reference(self):
        try:
            note = machine.Image(self.file).note
        except machine.ImageFault as fault:
            return str(fault).removeprefix("image fault ")
        return "{} {}".format(*note) if note else "none"


# ---- runs


def segments_of(texts):
    """Returns the segments of a row: the words of the text, and for each other segment its address, its bytes in memory, and its words."""
    found = [(machine.TEXT, words_of(texts[0]), 0)]
    for text in texts[1:]:
        address, size, *words = text.split()
        found.append((int(address, 16), words_of(" ".join(words)), int(size, 16) - 4 * len(words)))
    return found


def words_of(text):
    return [int(word, 16) for word in text.split()]


def printing(registers):
    """Returns code that prints the words of registers and stops."""
    those = [int(register) for register in registers]
    words = [*image_makers.constant(POINTER, ROOM), *(image_makers.word_of("sw", POINTER, it, i=4 * at) for at, it in enumerate(those))]
    for at in range(4 * len(those)):
        words += image_makers.service(2, image_makers.word_of("lbu", POINTER, 4, i=at))
    return [*words, BREAK]


def programs(_):
    for line in lines_of("machine"):
        name, texts, given, last, count, printed, registers = line.split("|")
        segments = segments_of(texts.split("; "))
        how = last.split()
        status = int(how[1]) & 255 if how[0] == "returned" else STATUSES[how[0]]
        wanted = printed.encode("ascii"), last, status
        yield Row(name, image_makers.image(segments), limits(), wanted, given.encode("ascii"), int(count))
        if registers:
            (address, words, more), *others = segments
            held = dict(value.split("=") for value in registers.split())
            file = image_makers.image([(address, words[:-1] + printing(held), more), *others])
            output = wanted[0] + bytes_of(" ".join(held.values()))
            yield Row(f"{name}: the registers", file, limits(steps=5000), (output, last, 6), given.encode("ascii"))


def ranges(_):
    for line in lines_of("ranges"):
        first, *rest, what = line.split()
        if first == "segment":
            segments = segments_of([TEXT, " ".join(rest)])
            wanted = (b"", "budget spent", 7) if what == "loaded" else (b"", "image fault 8", 3)
            yield Row(line, image_makers.image(segments), limits(steps=1), wanted)
            continue
        last, count = LIES[what]
        text = STORED.format(high=rest[0][:4], low=rest[0][4:])
        yield Row(line, image_makers.image(segments_of([text])), limits(calls=int(first)), (b"", last, 6), count=count)


def operations(_):
    for line in lines_of("operations"):
        name, left, right, result = line.split()
        words = [*image_makers.constant(8, int(left, 16)), *image_makers.constant(9, int(right, 16))]
        if name in ("mul", "div", "rem"):
            words.append(image_makers.word_of("mult" if name == "mul" else "div", 8, 9))
            words.append(image_makers.word_of("mfhi" if name == "rem" else "mflo", d=10))
        elif name in ("shl", "shr", "sar"):
            words.append(image_makers.word_of(OPERATIONS[name], 9, 8, 10))
        else:
            words.append(image_makers.word_of(OPERATIONS[name], 8, 9, 10))
        file = image_makers.image([(machine.TEXT, words + printing(["10"]), 0)])
        yield Row(line, file, limits(), (bytes_of(result), "trap break", 6))


def listings(_):
    for line in lines_of("listings"):
        line, _, why = line.partition("|")
        address, word, text = line.split(" ", 2)
        at = int(address, 16)
        file = image_makers.image([(at, [int(word, 16)], 0)], entry=at)
        yield Row(f"{line} {why}".strip(), file, ["disasm"], (f"{address}: {word} {text}\n".encode("ascii"), "done", 0), is_run=False)
        if text == ".word":
            yield Row(f"a run of {word} {why}", file, limits(), (b"", "trap reserved instruction", 6), count=1)


# ---- stores


def calls_by_hand(_):
    for name, pages, file, *wanted in store_makers.rows_of(os.path.join(WORKED, "stores.txt")):
        yield Row(name, file, limits(pages), tuple(wanted))


def calls_at_random(is_quick):
    images, count = FEW if is_quick else MANY
    for pages in FEW_PAGES if is_quick else PAGES:
        for number in range(images):
            made = store_makers.Many(random.Random(f"{pages} {number}"), pages)
            file, *wanted = made.image(count)
            yield Row(f"{count} calls of {pages} pages, {number}", file, limits(pages, steps=machine.STEPS + 1), tuple(wanted))


def every_page(is_quick):
    for pages in FEW_PAGES if is_quick else PAGES:
        budget = limits(pages, steps=machine.STEPS + 1)
        file, *wanted = store_makers.each_page_again(pages)
        yield Row(f"each of {pages} pages is given back in turn", file, budget, tuple(wanted))
        for gone in sorted({0, pages // 2, pages - 2}):
            file, *wanted = store_makers.each_page_again(pages, gone)
            yield Row(f"the word of region {gone} of {pages} pages is gone", file, budget, tuple(wanted))
        file, *wanted = store_makers.all_pages_filled(pages)
        yield Row(f"all words of {pages} pages hold", file, budget, tuple(wanted))


PARTS = {
    "files": files, "machine": programs, "ranges": ranges, "listings": listings, "operations": operations, "stores": calls_by_hand,
    "calls": calls_at_random, "pages": every_page,
}


def main():
    parser = suite.command_line_of_runs(__doc__)
    parser.add_argument("--part", choices=PARTS)
    parser.add_argument("--quick", action="store_true")
    options = parser.parse_args()
    rows = [row for part in ([options.part] if options.part else PARTS) for row in PARTS[part](options.quick)]
    program = suite.program_of(options, len(rows))
    suite.try_each(rows, lambda row: row.name, lambda row: row.faults(program, options.one_store))


if __name__ == "__main__":
    main()

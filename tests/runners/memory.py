#!/usr/bin/env python3
"""Runs the largest stores, and the largest and most hostile images, under a memory limit.

    python3 tests/runners/memory.py [--program PATH]

The pages of the largest store are 256 MB of 2^20 bytes, and the data about them takes 17 MB more. Under a limit of 304 MB a run allocates
blocks until no page is left. Another run, of a program that opens regions, reports where it stopped. For that the program is run again over
a second store of the same size, which fits only if the first was freed. Under a limit of 256 MB both runs end with no memory before they
begin.

Images whose headers name far more bytes than they have, or that fill the whole text range, are run for an instruction: each under a limit
of 5 times its length, the memory for any image, and, if it is loaded, 160 MB: 140 MB for its text, and 8 MB for its data range and stack.
`info` and `disasm` run under the same limits without the 160 MB; images that cannot be loaded have no words to list. No command takes more
than PROCESSOR_SECONDS. The last line is `N passed, M failed`; each command is one.
"""
import os
import resource
import struct
import sys
import tempfile

import run
import suite

MB = 1024 * 1024
PAGES = "65536"
# The machine code of a loop that allocates heap blocks of 1,000 words and writes each block's
# address to its first word.
BLOCKS = "24040001 240503e8 24020009 0000000c ac420000 1000fffa 00000000"
# A program that opens regions until the heap has no page left, and the source position where memory
# runs out.
REGIONS = "int main() {\n  while (1) { let NewDynamicRegion {<`k> key} = new_ukey(); }\n  return 0;\n}\n"
PLACE = ":2:38: "
ENOUGH, TOO_LITTLE = 304, 256
# The memory in MB that any image needs: the program's own code and stack, and a heap of 1,024
# pages; and the processor seconds.
ANY, PROCESSOR_SECONDS = 16, 2
# The additional memory in MB for loading an image that fills the whole text range.
LOADED = 160
TEXT, TEXT_SIZE, ELSEWHERE, ADDRESSES = 0x400000, 0x1C00000, 0x20000000, 1 << 32


class Command:
    """The words of a command, its memory limit in bytes, its expected status, its limit of processor time, and its expected last line."""

    def __init__(self, words, limit, status, seconds=suite.SECONDS, said=""):
        self.words, self.limit, self.status, self.seconds, self.said = words, limit, status, seconds, said


def elf(entry, loads, behind=b""):
    """Returns a file with these loadable headers, each an offset, an address, and a size in the file and in memory."""
    head = bytes.fromhex("7f454c46010201") + bytes(9)
    head += struct.pack(">HHIIIIIHHHHHH", 2, 8, 1, entry, 52, 0, 0, 52, 32, len(loads), 0, 0, 0)
    return head + b"".join(struct.pack(">8I", 1, at, to, to, size, memory, 5, 4) for at, to, size, memory in loads) + behind


def side_by_side(count, base, size, at=0):
    """Returns this many headers of adjacent segments of one size, which name the same bytes of the file."""
    return [(at, base + number * size, size, size) for number in range(count)]


def hostile_images():
    """Returns each hostile image by its description, with the status of a run of one instruction."""
    table = 52 + 32 * 8192
    part = TEXT_SIZE // 8192
    most = (ADDRESSES - ELSEWHERE) // 65535 // 4 * 4
    return [
        ("segments that share bytes", elf(ELSEWHERE, side_by_side(8192, ELSEWHERE, table + 56), bytes(56)), 3),
        ("the most headers", elf(ELSEWHERE, side_by_side(65535, ELSEWHERE, most)), 3),
        ("a segment outside the ranges", elf(ELSEWHERE, [(0, ELSEWHERE, 16 * MB, 16 * MB)], bytes(16 * MB)), 3),
        ("a segment of all addresses", elf(0, [(0, 0, 84, ADDRESSES - 4)]), 3),
        ("the greatest segment", elf(TEXT, [(84, TEXT, 4, TEXT_SIZE)], bytes(4)), 7),
        ("a text of shared bytes", elf(TEXT, side_by_side(8192, TEXT, part, table), bytes(part)), 7),
        ("a text in the file", elf(TEXT, [(84, TEXT, TEXT_SIZE, TEXT_SIZE)], bytes(TEXT_SIZE)), 7),
    ]


def on_images(program, folder):
    """Returns the commands on hostile images."""
    found = []
    for name, content, ran in hostile_images():
        path = os.path.join(folder, f"{name}.elf".replace(" ", "_"))
        with open(path, "wb") as file:
            file.write(content)
        limit = 5 * len(content) + ANY * MB
        found.append(Command([program, "run", "--steps", "1", path], limit + (0 if ran == 3 else LOADED * MB), ran, PROCESSOR_SECONDS))
        if ran == 3:
            found.append(Command([program, "disasm", path], limit, 0, PROCESSOR_SECONDS))
        found.append(Command([program, "info", path], limit, 0, PROCESSOR_SECONDS))
    return found


def on_stores(program, folder):
    """Returns the commands on stores of the most pages."""
    path = lambda name: os.path.join(folder, name)
    with open(path("blocks.elf"), "wb") as file:
        file.write(run.image_of(BLOCKS.split()))
    with open(path("regions.cyc"), "w", encoding="ascii") as file:
        file.write(REGIONS)
    made = suite.answer([program, "compile", path("regions.cyc"), "-o", path("regions.elf"), "--places", path("places")])
    if made != (b"", "done", 0):
        raise SystemExit(f"regions.cyc is not compiled: {made}")
    fill = [program, "run", "--pages", PAGES, path("blocks.elf")]
    twice = [program, "run", "--pages", PAGES, "--places", path("places"), path("regions.elf")]
    ends = [(fill, ENOUGH, 5, ""), (fill, TOO_LITTLE, 8, ""), (twice, ENOUGH, 5, PLACE), (twice, TOO_LITTLE, 8, "")]
    return [Command(words, limit * MB, status, said=said) for words, limit, status, said in ends]


def name_of(command):
    words = [os.path.basename(command.words[0])] + command.words[1:-1] + [os.path.basename(command.words[-1])]
    return f"{' '.join(words)}, in {command.limit // MB} MB"


def faults_of(command):
    """Returns the differences from the expected result of a command under its limit."""
    confine = lambda: resource.setrlimit(resource.RLIMIT_AS, (command.limit, command.limit))
    before = resource.getrusage(resource.RUSAGE_CHILDREN)
    done = suite.run(command.words, preexec_fn=confine)
    after = resource.getrusage(resource.RUSAGE_CHILDREN)
    taken = after.ru_utime + after.ru_stime - before.ru_utime - before.ru_stime
    if done.returncode != command.status:
        return [suite.difference("the status", command.status, done.returncode), suite.last_line(done.stderr)]
    if command.said.encode("ascii") not in done.stderr:
        return [suite.difference("what is said", command.said, done.stderr)]
    if taken > command.seconds:
        return [f"{taken:.2f} seconds of processor, and no more than {command.seconds} are wanted"]
    return []


def main():
    options = suite.command_line(__doc__).parse_args()
    count = 4 + 2 * len(hostile_images()) + sum(ran == 3 for _, _, ran in hostile_images())
    program = suite.program_of(options, count)
    with tempfile.TemporaryDirectory(prefix="cyclone-memory-") as folder:
        commands = on_stores(program, folder) + on_images(program, folder)
        suite.try_each(commands, name_of, faults_of)


if __name__ == "__main__":
    sys.exit(main())

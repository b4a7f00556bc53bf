#!/usr/bin/env python3
"""Measures how fast a text of 60,000 tokens is checked, compared with tcc and gcc on the same text. Not a test: it prints figures.

    make bench

The text is a program of this language and of C: functions over ints with loops and calls. `cyclone check` checks its tokens, its tree, its
types and its flow; `tcc -c` also compiles it, in the same pass; `gcc -fsyntax-only` checks its types and compiles nothing. The fastest of
many runs counts; the fastest run on a program of one line gives the time to start. tests/runners/growth.py compares texts of other shapes
with this one.
"""
import os
import shutil
import subprocess
import sys
import tempfile
import time

HERE = os.path.dirname(os.path.abspath(__file__))
sys.path.append(os.path.join(HERE, "..", "tests", "generators"))
from shapes import SMALL, text_of

PROGRAM = os.path.join(HERE, "..", "crates", "cyclone", "out", "cyclone")
RUNS = 40
TOKENS = 60_000


def milliseconds(words, runs=RUNS):
    """Returns the fastest run in milliseconds. All runs must end with status 0."""
    best = None
    for _ in range(runs):
        start = time.perf_counter()
        done = subprocess.run(words, stdout=subprocess.DEVNULL, stderr=subprocess.PIPE)
        taken = (time.perf_counter() - start) * 1000
        if done.returncode != 0:
            sys.exit(f"{' '.join(words)}: status {done.returncode}\n{done.stderr.decode('latin-1')}")
        best = taken if best is None else min(best, taken)
    return best


def main():
    with tempfile.TemporaryDirectory() as folder:
        text, small, output = (os.path.join(folder, name) for name in ("text.c", "small.c", "text.o"))
        for path, program in ((text, text_of(TOKENS)), (small, SMALL)):
            with open(path, "w", encoding="ascii") as file:
                file.write(program)
        print(f"a text of {TOKENS} tokens, {os.path.getsize(text)} bytes")
        tools = (
            ("cyclone check", [PROGRAM, "check"]),
            ("tcc -c", ["tcc", "-c", "-o", output]),
            ("gcc -fsyntax-only", ["gcc", "-fsyntax-only"]),
        )
        for name, words in tools:
            if not shutil.which(words[0]):
                print(f"{words[0]} is not here (Debian's package {words[0]} has it)")
                continue
            taken = milliseconds(words + [text])
            start = milliseconds(words + [small])
            print(f"{name + ':':19}{taken:7.1f} ms, of which {start:.1f} ms to start")


if __name__ == "__main__":
    main()

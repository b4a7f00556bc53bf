#!/usr/bin/env python3
"""Measures how fast a text of 60,000 tokens is compiled. Not a test: it prints figures. bench/pairs.py measures the quality of the code.

    make bench

The text is the one of bench/checker.py, a program of this language and of C. `cyclone compile` makes an image of it; `tcc -c` and
`mips-linux-gnu-gcc -O0 -c` make an object file. The fastest of many runs counts; the time to start is printed with it.
"""
import os
import shutil
import subprocess
import sys
import tempfile
import time

import checker

SECONDS = 1
GCC = "mips-linux-gnu-gcc"


def write(folder, name, text):
    path = os.path.join(folder, name)
    with open(path, "w", encoding="ascii") as file:
        file.write(text)
    return path


def compiles(words):
    """Returns whether a command succeeds, and its last line."""
    done = subprocess.run(words, capture_output=True, text=True, errors="replace")
    return done.returncode == 0, done.stderr.strip().split("\n")[-1]


def milliseconds(words):
    """Returns the fastest of as many runs as a second allows, but at least three."""
    times = []
    while len(times) < 3 or sum(times) < SECONDS:
        start = time.perf_counter()
        subprocess.run(words, check=True, stdout=subprocess.DEVNULL, stderr=subprocess.DEVNULL)
        times.append(time.perf_counter() - start)
    return min(times) * 1000


def speed(folder):
    text = write(folder, "text.c", checker.text_of(checker.TOKENS))
    small = write(folder, "small.c", checker.SMALL)
    output = os.path.join(folder, "output")
    print(f"a text of {checker.TOKENS} tokens, {os.path.getsize(text)} bytes, compiled")
    tools = (
        ("cyclone compile", [checker.PROGRAM, "compile", "-o", output]),
        ("tcc -c", ["tcc", "-c", "-o", output]),
        (f"{GCC} -O0 -c", [GCC, "-O0", "-w", "-c", "-o", output]),
    )
    for name, words in tools:
        if not shutil.which(words[0]):
            print(f"{name}: {words[0]} is not here")
            continue
        good, said = compiles(words + [text])
        if not good:
            print(f"{name}: refuses it: {said}")
            continue
        start = milliseconds(words + [small])
        taken = milliseconds(words + [text])
        print(f"{name + ':':31}{taken:7.1f} ms, of which {start:.1f} ms to start; {os.path.getsize(output)} bytes")


def main():
    if not os.access(checker.PROGRAM, os.X_OK):
        sys.exit(f"there is no program {checker.PROGRAM}: `make build` proves and builds it")
    with tempfile.TemporaryDirectory() as folder:
        speed(folder)


if __name__ == "__main__":
    main()

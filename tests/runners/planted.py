#!/usr/bin/env python3
"""Checks that the command-line suite exercises each call on a text or an image: if the call always runs out of memory, some case fails.

    python3 tests/runners/planted.py [--program PATH] [NAME ..]

A contract allows a call to run out of memory, so the proof does not exclude a body that always does. Each call gets a switch: it runs out
of memory if its text begins with a comment that names it, or if its image has its number in an unused byte of the header. A copy of the
crates with these switches is built once, without proofs (`tools/unproved`; PATH names an earlier build). Then cases of the suite are run
with the switch of one call in all their files. They stop when a case fails that passes with the switch of no call.

The test takes some minutes and is not part of the gate. The last line is `N passed, M failed`, of calls.
"""
import argparse
import glob
import os
import re
import shutil
import subprocess
import tempfile

import suite  # first: it makes the references and the generators importable
import run

# The crate of the command-line program, which has its own functions with the names of the public
# calls.
PROGRAM = "cyclone"
# For each public call: its result when memory runs out, and the case files that are likely to
# exercise the call.
TEXTS = {
    "run_phases": ("Fault::memory()", ["checking"]),
    "accept": ("Fault::memory()", ["bounds"]),
    "bounds": ("Fault::memory()", ["bounds"]),
    "bounds_with_tokens": ("Fault::memory()", ["bounds"]),
    "compile_with_tokens": ("Fault::memory()", ["compiling", "programs"]),
    "compile_with": ("Fault::memory()", ["bounds"]),
    "compile": ("Fault::memory()", ["bounds"]),
    "compile_with_places": ("Fault::memory()", ["places"]),
}
IMAGES = {
    "note_of": ("ElfFault::Memory", ["notes", "reports"]),
    "run": ("RunFault::Memory", ["running"]),
    "run_with": ("RunFault::Memory", ["running"]),
    "run_plain": ("RunFault::Memory", ["running"]),
    "run_counting": ("RunFault::Memory", ["reports"]),
    "disassemble": ("RunFault::Memory", ["images"]),
    "follow": ("RunFault::Memory", ["places"]),
}
CALLS = {**TEXTS, **IMAGES}
NUMBERS = {name: number for number, name in enumerate(IMAGES, 1)}
NO_CALL = "none"
# The byte of an image's header that states the number of the call that always runs out of memory:
# the last byte of the flags.
BYTE = 39


def switch_of(name):
    """Returns the condition in a call's body under which it runs out of memory."""
    if name in TEXTS:
        return f'text.starts_with(b"/*{name};*/")'
    return f"image.get({BYTE}).copied() == Some({NUMBERS[name]})"


def plant(tree):
    """Adds a switch to each call in a tree of crates."""
    left = dict(CALLS)
    for path in glob.glob(os.path.join(tree, "crates", "*", "src", "*.rt")):
        with open(path, encoding="utf-8") as file:
            text = file.read()
        for name, (answer, _) in {} if f"/{PROGRAM}/" in path else dict(left).items():
            # The body of a function begins after its contract clauses, at the first line that is only an opening brace or
            # that ends the signature.
            given = "text" if name in TEXTS else "image"
            head = re.search(rf"^pub fn {name}\b[^{{]*?\b{given}: &\[u8\](?:.*\n)+?(?:\{{|\) -> .* \{{)$", text, re.M)
            if head and left.pop(name):
                text = f"{text[:head.end()]}\n    if {switch_of(name)} {{\n        return Err({answer});\n    }}{text[head.end():]}"
        with open(path, "w", encoding="utf-8") as file:
            file.write(text)
    if left:
        raise SystemExit(f"no crate has the calls {', '.join(left)}")


def build(folder):
    """Builds a program whose calls have switches."""
    tree, program = os.path.join(folder, "tree"), os.path.join(folder, "cyclone")
    parts = ("crates", "tools")
    for part in parts:
        shutil.copytree(os.path.join(suite.ROOT, part), os.path.join(tree, part), ignore=shutil.ignore_patterns("out", "must-fail"))
    for name in ("crates.txt", "HANDLES"):
        shutil.copy(os.path.join(suite.ROOT, name), tree)
    plant(tree)
    subprocess.run([os.path.join(tree, "tools", "unproved"), program], check=True)
    return program


def turn(path, name):
    """Puts the switch of a call into a text or an image."""
    with open(path, "rb") as file:
        content = file.read()
    if content.startswith(b"\x7fELF") and len(content) > BYTE:
        content = content[:BYTE] + bytes([NUMBERS.get(name, 0)]) + content[BYTE + 1:]
    elif path.endswith(".cyc") and not content.startswith(b"/*"):
        content = f"/*{name if name in TEXTS else NO_CALL};*/".encode("ascii") + content
    with open(path, "wb") as file:
        file.write(content)


def turned(name):
    """Returns the function that runs a step with the switch of a call in all files."""
    def act(step, folder, program):
        for entry in os.scandir(folder):
            if entry.is_file(follow_symlinks=False):
                turn(entry.path, name)
        return run.run_step(step, folder, program)
    return act


def case_seen(name, program):
    """Returns the first case that fails if a call runs out of memory, or None."""
    for file in CALLS[name][1]:
        for case in run.Reader(os.path.join(run.CASES, f"{file}.cases")).read():
            if case.is_slow or case.longest > run.LONG:
                continue
            over = name in ("run_plain", "run_with")
            if run.faults_of(case, program, turned(name), over) and not run.faults_of(case, program, turned(NO_CALL), over):
                return f"{case.place}: {case.name}"
    return None


def faults_of(name, program):
    case = case_seen(name, program)
    print(f"{name}: " + (f"fails {case}" if case else "fails no case"), flush=True)
    return [] if case else ["no case fails where it wants memory"]


def main():
    parser = argparse.ArgumentParser(description=__doc__.split("\n")[0])
    parser.add_argument("--program")
    parser.add_argument("names", nargs="*", metavar="NAME", help="; ".join(CALLS))
    options = parser.parse_args()
    with tempfile.TemporaryDirectory(prefix="cyclone-planted-") as folder:
        program = os.path.abspath(options.program or build(folder))
        suite.limit_stack(64)
        suite.try_each(options.names or list(CALLS), str, lambda name: faults_of(name, program))


if __name__ == "__main__":
    main()

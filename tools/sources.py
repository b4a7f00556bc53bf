#!/usr/bin/env python3
"""Computes the dependencies of crates and the sources of programs, and records which programs were proved and built from them.

    python3 tools/sources.py look
    python3 tools/sources.py note LOOK

`note` records in out/proved.sum that the programs in crates/NAME/out were built from the current sources, and that these were proved. It
writes for each program the checksum of all files that the proofs of its crates read, and its own checksum. It is called after everything
was proved. LOOK is the output of `look` from before the proofs: if a source was touched since, nothing is recorded, and the status is 1.
"""
import hashlib
import os
import shutil
import subprocess
import sys

ROOT = os.path.dirname(os.path.dirname(os.path.abspath(__file__)))
# The files and folders of a crate that the prover reads.
PARTS = ("src", "specs", "proofs", "c")


# ---- the crates


def stands_on(root):
    """Returns the crates, each with the names of its dependencies."""
    return {line.split(":")[0].split()[0]: line.split(":")[1].split() for line in lines_of(root)}


def lines_of(root):
    """Returns the lines of crates.txt about a crate, without comments."""
    with open(os.path.join(root, "crates.txt"), encoding="utf-8") as file:
        lines = [line.partition("#")[0].strip() for line in file]
    return [line for line in lines if ":" in line]


def in_order(crate, graph):
    """Returns the crates that a crate depends on, dependencies first, and the crate last."""
    found = []

    def visit(it):
        for below in graph[it]:
            if below in graph and below not in found:
                visit(below)
        found.append(it)

    visit(crate)
    return found


def program_of(root, crate):
    """Returns the path of a crate's program once it is built."""
    return os.path.join(root, "crates", crate, "out", crate)


def programs_in(root):
    """Returns the crates that are programs."""
    return [crate for crate in stands_on(root) if os.path.exists(os.path.join(root, "crates", crate, "src", "main.rt"))]


def copy_to(room, crates, copy=shutil.copy2):
    """Copies these crates to a folder, which is then a repository with only them."""
    os.mkdir(os.path.join(room, ".git"))
    shutil.copy(os.path.join(ROOT, "HANDLES"), room)
    with open(os.path.join(room, "crates.txt"), "w", encoding="utf-8") as file:
        file.writelines(line + "\n" for line in lines_of(ROOT) if line.split(":")[0].split()[0] in crates)
    for crate in crates:
        folder = os.path.join(ROOT, "crates", crate)
        shutil.copytree(
            folder,
            os.path.join(room, "crates", crate),
            symlinks=True,
            ignore=lambda at, _, top=folder: ["out"] if at == top else [],
            copy_function=copy,
        )


# ---- the sources of programs


def toolchain():
    """Returns a description of the toolchain that proves and builds."""
    return subprocess.run(["rt", "version"], capture_output=True, check=True).stdout


def paths_of(root, crate):
    """Returns the folders and files of a crate that a proof reads, in order."""
    found = []
    for part in PARTS:
        for folder, folders, names in os.walk(os.path.join(root, "crates", crate, part)):
            folders.sort()
            found += [folder] + [os.path.join(folder, name) for name in sorted(names)]
    return found


def sum_of_file(path):
    with open(path, "rb") as file:
        return hashlib.sha256(file.read()).hexdigest()


def sum_of(root, program):
    """Returns the checksum of all that the proofs of a program's crates read: their files and lines of crates.txt, HANDLES, and the
    toolchain."""
    crates = sorted(in_order(program, stands_on(root)))
    whole = hashlib.sha256(toolchain())
    whole.update(repr([line for line in lines_of(root) if line.split(":")[0].split()[0] in crates]).encode())
    files = [os.path.join(root, "HANDLES")] + [path for crate in crates for path in paths_of(root, crate)]
    for path in filter(os.path.isfile, files):
        whole.update(f"{os.path.relpath(path, root)} {sum_of_file(path)}\n".encode())
    return whole.hexdigest()


def look(root):
    """Returns a word that changes whenever a source is touched, even if the change is undone."""
    whole = hashlib.sha256(toolchain())
    paths = [os.path.join(root, name) for name in ("crates.txt", "HANDLES")]
    for path in paths + [path for crate in stands_on(root) for path in paths_of(root, crate)]:
        state = os.lstat(path)
        whole.update(repr((path, state.st_ino, state.st_size, state.st_mtime_ns, state.st_ctime_ns)).encode())
    return whole.hexdigest()


# ---- proved and built programs


def noted_in(root):
    """Returns the recorded checksums of programs: of the sources of each, and its own."""
    try:
        with open(os.path.join(root, "out", "proved.sum"), encoding="ascii") as file:
            return {name: sums for name, *sums in map(str.split, file)}
    except OSError:
        return {}


def note(root, sums):
    """Records that the programs in the tree were built from sources with these checksums, and that these were proved."""
    noted = noted_in(root) | {program: [it, sum_of_file(program_of(root, program))] for program, it in sums.items()}
    os.makedirs(os.path.join(root, "out"), exist_ok=True)
    path = os.path.join(root, "out", "proved.sum")
    with open(path + ".new", "w", encoding="ascii") as file:
        file.writelines(f"{name} {' '.join(it)}\n" for name, it in noted.items())
    os.replace(path + ".new", path)


def is_built(root, program):
    """Returns true if the program in the tree was built from the current sources, which were proved."""
    path = program_of(root, program)
    return os.path.isfile(path) and noted_in(root).get(program) == [sum_of(root, program), sum_of_file(path)]


def main(words):
    if words == ["look"]:
        print(look(ROOT))
        return 0
    if words[:1] != ["note"] or len(words) != 2:
        print(__doc__, end="", file=sys.stderr)
        return 2
    sums = {program: sum_of(ROOT, program) for program in programs_in(ROOT) if os.path.isfile(program_of(ROOT, program))}
    if look(ROOT) != words[1]:
        print("sources were touched while they were proved: it is not noted which programs are of them", file=sys.stderr)
        return 1
    note(ROOT, sums)
    return 0


if __name__ == "__main__":
    sys.exit(main(sys.argv[1:]))

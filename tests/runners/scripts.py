#!/usr/bin/env python3
"""Checks each script of the repository: shell scripts by shellcheck, Python scripts by pyflakes3.

    python3 tests/runners/scripts.py [--root FOLDER]

A script is a file that ends in .sh or .py, or whose first line names a shell or Python. The last line is `N passed, M failed`, of
scripts.
"""
import argparse
import os
import re
import subprocess

import suite

SHELLCHECK, PYFLAKES = "shellcheck", "pyflakes3"
# The command that checks a script, chosen by the script's first line or its extension.
CHECKERS = ((re.compile(rb"#!.*\b(?:ba|da)?sh\b"), ".sh", SHELLCHECK), (re.compile(rb"#!.*\bpython"), ".py", PYFLAKES))
# The only hidden folder that contains scripts.
HIDDEN = ".ci"


def checker_of(path):
    """Returns the command that checks a file; None if the file is no script."""
    with open(path, "rb") as file:
        first = file.readline()
    return next((checker for pattern, ending, checker in CHECKERS if path.endswith(ending) or pattern.match(first)), None)


def scripts(root):
    """Returns the scripts below a folder, each with the command that checks it."""
    found = []
    for folder, folders, names in os.walk(root):
        folders[:] = [name for name in folders if name != "out" and (name == HIDDEN or not name.startswith("."))]
        paths = [os.path.join(folder, name) for name in names]
        found += [(path, checker) for path in paths if (checker := checker_of(path))]
    return sorted(found)


def faults_of(script):
    """Returns the checker's output for a script."""
    path, checker = script
    done = subprocess.run([checker, path], capture_output=True, text=True)
    said = (done.stdout + done.stderr).strip()
    return [said or f"{checker} ended with status {done.returncode}"] if said or done.returncode else []


def main():
    parser = argparse.ArgumentParser(description=__doc__.split("\n")[0])
    parser.add_argument("--root", default=suite.ROOT)
    options = parser.parse_args()
    found = scripts(options.root)
    suite.need([SHELLCHECK, PYFLAKES], len(found))
    suite.try_each(found, lambda script: os.path.relpath(script[0], options.root), faults_of)


if __name__ == "__main__":
    main()

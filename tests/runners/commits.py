#!/usr/bin/env python3
"""Checks that the message of each commit after a given one has the form of this repository.

    python3 tests/runners/commits.py [--since COMMIT]

A subject is `part: verb what`: the part is one or more crates (without `cyc_`), tools, documents or folders, and the subject has at most 60
characters. A body has lines of at most 100 characters. Neither mentions how the work was done: of sessions, helpers, drafts or work in
progress. Commits up to SINCE have other forms; in a clone without that commit, only the check itself is tested. The last line is `N passed,
M failed`, of the commits and of the form.
"""
import argparse
import re
import subprocess
import sys

import suite

SINCE = "9b434201e3faf222c12bbb5db7a2abf969cfcfcc"
SUBJECT = re.compile(r"[A-Za-z0-9_/. -]+(, [A-Za-z0-9_/. -]+)*: [a-z].+[^.]")
LONGEST, WIDEST = 60, 100
HISTORY = re.compile(r"\b(sessions?|helpers?|drafts?|WIP|work in progress)\b", re.IGNORECASE)


def faults_of(message):
    """Returns the faults of a message."""
    subject, _, body = message.strip("\n").partition("\n")
    faults = []
    if not SUBJECT.fullmatch(subject):
        faults.append("its subject is not `part: verb what`")
    if len(subject) > LONGEST:
        faults.append(f"its subject has {len(subject)} characters, and {LONGEST} are the most")
    faults += [f"a line of its body has {len(line)} characters" for line in body.split("\n") if len(line) > WIDEST]
    faults += [f"it speaks of {word}" for word in sorted({it.group(0) for it in HISTORY.finditer(message)})]
    return faults


def messages(since):
    """Returns the commits after a given one, each with its message; None if the clone lacks that commit."""
    command = ["git", "log", "--no-merges", "--format=%h%x00%B%x01", f"{since}..HEAD"]
    done = subprocess.run(command, cwd=suite.ROOT, capture_output=True, text=True)
    if done.returncode != 0:
        return None
    return [tuple(it.strip("\n").split("\0")) for it in done.stdout.split("\1") if it.strip()]


def main():
    parser = argparse.ArgumentParser(description=__doc__, formatter_class=argparse.RawDescriptionHelpFormatter)
    parser.add_argument("--since", default=SINCE)
    found = messages(parser.parse_args().since)
    if found is None:
        print("the clone does not go back to the first commit: git fetch --unshallow brings it")
        found = []
    failed = 0
    for commit, message in found:
        faults = faults_of(message)
        if faults:
            failed += 1
            print(f"FAILED {commit} {message.splitlines()[0]}: {'; '.join(faults)}")
    right = not faults_of("lower: move the test before the jump\n\nA loop takes one jump less.") and faults_of("What was moved")
    print(f"{len(found) - failed + (1 if right else 0)} passed, {failed + (0 if right else 1)} failed")
    return 1 if failed or not right else 0


if __name__ == "__main__":
    sys.exit(main())

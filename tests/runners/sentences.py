#!/usr/bin/env python3
"""Prints random sentences of the comments, each with its file, for a reader who has seen nothing else of this repository.

    python3 tests/runners/sentences.py [--count N] [--seed N]

Such a reader should understand 95 of 100 at first reading. A sentence is taken from the comments of `.rt`, `.antt`, `.py` and `.sh` files;
separator lines, examples and tables are skipped.
"""
import argparse
import os
import random
import re
import subprocess

import suite

# The pattern of a comment line, for each file extension.
COMMENTS = {
    kind: re.compile(rf"\s*{sign}\s?(?P<text>.*)")
    for kind, sign in ((".rt", "//[/!]?"), (".antt", "--"), (".py", "#(?!!)"), (".sh", "#(?!!)"))
}
# The pattern of comment lines that are not sentences: separators, tables, examples.
OTHER = re.compile(r"\s*(?:[-|=#+]|```|\s{4})|.*[;{}]$")


def blocks_of(text, comment):
    """Returns the comments of a file, each as its consecutive lines."""
    block = []
    for line in [*text.split("\n"), ""]:
        found = comment.fullmatch(line)
        if found and not OTHER.match(found["text"]):
            block.append(found["text"].strip())
        elif block:
            yield " ".join(block)
            block = []


def sentences_of(block):
    """Returns the sentences of a comment. A sign within back quotes ends none."""
    found = []
    for part in re.split(r"(?<=[.?!]) +(?=[A-Z`])", block):
        if found and found[-1].count("`") % 2:
            found[-1] += f" {part}"
        else:
            found.append(part)
    return found


def sentences():
    """Returns all sentences of comments, each with its file."""
    listed = subprocess.run(["git", "ls-files"], cwd=suite.ROOT, capture_output=True, text=True, check=True).stdout.split("\n")
    for path in listed:
        comment = COMMENTS.get(os.path.splitext(path)[1])
        if not comment:
            continue
        with open(f"{suite.ROOT}/{path}", encoding="utf-8", errors="replace") as file:
            for block in blocks_of(file.read(), comment):
                yield from ((path, it) for it in sentences_of(block) if len(it.split()) > 3)


def main():
    parser = argparse.ArgumentParser(description=__doc__, formatter_class=argparse.RawDescriptionHelpFormatter)
    parser.add_argument("--count", type=int, default=100)
    parser.add_argument("--seed", type=int, default=0)
    options = parser.parse_args()
    found = list(sentences())
    for path, sentence in random.Random(options.seed).sample(found, min(options.count, len(found))):
        print(f"{path}: {sentence}")


if __name__ == "__main__":
    main()

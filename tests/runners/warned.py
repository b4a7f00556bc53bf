#!/usr/bin/env python3
"""Compares the warnings on accepted texts with an independent implementation (tests/references/language/warned.py).

    python3 tests/runners/warned.py [--program PATH] [--count N] [--seed N]

Each text in docs/warnings.txt must get its warning, with the given words and place, and no other. For each warning, tests/unwarned.txt has
at least ten similar texts, for which neither implementation gives a warning. The other texts are the examples and N random programs (2,000
by default), some with one token changed. Both implementations must agree on places, words and order of the first twenty warnings. The same
seed gives the same programs. The last line is `N passed, M failed`, of texts and of warnings whose texts are counted.
"""
import os
import random
import re
import tempfile

import suite  # first: it makes the references and the generators importable
import broken_texts
import codes
import makers
import reference
from language import warned
from with_library import whole

TABLE = os.path.join(suite.ROOT, "docs", "warnings.txt")
UNWARNED = os.path.join(suite.TESTS, "unwarned.txt")
# The minimum number of texts that resemble a text with a warning but have none.
NEAR = 10
EXAMPLES = os.path.join(suite.ROOT, "examples")
MOST = 20
LINE = re.compile(r"^main\.cyc:(\d+):(\d+): warning: (.*)$")


class Row:
    """A warning of the table, and the text that has only this warning."""

    def __init__(self, lines):
        parts = dict(lines)
        self.name, self.words = parts["warning"], parts["words"]
        named = parts.get("named")
        self.text = characters_of(parts["text"])
        line, column = parts["place"].split(":")
        self.wanted = [((int(line), int(column)), worded(self.words, named))]

    def is_said_by(self, words):
        """Whether these are its words, about whatever they name."""
        before, gap, after = self.words.partition("%")
        return words == self.words or bool(gap) and words.startswith(before) and words.endswith(after)


def worded(words, named):
    """The words of a warning that names this, if it names something."""
    return words if named is None else words.replace("%", named)


def characters_of(text):
    """Returns a text as the string of its bytes."""
    return codes.characters(text).encode("utf-8").decode("latin-1")


def blocks_of(path):
    """Returns the blocks of a table, each as a list of a word and the rest of its line."""
    with open(path, encoding="ascii") as file:
        blocks = [block.split("\n") for block in file.read().split("\n\n")]
    blocks = [[line.split(None, 1) for line in block if line and not line.startswith("#")] for block in blocks]
    return [block for block in blocks if block]


def rows():
    return [Row(block) for block in blocks_of(TABLE)]


class Near:
    """A text that is similar to one with a warning, and has no warning itself."""

    def __init__(self, name, number, text):
        self.name, self.text, self.wanted = f"{name}, text {number} that is near to it", text, []
        self.verdict = reference.verdict(text)
        self.read = warned.warnings_of(reference.Program(text), text) if self.verdict == "done" else []


def near_texts():
    """Returns the texts of tests/unwarned.txt, by their warnings."""
    found = {}
    for block in blocks_of(UNWARNED):
        before = "".join(part + " " for word, part in block if word == "with")
        name = dict(block)["warning"]
        texts = [characters_of(f"{before}{part}\nint main(){{ return 0; }}") for word, part in block if word == "text"]
        found[name] = [Near(name, number, text) for number, text in enumerate(dict.fromkeys(texts), 1)]
    return found


def faults_of_count(name, near):
    """Returns a fault unless a warning has enough similar texts without warnings."""
    count = len(near.get(name, []))
    return [] if count >= NEAR else [f"tests/unwarned.txt has {count} texts that are near to it, and {NEAR} are wanted"]


class Text:
    """An accepted text, and the warnings of the independent implementation."""

    def __init__(self, name, text, words):
        self.name, self.text = name, text
        program = reference.Program(text)
        self.wanted = [(place, worded(words[warning], named)) for place, warning, named in warned.warnings_of(program, text)]


def accepted(text):
    return reference.verdict(text) == "done"


def random_texts(seed, count, words):
    """Yields random programs of each profile in turn, and each with one token changed, if they are accepted."""
    found, profiles = [], list(makers.PROFILES)
    numbers = random.Random(f"warned {seed}")
    while len(found) < count:
        profile = profiles[len(found) % len(profiles)]
        text = makers.PROFILES[profile](numbers).text()
        if not accepted(text):
            continue
        found.append(Text(f"{profile}, program {len(found)} of seed {seed}", text, words))
        changed = broken_texts.broken(text, numbers)
        if len(found) < count and accepted(changed):
            found.append(Text(f"{profile}, changed, program {len(found)} of seed {seed}", changed, words))
    return found


def example_texts(words):
    found = []
    for name in sorted(os.listdir(EXAMPLES)):
        if name.endswith(".cyc"):
            text = whole(os.path.join(EXAMPLES, name))
            if accepted(text):
                found.append(Text(name, text, words))
    return found


def warnings_said(program, folder, text):
    """Returns the places and words of the program's warnings on a text, and whether it says that there are more."""
    with open(os.path.join(folder, "main.cyc"), "w", encoding="latin-1") as file:
        file.write(text)
    os.chdir(folder)
    lines = suite.said([program, "check", "main.cyc"])
    found = [LINE.match(line) for line in lines]
    said = [((int(match.group(1)), int(match.group(2))), match.group(3)) for match in found if match]
    return said, "main.cyc: further warnings are not shown" in lines, lines[-1:]


def faults_of(program, folder, thing):
    said, are_more, last = warnings_said(program, folder, thing.text)
    wanted = sorted(thing.wanted)
    # Two compiler warnings at one source position may appear in either order in the output.
    faults = [] if last == ["done"] else [f"the last line is {last}"]
    if getattr(thing, "read", []):
        faults.append(f"the second reading warns of {thing.read}")
    if are_more != (len(wanted) > MOST):
        faults.append(f"there are {len(wanted)}, and more than {MOST} are{'' if are_more else ' not'} said to be")
    if sorted(said) != wanted[:MOST] and [place for place, _ in said] != [place for place, _ in wanted[:MOST]] \
            or not set(said) <= set(wanted) or [place for place, _ in said] != sorted(place for place, _ in said):
        faults.append(suite.difference("warnings", wanted[:MOST], said) + "\n" + thing.text)
    return faults


def main():
    parser = suite.command_line(__doc__)
    parser.add_argument("--count", type=int, default=2000)
    parser.add_argument("--seed", type=int, default=1)
    options = parser.parse_args()
    program = suite.program_of(options, options.count)
    table = rows()
    words = {row.name: row.words for row in table}
    near = near_texts()
    texts = reference.with_room(lambda: example_texts(words) + random_texts(options.seed, options.count, words))
    texts += [text for texts in near.values() for text in texts]
    with tempfile.TemporaryDirectory() as folder:
        counted = [(f"texts near to {row.name}", lambda name=row.name: faults_of_count(name, near)) for row in table]
        tried = [(thing.name, lambda thing=thing: faults_of(program, folder, thing)) for thing in table + texts]
        suite.try_each(counted + tried, lambda one: one[0], lambda one: one[1]())


if __name__ == "__main__":
    main()

#!/usr/bin/env python3
"""Compares the reported places of failed runs with an independent interpreter (tests/references/language/placed.py).

    python3 tests/runners/whereabouts.py [--program PATH] [--count N] [--seed N]

A mistake is planted into each example and into N random programs (300 by default): a statement that throws, before an executed statement on
its line. The lines of `run --places` before the last one must agree with the interpreter: the place, the exception's name, and the active
calls, each with its function and its place. The same holds for each random program's own failure, and for a run with one call fewer than it
needs. A run that exhausts its budget must report calls that the text has at these places. The image is the same as without the file of
places. The same seed gives the same programs. The last line is `N passed, M failed`, of programs.
"""
import itertools
import os
import random
import re
import tempfile

import suite  # first: it makes the references and the generators importable
import reference
import texts
from language import placed, values

STEPS_AT_MOST = 10_000
# The number of source positions in each program at which the test plants a mistake.
PLANTED = 2
# Statements of the language that throw an exception, each for a different reason.
MISTAKES = (
    "{ int *planted = NULL; *planted = 1; }",
    "{ int ?planted = new {for planted_at < 3 : 0}; planted[3] = 1; }",
    "{ int planted = 0; planted = 7 / planted; }",
    "{ int ?planted = new {for planted_at < 0 - 1 : 0}; }",
    "throw new Array_bounds;",
)
CALL = re.compile(r"main\.cyc:(\d+):(\d+): called here, in (\w+)")
STOP = re.compile(r"main\.cyc:(\d+):(\d+): .*, in (\w+)")


def statements_in(node, found):
    """Returns the places of the statements in blocks."""
    for name in ("items", "body", "other", "clauses"):
        inner = getattr(node, name, None)
        for part in inner if isinstance(inner, list) else [inner] if inner is not None else []:
            if name == "items" and part.kind in ("expression", "if", "while", "return", "swap"):
                found.append(part.start)
            statements_in(part, found)
    return found


def planted(text, place, mistake):
    """Returns the text with a mistake before the statement at a place, on the same line."""
    lines = text.split("\n")
    line, column = place
    before = lines[line - 1]
    lines[line - 1] = before[: column - 1] + mistake + " " + before[column - 1 :]
    return "\n".join(lines)


class Ended:
    """A run as the independent interpreter describes it."""

    def __init__(self, text, given, calls=reference.CALLS, steps=STEPS_AT_MOST):
        program = reference.Program(text)
        program.hold_to_sizes()
        self.text, self.given, self.calls = text, given, calls
        self.run = placed.PlacedRun(program, given, calls, steps)
        self.line, self.status = self.run.end()

    def is_told(self):
        return self.run.stop is not None and self.line != "budget spent"

    def lines(self):
        return placed.told(self.run, "main.cyc")


def ended(text, given, **options):
    """Returns the run of a text, or None if it is unusable."""
    try:
        found = Ended(text, given, **options)
    except (reference.Refused, values.Dead, values.Wrong, RecursionError):
        return None
    return found if found.is_told() else None


class Subject:
    """A program, and its runs and those of its variants that end early."""

    def __init__(self, name, text, given, numbers):
        self.name, self.text, self.given, self.ends = name, text, given, []
        program = reference.Program(text)
        places = [place for function in program.functions.values() for place in statements_in(function.body, [])]
        for place in numbers.sample(places, min(len(places), 4 * PLANTED)):
            if len(self.ends) < PLANTED:
                self.keep(ended(planted(text, place, numbers.choice(MISTAKES)), given))
        whole = placed.PlacedRun(program, given, steps=STEPS_AT_MOST)
        whole.end()
        self.keep(ended(text, given))
        if whole.deepest > 1:
            self.keep(ended(text, given, calls=whole.deepest - 1))

    def keep(self, found):
        if found:
            self.ends.append(found)


class Tried:
    """The runs of a subject by the program under test."""

    def __init__(self, program, numbers):
        self.program, self.numbers = program, numbers

    def faults(self, subject):
        with tempfile.TemporaryDirectory(prefix="whereabouts-") as folder:
            self.folder = folder
            found = [self.fault(end) for end in subject.ends] + [self.spent(subject)]
        return [fault for fault in found if fault]

    def at(self, name):
        return os.path.join(self.folder, name)

    def compile(self, text):
        with open(self.at("main.cyc"), "w", encoding="latin-1") as file:
            file.write(text)
        return suite.answer([self.program, "compile", self.at("main.cyc"), "-o", self.at("main.elf"), "--places", self.at("main.places")])

    def is_same_image(self):
        suite.answer([self.program, "compile", self.at("main.cyc"), "-o", self.at("other.elf")])
        with open(self.at("main.elf"), "rb") as one, open(self.at("other.elf"), "rb") as other:
            return one.read() == other.read()

    def said(self, given, *options):
        """Returns the lines about the end of a run, and its last line."""
        words = [self.program, "run", self.at("main.elf"), "--places", self.at("main.places"), *options]
        lines = suite.said(words, given)
        name = self.at("main.cyc")
        return [line.replace(name, "main.cyc") for line in lines if line.startswith((name, "    .. and"))], lines[-1]

    def fault(self, end):
        answer = self.compile(end.text)
        if answer != (b"", "done", 0):
            return f"{end.text}\nis not compiled: {answer}"
        if not self.is_same_image():
            return f"{end.text}\nhas another image with its places"
        got = self.said(end.given, "--calls", str(end.calls))
        wanted = end.lines(), end.line
        return None if got == wanted else suite.difference(f"{end.text}\non {end.given}, {end.calls} calls", wanted, got)

    def spent(self, subject):
        """Returns the faults of the report on an exhausted budget: each call must be at its place in the text, from the innermost function
        up to main."""
        if self.compile(subject.text) != (b"", "done", 0):
            return f"{subject.text}\nis not compiled"
        steps = self.numbers.randint(1, 2000)
        lines, last = self.said(subject.given, "--steps", str(steps))
        if last != "budget spent":
            return None
        text, inside = subject.text.split("\n"), None
        for number, line in enumerate(lines):
            found = (CALL if number else STOP).fullmatch(line)
            if not found:
                return None if line.startswith("    .. and") else f"{subject.text}\nsays {line}"
            row, column, function = int(found[1]), int(found[2]), found[3]
            if number and not re.match(rf"{inside}\s*\(", text[row - 1][column - 1 :]):
                return f"{subject.text}\nhas no call of {inside} at {row}:{column}"
            inside = function
        if not lines or inside == "main":
            return None
        return f"{subject.text}\nis told up to {inside}"


def main():
    parser = suite.command_line(__doc__)
    parser.add_argument("--count", type=int, default=300)
    parser.add_argument("--seed", type=int, default=1)
    options = parser.parse_args()
    program = suite.program_of(options, options.count)
    numbers = random.Random(options.seed)

    def all_faults():
        passed, failed = 0, 0
        tried = Tried(program, numbers)
        examples = (Subject(*example, numbers) for example in texts.examples())
        for subject in itertools.chain(examples, texts.random_programs("whereabouts", options.seed, options.count, Subject)):
            faults = tried.faults(subject)
            failed += bool(faults)
            passed += not faults
            if faults:
                print(f"FAILED {subject.name}")
                print("\n".join("  " + line for fault in faults for line in fault.split("\n")))
        suite.end(passed, failed)

    reference.with_room(all_faults)


if __name__ == "__main__":
    main()

#!/usr/bin/env python3
"""Checks, compiles and runs random programs, and compares the results with tests/references/reference.py and some with gcc.

    python3 tests/runners/differential.py [--program PATH] [--count N] [--profile NAME] [--seed N] [--check] [--one-store]
                                          [--texts FOLDER]

The profiles are ints, pointers, heap, exceptions, unique and regions, each of which includes those before it; chars, with only ints and
chars; and bytes, which includes all. Programs are generated so that most are accepted and end soon. An accepted program is run on two
inputs, with exactly the calls and pages that it needs and with fewer. It is also run with a small budget of steps, which must give a prefix
of the whole output. The first run's report must name exactly these calls and pages. Each of these runs except the last uses both stores
(`run --store`) unless --one-store is given; both must end in the same way after equally many instructions. A program of chars or bytes is
also translated to C (tests/references/in_c.py), compiled with gcc, and run in the same ways with the same results. One of its functions is
filled with locals until its frame has 256 words, which changes nothing, and 257, which is rejected. For rejected texts, and for the program
with one change, the code and the place are compared.

No run may access a closed region or a freed object: then the reference or the language's rules are wrong. The same seed gives the same
programs. For each kind of difference, the shortest text is minimized as long as the two results differ in that way, and printed. The last
line is `N passed, M failed`, of programs: `--count` of ints, and a quarter of that of each other profile.

--check only compares the results of `check`. --texts writes the programs and their C translations to a folder. With `--program
tests/references/in_c.py --one-store`, the expectations for every profile are compared with gcc.
"""
import json
import os
import random
import subprocess
import tempfile

import suite  # first: it makes the references and the generators importable
import broken_texts
import in_c
import int_makers
import makers
import reference
import shrink
from bounded import parts_of
from language import values

# A test program is skipped if its evaluation takes more calls and loop iterations than this limit.
STEPS_AT_MOST = 10_000
# An instruction budget that exceeds the need of every program in the test.
STEPS_OF_IMAGES = "10000000"
# For each program, the number of texts that are made from it by one change and then checked.
BROKEN_TEXTS = 4
# The number of kinds of differences for which the test prints a text, and the seconds spent on
# minimizing that text.
KINDS_SHOWN = 3
SHRINKING = 60


class FramedRun(reference.Run):
    """A run that records the depth of calls of functions that contain calls or loops. These functions have frames, since calls of them are
    not inlined."""

    def __init__(self, program, given, *limits, **more):
        super().__init__(program, given, *limits, **more)
        self.framed = 0
        self.leaves = {
            name
            for name, function in program.functions.items()
            if not any(part.kind == "while" or part.kind == "call" and part.name in program.functions for part in parts_of(function.body))
        }

    def call(self, name, arguments):
        if name == "main" or name not in self.leaves:
            self.framed = max(self.framed, min(self.depth + 1, self.calls))
        return super().call(name, arguments)

    def peaks(self):
        """Returns the most calls and pages, as a report states them if each call has a frame."""
        return {"most_calls": self.deepest, "most_pages": self.store.most}


class Wanted:
    """A program, the ways to run it, the expected results (output, last line and exit status), and texts with their verdicts."""

    def __init__(self, profile, seed, number):
        numbers = random.Random(f"{seed} {number}" if profile == "ints" else f"{profile} {seed} {number}")
        self.profile, self.verdicts, self.runs = profile, [], []
        while not self.made(numbers):
            pass
        for given in self.inputs:
            self.add(given)
        run = self.evaluated(self.inputs[0])
        self.peaked = run
        for calls in sorted({run.deepest, max(run.deepest - 1, 1), numbers.randint(1, run.deepest)}):
            self.add(self.inputs[0], calls=calls)
        for pages in sorted({max(run.store.most, 3), max(run.store.most - 1, 3)}) if profile not in makers.OF_NUMBERS else []:
            self.add(self.inputs[0], pages=pages)
        self.steps = numbers.choice([1, 10, 100, 1000, 10_000])
        self.fill(numbers)
        for _ in range(BROKEN_TEXTS):
            self.judge(broken_texts.broken(self.text, numbers))

    def fill(self, numbers):
        """Returns the program with a full frame, and with a frame that is too large."""
        name = numbers.choice(sorted(set(self.program.functions) & {"f0", "f1", "f2", "main"}))
        free = reference.FRAME_AT_MOST - reference.frame_words(self.program.functions[name])
        self.full, self.too_full = (self.text.replace(int_makers.filling(name), "{int z;} " * count) for count in (free, free + 1))
        line, column = self.program.functions[name].place
        self.refusal = f"fault 51 at {line}:{column}"

    def made(self, numbers):
        """Generates a program. Returns true if it is usable: it is accepted, its frames are small enough and its runs end soon."""
        self.text = makers.PROFILES[self.profile](numbers).text()
        try:
            self.program = reference.Program(self.text)
        except reference.Refused as refused:
            self.verdicts.append((self.text, str(refused)))
            return False
        try:
            self.program.hold_to_sizes()
        except reference.Refused:
            return False
        self.inputs = [self.some_bytes(numbers) for _ in range(2)]
        return all(self.evaluated(given).line != "budget spent" for given in self.inputs)

    def judge(self, text):
        """Records the verdict on a text. An accepted text is also run on empty input: the run must not be dead or wrong."""
        verdict = reference.verdict(text)
        self.verdicts.append((text, verdict))
        if verdict == "done":
            self.ended(reference.Run(reference.Program(text), b"", steps=STEPS_AT_MOST), text)

    @staticmethod
    def some_bytes(numbers):
        return bytes(numbers.choice([0, 1, 10, 48, 65, 255, numbers.randrange(256)]) for _ in range(numbers.randint(0, 12)))

    def evaluated(self, given, calls=reference.CALLS, pages=reference.PAGES):
        done = FramedRun(self.program, given, calls, STEPS_AT_MOST, pages)
        done.line, done.status = self.ended(done, self.text)
        return done

    @staticmethod
    def ended(run, text):
        """Returns how a run ends; a run of an accepted program is never dead or wrong."""
        try:
            return run.end()
        except (values.Dead, values.Wrong) as error:
            raise SystemExit(f"{text}\nthis text is accepted, and its run is at fault: {error}")

    def add(self, given, calls=reference.CALLS, pages=reference.PAGES):
        done = self.evaluated(given, calls, pages)
        self.runs.append((given, ["--calls", str(calls), "--pages", str(pages)], (bytes(done.output), done.line, done.status)))


def kind_of(expected, got):
    """Returns the kind of a difference: the last lines without values and places, and whether the outputs are equal."""
    heads = [line.split(" at ")[0].split()[:2] for _, line, _ in (expected, got)]
    return [head[:1] if head[:1] == ["returned"] else head for head in heads], expected[0] == got[0]


class Useless(Exception):
    """A text for which the same question cannot be asked."""


class Tried:
    """The results of a program; only the first difference from the expectation is stored."""

    def __init__(self, program, folder, is_one=True):
        self.program, self.is_one = program, is_one
        names = ("main.cyc", "main.elf", "main", "main.json")
        self.source, self.image, self.built, self.report = (os.path.join(folder, name) for name in names)
        # the first difference found, its kind, the text that shows it, and the function that repeats the comparison for
        # another text
        self.fault, self.kind, self.text, self.again = None, None, None, None

    def want(self, what, expected, got, again):
        if self.fault is None and got != expected:
            self.fault, self.kind, self.again = suite.difference(what, expected, got), kind_of(expected, got), again

    def given(self, text):
        if self.fault is None:
            self.text = text
        with open(self.source, "w", encoding="latin-1") as file:
            file.write(text)

    def answer(self, *words, given=b""):
        return suite.answer([self.program, *words], given)

    def check(self, text, line="done"):
        self.given(text)
        self.want("check", (b"", line, 0 if line == "done" else 2), self.answer("check", self.source), self.check_again)

    def check_again(self, text):
        line = reference.verdict(text)
        return (b"", line, 0 if line == "done" else 2), self.answer("check", self.source)

    def compile(self, text, line="done", status=0):
        self.given(text)
        self.want("compile", (b"", line, status), self.answer("compile", self.source, "-o", self.image), self.compile_again)

    def compile_again(self, text):
        wanted = (b"", "done", 0)
        try:
            reference.Program(text).hold_to_sizes()
        except reference.Refused as refused:
            wanted = (b"", str(refused), 2)
        return wanted, self.answer("compile", self.source, "-o", self.image)

    def run(self, given, options, expected):
        got = self.answer("run", self.image, *options, given=given)
        self.want(f"run {' '.join(options)} on {given}", expected, got, lambda text: self.run_again(text, given, options))

    def counted(self, given, run):
        """Returns the most calls and pages of a run from its report; None for a program that makes no reports. A report may state one call
        less if no call at the greatest depth is of a function that certainly has a frame."""
        if self.answer("run", self.image, "--report", self.report, "--peaks", given=given)[1] == "usage":
            return None
        with open(self.report, encoding="ascii") as file:
            report = json.load(file)
        calls = report["most_calls"]
        return {"most_calls": run.deepest if run.framed <= calls <= run.deepest else calls, "most_pages": report["most_pages"]}

    def count(self, given, run):
        peaks, got = run.peaks(), self.counted(given, run)
        if got is not None and self.fault is None and got != peaks:
            self.want(f"the peaks of a run on {given}", (b"", str(peaks), 0), (b"", str(got), 0), lambda text: self.count_again(text, given))

    def count_again(self, text, given):
        self.run_again(text, given, [])
        done = FramedRun(reference.Program(text), given, steps=STEPS_AT_MOST)
        done.end()
        return (b"", str(done.peaks()), 0), (b"", str(self.counted(given, done)), 0)

    def over_stores(self, given, options):
        """Returns the results of a run over both stores: the output, the end, and the report with the count of instructions."""
        runs = suite.over_stores(self.program, [self.image, *options, "--steps", STEPS_OF_IMAGES], given)
        return tuple((output, f"{line}, {report}", status) for output, line, status, report in runs)

    def run_over_stores(self, given, options):
        if not self.is_one:
            one, other = self.over_stores(given, options)
            again = lambda text: self.stores_again(text, given, options)
            self.want(f"over both stores, run {' '.join(options)} on {given}", one, other, again)

    def stores_again(self, text, given, options):
        self.run_again(text, given, options)
        return self.over_stores(given, options)

    def run_again(self, text, given, options):
        expected = self.evaluated(text, given, options)[1]
        if self.answer("compile", self.source, "-o", self.image) != (b"", "done", 0):
            raise Useless
        return expected, self.answer("run", self.image, *options, given=given)

    @staticmethod
    def evaluated(text, given, options):
        """Returns another program with the expected result of its run, if it is accepted and ends soon."""
        program = reference.Program(text)
        program.hold_to_sizes()
        limits = {name[2:]: int(number) for name, number in zip(options[::2], options[1::2])}
        done = reference.Run(program, given, steps=STEPS_AT_MOST, **limits)
        line, status = done.end()
        if line == "budget spent":
            raise Useless
        return program, (bytes(done.output), line, status)

    def run_in_c(self, program, ways):
        """Runs the program in C, compiled by gcc, in each of these ways."""
        in_c.build(program, None, self.built)
        for given, options, expected in ways:
            again = lambda text, given=given, options=options: self.run_in_c_again(text, given, options)
            self.want(f"in C, run {' '.join(options)} on {given}", expected, suite.answer([self.built, *options], given), again)

    def run_in_c_again(self, text, given, options):
        program, expected = self.evaluated(text, given, options)
        in_c.build(program, None, self.built)
        return expected, suite.answer([self.built, *options], given)

    def run_some(self, given, steps, expected):
        """Checks a run with a budget of steps. It ends as the whole run does, or its output is a prefix of the whole output."""
        got = self.answer("run", self.image, "--steps", str(steps), given=given)
        if not self.is_part(got, expected):
            self.want(f"run --steps {steps} on {given}", expected, got, lambda text: self.run_some_again(text, given, steps))

    def run_some_again(self, text, given, steps):
        expected, _ = self.run_again(text, given, [])
        got = self.answer("run", self.image, "--steps", str(steps), given=given)
        return expected, expected if self.is_part(got, expected) else got

    @staticmethod
    def is_part(got, expected):
        return got[1:] == ("budget spent", 7) and expected[0].startswith(got[0])

    def asked_again(self, text):
        """Repeats a failed comparison for another text. Returns the expected and the actual result, or None if that is impossible."""
        with open(self.source, "w", encoding="latin-1") as file:
            file.write(text)
        try:
            return self.again(text)
        except (Useless, reference.Refused, values.Dead, values.Wrong, subprocess.SubprocessError):
            return None

    def shows(self, text):
        """Returns true if another text shows a difference of the same kind."""
        answers = self.asked_again(text)
        return answers is not None and answers[0] != answers[1] and kind_of(*answers) == self.kind

    def shrunk(self, seconds):
        """Returns a small text with a difference of the same kind, and the difference."""
        text = shrink.shrunk(self.text, self.shows, seconds)
        return text, suite.difference("the two answers", *self.asked_again(text))


def try_program(tried, wanted, only_check):
    """Checks a program and its variants, and compiles and runs it in each way."""
    for text, line in wanted.verdicts:
        tried.check(text, line)
    if only_check:
        return tried.check(wanted.text)
    tried.compile(wanted.text)
    for given, options, expected in wanted.runs:
        tried.run(given, options, expected)
        tried.run_over_stores(given, options)
    given, _, expected = wanted.runs[0]
    tried.run_some(given, wanted.steps, expected)
    tried.count(given, wanted.peaked)
    if wanted.profile in makers.BESIDE_C:
        tried.run_in_c(wanted.program, wanted.runs)
    tried.compile(wanted.full)
    tried.run(*wanted.runs[0])
    tried.compile(wanted.too_full, wanted.refusal, 2)


def write(wanted, path):
    """Writes the program, also in C, with the expected result of each run, and the variants with their verdicts."""
    texts = [(".cyc", wanted.text)] + [(f".{number}.cyc", text) for number, (text, _) in enumerate(wanted.verdicts)]
    for ending, text in [*texts, (".c", in_c.text_in_c(wanted.program))]:
        with open(path + ending, "w", encoding="latin-1") as file:
            file.write(text)
    with open(path + ".txt", "w", encoding="ascii") as file:
        for given, options, expected in wanted.runs:
            file.write(f"{' '.join(options)} on {given}: {expected}\n")
        for number, (_, line) in enumerate(wanted.verdicts):
            file.write(f".{number}.cyc: {line}\n")


def programs_of(options):
    """Returns the profile and the number of each program."""
    for profile in [options.profile] if options.profile else makers.PROFILES:
        count = options.count if profile == "ints" or options.profile else options.count // 4
        yield from ((profile, number) for number in range(count))


def try_all(options, program):
    """Returns the numbers of programs that pass and that fail."""
    passed, failed, shortest = 0, 0, {}
    with tempfile.TemporaryDirectory(prefix="cyclone-random-") as folder:
        for profile, number in programs_of(options):
            wanted, tried = Wanted(profile, options.seed, number), Tried(program, folder, options.one_store)
            if options.texts:
                write(wanted, os.path.join(options.texts, f"{profile}.{number:04}"))
            try_program(tried, wanted, options.check)
            passed += not tried.fault
            if tried.fault:
                failed += 1
                name = f"program {number} of {profile}, seed {options.seed}"
                print(f"FAILED {name}\n  " + tried.fault.replace("\n", "\n  "))
                found = shortest.setdefault(repr(tried.kind), (name, tried))
                if len(tried.text) < len(found[1].text):
                    shortest[repr(tried.kind)] = name, tried
        for name, tried in sorted(shortest.values(), key=lambda it: len(it[1].text))[:KINDS_SHOWN]:
            show_shrunk(name, tried)
    return passed, failed


def show_shrunk(name, tried):
    """Prints the minimized text of a failure, and the original text."""
    text, difference = tried.shrunk(SHRINKING)
    print(f"shrunk from {len(tried.text.splitlines())} lines of {name} (--texts FOLDER writes all programs):")
    print("\n".join("    " + line for line in text.splitlines()))
    print("  " + difference.replace("\n", "\n  "))


def main():
    parser = suite.command_line_of_runs(__doc__)
    parser.add_argument("--count", type=int, default=200)
    parser.add_argument("--profile", choices=makers.PROFILES)
    parser.add_argument("--seed", type=int, default=1)
    parser.add_argument("--check", action="store_true")
    parser.add_argument("--texts")
    options = parser.parse_args()
    program = suite.program_of(options, len(list(programs_of(options))))
    suite.need([] if options.check else ["gcc"], len(list(programs_of(options))))
    if options.texts:
        os.makedirs(options.texts, exist_ok=True)
    suite.end(*reference.with_room(lambda: try_all(options, program)))


if __name__ == "__main__":
    main()

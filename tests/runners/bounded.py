#!/usr/bin/env python3
"""Compares the bounds that `cyclone bound` prints with an independent analysis of syntax trees, and with runs.

    python3 tests/runners/bounded.py [--program PATH] [--count N] [--seed N]

Tests each example and N random programs (300 by default). Three quarters of the random programs have no recursion, a quarter no loops
either, and a quarter open regions in loops. Calls: the bound is the length of the longest chain of calls from `main`. If there is no bound,
each named function calls the next one at the reported place, the last calls the first, and `main` reaches them. Pages: without recursion
there is a bound exactly if no loop prevents it; otherwise the place of such a loop is reported. A loop that allocates or opens a region,
also by calls, prevents a bound. Suppose `main` reaches no dynamic region and the heap's handle is never a value. Then lexical regions free
their pages, and two kinds of loop prevent a bound: a loop that allocates on the heap or a unique object, and a loop that allocates or opens
a region while an outer region is open. Steps: there is a bound exactly if there is no recursion and `main` reaches no loop; otherwise the
place of a loop is reported. No run exceeds a bound, and a run limited to the bounds ends as a run with higher limits does. The last line is
`N passed, M failed`, of programs. The line before it gives the number of programs with bounds and how close their runs come to the bounds.
"""
import itertools
import json
import os
import re
import tempfile

import suite  # first: it makes the references and the generators importable
import makers
import reference
import texts

STEPS = "2000000"
LINE = re.compile(r"main\.cyc:(\d+):(\d+): (\w+) calls (\w+)")
LOOP = re.compile(r"main\.cyc:(\d+):(\d+): (?:each turn of )?this loop .*")


def parts_of(part):
    """Yields a part of a tree and all of its parts."""
    for inner in part if isinstance(part, list) else [part]:
        if hasattr(inner, "kind"):
            yield inner
            for deeper in vars(inner).values():
                yield from parts_of(deeper)
        elif isinstance(inner, list):
            yield from parts_of(inner)


def is_region(part):
    """Returns true if a part declares a lexical region."""
    return part.kind == "region" and hasattr(part, "at")


def is_making(part):
    """Returns true if a part allocates an object or opens a region."""
    return part.kind in ("new", "key") or is_region(part)


def is_lasting(part):
    """Returns true if a part allocates an object that no end of a lexical region frees. The program uses no handle of the heap."""
    return part.kind == "new" and (part.handle is None or part.handle.kind == "unique_region")


def outermost_regions(part):
    """Returns the statements from each outermost lexical region of a function to the end of its block."""
    if isinstance(part, list):
        for place, inner in enumerate(part):
            if hasattr(inner, "kind") and is_region(inner):
                yield part[place:]
                return
            yield from outermost_regions(inner)
    elif hasattr(part, "kind"):
        for inner in vars(part).values():
            yield from outermost_regions(inner)


class Calls:
    """The call graph of a program with the places of calls, read independently from its tree."""

    def __init__(self, text):
        self.functions = reference.Program(text).functions
        self.sites = {name: {} for name in self.functions}
        for name, function in self.functions.items():
            for part in parts_of(function.body):
                if part.kind == "call" and part.name in self.functions:
                    self.sites[name].setdefault(part.name, set()).add(part.place)

    def height(self, name, heights, path):
        """Returns the length of the longest chain of calls from a function, or None if there is none."""
        if name in path:
            return None
        if name not in heights:
            below = [self.height(callee, heights, path | {name}) for callee in self.sites[name]]
            heights[name] = None if None in below else 1 + max(below, default=0)
        return heights[name]

    def reached(self, first=("main",)):
        """Returns the functions that are reachable from these."""
        found, left = set(), list(first)
        while left:
            name = left.pop()
            if name not in found:
                found.add(name)
                left += self.sites[name]
        return found

    def counted(self, is_counted):
        """Returns the functions that contain a counted part, directly or by calls."""
        counted = {name for name, function in self.functions.items() if any(is_counted(part) for part in parts_of(function.body))}
        for _ in self.functions:
            counted |= {name for name, sites in self.sites.items() if counted & set(sites)}
        return counted

    def loops_in(self, parts, is_counted):
        """Returns the places of the loops in these parts and in called functions that contain a counted part, also by calls."""
        counted = self.counted(is_counted)
        called = self.reached(part.name for part in parts_of(parts) if part.kind == "call" and part.name in self.functions)
        return {
            loop.place
            for where in [parts] + [self.functions[name].body for name in called]
            for loop in parts_of(where)
            if loop.kind == "while"
            and any(is_counted(part) or part.kind == "call" and part.name in counted for part in parts_of(loop))
        }

    def loops(self, is_counted):
        """Returns the places of the loops reachable from `main` that contain a counted part."""
        return self.loops_in(self.functions["main"].body, is_counted)

    def loops_of_pages(self):
        """Returns the places of the loops that prevent a bound on pages."""
        bodies = [self.functions[name].body for name in self.reached()]
        if any(part.kind in ("heap_region", "key") for part in parts_of(bodies)):
            return self.loops(is_making)
        inside = [self.loops_in(rest, is_making) for rest in outermost_regions(bodies)]
        return self.loops(is_lasting).union(*inside)

    def grows_elsewhere(self, is_counted):
        """Returns true if a recursive function that `main` does not reach contains a counted part in its cycle."""
        counted = self.counted(is_counted)
        return any(name in self.reached(self.sites[name]) for name in counted - self.reached())

    def fault_of_circle(self, lines):
        """Returns the faults of a reported cycle of calls."""
        found = [LINE.fullmatch(line) for line in lines]
        if not found or None in found:
            return f"tells {lines}"
        names = [match[3] for match in found]
        for match, after in zip(found, names[1:] + names[:1]):
            row, column, caller, callee = int(match[1]), int(match[2]), match[3], match[4]
            if callee != after or (row, column) not in self.sites.get(caller, {}).get(callee, ()):
                return f"tells {match[0]}"
        return None if names[0] in self.reached() else f"tells {names[0]}, to which main does not lead"


class Told:
    """The output of `cyclone bound` for a program: the lines of each bound, and the bounds that exist."""

    def __init__(self, lines):
        self.lines = {"calls": [], "pages": [], "steps": [], "instructions": []}
        word = None
        for line in lines:
            word = line.split(" ")[0] if line.split(" ")[0] in self.lines else word
            self.lines[word].append(line)
        self.numbers = {word: int(lines[0].split(" ")[1]) for word, lines in self.lines.items() if lines and lines[0].split(" ")[1].isdigit()}

    def fault_of_loop(self, word, loops, grows):
        """Returns the fault of a reported loop, or of a bound despite a loop. If a counted part is in a cycle of calls, even an unreachable
        one, the report may contain neither a bound nor a loop."""
        if grows and self.lines[word] == [f"{word} unbounded"]:
            return None
        found = [LOOP.fullmatch(line) for line in self.lines[word][1:]]
        if not loops:
            return None if word in self.numbers else f"has no loop in the way, and {self.lines[word]}"
        if len(found) != 1 or None in found:
            return f"says {self.lines[word]}"
        return None if (int(found[0][1]), int(found[0][2])) in loops else f"tells {found[0][0]}"


class Tried:
    def __init__(self, program):
        self.program, self.ratios = program, {"calls": [], "pages": []}

    def run(self, folder, given, limits):
        """Runs a program with these limits, and returns the end of the run and its report."""
        report = os.path.join(folder, "report")
        ended = suite.answer([self.program, "run", os.path.join(folder, "main.elf"), "--steps", STEPS, *limits,
                              "--report", report, "--peaks"], given)
        with open(report, encoding="utf-8") as file:
            return ended, json.load(file)

    def fault(self, text, given):
        with tempfile.TemporaryDirectory(prefix="bounded-") as folder:
            source = os.path.join(folder, "main.cyc")
            with open(source, "w", encoding="latin-1") as file:
                file.write(text)
            said, last, status = suite.answer([self.program, "bound", source])
            lines = said.decode("latin-1").replace(source, "main.cyc").split("\n")[:-1]
            if (last, status) != ("done", 0) or not lines:
                return f"says {said} {last}"
            told, calls = Told(lines), Calls(text)
            height = calls.height("main", {}, frozenset())
            return self.fault_of_text(told, calls, height) or self.fault_of_run(folder, source, given, told)

    def fault_of_text(self, told, calls, height):
        if height is None:
            return calls.fault_of_circle(told.lines["calls"][1:]) if told.lines["calls"][0] == "calls unbounded" else f"says {told.lines['calls']}"
        if told.lines["calls"] != [f"calls {height}"]:
            return f"says {told.lines['calls']}, not {height}"
        return told.fault_of_loop("pages", calls.loops_of_pages(), calls.grows_elsewhere(is_making)) or told.fault_of_loop(
            "steps", calls.loops(lambda part: True), calls.grows_elsewhere(lambda part: True)
        )

    def fault_of_run(self, folder, source, given, told):
        """Returns the fault of a run whose needs exceed the reported bounds, if any."""
        limits = [word for name in ("calls", "pages") if name in told.numbers for word in (f"--{name}", str(max(told.numbers[name], 3)))]
        most = ["--calls", "4096", "--pages", "65536"]
        image = os.path.join(folder, "main.elf")
        if suite.answer([self.program, "compile", source, "-o", image])[1] != "done":
            return "is not compiled"
        words = int(re.search(rb"^text at \w+, (\d+) words", suite.answer([self.program, "info", image])[0], re.M)[1])
        if "steps" in told.numbers and told.numbers["instructions"] != words * (told.numbers["steps"] + 1):
            return f"says {told.lines}, of an image of {words} words"
        ended, report = self.run(folder, given, limits)
        if "calls" in told.numbers and "pages" in told.numbers and (ended, report) != self.run(folder, given, most):
            return f"ends otherwise with {limits} than where more is allowed"
        for name, peak in (("calls", "most_calls"), ("pages", "most_pages")):
            if name in told.numbers:
                self.ratios[name].append(told.numbers[name] / report[peak])
                if report[peak] > told.numbers[name]:
                    return f"takes {report[peak]} {name}, and not {told.numbers[name]}"
        if report["instructions"] > told.numbers.get("instructions", report["instructions"]):
            return f"executes {report['instructions']} instructions, and not {told.numbers['instructions']}"
        return None


def main():
    parser = suite.command_line(__doc__)
    parser.add_argument("--count", type=int, default=300)
    parser.add_argument("--seed", type=int, default=1)
    options = parser.parse_args()
    tried = Tried(suite.program_of(options, options.count))

    def all_faults():
        passed, failed, of_examples = 0, 0, {}
        made = [
            texts.random_programs(f"bounded {number}", options.seed, options.count // 4, profiles=profiles)
            for number, profiles in enumerate((makers.PROFILES, makers.IN_ROWS, makers.WITHOUT_LOOPS, makers.IN_TURNS))
        ]
        for name, text, given in itertools.chain(texts.examples(), *made):
            fault = tried.fault(text, given)
            failed, passed = failed + bool(fault), passed + (not fault)
            if fault:
                print(f"FAILED {name}: {fault}")
            if name.startswith("examples/"):
                of_examples = {name: len(ratios) for name, ratios in tried.ratios.items()}
        for name, ratios in tried.ratios.items():
            mean = sum(ratios) / max(len(ratios), 1)
            print(f"{len(ratios)} have a bound on {name}, {of_examples[name]} of them examples; it is {mean:.2f} times what their runs take in the mean, {max(ratios, default=0):.2f} at most")
        suite.end(passed, failed)

    reference.with_room(all_faults)


if __name__ == "__main__":
    main()

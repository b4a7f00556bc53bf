#!/usr/bin/env python3
"""Tries wrong bodies of functions and wrong definitions: the prover must refuse each.

    python3 tests/runners/wrong.py [--proved LOOK]        the cases that no record stands for, and a tenth of the others
    python3 tests/runners/wrong.py CRATE .. [--only NAME ..]      these, with no regard to the record
    python3 tests/runners/wrong.py --record [CRATE ..]    these or all, from nothing, and writes the record
    python3 tests/runners/wrong.py --list | --missing | --placed

`wrong/CRATE.cases` holds the cases of a crate: the edits of each, and the functions, laws or files of proofs that must be refused. The
prover is asked for these alone, in a copy of the crate with the edits. As they stand these are proved. A case fails if the prover proves
one of them all the same, if a text cannot be read, or if the proof is refused only since it names a thing that the edit takes away.

A proof rests on the contracts of other functions, and on no other body. So each run cuts the other bodies of the crate, and tries wrong
bodies of several functions together. The libraries of the crates below are those in `crates/NAME/out`. A case that edits a file of another
crate takes that crate, and those between, from their sources; a proof of a crate that it does not edit must be refused.

The record, `wrong/refused.sums`, names for each crate the sum of all that its cases rest on, and the commit at which all were refused: its
sources without comments and layout, the statements of each crate below it (definitions, and code without bodies), its cases, the toolchain
and this file. A crate with another sum is tried whole, and of the others a tenth, chosen by the commit. A line that is broken, or no file,
stands for nothing. The record is trusted; no proof rests on it.

The functions are proved as they stand first, but in the gate, where `rt ci` has just proved them: `--proved` says so, with the word that
`sources.py look` printed before. The toolchain's must-fail edits do not serve: each is one line, and a refusal anywhere counts.
"""
import argparse
import collections
import contextlib
import functools
import hashlib
import itertools
import json
import os
import re
import shutil
import signal
import subprocess
import sys
import tempfile
from concurrent.futures import FIRST_COMPLETED, ThreadPoolExecutor, wait

import suite  # first: it says where the references and the generators are
import in_trees
from sources import in_order, look, stands_on

CASES = os.path.join(suite.TESTS, "wrong")
CRATES = os.path.join(suite.ROOT, "crates")
RECORD = os.path.join(CASES, "refused.sums")
PARTS = ("src", "specs", "proofs")
# The files of a function's proof.
PROOF = ("Proof.antt", "Answers.antt", "Invariants.antt")
MEMORY = 3 * 10 ** 9  # the bytes of one run of the prover, with a third to spare


def content(path):
    with open(path, encoding="utf-8") as file:
        return file.read()


def write(path, text):
    with open(path, "w", encoding="utf-8") as file:
        file.write(text)


# ---- cases


class Edit:
    """A text that replaces another in a file, which is named from the folder of the crates."""

    def __init__(self, path):
        self.path, self.old, self.new = path, [], []

    def place_in(self, text):
        """The start and the end of the lines of a text that change, and the text that replaces them."""
        old = "\n".join(self.old)
        if text.count(old) != 1:
            raise ValueError(f"{self.path} has {text.count(old)} times: {old}")
        most = max(0, min(len(self.old), len(self.new)) - 1)
        head = next((at for at in range(most) if self.old[at] != self.new[at]), most)
        tail = next((at for at in range(most - head) if self.old[-1 - at] != self.new[-1 - at]), most - head)
        start = text.index(old) + sum(len(line) + 1 for line in self.old[:head])
        return start, start + len("\n".join(self.old[head:len(self.old) - tail])), "\n".join(self.new[head:len(self.new) - tail])


class Case:
    """A wrong body or a wrong definition."""

    def __init__(self, crate, name):
        self.crate, self.name, self.path, self.tests = crate, name, None, None
        # its edits, the functions, laws or files whose proofs must be refused, and the programs that it is said to let through
        self.edits, self.refused, self.lets = [], [], []

    def read(self, word, text):
        if word == "file":
            self.path = os.path.normpath(os.path.join(self.crate, text))
        elif word == "old":
            if not self.edits or self.edits[-1].new or self.edits[-1].path != self.path:
                self.edits.append(Edit(self.path))
            self.edits[-1].old.append(text)
        elif word == "new":
            self.edits[-1].new.append(text)
        elif word in ("refused", "lets"):
            getattr(self, word).extend(text.split())
        elif word == "tests":
            self.tests = text
        else:
            raise ValueError(f"{self.crate}, {self.name}: a line that begins with {word}")

    def changed(self):
        """The crates whose files it edits."""
        return {it.path.split(os.sep)[0] for it in self.edits}

    def label(self):
        return f"{self.crate}, {self.name}"


def lines_of_cases(crate):
    """The lines of a crate's file of cases that say something."""
    path = os.path.join(CASES, f"{crate}.cases")
    return [line for line in content(path).split("\n") if line and not line.startswith("#")] if os.path.exists(path) else []


def cases_of(crate):
    found = []
    for line in lines_of_cases(crate):
        word, _, text = line.partition(":")
        if line.startswith("== "):
            found.append(Case(crate, line[3:]))
        elif word != "none":
            found[-1].read(word, text[1:])
    for case in found:
        if not (case.edits and case.refused and case.tests):
            raise ValueError(f"{case.label()}: it changes nothing, or does not say what is refused or what it tests")
    return found


def all_cases():
    return [case for crate in stands_on(suite.ROOT) for case in cases_of(crate)]


# ---- the functions of a crate, in the layout of `rt fmt`
HEAD = re.compile(r"( *)(?:pub(?:\(\w+\))? )?(?:(?:const|final|unsafe|ghost) )*fn (\w+)")
OWNER = re.compile(r"(?:pub(?:\(\w+\))? |unsafe )*(?:trait (?P<trait>\w+)|impl (?:(?P<of>[\w:]+) for )?(?P<type>\w+))")
TYPE = re.compile(r"^(?:pub(?:\(\w+\))? )?(?:struct|enum|union) (\w+)", re.MULTILINE)
PARAMETERS = re.compile(r"impl(?:<.*?>)? [\w:]+<(.*)> for ")
CYCLE = re.compile(r" *#\[cycle\((\w+)\)\]")
# The line above an item of tests, and a module of theirs.
OF_TESTS = re.compile(r" *#\[(?:cfg\()?test\b")
TEST_MODULE = re.compile(r"^#\[cfg\(test\)\]\nmod (\w+);", re.MULTILINE)

# A function: its path in the crate, the folder of its proof, its file, the numbers of the first line of its body and of the one that closes
# it, or None if nothing is in it, of the line that names its cycle of calls, or None, whether the path is sure, and whether it promises.
Function = collections.namedtuple("Function", "path proof file first last cycle is_sure promises")


def without_parameters(text):
    """A line without the text in its angle brackets."""
    while (shorter := re.sub(r"<[^<>]*>", "", text.replace("->", ""))) != text:
        text = shorter
    return text


def opening(lines, head, indent):
    """The line in which the body of a function opens, or None where nothing is in it."""
    for at in range(head, len(lines)):
        if at > head and HEAD.match(lines[at]) or lines[at].endswith("{}"):
            return None
        if lines[at].endswith("{") and re.match(indent + "[^ /]", lines[at]):
            return at
    return None


def steps_to(file):
    """The path of a file's module."""
    steps = file.removesuffix(".rt").split(os.sep)[2:]
    return steps[:-1] if steps[-1] in ("lib", "main", "mod") else steps


def named(owner, line):
    """The name in a path that stands for the owner of a method, by the line that begins it."""
    given = PARAMETERS.match(line)
    parameters = without_parameters(given[1]).split(", ") if given else []
    return owner["trait"] or "".join([owner["type"], *(it.split("::")[-1] for it in [owner["of"] or "", *parameters])])


def functions_in(file, text, types):
    """The functions of a file, those of tests apart. A method belongs to the module of its type."""
    lines, found = text.split("\n"), []
    types = types | {it: steps_to(file) for it in TYPE.findall(text)}
    above, is_of_trait, cycle, is_of_tests = [], False, None, False
    for at, line in enumerate(lines):
        owner, head = OWNER.match(without_parameters(line)), HEAD.match(line)
        if owner:
            above, is_of_trait = [*types.get(owner["type"], steps_to(file)), named(owner, line)], "> for " in line
        cycle = at if CYCLE.match(line) else cycle
        is_of_tests = is_of_tests or bool(OF_TESTS.match(line))
        if head and not is_of_tests:
            steps, opens = above if head[1] else steps_to(file), opening(lines, at, head[1])
            last = lines.index(head[1] + "}", opens) if opens is not None else None
            folder = head[2] if cycle is None else f"+{CYCLE.match(lines[cycle])[1]}"
            promises = any(re.match(r" *ensures ", it) for it in lines[at:opens or lines.index("", at)])
            own = Function("::".join([*steps, head[2]]), os.path.join(*steps, folder), file, opens and opens + 1, last, cycle,
                           not (head[1] and is_of_trait), promises)
            found.append(with_own_cycle(own, lines))
        if head:
            cycle, is_of_tests = None, False
    return found


def with_own_cycle(function, lines):
    """The function with the folder of its proof, whose name begins with a `+` where the function calls itself."""
    above, name = os.path.split(function.proof)
    if function.first is None or name.startswith("+"):
        return function
    proofs = os.path.join(CRATES, function.file.split(os.sep)[0], "proofs")
    own = os.path.join(above, f"+{name}")
    is_named = bool(re.search(rf"\b{name}\b", "\n".join(lines[function.first:function.last])))
    is_own = os.path.isdir(os.path.join(proofs, own)) or is_named and not os.path.isdir(os.path.join(proofs, function.proof))
    return function._replace(proof=own) if is_own else function


def functions_of(crate):
    texts = {it: content(os.path.join(CRATES, it)) for it in files_of(crate, "src")}
    of_tests = {(*steps_to(file), name) for file, text in texts.items() for name in TEST_MODULE.findall(text)}
    texts = {file: text for file, text in texts.items() if tuple(steps_to(file)) not in of_tests}
    types = {name: steps_to(file) for file, text in texts.items() for name in TYPE.findall(text)}
    return [it for file, text in texts.items() for it in functions_in(file, text, types)]


def files_of(crate, *parts):
    """The files of a crate's folders, by their paths from the folder of the crates, in order."""
    walked = (it for part in parts for it in os.walk(os.path.join(CRATES, crate, part)))
    return sorted(os.path.relpath(os.path.join(at, name), CRATES) for at, _, names in walked for name in names)


def missing_of(crate):
    """The public functions and laws of a crate that promise something, and that no case names. The crate's library lists what is public."""
    public, there = "", os.path.join(CRATES, crate, "out", "rlib", f"{crate}.rlib", "interface")
    if os.path.isdir(there):
        public = {it[0].partition("::")[2] for it in json.loads(content(os.path.join(there, "toolchain", "mir.json")))}
        exports = tuple(re.findall(r"^pub (?:use .* :: |mod )(\w+) ;", content(os.path.join(there, "lang", "src", "lib.rt")), re.M))
    known = {name for case in cases_of(crate) for name in case.refused}
    known |= {name for line in lines_of_cases(crate) if line.startswith("none: ") for name in line.split()[1:]}
    is_named = lambda it: it.path in public and any(step.startswith(exports) for step in it.path.split("::"))
    return sorted(it.path for it in functions_of(crate) if it.promises and it.path not in known and is_named(it))


# ---- the texts that a run reads


def text_with(text, file, cases, left_out):
    """The text of a file with the edits of cases, where the bodies of these functions are cut. An edit in such a body does nothing."""
    starts = [0, *itertools.accumulate(map(len, text.splitlines(keepends=True)))]
    cuts = []
    for it in left_out:
        indent = " " * (starts[it.last + 1] - starts[it.last] - 2)
        cuts.append((starts[it.first], starts[it.last], f"{indent}    loop {{}}\n"))
        cuts += [(starts[it.cycle], starts[it.cycle + 1], "")] if it.cycle is not None else []
    places = [edit.place_in(text) for case in cases for edit in case.edits if edit.path == file]
    cuts += [it for it in places if not any(first <= it[0] and it[1] <= last for first, last, _ in cuts)]
    last = len(text)
    for start, end, new in sorted(cuts, reverse=True):
        if end > last:
            raise ValueError(f"two edits replace the same in {file}")
        text, last = text[:start] + new + text[end:], start
    return text


def turned_by(case, functions):
    """The function that must be refused, where a case edits its body, and maybe its proof, and nothing else; or None."""
    own = next((it for it in functions if [it.path] == case.refused and it.last), None)
    if not own:
        return None
    proof = os.path.join(case.crate, "proofs", own.proof, "")
    for edit in case.edits:
        text = content(os.path.join(CRATES, edit.path))
        start, end, _ = edit.place_in(text)
        is_inside = edit.path == own.file and own.first <= text.count("\n", 0, start) and text.count("\n", 0, end) < own.last
        if not is_inside and not edit.path.startswith(proof):
            return None
    return own


def rounds_of(cases, functions):
    """The cases that one run tries, list by list, each with the function whose body it edits: functions of different proofs go together.
    A case that edits something else goes alone, with None."""
    rounds, alone = [], []
    for case in cases:
        turned = turned_by(case, functions)
        if not turned:
            alone.append([(case, None)])
            continue
        free = next((it for it in rounds if all(other.proof != turned.proof for _, other in it)), None)
        if free is None:
            rounds.append(free := [])
        free.append((case, turned))
    return rounds + alone


# ---- the prover's answer

ERROR = re.compile(r"(\S+?\.(?:antt|rt)):\d+:\d+: error(\[[\w-]+\])?: (.*)")
GOAL = re.compile(r"note: \S+\.rt:\d+:\d+: it is not proved that ")
COUNTS = re.compile(r"only=\d+ proved=\d+|logic=.*")
# A function whose own proof holds, where one that it calls, or that its cycle of calls does, has none.
RESTS_ON = r"(in `[^`]*`, of this cycle of calls: )?it (calls|passes the block) [^;]*, which (is|are) not proved"
RESTS = re.compile(f"no proof: {RESTS_ON}(; {RESTS_ON})*")
IS_FALSE = "the facts known there allow values at which this goal is false"
# Errors that say no more than that another declaration was refused.
FOLLOWS = re.compile(r"is not admitted|not admitted, (was|were) not checked|depends? on .* (was|were) not checked")
# Errors of a text that names a thing which is not there, or is no text of the language.
UNREAD = re.compile(r"is not in scope|has no field|has no `|is no name|operand is missing|expected the end|cannot continue")

Error = collections.namedtuple("Error", "path code text")
is_file = lambda refused: refused.startswith("proofs/")


class Answer:
    """The prover's answer for functions of a crate. Paths are from the folder of the crates."""

    def __init__(self, status, said, crate, room):
        self.status, self.crate, self.lines, self.errors = status, crate, said.rstrip("\n").split("\n"), []
        # the line of each function, and the goals that are noted above it
        self.functions, goals = {}, []
        for line in self.lines:
            error = ERROR.match(line)
            if error:
                path = os.path.relpath(os.path.normpath(os.path.join(room, crate, error[1])), room)
                self.errors.append(Error(path, error[2], error[3]))
            elif GOAL.match(line):
                goals.append(line)
            elif line.startswith("fn "):
                name, _, text = line[3:].partition(": ")
                self.functions[name.removeprefix(f"{crate}::")], goals = (text, goals), []

    def fault(self, changed):
        """The reason why the files, some of which are changed, could not be read, or why there is no answer; or None."""
        for it in self.errors:
            is_proof = it.path.split(os.sep)[1:2] == ["proofs"]
            if it.code or not is_proof and not FOLLOWS.search(it.text) or it.path in changed and UNREAD.search(it.text):
                return f"it cannot be read: {it.path}: {it.text}"
        if self.status not in (0, 1) or not any(map(COUNTS.fullmatch, self.lines)):
            return "the prover gave no answer: " + " ".join(self.lines)[-300:]
        return None

    def holds(self, function):
        """Whether the function's own proof holds, whatever is known of those that it calls; of a file, whether no error stands in it."""
        if is_file(function):
            return not any(it.path == os.path.join(self.crate, function) for it in self.errors)
        said, goals = self.functions.get(function, (None, []))
        return bool(said == "proved" or said and RESTS.fullmatch(said) and not goals)


def judged(case, turned, answer, written):
    """The reason why an answer does not refuse a case, or None where each proof is refused. `turned` is the function whose body alone it
    edits, or None, and `written` are the crates that were taken from their sources."""
    fault = answer.fault({it.path for it in case.edits})
    for function in case.refused:
        fault = fault or judged_of(case, function, turned, answer, written)
    return fault


def judged_of(case, function, turned, answer, written):
    """The same for one function. A wrong body is refused in the function's own proof, and a wrong definition in any proof of its crate or
    of a crate between that it does not edit."""
    said, goals = answer.functions.get(function, (None, []))
    if said is None and not is_file(function):
        return f"the prover says nothing of {function}"
    if answer.holds(function):
        return f"not refused by {function}"
    if said and said.startswith("could not tell"):
        return f"the prover gave no answer: {function}: {said}"
    if is_file(function):
        places, goals = [os.path.join(case.crate, function)], []
    elif turned:
        places = [os.path.join(case.crate, "proofs", turned.proof, "")]
    else:
        places = [os.path.join(it, "proofs", "") for it in written if it == case.crate or it not in case.changed()]
        goals = [goal for _, several in answer.functions.values() for goal in several]
    errors = [it for it in answer.errors if it.path.startswith(tuple(places)) and not FOLLOWS.search(it.text)]
    unread = [it for it in errors if UNREAD.search(it.text)]
    if len(unread) < len(errors) or any(IS_FALSE in it or not unread for it in goals):
        return None
    reason = f"only since a proof names what is gone: {unread[0].path}: {unread[0].text}" if unread else f"by nothing of its own: {said}"
    return f"refused by {function}, but {reason}"


# ---- runs of the prover

# The running provers, which end with this script.
RUNNING = set()


class Group:
    """Cases of a crate that edit files of the same other crates. These, and the crates between, are taken from their sources."""

    def __init__(self, crate, others, cases, kit, room):
        self.crate, self.cases, self.kit, self.room, self.graph = crate, cases, kit, room, stands_on(suite.ROOT)
        self.order = in_order(crate, self.graph)
        self.written = [it for it in self.order if it == crate or others & set(in_order(it, self.graph))]
        self.functions = functions_of(crate)
        # a folder with what the first run proved
        self.seed = None

    def library(self, crate):
        return os.path.join(CRATES, crate, "out", "rlib", f"{crate}.rlib")

    def missing(self):
        """The crates whose library it lacks."""
        return [it for it in self.order if it not in self.written and not os.path.exists(os.path.join(self.library(it), "format"))]

    def fill(self, folder, cases, functions):
        """Makes a folder of the crates that are taken from their sources, with the edits of cases. The bodies and the proofs of other
        functions than these are cut."""
        for name, part in itertools.product(self.written, PARTS):
            if os.path.isdir(os.path.join(CRATES, name, part)):
                shutil.copytree(os.path.join(CRATES, name, part), os.path.join(folder, name, part))
        kept = {it.proof for it in self.functions if it.path in functions}
        left_out = [it for it in self.functions if it.last and it.is_sure and it.proof not in kept]
        for file in {it.file for it in left_out} | {edit.path for case in cases for edit in case.edits}:
            text = content(os.path.join(CRATES, file))
            write(os.path.join(folder, file), text_with(text, file, cases, [it for it in left_out if it.file == file]))
        for it in left_out:
            above = os.path.join(folder, self.crate, "proofs")
            for name in PROOF:
                if os.path.exists(os.path.join(above, it.proof, name)):
                    os.remove(os.path.join(above, it.proof, name))
            # A function whose body is cut is in no cycle of calls. Without a file the prover would look for a proof.
            there = os.path.join(above, os.path.dirname(it.proof), it.path.split("::")[-1])
            os.makedirs(there, exist_ok=True)
            write(os.path.join(there, PROOF[0]), "-- It is left out.\n")

    def words(self, crates, kept, functions):
        root = next(it for it in ("src/main.rt", "src/lib.rt") if os.path.exists(os.path.join(crates, self.crate, it)))
        words = [f"{self.kit}/bin/rattle", "check", "--crate-name", self.crate, root, "-L", f"dependency={self.kit}/rlibs"]
        used = {it for name in self.written for it in self.graph[name]}
        for it in sorted({"core", "std"} | used - self.graph.keys()):
            words += ["--extern", f"{it}={self.kit}/rlibs/{it}.rlib"]
        for it in self.order[:-1]:
            if it in self.written:
                words += ["--lib", f"{it}:{','.join(['core', 'std', *self.graph[it]])}={crates}/{it}/src/lib.rt"]
            elif it in used:
                words += ["--extern", f"{it}={self.library(it)}"]
            else:
                words += ["-L", f"dependency={os.path.dirname(self.library(it))}"]
        words += ["--antt-project", f"{self.kit}/rattle/logic/antt-project.json", "--logic-built", f"{self.kit}/logic_built"]
        words += ["--incremental", kept, "--jobs", "1"]
        # Files of proofs are read where the whole crate is asked for.
        return words if any(map(is_file, functions)) else words + [word for it in functions for word in ("--only", it)]

    def ask(self, cases, functions, kept):
        """The prover's answer for these functions, with the edits of cases, and the seconds of processors that it took. It keeps what it
        proves in a folder."""
        with tempfile.TemporaryDirectory(dir=self.room) as crates:
            self.fill(crates, cases, functions)
            how = {"stdin": subprocess.DEVNULL, "stdout": subprocess.PIPE, "stderr": subprocess.STDOUT, "text": True, "errors": "replace"}
            with subprocess.Popen(self.words(crates, kept, functions), cwd=os.path.join(crates, self.crate), **how) as process:
                RUNNING.add(process)
                said = process.stdout.read()
                _, status, used = os.wait4(process.pid, 0)
                process.returncode = os.waitstatus_to_exitcode(status)
                RUNNING.discard(process)
            return Answer(process.returncode, said, self.crate, crates), used.ru_utime + used.ru_stime

    def begin(self, is_proved):
        """The rounds of its cases that are still to try, the fault or None of each case that is judged, and the seconds. The functions are
        proved as they stand first, unless it is known that they are."""
        self.seed, faults, spent = tempfile.mkdtemp(dir=self.room), {}, 0.0
        for it in self.missing():
            return [], dict.fromkeys(self.cases, f"there is no library of {it}: `rt lib` in crates/{it} makes it"), spent
        if not is_proved:
            functions = sorted({it for case in self.cases for it in case.refused})
            answer, spent = self.ask([], functions, self.seed)
            wrong = {it: answer.fault(()) or answer.functions.get(it) for it in functions if answer.fault(()) or not answer.holds(it)}
            faults = {case: f"{it} as it stands: {wrong[it]}" for case in self.cases for it in case.refused if it in wrong}
        rounds = rounds_of([it for it in self.cases if it not in faults], self.functions)
        if is_proved and rounds:
            later, faults, spent = self.attempt(rounds.pop(0), self.seed)
            rounds += later
        return rounds, faults, spent

    def attempt(self, together, kept=None):
        """The same of cases that are tried together. One that is not refused in company is still to try, alone."""
        cases = [case for case, _ in together]
        with tempfile.TemporaryDirectory(dir=self.room) as folder:
            kept = kept or linked(self.seed, os.path.join(folder, "kept"))
            answer, spent = self.ask(cases, sorted({it for case in cases for it in case.refused}), kept)
        faults = {case: judged(case, turned, answer, self.written) for case, turned in together}
        again = [it for it in together if faults[it[0]] and len(together) > 1]
        return [[it] for it in again], {it: fault for it, fault in faults.items() if it not in dict(again)}, spent


def linked(seed, folder):
    """Copies the kept work of the prover. It replaces such files and changes none, so links do."""
    copy = lambda one, other: os.link(one, other) if one.endswith(".oantt") else shutil.copy2(one, other)
    return shutil.copytree(seed, folder, copy_function=copy)


def lanes():
    """The number of runs of the prover side by side, by the processors and the free memory."""
    free = [1024 * int(re.search(r"MemAvailable: *(\d+)", content("/proc/meminfo"))[1])]
    with contextlib.suppress(OSError, ValueError):
        free.append(int(content("/sys/fs/cgroup/memory.max")) - int(content("/sys/fs/cgroup/memory.current")))
    return max(1, min(len(os.sched_getaffinity(0)), min(free) // MEMORY))


class Run:
    """The fault or None of each case that was tried, and by crate the runs of the prover and the seconds of processors."""

    def __init__(self):
        self.faults, self.costs = {}, collections.defaultdict(lambda: [0, 0.0])

    def on(self, groups, count, is_proved):
        """Tries groups of cases on so many lanes."""
        with ThreadPoolExecutor(count) as pool:
            try:
                waiting = {pool.submit(it.begin, is_proved): it for it in groups}
                while waiting:
                    for future in wait(waiting, return_when=FIRST_COMPLETED).done:
                        group = waiting.pop(future)
                        rounds, faults, spent = future.result()
                        self.take(group, faults, spent)
                        waiting |= {pool.submit(group.attempt, it): group for it in rounds}
            except BaseException:
                pool.shutdown(wait=False, cancel_futures=True)
                for process in list(RUNNING):
                    process.kill()
                raise

    def take(self, group, faults, spent):
        """Takes the outcome of a run of the prover, or of a look at the cases where there is no group."""
        if spent:
            self.costs[group.crate][0] += 1
            self.costs[group.crate][1] += spent
        self.faults |= faults
        for case, fault in faults.items():
            print(f"FAILED {case.label()}: {fault}" if fault else f"{case.label()}: refused", flush=True)

    def table(self):
        lines = ["| | Cases | Runs of the prover | Seconds |", "|---|---|---|---|"]
        for crate, (runs, seconds) in sorted(self.costs.items(), key=lambda it: -it[1][1]):
            lines.append(f"| `{crate}` | {sum(case.crate == crate for case in self.faults)} | {runs} | {seconds:.0f} |")
        runs, seconds = (sum(it) for it in zip(*self.costs.values())) if self.costs else (0, 0)
        return [*lines, f"| all | {len(self.faults)} | {runs} | {seconds:.0f} |"]


# ---- the record

NOTE = "# For each crate the sum of all that its wrong bodies rest on, and the commit at which all were refused. `make wrong` writes it.\n"
LINE = re.compile(r"(\w+) ([0-9a-f]{64}) ([0-9a-f]{40})")
# An import of names: its module and these.
IMPORT = re.compile(r"((?:pub |ghost )*use [^\s;{]+)\.\{([^}]*)\};?")


def output_of(*words):
    """The output of a command, or nothing where it fails."""
    try:
        return subprocess.run(words, cwd=suite.ROOT, capture_output=True, text=True, check=True).stdout.strip()
    except (OSError, subprocess.CalledProcessError):
        return ""


def record():
    """The sum and the commit of each crate that the record has one line of. A broken line says nothing."""
    try:
        found = [it.groups() for it in map(LINE.fullmatch, content(RECORD).split("\n")) if it]
    except (OSError, ValueError):
        return {}
    count = collections.Counter(crate for crate, _, _ in found)
    return {crate: (total, commit) for crate, total, commit in found if count[crate] == 1}


def words_of(text):
    """The imports of a text, each by itself, and its other words: no comment and no layout."""
    text = " ".join(it for it in text.split("\n") if not it.lstrip().startswith(("--", "//")))
    imports = {f"{found[1]}.{it.strip()}" for found in IMPORT.finditer(text) for it in found[2].split(",")}
    return sorted(imports), IMPORT.sub("", text).split()


@functools.cache
def texts_of(crate, is_whole):
    """The words of a crate's files. Of one that is not whole they are its definitions and its code without bodies."""
    functions = [] if is_whole else [it._replace(cycle=None) for it in functions_of(crate) if it.last]
    found = []
    for file in files_of(crate, *PARTS[:3 if is_whole else 2]):
        text = text_with(content(os.path.join(CRATES, file)), file, [], [it for it in functions if it.file == file])
        found.append((file, words_of(text)))
    return found


def sum_of(crate, kit):
    """The sum of all that the cases of a crate rest on."""
    graph = stands_on(suite.ROOT)
    changed = {it for case in cases_of(crate) for it in case.changed()}
    parts = [kit, content(os.path.abspath(__file__)), lines_of_cases(crate)]
    for it in in_order(crate, graph):
        parts.append((it, graph[it], texts_of(it, it == crate or bool(changed & set(in_order(it, graph))))))
    return hashlib.sha256(repr(parts).encode()).hexdigest()


def is_in_tenth(case, commit):
    """Whether a case is in the tenth that a commit chooses."""
    return hashlib.sha256(f"{commit} {case.label()}".encode()).digest()[0] * 10 < 256


def write_record(crates, faults, kit, commit):
    """Writes the lines of crates whose cases were tried. A crate with a case that failed has none."""
    known = {crate: it for crate, it in record().items() if crate not in crates}
    failed = {case.crate for case, fault in faults.items() if fault}
    known |= {crate: (sum_of(crate, kit), commit) for crate in crates - failed}
    write(RECORD, NOTE + "".join(f"{it} {' '.join(known[it])}\n" for it in stands_on(suite.ROOT) if it in known))


def groups_of(cases, kit, room):
    """The groups of cases, those with the largest sources first."""
    found = collections.defaultdict(list)
    for case in cases:
        found[case.crate, frozenset(case.changed() - {case.crate}), any(map(is_file, case.refused))].append(case)
    size = lambda it: sum(os.path.getsize(os.path.join(CRATES, file)) for name in it.written for file in files_of(name, *PARTS))
    return sorted((Group(crate, others, several, kit, room) for (crate, others, _), several in found.items()), key=size, reverse=True)


def faults_of_place(case):
    """The reasons why the edits of a case have no place, or why a program is not there that it names."""
    there = {head[0] for head, _ in in_trees.programs_in("refused")} if case.lets else set()
    try:
        for path in {it.path for it in case.edits}:
            text_with(content(os.path.join(CRATES, path)), path, [case], [])
    except (OSError, ValueError) as error:
        return [str(error)]
    return [f"there is no program {it} in refused.programs" for it in case.lets if it not in there]


def options_of():
    parser = argparse.ArgumentParser(description=__doc__.split("\n")[0])
    parser.add_argument("crates", nargs="*", metavar="CRATE")
    parser.add_argument("--only", action="append", default=[], metavar="NAME", help="this case (repeatable)")
    parser.add_argument("--record", action="store_true", help="tries all from nothing, and writes the record")
    parser.add_argument("--proved", default="", metavar="LOOK", help="the word that `sources.py look` said before `rt ci` proved all")
    parser.add_argument("--lanes", type=int, help="so many runs of the prover side by side; else as processors and memory allow")
    parser.add_argument("--list", action="store_true", help="prints each case with the promise that it tests, and tries none")
    parser.add_argument("--missing", action="store_true", help="prints the public functions and laws with no case, and tries none")
    parser.add_argument("--placed", action="store_true", help="tells if the text is there that each case replaces, and tries none")
    return parser.parse_args()


def chosen(options, every, kit, commit):
    """The cases to try, and the number of those that stand by record."""
    unknown = set(options.crates) - set(stands_on(suite.ROOT)) | set(options.only) - {it.name for it in every}
    if unknown:
        sys.exit(f"there is no case or crate {' '.join(sorted(unknown))}")
    cases = [it for it in every if it.crate in (options.crates or [it.crate]) and it.name in (options.only or [it.name])]
    if options.crates or options.only or options.record or not (kit and commit):
        return cases, 0
    known = record()
    stand = {it for it in {case.crate for case in cases} & known.keys() if known[it][0] == sum_of(it, kit)}
    left = [it for it in cases if it.crate not in stand or is_in_tenth(it, commit)] or cases[:1]
    return left, len(cases) - len(left)


def tried(options, every):
    """Tries the cases that are asked for; returns whether none failed."""
    kit, commit = output_of("rt", "version"), output_of("git", "rev-parse", "HEAD")
    is_changed = output_of("git", "status", "--porcelain", "crates", "crates.txt", "tests/wrong/*.cases", "tests/runners/wrong.py")
    if options.record and (options.only or not commit or is_changed):
        sys.exit("the record names whole crates at a commit: commit the sources and the cases first")
    cases, standing = chosen(options, every, kit, commit)
    run, is_proved = Run(), bool(options.proved) and look(suite.ROOT) == options.proved
    with tempfile.TemporaryDirectory(prefix="wrong-") as room:
        lost = {it: fault for it in cases for fault in faults_of_place(it)}
        groups = groups_of([it for it in cases if it not in lost], os.path.dirname(output_of("rt", "doc")), room)
        run.take(None, lost, 0)
        run.on(groups, options.lanes or lanes(), is_proved)
    if options.record:
        write_record({it.crate for it in cases}, run.faults, kit, commit)
    failed = sum(map(bool, run.faults.values()))
    print("\n".join(run.table()))
    print(f"{len(cases)} wrong bodies were tried, and {standing} stand by the record in tests/wrong/refused.sums")
    suite.end(len(run.faults) - failed, failed)


def main():
    options, every = options_of(), all_cases()
    if options.list:
        print("".join(f"{case.name.replace('_', ' ')} ({case.crate}): {case.tests}\n" for case in every), end="")
    elif options.missing:
        if unproved := [it for it in options.crates or stands_on(suite.ROOT) if not os.path.isdir(os.path.join(CRATES, it, "out", "rlib"))]:
            sys.exit(f"these crates have no library that lists what is public: {' '.join(unproved)}")
        found = [f"{crate}::{it}\n" for crate in options.crates or stands_on(suite.ROOT) for it in missing_of(crate)]
        print("".join(found) + f"{len(found)} public functions and laws have no wrong body")
        sys.exit(bool(found))
    elif options.placed:
        suite.try_each(every, Case.label, faults_of_place)
    else:
        signal.signal(signal.SIGTERM, lambda *_: sys.exit("it was ended"))
        tried(options, every)


if __name__ == "__main__":
    main()

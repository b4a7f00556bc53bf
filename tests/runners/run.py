#!/usr/bin/env python3
"""Runs the built program on the cases in tests/cases and reports those that fail.

    python3 tests/runners/run.py [--program PATH] [--whole] [--quick] [--one-store] [FILE.cases ..]

The last line is `N passed, M failed`. A case is a few lines; tests/README.md has the format. With --whole the cases are those of the whole
language, in tests/whole. With --quick those with a file of more than 8,192 bytes, and those that are marked as slow, are skipped, and their
number is printed.

The test fails if a case could not fail: it runs nothing, does not state how a command ends, or uses a name that nothing sets. The test also
fails if a command of tests/tools.txt that the cases run is missing.

Each image that a case runs is run over both stores too (`run --store`), unless --one-store is given: both runs must end in the same way
after equally many instructions.
"""
import os
import re
import shlex
import struct
import subprocess
import tempfile

import suite

CASES = os.path.join(suite.TESTS, "cases")
WHOLE = os.path.join(suite.TESTS, "whole")
# The options of `run` that take a value; the same options are used when a test case repeats a run
# with the other heap implementation.
LIMITS = {"--pages", "--calls", "--steps", "--at-most-pages", "--at-most-calls"}
# The name of the file to which the text of a case line `? LINE | TEXT` is written.
TEXT_FILE = "text.cyc"
# A case with a file larger than this number of bytes is skipped by --quick.
LONG = 8192
# The environment variables that the commands of a test case may use.
ENVIRONMENT = {"CYCLONE", "ROOT", "PATH", "PWD", "TMPDIR"}
# The pattern of a command in a shell line: the first word, or a word after a command separator.
COMMAND = re.compile(r"(?:^|[|;&(])\s*([\w.-]+)")


class BadCase(Exception):
    """A line of a case file without a meaning, or a case that cannot fail."""

    def __init__(self, fault, line=None):
        super().__init__(fault)
        self.line = line


def unescaped(text):
    r"""Returns the bytes that a text denotes, where `\n`, `\t`, `\r`, `\\`, `\"` and `\xNN` are escapes."""
    names = {"n": "\n", "t": "\t", "r": "\r", "\\": "\\", '"': '"'}

    def one(match):
        name = match.group(1)
        if name[0] == "x":
            return chr(int(name[1:], 16))
        if name not in names:
            raise BadCase(f"unknown escape \\{name}")
        return names[name]

    return re.sub(r"\\(x[0-9a-fA-F]{2}|.)", one, text).encode("latin-1")


def image_of(words):
    """Returns an image with one segment of text at 00400000, and its entry there."""
    text = b"".join(bytes.fromhex(word) for word in words)
    header = bytes.fromhex("7f454c46010201") + bytes(9)
    header += struct.pack(">HHIIIIIHHHHHH", 2, 8, 1, 0x400000, 52, 0, 0, 52, 32, 1, 0, 0, 0)
    segment = struct.pack(">8I", 1, 84, 0x400000, 0x400000, len(text), len(text), 5, 4)
    return header + segment + text


class Step:
    """One command of a case, and its expected results."""

    def __init__(self, line, words, is_program):
        self.line = line
        self.words = words
        self.is_program = is_program
        self.input = b""
        self.output = b""
        self.output_has = []
        self.error_has = []
        self.status = None
        self.last = None
        self.closed = set()
        self.full = False
        self.broken = False


class Case:
    """A name, and the actions that make files, run steps and examine files, in order."""

    def __init__(self, path, line, name):
        self.place = f"{os.path.relpath(path)}:{line}"
        self.line = line
        self.name = name
        self.actions = []
        self.longest = 0
        self.is_slow = False
        # the shell variables that the case uses, each with its line, and the variables that the
        # case sets
        self.asked = []
        self.set = set()

    def steps(self):
        return [action for action in self.actions if isinstance(action, Step)]

    def hold(self):
        """Rejects a case that runs nothing, does not state how a command ends, or uses a name that nothing sets."""
        if not self.steps():
            raise BadCase("the case runs no command", self.line)
        for step in self.steps():
            if step.status is None:
                raise BadCase("no line `ends STATUS LINE` stands below the command", step.line)
        for line, name in self.asked:
            if name not in ENVIRONMENT | self.set:
                raise BadCase(f"nothing sets ${name}", line)


def repeated(value):
    """Returns the value of a `let`: `"TEXT"`, `"TEXT" * N` with `#` for the number of each copy, or plain text up to the line's end."""
    match = re.fullmatch(r'"((?:[^"\\]|\\.)*)"(?:\s*\*\s*(\d+))?', value)
    if not match:
        return value
    text = unescaped(match.group(1)).decode("latin-1")
    if match.group(2) is None:
        return text
    return "".join(text.replace("#", str(copy)) for copy in range(1, int(match.group(2)) + 1))


class Reader:
    """Reads the cases of one file."""

    def __init__(self, path):
        self.path = path
        with open(path, encoding="utf-8") as file:
            self.lines = file.read().split("\n")
        self.at = 0
        self.shared = {}
        self.own = {}
        self.cases = []
        self.step = None

    def block(self, is_of_shell=False):
        """Returns the following indented lines, without their indentation and with names replaced by their values."""
        lines = []
        while self.at < len(self.lines) and self.lines[self.at].startswith("    "):
            lines.append(self.lines[self.at][4:])
            self.at += 1
        return self.with_names("\n".join(lines), is_of_shell)

    def with_names(self, text, is_of_shell=False):
        """Replaces the names in a text by their values. Other names may remain if a shell reads the text, and the case or its environment
        sets them."""
        names, line = {**self.shared, **self.own}, self.at

        def one(match):
            name = match.group(1) or match.group(2)
            if name not in names:
                if not is_of_shell:
                    raise BadCase(f"nothing sets ${name}")
                self.cases[-1].asked.append((line, name))
            return names.get(name, match.group(0))

        if is_of_shell:
            self.cases[-1].set.update(re.findall(r"\b([A-Z][A-Z0-9_]*) ?=", text))
        return re.sub(r"\$(?:\{([A-Z][A-Z0-9_]*)\}|([A-Z][A-Z0-9_]*))", one, text)

    def read(self):
        """Reads the cases, of which there must be at least one."""
        try:
            while self.at < len(self.lines):
                line = self.lines[self.at]
                self.at += 1
                if line.strip() and not line.startswith("#"):
                    self.take(line)
            if not self.cases:
                raise BadCase("there is no case")
            self.cases[-1].hold()
        except (BadCase, ValueError) as error:
            line = getattr(error, "line", None) or self.at
            raise BadCase(f"{os.path.relpath(self.path)}:{line}: {error}") from error
        return self.cases

    def take(self, line):
        word, _, rest = line.partition(" ")
        rest = rest.strip()
        if word == "==":
            if self.cases:
                self.cases[-1].hold()
            self.cases.append(Case(self.path, self.at, rest))
            self.own = {}
            self.step = None
        elif word == "let":
            name, _, value = rest.partition("=")
            scope = self.own if self.cases else self.shared
            scope[name.strip()] = repeated(self.with_names(value.strip())) or self.block()
        elif not self.cases:
            raise BadCase("a case begins with a line `== NAME`")
        elif line == "slow":
            self.cases[-1].is_slow = True
        elif word == "$" and not rest:
            raise BadCase("a line `$ WORDS` names a command")
        elif word in (">", "$"):
            self.step = Step(self.at, shlex.split(self.with_names(rest, word == "$")), word == ">")
            self.cases[-1].actions.append(self.step)
        elif word == "?":
            self.check_text(rest)
        elif word in FILES:
            self.cases[-1].actions.append(FILES[word](self, rest))
        elif self.step is None:
            raise BadCase(f"`{word}` is no word of a case, or no command stands before it")
        else:
            self.expect(word, rest)

    def check_text(self, rest):
        """Adds an action that writes a text to a file, and a step that checks it."""
        said, bar, text = rest.partition("|")
        if not bar:
            raise BadCase("a text is checked by a line `? LINE | TEXT`")
        content = unescaped(self.with_names(text.strip()))
        self.step = Step(self.at, ["check", TEXT_FILE], True)
        self.step.last = said.strip()
        self.step.status = 0 if self.step.last == "done" else 2
        self.cases[-1].actions += [made(self, TEXT_FILE, content), self.step]

    def expect(self, word, rest):
        step = self.step
        if word == "in":
            step.input = unescaped(self.with_names(rest))
        elif word == "out":
            step.output = unescaped(self.with_names(rest)) if rest else self.block().encode("latin-1") + b"\n"
        elif word == "out-has":
            step.output_has.append(unescaped(self.with_names(rest)))
        elif word == "err-has":
            step.error_has.append(unescaped(self.with_names(rest)) if rest else self.block().encode("latin-1"))
        elif word == "ends":
            status, _, last = rest.partition(" ")
            step.status, step.last = int(status), last
        elif word == "closed":
            step.closed.update(rest.split())
        elif word == "full":
            step.full = True
        elif word == "broken":
            step.broken = True
        else:
            raise BadCase(f"`{word}` is no word of a case")


def made(reader, rest, content):
    """Returns an action that creates a file."""
    path = rest
    case = reader.cases[-1]
    case.longest = max(case.longest, len(content))

    def act(folder):
        with open(os.path.join(folder, path), "wb") as file:
            file.write(content)

    return act


def make_bytes(reader, rest):
    path, _, text = rest.partition(" ")
    return made(reader, path, unescaped(reader.with_names(text)))


def changed(path, change):
    """Returns an action that changes the bytes of a file."""

    def act(folder):
        path_there = os.path.join(folder, path)
        with open(path_there, "rb") as file:
            content = file.read()
        with open(path_there, "wb") as file:
            file.write(change(content))

    return act


def make_patch(reader, rest):
    path, offset, new = rest.split()
    start, new = int(offset), bytes.fromhex(new)
    return changed(path, lambda content: content[:start] + new + content[start + len(new):])


def make_cut(reader, rest):
    path, length = rest.split()
    return changed(path, lambda content: content[: int(length)])


def look_absent(reader, rest):
    def act(folder):
        if os.path.lexists(os.path.join(folder, rest)):
            return f"the file {rest} is there, and should not be"

    return act


def look_holds(reader, rest):
    path, _, text = rest.partition(" ")
    wanted = unescaped(reader.with_names(text))

    def act(folder):
        try:
            with open(os.path.join(folder, path), "rb") as file:
                content = file.read()
        except OSError as error:
            return f"the file {path} cannot be read: {error}"
        if content != wanted:
            return suite.difference(f"the file {path}", wanted, content)

    return act


# The words of a case file that create, change or examine a file, each with the action that it
# causes.
FILES = {
    "file": lambda reader, rest: made(reader, rest, reader.block(is_of_shell=True).encode("latin-1")),
    "bytes": make_bytes,
    "hex": lambda reader, rest: made(reader, rest, bytes.fromhex(reader.block())),
    "words": lambda reader, rest: made(reader, rest, image_of(reader.block().split())),
    "folder": lambda reader, rest: lambda folder: os.mkdir(os.path.join(folder, rest)),
    "patch": make_patch,
    "cut": make_cut,
    "absent": look_absent,
    "holds": look_holds,
}


def run_step(step, folder, program):
    """Returns the status, standard output and standard error of a step."""
    words = ([program] if step.is_program else []) + step.words
    streams = [f"{number}>&-" for name, number in (("in", 0), ("out", 1), ("err", 2)) if name in step.closed]
    if step.full:
        streams.append("1>/dev/full")
    shell = ["sh", "-c", 'exec "$@" ' + " ".join(streams), "sh"]
    output = subprocess.PIPE
    if step.broken:
        reading, output = os.pipe()
        os.close(reading)
    try:
        return suite.run(
            shell + words,
            step.input,
            cwd=folder,
            stdout=output,
            # the command of a test step may run the program and read files of the repository
            env={**os.environ, "LC_ALL": "C", "CYCLONE": program, "ROOT": suite.ROOT},
        )
    finally:
        if step.broken:
            os.close(output)


def faults_of_step(step, folder, program, act):
    """Returns the differences between a step's results and the expected ones, in words."""
    try:
        done = act(step, folder, program)
    except subprocess.TimeoutExpired:
        return [f"took more than {suite.SECONDS} seconds of processor"]
    faults = []

    def want(what, wanted, got):
        if wanted != got:
            faults.append(suite.difference(what, wanted, got))

    if step.status is not None:
        wanted = f"{step.status} {step.last}".strip()
        last = "" if "err" in step.closed else suite.last_line(done.stderr)
        want("exit status and last line on standard error", wanted, f"{done.returncode} {last}".strip())
    if not step.output_has:
        want("standard output", step.output, done.stdout or b"")
    for text in step.output_has:
        if text not in done.stdout:
            faults.append(f"standard output lacks {suite.shown(text)}\n  got    {suite.shown(done.stdout)}")
    for text in step.error_has:
        if text not in done.stderr:
            faults.append(f"standard error lacks {suite.shown(text)}\n  got    {suite.shown(done.stderr)}")
    return faults


def words_of_run(step):
    """Returns the words of a step that runs an image with no options except limits, or None."""
    if not step.is_program or step.words[:1] != ["run"] or step.closed or step.full or step.broken:
        return None
    files, limits, words = [], [], iter(step.words[1:])
    for word in words:
        if word in LIMITS:
            limits += [word, next(words, "")]
        else:
            files.append(word)
    if len(files) != 1 or files[0].startswith("-") or not all(word in LIMITS or word.isdecimal() for word in limits):
        return None
    return [*limits, files[0]]


def faults_of_stores(step, folder, program):
    """Returns the differences between the two stores for the image that a step runs, in words."""
    words = words_of_run(step)
    if words is None or not os.path.isfile(os.path.join(folder, words[-1])):
        return []
    one, other = suite.over_stores(program, words, step.input, folder)
    return [] if one == other else [suite.difference(f"over the stores {' and '.join(suite.STORES)}", one, other)]


def faults_of(case, program, act=run_step, over_stores=False):
    """Returns the differences of a case from its expectations. `act` runs its steps; over both stores if requested."""
    faults = []
    with tempfile.TemporaryDirectory(prefix="cyclone-case-") as folder:
        for action in case.actions:
            if isinstance(action, Step):
                name = "> " if action.is_program else "$ "
                found = faults_of_step(action, folder, program, act)
                if over_stores:
                    found += faults_of_stores(action, folder, program)
                for fault in found:
                    faults.append(f"line {action.line}: {name}{shlex.join(action.words)}\n{fault}")
            else:
                fault = action(folder)
                if fault:
                    faults.append(fault)
    return faults


def tools_of(cases):
    """Returns the commands of tests/tools.txt that the cases run."""
    steps = [step for case in cases for step in case.steps() if not step.is_program]
    lines = [step.words[-1] if step.words[0] == "sh" else step.words[0] for step in steps]
    return sorted({word for line in lines for word in COMMAND.findall(line)} & suite.packages().keys())


def case_files(folder):
    return sorted(os.path.join(folder, name) for name in os.listdir(folder) if name.endswith(".cases"))


def main():
    parser = suite.command_line_of_runs(__doc__)
    parser.add_argument("--whole", action="store_true")
    parser.add_argument("--quick", action="store_true", help=f"leave out slow cases, and those with a file of more than {LONG} bytes")
    parser.add_argument("files", nargs="*")
    options = parser.parse_args()
    files = options.files or case_files(WHOLE if options.whole else CASES)
    try:
        cases = [case for path in files for case in Reader(path).read()]
    except BadCase as bad:
        print(f"FAILED {bad}")
        suite.end(0, 1)
    if options.quick:
        short = [case for case in cases if case.longest <= LONG and not case.is_slow]
        print(f"left out, with long files or many steps: {len(cases) - len(short)}")
        cases = short
    program = suite.program_of(options, len(cases))
    suite.need(tools_of(cases), len(cases))
    faults = lambda case: faults_of(case, program, over_stores=not options.one_store)
    suite.try_each(cases, lambda case: f"{case.place}: {case.name}", faults)


if __name__ == "__main__":
    main()

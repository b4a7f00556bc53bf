#!/usr/bin/env python3
"""Runs the sessions that the documents show, and reports different output.

    python3 tests/runners/sessions.py [--program PATH]

A session consists of lines in a block indented by four spaces, or in the manual's examples: a command after `$ `, and below it the
terminal's output. A line with only `..` stands for any lines. A document's commands are run by the shell in sequence, in one folder. There
`examples` is the repository's folder, `cyclone` is the program, and `$?` is the status of the previous command. A missing file that `cat`
shows is created with the shown contents. Each of the documents has a session, and each session runs `cyclone`. The last line is `N passed,
M failed`, of commands.
"""
import collections
import os
import re
import subprocess
import tempfile

import suite

DOCUMENTS = ["README.md", "docs/TUTORIAL.md", "docs/LANGUAGE.md", "docs/FROM_C.md", "docs/cyclone.1"]
PROMPT = "$ "
ANY = ".."
# The characters that the manual page's escapes denote, and the pattern of an escape.
ESCAPES = {r"\-": "-", r"\(rs": "\\", r"\(aq": "'"}
ESCAPE = re.compile(r"\\(?:\(..|.)")

# A command with its line in the document, and the output lines shown below the command.
Command = collections.namedtuple("Command", "line words shown")


def lines_of_page(text):
    """Returns the lines of a document's blocks, each with its number; an empty line continues a block, and another line ends it."""
    for number, line in enumerate(text.split("\n"), 1):
        yield number, line[4:] if line.startswith("    ") else None if line else ""


def lines_of_manual(text):
    """Returns the lines of the manual's examples."""
    is_shown = False
    for number, line in enumerate(text.split("\n"), 1):
        if line in (".nf", ".fi"):
            is_shown = line == ".nf"
        yield number, ESCAPE.sub(lambda it: ESCAPES[it[0]], line) if is_shown and not line.startswith(".") else None


def commands_of(path):
    """Returns the commands of a document, in order."""
    with open(os.path.join(suite.ROOT, path), encoding="utf-8") as file:
        text = file.read()
    found, is_open = [], False
    for number, line in (lines_of_manual if path.endswith(".1") else lines_of_page)(text):
        if line is not None and line.startswith(PROMPT):
            found.append(Command(number, line[len(PROMPT):], []))
            is_open = True
        elif line is None:
            is_open = False
        elif is_open:
            found[-1].shown.append(line)
    for command in found:
        # The empty lines after a block separate the block from the following text.
        while command.shown and not command.shown[-1]:
            command.shown.pop()
    return found


def is_shown(wanted, got):
    """Returns true if lines are as a document shows them."""
    if ANY not in wanted:
        return wanted == got
    at = wanted.index(ANY)
    behind = wanted[at + 1:]
    return got[:at] == wanted[:at] and len(got) >= at and any(is_shown(behind, got[start:]) for start in range(at, len(got) + 1))


def runs_program(command):
    return re.search(r"\bcyclone ", command.words) is not None


class Session:
    """The commands of a document in their folder."""

    def __init__(self, program, folder):
        self.folder = folder
        self.status = 0
        os.makedirs(os.path.join(folder, "bin"))
        os.symlink(program, os.path.join(folder, "bin", "cyclone"))
        self.room = os.path.join(folder, "room")
        os.mkdir(self.room)
        for name in ("examples", "lib"):
            os.symlink(os.path.join(suite.ROOT, name), os.path.join(self.room, name))

    def faults(self, command):
        """Returns the differences between a command's output and the shown lines."""
        cat = re.fullmatch(r"cat ([\w./]+)", command.words)
        if cat and not os.path.exists(os.path.join(self.room, cat[1])):
            with open(os.path.join(self.room, cat[1]), "w", encoding="utf-8") as file:
                file.write("".join(line + "\n" for line in command.shown))
        paths = os.path.join(self.folder, "bin") + os.pathsep + os.environ.get("PATH", os.defpath)
        done = suite.run(
            ["sh", "-c", f"(exit {self.status})\n{command.words}"], cwd=self.room, env={**os.environ, "PATH": paths},
            stdin=subprocess.DEVNULL, stderr=subprocess.STDOUT)
        self.status = done.returncode
        got = done.stdout.decode("utf-8", "replace").split("\n")
        if got[-1] == "":
            got.pop()
        return [] if is_shown(command.shown, got) else [suite.difference(command.words, command.shown, got)]


def things_of(path, commands, session):
    """Yields the tests of a document, each with its name: its commands, or that none runs the program."""
    if not any(runs_program(command) for command in commands):
        yield path, lambda: ["it has no session in which the program is run"]
    for command in commands:
        yield f"{path}:{command.line}", lambda command=command: session.faults(command)


def main():
    options = suite.command_line(__doc__).parse_args()
    commands = {path: commands_of(path) for path in DOCUMENTS}
    program = suite.program_of(options, sum(map(len, commands.values())))
    things = []
    with tempfile.TemporaryDirectory(prefix="cyclone-session-") as folder:
        for number, (path, found) in enumerate(commands.items()):
            things += things_of(path, found, Session(program, os.path.join(folder, str(number))))
        suite.try_each(things, lambda thing: thing[0], lambda thing: thing[1]())


if __name__ == "__main__":
    main()

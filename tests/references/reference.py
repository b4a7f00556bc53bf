#!/usr/bin/env python3
"""The whole language read and run a second time, plainly, for the tests to hold the compiler against.

    python3 tests/references/reference.py check F | compile F -o I | run I [--pages N] [--calls N] [--steps N]

Nothing here is fast or proved, and nothing is shared with the compiler: a text becomes a tree by recursive descent, the
tree is held against the rules of types and regions and of variables that are empty or locked, and then evaluated as it
stands (`tests/references/language`). It answers as the program `cyclone` does, so the command-line suite can be run on it too
(`tests/runners/run.py --program tests/references/reference.py`): that shows that a case's expected values do not hang on the compiler. Its
images are texts, and it has no instructions: `--steps` counts calls and passes of loops.
"""
import re
import sys
import threading

from language import heads
from language.flow import Flow
from language.frames import frame_words
from language.runs import CALLS, PAGES, STEPS, Run
from language.texts import Refused, tree_of
from with_library import with_library

FUNCTIONS_AT_MOST = 4_096
FRAME_AT_MOST = 256


class Program(heads.Program):
    """What a text declares, if the text is accepted."""

    def __init__(self, text):
        super().__init__(tree_of(text))
        for function in self.functions.values():
            Flow(function)

    def hold_to_sizes(self):
        """Refuses what a check takes and an image has no room for."""
        in_order = list(self.functions.values())
        if len(in_order) > FUNCTIONS_AT_MOST:
            raise Refused(50, in_order[FUNCTIONS_AT_MOST].place)
        for function in in_order:
            if frame_words(function) > FRAME_AT_MOST:
                raise Refused(51, function.place)


def verdict(text):
    """What `check` says of a text."""
    try:
        Program(text)
    except Refused as refused:
        return str(refused)
    return "done"


def with_room(act):
    """Does something that calls itself deeply, and gives what it answers or raises."""
    said = []

    def inside():
        try:
            said.append((act(), None))
        except BaseException as error:  # it is raised again outside
            said.append((None, error))

    sys.setrecursionlimit(1_000_000)
    threading.stack_size(512 * 1024 * 1024)
    thread = threading.Thread(target=inside)
    thread.start()
    thread.join()
    answer, error = said[0]
    if error:
        raise error
    return answer


# --- As a program ---


class Usage(Exception):
    pass


def options_of(words):
    """The file, and the options of `run`."""
    options, files = {"--calls": CALLS, "--steps": STEPS, "--pages": PAGES, "-o": None}, []
    words, options["--with"] = list(words), []
    while words:
        word = words.pop(0)
        if word == "--with":
            while words and not words[0].startswith("-"):
                options["--with"].append(words.pop(0))
        elif word not in options:
            files.append(word)
        elif not words:
            raise Usage
        else:
            options[word] = words.pop(0)
    if len(files) != 1:
        raise Usage
    for name, least, most in (("--calls", 1, CALLS), ("--steps", 1, 10**12), ("--pages", 3, 65_536)):
        if not re.fullmatch("[0-9]+", str(options[name])) or not least <= int(options[name]) <= most:
            raise Usage
        options[name] = int(options[name])
    return files[0], options


def read(path):
    with open(path, "rb") as file:
        return file.read().decode("latin-1")


def write_text(program, text, path):
    with open(path, "w", encoding="latin-1") as file:
        file.write(text)


def answer(words, given, write=write_text):
    """The output, the last line and the exit status that a command gives. `given` reads the input, and `write` makes an image."""
    try:
        if not words or words[0] not in ("check", "compile", "run"):
            raise Usage
        path, options = options_of(words[1:])
        text = with_library(read(path), [read(it) for it in options["--with"]]) if options["--with"] else read(path)
        program = Program(text)
        if words[0] == "compile":
            program.hold_to_sizes()
            write(program, text, options["-o"])
        if words[0] != "run":
            return b"", "done", 0
        run = Run(program, given(), options["--calls"], options["--steps"], options["--pages"])
        line, status = run.end()
        return bytes(run.output), line, status
    except Refused as refused:
        return b"", str(refused), 2
    except Usage:
        return b"", "usage", 9
    except OSError as error:
        return b"", f"{error}\nread fault", 8


def main(write=write_text):
    output, line, status = with_room(lambda: answer(sys.argv[1:], sys.stdin.buffer.read, write))
    sys.stdout.buffer.write(output)
    sys.stdout.buffer.flush()
    print(line, file=sys.stderr)
    sys.exit(status)


if __name__ == "__main__":
    main()

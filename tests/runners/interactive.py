#!/usr/bin/env python3
"""Tests interactive programs over a pipe: each answer is written only after its question was printed.

    python3 tests/runners/interactive.py [--program PATH] [--seconds N] [DIALOG ..]

Each `interactive/NAME.dialog` describes a run of one program, one event on each line, in order. Empty lines and lines that begin with `#`
are ignored:

    program PATH         the program's text, from the top of the repository: it is compiled, and the image is run
    shows TEXT           just this is printed, and then no more: only then the next line is done
    given TEXT           this is written into the pipe that is the standard input; `given TEXT * N`: so many copies
    closes               the input ends
    left TEXT            when the run has ended, this is still in the pipe, and no more
    ends STATUS LINE     the run ends, with this exit status, and with this last line on standard error; nothing else is printed

Lines before the first `shows` take effect before the program starts. In a text, escapes such as `\\n` stand for bytes. The last line is
`N passed, M failed`.
"""
import os
import re
import select
import subprocess
import tempfile
import time

import suite
from with_library import whole

FOLDER = os.path.join(suite.TESTS, "interactive")
SUFFIX = ".dialog"
# The seconds to wait: `SOON` for expected output, unless the caller gives another time, and `QUIET` for output that must not appear.
# Expected output appears at once unless the processors are busy.
SOON = suite.CLOCK * suite.SECONDS
QUIET = 0.1
# The capacity of a pipe in bytes.
MOST = 65536


class Wrong(Exception):
    """A difference between a program and its dialog."""


def bytes_of(text):
    """Returns the bytes of a text with escapes, repeated if the line says so."""
    found = re.fullmatch(r"(.*) \* ([0-9]+)", text)
    text, copies = (found[1], int(found[2])) if found else (text, 1)
    return text.encode("latin-1").decode("unicode_escape").encode("latin-1") * copies


def lines_of(path):
    """Returns the lines of a dialog, each as its first word and the rest."""
    with open(path, encoding="latin-1") as file:
        lines = [line.rstrip("\n") for line in file]
    return [(line.partition(" ")[0], line.partition(" ")[2]) for line in lines if line and not line.startswith("#")]


def comes(stream, count, seconds):
    """Returns up to `count` bytes that arrive within so many seconds."""
    got, ends = b"", time.monotonic() + seconds
    while len(got) < count:
        ready, _, _ = select.select([stream], [], [], max(0, ends - time.monotonic()))
        more = os.read(stream, count - len(got)) if ready else b""
        if not more:
            break
        got += more
    return got


class Talk:
    """A run of an image, and the dialog so far."""

    def __init__(self, words, seconds):
        self.words = words
        self.seconds = seconds
        self.reads, self.writes = os.pipe()
        self.process = None

    def begin(self):
        if not self.process:
            self.process = subprocess.Popen(self.words, stdin=self.reads, stdout=subprocess.PIPE, stderr=subprocess.PIPE, close_fds=True)

    def is_shown(self, text):
        """Reads the output that is expected now, and checks that there is no more."""
        self.begin()
        shown, wanted = self.process.stdout.fileno(), bytes_of(text)
        got = comes(shown, len(wanted), self.seconds)
        got += comes(shown, 1, QUIET) if got == wanted else b""
        if got != wanted:
            raise Wrong(suite.difference("what it shows before it is answered", wanted, got))

    def give(self, text):
        os.set_blocking(self.writes, False)
        if os.write(self.writes, bytes_of(text)) != len(bytes_of(text)):
            raise Wrong("the pipe does not hold what is given")

    def close(self):
        if self.writes is not None:
            os.close(self.writes)
            self.writes = None

    def ended(self, text):
        """Checks the end of the run, and that no unexpected output was printed."""
        self.begin()
        status, _, line = text.partition(" ")
        shown, said = self.process.communicate(timeout=self.seconds)
        wanted, got = (b"", line, int(status)), (shown, suite.last_line(said), self.process.returncode)
        if got != wanted:
            raise Wrong(suite.difference("how it ends: what it prints yet, its last line, and its status", wanted, got))

    def is_left(self, text):
        """Checks the input that nobody has read."""
        self.close()
        got, wanted = comes(self.reads, MOST, self.seconds), bytes_of(text)
        if got != wanted:
            raise Wrong(suite.difference("what is left in the pipe", wanted, got))

    def stop(self):
        self.close()
        os.close(self.reads)
        if self.process:
            self.process.kill()
            self.process.communicate()


def talk(program, path, folder, seconds):
    """Performs a dialog, line by line."""
    lines = lines_of(path)
    if [word for word, _ in lines].count("ends") != 1 or not lines or lines[0][0] != "program":
        raise Wrong("it does not begin with its program, or does not say how that ends")
    image = os.path.join(folder, "image.elf")
    text = os.path.join(os.path.dirname(image), "whole.cyc")
    with open(text, "w", encoding="latin-1") as file:
        file.write(whole(os.path.join(suite.ROOT, lines[0][1])))
    made = suite.answer([program, "compile", text, "-o", image])
    if made != (b"", "done", 0):
        raise Wrong(suite.difference("compile", (b"", "done", 0), made))
    run = Talk([program, "run", image], seconds)
    does = {"shows": run.is_shown, "given": run.give, "closes": lambda _: run.close(), "left": run.is_left, "ends": run.ended}
    try:
        for word, text in lines[1:]:
            does[word](text)
    finally:
        run.stop()


def faults_of(program, path, seconds):
    """Returns the differences between a program and its dialog."""
    with tempfile.TemporaryDirectory() as folder:
        try:
            talk(program, path, folder, seconds)
        except Wrong as wrong:
            return [str(wrong)]
        except (OSError, KeyError, ValueError, subprocess.TimeoutExpired) as error:
            return [f"{type(error).__name__}: {error}"]
    return []


def main():
    parser = suite.command_line(__doc__)
    parser.add_argument("--seconds", type=float, default=SOON, help="so long is waited for what must come")
    parser.add_argument("dialogs", nargs="*", help="all, where none is named")
    options = parser.parse_args()
    paths = options.dialogs or sorted(os.path.join(FOLDER, name) for name in os.listdir(FOLDER) if name.endswith(SUFFIX))
    program = suite.program_of(options, len(paths))
    suite.try_each(paths, os.path.basename, lambda path: faults_of(program, path, options.seconds))


if __name__ == "__main__":
    main()

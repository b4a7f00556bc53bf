#!/usr/bin/env python3
"""Runs and lists images with streams that fail or end in the middle.

    python3 tests/runners/failing.py [--program PATH] [--one-store]

An image that prints what it reads is run on an input that supplies some bytes and then an error: a socket whose other end was closed with
unread bytes. It is also run on an output that accepts some bytes and then no more: a file with a size limit. The bytes printed before the
failure are written, and the last line names the failed stream. The end of the input is permanent: a terminal is not read again after an end
of file. A listing fails at each of its bytes in turn, with all bytes before it written. Runs are over both stores, unless --one-store is
given. The last line is `N passed, M failed`.
"""
import os
import pty
import resource
import signal
import socket
import tempfile
import termios

import suite  # first: it makes the references and the generators importable
import run

# The machine words of an image that prints its input and returns 0, and of an image that requests two bytes and
# returns their sum.
ECHO = "24020001 0000000c 04400005 00402021 24020002 0000000c 1000fff9 00000000 24020003 24040000 0000000c"
SUM = "24020001 0000000c 00408021 24020001 0000000c 00502021 24020003 0000000c"
GIVEN = b"hi"
LISTED = b"00400000: 8fa80004 lw $8, 4($29)\n"


def image(folder, words):
    path = os.path.join(folder, "image.elf")
    with open(path, "wb") as file:
        file.write(run.image_of(words.split()))
    return path


def short(size):
    """Limits the size of a new process's files, so that a write beyond the limit fails and does not kill the process."""
    def begin():
        signal.signal(signal.SIGXFSZ, signal.SIG_IGN)
        resource.setrlimit(resource.RLIMIT_FSIZE, (size, size))
    return begin


def broken_socket(given):
    """Returns a stream that supplies these bytes and then an error: its other end is closed with an unread byte."""
    ours, theirs = socket.socketpair()
    ours.sendall(given)
    theirs.sendall(b"x")
    ours.close()
    return theirs


def ended(done, printed):
    return printed, suite.last_line(done.stderr), done.returncode


def reads(words, count):
    """Tests an input that fails after this many bytes."""
    with broken_socket(GIVEN[:count]) as stream:
        done = suite.run(words, stdin=stream.fileno())
    yield f"an input that fails after {count} bytes", (GIVEN[:count], "read fault", 8), ended(done, done.stdout)


def writes(words, given, size, wanted):
    """Tests an output that accepts this many bytes."""
    with tempfile.TemporaryFile() as output:
        done = suite.run(words, given, stdout=output.fileno(), preexec_fn=short(size))
        output.seek(0)
        got = ended(done, output.read())
    yield f"an output that takes {size} bytes", wanted, got


def end_stays(words):
    """Tests a terminal that gives an end of file, and then a line."""
    ours, theirs = pty.openpty()
    try:
        modes = termios.tcgetattr(theirs)
        modes[3] &= ~termios.ECHO
        termios.tcsetattr(theirs, termios.TCSANOW, modes)
        os.write(ours, b"\x04more\n")
        done = suite.run(words, stdin=theirs)
        yield "an input that goes on after its end", (b"", "returned -2", 254), ended(done, done.stdout)
    finally:
        os.close(ours)
        os.close(theirs)


def tried(program, folder, is_one):
    """Yields each test: its name, the expected result, and the actual one."""
    for options in ([],) if is_one else ([], *(["--store", store] for store in suite.STORES)):
        words = [program, "run", *options, image(folder, ECHO)]
        whole = suite.run(words, GIVEN)
        yield "nothing fails", (GIVEN, "returned 0", 0), ended(whole, whole.stdout)
        for count in range(len(GIVEN) + 1):
            yield from reads(words, count)
        for size in range(len(GIVEN)):
            yield from writes(words, GIVEN, size, (GIVEN[:size], "write fault", 8))
        yield from writes(words, GIVEN, len(GIVEN), (GIVEN, "returned 0", 0))
        yield from end_stays([program, "run", *options, image(folder, SUM)])
    words = [program, "disasm", image(folder, "8fa80004")]
    for size in range(len(LISTED)):
        yield from writes(words, b"", size, (LISTED[:size], "write fault", 8))
    yield from writes(words, b"", len(LISTED), (LISTED, "done", 0))


def main():
    parser = suite.command_line_of_runs(__doc__)
    options = parser.parse_args()
    count = len(LISTED) + 1 + (8 if options.one_store else 24)
    program = suite.program_of(options, count)
    with tempfile.TemporaryDirectory(prefix="cyclone-failing-") as folder:
        things = list(tried(program, folder, options.one_store))
        suite.try_each(things, lambda it: it[0], lambda it: [] if it[1] == it[2] else [suite.difference(it[0], it[1], it[2])])


if __name__ == "__main__":
    main()

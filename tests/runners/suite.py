"""The common part of the tests: the program and its stack limit, required commands, running commands with time limits and over both stores,
printing differences, and ending a test."""
import argparse
import contextlib
import json
import os
import resource
import shutil
import signal
import subprocess
import sys
import tempfile
import threading
import time

TESTS = os.path.dirname(os.path.dirname(os.path.abspath(__file__)))
ROOT = os.path.dirname(TESTS)
# A module that imports `suite` can also import the modules of the references, the generators and
# the tools.
sys.path += [os.path.join(TESTS, "references"), os.path.join(TESTS, "generators"), os.path.join(ROOT, "tools")]
from processes import family  # noqa: E402 it is in one of these folders
PROGRAM = os.path.join(ROOT, "crates", "cyclone", "out", "cyclone")
# The names of the two heap implementations between which `run` can choose.
STORES = ("plain", "pages")
# The limit of a command in processor seconds, and the factor for its limit in elapsed seconds: other work may occupy the
# processors meanwhile.
SECONDS, CLOCK = 60, 20
# The stack limit of each program under test, in MB of 2^20 bytes: half of a shell's default.
STACK = 4
# The file that lists the external commands that the tests run in addition to the program, with the
# Debian packages that contain them.
TOOLS = os.path.join(TESTS, "tools.txt")
# For each prefix of a module's name in tools.txt, as in tools.sh: the variable that names the folder of these modules, and the folder in
# Debian. The modules in tools.txt are modules of python3, JavaScript modules for web pages, and files that programs of 32 bits are
# linked with.
MODULES = {
    "python3-": ("MODULES", "/usr/lib/python3/dist-packages"), "libjs-": ("LIBRARIES", "/usr/share/javascript"),
    "lib32-": ("NARROW", "/usr/lib32"),
}
# A long value is printed by its first and last bytes; two different long values by the bytes around their first
# difference.
SHOWN = 400
ABOUT = 60


def shown(value):
    text = repr(value)
    return text if len(text) <= SHOWN else text[: SHOWN // 2] + " .. " + text[-SHOWN // 2:]


def last_line(error):
    """Returns the last line on standard error, without its line feed; empty if nothing was written."""
    if error and not error.endswith(b"\n"):
        return error.decode("latin-1") + " (and no line feed)"
    return error[:-1].split(b"\n")[-1].decode("latin-1")


class Watch:
    """A context in which a process is killed if it takes too long; `late` is set then. Wall-clock time alone kills no process."""

    def __init__(self, process, seconds=SECONDS):
        self.process, self.seconds, self.late, self.done = process, seconds, False, threading.Event()
        self.thread = threading.Thread(target=self.look, daemon=True)

    def look(self):
        end = time.monotonic() + CLOCK * self.seconds
        while not self.done.wait(min(1.0, self.seconds)):
            those = family(self.process.pid)
            if time.monotonic() > end or sum(those.values()) > self.seconds:
                self.late = self.process.poll() is None
                for pid in those if self.late else ():
                    with contextlib.suppress(ProcessLookupError):
                        os.kill(pid, signal.SIGKILL)
                return

    def __enter__(self):
        self.thread.start()
        return self

    def __exit__(self, *_):
        self.done.set()
        self.thread.join()


def run(words, given=b"", seconds=SECONDS, **options):
    """Runs a command to its end, as `subprocess.run` does, and captures its output. Raises `TimeoutExpired` if it takes too long."""
    streams = {"stdin": subprocess.PIPE, "stdout": subprocess.PIPE, "stderr": subprocess.PIPE}
    with subprocess.Popen(words, **{**streams, **options}) as process:
        with Watch(process, seconds) as watch:
            output, error = process.communicate(given if process.stdin else None)
        if watch.late:
            raise subprocess.TimeoutExpired(words, seconds, output, error)
        return subprocess.CompletedProcess(words, process.returncode, output, error)


def grown(seconds):
    """Returns a number of wall-clock seconds for a tool, extended by the load of the machine."""
    return seconds * max(1, round(os.getloadavg()[0]))


def answer(words, given=b""):
    """Returns the standard output, the last line on standard error, and the exit status."""
    done = run(words, given)
    return done.stdout, last_line(done.stderr), done.returncode


def said(words, given=b""):
    """Returns the lines on standard error."""
    return run(words, given).stderr.decode("latin-1").split("\n")[:-1]


def over_stores(program, words, given=b"", cwd=None):
    """Runs an image over each store. Returns the output, the last line, the status and the report with the count of instructions; None if
    nothing was run."""
    found = []
    with tempfile.TemporaryDirectory(prefix="cyclone-stores-") as folder:
        report = os.path.join(folder, "report.json")
        for store in STORES:
            if os.path.exists(report):
                os.remove(report)
            done = run([program, "run", *words, "--store", store, "--report", report], given, cwd=cwd)
            found.append((done.stdout, last_line(done.stderr), done.returncode, report_in(report)))
    return found


def report_in(path):
    """Returns the contents of a report, or None if there is none."""
    if not os.path.exists(path):
        return None
    with open(path, encoding="ascii") as file:
        return json.load(file)


def difference(what, wanted, got):
    """Returns the difference from the expected value, in words, with its position."""
    return f"{what}\n  wanted {shown(wanted)}\n  got    {shown(got)}{parting(wanted, got)}"


def parting(wanted, got):
    """Returns the part around the first difference of two values; empty if both values are short."""
    if isinstance(wanted, (tuple, list)) and type(wanted) is type(got):
        lengths = f"\n  {len(wanted)} parts, and {len(got)} in place of them" if len(wanted) != len(got) else ""
        return next((parting(one, other) for one, other in zip(wanted, got) if one != other), lengths)
    if not isinstance(wanted, (bytes, str)) or type(wanted) is not type(got) or max(len(wanted), len(got)) <= ABOUT:
        return ""
    at = len(os.path.commonprefix([wanted, got]))
    place, start = f"at {at}", max(0, at - ABOUT // 2)
    one, other = (value[start:start + ABOUT] for value in (wanted, got))
    return f"\n  {place} wanted {one!r}\n  {'':{len(place)}} got    {other!r}"


def command_line(doc):
    """Returns a parser of a test's command line, described by the first line of its docstring."""
    parser = argparse.ArgumentParser(description=doc.split("\n")[0])
    parser.add_argument("--program", default=PROGRAM)
    parser.add_argument("--stack", type=int, default=STACK, metavar="MB", help="a program that is not optimised needs more than 4")
    return parser


def command_line_of_runs(doc):
    """Returns a parser for a test that runs images over both stores."""
    parser = command_line(doc)
    parser.add_argument("--one-store", action="store_true", help="run images over the usual store alone")
    return parser


def packages():
    """Returns the commands that tests run in addition to the program, each with its Debian packages."""
    with open(TOOLS, encoding="ascii") as file:
        return dict(line.strip().split(" ", 1) for line in file if not line.startswith("#"))


def prefix_of(tool):
    """Returns the prefix of a module's name, or None for a command."""
    return next((prefix for prefix in MODULES if tool.startswith(prefix)), None)


def is_there(tool):
    """Returns true if a command is installed, or a module if the name has the prefix of one."""
    prefix = prefix_of(tool)
    if prefix is None:
        return shutil.which(tool) is not None
    variable, folder = MODULES[prefix]
    return os.path.exists(os.path.join(os.environ.get(variable, folder), tool.removeprefix(prefix)))


def kind_of(tool):
    return "command" if prefix_of(tool) is None else "module"


def need(tools, count):
    """Ends the test if one of these commands or modules is missing: all `count` failed."""
    missing = [tool for tool in tools if not is_there(tool)]
    for tool in missing:
        there = packages().get(tool)
        print(f"there is no {kind_of(tool)} {tool}" + (f": Debian has it in {there}" if there else ""))
    if missing:
        end(0, count)


def limit_stack(megabytes):
    """Limits the stack of every program that is run after this call. A program that needs more may request it."""
    _, most = resource.getrlimit(resource.RLIMIT_STACK)
    wanted = megabytes * 1024 * 1024
    stack = wanted if most == resource.RLIM_INFINITY else min(wanted, most)
    resource.setrlimit(resource.RLIMIT_STACK, (stack, most))


def program_of(options, count):
    """Returns the program's path, with the stack limited. If there is no program, the test ends, and all `count` failed."""
    program = os.path.abspath(options.program)
    if not os.access(program, os.X_OK):
        print(f"there is no program {program}: `make build` proves and builds it")
        end(0, count)
    limit_stack(options.stack)
    return program


def try_each(things, name_of, faults_of):
    """Tries the things one by one, prints the faults of those that fail, and ends the test."""
    failed = 0
    for thing in things:
        faults = faults_of(thing)
        if faults:
            failed += 1
            print(f"FAILED {name_of(thing)}")
            print("\n".join("  " + line for fault in faults for line in fault.split("\n")))
    end(len(things) - failed, failed)


def end(passed, failed, left_out=None):
    """Ends the test: prints the last line, which names excluded tools, and exits with a status that tells whether all passed. If nothing
    was tried, nothing passed."""
    print(f"{passed} passed, {failed} failed" + (f"; left out: {left_out}" if left_out else ""))
    sys.exit(0 if passed and not failed else 1)

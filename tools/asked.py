"""The queries that tools/page and tools/lsp make to the program: its path, its abilities, and its diagnostics on a text. Texts and images
are files in memory, which the program opens by /proc/self/fd: none of them is on a disk, however the process ends."""
import errno
import glob
import json
import os
import re
import shutil
import subprocess

HERE = os.path.dirname(os.path.realpath(__file__))
MISSING = "there is no program cyclone yet: `make install-unproved` builds one in some minutes, `make build` the proved one"
# The time limit, in seconds, for the program to report its abilities.
SECONDS = 60
# Command-line options that some versions of the program lack, each with the commands that accept the
# option if the program has it.
OPTIONS = {"json": ("check", "compile"), "places": ("compile", "run"), "report": ("run",), "peaks": ("run",), "with": ("check", "compile"),
    "at-most": ("disasm",)}
# The pattern of the program's last line, which reports how the command ended; its first words name
# the kind of end.
END = re.compile(
    r"(?P<end>done|fault|returned|uncaught|full|trap|budget spent|image fault|read fault|write fault|no memory|usage|not formatted)"
    r"(?: (?P<rest>.*))?")
# The members of a finding in a JSON report, with their types; some members may be null.
NUMBER, TEXT = (int,), (str,)
MEMBERS = {
    "kind": TEXT, "rule": TEXT, "code": (int, type(None)), "first": (bool,), "line": NUMBER, "column": NUMBER, "endLine": NUMBER,
    "endColumn": NUMBER, "message": TEXT, "detail": (str, type(None)), "hint": (str, type(None)), "edit": (dict, type(None)),
    "related": (list,),
}
# Sets the limits of processor time and memory, and runs the command under these limits. The soft limit of processor time ends the
# command by SIGXCPU, so a SIGKILL has another cause.
CONFINED = 'ulimit -c 0 && ulimit -S -t "$1" && ulimit -H -t "$(($1 + 1))" && { [ -z "$2" ] || ulimit -v "$2"; } && shift 2 && exec "$@"'


def program_of(name):
    """Returns the path of the program of this name; otherwise that of the program installed with the tool, or built by make build."""
    is_usual = name is None
    if is_usual:
        above, folder = os.path.split(os.path.dirname(HERE))
        installed, built = os.path.join(above, "bin", "cyclone"), os.path.join(above, folder, "crates", "cyclone", "out", "cyclone")
        name = installed if folder == "share" and os.path.isfile(installed) else built
    found = shutil.which(name)
    if found is None and is_usual and not os.path.exists(name):
        raise OSError(MISSING)
    if found is None:
        number = errno.EACCES if os.path.exists(name) else errno.ENOENT
        raise OSError(number, os.strerror(number), name)
    return os.path.abspath(found)


def said(program, *words):
    """Returns the output of the program."""
    done = subprocess.run([program, *words], stdin=subprocess.DEVNULL, capture_output=True, timeout=SECONDS)
    return done.stdout.decode("utf-8", "replace")


def abilities(program):
    """Returns the names of the options that the program has, and whether it formats programs."""
    helps = {command: said(program, command, "--help") for command in ("check", "compile", "run", "format", "disasm")}
    found = {option for option, commands in OPTIONS.items() if all(f"--{option}" in helps[it] for it in commands)}
    return found | ({"format"} if helps["format"] else set())


def library(can):
    """The words by which a text may use the library that lies beside the tool or in the repository; none if the program has no --with."""
    folders = (os.path.join(HERE, "lib"), os.path.join(os.path.dirname(HERE), "lib"))
    files = next((found for found in (sorted(glob.glob(os.path.join(it, "*.cyc"))) for it in folders) if found), [])
    return ["--with", *files] if "with" in can and files else []


def in_memory(content=b""):
    """Returns the descriptor of a file in memory with these contents, to be read from its beginning."""
    number = os.memfd_create("text")
    rest = memoryview(content)
    while rest:
        rest = rest[os.write(number, rest):]
    os.lseek(number, 0, os.SEEK_SET)
    return number


def name_of(number):
    """Returns the name under which a process that inherits the file opens it."""
    return f"/proc/self/fd/{number}"


def all_of(number, most):
    """Returns the contents of a file in memory, up to a number of bytes."""
    return os.pread(number, min(most, os.fstat(number).st_size), 0)


def confined(words, seconds, memory):
    """Returns a command under limits of processor time, in seconds, and of memory, in MB; None is no limit."""
    return ["/bin/sh", "-c", CONFINED, "sh", str(seconds), "" if memory is None else str(memory << 10), *words]


def last_line(text):
    """Returns the lines of the program's output before the last one, and the last line."""
    lines = text.decode("utf-8", "backslashreplace").rstrip("\n").split("\n")
    return lines[:-1], lines[-1]


def end_of(last):
    """Returns the result stated in the last line, and the words after it; "failed" if the line states no result."""
    found = END.fullmatch(last)
    return (found["end"], (found["rest"] or "").split()) if found else ("failed", [])


def findings_of(output):
    """Returns the faults and warnings printed by `--json`. Lines of other forms are skipped, since later versions may print more."""
    found = []
    for line in output.decode("utf-8", "replace").split("\n"):
        try:
            finding = json.loads(line)
        except (ValueError, RecursionError):
            continue
        if isinstance(finding, dict) and all(isinstance(finding.get(name), types) for name, types in MEMBERS.items()):
            found.append(finding)
    return found

"""The command line of cyclone-c."""
import argparse
import json
import os
import re
import shutil
import subprocess
import sys
import tempfile

from . import translate


STATUS = {"done": 0, "refused": 2, "usage": 9}
FAULT = re.compile(r"fault (\d+) at (\d+):\d+")
PLACED = re.compile(r"(?P<file>[^\n:]*\.cyc):(?P<line>\d+):(?P<column>\d+): (?P<rest>.*)")

# The codes of the refusals for regions: a region that is not live, a region that does not outlive another, and a region of a
# callee's effect that is not live.
REGIONS = (24, 25, 26)
BY_NAME = {"Null_Exception": "a null pointer is followed", "Array_bounds": "an access outside of its array",
           "Array_size": "an array of more than 1,000 words, or fewer than 0 elements", "Div_zero": "a division by 0"}


class Failure(Exception):
    """The command ends with these lines and this status."""

    def __init__(self, lines, status):
        super().__init__("\n".join(lines))
        self.lines = lines
        self.status = status


def parser():
    found = argparse.ArgumentParser(prog="cyclone-c", description="Translates C programs to the language of cyclone, and runs them.")
    found.add_argument("command", choices=["translate", "check", "compile", "exec"])
    found.add_argument("source")
    found.add_argument("arguments", nargs="*")
    found.add_argument("-o", "--output")
    found.add_argument("--places")
    found.add_argument("--program")
    found.add_argument("--heap", action="store_true")
    found.add_argument("--zero", action="store_true")
    found.add_argument("-I", dest="folders", action="append", default=[])
    found.add_argument("-D", dest="defines", action="append", default=[])
    found.add_argument("-q", "--quiet", action="store_true", help="no warnings")
    for name in ("calls", "pages", "steps"):
        found.add_argument(f"--{name}")
    return found


def program_of(options):
    """The compiler: the one that is named, the one beside this file, as the build leaves it, or that of the PATH."""
    if options.program:
        return options.program
    above, _ = os.path.split(os.path.dirname(os.path.dirname(os.path.realpath(__file__))))
    prefix = os.path.dirname(above) if os.path.basename(above) == "share" else above
    for path in (os.path.join(prefix, "bin", "cyclone"), os.path.join(above, "crates", "cyclone", "out", "cyclone")):
        if os.path.isfile(path) and os.access(path, os.X_OK):
            return path
    return shutil.which("cyclone") or "cyclone"


def say(lines):
    sys.stdout.flush()
    for line in lines:
        print(line, file=sys.stderr)
    sys.stderr.flush()


def told(refusal, kind=""):
    lines = [f"{refusal.place}: {kind}{refusal.message}"]
    if refusal.hint:
        lines.append(f"    hint: {refusal.hint}")
    return lines


def translated(options):
    """The translation of the file that is named; without one, a failure with what is refused."""
    try:
        with open(options.source, encoding="utf-8", errors="surrogateescape") as file:
            text = file.read()
    except OSError as error:
        raise Failure([f"cyclone-c: {options.source} cannot be read: {error.strerror}", "read fault"], 8) from error
    found = translate(text, options.source, heap=options.heap, zero=options.zero, folders=options.folders, defines=options.defines,
                      arguments=[options.source] + options.arguments, ask=asker(program_of(options)))
    if not options.quiet:
        for warning in found.warnings:
            say(told(warning, "warning: "))
    if found.refusals:
        raise Failure([line for refusal in found.refusals[:20] for line in told(refusal)] + ["refused"], STATUS["refused"])
    return found


def asker(program):
    """What `translate` asks of a translation: the line whose regions the checker refuses, or None."""
    def ask(text):
        try:
            done = run([program, "check", "--json", "-"], input=text)
        except OSError:
            return None
        said = [json.loads(line) for line in done.stdout.splitlines() if line.startswith("{")]
        return next((one["line"] for one in said if one.get("first") and one["code"] in REGIONS), None)
    return ask


def laid_out(found, program):
    """The text and its places in the layout of `cyclone format`, where there is such a program."""
    with tempfile.TemporaryDirectory() as folder:
        path = os.path.join(folder, "text.cyc")
        write(path, found.text)
        try:
            done = run([program, "format", path, "-o", path])
        except OSError:
            return found.text, found.places
        if done.returncode:
            return found.text, found.places
        with open(path, encoding="utf-8", errors="surrogateescape") as file:
            text = file.read()
    return text, found.places.laid_out(found.text, text)


def write(path, text):
    with open(path, "w", encoding="utf-8", errors="surrogateescape") as file:
        file.write(text)


def run(command, **more):
    return subprocess.run(command, capture_output=True, check=False, encoding="utf-8", errors="surrogateescape", **more)


def in_c(line, places):
    """A line of the compiler as its place in the C file, if it has one, and the rest; the line itself where it names no place."""
    match = PLACED.match(line)
    if not match:
        return line
    place = places.at(int(match["line"]))
    rest = match["rest"]
    for name, words in BY_NAME.items():
        rest = rest.replace(f"{name} thrown here", f"{words} ({name}), here")
    if place is None:
        return "", rest
    return f"{place[0]}:{place[1]}: ", rest


def refused_in_c(lines, text, places):
    """What the compiler says of a translation that it refuses, in places of C: also of the translation's own functions."""
    own = {}
    for line in lines:
        match = PLACED.match(line) or FAULT.match(line)
        number = int(match["line"] if "line" in match.groupdict() else match[2]) if match else 0
        if match and places.at(number) is None:
            own[number] = call_of(text, number, places)
    found = places.with_more(own)
    return all_in_c([fault_in_c(line, found) for line in lines], found)


def fault_in_c(line, places):
    match = FAULT.fullmatch(line)
    place = places.at(int(match[2])) if match else None
    return f"fault {match[1]} at {place[1]}:1" if place else line


def call_of(text, line, places):
    """The place of the first call that leads to the function of the translation's own in which a line stands."""
    lines = text.split("\n")
    work, seen = [line], set()
    while work:
        at = work.pop(0)
        head = next((n for n in range(at, 0, -1) if re.match(r"\w.*\{$", lines[n - 1])), None)
        name = re.search(r"(\w+)\(", lines[head - 1]) if head else None
        if name is None or name[1] in seen:
            continue
        seen.add(name[1])
        calls = [n for n, words in enumerate(lines, 1) if n != head and re.search(rf"\b{name[1]}\(", words)]
        placed = [places.at(n) for n in calls if places.at(n) is not None]
        if placed:
            return placed[0]
        work += calls
    return None


def all_in_c(lines, places):
    """Lines of the compiler in places of C; what the translation's own functions throw stands at the call that leads to them."""
    out, inside = [], None
    for line in lines:
        found = in_c(line, places)
        if isinstance(found, str):
            out.append(found)
            continue
        place, rest = found
        if not place:
            inside = inside or rest
            continue
        out.append(place + (inside or rest))
        inside = None
    return ([inside] if inside else []) + out


def compiled(options, folder):
    """The image of the program and the places of both; a failure says in places of C what the compiler refuses."""
    found = translated(options)
    program = program_of(options)
    text, places = laid_out(found, program)
    source = os.path.join(folder, "program.cyc")
    write(source, text)
    image = os.path.join(folder, "program.elf")
    machine_places = os.path.join(folder, "program.places")
    limits = [word for name in ("calls", "pages") if getattr(options, name) for word in (f"--{name}", getattr(options, name))]
    try:
        done = run([program, "compile", source, "-o", image, "--places", machine_places] + limits)
    except OSError as error:
        raise Failure([f"cyclone-c: {program} cannot be run: {error.strerror}", "usage"], STATUS["usage"]) from error
    if done.returncode:
        said = (done.stdout + done.stderr).splitlines()
        lines = refused_in_c([line for line in said if ": warning: " not in line and not line.startswith(" ")], text, places)
        raise Failure(["cyclone-c: the compiler refuses the translation:"] + lines, done.returncode)
    return image, machine_places, places


def do_translate(options):
    found = translated(options)
    text, places = laid_out(found, program_of(options))
    if options.output:
        write(options.output, text)
    else:
        sys.stdout.write(text)
    if options.places:
        write(options.places, places.text())
    say(["done"])
    return 0


def do_check(options):
    with tempfile.TemporaryDirectory() as folder:
        compiled(options, folder)
    say(["done"])
    return 0


def do_compile(options):
    if not options.output:
        raise Failure(["cyclone-c: compile needs -o IMAGE", "usage"], STATUS["usage"])
    with tempfile.TemporaryDirectory() as folder:
        image, machine_places, places = compiled(options, folder)
        shutil.copyfile(image, options.output)
        if options.places:
            write(options.places, places.text())
            shutil.copyfile(machine_places, options.places + ".machine")
    say(["done"])
    return 0


def do_exec(options):
    with tempfile.TemporaryDirectory() as folder:
        image, machine_places, places = compiled(options, folder)
        command = [program_of(options), "run", image, "--places", machine_places]
        for name in ("calls", "pages", "steps"):
            if getattr(options, name):
                command += [f"--{name}", getattr(options, name)]
        sys.stdout.flush()
        done = subprocess.run(command, stderr=subprocess.PIPE, check=False, encoding="utf-8", errors="surrogateescape")
        say(all_in_c(done.stderr.splitlines(), places))
        return done.returncode


def main(words):
    options = parser().parse_args(words)
    try:
        return {"translate": do_translate, "check": do_check, "compile": do_compile, "exec": do_exec}[options.command](options)
    except Failure as failure:
        say(failure.lines)
        return failure.status



#!/usr/bin/env python3
"""Tries cyclone-c: C programs against gcc, classic errors by their words and lines, and refusals by their places.

    tests/runners/translated.py --program PATH [--stack MB] [--only NAME]

The programs are tests/c/NAME.c, each run on NAME.in where there is one; gcc says at test time what they print and return, with -m32
where it can. Those of tests/c/errors say in their first line how they end: `ends: WORDS at LINE` a run, `refused:` and `warned:` a
translation. The cases of tests/c/refused.cases are refused. The last line is `N passed, M failed`.
"""
import argparse
import glob
import os
import re
import resource
import subprocess
import sys
import tempfile
import time

ROOT = os.path.dirname(os.path.dirname(os.path.dirname(os.path.abspath(__file__))))
sys.path.insert(0, os.path.join(ROOT, "tools"))
from c_front import translate  # noqa: E402
from c_front.command import asker, refused_in_c  # noqa: E402
from c_front.places import Places  # noqa: E402

FOLDER = os.path.join(ROOT, "tests", "c")
TOOL = os.path.join(ROOT, "tools", "c")
SAID = re.compile(r"/\* (ends|refused|warned): (.*) at (\d+) \*/")
LINES = 1000
# The C programs whose meaning changes if `long` has 64 bits or alignment is 64-bit.
NARROW = ("scanned.c", "wide.c", "wider.c", "unions.c", "offsets.c")


def run(command, given=b"", seconds=600):
    return subprocess.run(command, input=given, capture_output=True, timeout=seconds, check=False)


def read(path):
    with open(path, encoding="utf-8", errors="surrogateescape") as file:
        return file.read()


class Tests:
    """The tests, and how many passed."""

    def __init__(self, program, bits):
        self.program = program
        self.bits = bits
        self.passed = self.failed = 0

    def note(self, name, wrong):
        """Counts a test; `wrong` says what is wrong, if anything is."""
        self.passed += not wrong
        self.failed += bool(wrong)
        if wrong:
            print(f"{name}: {wrong}")

    def tool(self, command, path, given=b""):
        return run([sys.executable, TOOL, command, path, "--program", self.program], given)

    # Programs against gcc

    def same_as_gcc(self, path, folder):
        given = path[:-2] + ".in"
        data = open(given, "rb").read() if os.path.exists(given) else b""
        binary = os.path.join(folder, "binary")
        built = run(["gcc", *self.bits, "-w", "-std=gnu99", path, "-o", binary])
        if built.returncode:
            return "gcc does not compile it"
        wanted, found = run([binary], data), self.tool("exec", path, data)
        last = found.stderr.decode("latin-1").strip().split("\n")[-1]
        if found.stdout != wanted.stdout:
            return f"prints {found.stdout[:200]!r} and gcc's {wanted.stdout[:200]!r}; {last}"
        if wanted.returncode < 0:
            return "" if last.startswith("uncaught") else f"ends with {last}, and gcc's by a signal"
        good = last.startswith("returned") and found.returncode == wanted.returncode
        return "" if good else f"ends with {last}, and gcc's with {wanted.returncode}"

    # Errors

    def ends_so(self, path):
        kind, words, line = SAID.search(read(path)).groups()
        found = self.tool("exec" if kind == "ends" else "check", path)
        said = found.stderr.decode("utf-8", "replace")
        if kind != "warned" and not found.returncode:
            return "no error is told"
        for told in said.splitlines():
            if words in told and re.match(re.escape(path) + rf":{line}:", told):
                return ""
        return f"{words} at line {line} is not told: {said[:300]}"

    def refused_so(self, text):
        _, words, line = SAID.search(text).groups()
        found = translate(text, "case.c")
        if found.text is not None:
            return "it is not refused"
        first = found.refusals[0]
        if words not in first.message or str(first.place.line) != line:
            return f"{words} at {line} is told as: {first.place}: {first.message}"
        return ""

    # The checks of properties that the translation of every C program must have, such as the layout
    # of `cyclone format`.

    def is_laid_out(self, path, folder):
        """The text is in the layout of `cyclone format`, and each place is a line of the C file."""
        out, places = os.path.join(folder, "out.cyc"), os.path.join(folder, "out.places")
        done = run([sys.executable, TOOL, "translate", path, "-o", out, "--places", places, "--program", self.program])
        if done.returncode:
            return "it is not translated"
        again = run([self.program, "format", out])
        if again.stdout.decode("latin-1") not in (read(out), read(out) + "done\n"):
            return "its layout is not that of cyclone format"
        lines = read(path).count("\n") + 1
        known = [p for p in Places.read(read(places)).lines if p is not None]
        if len(known) < 5 or any(file == path and not 0 < line <= lines for file, line, _ in known):
            return "its places are not lines of the file"
        return ""

    @staticmethod
    def refusal_in_helper():
        """What the compiler refuses in a function of the translation's own is told at the call that leads to it."""
        source = "unsigned f(unsigned a)\n{\n  unsigned b = 3;\n  return a / b + 1;\n}\nint main(void) { return f(7) != 3; }\n"
        found = translate(source, "case.c")
        line = next(n for n, words in enumerate(found.text.split("\n"), 1) if "unsigned_quotient(int" in words) + 1
        told = refused_in_c([f"x.cyc:{line}:3: no such thing", f"fault 22 at {line}:3"], found.text, found.places)
        return "" if told == ["case.c:4: no such thing", "fault 22 at 4:1"] else f"it is told so: {told}"

    @staticmethod
    def mended():
        """The objects of a function whose regions are refused live in the heap, and no others; then all do."""
        body = "{\n  int a[2] = {1, 2};\n  return a[0];\n}\n"
        source = f"int f(void)\n{body}int g(void)\n{body}int main(void) {{ return f() + g(); }}\n"
        refused = []

        def ask(text):
            starts = [text.index(f"int {name}(void) {{") for name in "fg"]
            refused.append(["rnew" not in text[at:text.index("}\n", at)] for at in starts])
            return text.count("\n", 0, starts[0]) + 2
        found = translate(source, "case.c", ask=ask)
        good = refused == [[False, False], [True, False]] and "rnew" not in found.text
        return "" if good else f"in the heap are {refused}, and then:\n{found.text}"

    def is_asked(self):
        """The checker is asked for regions alone."""
        text = "int main() {\n  int *`H p = NULL;\n  {\n    int x = 1;\n    p = &x;\n  }\n  return 0;\n}\n"
        told = [asker(self.program)(it) for it in (text, "int main() {\n  return y;\n}\n", "int main() {\n  return 0;\n}\n")]
        return "" if told == [5, None, None] else f"it says {told}"

    def is_fast(self):
        """A program of a thousand lines takes at most one second of a processor."""
        body = "{\n  int i, s = 0;\n  for (i = 0; i < a; i++)\n    s += i * %d;\n  return s;\n}\n\n"
        text = "".join(f"int f{n}(int a)\n" + body % n for n in range(LINES // 8))
        before = time.process_time()
        found = translate(text + "int main(void) { return f3(4) == 18; }\n", "long.c")
        took = time.process_time() - before
        if found.text is None:
            return "it is refused"
        return "" if took < 1 else f"it takes {took:.2f} s"


def makes_32_bits(folder):
    """Whether gcc makes programs of 32 bits, whose numbers are those of the translation."""
    path = os.path.join(folder, "small.c")
    with open(path, "w", encoding="ascii") as file:
        file.write("#include <stdio.h>\nint main(void) { return puts(\"\") < 0; }\n")
    return run(["gcc", "-m32", path, "-o", os.path.join(folder, "small")]).returncode == 0


def cases(text):
    return [part.strip("\n") + "\n" for part in text.split("====\n")]


def main():
    parser = argparse.ArgumentParser(description=__doc__, formatter_class=argparse.RawDescriptionHelpFormatter)
    parser.add_argument("--program", default=os.path.join(ROOT, "crates", "cyclone", "out", "cyclone"))
    parser.add_argument("--stack", type=int)
    parser.add_argument("--only", default="")
    options = parser.parse_args()
    if options.stack:
        resource.setrlimit(resource.RLIMIT_STACK, (options.stack << 20, resource.getrlimit(resource.RLIMIT_STACK)[1]))
    with tempfile.TemporaryDirectory() as folder:
        narrow = makes_32_bits(folder)
        tests = Tests(os.path.abspath(options.program), ["-m32"] if narrow else [])
        for path in sorted(glob.glob(os.path.join(FOLDER, "*.c"))):
            if options.only in path and (narrow or os.path.basename(path) not in NARROW):
                tests.note(os.path.basename(path), tests.same_as_gcc(path, folder))
        for path in sorted(glob.glob(os.path.join(FOLDER, "errors", "*.c"))):
            if options.only in path:
                tests.note("errors/" + os.path.basename(path), tests.ends_so(path))
        for at, text in enumerate(cases(read(os.path.join(FOLDER, "refused.cases"))), 1):
            if options.only in "refused.cases":
                tests.note(f"refused.cases, {at}", tests.refused_so(text))
        for name in ("list", "states", "jumps"):
            if not options.only:
                tests.note(f"layout of {name}.c", tests.is_laid_out(os.path.join(FOLDER, name + ".c"), folder))
    if not options.only:
        tests.note("a refusal in a helper", tests.refusal_in_helper())
        tests.note("what is refused for its regions", tests.mended())
        tests.note("the checker", tests.is_asked())
        tests.note("a thousand lines", tests.is_fast())
    left_out = "" if narrow else f"; left out: {', '.join(NARROW)}, for which Debian's gcc-multilib is needed"
    print(f"{tests.passed} passed, {tests.failed} failed{left_out}")
    return 1 if tests.failed else 0


if __name__ == "__main__":
    sys.exit(main())

#!/usr/bin/env python3
"""Makes each allocation of the program fail in turn, and checks how the program ends.

    python3 tests/runners/refused.py [--program PATH] [--examples]

Each command is run once with all the memory that it needs. Then it is run once for each allocation, which tests/runners/refuse.c makes
fail. Either the program does without the memory, with the same result; or it prints `no memory` with status 8. In that case its output is a
prefix of the full output, and the file to be written has its former contents. One image is run over each of the two stores. With --examples
each example is compiled and run too, which takes some minutes. The last line is `N passed, M failed`; each command is one.
"""
import os
import subprocess
import sys
import tempfile

import run
import suite
from with_library import whole

HERE = os.path.dirname(os.path.abspath(__file__))
EXAMPLES = os.path.join(suite.ROOT, "examples")
SOURCE = """\
int most = 3;
int twice(int a) { return a + a; }
int main() {
  int i = 0;
  while (i < most && i != 5) { putchar(65 + i); i = i + 1; }
  if (i == 0) return twice(i) / 1; else { return twice(most) % 5; }
}
"""
# A program that contains nearly every form of declaration, statement and expression of the
# language.
WHOLE = """\
datatype exn { Bad(int); };
struct List<`r> { int head; struct List<`r> *`r tail; };
int *shared = NULL;
int sum(struct List<`r> *`r l; {`r}) { int s = 0; while (l) { s = s + l->head; l = l->tail; } return s; }
int main() {
  let NewDynamicRegion { <`k> key } = new_ukey();
  int @`U u = rnew(unique_region) 1;
  region<`a> h;
  struct List<`a> *`a l = rnew(h) List<`a>{1, NULL};
  { let alias <`b> int @`b v = u; *v = 2; }
  { region<`k> g = open(key); int ?`k p = rnew(g) {for i < 3 : i}; l->head = p[1] + numelts(p); }
  try { if (sum(l) == 4) throw new Bad(7); } catch { case &Bad(n): putchar(n); default: ; }
  shared = new 5;
  ufree(u);
  free_ukey(key);
  return *shared;
}
"""
# Two programs that are rejected with an explanation: in one, a region does not outlive another; in the other, a
# variable was moved.
SHORTER = WHOLE.replace("shared = new 5;", "shared = &l->head;")
MOVED = WHOLE.replace("free_ukey(key);", "ufree(u);")
# An image that does the following 40 times: allocate a block of 1,000 words, write its last word, open and close a region, and
# print an A. After these 40 rounds, the test image returns 7.
STORE = """
24100028 24020009 24040001 240503e8 0000000c ac500f9c 24020007 0000000c 00402021 24020008
0000000c 24040041 24020002 0000000c 2610ffff 1e00fff1 00000000 24020003 24040007 0000000c
"""
# Test programs for output, for arrays and exceptions, for throws out of calls and regions, and for
# unique pointers.
PRINTS = "int main(){ putchar(72); return 7; }"
ARRAYS = """\
int main(){ int ?p = new {for i < 3 : 65 + i}; putchar(p[2]); int ?q = p + 5; putchar(48 + numelts(q));
try putchar(p[3]); catch { case &Array_bounds: putchar(33); } return numelts(p); }
"""
THROWS = """\
datatype exn { Out(int); };
int dig(int n){
if (n == 0) { region<`a> x; int @`a p = rnew(x) 1; region<`b> y; int @`b q = rnew(y) 2; region<`c> z; int @`c r = rnew(z) 3; throw new Out(*p + *q + *r); }
return dig(n - 1); }
int main(){ int i = 0; int s = 0;
while (i < 5000) { try s = s + dig(19); catch { case &Out(v): s = s + v; } i = i + 1; }
return s / 1000; }
"""
SWAPS = """\
int *`U g = NULL;
int main(){ int *`U u = rnew(unique_region) 7;
g :=: u; u :=: g;
int v = *u; ufree(u); return v; }
"""
TEXTS = {
    "main.cyc": SOURCE, "whole.cyc": WHOLE, "shorter.cyc": SHORTER, "moved.cyc": MOVED,
    "prints.cyc": PRINTS, "arrays.cyc": ARRAYS, "throws.cyc": THROWS, "swaps.cyc": SWAPS,
}
# An image with one segment, which returns 3 after five instructions.
SMALL = "24040001 10000002 24840002 24840004 24020003 0000000c"
# The limits, on heap pages and on nested calls, for a run of the program THROWS.
PAGES, CALLS = "8", "32"
OLD = b"what was there"
# The last line and the exit status of a command when memory runs out.
WANTING = "no memory", 8
# The maximum number of faults printed for each command.
SHOWN = 3


def write(path, content):
    with open(path, "wb") as file:
        file.write(content)


def read(path):
    with open(path, "rb") as file:
        return file.read()


def commands(program, folder):
    """Yields the words of each command, and the file that it writes."""
    path = lambda name: os.path.join(folder, name)
    for name, text in TEXTS.items():
        write(path(name), text.encode("ascii"))
    write(path("store.elf"), run.image_of(STORE.split()))
    write(path("small.elf"), run.image_of(SMALL.split()))
    for name in ("main", "throws"):
        subprocess.run([program, "compile", path(f"{name}.cyc"), "-o", path(f"{name}.elf")], check=True, capture_output=True)
    limits = ["--pages", PAGES, "--calls", CALLS]
    checked = [[program, "check", path(name)] for name in ("main.cyc", "whole.cyc", "shorter.cyc", "moved.cyc")]
    run_or_listed = [
        [program, "run", path("main.elf")],
        [program, "run", path("store.elf")],
        *([program, "run", path("throws.elf"), *limits, "--store", store] for store in suite.STORES),
        [program, "disasm", path("main.elf")],
        [program, "disasm", path("small.elf")],
        [program, "explain", "22"],
    ]
    yield from ((words, None) for words in checked + run_or_listed)
    for name in ("main", "prints", "arrays", "throws", "swaps"):
        yield compiled(program, path(f"{name}.cyc"), path("new.elf"))


def compiled(program, source, image):
    return [program, "compile", source, "-o", image], image


def commands_of_examples(program, folder):
    """Returns commands that compile the examples with an expected output, and run them on empty input."""
    for name in sorted(name[:-4] for name in os.listdir(EXAMPLES) if name.endswith(".out")):
        source, image = os.path.join(folder, f"{name}.cyc"), os.path.join(folder, f"{name}.elf")
        with open(source, "w", encoding="latin-1") as file:
            file.write(whole(os.path.join(EXAMPLES, f"{name}.cyc")))
        subprocess.run([program, "compile", source, "-o", image], check=True, capture_output=True)
        yield compiled(program, source, os.path.join(folder, "new.elf"))
        yield [program, "run", image, "--steps", "10000"], None


class Refusals:
    """A command, run with at most one failing allocation."""

    def __init__(self, library, folder, words, written):
        self.library, self.words, self.written = library, words, written
        self.count_file = os.path.join(folder, "count")
        self.whole = self.outcome(0)
        self.count = int(read(self.count_file))

    def outcome(self, number):
        """Returns the output, the last line, the status, and the contents of the written file."""
        if self.written:
            write(self.written, OLD)
        environment = {"LD_PRELOAD": self.library, "REFUSE_AT": str(number), "REFUSE_COUNT": self.count_file}
        done = suite.run(self.words, env=environment)
        content = read(self.written) if self.written and os.path.exists(self.written) else None
        return done.stdout, suite.last_line(done.stderr), done.returncode, content

    def name(self):
        return f"{' '.join(map(os.path.basename, self.words))}: {self.count} allocations"

    def is_fair(self, outcome):
        """Returns true if this outcome is allowed when an allocation fails."""
        output, line, status, content = outcome
        gives_up = (line, status) == WANTING and self.whole[0].startswith(output)
        return outcome == self.whole or (gives_up and content == (OLD if self.written else None))

    def faults(self):
        found = []
        for number in range(1, self.count + 1):
            got = self.outcome(number)
            if not self.is_fair(got):
                found.append(suite.difference(f"allocation {number} refused: output, last line, status and file", self.whole, got))
        return found[:SHOWN] if self.count else ["no allocation was seen"]


def main():
    parser = suite.command_line(__doc__)
    parser.add_argument("--examples", action="store_true")
    options = parser.parse_args()
    program = suite.program_of(options, 15)
    suite.need(["cc"], 15)
    with tempfile.TemporaryDirectory(prefix="cyclone-refused-") as folder:
        library = os.path.join(folder, "refuse.so")
        subprocess.run(["cc", "-shared", "-fPIC", "-O1", "-o", library, os.path.join(HERE, "refuse.c")], check=True)
        tried = list(commands(program, folder))
        if options.examples:
            tried += commands_of_examples(program, folder)
        suite.try_each([Refusals(library, folder, *command) for command in tried], Refusals.name, Refusals.faults)


if __name__ == "__main__":
    sys.exit(main())

#!/usr/bin/env python3
"""Has tools/judge judge the submissions in tests/judged, files that are none, a machine that fails, and a class of many by GNU parallel.

    python3 tests/runners/judged.py [--program PATH] [--count N]

The submissions are the programs in tests/judged/submissions, the images of images.txt, and an image that carries limits of 3
pages and 1 call; verdicts.txt has the verdict on each with the inputs in tests/judged/lines. C programs are judged at their own lines. Of N
submissions, 2,000 by default, that parallel judges by the lines that docs/cyclone-judge.1 shows, and that are stopped twice and resumed,
each is judged once and keeps its verdict, whatever its path. The last line is `N passed, M failed`, of submissions and of the other things
that are tried.
"""
import json
import os
import re
import shutil
import signal
import subprocess
import tempfile
import time

import sessions
import suite
from hostile_c import BOMB, READS

JUDGE = os.path.join(suite.ROOT, "tools", "judge")
MANUAL = os.path.join(suite.ROOT, "docs", "cyclone-judge.1")
HERE = os.path.join(suite.TESTS, "judged")
INPUTS = os.path.join(HERE, "lines")
# The time limit, in seconds, for a process that must end by itself.
LONG = suite.CLOCK * suite.SECONDS
LIMITS = ["--steps", "300000", "--output", "5000", "--calls", "200", "--pages", "16", "--seconds", str(LONG)]
COUNT = 2000
# A stand-in for the program; it makes an image of any source text. When run, the stand-in prints its limits, follows a script in
# the image, or reports the image.
STAND_IN = """#!/bin/sh
case "$1" in
compile) cp "$2" "$4"; echo done >&2;;
*) while [ "$1" != --report ]; do shift; done
if grep -q '^sleep ' image.elf; then exec sh image.elf "$2"
elif [ -s image.elf ]; then cat image.elf > "$2"; else ulimit -v; ulimit -S -t; ulimit -H -t; echo 'REPORT' > "$2"; fi
echo returned 0 >&2;;
esac
"""
# Scripts for the stand-in: one that sleeps as on a busy machine, and one that ends as if memory ran
# out.
WAITS = "sleep {}\necho 'REPORT' > \"$1\"\necho returned 0 >&2\n"
NO_MEMORY = b"sleep 0\necho no memory >&2\nexit 8\n"
# A complete report of a run, and texts that the judge must not accept as reports.
REPORT = (
    '{"end":"returned","value":0,"exception":null,"cause":null,"image_fault":null,"limit":null,"instructions":1,"counter":0,'
    '"most_calls":null,"most_pages":null,"read":0,"written":0}')
NO_REPORTS = [
    "no JSON", "[]", "{}", "returned", "null", '{"end":"returned","value":0}', REPORT.replace('"returned"', '["returned"]'),
    REPORT.replace("returned", "right"), REPORT.replace("returned", "done"), REPORT[:-1], "[" * 9000, "9" * 9000, "\udcff",
]
NUMBERS = [
    ("--seconds", "nan"), ("--seconds", "inf"), ("--seconds", "-1"), ("--seconds", "x"), ("--cpu", "0"), ("--cpu", "x"),
    ("--memory", "1.5"), ("--memory", "-1"), ("--output", "-1"), ("--output", "9" * 5000), ("-j", "0"), ("-j", "\udcff"),
]
ERROR = "a number from"
# The exit statuses of the judge for an internal fault, a wrong command line, and a submitted program that
# is not right.
INTERNAL, WRONGLY_ASKED, NOT_RIGHT = 75, 2, 3
STEPS = ["--steps", "1000000000000"]
# Two functions with one mistake each: the first mistake is at the 30th byte of the first line, the second at the 36th
# byte of the second line.
TWO_MISTAKES = b"int half(int total) { return totla / 2; }\nint main() { int count = 1; return coun + 1; }\n"
# A test program that frees a pointer at line 3, column 9, and uses the freed pointer at line 4,
# column 11.
USED_AFTER = b"int main() {\n  int @`U one = rnew(unique_region) 1;\n  ufree(one);\n  return *one;\n}\n"
# A test program that throws an exception while 40 calls of `deeper` and one call of `start` are
# active.
THROWN = b"""datatype exn { Other; Failed(int); };
int deeper(int n) {
  if (n == 0) throw new Failed(-7);
  return deeper(n - 1) + 1;
}
int start() { return deeper(40); }
int main() {
  int byte = getchar();
  if (byte == 'n') { int *p = NULL; return *p; }
  return start();
}
"""


def verdict_on(words, status=0):
    """The JSON that the judge prints, with nothing on standard error and this exit status."""
    done = suite.run([JUDGE, *words], stdin=subprocess.DEVNULL)
    if (done.returncode, done.stderr) != (status, b""):
        raise AssertionError(suite.difference("status and standard error", (status, b""), (done.returncode, done.stderr)))
    return json.loads(done.stdout)


def said_of(verdict):
    """The verdicts on a submission, a line each: of a run with the place where it differs, or the exception."""
    compiled = verdict["compile"]
    if verdict["accepted"] is False:
        fault = compiled["fault"]
        return [f"fault {fault['code']} at {fault['line']}:{fault['column']}" if fault else compiled["verdict"]]
    return [line_of(run) for run in verdict["runs"]]


def line_of(run):
    differs = run["difference"]
    if differs:
        wanted, got = (json.dumps(differs[it]) for it in ("wanted", "got"))
        return f"{run['verdict']} at {differs['line']}:{differs['column']}, wanted {wanted}, got {got}"
    return " ".join([run["verdict"], *map(str, run["exception"] or [])])


def pinned():
    """The verdicts that each submission must have."""
    with open(os.path.join(HERE, "verdicts.txt"), encoding="ascii") as file:
        blocks = file.read().split("\n== ")[1:]
    return {lines[0]: lines[1:] for lines in (block.strip("\n").split("\n") for block in blocks)}


class Room:
    """A folder with the program, the judge and all submissions."""

    def __init__(self, folder, program):
        self.folder, self.program = folder, program
        self.submissions = self.path("submissions")
        shutil.copytree(os.path.join(HERE, "submissions"), self.submissions)
        with open(os.path.join(HERE, "images.txt"), encoding="ascii") as file:
            for name, digits in (line.split() for line in file if not line.startswith("#")):
                self.write(os.path.join("submissions", name), bytes.fromhex(digits))
        self.limited = os.path.join(self.submissions, "limited.elf")
        words = [program, "compile", os.path.join(self.submissions, "right.cyc"), "-o", self.limited, "--pages", "3", "--calls", "1"]
        subprocess.run(words, check=True, capture_output=True)
        self.empty, self.out = self.write("empty.cyc", b""), self.write("out", b"")
        self.stand_in = self.write("stand_in", STAND_IN.replace("REPORT", REPORT).encode())
        os.chmod(self.stand_in, 0o755)
        self.right = os.path.join(self.submissions, "right.cyc")
        self.loop = os.path.join(self.submissions, "loop.cyc")
        self.three, self.three_out = (os.path.join(INPUTS, f"three.{it}") for it in ("in", "out"))

    def path(self, name):
        return os.path.join(self.folder, name)

    def write(self, name, text):
        with open(self.path(name), "wb") as file:
            file.write(text)
        return self.path(name)

    def judge(self, *words, status=0):
        return verdict_on(["--program", self.program, *([] if "--seconds" in words else ["--seconds", str(LONG)]), *words], status)

    def by_stand_in(self, *words, status=0):
        return verdict_on(["--program", self.stand_in, *words], status)


# ---- what is tried


def try_submissions(room):
    """Each submission has its verdicts, one by one and side by side."""
    wanted = pinned()
    yield "the submissions", wanted.keys(), set(os.listdir(room.submissions))
    for name, lines in wanted.items():
        verdict = room.judge(*LIMITS, "--images", "-j", "3", "--tests", INPUTS, os.path.join(room.submissions, name))
        yield name, lines, said_of(verdict)
        yield f"the score of {name}", {"right": lines.count("right"), "of": 3}, verdict["score"]


def try_fields(room):
    """A refusal has its parts, a run what main returned, and an image no compiler."""
    fault = room.judge(os.path.join(room.submissions, "refused.cyc"))["compile"]["fault"]
    yield "a fault", [20, 17, 10], [fault[it] for it in ("code", "line", "column")]
    said = room.judge(os.path.join(room.submissions, "refused.cyc"))["compile"]["message"].split("\n")
    yield "the words of a fault", (True, True), (said[0].endswith(f":17:10: {fault['message']}"), said[-1] == f"    hint: {fault['hint']}")
    run = room.judge(os.path.join(room.submissions, "status.cyc"), os.path.join(INPUTS, "three.in"))["runs"][0]
    yield "a run", ["returned", 5, 5, "3\n", None], [run[it] for it in ("verdict", "value", "status", "output", "difference")]
    size = os.path.getsize(os.path.join(INPUTS, "three.in"))
    wanted = [None, None, None, None, None, size, 2]
    names = ("limit", "cause", "image_fault", "most_calls", "most_pages", "read", "written")
    yield "its figures", wanted, [run["figures"][it] for it in names]
    deep = room.judge("--calls", "20", "--peaks", os.path.join(room.submissions, "deep.cyc"))["runs"][0]
    yield "the figures of a full run", ["full", "calls", 20, 1], [
        deep["verdict"], *(deep["figures"][it] for it in ("limit", "most_calls", "most_pages"))]
    cut = room.judge("--images", os.path.join(room.submissions, "cut.elf"))["runs"][0]
    yield "the figures of no run", ["image fault", True, None], [
        cut["verdict"], cut["figures"]["image_fault"] is not None, cut["figures"]["instructions"]]
    stopped = room.judge("--cpu", "0.5", "--seconds", "50", *STEPS, room.loop)["runs"][0]
    yield "no figures of a run that is stopped", ("time", None), (stopped["verdict"], stopped["figures"])
    verdict = room.judge("--images", room.limited)
    got = [verdict["accepted"], verdict["compile"], verdict["runs"][0]["verdict"], verdict["score"]]
    yield "an image", [None, None, "returned", None], got
    bare = suite.answer([room.program, "run", room.limited])
    yield "the limits that the image has for itself", (b"", "full", 5), bare
    yield "an image under less", "full", room.judge("--images", "--calls", "1", room.limited)["runs"][0]["verdict"]
    bare = room.judge("--test", room.three, room.three_out, room.limited)
    yield "an image without the option", (False, [1, 1, 1], [], {"right": 0, "of": 1}), (
        bare["accepted"], [bare["compile"]["fault"][it] for it in ("code", "line", "column")], bare["runs"], bare["score"])


def try_faults(room):
    """The parts of a refusal are those of one mistake, also where there are two, or two places are meant."""
    verdict = room.judge(room.write("two.cyc", TWO_MISTAKES))["compile"]
    found = [verdict["fault"], *verdict.get("further", [])]
    yield "the places of two mistakes", [[20, 1, 30], [20, 2, 36]], [[it["code"], it["line"], it["column"]] for it in found]
    yield "the message of each", [["totla"], ["coun"]], [re.findall("totla|coun", it["message"]) for it in found]
    yield "the hint of each", [["total"], ["count"]], [re.findall("total|count", it["hint"]) for it in found]
    yield "the words of both", [True, True], [f":{it['line']}:{it['column']}: {it['message']}" in verdict["message"] for it in found]
    verdict = room.judge(room.write("used.cyc", USED_AFTER))["compile"]
    fault = verdict["fault"]
    yield "a use after a move", ([40, 4, 11], [(3, 9)], []), (
        [fault[it] for it in ("code", "line", "column")], [(it["line"], it["column"]) for it in fault["related"]], verdict["further"])
    yield "its message", True, f":4:11: {fault['message']}\n" in verdict["message"]


def try_ends(room):
    """An exception has its name, its place and its calls; so has a run without room for a call its place."""
    source = room.write("thrown.cyc", THROWN)
    run = room.judge(source)["runs"][0]
    calls = [{"line": 4, "column": 10, "function": "deeper"}] * 32
    yield "an exception", ("uncaught", [6, -7]), (run["verdict"], run["exception"])
    yield "its place", ("Failed", 3, 15, "deeper"), tuple(run["where"][it] for it in ("name", "line", "column", "function"))
    yield "its calls", (calls, 10), (run["where"]["calls"], run["where"]["more"])
    run = room.judge(source, room.write("n", b"n"))["runs"][0]
    wanted = {"name": "Null_Exception", "line": 9, "column": 45, "function": "main", "calls": [], "more": 0}
    yield "a null pointer", ([1, 0], wanted), (run["exception"], run["where"])
    run = room.judge("--calls", "3", source)["runs"][0]
    yield "a call without room", ("full", None, 4, 10), (run["verdict"], *(run["where"][it] for it in ("name", "line", "column")))
    yield "no place of a run that returns", None, room.judge(room.right)["runs"][0]["where"]
    yield "no place in an image", None, room.judge("--images", os.path.join(room.submissions, "trap.elf"))["runs"][0]["where"]


# A C program that counts the line ends of its input. The tests also run a copy whose count is wrong
# by one.
COUNTS_IN_C = b"""#include <stdio.h>
int main(void)
{
    int lines = 0, c;
    while ((c = getchar()) != EOF)
        lines += c == '\\n';
    printf("%d\\n", lines);
    return 0;
}
"""
SAID_IN_C = re.compile(r"/\* (ends|refused|warned): (.*) at (\d+) \*/")


def try_c(room):
    """A C program is judged as it is written, at its own lines, and reads no file of the grader's machine."""
    for name, text, wanted in (
            ("counts.c", COUNTS_IN_C, ["right"] * 3), ("more.c", COUNTS_IN_C.replace(b"lines = 0", b"lines = 1"), ["wrong"] * 3)):
        verdict = room.judge("--tests", INPUTS, room.write(name, text))
        yield f"the runs of {name}", wanted, [run["verdict"] for run in verdict["runs"]]
        yield f"the score of {name}", {"right": wanted.count("right"), "of": 3}, verdict["score"]
    done = suite.run([JUDGE, "--program", room.program, "--table", "--tests", INPUTS, room.path("counts.c")], stdin=subprocess.DEVNULL)
    yield "the table", (0, True), (done.returncode, b"counts.c: accepted, 3 of 3 right\n" in done.stdout)
    errors = os.path.join(suite.TESTS, "c", "errors")
    for name in sorted(os.listdir(errors)):
        yield from try_error_in_c(room, os.path.join(errors, name))
    run = room.judge("--cpu", "1", *STEPS, room.write("loop.c", b"int main(void) { for (;;) ; return 0; }\n"))["runs"][0]
    yield "a loop in C", "time", run["verdict"]
    for number, (text, line) in enumerate(READS):
        verdict = room.judge(room.write(f"reads{number}.c", text + b"int main(void) { return 0; }\n"))["compile"]
        got = verdict["verdict"], verdict["fault"] and verdict["fault"]["line"], "root:" in json.dumps(verdict)
        yield f"a C program that reads by {text.decode()!r}", ("fault", line, False), got
    verdict = room.judge("--cpu", "1", "--seconds", "300", room.write("bomb.c", BOMB))["compile"]
    yield "a macro that grows", True, verdict["verdict"] in ("time", "fault", "no memory") and verdict["memory"] < 1100 << 20
    os.symlink(room.path("counts.c"), room.path("link.c"))
    yield "a link to a C program", "failed", room.judge(room.path("link.c"), status=WRONGLY_ASKED)["compile"]["verdict"]
    alone = shutil.copy(JUDGE, room.path("alone"))
    done = suite.run([alone, "--program", room.program, room.path("counts.c")], stdin=subprocess.DEVNULL)
    yield "a judge without the translator", (INTERNAL, "internal"), (done.returncode, json.loads(done.stdout)["compile"]["verdict"])


def try_error_in_c(room, path):
    """A classic error of C is told at its line, which the first line of the file has."""
    with open(path, encoding="ascii") as file:
        kind, words, line = SAID_IN_C.search(file.readline()).groups()
    verdict = room.judge(path)
    name = os.path.basename(path)
    if kind == "ends":
        run = verdict["runs"][0]
        got = "no room for this call" if run["verdict"] == "full" else run["where"]["name"], run["where"]["line"]
    else:
        found = verdict["compile"]["warnings"][0] if kind == "warned" else verdict["compile"]["fault"]
        got = words if words in found["message"] else found["message"], found["line"]
    yield f"{name}, told at its line", (words, int(line)), got


def try_table(room):
    """The table says what the object does, without a byte that steers a terminal, and the status whether all is right."""
    odd = os.path.join(room.folder, "\x1b[2J\u202e.cyc")
    shutil.copy(os.path.join(room.submissions, "status.cyc"), odd)
    words = [JUDGE, "--program", room.program, "--table"]
    done = subprocess.run([*words, "--tests", INPUTS, odd], capture_output=True, timeout=suite.SECONDS)
    lines = done.stdout.decode("utf-8").split("\n")
    yield "a right table", (0, b"", ["right"] * 3), (done.returncode, done.stderr, [line.split()[0] for line in lines[1:-1]])
    yield "its head", ("\\x1b[2J\\u202e.cyc: accepted, 3 of 3 right", True), (os.path.basename(lines[0]), lines[0].startswith(room.folder))
    done = subprocess.run([*words, room.write("thrown.cyc", THROWN)], capture_output=True, timeout=suite.SECONDS)
    said = done.stdout.decode("utf-8").split("\n")
    wanted = ": Failed(-7), at 3:15 in deeper, called at 4:10 in deeper, "
    yield "a table of an exception", (NOT_RIGHT, True), (done.returncode, wanted in said[1])
    done = subprocess.run([*words, room.write("two.cyc", TWO_MISTAKES)], capture_output=True, timeout=suite.SECONDS)
    said = done.stdout.decode("utf-8").split("\n")
    yield "a table of a refusal", (NOT_RIGHT, "refused", True), (done.returncode, said[0].split(": ")[1], ":1:30: " in said[1])
    yield "a right program", {"right": 3, "of": 3}, room.judge("--all-right", "--tests", INPUTS, room.right)["score"]
    for name in ("one_digit.cyc", "refused.cyc", "throws.cyc"):
        verdict = room.judge("--all-right", "--tests", INPUTS, os.path.join(room.submissions, name), status=NOT_RIGHT)
        yield f"{name} is not all right", True, verdict["score"]["right"] < 3


def try_tokens(room):
    """Spaces mean nothing among tokens, and the first one that differs is told by its number."""
    verdict = room.judge("--tokens", "--tests", INPUTS, os.path.join(room.submissions, "spaces.cyc"))
    yield "spaces", ["right"] * 3, said_of(verdict)
    expected = room.write("expected", b"\n  12   13\n")
    verdict = room.judge("--tokens", room.right, "--test", os.path.join(INPUTS, "twelve.in"), expected)
    place = {"at": 3, "line": 2, "column": 1, "token": 2, "wanted": "13", "got": None}
    yield "a token that is missing", place, verdict["runs"][0]["difference"]
    prints = room.write("prints.cyc", b"int main() { putchar('1'); putchar(' '); putchar('2'); return 0; }")
    for text, wanted in (
            (b"1 2            3", ("wrong", 3)), (b"1 2             ", ("right", None)), (b"             1 2", ("right", None)),
            (b"1             23", ("wrong", 2))):
        run = room.judge("--tokens", "--output", "10", prints, "--test", room.out, room.write("expected", text))["runs"][0]
        yield f"{text} is longer than what may be printed", wanted, (run["verdict"], run["difference"] and run["difference"]["token"])


def try_clocks(room):
    """A loop is ended by its processor time, a run that waits for a processor is not, and each run has its caps."""
    for words in (["--seconds", "50", "--cpu", "1"], ["--seconds", "50", "--cpu", "0.5"]):
        run = room.judge(*words, *STEPS, room.loop)["runs"][0]
        yield f"a loop with {words}", ("time", True), (run["verdict"], 0.5 <= run["cpu"] < 3)
    run = room.by_stand_in(room.empty, "--memory", "100", "--cpu", "7")["runs"][0]
    yield "caps", ("returned", "102400\n7\n8\n"), (run["verdict"], run["output"])
    run = room.by_stand_in("--seconds", "3", waiting(room, 5))["runs"][0]
    yield "a run that waits for less than three times its time", ("returned", True, True), (
        run["verdict"], run["seconds"] >= 5, run["cpu"] < 3)
    run = room.by_stand_in("--seconds", "2", waiting(room, 50), status=INTERNAL)["runs"][0]
    yield "a run that waits for longer", ("internal", True, True), (run["verdict"], "busy" in run["error"], 6 <= run["seconds"] < 40)
    silent = room.path("silent")
    os.mkfifo(silent)
    descriptor = os.open(silent, os.O_RDWR)
    os.write(descriptor, b"x")
    run = room.by_stand_in("--seconds", "6", "--cpu", "50", room.write("waits", b"sleep 0\nexec cat\n"), silent)["runs"][0]
    os.close(descriptor)
    yield "a run on a pipe whose writer is silent", ("time", "x", True), (run["verdict"], run["output"], 6 <= run["seconds"] < 40)


def waiting(room, seconds):
    return room.write("waits", WAITS.format(seconds).replace("REPORT", REPORT).encode())


def try_figures(room):
    """Each outcome has its times and its peak of memory, in which the judge's own does not count."""
    great = room.path("great")
    with open(great, "wb") as file:
        file.truncate(200 << 20)
    verdict = room.judge("--tokens", room.right, "--test", room.out, great)
    for one in (verdict["compile"], verdict["runs"][0]):
        yield "the peak of memory", True, 1 << 20 < one["memory"] < 100 << 20
        yield "the times", True, 0 <= one["cpu"] < 30 and 0 < one["seconds"] < 30
    run = room.by_stand_in(waiting(room, "0\npython3 -c 'bytearray(64 << 20)'"))["runs"][0]
    yield "a peak of 64 MB", ("returned", True), (run["verdict"], 64 << 20 < run["memory"] < 128 << 20)
    stopped = room.judge("--cpu", "1", "--seconds", "50", *STEPS, room.loop)["runs"][0]
    yield "a run that is stopped", True, stopped["cpu"] > 0.9 and stopped["memory"] > 1 << 20
    unread = room.judge(room.path("none"), status=WRONGLY_ASKED)["compile"]
    yield "a program that is none", (0.0, 0.0, None), (unread["seconds"], unread["cpu"], unread["memory"])


def try_machine(room):
    """A machine that fails is no verdict on the program: the judge says `internal`, gives no score, and has a status of its own."""
    words = ["--test", room.three, room.three_out, room.right]
    disk = 'mount -t tmpfs -o size={}k none "$TMPDIR" && exec "$@"'
    for name, line in (
            ("a full disk", disk.format(4)), ("a disk without room for the places", disk.format(8)),
            ("a small stack", 'ulimit -s 1024; exec "$@"'), ("few descriptors", 'ulimit -n 8; exec "$@"')):
        verdict = internal_in(room, line, words)
        yield f"{name}", ("internal", None, None, []), (
            verdict["compile"]["verdict"], verdict["accepted"], verdict["score"], verdict["runs"])
        yield f"the error of {name}", True, bool(verdict["compile"]["error"])
    verdict = internal_in(room, disk.format(12), words)
    yield "a disk without room for the report", ("done", "internal", None), (
        verdict["compile"]["verdict"], verdict["runs"][0]["verdict"], verdict["score"])
    without = room.write("without", NO_MEMORY)
    yield "no memory under a limit", "no memory", room.by_stand_in("--memory", "1000", without)["runs"][0]["verdict"]
    yield "no memory without a limit", "internal", room.by_stand_in(without, status=INTERNAL)["runs"][0]["verdict"]
    verdict = internal_in(room, 'ulimit -s 1024; exec "$@"', ["--program", room.stand_in, "--memory", "1000", without])
    yield "no memory on a small stack", "internal", verdict["runs"][0]["verdict"]
    process = subprocess.Popen(
        [JUDGE, "--program", room.program, "--seconds", "50", *STEPS, room.loop, "--test", room.out, room.out],
        env={**os.environ, "TMPDIR": room.folder}, stdout=subprocess.PIPE)
    for number in wait_for(lambda: running_in(room.folder)):
        os.kill(int(number), signal.SIGKILL)
    verdict = json.loads(process.communicate(timeout=suite.SECONDS)[0])
    yield "a run that is killed", (INTERNAL, "internal", None), (process.returncode, verdict["runs"][0]["verdict"], verdict["score"])
    run = room.judge("--calls", "x", *words, status=WRONGLY_ASKED)["runs"][0]
    yield "a limit that is none", ("failed", True), (run["verdict"], "--calls" in run["error"])


def internal_in(room, line, words):
    """The verdict of a judge that a script starts in a namespace of its own, and that ends with the status of a fault of the machine."""
    folder = room.path("temporary")
    os.makedirs(folder, exist_ok=True)
    started = ["unshare", "--map-root-user", "--mount", "sh", "-c", line, "sh", JUDGE, "--program", room.program, *words]
    environment = {**os.environ, "TMPDIR": folder}
    done = subprocess.run(started, env=environment, stdin=subprocess.DEVNULL, capture_output=True, timeout=suite.SECONDS)
    if done.returncode != INTERNAL:
        raise AssertionError(suite.difference(f"the status of {line}", INTERNAL, (done.returncode, done.stdout, done.stderr)))
    return json.loads(done.stdout)


def wait_for(found):
    """The first value that is not empty of what is asked again and again."""
    end = time.monotonic() + suite.SECONDS
    while not (value := found()) and time.monotonic() < end:
        time.sleep(0.05)
    return value


def try_files(room):
    """A file that cannot be read has a verdict that says so, and the others have theirs. Names are of any bytes."""
    os.mkfifo(room.path("pipe"))
    three, out = os.path.join(INPUTS, "three.in"), os.path.join(INPUTS, "three.out")
    for name in (b"a\nb", b"\xff", b"-j"):
        for path in (room.path("odd"), room.path("odd.in")):
            os.makedirs(path, exist_ok=True)
        shutil.copy(room.right, os.path.join(os.fsencode(room.path("odd")), name))
        shutil.copy(three, os.path.join(os.fsencode(room.path("odd.in")), name))
    seconds = str(suite.grown(5))
    for name in ("none", "pipe", "odd"):
        verdict = room.judge("--seconds", seconds, room.right, room.path(name), "--test", three, out, status=2)
        error = verdict["runs"][0]["error"] or ""
        got = [verdict["runs"][0]["verdict"], error.startswith(room.path(name) + ": "), verdict["runs"][1]["verdict"]]
        yield f"an input that is {name}", ["failed", True, "right"], got
        verdict = room.judge("--seconds", seconds, room.right, "--test", three, room.path(name), status=2)
        yield f"an expected output that is {name}", ("failed", {"right": 0, "of": 1}), (verdict["runs"][0]["verdict"], verdict["score"])
        verdict = room.judge("--seconds", seconds, room.path(name), three, status=2)
        yield f"a source that is {name}", (False, "failed", []), (verdict["accepted"], verdict["compile"]["verdict"], verdict["runs"])
    os.symlink(room.right, room.path("link.cyc"))
    for name in ("link.cyc", "pipe"):
        start = time.monotonic()
        verdict = room.judge("--seconds", "50", room.path(name), "--test", three, out, status=2)
        yield f"a submission that is a {name}", ("failed", [], True), (
            verdict["compile"]["verdict"], verdict["runs"], time.monotonic() - start < 20)
    os.symlink(three, room.path("three.in"))
    verdict = room.judge(room.right, "--test", room.path("three.in"), out)
    yield "an input by a link", {"right": 1, "of": 1}, verdict["score"]
    yield "a folder of tests that is none", "failed", room.judge(room.right, "--tests", room.path("none"), status=2)["runs"][0]["verdict"]


def try_names(room):
    """A source and an input of any name are judged."""
    for name, shown in (("a\nb", "a\nb"), ("\udcff", "\\xff"), ("-j", "-j")):
        words = [JUDGE, "--program", room.program, "--line", "--", name, os.path.join("..", "odd.in", name)]
        done = suite.run(words, cwd=room.path("odd"), stdin=subprocess.DEVNULL)
        verdict = json.loads(done.stdout)
        run = verdict["runs"][0]
        yield f"the name {shown!r}", (shown, "../odd.in/" + shown, "3\n"), (verdict["source"], run["input"], run["output"])


def try_pipes(room):
    """An input that comes by a pipe is read."""
    line = f'printf "1\\n2\\n" | "{JUDGE}" --program "{room.program}" "{room.right}" /dev/stdin'
    done = suite.run(["sh", "-c", line])
    yield "an input by a pipe", "2\n", json.loads(done.stdout)["runs"][0]["output"]


def try_numbers(room):
    """A number that is none has a verdict for each input, and so has a report that is none, whatever the last line says."""
    for option, number in NUMBERS:
        verdict = room.judge(option, number, room.right, "one", "two", status=2)
        got = [(run["verdict"], ERROR in (run["error"] or "")) for run in verdict["runs"]]
        yield f"{option} {suite.shown(number)}", (False, [("failed", True)] * 2), (verdict["accepted"], got)
    for option in ("--calls", "--pages", "--steps"):
        run = room.judge(option, "x", room.right, status=WRONGLY_ASKED)["runs"][0]
        yield f"{option} x", ("failed", "usage"), (run["verdict"], run["last"])
    for text in NO_REPORTS:
        source = room.write("said.cyc", os.fsencode(text) + b"\n")
        run = room.by_stand_in(source, "--test", room.out, room.out, status=INTERNAL)["runs"][0]
        yield f"a report {text[:60]!r}", ("internal", "returned 0", None), (run["verdict"], run["last"], run["value"])


def try_order(room):
    """Runs side by side are printed in the order of their inputs."""
    names = []
    for number in range(12):
        names.append(room.write(f"input{number}", b"\n" * number))
    verdict = room.judge("-j", "4", room.right, *names)
    wanted = [(name, f"{number}\n") for number, name in enumerate(names)]
    yield "the order of runs", wanted, [(run["input"], run["output"]) for run in verdict["runs"]]


def try_output(room):
    """If the verdict cannot be written, the judge says so, and no more."""
    line = f'"{JUDGE}" --program "{room.program}" "{room.right}" > /dev/full'
    done = suite.run(["sh", "-c", line])
    yield "a full device", (1, b"judge: [Errno 28] No space left on device\n"), (done.returncode, done.stderr)


def try_signals(room):
    """Ended by a signal, the judge ends what runs, and leaves no folder."""
    for number in (signal.SIGTERM, signal.SIGHUP, signal.SIGINT):
        folder = room.path(f"ended{number}")
        os.mkdir(folder)
        words = [JUDGE, "--program", room.program, "-j", "2", *STEPS, "--seconds", "50", room.loop, *[room.empty] * 3]
        process = subprocess.Popen(
            words, env={**os.environ, "TMPDIR": folder}, stdout=subprocess.DEVNULL, stderr=subprocess.PIPE, preexec_fn=heed_hangup)
        wait_for(lambda: len(running_in(folder)) == 2)
        begun = len(running_in(folder))
        process.send_signal(number)
        _, said = process.communicate(timeout=LONG)
        got = begun, process.returncode, said, os.listdir(folder), running_in(folder)
        yield f"ended by {number.name}", (2, -number, b"", [], []), got


def heed_hangup():
    """Lets a program be ended by SIGHUP, also where the tests themselves run under nohup."""
    signal.signal(signal.SIGHUP, signal.SIG_DFL)


def running_in(folder):
    """The processes whose working folder lies below a folder, of those that run the image."""
    found = []
    for number in filter(str.isdigit, os.listdir("/proc")):
        try:
            with open(f"/proc/{number}/cmdline", "rb") as file:
                runs = b"\0run\0" in file.read()
            if runs and os.readlink(f"/proc/{number}/cwd").startswith(folder + os.sep):
                found.append(number)
        except OSError:
            continue
    return found


# ---- many submissions


def shown_lines():
    """The commands of the manual that list the submissions and have parallel judge them, each as a script."""
    with open(MANUAL, encoding="utf-8") as file:
        lines = [line for _, line in sessions.lines_of_manual(file.read()) if line is not None]
    text = "\n".join(lines).replace("\\\n> ", "\\\n")
    commands = [it for it in re.split(r"^\$ ", text, flags=re.M) if it]
    return [next(it for it in commands if it.startswith(first)) for first in ("find submissions ", "parallel ")]


# File names of submissions that differ only in one part of their paths, or that contain characters special to
# a shell.
NAMES = (
    "alice/main.cyc", "bob/main.cyc", "x" * 247 + ".cyc", "bob/" + "x" * 247 + ".cyc", "a b.cyc", "a\nb.cyc", "a\tb.cyc", "q'u\"o.cyc",
    "b\\s.cyc", "{}.cyc", "{= exit =}.cyc", "$(touch pwned).cyc", "-j.cyc", "*.cyc", "\udcff.cyc", "ö.cyc",
    "bob/stdout.cyc", "~.cyc", "#.cyc",
)


def make_class(room, name, count):
    """A folder with the judge, its tests, and so many submissions, each of which prints its own number; and the numbers by their paths."""
    folder = room.path(name)
    for name in ("bin", "submissions", "tests"):
        os.makedirs(os.path.join(folder, name))
    shutil.copy(JUDGE, os.path.join(folder, "bin", "cyclone-judge"))
    os.symlink(room.program, os.path.join(folder, "bin", "cyclone"))
    paths = [*NAMES[:count], *(f"number {number}/main.cyc" for number in range(len(NAMES), count))]
    for number, path in enumerate(paths):
        letters = "".join(f"putchar('{digit}'); " for digit in str(number))
        os.makedirs(os.path.dirname(os.path.join(folder, "submissions", path)), exist_ok=True)
        room.write(os.path.join(folder, "submissions", path), f"int main() {{ {letters}return 0; }}\n".encode())
    os.symlink("bob/main.cyc", os.path.join(folder, "submissions", "link.cyc"))
    os.mkfifo(os.path.join(folder, "submissions", "pipe.cyc"))
    room.write(os.path.join(folder, "tests", "it.out"), b"7")
    room.write(os.path.join(folder, "machines"), b":\n")
    return folder, {os.path.join("submissions", path): str(number) for number, path in enumerate(paths)}


def verdicts_in(folder):
    """The verdicts of a class, by the paths of the submissions."""
    root, found = os.path.join(folder, "verdicts"), {}
    for where, _, names in os.walk(root):
        if "stdout" in names:
            with open(os.path.join(where, "stdout"), encoding="ascii") as file:
                found[os.path.relpath(where, root)] = json.load(file)
    return found


def go_on(folder, script, until, signals):
    """Runs the script in the folder, until its log has so many lines: then parallel gets the signals. The script's status."""
    log = os.path.join(folder, "log")
    paths = os.path.join(folder, "bin") + os.pathsep + os.environ["PATH"]
    with open(os.path.join(folder, "said"), "ab") as said:
        process = subprocess.Popen(
            ["sh", "-c", script], cwd=folder, env={**os.environ, "PATH": paths}, stdin=subprocess.DEVNULL, stdout=said, stderr=said,
            start_new_session=True)
    while signals and process.poll() is None and len(lines_of(log)) < until:
        time.sleep(0.05)
    for number in signals:
        os.killpg(process.pid, number)
        time.sleep(0.1)
    status = process.wait()
    while is_group(process.pid):
        time.sleep(0.05)
    return status


def is_group(number):
    try:
        os.killpg(number, 0)
    except ProcessLookupError:
        return False
    return True


def lines_of(path):
    """The lines of a log of parallel's after its head."""
    if not os.path.exists(path):
        return []
    with open(path, encoding="utf-8", errors="surrogateescape") as file:
        return [line.rstrip("\n").split("\t") for line in file][1:]


def try_class(room, count):
    """A class is judged by the manual's lines, over a file of machines too; nothing is lost or done twice if it is stopped."""
    folder, numbers = make_class(room, "class", count)
    lists, script = shown_lines()
    over = script.replace("parallel ", "parallel --sshloginfile machines ")
    first = go_on(folder, lists + script, count // 4, [signal.SIGTERM])
    # A submission that arrives during the run has no effect, because the list of submissions is
    # fixed at the start.
    room.write(os.path.join(folder, "submissions", "!.cyc"), b"int main() { return 0; }")
    second = go_on(folder, script, count // 2, [signal.SIGTERM] * 2)
    before = len(lines_of(os.path.join(folder, "log")))
    yield "a class that is stopped", (True, True, True), (first != 0, second != 0, count // 2 <= before < count)
    yield "a class that is resumed", 0, go_on(folder, over, 0, [])
    done = [line for line in lines_of(os.path.join(folder, "log")) if line[6:8] == ["0", "0"]]
    yield "the log", list(range(1, count + 1)), sorted(int(line[0]) for line in done)
    verdicts = verdicts_in(folder)
    yield "the verdicts", sorted(numbers), sorted(verdicts)
    yield "their outputs", numbers, {path: verdict["runs"][0]["output"] for path, verdict in verdicts.items()}
    right = [numbers[path] for path, verdict in verdicts.items() if verdict["score"] == {"right": 1, "of": 1}]
    yield "the right ones", ["7"], right
    yield "no name is a command", False, os.path.exists(os.path.join(folder, "pwned"))


def try_resume(room):
    """A class that a machine with a small stack could not judge is judged again by a resume."""
    folder, numbers = make_class(room, "resumed", 9)
    lists, script = shown_lines()
    yield "a class on a machine that fails", True, go_on(folder, f"ulimit -s 1024\n{lists}{script}", 0, []) != 0
    statuses = [line[6] for line in lines_of(os.path.join(folder, "log"))]
    yield "its statuses", [str(INTERNAL)] * 9, statuses
    yield "its scores", [None] * 9, [verdict["score"] for verdict in verdicts_in(folder).values()]
    yield "the class again", 0, go_on(folder, script, 0, [])
    verdicts = verdicts_in(folder)
    yield "its verdicts", numbers, {path: verdict["runs"][0]["output"] for path, verdict in verdicts.items()}
    yield "its right ones", ["7"], [numbers[path] for path, verdict in verdicts.items() if verdict["score"]["right"]]


PARTS = (
    try_submissions, try_fields, try_faults, try_ends, try_c, try_table, try_tokens, try_clocks, try_figures, try_machine, try_files,
    try_names, try_pipes, try_numbers, try_order, try_output, try_signals, try_resume,
)


def main():
    parser = suite.command_line(__doc__)
    parser.add_argument("--count", type=int, default=COUNT, metavar="N")
    options = parser.parse_args()
    program = suite.program_of(options, len(pinned()))
    suite.need(["parallel", "python3-pycparser"], len(pinned()))
    passed, failed = 0, 0
    with tempfile.TemporaryDirectory(prefix="cyclone-judged-") as folder:
        room = Room(folder, program)
        for part in [*PARTS, lambda room: try_class(room, options.count)]:
            good, bad = tried(part, room)
            passed, failed = passed + good, failed + bad
    suite.end(passed, failed)


def tried(part, room):
    """How many things of a part are as they should be, and how many are not."""
    good, bad = 0, 0
    try:
        for name, wanted, got in part(room):
            good, bad = good + (wanted == got), bad + (wanted != got)
            if wanted != got:
                print(f"FAILED {suite.difference(name, wanted, got)}")
    except Exception as error:
        print(f"FAILED {part.__doc__ or part}: {type(error).__name__}: {error}")
        bad += 1
    return good, bad


if __name__ == "__main__":
    main()

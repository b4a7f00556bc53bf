#!/usr/bin/env python3
"""Runs C programs of Debian's source packages through cyclone-c, and compares output and status with gcc's.

    tests/runners/c_corpora.py --corpora FOLDER [options]

    --fetch          fetches the packages into the folder first, by apt-get from the Debian that the system knows
    --program PATH   cyclone
    --only NAME      A1, A2, B or C; all by default
    --part PART      seen: two thirds of the programs; aside: the others; all by default
    --match TEXT     only programs whose path has this text
    --jobs N         programs side by side, 2 where it is left out
    --stack MB       the stack of the program, 64 where it is left out
    --list FILE      adds a line for each program as it is done: corpus, outcome, why, its path; what stands there already is not run again

A1 are programs with loops and A2 those without, of tcc, cc65 and emscripten; B is gcc.c-torture/execute; C are tools of at most 500
lines, of which the functions are counted that are translated and compiled. A program counts where `gcc -m32` compiles it alone and it ends
within ten seconds, twice in the same way.

A program is equal, refused with the reason, or different: then tests/c/differences.txt has to say which undefined or
implementation-defined behaviour of C it has. The last line is `N equal of M, D different that are not listed`, of all that were run.
"""
import argparse
import collections
import glob
import hashlib
import json
import multiprocessing
import os
import re
import resource
import shutil
import signal
import subprocess
import sys
import tempfile

ROOT = os.path.dirname(os.path.dirname(os.path.dirname(os.path.abspath(__file__))))
sys.path.insert(0, os.path.join(ROOT, "tools"))
from c_front import translate  # noqa: E402

SOURCES = ["tcc", "cc65", "emscripten", "bsdgames", "9base", "toybox", "moreutils"]
TORTURE = "gcc-12*/gcc/testsuite/gcc.c-torture/execute/*.c"
A_PATHS = ["tcc/tests/tests2/*.c", "tcc/examples/*.c", "cc65*/test/val/*.c", "cc65*/test/misc/*.c", "cc65*/test/ref/*.c",
           "cc65*/samples/*.c", "emscripten*/tests/*.c", "emscripten*/tests/core/*.c", "emscripten*/tests/other/*.c",
           "emscripten*/tests/printf/*.c"]
C_PATHS = ["bsd*/**/*.c", "9base*/**/*.c", "toybox*/toys/**/*.c", "moreutils*/*.c"]
# The folders, relative to a tool, that may contain its headers; and the system's header folders, for
# declarations that the translator lacks.
BESIDE = [".", "..", "../include", "../..", "../../include", "../lib9"]
SYSTEM = ["/usr/include/x86_64-linux-gnu", "/usr/include"]
# The pattern that finds the `main` function of a translated C program, and the pattern of a
# function's head, for C programs that the translator rejects as a whole.
MAIN, HEAD = re.compile(r"\b\w*main\s*\("), re.compile(r"^(?:\{|\w[^;=\n]*\)[^;=\n]*\{)", re.M)
DIFFERENCES = os.path.join(ROOT, "tests", "c", "differences.txt")
SECONDS = 10
LOOP = re.compile(r"\b(for|while|do)\b")


def limit_stack(megabytes):
    hard = resource.getrlimit(resource.RLIMIT_STACK)[1]
    resource.setrlimit(resource.RLIMIT_STACK, (megabytes << 20, hard))


def aside(path):
    """Returns true if a program belongs to the third that is set aside, determined by a hash of its name."""
    return hashlib.sha256(os.path.basename(path).encode()).digest()[0] % 3 == 0


def run(command, seconds=SECONDS, **more):
    """What a command printed and its status; None where it takes more seconds of a processor, or twenty times as many on the clock."""
    def limit():
        resource.setrlimit(resource.RLIMIT_CPU, (seconds, seconds))
    try:
        done = subprocess.run(command, stdin=subprocess.DEVNULL, capture_output=True, timeout=20 * seconds, preexec_fn=limit, check=False,
                              **more)
    except subprocess.TimeoutExpired:
        return None
    return None if done.returncode in (-signal.SIGXCPU, -signal.SIGKILL) else (done.stdout, done.returncode, done.stderr)


def fetch(folder):
    """Fetches the packages by apt-get, which keeps its lists in the folder, and unpacks them; of gcc only the programs that are tried."""
    os.makedirs(os.path.join(folder, "lists", "partial"), exist_ok=True)
    release = re.search(r"VERSION_CODENAME=(\w+)", read("/etc/os-release"))[1]
    sources = os.path.join(folder, "sources.list")
    with open(sources, "w", encoding="ascii") as file:
        file.write("".join(f"{kind} [trusted=yes] http://deb.debian.org/debian {release} main\n" for kind in ("deb", "deb-src")))
    apt = ["apt-get", "-q", "-o", f"Dir::Etc::SourceList={sources}", "-o", "Dir::Etc::SourceParts=-",
           "-o", f"Dir::State::Lists={os.path.join(folder, 'lists')}"]
    subprocess.run(apt + ["update"], cwd=folder, check=True)
    for package in SOURCES:
        # The test does not need Debian's patches, and a mirror that is out of date may lack them.
        subprocess.run(apt + ["source", "--download-only", package], cwd=folder, check=False)
    subprocess.run(apt + ["download", "gcc-12-source"], cwd=folder, check=True)
    for archive in sorted(glob.glob(os.path.join(folder, "*.orig.tar.*"))):
        inside = os.path.join(folder, "tcc") if os.path.basename(archive).startswith("tcc_") else folder
        os.makedirs(inside, exist_ok=True)
        subprocess.run(["tar", "xf", archive, "-C", inside], check=True)
    for package in glob.glob(os.path.join(folder, "gcc-12-source*.deb")):
        subprocess.run(["dpkg-deb", "-x", package, folder], check=True)
    for archive in glob.glob(os.path.join(folder, "usr", "src", "gcc-12", "gcc-*.tar.*")):
        subprocess.run(["tar", "xf", archive, "-C", folder, "--wildcards", "*/gcc/testsuite/gcc.c-torture/execute/*"], check=True)
    for games in glob.glob(os.path.join(folder, "bsd-games-*", "")):
        # Writes the header that the package's configure script would write on a current system.
        with open(os.path.join(games, "include", "bsd-games.h"), "w", encoding="ascii") as file:
            file.write("#define HAVE_getloadavg 1\n#define HAVE_sig_t 1\n")
        for path in glob.glob(os.path.join(games, "**", "pathnames.h.in"), recursive=True):
            shutil.copyfile(path, path[:-len(".in")])
    for toybox in glob.glob(os.path.join(folder, "toybox-*", "")):
        # The headers of this package of C programs are generated by the package's own scripts.
        subprocess.run("make defconfig > made.log 2>&1; NOBUILD=1 scripts/make.sh >> made.log 2>&1", shell=True, cwd=toybox, check=False)


def by_gcc(path, folder):
    """Returns the output and the status of the program compiled by gcc. None if it does not compile or two runs differ."""
    binary = os.path.join(folder, "binary")
    built = run(["gcc", "-m32", "-w", "-std=gnu99", "-O0", "-I", os.path.dirname(path), path, "-o", binary, "-lm"], 30)
    if built is None or built[1]:
        return None
    first, second = (run(["program"], cwd=folder, executable=binary) for _ in range(2))
    if first is None or second is None or first[:2] != second[:2]:
        return None
    return first[0].decode("latin-1"), first[1]


def kept_answer(path, cache):
    """Returns gcc's result, cached in a file."""
    name = os.path.join(cache, hashlib.sha256(path.encode()).hexdigest()[:24])
    if os.path.exists(name):
        with open(name, encoding="utf-8") as file:
            return json.load(file)
    with tempfile.TemporaryDirectory() as folder:
        found = by_gcc(path, folder)
    with open(name, "w", encoding="utf-8") as file:
        json.dump(found, file)
    return found


def status_of(said, text):
    """Returns the exit status in C for a last line of cyclone; None if the run ended otherwise."""
    words = said.split()
    if words[:1] == ["returned"]:
        return int(words[1]) & 255
    if words[:1] == ["uncaught"] and int(words[1]) >= 5:
        names = re.findall(r"(\w+)(?:\(int\))?;", re.search(r"datatype exn \{(.*?)\}", text)[1])
        if names[int(words[1]) - 5].startswith("Aborted"):
            return -6
    return None


def one(job):
    """The outcome of a program: a word, and why."""
    path, options, cache = job
    wanted = kept_answer(path, cache)
    if wanted is None:
        return path, "skipped", "gcc"
    try:
        found = translate(read(path), path)
    except Exception as error:  # a defect of the translator is an outcome here
        return path, "fault", f"{type(error).__name__}: {error}"[:100]
    if found.refusals:
        return path, "refused", found.refusals[0].message
    with tempfile.TemporaryDirectory() as folder:
        outcome, why = compared(found.text, wanted, options.program, folder)
    if outcome == "different" and os.path.basename(path) in listed():
        outcome, why = "listed", listed()[os.path.basename(path)]
    return path, outcome, why


def listed():
    """The programs that are known to differ, each with the reason."""
    lines = [line.split(None, 1) for line in read(DIFFERENCES).splitlines() if line and not line.startswith("#")]
    return {name: reason for name, reason in lines}


def compared(text, wanted, program, folder):
    """How the run of a translation does beside gcc's program."""
    source, image = os.path.join(folder, "x.cyc"), os.path.join(folder, "x.elf")
    with open(source, "w", encoding="utf-8", errors="surrogateescape") as file:
        file.write(text)
    built = run([program, "compile", source, "-o", image], 60)
    if built is None or built[1]:
        said = (built[0] + built[2]).decode("latin-1") if built else "too slow"
        return compiler_refuses(said)
    ran = run([program, "run", image], 120)
    if ran is None:
        return "limit", "too slow"
    last = ran[2].decode("latin-1").strip().split("\n")[-1]
    printed = ran[0].decode("latin-1")
    if (printed, status_of(last, text)) == (wanted[0], wanted[1]):
        return "equal", ""
    if (last in ("full", "budget spent") or last.startswith("uncaught 3 ")) and wanted[0].startswith(printed):
        return "limit", last
    return "different", f"{last}, gcc {wanted[1]}" + ("" if printed == wanted[0] else ", another output")


def compiler_refuses(said):
    """The outcome where the compiler refuses a translation: a limit of texts and functions, or a defect of the translator."""
    first = next((line for line in said.splitlines() if ".cyc:" in line and "warning" not in line), said.strip().split("\n")[-1])
    large = re.search(r"^fault (6|12|13|51) ", said, re.M)
    return "limit" if large else "fault", re.sub(r".*\.cyc:\d+:\d+: ", "", first)[:100]


def programs(folder, name):
    """Returns the paths of a corpus."""
    if name == "B":
        return sorted(glob.glob(os.path.join(folder, TORTURE)))
    paths = sorted(p for pattern in A_PATHS for p in glob.glob(os.path.join(folder, pattern)))
    return [p for p in paths if bool(LOOP.search(read(p))) == (name == "A1")]


def read(path):
    with open(path, encoding="utf-8", errors="surrogateescape") as file:
        return file.read()


def functions(job):
    """How many functions of a tool are translated and compiled, of how many, and why the others are refused.

    A function that the compiler refuses is left out, and the others are tried again."""
    path, options, _ = job
    source = read(path)
    beside = [os.path.join(os.path.dirname(path), x) for x in BESIDE]
    refused, own_refused = {}, 0
    while True:
        try:
            found = translate(source, path, partial=True, folders=beside, after=SYSTEM, left_out=refused)
        except Exception as error:  # a defect of the translator is an outcome here
            return path, f"0/{len(HEAD.findall(source))}", f"{type(error).__name__}: {error}"[:100]
        own = {r.function.name for r in found.refusals if getattr(r, "function", None) is not None and r.function.place.file == path}
        reasons = [r.message for r in found.refusals if getattr(r, "function", None) is None or r.function.name in own]
        if found.text is None:
            return path, f"0/{len(HEAD.findall(source))}", "; ".join(reasons)
        said, place = refused_by_compiler(found, options.program)
        reasons += list(refused.values())
        if said is None:
            return path, f"{found.functions - len(own) - own_refused}/{found.functions}", "; ".join(reasons)
        if place is None or place[2] in refused or place[2] in ("", "set_up"):
            return path, f"0/{found.functions}", "; ".join(reasons + ["the whole file: " + said])
        refused[place[2]] = said
        own_refused += place[0] == path


def refused_by_compiler(found, program):
    """What the compiler says of a translation, and at which place of the C file; twice nothing where it compiles."""
    with tempfile.TemporaryDirectory() as folder:
        text = os.path.join(folder, "x.cyc")
        with open(text, "w", encoding="utf-8", errors="surrogateescape") as file:
            file.write(found.text)
        built = run([program, "compile", text, "-o", os.path.join(folder, "x.elf")], 60)
    if built is None:
        return "fault: too slow", None
    if not built[1]:
        return None, None
    said = (built[0] + built[2]).decode("latin-1")
    line = re.search(r"\.cyc:(\d+):\d+: (?!warning)", said)
    return "fault: " + compiler_refuses(said)[1], found.places.at(int(line[1])) if line else None


def tools(options):
    """The paths of the tools of at most 500 lines."""
    paths = sorted(p for pattern in C_PATHS for p in glob.glob(os.path.join(options.corpora, pattern), recursive=True))
    return [p for p in paths if read(p).count("\n") <= 500 and MAIN.search(read(p))]


def table(name, results):
    """Prints what came of a corpus: how many of each outcome, and the most frequent reasons."""
    counts = collections.Counter(outcome for outcome, _, _ in results)
    whys = [why for outcome, why, _ in results if outcome in ("refused", "limit")]
    if name == "C":
        whys = [part for _, why, _ in results for part in why.split("; ") if part]
        good, total = (sum(int(outcome.split("/")[at]) for outcome, _, _ in results) for at in (0, 1))
        print(f"C: {len(results)} tools, {good} of {total} functions are translated and compiled")
    else:
        print(f"{name}: {len(results)} programs:  " + "  ".join(f"{outcome} {count}" for outcome, count in counts.most_common()))
    for why, count in collections.Counter(re.sub(r"\b\w+\.h\b|'[^']*'|: .*|\d+", "..", why) for why in whys).most_common(25):
        print(f"  {count:4}  {why}")
    for outcome, why, path in results:
        if outcome in ("fault", "different", "listed"):
            print(f"  {outcome}: {os.path.basename(path)}: {why}")
    return counts


def done_before(path):
    """The lines of a list that is there: by corpus and path the outcome and why."""
    found = {}
    if path and os.path.exists(path):
        for line in read(path).splitlines():
            name, outcome, why, program = line.split("\t")
            found[name, program] = (outcome, why, program)
    return found


def corpus(name, options, cache):
    """The results of a corpus: (outcome, why, path); those that a list has already are taken from it."""
    before = done_before(options.list)
    paths = [p for p in (tools(options) if name == "C" else programs(options.corpora, name)) if options.match in p]
    paths = [p for p in paths if not options.part or aside(p) == (options.part == "aside")]
    results = [before[name, p] for p in paths if (name, p) in before]
    jobs = [(p, options, cache) for p in paths if (name, p) not in before]
    with multiprocessing.Pool(options.jobs) as pool:
        for path, outcome, why in pool.imap_unordered(functions if name == "C" else one, jobs):
            why = re.sub(r"\s+", " ", why)
            results.append((outcome, why, path))
            if options.list:
                with open(options.list, "a", encoding="utf-8", errors="surrogateescape") as file:
                    file.write(f"{name}\t{outcome}\t{why}\t{path}\n")
    return [r for r in sorted(results, key=lambda r: r[2]) if r[0] != "skipped"]


def main():
    parser = argparse.ArgumentParser(description=__doc__, formatter_class=argparse.RawDescriptionHelpFormatter)
    parser.add_argument("--corpora", required=True)
    parser.add_argument("--fetch", action="store_true")
    parser.add_argument("--program", default=os.path.join(ROOT, "crates", "cyclone", "out", "cyclone"))
    parser.add_argument("--only", choices=["A1", "A2", "B", "C"])
    parser.add_argument("--part", choices=["seen", "aside"])
    parser.add_argument("--match", default="")
    parser.add_argument("--jobs", type=int, default=2)
    parser.add_argument("--stack", type=int, default=64)
    parser.add_argument("--list")
    options = parser.parse_args()
    options.corpora, options.program = os.path.abspath(options.corpora), os.path.abspath(options.program)
    cache = os.path.join(options.corpora, "gcc-answers")
    os.makedirs(cache, exist_ok=True)
    if options.fetch:
        fetch(options.corpora)
    limit_stack(options.stack)
    total, counts = 0, collections.Counter()
    for name in [options.only] if options.only else ["A1", "A2", "B", "C"]:
        results = corpus(name, options, cache)
        found = table(name, results)
        if name != "C":
            total, counts = total + len(results), counts + found
    bad = counts["different"] + counts["fault"]
    print(f"{counts['equal']} equal of {total}, {bad} different that are not listed")
    return 1 if bad else 0


if __name__ == "__main__":
    sys.exit(main())

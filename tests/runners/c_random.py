#!/usr/bin/env python3
"""Runs random C programs of csmith through cyclone-c and compares each with gcc.

    tests/runners/c_random.py --program PATH [--count N] [--seed N] [--stack MB] [--jobs N] [--keep FOLDER] [--wide]

The programs are of the subset: no unions, no fractions, no numbers of 64 bits. With --wide they have those, and neither pointers nor
arrays, which such numbers are not in. csmith's header is replaced by one that says the same of 32
bits, with a sum of its own. gcc makes programs of 32 bits, as this translator does: it needs Debian's gcc-multilib. The last line is
`N passed, M failed`, and before it stands how many were refused, and why.
"""
import argparse
import collections
import multiprocessing
import os
import re
import resource
import subprocess
import sys
import tempfile

ROOT = os.path.dirname(os.path.dirname(os.path.dirname(os.path.abspath(__file__))))
sys.path.insert(0, os.path.join(ROOT, "tools"))
from c_front import translate  # noqa: E402

PROFILE = ["--no-unions", "--no-float", "--no-longlong", "--no-math64", "--no-packed-struct", "--no-argc", "--no-volatiles", "--concise",
           "--no-volatile-pointers", "--max-array-len-per-dim", "4", "--max-array-dim", "2", "--max-funcs", "5",
           "--max-expr-complexity", "6", "--max-block-size", "3", "--max-block-depth", "3"]
BITS = {"int8_t": (8, True), "int16_t": (16, True), "int32_t": (32, True),
        "uint8_t": (8, False), "uint16_t": (16, False), "uint32_t": (32, False), "int64_t": (64, True), "uint64_t": (64, False)}
WIDE = [word for word in PROFILE if word not in ("--no-longlong", "--no-math64")] + ["--no-pointers", "--no-arrays"]
START = """#include <stdint.h>
#include <stdio.h>
#include <string.h>
static uint32_t crc32_context = 2166136261u;
static void platform_main_begin(void) { }
static void crc32_gentab(void) { }
static void transparent_crc(NUMBER value, const char *name, int flag)
{
  crc32_context = (crc32_context ^ (uint32_t)value) * 16777619u;
  crc32_context = crc32_context ^ crc32_context >> 15 ^ (uint32_t)(value / 65536 / 65536);
}
static void platform_main_end(uint32_t sum, int flag) { printf("checksum = %X\\n", sum); }
"""


def safe_function(name):
    """Returns csmith's operation of this name, which has a value for all operands."""
    operation, type_ = re.fullmatch(r"safe_(\w+)_func_(u?int\d+_t)(?:_[su])+", name).groups()
    bits, signed = BITS[type_]
    end = "ll" if bits == 64 else ""
    least, most = (f"({-(1 << bits - 1) + 1}{end} - 1)", f"{(1 << bits - 1) - 1}{end}") if signed else ("0", f"{(1 << bits) - 1}u{end}")
    whole = max(bits, 32)
    if operation == "unary_minus":
        test = f"a == {least}" if signed and bits >= 32 else "0"
        return f"static {type_} {name}({type_} a) {{ return {test} ? a : -a; }}\n"
    if operation in ("lshift", "rshift"):
        count = "unsigned int" if name.endswith("_u") else "int"
        test = f"(b < 0 || b >= {whole})" if count == "int" else f"b >= {whole}"
        if signed:
            test = f"a < 0 || {test}" + (f" || a > ({most} >> b)" if operation == "lshift" else "")
        return f"static {type_} {name}({type_} a, {count} b) {{ return {test} ? a : a {'<<' if operation == 'lshift' else '>>'} b; }}\n"
    sign = {"add": "+", "sub": "-", "mul": "*", "div": "/", "mod": "%"}[operation]
    tests = {"add": f"(a > 0 && b > 0 && a > {most} - b) || (a < 0 && b < 0 && a < {least} - b)",
             "sub": f"(b < 0 && a > {most} + b) || (b > 0 && a < {least} + b)",
             "mul": f"(a > 0 && b > 0 && a > {most} / b) || (a > 0 && b <= 0 && b < {least} / a) || "
                    f"(a <= 0 && b > 0 && a < {least} / b) || (a <= 0 && b <= 0 && a != 0 && b < {most} / a)",
             "div": f"b == 0 || (a == {least} && b == -1)", "mod": f"b == 0 || (a == {least} && b == -1)"}
    test = tests[operation] if signed and bits >= 32 else "b == 0" if operation in ("div", "mod") else "0"
    cast = "(uint32_t)" if bits == 16 and not signed and operation == "mul" else ""
    return f"static {type_} {name}({type_} a, {type_} b) {{ return {test} ? a : {cast}a {sign} {cast}b; }}\n"


def program_text(seed, wide):
    """The text of a random program."""
    profile = WIDE if wide else PROFILE
    done = subprocess.run(["csmith", "--seed", str(seed)] + profile, capture_output=True, text=True, timeout=100, check=True)
    text = done.stdout
    names = sorted(set(re.findall(r"\bsafe_\w+_func_u?int\d+_t(?:_[su])+\b", text)))
    header = START.replace("NUMBER", "uint64_t" if wide else "uint32_t") + "".join(safe_function(name) for name in names)
    return text.replace('#include "csmith.h"', header, 1)


def one(job):
    """The outcome of one seed, and why."""
    seed, program, keep, wide = job
    text = program_text(seed, wide)
    with tempfile.TemporaryDirectory() as folder:
        outcome, why = compared(text, program, folder)
    if outcome == "failed" and keep:
        with open(os.path.join(keep, f"random_{seed}.c"), "w", encoding="utf-8") as file:
            file.write(text)
    return seed, outcome, why


def limit_time():
    """A random program may run on: it gets two seconds of a processor."""
    resource.setrlimit(resource.RLIMIT_CPU, (2, 2))


def compared(text, program, folder):
    """How the translation of a program does beside gcc's program, and what is wrong."""
    paths = {end: os.path.join(folder, "program" + end) for end in (".c", ".cyc", ".elf", "")}
    with open(paths[".c"], "w", encoding="utf-8") as file:
        file.write(text)
    subprocess.run(["gcc", "-m32", "-w", "-O0", "-fwrapv", paths[".c"], "-o", paths[""]], check=True, capture_output=True)
    wanted = subprocess.run([paths[""]], capture_output=True, preexec_fn=limit_time, check=False)
    if wanted.returncode < 0:
        return "skipped", "gcc's program takes too long"
    found = translate(text, paths[".c"])
    if found.text is None:
        return "refused", found.refusals[0].message
    with open(paths[".cyc"], "w", encoding="utf-8") as file:
        file.write(found.text)
    built = subprocess.run([program, "compile", paths[".cyc"], "-o", paths[".elf"]], capture_output=True, text=True, check=False)
    if built.returncode:
        last = built.stderr.strip().split("\n")[-1]
        large = re.match(r"fault (6|12|13|51) ", last)
        return ("refused", "the limits of a text or a function") if large else ("failed", built.stderr[:300])
    ran = subprocess.run([program, "run", paths[".elf"]], capture_output=True, check=False)
    last = ran.stderr.decode("latin-1").strip().split("\n")[-1]
    if last == "budget spent":
        return "skipped", last
    good = ran.stdout == wanted.stdout and last == f"returned {wanted.returncode}"
    return ("passed", "") if good else ("failed", f"{last}, {ran.stdout!r} and gcc's {wanted.stdout!r}")


def main():
    parser = argparse.ArgumentParser(description=__doc__, formatter_class=argparse.RawDescriptionHelpFormatter)
    parser.add_argument("--program", default=os.path.join(ROOT, "crates", "cyclone", "out", "cyclone"))
    parser.add_argument("--count", type=int, default=2000)
    parser.add_argument("--seed", type=int, default=1)
    parser.add_argument("--stack", type=int)
    parser.add_argument("--jobs", type=int, default=2)
    parser.add_argument("--keep")
    parser.add_argument("--wide", action="store_true")
    options = parser.parse_args()
    if options.stack:
        resource.setrlimit(resource.RLIMIT_STACK, (options.stack << 20, resource.getrlimit(resource.RLIMIT_STACK)[1]))
    seeds = range(options.seed, options.seed + options.count)
    jobs = [(seed, os.path.abspath(options.program), options.keep, options.wide) for seed in seeds]
    counts, reasons = collections.Counter(), collections.Counter()
    with multiprocessing.Pool(options.jobs) as pool:
        for seed, outcome, why in pool.imap_unordered(one, jobs):
            counts[outcome] += 1
            reasons[re.sub(r"\d+", "..", why)] += outcome in ("refused", "skipped")
            if outcome == "failed":
                print(f"seed {seed}: {why}", flush=True)
    for why, count in reasons.most_common(10):
        if count:
            print(f"  {count:5}  {why}")
    print(f"{counts['refused']} refused, {counts['skipped']} skipped")
    print(f"{counts['passed']} passed, {counts['failed']} failed")
    return 1 if counts["failed"] else 0


if __name__ == "__main__":
    sys.exit(main())

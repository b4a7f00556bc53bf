#!/usr/bin/env python3
"""Measures the costs of the gate's parts, for each crate its proof, its tests and its wrong bodies, and the memory of proofs.

    python3 tests/runners/gate_table.py measure RECORD TABLE NAME COMMAND [WORD ..]
    python3 tests/runners/gate_table.py show RECORD RESULT
    python3 tests/runners/gate_table.py memory RECORD
    python3 tests/runners/gate_table.py publish TABLE

`measure` runs a command, ends with its status, and appends its costs to the file RECORD: wall-clock and processor seconds of the whole
command and of each check by the prover. `show` prints the table of the record, with its commit and the RESULT, `N passed, M failed`.
`memory` prints the most megabytes that the proof of each crate took. `publish` puts the table into docs/FIGURES.md, if the gate was
complete, nothing failed, and the commit was unmodified. It also copies the output of `memory`, which the gate writes to memory.txt beside
the table, into tests/memory.txt for tools/jobs.py. While the command runs, the file TABLE contains the table so far, so that a stopped gate
leaves one.

The prover's processes are sampled once a second. Their command lines identify the crate and the part of the gate. The last fraction of a
second of a check may be missed; the totals come from the operating system and are exact.

Memory is sampled less often. Memory shared by several processes of a check is counted once (`Pss`).
"""
import datetime
import json
import os
import re
import resource
import shutil
import subprocess
import sys
import threading
import time
from collections import namedtuple

# The number of seconds between two samples of the processes.
EVERY = 1.0
# The table of costs is written after every LOOKS_A_TABLE samples, and memory is measured after
# every LOOKS_A_SIZE samples.
LOOKS_A_TABLE, LOOKS_A_SIZE = 20, 4
PARTS = ("proof", "tests", "wrong bodies")
# The kinds of work (proofs and tests) that `rt ci` runs in parallel; their memory use is recorded.
MEASURED = PARTS[:2]
TICK = os.sysconf("SC_CLK_TCK")

# A process: its number, its parent's number, its start time in ticks, the processor seconds of the process and its awaited children,
# and its command line.
Process = namedtuple("Process", "pid parent started seconds words")


def process_of(line):
    """Returns the process described by a line `PID PARENT STARTED SECONDS WORD ..`."""
    pid, parent, started, seconds, *words = line.split()
    return Process(int(pid), int(parent), int(started), float(seconds), words)


def running():
    """Returns the processes that are running."""
    found = []
    for name in os.listdir("/proc"):
        if not name.isdigit():
            continue
        try:
            with open(f"/proc/{name}/stat", encoding="utf-8", errors="replace") as file:
                fields = file.read().rpartition(")")[2].split()
            with open(f"/proc/{name}/cmdline", "rb") as file:
                words = file.read().decode(errors="replace").split("\0")
        except OSError:
            continue
        seconds = sum(int(ticks) for ticks in fields[11:15]) / TICK
        found.append(Process(int(name), int(fields[1]), int(fields[19]), seconds, words))
    return found


def size_of(pid):
    """Returns the memory of a process in bytes, with its share of shared memory; 0 if it has ended."""
    try:
        with open(f"/proc/{pid}/smaps_rollup", encoding="ascii") as file:
            return next((int(line.split()[1]) * 1024 for line in file if line.startswith("Pss:")), 0)
    except OSError:
        return 0


def part_of(words):
    """Returns the crate that a command of the prover checks, and the part of the gate; None for another command."""
    if len(words) < 2 or os.path.basename(words[0]) != "rattle" or words[1] not in ("check", "build"):
        return None
    if "--crate-name" not in words[:-1]:
        return None
    crate = words[words.index("--crate-name") + 1]
    if "--test" in words:
        return crate, PARTS[1]
    # A proof writes a library or a checked program, whereas the check of a wrong function body
    # writes no file.
    return crate, PARTS[0] if "-o" in words else PARTS[2]


class Account:
    """The observed costs of the checks below one process."""

    def __init__(self, root):
        self.root = root
        # the descendants of the first process at the last sample; a process number may be reused, but not with the same
        # start time
        self.known = set()
        # for each crate and kind of work (proof, tests or wrong bodies): the processor seconds of
        # each process, and the elapsed seconds
        self.spent = {}
        self.lasted = {}
        # for each check: the largest total memory, in bytes, that its processes took in any sample
        self.peaks = {}

    def take(self, processes, since, size=None):
        """Samples the processes, so many seconds after the last sample, and their memory if `size` is given."""
        by_number = {it.pid: it for it in processes}
        below = {}
        for it in processes:
            below.setdefault(it.parent, []).append(it)
        seen, sizes = set(), {}
        for it in self.ours(processes, below):
            part = part_of(it.words)
            if part and size:
                sizes[part] = sizes.get(part, 0) + size(it.pid)
            above = by_number.get(it.parent)
            # A check's own helper processes have the same command line as the check, and are
            # counted with the check.
            if part and not (above and part_of(above.words) == part):
                self.spent.setdefault(part, {})[it.pid, it.started] = used(it, below)
                seen.add(part)
        for part in seen:
            self.lasted[part] = self.lasted.get(part, 0.0) + since
        for part, bytes_now in sizes.items():
            self.peaks[part] = max(self.peaks.get(part, 0), bytes_now)

    def ours(self, processes, below):
        """Returns the processes below the first one, and those that were below it at the last sample."""
        left = [it for it in processes if it.pid == self.root or (it.pid, it.started) in self.known]
        found = {it.pid: it for it in left}
        while left:
            for it in below.get(left.pop().pid, []):
                if it.pid not in found:
                    found[it.pid] = it
                    left.append(it)
        self.known = {(it.pid, it.started) for it in found.values()}
        return found.values()

    def rows(self):
        """Returns for each crate and part the processor seconds and the wall-clock seconds."""
        return [
            [*part, round(sum(spent.values()), 1), round(self.lasted[part], 1)]
            for part, spent in self.spent.items()
        ]

    def sizes(self):
        """Returns for each crate the peak memory in megabytes of its proof or the check of its tests."""
        found = {}
        for (crate, part), most in self.peaks.items():
            if part in MEASURED:
                found[crate] = max(found.get(crate, 0), -(-most // 2**20))
        return found


def used(process, below):
    """Returns the processor seconds of a process and all that it started."""
    return process.seconds + sum(used(it, below) for it in below.get(process.pid, []))


def measure(record, shown, name, words):
    """Runs a command, and appends its costs to the record. Writes the table so far to a file while the command runs."""
    started = time.monotonic()
    command = subprocess.Popen(words)
    account, done = Account(command.pid), threading.Event()

    def cost(processors):
        clock = round(time.monotonic() - started, 1)
        return {"name": name, "processors": round(processors, 1), "clock": clock, "checks": account.rows(), "memory": account.sizes()}

    def watch():
        last, looks = started, 0
        while not done.wait(EVERY):
            now = time.monotonic()
            account.take(running(), now - last, size_of if looks % LOOKS_A_SIZE == 0 else None)
            last, looks = now, looks + 1
            if looks % LOOKS_A_TABLE == 0:
                so_far = cost(sum(row[2] for row in account.rows()))
                write_table(shown, [*recorded(record), so_far], f"Not finished: this is as far as {name} came.")

    watching = threading.Thread(target=watch, daemon=True)
    watching.start()
    status = command.wait()
    done.set()
    watching.join()
    spent = resource.getrusage(resource.RUSAGE_CHILDREN)
    with open(record, "a", encoding="utf-8") as file:
        file.write(json.dumps(cost(spent.ru_utime + spent.ru_stime)) + "\n")
    return status if status >= 0 else 128 - status


def recorded(record):
    """Returns the costs of each command in the record."""
    if not os.path.exists(record):
        return []
    with open(record, encoding="utf-8") as file:
        return [json.loads(line) for line in file]


def lines_now(wholes):
    """Returns the lines of the record's table, for this machine and today."""
    return table(wholes, len(os.sched_getaffinity(0)), datetime.date.today())


def write_table(path, wholes, remark):
    """Writes the table to a file, after a remark."""
    os.makedirs(os.path.dirname(path) or ".", exist_ok=True)
    with open(path, "w", encoding="utf-8") as file:
        file.write("\n".join([remark, "", *lines_now(wholes)]) + "\n")


def table(wholes, cores, day):
    """Returns the lines of the record's table."""
    costs, order = {}, []
    for whole in wholes:
        for crate, part, processors, clock in whole["checks"]:
            if crate not in order:
                order.append(crate)
            before = costs.get((crate, part), (0.0, 0.0))
            costs[crate, part] = before[0] + processors, before[1] + clock

    def row(name, cells, total):
        shown = [f"{cell[0]:.0f} ({cell[1]:.0f})" if cell else "-" for cell in cells]
        return f"| {name} | {' | '.join(shown)} | {total:.0f} |"

    lines = ["| | Proof | Tests | Wrong bodies | All |", "|---|---|---|---|---|"]
    for crate in sorted(order, key=lambda it: -sum(costs.get((it, part), (0.0,))[0] for part in PARTS)):
        cells = [costs.get((crate, part)) for part in PARTS]
        lines.append(row(f"`{crate}`", cells, sum(cell[0] for cell in cells if cell)))
    sums = [[sum(cost[at] for (_, it), cost in costs.items() if it == part) for at in (0, 1)] for part in PARTS]
    if order:
        lines.append(row("all crates", sums, sum(cell[0] for cell in sums)))
    for whole in wholes:
        rest = whole["processors"] - sum(row[2] for row in whole["checks"])
        name = f"{whole['name']}, the rest" if whole["checks"] else whole["name"]
        lines.append(row(name, [None] * 3, rest))
    processors, clock = (sum(whole[it] for whole in wholes) for it in ("processors", "clock"))
    lines.append("")
    lines.append("Seconds of processors, and in brackets those on the clock while such a check ran.")
    lines.append(f"The whole gate: {processors / 60:.1f} processor minutes in {clock / 60:.1f} minutes, on {cores} processors, {day}.")
    return lines


MEMORY_HEAD = """\
# The peak memory of each crate's proof, in MB of 2^20 bytes, as the gate measured it. tools/jobs.py reads this table, and
# `tests/runners/gate_table.py publish` writes it.
"""


def memory(wholes):
    """Returns the text of the memory table for a record."""
    sizes = {}
    for whole in wholes:
        for crate, size in whole["memory"].items():
            sizes[crate] = max(sizes.get(crate, 0), size)
    return MEMORY_HEAD + "".join(f"{crate} {sizes[crate]}\n" for crate in sorted(sizes))


def commit():
    """Returns the commit that is checked out, with its subject, and whether files are modified."""
    said = [subprocess.run(["git", *words], capture_output=True, text=True).stdout.strip() for words in (["log", "-1", "--format=%s"], ["status", "--porcelain"])]
    return f"The commit: {said[0]}" + (" (with changes)" if said[1] else "")


ROOT = os.path.join(os.path.dirname(os.path.abspath(__file__)), "..", "..")
FIGURES, MEMORY = os.path.join(ROOT, "docs", "FIGURES.md"), os.path.join(ROOT, "tests", "memory.txt")
# The pattern of the section of docs/FIGURES.md about a gate: from the section's heading to the end
# of its table.
PUBLISHED = re.compile(r"(?<=\n## The gate\n\n).*?\n(?=\n(?!\|)[^|]*\n## )", re.S)
SAID = re.compile(r"""(?P<table>\| \| Proof .*?)\n
Seconds of .*
The whole gate: (?P<processors>[\d.]+) processor minutes in (?P<clock>[\d.]+) minutes, on (?P<cores>\d+) processors, (?P<day>\S+)\.
The commit: (?P<commit>.*)
(?P<passed>\d+) passed, 0 failed
""", re.S)


def published(shown):
    """Returns the section of docs/FIGURES.md for a gate's table; None unless the table is of one whole gate."""
    said = SAID.fullmatch(shown)
    if not said or said["commit"].endswith(" (with changes)"):
        return None
    return f"""One gate, of one commit, in one go: `make test`, from nothing, on the commit "{said["commit"]}", on {said["day"]}, ended with
{int(said["passed"]):,} passed, 0 failed, in {said["processors"]} processor minutes and {said["clock"]} on the clock, on {said["cores"]} processors. The table has
the seconds of processors that each crate's parts took, and in brackets those on the clock while such a check ran; it is
what the gate left in `out/gate.md` (`tests/runners/gate_table.py publish`).

{said["table"]}
"""


def publish(path):
    """Copies a gate's table into docs/FIGURES.md."""
    with open(path, encoding="utf-8") as file:
        part = published(file.read())
    if part is None:
        print(f"{path} is not of a gate that went to its end on a commit as it is, with nothing failed", file=sys.stderr)
        return 1
    with open(FIGURES, encoding="utf-8") as file:
        text, count = PUBLISHED.subn(lambda _: part, file.read())
    if count != 1:
        print("docs/FIGURES.md has no place for it", file=sys.stderr)
        return 1
    with open(FIGURES, "w", encoding="utf-8") as file:
        file.write(text)
    measured = os.path.join(os.path.dirname(path), "memory.txt")
    if os.path.exists(measured):
        shutil.copy(measured, MEMORY)
    return 0


def main(words):
    if words[:1] == ["measure"] and len(words) > 4:
        return measure(words[1], words[2], words[3], words[4:])
    if words[:1] == ["show"] and len(words) == 3:
        print("\n".join([*lines_now(recorded(words[1])), commit(), words[2]]))
        return 0
    if words[:1] == ["memory"] and len(words) == 2:
        print(memory(recorded(words[1])), end="")
        return 0
    if words[:1] == ["publish"] and len(words) == 2:
        return publish(words[1])
    print(__doc__, end="", file=sys.stderr)
    return 2


if __name__ == "__main__":
    sys.exit(main(sys.argv[1:]))

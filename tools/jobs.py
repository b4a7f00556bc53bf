#!/usr/bin/env python3
"""Prints how many crates may be proved in parallel on this machine: RT_JOBS for `rt ci`.

    python3 tools/jobs.py

tests/memory.txt has the peak memory of the proof of each crate (`tests/runners/gate_table.py publish` writes it). The number is that of the
processors, or a smaller one if so many proofs may exceed the free memory. A crate is proved after its dependencies, so only independent
crates are proved in parallel. Without RT_JOBS the toolchain assumes two to five times the measured memory, and leaves processors idle on a
small machine.
"""
import os
import re
import sys

ROOT = os.path.dirname(os.path.dirname(os.path.abspath(__file__)))
PEAKS = os.path.join(ROOT, "tests", "memory.txt")
# The share of the free memory that parallel proofs may take.
SHARE = 0.9
# Files of the Linux control group: the processor quota and its period, the memory limit, and the memory usage.
QUOTA, LIMIT, HELD = (f"/sys/fs/cgroup/{name}" for name in ("cpu.max", "memory.max", "memory.stat"))


def peaks(path=PEAKS):
    """Returns the peak memory of the proof of each crate in megabytes."""
    with open(path, encoding="ascii") as file:
        return {crate: int(size) for crate, size in (line.split() for line in file if not line.startswith("#"))}


def numbers_in(path):
    """Returns the numbers at the beginning of a file; none if it has no number or does not exist."""
    try:
        with open(path, encoding="ascii") as file:
            return [int(word) for word in re.findall(r"\d+", file.read())]
    except OSError:
        return []


def processors():
    """Returns how many processors this process may use, also by the quota of its control group."""
    found, quota = len(os.sched_getaffinity(0)), numbers_in(QUOTA)
    return max(1, min(found, quota[0] // quota[1])) if len(quota) == 2 else found


def free():
    """Returns the free memory in megabytes, also under the limit of the control group."""
    with open("/proc/meminfo", encoding="ascii") as file:
        found = int(re.search(r"MemAvailable:\s+(\d+)", file.read())[1]) // 1024
    limit, held = numbers_in(LIMIT), numbers_in(HELD)
    return min(found, (limit[0] - held[0]) >> 20) if limit and held else found


def below(crate, graph):
    """Returns all crates that a crate depends on."""
    found, left = set(), list(graph.get(crate, ()))
    while left:
        it = left.pop()
        if it not in found:
            found.add(it)
            left += graph.get(it, ())
    return found


def most_together(crates, graph, sizes, count):
    """Returns the most megabytes that so many, or fewer, of these crates take if they are independent."""
    under = {crate: below(crate, graph) for crate in crates}
    order = sorted(crates, key=lambda it: -sizes[it])

    def best(start, chosen, most):
        if len(chosen) == count:
            return 0
        found = 0
        for at in range(start, len(order)):
            crate = order[at]
            if sizes[crate] * (count - len(chosen)) <= max(found, most):
                break
            if not any(crate in under[it] or it in under[crate] for it in chosen):
                rest = best(at + 1, chosen + [crate], max(found, most) - sizes[crate])
                found = max(found, sizes[crate] + rest)
        return found

    return best(0, [], 0)


def jobs(crates, graph, cores, megabytes, measured):
    """Returns how many of these crates may be proved in parallel. A crate without a measurement counts as the largest one."""
    sizes = {crate: measured.get(crate, max(measured.values())) for crate in crates}
    most = max(1, min(cores, len(sizes)))
    fits = (count for count in range(most, 1, -1) if most_together(sizes, graph, sizes, count) <= SHARE * megabytes)
    return next(fits, 1)


def jobs_here(crates, graph):
    """Returns how many of these crates may be proved in parallel on this machine."""
    return jobs(crates, graph, processors(), free(), peaks())


def main():
    from sources import stands_on
    graph = stands_on(ROOT)
    print(jobs_here(graph, graph))


if __name__ == "__main__":
    sys.exit(main())

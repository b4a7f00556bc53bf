"""What a process and those that it started have taken of the processors."""
import os

TICK = os.sysconf("SC_CLK_TCK")


def family(pid):
    """A process and all that it started, each with the seconds that it has taken of processors so far."""
    spent, below = {}, {}
    for name in filter(str.isdigit, os.listdir("/proc")):
        try:
            with open(f"/proc/{name}/stat", encoding="utf-8", errors="replace") as file:
                fields = file.read().rpartition(")")[2].split()
        except OSError:
            continue
        spent[int(name)] = sum(map(int, fields[11:15])) / TICK
        below.setdefault(int(fields[1]), []).append(int(name))
    found = [pid]
    for one in found:
        found += below.get(one, [])
    return {one: spent.get(one, 0.0) for one in found}

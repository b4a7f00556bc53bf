#!/usr/bin/env python3
"""Lets five attackers at the server of the page at once, and times the answers to honest clients beside them.

    python3 tests/runners/attacked.py [--program PATH] [--page PATH] [--minutes N] [--seconds N] [--seed N]

Each attacker has an address of its own. One sends requests in a row and reads no answer; one sends and reads a byte at a time; one floods
with connections, runs that it leaves and large bodies; one has its own processes killed, stopped and ended by other signals; and one fills
the disk of the log and makes the server write to it. Eight honest clients check and run programs meanwhile, with pauses, as people do. Each
gets the answer to its own request within twice the clock of a place: --seconds, by default 10, and more by the load of the machine. After
the attack, which takes --minutes, 1 by default, the server has no more processes, files and memory than before. The last line is `N passed,
M failed`.

Other work on the machine may keep the processors from the server. The kernel counts how long its processes waited for one. An answer that is
late by no more than that is told apart, and its minute is no part of --minutes: another one follows, and too many of these are a fault.
"""
import base64
import contextlib
import http.client
import json
import os
import random
import signal
import socket
import stat
import struct
import tempfile
import threading
import time

import suite  # first: it says where the references and the generators are
from hostile_c import BOMB as MACRO
from served import BROKEN, C_OVERRUN, ECHO, ENDLESS, HELLO, NEAR, PAGE, PRINTING, WITHOUT_END, Server, post, raise_files, waited

# The number of runs that the server executes at once. The number of attacking client addresses is
# less than twice this number, as SECURITY.md promises.
PLACES = 3
HONEST = [f"127.0.2.{number}" for number in range(1, 9)]
ATTACKER = "127.0.3.{}"
# The size in KB of the disk that holds the log folder. The log folder has a disk of its own, which the attacker sees below the root
# of the server's namespace.
DISK = 128
START = """#!/bin/sh
exec unshare --map-root-user --mount sh -c '
mount -t tmpfs -o size={size}k none "{folder}" && export TMPDIR="{folder}" && exec "$@" 2>>"{folder}/log"' sh "{page}" "$@"
"""
# Texts with which those source texts begin whose processes the attacker may kill.
MARK = b"// a text of the attacker whose processes are killed\n"
SIGNALS = (signal.SIGKILL, signal.SIGKILL, signal.SIGSTOP, signal.SIGTERM, signal.SIGSEGV, signal.SIGXCPU)
# The maximum growth of the server's memory during the attack, in KB: many large request bodies that arrive at
# once leave some memory in use.
GROWN = 64_000
# The minimum number of answers that honest clients get in a minute; with fewer answers the test
# proves nothing.
LEAST = 4
# A minute in which a run lacked processor time does not count. So the attack may take up to this
# many times as long as planned.
MOST = 2
# The seconds between two measurements of how much processor time each process used; and the share of a run's time limit during
# which the server must have had a processor.
LOOK, PART = 0.1, 1 / 3
# The words in the message about a run that the server's time limit ended.
STOPPED = "it took more than"
TICKS = os.sysconf("SC_CLK_TCK")

GETS = [f"GET {path} HTTP/1.1\r\nHost: 127.0.0.1\r\n\r\n".encode() for path in ("/", "/codemirror.js", "/about", "/docs/LANGUAGE", "/none")]
INNER = post("/run", {"source": PRINTING})
REQUESTS = (
    *GETS, INNER, INNER, post("/check", {"source": "(" * 9_000}), post("/listing", {"source": HELLO}), post("/format", {"source": ECHO}),
    post("/run", {"source": ENDLESS}), post("/run", {"source": MACRO.decode(), "language": "c"}), post("/check", INNER),
    post("/run", b"2\r\n{}\r\n0\r\n\r\n" + INNER, "Transfer-Encoding: chunked"),
    b"GET /about HTTP/1.0\r\nConnection: keep-alive\r\nHost: 127.0.0.1\r\n\r\n",
)


class Meter:
    """Counts the seconds that the server lost, since its processes waited for a processor while other work had it."""

    def __init__(self, server):
        self.process, self.lost, self.others = server.process.pid, [(time.monotonic(), 0.0)], 0.0
        self.children, self.ended = server.children, threading.Event()
        self.thread = threading.Thread(target=self.look, daemon=True)

    def __enter__(self):
        self.thread.start()
        return self

    def __exit__(self, *_):
        self.ended.set()
        self.thread.join()

    def look(self):
        delays, spent = self.delays(), self.spent_by_others()
        while not self.ended.wait(LOOK):
            now, new, spent_now = time.monotonic(), self.delays(), self.spent_by_others()
            waited_for = {it: delay - delays.get(it, 0) for it, delay in new.items()}
            # An answer is delayed by the server process and by at most one process that executes
            # the request. So at most one child's waiting time is added to the server's.
            children = max((it for number, it in waited_for.items() if number != self.process), default=0)
            others = max(0.0, spent_now - spent)
            lost = min(now - self.lost[-1][0], waited_for.get(self.process, 0) + children, others)
            self.lost.append((now, self.lost[-1][1] + lost))
            self.others += others
            delays, spent = new, spent_now

    def delays(self):
        """The seconds that the server and each of its processes have waited for a processor."""
        found = {}
        for number in (self.process, *map(int, self.children())):
            with contextlib.suppress(OSError, ValueError, IndexError):
                with open(f"/proc/{number}/schedstat", encoding="ascii") as file:
                    found[number] = int(file.read().split()[1]) / 1e9
        return found

    def spent_by_others(self):
        """The seconds of all processors that neither this process, the server nor its processes had, and that were not idle."""
        with open("/proc/stat", encoding="ascii") as file:
            # the fields are times: user, nice, system, idle, waiting, interrupts of two kinds,
            # stolen
            times = [int(it) / TICKS for it in file.readline().split()[1:9]]
        own = sum(spent_by(it) for it in (os.getpid(), self.process, *self.children()))
        return sum(times) - times[3] - times[4] - own

    def between(self, start, end):
        """The seconds that were lost between two moments."""
        ends = [lost for moment, lost in self.lost if start - LOOK <= moment <= end + LOOK]
        return ends[-1] - ends[0] if ends else 0.0


def spent_by(process):
    """The seconds of a processor that a process had, with those of its children that have ended."""
    try:
        with open(f"/proc/{process}/stat", encoding="ascii", errors="replace") as file:
            return sum(int(it) for it in file.read().rpartition(")")[2].split()[11:15]) / TICKS
    except OSError:
        return 0.0


class Attacked:
    """A server under attack, what its honest clients saw, and how often each attacker has attacked."""

    def __init__(self, server, program, folder, options, meter):
        self.server, self.program, self.folder, self.clock = server, os.path.realpath(program), folder, options.seconds
        self.ended, self.lock, self.meter = threading.Event(), threading.Lock(), meter
        self.times, self.faults, self.starved, self.log_faults, self.log_lines = [], [], [], [], 0
        self.rounds = dict.fromkeys((it.__name__ for it in ATTACKS), 0)

    @property
    def disk(self):
        """The folder of the log, as it is seen from here."""
        return f"/proc/{self.server.process.pid}/root{self.folder}"

    def pause(self, seconds):
        self.ended.wait(seconds)

    def answered(self, what, start, faults):
        """Notes the answer to an honest client, with what is wrong with it."""
        took = time.monotonic() - start
        # The thread that measures processor time takes one more measurement during this pause.
        time.sleep(2 * LOOK)
        lost = self.meter.between(start, start + took)
        # If the server's time limit ended a run that had a processor for only a fraction of this
        # limit, then the run did not get enough processor time.
        starved = [it for it in faults if STOPPED in it and lost > (1 - PART) * self.clock]
        late = [f"{what} took {took:.1f} s, and twice the clock is {2 * self.clock} s"] * (took > 2 * self.clock)
        with self.lock:
            self.times.append(took)
            self.faults += [f"{it}; the server lost {lost:.1f} s" for it in faults if it not in starved]
            (self.starved if took - lost <= 2 * self.clock else self.faults).extend(f"{it}; lost {lost:.1f} s" for it in late)
            self.starved += [f"{it}; lost {lost:.1f} s" for it in starved]

    def read_log(self):
        """Takes what the log has, which is empty then."""
        path = os.path.join(self.disk, "log")
        with open(path, encoding="utf-8", errors="replace") as file:
            said = file.read()
        os.truncate(path, 0)
        self.log_lines += said.count("\n")
        if "Traceback" in said or 'File "' in said:
            self.log_faults.append(f"there is a traceback in the log: {suite.shown(said)}")


# ---- honest clients


def honest(room, client, dice):
    """Checks and runs programs with pauses, and holds each answer against what it must be."""
    number = 0
    while not room.ended.is_set():
        number += 1
        ask = (run_own, check_near, run_c)[number % 3]
        start = time.monotonic()
        try:
            faults = ask(room.server, client, f"{client}, request {number}\n")
        except (OSError, http.client.HTTPException, ValueError, KeyError) as error:
            faults = [f"{ask.__name__} of {client}: no answer: {error!r}"]
        room.answered(f"{ask.__name__} of {client}", start, faults)
        room.pause(dice.uniform(0.5, 4))


def run_own(server, client, words):
    """Runs a program that prints its input."""
    told = server.run(ECHO, client=client, input=words)
    printed = b"".join(base64.b64decode(it["bytes"]) for it in told if it["now"] == "output").decode("utf-8")
    got = told[-1].get("last"), printed
    return [] if got == ("returned 0", words) else [suite.difference(f"a run of {client}", ("returned 0", words), told[-1])]


def run_c(server, client, _):
    """Runs a C program that goes past an array in its fourth line."""
    last = server.run(C_OVERRUN, client=client, language="c")[-1]
    got = last.get("last"), [it["line"] for it in last.get("places", [])]
    return [] if got == ("uncaught 2 0", [4]) else [suite.difference(f"a run in C of {client}", ("uncaught 2 0", [4]), last)]


def check_near(server, client, _):
    """Checks a program with one mistake, the name in the fourth line."""
    status, said = server.ask("/check", {"source": NEAR}, client=client)
    found = [(it["line"], it["column"]) for it in json.loads(said).get("findings", [])]
    return [] if (status, found) == (200, [(4, 10)]) else [suite.difference(f"a check of {client}", (200, [(4, 10)]), (status, said))]


# ---- the attackers: a round of each


def in_a_row(room, client, dice):
    """Sends requests in a row on connections whose answers it does not read."""
    with contextlib.ExitStack() as held:
        for _ in range(dice.randint(1, 6)):
            it = held.enter_context(room.server.opened(client, 2_048))
            with contextlib.suppress(OSError):
                it.sendall(b"".join(dice.choices(REQUESTS, k=dice.randint(2, 60))))
        room.pause(dice.uniform(1, 12))


def byte_by_byte(room, client, dice):
    """Sends requests and reads answers a byte at a time, some of them not to the end."""
    with contextlib.ExitStack() as held:
        both = []
        for _ in range(8):
            sent = dice.choice(REQUESTS)
            both.append([held.enter_context(room.server.opened(client, 2_048)), sent[:dice.choice((len(sent), len(sent) // 2))]])
        end = time.monotonic() + dice.uniform(5, 25)
        while time.monotonic() < end and not room.ended.is_set():
            both = [it for it in both if goes_on(it)]
            room.pause(dice.uniform(0.01, 0.1))


def goes_on(both):
    """Sends the next byte, or reads one; whether the connection is there still."""
    connection, left = both
    connection.settimeout(0.01)
    try:
        if left:
            connection.sendall(left[:1])
            both[1] = left[1:]
            return True
        return bool(connection.recv(1))
    except TimeoutError:
        return True
    except OSError:
        return False


def flood(room, client, dice):
    """Opens connections and leaves them idle, half sent, with large bodies, or at once with a reset."""
    run, large = post("/run", {"source": PRINTING}), post("/check", {"source": "x" * 40_000})
    parts = (b"", b"GET / HT", run[:40], run[:-9], large, large[:-9], b"\0" * 300_000, run, run)
    with contextlib.ExitStack() as held:
        for _ in range(dice.randint(40, 150)):
            it = held.enter_context(room.server.opened(client))
            it.settimeout(0.05)
            sent = dice.choice(parts)
            with contextlib.suppress(OSError):
                it.sendall(sent)
            if sent == run:
                # With the socket option that is set here, closing the connection sends a TCP reset
                # to the other side.
                it.setsockopt(socket.SOL_SOCKET, socket.SO_LINGER, struct.pack("ii", 1, 0))
                it.close()
        room.pause(dice.uniform(0.5, 6))


def killed(room, client, dice):
    """Sends signals to processes of its own texts, as a machine without memory does to those of anybody."""
    text = MARK.decode("ascii") + dice.choice((ENDLESS, PRINTING, "int f(int a) { return a; }\n" * 300))
    end = threading.Event()
    thread = threading.Thread(target=begin, args=(room, client, text, end))
    thread.start()
    while not end.is_set() and not room.ended.is_set():
        time.sleep(dice.uniform(0, 0.5))
        for it in room.server.children():
            if is_marked(it, room.program):
                with contextlib.suppress(ProcessLookupError):
                    os.kill(int(it), dice.choice(SIGNALS))
    thread.join()


def begin(room, client, text, end):
    """Sends a text to be run, and sets the event at the end of the answer."""
    try:
        with contextlib.suppress(OSError, http.client.HTTPException, ValueError):
            room.server.run(text, client=client)
    finally:
        end.set()


def is_marked(process, program):
    """Whether a process has a file in memory that begins with the mark. Before it is the program's, it has all files of the server."""
    folder = f"/proc/{process}/fd"
    try:
        if os.readlink(f"/proc/{process}/exe") != program:
            return False
        names = [os.path.join(folder, it) for it in os.listdir(folder)]
        return any(begins_with(it, MARK) for it in names if os.readlink(it).startswith("/memfd:"))
    except OSError:
        return False


def begins_with(path, wanted):
    with open(path, "rb") as file:
        return stat.S_ISREG(os.fstat(file.fileno()).st_mode) and file.read(len(wanted)) == wanted


def full_disk(room, client, dice):
    """Fills the disk of the log, makes the server write to it, and makes room again."""
    path = os.path.join(room.disk, "rubbish")
    with contextlib.suppress(OSError), open(path, "wb", buffering=0) as file:
        while not room.ended.is_set():
            file.write(b"x" * 4_096)
    for _, sent, _ in dice.sample(BROKEN, 4):
        with contextlib.suppress(OSError):
            room.server.raw(sent, client)
    room.pause(dice.uniform(0, 2))
    os.remove(path)
    room.server.raw(dice.choice(BROKEN)[1], client)
    room.read_log()
    room.pause(dice.uniform(0, 4))


ATTACKS = (in_a_row, byte_by_byte, flood, killed, full_disk)


def attacker(room, attack, client, dice):
    while not room.ended.is_set():
        with contextlib.suppress(OSError, http.client.HTTPException):
            attack(room, client, dice)
            room.rounds[attack.__name__] += 1


# ---- the whole of it


def attack_all(room, minutes, seed):
    """Runs all attackers and honest clients for so many minutes, and tells of each minute."""
    threads = [threading.Thread(target=honest, args=(room, it, random.Random(f"{seed} {it}"))) for it in HONEST]
    for number, it in enumerate(ATTACKS, 1):
        words = (room, it, ATTACKER.format(number), random.Random(f"{seed} {it.__name__}"))
        threads.append(threading.Thread(target=attacker, args=words))
    before = room.server.memory()
    for it in threads:
        it.start()
    counted, minute = 0, 0
    while counted < minutes and minute < MOST * minutes and room.server.process.poll() is None:
        minute, told, starved, others = minute + 1, len(room.faults), len(room.starved), room.meter.others
        room.pause(60)
        counted += len(room.starved) == starved
        rounds = ", ".join(f"{count} {name}" for name, count in room.rounds.items())
        print(f"{minute} min, {counted} of them counted: {len(room.times)} honest answers, the slowest after"
            f" {max(room.times, default=0):.1f} s; {len(room.faults)} faults; {len(room.starved)} starved; {room.log_lines} lines in the log;"
            f" {room.server.memory() - before:+} KB; load {os.getloadavg()[0]:.1f}, others had {(room.meter.others - others) / 60:.1f}"
            f" processors; rounds: {rounds}", *room.faults[told:], *room.starved[starved:], sep="\n  ", flush=True)
    room.ended.set()
    for it in threads:
        it.join()
    room.minutes, room.counted = minute, counted


def things_of(room, minutes, before):
    """What is held against what must be, each with its name, after the attack."""
    yield "honest clients", room.faults[:10] + (
        [] if len(room.times) >= LEAST * minutes else [f"only {len(room.times)} honest answers came"])
    yield "the machine", [] if room.counted >= minutes else [f"only {room.counted} minutes of {room.minutes} count: other work had the rest"]
    for name, count in room.rounds.items():
        yield f"the attacker {name}", [] if count else ["no round came to its end"]
    memory, files = before
    faults = waited("the end of all processes and files", lambda: not room.server.children() and room.server.files() <= files,
        3 * room.clock)
    grown = room.server.memory() - memory
    yield "what is left", faults + ([f"the server has {grown} KB more of memory"] if grown > GROWN else [])
    room.read_log()
    most = 60 * (room.minutes + 2)
    yield "the log", room.log_faults[:3] + ([f"it has {room.log_lines} lines"] if not 0 < room.log_lines <= most else [])
    status = room.server.end()
    yield "the end", [] if status == 0 else [f"the server ended with {status}"]


def attacked(program, options, folder):
    """The faults of each thing, by its name."""
    disk, start = os.path.join(folder, "disk"), os.path.join(folder, "start")
    os.mkdir(disk)
    with open(start, "w", encoding="utf-8") as file:
        file.write(START.format(size=DISK, folder=disk, page=os.path.abspath(options.page or PAGE)))
    os.chmod(start, 0o755)
    words = ("--seconds", str(options.seconds), "--runs", str(PLACES), "--output", "1000000", *WITHOUT_END)
    with Server(program, *words, page=start) as server, Meter(server) as meter:
        room = Attacked(server, program, disk, options, meter)
        for client in HONEST:
            run_own(server, client, "before\n")
        before = server.memory(), server.files()
        attack_all(room, options.minutes, options.seed)
        return list(things_of(room, options.minutes, before))


def main():
    parser = suite.command_line(__doc__)
    parser.add_argument("--page", metavar="PATH")
    parser.add_argument("--minutes", type=int, default=1, metavar="N")
    parser.add_argument("--seconds", type=int, default=suite.grown(10), metavar="N", help="the clock of a place")
    parser.add_argument("--seed", type=int, default=1, metavar="N")
    options = parser.parse_args()
    count = len(ATTACKS) + 5
    suite.need(["python3-aiohttp", "python3-pycparser"], count)
    program = suite.program_of(options, count)
    raise_files()
    with tempfile.TemporaryDirectory(prefix="attacked-") as folder:
        things = attacked(program, options, folder)
    suite.try_each(things, lambda thing: thing[0], lambda thing: thing[1])


if __name__ == "__main__":
    main()

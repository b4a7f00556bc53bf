#!/usr/bin/env python3
"""Asks the server of the page as its page does, and as nobody should, and says what is otherwise than it should be.

    python3 tests/runners/served.py [--program PATH] [--page PATH] [--only WORDS] [--loaded N] [--minutes N]

Runs have their own limits and ends. What is no request, or comes by another name, is refused in words, with one line in the log. Clients
that do not read, do not send, send too much or fill the line keep nobody else from an answer within twice the clock. 1,000 runs from 200
connections among such clients each have their own answer; no more processes run at once than may, none is there beyond its clock, nothing
is left of any, and the server's memory stays what it was. A C program is run at its own lines, and reads no file of the machine. No browser
is needed: `browsed.py` has one. The last line is `N passed, M failed`.
"""
import base64
import concurrent.futures
import contextlib
import gzip
import http.client
import json
import os
import re
import resource
import signal
import socket
import subprocess
import tempfile
import threading
import time

import suite  # first: it makes the references and the generators importable
from hostile_c import BOMB as MACRO, READS

PAGE = os.path.join(suite.ROOT, "tools", "page")
UNIT = os.path.join(suite.ROOT, "tools", "cyclone-page.service")
SECURITY = os.path.join(suite.ROOT, "SECURITY.md")
# Sets the limits of the systemd unit, as far as possible without systemd. The prctl option 65 denies memory that is
# both writable and executable.
WALLS = """#!/bin/sh
exec unshare --map-root-user --mount --ipc --uts sh -c '
mount -o remount,bind,ro / && umask 0077 && exec setpriv --inh-caps=-all --ambient-caps=-all --bounding-set=-all --no-new-privs \\
prlimit --core=0 /usr/bin/python3 -c "
import ctypes, os, sys
ctypes.CDLL(None).prctl(65, 1, 0, 0, 0)
os.execv(sys.argv[1], sys.argv[1:])" "$@"' sh "{page}" "$@"
"""
# The limits of the servers under test. On a busy machine a process may take long and must still end by itself, so the time limit is
# long. A test that stops a run by the clock uses the limit SHORT. A run that must continue until it is stopped gets more steps than any
# machine executes within its time limit.
SECONDS, SHORT, RUNS, OUTPUT, TEXT = 60, 3, 2, 10_000, 50_000
WITHOUT_END = ("--steps", "1000000000000")
# The time that an answer may take in addition to the server's time limit; it grows with the load of
# the machine.
SPARE = suite.grown(5)
# The server closes a connection on which no data arrives for this number of seconds.
RECEIVING = 10
# The seconds for which the server may fail to respond, in addition to its delay without work.
DEAF = 0.5
# The client addresses that the server sees; all of 127.0.0.0/8 belongs to this machine.
HONEST, HOSTILE = "127.0.0.9", ("127.0.0.2", "127.0.0.3", "127.0.0.4", "127.0.0.5", "127.0.0.6")

HELLO = "int main() {\n  putchar('H');\n  return 7;\n}\n"
NEAR = "int main() {\n  int count = 3;\n  putchar('0' + count);\n  return coun;\n}\n"
THROWN = (
    "datatype exn { Odd(int); };\nvoid test(int n) {\n  if (n > 2) throw new Odd(n);\n}\n"
    "int main() {\n  test(1);\n  test(3);\n  return 0;\n}\n")
DEEP = "int down(int n) { return down(n + 1); }\nint main() { return down(0); }\n"
FILLED = "struct N { struct N *next; };\nint main() { struct N *all = NULL; while (1) all = new N{all}; return 0; }\n"
ENDLESS = "int main() {\n  int i = 0;\n  while (i < 9000) { putchar('.'); i = i + 1; }\n  while (i > 0) i = i + 2 - 2;\n  return 0;\n}\n"
PRINTING = "int main() { while (1) putchar('x'); return 0; }\n"
ECHO = "int main() {\n  int c = getchar();\n  while (c != -1) { putchar(c); c = getchar(); }\n  return 0;\n}\n"
MARKUP = (
    "int main() { return 0; } // </pre></script><script>document.title='taken'</script>"
    "<img src=x onerror=\"document.title='taken'\">\n")
C_OVERRUN = (
    "#include <stdio.h>\nint main(void) {\n  int a[3];\n  for (int i = 0; i <= 3; i++) a[i] = i;\n  printf(\"%d\\n\", a[1]);\n"
    "  return 0;\n}\n")


GET = b"GET /page.css HTTP/1.1\r\nHost: 127.0.0.1\r\n\r\n"


class NotThere(Exception):
    """What has to come did not come in time."""


class Server:
    """A server of the page, by its address."""

    def __init__(self, program, *options, page=None, files=None):
        words = [page or PAGE, *(["--program", program] if program else []), "--port", "0", "--seconds", str(SECONDS), "--runs", str(RUNS)]
        words += ["--output", str(OUTPUT), "--text", str(TEXT), *options]
        if files:
            words = ["/bin/sh", "-c", 'ulimit -n "$0" && exec "$@"', str(files), *words]
        self.log = tempfile.TemporaryFile("w+", encoding="utf-8", errors="replace")
        self.process = subprocess.Popen(words, stdin=subprocess.DEVNULL, stdout=subprocess.PIPE, stderr=self.log, text=True)
        said = self.process.stdout.readline()
        if not said:
            self.process.wait()
            raise NotThere(f"the server did not start: {self.logged()}")
        self.address = said.strip()
        self.host = self.address.removeprefix("http://").rstrip("/")
        self.port = int(self.host.rpartition(":")[2])

    def __enter__(self):
        return self

    def __exit__(self, *_):
        self.end()

    def end(self):
        """Asks the server to end, and answers its status."""
        if self.process.poll() is None:
            self.process.send_signal(signal.SIGTERM)
        try:
            return self.process.wait(suite.SECONDS)
        finally:
            self.process.kill()
            self.process.stdout.close()

    def logged(self):
        """What the server said on standard error."""
        size = os.fstat(self.log.fileno()).st_size
        return os.pread(self.log.fileno(), size, 0).decode("utf-8", "replace")

    def ask(self, path, body=b"", kind="application/json", method="POST", client="127.0.0.1", **more):
        """The status of an answer, and what it says."""
        connection = http.client.HTTPConnection("127.0.0.1", self.port, timeout=10 * suite.SECONDS, source_address=(client, 0))
        try:
            content = body if isinstance(body, bytes) else json.dumps(body).encode("ascii")
            connection.request(method, path, content, {"Content-Type": kind, **more})
            answer = connection.getresponse()
            return answer.status, answer.read()
        finally:
            connection.close()

    def get(self, path, **more):
        return self.ask(path, method="GET", **more)

    def run(self, source, client="127.0.0.1", **more):
        """What is told of a run, object by object."""
        status, said = self.ask("/run", {"source": source, **more}, client=client)
        return [json.loads(line) for line in said.decode("ascii").splitlines()] if status == 200 else [{"now": status, **json.loads(said)}]

    def can(self):
        return set(json.loads(self.get("/about")[1])["can"])

    def opened(self, client, buffer=None):
        """A connection of this client; one that hardly reads has a small buffer."""
        it = socket.socket()
        if buffer:
            it.setsockopt(socket.SOL_SOCKET, socket.SO_RCVBUF, buffer)
        it.bind((client, 0))
        it.settimeout(suite.SECONDS)
        it.connect(("127.0.0.1", self.port))
        return it

    def raw(self, content, client="127.0.0.1"):
        """What the server answers to these bytes, until it closes the connection."""
        with self.opened(client) as it:
            with contextlib.suppress(OSError):
                it.sendall(content)
            return received(it)

    def memory(self):
        """What the server has of the machine's memory, in KB."""
        with open(f"/proc/{self.process.pid}/status", encoding="ascii") as file:
            return int(re.search(r"VmRSS:\s*(\d+)", file.read())[1])

    def children(self):
        """The processes that the server runs now."""
        try:
            with open(f"/proc/{self.process.pid}/task/{self.process.pid}/children", encoding="ascii") as file:
                return file.read().split()
        except OSError:
            return []

    def files(self):
        """The files that the server has open."""
        return len(os.listdir(f"/proc/{self.process.pid}/fd"))


def received(connection):
    """All that comes on a connection until its end."""
    found = bytearray()
    with contextlib.suppress(OSError):
        while block := connection.recv(65_536):
            found += block
    return bytes(found)


def post(path, body, *heads, length=None):
    """The bytes of a request."""
    content = body if isinstance(body, bytes) else json.dumps(body).encode("ascii")
    sent = [f"POST {path} HTTP/1.1", "Host: 127.0.0.1", "Content-Type: application/json", *heads]
    if not any(it.startswith("Transfer-Encoding") for it in heads):
        sent.append(f"Content-Length: {len(content) if length is None else length}")
    return "\r\n".join([*sent, "", ""]).encode("ascii") + content


def waited(what, is_there, seconds):
    """Waits until something is so, and says whether it came."""
    end = time.monotonic() + seconds
    while not is_there():
        if time.monotonic() > end:
            return [f"this did not come in {seconds} s: {what}"]
        time.sleep(0.05)
    return []


def served(server, clock, what, client=HONEST):
    """Whether an honest client has its run within twice the clock."""
    start = time.monotonic()
    last = server.run(HELLO, client=client)[-1]
    took = time.monotonic() - start
    faults = [] if last.get("last") == "returned 7" else [suite.difference(f"{what}: the end of an honest run", "returned 7", last)]
    return faults + ([f"{what}: an honest run took {took:.1f} s"] if took > 2 * clock + SPARE else [])


# ---- what the server answers, to whatever it is sent


def refuses(server):
    """Requests that are none are answered in words, with one line in the log, and the server goes on."""
    wanted = (
        ("no JSON", 400, server.ask("/run", b"{")), ("no text to lay out", 400, server.ask("/format", [])),
        ("no UTF-8", 400, server.ask("/run", b'{"source":"\xff"}')),
        ("deep JSON", 400, server.ask("/run", b"[" * 100_000)), ("a list", 400, server.ask("/run", [])),
        ("a number for a text", 400, server.ask("/run", {"source": 3})), ("half a letter", 400, server.ask("/run", {"source": "\ud800"})),
        ("a text that is too long", 413, server.ask("/run", {"source": "x" * (TEXT + 1)})),
        ("an input that is too long", 413, server.ask("/run", {"source": HELLO, "input": "x" * (TEXT + 1)})),
        ("a request that is too long", 413, server.ask("/check", b"x" * (14 * TEXT + 20_000))),
        ("too many steps", 400, server.ask("/run", {"source": HELLO, "steps": 10**13})),
        ("no steps", 400, server.ask("/run", {"source": HELLO, "steps": 0})),
        ("a truth for a number", 400, server.ask("/run", {"source": HELLO, "pages": True})),
        ("a fraction", 400, server.ask("/run", {"source": HELLO, "calls": 1.5})),
        ("a form", 415, server.ask("/run", b"source=x", "application/x-www-form-urlencoded")),
        ("another page", 403, server.ask("/check", {"source": HELLO}, Origin="http://other.example")),
        ("another name of this machine", 403,
        server.ask("/check", {"source": HELLO}, Origin=server.address.rstrip("/"), Host="other.example")),
        ("a page that says it is on this machine", 403,
        server.ask("/check", {"source": HELLO}, Origin="http://other.example", Host="other.example")),
        ("a name without a server", 403, server.get("/about", Host="]x[")), ("another method", 405, server.get("/run")),
        ("another path", 404, server.get("/examples/../../etc/passwd")), ("the page of no code", 404, server.get("/explain/999")),
    )
    faults = [f"{what}: {status} and not {wished}" for what, wished, (status, _) in wanted if status != wished]
    faults += [f"{what}: it says nothing in words" for what, _, (_, said) in wanted if b'"words"' not in said]
    last = server.run(HELLO)[-1]
    faults += [] if last.get("last") == "returned 7" else [f"the server does not go on: {last}"]
    return faults + logged_lines(server, len(wanted))


def logged_lines(server, most):
    """What is wrong with the log: a traceback, what steers a terminal, or more than a line for a request."""
    log = server.logged()
    if re.search("[\0-\t\x0b-\x1f\x7f-\x9f\u202e]", log):
        return [f"the log steers a terminal: {suite.shown(log)}"]
    faults = [f"there is a traceback in the log: {suite.shown(log)}"] if "Traceback" in log or "File \"" in log else []
    return faults + ([f"{log.count(chr(10))} lines in the log for {most} requests"] if log.count("\n") > most else [])


# Malformed request bodies and heads, each with the statuses that the answer may have.
BOMB = gzip.compress(b" " * 50_000_000)
BROKEN = (
    ("no gzip", post("/run", b"not compressed", "Content-Encoding: gzip"), (400, 413)),
    ("half of a gzip", post("/run", gzip.compress(json.dumps({"source": HELLO}).encode())[:-12], "Content-Encoding: gzip"), (400, 413)),
    ("a bomb", post("/run", BOMB, "Content-Encoding: gzip"), (400, 413)),
    ("no deflate", post("/check", b"\xff\xff\xff", "Content-Encoding: deflate"), (400, 413)),
    ("a size that is none", post("/run", b"zz\r\n{}\r\n0\r\n\r\n", "Transfer-Encoding: chunked"), (400,)),
    ("two lengths", post("/run", b"{}", "Content-Length: 7"), (400,)),
    ("a length that is none", post("/run", b"{}", length="many"), (400,)),
    ("another protocol", b"GET / HTTQ/9\r\n\r\n", (400,)),
    ("a path that steers a terminal", b"GET /%1b%5b2J%e2%80%ae%c2%9b HTTP/1.1\r\nHost: 127.0.0.1\r\n\r\n", (404,)),
    ("bytes", bytes(range(256)) * 4 + b"\r\n\r\n", (400,)),
    ("a head without an end", b"GET / HTTP/1.1\r\n" + b"".join(b"A%d: b\r\n" % n for n in range(9_000)), (400, 431)),
    ("a line that is too long", b"GET /" + b"x" * 20_000 + b" HTTP/1.1\r\nHost: 127.0.0.1\r\n\r\n", (400, 431)),
    ("a head that is too long", b"GET / HTTP/1.1\r\nHost: 127.0.0.1\r\nA: " + b"x" * 20_000 + b"\r\n\r\n", (400, 431)),
)


def refuses_broken(server):
    """Bodies that are compressed or none are 400 or 413 in words, with one line in the log and no traceback."""
    faults = []
    for what, sent, wished in BROKEN:
        said = server.raw(sent)
        status = re.match(rb"HTTP/1\.[01] (\d+)", said)
        if not status or int(status[1]) not in wished or b'"words"' not in said:
            faults.append(f"{what}: {suite.shown(said[:200])}, and not {wished} in words")
    last = server.run(HELLO)[-1]
    faults += [] if last.get("last") == "returned 7" else [f"the server does not go on: {last}"]
    return faults + logged_lines(server, len(BROKEN))


def of_runs(server):
    """Limits that are sent are those of the run."""
    faults = []
    for source, more, wanted in (
        (DEEP, {"calls": 9}, "More than 9 calls"), (FILLED, {"pages": 3}, "full: 3 pages"),
        (ENDLESS, {"steps": 100}, "after 100 instructions"),
        (THROWN, {}, "Odd with the int 3"), ("int main() { int n = 0; return 1 / n; }", {}, "Div_zero"),
    ):
        words = server.run(source, **more)[-1].get("words", "")
        if wanted not in words:
            faults.append(suite.difference(f"the end with {more}", wanted, words))
    return faults


def of_c(server):
    """A C program is run and listed at its own lines, with what gcc's prints, and reads no file of the server."""
    told = server.run(C_OVERRUN, language="c")[-1]
    faults = [] if [it["line"] for it in told.get("places", [])] == [4] and "Array_bounds" in told["words"] else [
        f"an access outside of an array in the fourth line ends so: {told}"]
    status, said = server.ask("/listing", {"source": C_OVERRUN, "language": "c"})
    lines = {it["line"] for it in json.loads(said)["lines"]} if status == 200 else {status}
    faults += [] if {3, 4, 5, 6} <= lines <= {None, 2, 3, 4, 5, 6} else [f"the lines of a listing are {lines}"]
    wrong = json.loads(server.ask("/check", {"source": C_OVERRUN.replace("a[3]", "a[3.5]"), "language": "c"})[1])
    got = [(it["line"], it["kind"]) for it in wrong["findings"]], wrong["end"], wrong["translation"]
    faults += [] if got == ([(3, "refusal")], "fault", None) else [f"a size with a fraction in the third line: {got}"]
    for text, line in READS:
        status, said = server.ask("/check", {"source": text.decode() + "int main(void) { return 0; }\n", "language": "c"})
        places = [it["line"] for it in json.loads(said).get("findings", [])]
        faults += [] if (status, places) == (200, [line]) and b"root:" not in said else [f"what reads by {text!r}: {suite.shown(said)}"]
    status, said = server.ask("/run", {"source": HELLO, "language": "pascal"})
    faults += [] if status == 400 and b"language" in said else [f"another language: {status}, {said}"]
    examples = [it for it in json.loads(server.get("/about")[1])["examples"] if it["language"] == "c"]
    faults += [] if examples else ["there are no examples in C"]
    return faults + [fault for it in examples for fault in like_gcc(server, it)]


def like_gcc(server, example):
    """How a run of a C program differs from that of what gcc makes of it. One that ends early has printed as much as that at most."""
    with tempfile.TemporaryDirectory(prefix="served-") as folder:
        source, binary = (os.path.join(folder, it) for it in ("it.c", "it"))
        with open(source, "w", encoding="utf-8") as file:
            file.write(example["source"])
        subprocess.run(["gcc", "-w", "-std=gnu99", source, "-o", binary], check=True)
        wanted = suite.run([binary], example["input"].encode())
    told = server.run(example["source"], input=example["input"], language="c")
    printed = b"".join(base64.b64decode(it["bytes"]) for it in told if it["now"] == "output")
    if told[-1].get("end") == "uncaught":
        return [] if wanted.stdout.startswith(printed) else [suite.difference(example["name"], wanted.stdout, printed)]
    got, wanted = (told[-1].get("last"), printed), (f"returned {wanted.returncode}", wanted.stdout)
    return [] if got == wanted else [suite.difference(example["name"], wanted, got)]


# The maximum number of lines of a listing. The script that stands in for the program in this test
# records the arguments of its command line.
LISTED = 4_000
NOTING = """#!/bin/sh
echo "$*" >> "{folder}/words"
exec "{program}" "$@"
"""


def lists_in_part(program, page):
    """Of a long listing no more lines are asked for than are sent, and it is told how many there are."""
    source = "int main() {" + "putchar(65); " * 1_500 + "return 0; }"
    with tempfile.TemporaryDirectory(prefix="served-") as folder:
        text, image, noting = (os.path.join(folder, it) for it in ("it.cyc", "it.elf", "noting"))
        for path, content in ((text, source), (noting, NOTING.format(folder=folder, program=program))):
            with open(path, "w", encoding="utf-8") as file:
                file.write(content)
        os.chmod(noting, 0o755)
        with Server(noting, page=page) as server:
            listing = json.loads(server.ask("/listing", {"source": source})[1])
            short = json.loads(server.ask("/listing", {"source": HELLO})[1])
        suite.run([program, "compile", text, "-o", image])
        count = suite.run([program, "disasm", image]).stdout.count(b"\n")
        with open(os.path.join(folder, "words"), encoding="utf-8") as file:
            asked = [line for line in file if line.startswith("disasm") and "--help" not in line]
    wanted = LISTED, count, True, 2, [f"--at-most {LISTED}"]
    got = len(listing["lines"]), listing["all"], short["all"] == len(short["lines"]), len(asked), sorted(
        {" ".join(line.split()[1:3]) for line in asked})
    faults = [] if count > LISTED else [f"the text has {count} instructions only"]
    return faults + ([] if got == wanted else [suite.difference("the lines, all of them, and what is asked for", wanted, got)])


# ---- hostile clients, each with an honest one beside it


def grows_by_macros(program, page):
    """A C program that cpp makes large holds a place to its clock at most, and no memory of the server."""
    with Server(program, "--seconds", str(SHORT), page=page) as server:
        before, start = server.memory(), time.monotonic()
        told = server.run(MACRO.decode(), client=HOSTILE[0], language="c")[-1]
        took, grown = time.monotonic() - start, server.memory() - before
        faults = [] if told["now"] in ("stopped", "not done") or told.get("accepted") is False else [f"it ends so: {told}"]
        faults += [f"it took {took:.1f} s"] if took > SHORT + SPARE else []
        faults += [f"the server has {grown} KB more of memory"] if grown > 16_000 else []
        return faults + waited("the end of its processes", lambda: not server.children(), SPARE) + served(server, SHORT, "after it")


def does_not_read(program, page):
    """Clients that send many requests and do not read keep no place beyond its clock."""
    with Server(program, "--seconds", str(SHORT), "--output", "10000000", page=page) as server:
        held = []
        for client in HOSTILE[:2]:
            it = server.opened(client, 2_048)
            it.sendall(post("/run", {"source": PRINTING}) * 30)
            held.append(it)
        time.sleep(1)
        faults = served(server, SHORT, "among requests in a row")
        held += [server.opened(client, 2_048) for client in HOSTILE for _ in range(4)]
        for it in held[2:]:
            it.sendall(post("/run", {"source": PRINTING}))
        time.sleep(1)
        faults += served(server, SHORT, "among clients that do not read")
        # The test waits for four runs of each of four client addresses, of which the server executes
        # two at once. The test adds some seconds for the output that nobody reads.
        faults += waited("the end of all that nobody reads", lambda: not server.children(), (len(held) / RUNS + 2) * SHORT + SPARE)
        for it in held:
            it.close()
        return faults


def fills_the_line(program, page):
    """A client that fills the line has its share of it, and others come before its further turns."""
    with Server(program, "--seconds", str(SHORT), "--waiting", "20", *WITHOUT_END, page=page) as server:
        with concurrent.futures.ThreadPoolExecutor(60) as pool:
            sent = [pool.submit(tried, server, client) for client in HOSTILE[:3] for _ in range(16)]
            time.sleep(1)
            faults = served(server, SHORT, "in a line that others fill")
            said = [it.result()[-1].get("words", "") for it in sent if it.done()]
            server.end()
        refused = sum("your address" in it for it in said)
        return faults + ([] if refused > 20 else [f"{refused} of 48 requests in a line of 20 were told that their address has its share"])


def sends_nothing(program, page):
    """Connections on which nothing comes, or half a request, are closed."""
    with Server(program, page=page) as server:
        half = post("/run", {"source": HELLO})
        parts = {"idle": b"", "half a head": half[:40], "half a body": half[:-9], "a head": half.partition(b"{")[0]}
        open_ones = {what: server.opened(HOSTILE[0]) for what in parts}
        for what, part in parts.items():
            open_ones[what].sendall(part)
        after = server.opened(HOSTILE[0])
        after.sendall(GET)
        open_ones["idle, after a request"] = after
        faults, end = [], time.monotonic() + 2 * RECEIVING + SPARE
        for what, it in open_ones.items():
            it.settimeout(max(0.1, end - time.monotonic()))
            try:
                said = b""
                while block := it.recv(65_536):
                    said += block
                if what.startswith("half") and b" 408 " not in said:
                    faults.append(f"{what}: {suite.shown(said)}, and not 408 in words")
            except TimeoutError:
                faults.append(f"{what}: the connection is still there")
            except OSError:
                pass
            it.close()
        return faults


def is_held_up(program, page):
    """A request that came in time is answered, also where the machine lets the server read it only after that."""
    with Server(program, page=page) as server, server.opened(HONEST) as early, server.opened(HONEST) as late:
        late.sendall(GET[:9])
        time.sleep(1)
        server.process.send_signal(signal.SIGSTOP)
        early.sendall(GET)
        late.sendall(GET[9:])
        time.sleep(RECEIVING + 1)
        server.process.send_signal(signal.SIGCONT)
        said = {"a request": received(early), "the rest of a request": received(late)}
        return [f"{what}: {suite.shown(it[:100])}" for what, it in said.items() if not it.startswith(b"HTTP/1.1 200 ")]


def uses_up_files(program, page):
    """Connections beyond the limit of open files are refused in words, and the log stays small."""
    limit, count = 700, 900
    with Server(program, page=page, files=limit) as server:
        held, said = [], []
        for number in range(count):
            with contextlib.suppress(OSError):
                held.append(server.opened(HOSTILE[number % len(HOSTILE)]))
        faults = [f"{server.files()} files are open"] if server.files() > limit - 60 else []
        start = time.monotonic()
        try:
            said = server.run(HELLO, client=HONEST)
        except (OSError, http.client.HTTPException) as error:
            said = [{"words": repr(error)}]
        if said[-1].get("last") != "returned 7" or time.monotonic() - start > SPARE:
            faults.append(f"among idle connections an honest run ends so after {time.monotonic() - start:.1f} s: {said[-1]}")
        with contextlib.suppress(OSError):
            for it in held:
                it.close()
        faults += served(server, SHORT, "after them")
        size = len(server.logged())
        return faults + logged_lines(server, 60) + ([f"the log has {size} bytes"] if size > 20_000 else [])


def has_few_files(program, page):
    """Where the limit of open files is too low to begin, that is said."""
    try:
        with Server(program, page=page, files=100):
            return ["it began with 100 files"]
    except NotThere as error:
        return [] if "open files are needed" in str(error) else [f"it said {error}"]


def is_killed(program, page):
    """A process that somebody else ends by SIGKILL is told as what it is; one that runs out of its clock as that."""
    faults = []
    with Server(program, *WITHOUT_END, page=page) as server, concurrent.futures.ThreadPoolExecutor(2) as pool:
        running = pool.submit(server.run, ENDLESS)
        faults += waited("a run", lambda: any(is_running(it) for it in server.children()), suite.SECONDS)
        time.sleep(0.5)
        for it in server.children():
            os.kill(int(it), signal.SIGKILL)
        words = running.result()[-1].get("words", "")
        faults += [] if "SIGKILL" in words else [suite.difference("a run that was killed", "SIGKILL", words)]
    with Server(program, "--seconds", "1", *WITHOUT_END, page=page) as server:
        words = server.run(ENDLESS)[-1].get("words", "")
        faults += [] if "took more than 1 seconds" in words else [suite.difference("a run out of its clock",
            "took more than 1 seconds", words)]
    return faults


def is_running(process, word="run"):
    """Whether a process runs an image now, with this word in its command."""
    try:
        with open(f"/proc/{process}/cmdline", "rb") as file:
            words = file.read().split(b"\0")
            return b"run" in words and word.encode("ascii") in words
    except OSError:
        return False


def is_heard(program, page):
    """No request makes the server deaf to others: names, listings and bodies as long as may be."""
    names = "".join(f"int a{n:05}(int b{n:05}) {{ return b{n:05}; }}\n" for n in range(700))
    long = f"datatype exn {{ Last; }};\n{names}int main() {{ throw new Last; return 0; }} /* {'x' * 60_000} */\n"
    faults = []
    with Server(program, "--text", "100000", page=page) as server:
        worst, ended = [0.0], threading.Event()

        def listen():
            while not ended.is_set():
                start = time.monotonic()
                server.get("/page.css", client=HONEST)
                worst[0] = max(worst[0], time.monotonic() - start)
                time.sleep(0.01)

        listener = threading.Thread(target=listen)
        listener.start()
        # On a busy machine even an idle server is slow, so the limit includes the measured delay.
        time.sleep(3)
        most = DEAF + 2 * worst[0]
        for path, body in (("/run", {"source": long}), ("/listing", {"source": long}), ("/check", {"source": "(" * 99_999}),
            ("/run", b"[" * 1_200_000)):
            worst[0] = 0.0
            status, said = server.ask(path, body, client=HOSTILE[0])
            print(f"{path}: {status}, {len(said)} bytes; another client waited at most {worst[0]:.2f} s")
            faults += [f"the server was deaf for {worst[0]:.2f} s at {path}"] if worst[0] > most else []
            if path == "/run" and status == 200 and b"not caught: Last" not in said:
                faults.append(f"the exception has another name: {suite.shown(said[-600:])}")
        ended.set()
        listener.join()
    return faults


def has_names(program, page):
    """The name by which a browser asks is looked at for every --host."""
    wanted = {"evil.example": 403, "evil.example:80": 403, "127.0.0.1": 200, "localhost": 200, "[::1]": 200, "cyclone.example": 200,
        "CYCLONE.example:443": 200, "": 403}
    faults = []
    for host in ("127.0.0.1", "0.0.0.0"):
        with Server(program, "--host", host, "--name", "cyclone.example", page=page) as server:
            got = {name: server.get("/about", Host=name)[0] for name in wanted}
            faults += [] if got == wanted else [suite.difference(f"the statuses with --host {host}", wanted, got)]
            got = server.get("/about", Host="10.0.0.7")[0]
            wished = 200 if host == "0.0.0.0" else 403
            faults += [] if got == wished else [f"another address with --host {host}: {got} and not {wished}"]
    return faults


def has_full_disks(program, page):
    """A log that cannot be written keeps nobody from an answer."""
    with open("/dev/full", "w", encoding="ascii") as full:
        words = [page or PAGE, "--program", program, "--port", "0"]
        process = subprocess.Popen(words, stdin=subprocess.DEVNULL, stdout=subprocess.PIPE, stderr=full, text=True)
        try:
            port = int(process.stdout.readline().strip().rstrip("/").rpartition(":")[2])
            statuses = []
            for body in (b"{", b'{"source": ""}'):
                connection = http.client.HTTPConnection("127.0.0.1", port, timeout=suite.SECONDS)
                connection.request("POST", "/check", body, {"Content-Type": "application/json"})
                statuses.append(connection.getresponse().status)
                connection.close()
            return [] if statuses == [400, 200] else [suite.difference("the statuses", [400, 200], statuses)]
        finally:
            process.terminate()
            process.wait()
            process.stdout.close()


# ---- many at once

# The requests sent under load, each with members that the last JSON object of its answer must have.
LOADS = (
    ({"source": ECHO, "input": "#"}, {"now": "ended", "end": "returned"}),
    ({"source": HELLO}, {"now": "ended", "end": "returned"}),
    ({"source": NEAR}, {"now": "compiled", "accepted": False}),
    ({"source": THROWN}, {"now": "ended", "end": "uncaught"}),
    ({"source": DEEP}, {"now": "ended", "end": "full"}),
    ({"source": FILLED, "pages": 4}, {"now": "ended", "end": "full"}),
    ({"source": PRINTING}, {"now": "stopped", "why": "output"}),
    ({"source": ENDLESS, "steps": 20_000}, {"now": "ended", "end": "budget spent"}),
    ({"source": "(" * 5_000}, {"now": "compiled", "accepted": False}),
    ({"source": "int main() {" + "{" * 5_000}, {"now": "compiled", "accepted": False}),
    ({"source": "\0\x1b[2J\u202e" * 1000}, {"now": "compiled", "accepted": False}),
    ({"source": "/*" + "x" * 9_000}, {"now": "compiled", "accepted": False}),
    ({"source": "".join(f"int a{n};" for n in range(400)) + HELLO}, {"now": "ended", "end": "returned"}),
    ({"source": MARKUP}, {"now": "ended", "end": "returned"}),
    ({"source": C_OVERRUN, "language": "c"}, {"now": "ended", "end": "uncaught"}),
)
# The number of runs under load, of simultaneous connections, and of client addresses.
LOADED, CONNECTIONS, ADDRESSES = 1_000, 200, 40
# The time limit in seconds and the number of runs at once under load. Hostile clients occupy some
# of the runs up to this time limit.
LOAD_SECONDS, LOAD_RUNS = 20, 4
# A run with this step limit is recognised as one that the test kills.
MARKED = 999_999_999_999


def loaded(program, page, runs=LOADED, minutes=0):
    """1,000 runs among hostile clients have their own answers; no process is there beyond its clock, and nothing is left of any."""
    faults, most, longest, begun, done, ended = [], 0, 0, {}, 0, threading.Event()
    options = ("--seconds", str(LOAD_SECONDS), "--runs", str(LOAD_RUNS), "--waiting", "400", *WITHOUT_END)
    with Server(program, *options, page=page) as server, concurrent.futures.ThreadPoolExecutor(CONNECTIONS) as pool:
        for it in [pool.submit(load_one, server, number) for number in range(CONNECTIONS)]:
            it.result()
        before, files, start = server.memory(), server.files(), time.monotonic()
        attackers = [threading.Thread(target=attack, args=(server, ended, client)) for attack, client in zip(ATTACKS, HOSTILE)]
        for it in attackers:
            it.start()
        while not done or time.monotonic() < start + 60 * minutes:
            running = [pool.submit(load_one, server, number) for number in range(runs)]
            while not all(it.done() for it in running):
                now = server.children()
                most, begun = max(most, len(now)), {it: begun.get(it, time.monotonic()) for it in now}
                longest = max([longest, *(time.monotonic() - it for it in begun.values())])
                time.sleep(0.01)
            done += runs
            faults += [fault for it in running for fault in it.result()]
            print(f"{done} runs in {time.monotonic() - start:.0f} s: {server.memory() - before:+} KB of memory, {len(faults)} faults",
                flush=True)
        took = time.monotonic() - start
        ended.set()
        for it in attackers:
            it.join()
        faults = faults[:10] + waited("the end of all processes and files", lambda: not server.children() and server.files() <= files,
            2 * LOAD_SECONDS + SPARE)
        grown = server.memory() - before
        print(f"{done} runs from {CONNECTIONS} connections in {took:.0f} s: at most {most} processes at once, none for longer than"
            f" {longest:.1f} s, {grown:+} KB after {before}")
        faults += [f"{most} processes ran at once, and {LOAD_RUNS} may"] if most > LOAD_RUNS else []
        faults += [f"a process ran for {longest:.1f} s"] if longest > LOAD_SECONDS + SPARE else []
        faults += [f"the server has {grown} KB more of memory than before"] if grown > 16_000 else []
        return faults + logged_lines(server, 60 * (2 + int(took / 60)))


def load_one(server, number):
    """Sends one of the loads, and says how its answer is none of it."""
    body, wanted = LOADS[number % len(LOADS)]
    body = {name: value.replace("#", f"input {number}") if name == "input" else value for name, value in body.items()}
    try:
        told = server.run(client=f"127.0.1.{1 + number % ADDRESSES}", **body)
    except (OSError, http.client.HTTPException, ValueError) as error:
        return [f"run {number} is lost: {error!r}"]
    got = {name: told[-1].get(name) for name in wanted}
    faults = [] if got == wanted else [suite.difference(f"run {number}", wanted, told[-1])]
    if "input" in body:
        printed = "".join(it["bytes"] for it in told if it["now"] == "output")
        sent = base64.b64encode(body["input"].encode()).decode()
        faults += [] if printed == sent else [suite.difference(f"the output of run {number}", sent, printed)]
    return faults


# ---- what hostile clients do, over and over, until they are to end


def over_and_over(attack):
    def run(server, ended, client):
        while not ended.is_set():
            with contextlib.suppress(OSError, http.client.HTTPException, ValueError):
                attack(server, client, ended)
    return run


@over_and_over
def pipeline(server, client, ended):
    """Sends many requests at once on connections that are not read."""
    held = [server.opened(client, 2_048) for _ in range(4)]
    for it in held:
        it.sendall(post("/run", {"source": PRINTING}) * 30)
    ended.wait(4)
    for it in held:
        it.close()


@over_and_over
def trickle(server, client, ended):
    """Sends a request, and reads its answer, a byte at a time."""
    with server.opened(client, 2_048) as it:
        for byte in post("/run", {"source": ENDLESS}):
            if ended.is_set():
                return
            it.sendall(bytes([byte]))
            time.sleep(0.02)
        while it.recv(1) and not ended.is_set():
            time.sleep(0.02)


@over_and_over
def flood(server, client, ended):
    """Opens connections and leaves them idle, and begins runs that are left at once."""
    held = [server.opened(client) for _ in range(100)]
    for it in held[:20]:
        it.sendall(post("/run", {"source": ENDLESS}))
    time.sleep(0.1)
    for it in held[:20]:
        it.close()
    ended.wait(3)
    for it in held[20:]:
        it.close()


@over_and_over
def nonsense(server, client, ended):
    """Sends what is none, and bombs."""
    for _, sent, _ in BROKEN:
        if not ended.is_set():
            server.raw(sent, client)
    ended.wait(0.2)


@over_and_over
def kill(server, client, ended):
    """Ends its own runs by SIGKILL, as a machine that is out of memory does."""
    with concurrent.futures.ThreadPoolExecutor(1) as pool:
        running = pool.submit(server.run, ENDLESS, client=client, steps=MARKED)
        while not running.done() and not ended.is_set():
            for it in server.children():
                if is_running(it, str(MARKED)):
                    os.kill(int(it), signal.SIGKILL)
            time.sleep(0.1)


ATTACKS = (pipeline, trickle, flood, nonsense, kill)


# ---- the end, and what is left


def waits(program, page):
    """Where too many wait it is said at once; and an end of the server ends what it runs."""
    faults = []
    with Server(program, "--waiting", "1", "--runs", "1", *WITHOUT_END, page=page) as server:
        with concurrent.futures.ThreadPoolExecutor(4) as pool:
            running = [pool.submit(tried, server) for _ in range(3)]
            faults += waited("an answer to one of three", lambda: any(it.done() for it in running), suite.SECONDS)
            said = [it.result()[-1] for it in running if it.done()]
            if [it.get("now") for it in said] != ["not done"] or "wait already" not in said[0]["words"]:
                faults.append(suite.difference("what the third of three is told", "too many wait already", said))
            children = server.children()
            start = time.monotonic()
            status = server.end()
            if status != 0 or time.monotonic() - start > 10:
                faults.append(f"the server ended with {status} in {time.monotonic() - start:.1f} s")
            for it in running:
                it.result()
    left = [it for it in children if os.path.exists(f"/proc/{it}")]
    return faults + ([f"processes are left of a server that ended: {left}"] if left else [])


def tried(server, client="127.0.0.1"):
    """A run of which the server may end before it does."""
    with contextlib.suppress(OSError, http.client.HTTPException, ValueError):
        return server.run(ENDLESS, client=client)
    return [{"now": "gone"}]


def left_behind(program, page):
    """Nothing is written: a server may have a folder for its files that it cannot write to."""
    with tempfile.TemporaryDirectory(prefix="served-") as folder:
        before = {**os.environ}
        os.environ["TMPDIR"] = folder
        try:
            with Server(program, page=page) as server:
                server.run(ECHO, input="x")
                server.ask("/listing", {"source": HELLO})
                server.ask("/check", {"source": HELLO})
        finally:
            os.environ.clear()
            os.environ.update(before)
        found = os.listdir(folder)
    return [f"these are left: {found}"] if found else []


def has_walls(program, page):
    """The page works as its unit for systemd starts it: with its options, no rights, nothing to write to, and no code that is writable."""
    with open(UNIT, encoding="utf-8") as file:
        settings = dict(line.strip().split("=", 1) for line in file if "=" in line and not line.startswith("#"))
    wanted = {
        "NoNewPrivileges": "yes", "DynamicUser": "yes", "CapabilityBoundingSet": "", "ProtectSystem": "strict", "IPAddressDeny": "any",
        "RestrictNamespaces": "yes", "MemoryDenyWriteExecute": "yes"}
    faults = [f"the unit says {name}={settings.get(name)}" for name, it in wanted.items() if settings.get(name) != it]
    words = settings["ExecStart"].split()
    at = words.index("--port")
    with tempfile.TemporaryDirectory(prefix="served-") as folder:
        start = os.path.join(folder, "start")
        with open(start, "w", encoding="utf-8") as file:
            file.write(WALLS.format(page=os.path.abspath(page or PAGE)))
        os.chmod(start, 0o755)
        with Server(program, *words[1:at], *words[at + 2:], page=start) as server:
            ends = [server.run(HELLO)[-1].get("last"), server.run(C_OVERRUN, language="c")[-1].get("last")]
            with open(f"/proc/{server.process.pid}/status", encoding="ascii") as file:
                status = re.findall(r"^(CapEff|CapBnd|NoNewPrivs):\s*(\w+)", file.read(), re.M)
    faults += [] if ends == ["returned 7", "uncaught 2 0"] else [f"runs end so: {ends}"]
    return faults + ([] if status == [("CapEff", "0" * 16), ("CapBnd", "0" * 16), ("NoNewPrivs", "1")] else [f"its rights are {status}"])


def is_a_unit(_, page):
    """Systemd takes the page's unit without a warning, and rates its exposure no higher than SECURITY.md says."""
    with open(UNIT, encoding="utf-8") as file:
        unit = file.read()
    with open(SECURITY, encoding="utf-8") as file:
        rated = re.search(r"rates its exposure (\d)\.(\d) of\s10", file.read())
    with tempfile.TemporaryDirectory(prefix="served-") as folder:
        path = os.path.join(folder, os.path.basename(UNIT))
        with open(path, "w", encoding="utf-8") as file:
            file.write(unit.replace(unit.partition("ExecStart=")[2].split()[0], os.path.abspath(page or PAGE)))
        verified = suite.run(["systemd-analyze", "verify", "--man=no", path])
        words = ["systemd-analyze", "security", "--offline=true", "--no-pager", f"--threshold={rated[1]}{rated[2]}", path]
        exposed = suite.run(words)
    faults = [f"systemd says {suite.shown(verified.stderr)}"] if verified.returncode or verified.stderr else []
    return faults + ([f"its exposure is higher: {suite.shown(exposed.stdout[-200:])}"] if exposed.returncode else [])


def installed(program, _):
    """The page is served from where make install puts it, with the program and the examples that lie there."""
    with tempfile.TemporaryDirectory(prefix="served-") as folder:
        subprocess.run(["make", "-s", "-C", suite.ROOT, "install", f"PREFIX={folder}", f"PROGRAM={program}"], check=True,
            stdout=subprocess.DEVNULL)
        with Server(None, page=os.path.join(folder, "bin", "cyclone-page")) as server:
            last = server.run(HELLO)[-1]
            examples = json.loads(server.get("/about")[1])["examples"]
            in_c = server.run(C_OVERRUN, language="c")[-1].get("last")
            paths = [path for path in ("/", "/page.js", "/page.css") if server.get(path)[0] != 200]
    faults = [] if last.get("last") == "returned 7" else [suite.difference("the end of a run", "returned 7", last)]
    faults += [] if in_c == "uncaught 2 0" else [suite.difference("the end of a run in C", "uncaught 2 0", in_c)]
    return faults + ([] if len(examples) > 10 else ["there are no examples"]) + [f"{path} is not there" for path in paths]


ASKED = (refuses, refuses_broken, of_runs, of_c)
ATTACKED = (
    lists_in_part, does_not_read, fills_the_line, sends_nothing, is_held_up, uses_up_files, has_few_files, is_killed, is_heard, grows_by_macros, has_names,
    has_full_disks, loaded, waits, left_behind, has_walls, is_a_unit, installed,
)


def raise_files():
    """Raises the limit of open files of this process, and of those that it starts, to what many connections need."""
    soft, hard = resource.getrlimit(resource.RLIMIT_NOFILE)
    most = 4_096 if hard == resource.RLIM_INFINITY else min(hard, 4_096)
    if soft != resource.RLIM_INFINITY:
        resource.setrlimit(resource.RLIMIT_NOFILE, (max(soft, most), hard))


def main():
    parser = suite.command_line(__doc__)
    parser.add_argument("--page", metavar="PATH")
    parser.add_argument("--loaded", type=int, default=LOADED, metavar="N", help="so many runs under load")
    parser.add_argument("--minutes", type=int, default=0, metavar="N", help="such runs for so long")
    parser.add_argument("--only", default="", metavar="WORDS", help="the tests in whose names one of these words stands")
    options = parser.parse_args()
    tests = [it for it in (*ASKED, *ATTACKED) if not options.only or any(word in it.__name__ for word in options.only.split())]
    suite.need(["python3-aiohttp", "python3-pycparser", "gcc", "systemd-analyze"], len(tests))
    program = suite.program_of(options, len(tests))
    raise_files()

    def faults_of(test):
        start = time.monotonic()
        try:
            if test is loaded:
                return loaded(program, options.page, options.loaded, options.minutes)
            if test not in ASKED:
                return test(program, options.page)
            with Server(program, page=options.page) as server:
                return test(server)
        except (OSError, NotThere, http.client.HTTPException) as error:
            return [repr(error)]
        finally:
            print(f"{test.__name__}: {time.monotonic() - start:.1f} s", flush=True)

    suite.try_each(tests, lambda test: test.__doc__.split("\n")[0], faults_of)


if __name__ == "__main__":
    main()

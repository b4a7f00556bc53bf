"""Connections of aiohttp with limits: how many there are, how many of each address, and how long each may take for what. A connection
carries one request. What is wrong with one is said in one line of the log."""
import collections
import fcntl
import ipaddress
import json
import logging
import re
import resource
import sys
import termios
import time

from aiohttp import web

# The seconds allowed for receiving a request's head and then its body, and the seconds for sending a message to
# a rejected client.
RECEIVING = 10
TURNING = 2
# The maximum bytes of a request's head, of data after a request, and of a single read by the
# parser.
HEAD = 32_768
BEYOND = 262_144
SLICE = 16_384
# The maximum number of rejected clients, in total and for each address, that receive a message at the
# same time; further connections are closed at once.
TURNED, TURNED_EACH = 100, 20
# The maximum number of connections that the kernel queues until the server accepts them.
BACKLOG = 128
# The file descriptors reserved for a running request, and for the server itself.
FILES, OWN = 16, 64
# The maximum number of log lines in a period, the period in seconds, and the maximum length of a
# line.
LINES, MINUTE, LENGTH = 60, 60, 300
# The prefix length of an IPv6 address that identifies one network.
NETWORK = 64
# Characters that a terminal interprets as a command or does not display.
HIDDEN = re.compile("[\x00-\x1f\x7f-\x9f\xad\u061c\u200b-\u200f\u2028-\u202e\u2060-\u206f\ufeff\ufff9-\ufffb\U000e0000-\U000e007f]")


def escaped(text):
    """A text of which a person sees each character."""
    return HIDDEN.sub(lambda it: "".join(f"\\x{byte:02x}" for byte in it[0].encode("utf-8", "surrogatepass")), text)


def group_of(address):
    """What counts as one client: an address of IPv4, or a network of IPv6."""
    try:
        it = ipaddress.ip_address(address.partition("%")[0])
    except ValueError:
        return address
    it = getattr(it, "ipv4_mapped", None) or it
    return str(it if it.version == 4 else ipaddress.ip_network((int(it), NETWORK), strict=False))


class Log(logging.Handler):
    """One line on standard error for each record, and no more than LINES a minute."""

    def __init__(self):
        super().__init__(logging.WARNING)
        self.begun, self.said = 0, 0

    def emit(self, record):
        why = record.exc_info and record.exc_info[1]
        self.say(record.getMessage() + (f": {type(why).__name__}: {why}" if why else ""))

    def say(self, words):
        now = time.monotonic()
        if now - self.begun > MINUTE:
            self.begun, self.said = now, 0
        self.said += 1
        if self.said > LINES:
            return
        line = "further lines of this minute are left out" if self.said == LINES else escaped(words)[:LENGTH]
        try:
            print(f"page: {line}", file=sys.stderr, flush=True)
        except (OSError, ValueError):
            # nobody reads the log, or the log's disk is full, so the error is ignored
            pass


LOG = Log()


def begin_log():
    """Sends what aiohttp and asyncio say to the log."""
    for name in ("aiohttp", "asyncio"):
        logger = logging.getLogger(name)
        logger.handlers, logger.propagate = [LOG], False


def most_connections(wanted, places):
    """How many connections the limit of descriptors allows beside this many places, at most the number that is wanted. The limit is raised
    as far as it may be."""
    soft, hard = resource.getrlimit(resource.RLIMIT_NOFILE)
    needed = places * FILES + OWN + BACKLOG + TURNED
    if soft != resource.RLIM_INFINITY and soft < needed + wanted and soft != hard:
        soft = needed + wanted if hard == resource.RLIM_INFINITY else min(hard, needed + wanted)
        resource.setrlimit(resource.RLIMIT_NOFILE, (soft, hard))
    most = wanted if soft == resource.RLIM_INFINITY else min(wanted, soft - needed)
    if most < min(wanted, TURNED_EACH):
        raise OSError(f"{needed + TURNED_EACH:,} open files are needed at least, and the limit is {soft:,}: see ulimit -n")
    return most


class Doors:
    """The connections that are open, by their addresses, in the order in which they came."""

    def __init__(self, most, each):
        self.most, self.each = most, each
        self.all, self.of = 0, collections.defaultdict(dict)

    def enter(self, connection):
        """Counts a connection. Returns why it is refused, empty where it is not; None says to close it at once."""
        own = self.of[connection.address]
        own[connection] = True
        self.all += 1
        why = ""
        if len(own) > self.each:
            why = "too many connections from your address are open: try again in a while"
        elif self.all > self.most and not self.make_room(len(own)):
            why = "too many connections are open: try again in a while"
        is_told = self.all <= self.most + TURNED and len(own) <= self.each + TURNED_EACH
        return why if is_told or not why else None

    def make_room(self, count):
        """Closes the oldest connection without a request of an address that has more than the count, the most if it can be."""
        for own in sorted(self.of.values(), key=len, reverse=True):
            if len(own) <= count:
                return False
            idle = next((it for it in own if it.work is None and not it.own.is_closing()), None)
            if idle is not None:
                idle.own.abort()
                return True
        return False

    def leave(self, connection):
        self.all -= 1
        del self.of[connection.address][connection]
        if not self.of[connection.address]:
            del self.of[connection.address]


class Connection(web.RequestHandler):
    """A connection that is closed where it is late, or where it sends more than a request; and its request is not worked at any longer
    than the connection is there."""

    def __init__(self, server, doors, **words):
        super().__init__(server, **words)
        self.doors, self.refusal, self.address, self.work, self.clock, self.own = doors, "", "", None, None, None
        self.received, self.beyond, self.has_come = 0, 0, False

    def connection_made(self, transport):
        self.own = transport
        self.address = group_of((transport.get_extra_info("peername") or ("nobody",))[0])
        self.refusal = self.doors.enter(self)
        if self.refusal is None:
            transport.abort()
            return
        super().connection_made(transport)
        self.end_in(TURNING if self.refusal else RECEIVING)

    def connection_lost(self, exc):
        self.end_in(None)
        self.doors.leave(self)
        if self.work is not None:
            self.work.cancel()
        super().connection_lost(exc)

    def data_received(self, data):
        if self.refusal is None:
            self.drop(data)
            return
        for start in range(0, len(data), SLICE):
            if self._request_count < 2:
                super().data_received(data[start:start + SLICE])
        if self._request_count == 1 and not self.has_come:
            # While a request is received, RECEIVING limits its time; executing the request sets
            # another time limit.
            self.has_come = True
            self.end_in(RECEIVING)
        self.received += len(data)
        if not self._request_count and self.received > HEAD:
            self.say(431, "the head of the request is too long")
        elif self._request_count > 1:
            # Only the first request on a connection is answered; after the answer the connection is
            # closed.
            self.close()
            self.drop(data)

    def drop(self, data):
        """Drops what nobody wants, up to a limit."""
        self.beyond += len(data)
        if self.beyond > BEYOND:
            self.own.abort()

    def end_in(self, seconds):
        """Ends the connection after so many seconds, in the place of what was said before; None is no end."""
        if self.clock is not None:
            self.clock.cancel()
        self.clock = None if seconds is None else self._loop.call_later(seconds, self.late)

    def late(self):
        """Ends a connection whose time is over: in words where a part of a head came. One that the server had no time to read goes on."""
        if not self._request_count and self.is_unread():
            self.end_in(RECEIVING)
        elif self.received and not self._request_count:
            self.say(408, "the request did not come in time")
        else:
            self.own.abort()

    def is_unread(self):
        """Whether something came that was not read."""
        waiting = fcntl.ioctl(self.own.get_extra_info("socket").fileno(), termios.FIONREAD, bytes(4))
        return any(waiting)

    def say(self, status, words):
        """Answers what is no request, and closes the connection. What still comes is read, so that the answer is not lost."""
        LOG.say(f"{self.address}: {status}: {words}")
        body = json.dumps({"words": words}).encode("ascii")
        head = f"HTTP/1.1 {status} Refused\r\nContent-Type: application/json\r\nContent-Length: {len(body)}\r\nConnection: close\r\n\r\n"
        self.own.write(head.encode("ascii") + body)
        self.own.write_eof()
        self.refusal = None
        self.end_in(None)
        self.clock = self._loop.call_later(TURNING, self.own.abort)

    def handle_error(self, request, status=500, exc=None, message=None):
        """Answers what is no request, or where the server failed, in words and with one line in the log."""
        words = "what was sent is no request of HTTP" if status == 400 else "the server failed at this"
        why = f": {type(exc).__name__}: {exc}" if exc else ""
        LOG.say(f"{self.address}: {status}: {words}{why}")
        if request.writer.output_size > 0:
            raise ConnectionError
        answer = web.json_response({"words": words}, status=status)
        answer.force_close()
        self.end_in(TURNING)
        return answer

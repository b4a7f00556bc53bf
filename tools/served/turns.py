"""Places for processes: so many at once, a share of them for each address, and a line in which the others wait."""
import asyncio
import collections
import contextlib
import time

# A waiting client is told its number in the queue after this number of seconds, if the number has
# changed.
LOOK = 0.5
# The time that an address has used is halved after HALVING seconds, and forgotten below FORGOTTEN.
HALVING, FORGOTTEN = 60, 0.1


class Full(Exception):
    """The line is full, or the address has its share of it."""


class Late(Exception):
    """The clock of a place ran out."""


def part_of(number, percent):
    """A share of a number, at least 1 unless the number is 0."""
    return min(number, max(1, number * percent // 100))


class Line:
    """Gives places to addresses in turn: the next one goes to the address that holds the fewest, among these to the one that has held
    places for the shortest time lately, and among these to the first that came."""

    def __init__(self, places, waiting, share, seconds):
        self.free, self.most_waiting, self.seconds = places, waiting, seconds
        self.each, self.each_waiting = part_of(places, share), part_of(waiting, share)
        self.held, self.spent, self.halved = collections.Counter(), collections.Counter(), time.monotonic()
        # The address of each waiting request, in the order of arrival, and for each waiting request the
        # number of requests before it in the queue.
        self.waiting, self.before = {}, {}

    @contextlib.asynccontextmanager
    async def place(self, address, tell):
        """Waits for a place, holds it no longer than the clock allows, and frees it. Calls `tell` with the number of turns before it."""
        turn = asyncio.get_running_loop().create_future()
        self.waiting[turn] = address
        self.give()
        try:
            self.refuse(turn, address)
            await self.wait(turn, tell)
            async with self.clock(address):
                yield
        finally:
            self.leave(turn, address)

    @contextlib.asynccontextmanager
    async def clock(self, address):
        begun = time.monotonic()
        try:
            async with asyncio.timeout(self.seconds):
                yield
        except TimeoutError:
            raise Late from None
        finally:
            self.spent[address] += time.monotonic() - begun
            if time.monotonic() - self.halved > HALVING:
                self.halved = time.monotonic()
                self.spent = collections.Counter({it: spent / 2 for it, spent in self.spent.items() if spent > FORGOTTEN})

    def refuse(self, turn, address):
        """Refuses a turn that has no place at once and none in the line. In a full line a turn of another address gives way, where that
        address has more of them."""
        if turn.done():
            return
        counted = collections.Counter(self.waiting.values())
        if counted[address] > self.each_waiting:
            raise Full("too many from your address wait already: try again in a while")
        if len(self.waiting) > self.most_waiting:
            most, count = counted.most_common(1)[0]
            if count <= counted[address]:
                raise Full("too many wait already: try again in a while")
            last = next(it for it in reversed(self.waiting) if self.waiting[it] == most)
            del self.waiting[last]
            last.set_exception(Full("too many wait, most of them from your address: try again in a while"))

    async def wait(self, turn, tell):
        told = None
        while not turn.done():
            if self.before[turn] != told:
                told = self.before[turn]
                await tell(told)
            await asyncio.wait([turn], timeout=LOOK)
        turn.result()

    def order(self):
        """The turns that wait, in the order of their places to come. A turn counts the places of its address, and its earlier turns."""
        counted, keys = collections.Counter(self.held), []
        for number, (turn, address) in enumerate(self.waiting.items()):
            keys.append((counted[address], self.spent[address], number, turn))
            counted[address] += 1
        return [turn for *_, turn in sorted(keys)]

    def give(self):
        """Gives free places to the turns that may have them, and counts those before each of the others."""
        for turn in self.order():
            address = self.waiting[turn]
            if self.free and self.held[address] < self.each:
                del self.waiting[turn]
                self.free -= 1
                self.held[address] += 1
                turn.set_result(None)
        self.before = {turn: number for number, turn in enumerate(self.order())}

    def leave(self, turn, address):
        """Frees the place of a turn, or takes it out of the line."""
        if turn in self.waiting:
            del self.waiting[turn]
        elif turn.exception() is None:
            self.free += 1
            self.held[address] -= 1
            self.held += collections.Counter()
        self.give()

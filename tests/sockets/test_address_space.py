"""A server with little memory: 8 connections store and read; what is answered is right, and what was stored stays."""
import random
import resource
import time
from concurrent.futures import ThreadPoolExecutor

from tests.lib import model
from tests.lib.abuse import ANSWERED, MB
from tests.lib.case import ProgramCase
from tests.lib.compare import shown
from tests.lib.peer import Peer
from tests.lib.server import CannotStart, StillServer

CONNECTIONS, SECONDS, SEED = 8, 1.0, 1
# Above the least address space in which it starts, in megabytes.
ABOVE = [0, 1, 2, 4, 8, 16, 32, 64]
# No server needs more to start.
MOST = 2048
ALL = resource.RLIM_INFINITY


def started(most):
    """The server within so many megabytes of addresses, if it starts and answers there."""
    try:
        server = StillServer(limit=(resource.RLIMIT_AS, most * MB, ALL))
    except CannotStart:
        return None
    try:
        with Peer(server.port, ANSWERED) as peer:
            peer.asks(b"get a\r\n", b"END\r\n")
        return server
    except (OSError, AssertionError):
        server.close()
        return None


def least():
    """The least number of megabytes in which it starts."""
    low, high = 0, MOST
    while high - low > 1:
        middle = (low + high) // 2 if high < MOST else max(2 * low, 8)
        server = started(middle)
        if server:
            server.close()
            high = middle
        elif middle >= MOST:
            break
        else:
            low = middle
    return high


class Storer:
    """A client that stores blocks and reads them again. It knows of each key which blocks it may have.

    After an answer that is one; after a set whose connection was closed before the answer it is that or the last one."""

    def __init__(self, port, number, end):
        self.port, self.number, self.end = port, number, end
        self.random, self.may_have = random.Random(f"{SEED} {number}"), {}
        self.closed = self.answered = 0

    def run(self):
        while time.monotonic() < self.end:
            try:
                with Peer(self.port) as peer:
                    while time.monotonic() < self.end:
                        self.stores(peer)
                        self.reads(peer, self.random.choice(list(self.may_have)))
            except ConnectionError:
                self.closed += 1

    def stores(self, peer):
        key = b"m%d.%d" % (self.number, self.random.randrange(2000))
        size = self.random.choice([1, 1, 100, 1000, 10_000, 200_000])
        block = (b"%d." % self.random.randrange(10**9) * (size // 4 + 1))[:size]
        earlier = self.may_have.get(key, [None])
        self.may_have[key] = [*earlier, block]
        peer.send(b"set %s 0 0 %d\r\n%s\r\n" % (key, size, block))
        answer = peer.upto(b"\r\n")
        if answer == b"STORED\r\n":
            self.may_have[key] = [block]
        elif answer == model.NO_CHUNK:
            self.may_have[key] = earlier
        elif not answer:
            raise ConnectionError
        else:
            raise AssertionError(f"the answer to a set of {size} bytes is {shown(answer)}")
        self.answered += 1

    def reads(self, peer, key):
        peer.send(b"get %s\r\n" % key)
        line = peer.upto(b"\r\n")
        found = None
        if line.startswith(b"VALUE "):
            size = int(line.split()[3])
            found = peer.exactly(size + 7)
            if len(found) < size + 7:
                raise ConnectionError
            found = found[:-7]
        elif not line:
            raise ConnectionError
        elif line != b"END\r\n":
            raise AssertionError(f"the answer to a get is {shown(line)}")
        may = self.may_have[key]
        if found not in may:
            raise AssertionError(f"the block of {key.decode()} is {found and shown(found)}, not one of {len(may)} stored")
        self.may_have[key] = [found]
        self.answered += 1

    def reads_all(self):
        """Reads each key, now that there is memory."""
        with Peer(self.port) as peer:
            for key in self.may_have:
                self.reads(peer, key)


class AddressSpace(ProgramCase):
    def test_from_the_least_memory_in_which_it_starts_upwards(self):
        first, closed = least(), 0
        self.assertLess(first, MOST, "megabytes of addresses in which it starts")
        for above in ABOVE:
            with self.subTest(megabytes_more=above):
                closed += self.within(first + above)
        self.assertTrue(closed, "memory never ran short")

    def within(self, most):
        """Eight clients at once on a server with so many megabytes; gives how many connections it closed."""
        server = started(most)
        self.assertIsNotNone(server, f"starts in less than {most} MB, and not in {most} MB")
        with server, ThreadPoolExecutor(CONNECTIONS) as pool:
            end = time.monotonic() + SECONDS
            storers = [Storer(server.port, number, end) for number in range(CONNECTIONS)]
            for run in [pool.submit(it.run) for it in storers]:
                run.result()
            self.assertTrue(server.runs(), f"the server has ended: {server.said()}")
            resource.prlimit(server.pid, resource.RLIMIT_AS, (ALL, ALL))
            for it in storers:
                it.reads_all()
        closed = sum(it.closed for it in storers)
        print(f"    {most} MB: {sum(it.answered for it in storers)} answers, {closed} connections closed", flush=True)
        return closed

"""A server that clients misuse, beside one that doesn't: what that one is told, and what the server gives back."""
import contextlib
import selectors
import threading
import time

from tests.lib.peer import Peer
from tests.lib.server import StillServer
from tests.lib.wait import until

MB = 2**20
# What a client costs the server at most, whatever it sends and doesn't read: a thousand cost at most a thousand times that. It is
# the input of one command or the output of one turn, a megabyte and a bit, in room that was doubled as it grew.
ONE = 2 * MB
# What the server may keep where no client held much.
LITTLE = 8 * MB
# What it may keep when all have gone: of each of its four workers' memory the C library keeps 10 MB above the last block in use.
KEPT = 4 * 10 * MB + LITTLE
# Blocks of this size fill a turn's output.
LARGE = 1_000_000
# A well-behaved client is answered so soon, whatever others do.
ANSWERED = 2
# So soon the server has given back what a client held that has gone.
GIVEN_BACK = 5


def kept_of(count):
    """What the server may keep of so many clients that held much at once.

    The C library gives nothing back that lies below the last block in use: that stays for those who come next. A small block that
    was asked for while they held most may lie there long, as each thread keeps some that were freed. So all that they needed may stay,
    and a loss shows where such clients come again and again."""
    return KEPT + count * ONE


class Beside(threading.Thread):
    """A client that sets, counts and gets, one after another, and holds each answer and its time to what is wanted.

    It is there while its block runs, at whose end what it found is raised."""

    def __init__(self, port):
        super().__init__(daemon=True)
        self.port, self.over, self.fault, self.asked = port, threading.Event(), None, 0

    def run(self):
        try:
            with Peer(self.port, 2 * ANSWERED) as peer:
                while not self.over.wait(0.01):
                    self.turn(peer)
        except (OSError, AssertionError) as error:
            self.fault = error

    def turn(self, peer):
        began = time.monotonic()
        block, more = b"%d" % self.asked, b"%d" % (self.asked + 1)
        sent = b"set beside 7 0 %d\r\n%s\r\nincr beside 1\r\nget beside\r\n" % (len(block), block)
        peer.asks(sent, b"STORED\r\n%s\r\nVALUE beside 7 %d\r\n%s\r\nEND\r\n" % (more, len(more), more))
        took = time.monotonic() - began
        if took > ANSWERED:
            raise AssertionError(f"it had its answer after {took:.1f} s")
        self.asked += 1

    def __enter__(self):
        self.start()
        # (it is there before the others come, which may take all there is)
        until(lambda: self.asked or self.fault, ANSWERED)
        return self

    def __exit__(self, *_):
        self.over.set()
        self.join(3 * ANSWERED)
        if self.fault:
            raise AssertionError(f"a client beside, after {self.asked} answers: {self.fault}") from self.fault
        if self.asked < 2:
            raise AssertionError(f"a client beside had {self.asked} answers")


@contextlib.contextmanager
def abused(keeps, **options):
    """A server with a client beside; what is wrong with either is raised, and what the server doesn't give back.

    Afterwards it has at most `keeps` bytes of memory more than before, and as many descriptors as before."""
    with StillServer(**options) as server:
        with Peer(server.port) as peer:  # (what the first session needs is no loss)
            peer.asks(b"set first 0 0 1\r\nx\r\n", b"STORED\r\n")
        server.settle()
        had, memory = server.descriptors(), server.memory()
        try:
            with Beside(server.port):
                yield server
        except (OSError, AssertionError) as error:
            if not server.runs():
                raise AssertionError(f"the server has ended: {server.said()}") from error
            raise
        if not server.runs():
            raise AssertionError(f"the server has ended: {server.said()}")
        if not until(lambda: server.descriptors() <= had, GIVEN_BACK):
            raise AssertionError(f"it has {server.descriptors()} descriptors, and had {had} before")
        if not until(lambda: server.memory() <= memory + keeps, GIVEN_BACK):
            raise AssertionError(f"afterwards it has {server.memory() >> 20} MB of memory, and {memory + keeps >> 20} are meant to do")


def costs(server, before, most):
    """Fails where the server had more memory at most, since it had that."""
    had = server.memory("VmHWM:") - before
    if had > most:
        raise AssertionError(f"it needed {had >> 20} MB of memory, and {most >> 20} are meant to do")


def sent_as_far(peers, data, seconds):
    """Sends to each as much of the data as it takes in that time, and gives how much of it each took."""
    took, end = dict.fromkeys(peers, 0), time.monotonic() + seconds
    with selectors.DefaultSelector() as chooser:
        for it in peers:
            it.socket.setblocking(False)
            chooser.register(it.socket, selectors.EVENT_WRITE, it)
        while chooser.get_map() and (left := end - time.monotonic()) > 0:
            for key, _ in chooser.select(left):
                it = key.data
                with contextlib.suppress(BlockingIOError):
                    took[it] += it.socket.send(data[took[it] : took[it] + 65536])
                if took[it] == len(data):
                    chooser.unregister(it.socket)
    return took


def store_large(port):
    """Sets an item that fills a turn's output, and gives the answer to a get of it."""
    with Peer(port) as peer:
        peer.asks(b"set large 0 0 %d\r\n%s\r\n" % (LARGE, b"l" * LARGE), b"STORED\r\n")
    return b"VALUE large 0 %d\r\n%s\r\nEND\r\n" % (LARGE, b"l" * LARGE)

"""What a client sends behind its last command is dropped, and doesn't cost it the answers before: a close with unread input would be a reset."""
import contextlib
import time
from concurrent.futures import ThreadPoolExecutor

from tests.lib.abuse import KEPT, abused
from tests.lib.case import ProgramCase, side_by_side, tests_of
from tests.lib.compare import difference
from tests.lib.peer import Peer, clients
from tests.lib.scrape import MetricsServer
from tests.lib.server import StillServer
from tests.lib.wait import until

# How many clients there are, and how many bytes each sends behind its last command.
CLIENTS, MORE = 20, 300_000
# What each asks for: more than the system takes for a client that doesn't read. It reads so many bytes, and then none for so many seconds.
BLOCK, PIECE, PAUSE = b"b" * 400_000, 20_000, 0.05
HIT = b"VALUE k 0 %d\r\n%s\r\nEND\r\n" % (len(BLOCK), BLOCK)
# A connection lingers for 2 seconds, with many of them for 4, and on a machine that is busy for so many.
OVER = 6
# So many bytes are dropped at most; the system may take some more from a client.
DROPPED, SYSTEMS = 2**20, 16 * 2**20
JUNK = b"j" * MORE
TOO_LONG = b"CLIENT_ERROR line too long\r\n"
# How many may be open, and the names of what is counted.
MOST = 20
OPEN, LINGERING = "memcached_current_connections", "mcserver_lingering_connections"
# What is sent, what is sent behind it after how many seconds, and what is answered behind the item.
ROWS = [
    ("quit and more at once", b"quit\r\n" + JUNK, 0, b"", b""),
    ("quit and more soon", b"quit\r\n", 0.3, JUNK, b""),
    ("quit and commands", b"quit\r\n" + b"get k\r\n" * 40_000, 0, b"", b""),
    ("a line too long", b"l" * 65537 + JUNK, 0, b"", TOO_LONG),
    ("a line too long and more soon", b"l" * 65537, 0.3, JUNK, TOO_LONG),
]


@side_by_side
@tests_of(ROWS, lambda row: row[0])
class Answers(ProgramCase):
    def check(self, row):
        """Each of many that read slowly has its whole answer, and then the end; one beside is served meanwhile."""
        _, sent, later, more, told = row
        with abused(KEPT) as server:
            with Peer(server.port) as peer:
                peer.asks(b"set k 0 0 %d\r\n%s\r\n" % (len(BLOCK), BLOCK), b"STORED\r\n")

            def reads(_):
                with Peer(server.port, receives=65536) as peer:
                    peer.send(b"get k\r\n" + sent)
                    time.sleep(later)
                    peer.send(more)
                    self.reads_slowly(peer, HIT + told)

            with ThreadPoolExecutor(CLIENTS) as pool:
                list(pool.map(reads, range(CLIENTS)))

    def reads_slowly(self, peer, wanted):
        """Reads a piece now and then up to the end of the stream, which must be the wanted."""
        got, piece = b"", None
        while piece != b"":
            piece = peer.exactly(PIECE)
            got += piece
            time.sleep(PAUSE)
        if got != wanted:
            raise AssertionError(difference("answer", wanted, got))


@side_by_side
class Ends(ProgramCase):
    def test_one_that_stays(self):
        """One that neither sends nor closes is told the end at once, and is closed after a few seconds."""
        with StillServer() as server:
            server.settle()
            with Peer(server.port) as peer:
                peer.asks(b"get a\r\nquit\r\n", b"END\r\n")
                self.assertFalse(peer.more(time.monotonic() + 1), "bytes behind the answer")
                self.assertTrue(until(lambda: server.connections() == 0, OVER), "the connection is open")

    def test_one_that_leaves(self):
        """One that closes behind its last answer is closed at once."""
        with StillServer() as server:
            server.settle()
            with Peer(server.port) as peer:
                peer.asks(b"get a\r\nquit\r\n", b"END\r\n")
            self.assertTrue(until(lambda: server.connections() == 0, 1), "the connection is open")

    def test_one_that_sends_on(self):
        """One that sends on and on is closed after 1 MiB, and one that sends a byte now and then after a few seconds."""
        with StillServer() as server:
            server.settle()
            with Peer(server.port) as peer:
                peer.asks(b"get a\r\nquit\r\n", b"END\r\n")
                sent, end = 0, time.monotonic() + OVER
                with contextlib.suppress(ConnectionError):
                    while time.monotonic() < end:
                        peer.send(JUNK)
                        sent += MORE
                self.assertLess(time.monotonic(), end, f"it is open, and took {sent} bytes")
                self.assertGreaterEqual(sent, DROPPED - MORE, "bytes that were taken")
                self.assertLess(sent, DROPPED + SYSTEMS, "bytes that were taken")
            self.assertTrue(until(lambda: server.connections() == 0, 1), "the connection is open")
            with Peer(server.port) as peer:
                peer.asks(b"get a\r\nquit\r\n", b"END\r\n")

                def is_closed():
                    with contextlib.suppress(ConnectionError):
                        peer.send(b"j")
                    return server.connections() == 0

                self.assertTrue(until(is_closed, OVER, 0.1), "the connection is open")

    def test_newcomers_behind_them(self):
        """Places of those that linger are given to newcomers once, round for round."""
        with StillServer(workers=1) as server:
            for _ in range(3):
                with contextlib.ExitStack() as stack:
                    leaving = [stack.enter_context(Peer(server.port)) for _ in range(30)]
                    for it in leaving:
                        it.asks(b"get a\r\nquit\r\n", b"END\r\n")
                        self.assertFalse(it.more(time.monotonic() + 1), "bytes behind the answer")
                    for it in leaving[::2]:
                        it.close()
                    newcomers = [stack.enter_context(Peer(server.port)) for _ in range(60)]
                    for nth, it in enumerate(newcomers):
                        it.asks(b"set k%d 0 0 3\r\n%03d\r\n" % (nth, nth), b"STORED\r\n")
                    time.sleep(0.3)
                    for nth, it in enumerate(newcomers):
                        it.asks(b"get k%d\r\n" % nth, b"VALUE k%d 0 3\r\n%03d\r\nEND\r\n" % (nth, nth))


class Beside(ProgramCase):
    """Those that linger count apart from those that -c bounds, and as many may."""

    def leaves(self, peer):
        peer.asks(b"get a\r\nquit\r\n", b"END\r\n")
        self.assertFalse(peer.more(time.monotonic() + OVER), "bytes behind the answer")

    def test_newcomers_beside_them(self):
        """As many that stay behind their quit as may be open keep no newcomer out."""
        with MetricsServer("-c", str(MOST), workers=2) as server:
            server.settle()
            with clients(server.port, MOST) as leaving:
                for it in leaving:
                    self.leaves(it)
                # the end of the stream comes just before it is counted apart
                self.assertTrue(until(lambda: server.scrape()[OPEN] == 0, OVER))
                with clients(server.port, MOST) as newcomers:
                    for it in newcomers:
                        it.asks(b"get a\r\n", b"END\r\n")
                    now = server.scrape()
                    self.assertEqual(MOST, now[OPEN])
                    self.assertLessEqual(now[LINGERING], MOST)

    def test_too_many_of_them(self):
        """If more would linger the oldest is closed: no more sockets are open, and the newest lingers on."""
        with MetricsServer("-c", str(MOST), workers=1) as server:
            server.settle()
            with contextlib.ExitStack() as stack:
                leaving = []
                for _ in range(3 * MOST):
                    leaving.append(stack.enter_context(Peer(server.port)))
                    self.leaves(leaving[-1])
                now = server.scrape()
                self.assertLessEqual(now[LINGERING], MOST)
                self.assertEqual(0, now[OPEN])
                self.assertLessEqual(server.connections(), MOST + 1)
                self.assertTrue(until(lambda: self.is_reset(leaving[0]), OVER), "the oldest is open")

    def is_reset(self, peer):
        """Whether what it sends is refused, as its connection is closed."""
        try:
            peer.send(b"j")
        except ConnectionError:
            return True
        return False

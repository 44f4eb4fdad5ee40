"""A store that is full says so on standard error: in one line for a burst of refusals, with the size that was asked for."""
import contextlib
import time

from tests.lib.case import ProgramCase, tests_of
from tests.lib.listening import Listener
from tests.lib.peer import Peer, clients
from tests.lib.server import HOST, MOMENT, free_port

PAGE = 2**20
REFUSED = b"SERVER_ERROR out of memory storing object\r\n"
# Blocks of 100 bytes under keys of 6 take 48 + 6 + 100 bytes, and so chunks of 192, the fourth size.
SMALL, SMALL_CHUNKS = b"s" * 100, PAGE // 192
# Blocks of a million bytes take a page each, which is the fortieth size.
LARGE = b"l" * 1_000_000
GIVEN_OUT = {1: "and the one page of -m is given out", 2: "and all 2 pages of -m are given out"}


def setting(key, block):
    return b"set %s 0 0 %d\r\n%s\r\n" % (key, len(block), block)


def fill_small(peer, pages):
    for at in range(pages * SMALL_CHUNKS):
        peer.send(setting(b"k%05d" % at, SMALL))
    peer.is_told(b"STORED\r\n" * pages * SMALL_CHUNKS)


def fill_large(peer, pages):
    for at in range(pages):
        peer.asks(setting(b"k%05d" % at, LARGE), b"STORED\r\n")


ONE_PAGE = f"class 4 has 1 page, {SMALL_CHUNKS} chunks, all in use"
TWO_PAGES = f"class 4 has 2 pages, {2 * SMALL_CHUNKS} chunks, all in use"
# What a row tries, how many pages there are, what fills them, the step that is refused, and what is said of the chunks.
ROWS = [
    ("a class with a page", 1, fill_small, setting(b"other1", SMALL), f"of 192 bytes is left: {ONE_PAGE}"),
    ("a class with two pages", 2, fill_small, setting(b"other1", SMALL), f"of 192 bytes is left: {TWO_PAGES}"),
    ("a class with a chunk", 1, fill_large, setting(b"other1", LARGE), "of 1048576 bytes is left: class 40 has 1 page, 1 chunk, all in use"),
    ("a class without a page", 1, fill_large, setting(b"other1", b""), "of 96 bytes is left: class 1 has no page"),
    ("a byte more than a chunk", 1, fill_small, setting(b"other1", b"x" * 139), "of 240 bytes is left: class 5 has no page"),
    ("cas", 1, fill_small, b"cas k00000 0 0 1000 1\r\n%s\r\n" % (b"x" * 1000), "of 1184 bytes is left: class 12 has no page"),
    ("append", 1, fill_small, b"append k00000 0 0 100\r\n%s\r\n" % SMALL, "is left for an item that grows"),
]


@tests_of(ROWS, lambda row: row[0])
class OutOfMemory(ProgramCase):
    @contextlib.contextmanager
    def started(self, pages, *options):
        """The program, which listens, and a client of it."""
        self.port = free_port()
        words = [self.program, "-l", HOST, "-p", str(self.port), "--now", str(MOMENT), "-m", str(pages), *options]
        with Listener(words) as made:
            made.line()
            made.line()  # (the warning of few pages)
            with Peer(self.port) as peer:
                yield made, peer

    def check(self, row):
        _, pages, fill, step, chunks = row
        with self.started(pages) as (started, peer):
            fill(peer, pages)
            peer.asks(step, REFUSED)
            said = f"mcserver: full: no chunk {chunks}, {GIVEN_OUT[pages]} (told once a minute)\n"
            self.assertEqual(said.encode(), started.line())

    def test_an_item_of_several_pages(self):
        """It says how many were wanted, of which some may be left, and the same of one that grows."""
        chunks = "no 2 chunks of 1048576 bytes are left: class 40 has 2 pages, 2 chunks, all in use"
        for step, said in (
            (setting(b"other1", b"x" * 1_100_000), f"{chunks}, and too few of the 3 pages of -m are left"),
            (b"append k00000 0 0 100000\r\n%s\r\n" % (b"x" * 100_000), "no chunk is left for an item that grows, and too few of the 3 pages of -m are left"),
        ):
            with self.subTest(said), self.started(3, "-I", "4m") as (started, peer):
                fill_large(peer, 2)
                peer.asks(step, REFUSED)
                self.assertEqual(f"mcserver: full: {said} (told once a minute)\n".encode(), started.line())

    def test_a_burst_of_refusals(self):
        """Of thousands of stores that 8 clients are refused at once, and of others behind them, there is one line."""
        with self.started(1) as (started, peer), clients(self.port, 8) as peers:
            fill_small(peer, 1)
            for it in peers:
                it.send(setting(b"other1", SMALL) * 1000)
            for it in peers:
                it.is_told(REFUSED * 1000)
            peer.asks(setting(b"other1", LARGE), REFUSED)
            peer.asks(b"append k00000 0 0 100\r\n%s\r\n" % SMALL, REFUSED)
            self.assertRegex(started.line(), b"^mcserver: full: no chunk of 192 bytes is left: class 4 has 1 page")
            time.sleep(0.3)  # (another line would have come)
            self.assertEqual(b"", started.rest())

    def test_a_store_that_is_just_not_full(self):
        """A store whose every chunk is in use says nothing before it refuses one, and nothing of other refusals."""
        with self.started(1) as (started, peer):
            fill_small(peer, 1)
            peer.asks(b"get k00000\r\n", b"VALUE k00000 0 100\r\n%s\r\nEND\r\n" % SMALL)
            peer.asks(b"add k00000 0 0 1\r\nx\r\nreplace other1 0 0 1\r\nx\r\n", b"NOT_STORED\r\nNOT_STORED\r\n")
            time.sleep(0.3)  # (a line would have come)
            self.assertEqual(b"", started.rest())

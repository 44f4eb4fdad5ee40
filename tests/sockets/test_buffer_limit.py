"""What connections hold of what they send and are told is bounded by --buffer-limit, and comes back."""
import time

from tests.lib.abuse import GIVEN_BACK, LITTLE, MB, Beside, costs, sent_as_far
from tests.lib.case import ProgramCase
from tests.lib.peer import Peer, clients
from tests.lib.server import Server
from tests.lib.wait import until

# What all may hold, in MiB.
LIMIT = 32
# How large items may be, and the block of one, each with how many clients that misuse it.
ONES = [("1m", 1_000_000, 300), ("8m", 8_000_000, 24)]
# In so many seconds a large block gets through: who is quiet makes room for others after 5, and so does who comes then.
LET_ON = 60
# What an idle one may cost.
IDLE = 8192
# Answers that nobody reads: the length of a block, and how many of them are asked for. So many clients do so, and each may cost
# as much beyond the limit: 18 KiB of requests, an answer of 16 KiB, and 16 KiB of answers before it in room that was doubled.
UNREAD = [(100_000, 60), (20_000, 200), (1_000, 2000)]
SILENT, EACH = 500, 72 * 1024
# How many large requests are made before those that are counted, and how many page faults each of these may meet. A buffer of 8 MB
# that comes from the system meets 2,000, and the fourth to eleventh set of 8 MB some 10 each.
FIRST, COUNTED, FAULTS = 12, 6, 8
# How many pages a store of joined items has, how many workers, and how much each may have of pages that go to and fro.
PAGES, WORKERS, EXCHANGED = 64, 4, 8 * MB


def limited(most):
    """A server with that limit, whose clock goes."""
    return Server(args=["-I", most, "--buffer-limit", str(LIMIT), "-c", "2000"])


class BufferLimit(ProgramCase):
    def others_are_served(self, server, block):
        """Fails unless a large block comes through both ways."""
        with Peer(server.port, LET_ON) as peer:
            peer.asks(b"set whole 0 0 %d\r\n%s\r\n" % (len(block), block), b"STORED\r\n")
            peer.asks(b"get whole\r\n", b"VALUE whole 0 %d\r\n%s\r\nEND\r\n" % (len(block), block))

    def test_blocks_that_do_not_come(self):
        """Many clients send most of a large block each: as many are read as there is room for, and the others wait."""
        for most, length, count in ONES:
            with self.subTest(most), limited(most) as server, Beside(server.port):
                self.others_are_served(server, b"w" * length)
                # the most, as what a block was read into is freed when it wasn't needed for a while
                before = server.memory("VmHWM:")
                with clients(server.port, count) as peers:
                    sent_as_far(peers, b"set half 0 0 %d\r\n" % length + b"h" * (length - 100), 2)
                    self.others_are_served(server, b"w" * length)
                    costs(server, before, LIMIT * MB + LITTLE)

    def test_answers_that_nobody_reads(self):
        """Many clients ask for twenty large blocks each, and read nothing."""
        for most, length, count in ONES:
            with self.subTest(most), limited(most) as server, Beside(server.port):
                self.others_are_served(server, b"w" * length)
                before = server.memory()
                with clients(server.port, count, receives=4096) as peers:
                    for peer in peers:
                        peer.send(b"get whole\r\n" * 20)
                    time.sleep(1)
                    self.others_are_served(server, b"w" * length)
                    costs(server, before, LIMIT * MB + LITTLE)

    def test_small_answers_that_nobody_reads(self):
        """Many clients ask for more blocks of less than 128 KiB than the system takes, and read nothing; others are served."""
        for length, count in UNREAD:
            with self.subTest(length), Server(args=["--buffer-limit", "8", "-c", "2000"]) as server:
                with Peer(server.port) as peer:
                    peer.asks(b"set block 0 0 %d\r\n%s\r\n" % (length, b"b" * length), b"STORED\r\n")
                    before = server.memory()
                    with clients(server.port, SILENT, receives=4096) as peers:
                        sent_as_far(peers, b"get block\r\n" * count, 2)
                        peer.asks(b"set small 0 0 1\r\ns\r\nget small\r\n", b"STORED\r\nVALUE small 0 1\r\ns\r\nEND\r\n")
                        costs(server, before, 8 * MB + SILENT * EACH + LITTLE)

    def test_idle_ones_hold_little(self):
        """Clients set and get 60 KB each, and 120 KB, and are idle: what they needed comes back while they are there."""
        with limited("1m") as server, Beside(server.port), clients(server.port, 1000) as peers:
            before = server.memory()
            for length in (60_000, 120_000):
                block = b"b" * length
                for peer in peers:
                    peer.asks(b"set block 0 0 %d\r\n%s\r\nget block\r\n" % (length, block), b"STORED\r\nVALUE block 0 %d\r\n%s\r\nEND\r\n" % (length, block))
            had = until(lambda: server.memory() <= before + LITTLE + len(peers) * IDLE, GIVEN_BACK)
            self.assertTrue(had, f"{len(peers)} idle ones have {server.memory() - before >> 10} kB more")

    def test_memory_of_large_requests_is_used_again(self):
        """A client sets and gets a large block again and again: a worker keeps the buffers, so that the system gives no further pages."""
        for most, length, _ in ONES:
            with self.subTest(most), Server(workers=1, args=["-I", most]) as server, Peer(server.port, LET_ON) as peer:
                block = b"w" * length
                for number in range(FIRST + COUNTED):
                    if number == FIRST:
                        before = server.faults()
                    peer.asks(b"set whole 0 0 %d\r\n%s\r\n" % (length, block), b"STORED\r\n")
                    peer.asks(b"get whole\r\n", b"VALUE whole 0 %d\r\n%s\r\nEND\r\n" % (length, block))
                self.assertLess((server.faults() - before) / (2 * COUNTED), FAULTS)

    def test_joins_give_pages_back(self):
        """Clients append to items until these have seven pages, twenty times: pages that are brought in exchange for an item's come back."""
        part = b"p" * 400_000
        with Server(pages=PAGES, workers=WORKERS, args=["-I", "8m", "--buffer-limit", str(LIMIT)]) as server, Beside(server.port):
            before = server.memory()
            with clients(server.port, WORKERS) as peers:
                for key, peer in list(enumerate(peers)) * 20:
                    peer.asks(b"set joined%d 0 0 1\r\nx\r\n" % key, b"STORED\r\n")
                    for _ in range(18):
                        peer.asks(b"append joined%d 0 0 %d\r\n%s\r\n" % (key, len(part), part), b"STORED\r\n")
                costs(server, before, PAGES * MB + WORKERS * EXCHANGED + LITTLE)

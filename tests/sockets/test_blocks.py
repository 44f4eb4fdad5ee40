"""Blocks that don't end, and blocks that are passed over as they are too large."""
import time

from tests.lib.abuse import LARGE, LITTLE, MB, ONE, abused, costs, kept_of, sent_as_far
from tests.lib.case import ProgramCase
from tests.lib.peer import clients

# In so many seconds a block is read on that is passed over.
READ_ON = 20


class Blocks(ProgramCase):
    def test_blocks_that_do_not_end(self):
        """Many send the half of a block, and then a byte now and then."""
        count, half = 50, LARGE // 2
        with abused(kept_of(count)) as server, clients(server.port, count) as peers:
            before = server.memory()
            for peer in peers:
                peer.send(b"set endless 0 0 %d\r\n" % LARGE + b"x" * half)
            for _ in range(20):
                time.sleep(0.05)
                for peer in peers:
                    peer.send(b"x")
            costs(server, before, count * ONE)
            peers[0].asks(b"y" * (LARGE - half - 20) + b"\r\n", b"STORED\r\n")
            peers[1].asks(b"y" * (LARGE - half - 20) + b"zz", b"CLIENT_ERROR bad data chunk\r\n")

    def test_blocks_that_are_passed_over(self):
        """Blocks that are too large are passed over, as long as they are, in little memory."""
        count = 4
        with abused(LITTLE) as server, clients(server.port, count) as peers:
            before = server.memory()
            for peer in peers:
                peer.asks(b"set passed 0 0 2147483645\r\n", b"SERVER_ERROR object too large for cache\r\n")
            took = sent_as_far(peers, b"quit\r\nversion\r\n" * (64 * MB // 15), READ_ON)
            self.assertGreaterEqual(min(took.values()), 60 * MB, f"of a block of 2147483645 bytes were taken in {READ_ON} s")
            costs(server, before, count * ONE)

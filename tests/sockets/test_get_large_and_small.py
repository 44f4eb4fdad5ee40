"""Large items beside small ones, by one worker."""
import selectors
import time

from tests.lib.abuse import store_large
from tests.lib.case import ProgramCase
from tests.lib.peer import clients
from tests.lib.server import StillServer

# Connections that ask for large items, and for small ones; how many bytes of large ones are moved, in so many seconds at most; how
# many of those bytes one answer to the others may cost.
HEAVY, POLITE, MOVED, SECONDS, EACH = 20, 50, 400_000_000, 60, 1_000_000


class Asker:
    """A connection that asks for an item again and again, some of its answers ahead."""

    def __init__(self, peer, asked, answer, ahead):
        self.socket, self.asked, self.answer, self.came, self.got = peer.socket, asked, answer, 0, 0
        self.socket.setblocking(False)
        self.socket.send(asked * ahead)

    def reads(self, room):
        """Reads what is there, and asks as often again as answers came whole."""
        count = self.socket.recv_into(room)
        whole, self.came = divmod(self.came + count, self.answer)
        self.got += count
        if whole:
            self.socket.send(self.asked * whole)


class GetLargeAndSmall(ProgramCase):
    def test_small_items_beside_large_ones(self):
        """Those that ask for small items are answered beside those that ask for large ones: so often for so many bytes."""
        small, room = b"VALUE small 0 1\r\nx\r\nEND\r\n", memoryview(bytearray(2**18))
        with StillServer(workers=1) as server:
            large = len(store_large(server.port))
            with clients(server.port, HEAVY + POLITE) as peers, selectors.DefaultSelector() as chooser:
                peers[0].asks(b"set small 0 0 1\r\nx\r\n", b"STORED\r\n")
                heavy = [Asker(it, b"get large\r\n", large, 20) for it in peers[:HEAVY]]
                polite = [Asker(it, b"get small\r\n", len(small), 1) for it in peers[HEAVY:]]
                for asker in heavy + polite:
                    chooser.register(asker.socket, selectors.EVENT_READ, asker)
                end = time.monotonic() + SECONDS
                while sum(it.got for it in heavy) < MOVED and time.monotonic() < end:
                    for key, _ in chooser.select(1):
                        key.data.reads(room)
        answers = sum(it.got for it in polite) // len(small)
        print(f"    {answers} answers beside {MOVED // 1_000_000} MB")
        self.assertGreaterEqual(answers, MOVED // EACH, f"small items that were told beside {MOVED} bytes of large ones")

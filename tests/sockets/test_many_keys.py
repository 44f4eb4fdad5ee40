"""Many keys in one get of a large store, beside writers."""
import random
import threading
import time

from tests.lib.case import ProgramCase
from tests.lib.peer import Peer
from tests.lib.server import StillServer

# Items, keys a get, readers, writers, and for how many seconds.
ITEMS, KEYS, READERS, WRITERS, SECONDS = 80_000, 100, 4, 2, 2
BLOCK = 32


def key_of(number):
    return b"key%06d" % number


def block_of(number, again):
    """A block that names its key, and one of two that writers exchange."""
    return (b"%06d%s" % (number, b"ab"[again:again + 1])).ljust(BLOCK, b".")


def told_of(number, again):
    return b"VALUE %s 0 %d\r\n%s\r\n" % (key_of(number), BLOCK, block_of(number, again))


def set_of(number, again):
    return b"set %s 0 0 %d noreply\r\n%s\r\n" % (key_of(number), BLOCK, block_of(number, again))


class ManyKeys(ProgramCase):
    def setUp(self):
        self.wrong, self.gets, self.end = [], 0, 0.0

    def test_each_key_has_its_own_block(self):
        """Each of the keys is answered once, in order, with a block that it had; a key that was never stored isn't."""
        with StillServer() as server:
            with Peer(server.port) as peer:
                for first in range(0, ITEMS, 1000):
                    peer.send(b"".join(set_of(it, 0) for it in range(first, first + 1000)))
                peer.asks(b"get none\r\n", b"END\r\n")
            self.end = time.monotonic() + SECONDS
            each = [threading.Thread(target=self.reads, args=(server.port, seed)) for seed in range(READERS)]
            each += [threading.Thread(target=self.writes, args=(server.port, seed)) for seed in range(WRITERS)]
            for it in each:
                it.start()
            for it in each:
                it.join()
            print(f"    {self.gets} gets of {KEYS} keys")
            self.assertEqual([], self.wrong[:1])
            self.assertGreater(self.gets, 0)
            self.assertTrue(server.runs(), server.said())

    def reads(self, port, seed):
        chosen = random.Random(seed)
        with Peer(port) as peer:
            while time.monotonic() < self.end and not self.wrong:
                numbers = [chosen.randrange(ITEMS + ITEMS // 10) for _ in range(KEYS)]
                peer.send(b"get " + b" ".join(key_of(it) for it in numbers) + b"\r\n")
                for number in (it for it in numbers if it < ITEMS):
                    self.has(number, peer.exactly(len(told_of(number, 0))))
                self.has(None, peer.exactly(len(b"END\r\n")))
                self.gets += 1

    def has(self, number, got):
        wanted = [b"END\r\n"] if number is None else [told_of(number, 0), told_of(number, 1)]
        if got not in wanted:
            self.wrong.append((number, got))

    def writes(self, port, seed):
        chosen = random.Random(1000 + seed)
        with Peer(port) as peer:
            while time.monotonic() < self.end and not self.wrong:
                peer.send(b"".join(set_of(chosen.randrange(ITEMS), chosen.randrange(2)) for _ in range(100)))
                peer.asks(b"get none\r\n", b"END\r\n")

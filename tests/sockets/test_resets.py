"""Connections that are reset, that come and go, and whose clients held much: what they held is given back."""
import contextlib
import random

from tests.lib.abuse import KEPT, LARGE, LITTLE, abused, kept_of, sent_as_far, store_large
from tests.lib.case import ProgramCase
from tests.lib.peer import Late, Peer, clients


class Resets(ProgramCase):
    def test_connections_that_are_reset(self):
        """Clients ask for much, read a little of it, and reset the connection, or before they read, or in a block."""
        chance = random.Random(1)
        with abused(KEPT) as server:
            large = store_large(server.port)
            for _ in range(300):
                with Peer(server.port) as peer:
                    peer.send(chance.choice([b"get large\r\n" * 5, b"get large\r\n" * 5, b"set reset 0 0 1000\r\nxyz", b"vers", b""]))
                    if chance.random() < 0.5:
                        peer.seconds = 0.002
                        with contextlib.suppress(Late):
                            peer.exactly(1000)
                    peer.reset()
            with Peer(server.port) as peer:
                peer.asks(b"get reset\r\nget large\r\n", b"END\r\n" + large)

    def test_connections_that_come_and_go(self):
        """10,000 connections are made and left, each after something else."""
        chance = random.Random(2)
        with abused(LITTLE // 2) as server:
            for number in range(10_000):
                with Peer(server.port) as peer:
                    leave(peer, chance.randrange(5), number)

    def test_clients_that_hold_much_again_and_again(self):
        """Clients that hold a megabyte each come and go again and again, 720 in all: they leave no more than those of one time."""
        with abused(kept_of(60)) as server:
            store_large(server.port)
            for _ in range(12):
                with clients(server.port, 60, receives=4096) as peers:
                    sent_as_far(peers[:30], b"get large\r\n" * 20, 0.2)
                    sent_as_far(peers[30:], b"set large 0 0 %d\r\n%s" % (LARGE, b"l" * (LARGE - 1)), 0.2)
                    for peer in peers[::2]:
                        peer.reset()


def leave(peer, kind, number):
    """Leaves a connection after something of this kind."""
    if kind == 0:
        peer.asks(b"set come 0 0 1\r\nx\r\n", b"STORED\r\n")
    elif kind == 1:
        peer.send(b"get com")
    elif kind == 2:
        peer.send(b"quit\r\n")
        if not peer.is_closed():
            raise AssertionError(f"quit doesn't close connection {number}")
    elif kind == 3:
        peer.reset()

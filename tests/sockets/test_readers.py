"""Clients that don't read what they are answered, or read it late."""
import socket
import time

from tests.lib.abuse import KEPT, MB, ONE, abused, costs, kept_of, sent_as_far, store_large
from tests.lib.case import ProgramCase
from tests.lib.compare import same, shown
from tests.lib.peer import Peer, clients
from tests.lib.wait import until

# How a session ends whose answers are read late.
ENDS = [b"quit\r\n", b"q" * 65537, b"get large", b"set large 0 0 10\r\nabc", b""]


class Readers(ProgramCase):
    def test_clients_that_do_not_read(self):
        """100 clients ask for 64 MB of answers each, by large blocks or by small ones, and read nothing for long."""
        count, small = 100, b"s" * 1000
        many = b"get" + b" small" * 60 + b"\r\n", b"VALUE small 0 1000\r\n%s\r\n" % small * 60 + b"END\r\n"
        # (room for a block of each: no one waits for another's)
        with abused(kept_of(count), buffers=4 * count) as server:
            large = b"get large\r\n", store_large(server.port)
            with Peer(server.port) as peer:
                peer.asks(b"set small 0 0 1000\r\n%s\r\n" % small, b"STORED\r\n")
            before = server.memory()
            with clients(server.port, count, receives=4096) as peers:
                for half, (asked, answer) in ((peers[: count // 2], large), (peers[count // 2 :], many)):
                    sent_as_far(half, asked * (64 * MB // len(answer) + 1), 1)
                until(lambda: server.memory() > before + count * ONE, 3)
                costs(server, before, count * ONE)
                for peer, answer, times in ((peers[0], large[1], 64), (peers[-1], many[1], 200)):
                    for at in range(times):
                        peer.is_told(answer, f"answer {at} to one that hadn't read")

    def test_clients_that_read_late(self):
        """What is answered before a session ends comes whole, though it is read long after, and then the connection is closed."""
        with abused(KEPT) as server:
            large = store_large(server.port)
            with clients(server.port, 2 * len(ENDS), receives=4096) as peers:
                for peer, end in zip(peers, ENDS * 2):
                    peer.send(b"get large\r\n" * 3 + end)
                    if end != b"quit\r\n":
                        peer.socket.shutdown(socket.SHUT_WR)
                # (long after: none has had anything, and the server can send no more)
                time.sleep(0.5)
                for peer, end in zip(peers, ENDS * 2):
                    wanted = large * 3 + (b"CLIENT_ERROR line too long\r\n" if end.startswith(b"qq") else b"")
                    got = peer.exactly(len(wanted) + 1)
                    with self.subTest(f"behind 3 gets of 1 MB {shown(end, 40)}"):
                        same(wanted, got)

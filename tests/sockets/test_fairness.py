"""Connections that come, many at once or beside a worker that is busy, and who is served first."""
import contextlib

from tests.lib.case import ProgramCase
from tests.lib.peer import Peer, clients
from tests.lib.server import StillServer
from tests.lib.threads import held, stopped, workers

# More than may wait for anything with a bound of its own.
MANY = 3000
MISS = b"END\r\n"


def ask_all(peers):
    """Each asks, and then each is answered."""
    for peer in peers:
        peer.send(b"get a\r\n")
    answered(peers)


def answered(peers):
    for number, peer in enumerate(peers):
        peer.is_told(MISS, f"answer to connection {number}")


class Fairness(ProgramCase):
    def test_connections_that_come_at_once(self):
        """Of many connections that come while no worker takes one, none is lost."""
        with StillServer(workers=1) as server:
            self.assertEqual(1, len(workers(server)), "workers")
            with contextlib.ExitStack() as closed:
                with held(workers(server)[0]):
                    peers = closed.enter_context(clients(server.port, MANY))
                    for peer in peers:
                        peer.send(b"get a\r\n")
                answered(peers)

    def test_newcomers_beside_a_worker_that_is_busy(self):
        """Newcomers are served while a worker does nothing, whichever it is, and those that it had are served when it goes on."""
        with StillServer() as server, clients(server.port, 8) as before:
            ask_all(before)
            self.assertEqual(4, len(workers(server)), "workers")
            for worker in workers(server):
                with held(worker), clients(server.port, 8, seconds=5) as peers:
                    ask_all(peers)
                    for _ in range(4):
                        with Peer(server.port, seconds=5) as alone:
                            ask_all([alone])
                ask_all(before)

    def test_who_asked_first(self):
        """Of those that ask while the server stands still, who asked first is answered first."""
        with StillServer(workers=1) as server, clients(server.port, 200) as peers:
            for peer in peers:
                peer.asks(b"set count 0 0 1\r\n0\r\n", b"STORED\r\n")
            with stopped(server):
                for peer in peers:
                    peer.send(b"incr count 1\r\n")
            told = [peer.upto(b"\r\n") for peer in peers]
            self.assertEqual([b"%d\r\n" % (number + 1) for number in range(len(peers))], told)

"""With --idle-timeout connections of which nothing is heard are closed, after that time and not before; without it none is."""
import contextlib
import selectors
import time

from tests.lib.abuse import store_large
from tests.lib.case import ProgramCase, side_by_side
from tests.lib.faults import Faults, late
from tests.lib.peer import Peer, answers, clients
from tests.lib.scrape import MetricsServer
from tests.lib.server import HOST, MOMENT, Server
from tests.lib.wait import until

# So many seconds nothing may be heard, and so soon one is closed, from when it was heard of last.
LIMIT, SOON = 1, 5
# Behind its last answer a connection stays for so many seconds more.
LINGERS = 4
# What is said before nothing is heard any more.
SAID = [b"", b"get a\r\n", b"ver", b"set a 0 0 10\r\n12345"]
# More than a worker looks at in turn.
MANY = 1200
# How long something is heard again and again, and how often.
WATCHED, OFTEN = 4, 0.4
# What one asks for who reads slowly, and how much of it is read each time: more than the system keeps for it.
ASKED, PIECE = 40, 2_500_000
SMALL = b"s" * 1000
# For so many milliseconds a worker stands still behind its look for events, which it takes half a second for at most; and the limit then.
STILL, POLL, LONGER = 3000, 0.7, 2


def idle_server(seconds, *more, **options):
    return Server(args=["--now", str(MOMENT), "--idle-timeout", str(seconds), *more], **options)


def lives(peers, began, seconds):
    """How long after it began each was open, and None of one that still is."""
    lived = dict.fromkeys(peers)
    with selectors.DefaultSelector() as chooser:
        for it in peers:
            it.socket.setblocking(False)
            chooser.register(it.socket, selectors.EVENT_READ, it)
        while chooser.get_map() and (left := began + seconds - time.monotonic()) > 0:
            for key, _ in chooser.select(left):
                with contextlib.suppress(ConnectionError):
                    if key.data.socket.recv(100):
                        continue
                lived[key.data] = time.monotonic() - began
                chooser.unregister(key.fileobj)
    return lived.values()


@side_by_side
class IdleTimeout(ProgramCase):
    def test_those_of_which_nothing_is_heard(self):
        """Many say nothing, or a command, or a part of one, and then nothing: each is closed, and not too soon."""
        with idle_server(LIMIT, "-c", str(MANY + 1)) as server:
            began = time.monotonic()
            with clients(server.port, MANY) as peers:
                for peer, said in zip(peers, SAID * MANY):
                    peer.send(said)
                lived = lives(peers, began, time.monotonic() - began + SOON)
            self.assertEqual(0, sum(it is None for it in lived), f"connections that are open still, of {MANY}")
            self.assertGreaterEqual(min(lived), LIMIT, "seconds after which the first was closed")
            self.assertTrue(until(lambda: server.connections() == 0, SOON), f"it has {server.connections()} sockets still")

    def test_those_of_which_something_is_heard(self):
        """One that asks, one that sends a byte of a line and one that reads a piece of its answers now and then are all served."""
        with idle_server(LIMIT) as server:
            large = store_large(server.port)
            with clients(server.port, 3) as (asker, sender, reader):
                reader.send(b"get large\r\n" * ASKED)
                sender.send(b"get ")
                wanted, end = large * ASKED, time.monotonic() + WATCHED
                while time.monotonic() < end:
                    asker.asks(b"get a\r\n", b"END\r\n")
                    sender.send(b"b")
                    wanted = self.read_on(reader, wanted)
                    time.sleep(OFTEN)
                sender.asks(b"\r\n", b"END\r\n")
                reader.is_told(wanted, "the rest of the answers")

    def read_on(self, reader, wanted):
        """Reads a piece of what is wanted, and gives what is left of it."""
        size = min(PIECE, len(wanted))
        reader.is_told(wanted[:size], "a piece of the answers")
        return wanted[size:]

    def test_those_that_do_not_read(self):
        """Clients that don't read what they are answered are closed, whether their session has ended, or waits for room."""
        with idle_server(LIMIT) as server:
            with Peer(server.port) as peer:
                peer.asks(b"set small 0 0 1000\r\n%s\r\n" % SMALL, b"STORED\r\n")
            # (what the system keeps for one isn't known: the answers of some end just behind it, when the session is over)
            with clients(server.port, 100, receives=4096) as peers:
                for number, peer in enumerate(peers):
                    peer.send(b"get small\r\n" * (45 * number) + b"quit\r\n")
                found = until(lambda: server.connections() == 0, SOON + LINGERS)
            self.assertTrue(found, f"it has {server.connections()} sockets still")

    def test_those_that_are_heard_of_in_a_pause(self):
        """What is sent while a worker stands still, behind its look for events and before that for idle ones, counts."""
        with Faults() as faults, idle_server(LONGER, workers=1, faults=faults) as server:
            server.settle()
            with clients(server.port, 20) as peers:
                for peer in peers:
                    peer.asks(b"get a\r\n", b"END\r\n")
                time.sleep(POLL)  # (each is seen waiting)
                faults.fail("epoll_wait", [late(STILL)], left=1)
                self.assertTrue(until(lambda: faults.count("epoll_wait") == 1, SOON), "nobody looks for events")
                time.sleep(POLL)
                for peer in peers:
                    peer.asks(b"get a\r\n", b"END\r\n")

    def test_those_that_wait_for_memory(self):
        """Clients that send on while others hold all memory, so that nothing of theirs is read, aren't idle."""
        waiting, closed = "mcserver_waiting_connections", 'mcserver_connections_closed_total{reason="idle"}'
        with MetricsServer("--idle-timeout", str(LIMIT), "--buffer-limit", "4", workers=1) as server, clients(server.port, 12) as peers:
            for number, peer in enumerate(peers):
                peer.send(b"set k%d 0 0 1000000\r\n" % number)
                peer.socket.setblocking(False)
            most, end = 0, time.monotonic() + WATCHED
            while time.monotonic() < end:
                for peer in peers:
                    with contextlib.suppress(BlockingIOError, ConnectionError):
                        peer.socket.send(b"b" * 10_000)
                most = max(most, server.scrape()[waiting])
                time.sleep(0.1)
            self.assertGreaterEqual(most, 3, "connections that wait")
            self.assertEqual(0, server.scrape()[closed], f"connections closed as idle, of which {most} waited")

    def test_the_place_of_one_comes_back(self):
        with idle_server(LIMIT, "-c", "2") as server:
            server.settle()
            with clients(server.port, 2) as peers:
                for peer in peers:
                    peer.asks(b"get a\r\n", b"END\r\n")
                self.assertFalse(answers(HOST, server.port), "one more than there may be is answered")
                self.assertTrue(until(lambda: answers(HOST, server.port), SOON), "no other is answered")

    def test_without_it_none_is_closed(self):
        with contextlib.ExitStack() as closed:
            servers = [Server(args=["--now", str(MOMENT)]), idle_server(0), idle_server(2592000)]
            peers = []
            for server in map(closed.enter_context, servers):
                peers += closed.enter_context(clients(server.port, 2))
            for peer in peers[::2]:
                peer.asks(b"get a\r\n", b"END\r\n")
            time.sleep(WATCHED)
            for peer in peers:
                peer.asks(b"get a\r\n", b"END\r\n")

"""The port of metrics beside clients that say nothing, send a byte now and then, or don't read: a scrape and /healthz are answered at once."""
import contextlib
import time

from tests.lib.case import ProgramCase, tests_of
from tests.lib.peer import clients
from tests.lib.scrape import MetricsServer, sent, told

HEALTH = b"GET /healthz HTTP/1.1\r\nHost: mcserver\r\n\r\n"
# A probe gives up after a second.
SOON = 1
# An idle connection is told so after 2 seconds, and then closed, on a machine that is busy within 6.
CLOSED = 6


def nothing(peer):
    pass


def a_byte(peer):
    peer.send(b"G")


def without_reading(peer):
    peer.send(b"GET /metrics HTTP/1.1\r\nHost: mcserver\r\n\r\n")


def refused_and_more(peer):
    peer.send(b"POST /metrics HTTP/1.1\r\nHost: mcserver\r\nContent-Length: 100000\r\n\r\n" + b"x" * 10000)


# What the clients beside do, and how many they are.
ROWS = [
    ("20 that say nothing", nothing, 20),
    ("20 that send a byte now and then", a_byte, 20),
    ("20 that don't read", without_reading, 20),
    ("20 that are refused and send on", refused_and_more, 20),
    ("200 that say nothing", nothing, 200),
]


@tests_of(ROWS, lambda row: row[0])
class Beside(ProgramCase):
    def check(self, row):
        _, act, count = row
        with MetricsServer() as server, clients(server.metrics, count, receives=4096) as peers:
            for _ in range(4):
                for it in peers:
                    with contextlib.suppress(OSError):  # (it may be closed)
                        act(it)
                began = time.monotonic()
                self.assertIn("memcached_current_connections", server.scrape(SOON))
                self.assertEqual((200, b"ok\n"), told(sent(server.metrics, HEALTH, SOON))[::2])
                self.assertLess(time.monotonic() - began, SOON, "seconds for a scrape and a look at its health")
                time.sleep(0.3)


class Late(ProgramCase):
    def test_those_that_say_nothing(self):
        """Each is closed, and one of which a part of a request came is told first that it was too slow."""
        with MetricsServer() as server, clients(server.metrics, 20, seconds=CLOSED) as peers:
            for it in peers[:10]:
                it.send(b"GET /metr")
            for it in peers[:10]:
                self.assertEqual(408, told(it.rest()).status)
            for it in peers[10:]:
                self.assertTrue(it.is_closed(), "a connection that says nothing is open")
            server.settle()

"""mcserver_connections_closed_total: each reason is scraped at a number of its own, which isn't 0 and is that of no other."""
import contextlib
import errno
import os
import resource
import time

from tests.lib.abuse import sent_as_far
from tests.lib.case import ProgramCase
from tests.lib.faults import Faults
from tests.lib.peer import Peer, clients
from tests.lib.scrape import MetricsServer, sent
from tests.lib.server import StillServer
from tests.lib.threads import fail_listener
from tests.lib.wait import until

FAMILY = "mcserver_connections_closed_total"
# A connection that is gone is counted within so many seconds; those that hold much are closed after 5, and one that is asked to end within 4.
SOON, HOARD, STOP = 6, 12, 6
MOST = 40
# So many find no descriptor while the limit is low.
REFUSED = 8
HTTP = b"GET / HTTP/1.1\r\nHost: h\r\n\r\n"


def closes(server, faults):
    with Peer(server.port) as peer:
        peer.asks(b"get a\r\n", b"END\r\n")


def quits(server, faults):
    with Peer(server.port) as peer:
        peer.send(b"quit\r\n")
        peer.is_closed()


def sends_a_long_line(server, faults):
    with Peer(server.port) as peer:
        peer.send(b"x" * 70_000)
        peer.is_closed()


def speaks_http(server, faults):
    with Peer(server.port) as peer:
        peer.send(HTTP)
        peer.is_closed()


def resets(server, faults):
    peer = Peer(server.port)
    peer.asks(b"get a\r\n", b"END\r\n")
    peer.reset()


def cannot_be_answered(server, faults):
    with Peer(server.port) as peer:
        peer.asks(b"get a\r\n", b"END\r\n")
        faults.fail("send", [errno.EPIPE], left=1)
        peer.send(b"get a\r\n")
        peer.is_closed()
        faults.end()


def cannot_be_watched(server, faults):
    """The system has no memory for a newcomer."""
    faults.fail("epoll_ctl", [errno.ENOMEM], left=1)
    with Peer(server.port) as peer:
        peer.is_closed()
    faults.end()


def finds_no_descriptor(server, faults):
    """The limit of descriptors is at the first that is free, which one connection has: an accept that waits has taken it already."""
    until(lambda: server.connections() == 0, SOON)
    used, limit = {int(it) for it in os.listdir(f"/proc/{server.pid}/fd")}, resource.prlimit(server.pid, resource.RLIMIT_NOFILE)
    least = next(number for number in range(len(used) + 1) if number not in used)
    resource.prlimit(server.pid, resource.RLIMIT_NOFILE, (least, limit[1]))
    try:
        with Peer(server.port) as one:
            one.asks(b"get a\r\n", b"END\r\n")
            for _ in range(REFUSED):
                with Peer(server.port, SOON) as peer:
                    assert peer.is_closed(), "a connection without a descriptor is open"
    finally:
        resource.prlimit(server.pid, resource.RLIMIT_NOFILE, limit)
    return REFUSED


def is_one_too_many(server, faults):
    with clients(server.port, MOST) as others:
        for it in others:
            it.asks(b"get a\r\n", b"END\r\n")
        with Peer(server.port) as peer:
            peer.is_closed()
        for it in others:
            it.asks(b"get a\r\n", b"END\r\n")


# What brings a connection to its end for a reason, and how often it is done.
ENDS = [
    ("session_over", quits, 2), ("line_too_long", sends_a_long_line, 3), ("other_protocol", speaks_http, 4), ("read_fault", resets, 5),
    ("write_fault", cannot_be_answered, 6), ("no_memory", cannot_be_watched, 7), ("no_descriptor", finds_no_descriptor, 1),
    ("client_closed", closes, 11), ("one_too_many", is_one_too_many, 1),
]
# So many connections are beside it, which their clients close.
BESIDE = {is_one_too_many: MOST, finds_no_descriptor: 1}


def counts(server):
    """The number of each reason that isn't 0."""
    numbers = server.scrape().items()
    return {name.partition('reason="')[2].rstrip('"}'): number for name, number in numbers if name.startswith(FAMILY) and number}


def closed_of(peers):
    """How many of these find themselves closed."""
    for it in peers:
        it.seconds = 0.02
    return sum(it.is_closed() for it in peers)


class ConnectionsClosedTotal(ProgramCase):
    def becomes(self, server, wanted, seconds=SOON):
        self.assertTrue(until(lambda: counts(server) == wanted, seconds), f"{counts(server)}, wanted {wanted}")

    def test_each_reason_at_its_own_number(self):
        with Faults() as faults, MetricsServer("-c", str(MOST), faults=faults) as server:
            server.settle()
            wanted = counts(server)
            for reason, ends, times in ENDS:
                for _ in range(times):
                    count = ends(server, faults) or 1
                    # (one after another, so that the next fault meets the next connection)
                    wanted[reason] = wanted.get(reason, 0) + count
                    wanted["client_closed"] += BESIDE.get(ends, 0)
                    self.becomes(server, wanted)
            self.assertEqual(len(ENDS), len(set(wanted.values())), f"two reasons have one number: {wanted}")

    def test_idle(self):
        with MetricsServer("--idle-timeout", "1") as server:
            server.settle()
            before = counts(server)
            with clients(server.port, 9):
                self.becomes(server, {**before, "idle": 9})

    def test_hoarding(self):
        """As many as find themselves closed."""
        with MetricsServer("--buffer-limit", "8", workers=1) as server:
            server.settle()
            before = counts(server)
            with clients(server.port, 8) as holders, Peer(server.port, seconds=30) as waits:
                sent_as_far(holders, b"set held 0 0 1000000\r\n" + b"h" * 900_000, 0.5)
                waits.asks(b"set waits 0 0 1000000\r\n%s\r\n" % (b"w" * 1_000_000), b"STORED\r\n")
                self.assertTrue(until(lambda: counts(server).get("hoarding"), HOARD), counts(server))
                self.assertTrue(until(lambda: counts(server) == {**before, "hoarding": closed_of(holders)}, SOON), counts(server))

    def test_out_of_memory(self):
        """As many as find themselves closed, where the system has no memory for the blocks that they send."""
        with MetricsServer("-I", "8m", "--buffer-limit", "256", workers=1) as server, clients(server.port, 16) as peers:
            for peer in peers:
                peer.asks(b"get a\r\n", b"END\r\n")
            server.settle()
            before, limit = counts(server), resource.prlimit(server.pid, resource.RLIMIT_AS)
            resource.prlimit(server.pid, resource.RLIMIT_AS, (server.memory("VmSize:"), limit[1]))
            for peer in peers:
                with contextlib.suppress(ConnectionError):
                    sent_as_far([peer], b"set a 0 0 8000000\r\n" + b"a" * 7900000, 0.2)
            resource.prlimit(server.pid, resource.RLIMIT_AS, limit)
            self.assertTrue(until(lambda: counts(server).get("out_of_memory"), SOON), counts(server))
            self.assertTrue(until(lambda: counts(server) == {**before, "out_of_memory": closed_of(peers)}, SOON), counts(server))

    def test_stopped(self):
        """Those that are idle are closed while one that sends a block keeps the server there, which still tells."""
        with MetricsServer("--allow-quit") as server, clients(server.port, 12) as idle, Peer(server.port) as busy:
            for it in idle:
                it.asks(b"get a\r\n", b"END\r\n")
            server.settle()
            before, end = counts(server), time.monotonic() + STOP
            busy.send(b"set a 0 0 1000\r\n")
            sent(server.metrics, b"POST /quit HTTP/1.1\r\nHost: localhost\r\n\r\n")
            found = before
            while time.monotonic() < end and found.get("stopped") != len(idle):
                with contextlib.suppress(OSError):
                    busy.send(b"x")
                    found = counts(server)
                time.sleep(0.02)
            self.assertEqual({**before, "stopped": len(idle)}, found)

    def test_a_listener_that_failed(self):
        """No scrape is answered behind it, as the program ends; the log has a line for each connection."""
        with StillServer(args=["-v"]) as server, clients(server.port, 10) as peers:
            for it in peers:
                it.asks(b"get a\r\n", b"END\r\n")
            fail_listener(server.pid)
            self.assertTrue(all(it.is_closed() for it in peers), "a connection is open")
            self.assertEqual(1, server.process.wait(SOON))
            self.assertEqual(len(peers), server.said().count("the listener failed"), server.said())

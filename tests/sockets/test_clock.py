"""The system's clock set back or forward: what was flushed or has expired stays dead, and what lives isn't shortened."""
import time

from tests.lib.case import ProgramCase, side_by_side
from tests.lib.faults import Faults
from tests.lib.peer import Peer, clients
from tests.lib.server import Server
from tests.lib.wait import until

HOUR = 3600
ITEMS = 200
# Each worker has looked at the clock, and one has judged the system's, after so many seconds.
LOOKS = 2.5
# An item expires within so many seconds of its expiry, on a machine that is busy.
SOON = 10


def setting(name, at, exptime):
    return b"set %s%d 0 %d 1\r\nx\r\n" % (name, at, exptime)


@side_by_side
class Clock(ProgramCase):
    def store(self, peer, name, exptime):
        peer.send(b"".join(setting(name, at, exptime) for at in range(ITEMS)))
        peer.is_told(b"STORED\r\n" * ITEMS)

    def alive(self, peer, name, items=range(ITEMS)):
        """How many of the items are hits."""
        peer.send(b"get " + b" ".join(b"%s%d" % (name, at) for at in items) + b"\r\n")
        return peer.upto(b"END\r\n").count(b"VALUE ")

    def is_dead(self, peer, name):
        """Waits until the first of the items is dead. The others aren't read, since a dead item that is read is dropped."""
        return until(lambda: self.alive(peer, name, [0]) == 0, SOON)

    def test_set_back(self):
        """By an hour, and at once by a day more: nothing that was dead is alive for any worker, and what lives stays so."""
        with Faults() as faults, Server(workers=4, faults=faults) as server, clients(server.port, 8) as peers:
            first = peers[0]
            self.store(first, b"flushed", 0)
            first.asks(b"flush_all 1\r\n", b"OK\r\n")
            self.assertTrue(self.is_dead(first, b"flushed"), "a flushed item is alive")
            self.store(first, b"short", 1)
            self.store(first, b"long", 30 * HOUR)
            first.asks(b"set unix 0 %d 1\r\nx\r\n" % (int(time.time()) + HOUR), b"STORED\r\n")
            self.assertTrue(self.is_dead(first, b"short"), "an item of one second is alive")
            for back in (HOUR, 25 * HOUR):
                faults.set_clock_back(back)
                time.sleep(0.6)  # (each worker has looked at the clock since)
                for peer in peers:
                    self.assertEqual(0, self.alive(peer, b"flushed"), f"flushed items that are hits, {back} s back")
                    self.assertEqual(0, self.alive(peer, b"short"), f"expired items that are hits, {back} s back")
                    self.assertEqual(ITEMS, self.alive(peer, b"long"), f"items that live, {back} s back")
                    peer.asks(b"get unix\r\n", b"VALUE unix 0 1\r\nx\r\nEND\r\n")

    def test_goes_on(self):
        """While the system's clock is behind, what is stored expires after as long as it was given."""
        with Faults() as faults, Server(faults=faults) as server, Peer(server.port) as peer:
            peer.asks(b"get a\r\n", b"END\r\n")
            faults.set_clock_back(HOUR)
            self.store(peer, b"brief", 3)
            stored = time.monotonic()
            self.assertEqual(ITEMS, self.alive(peer, b"brief"), "items that were just stored")
            self.assertTrue(self.is_dead(peer, b"brief"), "items of 3 seconds don't expire")
            self.assertGreater(time.monotonic() - stored, 1.5, "seconds that items of 3 seconds lived")

    def test_set_forward(self):
        """A step forward is followed once it has stood for a minute, and a step back from there is none."""
        with Faults() as faults, Server(faults=faults) as server, Peer(server.port) as peer:
            self.store(peer, b"hour", HOUR)
            faults.set_clock_back(-HOUR - 100)
            time.sleep(LOOKS)
            self.assertEqual(ITEMS, self.alive(peer, b"hour"), "items that live, while the step hasn't stood for a minute")
            faults.pass_seconds(61)
            self.assertTrue(self.is_dead(peer, b"hour"), "an item of an hour is alive, an hour later")
            faults.set_clock_back(0)
            time.sleep(LOOKS)
            self.assertEqual(0, self.alive(peer, b"hour"), "items that were dead are hits")

    def test_ahead_for_two_seconds(self):
        """A clock that is a day ahead for two seconds kills nothing, also of what is stored afterwards."""
        unix = b"set unix 0 %d 1\r\nx\r\n" % (int(time.time()) + HOUR)
        hit = b"VALUE unix 0 1\r\nx\r\nEND\r\n"
        with Faults() as faults, Server(faults=faults) as server, Peer(server.port) as peer:
            peer.asks(unix, b"STORED\r\n")
            faults.set_clock_back(-24 * HOUR)
            time.sleep(2)
            faults.set_clock_back(0)
            time.sleep(LOOKS)
            faults.pass_seconds(61)
            time.sleep(LOOKS)
            peer.asks(b"get unix\r\n", hit)
            peer.asks(unix, b"STORED\r\n")
            peer.asks(b"get unix\r\n", hit)

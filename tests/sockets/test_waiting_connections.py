"""Who waits for whom: clients that send a byte now and then, or read slowly, or time out and come again, keep no honest one waiting."""
import contextlib
import selectors
import socket
import time
from concurrent.futures import ThreadPoolExecutor

from tests.lib.abuse import GIVEN_BACK, LITTLE, MB, costs, sent_as_far
from tests.lib.case import ProgramCase, side_by_side
from tests.lib.large import Unread, block, setting
from tests.lib.peer import Peer, clients
from tests.lib.scrape import MetricsServer
from tests.lib.server import Server
from tests.lib.settings import ROOT
from tests.lib.slow import Drips, Honest, Sets, TimesOut, readers, uploads
from tests.lib.wait import until

# An honest request is answered in so many seconds, but for one in a hundred. On a machine that is busy it may take so many times what
# the slowest takes of a stand-in of the tests while nobody else is there.
SOON, SHARE, BUSY = 1, 100, 3
# How many there are, and for how long they ask.
HONEST, SECONDS, CALM = 6, 12, 2
STANDIN = f"{ROOT}/tests/standin/standin.py"
# How many slow readers there are, how many bytes a second each reads, and how many fast ones are beside them.
SLOW, PACE, FAST = 100, 400_000, 20
# For so long a server stands still, while so many send a block.
STILL, UPLOADS = 7, 40
# What all may hold by default, in bytes.
HELD = 64 * MB
# A block that waits while the buffers are full, its first bytes, and its answer.
BLOCK = b"set waits 0 0 1000000\r\n%s\r\n" % (b"w" * 1_000_000)
BEGUN = BLOCK[:30_000]
STORED = b"STORED\r\n"
# How many send a long line, and how many keep memory that was written over.
LINES, READERS = 900, 24
# How many read one item, how many bytes a second each, and how many blocks of so many bytes others set meanwhile.
MANY, LITTLE_PACE, SETS, SET = 64, 100_000, 30, 200_000


class Waiting(ProgramCase):
    def times(self, server, seconds):
        """How long each request of honest clients takes, in order, none of which is answered wrong or refused."""
        asking = [Honest(server.port, name, seconds) for name in range(HONEST)]
        for it in asking:
            it.start()
        for it in asking:
            it.join(5 * SECONDS)
        self.assertEqual([it.fault for it in asking], [None] * HONEST)
        return sorted(time for it in asking for time in it.times)

    def calm(self, server):
        """So soon an honest request is answered beside others, by what a stand-in takes. While no others are there each is."""
        with Server(STANDIN) as other:
            soon = max(SOON, BUSY * self.times(other, CALM)[-1])
        slowest = self.times(server, CALM)[-1]
        self.assertLessEqual(slowest, soon, "seconds that the slowest request took while no others were there")
        return soon

    def honest_are_answered(self, server, soon):
        """Fails unless honest requests are answered so soon, but for one in a hundred."""
        times = self.times(server, SECONDS)
        late = [it for it in times if it > soon]
        print(f"    {len(times)} requests, {len(late)} of them after more than {soon:.1f} s, the last after {times[-1]:.2f} s")
        self.assertGreaterEqual(len(times), 20 * HONEST)
        self.assertLessEqual(len(late), len(times) // SHARE, f"late ones: {late[-5:]}")

    def test_a_byte_now_and_then(self):
        """Sixty clients begin a block of 1 MB and send a byte each 1, 3 or 10 seconds."""
        with Server() as server:
            soon, before = self.calm(server), server.memory()
            with Drips(server.port, 60, 1_000_000):
                self.honest_are_answered(server, soon)
                costs(server, before, HELD + LITTLE)

    def test_a_byte_of_8_mb_now_and_then(self):
        """Eight clients begin a block of 8 MB so."""
        with Server(args=["-I", "8m"]) as server:
            soon = self.calm(server)
            with Drips(server.port, 8, 8_000_000):
                self.honest_are_answered(server, soon)

    def test_clients_that_time_out(self):
        """Beside those clients that drip, others give up after half a second, and come again."""
        asked = [b"get large\r\n" * 3, b"set half 0 0 1000000\r\n" + b"h" * 900_000, b"set half 0 0 1000000\r\n"]
        with Server() as server:
            soon = self.calm(server)
            with Peer(server.port) as peer:
                peer.asks(b"set large 0 0 1000000\r\n%s\r\n" % (b"l" * 1_000_000), b"STORED\r\n")
            with Drips(server.port, 60, 1_000_000) as drips:
                come = [TimesOut(server.port, asked[at % 3]) for at in range(30)]
                for it in come:
                    it.start()
                try:
                    self.honest_are_answered(server, soon)
                    living = len(drips.links) + len(come)
                    self.assertTrue(until(lambda: server.connections() <= living + 10, 2), f"{server.connections()} connections of {living} clients")
                finally:
                    for it in come:
                        it.over.set()
                    for it in come:
                        it.join(2)
            self.assertGreater(min(it.came for it in come), 3)

    def test_slow_readers(self):
        """A hundred clients read blocks of 1 MB at 400 kB a second beside twenty fast ones: none is closed."""
        with Server() as server:
            with Peer(server.port) as peer:
                peer.asks(b"set large 0 0 1000000\r\n%s\r\n" % (b"l" * 1_000_000), b"STORED\r\n")
            answer = len(b"VALUE large 0 1000000\r\n\r\nEND\r\n") + 1_000_000
            made = readers([PACE] * SLOW + [None] * FAST, server.port, answer, 2 * SECONDS)
        closed = sum(it.is_closed for it in made)
        slow = [it.got for it in made if it.pace]
        print(f"    slow ones got {min(slow):,} to {max(slow):,} bytes, fast ones {sum(it.got for it in made) - sum(slow):,} together")
        self.assertEqual(closed, 0, f"{closed} of {SLOW + FAST} were closed")

    def test_many_read_one_item(self):
        """Sixty-four clients read one item of 1 MB at 100 KB a second: blocks of others are stored within a second, and none is closed."""
        with Server() as server:
            with Peer(server.port) as peer:
                peer.asks(b"set large 0 0 1000000\r\n%s\r\n" % (b"l" * 1_000_000), STORED)
            sets = Sets(server.port, SETS, SET)
            sets.start()
            made = readers([LITTLE_PACE] * MANY, server.port, len(b"VALUE large 0 1000000\r\n\r\nEND\r\n") + 1_000_000, SECONDS)
            sets.join(SECONDS)
        print(f"    {len(sets.times)} blocks, the slowest after {max(sets.times, default=0):.2f} s")
        self.assertEqual((sets.fault, len(sets.times)), (None, SETS))
        self.assertLess(max(sets.times), SOON)
        self.assertEqual(sum(it.is_closed for it in made), 0)

    def test_long_lines_that_do_not_end(self):
        """Nine hundred clients have sent 60 KB of a line each, every other one behind a request: blocks of others are stored within a second."""
        with Server(args=["-c", "2000"]) as server, clients(server.port, LINES) as peers:
            for at, it in enumerate(peers):
                it.send(b"get small\r\n" * (at % 2) + b"get " + b"large " * 10_000)
            sets = Sets(server.port, SETS, SET)
            sets.start()
            sets.join(5 * SECONDS)
            self.assertEqual((sets.fault, len(sets.times)), (None, SETS))
            self.assertLess(max(sets.times), SOON)

    def test_readers_of_what_has_left(self):
        """Clients that read nothing keep memory that was written over: beyond the limit the slowest are closed, and a block of another waits for none."""
        with Server(args=["--buffer-limit", "8"], workers=1) as server, Peer(server.port) as peer, contextlib.ExitStack() as closing:
            made = []
            for number in range(READERS):
                peer.asks(setting(b"large", block(number, 1_000_000)), STORED)
                made.append(closing.enter_context(Unread(server.port, b"get large\r\n")))
                self.assertTrue(made[-1].begins())
            began = time.monotonic()
            peer.asks(setting(b"other", block(0, SET)), STORED)
            self.assertLess(time.monotonic() - began, SOON)
            self.assertTrue(until(lambda: server.connections() <= 10, 5), f"{server.connections()} connections")
            self.assertGreaterEqual(server.connections(), 5)

    def test_a_pause(self):
        """A server stands still for 7 seconds while forty clients send blocks: each block is stored."""
        with Server() as server:
            made = uploads(server, UPLOADS, STILL)
        self.assertEqual([it.fault for it in made], [None] * UPLOADS)


@side_by_side
class Kept(ProgramCase):
    """What becomes of those that are kept waiting, as others hold all that there is."""

    @contextlib.contextmanager
    def full(self, *args):
        """A server of one worker whose buffers are full of blocks that don't come whole, for 5 seconds and a bit."""
        with Server(args=["--buffer-limit", "8", *args], workers=1) as server:
            with Peer(server.port) as peer:
                peer.asks(b"set large 0 0 1000000\r\n%s\r\n" % (b"l" * 1_000_000), b"STORED\r\n")
                peer.asks(b"set small 0 0 1\r\ns\r\n", b"STORED\r\n")
            with clients(server.port, 8) as holders:
                for it in holders:
                    it.socket.setblocking(False)
                    self.send_some(it, b"set held 0 0 1000000\r\n" + b"h" * 900_000)
                self.assertTrue(until(lambda: server.connections() == len(holders), 2), f"{server.connections()} connections")
                self.holders = holders
                yield server

    def send_some(self, peer, data):
        """Sends as much as the server takes in a second."""
        with selectors.DefaultSelector() as chooser:
            chooser.register(peer.socket, selectors.EVENT_WRITE)
            while data and chooser.select(0.2):
                data = data[peer.socket.send(data) :]

    def test_small_answers_before_a_large_one(self):
        """Answers that were decided come at once, though the next request waits."""
        with self.full() as server, Peer(server.port) as peer:
            began = time.monotonic()
            peer.asks(b"get small\r\nget small\r\n" + BEGUN, b"VALUE small 0 1\r\ns\r\nEND\r\n" * 2)
            self.assertLess(time.monotonic() - began, 2)  # (the block waits for 5 s)
            peer.asks(BLOCK[len(BEGUN) :], STORED)

    def test_a_large_answer_waits_for_nobody(self):
        """An item that is sent from where it lies takes no room."""
        with self.full() as server, Peer(server.port) as peer:
            began = time.monotonic()
            peer.asks(b"get large\r\n", b"VALUE large 0 1000000\r\n%s\r\nEND\r\n" % (b"l" * 1_000_000))
            self.assertLess(time.monotonic() - began, 2)

    def test_one_that_breaks_leaves(self):
        """A connection that is reset while it waits is closed at once."""
        with self.full() as server:
            before = server.connections()
            peer = Peer(server.port)
            peer.send(BEGUN)
            self.assertTrue(until(lambda: server.connections() == before + 1, 2), f"{server.connections()} connections")
            time.sleep(0.3)
            peer.reset()
            self.assertTrue(until(lambda: server.connections() <= before, 1), "it is there")

    def test_one_that_is_idle_leaves(self):
        """One that waits ends by --idle-timeout."""
        with self.full("--idle-timeout", "1") as server, Peer(server.port) as peer:
            peer.send(BEGUN)
            self.assertTrue(peer.is_closed())

    def test_all_get_through(self):
        """Each of many that wait is served once those that hold much have ended, and none is closed."""
        with self.full() as server, clients(server.port, 40, seconds=30) as peers:
            for peer in peers:
                peer.send(BEGUN)
            # all at once, as the newest may be let on before others
            with ThreadPoolExecutor(len(peers)) as pool:
                list(pool.map(lambda peer: peer.asks(BLOCK[len(BEGUN) :], STORED), peers))

    def test_one_that_sends_no_more(self):
        """One that has shut down its write side and waits has its answers, then the end, and leaves nothing behind."""
        with self.full() as server, Peer(server.port, seconds=30) as peer:
            peer.send(BLOCK + b"get none\r\n" + BLOCK)
            peer.socket.shutdown(socket.SHUT_WR)
            peer.is_told(STORED + b"END\r\n" + STORED)
            self.assertFalse(peer.more(time.monotonic() + peer.seconds), "more than was asked for")
            for it in self.holders:
                it.close()
            self.assertTrue(until(lambda: server.connections() == 0, GIVEN_BACK), f"{server.connections()} connections")


class Reported(ProgramCase):
    def test_why_they_are_closed(self):
        """Those that hold much and are slow are closed and counted as such, and not as idle ones, or as those whose session is over."""
        reasons = 'mcserver_connections_closed_total{reason="%s"}'
        with MetricsServer("--buffer-limit", "8", workers=1) as server, clients(server.port, 8) as holders:
            with Peer(server.port) as peer:
                peer.asks(b"set large 0 0 1000000\r\n%s\r\n" % (b"l" * 1_000_000), b"STORED\r\n")
            sent_as_far(holders, b"set held 0 0 1000000\r\n" + b"h" * 900_000, 0.5)
            before = server.scrape()
            with Peer(server.port, seconds=30) as peer:
                peer.asks(BLOCK, STORED)
                grown = server.grown(before)
        found = [it for it in ("hoarding", "idle", "session_over", "read_fault", "write_fault") if reasons % it in grown]
        self.assertEqual(["hoarding"], found, "reasons of connections that were closed")

"""How often workers wake, and what that costs, when nobody asks anything; and that each newcomer wakes one."""
import contextlib
import time

from tests.lib.case import ProgramCase
from tests.lib.peer import Peer, clients
from tests.lib.server import StillServer
from tests.lib.steps import takes_to_store
from tests.lib.threads import held, loggers, waits, workers

# So long it is watched, in seconds, once it has rested for a moment.
WATCHED, MOMENT = 2, 0.6


class Wakeups(ProgramCase):
    def asked_once(self, peers):
        for peer in peers:
            peer.asks(b"get idle\r\n", b"END\r\n")

    def test_500_idle_connections(self):
        """500 connections that say nothing cost less than a twentieth of a processor."""
        with StillServer() as server, clients(server.port, 500) as peers:
            self.asked_once(peers)
            time.sleep(MOMENT)
            before = server.processor()
            time.sleep(WATCHED)
            used = server.processor() - before
            self.assertLessEqual(used, WATCHED / 20, f"seconds of a processor in {WATCHED} s")
            self.asked_once(peers)

    def test_how_often_workers_wake(self):
        """Asked nothing, a worker wakes at most four times a second, with connections open and without, and the logger never."""
        with StillServer() as server, clients(server.port, 20) as peers:
            self.asked_once(peers)
            self.assertEqual((4, 1), (len(workers(server)), len(loggers(server))), "workers, and loggers")
            time.sleep(MOMENT)
            threads, logger = workers(server), loggers(server)
            before, began = waits(server, threads + logger), time.monotonic()
            time.sleep(WATCHED)
            after, took = waits(server, threads + logger), time.monotonic() - began
            self.assertEqual([before[it] for it in logger], [after[it] for it in logger], "how often the logger woke")
            for thread in threads:
                self.assertLessEqual(after[thread] - before[thread], 4 * took + 1, f"how often a worker woke in {took:.1f} s")


class Newcomers(ProgramCase):
    # A worker rests for half a second at most. It is tried again where the machine was busy: a wake-up that is lost is lost each time.
    SOON, TRIES = 0.3, 3

    def test_before_each_store_of_a_worker(self):
        """A newcomer that comes right before a worker stores what the acceptor reads, on its way to rest, is served at once."""
        with StillServer(workers=1) as server:
            server.settle()
            (worker,) = workers(server)
            stores = 0
            while took := self.quickest(server, worker, stores):
                self.assertLess(took, self.SOON, f"seconds until a newcomer before store {stores} was answered")
                stores += 1
            self.assertGreaterEqual(stores, 2, "stores of a worker that rests, and then doesn't")

    def quickest(self, server, worker, nth):
        """How long a newcomer before a store of the worker waits for its answer, the quickest of some; nothing if there is no such store."""
        found = None
        for _ in range(self.TRIES):
            time.sleep(0.1)  # (it rests)
            with contextlib.ExitStack() as stack:
                with held(worker):
                    if not takes_to_store(server.pid, worker, nth):
                        return None
                    peer = stack.enter_context(Peer(server.port))
                    peer.send(b"get a\r\n")
                    time.sleep(0.05)  # (it is accepted)
                    began = time.monotonic()
                peer.is_told(b"END\r\n")
                found = min(found or self.SOON + 1, time.monotonic() - began)
            if found < self.SOON:
                break
        return found

    def test_each_newcomer_wakes_a_worker(self):
        """A newcomer to a worker that is about to rest doesn't wait until its rest is over."""
        late = []
        with StillServer(workers=1) as server:
            for _ in range(4000):
                began = time.monotonic()
                with Peer(server.port) as peer:
                    peer.asks(b"get a\r\n", b"END\r\n")
                took = time.monotonic() - began
                if took > 0.3:
                    late.append(took)
        self.assertLessEqual(len(late), 1, f"newcomers that were answered after {late} seconds")

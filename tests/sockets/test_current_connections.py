"""Connections whose answers are still to be sent when their session ends, and those that come next: each is served, and none counts twice."""
import contextlib
import random
import time
from concurrent.futures import ThreadPoolExecutor

from tests.lib.abuse import ANSWERED, store_large
from tests.lib.case import ProgramCase
from tests.lib.faults import Faults, delay
from tests.lib.peer import Peer, clients
from tests.lib.scrape import MetricsServer
from tests.lib.server import StillServer
from tests.lib.wait import until

LEAVING, NEWCOMERS, ROUNDS = 30, 100, 3
OPEN = "memcached_current_connections"


class Leaving(ProgramCase):
    def test_newcomers_behind_those_that_left(self):
        """Clients quit behind answers that they haven't read. All answers come, and newcomers in their places are served, round for round."""
        chance = random.Random(1)
        with MetricsServer(workers=1) as server:
            hit = store_large(server.port)
            for _ in range(ROUNDS):
                with contextlib.ExitStack() as stack:
                    leaving = [stack.enter_context(Peer(server.port, receives=65536)) for _ in range(LEAVING)]
                    for it in leaving:
                        it.send(b"get large large\r\nquit\r\n")
                    time.sleep(0.2)  # (what the system takes is sent, and each session is over)
                    for it in leaving[: LEAVING // 3]:
                        it.reset()
                    rest = leaving[LEAVING // 3 :]
                    chance.shuffle(rest)
                    for it in rest:
                        it.is_told(hit[: -len(b"END\r\n")] + hit)
                        self.assertTrue(it.is_closed(), "a connection that was told all is open")
                        it.close()  # (until then it lingers)
                    newcomers = stack.enter_context(clients(server.port, NEWCOMERS, seconds=ANSWERED))
                    for nth, it in enumerate(newcomers):
                        it.send(b"set k%d 0 0 3\r\n%03d\r\n" % (nth, nth))
                    for it in newcomers:
                        it.is_told(b"STORED\r\n")
                    for nth, it in enumerate(newcomers):
                        it.asks(b"get k%d\r\n" % nth, b"VALUE k%d 0 3\r\n%03d\r\nEND\r\n" % (nth, nth))
                    self.assertTrue(until(lambda: self.open(server) == NEWCOMERS, ANSWERED), f"{self.open(server)} are counted, {NEWCOMERS} are open")
                self.assertTrue(until(lambda: self.open(server) == 0, ANSWERED), f"{self.open(server)} are counted, and none is open")

    def open(self, server):
        return server.scrape()[OPEN]


class Closing(ProgramCase):
    def test_no_more_open_than_are_counted(self):
        """Where closing takes its time, a connection counts until it is closed: never are more sockets open than -c and the one refused."""
        most = 3
        with Faults() as faults, StillServer(connections=most, faults=faults) as server:
            server.settle()
            faults.fail("close", [delay(100)])
            over = time.monotonic() + 2
            seen = 0

            def come_and_go(_):
                while time.monotonic() < over:
                    with contextlib.suppress(OSError, AssertionError), Peer(server.port, ANSWERED) as peer:
                        peer.send(b"get a\r\n")
                        peer.exactly(5)

            with ThreadPoolExecutor(4) as pool:
                running = pool.map(come_and_go, range(4))
                while time.monotonic() < over:
                    seen = max(seen, server.connections())
                list(running)
            faults.end()
            self.assertGreaterEqual(seen, most, "sockets that were seen open at once")
            self.assertLessEqual(seen, most + 1, "sockets that were seen open at once")

"""Scrapes of numbers of several digits: thousands of items and commands, each told exactly; and the uptime, by a clock that a test moves."""
from tests.lib.case import ProgramCase
from tests.lib.counted import STORED, command
from tests.lib.faults import Faults
from tests.lib.peer import Peer
from tests.lib.scrape import MetricsServer
from tests.lib.wait import until

ITEMS, HITS, MISSES, DELETED, TOUCHED = 12_345, 23_456, 4_321, 1_357, 2_468
# An item of the smallest class, which has so many bytes, and so many of them a page.
CHUNK, CHUNKS = 96, 10_922
SOON, DAY = 6, 86_400
# So many commands are sent at once.
AT_ONCE = 500


def in_portions(peer, commands, answers):
    """Sends commands, and reads what is answered, some at a time."""
    for at in range(0, len(commands), AT_ONCE):
        peer.asks(b"".join(commands[at : at + AT_ONCE]), b"".join(answers[at : at + AT_ONCE]))


class MetricsNumbers(ProgramCase):
    def test_thousands_of_items_and_commands(self):
        with MetricsServer() as server, Peer(server.port) as peer:
            before = server.scrape()
            sent = 0
            for commands, answers in (
                ([b"set %d 0 0 1\r\nx\r\n" % at for at in range(ITEMS)], [b"STORED\r\n"] * ITEMS),
                ([b"get %d\r\n" % (at % ITEMS) for at in range(HITS)], [b"VALUE %d 0 1\r\nx\r\nEND\r\n" % (at % ITEMS) for at in range(HITS)]),
                ([b"get none%d\r\n" % at for at in range(MISSES)], [b"END\r\n"] * MISSES),
                ([b"touch %d 0\r\n" % at for at in range(TOUCHED)], [b"TOUCHED\r\n"] * TOUCHED),
                ([b"delete %d\r\n" % at for at in range(DELETED)], [b"DELETED\r\n"] * DELETED),
            ):
                in_portions(peer, commands, answers)
                sent += sum(map(len, commands))
            left = ITEMS - DELETED
            wanted = {
                command("set", "hit"): ITEMS, STORED: ITEMS, command("get", "hit"): HITS, command("get", "miss"): MISSES,
                command("touch", "hit"): TOUCHED, command("delete", "hit"): DELETED, "memcached_current_items": left,
                "memcached_current_bytes": left * CHUNK, "memcached_read_bytes_total": sent,
                'memcached_slab_chunks_used{slab="1"}': left, 'memcached_slab_chunks_free{slab="1"}': 2 * CHUNKS - left,
                'memcached_slab_current_chunks{slab="1"}': 2 * CHUNKS, 'memcached_slab_current_pages{slab="1"}': 2,
            }

            def found():
                grown = server.grown(before)
                return {name: grown.get(name) for name in wanted}

            self.assertTrue(until(lambda: found() == wanted, SOON), f"{found()}, wanted {wanted}")

    def test_the_uptime(self):
        """It counts from the start, by the monotonic clock."""
        name = "memcached_uptime_seconds"
        with Faults() as faults, MetricsServer(faults=faults) as server:
            self.assertLessEqual(server.scrape()[name], SOON)
            for days in (1, 12):
                faults.pass_seconds(days * DAY)
                self.assertTrue(0 <= server.scrape()[name] - days * DAY <= 2 * SOON, f"{server.scrape()[name]} s after {days} days")

    def test_hundreds_of_connections(self):
        with MetricsServer("-c", "2000") as server:
            server.settle()
            before = server.scrape()
            peers = [Peer(server.port) for _ in range(1_234)]
            try:
                for it in peers:
                    it.send(b"get a\r\n")
                for it in peers:
                    it.is_told(b"END\r\n")
                self.assertEqual(1_234, server.scrape()["memcached_current_connections"])
            finally:
                for it in peers:
                    it.close()
            self.assertTrue(until(lambda: server.scrape()["memcached_current_connections"] == 0, SOON), server.scrape())
            self.assertEqual(1_234, server.grown(before)["memcached_connections_total"])

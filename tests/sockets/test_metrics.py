"""With --metrics it tells Prometheus over HTTP what is counted, each exactly; who holds a connection there keeps nobody out."""
import contextlib
import itertools
import os
import re
import resource
import socket
import subprocess
import threading
import time

from tests.lib.abuse import sent_as_far
from tests.lib.case import ProgramCase
from tests.lib.listening import Listener, ended
from tests.lib.peer import Peer, clients
from tests.lib.scrape import GET, MetricsServer, sent, told
from tests.lib.server import HOST, MOMENT, Server, free_port
from tests.lib.wait import until

# A request comes whole within so many seconds, one that waits for no other has its answer before, and one that waits behind such so soon.
LIMIT, AT_ONCE, SOON = 2, 1.8, 6
# In so many seconds of requests it uses some of a processor.
LONG = 300
LONGEST = 8192
# How often each of the clients does the same, and how many there are.
ROUNDS, CLIENTS = 300, 4
LARGE = b"l" * 1000000


# What alerts and dashboards that were made for memcached's exporter ask for, but for memcached_up of a server that is down.
ASKED_FOR = [f"memcached_{it}" for it in (
    "commands_total", "connections_total", "current_bytes", "current_connections", "current_items", "items_evicted_total", "items_total",
    "limit_bytes", "max_connections", "read_bytes_total", "slab_items_outofmemory_total", "uptime_seconds", "version", "written_bytes_total")]
# The settings as labels.
SETTINGS = "mcserver_settings_info" + "{" + ",".join(f'{it}="%d"' for it in (
    "threads", "conn_limit", "idle_timeout_seconds", "buffer_limit_bytes", "memory_limit_bytes", "max_item_size_bytes", "shelves")) + "}"


def settings_of(page):
    """The samples of the settings."""
    return {name: number for name, number in page.items() if name.startswith("mcserver_settings_info")}


def command(name, status):
    return f'memcached_commands_total{{command="{name}",status="{status}"}}'


def out_of_memory(slab):
    return f'memcached_slab_items_outofmemory_total{{slab="{slab}"}}'


def closed(reason):
    return f'mcserver_connections_closed_total{{reason="{reason}"}}'


# What tables have: homes, growths that began and that run, entries that these have still to move, and strays.
TABLES = ["mcserver_table_homes", "mcserver_growths_total", "mcserver_growths_running", "mcserver_growth_entries_left", "mcserver_stray_entries"]
ITEMS, STORED, REFUSED = "memcached_current_items", "memcached_items_total", "mcserver_refusals_total"
TOO_LARGE, RECLAIMED = "memcached_item_too_large_total", "memcached_items_reclaimed_total"
HELD, BUFFERS, WAITING = "mcserver_buffer_bytes", "mcserver_buffer_limit_bytes", "mcserver_waiting_connections"
# The ticks of a second in the system's times of a process, the bytes of a page, and those of a MiB.
TICKS, PAGE, MIB = os.sysconf("SC_CLK_TCK"), os.sysconf("SC_PAGE_SIZE"), 1048576
READ, WRITTEN = "memcached_read_bytes_total", "memcached_written_bytes_total"
# What is sent, what is answered, and what is counted for it, but for what stands then.
COMMANDS = [
    (b"set a 0 0 1\r\n5\r\n", b"STORED\r\n", [command("set", "hit"), STORED]),
    (b"add a 0 0 1\r\n5\r\n", b"NOT_STORED\r\n", [command("set", "hit")]),
    (b"add b 0 0 1\r\nx\r\n", b"STORED\r\n", [command("set", "hit"), STORED]),
    (b"replace c 0 0 1\r\nx\r\n", b"NOT_STORED\r\n", [command("set", "hit")]),
    (b"append b 0 0 1\r\ny\r\n", b"STORED\r\n", [command("set", "hit"), STORED]),
    (b"prepend b 0 0 1 noreply\r\nz\r\nget b\r\n", b"VALUE b 0 3\r\nzxy\r\nEND\r\n", [command("set", "hit"), STORED, command("get", "hit")]),
    (b"get a b c\r\n", b"VALUE a 0 1\r\n5\r\nVALUE b 0 3\r\nzxy\r\nEND\r\n", [command("get", "hit")] * 2 + [command("get", "miss")]),
    (b"gets c\r\n", b"END\r\n", [command("get", "miss")]),
    (b"gat 0 a c\r\n", b"VALUE a 0 1\r\n5\r\nEND\r\n", [command("touch", "hit"), command("touch", "miss")]),
    (b"touch a 0\r\n", b"TOUCHED\r\n", [command("touch", "hit")]),
    (b"touch c 0\r\n", b"NOT_FOUND\r\n", [command("touch", "miss")]),
    (b"cas a 0 0 1 1\r\n7\r\n", b"STORED\r\n", [command("cas", "hit"), STORED]),
    (b"cas a 0 0 1 1\r\n7\r\n", b"EXISTS\r\n", [command("cas", "badval")]),
    (b"cas c 0 0 1 1\r\n7\r\n", b"NOT_FOUND\r\n", [command("cas", "miss")]),
    (b"incr a 1\r\n", b"8\r\n", [command("incr", "hit")]),
    (b"incr b 1\r\n", b"CLIENT_ERROR cannot increment or decrement non-numeric value\r\n", []),
    (b"incr c 1\r\n", b"NOT_FOUND\r\n", [command("incr", "miss")]),
    (b"decr a 1\r\n", b"7\r\n", [command("decr", "hit")]),
    (b"decr c 1\r\n", b"NOT_FOUND\r\n", [command("decr", "miss")]),
    (b"delete b\r\n", b"DELETED\r\n", [command("delete", "hit")]),
    (b"delete b\r\n", b"NOT_FOUND\r\n", [command("delete", "miss")]),
    (b"set a 0 0 1048576\r\n%s\r\n" % (b"x" * 1048576), b"SERVER_ERROR object too large for cache\r\n", [TOO_LARGE]),
    (b"add none 0 0 9999999 noreply\r\n%s\r\nget c\r\n" % (b"x" * 9999999), b"SERVER_ERROR object too large for cache\r\nEND\r\n", [TOO_LARGE, command("get", "miss")]),
    (b"set long 0 0 700000\r\n%s\r\n" % (b"x" * 700000), b"STORED\r\n", [command("set", "hit"), STORED]),
    (b"append long 0 0 700000\r\n%s\r\n" % (b"x" * 700000), b"SERVER_ERROR object too large for cache\r\n", [TOO_LARGE]),
    # (what isn't answered isn't counted)
    (b"prepend long 0 0 700000 noreply\r\n%s\r\nget c\r\n" % (b"x" * 700000), b"END\r\n", [command("get", "miss")]),
    (b"version\r\n", b"VERSION 1.6.0\r\n", []),
    (b"nonsense\r\n", b"ERROR\r\n", []),
    (b"flush_all\r\n", b"OK\r\n", [command("flush", "hit")]),
]
# What is asked for over HTTP, and the status of its answer.
REQUESTS = [
    (b"GET /metrics HTTP/1.1\r\nHost: a\r\n\r\n", 200),
    (b"GET /metrics HTTP/1.0\r\n\r\n", 200),
    (b"GET /metrics?x=1&y=/quit HTTP/1.1\r\nHost: a\r\n\r\n", 200),
    (b"GET /metrics? HTTP/1.1\r\nHost: a\r\nOrigin: http://a\r\n\r\n", 200),
    (b"GET /healthz HTTP/1.1\r\nHost: a\r\nAccept: */*\r\n\r\n", 200),
    (b"GET /healthz?now=1?a HTTP/1.1\r\nHost: a\r\n\r\n", 200),
    (b"GET / HTTP/1.1\r\nHost: a\r\n\r\n", 200),
    (b"GET /?a HTTP/1.1\r\nHost: a\r\n\r\n", 200),
    (b"GET /metrics/ HTTP/1.1\r\nHost: a\r\n\r\n", 404),
    (b"GET /metric?s HTTP/1.1\r\nHost: a\r\n\r\n", 404),
    (b"GET ?/metrics HTTP/1.1\r\nHost: a\r\n\r\n", 404),
    (b"POST /metrics HTTP/1.1\r\nHost: a\r\nContent-Length: 3\r\n\r\nabc", 405),
    (b"POST / HTTP/1.1\r\nHost: a\r\n\r\n", 405),
    (b"get /metrics HTTP/1.1\r\nHost: a\r\n\r\n", 405),
    (b"head /metrics HTTP/1.1\r\nHost: a\r\n\r\n", 405),
    (b"GET /metrics HTTP/2.0\r\n\r\n", 400),
    (b"GET /metrics\r\n\r\n", 400),
    (b"get a\r\n", 400),
    (b"GET /metrics HTTP/1.1\r\nHost a\r\n\r\n", 400),
    (b"GET /metrics HTTP/1.1\r\n" + b"A: b\r\n" * 65 + b"\r\n", 400),
    (b"\x00\xff\r\n\r\n", 400),
    (b"GET /" + b"m" * LONGEST + b" HTTP/1.1\r\n\r\n", 431),
    (b"GET / HTTP/1.1\r\nA: " + b"m" * (3 * LONGEST) + b"\r\n\r\n", 431),
]
# What is asked by HEAD, and the status of the answer, which has no body.
HEADS = [(b"/metrics", 200), (b"/metrics?a", 200), (b"/healthz", 200), (b"/", 200), (b"/none", 404), (b"/quit", 404)]


def now_of(server):
    """The bytes of a server's addresses, and those of it in memory."""
    with open(f"/proc/{server.pid}/statm") as it:
        return [int(word) * PAGE for word in it.read().split()[:2]]


def descriptors_of(server):
    return len(os.listdir(f"/proc/{server.pid}/fd"))


def ticks_of(server):
    """The time that a server used a processor, its own and the system's for it, in ticks."""
    with open(f"/proc/{server.pid}/stat") as it:
        return [int(word) for word in it.read().rpartition(")")[2].split()[11:13]]


def hash_of(key):
    """FNV-1a in 64 bits, http://www.isthe.com/chongo/tech/comp/fnv/."""
    found = 0xCBF29CE484222325
    for byte in key:
        found = (found ^ byte) * 0x100000001B3 % 2 ** 64
    return found


def of_one_home(count):
    """Keys that have one home in each table of at most 256 homes."""
    keys = (b"k%d" % number for number in itertools.count())
    return list(itertools.islice((it for it in keys if hash_of(it) // 256 % 256 == 7), count))


class TickingServer(MetricsServer):
    """A running server whose clock goes, and where scrapes are answered."""

    def __init__(self, *args, **options):
        self.metrics = free_port()
        Server.__init__(self, args=["--metrics", str(self.metrics), *args], **options)


class Metrics(ProgramCase):
    def test_each_command_counts_as_what_it_is(self):
        with MetricsServer() as server, Peer(server.port) as peer:
            for request, answer, wanted in COMMANDS:
                with self.subTest(request[:40]):
                    before = server.scrape()
                    peer.asks(request, answer)
                    self.assertEqual({it: wanted.count(it) for it in wanted}, self.counted(server, before))

    def counted(self, server, before):
        kinds = ("memcached_commands_total", STORED, REFUSED, TOO_LARGE, "memcached_slab_items_outofmemory_total")
        return {name: grown for name, grown in server.grown(before).items() if name.startswith(kinds)}

    def test_names_that_rules_for_the_exporter_ask_for(self):
        with MetricsServer() as server:
            there = {name.partition("{")[0] for name in server.scrape()}
            self.assertEqual([], [name for name in ASKED_FOR if name not in there])

    def test_the_settings_are_labels(self):
        words = ["-c", "9", "-I", "2m", "--idle-timeout", "300", "--buffer-limit", "5"]
        with MetricsServer(*words, pages=70, workers=2) as server:
            self.assertEqual({SETTINGS % (2, 9, 300, 5 * MIB, 70 * MIB, 2 * MIB, 64): 1}, settings_of(server.scrape()))

    def test_what_it_has(self):
        """Items, bytes, classes, limits and the version are told as they are."""
        with MetricsServer("-c", "77", "--shelves", "8", pages=3) as server, Peer(server.port) as peer:
            now = server.scrape()
            self.assertEqual([1, 3 * 1048576, 77, 8, 0, 0], [now[it] for it in (
                "memcached_up", "memcached_limit_bytes", "memcached_max_connections", "mcserver_shelves", ITEMS, "memcached_current_bytes")])
            self.assertFalse([it for it in now if "slab=" in it and "outofmemory" not in it], "classes that have no page")
            version = subprocess.run([self.program, "--version"], capture_output=True, text=True, check=True).stdout.split()[1]
            self.assertEqual(1, now[f'memcached_version{{version="{version}"}}'])
            self.assertEqual({SETTINGS % (4, 77, 0, 64 * MIB, 3 * MIB, MIB, 8): 1}, settings_of(now))
            for key in (b"a", b"b", b"c"):
                peer.asks(b"set %s 0 0 10\r\n0123456789\r\n" % key, b"STORED\r\n")
            peer.asks(b"set large 0 0 1000000\r\n%s\r\n" % LARGE, b"STORED\r\n")
            peer.asks(b"delete b\r\n", b"DELETED\r\n")
            now = server.scrape()
            self.assertEqual([3, 2 * 96 + 1048576], [now[ITEMS], now["memcached_current_bytes"]])
            for name, small, large in (("chunk_size_bytes", 96, 1048576), ("chunks_per_page", 10922, 1), ("current_pages", 1, 1),
                                       ("current_chunks", 10922, 1), ("chunks_used", 2, 1), ("chunks_free", 10920, 0)):
                samples = [now[it] for it in now if it.startswith(f"memcached_slab_{name}{{")]
                self.assertEqual([small, large], samples, name)
            peer.asks(b"flush_all\r\n", b"OK\r\n")
            self.assertEqual(0, server.scrape()[ITEMS])

    def test_tables_that_grow(self):
        """A table of 64 homes grows before the 49th key comes, and 8 entries are moved behind a step."""
        with MetricsServer("--shelves", "1") as server, Peer(server.port) as peer:
            self.assertEqual([64, 0, 0, 0, 0], self.tables(server))
            for number in range(48):
                peer.asks(b"set %d 0 0 1\r\nx\r\n" % number, b"STORED\r\n")
            self.assertEqual([64, 0, 0, 0, 0], self.tables(server))
            peer.asks(b"set last 0 0 1\r\nx\r\n", b"STORED\r\n")
            homes, began, running, left, strays = self.tables(server)
            self.assertEqual([128, 1, 1, 0], [homes, began, running, strays])
            self.assertIn(left, (40, 48), "before and behind the first move")
            for _ in range(5):
                peer.asks(b"get last\r\n", b"VALUE last 0 1\r\nx\r\nEND\r\n")
            self.assertTrue(until(lambda: self.tables(server) == [128, 1, 0, 0, 0], SOON), self.tables(server))

    def test_strays(self):
        """Of keys of one home 32 have a bucket near it. A stray has the table grow while a quarter of its homes are taken."""
        with MetricsServer("--shelves", "1") as server, Peer(server.port) as peer:
            keys = of_one_home(40)
            for key in keys[:32]:
                peer.asks(b"set %s 0 0 1\r\nx\r\n" % key, b"STORED\r\n")
            self.assertEqual([64, 0, 0, 0, 0], self.tables(server))
            for key in keys[32:]:
                peer.asks(b"set %s 0 0 1\r\nx\r\n" % key, b"STORED\r\n")
            for key in keys[:6]:
                peer.asks(b"get %s\r\n" % key, b"VALUE %s 0 1\r\nx\r\nEND\r\n" % key)
            self.assertTrue(until(lambda: self.tables(server) == [256, 2, 0, 0, 8], SOON), self.tables(server))
            peer.asks(b"flush_all\r\n", b"OK\r\n")
            self.assertEqual(0, self.tables(server)[-1])

    def tables(self, server):
        now = server.scrape()
        return [now[name] for name in TABLES]

    def test_reclaimed_items(self):
        """Expired items count when they are removed, one that a get finds dead doesn't, and those of a flush_all do; it never falls."""
        with TickingServer("--shelves", "8", workers=1) as server, Peer(server.port) as peer:
            self.assertEqual(0, server.scrape()[RECLAIMED])
            for number in range(40):
                peer.asks(b"set kept%d 0 0 1\r\nx\r\n" % number, b"STORED\r\n")
            peer.asks(b"delete kept39\r\n", b"DELETED\r\n")
            peer.send(b"".join(b"set short%d 0 1 1\r\nx\r\n" % number for number in range(500)))
            peer.is_told(b"STORED\r\n" * 500)
            seen = [0]

            def count():
                seen.append(server.scrape()[RECLAIMED])
                return seen[-1]

            # a worker comes to one of 8 shelves a second
            self.assertTrue(until(lambda: count() == 500, 8 + 1 + SOON, 0.1), seen)
            self.assertEqual(sorted(seen), seen)
            self.assertEqual(39, server.scrape()[ITEMS])
            peer.asks(b"flush_all\r\n", b"OK\r\n")
            self.assertEqual([539, 0], [server.scrape()[it] for it in (RECLAIMED, ITEMS)])
            peer.asks(b"set kept 0 0 1\r\nx\r\n", b"STORED\r\n")
            peer.asks(b"flush_all 2\r\n", b"OK\r\n")
            self.assertEqual(539, count())
            self.assertTrue(until(lambda: count() == 540, 2 + 8 + 1 + SOON, 0.1), seen)
            self.assertEqual(sorted(seen), seen)

    def test_refusals(self):
        """Each reply for want of a chunk counts, and as nothing else."""
        with MetricsServer(pages=1) as server, Peer(server.port) as peer:
            peer.asks(b"set first 0 0 1000000\r\n%s\r\n" % LARGE, b"STORED\r\n")
            before = server.scrape()
            for _ in range(3):
                peer.asks(b"set second 0 0 1\r\nx\r\n", b"SERVER_ERROR out of memory storing object\r\n")
            peer.asks(b"add third 0 0 1 noreply\r\nx\r\nget third\r\n", b"END\r\n")
            # 48 bytes, a key of 5 or 6 and a block of 1 are of the first class, whose chunks have 96 bytes
            self.assertEqual({REFUSED: 4, out_of_memory(1): 4, command("get", "miss"): 1}, self.counted(server, before))
            before = server.scrape()
            for size, slab in ((43, 1), (44, 2), (1000, 12), (600000, 40)):
                peer.asks(b"set refus 0 0 %d\r\n%s\r\n" % (size, b"x" * size), b"SERVER_ERROR out of memory storing object\r\n")
                self.assertEqual({REFUSED: 1, out_of_memory(slab): 1}, self.counted(server, before), size)
                before = server.scrape()

    def test_refusals_of_items_that_grow(self):
        """Their class isn't known: they count as of class 0, and each class has a number from the start."""
        with MetricsServer(pages=1) as server, Peer(server.port) as peer:
            before = server.scrape()
            self.assertEqual([0] * 41, [before[out_of_memory(slab)] for slab in range(41)])
            peer.asks(b"set small 0 0 20\r\n%s\r\n" % (b"x" * 20), b"STORED\r\n")
            before = server.scrape()
            peer.asks(b"append small 0 0 100\r\n%s\r\n" % (b"x" * 100), b"SERVER_ERROR out of memory storing object\r\n")
            self.assertEqual({REFUSED: 1, out_of_memory(0): 1}, self.counted(server, before))

    def test_connections_and_bytes(self):
        with MetricsServer("-c", "4") as server:
            server.settle()
            until(lambda: server.scrape()["memcached_current_connections"] == 0, SOON)
            before = server.scrape()
            with clients(server.port, 4) as peers:
                for peer in peers:
                    peer.asks(b"get abc\r\n", b"END\r\n")
                self.assertEqual(4, server.scrape()["memcached_current_connections"])
                with Peer(server.port) as other:
                    other.is_told(b"ERROR Too many open connections\r\n")
                    self.assertTrue(other.is_closed())
                peers[0].send(b"quit\r\n")
                self.assertTrue(peers[0].is_closed())
            wanted = {"memcached_connections_total": 5, closed("one_too_many"): 1, closed("session_over"): 1, closed("client_closed"): 3}
            wanted |= {"memcached_connections_rejected_total": 1}
            wanted |= {READ: 4 * len(b"get abc\r\n") + len(b"quit\r\n"), WRITTEN: 4 * len(b"END\r\n"), command("get", "miss"): 4}

            def found():
                return {name: grown for name, grown in server.grown(before).items() if name != "memcached_uptime_seconds"} == wanted

            self.assertTrue(until(found, SOON), f"{server.grown(before)}, wanted {wanted}")

    def test_why_connections_were_closed(self):
        """quit and a line that is too long are told apart, however much was answered before, and what a block holds is no answer."""
        with MetricsServer() as server:
            # the connection that waited for the start is closed, too
            server.settle()
            before = server.scrape()
            with Peer(server.port) as peer:
                peer.asks(b"version\r\n" + b"x" * 70000, b"VERSION 1.6.0\r\nCLIENT_ERROR line too long\r\n")
                self.assertTrue(peer.is_closed())
            with Peer(server.port) as peer:
                peer.asks(b"set a 0 0 26\r\nCLIENT_ERROR line too long\r\n", b"STORED\r\n")
                peer.asks(b"get a\r\nquit\r\n", b"VALUE a 0 26\r\nCLIENT_ERROR line too long\r\nEND\r\n")
                self.assertTrue(peer.is_closed())
            wanted = {closed("line_too_long"): 1, closed("session_over"): 1}

            def found():
                return {name: grown for name, grown in server.grown(before).items() if "closed_total" in name} == wanted

            self.assertTrue(until(found, SOON), server.grown(before))

    def test_want_of_memory(self):
        """A connection that is closed because the system has no memory for its request isn't counted as one that was ended by quit."""
        with MetricsServer("-I", "8m", "--buffer-limit", "256", workers=1) as server, clients(server.port, 16) as peers:
            for peer in peers:
                peer.asks(b"get a\r\n", b"END\r\n")
            before = server.scrape()
            limit = resource.prlimit(server.pid, resource.RLIMIT_AS)
            # (a worker's addresses are for 64 MiB from its start, and the blocks have 126 MB)
            resource.prlimit(server.pid, resource.RLIMIT_AS, (now_of(server)[0], limit[1]))
            for peer in peers:
                with contextlib.suppress(ConnectionError):
                    sent_as_far([peer], b"set a 0 0 8000000\r\n" + b"a" * 7900000, 0.5)
            resource.prlimit(server.pid, resource.RLIMIT_AS, limit)
            self.assertTrue(until(lambda: self.reasons(server, before), SOON), "none was closed")
            self.assertEqual({closed("out_of_memory")}, set(self.reasons(server, before)))

    def reasons(self, server, before):
        return {name: grown for name, grown in server.grown(before).items() if "closed_total" in name}

    def test_buffers(self):
        """What a block that has begun to come holds is counted, with its limit, and who waits for room; nothing is when it has gone."""
        with MetricsServer("--buffer-limit", "1", workers=2) as server, clients(server.port, 4) as peers:
            now = server.scrape()
            self.assertEqual([0, MIB, 0], [now[it] for it in (HELD, BUFFERS, WAITING)])
            # each worker may hold 448 KiB, and a connection counts for 420,336 bytes: what its block's chunk takes over, less its own 72 KiB;
            # what else waits is one beside each, which holds at most a sixteenth of its block and 16,384 bytes
            block = b"h" * 400_000
            sent_as_far(peers, b"set held 0 0 400000\r\n" + block[:200_000], 0.5)
            self.assertTrue(until(lambda: server.scrape()[WAITING] == 2, SOON), server.scrape())
            self.assertTrue(840_672 <= server.scrape()[HELD] <= 840_672 + 2 * 41_384, server.scrape()[HELD])
            for peer in peers:
                peer.close()
            self.assertTrue(until(lambda: [server.scrape()[it] for it in (HELD, WAITING)] == [0, 0], SOON), server.scrape())

    def test_reads_while_memory_is_tight(self):
        """While others wait for room, the length of the next hit is read before its turn: that read isn't counted."""
        with MetricsServer("--buffer-limit", "1", workers=1) as server, clients(server.port, 4) as peers, Peer(server.port) as beside:
            beside.asks(b"set small 0 0 1\r\ns\r\n", b"STORED\r\n")
            sent_as_far(peers, b"set held 0 0 400000\r\n" + b"h" * 200_000, 0.5)
            # a second block fits beside the first only if little of the others has come
            self.assertTrue(until(lambda: server.scrape()[WAITING] >= 2, SOON), server.scrape())
            beside.asks(b"get none\r\n" * 10 + b"get small\r\n" * 7, b"END\r\n" * 10 + b"VALUE small 0 1\r\ns\r\nEND\r\n" * 7)
            now = server.scrape()
            self.assertEqual([10, 7], [now[command("get", it)] for it in ("miss", "hit")])

    def test_the_process(self):
        """Its start, its descriptors, its memory and its time on processors are what the system has for it."""
        with MetricsServer("-c", "50") as server:
            now = server.scrape()
            with open(f"/proc/{server.pid}/limits") as it:
                limit = int(re.search(r"Max open files +(\d+)", it.read())[1])
            self.assertEqual(limit, now["process_max_fds"])
            self.assertAlmostEqual(time.time(), now["process_start_time_seconds"], delta=SOON)
            with clients(server.port, 20) as peers:
                for number, peer in enumerate(peers):
                    peer.asks(b"set k%d 0 0 1000000\r\n%s\r\n" % (number, LARGE), b"STORED\r\n")
                # the connection of the scrape is one more
                self.assertTrue(until(lambda: server.scrape()["process_open_fds"] == descriptors_of(server) + 1, SOON), descriptors_of(server))
                self.assertGreater(server.scrape()["process_open_fds"], now["process_open_fds"] + 15)
            # workers give memory back while their connections go
            self.assertTrue(until(lambda: max(self.memory_apart(server)) < MIB, SOON), self.memory_apart(server))
            self.assertGreater(server.scrape()["process_resident_memory_bytes"], now["process_resident_memory_bytes"] + 18 * MIB)

    def memory_apart(self, server):
        """By how many bytes what is counted of its memory differs from what the system has for it."""
        had, told = now_of(server), server.scrape()
        return [abs(has - told[f"process_{kind}_memory_bytes"]) for has, kind in zip(had, ("virtual", "resident"))]

    def test_the_time_on_processors(self):
        """It is what the system counts for the process, its own and the system's for it, in hundredths of a second."""
        with MetricsServer() as server, Peer(server.port) as peer:
            peer.asks(b"set a 0 0 1\r\nx\r\n", b"STORED\r\n")
            end = time.monotonic() + LONG
            while min(ticks_of(server)) < 20:
                self.assertLess(time.monotonic(), end, f"it used {ticks_of(server)} ticks in {LONG} s of requests")
                peer.asks(b"get a\r\n" * 1000, b"VALUE a 0 1\r\nx\r\nEND\r\n" * 1000)
            before, told, after = sum(ticks_of(server)), server.scrape()["process_cpu_seconds_total"], sum(ticks_of(server))
            self.assertTrue(before / TICKS <= told <= after / TICKS, (before, told, after))

    def test_idle_connections_are_closed(self):
        with MetricsServer("--idle-timeout", "1") as server, clients(server.port, 3):
            self.assertTrue(until(lambda: server.scrape()[closed("idle")] == 3, SOON), "three are idle")

    def test_scrapes_while_clients_work(self):
        """While four clients work each number only grows, and in the end all are those of what they did."""
        with MetricsServer(workers=4) as server:
            before = last = server.scrape()
            threads = [threading.Thread(target=self.work, args=(server.port, number)) for number in range(CLIENTS)]
            for thread in threads:
                thread.start()
            while any(thread.is_alive() for thread in threads):
                now = server.scrape()
                self.assertFalse([it for it in now if "_total" in it and now[it] < last[it]], "numbers that fell")
                last = now
            for thread in threads:
                thread.join()
            each = ROUNDS * CLIENTS
            wanted = {command("set", "hit"): each, STORED: each, command("get", "hit"): each, command("get", "miss"): each}
            wanted |= {command("delete", "hit"): each}
            self.assertEqual(wanted, self.counted(server, before))

    def work(self, port, number):
        with Peer(port) as peer:
            for _ in range(ROUNDS):
                peer.asks(b"set k%d 0 0 1\r\nx\r\n" % number, b"STORED\r\n")
                peer.asks(b"get k%d none\r\n" % number, b"VALUE k%d 0 1\r\nx\r\nEND\r\n" % number)
                peer.asks(b"delete k%d\r\n" % number, b"DELETED\r\n")


class Requests(ProgramCase):
    def test_each_is_answered_by_what_it_is(self):
        with MetricsServer() as server:
            for request, status in REQUESTS:
                with self.subTest(request[:40]):
                    answer = told(sent(server.metrics, request))
                    self.assertEqual(status, answer.status)
                    if status != 200:
                        self.assertRegex(answer.body, rb"\A[^\n]{10,100}\n\Z")
                        self.assertEqual("text/plain; charset=utf-8", answer.fields["content-type"])
            self.assertEqual(b"ok\n", told(sent(server.metrics, b"GET /healthz HTTP/1.1\r\n\r\n")).body)
            self.assertEqual("GET, HEAD", told(sent(server.metrics, b"PUT / HTTP/1.1\r\n\r\n")).fields["allow"])

    def test_head_has_the_length_and_no_body(self):
        with MetricsServer() as server:
            for path, status in HEADS:
                with self.subTest(path):
                    head = told(sent(server.metrics, b"HEAD %s HTTP/1.1\r\nHost: a\r\n\r\n" % path), without_body=True)
                    whole = told(sent(server.metrics, b"GET %s HTTP/1.1\r\nHost: a\r\n\r\n" % path))
                    self.assertEqual((status, status), (head.status, whole.status))
                    self.assertEqual(whole.fields["content-type"], head.fields["content-type"])
                    # the numbers of two pages may differ in a few digits
                    self.assertAlmostEqual(len(whole.body), int(head.fields["content-length"]), delta=len(whole.body) / 100)

    def test_the_first_page_has_links(self):
        """To what there is, and each of them is answered."""
        with MetricsServer() as server:
            page = told(sent(server.metrics, b"GET / HTTP/1.1\r\nHost: a\r\n\r\n"))
            self.assertEqual("text/html; charset=utf-8", page.fields["content-type"])
            links = re.findall(rb'<a href="([^"]*)">', page.body)
            self.assertEqual([b"/metrics", b"/healthz"], links)
            for link in links:
                self.assertEqual(200, told(sent(server.metrics, b"GET %s HTTP/1.1\r\nHost: a\r\n\r\n" % link)).status)

    def test_one_that_comes_byte_by_byte(self):
        with MetricsServer() as server, Peer(server.metrics, SOON) as peer:
            for byte in GET:
                peer.send(bytes([byte]))
            self.assertEqual(200, told(peer.rest()).status)

    def test_slow_ones_keep_nobody_out(self):
        """One that says nothing, and one that says a little now and then, are closed in time, and a scrape beside each is answered at once."""
        with MetricsServer() as server:
            for said in (b"", b"GET /metrics HT"):
                with Peer(server.metrics, SOON) as peer:
                    peer.send(said)
                    began = time.monotonic()
                    server.scrape(SOON)
                    self.assertLess(time.monotonic() - began, AT_ONCE, "seconds for a scrape beside the other")
                    self.assertEqual(408, told(peer.rest()).status)
            self.drips(server)
            began = time.monotonic()
            server.scrape()
            self.assertLess(time.monotonic() - began, AT_ONCE)

    def drips(self, server):
        """Sends a byte of an endless request now and then until it is told that it took too long."""
        with Peer(server.metrics, SOON) as peer:
            began = time.monotonic()
            with contextlib.suppress(ConnectionError):
                peer.send(b"GET / HTTP/1.1\r\n")
                while time.monotonic() - began < LIMIT + 0.3:
                    peer.send(b"a")
                    time.sleep(0.1)
            self.assertEqual(408, told(peer.rest()).status)

    def test_many_that_are_gone(self):
        """Connections that are closed at once, before a request or in one, cost nothing."""
        with MetricsServer() as server:
            for said in (b"", b"GET", GET) * 20:
                with Peer(server.metrics, SOON) as peer:
                    peer.send(said)
            began = time.monotonic()
            server.scrape()
            self.assertLess(time.monotonic() - began, AT_ONCE)


class Places(ProgramCase):
    def test_where_it_answers(self):
        for shape in ("%d", "127.0.0.1:%d", "[::1]:%d"):
            host = "::1" if "[" in shape else HOST
            with self.subTest(shape):
                self.wants(host)
                port = free_port(host)
                words = ["-p", str(free_port()), "--metrics", shape % port, "--now", str(MOMENT)]
                with Listener([self.program, *words]) as started:
                    self.assertIn(b"listening on", started.line())
                    place = shape % port if ":" in shape else f"{HOST}:{port}"
                    self.assertEqual(f"mcserver: metrics at http://{place}/metrics\n".encode(), started.line())
                    self.assertEqual(200, told(sent(port, GET, SOON, host)).status)

    def test_places_that_it_cannot_have(self):
        with socket.create_server((HOST, 0)) as other:
            taken = str(other.getsockname()[1])
            said = rb"mcserver: cannot listen on 127\.0\.0\.1:%s: something listens there already\n" % taken.encode()
            ended(self.program, ["-p", str(free_port()), "--metrics", taken], 1, said)
        port = str(free_port())
        said = rb"mcserver: cannot listen on 127\.0\.0\.1:%s: something listens there already\n" % port.encode()
        ended(self.program, ["-p", port, "--metrics", port], 1, said)
        said = rb"mcserver: cannot listen on 192\.0\.2\.1:9150: the address isn't one of this machine\n"
        ended(self.program, ["-p", str(free_port()), "--metrics", "192.0.2.1:9150"], 1, said)

    def test_without_it_nothing_listens_there(self):
        with Server() as server:
            self.assertEqual(1, len(listeners(server)), "sockets that listen")
        with MetricsServer() as server:
            self.assertEqual(2, len(listeners(server)), "sockets that listen")


def listeners(server):
    """Those of the server's two ports at which something listens, as the system tells."""
    with open(f"/proc/{server.pid}/net/tcp") as it:
        rows = [line.split() for line in it.readlines()[1:]]
    ports = {int(row[1].split(":")[1], 16) for row in rows if row[3] == "0A"}
    return ports & {server.port, getattr(server, "metrics", 0)}

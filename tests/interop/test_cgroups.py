"""A server in a group with a limit of memory, as a container and `MemoryMax=` of a service have one: above what docs/CONTAINERS.md counts, also
with huge pages, and below it. It wants root and a group of memory, of version 2 or 1, below which one may be made; what isn't there is named.
"""
import os
import re
import unittest

from tests.lib.abuse import MB
from tests.lib.case import ProgramCase
from tests.lib.peer import Peer, clients
from tests.lib.server import Started, command, free_port
from tests.lib.wait import until

# The server, and the items that fill it: as many as go into its pages.
PAGES, BUFFERS, WORKERS, CONNECTIONS, SIZE = 64, 16, 4, 200, 1000
# Connections that send and read large items all at once.
BUSY = 60
KILLED, SOON = -9, 10
ROOTS = [("/sys/fs/cgroup", "memory.max"), ("/sys/fs/cgroup/memory", "memory.limit_in_bytes")]
HUGE = "/sys/kernel/mm/transparent_hugepage/enabled"
# Moves itself into a group, and starts a program there.
IN_GROUP = ["sh", "-c", 'echo $$ > "$1/cgroup.procs" && shift && exec "$@"', "sh"]


class Group:
    """A group with a limit of memory."""

    def __init__(self, limit):
        root, name = next(it for it in ROOTS if os.path.exists(f"{it[0]}/memory.stat"))
        self.path = f"{root}/mcserver-tests-{os.getpid()}"
        os.mkdir(self.path)
        with open(f"{self.path}/{name}", "w") as it:
            it.write(str(limit))

    def reads(self, name):
        with open(f"{self.path}/{name}") as it:
            return it.read()

    def peak(self):
        """The most bytes that were ever in use."""
        name = "memory.peak" if os.path.exists(f"{self.path}/memory.peak") else "memory.max_usage_in_bytes"
        return int(self.reads(name))

    def kills(self):
        """How many processes the kernel killed for the limit."""
        name = "memory.events" if os.path.exists(f"{self.path}/memory.events") else "memory.oom_control"
        return int(re.search(r"^oom_kill (\d+)", self.reads(name), re.M).group(1))

    def close(self):
        until(lambda: not self.reads("cgroup.procs"), SOON)
        os.rmdir(self.path)


def may_limit():
    """Whether this user may make a group with a limit of memory."""
    try:
        Group(64 * MB).close()
        return True
    except (OSError, StopIteration):
        return False


def bound():
    """What docs/CONTAINERS.md counts for this server, in bytes: pages, items, buffers, what the C library keeps, the program, and connections."""
    items = PAGES * (MB // 1184)
    return PAGES * MB + 72 * items + BUFFERS * MB + 10 * MB * WORKERS + 2 * MB + 72 * 1024 * BUSY + 7 * 1024 * CONNECTIONS


def always_huge():
    """Whether the system gives huge pages unasked."""
    try:
        with open(HUGE) as it:
            return "[always]" in it.read()
    except OSError:
        return False


def huge_bytes(pid):
    """How many bytes of a process lie in huge pages."""
    with open(f"/proc/{pid}/smaps_rollup") as it:
        return int(re.search(r"AnonHugePages:\s+(\d+) kB", it.read()).group(1)) * 1024


@unittest.skipUnless(may_limit(), "it wants root and a group of memory that one may be made below")
class Limited(ProgramCase):
    def server(self, limit):
        group = Group(limit)
        self.addCleanup(group.close)
        port = free_port()
        words = command(self.program, port, PAGES, WORKERS, ["--buffer-limit", str(BUFFERS), "-c", str(CONNECTIONS)])
        server = Started([*IN_GROUP, group.path, *words], port)
        self.addCleanup(server.close)
        return server, group

    def fill(self, server):
        """Stores items until the store is full, while other connections store and read a large one."""
        with Peer(server.port, 60) as peer, clients(server.port, BUSY, seconds=60) as busy:
            for it in busy:
                it.send(b"set large 0 0 500000\r\n%s\r\n" % (b"b" * 500_000) + b"get large\r\n" * 4)
            for first in range(0, PAGES * 900, 1000):
                peer.send(b"".join(b"set k%07d 0 0 %d\r\n%s\r\n" % (first + i, SIZE, b"x" * SIZE) for i in range(1000)))
                for _ in range(1000):
                    peer.upto(b"\r\n")
            for it in busy:
                it.upto(b"END\r\n")
        with Peer(server.port) as peer:
            peer.asks(b"version\r\n", b"VERSION 1.6.0\r\n")

    def holds(self):
        """Fails unless a server that is filled stays within what is counted."""
        server, group = self.server(bound())
        self.fill(server)
        self.assertTrue(server.runs())
        huge = huge_bytes(server.pid)
        print(f"    at most {group.peak() / MB:.0f} of {bound() / MB:.0f} MiB, {huge / MB:.0f} in huge pages", flush=True)
        self.assertEqual(0, group.kills())

    def test_a_limit_above_what_is_counted_holds(self):
        self.holds()

    @unittest.skipUnless(always_huge(), f"it wants {HUGE} set to always")
    def test_it_holds_with_huge_pages(self):
        self.holds()

    def test_below_its_pages_the_kernel_ends_it(self):
        server, group = self.server(PAGES * MB * 3 // 4)
        with self.assertRaises((OSError, AssertionError)):
            self.fill(server)
        self.assertEqual(KILLED, server.process.wait(SOON))
        self.assertLess(0, group.kills())

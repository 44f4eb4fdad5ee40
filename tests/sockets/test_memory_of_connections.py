"""What a connection leaves in memory when it has gone: 64 bytes at most, by 100,000 connections."""
import multiprocessing
from concurrent.futures import ProcessPoolExecutor

from tests.lib.case import ProgramCase
from tests.lib.peer import Peer
from tests.lib.server import StillServer, die_with_parent

# What each may leave, in bytes; how many come before what is measured, and how many then; and how many clients make them side by side.
LEFT, BEFORE, MANY, PROCESSES = 64, 20_000, 100_000, 4
ASKED = [(b"quit\r\n", b""), (b"get none\r\nquit\r\n", b"END\r\n"), (b"set a 0 0 1\r\nx\r\nquit\r\n", b"STORED\r\n"), (b"nonsense\r\nquit\r\n", b"ERROR\r\n")]


def come_and_go(port, count):
    """Makes so many connections, one after another, each of which the server closes."""
    for number in range(count):
        sent, wanted = ASKED[number % len(ASKED)]
        with Peer(port) as peer:
            peer.send(sent)
            got = peer.rest()
        if got != wanted:
            raise AssertionError(f"{sent} is answered {got}")


class MemoryOfConnections(ProgramCase):
    def test_what_100000_leave(self):
        pool = ProcessPoolExecutor(PROCESSES, multiprocessing.get_context("spawn"), initializer=die_with_parent)
        with pool, StillServer() as server:
            def all_come(count):
                for job in [pool.submit(come_and_go, server.port, count // PROCESSES) for _ in range(PROCESSES)]:
                    job.result()
                server.settle()
                return server.memory()

            before = all_come(BEFORE)
            each = (all_come(MANY) - before) / MANY
            print(f"    {each:.1f} bytes a connection")
            self.assertLessEqual(each, LEFT, "bytes that a connection leaves")

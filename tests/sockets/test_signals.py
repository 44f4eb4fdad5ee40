"""Signals that ask it to end, and one that stops it for a while."""
import os
import resource
import signal
import subprocess
import threading
import time
from concurrent.futures import ThreadPoolExecutor

from tests.lib.abuse import ANSWERED
from tests.lib.case import ProgramCase
from tests.lib.listening import ENDS
from tests.lib.peer import Peer
from tests.lib.server import Server, StillServer
from tests.lib.wait import until

CLIENTS = 8
# The bytes that a log may have where files are limited.
LOG = 512


class Counter:
    """A client that counts: each answer must be the number after the last."""

    def __init__(self, port, number, over):
        self.port, self.key, self.over, self.count = port, b"count%d" % number, over, 0

    def run(self):
        with Peer(self.port) as peer:
            peer.asks(b"set %s 0 0 1\r\n0\r\n" % self.key, b"STORED\r\n")
            while not self.over.is_set():
                peer.asks(b"incr %s 1\r\n" % self.key, b"%d\r\n" % (self.count + 1))
                self.count += 1


class Signals(ProgramCase):
    def test_signals_that_end_it(self):
        """It ends by the signals that ask for it, with a connection open and another in mid-block."""
        for which in (signal.SIGTERM, signal.SIGINT):
            with self.subTest(which.name), StillServer() as server, Peer(server.port) as idle, Peer(server.port) as busy:
                idle.asks(b"get a\r\n", b"END\r\n")
                busy.send(b"set a 0 0 10\r\nabc")
                server.process.send_signal(which)
                try:
                    server.process.wait(ENDS)
                except subprocess.TimeoutExpired:
                    self.fail(f"still runs {ENDS} seconds after it")
                self.assertTrue(idle.is_closed(), "a connection is open after it")

    def test_a_server_that_is_stopped_for_two_seconds(self):
        """A server that is stopped for two seconds in mid-load goes on where it was."""
        over = threading.Event()
        with StillServer() as server, ThreadPoolExecutor(CLIENTS) as pool:
            counters = [Counter(server.port, number, over) for number in range(CLIENTS)]
            runs = [pool.submit(it.run) for it in counters]
            try:
                time.sleep(0.5)
                server.process.send_signal(signal.SIGSTOP)
                time.sleep(2)
                still = [it.count for it in counters]
                server.process.send_signal(signal.SIGCONT)
                moved = until(lambda: all(it.count > was + 1 for it, was in zip(counters, still)), ANSWERED)
            finally:
                server.process.send_signal(signal.SIGCONT)
                over.set()
            for it in runs:
                it.result(ANSWERED)
        self.assertTrue(moved, f"some clients had no answer {ANSWERED} s after it went on")

    def test_a_log_at_the_limit_of_files(self):
        """Started where XFSZ is ignored, it drops the lines for which its log has no room, and goes on."""
        with Server(args=["-v"], limit=(resource.RLIMIT_FSIZE, LOG, LOG)) as server:
            for _ in range(20):
                with Peer(server.port) as peer:
                    peer.asks(b"get a\r\n", b"END\r\n")
            self.assertTrue(until(lambda: os.fstat(server.output.fileno()).st_size == LOG, ANSWERED), "the log has room left")
            with Peer(server.port) as peer:
                peer.asks(b"get a\r\n", b"END\r\n")
            self.assertTrue(server.runs())

"""With -v each connection is told of when it opens, with its peer, and when it closes, with why; without it nothing is."""
import collections
import contextlib
import time

from tests.lib.abuse import ANSWERED
from tests.lib.case import ProgramCase
from tests.lib.listening import Listener
from tests.lib.peer import Peer, answers
from tests.lib.scrape import sent
from tests.lib.server import HOST, MOMENT, free_port
from tests.lib.threads import fail_listener


def close(peer):
    peer.asks(b"get a\r\n", b"END\r\n")
    peer.close()


def quit(peer):
    peer.asks(b"get a\r\nquit\r\n", b"END\r\n")


def send_a_line_too_long(peer):
    peer.asks(b"x" * 70000, b"CLIENT_ERROR line too long\r\n")


def say_nothing(peer):
    pass


def reset(peer):
    peer.reset()


# What a client does, and how the line that tells of its end ends.
PARTINGS = [
    (close, b"the client closed it"),
    (quit, b"quit"),
    (send_a_line_too_long, b"a line was too long"),
    (reset, b"read fault"),
    (say_nothing, b"idle for as long as --idle-timeout allows"),
]


class Verbose(ProgramCase):
    @contextlib.contextmanager
    def started(self, *options):
        """The program, which listens."""
        self.port = free_port()
        with Listener([self.program, "-l", HOST, "-p", str(self.port), "--now", str(MOMENT), *options]) as made:
            made.line()
            yield made

    def connected(self):
        return Peer(self.port, ANSWERED)

    def test_why_a_connection_ends(self):
        for does, why in PARTINGS:
            with self.subTest(does.__name__), self.started("-v", "-c", "1", "--idle-timeout", "1") as started, self.connected() as peer:
                opened = b"mcserver: connection 1 from %s:%d opened\n" % (HOST.encode(), peer.socket.getsockname()[1])
                does(peer)
                self.assertEqual(opened, started.line())
                self.assertEqual(b"mcserver: connection 1 closed: %s\n" % why, started.line())

    def test_one_more_than_there_may_be(self):
        with self.started("-v", "-c", "1") as started, self.connected(), self.connected():
            opened = [started.line() for _ in range(2)]
            lines = {started.line() for _ in range(2)}
        self.assertRegex(opened[1], b"connection 2 from .* opened")
        refused = b"mcserver: warning: a connection was refused, as -c allows no more (reported once a minute)\n"
        self.assertEqual({refused, b"mcserver: connection 2 closed: one more than -c allows\n"}, lines)

    def test_a_listener_that_fails(self):
        """All connections end, each is told of, and the last line says why the program ends."""
        count = 20
        with self.started("-v") as started, contextlib.ExitStack() as links:
            for _ in range(count):
                links.enter_context(self.connected()).send(b"get a\r\n")
            for _ in range(count):
                self.assertRegex(started.line(), b"opened")
            fail_listener(started.process.pid)
            status, said = started.end()
        self.assertEqual(1, status, "status")
        lines = said.decode().splitlines()
        self.assertEqual("mcserver: read fault", lines.pop())
        reasons = collections.Counter(line.partition(" closed: ")[2] for line in lines)
        self.assertEqual({"the listener failed": count}, reasons)

    def test_an_orderly_end(self):
        """Connections that it ends are told of as ended so, with and without a limit for idle ones."""
        for options in ((), ("--idle-timeout", "3600")):
            metrics = free_port()
            with self.subTest(options), self.started("-v", "--metrics", str(metrics), "--allow-quit", *options) as started:
                with self.connected() as peer:
                    peer.asks(b"get a\r\n", b"END\r\n")
                    sent(metrics, b"POST /quit HTTP/1.1\r\nHost: localhost\r\n\r\n")
                    self.assertEqual(b"", peer.rest())
                status, said = started.end()
                self.assertEqual(0, status)
                self.assertIn(b"connection 1 closed: the program was asked to end", said)

    def test_nothing_without_being_asked(self):
        with self.started() as started:
            for _ in range(3):
                self.assertTrue(answers(HOST, self.port), "no answer")
            time.sleep(0.2)  # (a line would have come)
            self.assertEqual(b"", started.rest())

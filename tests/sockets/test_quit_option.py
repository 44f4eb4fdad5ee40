"""`mcserver --quit` asks a server to end: what it sends, which answers accept, and how long it waits."""
import socket
import threading
import time

from tests.lib.case import ProgramCase
from tests.lib.peer import Peer
from tests.lib.process import outcome, started
from tests.lib.scrape import MetricsServer
from tests.lib.server import HOST, free_port

# A server whose connections are idle ends so soon, in seconds.
ENDS = 4
# So long the client waits for an answer, in seconds, and so much longer it may take.
PATIENCE, LATE = 5, 2
ASKED = b"POST /quit HTTP/1.1\r\nHost: localhost\r\nConnection: close\r\nContent-Length: 0\r\n\r\n"


class QuitOption(ProgramCase):
    """`mcserver --quit` asks a server to end, and tells by its status whether it does."""

    def asks(self, place, status, said=b"", seconds=PATIENCE + LATE):
        ran = outcome(started(self.program, ["--quit", place]), seconds)
        self.assertEqual((status, said, b""), (ran.status, ran.stderr, ran.stdout))

    def test_a_server_ends(self):
        """By its port alone, and by its address with the port."""
        for host in ("", HOST + ":"):
            with self.subTest(host), MetricsServer("--allow-quit") as server, Peer(server.port) as peer:
                peer.asks(b"get a\r\n", b"END\r\n")
                self.asks(f"{host}{server.metrics}", 0)
                self.assertEqual(0, server.process.wait(ENDS), server.said())

    def test_a_server_that_does_not_end(self):
        """Without --allow-quit it serves on."""
        with MetricsServer() as server, Peer(server.port) as peer:
            said = b"mcserver: --quit 127.0.0.1:%d: the server has no --allow-quit\n" % server.metrics
            self.asks(str(server.metrics), 1, said)
            peer.asks(b"get a\r\n", b"END\r\n")

    def test_nothing_listens(self):
        port = free_port()
        self.asks(str(port), 1, b"mcserver: --quit 127.0.0.1:%d: nothing answers there\n" % port)

    def test_answers_of_others(self):
        """By the first line of an answer alone, however it comes, and after a while without one."""
        other, silent = b"the server doesn't accept it", b"no answer came within 5 seconds"
        for pieces, status, why in (
            ([b"HTTP/1.1 200 OK\r\n"], 0, b""),
            ([b"HTTP/1.1 2", b"00 OK\r", b"\nContent-Length: 9\r\n\r\nstopping\n"], 0, b""),
            ([b"HTTP/1.1 403 Forbidden\r\n\r\n"], 1, b"the server ends only for its own machine"),
            ([b"HTTP/1.1 503 Service Unavailable\r\n\r\n"], 1, other),
            ([b"HTTP/1.1 200 Ok\r\n\r\n"], 1, other),
            ([b"VALUE a 0 1\r\nx\r\nEND\r\n"], 1, other),
            ([b"HTTP/1.1 200 OK\r"], 1, silent),
            ([], 1, silent),
        ):
            with self.subTest(pieces), socket.create_server((HOST, 0)) as door:
                port = door.getsockname()[1]
                door.settimeout(PATIENCE + LATE)
                asked = []
                answering = threading.Thread(target=self.answers, args=(door, pieces, asked), daemon=True)
                answering.start()
                self.asks(str(port), status, b"mcserver: --quit 127.0.0.1:%d: %s\n" % (port, why) if why else b"")
                answering.join(PATIENCE + LATE)
                self.assertEqual([ASKED], asked)

    def answers(self, door, pieces, asked):
        """Answers one request, of which it notes the bytes, in pieces, and closes."""
        link, _ = door.accept()
        with link:
            link.settimeout(PATIENCE + LATE)
            got = b""
            while b"\r\n\r\n" not in got and (piece := link.recv(4096)):
                got += piece
            asked.append(got)
            for piece in pieces:
                link.sendall(piece)
                time.sleep(0.05)

    def test_a_server_that_hangs(self):
        """One that answers nothing, and one that answers a byte a second, hold it for 5 seconds."""
        for pause in (None, 1):
            with self.subTest(pause=pause), socket.create_server((HOST, 0)) as door:
                port, over = door.getsockname()[1], threading.Event()
                door.settimeout(PATIENCE + LATE)
                dripping = threading.Thread(target=self.drips, args=(door, pause, over), daemon=True)
                dripping.start()
                began = time.monotonic()
                self.asks(str(port), 1, b"mcserver: --quit 127.0.0.1:%d: no answer came within 5 seconds\n" % port)
                self.assertGreater(time.monotonic() - began, PATIENCE - 0.5)
                over.set()
                dripping.join(PATIENCE + LATE)

    def drips(self, door, pause, over):
        link, _ = door.accept()
        with link:
            for at in range(2 * PATIENCE):
                if over.wait(pause or 2 * PATIENCE):
                    return
                link.sendall(b"HTTP/1.1 200 OK\r\n"[at : at + 1])

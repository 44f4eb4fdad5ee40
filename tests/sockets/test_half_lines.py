"""Commands that come in parts, with a long wait between them."""
import time

from tests.lib.abuse import LITTLE, abused
from tests.lib.case import ProgramCase
from tests.lib.peer import clients

# What is sent at first, what later, and what is answered.
HALVES = [
    (b"ver", b"sion\r\n", b"VERSION 1.6.0\r\n"),
    (b"get a b ", b"c\n", b"END\r\n"),
    (b"version\r", b"\n", b"VERSION 1.6.0\r\n"),
    (b"get " + b"k" * 60000, b"\r\n", b"CLIENT_ERROR bad command line format\r\n"),
    (b"set half 0 0 10\r\n12345", b"67890\r\n", b"STORED\r\n"),
    (b"set half 0 0 2\r\n12\r", b"\nversion\r\n", b"STORED\r\nVERSION 1.6.0\r\n"),
    (b"set half 0 0 2000000\r\n", b"", b"SERVER_ERROR object too large for cache\r\n"),
]
# So long it takes until the rest comes.
WAIT = 1


class HalfLines(ProgramCase):
    def test_the_rest_comes_later(self):
        """Many send a part of a command, wait for long, and then send the rest."""
        with abused(LITTLE) as server, clients(server.port, 200) as peers:
            said = list(zip(peers, HALVES * len(peers)))
            for peer, (half, _, _) in said:
                peer.send(half)
            time.sleep(WAIT)
            for peer, (_, rest, wanted) in said:
                peer.asks(rest, wanted)

"""Urgent data, which is no part of the stream."""
import socket

from tests.lib.case import ProgramCase
from tests.lib.peer import Peer
from tests.lib.server import StillServer
from tests.lib.threads import stopped

TEXT, WANTED = b"get a\r\nget b c\r\nversion\r\n", b"END\r\nEND\r\nVERSION 1.6.0\r\n"
# So soon what is behind it is answered, in seconds.
SOON = 2


class Urgent(ProgramCase):
    def test_a_byte_of_urgent_data(self):
        """It holds nothing up that is behind it."""
        with StillServer() as server:
            for at in range(1, len(TEXT)):
                with self.subTest(behind=at), Peer(server.port) as peer:
                    if at % 2:  # (half of them are known to the server, the others new)
                        peer.asks(b"get a\r\n", b"END\r\n")
                    with stopped(server):
                        peer.send(TEXT[:at])
                        peer.socket.send(b"!", socket.MSG_OOB)
                        peer.send(TEXT[at:])
                    peer.seconds = SOON
                    peer.is_told(WANTED)

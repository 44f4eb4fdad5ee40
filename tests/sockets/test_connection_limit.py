"""As many connections are answered as are asked for, and one more is told that there are too many and closed."""
from tests.lib.abuse import ANSWERED
from tests.lib.case import ProgramCase
from tests.lib.peer import Peer, answers, clients
from tests.lib.server import HOST, StillServer
from tests.lib.wait import until

MOST = 3
TOO_MANY = b"ERROR Too many open connections\r\n"


class ConnectionLimit(ProgramCase):
    def test_one_more_than_there_may_be(self):
        """After one has gone another is answered, again and again."""
        with StillServer(connections=MOST) as server:
            for turn in range(3):
                server.settle()
                with self.subTest(turn=turn), clients(server.port, MOST, seconds=ANSWERED) as peers:
                    for peer in peers:
                        peer.asks(b"get a\r\n", b"END\r\n")
                    self.one_more(server)
                    peers[0].close()
                    another = until(lambda: answers(HOST, server.port), ANSWERED)
                    self.assertTrue(another, "after one has gone no other is answered")
                    for peer in peers[1:]:
                        peer.asks(b"get a\r\n", b"END\r\n")

    def one_more(self, server):
        """One more is told so and closed; a reset may take the text away."""
        try:
            with Peer(server.port, seconds=ANSWERED) as peer:
                self.assertEqual(TOO_MANY, peer.upto(b"\r\n"))
                self.assertTrue(peer.is_closed(), "one more connection than there may be is open")
        except ConnectionError:
            pass

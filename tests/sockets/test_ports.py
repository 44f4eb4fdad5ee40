"""Ports and addresses that can't be had, and the port behind the address."""
import socket

from tests.lib.abuse import ANSWERED
from tests.lib.case import ProgramCase
from tests.lib.listening import Listener, ended
from tests.lib.peer import Peer, answers
from tests.lib.server import HOST, MOMENT, StillServer, free_port
from tests.lib.wait import until

TAKEN = rb"mcserver: cannot listen on 127\.0\.0\.1:\d+: something listens there already\n"
# (192.0.2.0/24 is for documents, and no machine's)
ELSEWHERE = rb"mcserver: cannot listen on 192\.0\.2\.1:11211: the address isn't one of this machine\n"


class Ports(ProgramCase):
    def test_a_port_that_another_program_has(self):
        with socket.create_server((HOST, 0)) as other:
            ended(self.program, ["-p", str(other.getsockname()[1])], 1, TAKEN)

    def test_a_port_that_another_server_has(self):
        with StillServer() as server:
            ended(self.program, ["-p", str(server.port), "-t", "64"], 1, TAKEN)
            with Peer(server.port) as peer:
                peer.asks(b"get a\r\n", b"END\r\n")

    def test_an_address_of_another_machine(self):
        ended(self.program, ["-l", "192.0.2.1"], 1, ELSEWHERE)

    def test_a_port_behind_the_address_goes_before_the_one_of_p(self):
        for host, shape in (("127.0.0.1", "127.0.0.1:%d"), ("::1", "[::1]:%d")):
            with self.subTest(host):
                self.wants(host)
                port = free_port(host)
                with Listener([self.program, "-l", shape % port, "-p", "1", "--now", str(MOMENT)]) as started:
                    self.assertIn(b"listening on %s," % (shape % port).encode(), started.line())
                    self.assertTrue(until(lambda: answers(host, port), ANSWERED), "nothing answers there")

"""The addresses that are asked for are those at which it listens, and no others."""
import re
import socket

from tests.lib.abuse import ANSWERED
from tests.lib.case import ProgramCase
from tests.lib.listening import Listener, ended
from tests.lib.peer import Peer, answers
from tests.lib.scrape import sent, told
from tests.lib.server import HOST, MOMENT, free_port
from tests.lib.wait import until

# Whether an address of all of version 6 is of that version alone.
with open("/proc/sys/net/ipv6/bindv6only") as setting:
    BINDS_APART = setting.read().strip() == "1"
# The warning where others than this machine can connect.
REFUSED = b"mcserver: warning: a connection was refused, as -c allows no more (reported once a minute)\n"
WARNING = rb"mcserver: warning: .* no passwords.*\n"
COVERED = b"mcserver: :: accepts IPv4, too, so 0.0.0.0 at the same port needs no listener\n"
ADDRESSES = [
    # asked for, said, answers there, doesn't answer there, warns
    ("127.0.0.1", "127.0.0.1:%d", "127.0.0.1", "127.0.0.2", False),
    ("127.0.0.2", "127.0.0.2:%d", "127.0.0.2", "127.0.0.1", False),
    ("0.0.0.0", "0.0.0.0:%d", "127.0.0.3", "", True),
    ("::1", "[::1]:%d", "::1", "127.0.0.1", False),
    ("::", "[::]:%d", "::1", "", True),
    # (of version 4 too, unless the system keeps them apart)
    ("::", "[::]:%d", "::1" if BINDS_APART else "127.0.0.1", "", True),
]


class Addresses(ProgramCase):
    def test_the_address_that_is_asked_for(self):
        """It listens at the address that is asked for and at no other, names it, and warns where it isn't this machine's alone."""
        for host, said, there, elsewhere, warns in ADDRESSES:
            with self.subTest(host, answers_at=there):
                self.wants("::1" if host == "::" else host)
                port = free_port(host)
                with Listener([self.program, "-l", host, "-p", str(port), "--now", str(MOMENT)]) as started:
                    wanted = f"mcserver: listening on {said % port}, 64 pages, 4 workers\n"
                    self.assertEqual(wanted.encode(), started.line())
                    self.assertTrue(until(lambda: answers(there, port), ANSWERED), f"nothing answers at {there}")
                    self.assertFalse(elsewhere and answers(elsewhere, port), f"it answers at {elsewhere} too")
                    if warns:
                        self.assertRegex(started.line(), WARNING)
                    self.assertEqual(b"", started.rest())


OTHER = "127.0.0.2"


class SeveralAddresses(ProgramCase):
    def setUp(self):
        super().setUp()
        self.port, self.beside, self.metrics = free_port(HOST), free_port(OTHER), free_port(HOST)

    def started(self, *words):
        return Listener([self.program, "-p", str(self.port), "--now", str(MOMENT), *words])

    def asks(self, host, port, sent, wanted):
        """Sends to a connection of its own, which is told this and is left open."""
        peer = Peer(port, ANSWERED, host=host)
        self.addCleanup(peer.close)
        peer.asks(sent, wanted)
        return peer

    def test_each_is_listened_at(self):
        """With commas or behind an option each, with a port or that of -p: it names them in their order, and has one store at all."""
        first, second = f"{HOST}:{self.port}", f"{OTHER}:{self.beside}"
        for words in (["-l", f"{HOST},{second}"], ["-l", HOST, "--listen", second], [f"-l{first}", f"--listen={second}"]):
            with self.subTest(words), self.started(*words) as started:
                self.assertEqual(f"mcserver: listening on {first}, {second}, 64 pages, 4 workers\n".encode(), started.line())
                self.asks(HOST, self.port, b"set a 0 0 1\r\nx\r\n", b"STORED\r\n")
                for _ in range(8):  # (each worker has one of either)
                    self.asks(OTHER, self.beside, b"get a\r\n", b"VALUE a 0 1\r\nx\r\nEND\r\n")
                self.assertFalse(answers(OTHER, self.port), "it listens elsewhere, too")
                self.assertEqual(b"", started.rest())

    def test_each_that_others_reach_is_warned_of(self):
        with self.started("-l", f"{HOST},0.0.0.0:{self.beside}") as started:
            started.line()
            self.assertRegex(started.line(), WARNING)
            self.assertEqual(b"", started.rest())

    def test_they_share_the_connections_that_there_may_be(self):
        """Each counts at whichever it comes in, has a number of its own, and the next is one too many at both."""
        with self.started("-l", f"{HOST},{OTHER}:{self.beside}", "-c", "2", "-v") as started:
            started.line()
            for host, port in ((HOST, self.port), (OTHER, self.beside)):
                self.asks(host, port, b"get a\r\n", b"END\r\n")
            for host, port in ((HOST, self.port), (OTHER, self.beside)):
                self.asks(host, port, b"", b"ERROR Too many open connections\r\n")
            said = [started.line() for _ in range(7)]
            said.remove(REFUSED)
            numbers = [int(re.match(rb"mcserver: connection (\d+) ", line).group(1)) for line in said]
            self.assertEqual([1, 2, 3, 3, 4, 4], sorted(numbers))  # (one that is told so may be closed behind the next)

    def test_one_that_is_taken(self):
        """It ends, and names the one, whether another listens there or it asks for it twice."""
        with socket.socket() as taken:
            taken.bind((OTHER, 0))
            taken.listen()
            port = taken.getsockname()[1]
            said = rb"mcserver: cannot listen on 127\.0\.0\.2:%d: something listens there already\n" % port
            ended(self.program, ["-l", f"{HOST}:{self.port},{OTHER}:{port}"], 1, said)
        said = rb"mcserver: cannot listen on 127\.0\.0\.1:%d: something listens there already\n" % self.port
        ended(self.program, ["-p", str(self.port), "-l", HOST, "-l", OTHER, "-l", HOST], 1, said)

    def test_all_of_either_version(self):
        """0.0.0.0 and :: at one port are both listened at, whichever stands first. Where :: is of version 4 too, it alone is bound, which -v says."""
        self.wants("::1")
        for words in (["-l", "0.0.0.0,::"], ["-l", "::", "-l", "0.0.0.0"]):
            for verbose in ([], ["-v"]):
                with self.subTest(words + verbose), self.started(*words, *verbose) as started:
                    if verbose and not BINDS_APART:
                        self.assertEqual(COVERED, started.line())
                    self.assertRegex(started.line(), rb"mcserver: listening on .*, 64 pages, 4 workers\n")
                    for host in (HOST, OTHER, "::1"):
                        self.assertTrue(answers(host, self.port), f"nothing answers at {host}")

    def test_all_of_either_version_at_two_ports(self):
        """Each is bound."""
        self.wants("::1")
        with self.started("-v", "-l", f"0.0.0.0:{self.beside},::") as started:
            self.assertRegex(started.line(), rb"mcserver: listening on 0\.0\.0\.0:%d, \[::\]:%d, " % (self.beside, self.port))
            self.assertTrue(answers(OTHER, self.beside) and answers("::1", self.port))
            self.assertFalse(answers("::1", self.beside), "it is of version 6, too")

    def test_all_of_either_version_where_one_is_taken(self):
        """It ends, if another has the port at an address of version 4: it would be no listener of that."""
        self.wants("::1")
        with socket.socket() as taken:
            taken.bind(("0.0.0.0", 0))
            taken.listen()
            port = taken.getsockname()[1]
            said = rb"mcserver: cannot listen on %s:%d: something listens there already\n\Z"
            ended(self.program, ["-p", str(port), "-l", "::,0.0.0.0"], 1, said % (rb"0\.0\.0\.0" if BINDS_APART else rb"\[::\]", port))

    def test_it_ends_at_all(self):
        """Asked to end, it does so with status 0, whichever of its listeners hears of it first, and leaves every port."""
        places = [(HOST, self.port), *((OTHER, free_port(OTHER)) for _ in range(4))]
        listed = ",".join(f"{host}:{port}" for host, port in places)
        with self.started("-l", listed, "--metrics", str(self.metrics), "--allow-quit") as started:
            started.line()
            self.asks(*places[-1], b"get a\r\n", b"END\r\n").close()
            self.assertEqual(200, told(sent(self.metrics, b"POST /quit HTTP/1.1\r\nContent-Length: 0\r\n\r\n")).status)
            status, _ = started.end()
        self.assertEqual(0, status)
        for place in places:
            with socket.socket() as it:
                it.setsockopt(socket.SOL_SOCKET, socket.SO_REUSEADDR, 1)
                it.bind(place)

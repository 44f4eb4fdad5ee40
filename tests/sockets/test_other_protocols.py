"""A peer that speaks HTTP or the binary protocol is ended before a line behind its first is a command; every other first line is one of ours."""
import contextlib
import struct
import time

from tests.lib.case import ProgramCase, tests_of
from tests.lib.peer import Peer, clients
from tests.lib.scrape import MetricsServer
from tests.lib.server import StillServer
from tests.lib.wait import until

SOON = 6
BODY = b"set b 0 0 1\r\nx\r\nflush_all\r\ndelete a\r\n"
REASON = 'mcserver_connections_closed_total{reason="other_protocol"}'
ERROR = b"ERROR\r\n"


def page(method=b"POST", target=b"/", version=b"HTTP/1.1"):
    return b"%s %s %s\r\nHost: h\r\nContent-Length: %d\r\n\r\n" % (method, target, version, len(BODY)) + BODY


def binary(magic=0x80, opcode=0, key=1, extras=0, kind=0, body=1, opaque=b"flus", cas=b"h_all\n\n\n"):
    return struct.pack(">BBHBBHI4s8s", magic, opcode, key, extras, kind, 0, body, opaque, cas)


# What is sent, and what is answered before the end.
ENDED = [
    ("a page posts", page(), ERROR),
    ("a page gets", page(b"GET", b"/a?b=c"), ERROR),
    ("a long target", page(target=b"/" + b"t" * 40_000), ERROR),
    ("an older version", page(version=b"HTTP/1.0"), ERROR),
    ("a line feed alone", b"PUT / HTTP/1.1\n" + BODY, ERROR),
    ("a method of its own", page(b"Set"), ERROR),
    ("a get", binary() + b"a" + BODY, b""),
    ("a set", binary(opcode=1, key=1, extras=8, body=10) + bytes(8) + b"aa" + BODY, b""),
    ("a version", binary(opcode=0x0B, key=0, body=0), b""),
    ("an authentication", binary(opcode=0x21, key=5, body=11, cas=bytes(8)) + b"PLAIN" + b"\n" * 6, b""),
]
# What is sent as the first line, and what is answered; then all goes on.
OURS = [
    ("a get of such keys", b"get a HTTP/1.1\r\n", b"VALUE a 0 1\r\ns\r\nEND\r\n"),
    ("a touch", b"touch a HTTP/1.1\r\n", b"CLIENT_ERROR bad command line format\r\n"),
    ("an unknown word", b"post / HTTP/1.1\r\n", ERROR),
    ("two words", b"GET HTTP/1.1\r\n", ERROR),
    ("four words", b"GET / HTTP/1.1 a\r\n", ERROR),
    ("two spaces", b"GET  / HTTP/1.1\r\n", ERROR),
    ("no target", b"GET  HTTP/1.1\r\n", ERROR),
    ("a space before", b" GET / HTTP/1.1\r\n", ERROR),
    ("another version", b"GET / HTTP/2.0\r\n", ERROR),
    ("another name", b"GET / http/1.1\r\n", ERROR),
    ("no version", b"GET /\r\n", ERROR),
    ("the second line", b"get b\r\nGET / HTTP/1.1\r\n", b"END\r\n" + ERROR),
    ("a byte of a header", b"\x80\r\n", ERROR),
    ("another magic", binary(magic=0x81, cas=b"h_all234") + b"\r\n", ERROR),
    ("another type of data", binary(kind=1, cas=b"h_all234")  + b"\r\n", ERROR),
    ("a body too short", binary(key=2, body=1, cas=b"h_all234") + b"\r\n", ERROR),
]


@tests_of(ENDED, lambda row: row[0])
class Ended(ProgramCase):
    def check(self, row):
        """It is answered no more than that, the connection ends though the client stays, and nothing is written."""
        _, sent, told = row
        with StillServer() as server:
            with Peer(server.port) as keeper:
                keeper.asks(b"set a 0 0 1\r\ns\r\n", b"STORED\r\n")
                # (the lines that the first bytes of a header have are lines until it is whole)
                for size in (len(sent), 5, 1) if told or b"\n" not in sent[:24] else (len(sent),):
                    with self.subTest(size=size), Peer(server.port) as peer:
                        self.send_in_pieces(peer, sent, size)
                        self.assertEqual(told, peer.upto(b"no such mark"))
                keeper.asks(b"get a b\r\n", b"VALUE a 0 1\r\ns\r\nEND\r\n")

    def send_in_pieces(self, peer, sent, size):
        """Sends the first 200 bytes in pieces of this size, and then the rest."""
        first = sent if size == len(sent) else sent[:200]
        with contextlib.suppress(ConnectionError):
            for at in range(0, len(first), size):
                peer.send(first[at : at + size])
                if size < len(sent):
                    time.sleep(0.002)
            peer.send(sent[len(first) :])


@tests_of(OURS, lambda row: row[0])
class Ours(ProgramCase):
    def check(self, row):
        """It is answered as a line, whole or in pieces, and the connection goes on."""
        _, sent, told = row
        with StillServer() as server:
            for size in (len(sent), 5, 1):
                with self.subTest(size=size), Peer(server.port) as peer:
                    with Peer(server.port) as keeper:
                        keeper.asks(b"set a 0 0 1\r\ns\r\n", b"STORED\r\n")
                    for at in range(0, len(sent), size):
                        peer.send(sent[at : at + size])
                    peer.is_told(told)
                    peer.asks(b"get a\r\n", b"VALUE a 0 1\r\ns\r\nEND\r\n")


class Reported(ProgramCase):
    def test_why_they_are_closed(self):
        """The metrics have a reason of their own, and with -v the log names it."""
        with MetricsServer("-v") as server:
            server.settle()
            before = server.scrape()
            for sent, told in ((page(), ERROR), (binary() + b"a", b"")):
                with Peer(server.port) as peer:
                    peer.send(sent)
                    self.assertEqual(told, peer.upto(b"no such mark"))
            self.assertTrue(until(lambda: server.grown(before).get(REASON) == 2, SOON), server.grown(before))
            closed = {name for name in server.grown(before) if "closed_total" in name}
            self.assertEqual({REASON}, closed)
            self.assertTrue(until(lambda: server.said().count("the client speaks another protocol") == 2, SOON), server.said())

    def test_those_that_stay(self):
        """A client that stays behind its end is closed soon."""
        with StillServer() as server:
            server.settle()
            with clients(server.port, 2) as (web, other):
                web.send(page())
                other.send(binary() + b"a")
                self.assertEqual((ERROR, b""), (web.upto(b"no such mark"), other.upto(b"no such mark")))
                self.assertTrue(until(lambda: server.connections() == 0, SOON), f"{server.connections()} connections")

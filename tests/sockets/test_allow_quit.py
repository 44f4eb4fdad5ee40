"""With --allow-quit it ends by a request of this machine, with status 0, after what is due was answered and sent, and soon."""
import collections
import socket
import subprocess
import threading
import time
from concurrent.futures import ThreadPoolExecutor

from tests.lib.case import ProgramCase
from tests.lib.listening import ended
from tests.lib.peer import Peer
from tests.lib.scrape import MetricsServer, sent, told
from tests.lib.server import HOST, free_port
from tests.lib.wait import until

POST = b"POST /quit HTTP/1.1\r\nHost: localhost\r\nContent-Length: 0\r\n\r\n"
GET = b"GET /quit HTTP/1.1\r\nHost: mcserver\r\n\r\n"
# One that asks on and on is served no longer, in seconds.
LONGEST = 60
# Open connections have so many seconds at most; where none is open, or none has anything to do, it ends so soon.
AT_MOST, EMPTY, IDLE, MORE = 5, 1, 4, 3
BLOCK = b"b" * 1000000
# How many clients are busy, and what they get.
BUSY, VALUE = 20, b"v" * 10000
HIT = b"VALUE a 0 %d\r\n%s\r\nEND\r\n" % (len(VALUE), VALUE)
Last = collections.namedtuple("Last", "answer moment")


def asks_until_it_fails(port):
    """Asks on one connection, one call after another: what came of the call that failed, and when."""
    with Peer(port) as peer:
        end = time.monotonic() + LONGEST
        while time.monotonic() < end:
            try:
                peer.send(b"get a\r\n")
                answer = peer.exactly(len(HIT))
            except ConnectionError:
                answer = peer.got
            if answer != HIT:
                return Last(answer, time.monotonic())
    raise AssertionError(f"it is served after {LONGEST} seconds")


# Fields of a request that ends the server, if a peer of this machine sends it, and of one that may be a page's of another site.
GRANTED = [
    b"",
    b"Host: localhost\r\n",
    b"host: LocalHost:9150\r\n",
    b"Host: 127.0.0.1\r\n",
    b"Host: 127.0.0.1:9150\r\n",
    b"Host:\t127.255.0.3:80 \r\n",
    b"Host: [::1]\r\n",
    b"HOST: [::1]:9150\r\n",
    b"Host: localhost:\r\n",
    b"X-Origin: http://example.org\r\nHost: localhost\r\nReferer: http://example.org/\r\n",
]
REFUSED = [
    b"Host: localhost\r\nOrigin: http://localhost\r\n",
    b"Host: localhost\r\norigin:\r\n",
    b"ORIGIN: null\r\nHost: 127.0.0.1\r\n",
    b"Host: mcserver\r\n",
    b"Host:\r\n",
    b"Host: example.org:9150\r\n",
    b"Host: localhost.example.org\r\n",
    b"Host: example.localhost\r\n",
    b"Host: 127.0.0.1.example.org\r\n",
    b"Host: 127.example.org\r\n",
    b"Host: 10.0.0.1\r\n",
    b"Host: 1270.0.0.1\r\n",
    b"Host: 0.0.0.0\r\n",
    b"Host: [::2]:9150\r\n",
    b"Host: [::1].example.org\r\n",
    b"Host: ::1\r\n",
    b"Host: localhost:a\r\n",
    b"Host: localhost:80.example.org\r\n",
    b"Host: 127.0.0.1:80@example.org\r\n",
    b"Host: 127.0.0.1:80:80\r\n",
    b"Host: [::1]:80a\r\n",
    b"Host: localhost\r\nHost: example.org\r\n",
    b"Host: localhost\r\n" + b"A: b\r\n" * 62 + b"Origin: a\r\n",
]


class AllowQuit(ProgramCase):
    def server(self, *args, **options):
        return MetricsServer("--allow-quit", *args, **options)

    def asked(self, server):
        """Asks it to end, which it is told that it will."""
        answer = told(sent(server.metrics, POST))
        self.assertEqual((200, b"stopping\n"), (answer.status, answer.body))
        return time.monotonic()

    def ends(self, server, seconds):
        """Fails unless it ends in time, with status 0 and no word but those that it began with; its port is free then."""
        try:
            status = server.process.wait(seconds)
        except subprocess.TimeoutExpired:
            self.fail(f"still runs {seconds} seconds after it was asked to end")
        self.assertEqual(0, status, server.said())
        self.assertEqual([], [it for it in server.said().splitlines() if "listening on" not in it and "metrics at" not in it])
        with socket.socket() as it:
            it.setsockopt(socket.SOL_SOCKET, socket.SO_REUSEADDR, 1)
            it.bind((HOST, server.port))
            it.listen()

    def test_without_connections(self):
        with self.server() as server:
            server.settle()
            self.asked(server)
            self.ends(server, EMPTY)

    def test_an_answered_request_and_an_idle_connection(self):
        """A pipelined request is answered whole, and the connection is closed when nothing more is heard of it."""
        request = b"set a 0 0 %d\r\n%s\r\n" % (len(BLOCK), BLOCK) + b"get a\r\n" * 3 + b"get none\r\n"
        hit = b"VALUE a 0 %d\r\n%s\r\nEND\r\n" % (len(BLOCK), BLOCK)
        with self.server() as server, Peer(server.port) as peer:
            peer.send(request)
            peer.is_told(b"STORED\r\n" + hit * 3 + b"END\r\n")
            self.asked(server)
            self.assertTrue(peer.is_closed(), "the connection is open")
            self.ends(server, IDLE)

    def test_busy_clients_have_one_failed_call_each(self):
        """Clients that ask without a pause are served for 5 seconds more. Each has one call without an answer then, and none half of one."""
        with self.server() as server, Peer(server.port) as first, ThreadPoolExecutor(BUSY) as pool:
            first.asks(b"set a 0 0 %d\r\n%s\r\n" % (len(VALUE), VALUE), b"STORED\r\n")
            runs = [pool.submit(asks_until_it_fails, server.port) for _ in range(BUSY)]
            time.sleep(0.5)
            self.assertFalse(any(it.done() for it in runs))
            asked = self.asked(server)
            first.close()
            lasts = [it.result() for it in runs]
            self.assertEqual([b""] * BUSY, [it.answer for it in lasts])
            self.assertLess(AT_MOST - 1, min(it.moment for it in lasts) - asked)
            self.ends(server, MORE)

    def test_what_was_sent_before_is_answered_and_sent(self):
        """Requests whose answers nobody has read yet are answered whole, and so is one in halves."""
        with self.server() as server, Peer(server.port) as slow, Peer(server.port) as halves:
            slow.asks(b"set a 0 0 %d\r\n%s\r\n" % (len(BLOCK), BLOCK), b"STORED\r\n")
            slow.send(b"get a\r\n" * 20)
            halves.send(b"set b 0 0 10\r\n01234")
            self.asked(server)
            halves.send(b"56789\r\nget b\r\n")
            halves.is_told(b"STORED\r\nVALUE b 0 10\r\n0123456789\r\nEND\r\n")
            for _ in range(20):
                slow.is_told(b"VALUE a 0 %d\r\n%s\r\nEND\r\n" % (len(BLOCK), BLOCK))
            self.ends(server, IDLE)

    def test_nobody_comes_in_any_more(self):
        with self.server() as server, Peer(server.port) as peer:
            peer.asks(b"get a\r\n", b"END\r\n")
            self.asked(server)

            def refused():
                try:
                    Peer(server.port, 1).close()
                except ConnectionRefusedError:
                    return True
                return False

            self.assertTrue(until(refused, 0.5), "connections are accepted")
            peer.asks(b"get a\r\n", b"END\r\n")
            self.assertEqual(200, told(sent(server.metrics, POST)).status, "asked once more")
            self.ends(server, IDLE)

    def test_it_ends_in_time_whatever_clients_do(self):
        """One that asks on and on and one that reads nothing don't keep it for longer than it may take."""
        over = threading.Event()
        with self.server() as server, Peer(server.port) as mute, Peer(server.port) as busy:
            mute.asks(b"set a 0 0 %d\r\n%s\r\n" % (len(BLOCK), BLOCK), b"STORED\r\n")
            mute.send(b"get a\r\n" * 100)
            asking = threading.Thread(target=self.asks_on, args=(busy, over))
            asking.start()
            began = self.asked(server)
            try:
                self.ends(server, AT_MOST + MORE)
            finally:
                over.set()
                asking.join()
            self.assertGreater(time.monotonic() - began, AT_MOST - 1, "it didn't wait for one that asks")

    def asks_on(self, peer, over):
        try:
            while not over.is_set():
                peer.asks(b"get none\r\n", b"END\r\n")
                time.sleep(0.01)
        except (AssertionError, OSError):  # (it has ended)
            pass


class Answers(ProgramCase):
    def test_pages_of_other_sites_do_not_end_it(self):
        with MetricsServer("--allow-quit") as server:
            for fields in REFUSED:
                with self.subTest(fields[:60]):
                    answer = told(sent(server.metrics, b"POST /quit HTTP/1.1\r\n%s\r\n" % fields))
                    self.assertEqual(403, answer.status)
            self.assertTrue(server.runs())

    def test_each_name_of_the_loopback_ends_it(self):
        for fields in GRANTED:
            with self.subTest(fields[:60]), MetricsServer("--allow-quit") as server:
                answer = told(sent(server.metrics, b"POST /quit?a=1 HTTP/1.1\r\n%s\r\n" % fields))
                self.assertEqual((200, b"stopping\n"), (answer.status, answer.body))
                self.assertEqual(0, server.process.wait(IDLE))

    def test_other_methods(self):
        with MetricsServer("--allow-quit") as server:
            for method in (b"GET", b"PUT", b"DELETE", b"post", b"HEAD"):
                answer = told(sent(server.metrics, method + GET[3:]), without_body=method == b"HEAD")
                self.assertEqual((405, "POST"), (answer.status, answer.fields["allow"]), method)
            for target in (b"/quit/", b"/?quit", b"/", b"/QUIT"):
                answer = told(sent(server.metrics, POST.replace(b"/quit", target)))
                self.assertEqual((405, "GET, HEAD"), (answer.status, answer.fields["allow"]), target)
            self.assertEqual(200, told(sent(server.metrics, b"GET /healthz HTTP/1.1\r\n\r\n")).status)
            self.assertTrue(server.runs())

    def test_without_the_option_there_is_no_such_path(self):
        with MetricsServer() as server, Peer(server.port) as peer:
            for request in (POST, GET):
                self.assertEqual(404, told(sent(server.metrics, request)).status)
            peer.asks(b"get a\r\n", b"END\r\n")
            self.assertTrue(server.runs())

    def test_it_is_refused_from_elsewhere(self):
        """By an address of this machine that isn't its loopback's."""
        with socket.socket(socket.AF_INET, socket.SOCK_DGRAM) as it:
            try:
                it.connect(("192.0.2.1", 9))
            except OSError:
                self.skipTest("this machine has no other address")
            host = it.getsockname()[0]
        if host.startswith("127."):
            self.skipTest("this machine has no other address")
        port = free_port(host)
        with MetricsServer("--allow-quit", "--metrics", f"0.0.0.0:{port}") as server:
            for place, status in ((host, 403), (HOST, 200)):
                self.assertEqual(status, told(sent(port, POST, AT_MOST, place)).status, place)
            self.assertEqual(0, server.process.wait(IDLE))

    def test_it_wants_a_port_for_it(self):
        ended(self.program, ["-p", str(free_port()), "--allow-quit"], 2, rb"mcserver: [^\n]*--metrics[^\n]*\n\Z")

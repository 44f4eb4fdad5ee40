"""Calls of the system that fail, each by a list of errors: the program serves on or ends with its text, loses no item, answers nothing
wrong, and gives its descriptors back."""
import contextlib
import errno
import fcntl
import resource
import time
from concurrent.futures import ThreadPoolExecutor

from tests.lib.abuse import ANSWERED, GIVEN_BACK
from tests.lib.case import ProgramCase, tests_of
from tests.lib.faults import Faults
from tests.lib.keeper import Keepers
from tests.lib.peer import Peer, answers
from tests.lib.process import outcome, started
from tests.lib.scrape import MetricsServer, sent, told
from tests.lib.server import HOST, StillServer, free_port
from tests.lib.wait import until

# Errors of accept(2): those of the network, which it names as pending ones, of one connection, and of the moment.
PENDING = [
    errno.ENETDOWN, errno.EPROTO, errno.ENOPROTOOPT, errno.EHOSTDOWN, errno.ENONET, errno.EHOSTUNREACH, errno.EOPNOTSUPP, errno.ENETUNREACH
]
PASSING = [errno.EINTR, errno.ECONNABORTED, errno.EAGAIN, errno.EPERM, errno.EIO, errno.ETIMEDOUT]
NO_DESCRIPTOR, NO_MEMORY = [errno.EMFILE, errno.ENFILE], [errno.ENOMEM, errno.ENOBUFS]
# What fails, each Kth call, by these errors; whether connections may be closed for it, and within how many seconds each answer comes.
ROWS = [
    ("accept4 pending", "accept4", 1, PENDING[:8], False, ANSWERED),
    ("accept4 passing", "accept4", 1, PASSING, False, ANSWERED),
    ("accept4 no descriptor", "accept4", 1, NO_DESCRIPTOR, False, ANSWERED),
    ("accept4 no memory", "accept4", 1, NO_MEMORY, False, ANSWERED),
    ("epoll_wait", "epoll_wait", 2, [errno.EINTR, errno.ENOMEM, errno.EBADF], False, ANSWERED),
    ("recv interrupted", "recv", 3, [errno.EINTR], False, ANSWERED),
    ("send interrupted", "send", 3, [errno.EINTR], False, ANSWERED),
    ("sendmsg interrupted", "sendmsg", 2, [errno.EINTR], False, ANSWERED),
    ("recv fails", "recv", 50, [errno.ECONNRESET, errno.ENOMEM, errno.EIO], True, ANSWERED),
    ("send fails", "send", 50, [errno.EPIPE, errno.ECONNRESET, errno.ENOBUFS], True, ANSWERED),
    ("sendmsg fails", "sendmsg", 20, [errno.EPIPE, errno.ECONNRESET, errno.ENOBUFS], True, ANSWERED),
    ("close", "close", 1, [errno.EINTR, errno.EIO], False, ANSWERED),
    ("standard error", "write", 2, [errno.EAGAIN, errno.EIO, errno.EINTR], False, ANSWERED),
]
POST = b"POST /quit HTTP/1.1\r\nHost: localhost\r\nContent-Length: 0\r\n\r\n"
# So long calls fail in a row of the above, in seconds.
STORM = 1.5
# At each of so many calls alone a call fails.
ALONE = 6
LARGE = 100_000
# A link that was told nothing for 10 seconds is asked again, and answers within so many.
AGAIN = 15


@contextlib.contextmanager
def served(case, size=20, is_behind=False, **options):
    """A server with clients beside, whose calls may fail in the block; what it doesn't give back is raised."""
    with Faults() as faults, StillServer(faults=faults, **options) as server:
        with Peer(server.port) as peer:
            peer.asks(b"set first 0 0 1\r\nx\r\n", b"STORED\r\n")
        server.settle()
        had = server.descriptors()
        keepers = Keepers(server.port, size=size, is_behind=is_behind, before_reading=faults.end)
        with keepers:
            case.assertTrue(until(keepers.have_all_asked, 5), "a client wasn't answered before the faults")
            yield faults, server, keepers
            case.assertTrue(server.runs(), f"the server has ended: {server.said()}")
        case.assertTrue(until(lambda: server.descriptors() <= had, GIVEN_BACK), f"{server.descriptors()} descriptors, {had} before")
        with Peer(server.port, ANSWERED) as peer:
            peer.asks(b"get first\r\n", b"VALUE first 0 1\r\nx\r\nEND\r\n")


@tests_of(ROWS, lambda row: row[0])
class Storms(ProgramCase):
    def check(self, row):
        """Each Kth call fails for a while, with new connections all the time; each answer is right and in time."""
        _, call, every, errors, may_close, seconds = row
        # a large answer behind a small one is sent with it in one call
        size = LARGE if call == "sendmsg" else 20
        with served(self, size, call == "sendmsg") as (faults, server, keepers):
            faults.fail(call, errors, every, 4 * len(errors) if call == "accept4" else -1)
            end = time.monotonic() + STORM
            while time.monotonic() < end:
                self.assertTrue(answers(HOST, server.port, seconds) or may_close, "a newcomer isn't answered")
                time.sleep(0.02)
            self.assertGreater(faults.count(call) or call == "write", 0, f"calls of {call} that failed")
            faults.end()
            asked = keepers.asked()
            self.assertTrue(until(lambda: keepers.asked() > asked + 12, seconds), "nobody is answered after the faults")
            if not may_close:
                self.assertEqual(0, keepers.closings(), "connections that were closed")
            self.assertLess(keepers.slowest(), seconds, "seconds that the slowest answer took")


class Alone(ProgramCase):
    def test_each_call_alone(self):
        """The first to the sixth call of a kind fails alone: no connection waits for ever for it, nor is another harmed."""
        with served(self) as (faults, server, keepers):
            for call, errors in (("accept4", [errno.EMFILE]), ("accept4", [errno.ECONNABORTED]), ("recv", [errno.EINTR]), ("send", [errno.EINTR])):
                for nth in range(1, ALONE + 1):
                    faults.fail(call, errors, every=nth, left=1)
                    self.assertTrue(answers(HOST, server.port, ANSWERED), f"call {nth} of {call} failed by {errors}")
                    faults.end()
            self.assertEqual(0, keepers.closings(), "connections that were closed")

    def test_newcomers_that_cannot_be_watched(self):
        """epoll_ctl fails: a newcomer is closed, those that are there are served, and later ones too."""
        for error in (errno.ENOSPC, errno.ENOMEM):
            with served(self) as (faults, server, keepers):
                faults.fail("epoll_ctl", [error])
                for _ in range(20):
                    self.assertFalse(answers(HOST, server.port, ANSWERED), "a newcomer that can't be watched is answered")
                self.assertEqual(0, keepers.closings(), "connections that were closed")
                faults.end()
                self.assertTrue(answers(HOST, server.port, ANSWERED), "a newcomer after the faults")
                self.assertEqual(0, keepers.closings(), "connections that were closed")


class NoFile(ProgramCase):
    def test_no_file_in_the_system(self):
        """While accept says ENFILE or EMFILE alone, the program uses next to no processor, and serves newcomers afterwards."""
        for error in NO_DESCRIPTOR:
            with self.subTest(errno.errorcode[error]), Faults() as faults, StillServer(faults=faults) as server:
                with Peer(server.port) as peer:
                    peer.asks(b"get a\r\n", b"END\r\n")
                    faults.fail("accept4", [error])
                    with Peer(server.port) as waits:
                        time.sleep(0.2)
                        before, calls = server.processor(), faults.made("accept4")
                        time.sleep(1)
                        used, made = server.processor() - before, faults.made("accept4") - calls
                        peer.asks(b"get a\r\n", b"END\r\n")
                        faults.end()
                        waits.asks(b"get a\r\n", b"END\r\n")
                self.assertLess(used, 0.3, "seconds of a processor in one second")
                self.assertLess(made, 1000, "calls of accept in one second")


class Unheard(ProgramCase):
    def test_calls_that_answer_nothing(self):
        """Where the system says that there is nothing or no room and there is, and so tells of no change, a link is asked again."""
        rows = [("recv", errno.EAGAIN), ("send", errno.EAGAIN), ("send", 0)]
        with ThreadPoolExecutor(len(rows)) as pool:
            list(pool.map(self.is_answered, rows))

    def is_answered(self, row):
        call, error = row
        with Faults() as faults, StillServer(faults=faults) as server:
            server.settle()
            with Peer(server.port, AGAIN) as peer:
                peer.asks(b"get a\r\n", b"END\r\n")
                faults.fail(call, [error], left=1)
                peer.asks(b"get a\r\n", b"END\r\n")
                self.assertEqual(1, faults.count(call), f"calls of {call} that failed")


class ListenerFails(ProgramCase):
    def test_the_listeners_own_error(self):
        """An error of the listener's own ends the program with its text, and no other does."""
        for error in (errno.EBADF, errno.EINVAL, errno.ENOTSOCK):
            with self.subTest(errno.errorcode[error]), Faults() as faults, StillServer(faults=faults) as server:
                faults.fail("accept4", [error], left=1)
                with contextlib.suppress(OSError), Peer(server.port) as peer:
                    peer.is_closed()
                self.assertEqual(1, server.process.wait(10))
                self.assertIn("mcserver: read fault\n", server.said())


class ThreadsFail(ProgramCase):
    def test_a_thread_that_cannot_start(self):
        """Whichever it is, the program ends with a text that says so, and with status 1."""
        for nth in range(1, 6):
            with self.subTest(thread=nth), Faults() as faults:
                faults.fail("pthread_create", [errno.EAGAIN], every=nth, left=1)
                words = ["-p", str(free_port()), "-t", "3", "--metrics", str(free_port())]
                ran = outcome(started(self.program, words, env=faults.environment), 10)
                self.assertEqual((1, b"mcserver: cannot start a thread (ulimit -u, ulimit -v)\n"), (ran.status, ran.stderr.splitlines(True)[-1]))


class Unread(ProgramCase):
    def test_an_orderly_end_while_nobody_reads_standard_error(self):
        """With -v, more lines than the pipe takes: it serves on, and ends as soon as it is asked to."""
        port, metrics = free_port(), free_port()
        words = ["-v", "-p", str(port), "--metrics", str(metrics), "--allow-quit"]
        with started(self.program, words) as process:
            fcntl.fcntl(process.stderr, fcntl.F_SETPIPE_SZ, 4096)
            self.assertTrue(until(lambda: answers(HOST, port), 10), "nobody is answered")
            for _ in range(200):
                self.assertTrue(answers(HOST, port, ANSWERED), "a client isn't answered")
            self.assertEqual(200, told(sent(metrics, POST)).status)
            try:
                self.assertEqual(0, process.wait(8))
            finally:
                process.kill()


class Elsewhere(ProgramCase):
    def test_who_may_end_the_program(self):
        """Peers of this machine alone, whatever address of this machine was asked."""
        with Faults() as faults, MetricsServer("--allow-quit", faults=faults) as server:
            faults.move_peers()
            answer = told(sent(server.metrics, POST))
            self.assertEqual(403, answer.status, "another machine's request to end the program")
            with Peer(server.port) as peer:
                peer.asks(b"get a\r\n", b"END\r\n")
            self.assertTrue(server.runs(), server.said())

    def test_each_address_of_the_loopback_may(self):
        with MetricsServer("--allow-quit") as server, Peer(server.metrics, ANSWERED, source="127.0.0.2") as peer:
            peer.send(POST)
            self.assertEqual(200, told(peer.rest()).status)
            self.assertEqual(0, server.process.wait(AGAIN))


class Warned(ProgramCase):
    """Without -v an operator is warned once a minute."""

    def test_of_accepts_that_fail(self):
        descriptor, memory = "as no descriptor is left (ulimit -n)", "as the system has no memory for it"
        for error, text in [*((it, descriptor) for it in NO_DESCRIPTOR), *((it, memory) for it in NO_MEMORY)]:
            with self.subTest(errno.errorcode[error]), Faults() as faults, StillServer(faults=faults) as server:
                faults.fail("accept4", [error], left=3)
                self.assertTrue(answers(HOST, server.port, ANSWERED), "a newcomer isn't answered")
                self.assertTrue(until(lambda: text in server.said(), ANSWERED), server.said())
                faults.fail("accept4", [error], left=3)
                answers(HOST, server.port, ANSWERED)
                time.sleep(0.2)
                self.assertEqual(1, server.said().count(text), server.said())

    def test_of_connections_that_want_memory(self):
        """Connections are closed, as there is no room for their blocks, and one line is written."""
        text = "mcserver: warning: a connection was closed, as the system has no memory for it (reported once a minute)\n"
        block = b"set a 0 0 8000000\r\n" + b"x" * 2_000_000
        with MetricsServer("-I", "8m", "--buffer-limit", "1024", workers=1) as server, contextlib.ExitStack() as links:
            server.settle()
            resource.prlimit(server.pid, resource.RLIMIT_AS, (server.memory("VmSize:"), resource.RLIM_INFINITY))
            for _ in range(30):
                with contextlib.suppress(ConnectionError):
                    links.enter_context(Peer(server.port, ANSWERED)).send(block)
            self.assertTrue(until(lambda: text in server.said(), ANSWERED), server.said())
            time.sleep(0.5)
            resource.prlimit(server.pid, resource.RLIMIT_AS, (resource.RLIM_INFINITY, resource.RLIM_INFINITY))
            closed = 'mcserver_connections_closed_total{reason="out_of_memory"}'
            self.assertTrue(until(lambda: server.scrape()[closed] > 1, ANSWERED), "connections that are counted")
            self.assertEqual(1, server.said().count(text), server.said())

    def test_of_too_many_connections(self):
        with StillServer(connections=2) as server:
            server.settle()
            with Peer(server.port) as one, Peer(server.port) as two:
                one.asks(b"get a\r\n", b"END\r\n")
                two.asks(b"get a\r\n", b"END\r\n")
                for _ in range(5):
                    with Peer(server.port) as third:
                        third.is_told(b"ERROR Too many open connections\r\n")
                self.assertTrue(until(lambda: "as -c allows no more" in server.said(), ANSWERED), server.said())
                time.sleep(0.2)
                self.assertEqual(1, server.said().count("as -c allows no more"), server.said())

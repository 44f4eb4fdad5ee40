"""A limit of the stack below what the program needs ends it with a line, and it serves with the least that it accepts."""
import resource
import subprocess

from tests.lib.case import ProgramCase
from tests.lib.listening import Listener
from tests.lib.peer import Peer
from tests.lib.scrape import sent, told
from tests.lib.server import HOST, free_port

# The least limit, in KiB, and limits below it; a run ends so soon, in seconds.
LEAST, BELOW, SOON = 512, (511, 256, 128), 10
SAID = b"mcserver: the stack limit is below 512 KiB (ulimit -s)\n"
BLOCK = b"b" * 1000000


def limited(kib):
    """Sets the limit of the stack of the program that is to run."""
    _, hard = resource.getrlimit(resource.RLIMIT_STACK)
    return lambda: resource.setrlimit(resource.RLIMIT_STACK, (kib * 1024, hard))


class Stack(ProgramCase):
    def run_with(self, kib, *words, stdin=b""):
        words = [self.program, *words]
        return subprocess.run(words, input=stdin, capture_output=True, timeout=SOON, preexec_fn=limited(kib))

    def test_a_limit_that_is_too_small(self):
        """Whatever it is to do, it does nothing, and says why."""
        for kib in BELOW:
            for words in (["--stdin"], ["--help"], ["-p", str(free_port())], ["-m", "64m"], ["--quit", str(free_port())]):
                with self.subTest(kib=kib, words=words):
                    ran = self.run_with(kib, *words, stdin=b"version\r\n")
                    self.assertEqual((1, SAID, b""), (ran.returncode, ran.stderr, ran.stdout))

    def test_the_least_limit_serves_a_session(self):
        """With large blocks, long lines, many keys and faults."""
        keys = b" ".join(b"key%d" % it for it in range(7000))
        lines = b"set a 0 0 %d\r\n%s\r\nget a\r\nget %s\r\n%s\r\n" % (len(BLOCK), BLOCK, keys, b"x" * 65537)
        ran = self.run_with(LEAST, "--stdin", "-m", "3", stdin=lines)
        hit = b"VALUE a 0 %d\r\n%s\r\nEND\r\n" % (len(BLOCK), BLOCK)
        self.assertEqual((0, b""), (ran.returncode, ran.stderr))
        self.assertTrue(ran.stdout == b"STORED\r\n" + hit + b"END\r\nCLIENT_ERROR line too long\r\n", ran.stdout[-200:])

    def test_the_least_limit_serves_connections(self):
        port, metrics = free_port(), free_port()
        words = [self.program, "-p", str(port), "--metrics", str(metrics), "-l", f"{HOST},127.0.0.2:{port}"]
        script = 'ulimit -S -s "$0" && exec "$@"'
        with Listener(["sh", "-c", script, str(LEAST), *words]) as started:
            self.assertTrue(started.line().startswith(b"mcserver: listening on "))
            started.line()
            with Peer(port) as peer:
                peer.asks(b"set a 0 0 %d\r\n%s\r\n" % (len(BLOCK), BLOCK), b"STORED\r\n")
                peer.asks(b"get a\r\n", b"VALUE a 0 %d\r\n%s\r\nEND\r\n" % (len(BLOCK), BLOCK))
            self.assertEqual(200, told(sent(metrics, b"GET /metrics HTTP/1.1\r\nHost: a\r\n\r\n")).status)

    def test_the_least_limit_is_no_fault_elsewhere(self):
        for words, status in ((["--help"], 0), (["-m", "64m", "-u", "x"], 2), (["-l", "192.0.2.1"], 1), (["--quit", str(free_port())], 1)):
            with self.subTest(words):
                self.assertEqual(status, self.run_with(LEAST, *words).returncode)

"""Where standard error is the journal of systemd, each line begins with its level; elsewhere no line does."""
import os
import socket
import subprocess

from tests.lib.case import ProgramCase
from tests.lib.server import HOST, die_with_parent, free_port

# So soon a line is there, in seconds.
SOON = 5


class JournalStream(ProgramCase):
    def said(self, words, names, lines):
        """The first lines of a run whose standard error is a socket, which JOURNAL_STREAM names as it is or otherwise."""
        ours, theirs = socket.socketpair()
        with ours, theirs:
            file = os.fstat(theirs.fileno())
            stream = names % {"device": file.st_dev, "number": file.st_ino}
            environment = {**os.environ, "JOURNAL_STREAM": stream}
            process = subprocess.Popen(
                [self.program, *words], stdin=subprocess.DEVNULL, stderr=theirs, env=environment, preexec_fn=die_with_parent
            )
            theirs.close()
            ours.settimeout(SOON)
            got = b""
            try:
                while got.count(b"\n") < lines:
                    got += ours.recv(65536)
            finally:
                process.kill()
                process.wait()
            return got.decode().splitlines()

    def test_each_line_has_its_level(self):
        """What is said where all is well is information, what an operator is to look at a warning, and what ends it an error."""
        port = free_port(HOST)
        began, warned = self.said(["-l", "0.0.0.0", "-p", str(port)], "%(device)d:%(number)d", 2)
        self.assertEqual(f"<6>mcserver: listening on 0.0.0.0:{port}, 64 pages, 4 workers", began)
        self.assertTrue(warned.startswith("<4>mcserver: warning: the protocol has no passwords"), warned)
        (taken,) = self.said(["-l", "192.0.2.1"], "%(device)d:%(number)d", 1)
        self.assertEqual("<3>mcserver: cannot listen on 192.0.2.1:11211: the address isn't one of this machine", taken)
        said = self.said(["-S", "-m", "64m"], "%(device)d:%(number)d", 2)
        self.assertEqual(["<3>mcserver: ", "<3>mcserver: "], [line[:13] for line in said])
        (shelves,) = self.said(["--shelves", "3"], "%(device)d:%(number)d", 1)
        self.assertEqual("<3>mcserver: shelves must be a power of two", shelves)

    def test_another_stream_has_none(self):
        """The journal's stream is another file than standard error, as where a service writes to a file of its own."""
        port = free_port(HOST)
        for names in ("%(device)d:1", "1:%(number)d", "%(number)d", "", "%(device)d:%(number)d:0", "x:y"):
            with self.subTest(names):
                (line,) = self.said(["-p", str(port)], names, 1)
                self.assertEqual(f"mcserver: listening on {HOST}:{port}, 64 pages, 4 workers", line)

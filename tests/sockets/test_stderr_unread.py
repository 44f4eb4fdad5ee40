"""Standard error that nobody reads holds nobody up: with -v, what it doesn't take is dropped and counted."""
import re

from tests.lib.abuse import ANSWERED
from tests.lib.case import ProgramCase
from tests.lib.compare import shown
from tests.lib.listening import Listener
from tests.lib.peer import Peer
from tests.lib.server import HOST, MOMENT, free_port

CONNECTIONS = 3000
LISTENS = rb"mcserver: listening on %s:(\d+), 64 pages, 4 workers\n" % re.escape(HOST.encode())
OPENED = rb"mcserver: connection (\d+) from %s:\d+ opened\n" % re.escape(HOST.encode())
CLOSED = rb"mcserver: connection (\d+) closed: the client closed it\n"
DROPPED = rb"mcserver: lines dropped, as standard error wasn't read in time: (\d+)\n"


class StderrUnread(ProgramCase):
    def asked_and_closed(self, port, number):
        with Peer(port, ANSWERED) as peer:
            peer.send(b"get a\r\n")
            peer.is_told(b"END\r\n", f"the answer to connection {number}")

    def counted(self, line, told):
        """How many lines one stands for, of which there are as many as `told` that tell of a connection."""
        if dropped := re.fullmatch(DROPPED, line):
            return int(dropped[1])
        if not (told_of := re.fullmatch(OPENED, line) or re.fullmatch(CLOSED, line)):
            raise AssertionError(f"a line is {shown(line)}")
        told.append(int(told_of[1]))
        return 1

    def test_nobody_reads(self):
        """3,000 connections are opened, asked and closed, each is answered in time, and then what was said is read."""
        port = free_port()
        with Listener([self.program, "-l", HOST, "-p", str(port), "--now", str(MOMENT), "-v"]) as started:
            self.assertRegex(started.line(), LISTENS)
            for number in range(1, CONNECTIONS + 1):
                self.asked_and_closed(port, number)
            lines, told, dropped = 0, [], 0
            while lines < 2 * CONNECTIONS:
                line = started.line()
                lines += self.counted(line, told)
                dropped += line.startswith(b"mcserver: lines dropped")
            self.assertEqual(2 * CONNECTIONS, lines, "lines, those that were dropped too")
            self.assertGreater(dropped, 0, "lines that tell how many were dropped")
            # (the first that are told are the first that came)
            self.assertEqual(set(range(1, 101)), set(told[:200]) & set(range(1, 101)), "of whom the first lines tell")
            self.asked_and_closed(port, CONNECTIONS + 1)
            self.assertRegex(started.line(), OPENED)

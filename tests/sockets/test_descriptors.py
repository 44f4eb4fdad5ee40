"""Few descriptors: where there is none for a connection it ends, and warns where there are fewer than connections may be."""
import re
import time

from tests.lib.abuse import ANSWERED
from tests.lib.case import ProgramCase
from tests.lib.listening import Listener
from tests.lib.peer import answers
from tests.lib.server import HOST, free_port
from tests.lib.wait import until

# Starts a program with so many descriptors.
FEW = ["sh", "-c", 'ulimit -n "$1"; shift; exec "$@"', "sh"]
NONE = rb"mcserver: cannot listen on .*: the system gives too few descriptors \(ulimit -n\)\n"
LISTENS = rb"mcserver: listening on .*\n"
WARNS = b"mcserver: warning: -c allows 101 connections, and the system 100 descriptors (ulimit -n)\n"


class Descriptors(ProgramCase):
    def with_descriptors(self, count, *options):
        self.port = free_port()
        return Listener([*FEW, str(count), self.program, "-p", str(self.port), *options])

    def test_none_for_a_connection(self):
        with self.with_descriptors(12) as started:
            _, said = started.end()
        self.assertTrue(re.fullmatch(NONE, said), said)

    def test_as_many_as_connections(self):
        with self.with_descriptors(100, "-c", "100") as started:
            said = started.line()
            self.assertTrue(until(lambda: answers(HOST, self.port), ANSWERED), "nothing answers")
            time.sleep(0.2)  # (a warning would have come)
            said += started.rest()
        self.assertTrue(re.fullmatch(LISTENS, said), said)

    def test_fewer_than_connections(self):
        with self.with_descriptors(100, "-c", "101") as started:
            said = started.line()
            self.assertEqual(WARNS, started.line())
            said += started.rest()
        self.assertTrue(re.fullmatch(LISTENS, said), said)

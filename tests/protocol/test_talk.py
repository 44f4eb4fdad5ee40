"""A session with a peer that sends a text, and sends no more until it has the answer."""
import subprocess
import time

from tests.lib.case import ProgramCase
from tests.lib.process import SECONDS, TooLate
from tests.lib.talk import Talk

ARGS = ["--stdin", "--now", "1000"]


class Talks(ProgramCase):
    def test_a_peer_that_waits_for_each_answer(self):
        """Nothing is kept back until more input comes, or until the end."""
        with Talk(self.program, ARGS) as talk:
            talk.asks(b"version\r\n", b"VERSION 1.6.0\r\n")
            talk.asks(b"set a 0 0 3\r\nab", b"")
            talk.asks(b"c\r\nget a\r\nge", b"STORED\r\nVALUE a 0 3\r\nabc\r\nEND\r\n")
            talk.asks(b"t b\r\n", b"END\r\n")
            talk.ends()

    def test_time_that_passes_in_a_session(self):
        """The clock is asked at each turn: an item dies between two commands of one session."""
        with Talk(self.program, ["--stdin"]) as talk:
            talk.asks(b"set a 0 2 1\r\nx\r\n", b"STORED\r\n")
            talk.asks(b"set b 0 0 1\r\ny\r\n", b"STORED\r\n")
            talk.asks(b"flush_all 2\r\n", b"OK\r\n")
            talk.asks(b"get b\r\n", b"VALUE b 0 1\r\ny\r\nEND\r\n")
            time.sleep(3)
            talk.asks(b"get a b\r\n", b"END\r\n")
            talk.ends()

    def test_a_quit_while_the_input_stays_open(self):
        """After quit nothing more is read: the program ends though its input doesn't."""
        with Talk(self.program, ARGS) as talk:
            talk.asks(b"version\r\nquit\r\n", b"VERSION 1.6.0\r\n")
            try:
                talk.process.wait(SECONDS)
            except subprocess.TimeoutExpired:
                raise TooLate(f"had not ended after {SECONDS} seconds, as long as its input was open") from None
            talk.ends()

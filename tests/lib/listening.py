"""The program as a process whose lines are read one after another, and command lines on which it ends at once."""
import os
import re
import select
import subprocess
import time

from tests.lib.compare import shown
from tests.lib.process import outcome, started
from tests.lib.server import die_with_parent

# The program ends by a signal, or on a line that it can't follow, and says a line that it is to say, so soon.
ENDS = 5


def ended(program, args, status, said):
    """Fails unless a run ends so, at once, that is to end at once."""
    ran = outcome(started(program, args), ENDS)
    if ran.status != status:
        raise AssertionError(f"the status is {ran.status}, wanted {status}; standard error is {shown(ran.stderr)}")
    if not re.match(said, ran.stderr):
        raise AssertionError(f"standard error is {shown(ran.stderr)}, wanted {shown(said)}")
    if ran.stdout:
        raise AssertionError(f"it wrote {shown(ran.stdout)}")


class Listener:
    """The program that was started by these words, and what it says on standard error."""

    def __init__(self, words):
        self.process = subprocess.Popen(
            words, stdin=subprocess.DEVNULL, stderr=subprocess.PIPE, preexec_fn=die_with_parent, bufsize=0
        )
        self.got = b""

    def line(self):
        """The next line that it says, which comes soon."""
        end = time.monotonic() + ENDS
        while b"\n" not in self.got:
            left = end - time.monotonic()
            if left <= 0 or not select.select([self.process.stderr], [], [], left)[0]:
                raise AssertionError(f"it says no line in {ENDS} seconds; so far {shown(self.got)}")
            piece = os.read(self.process.stderr.fileno(), 65536)
            if not piece:
                raise AssertionError(f"it has ended, and said {shown(self.got)}")
            self.got += piece
        line, _, self.got = self.got.partition(b"\n")
        return line + b"\n"

    def rest(self):
        """What it has said further, once it was killed."""
        self.process.kill()
        rest, self.got = self.got + self.process.stderr.read(), b""
        return rest

    def end(self):
        """Its status and all that it has said further, once it has ended by itself."""
        try:
            status = self.process.wait(ENDS)
        except subprocess.TimeoutExpired:
            raise AssertionError(f"had not ended after {ENDS} seconds") from None
        return status, self.rest()

    def __enter__(self):
        return self

    def __exit__(self, *_):
        self.process.kill()
        self.process.__exit__(None, None, None)

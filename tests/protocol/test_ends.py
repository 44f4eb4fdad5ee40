"""Sessions that end for want of memory, and command lines that are no text."""
import resource
import tempfile

from tests.lib.case import ProgramCase
from tests.lib.compare import shown
from tests.lib.process import outcome, started

ARGS = ["--stdin", "--now", "1000"]
FEW = 32 * 2**20


def in_little_memory():
    resource.setrlimit(resource.RLIMIT_AS, (FEW, FEW))


class Ends(ProgramCase):
    def test_memory_runs_out(self):
        """Sixty items of a megabyte are stored where the process may have 32 of them."""
        with tempfile.TemporaryFile() as given:
            for number in range(60):
                given.write(b"set k%d 0 0 1000000\r\n" % number + b"x" * 1_000_000 + b"\r\n")
            given.seek(0)
            ran = outcome(started(self.program, ARGS, given, preexec_fn=in_little_memory))
        ran.ended(1, b"mcserver: out of memory\n")
        self.assertTrue((b"STORED\r\n" * 60).startswith(ran.stdout), f"it wrote {shown(ran.stdout)}")

    def test_an_argument_that_is_not_text(self):
        ran = outcome(started(self.program, ["--stdin", b"\xff"]))
        ran.ended(2, b"mcserver: a word of the command line isn't UTF-8\n")

"""Streams that fail, fill up or don't block: the session ends, and says why."""
import errno
import os
import tempfile

from tests.lib.case import ProgramCase
from tests.lib.faults import Faults
from tests.lib.process import outcome, started

ARGS = ["--stdin", "--now", "1000"]
TOLD = b"VERSION 1.6.0\r\n"
CANNOT_WRITE, CANNOT_READ = b"mcserver: write fault\n", b"mcserver: read fault\n"


def versions(count):
    """A file that asks so many times for the version."""
    given = tempfile.TemporaryFile()
    given.write(b"version\r\n" * count)
    given.seek(0)
    return given


class Outputs(ProgramCase):
    def to_pipe(self, reads):
        """A session whose output nobody reads after so many bytes."""
        theirs, ours = os.pipe()
        with versions(1_000_000) as given:
            process = started(self.program, ARGS, given, stdout=ours)
            os.close(ours)
            if reads:
                os.read(theirs, reads)
            os.close(theirs)
            outcome(process).ended(1, CANNOT_WRITE)

    def to_full_device(self, args):
        with open("/dev/full", "wb") as full, versions(1) as given:
            outcome(started(self.program, args, given, stdout=full)).ended(1, CANNOT_WRITE)

    def test_a_reader_that_has_gone(self):
        self.to_pipe(0)

    def test_a_reader_that_goes_after_its_first_bytes(self):
        self.to_pipe(10)

    def test_a_device_that_is_full(self):
        self.to_full_device(ARGS)

    def test_help_on_a_device_that_is_full(self):
        self.to_full_device(["--help"])

    def test_an_output_that_does_not_block(self):
        """Where the output's reader is behind the run ends, and what it wrote is a beginning."""
        theirs, ours = os.pipe()
        os.set_blocking(ours, False)
        with versions(100_000) as given:
            process = started(self.program, ARGS, given, stdout=ours)
            os.close(ours)
            ran = outcome(process)
        with open(theirs, "rb") as it:
            wrote = it.read()
        ran.ended(1, CANNOT_WRITE)
        self.assertTrue((TOLD * 100_000).startswith(wrote), "what it wrote is no beginning")


class Inputs(ProgramCase):
    def test_an_input_that_cannot_be_read(self):
        folder = os.open("/", os.O_RDONLY | os.O_DIRECTORY)
        try:
            ran = outcome(started(self.program, ARGS, folder))
        finally:
            os.close(folder)
        ran.ended(1, CANNOT_READ)
        ran.wrote(b"")

    def test_an_input_that_does_not_block(self):
        """Where nothing is there to be read the run ends, though more may come: what came before is answered."""
        theirs, ours = os.pipe()
        os.set_blocking(theirs, False)
        os.write(ours, b"version\r\n")
        try:
            ran = outcome(started(self.program, ARGS, theirs))
        finally:
            os.close(ours)
            os.close(theirs)
        ran.ended(1, CANNOT_READ)
        ran.wrote(TOLD)


class Interrupted(ProgramCase):
    def test_reads_and_writes_that_are_interrupted(self):
        """Each second read and write is interrupted by a signal: it is retried, and the session answers all."""
        with Faults() as faults, versions(100_000) as given:
            for stream in ("stdin", "stdout"):
                faults.fail(stream, [errno.EINTR], every=2)
            ran = outcome(started(self.program, ARGS, given, env=faults.environment))
            ran.ended()
            ran.wrote(TOLD * 100_000)
            for stream in ("stdin", "stdout"):
                self.assertLess(0, faults.count(stream), f"no call of {stream} failed")

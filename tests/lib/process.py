"""Runs of the program with standard streams."""
import socket
import subprocess
import tempfile
import threading
from typing import NamedTuple

from tests.lib.compare import same, shown

# A run takes no longer, in seconds, unless a test says so.
SECONDS = 20


class Ran(NamedTuple):
    """How a run ended, and what it wrote."""

    status: int
    stdout: bytes
    stderr: bytes

    def ended(self, status=0, said=b""):
        """Fails unless it ended so, and said this on standard error."""
        same(said, self.stderr, "standard error")
        if self.status != status:
            raise AssertionError(f"the status is {self.status}, wanted {status}; standard error is {shown(self.stderr)}")

    def wrote(self, wanted):
        """Fails unless it wrote this."""
        same(wanted, self.stdout, "output")


class TooLate(AssertionError):
    """A run that hadn't ended in time."""


def started(program, args, stdin=subprocess.DEVNULL, **streams):
    """Starts the program; what it writes is read, unless it goes elsewhere."""
    return subprocess.Popen([program, *args], **{"stdin": stdin, "stdout": subprocess.PIPE, "stderr": subprocess.PIPE, **streams})


def outcome(process, seconds=SECONDS):
    """Waits for the end of a run that was started."""
    with process:
        try:
            stdout, stderr = process.communicate(timeout=seconds)
        except subprocess.TimeoutExpired:
            process.kill()
            stdout, _ = process.communicate()
            raise TooLate(f"had not ended after {seconds} seconds, and wrote {shown(stdout or b'')}") from None
        return Ran(process.returncode, stdout, stderr)


def run(program, args, stdin, seconds=SECONDS):
    """Runs the program on an input that lies in a file, so that nothing here can stall it."""
    with tempfile.TemporaryFile() as given:
        given.write(stdin)
        given.seek(0)
        return outcome(started(program, args, given), seconds)


def run_in_pieces(program, args, stdin, size, seconds=SECONDS):
    """Runs the program on an input of which each read gives one piece of that size."""
    ours, theirs = socket.socketpair(socket.AF_UNIX, socket.SOCK_SEQPACKET)
    process = started(program, args, theirs)
    theirs.close()

    def feed():
        try:
            for at in range(0, len(stdin), size):
                ours.send(stdin[at : at + size])
        except OSError:
            pass  # (it has ended the session, which its output shows)
        finally:
            ours.close()

    feeding = threading.Thread(target=feed)
    feeding.start()
    try:
        return outcome(process, seconds)
    finally:
        feeding.join()

"""A session on standard input that is talked with: it is sent a text, and no more until it has answered."""
import os
import select
import subprocess

from tests.lib.answers import PIECE, Answers
from tests.lib.process import outcome, started


class Talk(Answers):
    """A session that is talked with."""

    def __init__(self, program, args, **streams):
        super().__init__()
        self.process = started(program, args, subprocess.PIPE, bufsize=0, **streams)

    def send(self, data):
        self.process.stdin.write(data)

    def piece(self, seconds):
        if not select.select([self.process.stdout], [], [], seconds)[0]:
            raise TimeoutError
        return os.read(self.process.stdout.fileno(), PIECE)

    def ends(self):
        """Fails unless it ends well when the input does, and has written nothing more than was read."""
        ran = outcome(self.process)
        ran._replace(stdout=self.got + ran.stdout).wrote(b"")
        ran.ended()

    def __enter__(self):
        return self

    def __exit__(self, *_):
        self.process.kill()
        self.process.__exit__(None, None, None)

"""The one reader of answers: what a connection (peer.py), a session on standard input (talk.py) and a caller of the soak (soak/link.py) are told."""
import time

from tests.lib.compare import difference, shown

# No answer takes longer, unless a test says so.
SECONDS = 20
PIECE = 65536


class Late(AssertionError):
    """An answer that didn't come in time."""


class Answers:
    """What comes of a stream. Each wait is bounded. A kind of stream has `send`, and `piece`, which waits for some bytes."""

    def __init__(self, seconds=SECONDS):
        self.seconds, self.got = seconds, b""

    def send(self, data):
        """Sends all of the data."""
        raise NotImplementedError

    def piece(self, seconds):
        """Waits for some bytes, none of which come where the stream ends; raises TimeoutError if nothing happens in so many seconds."""
        raise NotImplementedError

    def more(self, end):
        """Waits for more bytes: whether there are any before the stream ends."""
        try:
            if (left := end - time.monotonic()) <= 0:
                raise TimeoutError
            piece = self.piece(left)
        except TimeoutError:
            raise Late(f"no answer in {self.seconds} seconds; so far {shown(self.got)}") from None
        self.got += piece
        return bool(piece)

    def take(self, size):
        taken, self.got = self.got[:size], self.got[size:]
        return taken

    def exactly(self, size):
        """So many bytes, or less where the stream ends."""
        end = time.monotonic() + self.seconds
        while len(self.got) < size and self.more(end):
            pass
        return self.take(size)

    def upto(self, mark):
        """The bytes up to the mark and with it, or all where the stream ends."""
        end = time.monotonic() + self.seconds
        while mark not in self.got and self.more(end):
            pass
        at = self.got.find(mark)
        return self.take(len(self.got) if at < 0 else at + len(mark))

    def rest(self):
        """All that comes before the stream ends."""
        end = time.monotonic() + self.seconds
        while self.more(end):
            pass
        return self.take(len(self.got))

    def asks(self, sent, wanted):
        """Sends, and fails unless the answer is the wanted one."""
        self.send(sent)
        self.is_told(wanted, f"after {shown(sent)}: answer")

    def is_told(self, wanted, name="answer"):
        """Fails unless what comes is the wanted."""
        got = self.exactly(len(wanted))
        if got != wanted:
            raise AssertionError(difference(name, wanted, got))

"""The one kind of connection: a client that talks in turns, and several of them."""
import contextlib
import socket
import struct
import time

from tests.lib.answers import PIECE, SECONDS, Answers, Late
from tests.lib.server import HOST


class Peer(Answers):
    """A connection that sends and waits."""

    def __init__(self, port, seconds=SECONDS, receives=None, segment=None, host=HOST, source=None):
        super().__init__(seconds)
        self.socket = socket.socket(socket.AF_INET6 if ":" in host else socket.AF_INET)
        self.socket.settimeout(seconds)
        if receives:
            self.socket.setsockopt(socket.SOL_SOCKET, socket.SO_RCVBUF, receives)
        if segment:
            self.socket.setsockopt(socket.IPPROTO_TCP, socket.TCP_MAXSEG, segment)
        try:
            if source:
                self.socket.bind((source, 0))
            self.socket.connect((host, port))
            self.socket.setsockopt(socket.IPPROTO_TCP, socket.TCP_NODELAY, 1)
        except BaseException:
            self.socket.close()
            raise

    def send(self, data):
        self.socket.settimeout(self.seconds)
        self.socket.sendall(data)

    def piece(self, seconds):
        self.socket.settimeout(seconds)
        return self.socket.recv(PIECE)

    def is_closed(self):
        """Whether the server closes it in time."""
        try:
            while self.more(time.monotonic() + self.seconds):
                self.got = b""
            return True
        except ConnectionError:
            return True
        except Late:
            return False

    def reset(self):
        """Ends it at once, without what is still to be sent or read."""
        self.socket.setsockopt(socket.SOL_SOCKET, socket.SO_LINGER, struct.pack("ii", 1, 0))
        self.socket.close()

    def close(self):
        self.socket.close()

    def __enter__(self):
        return self

    def __exit__(self, *_):
        self.close()


@contextlib.contextmanager
def clients(port, count, **options):
    """So many connections, which are closed at the end."""
    made = []
    try:
        for _ in range(count):
            made.append(Peer(port, **options))
        yield made
    finally:
        for it in made:
            it.close()


def answers(host, port, seconds=2):
    """Whether a server answers at this address."""
    try:
        with Peer(port, seconds, host=host) as it:
            it.send(b"get a\r\n")
            return it.exactly(5) == b"END\r\n"
    except (OSError, Late):
        return False

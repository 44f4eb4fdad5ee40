"""Many connections at once that each send a stream and read to its end."""
import selectors
import socket
import time

from tests.lib.answers import PIECE, SECONDS
from tests.lib.peer import Peer


class Stream:
    """A connection of many: what is still to be sent, and what came."""

    def __init__(self, port, data, size):
        self.left, self.size, self.got, self.end = memoryview(data), size or len(data) or 1, [], None
        self.socket = Peer(port).socket
        self.socket.setblocking(False)

    def sends(self):
        """Sends one piece, or says that all is sent. Gives whether more is to be sent."""
        try:
            if self.left:
                self.left = self.left[self.socket.send(self.left[: self.size]) :]
                return True
            self.socket.shutdown(socket.SHUT_WR)
        except BlockingIOError:
            return True
        except OSError:
            pass  # (the server has closed it, which a read shows)
        return False

    def reads(self):
        try:
            piece = self.socket.recv(PIECE)
        except BlockingIOError:
            return
        except ConnectionError:
            self.end = "reset"
            return
        self.got.append(piece)
        if not piece:
            self.end = "closed"

    def step(self, chooser, events):
        if events & selectors.EVENT_READ:
            self.reads()
        if self.end:
            chooser.unregister(self.socket)
        elif events & selectors.EVENT_WRITE and not self.sends():
            chooser.modify(self.socket, selectors.EVENT_READ, self)


def exchange(port, streams, size=None, seconds=SECONDS):
    """Sends each stream on a connection of its own, all at once, in pieces of that size, and then no more; reads each to its end.

    Gives of each what came, and how it ended: "closed", "reset" or "late"."""
    made, end = [], time.monotonic() + seconds
    with selectors.DefaultSelector() as chooser:
        try:
            for data in streams:
                made.append(Stream(port, data, size))
                chooser.register(made[-1].socket, selectors.EVENT_READ | selectors.EVENT_WRITE, made[-1])
            while chooser.get_map() and (left := end - time.monotonic()) > 0:
                for key, events in chooser.select(left):
                    key.data.step(chooser, events)
        finally:
            for it in made:
                it.socket.close()
    return [(b"".join(it.got), it.end or "late") for it in made]

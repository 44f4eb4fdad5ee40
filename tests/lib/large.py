"""Clients that leave most of an answer with the server, and one whose answers are those of the model."""
import contextlib
import time

from tests.lib import model
from tests.lib.compare import shown
from tests.lib.peer import Peer
from tests.lib.server import MOMENT

# With so little room at the client and so short segments the system takes some 90 KB of an answer, and the server keeps the rest.
RECEIVES, SEGMENT = 4096, 1000


def block(number, length):
    """A block in which every 16 bytes name it: no part of another looks the same."""
    stamp = b"%07d.%07d;" % (number, length)
    return (stamp * (length // len(stamp) + 1))[:length]


def setting(key, data):
    return b"set %s 0 0 %d\r\n%s\r\n" % (key, len(data), data)


class Told:
    """A client that asks, and fails unless the answer is the model's, which knows nothing of other clients."""

    def __init__(self, peer, pages, greatest):
        self.peer, self.session = peer, model.Session(b"", MOMENT, pages, greatest)

    def answer(self, sent):
        """What the model answers, and does."""
        self.session.stream, self.session.at, self.session.out = sent, 0, []
        return self.session.run()

    def asks(self, sent):
        wanted = self.answer(sent)
        self.peer.asks(sent, wanted)
        return wanted


class Unread(Peer):
    """A client that asks, and reads no more of the answer than its first bytes."""

    def __init__(self, port, sent, seconds=20, receives=RECEIVES):
        super().__init__(port, seconds, receives, SEGMENT)
        self.send(sent)

    def begins(self, seconds=20):
        """Waits for the first bytes, and gives whether they came: the answer is decided then."""
        end = time.monotonic() + seconds
        with contextlib.suppress(AssertionError, ConnectionError):
            while not self.got and self.more(end):
                pass
        return bool(self.got)

    def reads_slowly(self, wanted, pause):
        """Reads 64 KB at a time, and fails unless they are the wanted."""
        at, end = 0, time.monotonic() + self.seconds
        while at < len(wanted):
            if not self.got and not self.more(end):
                break
            got = self.take(min(len(self.got), len(wanted) - at))
            if wanted[at : at + len(got)] != got:
                raise AssertionError(f"from byte {at} on it is told {shown(got)}, and wanted {shown(wanted[at : at + len(got)])}")
            at += len(got)
            time.sleep(pause)
        if at < len(wanted):
            raise AssertionError(f"it is told {at} bytes of {len(wanted)}")


def kept_bytes(peers, lengths):
    """How many bytes of answers of these lengths the server itself keeps: all but what came, and what the system holds for either side."""
    kept = [length - len(peer.got) for peer, length in zip(peers, lengths)]
    places = {}
    for at, peer in enumerate(peers):
        own, other = peer.socket.getsockname()[1], peer.socket.getpeername()[1]
        places[own, other], places[other, own] = (at, 1), (at, 0)
    with open("/proc/net/tcp", encoding="ascii") as file:
        for line in list(file)[1:]:
            words = line.split()
            ports = tuple(int(it.rpartition(":")[2], 16) for it in words[1:3])
            if ports in places:
                at, which = places[ports]
                kept[at] -= int(words[4].split(":")[which], 16)
    return kept

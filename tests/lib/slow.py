"""Clients that send a byte now and then, read slowly, time out and come again, or send while the server stands still; and honest ones."""
import contextlib
import os
import signal
import threading
import time

from tests.lib.peer import Peer, clients

# What honest clients set and get, in turn.
LENGTHS = [1, 100, 20_000, 200_000, 1_000_000]
# An honest client waits so many seconds for an answer.
PATIENCE = 36


class Honest(threading.Thread):
    """A client that sets and gets blocks of all lengths, and notes how long each took."""

    def __init__(self, port, name, seconds):
        super().__init__(daemon=True)
        self.port, self.key, self.seconds, self.times, self.fault = port, b"honest%d" % name, seconds, [], None

    def run(self):
        try:
            end = time.monotonic() + self.seconds
            with Peer(self.port, PATIENCE) as peer:
                while time.monotonic() < end:
                    for length in LENGTHS:
                        self.turn(peer, length)
        except (OSError, AssertionError) as error:
            self.fault = error

    def turn(self, peer, length):
        block = b"h" * length
        asked = [
            (b"set %s 0 0 %d\r\n%s\r\n" % (self.key, length, block), b"STORED\r\n"),
            (b"get %s\r\n" % self.key, b"VALUE %s 0 %d\r\n%s\r\nEND\r\n" % (self.key, length, block)),
        ]
        for sent, wanted in asked:
            began = time.monotonic()
            peer.asks(sent, wanted)
            self.times.append(time.monotonic() - began)


class Sets(threading.Thread):
    """A client that sets blocks of one length, and notes how long each took."""

    def __init__(self, port, count, length):
        super().__init__(daemon=True)
        self.port, self.count, self.sent, self.times, self.fault = port, count, b"set of 0 0 %d\r\n%s\r\n" % (length, b"s" * length), [], None

    def run(self):
        try:
            with Peer(self.port, PATIENCE) as peer:
                for _ in range(self.count):
                    time.sleep(0.1)
                    began = time.monotonic()
                    peer.asks(self.sent, b"STORED\r\n")
                    self.times.append(time.monotonic() - began)
        except (OSError, AssertionError) as error:
            self.fault = error


class Drips(threading.Thread):
    """Clients that begin a block and send a byte of it each 1, 3 or 10 seconds. One that was closed comes again."""

    def __init__(self, port, count, length, periods=(1, 3, 10)):
        super().__init__(daemon=True)
        self.port, self.line, self.over, self.closed = port, b"set drip 0 0 %d\r\n" % length, threading.Event(), 0
        self.periods = periods
        self.links = [self.begin(at) for at in range(count)]

    def begin(self, at):
        peer = Peer(self.port)
        peer.send(self.line)
        return [time.monotonic() + self.periods[at % len(self.periods)], peer]

    def run(self):
        while not self.over.wait(0.05):
            for at, (due, peer) in enumerate(self.links):
                if time.monotonic() >= due:
                    try:
                        peer.send(b"d")
                        self.links[at][0] = time.monotonic() + self.periods[at % len(self.periods)]
                    except OSError:
                        self.closed += 1
                        peer.close()
                        with contextlib.suppress(OSError):
                            self.links[at] = self.begin(at)

    def __enter__(self):
        self.start()
        return self

    def __exit__(self, *_):
        self.over.set()
        self.join()
        for _, peer in self.links:
            peer.close()


class TimesOut(threading.Thread):
    """A client that asks for a block or begins one, gives up after half a second, and comes again. It breaks every second connection."""

    def __init__(self, port, sent):
        super().__init__(daemon=True)
        self.port, self.sent, self.over, self.came = port, sent, threading.Event(), 0

    def run(self):
        while not self.over.is_set():
            with contextlib.suppress(OSError):
                peer = Peer(self.port, 0.5)
                with contextlib.suppress(OSError):
                    peer.send(self.sent)
                self.over.wait(0.5)
                self.came += 1
                if self.came % 2:
                    peer.reset()
                else:
                    peer.close()


class Reader:
    """A client that asks for a block again and again, and reads so many bytes a second, or as many as come; it notes when each was whole."""

    def __init__(self, peer, pace):
        self.socket, self.pace, self.began, self.got, self.asked, self.is_closed = peer.socket, pace, time.monotonic(), 0, 0, False
        self.whole = []
        self.socket.setblocking(False)

    def turn(self, room, answer):
        """Reads what is due, and asks ahead for two answers."""
        while self.asked * answer < self.got + 2 * answer:
            self.socket.send(b"get large\r\n")
            self.asked += 1
        due = len(room) if self.pace is None else int(self.pace * (time.monotonic() - self.began)) - self.got
        if due <= 0:
            return
        count = self.socket.recv_into(room[: min(due, len(room))])
        self.is_closed = count == 0
        self.got += count
        if self.got // answer > len(self.whole):
            self.whole.append(time.monotonic())

    def times(self):
        """How long each block took since the one before was whole."""
        return [after - before for before, after in zip([self.began, *self.whole], self.whole)]


def readers(paces, port, answer, seconds):
    """Has clients read for so many seconds, and gives them."""
    room = memoryview(bytearray(2**17))
    with clients(port, len(paces)) as peers:
        made = [Reader(peer, pace) for peer, pace in zip(peers, paces)]
        end = time.monotonic() + seconds
        while time.monotonic() < end:
            for it in made:
                if not it.is_closed:
                    try:
                        it.turn(room, answer)
                    except BlockingIOError:
                        pass
                    except OSError:
                        it.is_closed = True
            time.sleep(0.005)
        return made


class Upload(threading.Thread):
    """A client that sends a block in two parts, and notes how long the second took to be stored, or why it wasn't."""

    FIRST, BLOCK = 100_000, b"b" * 1_000_000

    def __init__(self, peer, key):
        super().__init__(daemon=True)
        self.peer, self.took, self.fault = peer, None, None
        peer.send(b"set %s 0 0 %d\r\n%s" % (key, len(self.BLOCK), self.BLOCK[: self.FIRST]))

    def run(self):
        began = time.monotonic()
        try:
            self.peer.asks(self.BLOCK[self.FIRST :] + b"\r\n", b"STORED\r\n")
            self.took = time.monotonic() - began
        except (OSError, AssertionError) as error:
            self.fault = error


def uploads(server, count, seconds):
    """Has clients send a block each, while the server stands still for so many seconds, and gives them."""
    with clients(server.port, count, seconds=30) as peers:
        made = [Upload(peer, b"block%d" % at) for at, peer in enumerate(peers)]
        os.kill(server.pid, signal.SIGSTOP)
        try:
            time.sleep(seconds)
        finally:
            os.kill(server.pid, signal.SIGCONT)
        for it in made:
            it.start()
        for it in made:
            it.join(60)
        return made

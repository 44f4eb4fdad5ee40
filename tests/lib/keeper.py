"""Clients that store and read items of their own while calls of the server fail, and know what each item may be.

A connection that a fault closed is made again. What was asked on it may or may not be done: its item has the old value or the new one."""
import threading
import time

from tests.lib.peer import Peer

KEYS = 4
STORED = b"STORED\r\n"


class Keeper(threading.Thread):
    """A client with keys of its own, which goes on until it is asked to stop."""

    def __init__(self, port, number, seconds, size, is_behind):
        super().__init__(daemon=True)
        self.port, self.number, self.seconds, self.size = port, number, seconds, size
        self.over, self.peer, self.fault = threading.Event(), None, None
        self.items = {b"k%d.%d" % (number, at): {None} for at in range(KEYS)}
        self.asked, self.closings, self.slowest = 0, 0, 0.0
        self.is_behind = is_behind

    def run(self):
        try:
            while not self.over.is_set():
                self.turn()
        except AssertionError as error:
            self.fault = error
        finally:
            self.close()

    def turn(self):
        """Makes a connection if there is none, and asks once; a connection that fails is given up."""
        began = time.monotonic()
        try:
            if self.peer is None:
                self.peer = Peer(self.port, self.seconds)
            key = list(self.items)[self.asked % KEYS]
            self.store(key)
            self.read(key)
            self.asked += 1
        except (ConnectionError, EOFError):
            self.closings += 1
            self.close()
            time.sleep(0.01)
        self.slowest = max(self.slowest, time.monotonic() - began)

    def store(self, key):
        block = b"%d-" % self.asked + b"x" * self.size
        self.items[key] = self.items[key] | {block}
        self.peer.send(b"set %s 0 0 %d\r\n%s\r\n" % (key, len(block), block))
        self.is_told(STORED)
        self.items[key] = {block}

    def read(self, key):
        """Reads an item, which then has the one value that was told."""
        self.peer.send(b"version\r\n" * self.is_behind + b"get %s\r\n" % key)
        if self.is_behind and not (line := self.line()).startswith(b"VERSION "):
            raise AssertionError(f"the answer to version is {line}")
        head = self.line()
        if head == b"END\r\n":
            found = None
        else:
            words = head.split()
            if words[:2] != [b"VALUE", key]:
                raise AssertionError(f"the answer to a get of {key} begins with {head}")
            found = self.exactly(int(words[3]))
            self.is_told(b"\r\nEND\r\n")
        if found not in self.items[key]:
            raise AssertionError(f"item {key} is {found and found[:40]}, and may be {[it and it[:40] for it in self.items[key]]}")
        self.items[key] = {found}

    def is_told(self, wanted):
        got = self.exactly(len(wanted))
        if got != wanted:
            raise AssertionError(f"told {got}, wanted {wanted}")

    def exactly(self, size):
        got = self.peer.exactly(size)
        if len(got) < size:
            raise EOFError("it was closed")
        return got

    def line(self):
        got = self.peer.upto(b"\r\n")
        if not got.endswith(b"\r\n"):
            raise EOFError("it was closed")
        return got

    def close(self):
        if self.peer:
            self.peer.close()
            self.peer = None

    def read_all(self):
        """Reads each item once more, over a new connection."""
        self.peer = Peer(self.port, self.seconds)
        for key in self.items:
            self.read(key)
        self.close()


class Keepers:
    """Several such clients, which run while the block does. What one found wrong is raised at its end, and then all items are read.

    With `is_behind` each get stands behind a version in what is sent."""

    def __init__(self, port, count=12, seconds=20, size=20, is_behind=False, before_reading=lambda: None):
        self.all = [Keeper(port, number, seconds, size, is_behind) for number in range(count)]
        self.before_reading = before_reading

    def asked(self):
        return sum(it.asked for it in self.all)

    def have_all_asked(self):
        return all(it.asked for it in self.all)

    def closings(self):
        return sum(it.closings for it in self.all)

    def slowest(self):
        return max(it.slowest for it in self.all)

    def stop(self):
        for it in self.all:
            it.over.set()
        for it in self.all:
            it.join(it.seconds + 5)
        for it in self.all:
            if it.fault:
                raise AssertionError(f"client {it.number}, after {it.asked} answers: {it.fault}") from it.fault

    def __enter__(self):
        for it in self.all:
            it.start()
        return self

    def __exit__(self, kind, *_):
        self.before_reading()
        self.stop()
        if kind is None:
            for it in self.all:
                it.read_all()

#!/usr/bin/env python3
"""A slow stand-in for the server: the model behind sockets. It shows that the tests over sockets can fail (test_lies.py).

The environment's LIE says in which way it is wrong; without it, it is right. Options as the program's: -p -t -m -I -c --now --idle-timeout,
--buffer-limit, but that -c and the last two are read and not used.
"""
import argparse
import fcntl
import os
import selectors
import signal
import socket
import sys
import time

sys.path.insert(0, os.path.dirname(os.path.dirname(os.path.dirname(os.path.realpath(__file__)))))

from tests.lib import model  # noqa: E402

LIE = os.environ.get("LIE", "")
# Each so many-th answer or write is the wrong one.
EACH = 13
READ = 16384
# Of answers that are longer a lie may send another block, or count them.
LARGE = 65536
# After so many seconds one that hangs up does so.
PATIENCE = 1.5
# The lies by which something lives a second longer.
LONGER = [f"{does} for a second more" for does in ("stores", "swaps", "touches", "reads")] + ["flushes a second later"]
# Asks the system whether the next byte of a socket is the one behind urgent data.
SIOCATMARK = 0x8905


class Turns(model.Session):
    """A session that stops as soon as there is an answer."""

    @property
    def is_open(self):
        return self.stays and not self.out

    @is_open.setter
    def is_open(self, value):
        self.stays = value

    def turn(self, data):
        cut = min(self.at, len(self.stream))
        self.stream, self.at, self.out = self.stream[cut:] + data, self.at - cut, []
        text = self.run()
        if text.endswith(model.TOO_LONG):
            self.stays = False
        return text


class Forgetful(model.Store):
    """A store that doesn't do some of what it answers."""

    count_of = 0

    def write(self, key, flags, expiry, block, reply, may_stay=False):
        Forgetful.count_of += 1
        if Forgetful.count_of % EACH == 0 and key in self.items:
            return reply
        if LIE == "repeats numbers" and self.next_unique > 1:
            self.next_unique -= 1
        return super().write(key, flags, expiry, block, reply, may_stay)


class Longer(model.Store):
    """A store in which an item, a touched one, or what a flush kills lives a second longer than it may, where that is some seconds."""

    def __init__(self, *given):
        super().__init__(*given)
        self.more = 0

    def expiry(self, exptime):
        found = super().expiry(exptime)
        return found + self.more if 1 <= exptime <= 8 else found

    def later(self, lie, call, *given):
        self.more = int(LIE == lie)
        try:
            return call(*given)
        finally:
            self.more = 0

    def store(self, *given):
        return self.later("stores for a second more", super().store, *given)

    def cas(self, *given):
        return self.later("swaps for a second more", super().cas, *given)

    def touch(self, *given):
        return self.later("touches for a second more", super().touch, *given)

    def read(self, *given):
        return self.later("reads for a second more", super().read, *given)

    def flush(self, *given):
        return self.later("flushes a second later", super().flush, *given)


class Late(model.Store):
    """A store that now and then reads what stood before the last write."""

    def __init__(self, now, pages, greatest):
        super().__init__(now, pages, greatest)
        self.before, self.reads = {}, 0

    def write(self, key, *rest, **more):
        if key in self.items:
            self.before[key] = self.items[key]
        return super().write(key, *rest, **more)

    def read(self, key, with_unique, exptime=None):
        self.reads += 1
        item = self.items.get(key)
        if item and key in self.before and self.reads % EACH == 0:
            self.items[key] = self.before[key]
        text = super().read(key, with_unique, exptime)
        if item:
            self.items[key] = item
        return text


class Grudging(model.Store):
    """A store in which a page that a reader still has is no room for a write."""

    links = []

    def takes_chunks(self, size_class, count):
        lent = sum(len(it.out) > LARGE for it in self.links) if size_class == len(model.SIZES) - 1 else 0
        self.pages_left -= lent
        try:
            return super().takes_chunks(size_class, count)
        finally:
            self.pages_left += lent


class Link:
    def __init__(self, taken, store):
        self.socket, self.out, self.ends, self.began = taken, bytearray(), False, time.monotonic()
        self.session = Turns(b"", store.now, store.pages_left, store.greatest)
        self.session.store, self.earlier = store, b""

    def wants(self):
        return selectors.EVENT_WRITE if self.out and LIE != "hoards answers" else selectors.EVENT_READ


class Standin:
    def __init__(self, given):
        self.given, self.answers, self.kept = given, 0, []
        stores = {"forgets writes": Forgetful, "repeats numbers": Forgetful, "reads what was": Late, "counts what is read": Grudging}
        stores |= dict.fromkeys(LONGER, Longer)
        self.store = stores.get(LIE, model.Store)(int(time.time()) if given.now is None else given.now, given.m, given.I)
        self.chooser = selectors.DefaultSelector()
        self.listener = socket.create_server(("127.0.0.1", given.p), backlog=1024)
        self.listener.setblocking(False)
        self.chooser.register(self.listener, selectors.EVENT_READ)

    def accept(self):
        try:
            taken = self.listener.accept()[0]
        except OSError:
            if LIE != "spins":
                self.drop_one()
            return
        taken.setblocking(False)
        taken.setsockopt(socket.IPPROTO_TCP, socket.TCP_NODELAY, 1)
        link = Link(taken, self.store)
        Grudging.links.append(link)
        self.chooser.register(taken, selectors.EVENT_READ, link)

    def drop_one(self):
        """Closes a connection that has no descriptor, with one that is kept for that."""
        self.spare.close()
        try:
            self.listener.accept()[0].close()
        except OSError:
            pass
        self.spare = open("/dev/null")

    def answered(self, link, text):
        """What is sent for an answer: the answer, unless it is a lie's turn."""
        self.answers += 1
        if not text or self.answers % EACH:
            return text
        if LIE == "drops answers":
            return b""
        if LIE == "doubles answers":
            return text * 2
        if LIE == "answers before":
            text, link.earlier = link.earlier, text
        return text

    def read(self, link):
        try:
            data = link.socket.recv(READ)
        except BlockingIOError:
            return
        except OSError:
            if LIE == "dies of a reset":
                sys.exit(1)
            return self.close(link)
        if not data:
            link.ends = True
        if LIE == "stalls" and data and not data.endswith(b"\n"):
            time.sleep(3)
        if LIE == "stalls at urgent data" and fcntl.ioctl(link.socket, SIOCATMARK, bytes(4)) != bytes(4):
            time.sleep(3)
        if LIE == "loses pieces" and data and not data.endswith(b"\n"):
            data = b""
        if LIE == "keeps input":
            self.kept.append(data * 16)
        self.turns(link, data)

    def turns(self, link, data=b""):
        text = True
        if self.given.now is None:
            self.store.now = int(time.time())
        while text and not link.out and link.socket.fileno() >= 0:
            while text and (len(link.out) < READ or LIE == "hoards answers"):
                text = link.session.turn(data)
                data = b""
                link.out += self.answered(link, text)
            self.write(link)

    def reads_again(self, link):
        """Has what waits of a block be of the item as it is now, where it is long enough."""
        keys = [key for key, item in self.store.items.items() if len(link.out) > LARGE and len(item.block) > len(link.out)]
        for key in keys[:1]:
            end = len(link.out) - len(b"\r\nEND\r\n")
            link.out[:end] = self.store.items[key].block[-end:]

    def write(self, link):
        if LIE == "reads as it sends":
            self.reads_again(link)
        try:
            while link.out:
                del link.out[: link.socket.send(link.out[:65536])]
        except BlockingIOError:
            return
        except OSError:
            return self.close(link)
        if link.ends or not link.session.stays:
            self.close(link)

    def close(self, link):
        self.chooser.unregister(link.socket)
        if link in Grudging.links:
            Grudging.links.remove(link)
        if LIE == "keeps answers":
            self.kept.append(link.out)
        if LIE == "keeps descriptors":
            self.kept.append(link.socket.dup())
        link.socket.close()

    def hang_up(self):
        """Closes the connections that have been there for long."""
        for key in list(self.chooser.get_map().values()):
            if key.data and time.monotonic() - key.data.began > PATIENCE:
                self.close(key.data)

    def run(self):
        self.spare, last = open("/dev/null"), time.monotonic()
        while True:
            ready = self.chooser.select({"never rests": 0, "hangs up": 0.1}.get(LIE))
            for key, events in reversed(ready) if LIE == "serves the last first" else ready:
                if key.data:
                    self.serve(key.data, events)
                else:
                    self.accept()
            if LIE == "hangs up":
                self.hang_up()
            if LIE == "leaves when stopped" and time.monotonic() - last > 1.5:
                for key in list(self.chooser.get_map().values()):
                    if key.data:
                        self.close(key.data)
            last = time.monotonic()

    def serve(self, link, events):
        if events & selectors.EVENT_WRITE:
            self.write(link)
            if not link.out and link.session.stays and link.socket.fileno() >= 0 and not link.ends:
                self.turns(link)
        else:
            self.read(link)
        if link.socket.fileno() >= 0:
            self.chooser.modify(link.socket, link.wants(), link)


def main():
    parser = argparse.ArgumentParser()
    parser.add_argument("--now", type=int)
    parser.add_argument("--idle-timeout", type=int, default=0)
    parser.add_argument("--buffer-limit", type=int, default=64)
    for name, default in (("-p", 11211), ("-t", 4), ("-m", 64), ("-I", model.GREATEST), ("-c", 1024)):
        parser.add_argument(name, type=int, default=default)
    if LIE == "stays":
        for which in (signal.SIGTERM, signal.SIGINT):
            signal.signal(which, signal.SIG_IGN)
    Standin(parser.parse_args()).run()


if __name__ == "__main__":
    main()

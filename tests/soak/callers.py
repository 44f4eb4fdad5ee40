"""Callers, each with keys of its own, so that it knows what each answer is to be. A visit is one connection."""
import random
import re
import socket
import threading
import time
import traceback

from tests.lib.compare import shown
from tests.soak.link import Link, Wrong, value_line

# Items of this many seconds are looked for again when so many have gone by.
BRIEF, GONE = 1, 3
SIZES = [0, 1, 10, 50, 100, 200, 400, 800, 1500, 3000, 6000]
LARGE_SIZES = [20_000, 60_000, 150_000, 400_000, 1_000_000]
# Blocks of several pages, where items may have so many.
PAGED_SIZES = [1_200_000, 3_000_000, 7_000_000]


class Shared:
    """What the callers share: when they pause and end, what they counted, and what went wrong."""

    def __init__(self, address, callers, greatest):
        self.address, self.greatest = address, greatest
        self.sizes = [*LARGE_SIZES, *(size for size in PAGED_SIZES if size + 1000 < greatest)]
        self.pausing, self.ending = threading.Event(), threading.Event()
        self.paused, self.going = threading.Barrier(callers + 1), threading.Barrier(callers + 1)
        self.lock = threading.Lock()
        self.answers = self.links = self.counted = self.swapped = 0
        self.wrong = []

    def fault(self, text):
        with self.lock:
            self.wrong.append(text)
            if len(self.wrong) <= 10:
                print(f"WRONG\n{text}", flush=True)


class Caller(threading.Thread):
    """A thread that asks, with keys of its own and the items that they must have."""

    def __init__(self, number, shared, is_memcached):
        super().__init__(daemon=True)
        self.caller, self.shared, self.is_memcached = number, shared, is_memcached
        self.dice = random.Random(number)
        self.small = [(b"%d:small:%d" % (number, i), SIZES[i % len(SIZES)]) for i in range(220)]
        self.large = [(b"%d:large:%d" % (number, i), size) for i, size in enumerate(shared.sizes)]
        self.numbers = [b"%d:number:%d" % (number, i) for i in range(10)]
        self.forget()
        self.idle = []

    def forget(self):
        """Everything was flushed."""
        self.items, self.brief, self.next_brief = {}, [], 0
        self.answers = self.counted = self.swapped = self.last_count = self.links = 0

    def run(self):
        self.guarded(self.fill)
        try:
            while True:
                self.guarded(self.visit)
                if self.shared.pausing.is_set() and self.pause():
                    return
        except threading.BrokenBarrierError:
            pass

    def fill(self):
        """Sets all its keys, so that the store has its pages from the start."""
        link = Link(self.shared.address)
        for key, size in [*self.small, *self.large]:
            link.ask(self.stored(b"set", key, (0, bytes(size))), b"STORED\r\n")
        link.ask(b"delete %s\r\n" * len(self.small) % tuple(key for key, _ in self.small), b"DELETED\r\n" * len(self.small))
        link.close()

    def guarded(self, call):
        """Makes a call; what goes wrong is kept, and then no key of this caller is known any more."""
        try:
            call()
        except Wrong as wrong:
            self.lost(str(wrong))
        except OSError as error:
            where = ", ".join(f"{it.name} at line {it.lineno}" for it in traceback.extract_tb(error.__traceback__)[-4:])
            self.lost(f"{type(error).__name__}: {error}, in {where}")

    def lost(self, text):
        self.shared.fault(f"caller {self.caller}: {text}")
        self.items, self.brief = dict.fromkeys([*(key for key, _ in self.small), *self.numbers]), []
        time.sleep(0.2)

    def pause(self):
        """Hands over the counts, closes what is idle, and goes on when all is flushed; says whether this is the end."""
        is_end = self.shared.ending.is_set()
        for link in self.idle:
            link.close()
        self.idle = []
        with self.shared.lock:
            self.shared.answers += self.answers
            self.shared.links += self.links
            self.shared.counted += self.counted
            self.shared.swapped += self.swapped
        self.forget()
        self.shared.paused.wait()
        self.shared.going.wait()
        return is_end

    # ---- a visit

    def visit(self):
        link = Link(self.shared.address)
        self.links += 1
        try:
            for _ in range(self.dice.randrange(1, 40)):
                self.dice.choices([self.batch, self.large_item, self.count, self.swap, self.brief_item], [20, 1, 4, 3, 2])[0](link)
            self.leave(link)
        except BaseException:
            link.close()
            raise

    def batch(self, link):
        """Sends some commands together, and compares all the answers."""
        asked = [self.dice.choice(self.COMMANDS)(self) for _ in range(self.dice.randrange(1, 20))]
        if not self.is_memcached:  # (it may lose the answers before a fault in one read)
            asked.insert(self.dice.randrange(len(asked)), self.refused())
        link.ask(b"".join(sent for sent, _ in asked), b"".join(wanted for _, wanted in asked))
        self.answers += len(asked)

    def a_key(self):
        return self.dice.choice(self.small)

    def a_block(self, size):
        """Gives a block of about the size, so that a key's items keep to one or two classes of chunks."""
        size -= self.dice.randrange(size // 10 + 1)
        return bytes([self.dice.randrange(256)]) * (size // 2) + self.dice.randbytes(size - size // 2)

    def stored(self, name, key, item, tail=b""):
        return b"%s %s %d 0 %d%s\r\n%s\r\n" % (name, key, item[0], len(item[1]), tail, item[1])

    def set(self):
        key, size = self.a_key()
        self.items[key] = (self.dice.randrange(2**32), self.a_block(size))
        return self.stored(b"set", key, self.items[key]), b"STORED\r\n"

    def set_quietly(self):
        key, size = self.a_key()
        self.items[key] = (self.dice.randrange(2**32), self.a_block(size))
        return self.stored(b"set", key, self.items[key], b" noreply"), b""

    def add_or_replace(self):
        key, size = self.a_key()
        if self.items.get(key, ()) is None:
            return self.set()
        name, item = self.dice.choice([b"add", b"replace"]), (7, self.a_block(size))
        stores = (key in self.items) == (name == b"replace")
        if stores:
            self.items[key] = item
        return self.stored(name, key, item), b"STORED\r\n" if stores else b"NOT_STORED\r\n"

    def append_or_prepend(self):
        key, size = self.a_key()
        item = self.items.get(key)
        if not item or len(item[1]) > size:
            return self.set()
        name, more = self.dice.choice([b"append", b"prepend"]), self.a_block(min(size, 20))
        self.items[key] = (item[0], item[1] + more if name == b"append" else more + item[1])
        return self.stored(name, key, (0, more)), b"STORED\r\n"

    def get(self):
        keys = [key for key, _ in self.dice.sample(self.small, self.dice.choice([1, 1, 1, 2, 5, 50]))]
        keys = [key for key in keys if self.items.get(key, ()) is not None]
        name = self.dice.choice([b"get", b"get", b"gat 0"])
        found = b"".join(value_line(key, self.items[key]) for key in keys if key in self.items)
        return b"%s %s\r\n" % (name, b" ".join([*keys, b"none"])), found + b"END\r\n"

    def delete(self):
        key, _ = self.a_key()
        if self.items.get(key, ()) is None:
            return self.set()
        return b"delete %s\r\n" % key, b"DELETED\r\n" if self.items.pop(key, None) else b"NOT_FOUND\r\n"

    def touch(self):
        key, _ = self.a_key()
        if self.items.get(key, ()) is None:
            return self.set()
        return b"touch %s 10000\r\n" % key, b"TOUCHED\r\n" if key in self.items else b"NOT_FOUND\r\n"

    def number(self):
        key, by = self.dice.choice(self.numbers), self.dice.randrange(1000)
        item = self.items.get(key)
        if not item or self.dice.random() < 0.05:
            self.items[key] = (0, b"%d" % self.dice.randrange(10**9))
            return self.stored(b"set", key, self.items[key]), b"STORED\r\n"
        self.items[key] = (0, b"%d" % (int(item[1]) + by))
        return b"incr %s %d\r\n" % (key, by), self.items[key][1] + b"\r\n"

    def refused(self):
        return self.dice.choice(
            [
                (b"no such command\r\n", b"ERROR\r\n"),
                (b"get %s\r\n" % (b"k" * 251), b"CLIENT_ERROR bad command line format\r\n"),
                (b"set none 0 0 1\r\nxxx", b"CLIENT_ERROR bad data chunk\r\n"),
                (b"incr none 1\r\n", b"NOT_FOUND\r\n"),
                (b"incr none x\r\n", b"CLIENT_ERROR invalid numeric delta argument\r\n"),
            ]
        )

    COMMANDS = [set, set, get, get, get, set_quietly, add_or_replace, append_or_prepend, delete, touch, number]

    def large_item(self, link):
        """Sets a large item and gets it, or is refused one that is too large."""
        if self.dice.random() < 0.1:
            size = self.shared.greatest + 1000
            link.ask(b"set none 0 0 %d\r\n" % size + b"x" * size + b"\r\n", b"SERVER_ERROR object too large for cache\r\n")
            return
        key, size = self.dice.choice(self.large)
        item = (1, self.a_block(size))
        link.ask(self.stored(b"set", key, item), b"STORED\r\n")
        link.ask(b"get %s\r\n" % key, value_line(key, item) + b"END\r\n")
        self.answers += 2

    def count(self, link):
        """Adds one to a number of all callers: it is more than this caller was told before."""
        sent = b"incr shared:count 1\r\n"
        seen = link.ask_line(sent)
        if not seen.strip().isdigit() or int(seen) <= self.last_count:
            raise Wrong(f"sent     {shown(sent)}\nexpected a number above {self.last_count}\nseen     {shown(seen)}")
        self.last_count = int(seen)
        self.counted += 1
        self.answers += 1

    def swap(self, link):
        """Adds one to a number of all callers by gets and cas, until the cas stores."""
        for _ in range(1000):
            sent = b"gets shared:swap\r\n"
            head = link.ask_line(sent)
            met = re.fullmatch(rb"VALUE shared:swap 0 (\d+) (\d+)\r\n", head)
            if not met:
                raise Wrong(f"sent     {shown(sent)}\nexpected VALUE shared:swap 0 and two numbers\nseen     {shown(head)}")
            block = link.exactly(int(met[1]))
            link.await_answer(sent, b"\r\nEND\r\n")
            more = b"%d" % (int(block) + 1)
            sent = b"cas shared:swap 0 0 %d %s\r\n%s\r\n" % (len(more), met[2], more)
            seen = link.ask_line(sent)
            self.answers += 2
            if seen == b"STORED\r\n":
                self.swapped += 1
                return
            if seen != b"EXISTS\r\n":
                raise Wrong(f"sent     {shown(sent)}\nexpected STORED or EXISTS\nseen     {shown(seen)}")

    def brief_item(self, link):
        """Sets an item that expires, and looks for one that has."""
        if self.brief and time.monotonic() > self.brief[0][1] + GONE:
            key, _ = self.brief.pop(0)
            link.ask(b"get %s\r\n" % key, b"END\r\n")
        elif len(self.brief) < 200:
            key = b"%d:brief:%d" % (self.caller, self.next_brief % 400)
            self.next_brief += 1
            link.ask(b"set %s 0 %d 5\r\nbrief\r\n" % (key, BRIEF), b"STORED\r\n")
            self.brief.append((key, time.monotonic()))
        self.answers += 1

    # ---- how a visit ends

    def leave(self, link):
        ends = [self.quit, Link.close, Link.reset, self.shut, self.cut_short, self.unread, self.stay]
        self.dice.choice(ends if self.is_memcached else [*ends, self.line_too_long])(link)

    def quit(self, link):
        link.send(b"quit\r\n")
        link.await_end(b"quit\r\n")
        link.close()

    def shut(self, link):
        link.socket.shutdown(socket.SHUT_WR)
        link.await_end(b"the end of the input")
        link.close()

    def cut_short(self, link):
        """Half a set stores nothing."""
        key, _ = self.a_key()
        link.send(b"set %s 0 0 1000\r\n%s" % (key, b"half" * 125))
        self.dice.choice([link.close, link.reset])()

    def unread(self, link):
        key, _ = self.dice.choice(self.large)
        link.send(b"get %s\r\n" % key * 5)
        self.dice.choice([link.close, link.reset])()

    def line_too_long(self, link):
        link.ask(b"get " + b"x" * 65533, b"CLIENT_ERROR line too long\r\n")
        link.await_end(b"a line that is too long")
        link.close()

    def stay(self, link):
        """Stays idle; one that was idle before is used and closed."""
        self.idle.append(link)
        if len(self.idle) > 20:
            old = self.idle.pop(0)
            self.batch(old)
            old.close()

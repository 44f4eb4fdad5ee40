"""Rows of waiting.py that fail: what clients have beside others that hold much of a server's memory, with memcached beside it.

For each row both servers are started anew. Polite clients ask at fixed moments, and wait for an answer for at most so many seconds; who
still waits at a moment doesn't ask then, so what comes late counts as not answered. The row fails where the program answers less than
99 of 100 that memcached answers, where its 99th of a hundred waits is more than 20 ms above memcached's, where it closes a reader and
memcached doesn't, or where the process had more memory than its pages, the limit of buffers and 72 KiB a connection.
"""
import contextlib
import multiprocessing
import threading
import time
from dataclasses import dataclass, field

from tests.lib.peer import Late, Peer
from tests.lib.server import Server

FORK = multiprocessing.get_context("fork")
NAMES = ("memcached", "mcserver")
MIB, KIB = 2**20, 2**10
# What fails a row: fewer answers of a hundred than memcached gives, and waits that are longer than its by more seconds.
SHARE, LONGER = 0.99, 0.020
# `--buffer-limit` by default, and what the bound has for each connection and each item, and for the program itself.
LIMIT, A_CONNECTION, AN_ITEM, ITSELF = 64 * MIB, 72 * KIB, 72, 16 * MIB
# How long a process may take to end.
SECONDS = 60
# A slow client's system takes little of an answer, and its segments are small, so that the server's system takes little of it, too. It
# asks ahead for so many answers.
RECEIVES, SEGMENT, AHEAD = 16384, 1460, 4
# How a refusal begins.
REFUSED = b"SERVER_ERROR"
# Those that send long lines have done so for so many seconds before others come.
BEFORE = 5


# ---- polite clients


@dataclass
class Polite:
    """Clients that each ask again and again, one request every so many seconds, for an item of their own of so many bytes."""

    verb: str
    size: int
    count: int
    period: float
    within: float


class Asker(threading.Thread):
    """One of them. It notes how long each answer took."""

    def __init__(self, port, number, kind):
        super().__init__(daemon=True)
        self.port, self.kind, self.first, self.end, self.asked, self.waits, self.fault = port, kind, 0, 0, 0, [], None
        key, block = b"%s%d" % (kind.verb.encode(), number), b"p" * kind.size
        self.put = b"set %s 0 0 %d\r\n%s\r\n" % (key, len(block), block)
        self.request = self.put if kind.verb == "set" else b"get %s\r\n" % key
        self.wanted = b"STORED\r\n" if kind.verb == "set" else b"VALUE %s 0 %d\r\n%s\r\nEND\r\n" % (key, len(block), block)
        self.peer = Peer(port)
        self.peer.asks(self.put, b"STORED\r\n")

    def run(self):
        try:
            due = self.first
            while due < self.end:
                self.asked += 1
                now = time.monotonic()
                if now < due + self.kind.period:
                    time.sleep(max(0, due - now))
                    self.turn()
                due += self.kind.period
        except AssertionError as error:
            self.fault = error

    def turn(self):
        """Asks once. One that isn't answered in time, is refused, or is closed comes again on another connection."""
        began = time.monotonic()
        try:
            if self.peer is None:
                self.peer = Peer(self.port, self.kind.within)
            self.peer.seconds = self.kind.within
            self.peer.send(self.request)
            got = self.peer.exactly(len(self.wanted))
            if got == self.wanted:
                self.waits.append(time.monotonic() - began)
                return
            if not (self.wanted.startswith(got) or got.startswith(REFUSED[: len(got)])):
                raise AssertionError(f"a wrong answer: {got[:60]}")
        except (OSError, Late):
            pass
        if self.peer:
            self.peer.close()
        self.peer = None


def ask(port, kinds, seconds, ready, begun, results):
    """Has all of them ask for so many seconds once the others have begun, and gives how often they did and what they waited."""
    made = [Asker(port, number, kind) for kind in kinds for number in range(kind.count)]
    ready.set()
    begun.wait()
    first = time.monotonic() + 0.2
    for it in made:
        it.first, it.end = first, first + seconds
        it.start()
    for it in made:
        it.join()
    wrong = next((it.fault for it in made if it.fault), None)
    results.put((sum(it.asked for it in made), [wait for it in made for wait in it.waits], str(wrong) if wrong else None))


# ---- those beside them: each takes the server's port, an event when it has begun, and one when it has to end; it gives how many were closed


def reads(port, begun, over, key, size, count, pace):
    """Ask for an item again and again, and read so many bytes a second of it, or nothing."""
    answer, room = len(b"VALUE %s 0 %d\r\n\r\nEND\r\n" % (key, size)) + size, memoryview(bytearray(2**17))
    links = [Peer(port, receives=RECEIVES, segment=SEGMENT).socket for _ in range(count)]
    began, closed = time.monotonic(), 0
    got, asked = [0] * count, [AHEAD] * count
    for link in links:
        link.sendall(b"get %s\r\n" % key * AHEAD)
        link.setblocking(False)
    time.sleep(1)
    begun.set()
    while not over.wait(0.01):
        due = int((pace or 0) * (time.monotonic() - began))
        for at, link in enumerate(links):
            if link is None or got[at] >= due:
                continue
            with contextlib.suppress(BlockingIOError):
                try:
                    count_now = link.recv_into(room[: min(due - got[at], len(room))])
                    if count_now == 0:
                        raise ConnectionResetError
                    got[at] += count_now
                    if got[at] > (asked[at] - AHEAD + 1) * answer:
                        link.send(b"get %s\r\n" % key)
                        asked[at] += 1
                except (ConnectionError, TimeoutError):
                    closed, links[at] = closed + 1, None
    return closed


def sends_long_lines(port, begun, over, key, length, count):
    """Send one line each that names a key again and again, and read nothing."""
    line = b"get" + b" %s" % key * (length // (len(key) + 1)) + b"\r\n"
    links = []
    for _ in range(count):
        peer = Peer(port, SECONDS, receives=RECEIVES, segment=SEGMENT)
        peer.seconds = 1
        with contextlib.suppress(OSError):
            peer.send(line)
        links.append(peer)
    time.sleep(BEFORE)
    begun.set()
    over.wait()
    return 0


def flushes_later(port, begun, over):
    """Order a flush that comes much later, and order it anew at once."""
    with Peer(port, SECONDS) as peer:
        begun.set()
        while not over.is_set():
            peer.asks(b"flush_all 1000000\r\n", b"OK\r\n")
    return 0


def beside(act, port, begun, over, words, results):
    results.put(act(port, begun, over, *words))


# ---- rows


@dataclass
class Judged:
    """What others do beside the polite, and how many connections and items there are at most."""

    name: str
    title: str
    kinds: list
    act: object
    words: tuple
    items: list = field(default_factory=list)
    fill: int = 0
    connections: int = 0
    pages: int = 48
    seconds: float = 20
    options: list = field(default_factory=list)
    keeps_readers: bool = True


def rows(quick):
    large, huge, long_key = (b"large", 1_000_000), (b"huge", 8_000_000), b"b" * 100
    sets, gets = Polite("set", 200_000, 6, 0.5, 1), Polite("get", 200_000, 6, 0.5, 1)
    huge_sets = Polite("set", 8_000_000, 2, 3, 3)
    middle = [Polite("set", 20_000, 5, 0.5, 1), Polite("get", 20_000, 5, 0.5, 1)]
    small = [Polite("set", 100, 10, 0.05, 1), Polite("get", 100, 10, 0.05, 1)]
    items = 300_000 if quick else 2_000_000
    seconds = 8 if quick else 20
    eight = {"pages": 128, "options": ["-I", "8m"], "seconds": 2 * seconds, "items": [huge]}
    lines = {"items": [(long_key, 100_000)], "seconds": seconds, "keeps_readers": False}
    return [
        Judged("lent-64", "64 that read one item of 1 MB at 100 kB/s: sets of 200 kB", [sets], reads, (*large, 64, 100_000), [large], seconds=seconds, connections=64),
        Judged("lent-150", "150 that read one item of 1 MB at 70 kB/s: gets and sets of 200 kB", [gets, sets], reads, (*large, 150, 70_000), [large],
               seconds=seconds, connections=150),
        Judged("lent-8m", "4 that read 8 MB at 100 kB/s, -I 8m: sets of 8 MB", [huge_sets], reads, (*huge, 4, 100_000), connections=4, **eight),
        Judged("unread-8m", "8 that ask for 8 MB and don't read, -I 8m: sets of 8 MB", [huge_sets], reads, (*huge, 8, None), connections=8, **eight),
        Judged("long-lines", "900 that send one line of 60 kB: sets and gets of 20 kB", middle, sends_long_lines, (long_key, 60_000, 900), connections=900, **lines),
        Judged("longer-lines", "2,500 that send one line of 60 kB: sets and gets of 20 kB", middle, sends_long_lines, (long_key, 60_000, 2500), connections=2500, **lines),
        Judged("later-flushes", f"one that orders a later flush again and again, {items:,} items: sets and gets of 100 bytes", small, flushes_later, (),
               fill=items, pages=1024, seconds=seconds),
    ]


def bound(row):
    """The memory that the process may have."""
    polite = sum(kind.count for kind in row.kinds)
    return row.pages * MIB + LIMIT + A_CONNECTION * (row.connections + 2 * polite) + AN_ITEM * row.fill + ITSELF


@dataclass
class Found:
    """What came of a row at one server."""

    asked: int
    waits: list
    closed: int
    memory: int

    def late(self):
        """The 99th of a hundred waits, in seconds."""
        return self.waits[len(self.waits) * 99 // 100] if self.waits else 0.0

    def text(self):
        return (f"answered {len(self.waits):,} of {self.asked:,}, 99 % in {self.late() * 1000:.1f} ms,"
                f" closed {self.closed}, {self.memory / 1e6:.0f} MB")


def measured(server, row, fill, failure):
    """Has the polite ask while the others do theirs."""
    with Peer(server.port, SECONDS) as peer:
        for key, size in row.items:
            peer.asks(b"set %s 0 0 %d\r\n%s\r\n" % (key, size, b"y" * size), b"STORED\r\n")
    if row.fill:
        fill(server.port, row.fill)
    begun, over, ready, results, closed = FORK.Event(), FORK.Event(), FORK.Event(), FORK.Queue(), FORK.Queue()
    others = FORK.Process(target=beside, args=(row.act, server.port, begun, over, row.words, closed))
    asking = FORK.Process(target=ask, args=(server.port, row.kinds, row.seconds, ready, begun, results))
    try:
        # the polite have their items before the others come
        asking.start()
        if not ready.wait(SECONDS):
            raise failure("the polite could not store their items")
        others.start()
        if not begun.wait(SECONDS):
            raise failure("the others could not begin")
        asked, waits, wrong = results.get(timeout=row.seconds + SECONDS)
        memory = server.memory("VmHWM:")
        over.set()
        gone = closed.get(timeout=SECONDS)
    finally:
        over.set()
        for it in (asking, others):
            if it.pid:
                it.join(5)
                if it.is_alive():
                    it.kill()
                    it.join()
    if wrong or not server.runs():
        raise failure(wrong or "the server ended")
    return Found(asked, sorted(waits), gone, memory)


def faults(row, theirs, ours):
    """What fails the row."""
    if len(ours.waits) < SHARE * len(theirs.waits):
        yield f"it answered {len(ours.waits):,} where memcached answered {len(theirs.waits):,}"
    if ours.late() > theirs.late() + LONGER:
        yield f"99 % took {ours.late() * 1000:.1f} ms where memcached took {theirs.late() * 1000:.1f} ms"
    if row.keeps_readers and ours.closed > theirs.closed:
        yield f"it closed {ours.closed} readers where memcached closed {theirs.closed}"
    if ours.memory > bound(row):
        yield f"it had {ours.memory / 1e6:.0f} MB where at most {bound(row) / 1e6:.0f} MB are promised"


def judged(row, program, fill, failure):
    """Measures both servers and prints a line for each. Whether the program passed."""
    found = {}
    for name in NAMES:
        with Server(name if name == "memcached" else program, pages=row.pages, args=["-c", "16384", *row.options]) as server:
            found[name] = measured(server, row, fill, failure)
        print(f"  {name:12}  {found[name].text()}", flush=True)
    wrong = list(faults(row, found["memcached"], found["mcserver"]))
    for it in wrong:
        print(f"  FAILED        {it}", flush=True)
    return not wrong

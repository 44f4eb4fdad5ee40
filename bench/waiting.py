#!/usr/bin/env python3
"""Measures how long polite clients wait beside others that are not, and prints a table with Debian's memcached beside it.

For each row a server is started anew, first memcached and then the program, and one process asks it for small items over some
connections at once, each with one request under way. Beside it other processes do what the row says. What is printed is the
wait of the polite: the median, the 99th of a hundred, the longest, in milliseconds. Nothing of that fails for being slow.
The rows of judged.py fail where the program answers less, later, or with more memory than it says there; servers and clients have a
real-time priority there, if the system allows it.
The status is 1 where a row failed, an answer was wrong, or a server failed.

The rows drippers, readers and pause print how many requests of others were answered, and how many of them after more than a second,
how many newcomers were refused, and how many connections were closed; the row unread prints memory. The row neighbour prints the waits
of one client that stores new keys as fast as it can, beside threads that are busy; the row refused how many sets a full store refuses.

    bench/waiting.py [--program PATH] [--only NAME ..] [--seconds S] [--quick] [--list]
"""
import argparse
import contextlib
import multiprocessing
import os
import queue
import resource
import select
import signal
import socket
import sys
import tempfile
import time
from dataclasses import dataclass, field

HERE = os.path.dirname(os.path.realpath(__file__))
sys.path.insert(0, os.path.dirname(HERE))

import judged  # noqa: E402
import onehash  # noqa: E402
import refusals  # noqa: E402
import tcp  # noqa: E402
from tests.lib.abuse import sent_as_far  # noqa: E402
from tests.lib.peer import Peer, clients  # noqa: E402
from tests.lib.server import CannotStart, Server  # noqa: E402
from tests.lib.settings import program as built  # noqa: E402
from tests.lib.slow import Drips, Honest, readers, uploads  # noqa: E402
from tests.lib.threads import held  # noqa: E402

NAMES = ("memcached", "mcserver")
POLITE = 50
SMALL, LARGE, HUGE = b"x" * 100, b"y" * 1_000_000, b"y" * 8_000_000
# No answer may take longer; whoever waits so long is counted as not served.
PATIENCE = 60
FORK = multiprocessing.get_context("fork")
# An answer after more seconds is late.
LATE = 1
# How many clients drip, and a byte each in how many seconds; how many honest ones are beside them.
DRIPPERS, PERIOD, HONEST = 60, 3, 6
# How many read slowly, and how many bytes a second; how many fast ones are beside them.
SLOW, PACE, FAST = 100, 400_000, 20
# For so many seconds a server stands still, while so many clients send a block.
STILL, UPLOADS = 7, 40
# How many clients never read, and what they ask for: blocks of so many bytes, so often.
MUTE, UNREAD = 1000, [(1000, 100), (100_000, 4), (1_000_000, 4)]
# How many threads are busy beside a client that stores new keys.
BUSY = 20
# How long it may take, in seconds.
LONG = 300


class Failed(Exception):
    """A server did not do what it was asked for."""


# ---- clients


def connect(port):
    it = socket.create_connection(("127.0.0.1", port), timeout=PATIENCE)
    it.setsockopt(socket.IPPROTO_TCP, socket.TCP_NODELAY, 1)
    return it


def answer(link, end):
    """Reads to the end of one answer."""
    got = b""
    while not got.endswith(end):
        piece = link.recv(1 << 20)
        if not piece:
            raise Failed("a connection was closed")
        got = got[-len(end):] + piece if len(piece) < len(end) else piece
    return got


def put(link, key, value, exptime=0):
    link.sendall(b"set %s 0 %d %d\r\n%s\r\n" % (key, exptime, len(value), value))
    if answer(link, b"\r\n") != b"STORED\r\n":
        raise Failed(f"{key.decode()} was not stored")


def fill(port, count, exptime=0, value=SMALL, first=0):
    """Stores so many items, with no answer to each."""
    with connect(port) as link:
        for start in range(first, first + count, 1000):
            keys = range(start, min(start + 1000, first + count))
            link.sendall(b"".join(b"set f%09d 0 %d %d noreply\r\n%s\r\n" % (key, exptime, len(value), value) for key in keys))
        put(link, b"last", SMALL)


def polite(port, until, waits, verb, ready, begun):
    """Asks for small items over some connections at once, and again when all have answered; notes each wait, until a moment."""
    links = [connect(port) for _ in range(POLITE)]
    for number, link in enumerate(links):
        put(link, b"p%d" % number, SMALL)
    ready.set()
    begun.wait()
    asked, wanted = zip(*(exchange(verb, number) for number in range(POLITE)))
    found = []
    while time.monotonic() < until.value:
        found += waited(links, asked, wanted)
    waits.put(found)


def exchange(verb, number):
    """What a polite client asks for, and what is to be answered."""
    if verb == "set":
        return b"set p%d 0 0 %d\r\n%s\r\n" % (number, len(SMALL), SMALL), b"STORED\r\n"
    return b"get p%d\r\n" % number, b"VALUE p%d 0 %d\r\n%s\r\nEND\r\n" % (number, len(SMALL), SMALL)


def waited(links, asked, wanted):
    """Asks on each connection, and gives how long each answer took, by the moment at which its last byte came."""
    chooser, starts, got, found = select.poll(), {}, {}, []
    for number, link in enumerate(links):
        starts[link.fileno()], got[link.fileno()] = (number, time.monotonic()), b""
        link.sendall(asked[number])
        chooser.register(link, select.POLLIN)
    while starts:
        ready = chooser.poll(PATIENCE * 1000)
        if not ready:
            raise Failed(f"{len(starts)} had no answer in {PATIENCE} seconds")
        for at, _ in ready:
            number, start = starts[at]
            got[at] += links[number].recv(65536)
            if not wanted[number].startswith(got[at]) or not got[at]:
                raise Failed(f"a wrong answer: {got[at][:60]}")
            if got[at] == wanted[number]:
                found.append(time.monotonic() - start)
                chooser.unregister(at)
                del starts[at]
    return found


# ---- what others do meanwhile: each takes the server's port and the moment at which it ends


def pipelines_gets(port, until, request, depth=4):
    """Asks for so many at once, again and again, and reads all that comes."""
    with connect(port) as link:
        link.setblocking(False)
        asked = b""
        while time.monotonic() < until.value:
            asked = asked or request * depth
            readable, writable, _ = select.select([link], [link] if asked else [], [], 0.1)
            with contextlib.suppress(BlockingIOError):
                if writable:
                    asked = asked[link.send(asked):]
                if readable and not link.recv(1 << 20):
                    raise Failed("a connection was closed")


def repeats(port, until, request, end):
    """Asks, waits for the answer, and asks again."""
    with connect(port) as link:
        while time.monotonic() < until.value:
            link.sendall(request)
            answer(link, end)


def flushes(port, until):
    """Empties the store once, when the polite have been at it for a second."""
    time.sleep(1)
    with connect(port) as link:
        link.sendall(b"flush_all\r\n")
        answer(link, b"OK\r\n")


def flushes_later(port, until, dead):
    """Flushes after a million seconds, again and again, each time behind so many items that are dead at once."""
    items = b"".join(b"set dead%d 0 -1 1\r\nx\r\n" % number for number in range(dead))
    with connect(port) as link:
        while time.monotonic() < until.value:
            link.sendall(items + b"flush_all 1000000\r\n")
            answer(link, b"OK\r\n")


def grows(port, until):
    """Stores new keys until the end."""
    first = 100_000_000
    while time.monotonic() < until.value:
        fill(port, 100_000, first=first)
        first += 100_000


def appends(port, until, key, size):
    """Appends blocks of so many bytes to an item of its own until it has 19 of them, and begins anew."""
    piece = b"z" * size
    with connect(port) as link:
        while time.monotonic() < until.value:
            put(link, key, piece)
            for _ in range(18):
                link.sendall(b"append %s 0 0 %d\r\n%s\r\n" % (key, size, piece))
                answer(link, b"STORED\r\n")


def holds_a_worker(port, until, pid):
    """Holds a worker's thread for ten milliseconds, ten times a second."""
    worker = min(int(it) for it in os.listdir(f"/proc/{pid}/task") if int(it) != pid)
    while time.monotonic() < until.value:
        with held(worker):
            time.sleep(0.01)
        time.sleep(0.09)


# ---- rows


@dataclass
class Row:
    """What is done beside the polite. `before` fills the store, `others` are processes, `last` is how long it is measured."""

    name: str
    title: str
    others: list = field(default_factory=list)
    before: object = None
    pages: int = 1024
    threads: int = 4
    seconds: float = 5
    verb: str = "get"
    holds: bool = False
    options: list = field(default_factory=list)


def large_item(port):
    with connect(port) as link:
        put(link, b"large", LARGE)


def huge_item(port):
    with connect(port) as link:
        put(link, b"huge", HUGE)


def many_keys(port):
    fill(port, 100_000)


def joining(size):
    return [(appends, (b"joined%d" % number, size)) for number in range(4)]


def rows(quick):
    items = 300_000 if quick else 2_000_000
    large = b"get large\r\n"
    line = b"get " + b" ".join(b"f%09d" % key for key in range(3000)) + b"\r\n"
    long_line = b"get " + b" ".join(b"n%d" % key for key in range(6000)) + b"\r\n"
    set_large = b"set large 0 0 %d\r\n%s\r\n" % (len(LARGE), LARGE)
    setting = [(repeats, (set_large, b"STORED\r\n"))]
    getting, getting_huge = [(pipelines_gets, (large,))], [(repeats, (b"get huge\r\n", b"END\r\n"))]

    def expiring(port):
        # longer than the filling takes, and shorter than the row
        fill(port, items, exptime=5 if quick else 20)

    def filled(port):
        fill(port, items)

    return [
        Row("alone", "nothing else"),
        *[Row(f"large-{n}", f"{n} that pipeline gets of 1 MB, one worker", getting * n, large_item, threads=1) for n in (1, 16, 20, 64)],
        Row("large-16-t4", "16 that pipeline gets of 1 MB", getting * 16, large_item),
        Row("huge-4", "4 that get 8 MB, -I 8m", getting_huge * 4, huge_item, options=["-I", "8m"]),
        Row("shared-large", "8 that get an item of 1 MB, and 4 that set it", getting * 8 + setting * 4, large_item, verb="set"),
        Row("lines", "8 that ask for 3,000 keys a line", [(repeats, (line, b"END\r\n"))] * 8, many_keys),
        Row("misses", "8 that ask for 6,000 missing keys a line", [(repeats, (long_line, b"END\r\n"))] * 8),
        Row("sets", "8 that set 1 MB", setting * 8),
        Row("flush", f"one flush of {items:,} items", [(flushes, ())], filled, verb="set"),
        Row("flush-later", f"one that flushes {items:,} items later, again and again", [(flushes_later, (0,))], filled, verb="set"),
        Row("flush-dead", "the same, each behind 200 items that are dead at once", [(flushes_later, (200,))], filled, verb="set"),
        Row("tidy", f"{items:,} items expire", [], expiring, seconds=15 if quick else 70, verb="set"),
        Row("growth", "one that stores new keys", [(grows, ())], seconds=8, verb="set"),
        Row("joins", "4 that append 50 KB to items of up to 950 KB", joining(50_000), verb="set"),
        Row("joins-8m", "4 that append 400 KB to items of up to 7.6 MB, -I 8m", joining(400_000), verb="set", options=["-I", "8m"]),
        Row("stopped", "a worker's thread that is held for 10 ms, ten times a second", [(holds_a_worker, ())], verb="set", holds=True),
    ]


# ---- measuring


def raise_limits():
    most = resource.getrlimit(resource.RLIMIT_NOFILE)[1]
    resource.setrlimit(resource.RLIMIT_NOFILE, (most, most))


def servers(given, row):
    for name in NAMES:
        program = "memcached" if name == "memcached" else given.program
        yield name, Server(program, pages=row.pages, workers=row.threads, args=["-c", "16384", *row.options])


def measured(server, row, seconds):
    """The waits of the polite while the others do theirs, in order."""
    if row.before:
        row.before(server.port)
    until, waits, ready, begun = FORK.Value("d", 0), FORK.Queue(), FORK.Event(), FORK.Event()
    asking = FORK.Process(target=polite, args=(server.port, until, waits, row.verb, ready, begun))
    asking.start()
    ready.wait(PATIENCE)
    until.value = time.monotonic() + seconds
    others = []
    for act, words in row.others:
        words = (*words, server.pid) if row.holds else words
        others.append(FORK.Process(target=act, args=(server.port, until, *words)))
    for it in others:
        it.start()
    begun.set()
    try:
        found = sorted(waits.get(timeout=seconds + PATIENCE))
    except queue.Empty:
        raise Failed("the polite were not answered") from None
    finally:
        over([asking, *others])
    ended_well(server, [asking, *others])
    return found


def over(processes):
    """Waits until they have ended, and ends those that don't."""
    for it in processes:
        it.join(PATIENCE)
        if it.is_alive():
            it.kill()
            it.join()


def ended_well(server, processes):
    """Fails where the server has ended, or one of the clients found something wrong."""
    if not server.runs():
        raise Failed("the server ended")
    if any(it.exitcode for it in processes):
        raise Failed("a client was answered wrongly, or not in time")


def told(found):
    """The median, the 99th of a hundred and the longest of waits, in milliseconds."""
    at = [found[len(found) // 2], found[len(found) * 99 // 100], found[-1]]
    return "".join(f"{it * 1000:9.2f}" for it in at) + f"{len(found):9,}"


def waits_of(given, row):
    print(row.title)
    for name, server in servers(given, row):
        with server:
            found = measured(server, row, min(row.seconds, given.seconds) if row.name != "tidy" else row.seconds)
        print(f"  {name:12}{told(found)}", flush=True)


def opens(port, count, results):
    """Opens connections one behind another without waiting, asks on each, and notes when each was answered."""
    poll, links, start = select.poll(), {}, time.monotonic()
    lost, times = 0, []
    for _ in range(count):
        try:
            link = connect(port)
            link.sendall(b"version\r\n")
        except OSError:
            lost += 1
            continue
        links[link.fileno()] = link
        poll.register(link, select.POLLIN)
    end = start + PATIENCE
    while links and time.monotonic() < end:
        for number, _ in poll.poll(100):
            link = links.pop(number)
            poll.unregister(number)
            try:
                good = link.recv(100).startswith(b"VERSION")
            except OSError:
                good = False
            lost += not good
            times.append(time.monotonic() - start)
            link.close()
    results.put((lost + len(links), max(times, default=0)))


def burst_of(given, count, processes, row):
    print(f"{count:,} connections at once, by {processes} processes{row.title}")
    for name, server in servers(given, row):
        with server:
            if row.before:
                row.before(server.port)
            until = FORK.Value("d", time.monotonic() + PATIENCE)
            others = [FORK.Process(target=act, args=(server.port, until, *words)) for act, words in row.others]
            results = FORK.Queue()
            opening = [FORK.Process(target=opens, args=(server.port, count // processes, results)) for _ in range(processes)]
            for it in [*others, *opening]:
                it.start()
            found = [results.get(timeout=2 * PATIENCE) for _ in opening]
            until.value = 0
            over([*others, *opening])
            ended_well(server, [*others, *opening])
        print(f"  {name:12}  not served {sum(lost for lost, _ in found)}, the last answered after {max(late for _, late in found):.2f} s", flush=True)


def idle_of(given, count, seconds):
    row = Row("idle", "")
    print(f"{count:,} connections that ask nothing, for {seconds:.0f} seconds")
    for name, server in servers(given, row):
        with server:
            links = [connect(server.port) for _ in range(count)]
            time.sleep(1)
            before = server.processor()
            time.sleep(seconds)
            used = server.processor() - before
            memory = server.memory() / 1e6
            for link in links:
                link.close()
        print(f"  {name:12}  {used:.2f} s of a processor, {memory:.0f} MB", flush=True)


def beside(given, title, act):
    """Prints what becomes of others, for each server."""
    print(title)
    for name, server in servers(given, Row("", "")):
        with server:
            answered, late, refused, closed = act(server)
            if not server.runs():
                raise Failed("the server ended")
        print(f"  {name:12}  answered {answered:,}, after more than {LATE} s {late:,}, refused {refused:,}, closed {closed:,}", flush=True)


def newcomers(port, seconds):
    """Clients that come one after another and ask for an item that isn't there: how long each took, and how many were refused."""
    times, refused, end = [], 0, time.monotonic() + seconds
    while time.monotonic() < end:
        began = time.monotonic()
        try:
            with Peer(port, PATIENCE) as peer:
                peer.asks(b"get none\r\n", b"END\r\n")
            times.append(time.monotonic() - began)
        except (OSError, AssertionError):
            refused += 1
        time.sleep(0.1)
    return times, refused


def drippers(server, seconds):
    """Clients that drip have done so for a while when the honest ones come."""
    with Drips(server.port, DRIPPERS, len(LARGE), [PERIOD]):
        time.sleep(seconds / 2)
        asking = [Honest(server.port, name, seconds) for name in range(HONEST)]
        for it in asking:
            it.start()
        times, refused = newcomers(server.port, seconds)
        for it in asking:
            it.join(PATIENCE)
    times += [time for it in asking for time in it.times]
    return len(times), sum(it > LATE for it in times), refused, sum(it.fault is not None for it in asking)


def slow_readers(server, seconds):
    large_item(server.port)
    answer = len(b"VALUE large 0 1000000\r\n\r\nEND\r\n") + len(LARGE)
    made = readers([PACE] * SLOW + [None] * FAST, server.port, answer, seconds)
    times = [time for it in made if it.pace is None for time in it.times()]
    return len(times), sum(it > LATE for it in times), 0, sum(it.is_closed for it in made)


def pause(server):
    made = uploads(server, UPLOADS, STILL)
    times = [it.took for it in made if it.took is not None]
    return len(times), sum(it > LATE for it in times), 0, len(made) - len(times)


def unread(given):
    for size, often in UNREAD:
        print(f"{MUTE:,} connections that ask for {size:,} bytes {often} times and never read")
        for name, server in servers(given, Row("", "")):
            with server:
                with connect(server.port) as link:
                    put(link, b"unread", b"u" * size)
                before = server.memory()
                with clients(server.port, MUTE, receives=4096) as peers:
                    sent_as_far(peers, b"get unread\r\n" * often, 5)
                    time.sleep(2)
                    held = server.memory() - before
            print(f"  {name:12}  {held / 1e6:.0f} MB, {held / MUTE / 1e3:.1f} kB a connection", flush=True)


def spins(until):
    """Is busy until a moment."""
    while time.monotonic() < until.value:
        for _ in range(10_000):
            pass


def neighbour(given):
    """What a client waits that stores new keys, while other programs are busy. It has four threads, and 50 connections in all."""
    keys, rounds = (200_000, 1) if given.quick else (4_000_000, 3)
    print(f"{BUSY} busy threads of others, and one that stores {keys:,} new keys, {rounds} time{'s' * (rounds > 1)}")
    words = ["--operation", "insert", *tcp.options_of({"keys": keys, "connections": POLITE})]
    with tempfile.TemporaryDirectory() as folder:
        load, found = tcp.compiled(folder), {name: [] for name in NAMES}
        for _ in range(rounds):
            for name, server in servers(given, Row("", "", pages=2048)):
                with server, busy(BUSY), tcp.load_on(load, server, words) as client:
                    found[name].append(tcp.in_order(client.round(0, LONG), server, "as keys go to"))
    for name, runs in found.items():
        at = [sorted(it[figure] / 1000 for it in runs)[len(runs) // 2] for figure in ("p50", "p99", "longest")]
        longest = ", ".join(f"{it['longest'] / 1000:.0f}" for it in runs)
        print(f"  {name:12}" + "".join(f"{it:9.2f}" for it in at) + f"{keys:9,}   the longest of each: {longest}", flush=True)


@contextlib.contextmanager
def busy(count):
    """So many processes that are busy meanwhile."""
    until = FORK.Value("d", float("inf"))
    made = [FORK.Process(target=spins, args=(until,)) for _ in range(count)]
    for it in made:
        it.start()
    try:
        yield
    finally:
        until.value = 0
        over(made)


def slow(given):
    seconds = 10 if given.quick else 30
    return {
        "drippers": lambda: beside(
            given, f"{DRIPPERS} that send a byte of a block of 1 MB each {PERIOD} s: what {HONEST} others that set and get 1 byte to 1 MB, and newcomers, have",
            lambda server: drippers(server, seconds)),
        "readers": lambda: beside(
            given, f"{SLOW} that read answers of 1 MB at {PACE // 1000} kB/s, for {seconds} s: what {FAST} that read as fast as they can have",
            lambda server: slow_readers(server, seconds)),
        "pause": lambda: beside(given, f"the server stands still for {STILL} s while {UPLOADS} send 1 MB", pause),
        "unread": lambda: unread(given),
        "neighbour": lambda: neighbour(given),
        "refused": lambda: refusals.told(given.program, given.quick),
        "one-hash": lambda: onehash.told(given.program, given.quick),
    }


def bursts(given):
    count = 2000 if given.quick else 10_000
    large = [(pipelines_gets, (b"get large\r\n",))] * 16
    return {
        "burst": lambda: burst_of(given, count, 4, Row("burst", "")),
        "burst-t1": lambda: burst_of(given, count, 4, Row("burst", ", one worker", threads=1)),
        "burst-large": lambda: burst_of(given, 2000, 4, Row("burst", ", beside 16 that pipeline gets of 1 MB", large, large_item)),
        "idle": lambda: idle_of(given, count, 5 if given.quick else 10),
    }


def judges(given):
    """The rows that may fail: each gives whether it passed."""
    def judge(row):
        with tcp.real_time() as is_real:
            print(row.title, "" if is_real else "(without a real-time priority: waits are noise)")
            return judged.judged(row, given.program, fill, Failed)

    return {row.name: lambda row=row: judge(row) for row in judged.rows(given.quick)}


def arguments():
    parser = argparse.ArgumentParser(description=__doc__, formatter_class=argparse.RawDescriptionHelpFormatter)
    parser.add_argument("--program", default=built())
    parser.add_argument("--only", nargs="*", default=[])
    parser.add_argument("--seconds", type=float, default=60)
    parser.add_argument("--quick", action="store_true", help="fewer items, and shorter")
    parser.add_argument("--list", action="store_true")
    return parser.parse_args()


def main():
    given = arguments()
    signal.signal(signal.SIGTERM, lambda *_: sys.exit(1))
    raise_limits()
    acts = {row.name: lambda row=row: waits_of(given, row) for row in rows(given.quick)} | bursts(given) | slow(given) | judges(given)
    if given.list:
        print(*acts, sep="\n")
        return 0
    if unknown := set(given.only) - set(acts):
        print(f"waiting.py: there is no row {', '.join(sorted(unknown))}", file=sys.stderr)
        return 2
    print(f"{'':14}   median     99 %  longest   waits   (milliseconds; gets or sets of {len(SMALL)} bytes by {POLITE} connections)")
    chosen = [name for name in acts if not given.only or name in given.only]
    failed = [name for name in chosen if acts[name]() is False]
    if failed:
        print(f"waiting.py: failed: {', '.join(failed)}", file=sys.stderr)
    return 1 if failed else 0


if __name__ == "__main__":
    try:
        sys.exit(main())
    except (Failed, CannotStart) as fault:
        print(f"waiting.py: {fault}", file=sys.stderr)
        sys.exit(1)
    except KeyboardInterrupt:
        sys.exit(130)

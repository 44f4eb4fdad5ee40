"""Loads a server for minutes and checks every answer, while connections come and go; says whether anything grows.

Each caller is a thread with keys of its own, so it knows what each answer is to be; counters that all callers share are
compared when all pause, once a minute, and then everything is flushed. A visit is one connection: it ends by `quit`, by a
close, by a reset, in the middle of a command, with a line that is too long, with answers that nobody reads, or it stays idle
for a while. The memory (VmRSS), the descriptors and the threads of the server are printed each minute. The last line is the
verdict; the status is 0 where nothing grows and every answer was right. Of less than two minutes memory isn't judged.

With --large items have up to 8 MiB, and the callers' blocks several pages. With --scrapes the metrics are scraped twice a second, and no number of what
was done falls. With --faults calls of the system are interrupted, fail for a moment, or come late, none of which a client may see.

    python3 -m tests.soak [--program PATH] [--minutes N] [--callers N] [--pages N] [--workers N] [--large] [--scrapes] [--faults]
"""
import argparse
import contextlib
import errno
import sys
import threading
import time

from tests.lib.faults import Faults, delay
from tests.lib.rows import GREATEST
from tests.lib.scrape import scrape
from tests.lib.server import CannotStart, Server, free_port, is_memcached
from tests.lib.settings import program
from tests.soak.callers import Caller, Shared
from tests.soak.link import SECONDS, Link, Wrong, value_line
from tests.soak.watch import Ended, Watch

# The store holds the callers' keys many times over, so no answer may be a memory error.
PAGES = 256
# A shorter run doesn't tell whether memory grows, as buffers are still being made.
LEAST_MINUTES = 2
# With --large items have at most so many bytes.
LARGEST = 8 * 2**20
# With --faults each Kth call of these fails so. A client sees none of it: what is interrupted is made again, and what is refused for now too.
FAULTS = [
    ("recv", 97, [errno.EINTR]), ("send", 89, [errno.EINTR, errno.EAGAIN]), ("sendmsg", 53, [errno.EINTR, delay(5)]),
    ("accept4", 41, [errno.EINTR, errno.ECONNABORTED, errno.EMFILE]), ("epoll_wait", 31, [errno.EINTR, delay(20)]), ("close", 37, [errno.EINTR]),
]


def flushed(shared):
    """Compares what all callers counted together, flushes everything, and begins the shared numbers anew."""
    try:
        link = Link(shared.address)
        for key, count in ((b"shared:count", shared.counted), (b"shared:swap", shared.swapped)):
            link.ask(b"get %s\r\n" % key, value_line(key, (0, b"%d" % count)) + b"END\r\n")
        link.ask(b"flush_all\r\n", b"OK\r\n")
        link.ask(b"get shared:count shared:swap 0:small:0\r\n", b"END\r\n")
        begin(link)
        link.close()
    except (Wrong, OSError) as wrong:
        shared.fault(f"the numbers of all callers: {wrong}")
    shared.counted = shared.swapped = 0


def begin(link):
    for key in (b"shared:count", b"shared:swap"):
        link.ask(b"set %s 0 0 1\r\n0\r\n" % key, b"STORED\r\n")


class Scraper(threading.Thread):
    """Scrapes twice a second, and notes a number of what was done that falls."""

    def __init__(self, port, shared):
        super().__init__(daemon=True)
        self.port, self.shared, self.over, self.count = port, shared, threading.Event(), 0

    def run(self):
        last = {}
        while not self.over.wait(0.5):
            try:
                now = scrape(self.port)
            except (OSError, AssertionError) as error:
                self.shared.fault(f"a scrape: {error}")
                continue
            for name in now:
                if "_total" in name and now[name] < last.get(name, 0):
                    self.shared.fault(f"{name} fell from {last[name]} to {now[name]}")
            last, self.count = now, self.count + 1


@contextlib.contextmanager
def scraped(metrics, shared):
    """Scrapes in the meantime, if there is a port for that."""
    if not metrics:
        yield
        return
    scraper = Scraper(metrics, shared)
    scraper.start()
    try:
        yield
    finally:
        scraper.over.set()
        scraper.join(SECONDS)
        print(f"{scraper.count} scrapes", flush=True)
        if not scraper.count:
            shared.fault("nothing was scraped")


def soak(server, given, metrics):
    shared = Shared(server.address, given.callers, LARGEST if given.large else GREATEST)
    with scraped(metrics, shared):
        return soaked(server, given, shared)


def soaked(server, given, shared):
    watch = Watch(server.pid)
    link = Link(shared.address)
    begin(link)
    link.close()
    server.settle()
    _, descriptors, threads = watch.sample()
    callers = [Caller(number, shared, is_memcached(given.program)) for number in range(given.callers)]
    for it in callers:
        it.start()
    start, minute, watch.samples = time.monotonic(), 0, []
    try:
        while time.monotonic() < start + 60 * given.minutes and not shared.paused.broken:
            time.sleep(min(1, given.minutes))
            now = watch.sample()
            if time.monotonic() >= start + 60 * (minute + 1):
                minute += 1
                together(shared, shared.pausing)
                print(f"minute {minute}: {told(shared, now)}", flush=True)
    except Ended:
        shared.fault("the server ended")
    together(shared, shared.ending, shared.pausing)
    for it in callers:
        it.join(SECONDS)
    return shared, watch, descriptors, threads


def together(shared, *events):
    """Has all callers pause, compares and flushes, and lets them go on or end."""
    for event in events:
        event.set()
    try:
        shared.paused.wait(3 * SECONDS)
        flushed(shared)
        shared.pausing.clear()
        shared.going.wait(3 * SECONDS)
    except threading.BrokenBarrierError:
        shared.fault(f"not all callers had their answers within {3 * SECONDS} seconds")


def told(shared, now):
    memory, descriptors, threads = now
    return (
        f"{shared.answers:,} answers, {len(shared.wrong)} wrong, {shared.links:,} connections; "
        f"VmRSS {memory / 1e6:.1f} MB, {descriptors} descriptors, {threads} threads"
    )


def rests(server, descriptors, threads):
    """When all callers have gone, the server has no more descriptors and threads than it began with."""
    late = time.monotonic() + SECONDS
    while True:
        try:
            _, *found = Watch(server.pid).sample()
        except Ended:
            return [f"the server ended: {server.said()}"]
        if found[0] <= descriptors and found[1] <= threads:
            return []
        if time.monotonic() > late:
            return [f"it began with {descriptors} descriptors and {threads} threads, and has {found[0]} and {found[1]}"]
        time.sleep(0.2)


def main():
    parser = argparse.ArgumentParser(description=__doc__, formatter_class=argparse.RawDescriptionHelpFormatter)
    parser.add_argument("--program", default=program())
    parser.add_argument("--minutes", type=float, default=30)
    parser.add_argument("--callers", type=int, default=8)
    parser.add_argument("--pages", type=int, default=PAGES)
    parser.add_argument("--workers", type=int, default=4)
    parser.add_argument("--large", action="store_true")
    parser.add_argument("--scrapes", action="store_true")
    parser.add_argument("--faults", action="store_true")
    given = parser.parse_args()
    metrics = free_port() if given.scrapes else None
    args = [*(["-I", str(LARGEST)] if given.large else []), *(["--metrics", str(metrics)] if metrics else [])]
    faults = Faults() if given.faults else None
    try:
        server = Server(given.program, pages=given.pages * (3 if given.large else 1), workers=given.workers, args=args, faults=faults)
    except CannotStart as error:
        print(f"FAILED: {error}")
        return 1
    with server:
        for call, every, errors in FAULTS if faults else []:
            faults.fail(call, errors, every)
        shared, watch, descriptors, threads = soak(server, given, metrics)
        for call, *_ in FAULTS if faults else []:
            print(f"{faults.count(call):,} calls of {call} failed or were late")
            if not faults.count(call):
                shared.fault(f"no call of {call} failed")
        if faults:
            faults.end()
        faults = [f"{len(shared.wrong)} answers were wrong"] if shared.wrong else []
        faults += (watch.grown() if given.minutes >= LEAST_MINUTES else []) + rests(server, descriptors, threads)
    memory = [it[0] / 1e6 for it in watch.samples]
    medians = ", ".join(f"{it / 1e6:.1f}" for it in watch.quarters())
    print(f"memory from {min(memory):.1f} to {max(memory):.1f} MB, the medians of the run's quarters {medians} MB")
    print(f"at most {max(it[1] for it in watch.samples)} descriptors")
    if not shared.answers:
        faults.append("nothing was answered")
    grows = "nothing grows" if given.minutes >= LEAST_MINUTES else f"under {LEAST_MINUTES} minutes nothing is said of memory"
    print(*([f"FAILED: {it}" for it in faults] or [f"{grows}, and every answer was right: {shared.answers:,} of them"]), sep="\n")
    return 1 if faults else 0


if __name__ == "__main__":
    sys.exit(main())

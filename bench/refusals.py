"""The row refused of waiting.py: how many sets a store refuses because dead items hold its memory, with memcached beside it.

Some items stay, the others live for ten seconds. Their sets come at an even pace, each of a new key, so many a second that those alive are 60 of
100 that an empty server takes. So a set is refused only if the memory of the dead isn't found in time.
"""
import random
import time
from dataclasses import dataclass

from tests.lib.peer import Peer
from tests.lib.server import Server

NAMES = ("memcached", "mcserver")
PAGES, LIVES, LIVE = 16, 10, 0.6
STORED, REFUSED = b"STORED\r\n", b"SERVER_ERROR"
# How many sets fill a server at once, and how often a second the even pace sends some.
BATCH, BEATS = 100, 50


@dataclass
class Mix:
    """The sizes of blocks, and which part of what fits stays."""

    title: str
    least: int
    most: int
    stays: float


MIXES = [
    Mix("blocks of 100 bytes, none stays", 100, 100, 0),
    Mix("blocks of 100 bytes, 40% of what fits stays", 100, 100, 0.4),
    Mix("blocks of 100 to 1,000 bytes, 40% of what fits stays", 100, 1000, 0.4),
]


class Sets:
    """Sets of new keys over one connection, whose sizes are the same in each run."""

    def __init__(self, peer, mix, exptime, letter=b"r"):
        self.peer, self.mix, self.exptime, self.letter, self.chance, self.number = peer, mix, exptime, letter, random.Random(5), 0

    def one(self):
        block = b"r" * self.chance.randint(self.mix.least, self.mix.most)
        self.number += 1
        return b"set %s%031d 0 %d %d\r\n%s\r\n" % (self.letter, self.number, self.exptime, len(block), block)

    def some(self, count):
        """Sends so many at once, and returns how many of them were refused."""
        self.peer.send(b"".join(self.one() for _ in range(count)))
        answers = [self.peer.upto(b"\n") for _ in range(count)]
        wrong = next((it for it in answers if it != STORED and not it.startswith(REFUSED)), None)
        if wrong is not None:
            raise AssertionError(f"a set was answered {wrong}")
        return sum(it != STORED for it in answers)


def fits(server, mix):
    """How many items an empty server takes before it refuses one."""
    with Peer(server.port) as peer:
        sets = Sets(peer, mix, 0)
        while not sets.some(BATCH):
            pass
        return sets.number


def refused(server, mix, most, seconds):
    """How many sets came, and how many were refused, once the first have died."""
    with Peer(server.port) as peer:
        staying = Sets(peer, mix, 0, b"s")
        while staying.number < mix.stays * most:
            if staying.some(BATCH):
                raise AssertionError("the items that stay were refused")
        pace, sets, began, asked, found = (LIVE - mix.stays) * most / LIVES, Sets(peer, mix, LIVES), time.monotonic(), 0, 0
        while (passed := time.monotonic() - began) < LIVES + seconds:
            due = int(pace * passed) - sets.number
            lost = sets.some(due)
            if passed > LIVES:
                asked, found = asked + due, found + lost
            time.sleep(1 / BEATS)
        return asked, found


def told(program, quick):
    """Prints how many sets each server refused."""
    seconds = 20 if quick else 60
    for mix in MIXES:
        print(f"-m {PAGES}: sets of items that live {LIVES} s, {LIVE:.0%} of what fits alive, {mix.title}, for {seconds} s")
        for side, path in zip(NAMES, ("memcached", program)):
            with Server(path, pages=PAGES) as server:
                most = fits(server, mix)
            with Server(path, pages=PAGES) as server:
                asked, found = refused(server, mix, most, seconds)
            print(f"  {side:12}  {most:,} fit, refused {found:,} of {asked:,} ({found / asked:.1%})", flush=True)

"""Random commands on keys of a connection's own, and what a server that others use too may answer to them.

Unique numbers are the one thing in which the model of a connection alone and a shared server may differ: the
model's are drawn from a range that no input names, and stand in its answers and in inputs as marks."""
import random
import re

from tests.lib import inputs, model
from tests.lib.compare import same, shown
from tests.lib.peer import Peer
from tests.lib.rows import PAGES
from tests.lib.server import HOST

MARK = re.compile(rb"<unique (\d+)>")
# The first number that a connection's model draws. No input has one as great but its marks.
FIRST = 10**12
# So many numbers are drawn before any input comes: an input names smaller ones, or none that a server comes to.
SPENT = 1000
# So many commands a connection sends at once, at most.
COMMANDS = 12


class Store(model.Store):
    """The model's store with marks in place of unique numbers."""

    def __init__(self, now, pages):
        super().__init__(now, pages)
        self.next_unique = FIRST

    def read(self, key, with_unique, exptime=None):
        text = super().read(key, with_unique, exptime)
        if not with_unique or not text:
            return text
        item = self.items[key]
        head = b"VALUE %s %d %d <unique %d>\r\n" % (key, item.flags, len(item.block), item.unique)
        return head + item.block + b"\r\n"


class Quick(random.Random):
    """Most of the time that an input takes is a choice of Python's own, which is even to the last bit."""

    def choice(self, seq):
        return seq[int(self.random() * len(seq))]


class Source(inputs.Source):
    """Inputs on keys with a prefix. They leave out what other connections would see: flushes, and writes of other keys."""

    def __init__(self, seed, number, prefix, now):
        super().__init__(seed, number)
        self.random = Quick(f"{seed} {number}")
        self.prefix, self.now, self.pages = prefix, now, PAGES

    def key(self):
        key = super().key()
        return key if len(key) > model.LONGEST_KEY else (self.prefix + key)[: model.LONGEST_KEY]

    def storage(self):
        while True:
            made = super().storage()
            words = made.split()
            if len(words) < 2 or words[0] not in (b"set", b"add") or words[1].startswith(self.prefix):
                return made

    def other(self):
        while b"flush_all" in (made := super().other()):
            pass
        return made

    def noise(self):
        made = super().noise()
        return b"\r\n" if made.startswith(b"set a ") else made


def spend_numbers(port, host=HOST):
    """Draws the unique numbers that inputs name, so that no item of the server's has one that the model's hasn't."""
    with Peer(port, host=host) as peer:
        peer.asks(b"set first 0 0 1\r\nx\r\n" * SPENT, b"STORED\r\n" * SPENT)


def session(stream, now, pages=PAGES):
    """The model of a connection alone that sends the stream."""
    made = model.Session(stream, now, pages)
    made.store = Store(now, pages)
    return made


def is_right(wanted, got, known):
    """Fails where an answer differs from the model's. The numbers that stand for its marks are kept in `known`, and compared."""
    made, at = [], 0
    for place, part in enumerate(MARK.split(wanted)):
        if place % 2 == 0:
            made.append(part)
        else:
            met = re.match(rb"\d+", got[at:])
            told = known.setdefault(int(part), int(met.group())) if met else 0
            made.append(b"%d" % told)
        at += len(made[-1])
    same(b"".join(made), got)
    told = [known[mark] for mark in sorted(known)]
    if any(later <= earlier for earlier, later in zip(told, told[1:])):
        raise AssertionError(f"unique numbers don't rise with the writes: {told}")


class Talker:
    """A connection with its model."""

    def __init__(self, port, source, version, pages=PAGES, host=HOST):
        source.faulty = 0.0
        self.source, self.known, self.version = source, {}, version
        self.model, self.peer = session(b"", source.now, pages), Peer(port, host=host)

    def command(self):
        share = self.source.random.random()
        if share < 0.1 and self.known:
            return self.cas()
        if share < 0.4:
            return self.source.storage()
        if share < 0.7:
            return self.source.retrieval()
        while (made := self.source.other()).strip() == b"version":  # (its answer ends a round)
            pass
        return made

    def cas(self):
        """A cas of a number that this connection was told, which stands in it as a mark."""
        mark = self.source.random.choice(list(self.known)[-4:])
        return b"cas %s 3 0 2 <unique %d>\r\nab\r\n" % (self.source.key(), mark)

    def texts(self):
        """Some commands, as the server is sent them; the model answers them."""
        made = b"".join(self.command() for _ in range(self.source.random.randrange(1, COMMANDS)))
        self.model.stream += MARK.sub(rb"\1", made)
        self.model.out = []
        self.wanted = self.model.run()
        return MARK.sub(lambda met: b"%d" % self.known[int(met.group(1))], made)

    def sends(self, text, chance):
        """The text and a version behind it, cut in pieces."""
        text += b"version\r\n"
        cuts = sorted(chance.randrange(len(text) + 1) for _ in range(chance.choice([0, 1, 3])))
        self.sent = text
        return [(self, text[start:end]) for start, end in zip([0, *cuts], [*cuts, len(text)])]

    def is_answered(self):
        got = self.peer.upto(self.version)
        try:
            is_right(self.wanted + self.version, got, self.known)
        except AssertionError as error:
            raise AssertionError(f"connection {self.source.prefix.decode()} sent {shown(self.sent, 2000)}\n{error}") from None


def interleaved(parts, chance):
    """The pieces of all, one after another in an order that keeps each connection's own."""
    waiting = [list(reversed(part)) for part in parts]
    order = [at for at, part in enumerate(parts) for _ in part]
    chance.shuffle(order)
    return [waiting[at].pop() for at in order]


def take_a_round(talkers, chance):
    """Each sends some commands, all mixed, and is answered."""
    for talker, piece in interleaved([it.sends(it.texts(), chance) for it in talkers], chance):
        talker.peer.send(piece)
    chance.shuffle(talkers)
    for it in talkers:
        it.is_answered()


def version_of(port, host=HOST):
    with Peer(port, host=host) as peer:
        peer.send(b"version\r\n")
        return peer.upto(b"\r\n")

"""Time that passes: items whose exptime is some seconds, and random inputs between which the clock moves.

The clock of a program stands where `Faults.stand_at` sets it, and moves when a test moves it. So the last millisecond of an item is tested without
any wait."""
from tests.lib import inputs, model

# Where the clock stands at first, in seconds after 1970.
START = 1_700_000_000
# The exptimes and delays that are tested by the second.
SECONDS = range(1, 9)
END, STORED, OK = b"END\r\n", b"STORED\r\n", b"OK\r\n"


def value(key, block=b"1"):
    return b"VALUE %s 0 %d\r\n%s\r\n" % (key, len(block), block)


def hits(keys, block=b"1"):
    """The answer to a get in which these keys are found."""
    return b"".join(value(key, block) for key in keys) + END


# What gives an item an exptime of N seconds at the moment START: the command, what is answered, and the block that stands then. A line is
# sent with its key in place of K, the exptime in place of N, and the Unix time of the same moment in place of U.
GIVEN = {
    "set": [(b"set K 0 N 1\r\n1\r\n", STORED)],
    "set_unix": [(b"set K 0 U 1\r\n1\r\n", STORED)],
    "set_again": [(b"set K 0 0 1\r\n7\r\n", STORED), (b"set K 0 N 1\r\n1\r\n", STORED)],
    "add": [(b"add K 0 N 1\r\n1\r\n", STORED)],
    "add_unix": [(b"add K 0 U 1\r\n1\r\n", STORED)],
    "replace": [(b"set K 0 100 1\r\n7\r\n", STORED), (b"replace K 0 N 1\r\n1\r\n", STORED)],
    "touch": [(b"set K 0 0 1\r\n1\r\n", STORED), (b"touch K N\r\n", b"TOUCHED\r\n")],
    "touch_longer": [(b"set K 0 1 1\r\n1\r\n", STORED), (b"touch K N\r\n", b"TOUCHED\r\n")],
    "touch_unix": [(b"set K 0 100 1\r\n1\r\n", STORED), (b"touch K U\r\n", b"TOUCHED\r\n")],
    "gat": [(b"set K 0 100 1\r\n1\r\n", STORED), (b"gat N K\r\n", b"VALUE K 0 1\r\n1\r\nEND\r\n")],
    "gat_longer": [(b"set K 0 1 1\r\n1\r\n", STORED), (b"gat N K\r\n", b"VALUE K 0 1\r\n1\r\nEND\r\n")],
    "gat_unix": [(b"set K 0 0 1\r\n1\r\n", STORED), (b"gat U K\r\n", b"VALUE K 0 1\r\n1\r\nEND\r\n")],
    "append": [(b"set K 0 N 0\r\n\r\n", STORED), (b"append K 0 0 1\r\n1\r\n", STORED)],
    "prepend": [(b"set K 0 N 0\r\n\r\n", STORED), (b"prepend K 0 100 1\r\n1\r\n", STORED)],
    "incr": [(b"set K 0 N 1\r\n0\r\n", STORED), (b"incr K 1\r\n", b"1\r\n")],
    "decr": [(b"set K 0 N 1\r\n3\r\n", STORED), (b"decr K 2\r\n", b"1\r\n")],
}
# These need the item's unique number, here U: an item is set, and changed by the number that it has.
BY_NUMBER = {"gats": b"gats N K\r\n", "cas": b"cas K 0 N 1 U\r\n1\r\n"}


def texts(name, key, seconds):
    """What is sent so that an item has an exptime of so many seconds, and what is answered."""
    for sent, answer in GIVEN[name]:
        line, end, block = sent.partition(b"\r\n")
        words = {b"K": key, b"N": b"%d" % seconds, b"U": b"%d" % (START + seconds)}
        yield b" ".join(words.get(word, word) for word in line.split(b" ")) + end + block, answer.replace(b"VALUE K", b"VALUE " + key)


# What tells that an item stands: a command on it, with what is answered while it lives and when it is dead.
ASKED = {
    "get": (b"get K\r\n", b"VALUE K 0 1\r\n1\r\nEND\r\n", END),
    "gat": (b"gat 0 K\r\n", b"VALUE K 0 1\r\n1\r\nEND\r\n", END),
    "touch": (b"touch K 0\r\n", b"TOUCHED\r\n", b"NOT_FOUND\r\n"),
    "add": (b"add K 0 0 1\r\n1\r\n", b"NOT_STORED\r\n", STORED),
    "replace": (b"replace K 0 0 1\r\n1\r\n", STORED, b"NOT_STORED\r\n"),
    "append": (b"append K 0 0 1\r\n1\r\n", STORED, b"NOT_STORED\r\n"),
    "prepend": (b"prepend K 0 0 1\r\n1\r\n", STORED, b"NOT_STORED\r\n"),
    "cas": (b"cas K 0 0 1 999999\r\n1\r\n", b"EXISTS\r\n", b"NOT_FOUND\r\n"),
    "incr": (b"incr K 1\r\n", b"2\r\n", b"NOT_FOUND\r\n"),
    "decr": (b"decr K 1\r\n", b"0\r\n", b"NOT_FOUND\r\n"),
    "delete": (b"delete K\r\n", b"DELETED\r\n", b"NOT_FOUND\r\n"),
}


class Moved:
    """A program whose clock is moved, and a peer that `asks(sent, wanted)`. Before the clock moves `settle` sees that nothing is under way."""

    def __init__(self, faults, peer, settle=lambda: None):
        self.faults, self.peer, self.settle = faults, peer, settle

    def to(self, seconds, milliseconds=0):
        """Moves the clock to so many seconds after START, and so many milliseconds."""
        self.settle()
        self.faults.stand_at((START + seconds) * 1000 + milliseconds)

    def before(self, seconds):
        """Moves it to the last millisecond before."""
        self.to(seconds, -1)

    def each_exptime(self):
        """Items that were given an exptime of N in each way that there is are hits until a millisecond before N, and misses at N."""
        self.to(0)
        keys = {seconds: [b"%s-%d" % (name.encode(), seconds) for name in GIVEN] for seconds in SECONDS}
        for seconds, named in keys.items():
            for name, key in zip(GIVEN, named):
                for sent, answer in texts(name, key, seconds):
                    self.peer.asks(sent, answer)
        for now in SECONDS:
            asked = b"get " + b" ".join(key for named in keys.values() for key in named) + b"\r\n"
            self.before(now)
            self.peer.asks(asked, hits(key for seconds in SECONDS if seconds >= now for key in keys[seconds]))
            self.to(now)
            self.peer.asks(asked, hits(key for seconds in SECONDS if seconds > now for key in keys[seconds]))

    def each_number(self):
        """The same of gats and of cas, which stores by the unique number that gats told."""
        self.to(0)
        for seconds in SECONDS:
            for name in ("gats", "cas"):
                key = b"%s-%d" % (name.encode(), seconds)
                self.peer.asks(b"set %s 0 100 1\r\n1\r\n" % key, STORED)
                self.peer.send(b"gats %d %s\r\n" % (seconds if name == "gats" else 100, key))
                unique = self.peer.upto(END).split()[4]
                if name == "cas":
                    self.peer.asks(b"cas %s 0 %d 1 %s\r\n1\r\n" % (key, seconds, unique), STORED)
        for now in SECONDS:
            keys = {seconds: [b"%s-%d" % (name, seconds) for name in (b"gats", b"cas")] for seconds in SECONDS}
            asked = b"get " + b" ".join(key for named in keys.values() for key in named) + b"\r\n"
            self.before(now)
            self.peer.asks(asked, hits(key for seconds in SECONDS if seconds >= now for key in keys[seconds]))
            self.to(now)
            self.peer.asks(asked, hits(key for seconds in SECONDS if seconds > now for key in keys[seconds]))

    def each_command_on_what_dies(self):
        """Every command finds an item of 3 seconds in its last millisecond, and finds none a millisecond later."""
        self.to(0)
        for name in ASKED:
            for place in (b"lives", b"dies"):
                self.peer.asks(b"set %s-%s 0 3 1\r\n1\r\n" % (name.encode(), place), STORED)
        for place, move, which in ((b"lives", self.before, 1), (b"dies", self.to, 2)):
            move(3)
            for name, told in ASKED.items():
                key = b"%s-%s" % (name.encode(), place)
                self.peer.asks(told[0].replace(b"K", key, 1), told[which].replace(b"VALUE K", b"VALUE " + key))

    def each_delay(self):
        """A flush with a delay of N kills at N what was last updated before, and not a millisecond earlier; what is updated then lives."""
        at = 0
        for seconds in SECONDS:
            self.to(at)
            self.peer.asks(b"set old 0 0 1\r\n1\r\nflush_all %d\r\n" % seconds, STORED + OK)
            self.before(at + seconds)
            self.peer.asks(b"get old late\r\n", hits([b"old"]))
            self.peer.asks(b"set late 0 0 1\r\n1\r\ntouch late 0\r\nget old late\r\n", STORED + b"TOUCHED\r\n" + hits([b"old", b"late"]))
            at += seconds
            self.to(at)
            self.peer.asks(b"get old late\r\nset new 0 0 1\r\n1\r\nget new\r\n", END + STORED + hits([b"new"]))
            at += 1
            self.to(at)
            self.peer.asks(b"get new\r\ndelete new\r\n", hits([b"new"]) + b"DELETED\r\n")


class Brief:
    """Of a source of inputs: exptimes and delays that are small, as time passes between the inputs."""

    def exptime(self):
        few = self.random.randrange(10)
        if few < 7:
            return b"%d" % self.random.choice(SECONDS)
        return self.random.choice([b"0", b"-1", b"%d" % (self.now + self.random.choice(SECONDS))])

    def step(self):
        """By how many milliseconds the clock moves before the next input."""
        return self.random.choice([0, 0, 0, 1, 333, 999, 1000, 1001, 2000, 3500])


class Source(Brief, inputs.Source):
    """Whole commands without a fault, and steps of the clock between them."""

    def __init__(self, seed, number):
        super().__init__(seed, number)
        self.faulty, self.now, self.pages = 0.0, START, 64

    def noise(self):
        return self.retrieval()

    def other(self):
        if self.random.random() < 0.1:
            return self.line([b"flush_all", self.exptime().replace(b"-", b"")], True)
        while b"quit" in (made := super().other()):
            pass
        return made

    def steps(self):
        """Inputs, each with the milliseconds after START at which it comes."""
        at, made = 0, []
        for _ in range(self.random.choice([10, 40, 80])):
            at += self.step()
            self.now = START + at // 1000
            share = self.random.random()
            made.append((at, self.storage() if share < 0.4 else self.retrieval() if share < 0.75 else self.other()))
        return made


class Judge:
    """The model over inputs that come at moments."""

    def __init__(self, pages=64):
        self.session = model.Session(b"", START, pages)

    def answer(self, milliseconds, text):
        self.session.store.now = START + milliseconds // 1000
        self.session.stream, self.session.at, self.session.out = text, 0, []
        return self.session.run()

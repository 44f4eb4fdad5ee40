"""Workers, shelves, the greatest item and the address, each at its ends: own keys, shared keys, blocks of up to 300 KB and scrapes at once.

Every answer is compared with a model, or explained by an order of the calls. In the end each number of a scrape is what was done."""
import collections
import contextlib
import random
import time
from concurrent.futures import ThreadPoolExecutor

from tests.history.search import check
from tests.lib import counted, own_keys, settings
from tests.lib.case import ProgramCase, tests_of
from tests.lib.compare import shown
from tests.lib.own_keys import Talker, take_a_round, version_of
from tests.lib.peer import Peer
from tests.lib.scrape import scrape
from tests.lib.server import MOMENT, StillServer, free_port
from tests.lib.wait import until
from tests.sockets.test_shared_keys import KEYS, Caller, freely, in_rounds

# Workers, further options, the address, and the greatest block that is sent.
ROWS = [
    (1, "--shelves 1", "127.0.0.1", 300_000),
    (1, "--shelves 256 -I 8m", "127.0.0.1", 3_000_000),
    (8, "--shelves 1 -I 8m", "127.0.0.1", 3_000_000),
    (8, "--shelves 256", "::1", 300_000),
    (64, "--shelves 1", "::1", 300_000),
    (64, "--shelves 256 -I 8m", "127.0.0.1", 3_000_000),
]
# How long each goes on, how many pages the store has, and how soon what was counted is told.
SECONDS, PAGES, SOON = 5, 512, 6
# How many connections are on keys of their own, how many of these send large blocks, and how many share keys.
OWN, LARGE, SHARED = 80, 4, 6
ITEMS, CONNECTIONS = "memcached_current_items", "memcached_current_connections"


class Store(counted.Counting, own_keys.Store):
    """The model of a connection's own keys, which counts what is done."""


class Blocks(own_keys.Source):
    """Commands on a few keys, with blocks of all lengths."""

    def __init__(self, seed, number, most):
        super().__init__(seed, number, b"l%d." % number, MOMENT)
        self.most = most

    def storage(self):
        length = int(self.most ** self.random.random())
        block = (b"%d." % self.random.randrange(10**9) * (length // 4 + 1))[:length]
        verb = self.random.choice([b"set", b"set", b"add", b"replace"])
        return self.line([verb, self.key(), b"7", b"0", b"%d" % length], True) + block + b"\r\n"


class Sharing(Caller):
    """A caller on shared keys that flushes nothing, as others' keys would go with them, and counts what it was told."""

    def __init__(self, *given):
        super().__init__(*given)
        self.counted = collections.Counter()

    def command(self):
        while (made := super().command())[1] == ["flush"]:
            pass
        return made

    def answer(self, words):
        told = super().answer(words)
        self.counted.update(counted.of_record(words + told))
        return told


class Mixed:
    """All that is done on one server at once, until a moment."""

    def __init__(self, port, metrics, host, most, closed):
        self.port, self.metrics, self.host, self.end = port, metrics, host, time.monotonic() + SECONDS
        seed, version = settings.seed(), version_of(port, host)
        own_keys.spend_numbers(port, host)
        self.begun = scrape(metrics)
        self.small = [self.talker(own_keys.Source(seed, number, b"c%d." % number, MOMENT), version) for number in range(OWN)]
        self.large = [self.talker(Blocks(seed, number, most), version) for number in range(LARGE)]
        self.callers, self.seed, self.scrapes, self.shared = [], seed, 0, collections.Counter()
        for it in self.small + self.large:
            closed.enter_context(it.peer)

    def talker(self, source, version):
        made = Talker(self.port, source, version, PAGES, self.host)
        made.model.store = Store(MOMENT, PAGES)
        made.model.store.greatest = 2**23
        return made

    def talks(self, talkers):
        """These send something and are answered, again and again."""
        chance = random.Random(self.seed)
        while time.monotonic() < self.end:
            take_a_round(talkers, chance)

    def share(self):
        """Records of callers on shared keys, each of which an order of their calls explains. Gives those that it doesn't."""
        seed = self.seed
        while time.monotonic() < self.end:
            seed += 1
            with contextlib.ExitStack() as closed:
                callers = [Sharing(self.port, f"c{number}", seed, self.host) for number in range(SHARED)]
                for it in callers:
                    closed.enter_context(it.peer)
                record = [in_rounds, freely][seed % 2](callers)
                for it in callers:
                    self.shared.update(it.counted)
                # the next record begins without these keys
                callers[0].peer.asks(b"".join(b"set %s 0 0 0\r\n\r\ndelete %s\r\n" % (key, key) for key in KEYS), b"STORED\r\nDELETED\r\n" * len(KEYS))
                self.shared.update({counted.command("set", "hit"): len(KEYS), counted.STORED: len(KEYS), counted.command("delete", "hit"): len(KEYS)})
            verdict, why = check(record)
            if not verdict:
                raise AssertionError(f"no order explains this record of seed {seed}: {why}\n" + shown(record.encode(), 20000).replace("\\n", "\n"))

    def watch(self):
        """No number of what was done falls, and no more connections are counted than there are."""
        last = self.begun
        while time.monotonic() < self.end:
            now = scrape(self.metrics)
            fallen = [it for it in now if "_total" in it and now[it] < last.get(it, 0)]
            if fallen or not OWN <= now[CONNECTIONS] <= OWN + LARGE + 10 * SHARED:
                raise AssertionError(f"fallen: {fallen}; {now[CONNECTIONS]} connections")
            last, self.scrapes = now, self.scrapes + 1
            time.sleep(0.05)

    def done(self):
        """What was done, as the server is to tell it."""
        made, stores = collections.Counter(self.shared), [it.model.store for it in self.small + self.large]
        for it in stores:
            made.update(it.counted)
        made[ITEMS] = sum(len(it.items) for it in stores)
        return +made

    def told(self):
        """What the server tells of the same."""
        now = scrape(self.metrics)
        grown = {name: now[name] - self.begun[name] for name in now if name.startswith(("memcached_commands_total", counted.STORED, ITEMS))}
        return +collections.Counter(grown)


@tests_of(ROWS, lambda row: f"t {row[0]} {row[1]}".replace("-", ""))
class Matrix(ProgramCase):
    def check(self, row):
        workers, options, host, most = row
        self.wants(host)
        metrics = free_port()
        with StillServer(args=[*options.split(), "--metrics", str(metrics)], workers=workers, pages=PAGES, host=host) as server:
            with contextlib.ExitStack() as closed:
                mixed = Mixed(server.port, metrics, host, most, closed)
                with ThreadPoolExecutor(4) as pool:
                    jobs = [pool.submit(mixed.talks, mixed.small), pool.submit(mixed.talks, mixed.large), pool.submit(mixed.share), pool.submit(mixed.watch)]
                    for it in jobs:
                        it.result()
                self.assertTrue(until(lambda: mixed.told() == mixed.done(), SOON), f"told {mixed.told()}, done {mixed.done()}")
                done = mixed.done()
                print(f"    {sum(done.values())} steps, {done[ITEMS]} items, {mixed.scrapes} scrapes")
                self.assertGreater(mixed.scrapes, 0)
            with Peer(server.port, host=host) as peer:
                peer.asks(b"flush_all\r\n", b"OK\r\n")
            self.assertTrue(until(lambda: (scrape(metrics)[ITEMS], scrape(metrics)[CONNECTIONS]) == (0, 0), SOON), scrape(metrics))

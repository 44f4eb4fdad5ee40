"""Large items that are sent from where they lie: what that saves, what it costs at most, and that no write is refused for it."""
import contextlib
import random

from tests.lib.abuse import GIVEN_BACK, LITTLE, MB, costs
from tests.lib.case import ProgramCase
from tests.lib.large import Told, Unread, block, kept_bytes, setting
from tests.lib.peer import Peer
from tests.lib.server import StillServer
from tests.lib.wait import until

GREATEST = 8 * MB
REFUSED = b"SERVER_ERROR out of memory storing object\r\n"
# How many read nothing of an item of so many bytes, and what all may cost: a copy of one is between 0.3 and 7.8 MB.
READERS, SHARED = 40, 5 * MB
LENGTHS = [480_000, 500_000, 1_000_000, 7_900_000]
# Lengths of blocks, how many of them a page has, and how often each is written.
CHUNKS = [(1_000_000, 1, 3), (300_000, 3, 2), (120_000, 8, 1), (40_000, 24, 1)]
# Pages of a store, and what the program may have beside them.
PAGES, BESIDE = 8, 10 * MB
# Who waits for room in the buffers has it in so many seconds.
LET_ON = 60


class GetLargeMemory(ProgramCase):
    def test_readers_share_an_item(self):
        """Many clients get one item twice and read nothing: the server keeps no copy for each. The system may hold one answer, and not both."""
        for length in LENGTHS:
            with self.subTest(length), StillServer(greatest=GREATEST, pages=16, workers=2, buffers=1024) as server, Peer(server.port) as peer:
                told = Told(peer, 16, GREATEST)
                told.asks(setting(b"shared", block(1, length)))
                told.asks(b"get shared\r\n")
                wanted, before = told.answer(b"get shared\r\n") * 2, server.memory()
                with contextlib.ExitStack() as closing:
                    readers = [closing.enter_context(Unread(server.port, b"get shared\r\n" * 2)) for _ in range(READERS)]
                    self.assertTrue(all([it.begins() for it in readers]))
                    kept = sum(kept_bytes(readers, [len(wanted)] * READERS))
                    self.assertGreater(kept, READERS * 300_000, "bytes that the server keeps")
                    cost = server.memory() - before
                    print(f"    {kept >> 20} MB of answers that wait cost {cost >> 10} kB")
                    self.assertLess(cost, SHARED)
                    for it in readers:
                        it.reads_slowly(wanted, 0)

    def test_readers_share_an_item_that_is_touched(self):
        """An item's expiry is set behind each of its readers: they still have one memory, as the header lies beside the block."""
        for length in LENGTHS:
            with self.subTest(length), StillServer(greatest=GREATEST, pages=16, workers=2, buffers=1024) as server, Peer(server.port) as peer:
                told, readers = Told(peer, 16, GREATEST), []
                told.asks(setting(b"shared", block(1, length)))
                told.asks(b"get shared\r\n")
                wanted, before = told.answer(b"get shared\r\n"), server.memory()
                with contextlib.ExitStack() as closing:
                    for number in range(READERS):
                        readers.append(closing.enter_context(Unread(server.port, b"get shared\r\n")))
                        self.assertTrue(readers[-1].begins())
                        told.asks(b"touch shared %d\r\n" % (1000 + number))
                    cost = server.memory() - before
                    print(f"    {READERS} readers of {length} bytes, touched behind each, cost {cost >> 10} kB")
                    self.assertLess(cost, SHARED)
                    for it in readers:
                        it.reads_slowly(wanted, 0)

    def test_writes_are_refused_as_without_readers(self):
        """Clients that read nothing have parts of a full store: the same writes are refused, and each reads what was there."""
        for seed in range(2):
            with self.subTest(seed), StillServer(pages=PAGES, workers=2, buffers=128) as server, Peer(server.port, LET_ON) as peer:
                told, readers, chance, counts = Told(peer, PAGES, MB), [], random.Random(seed), [0, 0]
                with contextlib.ExitStack() as closing:
                    for number in range(400):
                        reply = self.step(told, chance, number)
                        counts[reply == REFUSED] += reply in (REFUSED, b"STORED\r\n")
                        if len(readers) == 24:
                            self.ends(*readers.pop(chance.randrange(24)))
                        asked = b"get item%d\r\n" % chance.randrange(PAGES + 2)
                        reader = closing.enter_context(Unread(server.port, asked, LET_ON))
                        readers.append((reader, told.answer(asked)))
                        self.assertTrue(reader.begins())
                    for it in readers:
                        self.ends(*it)
                print(f"    {counts[0]} writes were stored, and {counts[1]} were refused")
                self.assertGreater(min(counts), 50)

    def ends(self, reader, wanted):
        reader.reads_slowly(wanted, 0)
        reader.close()

    def step(self, told, chance, number):
        """A step on one of some more items than there are pages, as the model answers it."""
        key, act = b"item%d" % chance.randrange(PAGES + 2), chance.random()
        data = block(number, chance.choice([500_000, 700_000, 1_000_000]))
        if act < 0.6:
            return told.asks(setting(key, data))
        if act < 0.75:
            return told.asks(b"append %s 0 0 16\r\n%s\r\n" % (key, data[:16]))
        if act < 0.8:
            return told.asks(b"touch %s %d\r\n" % (key, chance.choice([0, 100])))
        return told.asks(b"delete %s\r\n" % key)

    def test_each_chunk_is_written_while_it_is_read(self):
        """Each chunk of a store is written while a client reads it, and again: what was reserved for copies isn't in memory afterwards."""
        pages, limit = 64, 16
        for length, many, rounds in CHUNKS:
            with self.subTest(length), StillServer(pages=pages, workers=2, buffers=limit) as server, Peer(server.port) as peer:
                told, before = Told(peer, pages, MB), server.memory()
                numbers = range((pages - 2) * many)
                for number in numbers:
                    told.asks(setting(b"item%d" % number, block(number, length)))
                for number in list(numbers) * rounds:
                    asked = b"get item%d\r\n" % number
                    with Unread(server.port, asked) as reader:
                        wanted = told.answer(asked)
                        self.assertTrue(reader.begins())
                        told.asks(b"append item%d 0 0 16\r\n%s\r\n" % (number, block(0, 16)))
                        reader.reads_slowly(wanted, 0)
                print(f"    {length} bytes: {server.memory() - before >> 20} MB")
                costs(server, before, pages * MB + limit * MB + BESIDE)

    def test_who_leaves_holds_nothing(self):
        """200 clients get an item that is set anew for each, and leave without reading it: its memory comes back."""
        with StillServer(greatest=GREATEST, pages=PAGES * 3, workers=2) as server, Peer(server.port) as peer:
            told, parts = Told(peer, PAGES * 3, GREATEST), [1_000_000, 500_000, 2_500_000]
            for number in range(PAGES * 3):
                told.asks(setting(b"fill%d" % number, block(number, 1_000_000)))
            told.asks(b"flush_all\r\n")
            before = server.memory()
            for number in range(200):
                told.asks(setting(b"left", block(number, parts[number % 3])))
                reader = Unread(server.port, b"get left\r\n" * 3)
                self.assertTrue(reader.begins())
                if number % 2:
                    reader.reset()
                else:
                    reader.close()
            server.settle()
            had = until(lambda: server.memory() <= before + 2 * LITTLE, GIVEN_BACK)
            self.assertTrue(had, f"it has {server.memory() - before >> 20} MB more")
            costs(server, before, 4 * LITTLE)


class Pieces(ProgramCase):
    """Pages of an item that lie in one memory: a page that serves another item, or is written, keeps nothing of the others."""

    @contextlib.contextmanager
    def store(self, pages, limit=16):
        with StillServer(greatest=GREATEST, pages=pages, workers=1, buffers=limit) as server, Peer(server.port, LET_ON) as peer:
            before = server.memory()
            yield Told(peer, pages, GREATEST)
            print(f"    {server.memory() - before >> 20} MB of {pages} pages")
            costs(server, before, pages * MB + limit * MB + BESIDE)

    def test_small_items_in_their_places(self):
        """Eight items of eight pages are deleted one by one, and each time seven of a page come."""
        with self.store(64) as told:
            for number in range(8):
                told.asks(setting(b"large%d" % number, block(number, 7_900_000)))
            for number in range(8):
                told.asks(b"delete large%d\r\n" % number)
                for page in range(7):
                    told.asks(setting(b"small%d" % (7 * number + page), block(page, 1_000_000)))
            told.asks(b"get small0 small13 small55\r\n")

    def test_appends(self):
        """Items of two pages are appended to."""
        with self.store(96) as told:
            for number in range(48):
                told.asks(setting(b"item%d" % number, block(number, 1_200_000)))
                told.asks(b"append item%d 0 0 16\r\n%s\r\n" % (number, block(number, 16)))
            told.asks(b"get item0 item47\r\n")

"""Who reads a large item slowly gets it as it was when it was asked for, whatever becomes of it meanwhile."""
import random
import threading
import time

from tests.lib.case import ProgramCase
from tests.lib.faults import Faults
from tests.lib.large import Told, Unread, block, setting
from tests.lib.peer import Peer
from tests.lib.server import Server, StillServer
from tests.lib.wait import until

MB = 2**20
GREATEST, PAGES = 8 * MB, 24
REFUSED = b"SERVER_ERROR out of memory storing object\r\n"
# Blocks in the smallest chunk that is lent, in larger ones up to half a page, and in a page or several.
LENGTHS = [33_904 - 48 - 3, 130_000, 493_552 - 48 - 3, 493_552 - 48 - 2, 1_000_000, 2 * MB - 48 - 3, 7_900_000]
# Items change while they are read for at least so many seconds, and at most for so many more, until so many changes and reads of each kind are seen.
LEAST_SECONDS, MOST_SECONDS, LEAST_SEEN = 12, 60, 30


# ---- what becomes of an item: each takes a client whose answers are the model's, and the item's length


def set_anew(told, length):
    """So often that its pages are used again."""
    for number in range(PAGES + 2):
        told.asks(setting(b"old", block(number, length)))


def grown(verb):
    def grow(told, length):
        for number in range(20):
            told.asks(b"%s old 0 0 16\r\n%s\r\n" % (verb, block(number, 16)))
        told.asks(setting(b"old", block(3, 100_000)))
        told.asks(b"%s old 0 0 %d\r\n%s\r\n" % (verb, length // 2, block(4, length // 2)))

    return grow


def filled(told, length):
    """Fills the store with others, up to the first that finds no page."""
    count = 0
    while told.asks(setting(b"f%d" % count, block(count + 10, length))) != REFUSED:
        count += 1


def deleted(told, length):
    told.asks(b"delete old\r\n")
    filled(told, length)


def touched(told, length):
    told.asks(b"touch old 100\r\ntouch old -1\r\nget old\r\n")
    filled(told, length)


def flushed(told, length):
    told.asks(b"flush_all\r\n")
    filled(told, length)


def compared(told, length):
    told.asks(b"touch old 7\r\n")
    unique = told.session.store.items[b"old"].unique
    told.asks(b"cas old 0 0 %d %d\r\n%s\r\n" % (length, unique, block(5, length)))
    told.asks(b"cas old 0 0 %d %d\r\n%s\r\n" % (length, unique, block(6, length)))
    filled(told, length)


def made_small(told, length):
    told.asks(setting(b"old", b"17"))
    told.asks(b"incr old 5\r\nget old\r\n")
    filled(told, length)


CHANGES = {
    "set anew": set_anew,
    "appended to": grown(b"append"),
    "prepended to": grown(b"prepend"),
    "deleted": deleted,
    "expired": touched,
    "flushed": flushed,
    "compared and set": compared,
    "made small": made_small,
}


# ---- many at once


class Writer(threading.Thread):
    """A client that changes an item of its own again and again, and notes what it has been.

    A value is the numbers and lengths of the blocks that it was made of, or None where there is no item."""

    def __init__(self, port, key, seed, over):
        super().__init__(daemon=True)
        self.port, self.key, self.random, self.over, self.fault = port, key, random.Random(seed), over, None
        # (of all values those up to `sure` have been stored: an answer says so)
        self.values, self.sure, self.number = [None], 0, seed * 100_000

    def run(self):
        try:
            with Peer(self.port, 30) as peer:
                while not self.over.is_set():
                    self.turn(peer)
        except (OSError, AssertionError) as error:
            self.fault = error

    def part(self, length):
        self.number += 1
        return self.number, length

    def turn(self, peer):
        now, act = self.values[-1], self.random.random()
        length = self.random.choice([100, 20_000, 60_000, 200_000, 400_000, 500_000, 1_000_000, 3_000_000, 7_900_000])
        if now is None or act < 0.4:
            self.changes(peer, b"set", (), self.part(length))
        elif act < 0.9:
            verb, joined = self.random.choice([b"append", b"prepend"]), self.random.choice([32, 5000, 600_000])
            if sum(size for _, size in now) + joined < 7_950_000:
                self.changes(peer, verb, now, self.part(joined))
        elif act < 0.95:
            peer.asks(b"touch %s 1000\r\n" % self.key, b"TOUCHED\r\n")
        else:
            self.values.append(None)
            peer.asks(b"delete %s\r\n" % self.key, b"DELETED\r\n")
            self.sure = len(self.values) - 1

    def changes(self, peer, verb, now, part):
        self.values.append((part, *now) if verb == b"prepend" else (*now, part))
        data = block(*part)
        peer.asks(b"%s %s 0 0 %d\r\n%s\r\n" % (verb, self.key, len(data), data), b"STORED\r\n")
        self.sure = len(self.values) - 1


class SlowReader(threading.Thread):
    """A client that gets the items of writers and reads them slowly; each must be one that it was since it was asked for."""

    def __init__(self, port, writers, seed, over, receives):
        super().__init__(daemon=True)
        self.port, self.writers, self.over, self.receives = port, writers, over, receives
        # (blocks that were read: all, those in chunks below a page that are lent, and those in pages)
        self.random, self.fault, self.read, self.middle, self.large = random.Random(seed), None, 0, 0, 0

    def run(self):
        try:
            with Unread(self.port, b"", 30, self.receives) as peer:
                while not self.over.is_set():
                    self.turn(peer)
        except (OSError, AssertionError) as error:
            self.fault = error

    def turn(self, peer):
        asked = self.random.sample(self.writers, self.random.choice([1, 1, 2]))
        sure = {it: it.sure for it in asked}
        verb = self.random.choice([b"get", b"gat 1000"])
        peer.send(b"%s %s\r\n" % (verb, b" ".join(it.key for it in asked)))
        pause = self.random.choice([0, 0.0005, 0.002])
        while (line := peer.upto(b"\r\n")) != b"END\r\n":
            words = line.split()
            writer = next((it for it in asked if words[:2] == [b"VALUE", it.key]), None)
            if not line.endswith(b"\r\n") or writer is None:
                raise AssertionError(f"a get of {[it.key for it in asked]} is told {line}")
            self.reads(peer, writer, writer.values[sure.pop(writer) :], int(words[3]), pause)
        for writer, first in sure.items():
            if None not in writer.values[first:]:
                raise AssertionError(f"item {writer.key} isn't there, and was all the time")

    def reads(self, peer, writer, values, length, pause):
        """Reads a block: by its first bytes it is told which of the values it is."""
        possible = [it for it in values if it and sum(size for _, size in it) == length]
        begun = peer.exactly(min(16, length))
        peer.got = begun + peer.got
        for value in possible:
            data = b"".join(block(*part) for part in value)
            if data.startswith(begun):
                peer.reads_slowly(data + b"\r\n", pause)
                self.read += 1
                self.middle += 33_904 < length <= 493_502
                self.large += length > 493_502
                return
        raise AssertionError(f"item {writer.key} of {length} bytes begins with {begun}, and is none of {possible}")


def seen(writers, readers):
    """How many changes were made, and how many blocks below a page and of pages were read."""
    return sum(it.sure for it in writers), sum(it.middle for it in readers), sum(it.large for it in readers)


class GetLarge(ProgramCase):
    def test_an_item_that_changes_while_it_is_read(self):
        """A client has the first bytes of a large item when that is changed, and its pages are used for others: it is told the rest."""
        for length in LENGTHS:
            for name, change in CHANGES.items():
                with self.subTest(f"{length} bytes, {name}"), StillServer(greatest=GREATEST, pages=PAGES, workers=2) as server:
                    self.changes(server.port, length, change)

    def changes(self, port, length, change):
        with Peer(port) as peer:
            told = Told(peer, PAGES, GREATEST)
            told.asks(setting(b"old", block(1, length)))
            asked, many = b"get old\r\n", b"gets old none old\r\n" + b"get old\r\n" * 3
            with Unread(port, asked) as one, Unread(port, many) as other:
                wanted = [told.answer(it) for it in (asked, b"gets old none old\r\n")]
                self.assertTrue(one.begins() and other.begins())
                change(told, length)
                one.reads_slowly(wanted[0], 0)
                # (of the second only the first block was decided)
                other.reads_slowly(wanted[1][: wanted[1].index(b"\r\n") + 2 + length], 0)
                told.asks(b"get old\r\n")

    def test_no_block_is_torn(self):
        """Four clients change an item each, of 100 bytes to 7.9 MB, while ten read them slowly."""
        with StillServer(greatest=GREATEST, pages=256, workers=2, buffers=256) as server:
            over = threading.Event()
            writers = [Writer(server.port, b"item%d" % seed, seed, over) for seed in range(4)]
            readers = [SlowReader(server.port, writers, 10 + at, over, [4096, 16384, 65536][at % 3]) for at in range(10)]
            for it in writers + readers:
                it.start()
            time.sleep(LEAST_SECONDS)
            until(lambda: min(seen(writers, readers)) >= LEAST_SEEN or any(it.fault for it in writers + readers), MOST_SECONDS, 0.1)
            over.set()
            for it in writers + readers:
                it.join(60)
            for it in writers + readers:
                if it.fault:
                    raise it.fault
                self.assertFalse(it.is_alive())
            self.assertTrue(server.runs())
        changed, middle, large = seen(writers, readers)
        read = sum(it.read for it in readers)
        print(f"    {changed} changes, {read} blocks read, {middle} of them of 34 KB to half a page, {large} of pages")
        self.assertGreaterEqual(min(changed, middle, large), LEAST_SEEN)

    def test_many_in_one_request_and_behind_it(self):
        """Large and small items in one get, and many gets in one write: each byte is as it is to be."""
        lengths = [1_000_000, 10, 500_000, 7_900_000, 0, 100_000, 1_048_576 - 48 - 5, 493_400, 2_500_000, 1]
        with StillServer(greatest=GREATEST, pages=64, workers=2) as server, Peer(server.port) as peer:
            told = Told(peer, 64, GREATEST)
            for at, length in enumerate(lengths):
                told.asks(setting(b"item%d" % at, block(at, length)))
            keys = [b"item%d" % at for at in range(len(lengths))]
            everything = b"gets " + b" ".join(keys[:5] + [b"none"] + keys[5:] + keys[:3]) + b"\r\n"
            pipelined = b"get item0\r\nget item1\r\nget none\r\nget item2 item0 item9\r\n" * 20 + b"version\r\n"
            for sent in (everything, b"get item0 item2 item4 item6\r\n" * 3, pipelined, everything + pipelined):
                wanted = told.answer(sent)
                for receives in (4096, 2**20):
                    with Unread(server.port, sent, 60, receives) as reader:
                        reader.reads_slowly(wanted, 0)

    def test_an_answer_is_one_call(self):
        """The line before a block that is lent, the block and the end behind it go to the system by one call."""
        with Faults() as faults, Server(faults=faults) as server, Peer(server.port) as peer:
            told = Told(peer, 64, MB)
            for length in (33_904 - 48 - 4, 40_000, 65_536):
                with self.subTest(length):
                    told.asks(setting(b"item", block(1, length)))
                    before = faults.made("send") + faults.made("sendmsg")
                    told.asks(b"get item\r\n")
                    self.assertEqual(faults.made("send") + faults.made("sendmsg") - before, 1)

    def test_the_end_behind_large_items(self):
        """Who sends the end behind gets of large items is told all that was asked for, and then the end of the stream."""
        for end, text in ((b"quit\r\n", b""), (b"q" * 65537, b"CLIENT_ERROR line too long\r\n")):
            with self.subTest(end[:4]), StillServer(greatest=GREATEST, pages=16, workers=1) as server, Peer(server.port) as peer:
                told = Told(peer, 16, GREATEST)
                told.asks(setting(b"old", block(1, 3_000_000)))
                with Unread(server.port, b"get old\r\nget old\r\n" + end) as reader:
                    self.assertTrue(reader.begins())
                    wanted = told.answer(b"get old\r\n")
                    told.asks(b"delete old\r\n")
                    # (the second get is decided when the first is sent)
                    reader.reads_slowly(wanted + told.answer(b"get old\r\n") + text, 0)
                    self.assertTrue(reader.is_closed())

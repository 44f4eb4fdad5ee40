"""Large items that are changed behind each of their readers: what has left the store is bound by pages and the limit of buffers."""
import contextlib
import time
from concurrent.futures import ThreadPoolExecutor

from tests.lib.abuse import MB
from tests.lib.case import ProgramCase
from tests.lib.large import Told, Unread, block, kept_bytes, setting
from tests.lib.peer import Peer
from tests.lib.server import StillServer
from tests.lib.wait import until

# Pages of a store, the limit of buffers in MiB, and what the program may have beside both.
PAGES, LIMIT, BESIDE = 8, 32, 10 * MB
# Who waits for room in the buffers has it in so many seconds.
LET_ON = 60
# So few bytes of an answer are left with the server when a client stops reading. It looks after so many bytes, and tries that so often.
FEW, STEP, TRIES = 250_000, 8192, 8


def set_anew(told, length):
    """Has other items in all pages, so that each page is written again, and the item in another one."""
    for number in range(PAGES):
        told.asks(setting(b"new%d" % number, block(number, length)))
    told.asks(b"".join(b"delete new%d\r\n" % number for number in range(PAGES)))
    told.asks(setting(b"old", block(0, length)))


def append(told, length):
    """Writes to the page where it lies; a small request waits for nobody."""
    told.asks(b"append old 0 0 16\r\n%s\r\n" % block(0, 16))


def reads_nothing(reader, asked, length):
    """Leaves all of the answer."""


def leaves_the_last(reader, asked, length):
    """Reads all of the answer but a few bytes, which the server still has."""
    for _ in range(TRIES):
        while (left := kept_bytes([reader], [length])[0]) > FEW:
            upto, end = len(reader.got) + STEP, time.monotonic() + reader.seconds
            while len(reader.got) < upto and reader.more(end):
                pass
        if left > 0:
            return
        reader.exactly(length)
        reader.send(asked)
        reader.begins()


# How long the item is, how it is changed behind each reader, how many readers there are at most, and how far they read.
BOUNDED = [
    ("a page that is set anew", 1_000_000, set_anew, 22, reads_nothing),
    ("a page that is appended to", 900_000, append, 80, reads_nothing),
    ("half a page that is appended to", 494_000, append, 80, reads_nothing),
    ("a chunk of 202,152 bytes that is appended to", 200_000, append, 100, reads_nothing),
    ("a page, read but for its end", 900_000, append, 80, leaves_the_last),
    ("half a page, read but for its end", 494_000, append, 80, leaves_the_last),
]


class GetLargeChanged(ProgramCase):
    def test_readers_of_items_that_are_written_again(self):
        """Clients have parts of an item that is changed behind each of them: memory is bound by pages and the limit of buffers.

        Who has the last bytes of a page has a page. Beyond the limit the slowest are closed. Each has a server of its own, beside the others."""
        with ThreadPoolExecutor(len(BOUNDED)) as pool:
            ends = {it[0]: pool.submit(self.is_bounded, *it) for it in BOUNDED}
            for name, end in ends.items():
                with self.subTest(name):
                    end.result()

    def is_bounded(self, name, length, change, count, reads):
        """Readers come and an item changes behind each: what the server has then is at most its pages and the limit."""
        with StillServer(pages=PAGES, workers=1, buffers=LIMIT) as server, Peer(server.port, LET_ON) as peer:
            told, readers, before = Told(peer, PAGES, MB), [], server.memory()
            told.asks(setting(b"old", block(0, length)))
            with contextlib.ExitStack() as closing:
                while len(readers) < count and all(it.got for it in readers):
                    readers.append(closing.enter_context(Unread(server.port, b"get old\r\n")))
                    if readers[-1].begins(0.5):
                        reads(readers[-1], b"get old\r\n", len(told.answer(b"get old\r\n")))
                    change(told, length)
                for _ in range(20):
                    append(told, length)
                came = sum(bool(it.got) for it in readers)
                print(f"    {name}: {server.memory() - before >> 20} MB, {came} readers")
                self.assertGreaterEqual(came, count // 2, "readers that came")
                # the slowest of those that hold what has left are closed, at most 16 in a quarter of a second
                most = before + PAGES * MB + LIMIT * MB + BESIDE
                self.assertTrue(until(lambda: server.memory() <= most, 5), f"{server.memory() >> 20} MB, and {most >> 20} are meant to do")

"""The chunk of an item that is dead is free within a minute, though nobody asks for the item again."""
import time

from tests.lib.case import ProgramCase, side_by_side, tests_of
from tests.lib.peer import Peer
from tests.lib.server import Server
from tests.lib.wait import until

PAGE = 2**20
# Blocks of 100 bytes under keys of 6 take 48 + 6 + 100 bytes, and so chunks of 192, the fourth size.
BLOCK, CHUNKS = b"s" * 100, PAGE // 192
STORED, REFUSED = b"STORED\r\n", b"SERVER_ERROR out of memory storing object\r\n"
# So many seconds the first items live, long enough for a machine that is busy to store all of them.
LIVED = 5
# A second for each shelf that one worker comes to, the second in which the last items die, and time for a machine that is busy.
ROWS = [
    ("one worker, of eight shelves", ["--shelves", "8"], 1, 8 + 1 + 6),
    ("four workers, of as many shelves as usual", [], 4, 60),
]


def setting(letter, at, exptime):
    return b"set %s%05d 0 %d %d\r\n%s\r\n" % (letter, at, exptime, len(BLOCK), BLOCK)


@side_by_side
@tests_of(ROWS, lambda row: row[0])
class ItemsReclaimed(ProgramCase):
    def check(self, row):
        """A page is filled with items that die; no key of theirs is used again, and within the time others fill it to the last chunk."""
        _, options, workers, seconds = row
        with Server(pages=1, workers=workers, args=options) as server, Peer(server.port) as peer:
            peer.send(b"".join(setting(b"k", at, LIVED) for at in range(CHUNKS)))
            peer.is_told(STORED * CHUNKS)
            dead = time.monotonic() + LIVED
            peer.asks(setting(b"n", 0, 0), REFUSED)
            kept = 0

            def is_full():
                """Stores new items up to the first that is refused, and says whether they fill the page."""
                nonlocal kept
                while kept < CHUNKS:
                    peer.send(setting(b"n", kept, 0))
                    if peer.upto(b"\r\n") != STORED:
                        return False
                    kept += 1
                return True

            until(is_full, dead + seconds - time.monotonic(), 0.1)
            self.assertEqual(CHUNKS, kept, "items that were stored in the chunks of the dead")
            peer.asks(setting(b"n", CHUNKS, 0), REFUSED)

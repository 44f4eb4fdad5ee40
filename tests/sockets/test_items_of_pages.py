"""Items of several pages: stored, read and joined by many at once, and blocks of such that are begun and never end."""
from tests.lib.abuse import LITTLE, MB, ONE, abused, costs, kept_of
from tests.lib.case import ProgramCase
from tests.lib.peer import clients

OPTIONS = {"greatest": 8 * MB, "pages": 256}
# An item of eight pages, with its key and its header.
LARGE = 8 * MB - 100
# What is held of such an item between a session and the store: the block as it comes, or as it goes.
HELD = 3 * 8 * MB


def block(number, size=LARGE):
    """Bytes that differ from page to page."""
    text = b"".join(b"%d.%d," % (number, page) + b"x" * 65536 for page in range(size // 65536 + 1))
    return text[:size]


class ItemsOfPages(ProgramCase):
    def test_they_come_back_whole(self):
        """Each of some clients stores an item of eight pages and reads that of another, and a small one beside it."""
        count = 8
        with abused(LITTLE + count * HELD + 100 * MB, **OPTIONS) as server, clients(server.port, count) as peers:
            for number, peer in enumerate(peers):
                peer.asks(b"set page%d 0 0 %d\r\n%s\r\n" % (number, LARGE, block(number)), b"STORED\r\n")
            for number, peer in enumerate(peers):
                wanted = block((number + 1) % count)
                value = b"VALUE page%d 0 %d\r\n%s\r\n" % ((number + 1) % count, LARGE, wanted)
                peer.asks(b"get page%d page%d\r\n" % ((number + 1) % count, (number + 1) % count), value + value + b"END\r\n")

    def test_they_are_joined(self):
        """A client appends and prepends to an item until it has eight pages, and one more byte is too large."""
        piece = block(1, 1_000_000)
        with abused(LITTLE + 2 * HELD + 20 * MB, **OPTIONS) as server, clients(server.port, 1) as (peer,):
            peer.asks(b"set joined 0 0 %d\r\n%s\r\n" % (len(piece), piece), b"STORED\r\n")
            for _ in range(3):
                peer.asks(b"append joined 0 0 %d\r\n%s\r\n" % (len(piece), piece), b"STORED\r\n")
                peer.asks(b"prepend joined 0 0 %d\r\n%s\r\n" % (len(piece), piece), b"STORED\r\n")
            whole = piece * 7
            peer.asks(b"get joined\r\n", b"VALUE joined 0 %d\r\n%s\r\nEND\r\n" % (len(whole), whole))
            rest = b"y" * (8 * MB - 48 - len(b"joined") - len(whole) + 1)
            too_large = b"SERVER_ERROR object too large for cache\r\n"
            peer.asks(b"append joined 0 0 %d\r\n%s\r\n" % (len(rest), rest), too_large)
            peer.asks(b"append joined 0 0 %d\r\n%s\r\n" % (len(rest) - 1, rest[1:]), b"STORED\r\n")

    def test_a_thousand_begin_a_block_that_never_ends(self):
        """Each sends a sixteenth of eight pages: they cost what they sent, and no more than the small items do."""
        count, sent = 1000, LARGE // 16 + 1
        with abused(kept_of(count), **OPTIONS) as server:
            before = server.memory()
            with clients(server.port, count) as peers:
                for peer in peers:
                    peer.send(b"set begun 0 0 %d\r\n" % LARGE + b"x" * sent)
                peers[0].asks(b"x" * (LARGE - sent) + b"\r\n", b"STORED\r\n")
                costs(server, before, count * ONE)

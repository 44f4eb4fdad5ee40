"""The first lines: what of memcached's command line changes nothing is named on the first, and few pages are warned of."""
from tests.lib.case import ProgramCase
from tests.lib.listening import Listener
from tests.lib.peer import answers
from tests.lib.server import HOST, free_port
from tests.lib.wait import until

# Options of memcached, and how the first line ends with them.
ENDINGS = [
    ([], b""),
    (["-M", "-U", "0"], b""),
    (["-R", "20"], b"; ignored: -R"),
    (["-o", "modern,slab_reassign", "-o", "lru_crawler", "-b", "1024", "-C", "-B", "auto"], b"; ignored: -o, -b, -B, -C"),
    (["-f", "1.25", "-n", "48", "-L", "-X", "-W", "-N", "2"], b"; ignored: -f, -n, -L, -X, -W, -N"),
]
# The pages of a store, and the warning of them: there are 40 sizes of chunks.
FEW = [(1, True), (39, True), (40, False)]


class FirstLines(ProgramCase):
    def said(self, *options, lines):
        """The first lines of a program that answers."""
        port = free_port()
        with Listener([self.program, "-p", str(port), *options]) as started:
            said = [started.line() for _ in range(lines)]
            self.assertTrue(until(lambda: answers(HOST, port), 2), "nothing answers")
            return said, started.rest()

    def test_options_that_change_nothing_are_named(self):
        for options, end in ENDINGS:
            with self.subTest(" ".join(options)):
                (first,), rest = self.said(*options, lines=1)
                self.assertRegex(first, rb"\Amcserver: listening on [0-9.:]+, 64 pages, 4 workers%s\n\Z" % end)
                self.assertEqual(b"", rest)

    def test_fewer_pages_than_sizes_are_warned_of(self):
        for pages, warns in FEW:
            with self.subTest(pages):
                said, rest = self.said("-m", str(pages), lines=1 + warns)
                wanted = b"mcserver: warning: with -m %d only %d of the 40 sizes of chunks find a page\n" % (pages, pages)
                self.assertEqual([wanted][:warns], said[1:])
                self.assertEqual(b"", rest)

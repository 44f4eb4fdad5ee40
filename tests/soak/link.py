"""A connection whose answers are all compared."""
from tests.lib.compare import difference, shown
from tests.lib.peer import Late, Peer


class Wrong(Exception):
    """An answer is another than it must be; the text says what was sent, expected and seen."""


class Link(Peer):
    """A connection."""

    def __init__(self, address):
        super().__init__(address[1], host=address[0])

    def exactly(self, size):
        try:
            return super().exactly(size)
        except Late as late:
            raise Wrong(str(late)) from None

    def ask(self, sent, wanted):
        """Sends bytes, and compares what comes with what is wanted."""
        self.send(sent)
        self.await_answer(sent, wanted)

    def await_answer(self, sent, wanted):
        seen = self.exactly(len(wanted))
        if seen != wanted:
            raise Wrong(f"sent     {shown(sent, 4000)}\n{difference('the answer', wanted, seen)}")

    def ask_line(self, sent):
        self.send(sent)
        try:
            return self.upto(b"\n")
        except Late as late:
            raise Wrong(str(late)) from None

    def await_end(self, sent):
        """The server closes the connection and sends nothing more."""
        seen = self.exactly(1)
        if seen:
            raise Wrong(f"sent     {shown(sent)}\nexpected the end of the connection\nseen     {shown(seen)}")


def value_line(key, item):
    flags, block = item
    return b"VALUE %s %d %d\r\n%s\r\n" % (key, flags, len(block), block)

"""A plain, slow model of one session of the server, written from the protocol's rules alone.

`answer(stream, now, pages, greatest)` gives the bytes that a session over `stream` must write, with the
clock standing at `now` and a store of so many pages, whose items have at most so many bytes. The whole
stream is read at once, line by line; nothing here is shared with the server. The memory of the machine is
taken to be always there.

    python3 -m tests.lib.model --now 1000 -m 64 -I 1048576 < input     prints what the model answers
"""
import argparse
import sys

GREATEST = 1048576
LONGEST_LINE = 65536
LONGEST_KEY = 250
MOST_FLAGS = 2**32 - 1
MOST_BYTES = 2147483645
MOST_EXPTIME = 2**63 - 1
MOST_COUNT = 2**64 - 1
MONTH = 2592000
DIGITS = b"0123456789"
PAGE = 1048576
PAGES = 64

ERROR = b"ERROR\r\n"
BAD_FORMAT = b"CLIENT_ERROR bad command line format\r\n"
BAD_DELTA = b"CLIENT_ERROR invalid numeric delta argument\r\n"
TOO_LARGE = b"SERVER_ERROR object too large for cache\r\n"
BAD_CHUNK = b"CLIENT_ERROR bad data chunk\r\n"
TOO_LONG = b"CLIENT_ERROR line too long\r\n"
NO_CHUNK = b"SERVER_ERROR out of memory storing object\r\n"
NOT_NUMERIC = b"CLIENT_ERROR cannot increment or decrement non-numeric value\r\n"


class Fault(Exception):
    """A line that is no command: its text, and how many bytes after the line are passed over."""

    def __init__(self, text, passed=0):
        super().__init__(text)
        self.text, self.passed = text, passed


# ---- words


def words_of(line):
    """The maximal runs of bytes other than the space."""
    return [word for word in line.split(b" ") if word]


def number(word, most):
    """A number of decimal digits, leading zeros allowed."""
    if not word or any(byte not in DIGITS for byte in word):
        raise Fault(BAD_FORMAT)
    digits = word.lstrip(b"0") or b"0"
    if len(digits) > 20 or int(digits) > most:
        raise Fault(BAD_FORMAT)
    return int(digits)


def exptime_of(word):
    """A number that may have a minus before it."""
    if word.startswith(b"-"):
        return -number(word[1:], MOST_EXPTIME)
    return number(word, MOST_EXPTIME)


def key_of(word):
    if len(word) > LONGEST_KEY:
        raise Fault(BAD_FORMAT)
    return word


def quiet_of(words, count):
    """Whether a line of `count` words, or of one more that is noreply, is to be answered."""
    if len(words) == count:
        return False
    if len(words) == count + 1 and words[count] == b"noreply":
        return True
    raise Fault(ERROR)


# ---- the store


def chunk_sizes():
    """The size of a chunk of each class: from 96 on five quarters of the one before, and at last a page."""
    sizes = [96]
    while (size := -(-(sizes[-1] * 5 // 4) // 8) * 8) <= PAGE // 2:
        sizes.append(size)
    return [*sizes, PAGE]


SIZES = chunk_sizes()


def need_of(key, block):
    """The class of the chunks that hold the item, counted from 0, and how many: one of the smallest class, or several pages."""
    charge = 48 + len(key) + len(block)
    if charge > PAGE:
        return len(SIZES) - 1, -(-charge // PAGE)
    return next(at for at, size in enumerate(SIZES) if charge <= size), 1


class Item:
    def __init__(self, flags, expiry, block, unique, updated):
        self.flags, self.expiry, self.block = flags, expiry, block
        self.unique, self.updated = unique, updated


class Store:
    def __init__(self, now, pages, greatest=GREATEST):
        self.now, self.items, self.cut, self.next_unique = now, {}, None, 1
        self.pages_left, self.pages, self.greatest = pages, [0] * len(SIZES), greatest

    def takes_chunks(self, size_class, count):
        """Whether an item finds its chunks. Items that are dead and not dropped count."""
        needs = [need_of(key, item.block) for key, item in self.items.items()]
        used = sum(taken for held_class, taken in needs if held_class == size_class)
        chunks_a_page = PAGE // SIZES[size_class]
        lacking = max(count - (self.pages[size_class] * chunks_a_page - used), 0)
        wanted = -(-lacking // chunks_a_page)
        if wanted > self.pages_left:
            return False
        self.pages_left -= wanted
        self.pages[size_class] += wanted
        return True

    def expiry(self, exptime):
        """The moment from which on an item is dead; None is never."""
        if exptime == 0:
            return None
        if exptime < 0:
            return 0
        return self.now + exptime if exptime <= MONTH else exptime

    def is_dead(self, item):
        if item.expiry is not None and item.expiry <= self.now:
            return True
        return self.cut is not None and self.cut <= self.now and item.updated < self.cut

    def live(self, key):
        """The key's item, once it was dropped if it is dead."""
        item = self.items.get(key)
        if item is not None and self.is_dead(item):
            del self.items[key]
            return None
        return item

    def write(self, key, flags, expiry, block, reply, may_stay=False):
        """Writes an item and gives the reply, or finds no chunks. A count that needs what it has asks for none."""
        need = need_of(key, block)
        stays = may_stay and need_of(key, self.items[key].block) == need
        if not stays and not self.takes_chunks(*need):
            return NO_CHUNK
        self.items[key] = Item(flags, expiry, block, self.next_unique, self.now)
        self.next_unique += 1
        return reply

    def store(self, verb, key, flags, exptime, block):
        item = self.live(key)
        if verb == b"add" and item is not None or verb in (b"replace", b"append", b"prepend") and item is None:
            return b"NOT_STORED\r\n"
        expiry = self.expiry(exptime)
        if verb in (b"append", b"prepend"):
            flags, expiry = item.flags, item.expiry
            block = item.block + block if verb == b"append" else block + item.block
            if 48 + len(key) + len(block) > self.greatest:
                return TOO_LARGE
        return self.write(key, flags, expiry, block, b"STORED\r\n")

    def cas(self, key, flags, exptime, block, unique):
        item = self.live(key)
        if item is None:
            return b"NOT_FOUND\r\n"
        if item.unique != unique:
            return b"EXISTS\r\n"
        return self.write(key, flags, self.expiry(exptime), block, b"STORED\r\n")

    def read(self, key, with_unique, exptime=None):
        item = self.live(key)
        if item is None:
            return b""
        if exptime is not None:
            item.expiry = self.expiry(exptime)
        head = b"VALUE %s %d %d" % (key, item.flags, len(item.block))
        unique = b" %d" % item.unique if with_unique else b""
        return head + unique + b"\r\n" + item.block + b"\r\n"

    def touch(self, key, exptime):
        item = self.live(key)
        if item is None:
            return b"NOT_FOUND\r\n"
        item.expiry = self.expiry(exptime)
        return b"TOUCHED\r\n"

    def delete(self, key):
        if self.live(key) is None:
            return b"NOT_FOUND\r\n"
        del self.items[key]
        return b"DELETED\r\n"

    def count(self, key, up, by):
        item = self.live(key)
        if item is None:
            return b"NOT_FOUND\r\n"
        digits = item.block.rstrip(b" ")
        if not 1 <= len(digits) <= 20 or any(byte not in DIGITS for byte in digits) or int(digits) > MOST_COUNT:
            return NOT_NUMERIC
        value = (int(digits) + by) % 2**64 if up else max(int(digits) - by, 0)
        return self.write(key, item.flags, item.expiry, b"%d" % value, b"%d\r\n" % value, may_stay=True)

    def flush(self, delay):
        if delay == 0:
            self.items, self.cut = {}, None
        else:
            self.items = {key: item for key, item in self.items.items() if not self.is_dead(item)}
            self.cut = self.expiry(delay)
        return b"OK\r\n"


# ---- a session


class Session:
    """A stream, how far it has been read, and what was answered."""

    def __init__(self, stream, now, pages, greatest=GREATEST):
        self.stream, self.at, self.store, self.out = stream, 0, Store(now, pages, greatest), []
        self.is_open = True

    def run(self):
        while self.is_open:
            end = self.stream.find(b"\n", self.at, self.at + LONGEST_LINE + 1)
            if end < 0:
                if len(self.stream) - self.at > LONGEST_LINE:
                    self.out.append(TOO_LONG)
                break
            line = self.stream[self.at : end]
            if line.endswith(b"\r"):
                line = line[:-1]
            try:
                if not self.one(words_of(line), end + 1):
                    break
            except Fault as fault:
                self.out.append(fault.text)
                self.at = end + 1 + fault.passed
        return b"".join(self.out)

    def one(self, words, after):
        """Answers the command of a line. False is a block that has not come."""
        name = words[0] if words else b""
        if name in (b"set", b"add", b"replace", b"append", b"prepend", b"cas"):
            return self.storage(name, words, after)
        reply, quiet = self.simple(name, words)
        self.at = after
        if not quiet:
            self.out.append(reply)
        return True

    def storage(self, name, words, after):
        quiet = quiet_of(words, 6 if name == b"cas" else 5)
        key, flags = key_of(words[1]), number(words[2], MOST_FLAGS)
        exptime, length = exptime_of(words[3]), number(words[4], MOST_BYTES)
        unique = number(words[5], MOST_COUNT) if name == b"cas" else None
        if 48 + len(key) + length > self.store.greatest:
            raise Fault(TOO_LARGE, length + 2)
        if len(self.stream) < after + length + 2:
            return False
        if self.stream[after + length : after + length + 2] != b"\r\n":
            raise Fault(BAD_CHUNK, length + 2)
        block = self.stream[after : after + length]
        if name == b"cas":
            reply = self.store.cas(key, flags, exptime, block, unique)
        else:
            reply = self.store.store(name, key, flags, exptime, block)
        self.at = after + length + 2
        if not quiet:
            self.out.append(reply)
        return True

    def simple(self, name, words):
        """Answers a command that has no block: the reply, and whether it is kept back."""
        store, count = self.store, len(words)
        if name in (b"get", b"gets") and count >= 2:
            keys = [key_of(word) for word in words[1:]]
            return b"".join(store.read(key, name == b"gets") for key in keys) + b"END\r\n", False
        if name in (b"gat", b"gats") and count >= 3:
            exptime, keys = exptime_of(words[1]), [key_of(word) for word in words[2:]]
            return b"".join(store.read(key, name == b"gats", exptime) for key in keys) + b"END\r\n", False
        if name == b"touch":
            quiet = quiet_of(words, 3)
            return store.touch(key_of(words[1]), exptime_of(words[2])), quiet
        if name == b"delete":
            quiet = quiet_of(words, 3 if count > 2 and words[2] == b"0" else 2)
            return store.delete(key_of(words[1])), quiet
        if name in (b"incr", b"decr"):
            quiet = quiet_of(words, 3)
            key = key_of(words[1])
            try:
                by = number(words[2], MOST_COUNT)
            except Fault:
                raise Fault(BAD_DELTA) from None
            return store.count(key, name == b"incr", by), quiet
        if name == b"flush_all":
            return self.flush(words)
        if name == b"version" and count == 1:
            return b"VERSION 1.6.0\r\n", False
        if name == b"quit" and count == 1:
            self.is_open = False
            return b"", True
        raise Fault(ERROR)

    def flush(self, words):
        delays, quiet = words[1:], False
        if len(delays) == 2 or delays == [b"noreply"]:
            quiet = delays.pop() == b"noreply"
            if not quiet:
                raise Fault(ERROR)
        if len(delays) > 1:
            raise Fault(ERROR)
        delay = exptime_of(delays[0]) if delays else 0
        if delay < 0:
            raise Fault(BAD_FORMAT)
        return self.store.flush(delay), quiet


def answer(stream, now, pages=PAGES, greatest=GREATEST):
    return Session(stream, now, pages, greatest).run()


def main():
    parser = argparse.ArgumentParser(description=__doc__, formatter_class=argparse.RawDescriptionHelpFormatter)
    parser.add_argument("--now", type=int, default=1000)
    parser.add_argument("-m", type=int, default=PAGES, dest="pages")
    parser.add_argument("-I", type=int, default=GREATEST, dest="greatest")
    given = parser.parse_args()
    sys.stdout.buffer.write(answer(sys.stdin.buffer.read(), given.now, given.pages, given.greatest))
    return 0


if __name__ == "__main__":
    sys.exit(main())

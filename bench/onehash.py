"""The row one-hash of waiting.py: the longest set beside many keys of one hash, with memcached beside it.

Anybody who knows the hash can make such keys, as FNV-1a has no secret: two texts of STEPS' length lead to one hash from any hash, so a row of
n of them has 2^n keys. Most of them find no bucket. A table that grows tries each of these again, at the end, in one set; so the row then
stores keys of the same shelf with other hashes, and fails if such a set takes more than 5 ms of a processor. memcached has another hash, by
which these keys are as any others.
"""
import itertools
import socket
import time

from tcp import processor_seconds, real_time
from tests.lib.server import HOST, Server

NAMES = ("memcached", "mcserver")
START, PRIME, MASK = 14695981039346656037, 1099511628211, 2**64 - 1
# By how much the second text's byte differs from the first's, once each was taken in: a short vector of a lattice, as sum(step * PRIME^place)
# is 0 modulo 2^64.
STEPS = (40, -15, 7, -5, -18, 34, 10, 11, -41, 5)
# The bytes of keys.
LETTERS = frozenset(range(0x21, 0x7f))
SHELVES, PAGES, OTHERS = 64, 1024, 20_000
STORED = b"STORED\r\n"
# The keys at which the first growth begins, and how long the end of one may take, in seconds of a processor.
FIRST, MOST_AT_END = 64, 0.005


def hashed(text, start=START):
    for byte in text:
        start = (start ^ byte) * PRIME & MASK
    return start


def pair(one, other, at=0):
    """Two texts that lead from these hashes to one, where `at` bytes of them are known; none if there are none."""
    if at == len(STEPS):
        return b"", b""
    low, other_low = one & 255, other & 255
    for letter in LETTERS:
        taken = low ^ letter
        other_taken = taken - STEPS[at] - low + other_low
        if 0 <= other_taken < 256 and (other_low ^ other_taken) in LETTERS:
            hashes = ((it * PRIME) & MASK for it in (one - low + taken, other - other_low + other_taken))
            if rest := pair(*hashes, at + 1):
                return bytes([letter]) + rest[0], bytes([other_low ^ other_taken]) + rest[1]
    return None


def keys_of_one_hash(doublings):
    """2^doublings keys, made one after another."""
    pairs, start = [], START
    for _ in range(doublings):
        pairs.append(pair(start, start))
        start = hashed(pairs[-1][0], start)
    return (b"".join(texts) for texts in itertools.product(*pairs))


def keys_of_a_shelf(shelf, count):
    """So many keys whose shelf this is: the last letter of each decides it, from `@` on."""
    last = shelf * pow(PRIME, -1, SHELVES)
    made = (b"other%d" % number for number in itertools.count())
    ended = (key + bytes([64 + (last ^ hashed(key)) % SHELVES]) for key in made)
    return list(itertools.islice((key for key in ended if key[-1] in LETTERS), count))


def times(link, server, keys):
    """What each set of these keys took, one at a time, in seconds by the clock and of a processor of the server's."""
    found, used = [], processor_seconds(server)
    for key in keys:
        asked, began = b"set %s 0 0 1\r\nx\r\n" % key, time.perf_counter()
        link.sendall(asked)
        if (answer := link.recv(100)) != STORED:
            raise AssertionError(f"a set was answered {answer}")
        took, before, used = time.perf_counter() - began, used, processor_seconds(server)
        found.append((took, used - before))
    return found


def is_power(number):
    return number & (number - 1) == 0


def ends_growth(number):
    """Whether a growth may end at this set. One begins at each power of two, and the three after it move the 32 entries of the old table."""
    return any(is_power(number - after) for after in (1, 2, 3, 4))


def longest(found):
    """The longest by the clock, and the one that took most of a processor, in milliseconds."""
    took, used = (max(it) * 1000 for it in zip(*found))
    return f"{took:.1f} ms, {used:.1f} of a processor"


def measured(path, doublings):
    """What each set of keys of one hash took, by the number of keys that are stored then, and of others of their shelf behind them."""
    shelf = hashed(next(keys_of_one_hash(doublings))) % SHELVES
    with real_time(), Server(path, pages=PAGES) as server, socket.create_connection((HOST, server.port), 60) as link:
        link.setsockopt(socket.IPPROTO_TCP, socket.TCP_NODELAY, 1)
        ones = times(link, server, keys_of_one_hash(doublings))
        return ones, times(link, server, keys_of_a_shelf(shelf, OTHERS))


def told(program, quick):
    """Prints what the last thousand sets of one hash took, in the median, and the longest: of all, where a growth begins, and where one ends.

    It gives whether each end of a growth took at most MOST_AT_END of a processor here.
    """
    passed = True
    for doublings in (15,) if quick else (17, 18):
        print(f"{2**doublings:,} keys of one hash, and then {OTHERS:,} others of their shelf")
        for side, path in zip(NAMES, ("memcached", program)):
            ones, others = measured(path, doublings)
            numbered = list(enumerate(ones + others, 1))
            begins = [it for number, it in numbered if number >= FIRST and is_power(number)]
            ends = [it for number, it in numbered if number >= FIRST and ends_growth(number)]
            took, used = (sorted(it)[500] * 1e6 for it in zip(*ones[-1000:]))
            print(f"  {side:12}  at the end {took:.0f} us a set, {used:.0f} of a processor; the longest of one hash {longest(ones)},"
                  f" of others {longest(others)}; where a growth begins {longest(begins)}, where one ends {longest(ends)}", flush=True)
            passed &= side != "mcserver" or max(used for _, used in ends) <= MOST_AT_END
    return passed

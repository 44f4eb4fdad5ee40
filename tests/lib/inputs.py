"""Random inputs, by a seed.

    python3 -m tests.lib.inputs NUMBER [SEED]     writes that input to standard output
"""
import random
import sys

MOMENTS = [0, 1, 1000, 2592000, 2592001, 1700000000, 2**62]
KEYS = [b"a", b"b", b"n", b"m", b"0", b"noreply", b"a\x00", b"\xff\t\r", b"k" * 250]
BAD_KEYS = [b"K" * 251, b"\xfe" * 252]
FLAGS = [b"0", b"1", b"7", b"0042", b"4294967295", b"4294967296", b"-1", b"x"]
EXPTIMES = [b"0", b"0", b"0", b"-0", b"1", b"100", b"2592000", b"2592001", b"2592002", b"1700000000", b"1700000001"]
EXPTIMES += [b"-1", b"9223372036854775807", b"9223372036854775808", b"-9223372036854775807", b"-9223372036854775808", b"-", b"+1", b"1x"]
UNIQUES = [b"0", b"1", b"2", b"3", b"4", b"5", b"8", b"18446744073709551615", b"18446744073709551616", b"-1"]
DELTAS = [b"0", b"1", b"5", b"0010", b"9999999999", b"18446744073709551615", b"18446744073709551616", b"-1", b"", b"1x"]
BLOCKS = [b"", b"x", b"5", b"17", b"99  ", b"18446744073709551615", b"18446744073709551616", b"000000000000000000007"]
LARGE_BLOCKS = [b"L" * 300000, b"M" * 600000, b"N" * 1048000]
BLOCKS += [b"abc", b"\r\n", b"a\r\nb", b"\x00\xff\n", b"get a\r\n", b"0" * 20, b" 5", b"y" * 300]
LENGTHS = [b"2147483645", b"2147483646", b"1048528", b"1048527", b"-1", b"x", b"70000", b"000003"]
ENDS = [b"\r\n"] * 12 + [b"\n", b"\n", b"\r\r\n", b"\r", b""]
STRAYS = [b"", b"noreply", b"0", b"x", b"1", b"\x00", b"noreply noreply"]


class Source:
    """Writes inputs from a seed and a number."""

    def __init__(self, seed, number):
        self.random = random.Random(f"{seed} {number}")
        self.now = self.random.choice(MOMENTS)
        self.pages = self.random.choice([64, 64, 1, 1, 2, 3])
        self.faulty = self.random.choice([0.0, 0.02, 0.15])

    def pick(self, good, bad=None):
        if bad and self.random.random() < self.faulty:
            return self.random.choice(bad)
        return self.random.choice(good)

    def key(self):
        return self.pick(KEYS[:4], KEYS + BAD_KEYS)

    def exptime(self):
        return self.pick(EXPTIMES[:11], EXPTIMES)

    def keys(self):
        return [self.key() for _ in range(self.random.choice([1, 1, 1, 2, 3, 9]))]

    def line(self, words, may_be_quiet):
        """A line of these words, now and then with a fault."""
        if may_be_quiet and self.random.random() < 0.2:
            words = [*words, b"noreply"]
        if self.random.random() < self.faulty:
            at = self.random.randrange(len(words) + 1)
            words = [*words[:at], self.random.choice(STRAYS), *words[at + self.random.choice([0, 1]) :]]
        gap = b" " * self.random.choice([1] * 9 + [3])
        before = b" " * self.random.choice([0] * 9 + [2])
        return before + gap.join(words) + self.pick([b"\r\n"], ENDS)

    def storage(self):
        verb = self.random.choice([b"set", b"set", b"set", b"add", b"replace", b"append", b"prepend", b"cas"])
        is_large = self.pages < 64 and self.random.random() < 0.02
        block = self.random.choice(LARGE_BLOCKS if is_large else BLOCKS)
        length = self.pick([b"%d" % len(block)], [*LENGTHS, b"%d" % (len(block) + 1), b"%d" % max(len(block) - 1, 0)])
        words = [verb, self.key(), self.pick(FLAGS[:5], FLAGS), self.exptime(), length]
        if verb == b"cas":
            words.append(self.pick(UNIQUES[1:6], UNIQUES))
        return self.line(words, True) + block + self.pick([b"\r\n"], ENDS)

    def retrieval(self):
        if self.random.random() < 0.7:
            return self.line([self.random.choice([b"get", b"gets"]), *self.keys()], False)
        return self.line([self.random.choice([b"gat", b"gats"]), self.exptime(), *self.keys()], False)

    def other(self):
        kind = self.random.randrange(7)
        if kind == 0:
            return self.line([b"touch", self.key(), self.exptime()], True)
        if kind == 1:
            return self.line([b"delete", self.key(), *self.random.choice([[], [], [b"0"]])], True)
        if kind in (2, 3, 4):
            return self.line([self.random.choice([b"incr", b"decr"]), self.key(), self.pick(DELTAS[:6], DELTAS)], True)
        if kind == 5 and self.random.random() < 0.3:
            return self.line([b"flush_all", *self.random.choice([[], [self.exptime()]])], True)
        return self.line([b"quit" if self.random.random() < self.faulty / 5 else b"version"], False)

    def noise(self):
        kind = self.random.randrange(6)
        if kind == 0:
            return self.random.randbytes(self.random.randrange(200))
        if kind == 1:
            return bytes(self.random.choice(b"geta 0\r\nsi") for _ in range(self.random.randrange(60)))
        if kind == 2 and self.random.random() < 0.2:
            return b"q" * self.random.choice([65535, 65536, 65537]) + self.random.choice([b"\n", b"\r\n", b""])
        if kind == 3 and self.random.random() < 0.2:
            length = self.random.choice([1048526, 1048527, 1048528])
            return b"set a 0 0 %d\r\n" % length + b"z" * (length + self.random.choice([0, 0, 0, 1])) + b"\r\n"
        return self.random.choice([b"\r\n", b"\n", b"get", b"get \r\n", b"gat 0\r\n", b"stats\r\n", b"SET a 0 0 1\r\n", b" "])

    def pieces(self):
        made = []
        for _ in range(self.random.choice([3, 20, 60, 200])):
            share = self.random.random()
            if share < 0.35:
                made.append(self.storage())
            elif share < 0.65:
                made.append(self.retrieval())
            elif share < 0.98 - self.faulty:
                made.append(self.other())
            else:
                made.append(self.noise())
        if made and self.random.random() < 0.3:
            made[-1] = made[-1][: self.random.randrange(len(made[-1]) + 1)]
        return made

    def size(self, length):
        """In pieces of how many bytes the program is to have it; None for one file."""
        return self.random.choice([None, 1, 7, 100] if length < 5000 else [None, 1000, 16384])


if __name__ == "__main__":
    number, seed = int(sys.argv[1]), int([*sys.argv, "1"][2])
    sys.stdout.buffer.write(b"".join(Source(seed, number).pieces()))

"""Connections on shared keys: is there an order of their commands that explains every answer, and that keeps the order of time?

What is sent and answered is written as a record (tests/history/record.py), in which the search of tests/history looks for the order.
In it a caller's calls stand in its order, and what was made and joined says which calls had ended before others began."""
import contextlib
import random
import time
from concurrent.futures import ThreadPoolExecutor
from urllib.parse import quote_from_bytes

from tests.history.record import NotARecord
from tests.history.search import check
from tests.lib import settings
from tests.lib.case import ProgramCase
from tests.lib.compare import shown
from tests.lib.peer import Peer
from tests.lib.server import HOST, StillServer

KEYS = [b"k", b"l", b"m"]
# So many runs are recorded, each by a seed of its own.
RUNS = 8
# In rounds: each connection sends so many commands at once, and no round begins before the last one was answered.
CONNECTIONS, ROUNDS, COMMANDS = 6, 12, 6
# Freely: each connection sends one command after another.
FREE_CONNECTIONS, FREE_COMMANDS = 5, 30


class Caller:
    """A connection: the commands that it makes, and the words of the record for each answer."""

    def __init__(self, port, name, seed, host=HOST):
        self.peer, self.name, self.random = Peer(port, host=host), name, random.Random(f"{seed} {name}")
        self.count, self.told = 0, {}

    def command(self):
        """A command's text, and the words of a record for it."""
        self.count += 1
        key, share = self.random.choice(KEYS), self.random.random()
        verb = self.random.choice(["set", "set", "add", "replace", "append", "prepend"])
        block = b"%s.%d" % (self.name.encode(), self.count) if share > 0.1 else b"%d" % self.random.randrange(5)
        if share < 0.3:
            return self.storage(verb, key, block)
        if share < 0.4 and key in self.told:
            return self.storage("cas", key, block, self.told[key])
        if share < 0.65:
            return self.line("gets", "get", key)
        if share < 0.7:
            return self.line("gats", "gat", key, self.random.choice([0, 0, -1]))
        if share < 0.75:
            return self.line("delete", "delete", key)
        if share < 0.78:
            return self.line("touch", "touch", key, self.random.choice([0, 0, -1]))
        if share < 0.8:
            return b"flush_all\r\n", ["flush"]
        verb = self.random.choice(["incr", "decr"])
        return self.line(verb, verb, key, self.random.randrange(4))

    @staticmethod
    def storage(verb, key, block, *unique):
        words = [key.decode(), "3", "0"]
        last = [f"{number}" for number in unique]
        text = " ".join([verb, *words, str(len(block)), *last]).encode() + b"\r\n" + block + b"\r\n"
        return text, [verb, *words, *last, "=" + block.decode()]

    @staticmethod
    def line(name, verb, key, *number):
        last = [str(it) for it in number]
        words = [name, *last, key.decode()] if name == "gats" else [name, key.decode(), *last]
        return " ".join(words).encode() + b"\r\n", [verb, key.decode(), *last]

    def answer(self, words):
        """Reads the answer to a command: the words of the record for it."""
        line = self.peer.upto(b"\r\n")
        if line.startswith(b"VALUE "):
            return self.hit(line.split())
        word = line.decode("latin-1").removesuffix("\r\n")
        if word.isdigit():
            return ["NUMBER", word]
        named = {"END": "MISS", "OK": "FLUSHED"}.get(word, word)
        return ["NOT_NUMERIC"] if named.startswith("CLIENT_ERROR cannot") else [named.replace(" ", "_") or "NOTHING"]

    def hit(self, words):
        _, key, flags, size, unique = words
        block = self.peer.exactly(int(size) + 2)[:-2]
        if self.peer.upto(b"\r\n") != b"END\r\n":
            return ["HIT", "0", "0", "=no_end_behind_a_block"]
        self.told[key] = unique.decode()
        return ["HIT", flags.decode(), unique.decode(), "=" + quote_from_bytes(block)]


def in_rounds(callers):
    """The record of rounds: what was sent in one was answered before the next began."""
    record = []
    for place in range(ROUNDS):
        made = [(it, [it.command() for _ in range(COMMANDS)]) for it in callers]
        record += [f"all {2 * place} made {it.name}.{place}" for it in callers]
        for it, commands in made:
            it.peer.send(b"".join(text for text, _ in commands))
        for it, commands in made:
            answered = [words + it.answer(words) for _, words in commands]
            record += [" ".join([f"{it.name}.{place}", str(at), *words]) for at, words in enumerate(answered)]
        record += [f"all {2 * place + 1} joined {it.name}.{place}" for it in callers]
    return numbered(record)


def numbered(record):
    """Gives the lines of each caller numbers that rise."""
    counts, made = {}, []
    for line in record:
        name, _, rest = line.split(" ", 2)
        counts[name] = counts.get(name, -1) + 1
        made.append(f"{name} {counts[name]} {rest}")
    return "\n".join(made)


def calls_of(caller):
    """Sends one command after another, and gives when each began and ended, and what it was told."""
    done = []
    for _ in range(FREE_COMMANDS):
        text, words = caller.command()
        began = time.monotonic_ns()
        caller.peer.send(text)
        words = words + caller.answer(words)
        done.append((began, time.monotonic_ns(), words))
    return done


def freely(callers):
    """The record of a free run. Each call is a caller of its own, which joins those that had ended before it began."""
    with ThreadPoolExecutor(len(callers)) as pool:
        done = dict(zip(callers, pool.map(calls_of, callers)))
    record = []
    for it in callers:
        for at, (began, _, words) in enumerate(done[it]):
            before = [(other, sum(end < began for _, end, _ in done[other])) for other in callers]
            record += [f"{it.name}.{at} 0 joined {other.name}.{count - 1}" for other, count in before if count]
            record.append(" ".join([f"{it.name}.{at}", "0", *words]))
    return numbered(record)


class SharedKeys(ProgramCase):
    def explains(self, record, seed):
        """An order explains the record of the callers of a seed."""
        try:
            verdict, why = check(record)
        except (NotARecord, ValueError, LookupError) as error:
            verdict, why = None, f"no record: {error}"
        if not verdict:
            self.fail(f"no order explains this record of seed {seed}: {why}\n" + shown(record.encode(), 20000).replace("\\n", "\n"))

    def records(self, count, recorded):
        """Records a run of so many callers for each seed, and asks for the order."""
        first = settings.seed()
        for seed in range(first, first + RUNS):
            with StillServer() as server, contextlib.ExitStack() as closed:
                callers = [Caller(server.port, f"c{number}", seed) for number in range(count)]
                for it in callers:
                    closed.enter_context(it.peer)
                self.explains(recorded(callers), seed)

    def test_in_rounds(self):
        self.records(CONNECTIONS, in_rounds)

    def test_freely(self):
        self.records(FREE_CONNECTIONS, freely)

"""Random inputs by 16 connections at once, each input on keys of its own, against the model.

Each input has a connection: it is sent, whole or in pieces, then no more, and read to its end. Between the inputs of one
server the store stays, so keys have the input's number in them."""
import multiprocessing
import random
from concurrent.futures import ProcessPoolExecutor, as_completed

from tests.lib import model, own_keys, rows, settings
from tests.lib.abuse import abused
from tests.lib.case import ProgramCase
from tests.lib.exchange import exchange
from tests.lib.server import StillServer, die_with_parent
from tests.lib.shrink import shorter

# Four processes of this machine have four connections each at once.
PROCESSES, CONNECTIONS = 4, 4
PORTION = 250
# One that fails is made shorter by at most so many runs.
RUNS = 100
# What so many inputs store at one moment finds room in so many pages.
PAGES = 2048
# A server may keep what the inputs of one moment stored.
KEPT = 512 * 2**20
# Where the clock stands: a share of the inputs is tried at each of these moments.
MOMENTS = [0, 1000, 2592001, 1700000000]


class Input:
    """One input, and what the model of its connection answers."""

    def __init__(self, seed, number, now):
        self.seed, self.number, self.now = seed, number, now
        self.pieces = own_keys.Source(seed, number, b"i%d." % number, now).pieces()
        self.stream = b"".join(self.pieces)
        self.wanted = own_keys.session(self.stream, now, PAGES).run()

    def is_right(self, stream, wanted, answer):
        """Fails if the answer to a stream isn't the wanted one."""
        got, end = answer
        own_keys.is_right(wanted, got, {})
        # (a session that closes before its input ends is reset by the system)
        if end == "late" or end == "reset" and b"quit" not in stream and not wanted.endswith(b"line too long\r\n"):
            raise AssertionError(f"the connection ended so: {end}")

    def fails(self, pieces):
        """Whether these pieces fail alone, on a server of their own."""
        stream = b"".join(pieces)
        try:
            with StillServer(self.now, pages=PAGES) as server:
                own_keys.spend_numbers(server.port)
                self.is_right(stream, own_keys.session(stream, self.now, PAGES).run(), exchange(server.port, [stream])[0])
        except AssertionError:
            return True
        return False

    def has(self, answer):
        """Fails if the answer isn't the wanted one. The input is made shorter if it fails alone, too, and kept as a row."""
        try:
            self.is_right(self.stream, self.wanted, answer)
        except AssertionError as error:
            fails_alone = self.fails(self.pieces)
            stream = b"".join(shorter(self.pieces, self.fails, RUNS)) if fails_alone else self.stream
            row = rows.kept(f"random_{self.seed}_{self.number}", ["--stdin", "--now", str(self.now), "-m", str(PAGES)], stream, model.answer(stream, self.now, PAGES))
            how = "alone, too" if fails_alone else "beside others, and not alone"
            raise AssertionError(f"input {self.number} of SEED={self.seed} fails {how}: {error}\n{row}") from None


def portion(port, seed, first, now):
    """Tries one portion of the inputs."""
    chance = random.Random(f"{seed} {first}")
    for at in range(first, first + PORTION, CONNECTIONS):
        made = [Input(seed, number, now) for number in range(at, min(at + CONNECTIONS, first + PORTION))]
        size = chance.choice([None, None, None, 7, 100, 1000])
        longest = max(len(it.stream) for it in made)
        answers = exchange(port, [it.stream for it in made], size if longest < 5000 else None)
        for it, answer in zip(made, answers):
            it.has(answer)


class RandomInputs(ProgramCase):
    def test_random_inputs_by_16_connections(self):
        share = -(-settings.number("INPUTS") // len(MOMENTS) // PORTION) * PORTION
        for place, now in enumerate(MOMENTS):
            self.at_moment(range(place * share, (place + 1) * share), now)

    def at_moment(self, numbers, now):
        """Tries the inputs of these numbers on one server whose clock stands so."""
        seed = settings.seed()
        pool = ProcessPoolExecutor(PROCESSES, multiprocessing.get_context("spawn"), initializer=die_with_parent)
        with pool, abused(KEPT, now=now, pages=PAGES) as server:
            own_keys.spend_numbers(server.port)
            jobs = [pool.submit(portion, server.port, seed, first, now) for first in numbers[::PORTION]]
            try:
                for job in as_completed(jobs):
                    job.result()
            finally:
                pool.shutdown(cancel_futures=True)

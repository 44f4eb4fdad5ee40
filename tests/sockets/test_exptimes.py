"""Exptimes and delays of 1 to 8 seconds over sockets, by a clock that a test moves: the last millisecond in which an item lives, and the first in which it is dead."""
import contextlib
import random

from tests.lib import own_keys, passing, settings
from tests.lib.case import ProgramCase
from tests.lib.faults import Faults
from tests.lib.own_keys import Talker, take_a_round
from tests.lib.passing import Moved
from tests.lib.peer import Peer
from tests.lib.server import SECONDS, Server
from tests.lib.wait import until

# How many connections there are, each on keys of its own, and how often all send something and are answered. One round in so many is a flush.
CONNECTIONS, ROUNDS, FLUSHES = 12, 120, 8


class Source(passing.Brief, own_keys.Source):
    """Commands on keys of one connection, with small exptimes."""


class Exptimes(ProgramCase):
    @contextlib.contextmanager
    def moving(self, **options):
        """A server whose clock a test moves. Before it moves all workers have looked at all that came, and sleep."""
        with Faults() as faults:
            faults.stand_at(passing.START * 1000)
            with Server(faults=faults, **options) as server, Peer(server.port) as peer:
                yield server, Moved(faults, peer, lambda: self.assertTrue(until(server.sleeps, SECONDS, 0.001), "the workers don't rest"))

    def moved(self, test):
        with self.moving() as (_, moved):
            test(moved)

    def test_a_hit_until_the_exptime_and_a_miss_then(self):
        self.moved(Moved.each_exptime)

    def test_gats_and_cas(self):
        self.moved(Moved.each_number)

    def test_every_command_on_an_item_that_dies(self):
        self.moved(Moved.each_command_on_what_dies)

    def test_flush_all_with_a_delay(self):
        self.moved(Moved.each_delay)

    def flush(self, moved, talkers, delay):
        """Flushes the server and all models."""
        moved.peer.asks(b"flush_all %d\r\n" % delay, passing.OK)
        for it in talkers:
            it.model.store.flush(delay)

    def test_random_inputs_between_which_time_passes(self):
        """As the model of each connection answers, which has the same moments."""
        seed, at = settings.seed(), 0
        chance = random.Random(seed)
        with self.moving() as (server, moved), contextlib.ExitStack() as closed:
            version = own_keys.version_of(server.port)
            own_keys.spend_numbers(server.port)
            talkers = [Talker(server.port, Source(seed, number, b"c%d." % number, passing.START), version) for number in range(CONNECTIONS)]
            for it in talkers:
                closed.enter_context(it.peer)
            for place in range(ROUNDS):
                at += talkers[0].source.step()
                moved.to(0, at)
                for it in talkers:
                    it.source.now = it.model.store.now = passing.START + at // 1000
                if place % FLUSHES == 0:
                    self.flush(moved, talkers, chance.choice([0, *passing.SECONDS]))
                take_a_round(talkers, chance)

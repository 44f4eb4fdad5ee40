"""200 connections at once, each on keys of its own, against the model of each."""
import contextlib
import random

from tests.lib import own_keys, settings
from tests.lib.case import ProgramCase
from tests.lib.own_keys import Talker, take_a_round, version_of
from tests.lib.server import MOMENT, StillServer

CONNECTIONS, ROUNDS = 200, 25


class OwnKeys(ProgramCase):
    def test_200_connections_on_keys_of_their_own(self):
        seed = settings.seed()
        chance = random.Random(seed)
        with StillServer() as server, contextlib.ExitStack() as closed:
            version = version_of(server.port)
            own_keys.spend_numbers(server.port)
            talkers = [Talker(server.port, own_keys.Source(seed, number, b"c%d." % number, MOMENT), version) for number in range(CONNECTIONS)]
            for it in talkers:
                closed.enter_context(it.peer)
            for _ in range(ROUNDS):
                take_a_round(talkers, chance)

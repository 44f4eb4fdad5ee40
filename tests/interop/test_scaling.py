"""Keys over three servers, of which one is killed and comes back: what each key is answered.

It is done behind nutcracker, with the configuration of docs/SCALING.md, and through the clients that choose a server
for a key by themselves. Where keys lie is asked of each server itself. What isn't installed is named and not run.
"""
import contextlib
import importlib.util
import os
import signal
import unittest

from tests.interop.cluster import NUTCRACKER, ByProxy, ByPylibmc, Cluster, by_hash_client, closed_by, held
from tests.lib.case import ProgramCase
from tests.lib.wait import until

KEYS = [f"key:{i}" for i in range(3000)]
# Of three equal servers each is to have a third of the keys, and this share at least and at most; and so a fourth server.
LEAST, MOST = 0.2, 0.47
FOURTH_LEAST, FOURTH_MOST = 0.1, 0.4
# So soon a server that came back is asked again.
SECONDS = 20
# What clients may ask by way of nutcracker, and what is answered.
PASSED_ON = [
    ("client.set('n', '10')", True),
    ("client.incr('n', 5)", 15),
    ("client.decr('n', 20)", 0),
    ("client.incr('none', 1)", None),
    ("client.add('n', 'x')", False),
    ("client.replace('none', 'x')", False),
    ("client.set('text', 'b')", True),
    ("client.append('text', 'c')", True),
    ("client.prepend('text', 'a')", True),
    ("client.get('text')", b"abc"),
    ("client.cas('text', 'd', client.gets('text')[1])", True),
    ("client.cas('text', 'e', b'123456789')", False),
    ("client.version() > b'0'", True),
    ("client.touch('text', 100)", True),
    ("client.touch('none', 100)", False),
    ("client.set('quiet', 'x', noreply=True)", True),
    ("client.get('quiet')", b"x"),
    ("client.delete('text')", True),
    ("client.get('text')", None),
]


def same_keys(wanted, seen):
    """Fails where two sets of keys differ, and says how."""
    lacks, over = sorted(wanted - seen), sorted(seen - wanted)
    if lacks or over:
        raise AssertionError(
            f"{len(lacks)} keys lack of {len(wanted)}, such as {lacks[:3]}; {len(over)} too many, such as {over[:3]}"
        )


def eventually(holds):
    return until(holds, SECONDS, 0.1)


class Ways:
    """What each way to reach the keys is tested for. `way` makes it over servers at these ports."""

    packages, modules = "", []

    def setUp(self):
        if not all(importlib.util.find_spec(it) for it in self.modules):
            self.skipTest(f"it wants {self.packages}")

    def cluster(self):
        made = Cluster()
        self.addCleanup(made.close)
        return made

    def over(self, cluster):
        """The way over a cluster, which is closed before that."""
        made = type(self).way(cluster.ports())
        self.addCleanup(made.close)
        return made

    def test_a_server_that_goes_and_comes_back(self):
        cluster = self.cluster()
        Course(self, cluster, self.over(cluster)).run()


class GrownWays(Ways):
    """A fourth server is tried too."""

    def test_a_fourth_server_takes_a_share_of_the_keys(self):
        """And no other key moves."""
        cluster = self.cluster()
        three = self.over(cluster)
        for key in KEYS:
            three.set(key, f"first {key}")
        cluster.add()
        four = self.over(cluster)
        missed = {key for key in KEYS if four.get(key) is None}
        share = len(missed) / len(KEYS)
        print(f"    a fourth server takes {share:.0%} of the keys", flush=True)
        with self.subTest("share"):
            self.assertTrue(FOURTH_LEAST <= share <= FOURTH_MOST, f"{len(missed)} of {len(KEYS)} keys miss")
        for key in sorted(missed):
            four.set(key, f"first {key}")
        with self.subTest("all that missed lie on it, and no other"):
            same_keys(missed, held(cluster.servers[3].address, KEYS))


class Ketama(GrownWays, ProgramCase):
    packages, modules, way = "python3-pylibmc", ["pylibmc"], ByPylibmc


class HashClient(GrownWays, ProgramCase):
    packages, modules, way = "python3-pymemcache", ["pymemcache"], by_hash_client


@unittest.skipUnless(NUTCRACKER, "it wants nutcracker")
class Nutcracker(Ways, ProgramCase):
    packages, modules, way = "nutcracker python3-pymemcache", ["pymemcache"], ByProxy

    def test_commands_that_are_passed_on(self):
        """And those at which it closes the connection."""
        way = self.over(self.cluster())
        for call, wanted in PASSED_ON:
            with self.subTest(call):
                self.assertEqual(wanted, eval(call, {"client": way.client}))
        for line in (b"flush_all\r\n", b"gat 0 n\r\n"):
            with self.subTest(line):
                self.assertEqual(b"", closed_by(way.proxy.address, line))

    def test_a_server_that_does_not_answer_for_a_while(self):
        """Once it answers again it has what it held, which may be stale: this isn't promised away."""
        cluster = self.cluster()
        way, server = self.over(cluster), cluster.servers[1]
        for key in KEYS[:100]:
            way.set(key, f"first {key}")
        key = sorted(held(server.address, KEYS))[0]
        way.set(key, "old")
        os.kill(server.pid, signal.SIGSTOP)
        try:
            way.get(key)  # (a set that waits for the stopped server would be done by it later)
            stored = eventually(lambda: way.set(key, "new") and way.get(key) == "new")
        finally:
            os.kill(server.pid, signal.SIGCONT)
        self.assertTrue(stored, f"it isn't stored on another in {SECONDS} seconds")
        self.assertTrue(eventually(lambda: way.get(key) == "old"), f"its value is {way.get(key)}")


class Course:
    """One way to reach the keys, taken through a server's end and return."""

    def __init__(self, case, cluster, way):
        self.case, self.cluster, self.way = case, cluster, way

    @contextlib.contextmanager
    def part(self, what):
        """A part of the test, which goes on where it fails."""
        with self.case.subTest(what):
            yield

    def hits(self, keys, word):
        """Gives the keys that are answered, whose values must be what was stored."""
        found = {key: self.way.get(key) for key in keys}
        told = {key: value for key, value in found.items() if value is not None}
        with self.part(f"each hit is what was stored ({word})"):
            self.case.assertEqual({key: f"{word} {key}" for key in told}, told)
        return set(told)

    def store(self, keys, word):
        """Stores the keys."""
        lost = [key for key in keys if not self.way.set(key, f"{word} {key}")]
        with self.part(f"{len(keys)} keys are stored ({word})"):
            self.case.assertEqual([], lost, f"the last failure was {self.way.failure}")

    def are_hit(self, what, wanted, keys, word):
        """Of these keys those are answered that are wanted."""
        hits = self.hits(keys, word)
        with self.part(what):
            same_keys(wanted, hits)

    def run(self):
        parts = self.spread()
        lost, others = parts[1], set(KEYS) - parts[1]
        self.gone(lost, others)
        self.back(lost, others)
        self.gone_again(sorted(lost))

    def spread(self):
        """Stores all keys, and gives those of each server."""
        self.store(KEYS, "first")
        homes = self.cluster.homes(KEYS)
        with self.part("each key lies on one server"):
            self.case.assertEqual({}, {key: at for key, at in homes.items() if len(at) != 1})
        parts = [{key for key in KEYS if at in homes[key]} for at in range(3)]
        shares = [len(part) / len(KEYS) for part in parts]
        print(f"    the servers have {', '.join(f'{it:.0%}' for it in shares)} of the keys", flush=True)
        with self.part(f"each server has {LEAST:.0%} to {MOST:.0%} of the keys"):
            self.case.assertTrue(all(LEAST <= it <= MOST for it in shares), shares)
        with self.part("1,000 keys at once"):
            same_keys(set(KEYS[:1000]), set(self.way.get_all(KEYS[:1000])))
        return parts

    def gone(self, lost, others):
        """Kills the second server, and stores its keys again."""
        self.cluster.kill(1)
        self.are_hit("with a server killed, its keys miss and the others are hit", others, KEYS, "first")
        self.store(sorted(lost), "while it is gone")
        self.are_hit("its keys are stored on the others", lost, sorted(lost), "while it is gone")
        self.are_hit("the others are untouched", others, sorted(others), "first")

    def back(self, lost, others):
        """Starts the second server anew, and stores its keys once more."""
        self.cluster.bring_back(1)
        probe = sorted(lost)[0]
        self.is_asked_again(probe)
        self.are_hit("with the server back, the others are untouched", others, sorted(others), "first")
        self.are_hit("its keys miss, as it came back empty", set(), sorted(lost - {probe}), "while it is gone")
        self.store(sorted(lost), "again")
        self.are_hit("its keys are stored again", lost, sorted(lost), "again")
        with self.part("they lie on it as before"):
            same_keys(lost, held(self.cluster.servers[1].address, KEYS))

    def gone_again(self, lost):
        """Kills the second server once more: what the others were given in its first absence is found again, stale or not."""
        self.cluster.kill(1)
        found = {key: self.way.get(key) for key in lost[1:]}
        with self.part("gone again, its keys have the values of its first absence"):
            self.case.assertEqual({key: f"while it is gone {key}" for key in lost[1:]}, found)
        self.cluster.bring_back(1)
        self.is_asked_again(lost[0])

    def is_asked_again(self, key):
        """A key that is set lies on the second server again, soon."""
        with self.part("the server that came back is asked again"):
            self.case.assertTrue(eventually(lambda: self.returned(key)), f"not within {SECONDS} seconds")

    def returned(self, key):
        self.way.set(key, f"again {key}")
        return bool(held(self.cluster.servers[1].address, [key]))

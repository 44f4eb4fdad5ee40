"""A full store under a site's sessions, and the two wrappers that docs/CLIENTS.md shows for it: what is written anew, plainly and by them.

It wants python3-pymemcache, and for the second python3-django; what isn't there is named, and its tests are not run.
"""
import importlib.util
import random
import re
import unittest

from tests.lib.case import ProgramCase
from tests.lib.server import HOST, Server
from tests.lib.settings import ROOT

DOCS = f"{ROOT}/docs/CLIENTS.md"
# Sessions of 0.3 to 20 KB in 64 MiB; how many of them are written anew.
MEMORY, LEAST, MOST, ANEW = 64, 300, 20_000, 1_500
# The most that a plain client may store anew of them, so that the test shows what the wrappers are for.
FEW = ANEW // 3


def shown(name):
    """The names that a program of docs/CLIENTS.md defines."""
    with open(DOCS, encoding="utf-8") as page:
        written = re.search(f"```python {name}\n(.*?)```", page.read(), re.DOTALL).group(1)
    names = {}
    exec(written, names)
    return names


def has(module):
    return importlib.util.find_spec(module) is not None


@unittest.skipUnless(has("pymemcache"), "it wants python3-pymemcache")
class Full(ProgramCase):
    def setUp(self):
        self.server = Server(pages=MEMORY)
        self.addCleanup(self.server.close)
        self.kept = self.fill()

    def fill(self):
        """Stores sessions until 200 in a row are refused, and gives the key and the size of each that is stored."""
        from pymemcache.client.base import Client
        from pymemcache.exceptions import MemcacheServerError

        client, dice, kept, refused = Client((HOST, self.server.port)), random.Random(1), [], 0
        self.addCleanup(client.close)
        while refused < 200:
            key, size = f"session{len(kept)}:{refused}", int(LEAST * (MOST / LEAST) ** dice.random())
            try:
                client.set(key, b"o" * size, noreply=False)
                kept.append((key, size))
                refused = 0
            except MemcacheServerError:
                refused += 1
        return random.Random(2).sample(kept, ANEW)

    def stored(self, store, get):
        """How many of the sessions hold the new value behind a store of each, and how many the old one."""
        for key, size in self.kept:
            try:
                store(key, b"n" * size)
            except Exception as error:
                self.assertEqual("MemcacheServerError", type(error).__name__)
        found = [get(key) for key, _ in self.kept]
        new = sum(it == b"n" * size for it, (_, size) in zip(found, self.kept))
        old = sum(it == b"o" * size for it, (_, size) in zip(found, self.kept))
        print(f"    of {ANEW} sessions written anew at their size {new} are stored, {old} have the stale value", flush=True)
        self.assertEqual(len(found), new + old + found.count(None), "a session has neither value")
        return new, old

    def test_plainly_most_stay_stale(self):
        from pymemcache.client.base import Client

        client = Client((HOST, self.server.port))
        self.addCleanup(client.close)
        new, old = self.stored(lambda key, block: client.set(key, block, noreply=False), client.get)
        self.assertLess(new, FEW)
        self.assertEqual(ANEW, new + old)

    def test_pymemcache_answers_true_by_noreply(self):
        from pymemcache.client.base import Client

        client = Client((HOST, self.server.port))
        self.addCleanup(client.close)
        answers = [client.set(key, b"n" * size) for key, size in self.kept[:200]]
        self.assertEqual([True] * 200, answers)
        self.assertTrue(any(client.get(key) == b"o" * size for key, size in self.kept[:200]))

    def test_the_wrapper_of_pymemcache_stores_all(self):
        client = shown("pymemcache full")["StoringClient"]((HOST, self.server.port))
        self.addCleanup(client.close)
        self.assertEqual((ANEW, 0), self.stored(client.set, client.get))

    @unittest.skipUnless(has("django"), "it wants python3-django")
    def test_the_wrapper_of_django_stores_all(self):
        import django.conf

        if not django.conf.settings.configured:
            django.conf.settings.configure()
        cache = shown("django full")["StoringCache"](f"{HOST}:{self.server.port}", {"TIMEOUT": None})
        cache.make_key = lambda key, version=None: key
        self.addCleanup(cache.close)
        self.assertEqual((ANEW, 0), self.stored(cache.set, cache.get))

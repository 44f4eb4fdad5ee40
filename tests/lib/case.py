"""The test case that the others are made from."""
import os
import re
import unittest
from concurrent.futures import ThreadPoolExecutor
from functools import partialmethod

from tests.lib import settings
from tests.lib.server import is_ours


class ProgramCase(unittest.TestCase):
    """Tests of a program, without which they fail."""

    @classmethod
    def path(cls):
        return settings.program()

    @classmethod
    def setUpClass(cls):
        super().setUpClass()
        cls.program = cls.path()
        if not os.access(cls.program, os.X_OK):
            raise AssertionError(f"no program stands at {cls.program}: make build makes it")

    def wants(self, host):
        """Skips the test, or its part, where this isn't an address of this machine."""
        if not is_ours(host):
            self.skipTest(f"{host} isn't an address of this machine")


def tests_of(items, name_of):
    """Makes a test of each item, of a class's method `check(self, item)`: `-k` takes those whose name has a word."""

    def add(made):
        for item in items:
            name = "test_" + re.sub(r"\W+", "_", name_of(item))
            assert not hasattr(made, name), f"two tests have the name {name}"
            setattr(made, name, partialmethod(made.check, item))
        return made

    return add


def side_by_side(made):
    """Lets the tests of a class run beside one another in a whole run: all begin with the first. It is for tests without parts that mostly sleep."""
    names, running = unittest.defaultTestLoader.getTestCaseNames(made), {}
    tests = {name: getattr(made, name) for name in names}

    def outcome(self, name):
        if not settings.is_whole:
            return tests[name](self)
        if not running:
            pool = ThreadPoolExecutor(len(names))
            running.update((it, pool.submit(tests[it], made(it))) for it in names)
        return running.pop(name).result()

    for name in names:
        setattr(made, name, partialmethod(outcome, name))
    return made

"""Refuses each request for memory in turn of tests that are written for it: they pass all the same.

What is run are the crates' test programs, which `rt ci` and `rt test` leave in out/. A test's Nth request for memory is refused, and
no other, for N from 1 on until a run meets no refusal. A test that is written for it looks whether the refused call left its object
as it was, makes the call again, and compares what comes after with what it is where nothing is refused. Those are the tests of each
module `refusal_tests`, and the ones that also.txt names, which were written so for other reasons.

A test passes where each of its runs does and at least one met a refusal.
"""
import os
import resource
import subprocess
import tempfile
import unittest
from concurrent.futures import ThreadPoolExecutor
from typing import NamedTuple, Optional

from tests.lib.case import tests_of
from tests.lib.settings import ROOT, number

HERE = os.path.dirname(os.path.realpath(__file__))
# So long a run takes at most, in seconds.
SECONDS = 60
# More requests than a test may make, so that the search for the last one ends.
MOST = 20_000
MODULE = "refusal_tests"


def also():
    """The tests of other modules that are written for it, of each crate."""
    with open(f"{HERE}/also.txt") as it:
        pairs = [line.split() for line in it if line.strip() and not line.startswith("#")]
    return {crate: [name for of, name in pairs if of == crate] for crate, _ in pairs}


class Refused(NamedTuple):
    """A test whose requests are refused; `lack` is why it can't be run."""

    crate: str
    name: str
    lack: Optional[str] = None

    @property
    def program(self):
        return f"{ROOT}/crates/{self.crate}/out/{self.crate}_tests"


def tests_to_refuse():
    """The tests of all crates that are written for it, and those that aren't there."""
    made, named = [], also()
    for crate in sorted(os.listdir(f"{ROOT}/crates")):
        program, more = Refused(crate, "").program, named.get(crate, [])
        if os.access(program, os.X_OK):
            listed = listed_by(program)
            made += [Refused(crate, it) for it in listed if MODULE in it.split("::") and it not in more]
            made += [Refused(crate, it, None if it in listed else f"there is no test {it}") for it in more]
        elif more or os.path.exists(f"{ROOT}/crates/{crate}/src/tests/{MODULE}.rt"):
            made.append(Refused(crate, "tests", f"no program is at {program}: make crate C={crate} builds it"))
    return made


def listed_by(program):
    said = subprocess.run([program, "--list"], stdin=subprocess.DEVNULL, capture_output=True, text=True, timeout=SECONDS).stdout
    return [line.removesuffix(": test") for line in said.splitlines() if line.endswith(": test")]


class Run:
    """One run of a test with one request for memory refused: whether one was, and what went wrong, or nothing."""

    def __init__(self, gear, test, nth):
        ends = os.pipe()
        env = {"PATH": "/usr/bin:/bin", "LD_PRELOAD": gear, "REFUSE_NTH": str(nth), "REFUSE_TELLS": str(ends[1])}
        how = {"stdin": subprocess.DEVNULL, "stdout": subprocess.PIPE, "stderr": subprocess.STDOUT, "pass_fds": ends[1:]}
        self.fault = None
        try:
            ran = subprocess.run([test.program, test.name], env=env, cwd=os.path.dirname(gear), timeout=SECONDS, **how)
            # what passed says so, and what ends early doesn't
            if ran.returncode or not ran.stdout.endswith(b"\ntest result: ok\n"):
                self.fault = f"status {ran.returncode}: {ran.stdout.decode(errors='replace').strip()}"
        except subprocess.TimeoutExpired:
            self.fault = f"had not ended after {SECONDS} seconds"
        os.close(ends[1])
        self.is_refused = os.read(ends[0], 1) != b""
        os.close(ends[0])


@tests_of(tests_to_refuse(), lambda test: f"{test.crate} {test.name}")
class Refusals(unittest.TestCase):
    @classmethod
    def setUpClass(cls):
        """Compiles the gear that refuses."""
        # a test that fails aborts, and would leave its memory
        resource.setrlimit(resource.RLIMIT_CORE, (0, resource.getrlimit(resource.RLIMIT_CORE)[1]))
        room = tempfile.TemporaryDirectory()
        cls.addClassCleanup(room.cleanup)
        cls.gear = f"{room.name}/refuse.so"
        compiler = os.environ.get("CC", "cc")
        try:
            subprocess.run([compiler, "-O2", "-shared", "-fPIC", "-o", cls.gear, f"{HERE}/refuse.c"], stdin=subprocess.DEVNULL, check=True)
        except FileNotFoundError:
            raise AssertionError(f"{compiler}: a C compiler is needed, as cc or as the environment's CC names it") from None
        cls.jobs = number("JOBS")
        cls.pool = ThreadPoolExecutor(cls.jobs)
        cls.addClassCleanup(cls.pool.shutdown)

    def check(self, test):
        if test.lack:
            self.fail(test.lack)
        # (so many runs side by side; those behind the first that meets no refusal say nothing)
        together = 2 * self.jobs
        for first in range(1, MOST + 1, together):
            runs = self.pool.map(lambda nth: Run(self.gear, test, nth), range(first, first + together))
            for nth, run in enumerate(runs, first):
                if run.fault:
                    self.fail(f"with request {nth} {'refused' if run.is_refused else 'granted, as all'}: {run.fault}")
                if not run.is_refused:
                    self.assertGreater(nth, 1, "it makes no request, so it says nothing")
                    print(f"    {test.crate} {test.name}: each of {nth - 1} requests refused in turn", flush=True)
                    return
        self.fail(f"it makes more than {MOST} requests")

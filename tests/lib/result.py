"""How a run of tests is reported: each test as it ends, with its seconds, and each failure at once."""
import faulthandler
import os
import sys
import threading
import time
import traceback
import unittest
from collections import Counter

from tests.lib import settings


class Result(unittest.TextTestResult):
    """Counts tests, and of a test that has parts (`subTest`) the parts. A run in which nothing passed is no success."""

    # Of the first failures is told how, of later ones the name.
    TOLD = 30

    def __init__(self, *given, **more):
        super().__init__(*given, **more)
        self.showAll = self.dots = False
        self.passed = self.failed = 0
        self.parts = self.faults = 0
        # the parts and the skipped tests of each file
        self.counted, self.left_out = Counter(), Counter()
        # what threads of the running test raised
        self.raised = []
        threading.excepthook = lambda args: self.raised.append(args)

    def startTest(self, test):
        super().startTest(test)
        self.parts, self.faults, self.began = 0, 0, time.monotonic()
        self.raised.clear()
        self.limit = threading.Timer(settings.number("LONGEST"), self.end_all, [test])
        self.limit.daemon = True
        self.limit.start()

    def end_all(self, test):
        """Ends the run, as a test has no end: prints its name, and where each thread is."""
        self.say(f"FAILED {name_of(test)}: it has no end in {settings.number('LONGEST')} s")
        faulthandler.dump_traceback(all_threads=True)
        os._exit(1)

    def stopTest(self, test):
        self.limit.cancel()
        for it in self.raised:
            self.say("".join(traceback.format_exception(it.exc_type, it.exc_value, it.exc_traceback)))
            self.addFailure(test, (it.exc_type, it.exc_value, it.exc_traceback))
        took = time.monotonic() - self.began
        parts = f", {self.parts} parts" if self.parts else ""
        self.say(f"{name_of(test)}: {'failed' if self.faults else 'done'} in {took:.1f} s{parts}")
        super().stopTest(test)

    def addSubTest(self, test, subtest, err):
        super().addSubTest(test, subtest, err)
        self.parts += 1
        self.counted[file_of(test)] += 1
        if err is None:
            self.passed += 1
        else:
            self.fail(subtest, err)

    def addSuccess(self, test):
        super().addSuccess(test)
        self.passed += not self.parts
        self.counted[file_of(test)] += not self.parts

    def addFailure(self, test, err):
        super().addFailure(test, err)
        self.counted[file_of(test)] += not self.parts
        self.fail(test, err)

    def addError(self, test, err):
        super().addError(test, err)
        self.counted[file_of(test)] += not self.parts
        self.fail(test, err)

    def addSkip(self, test, reason):
        super().addSkip(test, reason)
        self.left_out[file_of(test)] += 1
        self.say(f"{name_of(test)}: not run: {reason}")

    def fail(self, test, err):
        self.failed += 1
        self.faults += 1
        self.say(f"FAILED {name_of(test)}")
        if self.failed <= self.TOLD:
            self.say(self._exc_info_to_string(err, test))

    def say(self, line):
        self.stream.writeln(line)
        self.stream.flush()

    def printErrors(self):
        """Prints nothing more: each was printed when it came."""

    def wasSuccessful(self):
        return super().wasSuccessful() and self.passed > 0 and not self.failed

    def add_file(self, file, passed, failed, skipped):
        """Adds what another process has counted of a file."""
        self.passed += passed
        self.failed += failed
        self.counted[file] += passed + failed
        self.left_out[file] += skipped

    def by_file(self):
        """The parts and the skipped tests of each file."""
        return {file: (self.counted[file], self.left_out[file]) for file in {*self.counted, *self.left_out}}


def name_of(test):
    """A test's name without the package's."""
    return test.id().removeprefix("tests.")


def file_of(test):
    """The name of the file that a test stands in; a file that can't be imported is in its test's name."""
    module = type(test).__module__
    return f"{(test.id() if module.startswith('unittest') else module).split('.')[-1]}.py"


class Runner(unittest.TextTestRunner):
    """It writes to standard output, and each result is a `Result`."""

    def __init__(self, **given):
        super().__init__(stream=sys.stdout, resultclass=Result, **given)

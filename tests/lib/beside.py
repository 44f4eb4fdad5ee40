"""Files of tests that run beside one another, each in a process of its own: those of a kind that wait for much and measure little.

A kind names them in its package as BESIDE. A whole run has them run first, so many at once; the others have the machine for themselves then."""
import os
import re
import subprocess
import sys
import unittest
from concurrent.futures import ThreadPoolExecutor, as_completed

from tests.lib import settings
from tests.lib.result import file_of
from tests.lib.server import die_with_parent

# So many run at once: they sleep for most of their time.
AT_ONCE = 2 * (os.cpu_count() or 1)
# A file has as long as so many of its tests.
TESTS = 4
LAST = re.compile(r"(\d+) passed, (\d+) failed, (\d+) skipped")


class Others(unittest.TestLoader):
    """Finds the tests of a folder but for those of some files."""

    def __init__(self, left_out):
        super().__init__()
        self.left_out = {*left_out}

    def discover(self, *given, **more):
        return self.suiteClass(it for it in tests_in(super().discover(*given, **more)) if file_of(it) not in self.left_out)


def tests_in(suite):
    """The tests of a suite, in its order."""
    for it in suite:
        yield from tests_in(it) if isinstance(it, unittest.TestSuite) else [it]


def ran(kind, file):
    """Runs a file, and gives what it printed, whose last line has the counts. One without an end is ended."""
    words = [sys.executable, "-m", "tests", kind, "-p", file, "--beside"]
    process = subprocess.Popen(words, stdin=subprocess.DEVNULL, stdout=subprocess.PIPE, stderr=subprocess.STDOUT, text=True, errors="replace", preexec_fn=die_with_parent)
    # (a test without an end ends the process, by its name)
    limit = TESTS * settings.number("LONGEST")
    with process:
        try:
            said, _ = process.communicate(timeout=limit)
        except subprocess.TimeoutExpired:
            process.kill()
            said = f"{process.communicate()[0]}\nFAILED {kind}/{file}: it has no end in {limit} s\n"
        return said, process.returncode


def run(kind, files):
    """Runs the files, and prints what each printed when it has ended. Gives of each how many passed and failed, and the lines of those that are skipped."""
    found = {}
    with ThreadPoolExecutor(AT_ONCE) as pool:
        jobs = {pool.submit(ran, kind, file): file for file in files}
        for job in as_completed(jobs):
            said, status = job.result()
            found[jobs[job]], lines = counted(f"{kind}/{jobs[job]}", said.splitlines(), status)
            print("\n".join(lines), flush=True)
    return found


def counted(name, lines, status):
    """What a file's lines count, and those of them that are shown."""
    last = LAST.fullmatch(lines[-1]) if lines else None
    if not last:
        return (0, 1, []), [*lines, f"FAILED {name}: it ended with status {status}, without its last line"]
    shown = lines[:-1]
    passed, failed, _ = map(int, last.groups())
    if status and not failed:
        shown.append(f"FAILED {name}: nothing passed")
    skipped = [line for line in shown if line.startswith("skipped ")]
    return (passed, failed or int(status != 0), skipped), [line for line in shown if line not in skipped]

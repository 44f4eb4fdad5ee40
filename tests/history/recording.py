"""Records of mc_bench's callers in threads, and what the search finds of them."""
import shutil
import subprocess
import sys
import time
from typing import NamedTuple

from tests.lib import settings
from tests.lib.case import ProgramCase

# So long a recording takes at most, and a search, in seconds.
SECONDS = 300
# What the status of the search says of a record.
VERDICTS = {0: "explained", 1: "refused", 2: "no record", 3: "given up"}


class RecordingCase(ProgramCase):
    """Tests of the program that records calls."""

    @classmethod
    def path(cls):
        return settings.built("mc_bench")

    def record(self, room, seed, calls):
        """Writes the record of a run to a file of the folder, and gives its path."""
        path = f"{room}/record-{seed}-{calls}"
        with open(path, "wb") as it:
            words = [self.program, "record", str(seed), str(calls)]
            found = subprocess.run(words, stdin=subprocess.DEVNULL, stdout=it, timeout=SECONDS)
        self.assertEqual(0, found.returncode, "the status of the program that records")
        return path

    def is_judged(self, wanted, path, verdict):
        """The search finds this of a record. One of which it finds something else is kept."""
        name, first = path.rpartition("/")[2], verdict.said.partition("\n")[0]
        print(f"    {name}, {verdict.seconds:.1f} s: {verdict.name}: {first}", flush=True)
        if verdict.name != wanted:
            kept = shutil.copy(path, settings.keep())
            self.fail(f"{verdict.name}, wanted {wanted}: {verdict.said}\nthe record is {kept}")


class Verdict(NamedTuple):
    """What the search finds of a record, what it says, and how long it took."""

    name: str
    said: str
    seconds: float


def judged(path):
    """Looks for an order that explains a record, in a process of its own."""
    words, began = [sys.executable, "-m", "tests.history.search", path], time.monotonic()
    try:
        found = subprocess.run(words, cwd=settings.ROOT, capture_output=True, text=True, timeout=SECONDS)
        name, said = VERDICTS.get(found.returncode, "the search failed"), (found.stdout + found.stderr).strip()
    except subprocess.TimeoutExpired as error:
        name, said = "given up", str(error)
    return Verdict(name, said, time.monotonic() - began)

"""The search would notice a wrong run: short ones are explained as they were recorded, and none is once it is altered (alter.py)."""
import random
import tempfile
from concurrent.futures import ThreadPoolExecutor

from tests.history.alter import CHANGES
from tests.history.record import read_call
from tests.history.recording import RecordingCase, judged
from tests.lib.settings import number

# So many calls each of the four callers makes.
CALLS = 1000


class Altered(RecordingCase):
    def test_runs_that_are_altered_are_refused(self):
        first = number("FIRST")
        with tempfile.TemporaryDirectory() as room, ThreadPoolExecutor(number("JOBS")) as pool:
            waiting = []
            for seed in range(first, first + number("ALTERED")):
                path = self.record(room, seed, CALLS)
                waiting += [("explained", path), *(("refused", it) for it in self.alter(path, seed))]
            verdicts = [pool.submit(judged, path) for _, path in waiting]
            for (wanted, path), verdict in zip(waiting, verdicts):
                with self.subTest(path.rpartition("/")[2]):
                    self.is_judged(wanted, path, verdict.result())

    def alter(self, path, seed):
        """Writes the altered records of one, and gives their paths."""
        with open(path, encoding="ascii") as it:
            calls = [read_call(line) for line in it.read().splitlines() if line]
        dice, made = random.Random(seed), []
        for change in CHANGES:
            lines = change(calls, dice)
            self.assertIsNotNone(lines, f"the run of seed {seed} has no place for {change.__name__}")
            made.append(f"{path}-{change.__name__}")
            with open(made[-1], "w", encoding="ascii") as it:
                it.write("\n".join(lines) + "\n")
        return made

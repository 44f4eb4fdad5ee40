"""Runs of four callers of one store, each in a thread, of which an order of their calls explains each.

The same seed makes the same calls, but how the threads take turns is another matter each time, so a record that isn't explained is kept.
All runs are recorded before the first is judged, so that nothing else takes the processors from the four threads.
"""
import tempfile
from concurrent.futures import ThreadPoolExecutor

from tests.history.recording import RecordingCase, judged
from tests.lib.settings import number, seed


class Recorded(RecordingCase):
    def test_an_order_explains_each_run(self):
        first, calls = seed("FIRST"), number("CALLS")
        seeds = range(first, first + number("SEEDS"))
        with tempfile.TemporaryDirectory() as room, ThreadPoolExecutor(number("JOBS")) as pool:
            records = [self.record(room, it, calls) for it in seeds]
            verdicts = [pool.submit(judged, path) for path in records]
            for it, path, verdict in zip(seeds, records, verdicts):
                with self.subTest(seed=it, calls=calls):
                    self.is_judged("explained", path, verdict.result())

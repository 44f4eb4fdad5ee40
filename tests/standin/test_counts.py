"""What holds the suite itself: tests that are gone, skipped, without an end, or that die in a thread are failures."""
import datetime
import io
import os
import subprocess
import sys
import tempfile
import threading
import unittest
from unittest import mock

from tests.lib import beside, counts, examples, settings
from tests.lib.result import Result
from tests.lib.settings import ROOT
from tests.lib.shrink import shorter

PINNED = {"test_a.py": (5, 0), "test_b.py": (2, 1)}
# A folder of tests with one that waits for ever.
ENDLESS = """
import threading, unittest
class Waits(unittest.TestCase):
    def test_for_ever(self):
        threading.Event().wait()
"""


def ran(case):
    """Runs the tests of a class, and gives the result."""
    result = Result(unittest.runner._WritelnDecorator(io.StringIO()), True, 0)
    unittest.defaultTestLoader.loadTestsFromTestCase(case).run(result)
    return result


class Counts(unittest.TestCase):
    def found(self, **changed):
        return list(counts.faults("sockets", {**PINNED, **changed}, PINNED))

    def test_what_is_pinned_has_no_fault(self):
        self.assertEqual([], self.found())

    def test_a_file_that_is_gone(self):
        seen = {"test_a.py": (5, 0)}
        (line,) = counts.faults("sockets", seen, PINNED)
        self.assertRegex(line, "^sockets/test_b.py: it is gone")

    def test_fewer_parts(self):
        self.assertRegex(self.found(**{"test_a.py": (4, 0)})[0], "^sockets/test_a.py: 4, where .* has 5$")

    def test_fewer_parts_by_a_skip(self):
        self.assertRegex(self.found(**{"test_a.py": (4, 1)})[0], "1 more of its tests are skipped$")

    def test_more_parts_want_a_line(self):
        self.assertRegex(self.found(**{"test_a.py": (6, 0)})[0], "pin it in the same commit$")

    def test_a_new_file_wants_a_line(self):
        self.assertRegex(self.found(**{"test_c.py": (1, 0)})[0], "^sockets/test_c.py: .* lacks it")

    def test_what_is_written_is_read(self):
        with tempfile.TemporaryDirectory() as folder:
            counts.pin("sockets", PINNED, f"{folder}/counts.txt")
            counts.pin("protocol", {"test_rows.py": (700, 0)}, f"{folder}/counts.txt")
            self.assertEqual({"sockets": PINNED, "protocol": {"test_rows.py": (700, 0)}}, counts.read(f"{folder}/counts.txt"))

    def test_a_wrong_body_a_row_and_a_crate_that_are_taken_away(self):
        names = ["crates/mc_x/wrong/a.edit", "crates/mc_x/must-fail/b.edit", "tests/rows/set/one/stdin", "crates/mc_y/src/lib.rt"]
        with tempfile.TemporaryDirectory() as folder:
            for name in ["crates/mc_x/src/lib.rt", *names]:
                os.makedirs(os.path.dirname(f"{folder}/{name}"), exist_ok=True)
                open(f"{folder}/{name}", "w").close()
            counts.pin_names(counts.lying(folder), f"{folder}/names.txt")
            pinned = counts.names(f"{folder}/names.txt")
            self.assertEqual([], list(counts.lost(counts.lying(folder), pinned)))
            for name in names:
                os.remove(f"{folder}/{name}")
            for name in ("tests/rows/set/one", "crates/mc_y/src"):
                os.rmdir(f"{folder}/{name}")
            found = list(counts.lost(counts.lying(folder), pinned))
        gone = ["crates/mc_x/must-fail/b.edit", "crates/mc_x/wrong/a.edit", "crates/mc_y", "tests/rows/set/one"]
        self.assertEqual([f"{it}: it is gone; tests/names.txt names it" for it in gone], found)

    def test_a_row_that_is_new_wants_its_name(self):
        (line,) = counts.lost(["tests/rows/set/one"], [])
        self.assertRegex(line, "^tests/rows/set/one: tests/names.txt lacks it")


class Others(unittest.TestCase):
    """What a file says that runs beside others, in a process of its own."""

    def test_it_counts(self):
        lines = ["skipped a.b.test_c: it wants something", "3 passed, 0 failed, 1 skipped"]
        self.assertEqual(((3, 0, lines[:1]), []), beside.counted("sockets/test_a.py", lines, 0))

    def test_one_that_ends_with_status_0_before_its_last_line(self):
        (passed, failed, _), lines = beside.counted("sockets/test_a.py", ["test_b: done in 0.1 s"], 0)
        self.assertEqual((0, 1), (passed, failed))
        self.assertRegex(lines[-1], "^FAILED sockets/test_a.py: it ended with status 0, without its last line$")

    def test_one_in_which_nothing_passed(self):
        (passed, failed, _), lines = beside.counted("sockets/test_a.py", ["0 passed, 0 failed, 0 skipped"], 1)
        self.assertEqual((0, 1), (passed, failed))
        self.assertEqual(["FAILED sockets/test_a.py: nothing passed"], lines)

    def test_one_that_is_gone(self):
        said, status = beside.ran("sockets", "test_no_" + "such.py")
        self.assertEqual((0, 1), beside.counted("sockets/test_x.py", said.splitlines(), status)[0][:2])


class Results(unittest.TestCase):
    def test_what_a_thread_raises_fails_its_test(self):
        class Dies(unittest.TestCase):
            def test_it(self):
                one = threading.Thread(target=lambda: self.fail("an answer is wrong"))
                one.start()
                one.join()

        result = ran(Dies)
        self.assertEqual(1, result.failed)
        self.assertFalse(result.wasSuccessful())

    def test_parts_and_skips_are_counted(self):
        class Parts(unittest.TestCase):
            def test_parts(self):
                for number in range(3):
                    with self.subTest(number):
                        pass

            def test_alone(self):
                pass

            def test_left_out(self):
                self.skipTest("it wants something")

        self.assertEqual({"test_counts.py": (4, 1)}, ran(Parts).by_file())

    def test_one_without_an_end_is_ended_by_its_name(self):
        with tempfile.TemporaryDirectory(dir=f"{ROOT}/tests") as folder:
            name = os.path.basename(folder)
            for file, text in (("__init__.py", ""), ("test_endless.py", ENDLESS)):
                with open(f"{folder}/{file}", "w", encoding="utf-8") as to:
                    to.write(text)
            words = [sys.executable, "-c", f"from tests.__main__ import run; run({name!r})"]
            ended = subprocess.run(words, cwd=ROOT, env={**os.environ, "LONGEST": "1"}, capture_output=True, text=True, timeout=60)
        self.assertEqual(1, ended.returncode)
        self.assertIn("test_endless.Waits.test_for_ever: it has no end in 1 s", ended.stdout)


class Examples(unittest.TestCase):
    def found(self, text):
        with tempfile.NamedTemporaryFile("w+", encoding="utf-8") as file:
            file.write(text)
            file.flush()
            return list(examples.faults(file.name))

    def test_one_that_is_tested(self):
        self.assertEqual([], self.found("# a comment\n\nan item is stored and got: stores_and_gets an_example_without_a_test\n"))

    def test_an_example_without_a_test(self):
        self.assertRegex(self.found("nothing tests it:\n")[0], "no test has 'nothing tests it'$")

    def test_a_name_that_no_test_has(self):
        self.assertRegex(self.found("one of two is gone: stores_and_gets " + "no_such_" + "test\n")[0], "no test is named no_such_test")


class Seeds(unittest.TestCase):
    def seed(self, **environment):
        settings.told.clear()
        with mock.patch.dict(os.environ, environment), mock.patch("builtins.print") as said:
            return settings.seed(), said.call_args.args[0].strip()

    def test_it_is_told_and_may_be_given(self):
        self.assertEqual((7, "SEED=7"), self.seed(SEED="7"))

    def test_it_is_the_date(self):
        found, said = self.seed(SEED="")
        self.assertEqual(f"SEED={found}", said)
        self.assertEqual(datetime.date.today(), datetime.datetime.strptime(str(found), "%Y%m%d").date())

    def test_what_fails_is_made_shorter(self):
        parts = [b"%d" % number for number in range(100)]
        self.assertEqual([b"13", b"77"], shorter(parts, lambda less: b"13" in less and b"77" in less, 1000))

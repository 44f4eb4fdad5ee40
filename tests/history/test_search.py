"""Small runs whose verdict is plain."""
import unittest

from tests.history.record import NotARecord
from tests.history.search import check

RIGHT = {
    "nothing happened": "",
    "a caller reads its own write": "a 0 set k 5 0 =x STORED\na 1 get k HIT 5 1 =x",
    "another may read before the write or after it": "a 0 set k 0 0 =x STORED\nb 0 get k MISS\nb 1 get k HIT 0 1 =x",
    "a reader that never caught up": "a 0 set k 0 0 =x STORED\nb 0 get k MISS\nb 1 get k MISS",
    "one of two adds": "a 0 add k 0 0 =x STORED\nb 0 add k 0 0 =y NOT_STORED\nb 1 get k HIT 0 1 =x",
    "counts of two callers":
    "a 0 set k 0 0 =0 STORED\na 1 made b\na 2 incr k 1 NUMBER 2\nb 0 incr k 1 NUMBER 1\n"
    "b 1 incr k 1 NUMBER 3",
    "one of two cas of one number": "a 0 set k 0 0 =x STORED\na 1 get k HIT 0 7 =x\na 2 made b\n"
    "a 3 cas k 0 0 7 =y EXISTS\nb 0 cas k 0 0 7 =z STORED\na 4 get k HIT 0 9 =z",
    "appended in either order":
    "a 0 set k 0 0 =x STORED\na 1 made b\na 2 append k 9 0 =y STORED\nb 0 append k 9 0 =z STORED\n"
    "a 3 joined b\na 4 get k HIT 0 5 =xzy",
    "prepended": "a 0 set k 0 0 =x STORED\na 1 prepend k 0 0 =%20 STORED\na 2 get k HIT 0 2 =%20x",
    "counts wrap and stop":
    "a 0 set k 0 0 =18446744073709551615 STORED\na 1 incr k 2 NUMBER 1\na 2 decr k 3 NUMBER 0",
    "a number with spaces behind it": "a 0 set k 0 0 =7%20%20 STORED\na 1 incr k 1 NUMBER 8\na 2 get k HIT 0 - =8",
    "no number": "a 0 set k 0 0 =7x STORED\na 1 incr k 1 NOT_NUMERIC\na 2 get k HIT 0 1 =7x",
    "over at once":
    "a 0 set k 0 -1 =x STORED\na 1 get k MISS\na 2 set k 0 0 =y STORED\na 3 touch k -1 TOUCHED\n"
    "a 4 touch k 0 NOT_FOUND",
    "told and then over": "a 0 set k 0 0 =x STORED\na 1 gat k -1 HIT 0 1 =x\na 2 gat k 0 MISS",
    "deleted by one of two": "a 0 set k 0 0 =x STORED\na 1 made b\na 2 delete k DELETED\nb 0 delete k NOT_FOUND",
    "replaced only where something stands":
    "a 0 replace k 0 0 =x NOT_STORED\na 1 set k 0 0 =y STORED\na 2 replace k 1 0 =z STORED\n"
    "a 3 get k HIT 1 2 =z",
    "no cas of nothing": "a 0 cas k 0 0 1 =x NOT_FOUND",
    "flushed between two reads":
    "a 0 set k 0 0 =x STORED\na 1 set l 0 0 =y STORED\na 2 made b\na 3 get k HIT 0 1 =x\n"
    "a 4 get k MISS\na 5 get l MISS\nb 0 flush FLUSHED",
    "a write that found no room":
    "a 0 set k 0 0 =x STORED\na 1 set k 0 0 =y NO_CHUNK\na 2 get k HIT 0 1 =x\n"
    "a 3 append k 0 0 =z TOO_LARGE\na 4 get k HIT 0 1 =x",
    "one content written twice":
    "a 0 set k 0 0 =x STORED\nb 0 set k 0 0 =x STORED\nc 0 get k HIT 0 3 =x\nc 1 get k HIT 0 4 =x",
    "a write of the joined is read": "a 0 made b\nb 0 set k 0 0 =x STORED\na 1 joined b\na 2 get k HIT 0 1 =x",
    "numbers of two keys":
    "a 0 set k 0 0 =x STORED\na 1 set l 0 0 =y STORED\nb 0 get l HIT 0 2 =y\nb 1 get k HIT 0 1 =x",
}
WRONG = {
    "what no one stored": "a 0 set k 0 0 =x STORED\nb 0 get k HIT 0 1 =y",
    "other flags": "a 0 set k 5 0 =x STORED\na 1 get k HIT 6 1 =x",
    "a write that is lost": "a 0 set k 0 0 =x STORED\na 1 get k MISS",
    "two adds": "a 0 add k 0 0 =x STORED\nb 0 add k 0 0 =y STORED",
    "a count that is lost": "a 0 set k 0 0 =0 STORED\na 1 made b\na 2 incr k 1 NUMBER 1\nb 0 incr k 1 NUMBER 1",
    "two cas of one number":
    "a 0 set k 0 0 =x STORED\na 1 get k HIT 0 7 =x\na 2 made b\na 3 cas k 0 0 7 =y STORED\n"
    "b 0 cas k 0 0 7 =z STORED",
    "a cas that met its number and says it didn't":
    "a 0 set k 0 0 =x STORED\na 1 get k HIT 0 7 =x\na 2 cas k 0 0 7 =y EXISTS",
    "the old after the new":
    "a 0 set k 0 0 =x STORED\na 1 set k 0 0 =y STORED\nb 0 get k HIT 0 2 =y\nb 1 get k HIT 0 1 =x",
    "two readers that saw two orders":
    "a 0 set k 0 0 =x STORED\nb 0 set k 0 0 =y STORED\nc 0 get k HIT 0 - =x\nc 1 get k HIT 0 - =y\n"
    "d 0 get k HIT 0 - =y\nd 1 get k HIT 0 - =x",
    "a write of the joined is missed": "a 0 made b\nb 0 set k 0 0 =x STORED\na 1 joined b\na 2 get k MISS",
    "a write of the maker is missed": "a 0 set k 0 0 =x STORED\na 1 made b\nb 0 get k MISS",
    "deleted twice": "a 0 set k 0 0 =x STORED\na 1 made b\na 2 delete k DELETED\nb 0 delete k DELETED",
    "touched where nothing stands": "a 0 touch k 0 TOUCHED",
    "counted where nothing stands": "a 0 incr k 1 NUMBER 1",
    "counted below 0": "a 0 set k 0 0 =1 STORED\na 1 decr k 2 NUMBER 18446744073709551615",
    "one number of two keys":
    "a 0 set k 0 0 =x STORED\na 1 set l 0 0 =y STORED\na 2 get k HIT 0 1 =x\na 3 get l HIT 0 1 =y",
    "one number of two contents":
    "a 0 set k 0 0 =x STORED\na 1 get k HIT 0 1 =x\na 2 set k 0 0 =y STORED\na 3 get k HIT 0 1 =y",
    "numbers of two keys that fall":
    "a 0 set k 0 0 =x STORED\na 1 set l 0 0 =y STORED\nb 0 get l HIT 0 1 =y\nb 1 get k HIT 0 2 =x",
    "a number that changes while nothing is written":
    "a 0 set k 0 0 =x STORED\na 1 get k HIT 0 1 =x\na 2 get k HIT 0 2 =x",
    "appended twice by one call": "a 0 set k 0 0 =x STORED\na 1 append k 0 0 =y STORED\na 2 get k HIT 0 2 =xyy",
    "a refused write that was written": "a 0 set k 0 0 =x STORED\na 1 set k 0 0 =y NO_CHUNK\na 2 get k HIT 0 2 =y",
    "what was flushed is read": "a 0 set k 0 0 =x STORED\na 1 flush FLUSHED\na 2 get k HIT 0 1 =x",
    "a flush that no one gave": "a 0 set k 0 0 =x STORED\nb 0 get k HIT 0 1 =x\nb 1 get k MISS",
    "told after it was over": "a 0 set k 0 0 =x STORED\na 1 gat k -1 HIT 0 1 =x\na 2 get k HIT 0 1 =x",
}
NO_RECORD = ["a 0 peek k MISS", "a 0 get k", "a 0 get k HIT 0 1", "a b get k MISS", "a 0 get k MISS\na 0 get k MISS", "a 0 joined b\nb 0 joined a"]


class Verdicts(unittest.TestCase):
    def verdict_of_all(self, wanted, runs):
        for name, text in runs.items():
            with self.subTest(name):
                verdict, why = check(text)
                self.assertIs(wanted, verdict, why)

    def test_runs_that_an_order_explains(self):
        self.verdict_of_all(True, RIGHT)

    def test_runs_that_no_order_explains(self):
        self.verdict_of_all(False, WRONG)

    def test_texts_that_are_no_record(self):
        for text in NO_RECORD:
            with self.subTest(text), self.assertRaises(NotARecord):
                check(text)

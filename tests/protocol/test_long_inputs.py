"""Long inputs and outputs, which are answered as the model does, in memory that stays bounded."""
import hashlib
import os
import random
import tempfile
import threading

from tests.lib import measure, model
from tests.lib.case import ProgramCase
from tests.lib.process import SECONDS, Ran, TooLate

ARGS = ["--stdin", "--now", "1000"]
# The program itself, the libraries and a session's buffers stay below this, in bytes.
MEMORY = 32 * 2**20
WORDS = [b"get", b"set", b"a", b"b", b"0", b"1", b"noreply", b"\x00", b"incr", b"touch", b"delete", b"version", b"gats"]


class LongInputs(ProgramCase):
    def answers(self, stream):
        """A session over a stream answers as the model does, in little memory."""
        with tempfile.TemporaryFile() as given, tempfile.TemporaryFile() as out:
            given.write(stream)
            given.seek(0)
            ran = self.measured(given, out, SECONDS)
            out.seek(0)
            ran._replace(stdout=out.read()).wrote(model.answer(stream, 1000))

    def flows(self, given_pieces, wanted_pieces):
        """A session answers so, in little memory, while all that it writes is read at once."""
        theirs, ours = os.pipe()
        wrote = []
        reading = threading.Thread(target=lambda: wrote.extend(digest(iter(lambda: os.read(theirs, 2**20), b""))))
        with tempfile.TemporaryFile() as given:
            given.writelines(given_pieces)
            given.seek(0)
            reading.start()
            try:
                self.measured(given, ours, 3 * SECONDS)
            finally:
                os.close(ours)
                reading.join()
                os.close(theirs)
        self.assertEqual(tuple(wrote), digest(wanted_pieces), "the bytes that it wrote, and which they are")

    def measured(self, given, out, seconds):
        """Runs a plain session, which ends well in time and in little memory."""
        with tempfile.TemporaryFile() as said:
            found = measure.run([self.program, *ARGS], seconds, given, out, said)
            said.seek(0)
            ran = Ran(found["status"], None, said.read())
        if found["late"]:
            raise TooLate(f"had not ended after {seconds} seconds")
        ran.ended()
        self.assertLessEqual(found["memory"], MEMORY, "bytes of memory")
        return ran

    def gets_again(self, block, times):
        """An item is set, and asked for so many times."""
        asked = b"set a 0 0 %d\r\n%s\r\n" % (len(block), block)
        answer = b"VALUE a 0 %d\r\n%s\r\nEND\r\n" % (len(block), block)
        self.flows([asked] + [b"get a\r\n"] * times, [b"STORED\r\n"] + [answer] * times)

    def test_ten_megabytes_of_random_bytes(self):
        self.answers(random.Random(1).randbytes(10_000_000))

    def test_ten_megabytes_of_random_short_lines(self):
        source = random.Random(2)
        lines = [b" ".join(source.choices(WORDS, k=source.randrange(1, 7))) + b"\r\n" for _ in range(600_000)]
        self.answers(b"".join(lines)[:10_000_000])

    def test_a_block_of_64_megabytes_that_is_too_large(self):
        line, size = b"set a 0 0 67108864\r\n", 64 * 2**20
        stream = line + b"quit\r\nz" * (size // 7 + 1)
        self.answers(stream[: len(line) + size] + b"\r\nversion\r\n")

    def test_a_line_that_never_ends(self):
        self.answers(b"version\r\n" + b"get " + b"a" * 20_000_000)

    def test_input_that_was_read_is_dropped(self):
        """The front of the input that was read is dropped, though a piece of a set is always left behind it."""
        # A set has an odd number of bytes, and a read gives 16384 of them: no read of the first 160 MB ends with a set.
        one = b"set a 0 0 9973\r\n" + b"x" * 9973 + b"\r\n"
        self.flows([one] * 10_000, [b"STORED\r\n"] * 10_000)

    def test_output_that_was_sent_is_dropped(self):
        self.gets_again(b"x" * 1000, 100_000)

    def test_output_is_written_before_all_input_is_answered(self):
        self.gets_again(b"x" * 1_000_000, 300)


def digest(pieces):
    """How long the pieces are together, and which bytes they are."""
    size, which = 0, hashlib.sha256()
    for piece in pieces:
        size += len(piece)
        which.update(piece)
    return size, which.hexdigest()

"""Each stored row: the program answers it, whole and in pieces, and so does the model."""
from tests.lib import model
from tests.lib.case import ProgramCase, tests_of
from tests.lib.compare import same
from tests.lib.process import run, run_in_pieces
from tests.lib.rows import all_rows


@tests_of(all_rows(), lambda row: f"{row.command} {row.name}")
class Rows(ProgramCase):
    """Each row is a test: `-k` takes those whose command or name has a word."""

    def check(self, row):
        with self.subTest("whole"):
            row.holds(run(self.program, row.args, row.stdin))
        if not row.session():
            return
        if row.stdin:
            with self.subTest(f"in pieces of {row.piece}"):
                row.holds(run_in_pieces(self.program, row.args, row.stdin, row.piece))
        with self.subTest("by the model"):
            same(row.wants["stdout"][0], model.answer(row.stdin, *row.session()), "the model's output")

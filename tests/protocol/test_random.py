"""Random inputs, by a seed: what the program answers is what the model answers.

An input that fails is made shorter while it still fails, and written as a row.
"""
from tests.lib import model, rows, settings
from tests.lib.case import ProgramCase
from tests.lib.inputs import Source
from tests.lib.process import run, run_in_pieces
from tests.lib.shrink import shorter

# So many of the inputs that fail are made shorter, by at most so many runs each.
SHORTENED, RUNS = 30, 300


class RandomInputs(ProgramCase):
    def test_answers_as_the_model(self):
        shortened, seed = 0, settings.seed()
        for number in range(settings.number("COUNT")):
            given = Input(self.program, seed, number)
            with self.subTest(input=number, seed=given.seed, pieces_of=given.size):
                fault = given.fault(given.pieces)
                if fault and shortened < SHORTENED:
                    shortened += 1
                    less = shorter(given.pieces, given.fault, RUNS)
                    fault = f"{given.fault(less) or fault}\n{given.kept(less)}"
                if fault:
                    self.fail(fault)


class Input:
    """One input, in what store it is tried, and how it is handed over."""

    def __init__(self, program, seed, number):
        source = Source(seed, number)
        self.program, self.seed, self.number, self.now, self.pages = program, seed, number, source.now, source.pages
        self.args = ["--stdin", "--now", str(self.now), "-m", str(self.pages)]
        self.pieces = source.pieces()
        self.size = source.size(len(b"".join(self.pieces)))

    def fault(self, pieces):
        """What is wrong with how the program answers; nothing where it is right."""
        stream = b"".join(pieces)
        try:
            ran = run(self.program, self.args, stream) if self.size is None else run_in_pieces(self.program, self.args, stream, self.size)
            ran.ended()
            ran.wrote(model.answer(stream, self.now, self.pages))
        except AssertionError as error:
            return str(error)
        return None

    def kept(self, pieces):
        """Keeps these pieces as a row, and tells it."""
        stream = b"".join(pieces)
        return rows.kept(f"random_{self.seed}_{self.number}", self.args, stream, model.answer(stream, self.now, self.pages))

"""Exptimes and delays of 1 to 8 seconds, by a clock that a test moves: the last millisecond in which an item lives, and the first in which it is dead."""
from tests.lib import passing, settings
from tests.lib.case import ProgramCase
from tests.lib.compare import shown
from tests.lib.faults import Faults
from tests.lib.passing import Moved
from tests.lib.shrink import shorter
from tests.lib.talk import Talk

# So many random inputs are tried, and one that fails is made shorter by so many runs.
INPUTS, RUNS = 150, 200


class Exptimes(ProgramCase):
    def moved(self, test):
        """Calls a test of a session whose clock it moves."""
        with Faults() as faults:
            faults.stand_at(passing.START * 1000)
            with Talk(self.program, ["--stdin"], env=faults.environment) as talk:
                test(Moved(faults, talk))
                talk.ends()

    def test_a_hit_until_the_exptime_and_a_miss_then(self):
        self.moved(Moved.each_exptime)

    def test_gats_and_cas(self):
        self.moved(Moved.each_number)

    def test_every_command_on_an_item_that_dies(self):
        self.moved(Moved.each_command_on_what_dies)

    def test_flush_all_with_a_delay(self):
        self.moved(Moved.each_delay)

    def fault(self, steps):
        """What is wrong with how a session answers inputs at these moments; nothing where it is right."""
        judge = passing.Judge()

        def test(moved):
            for at, text in steps:
                moved.to(0, at)
                moved.peer.asks(text + b"version\r\n", judge.answer(at, text) + b"VERSION 1.6.0\r\n")

        try:
            self.moved(test)
        except AssertionError as error:
            return str(error)
        return None

    def test_random_inputs_between_which_time_passes(self):
        """As the model answers, which has the same moments. `COUNT` says how many, and `SEED` which."""
        seed = settings.seed()
        for number in range(min(settings.number("COUNT"), INPUTS)):
            steps = passing.Source(seed, number).steps()
            if self.fault(steps):
                less = shorter(steps, self.fault, RUNS)
                told = "\n".join(f"{at} ms: {shown(text, 1000)}" for at, text in less)
                self.fail(f"input {number} of SEED={seed}: {self.fault(less)}\nmilliseconds after {passing.START}, and inputs:\n{told}")

"""Each test over sockets finds something wrong with a stand-in for the server that is wrong in its way. (No part of the gate.)"""
import io
import os
import unittest
from unittest import mock

STANDIN = f"{os.path.dirname(os.path.realpath(__file__))}/standin.py"
# The stand-in is slow: so many random inputs it is sent.
FEW_INPUTS = "1000"

# Names of tests below tests.sockets.
OWN_KEYS = "test_own_keys.OwnKeys.test_200_connections_on_keys_of_their_own"
IN_ROUNDS, FREELY = "test_shared_keys.SharedKeys.test_in_rounds", "test_shared_keys.SharedKeys.test_freely"
RANDOM = "test_random.RandomInputs.test_random_inputs_by_16_connections"
READ_LATE = "test_readers.Readers.test_clients_that_read_late"
NO_READERS = "test_readers.Readers.test_clients_that_do_not_read"
HALF_LINES = "test_half_lines.HalfLines.test_the_rest_comes_later"
ENDLESS, PASSED_OVER = "test_blocks.Blocks.test_blocks_that_do_not_end", "test_blocks.Blocks.test_blocks_that_are_passed_over"
RESET, COME_AND_GO = "test_resets.Resets.test_connections_that_are_reset", "test_resets.Resets.test_connections_that_come_and_go"
HOLD_MUCH = "test_resets.Resets.test_clients_that_hold_much_again_and_again"
EXPTIMES = "test_exptimes.Exptimes"
EXPIRE = f"{EXPTIMES}.test_a_hit_until_the_exptime_and_a_miss_then"
FLUSH, AS_TIME_PASSES = f"{EXPTIMES}.test_flush_all_with_a_delay", f"{EXPTIMES}.test_random_inputs_between_which_time_passes"
LENT, LENT_MEMORY = "test_get_large.GetLarge", "test_get_large_memory.GetLargeMemory"

# In which way the stand-in is wrong, and tests that must notice. Without a lie it is right, and is no program of this kind.
LIES = {
    "": [
        "test_command_lines.CommandLines.test_values_that_an_option_does_not_take",
        "test_command_lines.CommandLines.test_options_of_memcached",
        "test_ports.Ports.test_a_port_that_another_program_has",
        "test_ports.Ports.test_a_port_that_another_server_has",
        "test_ports.Ports.test_an_address_of_another_machine",
        "test_ports.Ports.test_a_port_behind_the_address_goes_before_the_one_of_p",
        "test_address_space.AddressSpace.test_from_the_least_memory_in_which_it_starts_upwards",
        "test_addresses.Addresses.test_the_address_that_is_asked_for",
        "test_descriptors.Descriptors.test_none_for_a_connection",
        "test_descriptors.Descriptors.test_as_many_as_connections",
        "test_descriptors.Descriptors.test_fewer_than_connections",
        "test_connection_limit.ConnectionLimit.test_one_more_than_there_may_be",
        "test_verbose.Verbose.test_why_a_connection_ends",
        "test_verbose.Verbose.test_one_more_than_there_may_be",
        "test_verbose.Verbose.test_nothing_without_being_asked",
        "test_stderr_unread.StderrUnread.test_nobody_reads",
        "test_out_of_memory.OutOfMemory.test_a_class_with_a_page",
        "test_out_of_memory.OutOfMemory.test_a_burst_of_refusals",
        "test_out_of_memory.OutOfMemory.test_a_store_that_is_just_not_full",
        "test_fairness.Fairness.test_connections_that_come_at_once",
        "test_fairness.Fairness.test_newcomers_beside_a_worker_that_is_busy",
        "test_wakeups.Wakeups.test_how_often_workers_wake",
        "test_get_large_and_small.GetLargeAndSmall.test_small_items_beside_large_ones",
        "test_idle_timeout.IdleTimeout.test_those_of_which_nothing_is_heard",
        "test_idle_timeout.IdleTimeout.test_those_that_do_not_read",
        "test_idle_timeout.IdleTimeout.test_the_place_of_one_comes_back",
        f"{LENT_MEMORY}.test_readers_share_an_item",
        "test_get_large_changed.GetLargeChanged.test_readers_of_items_that_are_written_again",
    ],
    "reads as it sends": [
        f"{LENT}.test_an_item_that_changes_while_it_is_read",
        f"{LENT}.test_no_block_is_torn",
        f"{LENT}.test_many_in_one_request_and_behind_it",
        f"{LENT_MEMORY}.test_writes_are_refused_as_without_readers",
    ],
    "counts what is read": [f"{LENT_MEMORY}.test_writes_are_refused_as_without_readers"],
    "keeps answers": [f"{LENT_MEMORY}.test_who_leaves_holds_nothing"],
    "stays": ["test_signals.Signals.test_signals_that_end_it"],
    "drops answers": [OWN_KEYS, FREELY, READ_LATE, RANDOM],
    "doubles answers": [OWN_KEYS, IN_ROUNDS, RANDOM],
    "answers before": [OWN_KEYS, RANDOM],
    "forgets writes": [OWN_KEYS, IN_ROUNDS, RANDOM],
    "repeats numbers": [OWN_KEYS, IN_ROUNDS, FREELY],
    "reads what was": [IN_ROUNDS, FREELY, OWN_KEYS],
    "loses pieces": [HALF_LINES, OWN_KEYS],
    "stalls": [HALF_LINES, ENDLESS],
    "keeps input": [ENDLESS, PASSED_OVER, HOLD_MUCH],
    "hoards answers": [NO_READERS],
    "dies of a reset": [RESET, COME_AND_GO],
    "keeps descriptors": [HALF_LINES, RESET, COME_AND_GO],
    "never rests": ["test_wakeups.Wakeups.test_500_idle_connections"],
    "spins": ["test_few_descriptors.FewDescriptors.test_more_connections_than_descriptors"],
    "serves the last first": ["test_fairness.Fairness.test_who_asked_first"],
    "stalls at urgent data": ["test_urgent.Urgent.test_a_byte_of_urgent_data"],
    "hangs up": ["test_idle_timeout.IdleTimeout.test_those_of_which_something_is_heard", "test_idle_timeout.IdleTimeout.test_without_it_none_is_closed"],
    "stores for a second more": [EXPIRE, f"{EXPTIMES}.test_every_command_on_an_item_that_dies", AS_TIME_PASSES],
    "swaps for a second more": [f"{EXPTIMES}.test_gats_and_cas"],
    "touches for a second more": [EXPIRE, AS_TIME_PASSES],
    "reads for a second more": [EXPIRE, f"{EXPTIMES}.test_gats_and_cas", AS_TIME_PASSES],
    "flushes a second later": [FLUSH, AS_TIME_PASSES],
    "leaves when stopped": ["test_signals.Signals.test_a_server_that_is_stopped_for_two_seconds"],
}


def finds(case, name):
    """Runs a test below tests.sockets up to its first failure, which there must be, and gives what it found."""
    result, said = unittest.TestResult(), io.StringIO()
    result.failfast = True
    with mock.patch("sys.stdout", said):
        unittest.defaultTestLoader.loadTestsFromName(f"tests.sockets.{name}").run(result)
    case.assertEqual(1, result.testsRun)
    found = [text.strip().splitlines()[-1] for _, text in result.failures + result.errors]
    case.assertTrue(found, "nothing was found")
    return found[0]


class Lies(unittest.TestCase):
    def notice(self, lie, names):
        """Each of these tests fails, of a stand-in that is wrong so."""
        for name in names:
            with self.subTest(name), mock.patch.dict(os.environ, PROGRAM=STANDIN, LIE=lie, INPUTS=FEW_INPUTS):
                print(f"    {lie or 'no program'}: {name}: {finds(self, name)[:200]}", flush=True)


def test_of(lie, names):
    return lambda self: self.notice(lie, names)


for lie, names in LIES.items():
    setattr(Lies, f"test_{lie.replace(' ', '_') or 'is_no_program'}", test_of(lie, names))

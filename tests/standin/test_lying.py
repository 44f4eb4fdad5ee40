"""Each test over sockets finds what is wrong with the program itself, made to lie by a library that is preloaded (lying.c). (No part of the gate.)"""
import contextlib
import os
import subprocess
import tempfile
import unittest
from unittest import mock

from tests.lib import settings
from tests.standin.test_lies import finds

HERE = os.path.dirname(os.path.realpath(__file__))
CLOSED = "test_connections_closed_total.ConnectionsClosedTotal"
OWN = f"{CLOSED}.test_each_reason_at_its_own_number"

# In which way it lies, and tests that must notice.
LIES = {
    "garbles from 8 workers": ["test_matrix.Matrix.test_t_8_shelves_256", "test_matrix.Matrix.test_t_64_shelves_256_I_8m"],
    "answers late": ["test_waiting_connections.Waiting.test_a_byte_of_8_mb_now_and_then"],
    "loses 256 bytes a connection": ["test_memory_of_connections.MemoryOfConnections.test_what_100000_leave"],
    "tells thousands wrong": ["test_metrics_numbers.MetricsNumbers.test_thousands_of_items_and_commands"],
    "tells another uptime": ["test_metrics_numbers.MetricsNumbers.test_the_uptime"],
    "waits for ever to quit": ["test_quit_option.QuitOption.test_answers_of_others", "test_quit_option.QuitOption.test_a_server_ends"],
    **{
        f"miscounts {reason}": [OWN]
        for reason in ("client_closed", "session_over", "read_fault", "write_fault", "one_too_many", "no_descriptor", "no_memory", "line_too_long", "other_protocol")
    },
    **{f"miscounts {reason}": [f"{CLOSED}.test_{reason}"] for reason in ("idle", "hoarding", "out_of_memory", "stopped")},
}
# Lies of time have so many tries: beside other load a test lets what is late pass.
TRIES = {"answers late": 3}


class Lying(unittest.TestCase):
    @classmethod
    def setUpClass(cls):
        cls.room = tempfile.TemporaryDirectory()
        cls.library, cls.program = f"{cls.room.name}/lying.so", settings.program()
        words = [os.environ.get("CC", "cc"), "-O2", "-shared", "-fPIC", "-o", cls.library, f"{HERE}/lying.c", "-ldl"]
        subprocess.run(words, stdin=subprocess.DEVNULL, check=True)

    def notice(self, lie, names):
        told = {"PROGRAM": f"{HERE}/lying.sh", "TRUE_PROGRAM": self.program, "LYING": self.library, "LIE": lie}
        for name in names:
            with self.subTest(name), mock.patch.dict(os.environ, told):
                print(f"    {lie}: {name}: {self.found(name, TRIES.get(lie, 1))[:200]}", flush=True)

    def found(self, name, tries):
        for _ in range(tries - 1):
            with contextlib.suppress(AssertionError):
                return finds(self, name)
        return finds(self, name)


def test_of(lie, names):
    return lambda self: self.notice(lie, names)


for lie, names in LIES.items():
    setattr(Lying, f"test_{lie.replace(' ', '_')}", test_of(lie, names))

"""Faults of the system, for a program that is started with them.

    with Faults() as faults, Server(faults=faults) as server:
        faults.fail("recv", [errno.EINTR], every=3)     # each third call of recv fails so
        faults.fail("accept4", [errno.EMFILE], left=1)  # the next one alone
        faults.fail("close", [delay(50)])               # each is made 50 ms later
        faults.fail("epoll_wait", [late(50)], left=1)   # the next is made now, and answers 50 ms later
        faults.end()
        faults.set_clock_back(3600)
    faults.pass_seconds(60)
    faults.stand_at(1_700_000_000_999)                  # both clocks stand at this millisecond, until they are set again

faults.c is compiled once in a run, by cc or what the environment's CC names, and preloaded to the program.
"""
import functools
import mmap
import os
import struct
import subprocess
import tempfile
import threading

HERE = os.path.dirname(os.path.realpath(__file__))
# As in faults.c: write is that of standard error, stdin a read of standard input, stdout a write of standard output.
CALLS = ["accept4", "recv", "send", "sendmsg", "epoll_wait", "epoll_ctl", "close", "write", "pthread_create", "stdin", "stdout"]
CLOCK, ELSEWHERE, MONOTONIC, STILL, FRONT, WIDTH, WORD, DELAY, LATE = 0, 1, 2, 3, 8, 16, 8, 1000, 1_000_000
EVERY, LEFT, MADE, FAILED, ERRORS, FIRST = range(6)
MOST = WIDTH - FIRST
# Held while the library is compiled.
compiling = threading.Lock()


def delay(milliseconds):
    """What stands in place of an error for a call that is made so much later."""
    return DELAY + milliseconds


def late(milliseconds):
    """What stands in place of an error for an epoll_wait whose answer comes so much later."""
    return LATE + milliseconds


def library():
    """The library that makes calls fail, compiled once."""
    with compiling:
        return compiled()


@functools.cache
def compiled():
    """Compiles it; it lies in a folder that ends with this process."""
    room = tempfile.TemporaryDirectory()
    path, compiler = f"{room.name}/faults.so", os.environ.get("CC", "cc")
    try:
        words = [compiler, "-O2", "-shared", "-fPIC", "-o", path, f"{HERE}/faults.c", "-ldl"]
        subprocess.run(words, stdin=subprocess.DEVNULL, check=True)
    except FileNotFoundError:
        raise AssertionError(f"{compiler}: a C compiler is needed, as cc or as the environment's CC names it") from None
    compiled.room = room
    return path


class Faults:
    """What fails of a program's calls; nothing at first."""

    def __init__(self):
        self.file = tempfile.NamedTemporaryFile()
        size = WORD * (FRONT + WIDTH * len(CALLS))
        self.file.truncate(size)
        self.words = mmap.mmap(self.file.fileno(), size)
        self.environment = {**os.environ, "LD_PRELOAD": library(), "FAULTS": self.file.name}

    def _set(self, at, number):
        struct.pack_into("q", self.words, WORD * at, number)

    def _row(self, call):
        return FRONT + WIDTH * CALLS.index(call)

    def fail(self, call, errors, every=1, left=-1):
        """Lets each Kth call fail by the errors in turn, so many times at most; an error 0 is an answer of 0."""
        assert 0 < len(errors) <= MOST, errors
        row = self._row(call)
        self._set(row + EVERY, 0)
        for at, error in enumerate(errors):
            self._set(row + FIRST + at, error)
        for column, number in ((ERRORS, len(errors)), (LEFT, left), (FAILED, 0), (EVERY, every)):
            self._set(row + column, number)

    def end(self, *calls):
        """Lets no call fail any more, or none of these."""
        for call in calls or CALLS:
            self._set(self._row(call) + EVERY, 0)

    def count(self, call, column=FAILED):
        """How many calls failed, since they were last made to, or were made at all."""
        return struct.unpack_from("q", self.words, WORD * (self._row(call) + column))[0]

    def made(self, call):
        return self.count(call, MADE)

    def set_clock_back(self, seconds):
        """Sets the system's clock back, as the program sees it, from what the machine's says."""
        self._set(CLOCK, -seconds)

    def pass_seconds(self, seconds):
        """Sets the monotonic clock forward, as the program sees it, by so many seconds in all."""
        self._set(MONOTONIC, seconds)

    def stand_at(self, milliseconds):
        """Lets both clocks stand, as the program sees them, at so many milliseconds after 1970."""
        self._set(STILL, milliseconds)

    def move_peers(self):
        """Lets each peer that is accepted from now on seem to be on another machine, at 192.0.2.1."""
        self._set(ELSEWHERE, 1)

    def close(self):
        self.words.close()
        self.file.close()

    def __enter__(self):
        return self

    def __exit__(self, *_):
        self.close()

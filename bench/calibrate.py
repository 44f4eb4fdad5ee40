#!/usr/bin/env python3
"""How fast this machine is, for the figures of builds and of the gate: `bench/calibrate.py`, by `make calibrate`

It times a fixed piece of Python, and one check of mc_time from nothing, as `rt ci` proves it: in one job, with nothing kept. It prints a line
of each, with seconds by the clock and of a processor, the least of three runs and of one. Machines differ by half, and a busy one is slower,
so these lines stand beside each figure of a build. The status is 1 if the check proves nothing.
"""
import hashlib
import os
import resource
import sys
import tempfile
import time

ROOT = os.path.dirname(os.path.dirname(os.path.realpath(__file__)))
sys.path[:0] = [ROOT]
from tests.lib.kit import Copy, Stopped  # noqa: E402

CRATE = "mc_time"


def used():
    """Processor seconds of this process and of what it waited for."""
    return sum(it.ru_utime + it.ru_stime for who in (resource.RUSAGE_SELF, resource.RUSAGE_CHILDREN) for it in [resource.getrusage(who)])


def timed(call):
    """The seconds of a call by the clock, and of a processor."""
    clock, processor = time.monotonic(), used()
    call()
    return time.monotonic() - clock, used() - processor


def piece():
    """The fixed piece of Python: sums, a dictionary, and a digest."""
    found, last = {}, b"mcserver"
    for number in range(400_000):
        key = number * 7919 % 65_536
        found[key] = found.get(key, 0) + number
        if number % 4 == 0:
            last = hashlib.sha256(last * 16).digest()
    return last, sum(found.values())


def check(copy):
    """A check of the crate from nothing."""
    ran = copy.rt.checked(copy.crates[CRATE], {}, ["--jobs", "1"], None)
    if ran.returncode:
        raise Stopped(f"{CRATE} is not proved: {ran.stdout[-600:]}")


def main():
    print(f"{os.cpu_count()} processors, load {os.getloadavg()[0]:.1f}")
    print("Python      {:6.2f} s by the clock, {:6.2f} of a processor".format(*min(timed(piece) for _ in range(3))))
    with tempfile.TemporaryDirectory(prefix="mcserver-calibrate-") as folder:
        try:
            copy = Copy(ROOT, folder)
            print("{:11} {:6.2f} s by the clock, {:6.2f} of a processor".format(CRATE, *timed(lambda: check(copy))))
        except Stopped as error:
            print(error, file=sys.stderr)
            return 1
    return 0


if __name__ == "__main__":
    sys.exit(main())

"""Runs a command with these standard streams, and writes to a file how it went.

    tests/lib/measure.py FILE SECONDS COMMAND..

The file has a line each for the status, whether it had to be stopped, the seconds that it took, those
of the processor, and the most memory that it had, in bytes. A process counts the memory of the one
that it was started from, so this, with few modules, stands between a large caller and the command.
"""
import os
import resource
import signal
import sys
import time


def main():
    path, seconds, command = sys.argv[1], int(sys.argv[2]), sys.argv[3:]
    stopped = []

    def stop(*_):
        stopped.append(True)
        os.kill(started, signal.SIGKILL)

    signal.signal(signal.SIGALRM, stop)
    start = time.perf_counter()
    started = os.posix_spawn(command[0], command, os.environ)
    signal.alarm(seconds)
    _, status, used = os.wait4(started, 0)
    signal.alarm(0)
    taken = time.perf_counter() - start
    with open(path, "w") as it:
        found = [os.waitstatus_to_exitcode(status), len(stopped), taken, used.ru_utime + used.ru_stime, used.ru_maxrss * 1024]
        it.write("\n".join(map(str, found)))


def run(command, seconds, stdin, stdout, stderr=None):
    """Runs the command so from a fresh process, and returns what the file says."""
    import subprocess
    import tempfile

    with tempfile.TemporaryDirectory() as room:
        words = [sys.executable, "-I", "-S", os.path.realpath(__file__), f"{room}/found", str(seconds), *command]
        subprocess.run(words, stdin=stdin, stdout=stdout, stderr=stderr, check=True)
        with open(f"{room}/found") as it:
            status, late, taken, processor, memory = it.read().split("\n")
    found = {"status": int(status), "late": late != "0", "seconds": float(taken)}
    return {**found, "processor": float(processor), "memory": int(memory)}


if __name__ == "__main__":
    main()

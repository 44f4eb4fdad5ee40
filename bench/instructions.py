#!/usr/bin/env python3
"""Counts the instructions of a request over TCP by valgrind's callgrind, and prints a table. It is no test.

Each count is a run of many requests less a run of a quarter of them, so that the start and the end of the server go. The server has one worker
and 12 connections, of which one at a time asks, by a sequence that is the same in each run. Keys have 32 bytes, blocks 100. With --now the server
reads no clock. Compare figures of this client alone: by another one the same get counted 5,511 instructions, and 7,055 by this; why isn't known.

    bench/instructions.py [--program PATH] [--now N] [--requests N]
"""
import argparse
import contextlib
import os
import random
import re
import socket
import subprocess
import sys
import time

HERE = os.path.dirname(os.path.realpath(__file__))
sys.path.insert(0, os.path.dirname(HERE))

from tests.lib.server import HOST, free_port  # noqa: E402
from tests.lib.settings import program as built  # noqa: E402
from tests.lib.wait import until  # noqa: E402

KEYS = [b"k%031d" % number for number in range(64)]
BLOCK = b"x" * 100
CONNECTIONS = 12
# Seconds in which a server under callgrind begins to listen, and in which it comes to rest.
STARTS, PAUSE = 60, 0.002


def get(keys):
    return b"".join(b"get %s\r\n" % key for key in keys), b"".join(hit(key) + b"END\r\n" for key in keys)


def get_many(keys):
    return b"get %s\r\n" % b" ".join(keys), b"".join(hit(key) for key in keys) + b"END\r\n"


def store(keys):
    return b"".join(b"set %s 0 0 %d\r\n%s\r\n" % (key, len(BLOCK), BLOCK) for key in keys), b"STORED\r\n" * len(keys)


def hit(key):
    return b"VALUE %s 0 %d\r\n%s\r\n" % (key, len(BLOCK), BLOCK)


# What is asked, how many keys at once, and by how many of these the requests are multiplied.
ROWS = [
    ("a get, one at a time", get, 1, 1),
    ("a set, one at a time", store, 1, 1),
    ("a get, 32 deep", get, 32, 3),
    ("a set, 32 deep", store, 32, 3),
    ("a key of a get of 100", get_many, 100, 6),
]


def answers(port):
    with contextlib.suppress(OSError), socket.create_connection((HOST, port), 1):
        return True
    return False


def exchange(link, sent, wanted):
    """Asks, and ends the program unless the answer is the wanted one. It pauses first, so that the server is at rest."""
    time.sleep(PAUSE)
    link.sendall(sent)
    got = link.recv(len(wanted), socket.MSG_WAITALL)
    if got != wanted:
        raise SystemExit(f"instructions: {sent[:80]} was answered {got[:80]}")


def counted(given, ask, depth, count):
    """The instructions of a server that is asked for `count` keys, `depth` at once, and how many it was asked for."""
    port, chance, done = free_port(), random.Random(5), 0
    words = ["valgrind", "--tool=callgrind", "--callgrind-out-file=/dev/null", given.program, "-p", str(port), "-t", "1"]
    words += ["--now", str(given.now)] if given.now is not None else []
    with subprocess.Popen(words, stdout=subprocess.DEVNULL, stderr=subprocess.PIPE, text=True) as server:
        try:
            if not until(lambda: answers(port), STARTS):
                raise SystemExit("instructions: the server doesn't listen; is valgrind installed?")
            with contextlib.ExitStack() as open_ones:
                links = [open_ones.enter_context(socket.create_connection((HOST, port))) for _ in range(CONNECTIONS)]
                exchange(links[0], *store(KEYS))
                while done < count:
                    exchange(links[chance.randrange(CONNECTIONS)], *ask([KEYS[(done + it) % len(KEYS)] for it in range(depth)]))
                    done += depth
        finally:
            server.terminate()
        said = server.communicate()[1]
    return int(re.search(r"Collected : (\d+)", said)[1]), done


def main():
    parser = argparse.ArgumentParser(prog="bench/instructions.py", description=__doc__, formatter_class=argparse.RawDescriptionHelpFormatter)
    parser.add_argument("--program", default=built())
    parser.add_argument("--now", type=int)
    parser.add_argument("--requests", type=int, default=2000)
    given = parser.parse_args()
    given.program = os.path.abspath(given.program)
    print(f"| Instructions of | {given.program} |\n|---|--:|")
    for name, ask, depth, times in ROWS:
        whole = given.requests * times
        (more, all_done), (less, few_done) = (counted(given, ask, depth, it) for it in (whole, whole // 4))
        print(f"| {name} | {(more - less) / (all_done - few_done):,.0f} |", flush=True)


if __name__ == "__main__":
    main()

#!/usr/bin/env python3
"""Measures the memory of an item over TCP, beside memcached's, and prints a table. It is no test.

50 connections store keys of 32 bytes with blocks of 100 in an empty server of 4 workers, 200 sets in one write. The figure is the growth of the
process's resident memory by an item, 1.5 seconds after the connections have closed.

    bench/resident.py [--program PATH] [--items N [N ..]]
"""
import argparse
import contextlib
import os
import shutil
import sys
import time

HERE = os.path.dirname(os.path.realpath(__file__))
sys.path.insert(0, os.path.dirname(HERE))

from tests.lib.peer import clients  # noqa: E402
from tests.lib.server import Server  # noqa: E402
from tests.lib.settings import program as built  # noqa: E402

PAGES, CONNECTIONS, BATCH, REST = 1024, 50, 200, 1.5
BLOCK = b"x" * 100
STORED = b"STORED\r\n"


def sets(first, count):
    """Sets of `count` keys from the number `first` on."""
    return b"".join(b"set k%031d 0 0 %d\r\n%s\r\n" % (number, len(BLOCK), BLOCK) for number in range(first, first + count))


def bytes_an_item(program, items):
    """The bytes of resident memory by which a server grows for each of so many items."""
    with Server(program=program, pages=PAGES) as server:
        before = server.memory()
        with clients(server.port, CONNECTIONS) as peers:
            for first in range(0, items, BATCH):
                peers[first // BATCH % CONNECTIONS].asks(sets(first, min(BATCH, items - first)), STORED * min(BATCH, items - first))
        time.sleep(REST)
        return (server.memory() - before) / items


def main():
    made = argparse.ArgumentParser(description=__doc__.splitlines()[0])
    made.add_argument("--program", default=built(), help="mcserver, where it is built")
    made.add_argument("--items", type=int, nargs="+", default=[400_000, 1_000_000], help="how many items, a row each")
    given = made.parse_args()
    theirs = shutil.which("memcached")
    print("| Items | Bytes an item, memcached | mcserver | Ratio |\n|--:|--:|--:|--:|")
    for items in given.items:
        other = bytes_an_item(theirs, items) if theirs else float("nan")
        ours = bytes_an_item(given.program, items)
        print(f"| {items:,} | {other:.0f} | {ours:.0f} | {ours / other:.2f} |", flush=True)
    return 0


if __name__ == "__main__":
    with contextlib.suppress(KeyboardInterrupt):
        sys.exit(main())

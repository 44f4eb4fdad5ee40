#!/usr/bin/env python3
"""Measures the built program on pipelined input through --stdin, and by mc_bench finds among many items, a world of many sessions, and
steps in threads, and by shelves.

Inputs are made beforehand and lie in files, and outputs go to files. Each figure is the median of
several runs of a fresh process. It is no test: nothing here fails for being slow.

    bench/bench.py [--program PATH] [--runs N] [--commands N] [--turns N] [--steps N] [--only WORD]
"""
import argparse
import array
import gc
import os
import shutil
import socket
import statistics
import subprocess
import sys
import tempfile
import threading
import time

ROOT = os.path.dirname(os.path.dirname(os.path.realpath(__file__)))
sys.path.insert(0, ROOT)

from tests.lib import measure  # noqa: E402

# as many pages as every input here wants
ARGS = ["--stdin", "--now", "1000", "-m", "2048"]
SECONDS = 300
VALUE = b"v" * 100
KEYS = 1000
MEGA = 1_000_000
MC_BENCH = f"{ROOT}/crates/mc_bench/out/mc_bench"
SESSIONS = [1, 100, 10_000]
# how many items stand while a command's cost is taken, and their memory
STANDING = [10_000, 100_000, 1_000_000, 4_000_000]
# what finds are timed in beside memcached's chains; and how many windows of 1024 keys a run has of each kind, of which so many are found
FOUND = {"the shelves' indexes": [MC_BENCH, "finds", "index"], "gets of the store": [MC_BENCH, "finds", "store"]}
WINDOW, WINDOWS = 1024, 400
KINDS = [("hits", WINDOW, "hits"), ("turns", WINDOW, "one at a time"), ("misses", 0, "misses")]
FLUSHED = [10_000, 100_000, 700_000]
RESIDENT = [100_000, 400_000, 1_000_000, 4_000_000]
# what mcserver says last, and of an item that finds no chunk
VERSION = b"VERSION 1.6.0\r\n"
REFUSED = b"SERVER_ERROR out of memory storing object\r\n"
# what takes the steps, by how many threads, and which steps they are
STEPPED = [("store", 1), *((over, count) for over in ("own", "side", "same") for count in (1, 2, 4))]
MIXES = ["gets", "sets", "mixed", "misses", "renewals"]
# by how many threads steps are taken of keys that are drawn, in a store of how many shelves, and which steps
DRAWN = [(count, shelves) for count in (1, 4) for shelves in (1, 64, 256)]
DRAWN_MIXES = ["gets", "sets", "mixed"]
# what a session is told in a round, of a set and a get of its key
TOLD = b"STORED\r\nVALUE key 0 1\r\nx\r\nEND\r\n"


def key(number):
    """A key of 32 bytes."""
    return b"key-%028d" % number


def stored(verb, name, block=VALUE, more=b""):
    return b"%s %s 0 0 %d%s\r\n%s\r\n" % (verb, name, len(block), more, block)


def one_shelf(count, shelf=12, shelves=64):
    """Keys of 32 bytes that are all of one shelf, by FNV-1a: the last byte makes the lowest 6 bits of the hash right."""
    found, number = [], 0
    before_last = shelf * pow(0x33, -1, shelves) % shelves
    while len(found) < count:
        name = b"key-%027d" % number
        low = 0x25  # the lowest bits of the hash of no byte, and 0x33 those of the prime, modulo 64
        for byte in name:
            low = (low ^ byte) * 0x33 % shelves
        last = low ^ before_last | 0x40
        if last != 0x7F:
            found.append(name + bytes([last]))
        number += 1
    return found


def preload(block=VALUE):
    return b"".join(stored(b"set", key(it), block, b" noreply") for it in range(KEYS))


# ---- inputs: each gives what goes before, and then so many commands


def sets(count):
    return b"", [stored(b"set", key(it % KEYS)) for it in range(count)]


def new_keys(count):
    return b"", [stored(b"set", key(it)) for it in range(count)]


def gets(count):
    return preload(), [b"get %s\r\n" % key(it % KEYS) for it in range(count)]


def misses(count):
    return preload(), [b"get %s\r\n" % key(KEYS + it % KEYS) for it in range(count)]


def adds(count):
    return preload(), [stored(b"add", key(it % KEYS)) for it in range(count)]


def appends(count):
    pairs = [(stored(b"set", key(it % KEYS)), stored(b"append", key(it % KEYS))) for it in range(count // 2)]
    return b"", [it for pair in pairs for it in pair]


def swaps(count):
    # the write number n of a store draws the unique number n
    return preload(), [stored(b"cas", key(it % KEYS), more=b" %d" % (it + 1)) for it in range(count)]


def increments(count):
    return preload(b"0"), [b"incr %s 7\r\n" % key(it % KEYS) for it in range(count)]


def touches(count):
    return preload(), [b"touch %s 100\r\n" % key(it % KEYS) for it in range(count)]


def touching_gets(count):
    return preload(), [b"gat 100 %s\r\n" % key(it % KEYS) for it in range(count)]


def deletes(count):
    pairs = [(stored(b"set", key(it % KEYS)), b"delete %s\r\n" % key(it % KEYS)) for it in range(count // 2)]
    return b"", [it for pair in pairs for it in pair]


COMMANDS = {
    "set": sets,
    "set of new keys": new_keys,
    "get": gets,
    "get of nothing": misses,
    "add, refused": adds,
    "set and append": appends,
    "cas": swaps,
    "incr": increments,
    "touch": touches,
    "gat": touching_gets,
    "set and delete": deletes,
}


# ---- servers that stay up while they are measured


class Server:
    """A server, and one connection to it: what is sent, what comes back, and the memory that it holds."""

    def __init__(self, words, link=None):
        self.started = subprocess.Popen(words, stdin=subprocess.PIPE, stdout=subprocess.PIPE)
        self.link = link and link()

    def send(self, data):
        if self.link:
            self.link.sendall(data)
        else:
            self.started.stdin.write(data)
            self.started.stdin.flush()

    def receive(self):
        return self.link.recv(65536) if self.link else os.read(self.started.stdout.fileno(), 65536)

    def pieces(self, data, end):
        """Sends data, and gives what comes back piece by piece, up to and with this end."""
        sending = threading.Thread(target=self.send, args=(data,))
        sending.start()
        last = b""
        while not last.endswith(end):
            piece = self.receive()
            if not piece:
                sys.exit(f"the server went after {last!r}")
            yield piece
            last = (last + piece)[-100:]
        sending.join()

    def answer(self, data, end):
        """Sends data, and gives what comes back, up to and with this end."""
        return b"".join(self.pieces(data, end))

    def filled(self, sets_of, asked):
        """Sets so many items, of which the store takes the first. Gives how many those are, and the resident bytes then."""
        got = self.answer(sets_of + b"version\r\n", VERSION)
        count = got.count(b"STORED\r\n")
        if got != b"STORED\r\n" * count + REFUSED * (asked - count) + VERSION or count == asked:
            sys.exit(f"{count} of {asked} items were stored, and not the first, or all of them")
        return count, self.resident()

    def emptied(self, deletes_of, asked, count):
        """Deletes them from the last to the first, of which so many stand."""
        got = self.answer(deletes_of + b"version\r\n", VERSION)
        if got != b"NOT_FOUND\r\n" * (asked - count) + b"DELETED\r\n" * count + VERSION:
            sys.exit(f"other items than the first {count} were there to be deleted")

    def cost(self, data):
        """The processor's seconds that its process takes for this data."""
        before = self.processor()
        self.answer(data + b"version\r\n", VERSION)
        return self.processor() - before

    def each_takes(self, sets_of):
        """Sends sets one at a time, each when the one before was answered. Gives the nanoseconds that each took."""
        took = array.array("Q")
        clock = time.perf_counter_ns
        gc.disable()
        for it in sets_of:
            before = clock()
            self.send(it)
            got = self.receive()
            took.append(clock() - before)
            if got != b"STORED\r\n":
                sys.exit(f"a set was answered {got!r}")
        gc.enable()
        return took

    def processor(self):
        """The processor's seconds that its process has had, of all threads."""
        found = 0
        for thread in os.listdir(f"/proc/{self.started.pid}/task"):
            with open(f"/proc/{self.started.pid}/task/{thread}/schedstat") as it:
                found += int(it.read().split()[0])
        return found / 1e9

    def resident(self, most=False):
        """The resident bytes of its process, or the most that they were."""
        name = "VmHWM:" if most else "VmRSS:"
        with open(f"/proc/{self.started.pid}/status") as it:
            return next(int(line.split()[1]) * 1024 for line in it if line.startswith(name))

    def stop(self):
        self.started.kill()
        self.started.communicate()


def memcached():
    """Debian's memcached as it is compared with: four threads, nothing evicted, a free port; None where there is none."""
    found = shutil.which("memcached")
    if not found:
        return None
    with socket.socket() as free:
        free.bind(("127.0.0.1", 0))
        port = free.getsockname()[1]

    def link():
        for _ in range(100):
            try:
                return socket.create_connection(("127.0.0.1", port))
            except OSError:
                time.sleep(0.05)
        sys.exit("memcached doesn't listen")

    user = ["-u", "root"] if os.geteuid() == 0 else []
    return Server([found, "-M", "-m", "2048", "-l", "127.0.0.1", "-p", str(port), *user], link)


# ---- runs


class Bench:
    def __init__(self, program, runs):
        self.program, self.runs = program, runs

    def run(self, stream):
        """Of several runs the median seconds, those of the processor, and the bytes written."""
        seconds, processor, wrote = [], [], 0
        with tempfile.TemporaryFile() as given:
            given.write(stream)
            for _ in range(self.runs):
                with tempfile.TemporaryFile() as out:
                    given.seek(0)
                    found = measure.run([self.program, *ARGS], SECONDS, given, out)
                    if found["status"] != 0:
                        sys.exit(f"the program ended with status {found['status']}")
                    seconds.append(found["seconds"])
                    processor.append(found["processor"])
                    wrote = os.fstat(out.fileno()).st_size
        return statistics.median(seconds), statistics.median(processor), wrote

    def rates(self, counts, only):
        print("Time over input says by how much the processor's time grew, over how much the input did, since the row above.\n")
        print(f"{'commands':<17}{'number':>9}{'seconds':>9}{'processor':>11}{'a second':>12}{'MB/s in':>9}{'MB/s out':>9}  time over input")
        for name, make in COMMANDS.items():
            if only not in name:
                continue
            last = None
            for count in counts:
                before, commands = make(count)
                stream = before + b"".join(commands)
                seconds, processor, wrote = self.run(stream)
                size = len(stream)
                growth = f"{processor / last[0] / (size / last[1]):.2f}" if last else ""
                last = max(processor, 1e-9), size
                shown = f"{len(commands) / seconds:>12,.0f}{size / MEGA / seconds:>9.1f}{wrote / MEGA / seconds:>9.1f}"
                print(f"{name:<17}{len(commands):>9,}{seconds:>9.3f}{processor:>11.3f}{shown}  {growth}", flush=True)

    def lines(self, keys):
        """What a key costs in lines of more and more of them, all keys being hits."""
        names = [b"k%d" % it for it in range(10_000)]
        before = b"".join(stored(b"set", it, more=b" noreply") for it in names)
        _, idle, _ = self.run(before)
        print(f"\n{'keys in a line':<17}{'lines':>9}{'seconds':>9}{'ns a key':>12}  against the cheapest (of the processor's time)")
        found = []
        for each in [1, 10, 100, 1000, 10_000]:
            lines = max(keys // each, 1)
            asked = [names[it % len(names)] for it in range(lines * each)]
            made = [b"get " + b" ".join(asked[it * each : (it + 1) * each]) + b"\r\n" for it in range(lines)]
            seconds, processor, _ = self.run(before + b"".join(made))
            found.append((each, lines, seconds, max(processor - idle, 0) / (lines * each) * 1e9))
        least = min(it[3] for it in found) or 1
        for each, lines, seconds, cost in found:
            print(f"{each:<17,}{lines:>9,}{seconds:>9.3f}{cost:>12.0f}  {cost / least:.2f}", flush=True)

    def resident(self):
        """What an item takes while it stands, beside memcached on the same machine."""
        print(f"\n{'resident bytes an item':<25}{'items':>11}{'bytes a block':>15}{'bytes an item':>15}  over memcached's")
        for count, size in [*((it, 100) for it in RESIDENT), (1_000_000, 10), (1_000_000, 1000)]:
            block = b"v" * size
            stream = b"".join(stored(b"set", key(it), block, b" noreply") for it in range(count))
            last = None
            for name, server in [("memcached", memcached()), ("mcserver", Server([self.program, *ARGS]))]:
                if server is None:
                    print(f"{name:<25}{'':>11}{'':>15}{'not installed':>15}")
                    continue
                before = (server.answer(b"version\r\n", b"\r\n"), server.resident())[1]
                server.answer(stream + b"version\r\n", b"\r\n")
                found = (server.resident() - before) / count
                server.stop()
                print(f"{name:<25}{count:>11,}{size:>15,}{found:>15.0f}" + (f"  {found / last:.2f}" if last else ""), flush=True)
                last = found

    def standing(self, least=200_000):
        """What a set of a new key, a set of one that stands, a get and a get of nothing cost while so many items stand."""
        words = ["a set of a new key", "a set again", "a get", "a get of nothing"]
        print(f"\n{'items that stand':<17}" + "".join(f"{'ns ' + it:>22}" for it in words) + "  (of the processor's time)")
        medians = {}
        for count in STANDING:
            order = [it * 7919 % count for it in range(count)]
            times = max(least // count, 1)
            sets_of = b"".join(stored(b"set", key(it), more=b" noreply") for it in order)
            gets_of = b"".join(b"get %s\r\n" % key(it) for it in order)
            misses_of = b"".join(b"get %s\r\n" % key(count + it) for it in order)
            found = []
            for _ in range(self.runs if count <= MEGA else 1):
                server = Server([self.program, *ARGS])
                server.answer(b"version\r\n", VERSION)
                costs = [server.cost(sets_of) / count]
                costs += [server.cost(it * times) / count / times for it in (sets_of, gets_of, misses_of)]
                found.append(costs)
                server.stop()
            medians[count] = [statistics.median(it) for it in zip(*found)]
            print(f"{count:<17,}" + "".join(f"{it * 1e9:>22.0f}" for it in medians[count]), flush=True)
        times = [many / few for few, many in zip(medians[STANDING[0]], medians[MEGA])]
        print(f"{'1,000,000 take':<17}" + "".join(f"{it:>16.1f} times" for it in times) + "  what 10,000 take", flush=True)

    def hits(self, least=1_000_000):
        """What a hit costs in lines of 100 keys while so many items stand, in no order of the keys, beside memcached."""
        print(f"\n{'hits in lines of 100 keys':<27}{'items':>11}{'ns a key':>11}  more than the first  (of the processor's time)")
        for name, make in [("memcached, over loopback", memcached), ("mcserver, over pipes", lambda: Server([self.program, *ARGS]))]:
            first = None
            for count in STANDING[:3]:
                server = make()
                if server is None:
                    print(f"{name:<27}{'':>11}{'not installed':>15}")
                    break
                end = server.answer(b"version\r\n", b"\r\n")
                order = [it * 7919 % count for it in range(count)]
                server.answer(b"".join(stored(b"set", key(it), more=b" noreply") for it in order) + b"version\r\n", end)
                asked = b"".join(b"get " + b" ".join(key(it) for it in order[at : at + 100]) + b"\r\n" for at in range(0, count, 100))
                times = max(least // count, 1)
                before = server.processor()
                server.answer(asked * times + b"version\r\n", end)
                cost = (server.processor() - before) / count / times * 1e9
                server.stop()
                first = first or cost
                print(f"{name:<27}{count:>11,}{cost:>11.0f}  {cost - first:+.0f}", flush=True)

    def hostile(self, count=200_000):
        """What a set costs of keys that all go to one shelf, in falling order, beside keys of all shelves."""
        print(f"\n{'hostile keys':<41}{'keys':>9}{'ns a set':>10}  (of the processor's time)")
        names = {
            "of all shelves, in falling order": [key(it) for it in range(count)],
            "of one shelf, in falling order": one_shelf(count),
        }
        for name, keys in names.items():
            sets_of = b"".join(stored(b"set", it, more=b" noreply") for it in sorted(keys, reverse=True))
            server = Server([self.program, *ARGS])
            server.answer(b"version\r\n", VERSION)
            print(f"{name:<41}{count:>9,}{server.cost(sets_of) / count * 1e9:>10.0f}", flush=True)
            server.stop()

    def growing(self, count=4 * MEGA):
        """How long each of many sets of new keys takes, one at a time, from what is sent to what comes back, while tables grow."""
        print(f"\n{'one set at a time, microseconds':<33}{'sets':>11}{'median':>9}{'99.9 %':>9}{'99.99 %':>9}{'longest':>9}")
        for name, server in [("memcached, over loopback", memcached()), ("mcserver, over pipes", Server([self.program, *ARGS]))]:
            if server is None:
                print(f"{name:<33}{'':>11}{'not installed':>15}")
                continue
            took = server.each_takes(stored(b"set", key(it * 7919 % count)) for it in range(count))
            server.stop()
            shown = sorted(took)
            at = [shown[int(len(shown) * it)] / 1000 for it in (0.5, 0.999, 0.9999)]
            print(f"{name:<33}{count:>11,}" + "".join(f"{it:>9.1f}" for it in (*at, shown[-1] / 1000)), flush=True)
        print(f"\n{'the longest set as a shelf grows':<33}{'homes then':>11}{'items then':>11}{'microseconds':>14}")
        server = Server([self.program, *ARGS])
        took = server.each_takes(stored(b"set", it) for it in one_shelf(3 * 2**17 + 2**14))
        server.stop()
        # a table of so many homes is made when the one of half as many is filled to three quarters
        for power in range(10, 21, 2):
            first = 3 * 2 ** (power - 3)
            window = took[first : first * 9 // 8]
            longest = max(window)
            print(f"{'':<33}{2**power:>11,}{first + window.index(longest):>11,}{longest / 1000:>14.1f}", flush=True)

    def flushed(self, lines=1000):
        """What a flush with a delay costs while so many items stand, none of which is dead, and one at once of no items."""
        print(f"\n{'flushes':<33}{'lines':>7}{'us a line':>12}  (of the processor's time)")
        told = b"OK\r\n" * lines + VERSION
        for line, count in [(b"flush_all", 0), *((b"flush_all 100", it) for it in FLUSHED)]:
            server = Server([self.program, *ARGS])
            server.answer(b"".join(stored(b"set", key(it), more=b" noreply") for it in range(count)) + b"version\r\n", VERSION)
            before = server.processor()
            if server.answer((line + b"\r\n") * lines + b"version\r\n", VERSION) != told:
                sys.exit("a flush was answered otherwise")
            seconds = server.processor() - before
            print(f"{line.decode() + f', {count:,} items':<33}{lines:>7,}{seconds / lines * 1e6:>12.1f}", flush=True)
            server.stop()

    def refilled(self, times=100):
        """A store of 64 pages is filled to the refusal and emptied by deletes, again and again."""
        print(f"\n64 pages filled to the refusal and emptied {times} times\n")
        print(f"{'bytes a block':<15}{'time':>5}{'items stored':>14}{'MB when full':>14}{'MB when empty':>15}")
        # more than fit: chunks of 600 and of 1048576 bytes, of which a page has 1,747 and one
        for size, asked in ((500, 112_000), (500_000, 66)):
            order = [it * 7919 % asked for it in range(asked)]
            fill = b"".join(stored(b"set", key(it), b"b" * size) for it in order)
            empty = b"".join(b"delete %s\r\n" % key(it) for it in reversed(order))
            server = Server([self.program, "--stdin", "--now", "1000", "-m", "64"])
            counts, most = set(), 0
            for time_of in range(1, times + 1):
                count, full = server.filled(fill, asked)
                server.emptied(empty, asked, count)
                left = server.resident()
                counts.add(count)
                most = max(most, full, left)
                if time_of in (1, 2, times // 2, times):
                    print(f"{size:<15,}{time_of:>5}{count:>14,}{full / MEGA:>14.1f}{left / MEGA:>15.1f}", flush=True)
            server.stop()
            same = "the same count each time" if len(counts) == 1 else f"NOT the same count each time: {sorted(counts)}"
            print(f"{size:<15,}{'most':>5}{'':>14}{most / MEGA:>14.1f}  {same}", flush=True)

    def memory(self):
        """The most memory that its own process had, told while it waits for more input."""
        print(f"\n{'the most memory':<45}{'MB in':>9}{'MB of memory':>14}")
        one = stored(b"set", b"big", b"b" * MEGA)
        count = 50 * MEGA // len(stored(b"set", key(0)))
        inputs = {
            "nothing": b"",
            "sets of 1,000 keys of 100 bytes": b"".join(sets(count)[1]),
            "lines that are no command": b"no such command\r\n" * (50 * MEGA // 17),
            "one block that is too large": b"set a 0 0 %d\r\n" % (50 * MEGA) + b"x" * (50 * MEGA) + b"\r\n",
            "1,000 gets of one item of 1 MB": one + b"get big\r\n" * 1000,
        }
        for name, stream in inputs.items():
            server = Server([self.program, *ARGS])
            for _ in server.pieces(stream + b"version\r\n", VERSION):
                pass
            print(f"{name:<45}{len(stream) / MEGA:>9.1f}{server.resident(most=True) / MEGA:>14.1f}", flush=True)
            server.stop()


# ---- finds


def chains(room):
    """Compiles memcached's hash table, and gives its program; None where there is no C compiler."""
    words = [os.environ.get("CC", "cc"), "-O2", "-o", f"{room}/chains", f"{ROOT}/bench/chains.c"]
    try:
        subprocess.run(words, stdin=subprocess.DEVNULL, check=True)
    except (OSError, subprocess.CalledProcessError) as error:
        print(f"\nmemcached's chains: {error}", flush=True)
        return None
    return f"{room}/chains"


def window_costs(words, count):
    """The nanoseconds that a find of each kind takes among so many items, as medians of the windows of one run."""
    ran = subprocess.run([*words, str(count), str(WINDOWS)], stdin=subprocess.DEVNULL, stdout=subprocess.PIPE, timeout=SECONDS)
    windows = [line.split() for line in ran.stdout.decode().splitlines()]
    wanted = [[kind, str(found)] for kind, found, _ in KINDS for _ in range(WINDOWS)]
    if ran.returncode or [it[:2] for it in windows] != wanted:
        sys.exit(f"{' '.join(words)}: not all keys were found, or more than those that have an item")
    costs = [int(it[2]) / WINDOW for it in windows]
    return [statistics.median(costs[at : at + WINDOWS]) for at in range(0, len(costs), WINDOWS)]


def finds(runs):
    """What a find costs among so many items, beside memcached's chains, and what a whole get of the store does.

    The programs take turns, so that each has the same share of what else the machine does."""
    if not os.access(MC_BENCH, os.X_OK):
        print(f"\nfinds: no program is at {MC_BENCH}; make bench builds it", flush=True)
        return
    with tempfile.TemporaryDirectory() as room:
        beside = chains(room)
        programs = {**({"memcached's chains, in C": [beside]} if beside else {}), **FOUND}
        heads = "".join(f"{shown:>14}{'least to most':>15}{'over C':>8}" for _, _, shown in KINDS)
        print(f"\n{'ns a find':<25}{'items':>10}{heads}  (of the processor's time, medians of {runs} runs)")
        for count in STANDING[:3]:
            taken = {name: [] for name in programs}
            for _ in range(runs):
                for name, words in programs.items():
                    taken[name].append(window_costs(words, count))
            first = None
            for name, costs in taken.items():
                medians = [statistics.median(it) for it in zip(*costs)]
                shown = ""
                for kind, (median, each) in enumerate(zip(medians, zip(*costs))):
                    over = f"{median / first[kind]:.2f}" if first else ""
                    shown += f"{median:>14.0f}{f'{min(each):.0f} to {max(each):.0f}':>15}{over:>8}"
                print(f"{name:<25}{count:>10,}{shown}", flush=True)
                first = first or (medians if beside else None)


# ---- worlds


def took(sessions, rounds, runs):
    """The median of the processor's seconds that so many sessions take for so many rounds, of two turns each."""
    seconds = []
    for _ in range(runs):
        with tempfile.TemporaryFile() as out:
            found = measure.run([MC_BENCH, "worlds", str(sessions), str(rounds)], SECONDS, subprocess.DEVNULL, out)
            out.seek(0)
            if found["status"] != 0 or int(out.read()) != sessions * rounds * len(TOLD):
                sys.exit(f"{sessions} sessions weren't told what they should be in {rounds} rounds")
            seconds.append(found["processor"])
    return statistics.median(seconds)


def worlds(turns, runs):
    """What a turn costs in worlds of more and more sessions, all of which use one key. Opening them isn't counted."""
    if not os.access(MC_BENCH, os.X_OK):
        print(f"\nsessions in a world: no program is at {MC_BENCH}; make bench builds it", flush=True)
        return
    print(f"\n{'sessions in a world':<21}{'turns':>11}{'processor':>11}{'ns a turn':>11}  against one session")
    first = None
    for sessions in SESSIONS:
        rounds = max(turns // (2 * sessions), 1)
        seconds = took(sessions, rounds, runs) - took(sessions, 0, runs)
        cost = max(seconds, 0) / (2 * sessions * rounds) * 1e9
        first = first or cost or 1
        print(f"{sessions:<21,}{2 * sessions * rounds:>11,}{seconds:>11.3f}{cost:>11.1f}  {cost / first:.2f}", flush=True)


# ---- threads


def stepped(over, mix, threads, steps, shelves=64):
    """The seconds of a run of so many steps in each thread, and the processor's."""
    with tempfile.TemporaryFile() as out:
        words = [MC_BENCH, "steps", over, mix, str(threads), str(steps), str(shelves)]
        found = measure.run(words, SECONDS, subprocess.DEVNULL, out)
        out.seek(0)
        if found["status"] != 0 or int(out.read()) != threads * steps:
            sys.exit(f"not all {mix} over {over} were answered as they should be by {threads} threads")
    return found["seconds"], found["processor"]


def threads(steps, runs):
    """What a step costs in one thread and in several, and what holding its shelf adds to a step of the store of one thread.

    The rows of a mix take turns, so that each has the same share of what else the machine does."""
    if not os.access(MC_BENCH, os.X_OK):
        print(f"\nsteps in threads: no program is at {MC_BENCH}; make bench builds it", flush=True)
        return
    print(f"\n{'steps in threads':<17}{'over':<7}{'threads':>8}{'steps':>13}{'seconds':>9}{'a second':>12}{'ns of processor':>17}  more than a store's")
    for mix in MIXES:
        taken = {row: [] for row in STEPPED}
        for _ in range(runs):
            for over, count in STEPPED:
                whole, idle = stepped(over, mix, count, steps), stepped(over, mix, count, 0)
                taken[over, count].append([max(a - b, 1e-9) for a, b in zip(whole, idle)])
        store = None
        for (over, count), each in taken.items():
            seconds, processor = (statistics.median(it) for it in zip(*each))
            cost = processor / (count * steps) * 1e9
            store = store or cost
            shown = f"{count * steps:>13,}{seconds:>9.3f}{count * steps / seconds:>12,.0f}{cost:>17.1f}"
            more = "" if over == "store" else f"  {cost - store:+.1f} ns"
            print(f"{mix:<17}{over:<7}{count:>8}{shown}{more}", flush=True)


def shelves(steps, runs):
    """What a step costs of a key that is drawn, by how many shelves there are. The rows of a mix take turns."""
    if not os.access(MC_BENCH, os.X_OK):
        print(f"\nsteps by shelves: no program is at {MC_BENCH}; make bench builds it", flush=True)
        return
    print(f"\n{'steps by shelves':<17}{'shelves':>8}{'threads':>8}{'steps':>13}{'seconds':>9}{'a second':>12}{'ns of processor':>17}")
    for mix in DRAWN_MIXES:
        taken = {row: [] for row in DRAWN}
        for _ in range(runs):
            for count, of in DRAWN:
                whole, idle = stepped("drawn", mix, count, steps, of), stepped("drawn", mix, count, 0, of)
                taken[count, of].append([max(a - b, 1e-9) for a, b in zip(whole, idle)])
        for (count, of), each in taken.items():
            seconds, processor = (statistics.median(it) for it in zip(*each))
            cost = processor / (count * steps) * 1e9
            shown = f"{count * steps:>13,}{seconds:>9.3f}{count * steps / seconds:>12,.0f}{cost:>17.1f}"
            print(f"{mix:<17}{of:>8}{count:>8}{shown}", flush=True)


def main():
    parser = argparse.ArgumentParser(description=__doc__, formatter_class=argparse.RawDescriptionHelpFormatter)
    parser.add_argument("--program", default=f"{ROOT}/crates/mc_server/out/mc_server")
    parser.add_argument("--runs", type=int, default=5)
    parser.add_argument("--commands", type=int, default=100_000, help="the least number; twice and four times it are measured too")
    parser.add_argument("--only", default="", metavar="WORD", help="one table, or the commands whose names have this word")
    parser.add_argument("--turns", type=int, default=4_000_000, help="how many turns the sessions of a world take in all")
    parser.add_argument("--steps", type=int, default=2_000_000, help="how many steps each thread takes")
    given = parser.parse_args()
    bench = Bench(os.path.abspath(given.program), given.runs)
    tables = {
        "lines": lambda: bench.lines(2 * given.commands),
        "memory": bench.memory,
        "resident": bench.resident,
        "standing": bench.standing,
        "hits": bench.hits,
        "finds": lambda: finds(given.runs),
        "hostile": bench.hostile,
        "growing": bench.growing,
        "flushes": bench.flushed,
        "refilled": bench.refilled,
        "worlds": lambda: worlds(given.turns, given.runs),
        "threads": lambda: threads(given.steps, given.runs),
        "shelves": lambda: shelves(given.steps, given.runs),
    }
    if given.only in tables:
        tables[given.only]()
        return 0
    bench.rates([given.commands * it for it in (1, 2, 4)], given.only)
    if not given.only:
        for table in tables.values():
            table()
    return 0


if __name__ == "__main__":
    sys.exit(main())

#!/usr/bin/env python3
"""Measures the program over TCP on loopback, beside Debian's memcached, and prints a table of ratios.

Both servers run at once, and a load generator (bench/load.c, which is compiled here into a temporary folder) asks now
one and now the other, in rounds of about a second. It compares every reply byte for byte. It is no test: nothing here
fails for being slow. The status is 1 where a reply was wrong, or a server or a workload failed.

Where the system allows it, as for root, all three have a real-time priority, so that waits are the servers' own; keep such a run to a
machine on which nothing else is to run meanwhile. A workload for which memory isn't enough is skipped, by name.

    bench/tcp.py [--program PATH] [--only NAME ..] [--rounds N] [--seconds S] [--quick] [--plain] [--json FILE]
    bench/tcp.py --sanity       memcached on both sides: the ratios are to be 1.00, but for noise
    bench/tcp.py --self-test    holds the load generator against known delays, known costs and replies that are wrong
    bench/tcp.py --list         the workloads
"""
import argparse
import contextlib
import json
import os
import random
import resource
import select
import shutil
import signal
import socket
import statistics
import subprocess
import sys
import tempfile
import threading
import time
from dataclasses import dataclass, field

HERE = os.path.dirname(os.path.realpath(__file__))
sys.path.insert(0, os.path.dirname(HERE))

from tests.lib.server import CannotStart, Server  # noqa: E402
from tests.lib.settings import program as built  # noqa: E402

PAGES = 1024
# The items of the greatest store, its pages, and the memory that two such servers take.
MANY, MANY_PAGES, MANY_MEMORY = 10_000_000, 4096, 6_000_000_000
# What the servers and their clients have where the system gives it, by the round robin of `chrt -r`.
PRIORITY = 5
# How long all connections may be without a reply, and how long a round may take beside its own time.
SECONDS = 10
PATIENCE = 60
WARM = 0.15
ROUNDS, ROUND_SECONDS = 7, 1.0
QUICK_ROUNDS, QUICK_SECONDS = 3, 0.6
# How many keys `growth` stores in a second of its rounds, and how many any server stores at least before a row.
GROWN_A_SECOND, FILLED_A_SECOND = 300_000, 20_000
NAMES = ("memcached", "mcserver")


class Failed(Exception):
    """A server or the load generator did not do what it was asked for."""


# ---- workloads


@dataclass
class Workload:
    """What both servers are asked for. `fills` says that the keys are stored before the first round."""

    name: str
    title: str
    operation: str
    options: list = field(default_factory=list)
    keys: int = 100_000
    value: int = 100
    connections: int = 50
    idle: int = 0
    workers: int = 4
    fills: bool = True
    # further words of both servers' command lines, their pages, and the memory that both want
    args: list = field(default_factory=list)
    pages: int = PAGES
    memory: int = 0

    @property
    def grows(self):
        return self.operation == "insert"

    def arguments(self, seconds):
        """The load generator's options."""
        keys = int(GROWN_A_SECOND * seconds) if self.grows else self.keys
        numbers = {"keys": keys, "value": self.value, "connections": self.connections, "idle": self.idle}
        return ["--operation", self.operation, *self.options, *options_of(numbers)]


def options_of(numbers):
    return [word for name, number in numbers.items() for word in (f"--{name}", str(number))]


DEEP, HUNDRED = ["--depth", "32"], ["--keys-a-get", "100"]


def small():
    """One key a request, and blocks of 100 bytes."""
    yield Workload("get", "get", "get")
    yield Workload("set", "set", "set")
    yield Workload("get-32", "get, 32 deep", "get", DEEP)
    yield Workload("set-32", "set, 32 deep", "set", DEEP)
    yield Workload("incr", "incr of one key", "incr", fills=False)
    yield Workload("set-noreply", "set with noreply", "set", ["--noreply", *DEEP])
    yield Workload("zipf", "90 : 10 by Zipf's law", "mix", ["--zipf", "0.99", "--gets", "90"], keys=1_000_000)
    yield Workload("growth", "set of new keys", "insert", fills=False)
    yield Workload("get-10m-items", f"get, of {MANY:,} items", "get", keys=MANY, pages=MANY_PAGES, memory=MANY_MEMORY)


def large():
    """Blocks of 10 KB to 8 MB."""
    kilos = {size: {"keys": 100_000 // size, "value": size * 1000, "connections": 16} for size in (34, 50, 64, 100, 400)}
    megas = {size: {"keys": 200 // size, "value": size * 1_000_000, "connections": 8, "args": ["-I", "8m"]} for size in (4, 8)}
    both, ten = ("get", "set"), {"keys": 10_000, "value": 10_000}
    yield from (Workload(f"{verb}-10k", f"{verb} of 10 KB", verb, **ten) for verb in both)
    for size, it in kilos.items():
        yield from (Workload(f"{verb}-{size}k", f"{verb} of {size} KB", verb, **it) for verb in (both if size >= 100 else ("get",)))
    yield from (Workload(f"{verb}-1m", f"{verb} of 1 MB", verb, keys=100, value=1_000_000, connections=8) for verb in both)
    for size, it in megas.items():
        yield from (Workload(f"{verb}-{size}m", f"{verb} of {size} MB", verb, **it) for verb in both)


def many():
    """Many keys in a get, and what isn't there."""
    nothing, full = ["--nothing", "--first-key", "1000000000"], {"keys": 1_000_000}
    most = {"keys": MANY, "pages": MANY_PAGES, "memory": MANY_MEMORY}
    yield Workload("get-100-keys", "get of 100 keys", "get", HUNDRED)
    yield Workload("get-100-keys-full", "get of 100 keys, of 1,000,000 items", "get", HUNDRED, **full)
    yield Workload("get-100-keys-10m", f"get of 100 keys, of {MANY:,} items", "get", HUNDRED, **most)
    yield Workload("nothing-32", "get of nothing, 32 deep, of 1,000 items", "get", [*nothing, *DEEP], keys=1000)
    yield Workload("nothing-100-keys", "get of 100 keys, all of nothing, of 1,000 items", "get", [*nothing, *HUNDRED], keys=1000)
    yield Workload("nothing-full-32", "get of nothing, 32 deep, of 1,000,000 items", "get", [*nothing, *DEEP], **full)


def connected():
    """Other numbers of connections and of workers."""
    for count in (1, 8, 64):
        yield Workload(f"get-c{count}", f"get, {count} connection{'s' * (count > 1)}", "get", connections=count)
    for count in (1000, 10_000):
        yield Workload(f"idle-{count}", f"get, 8 of {count:,} busy", "get", connections=8, idle=count - 8)
    for workers in (1, 2):
        title = f"{workers} worker{'s' * (workers > 1)}"
        yield from (Workload(f"{verb}-t{workers}", f"{verb}, {title}", verb, workers=workers) for verb in ("get", "set"))


def workloads():
    return [*small(), *large(), *many(), *connected()]


# ---- servers


def memcached(work):
    return started("memcached", work)


def started(program, work):
    return Server(program, pages=work.pages, workers=work.workers, args=["-c", "16384", *work.args])


def processor_seconds(server):
    """What all its threads have taken, by the process's clock."""
    try:
        return time.clock_gettime((~server.pid) << 3 | 2)
    except OSError as fault:
        raise Failed(f"a server is gone{about(server)}") from fault


def about(server):
    """How a server's process ended, if it does so in a moment, and the last that it said."""
    name = os.path.basename(server.process.args[0])
    try:
        state = f"its status is {server.process.wait(0.5)}"
    except subprocess.TimeoutExpired:
        state = "it runs"
    said = server.said()[-300:].strip()
    return f" ({name}: {state}{f', and it said `{said}`' if said else ''})"


# ---- the machine


@contextlib.contextmanager
def real_time(wanted=True):
    """A real-time priority for this process and those that it starts meanwhile. It gives whether they have it, as the system may refuse it."""
    before = os.sched_getscheduler(0), os.sched_getparam(0)
    try:
        if wanted:
            os.sched_setscheduler(0, os.SCHED_RR, os.sched_param(PRIORITY))
    except PermissionError:
        wanted = False
    try:
        yield wanted
    finally:
        os.sched_setscheduler(0, *before)


def free_memory():
    """The bytes that processes may still take."""
    with open("/proc/meminfo", encoding="ascii") as lines:
        return next(int(line.split()[1]) * 1024 for line in lines if line.startswith("MemAvailable:"))


# ---- the load generator


def compiled(folder):
    program = f"{folder}/load"
    parts = [f"{HERE}/{name}.c" for name in ("load", "load_client", "load_figures")]
    options = ["-O2", "-std=c11", "-Wall", "-Wextra"]
    subprocess.run(["cc", *options, "-o", program, *parts, "-lpthread", "-lm"], check=True, timeout=120)
    return program


class Load:
    """The load generator with its connections to a server, from `with` to its end; each `round` is a dict of figures."""

    def __init__(self, program, port, pid, options, patience=SECONDS, about_server=lambda: ""):
        self.patience, self.about_server = patience, about_server
        self.command = [program, *options_of({"port": port, "pid": pid, "patience": patience}), *options]

    def __enter__(self):
        pipe = subprocess.PIPE
        self.process = subprocess.Popen(self.command, stdin=pipe, stdout=pipe, stderr=pipe, bufsize=0)
        return self

    def __exit__(self, *_):
        self.process.kill()
        self.process.communicate()

    def round(self, warm, seconds):
        try:
            self.process.stdin.write(b"%f %f\n" % (warm, seconds))
        except BrokenPipeError:
            pass
        if not select.select([self.process.stdout], [], [], warm + seconds + self.patience + PATIENCE)[0]:
            raise Failed(f"the load generator did not end its round{self.about_server()}")
        line = self.process.stdout.readline()
        if not line:
            said = self.process.stderr.read().decode(errors="replace").strip()
            raise Failed((said or f"the load generator ended with {self.process.wait()}") + self.about_server())
        return json.loads(line)


def load_on(program, server, options):
    return Load(program, server.port, server.pid, options, about_server=lambda: about(server))


def load_once(program, server, options, seconds=0.1):
    with load_on(program, server, options) as it:
        return it.round(0, seconds)


def in_order(figures, server, what):
    """Figures of a round in which every reply was right."""
    if figures["wrong"]:
        said = f"{figures['wrong']} wrong replies {what} the server, at first `{figures['first_wrong']}`"
        raise Failed(said + about(server))
    return figures


# ---- a workload, turn about


class Bench:
    def __init__(self, load, sides, threads, rounds, seconds):
        self.load, self.sides, self.rounds, self.seconds = load, sides, rounds, seconds
        self.threads = ["--threads", str(threads)]

    def fill(self, work, server):
        numbers = {"keys": work.keys, "value": work.value, "connections": 8, "depth": 2 if work.value > 4096 else 32}
        options = ["--operation", "insert", *options_of(numbers)]
        in_order(load_once(self.load, server, options, work.keys / FILLED_A_SECOND), server, "as keys go to")

    def read_back(self, work, server):
        """Reads for a moment what stores have left."""
        if work.operation in ("set", "mix", "insert"):
            options = [*work.arguments(self.seconds), "--operation", "get", "--depth", "1", "--idle", "0"]
            options = [it for it in options if it != "--noreply"]
            in_order(load_once(self.load, server, options), server, "when stores are read back from")

    def measured(self, work):
        """A list of pairs of figures, a round each, memcached's first."""
        if work.grows:
            return [self.grown(work, number) for number in range(self.rounds)]
        with self.sides[0](work) as one, self.sides[1](work) as other:
            servers = (one, other)
            for server in servers if work.fills else ():
                self.fill(work, server)
            with self.loaded(work, one) as first, self.loaded(work, other) as second:
                rounds = [self.turns(servers, (first, second), number) for number in range(self.rounds)]
            for server in servers:
                self.read_back(work, server)
            return rounds

    def loaded(self, work, server):
        return load_on(self.load, server, [*work.arguments(self.seconds), *self.threads])

    def turns(self, servers, loads, number):
        """One round of each, the other one first each time, and what each took of a core while the other was asked."""
        taken, resting = {}, {}
        for side in (0, 1) if number % 2 == 0 else (1, 0):
            began, used, met = time.monotonic(), processor_seconds(servers[1 - side]), servers[side].faults()
            taken[side] = loads[side].round(WARM, self.seconds)
            taken[side]["faults"] = servers[side].faults() - met
            used = processor_seconds(servers[1 - side]) - used
            resting[1 - side] = used / (time.monotonic() - began)
        return tuple({**taken[side], "resting": resting[side], "resident": servers[side].memory()} for side in (0, 1))

    def grown(self, work, number):
        """One round of new keys of each, of a server that was just started."""
        taken = {}
        for side in (0, 1) if number % 2 == 0 else (1, 0):
            with self.sides[side](work) as server, self.loaded(work, server) as load:
                taken[side] = load.round(0, self.seconds)
                self.read_back(work, server)
        return taken[0], taken[1]


# ---- figures


def per_request(figures):
    return figures["server_ns"] / 1000 / max(figures["operations"], 1)


FIGURES = {
    "a_second": lambda it: it["operations"] / it["seconds"],
    "us": per_request,
    **{name: (lambda it, name=name: it[name]) for name in ("p50", "p99", "p999", "longest")},
}


def spread(numbers):
    return {"median": statistics.median(numbers), "least": min(numbers), "most": max(numbers)}


def system_part(rounds, side):
    """Which part of its processor time a server spent in the kernel, by the ticks of all rounds."""
    user, system = (sum(it[side][name] for it in rounds) for name in ("user_ticks", "system_ticks"))
    return system / max(user + system, 1)


def summed(work, rounds):
    """The row of a workload: medians of each side, and the median and spread of the ratios of a round."""
    row = {"name": work.name, "title": work.title, "rounds": len(rounds), "ratios": {}, "sides": {}}
    for name, figure in FIGURES.items():
        row["ratios"][name] = spread([figure(ours) / max(figure(theirs), 1e-9) for theirs, ours in rounds])
    for side, name in enumerate(NAMES):
        made = {it: statistics.median([figure(pair[side]) for pair in rounds]) for it, figure in FIGURES.items()}
        made["system_part"] = system_part(rounds, side)
        made["resting"] = statistics.median([pair[side].get("resting", 0.0) for pair in rounds])
        # (those before a round counts are in it, too)
        made["faults"] = statistics.median([pair[side].get("faults", 0) / max(pair[side]["operations"], 1) for pair in rounds])
        made["resident"] = max(pair[side].get("resident", 0) for pair in rounds)
        made["wrong"] = sum(pair[side]["wrong"] for pair in rounds)
        made["first_wrong"] = next((pair[side]["first_wrong"] for pair in rounds if pair[side]["wrong"]), "")
        made["client_us"] = statistics.median([it[side]["client_ns"] / 1000 / max(it[side]["operations"], 1) for it in rounds])
        row["sides"][name] = made
    return row


def ratio(row, name):
    it = row["ratios"][name]
    return f"{it['median']:.2f} ({it['least']:.2f}-{it['most']:.2f})"


def cost(side):
    system = side["us"] * side["system_part"]
    return f"{side['us'] - system:.2f} + {system:.2f}"


def table(heads, rows):
    lines = [heads, ["---"] + ["--:"] * (len(heads) - 1), *rows]
    return "\n".join("| " + " | ".join(line) + " |" for line in lines)


def cost_table(rows):
    heads = ["", "a second, memcached", "mcserver", "ratio", "us a request, memcached", "mcserver", "ratio"]
    made = []
    for row in rows:
        theirs, ours = (row["sides"][name] for name in NAMES)
        counts = [f"{side['a_second']:,.0f}" for side in (theirs, ours)]
        made.append([row["title"], *counts, ratio(row, "a_second"), cost(theirs), cost(ours), ratio(row, "us")])
    return table(heads, made)


def latency_table(rows, is_noise):
    heads = ["us, memcached / mcserver", "p50", "ratio", "p99", "ratio", "p99.9", "ratio", "longest", "ratio"]
    made = []
    for row in rows:
        cells = [row["title"] + (" (from p99 on noise)" if is_noise else "")]
        for name in ("p50", "p99", "p999", "longest"):
            cells += [" / ".join(f"{row['sides'][it][name]:,.0f}" for it in NAMES), ratio(row, name)]
        made.append(cells)
    return table(heads, made)


def resting(rows):
    """What a server takes that is asked nothing, where it is most."""
    most = [max((row["sides"][it]["resting"], row["title"]) for row in rows) for it in NAMES]
    parts = [f"{name} took {part:.2%} of a core ({title})" for name, (part, title) in zip(NAMES, most)]
    return f"While the other was asked, and it was asked nothing, at most {', '.join(parts)}."


def resident(rows):
    """The most memory that each server had, and the page faults of a request, where items are large."""
    for row in rows:
        if row["name"].endswith(("00k", "-1m", "-4m", "-8m")):
            sides = [(name, row["sides"][name]) for name in NAMES]
            parts = [f"{name} {it['resident'] / 1e6:.0f} MB and {it['faults']:.1f} page faults a request" for name, it in sides]
            yield f"Resident behind a round, at most, {row['title']}: {', '.join(parts)}."


def aggregate(rows):
    """The median of all ratios of a kind."""
    made = {name: statistics.median([row["ratios"][name]["median"] for row in rows]) for name in ("a_second", "us")}
    return (
        f"In the median of the workloads mcserver does {made['a_second']:.2f} times the requests a second, and takes "
        f"{made['us']:.2f} times the processor time a request."
    )


def wrong_replies(rows):
    found = []
    for row in rows:
        for name, side in row["sides"].items():
            if side["wrong"]:
                found.append(f"{row['title']}: {side['wrong']:,} wrong replies of {name}, at first `{side['first_wrong']}`")
    return found


def congestion_control():
    try:
        with open("/proc/sys/net/ipv4/tcp_congestion_control", encoding="ascii") as given:
            return given.read().strip()
    except OSError:
        return "unknown"


def report(rows, failures, skipped, took, settings):
    faults = failures + wrong_replies(rows)
    print(
        f"{settings['rounds']} rounds of {settings['seconds']:g} s each, {settings['threads']} client threads, {os.cpu_count()} "
        f"cores that client and server share, congestion control {congestion_control()}, {took:.0f} s in all.\n"
        f"Client and servers had {f'the real-time priority {PRIORITY}' if settings['real_time'] else 'no real-time priority'}.\n"
        "Each ratio is the median of the rounds', with the least and the most of them."
        f"{' Memcached stands on both sides.' if settings['sanity'] else ''}\n"
    )
    if rows:
        latencies = latency_table(rows, not settings["real_time"])
        print(cost_table(rows), latencies, *resident(rows), resting(rows), aggregate(rows), sep="\n\n", end="\n\n")
    print(*skipped, *(faults or ["Every reply was compared, and none was wrong."]), sep="\n", flush=True)
    return 1 if faults else 0


# ---- the self-test: a slow server that can be told to answer falsely


class Slow:
    """A small server of its own, a thread a connection, that answers after a delay, and falsely where it is told to."""

    def __init__(self, delay=0.0, slow=0.0, slow_each=0, spoil_each=0, spins=0.0, fault=None):
        self.delay, self.slow, self.slow_each, self.spoil_each = delay, slow, slow_each, spoil_each
        self.spins, self.fault = spins, fault
        self.held, self.asked, self.spoiled, self.answered = {}, {}, 0, 0
        self.lock = threading.Lock()
        self.listener = socket.create_server(("127.0.0.1", 0), backlog=128)
        self.port = self.listener.getsockname()[1]

    def __enter__(self):
        threading.Thread(target=self.accept, daemon=True).start()
        return self

    def __exit__(self, *_):
        self.listener.shutdown(socket.SHUT_RDWR)
        self.listener.close()

    def accept(self):
        while True:
            try:
                client = self.listener.accept()[0]
            except OSError:
                return
            client.setsockopt(socket.IPPROTO_TCP, socket.TCP_NODELAY, 1)
            threading.Thread(target=self.serve, args=(client,), daemon=True).start()

    def serve(self, client):
        with client, client.makefile("rb") as given:
            try:
                while words := given.readline().split():
                    block = given.read(int(words[4]) + 2) if words[0] == b"set" else b""
                    with self.lock:
                        reply = self.answer(words, block)
                    self.hold()
                    client.sendall(reply)
            except OSError:
                pass

    def hold(self):
        with self.lock:
            self.answered += 1
            is_slow = self.slow_each and self.answered % self.slow_each == 0
        if self.spins:
            until = time.thread_time() + self.spins
            while time.thread_time() < until:
                pass
        elif self.delay:
            time.sleep(self.slow if is_slow else self.delay)

    def answer(self, words, block):
        if words[0] == b"set":
            self.held[words[1]] = block
            return b"" if words[-1] == b"noreply" else b"STORED\r\n"
        if words[0] == b"incr":
            return self.increment(words[1])
        if words[0] == b"version":
            return b"VERSION slow\r\n"
        return b"".join(self.value(key) for key in words[1:]) + b"END\r\n"

    def value(self, key):
        self.asked[key] = self.asked.get(key, 0) + 1
        if self.fault == "other key":
            key = random.choice(sorted(self.held))
        block = self.held.get(key)
        if block is None:
            return b""
        shown = block
        if self.spoil_each and sum(self.asked.values()) % self.spoil_each == 0:
            self.spoiled += 1
            at = random.randrange(len(block) - 2)
            shown = block[:at] + bytes([block[at] ^ 1]) + block[at + 1 :]
        length = len(block) - 2 - (self.fault == "short block")
        return b"VALUE %s 0 %d\r\n" % (key, length) + shown

    def increment(self, key):
        number = int(self.held[key]) + 1
        text = b"%d\r\n" % number
        if self.fault != "lost increment" or number != 100 or self.spoiled:
            self.held[key] = text
        else:
            self.spoiled += 1
        return text


class SelfTest:
    KEYS = 200

    def __init__(self, load):
        self.load, self.failed = load, 0

    def expect(self, name, right, said):
        self.failed += not right
        print(f"{'ok    ' if right else 'FAILED'} {name}: {said}", flush=True)

    def run_on(self, server, options, seconds=1.0, fills=True, patience=5):
        if fills:
            self.run_on(server, ["--operation", "insert", "--connections", "1"], 0.1, False)
        words = [*options_of({"keys": self.KEYS}), *options]
        with Load(self.load, server.port, os.getpid(), words, patience) as it:
            return it.round(0, seconds)

    def figures(self, slow, options, **more):
        with slow:
            return self.run_on(slow, options, **more)

    def refused(self, name, slow, options, words, **more):
        """The run must end with these words."""
        try:
            figures = self.figures(slow, options, **more)
            self.expect(name, False, f"no fault was seen: {figures}")
        except Failed as fault:
            self.expect(name, words in str(fault), fault)

    def delays(self):
        get = ["--operation", "get", "--connections", "4"]
        for delay in (1000, 5000, 20_000):
            slow = Slow(delay / 1e6)
            it = self.figures(slow, get)
            right = delay <= it["p50"] <= delay * 1.1 + 500
            self.expect(f"p50 of a delay of {delay} us", right, f"{it['p50']:.0f} us, {it['latencies']} replies")
            sent = slow.answered - self.KEYS
            right = sent - 8 <= it["operations"] <= sent and 1 <= it["seconds"] <= 1.5
            said = f"{it['operations']} in {it['seconds']:.3f} s, of {sent}"
            self.expect("replies that are counted, of those that were sent", right, said)
        it = self.figures(Slow(0.001, slow=0.3, slow_each=20), get, seconds=2.0)
        right = 1000 <= it["p50"] <= 1600 and 300_000 <= it["p99"] <= 360_000 and it["p99"] <= it["longest"] * 1.01
        self.expect("p50 and p99 where each 20th reply takes 300 ms", right, f"{it['p50']:.0f} and {it['p99']:.0f} us")

    def costs(self):
        it = self.figures(Slow(spins=0.002), ["--operation", "get", "--connections", "1"])
        right = 2000 <= per_request(it) <= 2500
        self.expect("the server's processor time where a reply takes 2,000 us of it", right, f"{per_request(it):.0f} us")

    def wrong(self):
        for options in (["--operation", "get"], ["--operation", "get", "--keys-a-get", "1", "--value", "9000"]):
            slow = Slow(spoil_each=10)
            with slow:
                fill = ["--operation", "insert", "--connections", "1", *options[4:]]
                self.run_on(slow, fill, fills=False)
                it = self.run_on(slow, [*options, "--connections", "4"], 0.3, False)
            right = slow.spoiled > 10 and it["wrong"] == slow.spoiled
            self.expect("replies with a wrong byte", right, f"{it['wrong']} seen of {slow.spoiled}")
        it = self.figures(Slow(), ["--operation", "get", "--connections", "2", "--keys", "400"], seconds=0.3)
        self.expect("keys that aren't stored", it["wrong"] > 0 and it["first_wrong"] == "END\\x0d\\x0a", f"{it['wrong']} seen")
        nothing = ["--operation", "get", "--connections", "2", "--nothing", "--first-key"]
        it = self.figures(Slow(), [*nothing, "1000"], seconds=0.3)
        self.expect("keys that are to be absent, and are", it["wrong"] == 0 and it["operations"] > 100, f"{it['wrong']} wrong")
        incr = ["--operation", "incr", "--connections", "1"]
        it = self.figures(Slow(fault="lost increment"), incr, seconds=0.3, fills=False)
        self.expect("an increment that was lost", it["wrong"] == 2, f"{it['wrong']} seen: the number again, and the sum")
        it = self.figures(Slow(), ["--operation", "incr", "--connections", "4"], seconds=0.3, fills=False)
        self.expect("increments that are right", it["wrong"] == 0 and it["operations"] > 100, f"{it['operations']} of them")

    def faults(self):
        get = ["--operation", "get", "--connections", "1"]
        self.refused("a block of another length", Slow(fault="short block"), get, "can't be followed")
        self.refused("a value of another key", Slow(fault="other key"), get, "can't be followed")
        self.refused("a value where nothing is to be", Slow(), [*get, "--nothing"], "can't be followed")
        self.refused("a server that is silent", Slow(0.01, 30, 5), get, "no reply for 1 seconds", fills=False, patience=1)

    def law(self):
        slow = Slow()
        zipf = ["--operation", "get", "--zipf", "0.99", "--connections", "2", "--depth", "8"]
        self.figures(slow, zipf, seconds=2.0)
        total, counts = sum(slow.asked.values()), sorted(slow.asked.values(), reverse=True)
        heights = [1 / rank**0.99 for rank in range(1, self.KEYS + 1)]
        for rank in (1, 2, 10):
            wanted, part = heights[rank - 1] / sum(heights), counts[rank - 1] / total
            self.expect(f"rank {rank} by Zipf's law", abs(part - wanted) < 0.01, f"{part:.4f} of {total}, wanted {wanted:.4f}")

    def run(self):
        for part in (self.delays, self.costs, self.wrong, self.faults, self.law):
            part()
        print("the load generator is as it should be" if not self.failed else f"{self.failed} failed", flush=True)
        return 1 if self.failed else 0


# ---- the command line


def arguments():
    made = argparse.ArgumentParser(description=__doc__, formatter_class=argparse.RawDescriptionHelpFormatter)
    made.add_argument("--program", default=built(), metavar="PATH", help="mcserver, where it is built")
    made.add_argument("--only", nargs="+", metavar="NAME", help="these workloads alone")
    made.add_argument("--rounds", type=int, metavar="N", help=f"rounds of each server ({ROUNDS})")
    made.add_argument("--seconds", type=float, metavar="S", help=f"how long a round is ({ROUND_SECONDS:g})")
    made.add_argument("--quick", action="store_true", help=f"{QUICK_ROUNDS} rounds of {QUICK_SECONDS:g} seconds")
    made.add_argument("--threads", type=int, default=4, metavar="N", help="client threads, which aren't pinned (4)")
    made.add_argument("--plain", action="store_true", help="no real-time priority")
    made.add_argument("--json", metavar="FILE", help="writes the figures there")
    made.add_argument("--sanity", action="store_true", help="memcached on both sides")
    made.add_argument("--self-test", action="store_true", help="tests the load generator")
    made.add_argument("--list", action="store_true", help="names the workloads")
    given = made.parse_args()
    given.rounds = given.rounds or (QUICK_ROUNDS if given.quick else ROUNDS)
    given.seconds = given.seconds or (QUICK_SECONDS if given.quick else ROUND_SECONDS)
    known = {it.name for it in workloads()}
    for name in given.only or ():
        if name not in known:
            made.error(f"there is no workload {name}: {' '.join(sorted(known))}")
    return given


def chosen_sides(given):
    if not shutil.which("memcached"):
        raise Failed("there is no memcached: apt-get install memcached")
    if given.sanity:
        return memcached, memcached
    if not os.access(given.program, os.X_OK):
        raise Failed(f"there is no program {given.program}: make build")
    return memcached, lambda work: started(given.program, work)


def raise_limits():
    """As many descriptors as the system allows: the workloads with idle connections want 10,050."""
    most = resource.getrlimit(resource.RLIMIT_NOFILE)[1]
    resource.setrlimit(resource.RLIMIT_NOFILE, (most, most))


def compare(given, load):
    bench = Bench(load, chosen_sides(given), given.threads, given.rounds, given.seconds)
    rows, failures, skipped, began = [], [], [], time.monotonic()
    for work in workloads():
        if given.only and work.name not in given.only:
            continue
        if work.memory > (free := free_memory()):
            skipped.append(f"{work.title} was skipped: both servers take {work.memory / 1e9:.0f} GB, and {free / 1e9:.1f} are free.")
            continue
        print(f"{work.title} ..", file=sys.stderr, flush=True)
        try:
            rows.append(summed(work, bench.measured(work)))
        except (Failed, OSError, subprocess.SubprocessError, CannotStart) as fault:
            failures.append(f"{work.title} failed: {str(fault).strip()}")
            print(failures[-1], file=sys.stderr, flush=True)
    settings = {it: getattr(given, it) for it in ("rounds", "seconds", "threads", "sanity", "real_time")}
    if given.json:
        with open(given.json, "w", encoding="utf-8") as to:
            json.dump({"settings": settings, "rows": rows, "failures": failures, "skipped": skipped}, to, indent=1)
            to.write("\n")
    return report(rows, failures, skipped, time.monotonic() - began, settings)


def main():
    given = arguments()
    if given.list:
        print(*(f"{it.name:18} {it.title}" for it in workloads()), sep="\n")
        return 0
    signal.signal(signal.SIGTERM, lambda *_: sys.exit(1))
    raise_limits()
    with tempfile.TemporaryDirectory() as folder:
        load = compiled(folder)
        if given.self_test:
            return SelfTest(load).run()
        with real_time(not given.plain) as given.real_time:
            return compare(given, load)


if __name__ == "__main__":
    try:
        sys.exit(main())
    except Failed as fault:
        print(f"tcp.py: {fault}", file=sys.stderr)
        sys.exit(1)
    except KeyboardInterrupt:
        sys.exit(130)

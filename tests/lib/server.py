"""Starts a server on a free port of 127.0.0.1 for a test, and stops it again.

    with Server() as server:
        peer = Peer(server.port)

The program is the one that lib/settings.py names, unless another is. A program whose name is `memcached` is run as memcached is with
`-M`, and nothing but its options differs.
"""
import collections
import contextlib
import ctypes
import os
import random
import signal
import socket
import subprocess
import sys
import tempfile
import time

from tests.lib import settings
from tests.lib.rows import GREATEST
from tests.lib.wait import until

HOST = "127.0.0.1"
# How long a start or a stop may take, in seconds, and how often a port that another took is given up for another.
SECONDS, TRIES = 10, 5
PARENT_DEATH_SIGNAL = 1
# The ports that tests listen at: above those of services, and below those that Linux gives to clients.
PORTS = range(12_000, 32_768)
# How many of the ports that it was given last a process keeps to itself, and the sockets by which it does.
RESERVED, reserved = 100, collections.deque()
# Where the clock of a server stands, and how many connections it may have open at once, unless a test says otherwise.
MOMENT, MOST = 1000, 15000
TICKS = os.sysconf("SC_CLK_TCK")
# Runs a program within a limit of the system: which one, how much now, and how much it may be given later.
LIMITED = """import os, resource, sys
kind, *most = map(int, sys.argv[1:4])
resource.setrlimit(kind, most)
os.execv(sys.argv[4], sys.argv[4:])
"""


class CannotStart(Exception):
    """The program ended, or took no connection in time; the text says which, and what it wrote."""


def free_port(host=HOST):
    """Returns a port on which nothing listens. The next 100 calls of this process, and other processes meanwhile, return others.

    A port from 0 could be taken by a client, or be returned twice, before the program listens at it."""
    for port in random.SystemRandom().sample(PORTS, 1000):
        name = socket.socket(socket.AF_UNIX)
        try:
            name.bind(f"\0mcserver-tests-port-{port}")
            with socket.socket(socket.AF_INET6 if ":" in host else socket.AF_INET) as it:
                it.bind((host, port))
        except OSError:
            name.close()
            continue
        reserved.append(name)
        if len(reserved) > RESERVED:
            reserved.popleft().close()
        return port
    raise CannotStart(f"1000 ports of {host} were tried, and none is free")


def is_ours(host):
    """Whether it is an address of this machine: IPv6 may be switched off."""
    try:
        with socket.socket(socket.AF_INET6 if ":" in host else socket.AF_INET) as it:
            it.bind((host, 0))
    except OSError:
        return False
    return True


def is_memcached(program):
    return os.path.basename(program) == "memcached"


def command(program, port, pages, workers, args=()):
    """Gives the words that start the program."""
    words = [program, "-p", str(port), "-m", str(pages), "-t", str(workers)]
    if is_memcached(program):
        words += ["-M", "-l", HOST, "-U", "0", "-u", "root"]
    return words + list(args)


def die_with_parent():
    """Lets this process be killed where its parent ends first, so that no test leaves a server behind."""
    ctypes.CDLL(None).prctl(PARENT_DEATH_SIGNAL, signal.SIGKILL)


class Started:
    """A process that takes connections on a port, with what it writes in a file."""

    def __init__(self, words, port, environment=None, host=HOST):
        self.port, self.address = port, (host, port)
        self.output = tempfile.TemporaryFile()
        streams = {"stdin": subprocess.DEVNULL, "stdout": self.output, "stderr": self.output}
        try:
            self.process = subprocess.Popen(words, env=environment, preexec_fn=die_with_parent, **streams)
        except OSError as error:
            self.output.close()
            raise CannotStart(f"{words[0]}: {error}") from error
        self.pid = self.process.pid
        try:
            self._await_connections(words)
        except CannotStart:
            self.kill()
            self.output.close()
            raise

    def _await_connections(self, words):
        late = time.monotonic() + SECONDS
        while time.monotonic() < late:
            if self.process.poll() is not None:
                raise CannotStart(f"{' '.join(words)} ended with status {self.process.returncode}: {self.said()}")
            try:
                socket.create_connection(self.address, timeout=1).close()
                return
            except OSError:
                time.sleep(0.02)
        raise CannotStart(f"{' '.join(words)} took no connection in {SECONDS} seconds: {self.said()}")

    def said(self):
        """Gives what it wrote so far on its outputs, as text."""
        size = os.fstat(self.output.fileno()).st_size
        return os.pread(self.output.fileno(), size, 0).decode(errors="replace")

    def runs(self):
        return self.process.poll() is None

    def stop(self):
        """Asks it to end, kills it where it doesn't in time, and gives its status."""
        self.process.terminate()
        try:
            return self.process.wait(SECONDS)
        except subprocess.TimeoutExpired:
            return self.kill()

    def kill(self):
        """Ends it at once, as a machine that fails does, and gives its status."""
        self.process.kill()
        return self.process.wait(SECONDS)

    def close(self):
        """Stops it, and lets go of what it wrote."""
        self.stop()
        self.output.close()

    def memory(self, which="VmRSS:"):
        """The bytes of the machine's memory that it has, or had at most, or of addresses."""
        with open(f"/proc/{self.pid}/status") as it:
            line = next((line for line in it if line.startswith(which)), "- 0")
        return int(line.split()[1]) * 1024

    def faults(self):
        """How many page faults it has met that no device had to serve."""
        with open(f"/proc/{self.pid}/stat") as it:
            return int(it.read().rpartition(")")[2].split()[7])

    def descriptors(self):
        return len(os.listdir(f"/proc/{self.pid}/fd"))

    def connections(self):
        """How many sockets it has, but for the one at which it listens."""
        folder, found = f"/proc/{self.pid}/fd", set()
        for name in os.listdir(folder):
            with contextlib.suppress(FileNotFoundError):  # (closed since)
                found.add(os.readlink(f"{folder}/{name}"))
        return sum(it.startswith("socket:") for it in found) - 1

    def settle(self):
        """Waits until the connections that were closed are closed on its side too, or a second has gone by.

        The one that waited for the start may still wait to be accepted: one that is answered comes in behind it. A worker counts a
        connection out after it has closed it, and sleeps only then."""
        with socket.create_connection(self.address, timeout=SECONDS) as behind:
            behind.sendall(b"version\r\n")
            behind.recv(100)
        until(lambda: self.connections() == 0, 1)
        until(self.sleeps, 1)

    def sleeps(self):
        """Whether none of its threads runs or is about to."""
        states = []
        for thread in os.listdir(f"/proc/{self.pid}/task"):
            with contextlib.suppress(FileNotFoundError, ProcessLookupError):  # (ended since)
                with open(f"/proc/{self.pid}/task/{thread}/stat") as it:
                    states.append(it.read().rpartition(")")[2].split()[0])
        return all(it == "S" for it in states)

    def processor(self):
        """The seconds that it had of the processor."""
        with open(f"/proc/{self.pid}/stat") as it:
            fields = it.read().rpartition(")")[2].split()
        return (int(fields[11]) + int(fields[12])) / TICKS

    def __enter__(self):
        return self

    def __exit__(self, *_):
        self.close()


class Server(Started):
    """A running server. Without a port it takes one that is free; `args` are further words of its command line.

    A limit is a kind, how much of it the server has, and how much it may be given later. With `faults` (lib/faults.py) its calls
    of the system fail when a test says so. It listens at 127.0.0.1, or at the host that is named."""

    def __init__(self, program=None, port=None, pages=64, workers=4, args=(), limit=None, faults=None, host=HOST):
        program = program or settings.program()
        wrapped = [sys.executable, "-I", "-S", "-c", LIMITED, *map(str, limit)] if limit else []
        for last in [*[False] * (TRIES - 1), True]:
            chosen = port or free_port(host)
            try:
                words = [*wrapped, *command(program, chosen, pages, workers, args), *(["-l", host] if host != HOST else [])]
                return super().__init__(words, chosen, faults.environment if faults else None, host)
            except CannotStart:
                if port or limit or last:  # (a port may be taken by another between the look and the start)
                    raise


class StillServer(Server):
    """A running server whose clock stands, and whose items have at most so many bytes with key and header.

    With `buffers` its connections may hold so many MiB together."""

    def __init__(self, now=MOMENT, connections=MOST, greatest=GREATEST, buffers=None, args=(), **options):
        clock = [] if is_memcached(settings.program()) else ["--now", str(now)]
        largest = [] if greatest == GREATEST else ["-I", str(greatest)]
        held = ["--buffer-limit", str(buffers)] if buffers else []
        super().__init__(args=["-c", str(connections), *largest, *held, *clock, *args], **options)

"""The threads of a server: which they are, what they do, and how one is held; and how its listener is made to fail."""
import contextlib
import ctypes
import os
import signal
import socket

from tests.lib.wait import until

ATTACH, DETACH, ALL_THREADS = 16, 17, 0x40000000
GET_DESCRIPTOR = 438
LIBC = ctypes.CDLL(None, use_errno=True)


def threads(server):
    return [int(it) for it in sorted(os.listdir(f"/proc/{server.pid}/task"), key=int)]


def name(server, thread):
    with open(f"/proc/{server.pid}/task/{thread}/comm") as it:
        return it.read().strip()


def loggers(server):
    """The threads that write to standard error."""
    return [it for it in threads(server) if name(server, it) == "logger"]


def workers(server):
    """The threads that serve connections: all but the first, which accepts them, and the logger, which comes last."""
    until(lambda: loggers(server), 5)
    return [it for it in threads(server) if it != server.pid and it not in loggers(server)]


def trace(request, thread):
    LIBC.ptrace.argtypes = [ctypes.c_long, ctypes.c_long, ctypes.c_void_p, ctypes.c_void_p]
    if LIBC.ptrace(request, thread, None, None) < 0:
        raise OSError(ctypes.get_errno(), "a thread can't be held")


@contextlib.contextmanager
def held(thread):
    """Holds one thread of the server, so that it does nothing in the meantime, however long that is."""
    trace(ATTACH, thread)
    try:
        os.waitpid(thread, ALL_THREADS)
        yield
    finally:
        trace(DETACH, thread)


@contextlib.contextmanager
def stopped(server):
    """Stops the server, so that all that is sent in the meantime is there when it goes on."""
    server.process.send_signal(signal.SIGSTOP)
    try:
        until(lambda: all(state(server, it) == "T" for it in threads(server)), 5)
        yield
    finally:
        server.process.send_signal(signal.SIGCONT)


def state(server, thread):
    with open(f"/proc/{server.pid}/task/{thread}/stat") as it:
        return it.read().rpartition(")")[2].split()[0]


def waits(server, threads):
    """How often each of these threads has waited until now."""
    found = {}
    for thread in threads:
        with open(f"/proc/{server.pid}/task/{thread}/status") as it:
            found[thread] = next(int(line.split()[1]) for line in it if line.startswith("voluntary"))
    return found


def fail_listener(pid):
    """Shuts the socket at which a process listens, so that its accepts fail from then on."""
    process = os.pidfd_open(pid)
    try:
        for descriptor in map(int, os.listdir(f"/proc/{pid}/fd")):
            if not os.readlink(f"/proc/{pid}/fd/{descriptor}").startswith("socket:"):
                continue
            if (ours := LIBC.syscall(GET_DESCRIPTOR, process, descriptor, 0)) < 0:
                raise OSError(ctypes.get_errno(), "a descriptor can't be had")
            with socket.socket(fileno=ours) as it:
                if it.getsockopt(socket.SOL_SOCKET, socket.SO_ACCEPTCONN):
                    it.shutdown(socket.SHUT_RDWR)
                    return
        raise AssertionError("it doesn't listen")
    finally:
        os.close(process)

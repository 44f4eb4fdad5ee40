"""What the clients' scripts in Python share: calls that are made as they are written, and what each is to give."""
import os
import socket
import sys

HOST = "127.0.0.1"
SECONDS = 10
# Whether the server is memcached, and not the program.
IS_MEMCACHED = os.environ.get("SERVER") == "memcached"


class Checks:
    """Counts, and says what was run. `names` are what the calls may speak of."""

    def __init__(self, **names):
        self.names, self.passed, self.failed = names, 0, 0

    def about(self, what):
        """Says what the checks that follow are about."""
        print(what, flush=True)

    def seen(self, call):
        """Makes a call, and gives what it gave, or the name of what it raised."""
        try:
            return eval(call, self.names)
        except Exception as error:
            return f"raised {type(error).__name__}: {error}"

    def count(self, call, is_right, wanted, seen):
        if is_right:
            self.passed += 1
            return
        self.failed += 1
        print(f"FAILED called {call[:300]}\n       expected {str(wanted)[:300]}\n       seen {repr(seen)[:300]}", flush=True)

    def gives(self, call, wanted):
        """The call gives a value that is equal to the wanted one."""
        seen = self.seen(call)
        self.count(call, seen == wanted and type(seen) is type(wanted), repr(wanted), seen)

    def is_true(self, call):
        """The call gives something true, and raises nothing."""
        seen = self.seen(call)
        self.count(call, bool(seen) and not str(seen).startswith("raised "), "something true", seen)

    def raises(self, call, *errors):
        """The call raises an error of one of these names."""
        seen = self.seen(call)
        self.count(call, any(str(seen).startswith(f"raised {it}:") for it in errors), f"raises {errors}", seen)

    def end(self):
        print(f"{self.passed} passed, {self.failed} failed", flush=True)
        sys.exit(0 if self.passed and not self.failed else 1)


def ports():
    """Gives the port of the server, the one that never answers, and the one that restarts the server."""
    return tuple(int(word) for word in sys.argv[1:4])


def restart(control):
    """Has the server killed and started anew, with nothing in it."""
    with socket.create_connection((HOST, control), timeout=SECONDS) as asking:
        asking.sendall(b"restart\n")
        return asking.recv(64) == b"done\n"

"""Three servers over which keys are spread, and the ways in which clients reach them, as docs/SCALING.md has them."""
import contextlib
import os
import re
import shutil
import socket
import tempfile

from tests.lib.server import HOST, Server, Started, free_port
from tests.lib.settings import ROOT

DOCS = f"{ROOT}/docs/SCALING.md"
NUTCRACKER = shutil.which("nutcracker", path=f"{os.environ.get('PATH', '')}:/usr/sbin")


class Cluster:
    """Three servers on ports of their own."""

    def __init__(self, count=3):
        self.running = contextlib.ExitStack()
        self.servers = []
        for _ in range(count):
            self.add()

    def add(self):
        self.servers.append(self.running.enter_context(Server()))

    def kill(self, at):
        self.servers[at].kill()

    def bring_back(self, at):
        """Starts the killed server anew on its port; it holds nothing."""
        self.servers[at] = self.running.enter_context(Server(port=self.servers[at].port))

    def ports(self):
        return [server.port for server in self.servers]

    def homes(self, keys):
        """Asks each running server for the keys: the servers that have it, for each key."""
        found = {key: [] for key in keys}
        for at, server in enumerate(self.servers):
            if server.runs():
                for key in held(server.address, keys):
                    found[key].append(at)
        return found

    def close(self):
        self.running.close()


def held(address, keys):
    """Gives which of the keys a server has."""
    found = set()
    with socket.create_connection(address, timeout=5) as link, link.makefile("rb") as answers:
        for start in range(0, len(keys), 500):
            link.sendall(f"get {' '.join(keys[start : start + 500])}\r\n".encode())
            while (line := answers.readline()) != b"END\r\n":
                if not line:
                    raise OSError(f"the server at {address} closed the connection")
                _, key, _, size = line.split()
                answers.read(int(size) + 2)
                found.add(key.decode())
    return found


def closed_by(address, line):
    """Gives what comes of a line until the connection is closed."""
    with socket.create_connection(address, timeout=5) as link:
        link.sendall(line)
        try:
            return link.recv(1000)
        except ConnectionResetError:
            return b""


def text(value):
    return value.decode() if isinstance(value, bytes) else value


class ByClient:
    """Sets and gets by a client, each again where it fails, as a server that is gone is found out by failures."""

    TRIES = 5
    failure = "none"

    def __init__(self, client):
        self.client = client

    def get(self, key):
        """Gives the value, or nothing where there is none or each try failed."""
        for _ in range(self.TRIES):
            try:
                return text(self.client.get(key))
            except Exception as error:
                self.failure = f"{type(error).__name__}: {error}"
        return None

    def set(self, key, value):
        """Stores a value, and says whether a try succeeded."""
        for _ in range(self.TRIES):
            try:
                if self.client.set(key, value):
                    return True
            except Exception as error:
                self.failure = f"{type(error).__name__}: {error}"
        return False


class ByPymemcache(ByClient):
    """By a client of pymemcache."""

    def get_all(self, keys):
        return {key: text(value) for key, value in self.client.get_many(keys).items()}

    def close(self):
        self.client.close()


class ByProxy(ByPymemcache):
    """Sets and gets by way of nutcracker, with the configuration of the page."""

    def __init__(self, ports):
        from pymemcache.client.base import Client

        self.folder = tempfile.TemporaryDirectory()
        listens, asked = free_port(), free_port()
        path = f"{self.folder.name}/nutcracker.yml"
        with open(path, "w") as it:
            it.write(configuration(listens, ports))
        words = [NUTCRACKER, "-c", path, "-o", f"{self.folder.name}/log", "-p", f"{self.folder.name}/pid"]
        self.proxy = Started([*words, "-a", HOST, "-s", str(asked)], listens)
        super().__init__(Client(self.proxy.address, connect_timeout=5, timeout=5, default_noreply=False))

    def close(self):
        super().close()
        self.proxy.close()
        self.folder.cleanup()


class ByPylibmc(ByClient):
    """By pylibmc with libmemcached's ketama."""

    def __init__(self, ports):
        super().__init__(client_of("ketama", ports))

    def get_all(self, keys):
        return self.client.get_multi(keys)

    def close(self):
        self.client.disconnect_all()


def by_hash_client(ports):
    return ByPymemcache(client_of("HashClient", ports))


def block(kind):
    """Gives the block of docs/SCALING.md that is marked so."""
    with open(DOCS) as it:
        return re.search(f"```{kind}\n(.*?)```", it.read(), re.DOTALL).group(1)


def client_of(name, ports):
    """Makes the client of docs/SCALING.md, over servers at these ports."""
    servers = [(HOST, port) for port in ports]
    page, times = re.subn(r"^servers = .*$", f"servers = {servers}", block(f"python {name}"), flags=re.MULTILINE)
    assert times == 1, f"the block of {name} names its servers once"
    names = {}
    exec(page, names)
    return names["client"]


def configuration(listens, ports):
    """Gives nutcracker's configuration of docs/SCALING.md with these ports."""
    page = block("yaml")
    for written, port in zip(["22121", "11211", "11212", "11213"], [listens, *ports]):
        assert f"{HOST}:{written}" in page, f"the configuration names {written}"
        page = page.replace(f"{HOST}:{written}", f"{HOST}:{port}")
    return page

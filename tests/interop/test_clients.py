"""The clients that are installed here, each in a script that uses it as its documentation does, against the program and against
memcached, if that is installed.

Nothing is installed: what lacks a package is named and not run. Each script (in clients/) gets a server of its own and three
ports of 127.0.0.1: the server's; one whose connections are taken and never answered; and one where a line `restart`
kills the server and starts it anew on its port, which `done` answers. The environment's SERVER is `memcached` or `mcserver`: where
docs/CLIENTS.md says that a client sees something else here, the script expects what it says. It prints what it ran, its last line is
`N passed, M failed`, and its status is 0 where something passed and nothing failed.
"""
import os
import shutil
import signal
import socket
import subprocess
import threading

from tests.lib.case import ProgramCase
from tests.lib.server import HOST, Server, is_memcached
from tests.lib.server import SECONDS as START_SECONDS

HERE = f"{os.path.dirname(os.path.realpath(__file__))}/clients"
# So long a script takes at most.
SECONDS = 120
# Debian's modules belong to its own python3, whichever comes first on the path.
PYTHON = "/usr/bin/python3"
MEMCACHED = shutil.which("memcached")
# Prints the version of a package of Debian, if it is installed.
INSTALLED = "dpkg-query -W -f '${{db:Status-Status}} ${{Version}}' {0} | sed -n 's/^installed //p' | grep ."
GO_SOURCES, SPYMEMCACHED = "/usr/share/gocode", "/usr/share/java/spymemcached.jar"


class Bench:
    """A server that can be restarted, a port that never answers, and the port that restarts it."""

    def __init__(self, program):
        self.program, self.server = program, Server(program)
        self.silent = socket.create_server((HOST, 0))
        self.control = socket.create_server((HOST, 0))
        self.ports = [str(port) for port in (self.server.port, self.silent.getsockname()[1], self.control.getsockname()[1])]

    def watch(self, script):
        """Restarts the server each time the script asks for it, until the script has ended."""
        self.control.settimeout(0.1)
        while script.poll() is None:
            try:
                asking, _ = self.control.accept()
            except TimeoutError:
                continue
            with asking:
                asking.settimeout(START_SECONDS)
                if asking.recv(64).strip() == b"restart":
                    self.server.kill()
                    self.server.close()
                    self.server = Server(self.program, port=self.server.port)
                    asking.sendall(b"done\n")

    def __enter__(self):
        return self

    def __exit__(self, *_):
        self.server.close()
        self.silent.close()
        self.control.close()


class Clients(ProgramCase):
    """Each test names the packages, a command that prints the client's version where it is there, and its script."""

    def uses(self, packages, version, words, **environment):
        told = self.version_of(version)
        if told is None:
            self.skipTest(f"it wants {packages}")
        print(f"    {packages}: {told}", flush=True)
        for program in self.programs():
            with self.subTest(program=program):
                self.runs_with(program, words, environment)

    def programs(self):
        """The program, and memcached, if it is installed and isn't the program."""
        return [self.program, *([MEMCACHED] if MEMCACHED and not is_memcached(self.program) else [])]

    def runs_with(self, program, words, environment):
        """Runs a script against a server of its own."""
        name = "memcached" if is_memcached(program) else "mcserver"
        with Bench(program) as bench:
            script = subprocess.Popen(
                [*words, *bench.ports], cwd=HERE, stdin=subprocess.DEVNULL, stdout=subprocess.PIPE,
                stderr=subprocess.STDOUT, text=True, start_new_session=True, env={**os.environ, **environment, "SERVER": name},
            )
            wrote = self.written(script, bench)
            self.assertTrue(bench.server.runs(), f"the server had ended\n{wrote}")
        print(f"    with {name}\n", *(f"        {line}\n" for line in wrote.splitlines()), sep="", end="", flush=True)
        self.assertEqual(0, script.returncode, f"the script's status; it had {SECONDS} seconds\n{wrote}")
        self.assertRegex(wrote, r"(^|\n)[1-9]\d* passed, 0 failed\n$")

    def version_of(self, words):
        """The version of the client, or nothing where it isn't installed."""
        try:
            ran = subprocess.run(words, capture_output=True, timeout=SECONDS, text=True)
        except OSError:
            return None
        return ran.stdout.strip() if not ran.returncode else None

    def written(self, script, bench):
        """What a script writes until it ends, or has taken too long."""
        late = threading.Timer(SECONDS, lambda: os.killpg(script.pid, signal.SIGKILL))
        late.start()
        wrote = []
        reading = threading.Thread(target=lambda: wrote.extend(script.stdout))
        reading.start()
        try:
            bench.watch(script)
        finally:
            late.cancel()
            reading.join(START_SECONDS)
            script.stdout.close()
        return "".join(wrote)

    def uses_python(self, package, module, script):
        self.uses(package, [PYTHON, "-c", f"import {module}; print({module}.__version__)"], [PYTHON, script])

    def uses_perl(self, package, module, script):
        self.uses(package, ["perl", f"-M{module}", "-e", f"print ${module}::VERSION"], ["perl", script])

    def uses_php(self, package, extension, script, *words):
        version = f'extension_loaded("{extension}") || exit(1); echo phpversion("{extension}");'
        self.uses(f"php-cli {package}", ["php", "-r", version], ["php", script, *words])

    def uses_django(self, package, module, backend):
        version = f"import django, {module}; print(django.__version__, {module}.__version__)"
        self.uses(f"python3-django {package}", [PYTHON, "-c", version], [PYTHON, "use_django.py", backend])

    def test_pymemcache(self):
        self.uses_python("python3-pymemcache", "pymemcache", "use_pymemcache.py")

    def test_pylibmc(self):
        self.uses_python("python3-pylibmc", "pylibmc", "use_pylibmc.py")

    def test_python_memcached(self):
        self.uses_python("python3-memcache", "memcache", "use_memcache.py")

    def test_libmemcached_tools(self):
        version = "memccat --version | sed -n '1s/.* v\\([0-9.]*\\).*/\\1/p' | grep ."
        self.uses("libmemcached-tools", ["sh", "-c", version], [PYTHON, "use_tools.py"])

    def test_perl_cache_memcached(self):
        self.uses_perl("libcache-memcached-perl", "Cache::Memcached", "use_cache_memcached.pl")

    def test_perl_cache_memcached_fast(self):
        self.uses_perl("libcache-memcached-fast-perl", "Cache::Memcached::Fast", "use_cache_memcached_fast.pl")

    def test_php_memcached(self):
        self.uses_php("php-memcached", "memcached", "use_memcached.php")

    def test_php_memcache(self):
        self.uses_php("php-memcache", "memcache", "use_memcache.php")

    def test_php_sessions_by_memcached(self):
        self.uses_php("php-memcached", "memcached", "use_sessions.php", "memcached")

    def test_php_sessions_by_memcache(self):
        self.uses_php("php-memcache", "memcache", "use_sessions.php", "memcache")

    def test_django_pymemcache(self):
        self.uses_django("python3-pymemcache", "pymemcache", "PyMemcacheCache")

    def test_django_pylibmc(self):
        self.uses_django("python3-pylibmc", "pylibmc", "PyLibMCCache")

    def test_django_python_memcached(self):
        self.uses_django("python3-memcache", "memcache", "MemcachedCache")

    def test_flask_caching(self):
        version = "import flask_caching, pylibmc; print(flask_caching.__version__)"
        self.uses("python3-flask-caching python3-pylibmc", [PYTHON, "-c", version], [PYTHON, "use_flask_caching.py"])

    def test_nginx(self):
        version = "PATH=$PATH:/usr/sbin nginx -v 2>&1 | sed -n 's|.*nginx/||p' | grep ."
        self.uses("nginx-light", ["sh", "-c", version], [PYTHON, "use_nginx.py"])

    def test_gomemcache(self):
        version = "go version > /dev/null && " + INSTALLED.format("golang-github-bradfitz-gomemcache-dev")
        words = ["go", "run", "use_gomemcache.go"]
        self.uses("golang-go golang-github-bradfitz-gomemcache-dev", ["sh", "-c", version], words, GO111MODULE="off", GOPATH=GO_SOURCES)

    def test_spymemcached(self):
        version = "javac -version > /dev/null && " + INSTALLED.format("libspymemcached-java")
        words = ["java", "-cp", SPYMEMCACHED, "UseSpymemcached.java"]
        self.uses("default-jdk-headless libspymemcached-java", ["sh", "-c", version], words)

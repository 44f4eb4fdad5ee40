"""The image of packaging/Dockerfile, where there is no engine for containers: its steps by hand, in a folder that `chroot` makes the root,
and what it starts, in namespaces of processes and of files of its own. It wants root, unshare and tini; what isn't there is named, and
its tests are not run. FROM and the packages that RUN installs are taken from this system, which is to be the same release of Debian.
"""
import contextlib
import json
import os
import re
import shutil
import signal
import subprocess
import tempfile
import time
import unittest

from tests.lib.case import ProgramCase
from tests.lib.peer import Peer
from tests.lib.scrape import sent, told
from tests.lib.server import SECONDS, die_with_parent, free_port
from tests.lib.settings import ROOT
from tests.lib.wait import until

DOCKERFILE = f"{ROOT}/packaging/Dockerfile"
# It has ended so many seconds behind TERM.
ENDS = 1
# Beside the packages that the image is told to install, what the slim image of Debian has that is used here.
SLIM = ["/bin/bash", "/bin/sh", "/bin/grep", "/usr/bin/printf", "/usr/bin/sleep"]
# Makes a folder the root, of a namespace of files and of processes of its own, and runs there what follows, as process 1 and this user.
AS_ROOT = 'mount -t proc proc "$1/proc" && mount --bind /dev "$1/dev" && shift && exec chroot --userspec="$2" "$1" "${@:3}"'


def steps():
    """The steps of the Dockerfile: names and words, which are a list where they stand in brackets."""
    with open(DOCKERFILE, encoding="utf-8") as text:
        lines = re.findall(r"^([A-Z]+) (.+)$", text.read(), re.MULTILINE)
    return [(name, json.loads(words) if words.startswith("[") else words) for name, words in lines]


def step(name):
    """The words of the one step of this name."""
    (found,) = [words for it, words in steps() if it == name]
    return found


def may_enter():
    """Whether this user may make namespaces."""
    words = ["unshare", "--mount", "--pid", "--fork", "true"]
    return shutil.which("unshare") and os.geteuid() == 0 and not subprocess.run(words, stderr=subprocess.DEVNULL).returncode


class Image:
    """A folder with what the image has."""

    def __init__(self, folder, program):
        self.folder = folder
        os.chmod(folder, 0o755)
        for name in ("proc", "dev", "tmp"):
            os.makedirs(f"{folder}/{name}")
        for name, words in steps():
            if name == "RUN":
                packages = re.search(r"apt-get install -y --no-install-recommends ([\w -]+?) &&", words).group(1).split()
                for it in [*SLIM, *(path for package in packages for path in files_of(package))]:
                    self.take(it)
            elif name == "COPY":
                source, goal = words.removeprefix("--chmod=755 ").split()
                self.put(program if source == "crates/mc_server/out/mc_server" else f"{ROOT}/{source}", goal)
        # the slim image has the C library and those of the compiler
        self.take_libraries(program)

    def take(self, path):
        """Takes a program of this system, and the libraries that it is linked with."""
        self.put(os.path.realpath(path), path)
        self.take_libraries(path)

    def take_libraries(self, path):
        found = subprocess.run(["ldd", path], capture_output=True, text=True).stdout
        for it in re.findall(r"(/\S+) \(0x", found):
            self.put(os.path.realpath(it), it)

    def put(self, source, goal):
        goal = self.folder + goal
        goal = goal + os.path.basename(source) if goal.endswith("/") else goal
        os.makedirs(os.path.dirname(goal), exist_ok=True)
        if not os.path.exists(goal):
            shutil.copy(source, goal)


def files_of(package):
    """The programs of a package of Debian that is installed."""
    listed = subprocess.run(["dpkg", "-L", package], capture_output=True, text=True).stdout.split()
    return [it for it in listed if re.match(r"(/usr)?/s?bin/.", it)]


def in_image(folder, words):
    """What runs these words in the image, as its user."""
    user = step("USER")
    return ["unshare", "--mount", "--pid", "--fork", "bash", "-c", AS_ROOT, "bash", folder, folder, user, *words]


class Running:
    """What the image starts: process 1 of its namespace."""

    def __init__(self, image, words, port):
        self.process = subprocess.Popen(
            in_image(image.folder, words), stdin=subprocess.DEVNULL, stdout=subprocess.DEVNULL, stderr=subprocess.DEVNULL,
            preexec_fn=die_with_parent, start_new_session=True,
        )
        if not until(lambda: answers(port), SECONDS):
            self.close()
            raise AssertionError(f"nothing listens at {port}")
        # the child of unshare is process 1 of the namespace
        with open(f"/proc/{self.process.pid}/task/{self.process.pid}/children") as it:
            self.first = int(it.read().split()[0])

    def term(self):
        """Sends TERM to process 1, as an engine does, and gives after how many seconds it has ended, or None if it hasn't after ENDS."""
        start = time.monotonic()
        os.kill(self.first, signal.SIGTERM)
        with contextlib.suppress(subprocess.TimeoutExpired):
            self.process.wait(ENDS)
            return time.monotonic() - start
        return None

    def close(self):
        with contextlib.suppress(ProcessLookupError):
            if hasattr(self, "first"):
                os.kill(self.first, signal.SIGKILL)
        with contextlib.suppress(ProcessLookupError):
            os.killpg(self.process.pid, signal.SIGKILL)
        self.process.wait(SECONDS)

    def __enter__(self):
        return self

    def __exit__(self, *_):
        self.close()


def answers(port):
    with contextlib.suppress(OSError, AssertionError):
        with Peer(port, 1) as peer:
            peer.asks(b"version\r\n", b"VERSION 1.6.0\r\n")
        return True
    return False


class Written(ProgramCase):
    def test_the_dockerfile_has_what_the_page_says(self):
        """It starts mcserver below an init, with metrics, as a user that isn't root; and all that it copies is let through."""
        entry = step("ENTRYPOINT")
        self.assertEqual(["/usr/bin/tini", "--", "/usr/local/bin/mcserver"], entry[:3])
        self.assertIn("--metrics", entry)
        self.assertNotIn(step("USER").split(":")[0], ("root", "0"))
        with open(f"{DOCKERFILE}.dockerignore", encoding="utf-8") as text:
            let_through = [line[1:] for line in text.read().splitlines() if line.startswith("!")]
        copied = [words.removeprefix("--chmod=755 ").split()[0] for name, words in steps() if name == "COPY"]
        self.assertEqual(sorted(let_through), sorted(copied))


@unittest.skipUnless(may_enter(), "it wants root and unshare")
@unittest.skipUnless(os.path.exists("/usr/bin/tini"), "it wants tini")
class InANamespace(ProgramCase):
    @classmethod
    def setUpClass(cls):
        super().setUpClass()
        folder = tempfile.TemporaryDirectory(dir="/var/tmp")
        cls.addClassCleanup(folder.cleanup)
        cls.image = Image(folder.name, cls.program)

    def setUp(self):
        self.port, self.metrics = free_port(), free_port()

    def entry(self, *words):
        """What the image starts, at ports that are free here: an address that stands twice counts as it stands last."""
        entry = [it.replace(":9150", f":{self.metrics}") for it in step("ENTRYPOINT")]
        return [*entry, *step("CMD"), "-p", str(self.port), *words]

    def test_term_ends_it_within_a_second(self):
        with Running(self.image, self.entry(), self.port) as it, Peer(self.port) as peer:
            peer.asks(b"set a 0 0 1\r\nx\r\n", b"STORED\r\n")
            self.assertIsNotNone(it.term(), "it runs still")

    def test_without_an_init_term_does_nothing(self):
        """So the test above can fail."""
        with Running(self.image, self.entry()[2:], self.port) as it:
            self.assertIsNone(it.term(), "it has ended")

    def test_probes(self):
        """What an orchestrator asks, and what HEALTHCHECK runs in the image, before and behind its end."""
        check = step("HEALTHCHECK").partition(" CMD ")[2]
        words = [it.replace("/9150", f"/{self.metrics}") for it in json.loads(check)]
        with Running(self.image, self.entry(), self.port):
            self.assertEqual(200, told(sent(self.metrics, b"GET /healthz HTTP/1.1\r\nHost: a\r\n\r\n")).status)
            self.assertEqual(0, subprocess.run(in_image(self.image.folder, words), timeout=SECONDS).returncode)
        self.assertNotEqual(0, subprocess.run(in_image(self.image.folder, words), timeout=SECONDS, stderr=subprocess.DEVNULL).returncode)

    def test_the_hook_ends_it_in_order(self):
        """It is what docs/CONTAINERS.md has as preStop: what was sent is answered, and it ends by itself."""
        with open(f"{ROOT}/docs/CONTAINERS.md", encoding="utf-8") as text:
            words = re.search(r"command:\n +- (/bin/sh)\n +- (-c)\n +- (.*)\n", text.read()).groups()
        words = in_image(self.image.folder, [word.replace(":9150", f":{self.metrics}") for word in words])
        with Running(self.image, self.entry(), self.port) as it, Peer(self.port) as peer:
            peer.asks(b"set a 0 0 1\r\nx\r\n", b"STORED\r\n")
            with subprocess.Popen(words) as hook:
                self.assertTrue(until(lambda: not answers(self.port), SECONDS), "it listens still")
                peer.asks(b"get a\r\n", b"VALUE a 0 1\r\nx\r\nEND\r\n")
                self.assertEqual((0, 0), (hook.wait(SECONDS), it.process.wait(SECONDS)))

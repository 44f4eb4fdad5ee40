"""The service under a real systemd, which is process 1 of namespaces of its own over a copy of this system that is gone with the test.

It wants root, unshare, nsenter and systemd; what isn't there is named, and its tests are not run. Nothing of the machine's systemd is used.
"""
import contextlib
import os
import shutil
import signal
import subprocess
import sys
import tempfile
import unittest

from tests.lib.case import ProgramCase
from tests.lib.server import die_with_parent
from tests.lib.settings import ROOT
from tests.lib.wait import until

SYSTEMD = "/lib/systemd/systemd"
# A boot and each command end within so many seconds; what systemd does by itself is seen within so many.
SECONDS, SOON = 60, 10
PORT, OTHER, METRICS = 11211, 11311, 9150
# The most that `systemd-analyze security` may count: tenths, of which 100 are no protection at all.
EXPOSED = 15
# What of a machine's start changes the kernel, or waits for a device.
MASKED = """systemd-sysctl.service systemd-modules-load.service systemd-remount-fs.service systemd-udevd.service systemd-udev-trigger.service
systemd-udevd-kernel.socket systemd-udevd-control.socket systemd-update-utmp.service systemd-tmpfiles-setup-dev.service systemd-timesyncd.service
dev-hugepages.mount dev-mqueue.mount sys-kernel-debug.mount sys-kernel-tracing.mount sys-fs-fuse-connections.mount sys-kernel-config.mount
proc-sys-fs-binfmt_misc.automount timers.target""".split()
# Makes the copy below the folder $1, with the files of $2, and starts systemd in it.
BOOT = """set -e
mount -t tmpfs none "$1" && mkdir "$1/new" "$1/work" "$1/root" && cp -a "$2/." "$1/new"
mount -t overlay overlay -o "lowerdir=/,upperdir=$1/new,workdir=$1/work" "$1/root" && cd "$1/root"
mount -t proc proc proc && mount -t sysfs -o ro sysfs sys && mount -t cgroup2 cgroup sys/fs/cgroup
mount -t tmpfs -o mode=755 none run && mount -t tmpfs -o mode=1777 none tmp && mount -t tmpfs -o mode=755 none dev
for it in null zero full random urandom tty; do touch "dev/$it" && mount --bind "/dev/$it" "dev/$it"; done
ln -s /proc/self/fd dev/fd && ln -s pts/ptmx dev/ptmx && mkdir dev/shm dev/pts old && mount -t devpts -o newinstance devpts dev/pts
mount -o bind,ro proc/sys proc/sys && pivot_root . old && cd / && umount -l old && rmdir old
exec env -i container=other PATH=/usr/sbin:/usr/bin:/sbin:/bin %s --unit=basic.target --log-target=journal --show-status=no
""" % SYSTEMD
# Moves itself to a group of its own, below the folder $1, at which it mounts the groups, and goes on as a namespace's first process.
ENTER = """set -e
mount -t cgroup2 cgroup "$1" && mkdir -p "$1/$2" && echo $$ > "$1/$2/cgroup.procs" && umount "$1"
exec unshare --cgroup --mount --pid --fork --uts --ipc --net sh -c "$3" sh "$4" "$5"
"""
# Asks a server of the namespace, and writes the answer.
ASK = """import socket, sys
with socket.create_connection(("127.0.0.1", int(sys.argv[1])), timeout=5) as it:
    it.sendall(sys.argv[2].encode() + b"\\r\\nquit\\r\\n")
    while piece := it.recv(4096): sys.stdout.write(piece.decode())
"""


def may_boot():
    """Whether systemd may be started here in namespaces of its own."""
    words = ["unshare", "--cgroup", "--mount", "--pid", "--fork", "--uts", "--ipc", "--net", "true"]
    return shutil.which("unshare") and os.geteuid() == 0 and not subprocess.run(words, stderr=subprocess.DEVNULL).returncode


class Machine:
    """A copy of this system with a systemd of its own, in which the program is installed."""

    def __init__(self, program):
        self.folder = tempfile.TemporaryDirectory(dir="/var/tmp")
        self.group = f"mcserver-tests-{os.getpid()}"
        made, copy, groups = (f"{self.folder.name}/{it}" for it in ("made", "copy", "groups"))
        for it in (made, copy, groups):
            os.mkdir(it)
        words = ["make", "-s", "install", f"DESTDIR={made}", "PREFIX=/usr", f"PROGRAM={program}"]
        subprocess.run(words, cwd=ROOT, check=True, stdout=subprocess.DEVNULL)
        units = f"{made}/etc/systemd/system"
        os.makedirs(f"{units}/basic.target.d")
        # what another unit names stays loaded when it is stopped, with how it ended
        with open(f"{units}/basic.target.d/tests.conf", "w") as text:
            text.write("[Unit]\nBefore=mcserver.service\n")
        for it in MASKED:
            os.symlink("/dev/null", f"{units}/{it}")
        words = ["unshare", "--mount", "sh", "-c", ENTER, "sh", groups, self.group, BOOT, copy, made]
        self.process = subprocess.Popen(words, stdin=subprocess.DEVNULL, stdout=subprocess.DEVNULL, stderr=subprocess.PIPE, preexec_fn=die_with_parent)
        if not until(lambda: self.process.poll() is not None or self.has_begun(), SECONDS) or self.process.poll() is not None:
            self.close()
            raise AssertionError(f"systemd doesn't start: {self.process.stderr.read().decode()}")

    def first(self):
        """The number of its systemd, once there is one."""
        with contextlib.suppress(OSError, IndexError), open(f"/proc/{self.process.pid}/task/{self.process.pid}/children") as it:
            return it.read().split()[0]
        return None

    def has_begun(self):
        return self.first() is not None and self.run("systemctl", "is-active", "basic.target").stdout == "active\n"

    def run(self, *words, stdin=None):
        """Runs a command in it."""
        entered = ["nsenter", "--target", self.first() or "0", "--mount", "--pid", "--cgroup", "--uts", "--ipc", "--net", "--root", "--wdns=/"]
        clean = ["env", "-i", "PATH=/usr/sbin:/usr/bin:/sbin:/bin", "LC_ALL=C"]
        return subprocess.run([*entered, *clean, *words], input=stdin, stdout=subprocess.PIPE, stderr=subprocess.STDOUT, text=True, timeout=SECONDS)

    def systemctl(self, *words):
        return self.run("systemctl", *words)

    def shows(self, *names, unit="mcserver"):
        """Properties of a unit."""
        return [self.systemctl("show", "--value", "-p", it, unit).stdout.strip() for it in names]

    def options(self, text, name="mcserver"):
        """Writes the file of options."""
        done = self.run("sh", "-c", f"cat > /etc/default/{name}", stdin=text)
        assert done.returncode == 0, done.stdout

    def answers(self, port):
        """Whether the program answers there."""
        return self.run(sys.executable, "-c", ASK, str(port), "version").stdout == "VERSION 1.6.0\n"

    def close(self):
        first = self.first()
        if first:
            os.kill(int(first), signal.SIGKILL)
        self.process.kill()
        self.process.wait(SECONDS)
        self.drop_groups()
        self.folder.cleanup()

    def drop_groups(self):
        """Removes the groups, which no process is in any more."""
        script = 'mount -t cgroup2 cgroup "$1" && find "$1/$2" -depth -type d -exec rmdir {} +'
        words = ["unshare", "--mount", "sh", "-c", script, "sh", f"{self.folder.name}/groups", self.group]
        until(lambda: not subprocess.run(words, stderr=subprocess.DEVNULL).returncode, SOON)


@unittest.skipUnless(os.path.exists(SYSTEMD), "it wants systemd")
@unittest.skipUnless(shutil.which("nsenter"), "it wants nsenter")
@unittest.skipUnless(may_boot(), "it wants root and unshare")
class Service(ProgramCase):
    @classmethod
    def setUpClass(cls):
        super().setUpClass()
        cls.machine = Machine(cls.program)
        cls.addClassCleanup(cls.machine.close)

    def setUp(self):
        self.addCleanup(self.machine.systemctl, "stop", "mcserver", "mcserver@one")
        self.machine.systemctl("reset-failed")
        self.machine.options("OPTIONS=\n")

    def started(self, port=PORT):
        done = self.machine.systemctl("start", "mcserver")
        self.assertEqual((0, ""), (done.returncode, done.stdout))
        self.assertTrue(until(lambda: self.machine.answers(port), SOON), self.machine.run("journalctl", "-u", "mcserver").stdout)

    def test_units_are_right_and_little_exposed(self):
        found = self.machine.run("systemd-analyze", "verify", "--man=no", "mcserver.service", "mcserver@one.service")
        self.assertEqual((0, ""), (found.returncode, found.stdout))
        found = self.machine.run("systemd-analyze", "security", f"--threshold={EXPOSED}", "mcserver.service")
        self.assertEqual(0, found.returncode, found.stdout)

    def test_start_and_stop(self):
        """It runs as a user of its own, and TERM is a clean end."""
        self.started()
        active, pid, user = self.machine.shows("ActiveState", "MainPID", "DynamicUser")
        self.assertEqual(("active", "yes"), (active, user))
        ids = self.machine.run("sed", "-n", "s/^[UG]id:\\s*//p", f"/proc/{pid}/status").stdout.split()
        self.assertTrue(all(int(it) > 60000 for it in ids), ids)
        self.assertEqual("0000000000000000", self.machine.run("sed", "-n", "s/^CapEff:\\s*//p", f"/proc/{pid}/status").stdout.strip())
        self.assertEqual(0, self.machine.systemctl("stop", "mcserver").returncode)
        self.assertEqual(["inactive", "success", "15"], self.machine.shows("ActiveState", "Result", "ExecMainStatus"))

    def test_a_restart_takes_new_options(self):
        """There is no reload: systemd refuses one, and the program goes on."""
        self.started()
        self.machine.options(f"OPTIONS=-p {OTHER} -m 16 -o modern\n")
        reload = self.machine.systemctl("reload", "mcserver")
        self.assertNotEqual(0, reload.returncode)
        self.assertIn("Job type reload is not applicable", reload.stdout)
        self.assertTrue(self.machine.answers(PORT), "it ended")
        self.assertEqual(0, self.machine.systemctl("restart", "mcserver").returncode)
        self.assertTrue(until(lambda: self.machine.answers(OTHER), SOON), "nothing listens at the new port")
        self.assertFalse(self.machine.answers(PORT))
        warned = self.machine.run("journalctl", "-u", "mcserver", "-p", "warning", "-o", "cat").stdout
        self.assertIn("mcserver: warning: with -m 16 only 16 of the 40 sizes of chunks find a page\n", warned)
        self.assertNotIn("listening", warned)

    def test_a_stop_in_order(self):
        """With QUIT the stop is a request to the program, which ends with status 0."""
        self.machine.options(f"OPTIONS=--metrics {METRICS} --allow-quit\nQUIT=127.0.0.1:{METRICS}\n")
        self.started()
        self.assertEqual(0, self.machine.systemctl("stop", "mcserver").returncode)
        self.assertEqual(["inactive", "success", "1", "0"], self.machine.shows("ActiveState", "Result", "ExecMainCode", "ExecMainStatus"))

    def test_it_is_started_again_when_it_was_killed(self):
        self.started()
        (pid,) = self.machine.shows("MainPID")
        self.machine.run("kill", "-KILL", pid)
        self.assertTrue(until(lambda: self.machine.shows("ActiveState", "NRestarts") == ["active", "1"], SOON), "it isn't started again")
        self.assertTrue(until(lambda: self.machine.answers(PORT), SOON))
        self.assertNotEqual([pid], self.machine.shows("MainPID"))

    def test_bad_options_are_not_tried_again(self):
        self.machine.options("OPTIONS=-u nobody\n")
        self.machine.systemctl("start", "mcserver")
        self.assertTrue(until(lambda: self.machine.shows("ActiveState") == ["failed"], SOON))
        self.assertEqual(["exit-code", "2", "0"], self.machine.shows("Result", "ExecMainStatus", "NRestarts"))
        found = self.machine.run("journalctl", "-u", "mcserver", "-p", "err", "-o", "cat").stdout
        self.assertIn("mcserver: '-u' ('--user') isn't served: ", found)

    def test_an_instance_has_its_own_options(self):
        self.assertNotEqual(0, self.machine.systemctl("start", "mcserver@one").returncode)
        self.machine.options(f"OPTIONS=-p {OTHER}\n", "mcserver-one")
        self.assertEqual(0, self.machine.systemctl("start", "mcserver@one").returncode)
        self.assertTrue(until(lambda: self.machine.answers(OTHER), SOON))

"""The package of Debian that `make deb` makes of what is built: two of one build are the same bytes, lintian has nothing to say, what its
documents name is there, and a purge leaves nothing. It is installed in a copy of this system that is gone with the test, which root alone
can make. What isn't installed is named and not run.
"""
import hashlib
import os
import re
import shutil
import subprocess
import tempfile
import unittest

from tests.lib.case import ProgramCase
from tests.lib.settings import ROOT

SECONDS = 120
# What the package is made of, beside the program.
SOURCES = ["CHANGELOG.md", "LICENSE", "Makefile", "README.md", "docs", "man", "packaging", "crates/mc_options/src"]
# A moment of which a build is, in place of the last commit's.
MOMENT = "1700000000"
# A path of the source, or a document, as the text of a document names it.
NAMED = re.compile(r"\b(?:(?:docs|tests|crates|packaging|bench|man)/[\w./-]*\w|[A-Z][A-Z-]+\.md)")
# Runs a script of the shell in a copy of this system: what it changes lies in memory, and is gone with it.
IN_A_COPY = """
mount -t tmpfs none "$1" && mkdir "$1/new" "$1/work" "$1/root" &&
mount -t overlay overlay -o "lowerdir=/,upperdir=$1/new,workdir=$1/work" "$1/root" &&
mount -t proc proc "$1/root/proc" && cp "$2" "$1/root/root/made.deb" && exec chroot "$1/root" sh -euc "$3"
"""
ENABLED = """
dpkg -i /root/made.deb
mcserver --version
test ! -e /etc/systemd/system/multi-user.target.wants/mcserver.service
echo OPTIONS=-p 11311 > /etc/default/mcserver-one
systemctl enable mcserver mcserver@one
test -z "$(systemd-analyze verify --man=no mcserver.service mcserver@one.service 2>&1)"
ls /etc/systemd/system/multi-user.target.wants
"""
PURGED = """
dpkg --purge mcserver
rm /etc/default/mcserver-one
echo what is left:
find /etc /lib /usr/bin /usr/lib/systemd /usr/share/doc /usr/share/man /var/lib/dpkg /var/lib/systemd -name '*mcserver*' -o -lname '*mcserver*'
"""


def ran(words, **options):
    return subprocess.run(words, stdin=subprocess.DEVNULL, stdout=subprocess.PIPE, stderr=subprocess.STDOUT, text=True, timeout=SECONDS, **options)


def sum_of(path):
    with open(path, "rb") as made:
        return hashlib.sha256(made.read()).hexdigest()


def may_copy():
    """Whether this user may make a copy of the system that is gone with the process."""
    return shutil.which("unshare") and shutil.which("systemctl") and not ran(["unshare", "--mount", "true"]).returncode and os.geteuid() == 0


@unittest.skipUnless(shutil.which("dh"), "it wants debhelper")
class Package(ProgramCase):
    @classmethod
    def setUpClass(cls):
        super().setUpClass()
        cls.folder = tempfile.TemporaryDirectory()
        cls.addClassCleanup(cls.folder.cleanup)
        cls.made = cls.package_of(ROOT, f"{cls.folder.name}/made")

    @classmethod
    def package_of(cls, source, folder, **environment):
        words = ["make", "-s", "deb", f"PROGRAM={cls.program}", f"PACKAGES={folder}"]
        made = ran(words, cwd=source, env={**os.environ, "SOURCE_DATE_EPOCH": MOMENT, **environment})
        if made.returncode:
            raise AssertionError(made.stdout)
        return made.stdout.splitlines()[-1]

    def unpacked(self):
        folder = f"{self.folder.name}/unpacked"
        self.assertEqual(0, ran(["dpkg-deb", "-x", self.made, folder]).returncode)
        return folder

    def test_two_builds_are_the_same_bytes(self):
        """The other is made in another folder, of files with other moments, by a user who keeps files for himself, in another zone."""
        source = f"{self.folder.name}/source"
        for name in SOURCES:
            copy = shutil.copytree if os.path.isdir(f"{ROOT}/{name}") else shutil.copyfile
            os.makedirs(os.path.dirname(f"{source}/{name}"), exist_ok=True)
            copy(f"{ROOT}/{name}", f"{source}/{name}", **({"copy_function": shutil.copy} if copy is shutil.copytree else {}))
        umask = os.umask(0o077)
        try:
            other = self.package_of(source, f"{self.folder.name}/other", TZ="Asia/Tokyo", LC_ALL="C")
        finally:
            os.umask(umask)
        self.assertEqual(sum_of(self.made), sum_of(other))

    @unittest.skipUnless(shutil.which("lintian"), "it wants lintian")
    def test_lintian_has_nothing_to_say(self):
        said = ran(["lintian", "--allow-root", self.made])
        self.assertEqual((0, ""), (said.returncode, said.stdout))

    def test_documents_name_what_is_there(self):
        """Each path that an installed document names lies beside it, or in a folder that the document says is in the source."""
        folder = f"{self.unpacked()}/usr/share/doc/mcserver"
        ran(["sh", "-c", f"gunzip {folder}/*.gz"])
        there, seen = os.listdir(folder), 0
        self.assertTrue({"OPERATING.md", "CONTAINERS.md", "CLIENTS.md", "PROTOCOL.md", "SCALING.md", "alerts.yml", "dashboard.json"} <= {*there}, there)
        for name in there:
            with self.subTest(name), open(f"{folder}/{name}", encoding="utf-8") as text:
                page = text.read() if name.endswith(".md") or name == "changelog" else ""
                named = {*NAMED.findall(page)}
                seen += len(named)
                in_source = {it for it in named if f"`{it.split('/')[0]}/` is in the source." in page and os.path.exists(f"{ROOT}/{it}")}
                self.assertEqual([], sorted(named - {*there} - in_source))
        self.assertGreater(seen, 5)

    @unittest.skipUnless(may_copy(), "it wants root, unshare and systemd")
    def test_a_purge_leaves_nothing(self):
        """The service and one of its instances were enabled, and systemd has nothing to say of either."""
        with tempfile.TemporaryDirectory() as folder:
            script = f"{ENABLED}\necho and then\n{PURGED}"
            done = ran(["unshare", "--mount", "sh", "-c", IN_A_COPY, "sh", folder, self.made, script])
        self.assertEqual(0, done.returncode, done.stdout)
        enabled, purged = done.stdout.split("and then\n")
        self.assertRegex(enabled, r"(?:Created symlink .*\n){2}(?:.*\n)*mcserver\.service\nmcserver@one\.service\n")
        self.assertEqual("", purged.split("what is left:\n")[1])

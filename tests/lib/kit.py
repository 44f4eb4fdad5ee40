"""What the toolchain's command `rt` knows of the crates: their libraries, and what it keeps beside the toolchain.

`rt` is a Python program. This takes from it, by name: how it reads crates.txt, the check of a crate with other texts by which it tries
must-fail edits, and, if it keeps what `rt ci` proved, the sums and libraries of that. A toolchain that keeps nothing leaves the libraries
of `rt ci` in the crates' folders. With a toolchain that hasn't these names it stops.
"""
import contextlib
import hashlib
import importlib.machinery
import importlib.util
import inspect
import json
import os
import shutil
import signal
import subprocess
import sys
import tempfile
import threading

from tests.lib import bodies, rests, settings

NAMES = ["Crate", "checked", "crates_of", "handles_of", "must_fail", "rtlib"]
# The names of a toolchain that keeps what `rt ci` proved.
KEEPING = ["Kept", "STORE", "kit_sum", "own_sum", "work_for"]
# Its names for an edit that is refused: by a proof, and by a limit of the prover.
VERDICTS = ["REFUSED", "AT_LIMIT"]
PARTS = ("src", "specs", "proofs", "c")


class Stopped(Exception):
    """What is asked for can't be had; the text says why."""


class Late(Exception):
    """A check was killed, as it gave no verdict in time; the text says in which."""


def toolchain():
    """The command `rt` as a module."""
    path = shutil.which("rt")
    if not path:
        raise Stopped("there is no command rt: install the toolchain")
    loader = importlib.machinery.SourceFileLoader("rt", os.path.realpath(path))
    made = importlib.util.module_from_spec(importlib.util.spec_from_loader("rt", loader))
    loader.exec_module(made)
    made.keeps = hasattr(made, KEEPING[0])
    lacking = [it for it in NAMES + KEEPING * made.keeps if not hasattr(made, it)]
    if lacking:
        raise Stopped(f"this toolchain's rt has no {', '.join(lacking)}: tests/lib/kit.py was written for another")
    return made


def crates_of(root, rt=None):
    """The crates of a checkout as the toolchain reads them."""
    rt = rt or toolchain()
    try:
        rt.Crate.allowed = rt.handles_of(root)
        # the second folder is for what earlier runs left, and a checkout has none of it
        return rt.crates_of(*[root] * len(inspect.signature(rt.crates_of).parameters))
    except SystemExit:
        raise Stopped("rt can't read the crates, as it says above") from None


def link_or_copy(one, other):
    """Links a file of a library or of a proof, which `rt` replaces and doesn't write into, and copies any other."""
    if one.endswith(".oantt") or "/out/rlib/" in one:
        with contextlib.suppress(OSError):
            os.link(one, other)
            return
    shutil.copy2(one, other)


class Limit:
    """A limit of time for what `rt` starts.

    `rt` puts all that it starts into one process group, which a shell kills when this process ends. Inside `within` what a thread starts
    has a group and a shell of its own, and is killed when its time is over, too.
    """

    # Joins a group, or with 0 makes one, and becomes a command, for which the signals that Python ignores are as they were.
    JOIN = "import os, sys, signal as s; os.setpgid(0, {}); [s.signal(it, s.SIG_DFL) for it in (s.SIGPIPE, s.SIGXFSZ)]; os.execvp(sys.argv[1], sys.argv[1:])"

    def __init__(self, rtlib, seconds):
        self.seconds, self.own, self.guarded = seconds, threading.local(), rtlib.guarded
        # its first call wants the main thread
        self.guarded()
        rtlib.guarded = self.words

    def words(self):
        """The words before a command of `rt`."""
        group = getattr(self.own, "group", None)
        return self.join(group) if group else self.guarded()

    def join(self, group):
        return [sys.executable, "-ISc", self.JOIN.format(group)]

    @contextlib.contextmanager
    def within(self):
        """After the limit kills what this thread started by `rt`, and all that this started, and raises Late."""
        words, is_late, is_over = ["sh", "-c", "echo; read _; kill -9 0"], threading.Event(), threading.Event()
        with subprocess.Popen([*self.join(0), *words], stdin=subprocess.PIPE, stdout=subprocess.PIPE, stderr=subprocess.DEVNULL) as guard:
            # it has its group when it writes
            guard.stdout.readline()
            self.own.group = guard.pid
            watch = threading.Thread(target=self.watch, args=(guard.pid, is_late, is_over), daemon=True)
            watch.start()
            try:
                yield
            finally:
                self.own.group = None
                is_over.set()
                watch.join()
        if is_late.is_set():
            raise Late(f"gave no verdict in {self.seconds} s")

    def watch(self, group, is_late, is_over):
        if is_over.wait(self.seconds):
            return
        is_late.set()
        # again each second, as something may join the group still, or be tried once more
        while not is_over.is_set():
            with contextlib.suppress(ProcessLookupError):
                os.killpg(group, signal.SIGKILL)
            is_over.wait(1)


class Copy:
    """A copy of the crates' sources, with the libraries that crates are checked over."""

    def __init__(self, root, folder):
        self.root, self.folder, self.rt = root, folder, toolchain()
        for name in ("crates.txt", "HANDLES"):
            shutil.copy(f"{root}/{name}", folder)
        for crate in os.listdir(f"{root}/crates"):
            for part in PARTS:
                if os.path.isdir(f"{root}/crates/{crate}/{part}"):
                    shutil.copytree(f"{root}/crates/{crate}/{part}", f"{folder}/crates/{crate}/{part}")
        # `rt` takes the folder for the top of a repository
        os.mkdir(f"{folder}/.git")
        self.crates = {it.name: it for it in crates_of(folder, self.rt)}
        self.limit = Limit(self.rt.rtlib, settings.number("LIMIT"))
        self.sums = {}
        # whether the libraries are those that `rt ci` left, over which no check kept work
        self.has_left = False
        # the crates whose libraries `rt ci` kept and are here
        self.brought, self.kept = set(), None

    def lines(self, name):
        """How long a crate is."""
        crate = self.crates[name]
        return sum(self.rt.rtlib.text_of(it).count("\n") for it in self.rt.rtlib.files_of(crate.folder))

    def lines_read(self, name):
        """How many lines a check of a crate reads: its own and those of all crates below it."""
        return sum(self.lines(it.name) for it in [self.crates[name], *self.crates[name].below()])

    def bring_libraries(self, names, jobs, left=False):
        """Brings the libraries below these crates: those that `rt ci` kept, or `left` in the crates' folders, or else what `rt lib` builds."""
        wanted = self.below(names)
        if self.takes_kept(wanted) or left and self.takes_left(wanted):
            return
        self.brought.clear()
        for crate in wanted:
            shutil.rmtree(f"{crate.folder}/out", ignore_errors=True)
            built = f"{self.root}/crates/{crate.name}"
            ran = subprocess.run(["rt", "lib", "--jobs", str(jobs)], cwd=built, stdin=subprocess.DEVNULL, capture_output=True, text=True, errors="replace")
            if ran.returncode:
                raise Stopped(f"{crate.name} is not proved, and stands below what is judged: {ran.stdout[-600:]}{ran.stderr[-300:]}")
            shutil.copytree(f"{built}/out/rlib", f"{crate.folder}/out/rlib", copy_function=link_or_copy)
            if self.rt.rtlib.text_of(f"{crate.folder}/out/rlib/stamp") != crate.stamp():
                raise Stopped(f"{crate.name} changed while it was built: run this again")

    def below(self, names):
        """The crates below these, lowest first."""
        return [it for it in self.crates.values() if any(it in self.crates[name].below() for name in names)]

    def takes_kept(self, wanted):
        """Takes the libraries of crates, lowest first, that `rt ci` kept beside the toolchain, as far as it can. Returns whether all are there."""
        if self.rt.keeps and not self.kept:
            self.kept = self.rt.Kept(list(self.crates.values()))
        return self.rt.keeps and all([self.takes(it) for it in wanted])

    def takes(self, crate):
        """Takes what `rt ci` kept of a crate over the libraries that are here, and returns whether it is there."""
        if crate.name not in self.brought and all(it.name in self.brought for it in crate.below()) and self.kept.give(crate, False, self.kept.key(crate)):
            self.kept.is_built(crate)
            self.brought.add(crate.name)
        return crate.name in self.brought

    def takes_left(self, wanted):
        """Takes the libraries that `rt ci` left in the crates' folders, and returns whether all were there.

        They fit one another only, and `rt ci` doesn't stamp them; stamped ones are of other runs.
        """
        folders = [f"{self.root}/crates/{it.name}/out/rlib" for it in wanted]
        if not all(os.path.isdir(it) and os.listdir(it) and not os.path.exists(f"{it}/stamp") for it in folders):
            return False
        self.brought.clear()
        for crate, folder in zip(wanted, folders):
            shutil.rmtree(f"{crate.folder}/out", ignore_errors=True)
            shutil.copytree(folder, f"{crate.folder}/out/rlib", copy_function=link_or_copy)
        self.has_left = True
        return True

    def check(self, name, texts, flags, begin, keep):
        """Checks a crate with these texts in place of its own, and gives the status and the output. What it proves is kept in the folder `keep`,
        which begins with what the folder `begin` holds, if there is one. Raises Late if it gives no verdict in time."""
        self.begin_with(begin, keep)
        for path in texts:
            # `rt` makes no folder for a text that is new
            os.makedirs(os.path.dirname(f"{self.crates[name].folder}/{path}"), exist_ok=True)
        for _time in range(2):
            with self.limit.within():
                ran = self.rt.checked(self.crates[name], texts, flags, keep)
            # most likely for memory
            if ran.returncode != -signal.SIGKILL:
                break
        return ran.returncode, ran.stdout

    def begin_with(self, begin, keep):
        """Makes a folder for what a check keeps, with what another folder holds, if there is one."""
        if begin:
            with contextlib.suppress(OSError, shutil.Error):
                shutil.copytree(begin, keep, copy_function=link_or_copy, dirs_exist_ok=True)
        os.makedirs(keep, exist_ok=True)

    def tries_edit(self, name, edit, begin, keep):
        """Whether the toolchain's own rule finds an edit of must-fail/ refused, and what it says. Raises Late if it gives no verdict in time."""
        self.begin_with(begin, keep)
        with tempfile.TemporaryDirectory() as room, self.limit.within():
            file = f"{room}/{os.path.basename(edit.name)}.edit"
            with open(file, "wb") as it:
                it.write(edit.data)
            verdict, why = self.rt.must_fail(self.crates[name], file, ["--jobs", "1"], keep)
        # a toolchain that keeps what it proved has a word for each verdict, and one that doesn't says whether it is refused
        return verdict in (True, *(getattr(self.rt, it, True) for it in VERDICTS)), why

    def work(self, name):
        """The folder of what earlier checks of a crate kept, which a check may begin with, or None."""
        if self.rt.keeps:
            return self.rt.work_for(self.crates[name])
        kept = f"{self.root}/crates/{name}/out/incremental"
        return kept if not self.has_left and os.path.isdir(kept) and os.listdir(kept) else None

    def sum(self, name, kind, made):
        """A sum of a crate, which is made once."""
        if (name, kind) not in self.sums:
            self.sums[name, kind] = hashlib.sha256(repr(made(self.crates[name])).encode()).hexdigest()
        return self.sums[name, kind]

    def seen(self, name):
        """A sum of the toolchain and of what crates above see of a crate: its line of crates.txt, and its files without bodies and answers."""
        line = lambda it: (it.name, it.said, it.is_program, [low.name for low in it.deps], list(it.of_kit))
        return self.sum(name, "seen", lambda it: (self.rt.kit_sum(), self.rt.Crate.allowed, line(it), list(rests.seen(it.folder, PARTS))))

    def rests_on(self, name, sources, body):
        """A sum of all that a verdict on a wrong body rests on. With a toolchain that keeps nothing it rests on all files of its crate and of those below."""
        if not self.rt.keeps:
            return self.sum(name, "stamp", lambda it: it.stamp())
        spots = sources.spots(body) if body.changes else None
        own = self.sum(name, "own", self.rt.own_sum) if spots is None else list(rests.changed(sources, spots))
        return hashlib.sha256(repr((own, [self.seen(it) for it in [name, *(low.name for low in self.crates[name].below())]])).encode()).hexdigest()


class Results:
    """What was judged on this machine, by the sums of all that it rests on: beside what `rt ci` keeps, or in a cache if it keeps nothing."""

    def __init__(self, copy):
        cache = os.environ.get("XDG_CACHE_HOME") or os.path.expanduser("~/.cache")
        self.copy, self.folder = copy, f"{copy.rt.STORE if copy.rt.keeps else cache + '/mcserver'}/wrong"
        self.judge = [hashlib.sha256(inspect.getsource(it).encode()).hexdigest() for it in (bodies, rests)]

    def key(self, crate, body):
        return hashlib.sha256(repr((self.judge, self.copy.rests_on(crate.name, crate.sources, body), body.name, body.data)).encode()).hexdigest()

    def find(self, crate, body):
        """Why the body was refused, or None where it wasn't judged yet."""
        key = self.key(crate, body)
        with contextlib.suppress(OSError, ValueError, KeyError, TypeError):
            with open(f"{self.folder}/{key}", encoding="utf-8") as file:
                found = json.load(file)
            if found["key"] == key and isinstance(found["why"], str):
                return found["why"]
        return None

    def keep(self, crate, body, why):
        """Keeps why a body is refused."""
        key = self.key(crate, body)
        with contextlib.suppress(OSError):
            os.makedirs(self.folder, 0o700, exist_ok=True)
            with tempfile.NamedTemporaryFile("w", dir=self.folder, delete=False, encoding="utf-8") as file:
                json.dump({"key": key, "body": f"{crate.name}/{body.name}", "why": why}, file)
            os.replace(file.name, f"{self.folder}/{key}")


def is_much_to_prove(root):
    """Whether `rt ci` has to prove more than half of the crates, as it kept nothing of their files over the libraries below."""
    with tempfile.TemporaryDirectory(prefix="mcserver-kept-") as folder:
        copy = Copy(root, folder)
        copy.takes_kept(list(copy.crates.values()))
        return 2 * len(copy.brought) < len(copy.crates)

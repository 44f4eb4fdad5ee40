"""Runs the gate `rt ci`, judges the wrong bodies, looks at the documents, and tests the programs that were just built: `python3 -m tests.gate`

What doesn't need a quiet machine runs beside `rt ci`: the wrong bodies of a crate as soon as what it stands on is proved, and the tests of a
program as soon as it is built. The tests over sockets, which measure time, run alone at the end. A proof that fails ends what runs beside it,
and nothing else is begun.

All print as they go. At the end stands once more what failed, a line each, and the last line adds up what was counted: `N passed, N failed, N
skipped`. The status is 0 only where something passed in each stage, nothing failed and all ended well.

`rt ci` tries each edit of must-fail/ alone, which costs the proof of its crate. So the edits are set aside in out/must-fail/ while it runs, and
judged with the wrong bodies, by one check a crate.
"""
import contextlib
import os
import re
import shutil
import signal
import subprocess
import sys
import threading

from tests.lib import kit, settings

# Which tests run on which program, and what builds that. The first two need it alone, and so run beside the proofs of others.
BESIDE = [
    ("protocol", "mc_server", "build"),
    ("history", "mc_bench", "bench-build"),
]
BEHIND = [
    ("refusals", "mc_server", "build"),
    ("sockets", "mc_server", "build"),
]
ASIDE = "out/must-fail"
COUNTS = re.compile(rb"(\d+) passed, (\d+) failed(?:, (\d+) skipped)?")
# What a line says that `rt ci` or tests.wrong prints of a failure.
FAILURE = re.compile(rb"FAILED|NOT PROVED|\bfailed:")
# What `rt ci` says of a crate that is proved, and of one that isn't.
PROVED = re.compile(rb"rt: (\w+) (?:proved$|is kept: )")
NOT_PROVED = re.compile(rb"rt: \w+(?:: its tests are)? NOT PROVED")
# A stage is ended after so many seconds: proofs of everything on a slow machine, and the tests of a kind, take less.
LONGEST = 6 * 3600
# What the stages said of failures, for the end.
failures = []


def fails(stage, what):
    """Notes a failure for the end."""
    failures.append(f"{stage}: {what}"[:500])


class Stage:
    """A command that runs, beside others or alone. It shows what it prints as it comes."""

    def __init__(self, name, words, hears=lambda line: None, **how):
        self.name, self.hears, self.is_ended, self.last = name, hears, False, b""
        print(f"== {name}: {' '.join(words)}", flush=True)
        self.ran = subprocess.Popen(words, stdout=subprocess.PIPE, stderr=subprocess.STDOUT, **{"stdin": subprocess.DEVNULL, **how})
        self.reader = threading.Thread(target=self.read, daemon=True)
        self.reader.start()
        self.limit = threading.Timer(LONGEST, self.give_up)
        self.limit.daemon = True
        self.limit.start()

    def give_up(self):
        """Ends it, as it has no end, and says what it printed last."""
        fails(self.name, f"it has no end in {LONGEST} s; its last line is {self.last.decode(errors='replace')}")
        self.ran.terminate()
        with contextlib.suppress(subprocess.TimeoutExpired):
            self.ran.wait(60)
        self.ran.kill()

    def read(self):
        for line in self.ran.stdout:
            line = line.rstrip()
            if not COUNTS.fullmatch(line):
                sys.stdout.buffer.write(line + b"\n")
                sys.stdout.flush()
            if FAILURE.search(line) and not self.is_ended:
                fails(self.name, line.strip().decode(errors="replace"))
            self.last = line or self.last
            self.hears(line)

    def end(self):
        """Ends it before its time."""
        self.is_ended = True
        if self.ran.poll() is None:
            self.ran.terminate()

    def counts(self):
        """Waits for its end, and gives the counts of its last line."""
        self.reader.join()
        status, found = self.ran.wait(), COUNTS.fullmatch(self.last)
        self.limit.cancel()
        if self.is_ended:
            fails(self.name, "ended, as a proof failed")
            return 0, 1, 0
        passed, failed, skipped = map(int, found.groups("0")) if found else (0, 0, 0)
        print(f"== {self.name}: {passed} passed, {failed} failed, {skipped} skipped", flush=True)
        if status or not passed:
            fails(self.name, f"ended with status {status}, and its last line is {self.last.decode(errors='replace')}")
        # what fails without being counted, or runs nothing, is one failure
        return passed, failed or int(bool(status) or not passed), skipped


@contextlib.contextmanager
def edits_aside():
    """Sets the crates' folders must-fail/ aside for a while."""
    put_back()
    try:
        for crate in os.listdir("crates"):
            if os.path.isdir(f"crates/{crate}/must-fail"):
                os.makedirs(ASIDE, exist_ok=True)
                shutil.move(f"crates/{crate}/must-fail", f"{ASIDE}/{crate}")
        yield
    finally:
        put_back()


def put_back():
    """Puts back what was set aside, here or by a run that was killed."""
    for crate in os.listdir(ASIDE) if os.path.isdir(ASIDE) else []:
        if not os.path.exists(f"crates/{crate}/must-fail"):
            shutil.move(f"{ASIDE}/{crate}", f"crates/{crate}/must-fail")


def written(program):
    """When a program was written and which file it is; None where there is none."""
    try:
        found = os.stat(settings.built(program))
    except FileNotFoundError:
        return None
    return found.st_mtime_ns, found.st_ino


class Gate:
    """The stages, and which programs stood before."""

    def __init__(self):
        self.before = {program: written(program) for _, program, _ in BESIDE + BEHIND}
        self.stages, self.turn, self.is_red = [], threading.Lock(), False

    def start(self, name, words, **how):
        """Starts a stage, unless a proof failed."""
        with self.turn:
            if not self.is_red:
                stage = Stage(name, words, **how)
                self.stages.append(stage)
                return stage
        fails(name, "not begun, as a proof failed")
        return None

    def tests(self, kind):
        return self.start(kind, [sys.executable, "-m", "tests", kind])

    def hears(self, line):
        """Begins the tests of a program that `rt ci` has built, and ends all but `rt ci` if a proof failed."""
        if NOT_PROVED.match(line):
            self.turns_red()
        elif (found := PROVED.match(line)) and not self.is_red:
            for kind, program, _ in BESIDE:
                if program == found[1].decode() and self.stands(program) and kind not in [it.name for it in self.stages]:
                    self.tests(kind)

    def turns_red(self):
        """Ends what runs beside `rt ci`, and begins nothing else."""
        with self.turn:
            self.is_red = True
            for stage in self.stages:
                stage.end()

    def stands(self, program):
        """Whether the program was built since the gate began."""
        return written(program) not in (None, self.before[program])

    def proves(self):
        """Runs `rt ci` and, beside it, what may run beside it. Gives the counts of `rt ci`."""
        words = [sys.executable, "-m", "tests.wrong", "--left", "--edits", "--beside", ASIDE]
        with edits_aside():
            bodies = self.start("wrong bodies", words, stdin=subprocess.PIPE)
            proofs = Stage("gate", ["rt", "ci"], self.hears)
            try:
                counts = proofs.counts()
            finally:
                proofs.end()
        if not counts[0]:
            self.turns_red()
        with contextlib.suppress(BrokenPipeError):
            bodies.ran.stdin.write(b"proved\n" * (not self.is_red))
            bodies.ran.stdin.close()
        return counts

    def tries(self, kind, program, build):
        """Tests a program, and gives the counts."""
        begun = next((it for it in self.stages if it.name == kind), None)
        # The gate leaves the programs that it proved and ran, so nothing is proved a second time for these.
        if not begun and not self.is_red and not self.stands(program):
            print(f"== the gate left no {program}: make {build}", flush=True)
            if subprocess.run(["make", build]).returncode:
                fails(kind, f"no {program} to run on")
                return 0, 1, 0
        begun = begun or self.tests(kind)
        return begun.counts() if begun else (0, 1, 0)

    def run(self):
        """Runs all, and gives the counts of each stage."""
        documents = self.start("documents", [sys.executable, "docs/make.py", "--check"])
        counts = [documents.counts(), self.proves()]
        *others, sockets = BESIDE + BEHIND
        counts += [self.tries(*it) for it in others]
        bodies = next(it for it in self.stages if it.name == "wrong bodies")
        return [*counts, bodies.counts(), self.tries(*sockets)]

    def end(self):
        for it in self.stages:
            it.end()


def main():
    os.chdir(settings.ROOT)
    for name in settings.NAMES:
        os.environ.pop(name, None)
    if not shutil.which("rt"):
        print("there is no command rt: install the toolchain\n0 passed, 1 failed")
        return 1
    # as Ctrl-C does, so that what is set aside is put back
    signal.signal(signal.SIGTERM, lambda *_: sys.exit(143))
    put_back()
    if kit.is_much_to_prove(settings.ROOT):
        # else `rt ci` lets large checks wait for memory that they don't use; where little is to be proved, it gives a lone one more processors
        os.environ.setdefault("RT_JOBS", str(len(os.sched_getaffinity(0))))
    gate = Gate()
    try:
        passed, failed, skipped = map(sum, zip(*gate.run()))
    finally:
        gate.end()
    for line in failures:
        print(f"failed in {line}", flush=True)
    print(f"{passed} passed, {failed} failed, {skipped} skipped", flush=True)
    return 0 if passed and not failed else 1


if __name__ == "__main__":
    sys.exit(main())

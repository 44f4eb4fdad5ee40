#!/usr/bin/env python3
"""Proves the crates below the program, and then proves and builds the program: `tools/build.py [CRATE]`

`rt` works on one crate of a checkout at a time. So each processor has a checkout: this one and copies of the sources, which are removed
at the end. Each takes the crate whose libraries are proved and whose longest chain of crates above it has the most lines, and lends its
processors first to that chain. A proof in four jobs costs a third more than in one, so a crate has one job, and beyond it only processors
that no other crate waits for. What is proved lies in each crate's out/ here; a crate that is proved already takes a second.

It prints a line a crate with a guess at what is left, and at a failure what `rt` printed. The status is 0 if the program is built, 1 if a
crate isn't proved, 2 if there is no `rt`, 128 and the signal's number if a signal ends it. JOBS is the number of processors to use: all,
if it isn't set.
"""
import contextlib
import os
import shutil
import signal
import subprocess
import sys
import tempfile
import threading
import time

ROOT = os.path.dirname(os.path.dirname(os.path.realpath(__file__)))
sys.path[:0] = [ROOT]
from tests.lib import kit  # noqa: E402
PARTS = ("src", "specs", "proofs")
NO_RT = "there is no command rt, which make build and make try want: it is of the kit rattle-kit-13f, and README.md says how to get that"
# A program is compiled and linked as well: it costs twice what a library of its size does.
PROGRAM = 2
# Processor seconds a line of Rust, before a crate of this build tells better; and how many processors a single crate keeps busy: one while
# others are proved beside it, and nearly two alone.
A_LINE, AT_ONCE = 0.14, 1.3


def crates_of(root):
    """Returns the crates of crates.txt, each with those of its libraries that are crates of the repository."""
    with open(f"{root}/crates.txt", encoding="utf-8") as lines:
        named = [line.split("#")[0].split(":") for line in lines if ":" in line.split("#")[0]]
    uses = {name.split()[0]: words.split() for name, words in named}
    return {name: [it for it in words if it in uses] for name, words in uses.items()}


def below(crate, uses):
    """Returns the crates that a crate stands on, lowest first."""
    found = []
    for it in uses[crate]:
        found += [its for its in [*below(it, uses), it] if its not in found]
    return found


def lines_of(crate):
    """Returns a crate's lines of Rust, which its proof's time grows with; a program's count twice."""
    files = [f"{place}/{it}" for place, _, names in os.walk(f"{ROOT}/crates/{crate}/src") for it in names if it.endswith(".rt")]
    lines = 0
    for file in files:
        with open(file, "rb") as it:
            lines += sum(1 for _ in it)
    return lines * (PROGRAM if f"{ROOT}/crates/{crate}/src/main.rt" in files else 1)


def built_before():
    """Returns the crates whose libraries stand, by the toolchain's own stamps of their sources and of those below them; none if it has no such word."""
    try:
        return {it.name for it in kit.crates_of(ROOT) if it.is_built()}
    except (kit.Stopped, AttributeError, OSError):
        return set()


class Build:
    """The crates that wait, those that are being proved, and those that are proved."""

    def __init__(self, top, jobs):
        self.uses = crates_of(ROOT)
        self.top, self.jobs = top, jobs
        self.whole = [*below(top, self.uses), top]
        built = built_before() - {top}
        # The crates that are proved, and those that are to be.
        self.done = [it for it in self.whole if it in built]
        self.waiting = [it for it in self.whole[:-1] if it not in built]
        self.lines = {it: lines_of(it) for it in self.whole}
        self.chains = {it: self.chain_above(it) for it in self.whole}
        # The crates that are being proved, each with its jobs.
        self.at_work = {}
        self.lanes, self.started = [ROOT], []
        self.failed = self.ended = None
        # Lines and processor seconds of the crates that this build proved.
        self.proved = [0, 0.0]
        self.turn = threading.Condition()

    def chain_above(self, crate):
        """Returns the lines of the longest chain of crates from this one to the program."""
        return self.lines[crate] + max((self.chain_above(it) for it in self.whole if crate in self.uses[it]), default=0)

    def next_crate(self):
        """Waits for a crate whose libraries are proved, and takes the one with the longest chain, with its jobs; None if there is none left."""
        with self.turn:
            while self.waiting and not self.failed and not self.ended:
                ready = [it for it in self.waiting if all(low in self.done for low in self.uses[it])]
                if ready:
                    crate = max(ready, key=self.chains.get)
                    jobs = max(self.jobs - sum(self.at_work.values()) - len(ready) + 1, 1)
                    self.waiting.remove(crate)
                    self.at_work[crate] = jobs
                    return crate, jobs
                self.turn.wait(1)
        return None

    def run(self, words, lane, crate, **how):
        """Runs `rt` at a crate, and returns its status, what it printed, and the processor seconds that it took."""
        # Crates of longer chains go first: 5 steps of niceness for each of them that is being proved.
        nice = 5 * sum(self.chains[it] > self.chains[crate] for it in self.at_work)
        with tempfile.TemporaryFile() as said:
            with self.turn:
                if self.ended:
                    return 1, "", 0.0
                words = ["nice", "-n", str(min(nice, 15)), "rt", *words]
                ran = subprocess.Popen(words, cwd=f"{lane}/crates/{crate}", stdin=subprocess.DEVNULL, stdout=said, stderr=said, process_group=0, **how)
                self.started.append(ran)
            _, status, used = os.wait4(ran.pid, 0)
            ran.returncode = os.waitstatus_to_exitcode(status)
            said.seek(0)
            return ran.returncode, said.read().decode(errors="replace"), used.ru_utime + used.ru_stime

    def prove(self, lane):
        """Proves one crate after another in a checkout."""
        while taken := self.next_crate():
            (crate, jobs), began = taken, time.monotonic()
            status, said, used = self.run(["lib", "--jobs", str(jobs)], lane, crate)
            with self.turn:
                del self.at_work[crate]
                if status:
                    self.failed = self.failed or (crate, said)
                else:
                    self.hand_on(crate, lane)
                    self.done.append(crate)
                    self.note(crate, time.monotonic() - began, used)
                self.turn.notify_all()

    def hand_on(self, crate, lane):
        """Puts what was proved into the other checkouts: all of it here, and what crates above read into a copy."""
        for other in self.lanes:
            if other != lane:
                part = "out" if other == ROOT else "out/rlib"
                place = f"{other}/crates/{crate}/{part}"
                shutil.rmtree(place, ignore_errors=True)
                shutil.copytree(f"{lane}/crates/{crate}/{part}", place, symlinks=True, copy_function=linked)

    def note(self, crate, seconds, used):
        """Prints that a crate is proved, and how long the rest may take."""
        self.proved = [self.proved[0] + self.lines[crate], self.proved[1] + used]
        a_line = (self.proved[1] + 1000 * A_LINE) / (self.proved[0] + 1000)
        rest = [it for it in self.whole if it not in self.done]
        at_once = min(AT_ONCE, self.jobs)
        left = a_line * max(sum(map(self.lines.get, rest)) / self.jobs, max(map(self.chains.get, rest)) / at_once)
        place = f"{len(self.done):2} of {len(self.whole)}"
        print(f"[{place}] {crate:12} proved in {seconds:4.0f} s; about {left / 60:.0f} minutes are left", file=sys.stderr, flush=True)

    def prove_libraries(self):
        """Proves all below the program, in this checkout and in a copy for each further processor, four checkouts at most."""
        with contextlib.ExitStack() as held:
            for _ in range(min(self.jobs, 4, len(self.waiting)) - 1):
                self.lanes.append(copied(held.enter_context(tempfile.TemporaryDirectory(prefix="mcserver-build-"))))
            threads = [threading.Thread(target=self.prove, args=(lane,)) for lane in self.lanes]
            try:
                for it in threads:
                    it.start()
                for it in threads:
                    it.join()
            finally:
                self.end()
                for it in threads:
                    it.join()

    def end(self):
        """Ends all that was started."""
        with self.turn:
            self.ended = True
            for it in self.started:
                if it.returncode is None:
                    with contextlib.suppress(ProcessLookupError):
                        os.killpg(it.pid, signal.SIGTERM)
            self.turn.notify_all()


def linked(one, other):
    """Copies a file, by a link if possible: `rt` replaces what it proved, and writes into none of these files."""
    if one.endswith(".oantt") or "/out/rlib/" in one:
        with contextlib.suppress(OSError):
            os.link(one, other)
            return
    shutil.copy2(one, other)


def copied(place):
    """Makes a copy of the sources and of the libraries that are proved."""
    for name in ("crates.txt", "HANDLES"):
        shutil.copy(f"{ROOT}/{name}", place)
    for crate in os.listdir(f"{ROOT}/crates"):
        for part in (*PARTS, "out/rlib"):
            if os.path.isdir(f"{ROOT}/crates/{crate}/{part}"):
                shutil.copytree(f"{ROOT}/crates/{crate}/{part}", f"{place}/crates/{crate}/{part}", symlinks=True, copy_function=linked)
    return place


def main(words):
    top = words[0] if words else "mc_server"
    if not shutil.which("rt"):
        print(f"build.py: {NO_RT}", file=sys.stderr)
        return 2
    for number in (signal.SIGTERM, signal.SIGHUP):
        signal.signal(number, lambda number, _: sys.exit(128 + number))
    build = Build(top, int(os.environ.get("JOBS") or len(os.sched_getaffinity(0))))
    try:
        build.prove_libraries()
        build.ended = None
        if not build.failed:
            print(f"[{len(build.done):2} of {len(build.whole)}] {top:12} is being proved and built", file=sys.stderr, flush=True)
            status, said, _ = build.run(["run", "--jobs", str(build.jobs), "--", "--help"], ROOT, top)
            build.failed = (top, said) if status else None
    except KeyboardInterrupt:
        return 130
    finally:
        build.end()
    if build.failed:
        crate, said = build.failed
        print(f"{said}build.py: {crate} is not proved", file=sys.stderr)
    return 1 if build.failed else 0


if __name__ == "__main__":
    sys.exit(main(sys.argv[1:]))

"""Judges the wrong bodies of the crates: `python3 -m tests.wrong [CRATE..] [--only NAME] [--anew] [--left] [--edits] [--beside FOLDER]`

Each crate's wrong bodies (`crates/NAME/wrong/`) are planted at once in a copy of its sources, and one check must refuse each one's function for
a reason of its own (lib/bodies.py). Bodies that change the same function are planted in twins of it, and one that changes more than functions
of no trait has a check of its own. Each begins with the work of the one before. What was refused is kept beside the toolchain by the sums of all
that it rests on (lib/rests.py), and is not judged again; --anew judges all. --only judges one alone. --left takes the libraries that a run of `rt ci` over
the same sources has just left in the crates' folders, where the toolchain keeps none. --edits judges the edits of `crates/NAME/must-fail/`
too; one that isn't refused so is tried as `rt must-fail` tries it. With a crate's name each reason is printed. --beside is for a run beside
`rt ci` in the same folder: it judges the bodies of a crate once the libraries below it are kept, by half of the processors, until standard
input has a line, which says that all is proved; the edits lie in FOLDER meanwhile. The environment may name JOBS, how many checks run side by side: as many as there are processors, where it doesn't. It may name LIMIT, the seconds
after which a check is killed: 2400, where it doesn't. If that check was of several bodies each is then judged alone, and what gives no verdict
alone either has failed. The last line is `N passed, N failed`; the status is 0 where something passed and nothing failed.
"""
import argparse
import dataclasses
import glob
import os
import queue
import shutil
import signal
import sys
import tempfile
import threading
import time

from tests.lib import bodies
from tests.lib.kit import Copy, Late, Results, Stopped

ROOT = os.path.dirname(os.path.dirname(os.path.realpath(__file__)))


class Crate:
    """A crate whose wrong bodies are judged."""

    def __init__(self, name, copy):
        self.name, self.sources = name, bodies.Sources(copy.crates[name].folder)
        # the bodies that were refused, and why; those that weren't, and what is wrong
        self.refused, self.failed = {}, {}
        self.kept, self.seconds, self.checks = 0, 0.0, 0
        # how many checks are to come, and the bodies of those that wait for the work of another
        self.left, self.later = 0, []

    def read(self, folder, only):
        """The wrong bodies of a folder that can be planted."""
        found = []
        for file in sorted(os.listdir(folder)) if os.path.isdir(folder) else []:
            name = file.removesuffix(".edit")
            if only and name != only:
                continue
            try:
                if name == file:
                    raise bodies.Unplanted("the name of a wrong body ends in .edit")
                body = bodies.read(f"{folder}/{file}")
                self.sources.cuts(body)
                found.append(body)
            except bodies.Unplanted as error:
                self.failed[name] = str(error)
        return found

    def read_edits(self, folder, only):
        """The edits of must-fail/, whose names begin with its name. One that can't be planted beside others has no changes."""
        failed, self.failed = self.failed, {}
        found = self.read(folder, only)
        for name in self.failed:
            with open(f"{folder}/{name}.edit", "rb") as it:
                found.append(bodies.Body(name, "", (), it.read()))
        self.failed = failed
        return [dataclasses.replace(it, name=f"{os.path.basename(folder)}/{it.name}") for it in found]


class Run:
    """The checks of all crates, as many side by side as there are processors."""

    def __init__(self, copy, room, given):
        self.copy, self.room, self.given = copy, room, given
        self.results = Results(copy)
        self.tasks, self.turn, self.number = queue.PriorityQueue(), threading.Lock(), 0
        # the crates with something to say, and those whose checks wait for libraries, with their bodies
        self.crates, self.waiting = [], []
        # whether all is proved, and whether each crate has its libraries
        self.is_proved, self.is_fed = threading.Event(), threading.Event()

    def add(self, crate, found, begin):
        """Adds a check of bodies, which begins with what a folder holds. The longest come first, by what they read and how many follow."""
        with self.turn:
            self.number += 1
            crate.left += 1
            cost = self.copy.lines_read(crate.name) * (len(crate.later) + 1)
            self.tasks.put((-cost, self.number, crate, found, begin))

    def each(self):
        """How many processors a check may use: those that no other check wants, once all is proved."""
        with self.turn:
            return max(self.given.jobs // max(sum(it.left for it in self.crates), 1), 1) if self.is_proved.is_set() else 1

    def work(self, is_spare):
        """Judges what is to be judged. A spare thread waits until all is proved."""
        if is_spare:
            self.is_proved.wait()
        while True:
            try:
                _, number, crate, found, begin = self.tasks.get(timeout=0.2)
            except queue.Empty:
                with self.turn:
                    if self.is_fed.is_set() and not any(it.left for it in self.crates):
                        return
                continue
            began, keep = time.monotonic(), f"{self.room}/{crate.name}-{number}"
            try:
                self.judge(crate, found, begin, keep)
            except Exception as error:  # a fault of this program fails what it judges
                for body in found:
                    self.fail(crate, body, f"it couldn't be judged: {error!r}")
            with self.turn:
                after = crate.later.pop(0) if crate.later else None
            if after:
                self.add(crate, after, keep if os.path.isdir(keep) else begin)
            with self.turn:
                crate.left -= 1
                crate.checks += 1
                crate.seconds += time.monotonic() - began
                if not crate.left:
                    self.tell(crate)

    def judge(self, crate, found, begin, keep):
        """Judges bodies by one check. What it can't say of each goes into further checks."""
        if not found[0].changes:
            self.give_up(crate, found[0], "it can't be planted", begin)
            return
        texts, spots = crate.sources.planted(found)
        names = dict.fromkeys(f"{crate.name}::{name}" for it in spots.values() for name in (it.function, it.control) if name)
        flags = [word for it in names for word in ("--only", it)]
        try:
            status, output = self.copy.check(crate.name, texts, [*flags, "--jobs", str(self.each())], begin, keep)
        except Late as late:
            self.find_late(crate, found, str(late), keep)
            return
        said = bodies.verdicts(output, crate.name)
        if status in (0, 1, 3) and said and not bodies.unread(output):
            self.part(crate, found, spots, said, begin, keep)
        elif status not in (0, 1, 3) and begin and not bodies.lacks(output):
            # what was kept may have changed while it was copied
            self.add(crate, found, None)
        elif len(found) > 1:
            lost = bodies.culprits(output, found, crate)
            rest = [it for it in found if it not in lost]
            for part in [[it] for it in lost] + ([rest] if lost else halves(found)):
                if part:
                    self.add(crate, part, begin)
        else:
            self.give_up(crate, found[0], bodies.complaint(status, output), keep)

    def find_late(self, crate, found, why, keep):
        """Judges the bodies of a check that gave no verdict in time one by one, over what it proved; one that was alone fails."""
        if len(found) == 1:
            self.fail(crate, found[0], why)
            return
        for body in found:
            self.add(crate, [body], keep)

    def part(self, crate, found, spots, said, begin, keep):
        """Notes which bodies a check refuses. What isn't refused beside others is tried alone, and then from nothing."""
        for body in found:
            is_refused, why = bodies.reason(spots[body.name], crate.name, said)
            if is_refused:
                self.results.keep(crate, body, why)
                with self.turn:
                    crate.refused[body.name] = why
            elif is_refused is not None and (len(found) > 1 or begin and not is_edit(body)):
                self.add(crate, [body], keep if len(found) > 1 else None)
            else:
                self.give_up(crate, body, why, keep)

    def give_up(self, crate, body, why, begin):
        """Fails a wrong body, unless it is an edit of must-fail/ that the toolchain's own rule finds refused."""
        if is_edit(body):
            try:
                is_refused, why = self.copy.tries_edit(crate.name, body, begin, tempfile.mkdtemp(dir=self.room))
            except Late as late:
                is_refused, why = False, str(late)
            if is_refused:
                self.results.keep(crate, body, why)
                with self.turn:
                    crate.refused[body.name] = why
                return
        self.fail(crate, body, why)

    def fail(self, crate, body, why):
        with self.turn:
            crate.failed[body.name] = why

    def tell(self, crate):
        """Says what came of a crate."""
        for name, why in sorted(crate.refused.items() if self.given.crates else []):
            print(f"{crate.name}/{name}: refused: {why}", flush=True)
        for name, why in sorted(crate.failed.items()):
            print(f"{crate.name}/{name}: FAILED: {why}", flush=True)
        kept = f", {crate.kept} of them by an earlier run" if crate.kept else ""
        checks = f", in {crate.seconds:.0f} s ({crate.checks} check{'s' * (crate.checks != 1)})" if crate.checks else ""
        print(f"{crate.name}: {len(crate.refused)} wrong bodies refused{kept}, {len(crate.failed)} failed{checks}", flush=True)
        for folder in glob.glob(f"{glob.escape(self.room)}/{crate.name}-*"):
            shutil.rmtree(folder, ignore_errors=True)

    def begin(self, names):
        """Reads the wrong bodies of these crates, and finds those that weren't judged."""
        for name in names:
            crate = Crate(name, self.copy)
            found = crate.read(f"{self.copy.root}/crates/{name}/wrong", self.given.only)
            if self.given.edits:
                beside = f"{self.copy.root}/{self.given.beside}/{name}"
                found += crate.read_edits(beside if self.given.beside else f"{self.copy.root}/crates/{name}/must-fail", self.given.only)
            for body in [] if self.given.anew or self.given.only else found:
                why = self.results.find(crate, body)
                if why is not None:
                    crate.refused[body.name] = why
            crate.kept = len(crate.refused)
            found = [it for it in found if it.name not in crate.refused]
            if found or crate.refused or crate.failed:
                self.crates.append(crate)
            if found:
                self.waiting.append((crate, found))
            elif crate in self.crates:
                self.tell(crate)

    def feed(self):
        """Adds the checks of each crate once the libraries below it are there."""
        while self.waiting and not self.is_proved.wait(5):
            self.copy.takes_kept(self.copy.below([crate.name for crate, _ in self.waiting]))
            self.add_all([it for it in self.waiting if all(low.name in self.copy.brought for low in self.copy.below([it[0].name]))])
        names = [crate.name for crate, _ in self.waiting]
        if not self.copy.takes_kept(self.copy.below(names)):
            # libraries that are built take the place of those over which checks run
            while any(it.left for it in self.crates):
                time.sleep(1)
            self.copy.bring_libraries(names, self.given.jobs, self.given.left)
        self.add_all(list(self.waiting))
        self.is_fed.set()

    def add_all(self, wanted):
        """Adds the checks of crates."""
        for crate, found in wanted:
            self.waiting.remove((crate, found))
            first, *crate.later = crate.sources.rounds(found)
            self.add(crate, first, self.copy.work(crate.name))

    def hear(self):
        """Waits for the line that says that all is proved. Without one it ends the run."""
        if sys.stdin.readline().strip():
            self.is_proved.set()
        else:
            os.kill(os.getpid(), signal.SIGTERM)


def is_edit(body):
    return "/" in body.name


def halves(found):
    middle = len(found) // 2
    return [found[:middle], found[middle:]]


def main(words, root=ROOT):
    parser = argparse.ArgumentParser(prog="python3 -m tests.wrong", description=__doc__, formatter_class=argparse.RawDescriptionHelpFormatter)
    parser.add_argument("crates", nargs="*", metavar="CRATE")
    parser.add_argument("--only", metavar="NAME")
    parser.add_argument("--anew", action="store_true")
    parser.add_argument("--left", action="store_true")
    parser.add_argument("--edits", action="store_true")
    parser.add_argument("--beside", metavar="FOLDER")
    given = parser.parse_args(words)
    if threading.current_thread() is threading.main_thread():
        # as Ctrl-C does, so that no folder stays
        signal.signal(signal.SIGTERM, lambda *_: sys.exit(143))
    given.jobs = int(os.environ.get("JOBS") or len(os.sched_getaffinity(0)))
    with tempfile.TemporaryDirectory(prefix="mcserver-wrong-") as room:
        os.mkdir(f"{room}/repository")
        try:
            copy = Copy(root, f"{room}/repository")
            lacking = [it for it in given.crates if it not in copy.crates]
            if lacking:
                raise Stopped(f"{lacking[0]} is no crate of crates.txt")
            run = Run(copy, room, given)
            if given.beside:
                os.nice(10)
                threading.Thread(target=run.hear, daemon=True).start()
            else:
                run.is_proved.set()
            run.begin(given.crates or list(copy.crates))
            threads = [threading.Thread(target=run.work, args=(2 * it >= max(given.jobs, 2),), daemon=True) for it in range(given.jobs)]
            for it in threads:
                it.start()
            run.feed()
        except Stopped as error:
            print(f"wrong bodies: {error}\n0 passed, 1 failed", flush=True)
            return 1
        for it in threads:
            it.join()
    passed, failed = (sum(len(getattr(it, kind)) for it in run.crates) for kind in ("refused", "failed"))
    if not passed and not failed:
        print("no wrong body has this name, or none is there", flush=True)
    print(f"{passed} passed, {failed} failed", flush=True)
    return 0 if passed and not failed else 1


if __name__ == "__main__":
    sys.exit(main(sys.argv[1:]))
